#!/usr/bin/env python3
"""Measures what workers cost a division over the calling thread, in one process.

    division.py [--program PROGRAM] [--runs N] [--size small|medium|large]
                [--workers W,..] [--places P]

The program of the crate thread_bench makes each division on the calling thread
and by W workers (1, 2 and 4) with rings and rows of P places (1024), five times
each in turn. It is run N times (3), and the least times count. Where no PROGRAM
is given, that of the crate is proved and built first.

Beside the divisions of workloads.py it makes some that are hard for workers: a
quotient of one term, a chain of quotient terms each of which needs the one
before it, a divisor of two terms by 64 workers, and a long chain with 2 places.

Exit status: 0, or 1 where a run failed.
"""
import argparse
import os
import re
import subprocess
import sys
import tempfile

import program
from workloads import DIVISIONS, FOUR, Draw, canonical, random_terms, write_folder

MODES = {'div': 'exact', 'rem': 'remainder'}


def hard_ones():
    """Name, mode, variables, dividend, divisor, workers and places of each."""
    f = random_terms(Draw(20), 20000, 4, 64, 1000)
    scaled = {(a + 1, b, c, d): k for (a, b, c, d), k in f.items()}
    yield 'one row', 'exact', FOUR, canonical(scaled, FOUR), 'x', 4, 1024
    yield 'quotient of one term', 'exact', FOUR, canonical(f, FOUR), canonical(f, FOUR), 4, 1024
    yield 'chain of 100000 terms', 'exact', 'x', 'x^100000-1', 'x-1', 4, 1024
    yield 'the same, 2 places', 'exact', 'x', 'x^100000-1', 'x-1', 4, 2
    yield 'the same, 64 workers', 'exact', 'x', 'x^100000-1', 'x-1', 64, 1024
    yield 'chain over 64 rows', 'remainder', 'x', 'x^30000', '+'.join('x^%d' % k for k in range(64, 0, -1)) + '+1', 4, 1024
    yield 'the same, 64 workers, 2 places', 'remainder', 'x', 'x^30000', '+'.join('x^%d' % k for k in range(64, 0, -1)) + '+1', 64, 2


def times(bench, mode, workers, places, session):
    """The nanoseconds on the calling thread and by workers, and the rounds; or None where the run failed."""
    done = subprocess.run([bench, mode, str(workers), str(places)], input=session, stdout=subprocess.PIPE, stderr=subprocess.PIPE)
    found = re.fullmatch(rb'alone (\d+) ns, workers (\d+) ns, (\d+) rounds\n', done.stderr)
    if done.returncode != 0 or not found:
        return None
    return tuple(int(n) for n in found.groups())


def measured(name, workers, places, found):
    alone, threaded = (min(t[i] for t in found) / 1e9 for i in (0, 1))
    rounds = max(t[2] for t in found)
    print('| %s | %d | %d | %.4f | %.4f | %.2f | %d |' % (name, workers, places, alone, threaded, threaded / alone, rounds), flush=True)


def main():
    parser = argparse.ArgumentParser(usage=__doc__)
    parser.add_argument('--program')
    parser.add_argument('--runs', type=int, default=3)
    parser.add_argument('--size', choices=DIVISIONS, default='medium')
    parser.add_argument('--workers', default='1,2,4')
    parser.add_argument('--places', type=int, default=1024)
    words = parser.parse_args()
    bench = os.path.abspath(words.program) if words.program else program.of_crate('thread_bench', ['merge'])
    plans = []
    with tempfile.TemporaryDirectory() as folder:
        rows = write_folder(folder, words.size)
        for name in DIVISIONS[words.size]:
            with open(os.path.join(folder, name + '.sdmp'), 'rb') as file:
                session = file.read()
            for workers in words.workers.split(','):
                plans.append((name, MODES[rows[name]['command']], int(workers), words.places, session))
    for name, mode, names, f, g, workers, places in hard_ones():
        session = 'vars %s\nring Z\na = %s\nb = %s\n' % (' '.join(names), f, g)
        plans.append((name, mode, workers, places, session.encode()))
    print('| division | workers | places | alone s | workers s | ratio | rounds |')
    print('|' + '---|' * 7)
    for name, mode, workers, places, session in plans:
        found = [times(bench, mode, workers, places, session) for _ in range(words.runs)]
        if None in found:
            print('a run of %s failed' % name)
            return 1
        measured(name, workers, places, found)
    return 0


if __name__ == '__main__':
    sys.exit(main())
