#!/usr/bin/env python3
"""Measures how time and memory of a product grow with its size, beside FLINT.

    growth.py [--program PROGRAM] [--least N] [--most N] [--runs N] [--only WORD] [--memory MIB]

Three kinds of products, of about N products of terms each, from 10^3 to 10^8:

    dense      f*(f+1) with f = (1+x+y+z+t)^k
    sparse     random terms in five variables, exponents below 12
    scattered  random terms in four variables, exponents below 256, where
               nearly every product of terms is a term of the answer

Each is answered by one and by four workers, and by FLINT's heap method with one
and with four threads, in turns, N times each (3; once above 3*10^7), and the
least wall time of the whole run counts, from the text to the text. The peak of
memory is that of a run of its own, by peak.c, which needs gcc. A product whose
answer would take more than MIB (12000) by the program's 32 bytes a term and 20
of text is left out. Outputs are compared byte for byte.

What is printed is a section of docs/BENCHMARKS.md, from which pictures.py draws.

Exit status: 0, or 1 where outputs differ or a run fails.
"""
import argparse
import os
import subprocess
import sys
import tempfile
from math import comb, isqrt, log

import program
import turns
import workloads

SIZES = [1000, 3162, 10000, 31623, 100000, 316228, 1000000, 3162278, 10000000, 31622777, 100000000]
WORKERS = 1, 4
# above so many products of terms one run has to do
LONG = 3 * 10 ** 7
BYTES_A_TERM = 52
HEAD = '''## Time and memory against size

%s

![Seconds and memory of three kinds of products by 1 and 4 workers, beside FLINT](growth.svg)

The least time of a whole run, from the text of the session to the text of the answer, and its peak of memory; FLINT's heap method beside.'''


def dense(size):
    k = min(range(2, 40), key=lambda k: abs(log(comb(k + 4, 4) ** 2 / size)))
    f = workloads.power(k, [(1, workloads.unit(i, 4)) for i in range(4)], 4)
    g = dict(f)
    g[0, 0, 0, 0] += 1
    return workloads.FOUR, f, g, comb(2 * k + 4, 4)


def random(size, variables, top, seed):
    draw = workloads.Draw(seed)
    f, g = (workloads.random_terms(draw, isqrt(size - 1) + 1, variables, top, 1000) for _ in range(2))
    return f, g, min(len(f) * len(g), (2 * top - 1) ** variables)


def sparse(size):
    f, g, most = random(size, 5, 12, 21)
    return workloads.FIVE, f, g, most


def scattered(size):
    f, g, most = random(size, 4, 256, 22)
    return workloads.FOUR, f, g, most


KINDS = {'dense': dense, 'sparse': sparse, 'scattered': scattered}


def write_session(folder, kind, size):
    """Writes the session; its path, the products of terms, and the greatest number of terms of the answer."""
    names, f, g, most = KINDS[kind](size)
    workloads.Folder(folder).mul(kind, names, f, g, text=workloads.as_given)
    return os.path.join(folder, kind + '.sdmp'), len(f) * len(g), most


def peak_runner(folder):
    path = os.path.join(folder, 'peak')
    subprocess.run(['gcc', '-O2', '-o', path, os.path.join(program.HERE, 'peak.c')], check=True)
    return path


def peak(runner, command, session):
    """The peak of memory in MiB."""
    with open(session, 'rb') as source:
        done = subprocess.run([runner, *command], stdin=source, stdout=subprocess.DEVNULL, stderr=subprocess.PIPE, check=True)
    return int(done.stderr.split()[-1]) / 1024


def measure(commands, runner, session, runs):
    """The seconds and MiB of each command, or None where outputs differ."""
    if not turns.agree(commands.values(), session):
        return None
    least = dict.fromkeys(commands, float('inf'))
    for turn in range(runs):
        for name in list(commands) if turn % 2 == 0 else list(commands)[::-1]:
            least[name] = min(least[name], turns.run(commands[name], session).wall)
    return {name: (least[name], peak(runner, command, session)) for name, command in commands.items()}


def table(kind, commands, rows):
    print('\n### A %s product\n' % kind)
    print('| products of terms |' + ''.join(' %s s | %s MiB |' % (name, name) for name in commands))
    print('|' + '---|' * (1 + 2 * len(commands)))
    for products, found in rows:
        print('| %d |' % products + ''.join(' %.4f | %.1f |' % found[name] for name in commands), flush=True)


def main():
    parser = argparse.ArgumentParser(usage=__doc__)
    parser.add_argument('--program', default=program.SDMP)
    parser.add_argument('--least', type=int, default=SIZES[0])
    parser.add_argument('--most', type=int, default=SIZES[-1])
    parser.add_argument('--runs', type=int, default=3)
    parser.add_argument('--only', default='')
    parser.add_argument('--memory', type=float, default=12000)
    words = parser.parse_args()
    faults = []
    with tempfile.TemporaryDirectory() as folder:
        runner, peer = peak_runner(folder), program.flint_peer(folder)
        commands = {'sdmp by %d' % w: [os.path.abspath(words.program), '--workers', str(w)] for w in WORKERS}
        if peer:
            commands.update({'FLINT by %d' % w: [peer, '--heap', '--workers', str(w)] for w in WORKERS})
        print(HEAD % program.measured_on())
        for kind in KINDS:
            rows = []
            for size in SIZES:
                if words.only not in kind or not words.least <= size <= words.most:
                    continue
                session, products, most = turns.apart(write_session, folder, kind, size)
                if most * BYTES_A_TERM / 2 ** 20 > words.memory:
                    print('%s of %d is left out: its answer takes too much memory' % (kind, products), file=sys.stderr)
                    continue
                print('measuring %s of %d' % (kind, products), file=sys.stderr, flush=True)
                found = measure(commands, runner, session, 1 if products > LONG else words.runs)
                if found:
                    rows.append((products, found))
                else:
                    faults.append('%s of %d' % (kind, products))
            if rows:
                table(kind, commands, rows)
    for fault in faults:
        print('\nFAULT: %s: the outputs differ or a run failed' % fault)
    return 1 if faults else 0


if __name__ == '__main__':
    sys.exit(main())
