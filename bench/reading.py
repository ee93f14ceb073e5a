#!/usr/bin/env python3
"""Measures how fast a long polynomial is read, sorted and shown.

    reading.py [--sdmp PROGRAM] [--terms N] [--runs N] [--folder FOLDER]

The session shows one polynomial of N random terms in four variables (2,140,000,
which are about 62 MB), given in no order. sdmp and bench/flint_peer answer it in
turns, N times each (5), and the least time counts. Outputs are compared byte
for byte. A term takes 32 bytes; the peak of the memory is told in multiples of
what the terms take.

Exit status: 0, or 1 where outputs differ or a run fails.
"""
import argparse
import math
import os
import sys
import tempfile

import program
import turns
import workloads


def write_session(path, terms):
    draw = workloads.Draw(18)
    f = workloads.random_terms(draw, terms, 4, 256, 10**6)
    with open(path, 'w') as session:
        session.write('vars x y z t\nring Z\na = %s\nshow a\n' % workloads.as_given(f, workloads.FOUR))
    return len(f)


def main():
    parser = argparse.ArgumentParser(description=__doc__.split('\n')[0])
    parser.add_argument('--sdmp', default=program.SDMP)
    parser.add_argument('--terms', type=int, default=2_140_000)
    parser.add_argument('--runs', type=int, default=5)
    parser.add_argument('--folder')
    words = parser.parse_args()
    with tempfile.TemporaryDirectory() as scratch:
        session = os.path.join(words.folder or scratch, 'reading%d.sdmp' % words.terms)
        terms = words.terms if os.path.exists(session) else turns.apart(write_session, session, words.terms)
        size = os.path.getsize(session)
        programs = {'sdmp': [os.path.abspath(words.sdmp)]}
        peer = program.flint_peer(scratch)
        if peer:
            programs['FLINT'] = [peer]
        least = {name: [math.inf, math.inf, 0] for name in programs}
        failed = False
        for turn in range(words.runs):
            for name in list(programs) if turn % 2 == 0 else list(programs)[::-1]:
                wall, used, memory, status = turns.run(programs[name], session)
                failed = failed or status != 0
                least[name] = [min(least[name][0], wall), min(least[name][1], used), max(least[name][2], memory)]
        print('%d bytes, %d terms, which take %.0f MiB' % (size, terms, terms * 32 / 2**20))
        print('| | Seconds | of the processor | MB/s | Peak memory |')
        print('|---|---|---|---|---|')
        for name, (wall, used, memory) in least.items():
            print('| %s | %.2f | %.2f | %.0f | %.0f MiB, %.1f times the terms |' % (
                name, wall, used, size / 1e6 / wall, memory, memory * 2**20 / (terms * 32)))
        same = turns.agree(programs.values(), session)
        if failed or not same:
            print('FAULT: the outputs differ or a run failed')
            return 1
    return 0


if __name__ == '__main__':
    sys.exit(main())
