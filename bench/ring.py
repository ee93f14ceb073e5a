#!/usr/bin/env python3
"""Measures how many notes a second pass through a ring between two threads.

    ring.py [--program PROGRAM] [--side N] [--runs N] [--places P,..]

The program of the crate thread_bench sends the N*N terms of a product of two
polynomials of N terms (1,000), and the end, through a ring of P places (2, 64,
1024 and 65536), from one thread to another, each of which yields where it finds
the ring full or empty. Each number of places is measured N times (7), in turns,
and the greatest rate and the median are printed. Where no PROGRAM is given, that
of the crate is proved and built first.

Exit status: 0, or 1 where a note was lost or a run failed.
"""
import argparse
import os
import re
import statistics
import subprocess
import sys
import tempfile

import program


def write_session(path, side):
    """All products of a power of x and a power of y are different."""
    with open(path, 'w') as session:
        session.write('vars x y z t\nring Z\n')
        for name, variable in ('a', 'x'), ('b', 'y'):
            session.write('%s = %s\n' % (name, '+'.join('%s^%d' % (variable, i) for i in range(side, 0, -1))))


def rate(ring, session, places, notes):
    """Notes a second of one run, or None where it failed or lost a note."""
    with open(session, 'rb') as source:
        done = subprocess.run([ring, 'ring', str(places)], stdin=source, stdout=subprocess.PIPE, stderr=subprocess.PIPE, text=True)
    found = re.fullmatch(r'(\d+) notes a second\n', done.stderr)
    if done.returncode != 0 or not found or done.stdout != '%d notes sent, %d taken\n' % (notes, notes):
        return None
    return int(found.group(1))


def main():
    parser = argparse.ArgumentParser(usage=__doc__)
    parser.add_argument('--program')
    parser.add_argument('--side', type=int, default=1000)
    parser.add_argument('--runs', type=int, default=7)
    parser.add_argument('--places', default='2,64,1024,65536')
    words = parser.parse_args()
    ring = os.path.abspath(words.program) if words.program else program.of_crate('thread_bench', ['ring', '64'])
    rates = {int(places): [] for places in words.places.split(',')}
    with tempfile.TemporaryDirectory() as folder:
        session = os.path.join(folder, 'ring.sdmp')
        write_session(session, words.side)
        for _ in range(words.runs):
            for places, found in rates.items():
                found.append(rate(ring, session, places, words.side**2 + 1))
                if found[-1] is None:
                    print('a run at %d places failed' % places)
                    return 1
    print('| Places | notes a second, best of %d | median |' % words.runs)
    print('|---|---|---|')
    for places, found in rates.items():
        print('| %d | %.2f million | %.2f million |' % (places, max(found) / 1e6, statistics.median(found) / 1e6))
    return 0


if __name__ == '__main__':
    sys.exit(main())
