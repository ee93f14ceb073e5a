#!/usr/bin/env python3
"""Multiplies and divides with random workers and places, under load.

    random_runs.py [--sdmp PROGRAM] [--runs N] [--seed S] [--beside N]

Three sessions: (1+x+y+z+t)^12 times itself plus 1; that product divided by the
power again; and the product plus 1 divided by the power with remainder. Their
answers are computed here by plain dictionaries. Each is run N times (1000),
each time with a random number of workers and of places, the logarithm of which
is drawn evenly, so many runs beside each other (8) that the processors are
short. Each run has to write the same bytes.

Exit status: 0, or 1 where a run wrote something else.
"""
import argparse
import concurrent.futures
import random
import subprocess
import sys

from shared import program, workloads
from workloads import FOUR, unit


def sessions():
    """Each session with the bytes that it has to write."""
    a = workloads.power(12, [(1, unit(i, 4)) for i in range(4)], 4)
    b = dict(a)
    b[(0, 0, 0, 0)] += 1
    first, second = workloads.canonical(a, FOUR), workloads.canonical(b, FOUR)
    both = workloads.times(a, b, 0)
    product = workloads.canonical(both, FOUR)
    both[(0, 0, 0, 0)] += 1
    more = workloads.canonical(both, FOUR)
    head = 'vars x y z t\nring Z\na = %s\n' % first
    return [
        ((head + 'b = %s\nmul a b\n' % second).encode(), (product + '\n').encode()),
        ((head + 'c = %s\ndiv c a\n' % product).encode(), (second + '\n').encode()),
        ((head + 'c = %s\nrem c a\n' % more).encode(), (second + '\n1\n').encode()),
    ]


def is_right(sdmp, session, answer, workers, places):
    words = [sdmp, '--workers', str(workers), '--places=%d' % places]
    done = subprocess.run(words, input=session, stdout=subprocess.PIPE, stderr=subprocess.PIPE)
    return done.returncode == 0 and done.stdout == answer and not done.stderr


def main():
    parser = argparse.ArgumentParser(description=__doc__.split('\n')[0])
    parser.add_argument('--sdmp', default=program.SDMP)
    parser.add_argument('--runs', type=int, default=1000)
    parser.add_argument('--seed', type=int, default=1)
    parser.add_argument('--beside', type=int, default=8)
    words = parser.parse_args()
    draw = random.Random(words.seed)
    wrong = made = 0
    with concurrent.futures.ThreadPoolExecutor(words.beside) as pool:
        for session, answer in sessions():
            settings = [(draw.randint(1, 64), int(2 ** draw.uniform(1, 16))) for _ in range(words.runs)]
            asked = [(pool.submit(is_right, words.sdmp, session, answer, *s), s) for s in settings]
            for result, (workers, places) in asked:
                made += 1
                if not result.result():
                    wrong += 1
                    print('%d workers, %d places: another answer' % (workers, places))
    print('%d runs, %d wrong' % (made, wrong))
    return 1 if wrong else 0


if __name__ == '__main__':
    sys.exit(main())
