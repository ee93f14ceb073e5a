#!/usr/bin/env python3
"""Counts the notes that the workers of a product send.

    notes.py [--sdmp PROGRAM] [--size small|medium|large]

A worker sends each term of its part of a product as a note, and the end. How
many terms a part has is found out by multiplying it, in a session of its own:
worker w of W has the terms of the first factor at the places i with i mod W = w.
`share` is the number of notes over that of term products.
"""
import argparse
import os
import re
import subprocess
import sys
import tempfile

import program
from workloads import FOUR_PRODUCTS, write_folder

WORKERS = 1, 2, 4


def answer(sdmp, session):
    return subprocess.run([sdmp], input=session.encode(), stdout=subprocess.PIPE, check=True).stdout.decode()


def terms(text):
    """The terms of a polynomial's canonical text."""
    return re.findall(r'[+-]?[^+-]+', text.strip())


def notes(sdmp, session, workers):
    """How many notes the workers of the session's product send."""
    head, first, second = re.fullmatch(r'(.*\n)a = (.*)\nb = (.*)\nmul a b\n', session, re.S).groups()
    rows = terms(answer(sdmp, head + 'a = %s\nshow a\n' % first))
    count = 0
    for worker in range(workers):
        part = ''.join(rows[worker::workers])
        count += 1 + len(terms(answer(sdmp, head + 'a = %s\nb = %s\nmul a b\n' % (part, second))))
    return count


def main():
    parser = argparse.ArgumentParser(usage=__doc__)
    parser.add_argument('--sdmp', default=program.SDMP)
    parser.add_argument('--size', choices=list(FOUR_PRODUCTS), default='medium')
    words = parser.parse_args()
    print('| product | Mproducts |' + ''.join(' share of notes by %d |' % workers for workers in WORKERS))
    print('|' + '---|' * (2 + len(WORKERS)))
    with tempfile.TemporaryDirectory() as folder:
        rows = write_folder(folder, words.size)
        for name in FOUR_PRODUCTS[words.size]:
            with open(os.path.join(folder, name + '.sdmp')) as file:
                session = file.read()
            shares = (notes(words.sdmp, session, workers) / rows[name]['products'] for workers in WORKERS)
            print('| %s | %.3f |' % (name, rows[name]['products'] / 1e6) + ''.join(' %.4f |' % share for share in shares), flush=True)
    return 0


if __name__ == '__main__':
    sys.exit(main())
