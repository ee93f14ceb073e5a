#!/usr/bin/env python3
"""Measures what one worker costs over one merge of the rows, in one process.

    one_worker.py [--program PROGRAM] [--runs N] [--size small|medium|large]

The program of the crate thread_bench makes each product by one merge of its
rows, and by one worker with a ring of 1024 places, five times each in turn. It
is run N times (3), and the least times count. Where no PROGRAM is given, that of
the crate is proved and built first.

Exit status: 0, or 1 where a run failed.
"""
import argparse
import os
import re
import subprocess
import sys
import tempfile

import program
from workloads import SIZES, write_folder


def times(bench, path):
    """The nanoseconds by one merge and by one worker, or None where the run failed."""
    with open(path, 'rb') as source:
        done = subprocess.run([bench, 'merge'], stdin=source, stdout=subprocess.PIPE, stderr=subprocess.PIPE, text=True)
    found = re.fullmatch(r'merge (\d+) ns, worker (\d+) ns\n', done.stderr)
    if done.returncode != 0 or not found:
        return None
    return int(found.group(1)), int(found.group(2))


def main():
    parser = argparse.ArgumentParser(usage=__doc__)
    parser.add_argument('--program')
    parser.add_argument('--runs', type=int, default=3)
    parser.add_argument('--size', choices=SIZES, default='medium')
    words = parser.parse_args()
    bench = os.path.abspath(words.program) if words.program else program.of_crate('thread_bench', ['merge'])
    with tempfile.TemporaryDirectory() as folder:
        rows = write_folder(folder, words.size)
        print('| product | Mproducts | one merge s | one worker s | ratio |')
        print('|' + '---|' * 5)
        for row in rows.values():
            name = row['name']
            path = os.path.join(folder, name + '.sdmp')
            with open(path) as file:
                is_measured = row['command'] == 'mul' and row['commands'] == 1 and file.readlines()[1] == 'ring Z\n'
            if not is_measured:
                continue
            found = [times(bench, path) for _ in range(words.runs)]
            if None in found:
                print('a run of %s failed' % name)
                return 1
            merge, worker = (min(t[i] for t in found) / 1e9 for i in (0, 1))
            print('| %s | %.3f | %.3f | %.3f | %.2f |' % (name, row['products'] / 1e6, merge, worker, worker / merge), flush=True)
    return 0


if __name__ == '__main__':
    sys.exit(main())
