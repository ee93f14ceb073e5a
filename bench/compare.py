#!/usr/bin/env python3
"""Measures sdmp and FLINT side by side, in one run.

    compare.py [--sdmp PROGRAM] [--size small|medium|large] [--runs N]
               [--only PATTERN] [--workers W] [--folder FOLDER]

Each workload of workloads.py is answered by sdmp and by bench/flint_peer, once
with FLINT's heap methods and once with the method that FLINT chooses, in turns,
N times each (5), and the least wall time counts. The same session without its
commands is timed as well: `answer` is the difference of the two, arithmetic and
printing without reading. Outputs are compared byte for byte.

A ratio is sdmp's time over FLINT's: below 1 sdmp is faster. `Mp/s` are million
term products of the schoolbook method a second of the answer. Where FLINT's
headers are missing (Debian's libflint-dev), sdmp is measured alone.

Exit status: 0, or 1 where outputs differ or a run fails.
"""
import argparse
import json
import math
import os
import re
import sys
import tempfile

import program
import turns
from workloads import SIZES, write_folder


def report(row, least):
    sdmp = least['sdmp']
    line = '| %-16s | %8s | %7.3f | %7.3f | %5.0f |' % (
        row['name'], '%.3f' % (row['products'] / 1e6) if row['products'] else '-', sdmp.whole, sdmp.answer(), sdmp.memory)
    line += ' %6s |' % ('%.1f' % (row['products'] / 1e6 / sdmp.answer()) if row['products'] else '-')
    for name in ('heap', 'auto'):
        if name in least:
            line += ' %7.3f | %7.3f | %5.2f | %5.2f |' % (
                least[name].whole, least[name].answer(), sdmp.whole / least[name].whole, sdmp.answer() / least[name].answer())
    print(line, flush=True)


def main():
    parser = argparse.ArgumentParser(usage=__doc__)
    parser.add_argument('--sdmp', default=program.SDMP)
    parser.add_argument('--size', choices=SIZES, default='medium')
    parser.add_argument('--runs', type=int, default=5)
    parser.add_argument('--only', default='')
    parser.add_argument('--workers', default='1')
    parser.add_argument('--folder')
    words = parser.parse_args()
    with tempfile.TemporaryDirectory() as scratch:
        folder = words.folder or scratch
        if not os.path.exists(os.path.join(folder, 'manifest.json')):
            turns.apart(write_folder, folder, words.size)
        with open(os.path.join(folder, 'manifest.json')) as file:
            rows = [row for row in json.load(file) if re.search(words.only, row['name'])]
        programs = {'sdmp': [os.path.abspath(words.sdmp), '--workers', words.workers]}
        peer = program.flint_peer(scratch)
        if peer:
            programs['heap'] = [peer, '--heap', '--workers', words.workers]
            programs['auto'] = [peer, '--workers', words.workers]
        head = ['workload', 'Mproducts', 'whole s', 'answer s', 'MiB', 'Mp/s']
        for name in ('heap', 'auto') if peer else ():
            head += ['FLINT %s whole' % name, 'answer', 'ratio whole', 'ratio answer']
        print(program.measured_on() + '\n')
        print('| ' + ' | '.join(head) + ' |')
        print('|' + '---|' * len(head))
        ratios, faults = [], []
        for row in rows:
            least = {name: turns.Least(command) for name, command in programs.items()}
            right = turns.measure(list(least.values()), os.path.join(folder, row['name'] + '.sdmp'), words.runs)
            report(row, least)
            if not right:
                faults.append(row['name'])
            if peer and row['command'] != 'show':
                ratios.append(least['sdmp'].answer() / least['heap'].answer())
        if ratios:
            print('\nanswer, sdmp over FLINT heap: geometric mean %.2f of %d workloads, worst %.2f'
                  % (math.exp(sum(map(math.log, ratios)) / len(ratios)), len(ratios), max(ratios)))
        for name in faults:
            print('FAULT: %s: the outputs differ or a run failed' % name)
        return 1 if faults else 0


if __name__ == '__main__':
    sys.exit(main())
