#!/usr/bin/env python3
"""Measures products and divisions by several workers, beside FLINT's heap method and beside other programs.

    scaling.py [--program [NAME=]PATH].. [--runs N] [--only PART,..]
               [--size small|medium|large] [--load N] [--limit S]

The capacity of the machine for W workers is what W copies of a session by one
worker do side by side, over what one copy does alone: W times the time of one,
over the time of all. A session by W workers reaches a share of it: the time of
the W copies side by side, over W times the time of the one session.

    products  four products by 1, 2 and 4 workers at 64, 1024 and 65536 places,
              the capacity of the machine from the same minutes, and FLINT by
              1, 2 and 4 threads
    divisions the same of divisions; FLINT has no threads for remainders
    peers     all products of workloads.py by 4 workers beside FLINT by 4 threads
    tiny      a session of many tiny products, with the program's own words and
              by 1, 4 and 64 workers
    load      with --load N alone: two smaller products by 4 workers at 2, 64 and
              1024 places, quiet and beside N busy loops

Where PATH is given several times, as an older and a newer program, all take
turns in one run. The least time of N runs (5) counts, less that of the same
session without its commands, and all outputs of a session are compared byte for
byte. In the last two parts a run is killed after S seconds (60).
The tables are those of docs/BENCHMARKS.md, from which pictures.py draws.

Exit status: 0, or 1 where outputs differ or a run fails.
"""
import argparse
import math
import os
import signal
import sys
import tempfile

import program
from loops import BusyLoops
from turns import Least, measure
from workloads import DIVISIONS, FOUR_PRODUCTS, write_folder

WORKERS = 2, 4
PLACES = 64, 1024, 65536
LOADED_PLACES = 2, 64, 1024
LOADED = {
    'small': ['dense08', 'scattered00200'],
    'medium': ['dense12', 'scattered01000'],
    'large': ['dense20', 'scattered03000'],
}


def sdmp(path, workers, places=None):
    words = ['--places', str(places)] if places else []
    return [path, '--workers', str(workers)] + words


class Bench:
    """The sessions, the programs by their names, FLINT's peer where it is there, and what went wrong."""

    def __init__(self, folder, size, programs, runs, limit):
        self.folder = folder
        self.programs = programs
        self.runs = runs
        self.limit = limit
        self.faults = []
        self.peer = program.flint_peer(folder)
        self.rows = write_folder(folder, size)
        self.four = [self.rows[name] for name in FOUR_PRODUCTS[size]]
        self.divisions = [self.rows[name] for name in DIVISIONS[size]]
        self.loaded = [self.rows[name] for name in LOADED[size]]

    def session(self, row):
        return os.path.join(self.folder, row['name'] + '.sdmp')

    def turns(self, row, least):
        """Measures all of `least`, a dictionary, in turns."""
        print('measuring %s' % row['name'], file=sys.stderr, flush=True)
        if not measure(list(least.values()), self.session(row), self.runs):
            self.faults.append(row['name'])

    def flint(self, workers):
        return [self.peer, '--heap', '--workers', str(workers)]


def table(head, rows):
    print('\n| ' + ' | '.join(head) + ' |')
    print('|' + '---|' * len(head))
    for row in rows:
        print('| ' + ' | '.join(row) + ' |')
    sys.stdout.flush()


def seconds(least):
    return 'failed' if least.failed else 'over %d' % least.limit if least.late else '%.3f' % least.answer()


def plans(bench):
    """What is measured of one session: each program alone, side by side, by workers and places; and FLINT."""
    least = {}
    for name, path in bench.programs.items():
        least[name, 1] = Least(sdmp(path, 1))
        for workers in WORKERS:
            least[name, 'copies', workers] = Least(sdmp(path, 1), copies=workers)
            for places in PLACES:
                least[name, workers, places] = Least(sdmp(path, workers, places))
    if bench.peer:
        for workers in (1,) + WORKERS:
            least['FLINT', workers] = Least(bench.flint(workers))
    return least


def capacity(least, name, workers):
    return workers * least[name, 1].answer() / least[name, 'copies', workers].answer()


def worker_rows(bench, row, least):
    """The rows of one session by several workers: seconds, speed-up and share of the capacity at each number of places."""
    for name in bench.programs:
        alone = least[name, 1].answer()
        for workers in WORKERS:
            copies = least[name, 'copies', workers].answer()
            line = [row['name'], name, str(workers)]
            for places in PLACES:
                one = least[name, workers, places]
                line += [seconds(one), '%.2f' % (alone / one.answer()), '%.2f' % (copies / (workers * one.answer()))]
            yield line


def flint_row(row, least):
    line = [row['name'], seconds(least['FLINT', 1])]
    for workers in WORKERS:
        one = least['FLINT', workers]
        line += [seconds(one), '%.2f' % (least['FLINT', 1].answer() / one.answer())]
    return line


def capacity_rows(bench, row, least):
    for name in bench.programs:
        products = '%.3f' % (row['products'] / 1e6) if row['products'] else '-'
        line = [row['name'], name, products, seconds(least[name, 1])]
        for workers in WORKERS:
            line += [seconds(least[name, 'copies', workers]), '%.2f' % capacity(least, name, workers)]
        yield line


def measure_scaling(bench, sessions, what):
    """Measures these sessions, which are products or divisions."""
    capacities, by_workers, by_flint = [], [], []
    for row in sessions:
        least = plans(bench)
        bench.turns(row, least)
        capacities += capacity_rows(bench, row, least)
        by_workers += worker_rows(bench, row, least)
        if bench.peer:
            by_flint.append(flint_row(row, least))
    heads = [what, 'program', 'Mproducts', 'one alone s'], [what, 'program', 'workers'], [what, 'FLINT heap by 1 s']
    for workers in WORKERS:
        heads[0].extend(['%d side by side s' % workers, 'capacity'])
        heads[2].extend(['by %d s' % workers, 'speed-up'])
    for places in PLACES:
        heads[1].extend(['%d places s' % places, 'speed-up', 'of capacity'])
    for head, rows in zip(heads, (capacities, by_workers, by_flint)):
        if rows:
            table(head, rows)


def measure_peers(bench):
    if not bench.peer:
        return
    rows, ratios = [], {name: [] for name in bench.programs}
    for row in bench.rows.values():
        if row['command'] != 'mul' or row['commands'] != 1:
            continue
        least = {name: Least(sdmp(path, 4)) for name, path in bench.programs.items()}
        least['FLINT'] = Least(bench.flint(4))
        bench.turns(row, least)
        line = [row['name'], '%.3f' % (row['products'] / 1e6), seconds(least['FLINT'])]
        for name in bench.programs:
            ratios[name].append(least[name].answer() / least['FLINT'].answer())
            line += [seconds(least[name]), '%.2f' % ratios[name][-1]]
        rows.append(line)
    head = ['product', 'Mproducts', 'FLINT heap by 4 s']
    for name in bench.programs:
        head += ['%s by 4 s' % name, 'ratio']
    table(head, rows)
    for name, found in ratios.items():
        mean = math.exp(sum(map(math.log, found)) / len(found))
        print('\n%s by 4 workers over FLINT heap by 4 threads: geometric mean %.2f of %d products, worst %.2f' % (name, mean, len(found), max(found)))


def measure_tiny(bench):
    row = next(row for row in bench.rows.values() if row['commands'] > 1)
    least = {}
    for name, path in bench.programs.items():
        least[name, 'none'] = Least([path], limit=bench.limit)
        for workers in 1, 4, 64:
            least[name, '--workers %d' % workers] = Least(sdmp(path, workers), limit=bench.limit)
    if bench.peer:
        least['FLINT', '--heap'] = Least(bench.flint(1))
    bench.turns(row, least)
    rows = []
    for (name, words), one in least.items():
        each = '' if one.late else '%.1f' % (one.answer() / row['commands'] * 1e6)
        rows.append((row['name'], name, words, seconds(one), each))
    table(['session', 'program', 'words', 'answer s', 'µs a product'], rows)


def measure_load(bench, count):
    rows = []
    with BusyLoops(count) as loops:
        for row in bench.loaded:
            least = {}
            for name, path in bench.programs.items():
                for places in LOADED_PLACES:
                    for is_loaded in False, True:
                        least[name, places, is_loaded] = Least(sdmp(path, 4, places), limit=bench.limit, beside=loops if is_loaded else None)
            bench.turns(row, least)
            for name in bench.programs:
                for places in LOADED_PLACES:
                    quiet, loaded = least[name, places, False], least[name, places, True]
                    times = '' if quiet.late or loaded.late else '%.1f' % (loaded.answer() / quiet.answer())
                    rows.append((row['name'], name, str(places), seconds(quiet), seconds(loaded), times))
    table(['product by 4 workers', 'program', 'places', 'quiet s', 'beside %d busy loops s' % count, 'times'], rows)


def named(words):
    """The programs by their names."""
    found = {}
    for word in words or [program.SDMP]:
        name, equals, path = word.rpartition('=')
        found[name or ('sdmp' if len(words) < 2 else os.path.basename(path))] = os.path.abspath(path)
    return found


def main():
    parser = argparse.ArgumentParser(usage=__doc__)
    parser.add_argument('--program', action='append', default=[])
    parser.add_argument('--runs', type=int, default=5)
    parser.add_argument('--only', default='products,divisions,peers,tiny,load')
    parser.add_argument('--size', choices=list(FOUR_PRODUCTS), default='medium')
    parser.add_argument('--load', type=int, default=0)
    parser.add_argument('--limit', type=float, default=60)
    words = parser.parse_args()
    parts = words.only.split(',')
    # ended from outside, it ends the busy loops too
    signal.signal(signal.SIGTERM, lambda *_: sys.exit(1))
    print(program.measured_on())
    with tempfile.TemporaryDirectory() as folder:
        bench = Bench(folder, words.size, named(words.program), words.runs, words.limit)
        if 'products' in parts:
            measure_scaling(bench, bench.four, 'product')
        if 'divisions' in parts:
            measure_scaling(bench, bench.divisions, 'division')
        if 'peers' in parts:
            measure_peers(bench)
        if 'tiny' in parts:
            measure_tiny(bench)
        if 'load' in parts and words.load:
            measure_load(bench, words.load)
    for name in bench.faults:
        print('\nFAULT: %s: the outputs differ or a run failed' % name)
    return 1 if bench.faults else 0


if __name__ == '__main__':
    sys.exit(main())
