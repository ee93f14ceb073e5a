#!/usr/bin/env python3
"""Draws docs/scaling.svg, docs/flint.svg and docs/growth.svg from the tables of docs/BENCHMARKS.md.

    pictures.py

The page is the one place where figures stand: what a script of this folder
measured is written there as it was printed, tables and the line `Measured at
commit ..` above them, which a picture repeats. What isn't measured isn't drawn.
"""
import os

import drawing
import pages
import program

PAGE = os.path.join(program.DOCS, 'BENCHMARKS.md')
WORKERS = 1, 2, 4
KINDS = 'dense', 'sparse', 'scattered'
GROWTH = 'Time and memory against size'


class Sections:
    """The tables under each heading of the page, and what is said of where they were measured."""

    def __init__(self):
        self.tables, self.measured = {}, {}
        for part in pages.parts(PAGE):
            if isinstance(part, pages.Heading):
                heading = part.text
            elif isinstance(part, pages.Table):
                self.tables.setdefault(heading, []).append(part)
            elif isinstance(part, pages.Text) and part.text.startswith('Measured at commit'):
                self.measured[heading] = part.text.replace('`', '')

    def table(self, heading, *head):
        """The first table under the heading that has these columns, its rows as dictionaries by the first column; columns of one name are told apart by `name 2` and so on."""
        for table in self.tables.get(heading, []):
            if all(name in table.head for name in head):
                names = [name if table.head[:at].count(name) == 0 else '%s %d' % (name, table.head[:at].count(name) + 1) for at, name in enumerate(table.head)]
                return [dict(zip(names, row)) for _, row in table.rows]
        raise SystemExit('%s has no table with the columns %s under "%s"' % (PAGE, ', '.join(head), heading))


def draw_speed_ups(sections):
    heading = 'Products by several workers'
    beside = [('capacity', 'dotted', 'capacity', sections.table(heading, 'one alone s', 'capacity')),
              ('FLINT heap', 'dashed', 'speed-up', sections.table(heading, 'FLINT heap by 1 s'))]
    speeds = {}
    for row in sections.table(heading, 'workers', '1024 places s'):
        speeds.setdefault(row['product'], [1]).append(float(row['speed-up 2']))
    panels = []
    for name, own in speeds.items():
        lines = [('sdmp', 'whole', own)]
        for line, dash, column, rows in beside:
            row = next(row for row in rows if row['product'] == name)
            lines.append((line, dash, [1, float(row[column]), float(row[column + ' 2'])]))
        panels.append((name, lines))
    title = 'Speed-up of a product over one worker, by the number of workers'
    drawing.speed_ups(os.path.join(program.DOCS, 'scaling.svg'), title, sections.measured[heading], WORKERS, panels)


def draw_beside_flint(sections):
    one, four = 'Products by one worker, size medium', 'Products by several workers'
    by_four = {row['product']: row for row in sections.table(four, 'FLINT heap by 4 s', 'sdmp by 4 s')}
    products = []
    for row in sections.table(one, 'workload', 'answer s'):
        name = row['workload']
        seconds = {('sdmp', 1): row['answer s'], ('FLINT', 1): row['answer'], ('auto', 1): row['answer 2'],
                   ('sdmp', 4): by_four[name]['sdmp by 4 s'], ('FLINT', 4): by_four[name]['FLINT heap by 4 s']}
        products.append((name, {key: float(row['Mproducts']) / float(time) for key, time in seconds.items()}))
    drawing.beside_flint(os.path.join(program.DOCS, 'flint.svg'), 'Products beside FLINT, on one thread and on four', sections.measured[one], products)


def draw_growth(sections):
    kinds = []
    for kind in KINDS:
        lines = {}
        for row in sections.table('A %s product' % kind, 'products of terms'):
            for column in row:
                if column.endswith(' s'):
                    name = column[:-2]
                    lines.setdefault(name, []).append((float(row['products of terms']), float(row[column]), float(row[name + ' MiB'])))
        kinds.append((kind, lines))
    drawing.growth(os.path.join(program.DOCS, 'growth.svg'), 'Time and memory of a product against its size', sections.measured[GROWTH], kinds)


def main():
    sections = Sections()
    draw_speed_ups(sections)
    draw_beside_flint(sections)
    if GROWTH in sections.measured:
        draw_growth(sections)


if __name__ == '__main__':
    main()
