#!/usr/bin/env python3
"""Writes the long sessions among the examples.

    example_sessions.py [FOLDER]

FOLDER/NAME.sdmp for each name of SESSIONS, FOLDER being examples/ where none
is given. CLAIMS says what some of their definitions are, as expressions that
examples.py has other systems compare.
"""
import itertools
import os
import sys

from shared import HERE
from workloads import FIVE, FOUR, canonical, power, times, unit

EXAMPLES = os.path.join(HERE, '..', 'examples')
LETTERS = 'abcd'
ENTRIES = 'w x y z'.split()
SIZE = len(ENTRIES)


def session(title, names, lines):
    return '\n'.join(['# ' + title, 'vars ' + ' '.join(names), 'ring Z', *lines, ''])


def dense():
    f = power(4, [(1, unit(i, 4)) for i in range(4)], 4)
    g = dict(f)
    g[0, 0, 0, 0] += 1
    return session('A dense product: f*(f+1) with f = (1+x+y+z+t)^4.', FOUR,
                   ['f = ' + canonical(f, FOUR), 'g = ' + canonical(g, FOUR), 'mul f g'])


def sparse():
    f = power(2, [(1, unit(0, 5)), (1, unit(1, 5)), (2, unit(2, 5, 2)), (3, unit(3, 5, 3)), (5, unit(4, 5, 5))], 5)
    g = power(2, [(5, unit(0, 5, 5)), (3, unit(1, 5, 3)), (2, unit(2, 5, 2)), (1, unit(3, 5)), (1, unit(4, 5))], 5)
    return session('A sparse product: f = (1+x+y+2*z^2+3*t^3+5*u^5)^2 by g = (1+u+t+2*z^2+3*y^3+5*x^5)^2.', FIVE,
                   ['f = ' + canonical(f, FIVE), 'g = ' + canonical(g, FIVE), 'mul f g'])


def determinant():
    """Bareiss's elimination of the circulant matrix whose first row is w x y z."""
    lines = ['# Each step takes pivot times entry minus column times row, and divides by the pivot before.',
             '# The program has no sums of its own: a difference is defined by its two products as they are answered.']
    for i, j in itertools.product(range(SIZE), repeat=2):
        lines.append('%s = %s' % (name(0, i, j), text(0, i, j)))
    for step in range(SIZE - 1):
        for i, j in itertools.product(range(step + 1, SIZE), repeat=2):
            lines += entry_lines(step, i, j)
    last = name(SIZE - 1, SIZE - 1, SIZE - 1)
    lines += ['# the determinant has these factors', 's = w+x+y+z', 'div %s s' % last, 'u = w-x+y-z', 'div %s u' % last]
    return session('The determinant of the matrix with the rows w x y z, z w x y, y z w x and x y z w, by products and exact divisions.', ENTRIES, lines)


def entry_lines(step, i, j):
    """The lines by which a step makes an entry."""
    pairs = ((step, step), (i, j)), ((i, step), (step, j))
    lines = ['mul %s %s' % tuple(name(step, *place) for place in pair) for pair in pairs]
    up, down = (times(*(entry(step, *place) for place in pair), 0) for pair in pairs)
    down = canonical({m: -c for m, c in down.items()}, ENTRIES)
    difference = canonical(up, ENTRIES) + ('' if down.startswith('-') else '+') + down
    after = name(step + 1, i, j)
    if step == 0:
        return [*lines, '%s = %s' % (after, difference)]
    pivot = name(step - 1, step - 1, step - 1)
    return [*lines, 'n = ' + difference, 'div n ' + pivot, '%s = %s' % (after, text(step + 1, i, j))]


def name(step, i, j):
    return '%s%d%d' % (LETTERS[step], i + 1, j + 1)


def text(step, i, j):
    return canonical(entry(step, i, j), ENTRIES)


def entry(step, i, j):
    """An entry after so many steps: the determinant of the first rows and columns with one row and one column more."""
    return leibniz([*range(step), i], [*range(step), j])


def leibniz(rows, columns):
    total = {}
    for order in itertools.permutations(range(len(rows))):
        monomial = [0] * SIZE
        for row, place in zip(rows, order):
            monomial[(columns[place] - row) % SIZE] += 1
        total[tuple(monomial)] = total.get(tuple(monomial), 0) + sign(order)
    return {m: c for m, c in total.items() if c}


def sign(order):
    return (-1) ** sum(a > b for a, b in itertools.combinations(order, 2))


SESSIONS = {'dense': dense, 'sparse': sparse, 'determinant': determinant}
CLAIMS = {
    'dense': {'f': '(1+x+y+z+t)^4', 'g': '(1+x+y+z+t)^4+1'},
    'sparse': {'f': '(1+x+y+2*z^2+3*t^3+5*u^5)^2', 'g': '(1+u+t+2*z^2+3*y^3+5*x^5)^2'},
    'determinant': {'d44': '(w+x+y+z)*(w-x+y-z)*((w-y)^2+(x-z)^2)'},
}


def main():
    folder = sys.argv[1] if len(sys.argv) > 1 else EXAMPLES
    for name, make in SESSIONS.items():
        with open(os.path.join(folder, name + '.sdmp'), 'w') as file:
            file.write(make())


if __name__ == '__main__':
    main()
