"""Draws measured tables: speed-ups by workers, speeds beside FLINT, and growth with the size."""
import math

import svg

WIDTH, HEIGHT = 300, 260
COLOURS = {'sdmp': 'blue', 'FLINT': 'red', 'capacity': 'grey'}
# how much of a decade a number may lie outside
SLACK = 0.1
RAISED = str.maketrans('-0123456789', '⁻⁰¹²³⁴⁵⁶⁷⁸⁹')


def decade(exponent):
    """A power of ten as it stands at an axis."""
    return '10' + str(exponent).translate(RAISED) if abs(exponent) > 1 else '%g' % 10 ** exponent


def legend(picture, y, lines):
    """The names of the lines, each with its colour and dash."""
    x = 40
    for name, colour, dash in lines:
        picture.line([(x, y), (x + 30, y)], colour, dash)
        picture.text(x + 36, y + 4, name)
        x += 60 + 8 * len(name)


def speed_ups(path, title, measured, workers, panels):
    """A panel for each product, of a name and its lines: a name, a dash, and the speed-up for each number of workers."""
    rows = (len(panels) + 1) // 2
    picture = svg.Picture(2 * WIDTH, rows * HEIGHT + 70, title)
    for i, (name, lines) in enumerate(panels):
        speed_up_panel(picture, i % 2 * WIDTH, i // 2 * HEIGHT, name, workers, lines)
    below = rows * HEIGHT
    legend(picture, below + 10, [(name, COLOURS[name.split()[0]], dash) for name, dash, _ in panels[0][1]])
    picture.text(40, below + 36, title)
    picture.text(40, below + 56, measured, 'pale', size=12)
    picture.write(path)


def speed_up_panel(picture, left, top, name, workers, lines):
    most = max(workers)

    def place(worker, speed):
        return left + 40 + (WIDTH - 70) * (worker - 1) / (most - 1), top + HEIGHT - 40 - (HEIGHT - 80) * speed / most

    picture.text(left + 40, top + 24, name, size=15)
    for speed in range(most + 1):
        picture.line([place(1, speed), place(most, speed)], 'grid', width=1)
        x, y = place(1, speed)
        picture.text(x - 16, y + 4, speed, 'pale')
    for worker in workers:
        x, y = place(worker, 0)
        picture.text(x, y + 18, worker, 'pale', 'middle')
    for line, dash, speeds in lines:
        picture.line([place(*point) for point in zip(workers, speeds)], COLOURS[line.split()[0]], dash)


class Logarithmic:
    """Places of numbers along a length, between two powers of ten."""

    def __init__(self, numbers, begin, end):
        self.least, self.most = math.floor(math.log10(min(numbers)) + SLACK), math.ceil(math.log10(max(numbers)) - SLACK)
        self.begin, self.end = begin, end

    def __call__(self, number):
        return self.begin + (self.end - self.begin) * (math.log10(number) - self.least) / (self.most - self.least)

    def decades(self):
        return range(self.least, self.most + 1)


def beside_flint(path, title, measured, products):
    """A line for each product: its name and its speeds, of sdmp and of FLINT's heap method by one thread and by four, and of FLINT's own choice by one."""
    row = 26
    below = 60 + row * len(products)
    picture = svg.Picture(700, below + 112, title)
    picture.text(20, 26, title, size=15, weight='bold')
    scale = Logarithmic([speed for _, speeds in products for speed in speeds.values()], 150, 670)
    for exponent in scale.decades():
        x = scale(10 ** exponent)
        picture.line([(x, 44), (x, below)], 'grid', width=1)
        picture.text(x, below + 18, decade(exponent), 'pale', 'middle')
    for number, (name, speeds) in enumerate(products):
        y = 60 + row * number
        picture.text(20, y + 4, name)
        for program, rise in ('sdmp', -5), ('FLINT', 5):
            one, four = scale(speeds[program, 1]), scale(speeds[program, 4])
            picture.line([(one, y + rise), (four, y + rise)], COLOURS[program])
            picture.dot(one, y + rise, COLOURS[program], is_filled=False)
            picture.dot(four, y + rise, COLOURS[program])
        picture.cross(scale(speeds['auto', 1]), y + 5, COLOURS['FLINT'])
    speed_marks(picture, below + 52)
    picture.text(410, below + 36, 'million products of terms a second', 'pale', 'middle')
    picture.text(20, below + 86, measured, 'pale', size=12)
    picture.write(path)


MARKS = [('blue', False, 'sdmp by 1 worker'), ('blue', True, 'by 4'), ('red', False, "FLINT's heap method by 1 thread"),
         ('red', True, 'by 4'), ('red', None, 'its own choice by 1')]


def speed_marks(picture, y):
    """What the dots and the cross mean."""
    x = 24
    for colour, is_filled, name in MARKS:
        if is_filled is None:
            picture.cross(x, y, colour)
        else:
            picture.dot(x, y, colour, is_filled)
        picture.text(x + 10, y + 4, name, size=12)
        x += 32 + 6.4 * len(name)


GROWTH_LINES = ('sdmp by 1', 'whole'), ('sdmp by 4', 'dashed'), ('FLINT by 1', 'whole'), ('FLINT by 4', 'dashed')
MEASURES = 'seconds', 'MiB at the peak'


def growth(path, title, measured, kinds):
    """Two panels for each kind, of a name and, for each program, its points: products of terms, seconds and MiB."""
    picture = svg.Picture(len(kinds) * WIDTH + 20, 2 * HEIGHT + 100, title)
    picture.text(20, 24, title, size=15, weight='bold')
    points = [point for _, lines in kinds for line in lines.values() for point in line]
    for row, measure in enumerate(MEASURES):
        top = 30 + row * HEIGHT
        up = Logarithmic([point[1 + row] for point in points], top + HEIGHT - 40, top + 30)
        for at, (name, lines) in enumerate(kinds):
            across = Logarithmic([point[0] for point in points], at * WIDTH + 60, (at + 1) * WIDTH - 10)
            chosen = [(line, dash, [(p[0], p[1 + row]) for p in lines[line]]) for line, dash in GROWTH_LINES if line in lines]
            growth_panel(picture, '%s: %s' % (name, measure), across, up, chosen)
    below = 30 + 2 * HEIGHT
    legend(picture, below + 10, [(name, COLOURS[name.split()[0]], dash) for name, dash in GROWTH_LINES if name in kinds[0][1]])
    picture.text(40, below + 34, 'across: products of terms', 'pale')
    picture.text(40, below + 54, measured, 'pale', size=12)
    picture.write(path)


def growth_panel(picture, title, across, up, lines):
    picture.text(across.begin, up.end - 10, title)
    for exponent in across.decades():
        x = across(10 ** exponent)
        picture.line([(x, up.begin), (x, up.end)], 'grid', width=1)
        picture.text(x, up.begin + 18, decade(exponent), 'pale', 'middle', 11)
    for exponent in up.decades():
        y = up(10 ** exponent)
        picture.line([(across.begin, y), (across.end, y)], 'grid', width=1)
        picture.text(across.begin - 6, y + 4, decade(exponent), 'pale', 'end', 11)
    for name, dash, points in lines:
        colour = COLOURS[name.split()[0]]
        picture.line([(across(x), up(y)) for x, y in points], colour, dash)
        for x, y in points:
            picture.dot(across(x), up(y), colour, dash == 'whole', 2.5)
