#!/usr/bin/env python3
"""Draws docs/product.svg and docs/division.svg: how rows, rings, turnstile and merge stand to each other.

    scheme.py
"""
import os

import program
import svg

PLACES = 8
# the left upper corner of each worker's box and of its ring, and which places of the ring hold notes
WORKERS = [(20, 40), (20, 136), (20, 232)]
RINGS = [(350, 66), (350, 162), (350, 258)]
INSIDE = [range(2, 6), range(1, 4), range(0, 8)]
TURNSTILE = 600, 34, 290, 258
MERGE = 620, 72, 250, 200

ROUND = ['Where its ring is full, a worker enters the turnstile if', 'nobody is inside, and advances the merge.']
DIVIDING_ROUND = ['Where its ring is full, or it may send no more, a worker enters', 'the turnstile if nobody is inside, and advances the merge.']

# boxes: left upper corner, width, height, name, lines; arrows: corners, colour, lines beside them and where these begin
PICTURES = {
    'product': {
        'size': (910, 420),
        'title': 'A product by three workers',
        'rows': [['terms 0, 3, 6, .. of the shorter factor', 'times the longer one, merged by a heap'],
                 ['terms 1, 4, 7, .. times the longer one'], ['terms 2, 5, 8, .. times the longer one']],
        'merge': ['It holds one note of each ring, its', 'head. It adds the heads at the greatest', 'monomial: that is the next term of the', 'product. Then it takes the next notes', 'of their rings.'],
        'boxes': [(640, 350, 210, 50, 'Product', ['its terms, the greatest first'])],
        'arrows': [([(745, 272), (745, 350)], 'ink', [], (0, 0)),
                   ([(145, 308), (145, 330), (580, 330), (580, 210), (600, 210)], 'green', ROUND, (155, 350))],
    },
    'division': {
        'size': (1110, 480),
        'title': 'A division by three workers',
        'rows': [["terms 0, 3, 6, .. of the divisor's later", 'terms, times each quotient term, by a heap'],
                 ['terms 1, 4, 7, .. times each quotient term'], ['terms 2, 5, 8, .. times each quotient term']],
        'merge': ['It holds one note of each ring, its', 'head, and takes the heads at the', 'greatest monomial from the dividend.', "What is left there is the remainder's,", "or, divided by the divisor's leading", 'term, the next term of the quotient.'],
        'boxes': [(950, 80, 140, 50, 'Dividend', ['its terms in order']), (950, 210, 140, 50, 'Answer', ['quotient, remainder'])],
        'arrows': [([(950, 105), (870, 105)], 'ink', [], (0, 0)), ([(870, 235), (950, 235)], 'ink', [], (0, 0)),
                   ([(145, 308), (145, 330), (580, 330), (580, 210), (600, 210)], 'green', DIVIDING_ROUND, (155, 350)),
                   ([(745, 272), (745, 425), (664, 425)], 'red', ['publishes each quotient term,', 'and how low it has come'], (755, 400)),
                   ([(350, 425), (60, 425), (60, 308)], 'red', ['each worker reads all of it'], (70, 417))],
        'row': (350, 410),
    },
}


def box(picture, x, y, width, height, name, lines):
    picture.rectangle(x, y, width, height)
    picture.text(x + 12, y + 20, name, weight='bold')
    for number, line in enumerate(lines):
        picture.text(x + 12, y + 38 + 17 * number, line, 'pale', size=12)


def table_of_places(picture, x, y, width, count, inside, colour):
    """Places side by side, of which some hold notes."""
    for place in range(count):
        picture.rectangle(x + width * place, y, width, 30, colour if place in inside else 'page')


def worker(picture, number, lines):
    (x, y), (ring_x, ring_y) = WORKERS[number], RINGS[number]
    box(picture, x, y, 290, 76, 'Worker %d' % number, lines)
    picture.text(ring_x, ring_y - 8, 'ring %d' % number, 'pale', size=12)
    table_of_places(picture, ring_x, ring_y - 2, 25, PLACES, INSIDE[number], 'blue')
    picture.line([(x + 290, ring_y + 13), (ring_x - 2, ring_y + 13)], 'blue', arrow=True)
    picture.line([(ring_x + 25 * PLACES, ring_y + 13), (MERGE[0] - 2, ring_y + 13)], 'blue', arrow=True)


def draw(name, plan):
    picture = svg.Picture(*plan['size'], plan['title'])
    picture.text(20, 24, plan['title'], size=15, weight='bold')
    picture.rectangle(*TURNSTILE, fill='page', colour='green', dash='dashed')
    picture.text(612, 54, 'turnstile: one worker at a time is inside', 'green', size=12)
    box(picture, *MERGE, 'Shared merge', plan['merge'])
    for number, lines in enumerate(plan['rows']):
        worker(picture, number, lines)
    picture.text(350, 38, 'notes: the terms of its part, in order', 'blue', size=12)
    for corners in plan['boxes']:
        box(picture, *corners)
    for corners, colour, lines, (x, y) in plan['arrows']:
        picture.line(corners, colour, 'dashed' if colour == 'green' else 'whole', arrow=True)
        for number, line in enumerate(lines):
            picture.text(x, y + 17 * number, line, colour, size=12)
    if 'row' in plan:
        x, y = plan['row']
        picture.text(x, y - 8, 'published row', 'pale', size=12)
        table_of_places(picture, x, y, 26, 12, range(7), 'red')
    picture.write(os.path.join(program.DOCS, name + '.svg'))


if __name__ == '__main__':
    for name, plan in PICTURES.items():
        draw(name, plan)
