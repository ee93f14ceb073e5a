#!/usr/bin/env python3
"""Writes sessions of classical benchmarks of sparse polynomial arithmetic.

    workloads.py FOLDER [--size small|medium|large]

Each FOLDER/NAME.sdmp is a session. Its last line is its one command, but that
of `tiny` multiplies again and again. FOLDER/manifest.json lists them with the
number of term products that the schoolbook method makes, and of commands.
Dividends are products that are computed here, by plain dictionaries.
"""
import argparse
import json
import os
from math import factorial

MODULUS = 2**63 - 25
MOST_BYTES = 67108864
SIZES = 'small', 'medium', 'large'
THREE = 'x y z'.split()
FOUR = 'x y z t'.split()
FIVE = 'x y z t u'.split()


class Draw:
    """The generator of the demo: a linear congruence of 64 bits."""

    def __init__(self, seed):
        self.state = seed

    def __call__(self, bound):
        self.state = (self.state * 6364136223846793005 + 1442695040888963407) % 2**64
        return (self.state >> 33) % bound


def term_text(coefficient, monomial, names, first):
    factors = [n if e == 1 else '%s^%d' % (n, e) for n, e in zip(names, monomial) if e]
    if abs(coefficient) != 1 or not factors:
        factors.insert(0, str(abs(coefficient)))
    sign = '-' if coefficient < 0 else '' if first else '+'
    return sign + '*'.join(factors)


def as_given(f, names):
    return ''.join(term_text(c, m, names, i == 0) for i, (m, c) in enumerate(f.items()))


def canonical(f, names):
    ordered = sorted(f.items(), key=lambda t: (sum(t[0]), t[0]), reverse=True)
    return as_given(dict(ordered), names) or '0'


def times(f, g, modulus):
    product = {}
    for m, c in f.items():
        for n, d in g.items():
            k = tuple(map(int.__add__, m, n))
            product[k] = product.get(k, 0) + c * d
    if modulus:
        product = {m: c % modulus for m, c in product.items()}
    return {m: c for m, c in product.items() if c}


def power(exponent, parts, variables):
    """(1 + the sum of c*m over the pairs (c, m))^exponent, by multinomials."""
    f = {}

    def choose(i, left, coefficient, monomial):
        if i == len(parts):
            m = tuple(monomial)
            f[m] = f.get(m, 0) + coefficient // factorial(left)
            return
        c, v = parts[i]
        for e in range(left + 1):
            choose(i + 1, left - e, coefficient // factorial(e) * c**e, [a + e * b for a, b in zip(monomial, v)])

    choose(0, exponent, factorial(exponent), [0] * variables)
    return f


def unit(i, variables, exponent=1):
    return tuple(exponent if j == i else 0 for j in range(variables))


def random_terms(draw, count, variables, top, size):
    """Terms of different monomials in the order drawn; a size of 0 asks for residues."""
    f = {}
    while len(f) < count:
        m = tuple(draw(top) for _ in range(variables))
        if m in f:
            continue
        if size == 0:
            f[m] = (draw(2**31) << 62 ^ draw(2**31) << 31 ^ draw(2**31)) % MODULUS or 1
        else:
            f[m] = (1 + draw(size)) * (-1 if draw(2) else 1)
    return f


class Folder:
    def __init__(self, path):
        self.path = path
        self.rows = []
        os.makedirs(path, exist_ok=True)

    def write(self, name, names, modulus, body, command, commands, products):
        ring = 'mod %d' % modulus if modulus else 'Z'
        session = 'vars %s\nring %s\n%s' % (' '.join(names), ring, body)
        assert len(session) <= MOST_BYTES, name
        with open(os.path.join(self.path, name + '.sdmp'), 'w') as file:
            file.write(session)
        self.rows.append({'name': name, 'products': products, 'command': command, 'commands': commands, 'bytes': len(session)})

    def add(self, name, names, modulus, definitions, command, products):
        body = ''.join('%s = %s\n' % d for d in definitions) + command + '\n'
        self.write(name, names, modulus, body, command.split()[0], 1, products)

    def mul(self, name, names, f, g, modulus=0, text=canonical):
        self.add(name, names, modulus, [('a', text(f, names)), ('b', text(g, names))], 'mul a b', len(f) * len(g))

    def div(self, name, names, f, g, modulus=0, plus='', product=None):
        """The product of f and g, computed here where it isn't given, divided by f."""
        product = canonical(product or times(f, g, modulus), names) + plus
        self.add(name, names, modulus, [('c', product), ('a', canonical(f, names))], 'div c a', len(f) * len(g))


def dense(folder, k):
    f = power(k, [(1, unit(i, 4)) for i in range(4)], 4)
    g = dict(f)
    g[0, 0, 0, 0] += 1
    folder.mul('dense%02d' % k, FOUR, f, g)
    folder.mul('dense_p%02d' % k, FOUR, f, g, MODULUS)
    product = power(2 * k, [(1, unit(i, 4)) for i in range(4)], 4)
    for m, c in f.items():
        product[m] += c
    reduced = {m: c % MODULUS for m, c in product.items() if c % MODULUS}
    folder.div('dense_div%02d' % k, FOUR, f, g, product=product)
    folder.div('dense_div_p%02d' % k, FOUR, f, g, MODULUS, product=reduced)
    folder.div('dense_none%02d' % k, FOUR, f, g, 0, '+1', product)


def powers(folder, k):
    ups = [(1, unit(0, 5)), (1, unit(1, 5)), (2, unit(2, 5, 2)), (3, unit(3, 5, 3)), (5, unit(4, 5, 5))]
    downs = [(1, unit(4, 5)), (1, unit(3, 5)), (2, unit(2, 5, 2)), (3, unit(1, 5, 3)), (5, unit(0, 5, 5))]
    f, g = power(k, ups, 5), power(k, downs, 5)
    folder.mul('powers%02d' % k, FIVE, f, g)
    folder.mul('powers_p%02d' % k, FIVE, f, g, MODULUS)


def sparse(folder, n):
    draw = Draw(11)
    for modulus in (0, MODULUS):
        f = random_terms(draw, n, 5, 12, 0 if modulus else 1000)
        g = random_terms(draw, n, 5, 12, 0 if modulus else 1000)
        folder.mul('sparse%s%05d' % ('_p' if modulus else '', n), FIVE, f, g, modulus, as_given)


def scattered(folder, n):
    draw = Draw(12)
    f, g = random_terms(draw, n, 4, 256, 1000), random_terms(draw, n, 4, 256, 1000)
    folder.mul('scattered%05d' % n, FOUR, f, g, 0, as_given)


def lopsided(folder, lengths):
    draw = Draw(13)
    f, g = (random_terms(draw, n, 4, 256, 1000) for n in lengths)
    folder.mul('few_many', FOUR, f, g, 0, as_given)
    folder.mul('many_few', FOUR, g, f, 0, as_given)


def sparse_division(folder, n):
    draw = Draw(14)
    folder.div('sparse_div%05d' % n, FIVE, random_terms(draw, n, 5, 12, 1000), random_terms(draw, n, 5, 12, 1000))


def long_division(folder, k):
    """A dense quotient of degree k, whose divisor has 15 terms."""
    draw = Draw(19)
    f = power(2, [(1, unit(i, 4)) for i in range(4)], 4)
    g = {m: draw(1000) + 1 for m in power(k, [(1, unit(i, 4)) for i in range(4)], 4)}
    folder.div('long_div%02d' % k, FOUR, f, g)


def remainder(folder, n):
    f = random_terms(Draw(15), n, 4, 64, 1000)
    folder.add('rem%06d' % n, FOUR, 0, [('c', as_given(f, FOUR)), ('d', 'x^8-3*y*z+2*t-5')], 'rem c d', None)


def remainder_of_residues(folder, sizes):
    n, m, top = sizes
    draw = Draw(16)
    f = random_terms(draw, n, 4, top, 0)
    g = {k: c for k, c in random_terms(draw, m, 4, 5, 0).items() if sum(k) < 8}
    g[8, 0, 0, 0] = 1
    folder.add('rem_p%05d' % n, FOUR, MODULUS, [('c', as_given(f, FOUR)), ('d', as_given(g, FOUR))], 'rem c d', None)


def shown(folder, n):
    f = random_terms(Draw(17), n, 4, 256, 10**6)
    folder.add('show%07d' % n, FOUR, 0, [('a', canonical(f, FOUR))], 'show a', None)
    folder.add('show_mixed%07d' % n, FOUR, 0, [('a', as_given(f, FOUR))], 'show a', None)


def tiny(folder, n):
    """So many products of 10 by 10 terms, one after another."""
    draw = Draw(18)
    body = ''
    for _ in range(n):
        f, g = random_terms(draw, 10, 3, 8, 100), random_terms(draw, 10, 3, 8, 100)
        body += 'a = %s\nb = %s\nmul a b\n' % (as_given(f, THREE), as_given(g, THREE))
    folder.write('tiny%05d' % n, THREE, 0, body, 'mul', n, 100 * n)


# each family, and what it is given in the small, the medium and the large size
FAMILIES = [
    (dense, [8], [12, 16], [20]),
    (powers, [5], [8, 10], [12]),
    (sparse, [300], [1000, 3000], [10000]),
    (scattered, [200], [1000], [3000]),
    (lopsided, [(10, 5000)], [(10, 100000)], [(30, 300000)]),
    (sparse_division, [100], [500], [1500]),
    (long_division, [10], [37], [45]),
    (remainder, [2000], [20000], [200000]),
    (remainder_of_residues, [(300, 20, 24)], [(2000, 60, 40)], [(5000, 200, 48)]),
    (shown, [10000], [100000], [1000000]),
    (tiny, [200], [2000], [20000]),
]


# four products whose answers are dense and less and less so, in each size
FOUR_PRODUCTS = {
    'small': ['dense08', 'powers05', 'sparse00300', 'scattered00200'],
    'medium': ['dense16', 'powers10', 'sparse03000', 'scattered01000'],
    'large': ['dense20', 'powers12', 'sparse10000', 'scattered03000'],
}

# and divisions: dense, sparse, with a long quotient, and with remainders by some 25 terms and by four
DIVISIONS = {
    'small': ['dense_div08', 'sparse_div00100', 'long_div10', 'rem_p00300', 'rem002000'],
    'medium': ['dense_div12', 'dense_div16', 'sparse_div00500', 'long_div37', 'rem_p02000', 'rem020000'],
    'large': ['dense_div20', 'sparse_div01500', 'long_div45', 'rem_p05000', 'rem200000'],
}


def write_folder(path, size):
    """Writes the sessions of a size and their manifest, whose rows it gives by their names."""
    folder = Folder(path)
    for family, *sizes in FAMILIES:
        for given in sizes[SIZES.index(size)]:
            family(folder, given)
    with open(os.path.join(path, 'manifest.json'), 'w') as file:
        json.dump(folder.rows, file, indent=1)
    return {row['name']: row for row in folder.rows}


def main():
    parser = argparse.ArgumentParser(usage=__doc__)
    parser.add_argument('folder')
    parser.add_argument('--size', choices=SIZES, default='medium')
    words = parser.parse_args()
    write_folder(words.folder, words.size)


if __name__ == '__main__':
    main()
