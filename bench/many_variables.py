#!/usr/bin/env python3
"""Compares products in eight to fifteen variables with FLINT's and Singular's, term by term.

    many_variables.py [--sdmp PROGRAM] [--runs N] [--workers W]

Each product has sparse factors of 1000 terms, whose degrees the limits of so
many variables just hold, over the integers and modulo a prime. FLINT answers in
sdmp's own text, so the bytes are compared; Singular's answer is read, and its
terms are compared in their order. They take turns, N times each (3), and the
least wall time counts, that of reading among it; Singular's own start, some
tenths of a second, is told apart. Either is left out where it isn't installed
(Debian's libflint-dev, and singular-ui).

Exit status: 0, or 1 where answers differ or a run fails.
"""
import argparse
import os
import re
import shutil
import subprocess
import sys
import tempfile
import time

import program
import turns
from workloads import Draw, as_given, random_terms

NAMES = 'a b c d e f g h i j k l m n o'.split()
PRIME = 2 ** 31 - 1
TERMS = 1000
# for each number of variables a bound on each exponent, so that a product keeps within the limit of its degree
TOPS = {8: 512, 9: 113, 10: 51, 11: 23, 12: 10, 13: 9, 14: 5, 15: 4}


def factors(variables, modulus):
    draw = Draw(variables)
    return [random_terms(draw, TERMS, variables, TOPS[variables], modulus and modulus - 1 or 1000) for _ in range(2)]


def session_text(names, modulus, texts):
    ring = 'mod %d' % modulus if modulus else 'Z'
    return 'vars %s\nring %s\nA = %s\nB = %s\nmul A B\n' % (' '.join(names), ring, *texts)


def singular_text(names, modulus, texts):
    base = str(modulus) if modulus else 'integer'
    return 'ring r=%s,(%s),Dp;\nshort=0;\npoly A=%s;\npoly B=%s;\nprint(string(A*B));\nquit;\n' % (base, ','.join(names), *texts)


def terms_of(text, modulus):
    """The terms of an answer, in its order, as pairs of the monomial's text and the coefficient."""
    found = []
    for sign, body in re.findall(r'([+-]?)([^+-]+)', text.strip()):
        head, _, tail = body.partition('*')
        number, monomial = (head, tail) if head.isdigit() else ('1', body)
        value = int(sign + number)
        found.append((monomial, value % modulus if modulus else value))
    return found


def output(command, text):
    done = subprocess.run(command, input=text.encode(), stdout=subprocess.PIPE)
    return done.stdout.decode() if done.returncode == 0 else None


def seconds(command, text):
    began = time.perf_counter()
    subprocess.run(command, input=text.encode(), stdout=subprocess.DEVNULL)
    return time.perf_counter() - began


def compared(name, names, modulus, texts, commands, runs):
    """Prints a row. Whether all answers are the same."""
    sessions = {peer: (singular_text if peer == 'Singular' else session_text)(names, modulus, texts) for peer in commands}
    answers = {peer: output(commands[peer], sessions[peer]) for peer in commands}
    if any(answer is None for answer in answers.values()):
        print('%s: a run failed' % name)
        return False
    wanted = terms_of(answers['sdmp'], modulus)
    same = answers.get('FLINT', answers['sdmp']) == answers['sdmp']
    same = same and all(terms_of(answer, modulus) == wanted for answer in answers.values())
    least = {peer: min(seconds(commands[peer], sessions[peer]) for _ in range(runs)) for peer in commands}
    print('| %s | %d | %s | %s |' % (name, len(wanted), ' | '.join('%.3f' % least[peer] for peer in commands), 'same' if same else 'OTHER'), flush=True)
    return same


def main():
    parser = argparse.ArgumentParser(usage=__doc__)
    parser.add_argument('--sdmp', default=program.SDMP)
    parser.add_argument('--runs', type=int, default=3)
    parser.add_argument('--workers', default='1')
    words = parser.parse_args()
    same = True
    with tempfile.TemporaryDirectory() as scratch:
        commands = {'sdmp': [os.path.abspath(words.sdmp), '--workers', words.workers]}
        peer = program.flint_peer(scratch)
        if peer:
            commands['FLINT'] = [peer, '--heap', '--workers', words.workers]
        if shutil.which('Singular'):
            commands['Singular'] = ['Singular', '-q', '--no-rc']
            print('Singular starts and ends in %.3f s.' % min(seconds(commands['Singular'], 'quit;\n') for _ in range(words.runs)))
        print(program.measured_on())
        print('| product | terms | %s | answers |' % ' | '.join('%s s' % peer for peer in commands))
        print('|' + '---|' * (len(commands) + 3))
        for variables in TOPS:
            names = NAMES[:variables]
            for modulus in (0, PRIME):
                texts = [as_given(f, names) for f in turns.apart(factors, variables, modulus)]
                name = '%d variables, %s' % (variables, 'residues' if modulus else 'integers')
                same = compared(name, names, modulus, texts, commands, words.runs) and same
    return 0 if same else 1


if __name__ == '__main__':
    sys.exit(main())
