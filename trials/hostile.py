#!/usr/bin/env python3
"""Gives the program large inputs, broken sinks and sources, and little memory.

    hostile.py [--sdmp PROGRAM] [--size BYTES] [--runs N] [--every N] [--only WORD]

Large inputs: sessions of BYTES (67108864) and of half as many, by each maker
below, each N times (3), of which the least processor time counts. The answer
has to be that of docs/FORMAT.md, the time of the whole at most 2.3 times that
of the half, and the peak of memory, beyond that of an empty session, at most
3 times what has to be held: the input, and 32 bytes a term.

Sinks and sources: a pipe that its reader closes after each count of bytes, or
after each Nth (1); /dev/full; descriptors that are closed; a directory as input.
Limits: each power of two as the limit on the address space.

Nothing may stand on standard error. With --only, the cases whose names hold
the word. `--size 262144 --runs 1 --every 101` takes some seconds; products by four
workers take most of the time of a large size.

Exit status: 0, or 1 where a run did something else.
"""
import argparse
import fcntl
import itertools
import os
import resource
import subprocess
import sys
import tempfile
from collections import namedtuple

from shared import program, turns

MOST = 1 << 26
TERM = 32
LINEAR = 2.3
HELD = 3
# below so many processor seconds of the half its ratio says nothing
SHORT = 0.02

DONE, BAD_WORDS, FAULT, READING, WRITING, NO_MEMORY, TOO_LONG = range(7)
HEAD = b'vars x\nring Z\n'
LETTERS = 'abcdefghijklmnopqrstuvwxyzABCDEFGHIJKLMNOPQRSTUVWXYZ_'
DIGITS = LETTERS + '0123456789'
RESERVED = {'vars', 'ring', 'show', 'mul', 'div', 'rem', 'dot'}

# the status, a piece that is written so many times, what is written behind, and the terms that have to be held
Right = namedtuple('Right', 'status piece count behind terms')
Ended = namedtuple('Ended', 'status used memory errors')


def fault(line, text):
    return Right(FAULT, b'', 0, b'line %d: %s\n' % (line, text), 0)


def answer(text, terms):
    return Right(DONE, b'', 0, text, terms)


def repeat(target, piece, count):
    """Writes the piece so many times, in blocks."""
    block = piece * 4096
    for _ in range(count // 4096):
        target.write(block)
    target.write(piece * (count % 4096))


# Each maker writes a session of at most `size` bytes, and says what has to be answered.

def one_line(target, size):
    repeat(target, b'a', size)
    return fault(1, b'vars expected')


def one_blank_line(target, size):
    target.write(HEAD)
    repeat(target, b' ', size - len(HEAD))
    return answer(b'', 0)


def line_feeds(target, size):
    repeat(target, b'\n', size)
    return fault(size + 1, b'vars expected')


def line_feeds_behind_a_header(target, size):
    target.write(HEAD + b'a=1\n')
    repeat(target, b'\n', size - len(HEAD) - 11)
    target.write(b'show a\n')
    return answer(b'1\n', 1)


def plus_signs(target, size):
    target.write(HEAD + b'a = ')
    repeat(target, b'+', size - len(HEAD) - 4)
    return fault(3, b'syntax at 6')


def one_number(target, size):
    target.write(HEAD + b'a = ')
    repeat(target, b'9', size - len(HEAD) - 4)
    return fault(3, b'coefficient bound at 5')


def one_number_of_zeros(target, size):
    target.write(HEAD + b'a=')
    repeat(target, b'0', size - len(HEAD) - 11)
    target.write(b'7\nshow a\n')
    return answer(b'7\n', 1)


def one_term(target, size):
    powers = (size - len(HEAD) - 12) // 2
    target.write(HEAD + b'a=x')
    repeat(target, b'*x', powers)
    target.write(b'\nshow a\n')
    return answer(b'x^%d\n' % (powers + 1), 1)


def terms(target, size):
    more = (size - len(HEAD) - 12) // 2
    target.write(HEAD + b'a=1')
    repeat(target, b'+1', more)
    target.write(b'\nshow a\n')
    return answer(b'%d\n' % (more + 1), more + 1)


def cancelling_terms(target, size):
    """x^1 to x^m are added in turn and then taken off in turn, with exponents of eight digits."""
    count = (size - len(HEAD) - 12) // 22
    target.write(HEAD + b'a=')
    for sign in b'+x^%08d', b'-x^%08d':
        for first in range(0, count, 4096):
            target.write(b''.join(sign % k for k in range(first + 1, min(first + 4096, count) + 1)))
    target.write(b'\nshow a\n')
    return answer(b'0\n', 2 * count)


def definitions(target, size, before='', letters=4, distinct=True):
    """Definitions by names that begin alike, each of its own name, or in turns by the same names."""
    length = len(before) + letters + 3
    count = (size - len(HEAD)) // length
    target.write(HEAD)
    first = LETTERS if not before else DIGITS
    names = (before + ''.join(name) for name in itertools.product(first, *[DIGITS] * (letters - 1)))
    names = (name for name in names if name not in RESERVED)
    if not distinct:
        names = itertools.cycle(names)
        most = len(first) * len(DIGITS) ** (letters - 1) - sum(len(name) == length - 3 for name in RESERVED)
    lines = ((name + '=1\n').encode() for name in itertools.islice(names, count))
    for block in iter(lambda: b''.join(itertools.islice(lines, 4096)), b''):
        target.write(block)
    return answer(b'', count if distinct else min(count, most))


def repeated_definitions(target, size):
    return definitions(target, size, letters=3, distinct=False)


def names_alike_in_28_bytes(target, size):
    return definitions(target, size, 'a' * 28)


def names_alike_in_31_bytes(target, size):
    return definitions(target, size, 'a' * 31, 1, False)


def products(target, size):
    head = HEAD + b'a=x+1\nb=x-1\n'
    count = (size - len(head)) // 8
    target.write(head)
    repeat(target, b'mul a b\n', count)
    return Right(DONE, b'x^2-1\n', count, b'', 4)


def products_by_one_worker(target, size):
    return products(target, size)


def too_long(target, size):
    """One byte more than an input may have, whatever the size."""
    repeat(target, b'\n', MOST + 1)
    return Right(TOO_LONG, b'', 0, b'', 0)


MAKERS = [one_line, one_blank_line, line_feeds, line_feeds_behind_a_header, plus_signs, one_number,
          one_number_of_zeros, one_term, terms, cancelling_terms, definitions, repeated_definitions,
          names_alike_in_28_bytes, names_alike_in_31_bytes, products, products_by_one_worker, too_long]
WORDS = {products_by_one_worker: ['--workers', '1']}


def run(words, source, sink, limit=None):
    """Runs the words from the source into the sink, under a limit on the address space."""
    bound = limit and (lambda: resource.setrlimit(resource.RLIMIT_AS, (limit, limit)))
    with tempfile.TemporaryFile() as errors:
        child = subprocess.Popen(words, stdin=source, stdout=sink, stderr=errors, preexec_fn=bound)
        _, ended, usage = os.wait4(child.pid, 0)
        child.returncode = os.waitstatus_to_exitcode(ended)
        errors.seek(0)
        return Ended(child.returncode, usage.ru_utime + usage.ru_stime, usage.ru_maxrss * 1024, errors.read(1000))


def is_written(out, right):
    """Whether the file holds what is right, which may be large."""
    out.seek(0)
    for first in range(0, right.count, 4096):
        block = right.piece * min(4096, right.count - first)
        if out.read(len(block)) != block:
            return False
    return out.read(len(right.behind) + 1) == right.behind


def least(words, session, right, runs):
    """The least time and the greatest peak of memory, and what was wrong."""
    used, memory, wrong = [], 0, []
    for _ in range(runs):
        with open(session, 'rb') as source, tempfile.TemporaryFile() as out:
            ended = run(words, source, out)
            used.append(ended.used)
            memory = max(memory, ended.memory)
            if ended.status != right.status:
                wrong.append('status %d, not %d' % (ended.status, right.status))
            elif not is_written(out, right):
                wrong.append('another text')
            if ended.errors:
                wrong.append('standard error: %r' % ended.errors)
    return min(used), memory, wrong


def made(maker, session, size):
    with open(session, 'wb') as target:
        return maker(target, size)


def large(sdmp, maker, size, runs, folder):
    """One row of the table of large inputs; whether it was right."""
    rows = []
    for part in size // 2, size:
        session = os.path.join(folder, 'session')
        right = turns.apart(made, maker, session, part)
        length = os.path.getsize(session)
        rows.append((*least([sdmp] + WORDS.get(maker, []), session, right, runs), length + TERM * right.terms))
    (half, _, wrong, _), (whole, memory, more, held) = rows
    wrong += more
    ratio = whole / half if half >= SHORT and maker is not too_long else None
    with file_of(HEAD) as source:
        empty = run([sdmp], source, subprocess.DEVNULL).memory
    share = max(memory - empty, 0) / held
    if ratio and ratio > LINEAR:
        wrong.append('time not linear')
    if share > HELD:
        wrong.append('too much memory')
    said = '%.2f' % ratio if ratio else '-'
    print('| %s | %d | %.3f | %s | %.0f | %.2f | %s |' % (
        maker.__name__.replace('_', ' '), right.terms, whole, said, memory / 2 ** 20, share, '; '.join(sorted(set(wrong))) or 'right'), flush=True)
    return not wrong


def file_of(text):
    source = tempfile.TemporaryFile()
    source.write(text)
    source.seek(0)
    return source


def is_closed_after(sdmp, session, text, count):
    """A pipe of one page whose reader takes so many bytes and closes it."""
    there, here = os.pipe()
    page = fcntl.fcntl(there, fcntl.F_SETPIPE_SZ, 4096)
    with file_of(session) as source, tempfile.TemporaryFile() as errors:
        child = subprocess.Popen([sdmp], stdin=source, stdout=here, stderr=errors)
        os.close(here)
        taken = b''
        while len(taken) < count:
            block = os.read(there, count - len(taken))
            if not block:
                break
            taken += block
        os.close(there)
        status = child.wait()
        may = [WRITING] if count + page < len(text) else [WRITING, DONE]
        return status in may and taken == text[:count] and errors.seek(0, 2) == 0


def pipes(sdmp, every):
    lines = 1400
    session = HEAD + b'a=x^2-1\n' + b'show a\n' * lines
    text = b'x^2-1\n' * lines
    counts = range(0, len(text) + 1, every)
    wrong = [count for count in counts if not is_closed_after(sdmp, session, text, count)]
    print('closed pipes: %d places of %d bytes, %d wrong %s' % (len(counts), len(text), len(wrong), wrong[:5]))
    return not wrong


def expect(name, ended, status):
    right = ended.status == status and not ended.errors
    print('%s: status %d%s%s' % (name, ended.status, '' if right else ', not %d' % status, ', %r' % ended.errors if ended.errors else ''))
    return right


def through_shell(sdmp, session, redirection):
    with file_of(session) as source:
        return run(['bash', '-c', 'exec "$0" %s' % redirection, sdmp], source, subprocess.DEVNULL)


def devices(sdmp):
    shows = HEAD + b'a=x+1\nshow a\n'
    right = True
    for name, session, status in ('an answer', shows, WRITING), ('a fault', b'', WRITING), ('no answer', HEAD, DONE):
        right &= expect('/dev/full, ' + name, through_shell(sdmp, session, '> /dev/full'), status)
    right &= expect('closed output', through_shell(sdmp, shows, '>&-'), WRITING)
    right &= expect('closed input', through_shell(sdmp, shows, '<&-'), READING)
    right &= expect('a directory as input', through_shell(sdmp, shows, '< /'), READING)
    return right


def limits(sdmp):
    """Each power of two at which the program starts at all, which a run with faulty words shows."""
    power = b'+'.join(b'x^%d' % k for k in range(3000))
    product = (b'+'.join(b'%d*x^%d' % (min(k, 5998 - k) + 1, k) for k in range(5998, 1, -1)) + b'+2*x+1\n').replace(b'+1*x^', b'+x^')
    product = product[2:] if product.startswith(b'1*') else product
    session = HEAD + b'a=' + power + b'\nmul a a\ndiv a a\n'
    texts = [b'', product, product + b'1\n']
    wrong, ends = [], {}
    for exponent in range(1, 48):
        with open(os.devnull, 'rb') as source:
            try:
                starts = run([sdmp, 'words'], source, subprocess.DEVNULL, 1 << exponent).status == BAD_WORDS
            except (OSError, subprocess.SubprocessError):
                starts = False
        if not starts:
            ends[exponent] = 'not started'
            continue
        with file_of(session) as source, tempfile.TemporaryFile() as out:
            ended = run([sdmp], source, out, 1 << exponent)
            out.seek(0)
            text = out.read()
        ends[exponent] = ended.status
        right = text == texts[-1] if ended.status == DONE else ended.status == NO_MEMORY and text in texts
        if not right or ended.errors:
            wrong.append((exponent, ended.status, len(text), ended.errors))
    for end, group in itertools.groupby(ends, ends.get):
        group = list(group)
        print('limits of 2^%d to 2^%d bytes: %s' % (group[0], group[-1], end if isinstance(end, str) else 'status %d' % end))
    for one in wrong:
        print('wrong: 2^%d: status %d, %d bytes, standard error %r' % one)
    return not wrong


def main():
    parser = argparse.ArgumentParser(description=__doc__.split('\n')[0])
    parser.add_argument('--sdmp', default=program.SDMP)
    parser.add_argument('--size', type=int, default=MOST)
    parser.add_argument('--runs', type=int, default=3)
    parser.add_argument('--every', type=int, default=1)
    parser.add_argument('--only', default='')
    words = parser.parse_args()
    right = True
    print('| input of %d bytes | terms | seconds | to the half | MiB | of what is held | |\n|---|---|---|---|---|---|---|' % words.size)
    with tempfile.TemporaryDirectory() as folder:
        for maker in MAKERS:
            if words.only in maker.__name__:
                right &= large(words.sdmp, maker, words.size, words.runs, folder)
    for name, trial in ('pipes', lambda: pipes(words.sdmp, words.every)), ('devices', lambda: devices(words.sdmp)), ('limits', lambda: limits(words.sdmp)):
        if words.only in name:
            right &= trial()
    return 0 if right else 1


if __name__ == '__main__':
    sys.exit(main())
