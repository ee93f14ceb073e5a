#!/usr/bin/env python3
"""Makes the allocations of a run fail one at a time, each in a run of its own.

    fail_alloc.py [--sdmp PROGRAM]

For each session below, N counts from 1 until a run has fewer than N
allocations. Each run has to end with the status of want of memory and with the
first k pieces of the session's answer written, or with the whole answer.
The program is the proved one, as LLVM builds it; gcc builds the shim that is
loaded before the C library. Prints how many runs were made.

Exit status: 0, or 1 where a run wrote something else.
"""
import argparse
import os
import subprocess
import sys
import tempfile

from shared import HERE, program

NO_MEMORY = 5

GEOMETRIC = '+'.join(['x^%d' % k for k in range(199, 1, -1)] + ['x', '1'])

# a name, the words, the session, and the pieces of its answer
SESSIONS = [
    ('product', [], 'vars x\nring Z\na = x+1\nb = x-1\nmul a b\n', ['x^2-1\n']),
    ('remainder', [], 'vars x y\nring Z\na = x^2*y+x*y^2+y^2\nb = x*y-1\nrem a b\n', ['x+y\ny^2+x+y\n']),
    ('quotient', ['--workers', '4', '--places', '2'], 'vars x\nring Z\na = x^200-1\nb = x-1\ndiv a b\n', [GEOMETRIC + '\n']),
]


def run(sdmp, shim, words, session, number):
    """The exit status, what was written, and the count of allocations."""
    there, here = os.pipe()
    child = subprocess.Popen(
        ['bash', '-c', 'exec 3>&%d; LD_PRELOAD=%s FAIL_ALLOC=%d exec "$@"' % (here, shim, number), 'run', sdmp] + words,
        stdin=subprocess.PIPE, stdout=subprocess.PIPE, pass_fds=[here])
    os.close(here)
    out, _ = child.communicate(session.encode())
    with os.fdopen(there) as count:
        return child.returncode, out.decode(), int(count.read())


def main():
    parser = argparse.ArgumentParser(description=__doc__.split('\n')[0])
    parser.add_argument('--sdmp', default=program.SDMP)
    sdmp = parser.parse_args().sdmp
    wrong = runs = 0
    with tempfile.TemporaryDirectory() as folder:
        shim = os.path.join(folder, 'fail_alloc.so')
        subprocess.run(['gcc', '-O2', '-shared', '-fPIC', '-o', shim, os.path.join(HERE, 'fail_alloc.c')], check=True)
        for name, words, session, pieces in SESSIONS:
            beginnings = [''.join(pieces[:k]) for k in range(len(pieces) + 1)]
            number = failed = 0
            while True:
                number += 1
                status, out, count = run(sdmp, shim, words, session, number)
                runs += 1
                if status == NO_MEMORY and out in beginnings:
                    failed += 1
                elif status != 0 or out != beginnings[-1]:
                    wrong += 1
                    print('%s: allocation %d: status %d, %d bytes: not one of the answers' % (name, number, status, len(out)))
                if count < number:
                    break
            print('%s: %d allocations failed one at a time, %d runs wanted memory' % (name, number - 1, failed))
    print('%d runs, %d wrong' % (runs, wrong))
    return 1 if wrong else 0


if __name__ == '__main__':
    sys.exit(main())
