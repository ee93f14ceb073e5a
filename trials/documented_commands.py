#!/usr/bin/env python3
"""Runs each command and session that README.md and docs/FORMAT.md show, as written, and compares what comes of it.

    documented_commands.py [--program PROGRAM] [--only WORD] [--skip WORD] [--limit SECONDS]

The program is the proved one, which ./sdmp builds first where it isn't there,
or PROGRAM. All runs in a scratch folder, a copy of the clone in which that
program stands as built. With --only what holds WORD as it is shown, with --skip
what doesn't; what lasts longer than the limit (600) differs. How the pages say
what comes of a command:

    ```console     `$ COMMAND`, and then all that a terminal shows of it. The
                   status is the one that `$ echo $?` shows next, else 0.
                   Where `>>>` follows, the command is asked these lines
    ```session     an input, whose answers are the next block,
    ```answers     the whole of them
    a table with the columns `For example` and `Written`
                   each row is an input: the lines in the head of the one, in
                   its cell and in the head of the other. The line in the cell
                   of the other is all that is written
    a table with the columns `Option` and `Numbers`
                   the least and the greatest number are accepted in both
                   forms, the numbers beside them are refused
    a table with the columns `Words` and `What they say`
                   words are accepted, or refused where it says `faulty`
    a table with the columns `Status` and `For example`
                   the command ends with that status; it writes what stands in
                   the .out file of its example, a beginning of it, or nothing
    a table with the rows `Variables` and `Degree limit`
                   a power of that degree is read, and the next one refused
    ```template    those of the demo: its session is made of the one and run,
                   its summary of the other, and compared with --demo

A command in a line of text has to end with status 0. Whatever isn't run is
named with the reason. A session's status is 2 where its last line is a fault,
else 0, and nothing may stand on standard error.

Exit status: 0, or 1 where something else came, or a page shows what this
script can't read.
"""
import argparse
import os
import shutil
import signal
import subprocess
import sys
import tempfile

from documented_checks import CHECKS, Differs, NotRun
from shared import HERE, pages, program

TOP = os.path.dirname(HERE)
PAGES = 'README.md', os.path.join('docs', 'FORMAT.md')
COPIED = 'README.md', 'docs', 'examples', 'python', 'sdmp'


def scratch_clone(folder, built):
    """Lays out a clone in the folder in which the program is built and newer than all sources."""
    for name in COPIED:
        path = os.path.join(TOP, name)
        copy = shutil.copytree if os.path.isdir(path) else shutil.copy
        copy(path, os.path.join(folder, name))
    target = os.path.join(folder, os.path.relpath(program.SDMP, TOP))
    os.makedirs(os.path.dirname(target))
    open(os.path.join(folder, 'crates.txt'), 'w').close()
    shutil.copy(built, target)
    os.utime(target)


def built_program():
    """The proved program; ./sdmp tells on standard error how it is built."""
    done = subprocess.run([os.path.join(TOP, 'sdmp')], stdin=subprocess.DEVNULL, stdout=subprocess.DEVNULL)
    if done.returncode == 70:
        sys.exit('the program was not built')
    return program.SDMP


class Report:
    """How many were run of each kind, and what differed or wasn't run."""

    def __init__(self):
        self.counts = {}
        self.differing = []
        self.not_run = []

    def note(self, page, asked):
        try:
            asked.check()
        except NotRun as reason:
            self.skip(page, asked, reason)
            return
        except Differs as difference:
            self.differing.append('%s:%d  %s\n%s' % (page, asked.line, asked.shown, difference))
        key = page, asked.kind
        self.counts[key] = self.counts.get(key, 0) + 1

    def skip(self, page, asked, reason):
        self.not_run.append('%s:%d  %s: %s' % (page, asked.line, asked.shown, reason))

    def print(self):
        for (page, kind), count in self.counts.items():
            print('%s: %d %s' % (page, count, kind))
        print('%d run and compared, %d of them with a difference' % (sum(self.counts.values()), len(self.differing)))
        for title, lines in (('not run', self.not_run), ('differing', self.differing)):
            if lines:
                print('\n%s:\n  %s' % (title, '\n  '.join(line.replace('\n', '\n    ') for line in lines)))


def asked_of(page, folder, limit):
    """All that the page asks to be run."""
    parts = pages.parts(os.path.join(TOP, page))
    for at, part in enumerate(parts):
        for check in CHECKS:
            yield from check(part, parts[at + 1:], Runner(folder, limit)) or ()


class Runner:
    """Runs commands in the scratch clone."""

    def __init__(self, folder, limit):
        self.folder = folder
        self.limit = limit

    def shell(self, command, session=None, merged=False):
        """Status, output and errors of a line of the shell, whose input is a session or a file."""
        source = subprocess.PIPE if isinstance(session, bytes) else session or subprocess.DEVNULL
        errors = subprocess.STDOUT if merged else subprocess.PIPE
        child = subprocess.Popen(['bash', '-c', command], cwd=self.folder, stdin=source, stdout=subprocess.PIPE, stderr=errors, start_new_session=True)
        try:
            output, errors = child.communicate(session if source == subprocess.PIPE else None, self.limit)
        except subprocess.TimeoutExpired:
            os.killpg(child.pid, signal.SIGKILL)
            child.communicate()
            raise Differs('no end after %g seconds' % self.limit) from None
        return child.returncode, output, errors or b''


def main():
    parser = argparse.ArgumentParser(usage=__doc__)
    parser.add_argument('--program')
    parser.add_argument('--only', default='')
    parser.add_argument('--skip')
    parser.add_argument('--limit', type=float, default=600)
    words = parser.parse_args()
    built = os.path.abspath(words.program) if words.program else built_program()
    report = Report()
    with tempfile.TemporaryDirectory() as folder:
        scratch_clone(folder, built)
        for page in PAGES:
            for asked in asked_of(page, folder, words.limit):
                if words.skip and words.skip in asked.shown:
                    report.skip(page, asked, 'told by --skip')
                elif words.only in asked.shown:
                    report.note(page, asked)
    report.print()
    return 1 if report.differing else 0


if __name__ == '__main__':
    sys.exit(main())
