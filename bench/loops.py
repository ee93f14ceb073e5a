"""Busy loops that take the processors' time from what is measured."""
import os
import signal
import subprocess
import sys


class BusyLoops:
    """So many processes that only count, stopped but where they are let run."""

    def __init__(self, count):
        self.count = count
        self.children = []

    def __enter__(self):
        for _ in range(self.count):
            self.children.append(subprocess.Popen([sys.executable, '-c', 'while True: pass']))
        self.stop()
        return self

    def __exit__(self, *_):
        for child in self.children:
            child.kill()
            child.wait()

    def run(self):
        self.tell(signal.SIGCONT)

    def stop(self):
        self.tell(signal.SIGSTOP)

    def tell(self, what):
        for child in self.children:
            os.kill(child.pid, what)
