"""The programs that are measured: where they stand, and how they are built."""
import os
import subprocess

HERE = os.path.dirname(os.path.abspath(__file__))
CRATES = os.path.join(HERE, '..', 'crates')
DOCS = os.path.join(HERE, '..', 'docs')
SDMP = os.path.join(CRATES, 'sdmp_cli', 'out', 'sdmp_cli')


def of_crate(name, words):
    """The program of a crate, which is proved and built where it isn't, and tried on the crate's own input."""
    folder = os.path.join(CRATES, name)
    with open(os.path.join(folder, 'stdin'), 'rb') as source:
        subprocess.run(['rt', 'run', '--', *words], cwd=folder, check=True, stdin=source, stdout=subprocess.DEVNULL)
    return os.path.join(folder, 'out', name)


def flint_peer(folder):
    """The program of flint_peer.c, built into the folder, or None with a word of why."""
    peer = os.path.join(folder, 'flint_peer')
    source = os.path.join(HERE, 'flint_peer.c')
    build = ['gcc', '-O2', '-march=native', '-o', peer, source, '-lflint', '-lmpfr', '-lgmp', '-lpthread', '-lm']
    done = subprocess.run(build, stderr=subprocess.PIPE)
    if done.returncode != 0:
        print('FLINT is skipped: its peer was not built (is libflint-dev there?)')
        return None
    return peer


def measured_on():
    """A line that says which commit and machine the figures of a run are of."""
    described = subprocess.run(['git', 'describe', '--always', '--dirty', '--exclude', '*'], cwd=HERE, stdout=subprocess.PIPE, text=True)
    commit = described.stdout.strip() or 'none'
    with open('/proc/cpuinfo') as file:
        models = [line.partition(':')[2].strip() for line in file if line.startswith('model name')]
    memory = os.sysconf('SC_PAGE_SIZE') * os.sysconf('SC_PHYS_PAGES') / 2 ** 30
    return 'Measured at commit `%s` on %d processors (%s) with %.0f GiB of memory.' % (commit, os.cpu_count(), models[0] if models else os.uname().machine, memory)
