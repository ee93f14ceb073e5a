"""What a page asks to be run, a check for each kind of its parts; documented_commands.py tells how pages say it."""
import os
import re
import tempfile

from shared import pages

# what isn't run, as it is shown, with the reason
NOT_RUN = {
    './sdmp < SESSION': 'stands for any session; those that are shown are run',
    '(cd crates/sdmp_cli; rt try) < SESSION': 'builds another program, which takes some minutes',
    'rt ci': 'proves everything, which takes hours, and takes all processors',
    'a = x^1073741824-1, b = x-1, div a b': 'the quotient has 2^30 terms, which take 32 GiB and more',
}
COMMANDS = './sdmp', 'rt', 'cd', 'printf', 'python3', '.ci/', 'trials/', 'bench/'
FIRST = 'examples/first.sdmp'
FAULT = re.compile(rb'line \d+: ')
DEMO_SEED = 7


class Differs(Exception):
    """What was wanted and what came, in words."""


class NotRun(Exception):
    """The reason why something isn't run."""


class Asked:
    """A thing to be run: the line of the page, its kind, how it is shown, and the call that runs and compares it."""

    def __init__(self, line, kind, shown, call, *words):
        self.line = line
        self.kind = kind
        self.shown = shown
        self.call = call
        self.words = words

    def check(self):
        if self.shown in NOT_RUN:
            raise NotRun(NOT_RUN[self.shown])
        self.call(*self.words)


def compare(what, wanted, came):
    if wanted != came:
        raise Differs('%s is %s\nin place of %s' % (what, shortened(came), shortened(wanted)))


def shortened(value):
    value = value.decode(errors='replace') if isinstance(value, bytes) else value
    return value if isinstance(value, int) else repr(value[:2000])


def lines_text(lines):
    return ''.join(line + '\n' for line in lines).encode()


def answered(runner, session, wanted, command='./sdmp'):
    """Runs a session, of which all that is written has to be the wanted text, and its last line a fault where the status is 2."""
    status, output, errors = runner.shell(command, session)
    compare('the output', wanted, output)
    compare('the status', status_of(wanted), status)
    compare('standard error', b'', errors)


def status_of(written):
    lines = written.splitlines()
    return 2 if lines and FAULT.match(lines[-1]) else 0


# commands of the shell

def consoles(part, _, runner):
    if not isinstance(part, pages.Block) or part.word != 'console':
        return
    groups = []
    for number, line in enumerate(part.lines, part.line + 1):
        if line.startswith('$ ') or not groups:
            groups.append((number, line.removeprefix('$ '), []))
        else:
            groups[-1][2].append(line)
    for (number, command, shown), (_, following, status) in zip(groups, groups[1:] + [(0, '', [])]):
        if command == 'echo $?':
            continue
        wanted = int(status[0]) if following == 'echo $?' else 0
        if shown and shown[0].startswith('>>> '):
            yield Asked(number, 'lines of Python', command, ask_python, runner, command, shown)
        else:
            yield Asked(number, 'commands', command, ask_shell, runner, command, lines_text(shown), wanted)


def ask_shell(runner, command, wanted, status):
    came, output, _ = runner.shell(command, merged=True)
    compare('what is shown', wanted, output)
    compare('the status', status, came)


def ask_python(runner, command, shown):
    with tempfile.NamedTemporaryFile('w', suffix='.txt') as file:
        file.write('\n'.join(shown) + '\n')
        file.flush()
        status, output, errors = runner.shell('%s -m doctest %s' % (command, file.name))
    if status or output or errors:
        raise Differs((output + errors).decode())


def commands_in_text(part, _, runner):
    """Commands of two words and more in lines of text and in tables that say nothing else of them."""
    if isinstance(part, pages.Text):
        found = [(part.line, part.text)]
    elif isinstance(part, pages.Table) and 'For example' not in part.head:
        found = [(number, ' '.join(row)) for number, row in part.rows]
    else:
        return
    for number, text in found:
        for command in pages.spans(text):
            first, *more = re.sub(r'^\(?(\w+=\S+ )*', '', command).split()
            if more and first.startswith(COMMANDS):
                yield Asked(number, 'commands in text, which ended well', command, ask_status, runner, command)


def ask_status(runner, command):
    status, output, errors = runner.shell(command)
    if status:
        raise Differs('the status is %d\n%s' % (status, (output + errors).decode(errors='replace')[-2000:]))


# sessions

def sessions(part, later, runner):
    if isinstance(part, pages.Block) and part.word == 'session':
        following = next((p for p in later if isinstance(p, pages.Block)), pages.Block(0, 'missing', []))
        yield Asked(part.line, 'sessions', part.lines[-1], ask_session, runner, part.lines, following)


def ask_session(runner, session, following):
    compare('the word of the next block', 'answers', following.word)
    answered(runner, lines_text(session), lines_text(following.lines))


def example_rows(part, _, runner):
    if not isinstance(part, pages.Table):
        return
    example, written = (column(part, name) for name in ('For example', 'Written'))
    if example is None or written is None or 'Status' in part.head:
        return
    before, after = pages.spans(part.head[example]), pages.spans(part.head[written])
    for number, row in part.rows:
        lines = pages.spans(row[example])
        session = lines_text(before + lines + after)
        yield Asked(number, 'examples', ', '.join(lines) or 'an empty input', answered, runner, session, lines_text(pages.spans(row[written])))


def column(table, name):
    """The place of the column whose head begins with the name, or None."""
    return next((at for at, head in enumerate(table.head) if head.startswith(name)), None)


def degree_limits(part, _, runner):
    if not isinstance(part, pages.Table) or part.head[0] != 'Variables':
        return
    ((number, row),) = part.rows
    for count, limit in zip(map(int, part.head[1:]), map(int, row[1:])):
        for degree, wanted in (limit, 'v1^%d' % limit), (limit + 1, 'line 3: degree bound at 5'):
            names = ' '.join('v%d' % i for i in range(1, count + 1))
            session = ['vars ' + names, 'ring Z', 'a = v1^%d' % degree, 'show a']
            yield Asked(number, 'degrees at their limits', 'v1^%d' % degree, answered, runner, lines_text(session), lines_text([wanted]))


# words of the command line

def options(part, _, runner):
    if not isinstance(part, pages.Table) or part.head[:2] != ['Option', 'Numbers']:
        return
    for number, row in part.rows:
        names = [span.split()[0].partition('=')[0] for span in pages.spans(row[0])]
        if not row[1]:
            for name in names:
                yield Asked(number, 'words', name, ask_status, runner, './sdmp ' + name)
            continue
        least, most = (int(word) for word in row[1].split(' to '))
        for form in '%s %d', '%s=%d':
            for value in least, most, least - 1, most + 1:
                words = form % (names[0], value)
                yield Asked(number, 'words', words, ask_words, runner, words, least <= value <= most)


def words_said(part, _, runner):
    if not isinstance(part, pages.Table) or part.head != ['Words', 'What they say']:
        return
    for number, row in part.rows:
        for words in pages.spans(row[0]):
            yield Asked(number, 'words', words, ask_words, runner, words, not row[1].startswith('faulty'))


def ask_words(runner, words, is_accepted):
    """Accepted words change no answer of a session; of faulty ones nothing is read and nothing written."""
    with open(os.path.join(runner.folder, FIRST), 'rb') as source:
        status, output, errors = runner.shell('./sdmp ' + words, source)
        left = source.read()
    if not is_accepted:
        compare('the status', 1, status)
        compare('the output', b'', output)
        compare('what is left of the input', file_of(runner, FIRST), left)
        return
    compare('the status', 0, status)
    compare('standard error', b'', errors)
    demo = re.fullmatch(r'--demo[ =](\d+)', words)
    if demo:
        compare('the first line', b'seed %d' % int(demo[1]), output.split(b'\n')[0])
        compare('what is left of the input', file_of(runner, FIRST), left)
    else:
        compare('the output', file_of(runner, FIRST.replace('.sdmp', '.out')), output)


def file_of(runner, name):
    with open(os.path.join(runner.folder, name), 'rb') as file:
        return file.read()


def statuses(part, _, runner):
    if not isinstance(part, pages.Table) or part.head[0] != 'Status' or 'For example' not in part.head:
        return
    example, written = part.head.index('For example'), part.head.index('Written')
    for number, row in part.rows:
        (command,) = pages.spans(row[example])
        yield Asked(number, 'statuses', command, ask_ending, runner, command, int(row[0]), row[written])


def ask_ending(runner, command, status, written):
    came, output, errors = runner.shell(command)
    compare('the status', status, came)
    if status != 1:
        compare('standard error', b'', errors)
    name = re.search(r'(examples/\w+)\.sdmp', command)
    if written == 'nothing' or not name:
        compare('the output', b'', output)
    elif status in (0, 2):
        compare('the output', file_of(runner, name[1] + '.out'), output)
    elif not file_of(runner, name[1] + '.out').startswith(output) or output[-1:] not in (b'', b'\n'):
        raise Differs('the output is no whole answers: %s' % shortened(output))


# the demo

def demos(part, later, runner):
    if isinstance(part, pages.Block) and part.word == 'template' and part.lines[0].startswith('vars '):
        summary = next(p for p in later if isinstance(p, pages.Block) and p.word == 'template')
        yield Asked(part.line, 'demos', '--demo %d' % DEMO_SEED, ask_demo, runner, part.lines, summary.lines)


def ask_demo(runner, template, summary):
    session = demo_session(template, DEMO_SEED)
    status, text, _ = runner.shell('./sdmp', session)
    compare('the status of the session', 0, status)
    numbers = {'S': DEMO_SEED, 'N': len(session), 'L': text.count(b'\n'), 'B': len(text), 'T': sum(text)}
    wanted = [' '.join(str(numbers.get(word, word)) for word in line.split()) for line in summary]
    answered(runner, b'', lines_text(wanted), './sdmp --demo %d' % DEMO_SEED)


def demo_session(template, seed):
    """The session that the page makes of a seed."""
    state = seed

    def draw(bound):
        nonlocal state
        state = (state * 6364136223846793005 + 1442695040888963407) % 2 ** 64
        return state // 2 ** 33 % bound

    def term():
        sign, coefficient = '+-'[draw(2)], 1 + draw(1000)
        return '%s%d*x^%d*y^%d*z^%d*t^%d' % (sign, coefficient, draw(24), draw(24), draw(24), draw(24))

    lines = []
    for line in template:
        if 'TERMS' in line:
            line = line.replace('TERMS', ''.join(term() for _ in range(1500)))
        elif '^E' in line:
            line = line.replace('^E', '^%d' % (200 + draw(800)))
        lines.append(line)
    return lines_text(lines)


def other_blocks(part, _, runner):
    """A grammar is the model's; a block without a word is nothing that can be run."""
    if isinstance(part, pages.Block) and part.word not in ('console', 'session', 'answers', 'template'):
        yield Asked(part.line, 'blocks', part.lines[0], refuse, part.word)


def refuse(word):
    if word == 'grammar':
        raise NotRun('a grammar; random_sessions.py tries it')
    raise Differs('a block that says nothing of how it is run: %r' % word)


CHECKS = consoles, commands_in_text, sessions, example_rows, degree_limits, options, words_said, statuses, demos, other_blocks
