"""Reads the parts of a page in Markdown: its headings, tables, blocks between fences, and the code in its lines."""
import re
from collections import namedtuple

# each with the number of the line in which it begins; the cells of a table are stripped
Heading = namedtuple('Heading', 'line text')
Table = namedtuple('Table', 'line head rows')
Block = namedtuple('Block', 'line word lines')
Text = namedtuple('Text', 'line text')

SPAN = re.compile(r'`([^`]+)`')
CELL = re.compile(r'(?<!\\)\|')


def cells(line):
    return [cell.strip().replace('\\|', '|') for cell in CELL.split(line.strip().strip('|'))]


def spans(text):
    """The pieces of code in a text."""
    return SPAN.findall(text)


def parts(path):
    """The parts of a page, in order."""
    with open(path, encoding='utf-8') as file:
        lines = file.read().split('\n')
    found, at = [], 0
    while at < len(lines):
        line, begin = lines[at], at
        at += 1
        if line.startswith('```'):
            while not lines[at].startswith('```'):
                at += 1
            found.append(Block(begin + 1, line[3:].strip(), lines[begin + 1:at]))
            at += 1
        elif line.startswith('|'):
            while lines[at].startswith('|'):
                at += 1
            rows = [(number + 1, cells(lines[number])) for number in range(begin + 2, at)]
            found.append(Table(begin + 1, cells(line), rows))
        elif line.startswith('#'):
            found.append(Heading(begin + 1, line.lstrip('# ')))
        elif line.strip():
            found.append(Text(begin + 1, line))
    return found
