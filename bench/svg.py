"""Writes pictures as SVG, with a background of their own, for light pages and for dark ones."""
from xml.sax.saxutils import escape

# the name of each colour, as it is on light pages and on dark ones
COLOURS = {
    'page': ('#ffffff', '#0d1117'),
    'ink': ('#1f2328', '#e6edf3'),
    'pale': ('#656d76', '#8d96a0'),
    'grid': ('#d8dee4', '#30363d'),
    'box': ('#f2f5f8', '#161b22'),
    'blue': ('#1b6ca8', '#58a6ff'),
    'red': ('#c8553d', '#ff8f73'),
    'green': ('#3a7d44', '#56d364'),
    'grey': ('#777777', '#a0a0a0'),
}
DASHES = {'whole': '', 'dashed': ' stroke-dasharray="7 4"', 'dotted': ' stroke-dasharray="2 4"'}


def style():
    """The rules of the colours: each fills by its name, and draws by its name after `line-`."""
    def rules(which):
        return ' '.join('.%s{fill:%s} .line-%s{stroke:%s}' % (name, both[which], name, both[which]) for name, both in COLOURS.items())
    return '<style>\n%s\n@media (prefers-color-scheme: dark){%s}\n</style>' % (rules(0), rules(1))


class Picture:
    """Shapes by coordinates from the left upper corner."""

    def __init__(self, width, height, title):
        self.parts = ['<svg xmlns="http://www.w3.org/2000/svg" viewBox="0 0 %d %d" width="%d" height="%d" font-family="sans-serif" font-size="13">'
                      % (width, height, width, height), '<title>%s</title>' % escape(title), style(), arrow_heads(),
                      '<rect class="page" width="%d" height="%d"/>' % (width, height)]

    def text(self, x, y, words, colour='ink', anchor='start', size=13, weight='normal'):
        self.parts.append('<text x="%.1f" y="%.1f" class="%s" text-anchor="%s" font-size="%d" font-weight="%s">%s</text>'
                          % (x, y, colour, anchor, size, weight, escape(str(words))))

    def line(self, points, colour='ink', dash='whole', width=2, arrow=False):
        end = ' marker-end="url(#%s)"' % colour if arrow else ''
        self.parts.append('<polyline points="%s" fill="none" class="line-%s" stroke-width="%g"%s%s/>'
                          % (' '.join('%.1f,%.1f' % point for point in points), colour, width, DASHES[dash], end))

    def rectangle(self, x, y, width, height, fill='box', colour='pale', dash='whole'):
        self.parts.append('<rect x="%.1f" y="%.1f" width="%.1f" height="%.1f" rx="4" class="%s line-%s"%s/>' % (x, y, width, height, fill, colour, DASHES[dash]))

    def dot(self, x, y, colour, is_filled=True, size=4):
        self.parts.append('<circle cx="%.1f" cy="%.1f" r="%g" class="%s line-%s" stroke-width="1.5"/>' % (x, y, size, colour if is_filled else 'page', colour))

    def cross(self, x, y, colour, size=4):
        for rise in size, -size:
            self.line([(x - size, y - rise), (x + size, y + rise)], colour, width=1.5)

    def write(self, path):
        with open(path, 'w') as file:
            file.write('\n'.join(self.parts + ['</svg>', '']))


def arrow_heads():
    """A head for the arrows of each colour."""
    heads = ('<marker id="%s" viewBox="0 0 10 10" refX="9" refY="5" markerWidth="7" markerHeight="7" orient="auto-start-reverse"><path d="M0 1 10 5 0 9z" class="%s"/></marker>'
             % (name, name) for name in ('ink', 'pale', 'blue', 'red', 'green'))
    return '<defs>%s</defs>' % ''.join(heads)
