"""Charts as SVG: a plain white ground, so that they are legible on a dark page too, and the same bytes for the same numbers."""
import dataclasses
import math
from xml.sax.saxutils import escape

COLOURS = ['#1f4e9c', '#c0392b', '#1e8449', '#7d3c98', '#b9770e', '#117a8b', '#5d4037', '#ad1457', '#455a64', '#6b8e00']
INK, PALE = '#222222', '#dddddd'


@dataclasses.dataclass(frozen=True)
class Axis:
    """Values from `low` to `high`, over the places from `start` to `end` of the picture."""
    low: float
    high: float
    start: float
    end: float
    logarithmic: bool

    def place(self, value):
        scale = math.log10 if self.logarithmic else float
        share = (scale(value) - scale(self.low)) / (scale(self.high) - scale(self.low))
        return self.start + share * (self.end - self.start)

    def ticks(self):
        if self.logarithmic:
            return [10.0**power for power in range(round(math.log10(self.low)), round(math.log10(self.high)) + 1)]
        step = step_of(self.high - self.low)
        return [self.low + k * step for k in range(int((self.high - self.low) / step + 0.5) + 1)]


def step_of(length):
    """A round step of which at most seven go into a length."""
    power = 10 ** math.floor(math.log10(length / 7))
    return next(factor * power for factor in (1, 2, 5, 10) if factor * power * 7 >= length)


def decades(values):
    """The powers of ten around values."""
    return 10.0 ** math.floor(math.log10(min(values))), 10.0 ** math.ceil(math.log10(max(values)))


def round_up(value):
    """The next round number from a value on."""
    step = step_of(value)
    return step * math.ceil(value / step)


def number(value, as_power):
    """A number as an axis shows it: a large power of ten as such where that is wanted."""
    if as_power and value >= 10000:
        return f'10^{round(math.log10(value))}'
    return f'{value:g}'


class Picture:
    """Elements of an SVG, one a line."""

    def __init__(self, width, height, title):
        self.lines = [
            f'<svg xmlns="http://www.w3.org/2000/svg" viewBox="0 0 {width} {height}" width="{width}" height="{height}"'
            ' font-family="sans-serif" font-size="12">',
            f'<title>{escape(title)}</title>',
            f'<rect width="{width}" height="{height}" fill="#ffffff"/>',
        ]
        self.text(width / 2, 22, title, anchor='middle', size=15)

    def text(self, x, y, words, anchor='start', colour=INK, size=12, turned=False):
        turn = f' transform="rotate(-90 {x:.1f} {y:.1f})"' if turned else ''
        self.lines.append(f'<text x="{x:.1f}" y="{y:.1f}" text-anchor="{anchor}" fill="{colour}" font-size="{size}"{turn}>'
                          f'{superscripts(words)}</text>')

    def line(self, points, colour, width=1.0, dashes=''):
        dashed = f' stroke-dasharray="{dashes}"' if dashes else ''
        joined = ' '.join(f'{x:.1f},{y:.1f}' for x, y in points)
        self.lines.append(f'<polyline points="{joined}" fill="none" stroke="{colour}" stroke-width="{width:g}"{dashed}/>')

    def dot(self, x, y, colour, hollow=False):
        inside = '#ffffff' if hollow else colour
        self.lines.append(f'<circle cx="{x:.1f}" cy="{y:.1f}" r="3.5" fill="{inside}" stroke="{colour}" stroke-width="1.5"/>')

    def axes(self, across, up, across_name, up_name):
        """Both axes with their ticks, lines through these, and names. A name may be empty."""
        for value in across.ticks():
            x = across.place(value)
            self.line([(x, up.start), (x, up.end)], PALE)
            self.text(x, up.start + 16, number(value, across.logarithmic), anchor='middle')
        for value in up.ticks() if up_name else []:
            y = up.place(value)
            self.line([(across.start, y), (across.end, y)], PALE)
            self.text(across.start - 6, y + 4, number(value, up.logarithmic), anchor='end')
        self.line([(across.start, up.end), (across.start, up.start), (across.end, up.start)], INK)
        self.text((across.start + across.end) / 2, up.start + 36, across_name, anchor='middle')
        if up_name:
            self.text(across.start - 48, (up.start + up.end) / 2, up_name, anchor='middle', turned=True)

    def svg(self):
        return '\n'.join(self.lines + ['</svg>']) + '\n'


def superscripts(words):
    """Text of an element, with each a^b as a power."""
    head, *rest = escape(words).split('^')
    for part in rest:
        length = next((k for k, letter in enumerate(part) if not (letter.isdigit() or letter in '.-')), len(part))
        head += f'<tspan dy="-4" font-size="9">{part[:length]}</tspan>'
        head += f'<tspan dy="4">{part[length:]}</tspan>' if part[length:] else ''
    return head


def spread(places, least, low, high):
    """Places that are moved apart to at least such a distance, in their order, between two ends."""
    order = sorted(range(len(places)), key=lambda k: places[k])
    found = [min(max(places[k], low), high) for k in order]
    for k in range(1, len(found)):
        found[k] = max(found[k], found[k - 1] + least)
    excess = found[-1] - high if found else 0
    for k in range(len(found) - 1, -1, -1):
        found[k] = min(found[k], high - least * (len(found) - 1 - k)) if excess > 0 else found[k]
    back = dict(zip(order, found))
    return [back[k] for k in range(len(places))]
