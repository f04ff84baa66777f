"""The scale of ticks above a band: numbers at even steps, and below them the names of ticks.

It has room in every window that is as wide as it is laid out for; what doesn't fit is left out, never laid over.
"""
from html import escape
from unicodedata import east_asian_width

from names import cut

# Widths of a drawing, in pixels: the least in a narrow window, and the least in others.
NARROW = 300
WIDE = 480
SIGN = 8  # pixels for a sign; signs of East Asian writing take two
SPARE = 3  # signs between two numbers, so that the last has room at the edge
CUT = 20  # signs of a tick's name
NUMBERS, NAMES = "1em", "2.3em"  # where the two lines stand


def length(text):
    return SIGN * sum(2 if east_asian_width(sign) in "WF" else 1 for sign in text)


class Scale:
    def __init__(self, ticks, names):
        self.ticks = ticks
        self.names = [(tick, cut(name, CUT)) for tick, name in sorted(names.items()) if tick <= ticks]

    def step(self):
        """1, 2 or 5 times a power of ten, so that the numbers have room."""
        most = WIDE // (SIGN * (len(str(self.ticks)) + SPARE))
        power = 1
        while True:
            for step in (power, 2 * power, 5 * power):
                if self.ticks <= step * most:
                    return step
            power *= 10

    def grid(self):
        """How far apart the lines of the grid are, as a share of the width."""
        return f"{self.step() / self.ticks:.4%}"

    def at(self, tick):
        """Where a tick's middle is, as a share of the width."""
        return (tick - 0.5) / self.ticks

    def fitting(self, labels, width):
        """The labels, but for those that would run into the one before at this width: by tick the side
        by which each is anchored, and at which share of the width."""
        shown, free = {}, 0
        for tick, text in labels:
            long = length(text)
            left = min(max(0, self.at(tick) * width - long / 2), max(0, width - long))
            if left >= free:
                edges = {0: ("left", 0), width - long: ("right", 1)}
                shown[tick] = edges.get(left, ("middle", self.at(tick)))
                free = left + long + SIGN
        return shown

    def line(self, labels, y):
        """One line of labels; those that a narrow window has no room for are marked as such."""
        texts, narrow, drawn = dict(labels), self.fitting(labels, NARROW), ""
        for tick, (side, at) in self.fitting(labels, WIDE).items():
            spare = "" if tick in narrow else " wide"
            drawn += f'<text class="{side}{spare}" x="{at:.4%}" y={y}>{escape(texts[tick])}</text>'
        return drawn

    def drawn(self):
        step = self.step()
        numbers = [(tick, str(tick)) for tick in range(step, self.ticks + 1, step)]
        named = " class=named" if self.names else ""
        return f"<svg aria-hidden=true{named}>{self.line(numbers, NUMBERS)}{self.line(self.names, NAMES)}</svg>"
