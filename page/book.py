"""A book as the proved programs tell it: the spans of its grants, and the moments of those in force.

Nothing here decides a grant. The records are read for what neither program prints: which carriers have
events, and in which ticks a sheet was added.
"""
import hashlib
import re
import struct
import subprocess

MOST_BYTES = 16_404
PATIENCE = 120  # seconds: the programs take parts of one
HEADER_BYTES = 20
ADDS = (4, 5)
FIRST_SHEET_KIND = 4
REFUSED = re.compile(r"refused ([0-9]+)(?: at ([0-9]+))?\n")
FIRST_LINE = re.compile(r"group ([0-9]+) ticks ([0-9]+) records ([0-9]+)")

# What a refused book's number means, in the words of RULES.md 11.1.
MEANINGS = {
    20: "book below 20 or above 16,404 bytes",
    21: "total field differs from lent length",
    22: "T above 1,000,000, N above 4,096, offset not 20, or group above 15",
    23: "20 + 4N differs from the total",
    24: "tick 0 or above T, or number out of range",
    25: "word not greater than the one before",
    26: "breaks well-formedness",
}


class Refused(Exception):
    """The book is refused, by this number, at this place (or None)."""

    def __init__(self, number, place):
        super().__init__(number)
        self.number, self.place = number, place


class Unfit(Exception):
    """A program failed, or the two don't agree: there is nothing to draw."""


def said(program, content):
    """What a program prints of a book; a refusal is raised."""
    try:
        ended = subprocess.run([program], input=content, stdout=subprocess.PIPE, check=True, timeout=PATIENCE)
        text = ended.stdout.decode("ascii")
    except (OSError, subprocess.SubprocessError, UnicodeDecodeError) as error:
        raise Unfit(f"{program} failed: {error}") from None
    refused = REFUSED.fullmatch(text)
    if not refused:
        return text
    number, place = refused.groups()
    if int(number) not in MEANINGS:
        raise Unfit(f"{program} refuses the book by {number}, which no book is refused by")
    raise Refused(int(number), None if place is None else int(place))


def lines_between(text, last_word):
    """The lines between the first and the last, which counts them."""
    lines = text.split("\n")
    if len(lines) < 3 or lines[-1] or lines[-2] != f"{last_word} {len(lines) - 3}":
        raise Unfit(f"the lines don't end with '{last_word}' and their count")
    return lines[1:-2]


class Book:
    """group, ticks and records; spans and moments by (model, sheet); the carriers with events."""

    def __init__(self, content, spans_program, listing_program):
        self.spans_text = said(spans_program, content)
        try:
            self.listing_text = said(listing_program, content)
        except Refused:
            raise Unfit("spans takes the book and listing refuses it") from None
        self.sha256 = hashlib.sha256(content).hexdigest()
        self.read_first_line()
        self.read_records(content)
        try:
            self.read_spans()
            self.read_moments()
        except ValueError as error:
            raise Unfit(f"a line can't be read: {error}") from None

    def read_first_line(self):
        first, of_listing = (text.split("\n", 1)[0] for text in (self.spans_text, self.listing_text))
        numbers = FIRST_LINE.fullmatch(first)
        if not numbers or first != of_listing:
            raise Unfit(f"spans begins with {first!r}, listing with {of_listing!r}")
        self.group, self.ticks, self.records = map(int, numbers.groups())

    def read_spans(self):
        self.spans = {}
        for line in lines_between(self.spans_text, "spans"):
            model, sheet, first, last = map(int, line.split(" "))
            if model not in self.models or sheet not in self.sheets:
                raise Unfit(f"spans tells of model {model} and sheet {sheet}, which have no events")
            self.spans.setdefault((model, sheet), []).append((first, last))

    def read_moments(self):
        """The latest moment of each grant in force, which lies in a span that is open."""
        self.moments = {}
        for line in lines_between(self.listing_text, "granted"):
            model, sheet, kind, tick = line.split(" ")
            if kind not in ("add", "join"):
                raise ValueError(f"{kind!r} is no kind of a moment")
            self.moments[int(model), int(sheet)] = kind, int(tick)
        still_open = {pair: spans[-1] for pair, spans in self.spans.items() if spans[-1][1] == self.ticks}
        for pair in still_open.keys() | self.moments.keys():
            first, last = still_open.get(pair, (0, -1))
            if not first <= self.moments.get(pair, ("", -1))[1] <= last:
                raise Unfit("spans and listing don't agree on model %d and sheet %d" % pair)

    def read_records(self, content):
        self.models, self.sheets, self.adds = set(), set(), set()
        for (word,) in struct.iter_unpack("<I", content[HEADER_BYTES:]):
            tick, kind, number = word // 4096, word // 512 % 8, word % 512
            (self.models if kind < FIRST_SHEET_KIND else self.sheets).add(number)
            if kind in ADDS:
                self.adds.add((number, tick))

    def is_open(self, span):
        return span[1] == self.ticks

    def kind(self, sheet, span):
        """By what the grant began: by add where the sheet has an add in that tick, else by join."""
        return "add" if (sheet, span[0]) in self.adds else "join"
