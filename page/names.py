"""NAMES: what breeders call their models, sheets and ticks. docs/PAGE.md has its lines to the letter.

    model 2 GBLUP-a
    sheet 7 Yield 2026 north
    tick 14 2026-05-02
"""
import re
import unicodedata

RANGES = {"model": (0, 63), "sheet": (0, 255), "tick": (1, 1_000_000)}
NUMBER = re.compile("[0-9]{1,20}")
BLANKS = re.compile("[ \t]+")
MOST_BYTES = 1_048_576
MOST_SIGNS = 10_000
QUOTED = 40


class BadLine(Exception):
    """A line of NAMES that can't be taken, with its number from 1."""

    def __init__(self, line, reason):
        super().__init__(f"line {line}: {reason}")


def quoted(text):
    """What was typed, in one short piece and harmless to a terminal."""
    return ascii(text if len(text) <= QUOTED else text[:QUOTED] + "...")


def cut(name, most):
    """A name's first signs, where it is longer."""
    return name if len(name) <= most else name[: most - 1] + "…"


def named(line):
    """The kind, number and name of a line; a ValueError says what is wrong with it."""
    for sign in line:
        if sign != "\t" and unicodedata.category(sign) == "Cc":
            raise ValueError(f"a name can't have the control character {ascii(sign)}")
    kind, number, name = (BLANKS.split(line, maxsplit=2) + ["", ""])[:3]
    if kind not in RANGES:
        raise ValueError(f"{quoted(kind)} is none of 'model', 'sheet' and 'tick'")
    least, most = RANGES[kind]
    if not NUMBER.fullmatch(number) or not least <= int(number) <= most:
        raise ValueError(f"{quoted(number)} is no {kind} from {least} to {most}")
    if not name:
        raise ValueError(f"{kind} {int(number)} has no name behind it")
    if len(name) > MOST_SIGNS:
        raise ValueError(f"the name has more than {MOST_SIGNS} signs")
    return kind, int(number), name


def read(content):
    """The names in a file's bytes, by kind and number. Every line is looked at before any is used."""
    if len(content) > MOST_BYTES:
        raise BadLine(content[:MOST_BYTES].count(b"\n") + 1, f"the names go on beyond {MOST_BYTES} bytes")
    names = {kind: {} for kind in RANGES}
    lines = {}
    for place, raw in enumerate(content.removeprefix(b"\xef\xbb\xbf").split(b"\n"), start=1):
        try:
            line = raw.removesuffix(b"\r").decode("utf-8").strip(" \t")
            if not line or line.startswith("#"):
                continue
            kind, number, name = named(line)
        except UnicodeDecodeError:
            raise BadLine(place, "this is no text in UTF-8") from None
        except ValueError as error:
            raise BadLine(place, error) from None
        if (kind, number) in lines:
            raise BadLine(place, f"{kind} {number} has a name already, from line {lines[kind, number]}")
        lines[kind, number] = place
        names[kind][number] = name
    return names
