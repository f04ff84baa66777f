"""The whole page, out of its parts: one file that holds its style, its script and its data."""
import base64
import hashlib
import json
import pathlib
import re
import zlib
from html import escape

import book
from picture import Picture, counted
from scale import Scale

HERE = pathlib.Path(__file__).parent
OPEN_ROWS = 1_000  # more rows than these are folded, a band a model
OPEN_BYTES = 3_000_000  # bands that take more lie packed in the page
PLAIN_BYTES = 200_000  # a list of spans that takes more lies packed


def packed(text):
    return base64.b64encode(zlib.compress(text.encode(), 9)).decode()


def harmless(value):
    """JSON that can't end the script it stands in, whatever a name has."""
    text = json.dumps(value, separators=(",", ":"), sort_keys=True)
    return re.sub("[<>&]", lambda sign: "\\u%04x" % ord(sign[0]), text)


def hash_of(text):
    return "sha256-" + base64.b64encode(hashlib.sha256(text.encode()).digest()).decode()


def filled(template, values):
    """Every {{field}} by its value, in one pass: what a name has is never taken for a field."""
    return re.sub(r"\{\{(\w+)\}\}", lambda field: str(values[field[1]]), template)


def legend(ticks):
    def sample(kind, mark, end=40, still_open=False):
        box = '<svg aria-hidden=true viewBox="0 0 40 10" preserveAspectRatio=none>'
        paths = f'<path d="M4 5H{end}"/><path class={kind} d="{mark}"/>'
        return f"<li{' class=open' if still_open else ''}><span>{box}{paths}</svg></span>"

    by_add, by_join = ("add", "M4 0V10"), ("join", "M4 5h0")
    return f"""<ul class=legend>
{sample(*by_add)} begins by add: the sheet was added while the model was in
{sample(*by_join)} begins by join: the model joined liberally while the sheet was in by a liberal add
{sample(*by_add, end=30)} ended: the model could read the sheet up to that tick
{sample(*by_add, still_open=True)} open: the model could still read it at tick {ticks}
<li>A mark alone: a span too short to draw, or several; the words have their ticks
<li>In words: <i>add 4..56</i>, by add, in ticks 4 to 56; <i>latest: join 12</i>, the latest moment of an open one
</ul>
"""


def bands(picture):
    """Every model's band, and whether they lie packed. A model without a span has a line."""
    drawn = {model: picture.band(model) for model, rows in picture.rows.items() if rows}
    rows = sum(map(len, picture.rows.values()))
    pack = sum(len(band.encode()) for band in drawn.values()) > OPEN_BYTES
    unfolded = " open" if rows <= OPEN_ROWS else ""
    said = f"<p class=note>{counted(rows, 'row')} are folded: open a model to see its own. A print has those that are open.\n"
    told = "" if unfolded else said
    for model in sorted(picture.rows):
        if model not in drawn:
            told += picture.bare(model)
            continue
        content = drawn[model]
        if pack:
            content = f"<script type=text/plain data-packed>{packed(content)}</script>\n<noscript><p>The rows are unpacked by a script.</p></noscript>\n"
        told += f"<details id=m{model}{unfolded}><summary>{picture.heading(model)}</summary>\n{content}</details>\n"
    return told, pack


def whole_picture(picture):
    if not picture.book.ticks:
        return f"<p>No tick is closed in this book: no model could read any sheet.\n{picture.without()}", False
    drawn, pack = bands(picture)
    return (legend(picture.book.ticks) if picture.book.spans else "") + drawn + picture.without(), pack


def name_list(picture):
    """All names once, as they were typed; a row has the first signs of a long one."""
    told = ""
    for kind, named in picture.names.items():
        items = "".join(f"<li>{picture.label(kind, number)}\n" for number in sorted(named))
        if items:
            told += f"<h3>{kind.capitalize()}s</h3>\n<ul class=names>\n{items}</ul>\n"
    return f"<details id=names><summary><h3>The names</h3></summary>\n{told}</details>\n" if told else ""


def page_of(told, named):
    """The page of an accepted book."""
    named = {**named, "tick": {tick: name for tick, name in named["tick"].items() if tick <= told.ticks}}
    picture = Picture(told, named)
    drawn, pack = whole_picture(picture)
    pack_spans = len(told.spans_text) > PLAIN_BYTES
    script = (HERE / "page.js").read_text(encoding="utf-8")
    grid = Scale(told.ticks, {}).grid() if told.ticks else "100%"
    style = filled((HERE / "page.css").read_text(encoding="utf-8"), {"grid": grid})
    events = {"model": sorted(told.models), "sheet": sorted(told.sheets)}
    known = {"group": told.group, "ticks": told.ticks, "models": sorted(picture.models), "events": events, "names": named}
    return filled(
        (HERE / "page.html").read_text(encoding="utf-8"),
        {
            "script": script,
            "script_hash": hash_of(script),
            "style": style,
            "style_hash": hash_of(style),
            "group": told.group,
            "ticks": told.ticks,
            "records": told.records,
            "sha256": told.sha256,
            "picture": drawn + name_list(picture),
            "tick_help": f"Ticks go from 0, before the first, to {told.ticks}." if told.ticks else "No tick is closed: only tick 0 can be asked for.",
            "noscript": ", but for the bands, which lie packed because this book has so many spans; <code>spans</code> prints them" if pack else "",
            "spans": packed(told.spans_text) if pack_spans else told.spans_text,
            "spans_packed": " data-packed" if pack_spans else "",
            "known": harmless(known),
        },
    )


def page_of_refused(content, refused):
    """The page of a refused book: that, the number, and what it means."""
    style = filled((HERE / "page.css").read_text(encoding="utf-8"), {"grid": "100%"})
    whole = len(content) <= book.MOST_BYTES
    return filled(
        (HERE / "refused.html").read_text(encoding="utf-8"),
        {
            "style": style,
            "style_hash": hash_of(style),
            "number": refused.number,
            "place": "" if refused.place is None else f" at record {refused.place}, counted from 0",
            "meaning": escape(book.MEANINGS[refused.number]),
            "bytes": len(content) if whole else f"more than {book.MOST_BYTES}",
            "sha256": hashlib.sha256(content).hexdigest() if whole else "not taken: the book is too long",
        },
    )
