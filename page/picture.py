"""The picture: for each model a band of rows, one a sheet that it could ever read, a bar a span.

A row's drawing has the ticks as its units: tick t takes the place from t - 1 to t, whatever the width.
The marks at a bar's start keep their size (page.css), so that a bar of one tick in a million shows.
"""
from html import escape

from names import RANGES, cut
from scale import Scale

ROW_HEIGHT = 10
MIDDLE = ROW_HEIGHT // 2
CUT = 40  # signs of a name in a row, where it stands once for each model
FEW = 12  # as many sheets are told by their names, more by numbers alone


def ranges(numbers):
    """Numbers as the question takes them: 7, 9-12."""
    runs = []
    for number in sorted(numbers):
        if runs and number == runs[-1][1] + 1:
            runs[-1][1] = number
        else:
            runs.append([number, number])
    return ", ".join(str(first) if first == last else f"{first}-{last}" for first, last in runs)


def counted(number, thing):
    return f"{number} {thing}" if number == 1 else f"{number} {thing}s"


class Picture:
    def __init__(self, book, names):
        self.book, self.names = book, names
        self.models = book.models | names["model"].keys()
        self.sheets = book.sheets | names["sheet"].keys()
        self.rows = {model: [] for model in self.models}
        for model, sheet in sorted(book.spans):
            self.rows[model].append(sheet)
        self.scale = Scale(book.ticks, names["tick"]).drawn() if book.ticks else ""

    def label(self, kind, number, most=None):
        """The number, and the name as it was typed."""
        name = self.names[kind].get(number)
        if name is None:
            return str(number)
        return f"{number} <bdi>{escape(cut(name, most) if most else name)}</bdi>"

    def listed(self, kind, numbers):
        """Numbers with their names, where they are few."""
        if len(numbers) > FEW:
            return ranges(numbers)
        return ", ".join(self.label(kind, number, CUT) for number in sorted(numbers))

    def words(self, model, sheet):
        """A row in words: add 4..56; join 65..180 open, latest: add 102."""
        parts = []
        for span in self.book.spans[model, sheet]:
            parts.append("%s\N{NO-BREAK SPACE}%d..%d" % (self.book.kind(sheet, span), *span))
            if self.book.is_open(span):
                kind, tick = self.book.moments[model, sheet]
                parts[-1] += " open" + (f", latest: {kind}\N{NO-BREAK SPACE}{tick}" if tick > span[0] else "")
        return "; ".join(parts)

    def drawing(self, model, sheet):
        bars, marks = "", {"add": "", "join": ""}
        for first, last in self.book.spans[model, sheet]:
            bars += f"M{first - 1} {MIDDLE}H{last}"
            if self.book.kind(sheet, (first, last)) == "add":
                marks["add"] += f"M{first - 1} 0V{ROW_HEIGHT}"
            else:
                marks["join"] += f"M{first - 1} {MIDDLE}h0"
        drawn = f'<path d="{bars}"/>' + "".join(f'<path class={kind} d="{path}"/>' for kind, path in marks.items() if path)
        box = f'viewBox="0 0 {self.book.ticks} {ROW_HEIGHT}" preserveAspectRatio=none'
        return f"<svg aria-hidden=true {box}>{drawn}</svg>"

    def row(self, model, sheet):
        still_open = self.book.is_open(self.book.spans[model, sheet][-1])
        label = self.label("sheet", sheet, CUT)
        cells = f"<th>{label}<td>{self.drawing(model, sheet)}<td>{self.words(model, sheet)}"
        return f"<tr{' class=open' if still_open else ''}>{cells}\n"

    def heading(self, model):
        could = len(self.rows[model])
        told = f"could read {could} of {counted(len(self.sheets), 'sheet')}" if could else "could read no sheet at any tick."
        return f"<h3>Model {self.label('model', model)}</h3> {told}"

    def never(self, model):
        never = self.sheets.difference(self.rows[model])
        sheets = "sheet" if len(never) == 1 else "sheets"
        return f"<p>Never: {sheets} {self.listed('sheet', never)}.\n" if never else ""

    def band(self, model):
        """What a model's band shows when it is open."""
        rows = "".join(self.row(model, sheet) for sheet in self.rows[model])
        head = f"<tr><th scope=col>Sheets of model {model}<th scope=col aria-label=Ticks>{self.scale}<th scope=col>Could read in ticks"
        return f"<table class=rows>\n<thead>{head}\n<tbody>\n{rows}</table>\n{self.never(model)}"

    def bare(self, model):
        """A model without a span is said in words."""
        events = "" if model in self.book.models else " The book has no event of it."
        return f"<div class=bare>{self.heading(model)}{events}</div>\n"

    def without(self):
        """What has no row, in words: the sheets that nobody could read, and who has no event."""
        told = ""
        unread = self.sheets.difference(sheet for _, sheet in self.book.spans)
        if unread:
            told += f"<p>No model could read these sheets at any tick: {self.listed('sheet', unread)}.\n"
        for kind, events in (("model", self.book.models), ("sheet", self.book.sheets)):
            others = set(range(RANGES[kind][1] + 1)) - events
            if others:
                ending = "they could read no sheet" if kind == "model" else "no model could read them"
                told += f"<p>The book has no event of the {kind}s {ranges(others)}: {ending}.\n"
        return told
