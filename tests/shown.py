"""A page read back: what it draws, what it says and what it holds, by python3's own parser of HTML."""
import base64
import json
import re
import zlib
from html.parser import HTMLParser

VOID = {"meta", "input", "br"}
# Elements that end where the next of these begins.
ENDED_BY = {"th": ("th", "td", "tr", "tbody"), "td": ("th", "td", "tr", "tbody"), "tr": ("tr", "tbody"), "p": ("p", "div", "details", "ul"), "li": ("li",), "dt": ("dd",)}


class Element:
    def __init__(self, tag, attributes):
        self.tag, self.attributes, self.children = tag, attributes, []

    def text(self):
        return "".join(child if isinstance(child, str) else child.text() for child in self.children)

    def all(self, tag, **attributes):
        """The elements below with this tag and these attributes, in their order."""
        found = []
        for child in self.children:
            if isinstance(child, Element):
                if child.tag == tag and all(child.attributes.get(name) == value for name, value in attributes.items()):
                    found.append(child)
                found += child.all(tag, **attributes)
        return found

    def one(self, tag, **attributes):
        (found,) = self.all(tag, **attributes)
        return found


class Tree(HTMLParser):
    def __init__(self, page):
        super().__init__(convert_charrefs=True)
        self.root = Element("page", {})
        self.open = [self.root]
        self.feed(page)
        self.close()

    def handle_starttag(self, tag, attributes):
        while tag in ENDED_BY.get(self.open[-1].tag, ()):
            self.open.pop()
        element = Element(tag, dict(attributes))
        self.open[-1].children.append(element)
        if tag not in VOID:
            self.open.append(element)

    def handle_startendtag(self, tag, attributes):
        self.open[-1].children.append(Element(tag, dict(attributes)))

    def handle_endtag(self, tag):
        while len(self.open) > 1 and self.open.pop().tag != tag:
            pass

    def handle_data(self, data):
        self.open[-1].children.append(data)


def unpacked(script):
    text = script.text()
    return zlib.decompress(base64.b64decode(text)).decode() if "data-packed" in script.attributes else text


def bars(svg, still_open):
    """The bars of a row's drawing as (first, last, kind, end), by the forms that docs/PAGE.md names."""
    drawn = {path.attributes.get("class", "bar"): path.attributes["d"] for path in svg.all("path")}
    assert set(drawn) <= {"bar", "add", "join"}, drawn
    marks = {int(x): "add" for x in re.findall(r"M(\d+) 0V10", drawn.get("add", ""))}
    marks |= {int(x): "join" for x in re.findall(r"M(\d+) 5h0", drawn.get("join", ""))}
    found = []
    for x, last in re.findall(r"M(\d+) 5H(\d+)", drawn["bar"]):
        found.append((int(x) + 1, int(last), marks.pop(int(x)), "ended"))
    assert not marks, "a mark without a bar"
    return found[:-1] + [found[-1][:3] + ("open",)] if still_open else found


class Shown:
    """rows by (model, sheet): bars and words; never by model; what is said of those without a row."""

    def __init__(self, page):
        self.tree = Tree(page).root
        self.facts = {term.text().strip(): fact.text().strip() for term, fact in zip(self.tree.all("dt"), self.tree.all("dd"))}
        self.spans = unpacked(self.tree.one("script", id="spans"))
        self.known = json.loads(self.tree.one("script", id="known").text())
        self.rows, self.headings, self.never, self.notes = {}, {}, {}, {}
        self.bands = [band for band in self.tree.all("details") if re.fullmatch("m[0-9]+", band.attributes["id"])]
        for band in self.bands:
            self.read_band(int(band.attributes["id"][1:]), band)
        picture = self.tree.one("section", id="picture")
        self.bare = [said.text() for said in picture.all("div")]
        self.said = [said.text().strip() for said in picture.all("p") if not said.attributes]

    def read_band(self, model, band):
        self.headings[model] = band.one("summary").text()
        for script in band.all("script"):
            band = Tree(unpacked(script)).root
        self.never[model] = "".join(said.text().strip() for said in band.all("p"))
        for row in band.one("tbody").all("tr"):
            (label,), (drawing, words) = row.all("th"), row.all("td")
            sheet = int(re.match("[0-9]+", label.text())[0])
            assert (model, sheet) not in self.rows
            still_open = row.attributes.get("class") == "open"
            self.rows[model, sheet] = label.text().strip("\n"), bars(drawing.one("svg"), still_open), words.text().strip()


def numbers(text):
    """The numbers of a text such as 7, 9-12."""
    found = set()
    for part in text.split(", "):
        ends = [int(end) for end in part.split("-")]
        found |= set(range(ends[0], ends[-1] + 1))
    return found
