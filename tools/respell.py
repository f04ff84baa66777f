#!/usr/bin/env python3
"""Brings this repository's own definitions and lemmas to today's spelling, once, right after the kit's port.py.

    tools/respell.py [FOLDER]

Words are in snake case: `tickBefore` is `tick_before`, `at-front` is `at_front`. Types, facts and modules stay in camel case, and functions of src/,
exported names and strings as they are. A lemma that would fall together with a definition gets `_lem`. Comments are brought along, and so are the
pages and what they quote between backticks. It prints what it renamed, and which names fall together.
"""
import collections
import pathlib
import re
import sys

ROOT = pathlib.Path(sys.argv[1] if len(sys.argv) > 1 else ".").resolve()
TOKEN = re.compile(r"(?<![\w'-])(?:[\w'])+(?:-[\w']+)*")
DEFINED = re.compile(r"^\s*((?:(?:abbrev|unfoldable|pub|data|record)\s+)*)([\w'-]+)(?:\s*[({][^:]*:.*?[)}])*\s*:(?=\s|$)")
DASHED_IN_PAGES = re.compile(r"`[^`\n]*`")
# What stood for `getD`, and an acronym.
BY_HAND = {"getD-none": "get_or_none", "getD-table": "get_or_table", "sheetInByLA": "sheet_in_by_la"}
# Lemmas that would be called as the definition that they speak of.
LEMMAS = """after-word bit-and bit-or book-of book-reached book-read by-add by-join delivery-numbers denies-all first-bad fresh-group good-store
header-refusal judge-bytes next-bit open-word place-from read-numbers refuses-all request-refusal room-refusal stands-in tick-part told-by view-close
view-read view-refusal view-request bad-record closed-liberal not-rising""".split()


def is_function_proof(path):
    return path.name in ("Proof.antt", "Answers.antt", "Invariants.antt") and path.parent.name != "proofs"


def snake(name):
    name = name.replace("ByLA", "_by_la")
    name = re.sub(r"([a-z0-9])([A-Z])", lambda m: f"{m[1]}_{m[2].lower()}", name)
    return name.replace("-", "_")


def specs_and_proofs():
    return [p for p in sorted(ROOT.glob("crates/*/*/**/*.antt")) if p.relative_to(ROOT).parts[2] in ("specs", "proofs")]


def renames():
    found = set()
    for path in specs_and_proofs():
        if is_function_proof(path):
            continue
        for line in path.read_text("utf-8").splitlines():
            m = None if line.lstrip().startswith("--") else DEFINED.match(line)
            if m and re.match(r"[a-z]", m[2]):
                found.add(m[2])
    names = {}
    for name in sorted(found):
        new = BY_HAND.get(name) or snake(name) + ("_lem" if name in LEMMAS else "")
        if new != name:
            names[name] = new
    return names


def turned(text, names, dashed, aliases=None):
    def one(m):
        name = m[0]
        if name not in names or "-" in name and not dashed:
            return name
        before = text[: m.start()]
        if "-" in name and before.endswith("."):
            owner = re.search(r"([\w'-]+)\.$", before)
            if aliases is not None and not (owner and owner[1] in aliases):
                return name
        return names[name]

    return TOKEN.sub(one, text)


def foreign(text):
    """The names that a file takes from a library."""
    taken = set()
    for home, inside in re.findall(r"^use (\S+?)\.\{([^}]*)\}", text, re.M):
        crate = re.match(r"Rattle\.(\w+)", home)
        if not crate or not (ROOT / "crates" / crate[1]).is_dir():
            taken |= {name.strip().split(" as ")[0] for name in inside.split(",")}
    return taken


def antt(path, text, names):
    names = {name: new for name, new in names.items() if name not in foreign(text)}
    aliases = set(re.findall(r"^use \S+ as ([\w'-]+)$", text, re.M)) - {"tie"} if is_function_proof(path) else None
    lines = []
    for line in text.split("\n"):
        if line.lstrip().startswith("--"):
            line = turned(line, names, False)
            lines.append(DASHED_IN_PAGES.sub(lambda m: turned(m[0], names, True), line))
        else:
            lines.append(turned(line, names, True, aliases))
    return "\n".join(lines)


def rt(path, text, names):
    return turned(text, names, False)


def edit(path, text, names):
    of_antt = re.search(r"^file: .*\.antt$", text, re.M)
    return "\n".join(
        turned(line, names, bool(of_antt) and not line.startswith("#")) if not line.startswith("file:") else line for line in text.split("\n")
    )


def page(path, text, names):
    code = False
    lines = []
    for line in text.split("\n"):
        if line.startswith("```"):
            code = not code
        lines.append(turned(line, names, True) if code else DASHED_IN_PAGES.sub(lambda m: turned(m[0], names, True), line))
    return "\n".join(lines)


def main():
    names = renames()
    seen = collections.defaultdict(set)
    for path in specs_and_proofs() + sorted(ROOT.glob("crates/*/src/**/*.rt")):
        text = re.sub(r"^\s*(--|//).*$", "", path.read_text("utf-8"), flags=re.M)
        for token in set(TOKEN.findall(text)):
            seen[names.get(token, token)].add(token)
    for new in sorted(set(names.values())):
        if len(seen[new]) > 1:
            print(f"fall together: {new}: {', '.join(sorted(seen[new]))}")
    kinds = [("crates/*/src/**/*.rt", rt), ("crates/*/must-fail/*.edit", edit), ("*.md", page), ("docs/**/*.md", page), ("second/*.md", page)]
    for pattern, turn in [(None, antt)] + kinds:
        for path in specs_and_proofs() if pattern is None else sorted(ROOT.glob(pattern)):
            text = path.read_text("utf-8")
            new = turn(path, text, names)
            if new != text:
                path.write_text(new, "utf-8")
    for name in sorted(names):
        print(f"{name} {names[name]}")


main()
