"""The breeders' page of a book: who could have seen what, and when, in one HTML file.

    page.py SPANS LISTING [NAMES] < BOOK > page.html

SPANS and LISTING are the proved programs (./run page calls this with them); NAMES is a text file with
names of models, sheets and ticks. docs/PAGE.md has all of it to the letter.
"""
import contextlib
import os
import sys

# the other files of the page stand beside this one, whatever the environment says of where to look
sys.path.insert(0, os.path.dirname(os.path.abspath(__file__)))
import book
import names
import whole

USAGE = "usage: ./run page [NAMES] < BOOK > page.html"
HELP = f"""{USAGE}

Makes the breeders' page of a book: one HTML file that shows when each model could read each sheet, and
answers whether a model had seen held-out sheets when it was scored. Open it in a browser.

NAMES is a text file with lines such as
    model 2 GBLUP-a
    sheet 7 Yield 2026 north
    tick 14 2026-05-02

Status 0: made; 1: NAMES or the book is refused; 2: wrongly called; 3: can't be read or written.
docs/PAGE.md says more."""
MADE, REFUSED, WRONGLY_CALLED, FAILED = range(4)
STOPPED = 130  # as a shell has it after Ctrl-C
IN, OUT = 0, 1


class Stop(Exception):
    """The end without a page: a line for people, and the status."""

    def __init__(self, line, status):
        super().__init__(line)
        self.status = status


def read_names(path):
    shown = path if path.isprintable() else ascii(path)
    try:
        with open(path, "rb") as file:
            return names.read(file.read(names.MOST_BYTES + 1))
    except OSError as error:
        raise Stop(f"can't read {shown}: {error.strerror}", FAILED) from None
    except ValueError:
        raise Stop(f"can't read {shown}: that is no file's name", FAILED) from None
    except names.BadLine as error:
        raise Stop(f"{shown}, {error}", REFUSED) from None


def read_book():
    """The book, and one byte more where the input is longer than any."""
    content = b""
    try:
        with open(IN, "rb", closefd=False) as source:
            while len(content) <= book.MOST_BYTES:
                part = source.read(book.MOST_BYTES + 1 - len(content))
                if part is None:
                    raise Stop("can't read the book: it isn't there yet", FAILED)
                if not part:
                    break
                content += part
    except OSError as error:
        raise Stop(f"can't read the book: {error.strerror}", FAILED) from None
    return content


def write(page):
    """All of it, or a Stop: python3's own standard output may write a part and say nothing."""
    try:
        with open(OUT, "wb", closefd=False) as out:
            out.write(page.encode())
    except OSError as error:
        raise Stop(f"can't write the page: {error.strerror}", FAILED) from None


def run(arguments):
    if arguments[2:] in (["--help"], ["-h"]):
        write(HELP + "\n")
        return MADE
    if len(arguments) not in (2, 3):
        raise Stop(USAGE, WRONGLY_CALLED)
    if os.isatty(IN):
        raise Stop(f"a book is expected on standard input\n{USAGE}", WRONGLY_CALLED)
    if os.isatty(OUT):
        raise Stop(f"the page is for a browser: send it to a file\n{USAGE}", WRONGLY_CALLED)
    if sys.stdin is None:
        raise Stop("can't read the book: standard input is closed", FAILED)
    if sys.stdout is None:
        raise Stop("can't write the page: standard output is closed", FAILED)
    named = read_names(arguments[2]) if len(arguments) == 3 else {kind: {} for kind in names.RANGES}
    content = read_book()
    try:
        told = book.Book(content, *arguments[:2])
    except book.Refused as refused:
        write(whole.page_of_refused(content, refused))
        place = "" if refused.place is None else f" at {refused.place}"
        raise Stop(f"the book is refused, {refused.number}{place}: {book.MEANINGS[refused.number]}; the page says so", REFUSED) from None
    except book.Unfit as error:
        raise Stop(f"no page: {error}", FAILED) from None
    write(whole.page_of(told, named))
    return MADE


def main():
    try:
        return run(sys.argv[1:])
    except Stop as stop:
        told, status = stop, stop.status
    except KeyboardInterrupt:
        told, status = "stopped", STOPPED
    # where nobody can be told, the status still says it
    with contextlib.suppress(OSError, AttributeError):
        sys.stderr.write(f"page: {told}\n")
        sys.stderr.flush()
    return status


if __name__ == "__main__":
    status = main()
    # What a failed write left in a buffer is not tried again at the end.
    os._exit(status)
