"""Finds a span in its file, and draws its line of the text with carets below.

A span counts bytes, a terminal columns: an East Asian wide character and most emoji take two columns, a combining mark none, and a
tab goes on to the next multiple of TAB."""
import collections
import os
import stat
import unicodedata

# The program refuses longer files, so a longer one isn't what it read.
MOST_BYTES = 1_048_576
TAB = 4
# How many columns of a long line are shown, and at most how many of them before the span.
WIDEST = 120
BEFORE = 40
CUT = "..."
# What carries a combining mark that begins a line.
BASE = "\u25cc"
# What a terminal doesn't show as one character: control characters, bytes that aren't UTF-8, separators of lines.
UNSHOWN = {"Cc", "Cs", "Zl", "Zp"}
# Characters that change the order of those around them, so that the carets would be under others.
REORDERING = {"LRE", "RLE", "LRO", "RLO", "PDF", "LRI", "RLI", "FSI", "PDI"}

# A span in its file. `first` is the number of its first line and `line` are the bytes of this line, in which the span goes from
# `start` to `end`. It ends in the line with the number `last`, whose bytes are `last_line`, before the byte `last_end`.
Found = collections.namedtuple("Found", "first line start end last last_line last_end")
# What is shown for the bytes of a line from `start` to `end`, and the columns that this takes.
Cell = collections.namedtuple("Cell", "text start end column width")


def bytes_of(name):
    """The bytes of a file, or None if they can't be read. Only a regular file is read: a pipe would block, and its text is gone."""
    try:
        if not stat.S_ISREG(os.stat(name).st_mode):
            return None
        with open(name, "rb") as file:
            return file.read(MOST_BYTES + 1)
    except (OSError, ValueError):
        return None


def find(held, span):
    """The span in the bytes of its file, or None if they don't have it: then they aren't what the program read."""
    if held is None or len(held) > MOST_BYTES:
        return None
    lines = held.split(b"\n")
    if span.line > len(lines) or span.column > len(lines[span.line - 1]) + 1:
        return None
    line = lines[span.line - 1]
    start = sum(len(it) + 1 for it in lines[: span.line - 1]) + span.column - 1
    end = start + span.length
    if end > len(held):
        return None
    last = span.line + held.count(b"\n", start, end)
    last_end = end - (held.rfind(b"\n", 0, end) + 1)
    return Found(span.line, line, span.column - 1, last_end if last == span.line else len(line), last, lines[last - 1], last_end)


def characters(line):
    """Each character of a line, with the place of its first byte and the place after its last. A byte that isn't UTF-8 counts as one."""
    start = 0
    for character in line.decode("utf-8", "surrogateescape"):
        end = start + len(character.encode("utf-8", "surrogateescape"))
        yield character, start, end
        start = end


def columns(found):
    """The columns of a span's first character and of the one after its last, counted in characters from 1."""
    before = sum(1 for _, _, end in characters(found.line) if end <= found.start)
    last = sum(1 for _, start, _ in characters(found.last_line) if start < found.last_end)
    return before + 1, last + 1


def shown(character, column):
    """What is shown for a character at a column."""
    if character == "\t":
        return " " * (TAB - column % TAB)
    if character < " ":
        return chr(0x2400 + ord(character))
    if unicodedata.category(character) in UNSHOWN or unicodedata.bidirectional(character) in REORDERING:
        return "\ufffd"
    return character


def width(text):
    """The columns that a character takes, or the spaces of a tab."""
    if unicodedata.category(text[0]) in ("Mn", "Me", "Cf"):
        return 0
    return 2 if unicodedata.east_asian_width(text[0]) in "WF" else len(text)


def cells_of(line):
    """The cells of a line. A combining mark is part of the cell before it."""
    cells, column = [], 0
    for character, start, end in characters(line):
        text = shown(character, column)
        wide = width(text)
        if not wide and cells:
            cells[-1] = cells[-1]._replace(text=cells[-1].text + text, end=end)
            continue
        cells.append(Cell(text if wide else BASE + text, start, end, column, wide or width(BASE)))
        column += cells[-1].width
    return cells


def window(cells, first):
    """The cells that are shown of a line whose span begins at the column `first`, and the marks for what is cut off at either end."""
    whole = cells[-1].column + cells[-1].width if cells else 0
    if whole <= WIDEST:
        return cells, "", ""
    rest = [it for it in cells if it.column >= first - BEFORE]
    kept = [it for it in rest if it.column + it.width <= rest[0].column + WIDEST]
    return kept, CUT if len(rest) < len(cells) else "", CUT if len(kept) < len(rest) else ""


def draw(found):
    """The first line of a span, and at least one caret for the part of the span in it; then the last line, if that is another one."""
    cells = cells_of(found.line.removesuffix(b"\r"))
    whole = cells[-1].column + cells[-1].width if cells else 0
    first = next((it.column for it in cells if it.end > found.start), whole)
    kept, front, tail = window(cells, first)
    left = kept[0].column if kept else 0
    count = sum(it.width for it in kept if it.start < found.end and it.end > found.start)
    text = front + "".join(it.text for it in kept) + tail
    marks = " " * (len(front) + first - left) + "^" * max(count, 1)
    return text, marks if found.last == found.first else f"{marks} to line {found.last}"
