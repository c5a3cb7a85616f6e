"""Reads the tables of faults of docs/codes.md, the one source of each code's meaning and shortest example."""
import collections
import os
import re

PAGE = "docs/codes.md"
TOP = os.path.dirname(os.path.dirname(os.path.dirname(os.path.abspath(__file__))))
CODE = re.compile(r"[LSMNTD]\d\d|T04 D\d\d")
# `A`, N times `B`, or `A` and N times `B`; then the options of the command.
TEXT = re.compile(r"(?:`(?P<front>[^`]*)`)?(?: and )?(?:(?P<count>[\d,]+) times `(?P<piece>[^`]*)`)?(?:, (?P<options>with `[^`]*`))?")

# `example` is the cell of the page, and `lines` are what is written for the text in it.
Fault = collections.namedtuple("Fault", "code meaning example lines")


def cells_of(line):
    """The cells of a row of a table."""
    return [it.strip().replace("\\|", "|") for it in re.split(r"(?<!\\)\|", line)[1:-1]]


def read(top=TOP):
    """The rows of the tables of faults, in the order of the page."""
    with open(f"{top}/{PAGE}", encoding="utf-8") as page:
        rows = [cells_of(line) for line in page]
    return [Fault(*cells[:3], re.findall(r"`([^`]*)`", cells[3])) for cells in rows if len(cells) == 4 and CODE.fullmatch(cells[0])]


def described(code, faults):
    """The rows that describe a code, if any: its own, and for a constant that can't be evaluated also that of the evaluation's fault."""
    constant, _, cause = code.partition(" ")
    if not cause:
        return [it for it in faults if it.code == code]
    whole = [it._replace(code=code) for it in faults if it.code.startswith(f"{constant} ")]
    part = [it for it in faults if it.code == cause]
    return whole[:1] + part if whole and part else []


def meaning(code, rows):
    """What a code means, on one line, by the rows that describe it."""
    if not rows:
        return f"{PAGE} doesn't describe {code}"
    return "; ".join([rows[0].meaning] + [f"{it.code}: {it.meaning}" for it in rows[1:]])


def text_of(fault):
    """The text of an example, or None if the page only describes it."""
    if fault.example == "no text":
        return ""
    told = TEXT.fullmatch(fault.example)
    if told is None:
        return None
    return (told["front"] or "") + (told["piece"] or "") * int((told["count"] or "0").replace(",", ""))


def words_of(fault):
    """What the page says of an example beyond its text: only the options if the text is written out, otherwise all of it."""
    told = TEXT.fullmatch(fault.example)
    if told is None or told["count"]:
        return fault.example
    return told["options"] or ""


def example(fault):
    """The text of an example if the page has just that, otherwise what the page says."""
    return fault.example if words_of(fault) else text_of(fault)
