"""Tells the lines of the program's output that are faults from all other lines, such as the text that a run prints."""
import collections
import re

NUMBER = "[1-9][0-9]{0,9}"
# A file's name may have colons and spaces in it.
PLACE = rf"(?P<file>.+):(?P<line>{NUMBER}):(?P<column>{NUMBER})\+(?P<length>0|{NUMBER})"
SPANNED = re.compile(PLACE + ": (?P<code>T04 D[0-9][0-9]|M0[13]|[LSTND][0-9][0-9])")
# What is refused is the command line, one item of it, or one line of a certificate.
WITHOUT_SPAN = re.compile(
    rf"(?P<whole>M02)|config (?P<item>{NUMBER}): (?P<in_item>C[0-9][0-9])|no (?P<line>{NUMBER}): (?P<in_line>V[0-9][0-9])"
)

# Lines and columns count from 1; columns and the length count bytes.
Span = collections.namedtuple("Span", "file line column length")
# `code` is as it is written, `T05` or `T04 D02`. Without a span, `place` has the number in the line, if any, under the name of what
# it counts.
Answer = collections.namedtuple("Answer", "code span place")


def parse(line):
    """The fault that a line has the form of, or None."""
    told = SPANNED.fullmatch(line)
    if told:
        span = Span(told["file"], int(told["line"]), int(told["column"]), int(told["length"]))
        return Answer(told["code"], span, {})
    told = WITHOUT_SPAN.fullmatch(line)
    if told is None:
        return None
    place = {key: int(told[key]) for key in ("item", "line") if told[key]}
    return Answer(told["whole"] or told["in_item"] or told["in_line"], None, place)


def readable(name):
    """A name as text that is UTF-8, whatever its bytes were."""
    return name.encode("utf-8", "surrogateescape").decode("utf-8", "replace")
