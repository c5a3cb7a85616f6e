"""Reads the table of command lines, tests/rows.txt, whose head says how it is written."""
import collections
import os

TABLE = "tests/rows.txt"
TOP = os.path.dirname(os.path.dirname(os.path.abspath(__file__)))

# `lines` has the words of each command line, `files` the bytes by name; `status` is nothing where the row wants one line for each prefix of its first file.
Row = collections.namedtuple("Row", "name lines files is_full status text")


def piece(line):
    """The bytes that a line of a text stands for."""
    mark, rest = line[:1], line[1:]
    if mark == "=":
        return bytes.fromhex(rest)
    if mark in ("+", "*"):
        count, space, rest = rest.partition(" ")
        if not space or not count.isdecimal():
            raise ValueError("no number and piece")
        return (rest + "\n" * (mark == "*")).encode() * int(count)
    return (rest + "\n" * (mark == "|")).encode()


class Reader:
    """The row that is being read."""

    def __init__(self, name):
        self.name, self.lines, self.files, self.is_full = name, [], {}, False
        self.status, self.text, self.is_over, self.part = None, bytearray(), False, None

    def fact(self, word, rest):
        """Takes a line that begins with one of the words of a row."""
        if self.is_over:
            raise ValueError("a word behind what the row wants")
        if word == "words" and rest.split() not in self.lines:
            self.lines.append(rest.split())
        elif word == "file" and rest and rest not in self.files:
            self.part = self.files[rest] = bytearray()
        elif word == "full" and not rest:
            self.is_full = True
        elif word == "status":
            self.status, self.part, self.is_over = int(rest), self.text, True
        elif word == "prefixes" and not rest and self.files:
            self.part, self.is_over = None, True
        else:
            raise ValueError("no such word, or none here")

    def add(self, line):
        if self.part is None:
            raise ValueError("a text that belongs to nothing")
        self.part += piece(line)

    def row(self):
        if not self.lines or not self.is_over:
            raise ValueError("the row before has no words, or neither `status` nor `prefixes`")
        return Row(self.name, self.lines, {name: bytes(it) for name, it in self.files.items()}, self.is_full, self.status, bytes(self.text))


def read(top=TOP):
    """The rows, in order. The error tells the line that isn't understood."""
    rows, names, now = [], set(), None
    # a line ends at its line feed alone
    for number, line in enumerate(open(f"{top}/{TABLE}", encoding="utf-8", newline="\n").read().split("\n"), 1):
        try:
            if line.startswith("row "):
                rows += [now.row()] if now else []
                now = Reader(line[len("row "):])
                if now.name in names:
                    raise ValueError("another row shows the same")
                names.add(now.name)
            elif line and line[0] in "|>+*=":
                now.add(line)
            elif line and line[0] != "#":
                word, _, rest = line.partition(" ")
                now.fact(word, rest)
        except (ValueError, AttributeError) as why:
            raise SystemExit(f"{TABLE}:{number}: `{line}`: {why if now else 'no row yet'}") from None
    return rows + ([now.row()] if now else [])
