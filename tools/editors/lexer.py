"""The lexemes and comments of a text, as crates/asl_grammar/specs/lexemes and crates/asl_quote/specs define them.

tools/check-editors compares the files for editors with this lexer. It uses no regular expressions, so that the two have nothing in common
but the spellings.
"""
import collections

import spellings

# A lexeme, a comment or a fault, with the place where it begins and the one after its end.
Piece = collections.namedtuple("Piece", "kind start end")

WORDS = {spelling: word for word, spelling in spellings.words().items()}
MARKS = {spelling: mark for mark, spelling in spellings.marks().items()}
LONGEST_MARK = max(map(len, MARKS))
DIGITS = set("0123456789")
HEX_DIGITS = DIGITS | set("abcdefABCDEF")
NAME_STARTS = set("abcdefghijklmnopqrstuvwxyzABCDEFGHIJKLMNOPQRSTUVWXYZ_")


def run(text, at, allowed):
    """The end of the longest run of these characters."""
    while at < len(text) and text[at] in allowed:
        at += 1
    return at


def comment(text, at):
    """The comment that begins here; one that is never closed is the fault L02."""
    if text.startswith("//", at):
        end = text.find("\n", at)
        return Piece("LineComment", at, len(text) if end < 0 else end)
    end = text.find("*/", at + 2)
    return Piece("L02", at, len(text)) if end < 0 else Piece("BlockComment", at, end + 2)


def content_step(state, char):
    """The state after one more character between the quotes, or none."""
    if state == "Bits":
        return "Bits" if char in "01x " else "EmptyGroup" if char == "(" else None
    if state == "EmptyGroup":
        return "Group" if char in "01" else "EmptyGroup" if char == " " else None
    if state == "Group":
        return "Group" if char in "01 " else "Bits" if char == ")" else None
    if state == "Text":
        return "Escape" if char == "\\" else "Text" if " " <= char <= "~" and char != '"' else None
    return "Text" if char in 'nt\\"' else None


def quoted(text, start):
    """The literal in quotes that begins here; one that is malformed or isn't closed is the fault L03."""
    opened = "Bits" if text[start] == "'" else "Text"
    state, at = opened, start + 1
    while at < len(text):
        if text[at] == text[start] and state == opened:
            is_mask = opened == "Bits" and any(it in "x(" for it in text[start:at])
            return Piece("Mask" if is_mask else "Bits" if opened == "Bits" else "String", start, at + 1)
        state = content_step(state, text[at])
        if state is None:
            break
        at += 1
    return Piece("L03", start, at)


def number(text, at):
    """The integer that begins here."""
    if text.startswith("0x", at) and at + 2 < len(text) and text[at + 2] in HEX_DIGITS:
        return Piece("Hexadecimal", at, run(text, at + 2, HEX_DIGITS | {"_"}))
    return Piece("Decimal", at, run(text, at, DIGITS | {"_"}))


def name(text, at):
    """The word or the name that begins here."""
    end = run(text, at, NAME_STARTS | DIGITS)
    return Piece(("Word", WORDS[text[at:end]]) if text[at:end] in WORDS else "Name", at, end)


def mark(text, at):
    """The longest mark that begins here; a character that begins nothing is the fault L01."""
    for length in range(LONGEST_MARK, 0, -1):
        spelling = text[at:at + length]
        if spelling in MARKS:
            return Piece(("Mark", MARKS[spelling]), at, at + len(spelling))
    return Piece("L01", at, at + 1)


def piece(text, at):
    """The comment, the lexeme or the fault that begins here."""
    if text.startswith(("//", "/*"), at):
        return comment(text, at)
    if text[at] in "'\"":
        return quoted(text, at)
    if text[at] in DIGITS:
        return number(text, at)
    return name(text, at) if text[at] in NAME_STARTS else mark(text, at)


def pieces(text):
    """The comments and the lexemes of a text in their order, up to its first fault and with it."""
    found, at = [], run(text, 0, " \t\r\n")
    while at < len(text):
        found.append(piece(text, at))
        if found[-1].kind in ("L01", "L02", "L03"):
            break
        at = run(text, found[-1].end, " \t\r\n")
    return found
