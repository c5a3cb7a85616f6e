"""The spellings of words, marks and the library's subprograms, and the letters of fault codes, read from the files that define them."""
import os
import re

TOP = os.path.dirname(os.path.dirname(os.path.dirname(os.path.abspath(__file__))))
LEXEMES = "crates/asl_grammar/specs/lexemes"


def read(path):
    """The text of a file of the repository."""
    with open(f"{TOP}/{path}", encoding="utf-8") as file:
        return file.read()


def spelled(path, function):
    """The spelling of each variant, from the rows of a definition such as `word_spelling As = codes "as"`."""
    return dict(re.findall(rf'^{function} (\w+) = codes "(.*)"$', read(path), re.M))


def words():
    """The spelling of each word by its variant, including the words that the profile leaves out."""
    return spelled(f"{LEXEMES}/Words.antt", "word_spelling")


def marks():
    """The spelling of each mark by its variant."""
    return spelled(f"{LEXEMES}/Marks.antt", "mark_spelling")


def routines():
    """The names of the library's subprograms."""
    return re.findall(r'\(codes "(\w+)", \w+\)', read("crates/asl_rules/specs/declarations/Routines.antt"))


def fault_letters():
    """The letters that codes of faults begin with."""
    return "".join(sorted(set(re.findall(r"^    ([A-Z])\d\d,$", read("crates/asl_syn/src/code.rt"), re.M))))
