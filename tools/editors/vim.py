"""The files for Vim: the detection of files, the options of a buffer with the errorformat, and the syntax."""
import re

import spellings
from classes import CLASSES, MARK_CLASSES, WORD_CLASSES, marks_of, words_of

WRITTEN = '" Written by tools/editors/generate.py from the definitions of the lexemes and from the table of the grammar.\n'
# In Vim's notation: the file, the line, the column, the length, for which Vim has no use, and the code.
ERROR_FORMAT = r"%f:%l:%c+%*\d: %m"


def option(value):
    """The value of an option as `:set` reads it."""
    return value.replace("\\", "\\\\").replace(" ", "\\ ")


def detection():
    """The type of files by their names."""
    return f'" The type of ASL1 files.\n{WRITTEN}autocmd BufRead,BufNewFile *.asl set filetype=asl\n'


def options():
    """The options of a buffer."""
    found = {"comments": "s1:/*,mb:*,ex:*/,://", "commentstring": "// %s"}
    found.update({"makeprg": "asl check %:S", "errorformat": ERROR_FORMAT})
    lines = "".join(f"setlocal {name}={option(value)}\n" for name, value in found.items())
    undo = " ".join(f"{name}<" for name in found)
    head = f'" Comments, and `:make`, which checks the file and lists its fault.\n{WRITTEN}'
    head += "if exists('b:did_ftplugin')\n  finish\nendif\nlet b:did_ftplugin = 1\n\n"
    return head + f"{lines}let b:undo_ftplugin = 'setlocal {undo}'\n"


def keywords(name, spelled):
    """A command for words of a class."""
    return f"syntax keyword asl{name} {' '.join(spelled)}\n"


def match(name, regex, rest=""):
    """A command for what a regular expression of Vim matches."""
    return f"syntax match asl{name} /{regex}/{rest}\n"


def any_of(spelled):
    """A regular expression of Vim for these spellings."""
    return r"\|".join(re.sub(r"([][\\.*^$~/])", r"\\\1", it) for it in spelled)


def mark_matches():
    """The commands for marks. If several match at one place, Vim takes the one that comes last, so the longest marks come last."""
    rows = [(name, marks_of(name, length)) for length in (1, 2, 3) for name in MARK_CLASSES]
    return "".join(match(name, any_of(spelled)) for name, spelled in rows if spelled)


def quoted():
    """The commands for literals in quotes. A string that isn't closed lasts to the end of its line."""
    found = match("Malformed", r"'[0-9A-Za-z_() ]*'\=")
    found += match("Mask", r"'\%([01x ]\|([01 ]*[01][01 ]*)\)*'")
    found += match("Bits", "'[01 ]*'")
    found += match("BadEscape", r"\\\|[^ -~]", " contained")
    found += match("Escape", r'\\[nt\\"]', " contained")
    return found + 'syntax region aslString start=/"/ end=/"/ end=/$/ oneline contains=aslEscape,aslBadEscape\n'


def comments():
    """The commands for comments, which come last, as `/` is a mark too."""
    block = r"syntax region aslBlockComment start=/\/\*/ end=/\*\//"
    return match("LineComment", r"\/\/.*") + f"{block}\nsyntax sync ccomment aslBlockComment\n"


def syntax():
    """The syntax."""
    found = f'" The syntax of ASL1.\n{WRITTEN}'
    found += "if exists('b:current_syntax')\n  finish\nendif\nsyntax case match\nsyntax iskeyword 48-57,65-90,97-122,_\n\n"
    found += "".join(keywords(name, words_of(name)) for name in WORD_CLASSES) + keywords("Library", spellings.routines())
    found += "\n" + match("Stray", r"[^ \t\r]")
    found += match("Name", "[A-Za-z_][0-9A-Za-z_]*") + match("ReservedName", "__[0-9A-Za-z_]*")
    found += match("Decimal", "[0-9][0-9_]*") + match("Hexadecimal", "0x[0-9A-Fa-f][0-9A-Fa-f_]*")
    found += mark_matches() + quoted() + comments() + "\n"
    found += "".join(f"highlight default link asl{name} {it.group}\n" for name, it in CLASSES.items() if it.group)
    return found + "\nlet b:current_syntax = 'asl'\n"


def files():
    """Each file, by its path below editors/."""
    return {"vim/ftdetect/asl.vim": detection(), "vim/ftplugin/asl.vim": options(), "vim/syntax/asl.vim": syntax()}
