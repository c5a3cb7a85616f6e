"""The files for VS Code: the TextMate grammar, the configuration of the language, and the manifest with the problem matcher.

The regular expressions mean the same to Oniguruma, which VS Code uses, and to Python; tools/check-editors makes sure of it. One rule
matches each lexeme as a whole, and a character that begins no lexeme is matched too, so that no rule begins to match inside a lexeme.
"""
import json
import re

import spellings
from classes import CLASSES, MARK_CLASSES, WORD_CLASSES, marks_of, words_of

# Other extensions use the name `asl` for other languages.
LANGUAGE = "asl1"
WRITTEN = "Written by tools/editors/generate.py from the definitions of the lexemes and from the table of the grammar."
NAME_END = "(?![0-9A-Za-z_])"


def scope(name):
    """The scope of a class."""
    return f"{CLASSES[name].scope}.{LANGUAGE}"


def one(name, regex):
    """A rule for a class that a regular expression matches whole."""
    return {"name": scope(name), "match": regex}


def any_of(spelled):
    """A regular expression for these spellings."""
    return "(?:" + "|".join(re.sub(r"([][\\.*+?^$(){}|])", r"\\\1", it) for it in spelled) + ")"


def comments():
    """The rules for comments."""
    return [one("LineComment", "//.*"), {"name": scope("BlockComment"), "begin": r"/\*", "end": r"\*/"}]


def words():
    """The rules for words, for the library's names and for other names."""
    found = [one(name, any_of(words_of(name)) + NAME_END) for name in WORD_CLASSES]
    found.append(one("Library", any_of(spellings.routines()) + NAME_END))
    found.append(one("ReservedName", "__[0-9A-Za-z_]*"))
    found.append(one("Name", "[A-Za-z_][0-9A-Za-z_]*"))
    return found


def numbers():
    """The rules for integers."""
    return [one("Hexadecimal", "0x[0-9A-Fa-f][0-9A-Fa-f_]*"), one("Decimal", "[0-9][0-9_]*")]


def quoted():
    """The rules for literals in quotes. A string that isn't closed lasts to the end of its line."""
    inside = [one("Escape", r'\\[nt\\"]'), one("BadEscape", r"\\|[^ -~\n]")]
    return [
        one("Bits", "'[01 ]*'"),
        one("Mask", r"'(?:[01x ]|\([01 ]*[01][01 ]*\))*'"),
        one("Malformed", "'[0-9A-Za-z_() ]*'?"),
        {"name": scope("String"), "begin": '"', "end": '"|$', "patterns": inside},
    ]


def marks():
    """The rules for marks, the longest first."""
    rows = [(name, marks_of(name, length)) for length in (3, 2, 1) for name in MARK_CLASSES]
    return [one(name, any_of(spelled)) for name, spelled in rows if spelled]


def grammar():
    """The TextMate grammar."""
    groups = {"comments": comments(), "words": words(), "numbers": numbers(), "quoted": quoted(), "marks": marks()}
    groups["stray"] = [one("Stray", r"[^ \t\r\n]")]
    return {
        "information_for_contributors": [WRITTEN],
        "name": "ASL1",
        "scopeName": f"source.{LANGUAGE}",
        "patterns": [{"include": f"#{name}"} for name in groups],
        "repository": {name: {"patterns": rules} for name, rules in groups.items()},
    }


def brackets():
    """The marks that come in pairs."""
    spelling = spellings.marks()
    return [[spelling[mark], spelling["Close" + mark[len("Open"):]]] for mark in spelling if mark.startswith("Open")]


def folding():
    """Where a fold begins and ends: at the `begin` and at the `end` of a subprogram, if they are at the start of a line."""
    begin, end = (spellings.words()[word] + NAME_END for word in ("Begin", "End"))
    return {"start": f"^{begin}(?!.*[ ;]{end})", "end": f"^{end}"}


def configuration():
    """What VS Code wants to know besides the grammar."""
    quotes = [["'", "'"], ['"', '"']]
    closing = [{"open": a, "close": b} for a, b in brackets()]
    closing += [{"open": a, "close": b, "notIn": ["string", "comment"]} for a, b in quotes]
    return {
        "comments": {"lineComment": "//", "blockComment": ["/*", "*/"]},
        "brackets": brackets(),
        "autoClosingPairs": closing,
        "surroundingPairs": brackets() + quotes,
        "folding": {"markers": folding()},
    }


def problem_matcher():
    """Takes the line of a fault apart. VS Code has no use for the length."""
    code = rf"[{spellings.fault_letters()}][0-9][0-9]"
    return {
        "name": "asl",
        "label": "asl",
        "owner": "asl",
        "source": "asl",
        "severity": "error",
        "applyTo": "allDocuments",
        "fileLocation": ["autoDetect", "${workspaceFolder}"],
        "pattern": {
            "regexp": rf"^(.+):([0-9]+):([0-9]+)\+[0-9]+: (({code})(?: {code})?)$",
            "file": 1,
            "line": 2,
            "column": 3,
            "message": 4,
            "code": 5,
        },
    }


def manifest():
    """The manifest of the extension."""
    return {
        "//": WRITTEN,
        "name": LANGUAGE,
        "displayName": "ASL1",
        "description": "Highlighting for ASL1 as asl reads it, and a problem matcher for the faults that asl reports.",
        "version": "1.0.0",
        "publisher": "asl",
        "engines": {"vscode": "^1.60.0"},
        "categories": ["Programming Languages"],
        "contributes": {
            "languages": [{"id": LANGUAGE, "aliases": ["ASL1"], "extensions": [".asl"], "configuration": "./language-configuration.json"}],
            "grammars": [{"language": LANGUAGE, "scopeName": f"source.{LANGUAGE}", "path": "./syntaxes/asl.tmLanguage.json"}],
            "problemMatchers": [problem_matcher()],
        },
    }


def text(value):
    """A file of JSON."""
    return json.dumps(value, indent=2) + "\n"


def files():
    """Each file, by its path below editors/."""
    return {
        "vscode/package.json": text(manifest()),
        "vscode/language-configuration.json": text(configuration()),
        "vscode/syntaxes/asl.tmLanguage.json": text(grammar()),
    }
