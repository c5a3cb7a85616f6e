"""The classes that an editor tells apart, and the class of each word and mark.

Nothing here lists words: the class of a word follows from what the rules of the grammar do with it (tools/grammar/table.py).
"""
import collections
import os
import sys

import spellings

sys.path.append(os.path.join(spellings.TOP, "tools", "grammar"))
import rules  # noqa: E402

# The scope of TextMate, without the name of the language at its end, and the highlight group of Vim that colors the class.
Class = collections.namedtuple("Class", "scope group")

CLASSES = {
    "Declaration": Class("keyword.declaration", "Keyword"),
    "Statement": Class("keyword.control", "Statement"),
    "WordOperator": Class("keyword.operator.wordlike", "Operator"),
    "Type": Class("storage.type", "Type"),
    "Boolean": Class("constant.language.boolean", "Boolean"),
    "Library": Class("support.function", "Function"),
    "Name": Class("variable.other", None),
    "Decimal": Class("constant.numeric.integer.decimal", "Number"),
    "Hexadecimal": Class("constant.numeric.integer.hexadecimal", "Number"),
    "Bits": Class("constant.numeric.bits", "Number"),
    "Mask": Class("string.regexp.mask", "SpecialChar"),
    "String": Class("string.quoted.double", "String"),
    "Escape": Class("constant.character.escape", "SpecialChar"),
    "Operator": Class("keyword.operator.symbol", "Operator"),
    "Punctuation": Class("punctuation", "Delimiter"),
    "LineComment": Class("comment.line.double-slash", "Comment"),
    "BlockComment": Class("comment.block", "Comment"),
    "LeftOut": Class("invalid.illegal.word", "Error"),
    "ReservedName": Class("invalid.illegal.name", "Error"),
    "UnusedMark": Class("invalid.illegal.mark", "Error"),
    "BadEscape": Class("invalid.illegal.escape", "Error"),
    "Malformed": Class("invalid.illegal.quoted", "Error"),
    "Stray": Class("invalid.illegal.character", "Error"),
}


def parts(node):
    """A part of the grammar, and all parts inside it, but not those of the rules that it names."""
    yield node
    for side in ("p", "q"):
        if hasattr(node, side):
            yield from parts(getattr(node, side))


def kinds_at(node):
    """The kinds of tokens that one part of the grammar asks for by itself."""
    given = node.arg if node.kind == "ref" else getattr(node, "codes", None)
    return set([given] if isinstance(given, str) else given or [])


def kinds_in(names):
    """The kinds of tokens that these rules ask for."""
    return {kind for name in names for part in parts(rules.RULES[name].body) for kind in kinds_at(part)}


def kinds_before(name):
    """The kinds of tokens that a rule may begin with."""
    return rules.facts(rules.part(name), {})[1]


def sequence(node):
    """The parts of a sequence in their order."""
    return [node.p, *sequence(node.q)] if node.kind == "seq" else [node]


def kinds_around(name):
    """The kinds of the tokens right before and right after what a rule reads, wherever another rule names it."""
    found = set()
    for rule in rules.RULES.values():
        for part in parts(rule.body):
            row = sequence(part)
            for here, there in [*zip(row, row[1:]), *zip(row[1:], row)]:
                if here.kind == "ref" and here.name == name and there.kind == "tok":
                    found |= kinds_at(there)
    return found


def rules_of(title):
    """The rules in a section of the table, and the others."""
    inside = {name for name in rules.RULES if rules.title_of[name] == title}
    return inside, set(rules.RULES) - inside


def operator_words():
    """The kinds of the words that are operators: those with an operation, and those that open a level between two parts of an
    expression."""
    nodes = [part for rule in rules.RULES.values() for part in parts(rule.body)]
    opened = {kind for part in nodes if part.kind == "opens" for kind in kinds_at(part)}
    return (set(rules.UNARY) | set(rules.BINARY) | opened) & set(rules.WORDS)


def declaration_words():
    """The kinds of the words that begin a declaration, and of those that occur in declarations only and never next to a list of
    statements."""
    inside, outside = rules_of("Declarations")
    return kinds_before("declaration") | kinds_in(inside) - kinds_in(outside) - kinds_around("block")


def class_of_word_kinds():
    """The class of each kind of word. A word that no rule takes is refused wherever it occurs. Those that are names wherever a
    name may stand are colored as what they are in an accessor."""
    used = kinds_in(rules.RULES)
    found = {kind: "Statement" if kind in used else "LeftOut" for kind in [*rules.WORDS, "LeftOut"]}
    found.update({kind: "Declaration" for kind in declaration_words()})
    found.update({kind: "Type" for kind in kinds_before("type_definition")})
    found.update({kind: "Declaration" for kind in kinds_in(["name"]) & set(rules.WORDS)})
    found.update({kind: "WordOperator" for kind in operator_words()})
    found.update({kind: "Boolean" for kind in kinds_in(["boolean_literal"])})
    return found


def class_of_words():
    """The class of each word by its variant."""
    by_kind = class_of_word_kinds()
    return {word: by_kind[rules.WORD_KINDS[word]] for word in spellings.words()}


def class_of_marks():
    """The class of each mark by its variant. A mark that no rule takes is refused wherever it occurs."""
    used, operators = kinds_in(rules.RULES), set(rules.UNARY) | set(rules.BINARY)

    def class_of(mark):
        return "UnusedMark" if mark not in used else "Operator" if mark in operators else "Punctuation"

    return {mark: class_of(mark) for mark in spellings.marks()}


def words_of(name):
    """The spellings of the words of a class, sorted."""
    spelling = spellings.words()
    return sorted(spelling[word] for word, found in class_of_words().items() if found == name)


def marks_of(name, length):
    """The spellings of this length of the marks of a class, sorted."""
    spelling = spellings.marks()
    return sorted(spelling[mark] for mark, found in class_of_marks().items() if found == name and len(spelling[mark]) == length)


WORD_CLASSES = ("Declaration", "Statement", "WordOperator", "Type", "Boolean", "LeftOut")
MARK_CLASSES = ("Operator", "Punctuation", "UnusedMark")
