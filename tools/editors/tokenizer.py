"""A small tokenizer for TextMate grammars, which reads a text line by line, as editors do.

It knows `match`, `begin` with `end`, `patterns`, `include` and `repository`. In what is left of a line, the earliest match counts; of
several at the same place, that of the rule that is listed first. After a `begin`, its `end` comes before all rules inside.
"""
import re

# The regular expressions that mean the same to Oniguruma and to Python: characters, escaped marks, sets without sets inside them, groups,
# lookahead, and greedy repetition. Braces and names of classes are not among them, nor is `^` outside a set.
ESCAPE = r"\\[^0-9A-Za-z]|\\[nrt]"
PIECE = rf"(?:{ESCAPE}|\((?:\?[:!=])?|[)|.$]|\[\^?(?:{ESCAPE}|[^][\\&])+\]|[^][(){{}}*+?|.$^\\])"
COMMON = re.compile(rf"(?:{PIECE}[*+?]?(?![*+?]))*")


class Rule:
    """A rule of a grammar, with its regular expressions and the rules inside it."""

    def __init__(self, grammar, rule):
        self.name = rule.get("name")
        self.opening = re.compile(rule.get("begin") or rule["match"])
        self.closing = re.compile(rule["end"]) if "begin" in rule else None
        self.inside = rules_of(grammar, rule.get("patterns", []))


def rules_of(grammar, patterns):
    """The rules that a list of patterns stands for."""
    found = []
    for pattern in patterns:
        if "include" in pattern:
            found += rules_of(grammar, grammar["repository"][pattern["include"][1:]]["patterns"])
        else:
            found.append(Rule(grammar, pattern))
    return found


def expressions(value):
    """Each regular expression of a grammar."""
    if isinstance(value, list):
        return [it for part in value for it in expressions(part)]
    if not isinstance(value, dict):
        return []
    own = [it for key, it in value.items() if key in ("match", "begin", "end")]
    return own + [it for part in value.values() for it in expressions(part)]


def first_match(line, at, choices, known):
    """The earliest match at this place or after it, and the rule that it belongs to. `known` has what was found before in the line."""
    best = None
    for regex, rule in choices:
        if regex not in known or (known[regex] and known[regex].start() < at):
            known[regex] = regex.search(line, at)
        if known[regex] and (best is None or known[regex].start() < best[0].start()):
            best = known[regex], rule
    return best


class Tokenizer:
    """Tokens of a text: lists of a start, an end and the scopes there, the outermost first."""

    def __init__(self, grammar):
        self.rules = rules_of(grammar, grammar["patterns"])
        self.open, self.tokens = [], []

    def choices(self):
        """The regular expressions that may match next, each with its rule. The one that ends what is open has none."""
        ending = [(self.open[-1].closing, None)] if self.open else []
        return ending + [(rule.opening, rule) for rule in (self.open[-1].inside if self.open else self.rules)]

    def add(self, start, end, rule=None):
        """Adds a token with the scopes of what is open and of this rule."""
        names = [it.name for it in self.open] + ([rule.name] if rule else [])
        if start < end and names:
            self.tokens.append((start, end, names))

    def step(self, line, at, before, known):
        """Takes the next match in a line and returns the place after it, or nothing at the end of the line. `before` is the number of
        characters in the lines above."""
        found = first_match(line, at, self.choices(), known)
        start = found[0].start() if found else len(line)
        self.add(before + at, before + min(start, len(line.rstrip("\n"))))
        if not found:
            return None
        match, rule = found
        self.add(before + start, before + match.end(), rule)
        if rule is None:
            self.open.pop()
        elif rule.closing:
            self.open.append(rule)
        elif match.end() == start:
            raise ValueError(f"{rule.opening.pattern} matches nothing")
        return match.end()

    def read(self, text):
        """The tokens of a text."""
        before = 0
        for line in text.split("\n"):
            at, known = 0, {}
            while at is not None:
                at = self.step(line + "\n", at, before, known)
            before += len(line) + 1
        return self.tokens
