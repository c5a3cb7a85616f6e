"""The table of the grammar as data, with the tokens that come first of each rule, and what is written of the rules themselves: the kinds of tokens, the
operators that kinds are, and the grammar (specs/grammar/{Kinds,Operators,Rules}.antt and src/{kinds,operators}.rt of the crate asl_grammar)."""
import os
import re

HERE = os.path.dirname(os.path.abspath(__file__))
CRATES = os.path.normpath(os.path.join(HERE, '..', '..', 'crates'))

# ---- kinds of tokens

LITERALS = {'Name': 'Name', 'Int': 'IntegerLiteral', 'Bits': 'BitsLiteral', 'Mask': 'MaskLiteral', 'Text': 'StringLiteral'}
MARKS = ('OpenParen CloseParen OpenBracket CloseBracket OpenBrace CloseBrace Semicolon Comma Dot DotDot Colon ColonColon '
         'Assign Equal FatArrow Bang NotEqual AndAnd OrOr Implies Iff Less LessEqual ShiftLeft Greater GreaterEqual '
         'ShiftRight Plus PlusColon Minus Star StarColon Caret Slash Access').split()
WORDS = ('BitAnd Div DivRm False In Mod Not BitOr True BitXor Array As Assert Begin Bit Bits Boolean Case Catch Constant Do '
         'DownTo Else ElsIf End Enumeration Exception For Func If Integer Let LoopLimit Of Otherwise Pass Print PrintLine '
         'Pure ReadOnly Record RecurseLimit Repeat Return Subtypes Then Throw To Try TypeWord Unreachable Until Var When '
         'Where While Accessor ImpDef Implementation Getter Setter').split()
LEFT_OUT = 'Real StringWord Collection Pragma NoReturn Arbitrary Config'.split()
KINDS = {kind: n for n, kind in enumerate(list(LITERALS.values()) + MARKS + WORDS + ['LeftOut'])}
WORD_KINDS = {**{word: word for word in WORDS}, 'BitEor': 'BitXor', **{word: 'LeftOut' for word in LEFT_OUT}}


def snake(variant): return re.sub(r'(?<=[a-z])(?=[A-Z])', '_', variant).lower()

# ---- rules as data


class Node:
    def __init__(self, kind, **parts):
        self.kind = kind
        self.__dict__.update(parts)


RULES, SYMBOLS, SECTIONS = {}, {}, []


def part(p):
    return Node('ref', name=p, arg=None) if isinstance(p, str) else p


def chain(kind, parts):
    parts = [part(p) for p in parts]
    return parts[0] if len(parts) == 1 else Node(kind, p=parts[0], q=chain(kind, parts[1:]))


def tok(*codes): return Node('tok', codes=list(codes))
def opens(*codes): return Node('opens', codes=list(codes))
def opens_by(variable): return Node('opens', codes=[variable])
def into(codes, symbol): return Node('into', codes=[codes] if isinstance(codes, str) else codes, symbol=symbol)
def closed(codes, symbol): return Node('closed', codes=codes, symbol=symbol)
def seq(*parts): return chain('seq', parts)
def either(*parts): return chain('either', parts)
def opt(p): return Node('opt', p=part(p))
def many(p): return Node('many', p=part(p))
def by(function, p): return Node('by', function=function, p=part(p), template=None)
def spanned(p): return Node('spanned', p=part(p))
def scope(p): return Node('scope', p=part(p))
def trail(codes, p): return Node('trail', codes=codes, p=part(p))
def costs(late, p): return Node('costs', late=late, p=part(p))
def follows(p, q): return Node('follows', p=part(p), q=part(q))
def apply(name, codes): return Node('ref', name=name, arg=codes)
def apply_to(name, text): return Node('ref', name=name, arg=text)


def path(base, i, n):
    return base + '.1' * i + ('.0' if i < n - 1 else '')


def made(template, base, parts, whole):
    n = len(parts)
    text = template.replace('$s', f'(whole {whole})').replace('$f', f'{whole}.from')
    text = re.sub(r'\$(\d)', lambda m: path(base, int(m.group(1)), n) if n > 1 else base, text)
    p = spanned(seq(*parts)) if whole else seq(*parts)
    return Node('by', function=f'(λ r. {text})', p=p, template=(template, n, bool(whole)))


def make(template, *parts): return made(template, 'r', parts, None)
def node(template, *parts): return made(template, 'r.0', parts, 'r.1')
def more(p): return by('seconds', many(seq(tok('Comma'), p)))
def commas(p): return make('$0 ∷ seconds $1', p, many(seq(tok('Comma'), p)))
def listed(p): return make('$0 ∷ seconds $1.0', p, trail(['Comma'], p))
def links(operators, operand): return many(seq(opens(*operators), spanned(operand)))
def level(operand, rest): return make('chained $0.1.from $0.0 $1', spanned(operand), rest)
def post(p): return make('posted $0.1.from $0.0 $1', spanned(p), 'post_rest')


def symbol(name, type_, rule_name, comment): SYMBOLS[name] = (type_, rule_name, comment)
def section(title): SECTIONS.append((title, len(RULES)))


class Rule:
    def __init__(self, name, type_, body, comment, acc, binder):
        self.name, self.type, self.body, self.comment, self.acc, self.binder = name, type_, part(body), comment, acc, binder
        # the variable of a family of rules, with its type
        self.variable = binder and re.match(r'\((\w+) :', binder).group(1)


def rule(name, type_, body, comment='', acc=False): RULES[name] = Rule(name, type_, body, comment, acc, None)
def family(name, binder, type_, body, comment='', acc=False): RULES[name] = Rule(name, type_, body, comment, acc, binder)


exec(open(os.path.join(HERE, 'table.py')).read())

# ---- which tokens come first, whether nothing may stand for it, and by which tokens it may go on when it could end

AFTER = {s: set() for s in SYMBOLS}
memo = {}
conflicts = []


def given(codes, bound):
    return [bound if bound and c in ('operator',) else c for c in codes]


def resolve(codes, env):
    out = []
    for c in codes if isinstance(codes, list) else [codes]:
        out += env.get(c, [c])
    return out


def environment(ref):
    r = RULES[ref.name]
    if r.variable is None: return {}
    return {r.variable: ref.arg if isinstance(ref.arg, list) else [ref.arg]}


def facts(p, env, where=None):
    """nullable, first, goes on by"""
    k = p.kind
    if k == 'ref':
        e = environment(p)
        e = {v: resolve(c, env) for v, c in e.items()}
        key = (p.name, tuple(sorted((v, tuple(c)) for v, c in e.items())))
        if key not in memo: memo[key] = facts(RULES[p.name].body, e, where and p.name)
        return memo[key]

    def bad(what):
        if where: conflicts.append((where, what))
    if k in ('tok', 'opens'): return (False, set(resolve(p.codes, env)), set())
    if k in ('into', 'closed'): return (False, set(resolve(p.codes, env)), set(AFTER[p.symbol]))
    a = facts(p.p, env, where)
    if k in ('by', 'scope'): return a
    if k == 'seq':
        b = facts(p.q, env, where)
        if a[2] & b[1]: bad(f'{a[2] & b[1]} goes on and starts what follows')
        return (a[0] and b[0], a[1] | (b[1] if a[0] else set()), b[2] | (a[2] if b[0] else set()))
    if k == 'either':
        b = facts(p.q, env, where)
        if a[1] & b[1]: bad(f'{a[1] & b[1]} starts two alternatives')
        if a[0] or b[0]: bad('an alternative may be empty')
        return (False, a[1] | b[1], a[2] | b[2])
    if a[0]: bad(k + ' of what may be empty')
    if k in ('opt', 'many'):
        if k == 'many' and a[2] & a[1]: bad(f'{a[2] & a[1]} goes on and starts another')
        return (True, a[1], a[1] | a[2])
    if k in ('spanned', 'costs'): return (a[0] and k == 'spanned', a[1], a[2])
    if k == 'trail':
        if a[2] & set(p.codes): bad(f'{a[2] & set(p.codes)} goes on and separates')
        return (True, set(p.codes), set(p.codes) | a[1] | a[2])
    b = facts(p.q, env, where)
    if a[2] & b[1]: bad(f'{a[2] & b[1]} goes on and starts what follows')
    return (False, a[1], b[2] | a[2])


while True:
    memo.clear()
    old = {s: set(v) for s, v in AFTER.items()}
    for s, (_, name, _) in SYMBOLS.items(): AFTER[s] |= facts(part(name), {})[2]
    if old == AFTER: break
memo.clear()
for name, r in RULES.items():
    if r.variable is None: facts(part(name), {}, name)
for where, what in sorted(set(conflicts)): print('CONFLICT', where, what)

# ---- text

ORDER = []


def references(p):
    if p.kind == 'ref': yield p.name
    for side in ('p', 'q'):
        if hasattr(p, side): yield from references(getattr(p, side))


def visit(name):
    if name in ORDER: return
    for other in references(RULES[name].body): visit(other)
    ORDER.append(name)


for name in RULES: visit(name)


def codes(cs):
    if isinstance(cs, list) and len(cs) == 1 and cs[0] == 'operators': return 'operators'
    return '(' + ' ∷ '.join([constructor(c) for c in cs] + ['[]']) + ')' if cs else '[]'


def constructor(c): return 'kind.' + c if c in KINDS else c


def text(p):
    k = p.kind
    if k == 'ref':
        if p.arg is None: return p.name
        return f'({p.name} {codes(p.arg) if isinstance(p.arg, list) else constructor(p.arg)})'
    if k in ('tok', 'opens'): return f'({k} {codes(p.codes)})'
    if k in ('into', 'closed'): return f'({k} {codes(p.codes)} {p.symbol})'
    if k in ('seq', 'either', 'follows'): return f'({k} {text(p.p)} {text(p.q)})'
    if k in ('opt', 'many', 'spanned', 'scope'): return f'({k} {text(p.p)})'
    if k == 'by': return f'(by {p.function if " " not in p.function or p.function[0] == "(" else "(" + p.function + ")"} {text(p.p)})'
    if k == 'trail': return f'(trail {codes(p.codes)} {text(p.p)})'
    if k == 'costs': return f'(costs {"true" if p.late else "false"} {text(p.p)})'
    raise Exception(k)


def bare(t):
    return t[1:-1] if t[0] == '(' else t


def used(names, body, dotted=False):
    found = set(re.findall(r"[\w'-]+", re.sub(r'--.*', '', body)))
    return [n for n in names if n in found]


def sort(cs): return sorted(set(cs), key=lambda c: KINDS[c])


OUT = {}
GENERATED = '-- Written by tools/grammar/generate.py from tools/grammar/table.py.\n'

# kinds


def arms(pairs, enum): return ''.join(f'        {enum}::{a} => {b},\n' for a, b in pairs)


def rows(function, of, pairs): return ''.join(f'{function} {of}.{a} = {b}\n' for a, b in pairs)


kinds = '-- The kinds of tokens. All words that are left out have one kind, and so have `XOR` and `EOR`.\n' + GENERATED
kinds += 'use Rattle.std.specs.Prelude.{Bool}\nuse denote.Enum.Bare.{sameb}\n'
for t, a in (('Mark', 'mk'), ('Word', 'wd'), ('TokenKind', 'tk')):
    kinds += f'use Rattle.asl_syn.specs.declared.token.{t}.{{{t}}}\nuse Rattle.asl_syn.specs.declared.token.{t}.TheVariants as {a}\n'
kinds += 'use Rattle.asl_grammar.specs.contracts.kinds.Kind.{the_type}\nuse Rattle.asl_grammar.specs.declared.kinds.Kind.{Kind}\nuse Rattle.asl_grammar.specs.declared.kinds.Kind.TheVariants as kind\n\n'
kinds += '-- `==` on kinds\nabbrev pub same_kind : Kind → Kind → Bool\nsame_kind = sameb the_type\n\n'
kinds += 'abbrev pub kind_of_mark : Mark → Kind\n' + rows('kind_of_mark', 'mk', [(m, 'kind.' + m) for m in MARKS]) + '\n'
kinds += 'abbrev pub kind_of_word : Word → Kind\n' + rows('kind_of_word', 'wd', [(w, 'kind.' + k) for w, k in WORD_KINDS.items()]) + '\n'
kinds += 'abbrev pub kind_of : TokenKind → Kind\n' + ''.join(f'kind_of {"(tk.Int n)" if v == "Int" else "tk." + v} = kind.{c}\n' for v, c in LITERALS.items()) + 'kind_of (tk.Word w) = kind_of_word w\nkind_of (tk.Mark m) = kind_of_mark m\n'
OUT['asl_grammar/specs/grammar/Kinds.antt'] = kinds

code = '''//! The kinds of tokens: what a rule of the grammar asks of the next token.
// Written by tools/grammar/generate.py from tools/grammar/table.py.

ghost use Rattle.std.specs.Prelude.{◌≡◌};
ghost use Rattle.asl_grammar.specs.grammar.Kinds as kinds;

use asl_syn::token::{Mark, TokenKind, Word};

/// A kind of token, without the token's value. All words that are left out are of one kind, and so are `XOR` and `EOR`.
#[derive(Clone, Copy, PartialEq, Eq)]
pub enum Kind {
''' + ''.join(f'    {kind},\n' for kind in KINDS) + '''}

fn kind_of_mark(mark: Mark) -> Kind
    ensures { result ≡ kinds.kind_of_mark mark }
{
    match mark {
''' + arms([(m, 'Kind::' + m) for m in MARKS], 'Mark') + '''    }
}

fn kind_of_word(word: Word) -> Kind
    ensures { result ≡ kinds.kind_of_word word }
{
    match word {
''' + arms([(w, 'Kind::' + k) for w, k in WORD_KINDS.items()], 'Word') + '''    }
}

/// The kind of a token.
pub fn kind_of(token: TokenKind) -> Kind
    ensures { result ≡ kinds.kind_of token }
{
    match token {
''' + arms([(v + ('(_)' if v == 'Int' else ''), 'Kind::' + c) for v, c in LITERALS.items()], 'TokenKind') + '''        TokenKind::Word(word) => kind_of_word(word),
        TokenKind::Mark(mark) => kind_of_mark(mark),
    }
}
'''
OUT['asl_grammar/src/kinds.rt'] = code

# operators
specs = '-- The operators that kinds of tokens are.\n' + GENERATED
for t, a in (('UnaryOperator', 'un'), ('BinaryOperator', 'bin')):
    specs += f'use Rattle.asl_syn.specs.declared.tree.{t}.{{{t}}}\nuse Rattle.asl_syn.specs.declared.tree.{t}.TheVariants as {a}\n'
specs += 'use Rattle.std.specs.Prelude.{[], ◌∷◌}\nuse Rattle.asl_grammar.specs.declared.kinds.Kind.{Kind}\nuse Rattle.asl_grammar.specs.declared.kinds.Kind.TheVariants as kind\nuse Rattle.asl_grammar.specs.grammar.Cursor.{Kinds}\n'
code = '''//! The operators that kinds of tokens are.
// Written by tools/grammar/generate.py from tools/grammar/table.py.

ghost use Rattle.std.specs.Prelude.{◌≡◌, true};
ghost use Rattle.asl_grammar.specs.grammar.Cursor.{among};
ghost use Rattle.asl_grammar.specs.grammar.Operators as operators;

use crate::kinds::Kind;
use asl_syn::tree::{BinaryOperator, UnaryOperator};
'''
for name, type_, a, table, what in (('unary', 'UnaryOperator', 'un', UNARY, 'before its operand'), ('binary', 'BinaryOperator', 'bin', BINARY, 'between its operands')):
    specs += f'\n-- the kinds that are an operator {what}\nabbrev pub {name}_kinds : Kinds\n{name}_kinds = {" ∷ ".join(["kind." + k for k in table] + ["[]"])}\n'
    last = list(table)[-1]
    specs += f'\n-- the operator {what} that one of these kinds is; no rule asks it of another\nabbrev pub {name}_of : Kind → {type_}\n' + rows(name + '_of', 'kind', [(k, f'{a}.{o}') for k, o in table.items() if k != last]) + f'{name}_of _ = {a}.{table[last]}\n'
    code += f'''
/// The operator {what} that this kind is.
pub fn {name}_of(kind: Kind) -> {type_}
    requires {{ among operators.{name}_kinds kind ≡ true }}
    ensures {{ result ≡ operators.{name}_of kind }}
{{
    match kind {{
''' + arms([(k, f'{type_}::{o}') for k, o in table.items()], 'Kind') + '''        _ => unreachable!(),
    }
}
'''
OUT['asl_grammar/specs/grammar/Operators.antt'] = specs
OUT['asl_grammar/src/operators.rt'] = code

# rules
TREES = dict(Expr='ex', FieldValue='fv', Slice='sl', TypeExpr='ty', ConstraintPart='cp', Bitfield='bf', Pattern='pa', Suffix='su', PlacedSuffix=None, Target='tg', Binder='bd', Bind='bi', PrintItem='pi', Stmt='stm', ElseIf='ei', Alternative='al', Otherwise='ot', Catcher='ca', Formal=None, Param=None, TypeDef='td', StorageKind='sk', Qualifier='ql', Decl='dc', Ident=None, LocalKind='lk', Direction='dr', PrintKind='pk')
READ_TREES = dict(ReadStmt='rs', ReadElseIf='re', ReadAlternative='ra', ReadOtherwise='ro', ReadCatcher='rc', BodyWord='bw', ReadDecl='rd')
PARTS = dict(AfterName='an', Braces='br', VarTail='vt', SliceForm='sf', Bodied='bo')
COMBINATORS = 'G tok opens into seq either opt many by spanned scope closed trail costs follows'.split()
build = open(os.path.join(CRATES, 'asl_grammar/specs/grammar/Build.antt')).read()
HELPERS = re.findall(r'^(?:abbrev|unfoldable) pub (\w+) :', build, re.M) + ['VarRest', 'MoreNames', 'Typed', 'Untyped']
PRELUDE = {'◌⊎◌': '⊎', 'true': 'true', 'false': 'false', 'ℕ': 'ℕ', 'List': 'List', '[]': '[]', '◌∷◌': '∷', '◌++◌': '++', 'Option': 'Option', 'Some': 'Some', 'None': 'None'}


def imports(body):
    found = set(re.findall(r'[\w]+', re.sub(r'--.*', '', body)))
    plain = re.sub(r'--.*', '', body)
    lines = []
    for table, where in ((TREES, 'asl_syn.specs.declared.tree'), (READ_TREES, 'asl_syn.specs.declared.read'), (PARTS, 'asl_grammar.specs.declared.parts')):
        for t, a in table.items():
            if re.search(rf'(?<![\w.]){t}(?![\w])', plain): lines.append(f'use Rattle.{where}.{t}.{{{t}}}\n')
            if a and re.search(rf'(?<![\w.]){a}\.', plain): lines.append(f'use Rattle.{where}.{t}.TheVariants as {a}\n')
    if re.search(r'(?<![\w.])Span(?![\w])', plain): lines.append('use Rattle.asl_syn.specs.declared.token.Span.{Span}\n')
    return ''.join(lines)


def from_module(module, names, body):
    plain = re.sub(r'--.*', '', body)
    u = [n for n in names if ('◌' in n and f" {n.strip('◌')} " in plain) or re.search(rf'(?<![\w.]){re.escape(n)}(?![\w])', plain)]
    return f'use {module}.{{{", ".join(u)}}}\n' if u else ''


CURSOR = ['Lexeme', 'Extent', 'Cursor', 'Kinds', 'starts', 'ahead', 'span_to', 'whole', 'among']
PRE = 'Rattle.asl_grammar.specs.grammar.'
DECLARED = 'Rattle.asl_grammar.specs.declared.kinds.Kind'


def from_kinds(body):
    plain = re.sub(r'--.*', '', body)
    lines = f'use {DECLARED}.{{Kind}}\n' if re.search(r'(?<![\w.])Kind(?![\w])', plain) else ''
    if re.search(r'(?<![\w.])kind\.[A-Z]', plain): lines += f'use {DECLARED}.TheVariants as kind\n'
    return lines + from_module(PRE + 'Kinds', ['kind_of', 'same_kind'], body) + from_module(PRE + 'Operators', ['unary_of', 'binary_of'], body)


body = '-- what stands behind a token that opens a level\npub data Sym : Type 0 where\n' + ''.join(f'  -- {c}\n  {s} : Sym\n' for s, (t, n, c) in SYMBOLS.items())
body += '\n-- what it is read to\nabbrev pub Val : Sym → Type 0\n' + ''.join(f'Val {s} = {t}\n' for s, (t, n, c) in SYMBOLS.items())
body += '\nabbrev pub Rule : Type 0 → Type 1\nRule A = G Sym Val A\n'
starts_at = {}
names = list(RULES)
for title, i in SECTIONS: starts_at[names[i]] = title
title_of, current = {}, None
for n in names:
    current = starts_at.get(n, current)
    title_of[n] = current
last_title = None
for n in ORDER:
    r = RULES[n]
    if title_of[n] != last_title:
        last_title = title_of[n]
        body += f'\n-- ---- {last_title}\n'
    head = '' if r.binder is None else f'{r.binder} → '
    body += '\n' + (f'-- {r.comment}\n' if r.comment else '') + f'unfoldable pub {n} : {head}Rule ({r.type})\n{n}{" " + r.variable if r.variable else ""} = {bare(text(r.body))}\n'
body += '\n-- ---- Symbols\n\nabbrev pub rule : (s : Sym) → Rule (Val s)\n' + ''.join(f'rule {s} = {n}\n' for s, (t, n, c) in SYMBOLS.items())
body += '\n-- the tokens by which what a symbol stands for may go on\nabbrev pub after : Sym → Kinds\n' + ''.join(f'after {s} = {codes(sort(AFTER[s]))}\n' for s in SYMBOLS)
head = '-- The grammar of the language: a rule for each production, such that one token is enough to choose by. The productions that begin\n-- alike are joined, and a comment gives each rule\'s production.\n' + GENERATED
plain = re.sub(r'--.*', '', body)
head += 'use Rattle.std.specs.Prelude.{' + ', '.join(n for n, s in PRELUDE.items() if re.search(r'(?<![\w])' + re.escape(s) + r'(?![\w])', plain)) + '}\nuse mathlib.Core.Logic.{inl, inr}\n' + imports(body)
head += from_kinds(body) + from_module(PRE + 'Cursor', CURSOR, body) + from_module(PRE + 'Combinators', COMBINATORS, body) + from_module(PRE + 'Build', HELPERS, body)
OUT['asl_grammar/specs/grammar/Rules.antt'] = head + '\n' + body
