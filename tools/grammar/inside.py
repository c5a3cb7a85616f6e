"""The lemmas by which the spans of what each rule reads lie in the file that was read (crates/asl_laws/proofs/reading).

A rule's lemma is one term, made from the rule's body: what a sequence reads lies there part by part, and what a rule builds of it lies there by the
lemma of the node or of the function that builds it. So there is a value and a proof for each part of such a text.
"""
import re

READING = 'Rattle.asl_laws.proofs.reading.'

# ---- types


def split(text, mark):
    """the parts of a text between marks that stand in no brackets"""
    parts, depth, at = [], 0, 0
    for i, c in enumerate(text):
        if c in '({': depth += 1
        if c in ')}': depth -= 1
        if c == mark and depth == 0:
            parts.append(text[at:i].strip())
            at = i + 1
    return parts + [text[at:].strip()]


class Type:
    """a type by its form: `one` with a name, `list`, `option`, `product`, `sum`"""

    def __init__(self, form, parts, name=None): self.form, self.parts, self.name = form, parts, name

    def __str__(self):
        """as it is written in brackets, where it is more than a word"""
        if self.name: return self.name
        if self.form in ('list', 'option'): return f'({self.form.capitalize()} {self.parts[0]})'
        return '(' + {'product': ' × ', 'sum': ' ⊎ '}[self.form].join(map(str, self.parts)) + ')'


SHORT = {}


def type_of(text):
    text = text.strip()
    for mark, form in (('⊎', 'sum'), ('×', 'product')):
        parts = split(text, mark)
        if len(parts) > 1: return Type(form, [type_of(p) for p in parts])
    if text[0] == '(': return type_of(text[1:-1])
    for word in ('List', 'Option'):
        if text.startswith(word + ' '): return Type(word.lower(), [type_of(text[len(word):])])
    if text in SHORT: return Type(SHORT[text].form, SHORT[text].parts, text)
    return Type('one', [], text)


# types whose values have no span, and of which some are read by rules
READ_PLAIN = ('SliceForm', 'Qualifier', 'Direction', 'PrintKind', 'StorageKind', 'BodyWord')
PLAIN = READ_PLAIN + ('ℕ', 'Bool', 'TokenKind', 'Kind', 'UnaryOperator', 'BinaryOperator', 'LocalKind', 'Text')


def asked(t):
    """what is asked of the values of a type"""
    if t.name: return f'({t.name}In n size limit)' if t.name not in ('Lexeme', 'Extent') else f'({t.name[:3]}In n size)'
    if t.form == 'list': return f'(AllOf {asked(t.parts[0])})'
    if t.form == 'option': return f'(in_opt {asked(t.parts[0])})'
    if len(t.parts) == 2: return f'({"in_pair" if t.form == "product" else "in_sum"} {asked(t.parts[0])} {asked(t.parts[1])})'
    return f'(λ (v : {str(t)[1:-1]}). {asked_of(t, "v")})'


def asked_of(t, value):
    """what is asked of this value"""
    if t.form == 'product' and not t.name: return ' × '.join(asked_of(p, f'{value}.{i}') if p.form != 'product' or p.name else f'({asked_of(p, f"{value}.{i}")})' for i, p in enumerate(t.parts))
    return f'{asked(t)[1:-1]} {value}'


# ---- the texts by which rules build values


def parsed(text):
    """an expression: ('name', ..), ('call', head, arguments), ('cons', ..), ('append', ..), ('tuple', ..), ('record', fields)"""
    marks = re.findall(r'\[\]|\+\+|[\w.]+|[^\s]', text)
    at = [0]

    def next_is(*these): return at[0] < len(marks) and marks[at[0]] in these

    def take():
        at[0] += 1
        return marks[at[0] - 1]

    def atom():
        mark = take()
        if mark == '(':
            parts = [expression()]
            while next_is(','):
                take()
                parts.append(expression())
            assert take() == ')', text
            return parts[0] if len(parts) == 1 else ('tuple', parts)
        if mark == 'record':
            fields = {}
            assert take() == '{', text
            while not next_is('}'):
                if next_is(';'): take()
                name = take()
                assert take() == '=', text
                fields[name] = expression()
            take()
            return ('record', fields)
        return ('name', mark)

    def application():
        head, arguments = atom(), []
        while at[0] < len(marks) and not next_is(')', ',', ';', '}', '∷', '++', '='): arguments.append(atom())
        return ('call', head[1], arguments) if arguments else head

    def expression():
        left = application()
        if next_is('∷', '++'): return ('cons' if take() == '∷' else 'append', left, expression())
        return left
    found = expression()
    assert at[0] == len(marks), text
    return found


class Built:
    """a part of such a text: its type, its value, a proof of what is asked of it (none where it has no span), and of a span one that it begins in the file"""

    def __init__(self, type_, value, proof, begins=None): self.type, self.value, self.proof, self.begins = type_, value, proof, begins


def closes(text):
    """whether the first bracket is closed by the last one"""
    depth = 0
    for i, c in enumerate(text):
        depth += (c in '([') - (c in ')]')
        if depth == 0: return i == len(text) - 1


def bracketed(text):
    """as an argument is written"""
    return text if re.fullmatch(r'[\w.]+', text) or text[0] in '([' and closes(text) else f'({text})'


def mapping(proof):
    """the lemma of a part, as a function of a value `x` and of what was read, `h`"""
    lemma = proof[:-len(' x h')]
    return f'({lemma})' if proof.endswith(' x h') and not re.search(r'\b[xh]\b', lemma) else f'(λ x h. {proof})'


def into(text, field): return f'{bracketed(text)}.{field}'


# parameters of the functions of Build.antt that are spans and are only begun with
FIRST = ('from', 'minus', 'bang')


def snake(variant): return re.sub(r'(?<=[a-z])(?=[A-Z])', '_', variant).lower()


def record(parts): return 'record { ' + '; '.join(f'{name} = {x.value}' for name, x in parts.items()) + ' }'


class Rules:
    """the rules of the grammar, with what the generator knows of them"""

    def __init__(self, grammar):
        self.grammar = grammar
        self.tree_of = {a: t for table in (grammar.TREES, grammar.READ_TREES, grammar.PARTS) for t, a in table.items() if a}
        self.nodes = [name for module in ('Nodes', 'StmtNodes', 'ReadNodes') for name in lemmas(grammar, module)]
        self.functions = {}
        lines = grammar.build.split('\n')
        for name in re.findall(r'^abbrev pub (\w+) : Type 0', grammar.build, re.M):
            SHORT[name] = type_of(re.search(rf'^{name} = (.*)', grammar.build, re.M).group(1))
        for i, line in enumerate(lines):
            m = re.match(r'(?:abbrev|unfoldable) pub (\w+) : (?:\{.*?\} → )?(.*)', line)
            if not m or m.group(2) == 'Type 0': continue
            types = split(m.group(2), '→')
            first = lines[i + 1].split(' = ')[0].split()[1:len(types)]
            self.functions[m.group(1)] = ([type_of(t) for t in types[:-1]], first, type_of(types[-1]))

    # ---- what a grammar reads

    def type(self, p):
        g, k = self.grammar, p.kind
        if k == 'ref': return type_of(g.RULES[p.name].type)
        if k in ('tok', 'opens'): return type_of('Lexeme')
        if k in ('into', 'closed'): return Type('product', [type_of('Lexeme'), type_of(g.SYMBOLS[p.symbol][0])])
        if k == 'seq': return Type('product', [self.type(p.p), self.type(p.q)])
        if k == 'spanned': return Type('product', [self.type(p.p), type_of('Extent')])
        if k == 'opt': return Type('option', [self.type(p.p)])
        if k == 'many': return Type('list', [self.type(p.p)])
        if k == 'by': return self.build(p, 'x', 'h', None).type
        if k == 'trail': return Type('product', [Type('list', [Type('product', [type_of('Lexeme'), self.type(p.p)])]), type_of('Option Lexeme')])
        if k == 'follows':
            a = self.type(p.p)
            return Type('sum', [a.parts[0], Type('product', [a.parts[1], self.type(p.q)])])
        return self.type(p.p)

    def proof(self, p, value, proof, wanted=None):
        """what is asked of a value, where a grammar has read it"""
        g, k = self.grammar, p.kind
        if k == 'ref':
            argument = '' if p.arg is None else ' ' + (g.codes(p.arg) if isinstance(p.arg, list) else g.constructor(p.arg))
            return f'{p.name}_inside n size limit{argument} {bracketed(value)} {bracketed(proof)}'
        if k == 'tok': return into(proof, 0)
        if k in ('opens', 'into', 'closed'): return proof
        if k in ('scope', 'costs'): return self.proof(p.p, value, proof, wanted)
        if k == 'spanned': return f'({self.proof(p.p, into(value, 0), into(proof, 0))}, {into(proof, 1)})'
        if k == 'seq': return f'({self.proof(p.p, into(value, 0), into(proof, 0))}, {self.proof(p.q, into(value, 1), into(proof, 1))})'
        if k == 'by':
            made = self.build(p, into(proof, 0), into(proof, 1), wanted)
            return f'subst {asked(wanted or made.type)} (sym {into(proof, 2)}) {bracketed(made.proof)}'
        inner = self.proof(p.p, 'x', 'h', wanted.parts[0] if wanted and k in ('opt', 'many') else None)
        if k in ('opt', 'many'): return f'{"opt" if k == "opt" else "all"}_inside {mapping(inner)} {bracketed(value)} {bracketed(proof)}'
        if k == 'trail': return f'(all_inside (λ x h. (h.0, {self.proof(p.p, "x.1", "h.1")})) {into(value, 0)} {into(proof, 0)}, {into(proof, 1)})'
        if k == 'follows':
            a = self.type(p.p)
            return f'follows_inside (In n size limit {g.text(p.p)}) {asked(a.parts[0])} {asked(a.parts[1])} {asked(self.type(p.q))} {mapping(inner)} {mapping(self.proof(p.q, "x", "h"))} {bracketed(value)} {bracketed(proof)}'
        raise Exception(k)

    def part(self, p, value, proof, fields):
        """a part of what a grammar has read"""
        while p.kind in ('scope', 'costs'): p = p.p
        if fields and fields[0] in '01':
            i = fields[0]
            if p.kind == 'seq': return self.part(p.p if i == '0' else p.q, into(value, i), into(proof, i), fields[1:])
            if p.kind == 'spanned' and i == '0': return self.part(p.p, into(value, i), into(proof, i), fields[1:])
            if p.kind == 'trail' and i == '0':
                many = self.grammar.Node('many', p=self.grammar.Node('seq', p=self.grammar.Node('opens', codes=p.codes), q=p.p))
                return self.part(many, into(value, i), into(proof, i), fields[1:])
            if p.kind in ('spanned', 'trail'):
                return self.field(Built(self.type(p).parts[1], into(value, i), into(proof, i)), fields[1:])
        if p.kind == 'tok' and p.codes == ['BitsLiteral'] and fields == ['text']:
            return Built(type_of('Text'), into(value, 'text'), f'literal_read n size limit {value} {bracketed(proof)}')
        return self.field(Built(self.type(p), value, self.proof(p, value, proof)), fields)

    def field(self, it, fields):
        if not fields: return it
        f, value = fields[0], into(it.value, fields[0])
        if f.isdigit(): found = Built(it.type.parts[int(f)], value, into(it.proof, f))
        elif f == 'span':
            begins = 'lex_from' if it.type.name == 'Lexeme' else 'span_from'
            found = Built(type_of('Span'), value, it.proof, f'{begins} n size limit {bracketed(it.value) if it.type.name == "Lexeme" else value} {bracketed(it.proof)}')
        elif f == 'from': found = Built(type_of('Span'), value, None, f'from_in n size limit {bracketed(it.value)} {bracketed(it.proof)}')
        elif f == 'to': found = Built(type_of('ℕ'), value, into(it.proof, 'ends'))
        else: found = Built(type_of({'kind': 'TokenKind', 'text': 'Text'}[f]), value, None)
        return self.field(found, fields[1:])

    # ---- what a rule builds of it

    def build(self, p, value, proof, wanted):
        function = p.function[1:-1] if p.function[0] == '(' else p.function
        body = function[len('λ r. '):] if function.startswith('λ r. ') else function + ' r'
        return self.built(parsed(body), p.p, value, proof, wanted)

    def built(self, e, p, value, proof, wanted):
        def go(e, wanted=None): return self.built(e, p, value, proof, wanted)
        if e[0] == 'name' and (e[1] == 'r' or e[1].startswith('r.')): return self.part(p, value, proof, e[1].split('.')[1:])
        if e[0] == 'name' and e[1] == '[]': return Built(wanted, '[]', 'tt')
        if e[0] == 'name' and e[1] == 'None': return Built(wanted, 'None', 'tt')
        if e[0] == 'name' and e[1] in ('true', 'false'): return Built(type_of('Bool'), e[1], None)
        if e[0] == 'name' and e[1].startswith('kind.'): return Built(type_of('Kind'), e[1], None)
        if e[0] == 'tuple':
            parts = [go(x, wanted and wanted.parts[i]) for i, x in enumerate(e[1])]
            return Built(wanted or Type('product', [x.type for x in parts]), self.tuple([x.value for x in parts]), self.tuple([x.proof for x in parts]))
        if e[0] == 'cons':
            first = go(e[1], wanted and wanted.parts[0])
            type_ = wanted or Type('list', [first.type])
            rest = go(e[2], type_)
            return Built(type_, f'{bracketed(first.value)} ∷ {bracketed(rest.value) if " ∷ " not in rest.value else rest.value}', f'({first.proof}, {rest.proof})')
        if e[0] == 'append':
            parts = [go(e[1], wanted), go(e[2], wanted)]
            type_ = wanted or parts[0].type
            return Built(type_, f'{bracketed(parts[0].value)} ++ {bracketed(parts[1].value)}', self.cited('append_in', [asked(type_.parts[0])] + [x.value for x in parts], [x.proof for x in parts], ''))
        if e[0] == 'record':
            parts = {name: go(x) for name, x in e[1].items()}
            text = record(parts)
            if 'end' in parts: return Built(wanted, text, self.tuple([parts['suffix'].proof, parts['end'].proof]))
            return Built(wanted, text, self.node(snake(wanted.name), [Built(wanted, text, None)], list(parts.values())))
        head, arguments = (e[1], []) if e[0] == 'name' else (e[1], e[2])
        return self.called(head, arguments, go, wanted)

    def called(self, head, arguments, go, wanted):
        if head == 'whole':
            it = go(arguments[0])
            return Built(type_of('Span'), f'whole {bracketed(it.value)}', f'whole_in n size {bracketed(it.value)} {bracketed(it.proof)}')
        if head == 'Some':
            it = go(arguments[0], wanted and wanted.parts[0])
            return Built(wanted or Type('option', [it.type]), f'Some {bracketed(it.value)}', it.proof)
        if head in ('inl', 'inr'):
            it = go(arguments[0], wanted and wanted.parts[head == 'inr'])
            return Built(wanted, f'{head} {bracketed(it.value)}', it.proof)
        if head in self.functions: return self.function(head, arguments, go, wanted)
        if head in ('kind_of', 'same_kind', 'unary_of'):
            return Built(type_of({'kind_of': 'Kind', 'same_kind': 'Bool', 'unary_of': 'UnaryOperator'}[head]), self.call(head, [go(x).value for x in arguments]), None)
        alias, _, variant = head.rpartition('.')
        if alias == 'rd': return self.declaration(variant, arguments[0], go)
        parts = [go(x) for x in arguments]
        value = self.call(head, [x.value for x in parts])
        if not alias: return Built(type_of('VarRest'), value, self.pairs([x.proof for x in parts]))
        tree = self.tree_of[alias]
        if tree in PLAIN: return Built(type_of(tree), value, 'tt')
        if tree in self.grammar.PARTS: return Built(type_of(tree), value, self.pairs([x.proof for x in parts]))
        form = ('read_' if tree in self.grammar.READ_TREES else '') + snake(variant)
        return Built(type_of(tree), value, self.node(form, parts, parts))

    def declaration(self, variant, e, go):
        """a declaration is a variant with a record of its parts"""
        parts = {name: go(x) for name, x in e[1].items()}
        of_parts = Built(None, record(parts), None)
        return Built(type_of('ReadDecl'), f'rd.{variant} ({of_parts.value})', self.node('read_' + snake(variant), [of_parts], list(parts.values())))

    def node(self, form, arguments, parts):
        """the lemma of a form of tree; where it has none, what is asked of the tree computes to what is asked of its parts"""
        proofs = [x.proof for x in parts if self.is_asked(x)]
        if form + '_node' in self.nodes: return self.cited(form + '_node', [x.value for x in arguments], proofs)
        return self.pairs(proofs)

    def function(self, head, arguments, go, wanted):
        types, names, result = self.functions[head]
        if result.name in PLAIN: return Built(result, self.call(head, [go(x).value for x in arguments]), 'tt' if result.name in READ_PLAIN else None)
        if head in ('seconds', 'or_nil', 'behind'):
            parts = [go(x, wanted if head == 'behind' else None) for x in arguments]
            item = {'seconds': lambda t: t.parts[0].parts[1], 'or_nil': lambda t: t.parts[0].parts[0], 'behind': lambda t: t.parts[0]}[head](parts[-1].type)
            values, proofs = [x.value for x in parts], [x.proof for x in parts]
            return Built(Type('list', [item]), self.call(head, values), self.cited(head + '_in', [asked(item)] + values, proofs, ' n size limit' if head == 'seconds' else ''))
        lemma = head + '_in' if head + '_in' not in self.grammar.RULES else f'built_{head}_in'
        parts = [go(x, None if t.name == 'Span' else t) for x, t in zip(arguments, types)]
        proofs = [x.begins if name in FIRST and t.name == 'Span' else x.proof for x, t, name in zip(parts, types, names) if t.name not in PLAIN]
        return Built(result, self.call(head, [x.value for x in parts]), self.cited(lemma, [x.value for x in parts], proofs))

    def is_asked(self, it):
        """whether something is asked of a part: of one with spans, and of the text of a literal of bits"""
        return it.type is None or it.type.name not in PLAIN or it.type.name == 'Text' and it.proof is not None


    def call(self, head, values): return ' '.join([head] + [bracketed(x) for x in values])
    def cited(self, lemma, values, proofs, section=' n size limit'): return ' '.join([lemma + section] + [bracketed(x) for x in values + proofs])
    def tuple(self, parts): return '(' + ', '.join(parts) + ')'

    def pairs(self, proofs):
        """as a tree of spans holds them: a pair of the first and of all others"""
        proofs = [x for x in proofs if x is not None]
        if not proofs: return 'tt'
        return proofs[0] if len(proofs) == 1 else f'({proofs[0]}, {self.pairs(proofs[1:])})'

    # ---- the lemmas

    def lemma(self, name):
        r = self.grammar.RULES[name]
        t, p = type_of(r.type), r.body
        at = name if r.variable is None else f'({name} {r.variable})'
        head = f'{name}_inside' + (f' {r.variable}' if r.variable else '')
        signature = f'pub {name}_inside : {r.binder + " " if r.binder else ""}(v : {r.type}) → In n size limit {at} v → {asked_of(t, "v")}\nunfolding {name}\n'
        if p.kind == 'by':
            made = self.build(p, 'x', 'h', t)
            return signature + f'{head} v (x, h, e) = subst {asked(t)} (sym e) {bracketed(made.proof)}\n'
        clauses, side = [], 'h'
        while p.kind == 'either':
            clauses.append(f'{head} v {side.replace("h", "(inl h)", 1)} = {self.proof(p.p, "v", "h", t)}\n')
            side, p = side.replace('h', '(inr h)', 1), p.q
        return signature + ''.join(clauses) + f'{head} v {side} = {self.proof(p, "v", "h", t)}\n'


# ---- the files

BY_HAND = ('Inside', 'Predicates', 'Nodes', 'StmtNodes', 'ReadNodes', 'Builds', 'Combining')
FILES = {'Names and literals': ('RulesOfExpressions', 'expressions, and those of types, patterns and slices that stand in them'),
         'Braces behind a name': ('RulesOfParts', 'braces behind a name, of slices, patterns and types'),
         'Statements': ('RulesOfStatements', 'statements'),
         'Declarations': ('RulesOfDeclarations', 'declarations')}


def files(grammar):
    """each file with its text"""
    rules = Rules(grammar)
    symbols = list(grammar.SYMBOLS)
    section = 'module _ (n size limit : ℕ) where\n'

    out, found, title = {}, {}, None
    for name in grammar.ORDER:
        if grammar.title_of[name] != title:
            title = grammar.title_of[name]
            if title in FILES and FILES[title][0] not in found:
                file = FILES[title][0]
                found[file] = ([], [])
            found[file][1].append(f'-- ---- {title}\n')
        found[file][0].append(name)
        found[file][1].append(rules.lemma(name))

    def cited(body, here):
        """the lemmas of rules that stand in other files"""
        return ''.join(grammar.from_module(READING + file, [n + '_inside' for n in names], body) for file, (names, _) in found.items() if file != here)

    def whole(comment, body, own):
        """a file, with the names that it uses"""
        text_below = section + ''.join('  ' + line if line.strip() else line for line in body.splitlines(True))
        # the fields of records are no names of the file
        body = re.sub(r'(?<=[{;] )\w+ =', '=', text_below)
        prelude = '◌≡◌ ℕ ◌⊎◌ inl inr true false List [] ◌∷◌ ◌++◌ Option Some None sym subst'.split()
        text = comment + grammar.GENERATED + grammar.from_module('Rattle.std.proofs.Common', prelude, body) + grammar.imports(body) + grammar.from_kinds(body)
        text += grammar.from_module(grammar.PRE + 'Cursor', grammar.CURSOR, body) + grammar.from_module(grammar.PRE + 'Build', grammar.HELPERS, body)
        text += grammar.from_module(grammar.PRE + 'Combinators', grammar.COMBINATORS, body)
        text += grammar.from_module(grammar.PRE + 'Rules', ['Sym', 'Val', 'Rule', 'rule', 'after'] + symbols + grammar.ORDER, body)
        text += grammar.from_module('Rattle.asl_laws.proofs.basics.Lists', ['AllOf'], body)
        for module in BY_HAND:
            text += re.sub(r'built_(\w+)', r'\1 as built_\1', grammar.from_module(READING + module, lemmas(grammar, module), body))
        if own != 'Symbols': text += grammar.from_module(READING + 'Symbols', ['SymIn', 'In'], body)
        return text + cited(body, own) + '\n' + text_below

    body = '-- what is asked of what is read behind a token that opens a level\nabbrev pub SymIn : (s : Sym) → Val s → Type 0\n'
    body += ''.join(f'SymIn {s} v = {asked_of(type_of(t), "v")}\n' for s, (t, n, c) in grammar.SYMBOLS.items())
    body += '\n-- what a rule reads lies in the file, part by part\nabbrev pub In : {A : Type 0} → Rule A → A → Type 0\nIn g v = Inside Sym Val after n size limit SymIn g v\n'
    out['Symbols'] = whole('-- What is asked of what each symbol of the grammar stands for, and of what a rule reads.\n', body, 'Symbols')
    for file, (names, parts) in found.items():
        # in its own file a lemma stands at the section's number and size
        body = re.sub(rf'\b({"|".join(names)})_inside n size limit', r'\1_inside', '\n'.join(parts))
        others = '\n'.join([lemma for other, (_, lemmas_there) in found.items() if other != file for lemma in lemmas_there])
        known = {n for _, n, _ in grammar.SYMBOLS.values()} | set(re.findall(r'(\w+)_inside', others))
        body = re.sub(r'^pub (\w+)_inside', lambda m: m.group(0) if m.group(1) in known else m.group(0)[len('pub '):], body, flags=re.M)
        out[file] = whole(f'-- What the rules of {[c for f, c in FILES.values() if f == file][0]} read has its spans in the file.\n', body, file)
    body = '-- what each symbol stands for is as asked\npub made : (s : Sym) (v : Val s) → In n size limit (rule s) v → SymIn n size limit s v\n'
    body += ''.join(f'made {s} v h = {n}_inside n size limit v h\n' for s, (t, n, c) in grammar.SYMBOLS.items())
    out['Made'] = whole('-- What a symbol of the grammar stands for has its spans in the file, where this holds of the symbols in it.\n', body, 'Made')
    return {f'asl_laws/proofs/reading/{file}.antt': text for file, text in out.items()}


def lemmas(grammar, module):
    """the names that a file written by hand makes known"""
    text = open(f'{grammar.CRATES}/asl_laws/proofs/reading/{module}.antt').read()
    found = re.findall(r'^ *(?:abbrev |unfoldable )?pub (?:record )?(\w+) ', text, re.M)
    return [name if name not in grammar.RULES else 'built_' + name for name in found]
