#!/usr/bin/env python3
"""Turns the table of the grammar into text.

It writes, in the crate asl_grammar, the kinds of tokens (specs/grammar/Kinds.antt, src/kinds.rt), the operators that
kinds are (specs/grammar/Operators.antt, src/operators.rt), the rules (specs/grammar/Rules.antt) and the proof that one
token is enough to choose by (proofs/grammar/Checked.antt), and, in the crates asl_parse_expr and asl_parse_stmt, the tokens that a rule may begin with (src/firsts.rt)
and rules as the steps of the functions that read them (proofs/Steps.antt). And in the crate asl_laws, the proof that what each rule reads has its spans
in the file (proofs/reading/RulesOf*.antt, by inside.py). The table as data, and what is written of the rules alone, is rules.py.

    generate.py          writes the files
    generate.py --check  writes nothing, and fails where a file is not what it would write
"""
import glob
import os
import re
import sys

import inside
from rules import *

# ---- one token is enough


def fact(p, env):
    """the term, nullable, and the lists as they are built"""
    k = p.kind
    if k == 'ref':
        e = {v: resolve(c, env) for v, c in environment(p).items()}
        a = facts(p, env)
        f = 'f_' + p.name
        if p.arg is not None:
            arg = resolve(p.arg, env) if isinstance(p.arg, list) else resolve(p.arg, env)[0]
            f += '_' + '_'.join(snake(x) for x in (arg if isinstance(arg, list) else [arg]))
            NEEDED[f] = Node('ref', name=p.name, arg=arg)
        return (f, a[0], sort(a[1]), sort(a[2]))
    if k in ('tok', 'opens'): return (k + '_f', False, resolve(p.codes, env), [])
    if k in ('into', 'closed'): return (f'({k}_f {{s = {p.symbol}}})', False, resolve(p.codes, env), sort(AFTER[p.symbol]))

    def small(r):
        t, n, F, C = r
        if len(F) + len(C) <= 60: return r
        return (f'(fit {codes(sort(F))} {codes(sort(C))} {t} refl refl)', n, sort(F), sort(C))
    a = fact(p.p, env)
    if k == 'seq':
        b = fact(p.q, env)
        return small((f'(seq_f {a[0]} {b[0]} refl)', a[1] and b[1], a[2] + (b[2] if a[1] else []), b[3] + (a[3] if b[1] else [])))
    if k == 'either':
        b = fact(p.q, env)
        return small((f'(either_f {a[0]} {b[0]} refl)', False, a[2] + b[2], a[3] + b[3]))
    if k == 'opt': return small((f'(opt_f {a[0]})', True, a[2], a[2] + a[3]))
    if k == 'many': return small((f'(many_f {a[0]} refl)', True, a[2], a[2] + a[3]))
    if k in ('by', 'spanned', 'scope', 'costs'): return (f'({k}_f {a[0]})',) + a[1:]
    if k == 'trail': return small((f'(trail_f {a[0]} refl)', True, list(p.codes), list(p.codes) + a[2] + a[3]))
    b = fact(p.q, env)
    return small((f'(follows_f {a[0]} {b[0]} refl)', False, a[2], b[3] + a[3]))


def substituted(p, env):
    """the rule of a family at its argument"""
    t = text(p)
    for v, c in env.items(): t = re.sub(rf'\({v} ∷ \[\]\)', codes(c), re.sub(rf'(?<![\w]){v}(?! ∷)(?![\w])', codes(c) if v == 'operators' else constructor(c[0]), t))
    return t


NEEDED = {}
checked = []


def write_fact(name, ref, label):
    r = RULES[name]
    env = environment(ref) if r.variable else {}
    t, nullable, F, C = fact(r.body, env)
    a = facts(r.body, env)
    assert nullable == a[0] and set(F) == a[1] and set(C) == a[2], name
    nl = 'true' if nullable else 'false'
    at = name if r.variable is None else bare(text(ref))
    at = f'({at})' if ' ' in at else at
    checked.append(f'{label} : Facts {at} {nl} {codes(sort(F))} {codes(sort(C))}\nunfolding {name}\n{label} =\n    let raw : Facts {{A = {r.type}}} {substituted(r.body, env)} {nl} {codes(F)} {codes(C)} = {t} in\n    fit {codes(sort(F))} {codes(sort(C))} raw refl refl\n')


done = set()
for n in ORDER:
    r = RULES[n]
    if r.variable is not None: continue
    NEEDED.clear()
    at = len(checked)
    write_fact(n, part(n), 'f_' + n)
    mine = checked.pop()
    pending = dict(NEEDED)
    stack = []
    while pending:
        f, ref = pending.popitem()
        if f in done: continue
        done.add(f)
        NEEDED.clear()
        write_fact(ref.name, ref, f)
        stack.append(checked.pop())
        pending.update(NEEDED)
    checked += list(reversed(stack)) + [mine]
body = '\n'.join(checked)
tail = 'pub each : (s : Sym) → by_one after (rule s) ≡ true\n' + ''.join(f'each {s} = f_{n}.ok\n' for s, (t, n, c) in SYMBOLS.items())
tail += '\npub covered : (s : Sym) → covers (after s) (cont after (rule s)) ≡ true\n' + ''.join(f'covered {s} = covered_by (cont after {n}) {codes(sort(facts(part(n), {})[2]))} f_{n}.conts\n' for s, (t, n, c) in SYMBOLS.items())
everything = body + tail
head = '-- One token is enough to choose by, in each rule: each is gone through once, from the facts of its parts.\n' + GENERATED
head += 'use Rattle.std.proofs.Common.{◌≡◌, ◌⊎◌, inl, inr, true, false, List, [], ◌∷◌, ◌++◌, Option, Some, None, refl}\n' + imports(everything)
head += from_kinds(everything) + from_module(PRE + 'Cursor', CURSOR, everything) + from_module(PRE + 'Combinators', COMBINATORS, everything) + from_module(PRE + 'Reader', ['by_one', 'cont', 'covers'], everything)
head += from_module(PRE + 'Build', HELPERS, everything) + from_module(PRE + 'Rules', ['Sym'] + list(SYMBOLS) + ['rule', 'after'] + ORDER, everything)
head += from_module('Rattle.asl_grammar.proofs.grammar.Facts', 'Facts fit tok_f opens_f into_f closed_f seq_f either_f opt_f many_f by_f spanned_f scope_f trail_f costs_f follows_f covered_by'.split(), everything)
OUT['asl_grammar/proofs/grammar/Checked.antt'] = head + '\n' + body + '\n' + tail

# ---- each rule as the steps of a function


class At:
    """a cursor: the variable that it comes from, and the levels that are left, if they are others"""

    def __init__(self, base, left=None): self.base, self.levels = base, left
    def toks(self): return f'{self.base}.toks'
    def last(self): return f'{self.base}.last'
    def left(self): return self.levels or f'{self.base}.left'
    def __str__(self): return self.base if self.levels is None else f'(record {self.base} {{ left = {self.levels} }})'


class Reach:
    """an extent"""

    def __init__(self, start, end): self.start, self.end = start, end
    def __str__(self): return f'(extent {self.start.toks()} {self.end.last()})'


def shown(v): return '(' + ', '.join(map(shown, v)) + ')' if isinstance(v, tuple) else str(v)


def field(v, names):
    for n in names:
        if isinstance(v, tuple) and n in ('0', '1'): v = v[int(n)]
        elif isinstance(v, Reach) and n == 'from': v = f'(ahead {v.start.toks()})'
        elif isinstance(v, Reach) and n == 'to': v = v.end.last()
        else: v = f'{shown(v)}.{n}'
    return v


def built(p, v):
    """the value of `by` at the value of what was read"""
    if p.template is None:
        f = p.function
        if ' ' in f and f[0] != '(': return f'({f} {shown(v)})'
        return f'({f} {shown(v)})'
    template, n, spans = p.template
    parts = v[0] if spans else v
    items = []
    for i in range(n):
        if i < n - 1:
            items.append(parts[0])
            parts = parts[1]
        else: items.append(parts)
    out = template
    if spans: out = out.replace('$s', f'(span_to (ahead {v[1].start.toks()}) {v[1].end.last()})').replace('$f', f'(ahead {v[1].start.toks()})')
    out = re.sub(r'\$(\d)((?:\.(?:\d|\w+))*)', lambda m: shown(field(items[int(m.group(1))], [x for x in m.group(2).split('.') if x])), out)
    if re.fullmatch(r'\(?[\w.]+\)?', out) or template == '$0': return out
    m = re.fullmatch(r'\((.*), (.*)\)', out)
    return f'({out})' if not (out.startswith('(') and out.endswith(')') and balanced(out)) else out


def balanced(t):
    depth = 0
    for i, c in enumerate(t):
        depth += (c == '(') - (c == ')')
        if depth == 0 and i < len(t) - 1: return False
    return True


class Names:
    def __init__(self): self.n = {}
    def fresh(self, kind):
        i = self.n.get(kind, 0)
        self.n[kind] = i + 1
        return kind if i == 0 else f'{kind}{i}'


def listing(p):
    """the codes of `first`, as they compute"""
    k = p.kind
    if k == 'ref':
        r = RULES[p.name]
        out = listing(r.body)
        if out is None: return None
        if r.variable is not None:
            arg = p.arg if isinstance(p.arg, list) else [p.arg]
            out = [a for c in out for a in (arg if c == r.variable else [c])]
        return out
    if k in ('tok', 'opens', 'into', 'closed'): return list(p.codes)
    if k == 'trail': return list(p.codes)
    a = listing(p.p)
    if a is None: return None
    if k == 'seq' and facts(p.p, FAMILY)[0]:
        b = listing(p.q)
        return None if b is None else a + b
    if k == 'either':
        b = listing(p.q)
        return None if b is None else a + b
    return a


FAMILY = {'operators': ['Not'], 'operator': ['AndAnd']}


def starts_text(p, st):
    l = listing(p)
    return f'starts {codes(l)} {st.toks()}', l


ACCUMULATED = {n for n, r in RULES.items() if r.acc or (r.body.kind == 'by' and r.body.function == 'seconds') or (r.body.kind == 'many' and r.body.p.kind != 'ref')} | {'rest', 'sum_rests', 'post_rest', 'more_parameters', 'late_range', 'parameters_after_minus', 'parameters_after_name'}


def folded(right):
    """a last step whose function takes what was read before it"""
    m = re.search(r'bind \(reading d (\w+|\(\w+ \w+\)) (\w+)\) \(λ (x\d*) (m\d*)\. Ok \(\((.*) \3\), \4\)\)(\)*)$', right)
    if not m or m.group(1).strip('()').split(' ')[0] not in ACCUMULATED: return right
    name, at, x, end, f, close = m.groups()
    if re.search(rf'\b{x}\b', f): return right
    ends = f' (span_to (ahead st.toks) {end}.last)'
    if f.endswith(ends): new = f'ending (ahead st.toks) ({f[:-len(ends)]}) (reading d {name} {at})'
    else: new = f'then ({f}) (reading d {name} {at})'
    return right[:m.start()] + new + close


def steps(p, st, names, k):
    kind = p.kind
    if kind in ('tok', 'opens'):
        t, m = names.fresh('t'), names.fresh('m')
        if kind == 'tok': return f'bind (run_tok {codes(p.codes)} {st} {st.toks()}) (λ {t} {m}. {k(t, At(m))})'
        return f'bind (run_opens {codes(p.codes)} {st.left()} {st.toks()}) (λ {t} {m}. {k(t, At(m))})'
    if kind in ('into', 'closed'):
        t, m, x, e = names.fresh('t'), names.fresh('m'), names.fresh('x'), names.fresh('m')
        end = At(e) if kind == 'into' else At(e, f'suc {e}.left')
        return f'bind (run_opens {codes(p.codes)} {st.left()} {st.toks()}) (λ {t} {m}. bind (symbol d {p.symbol} {m}) (λ {x} {e}. {k((t, x), end)}))'
    if kind == 'ref':
        x, m = names.fresh('x'), names.fresh('m')
        return f'bind (reading d {text(p)} {st}) (λ {x} {m}. {k(x, At(m))})'
    if kind == 'seq': return steps(p.p, st, names, lambda a, m: steps(p.q, m, names, lambda b, e: k((a, b), e)))
    if kind == 'by': return steps(p.p, st, names, lambda a, m: k(built(p, a), m))
    if kind == 'spanned': return steps(p.p, st, names, lambda a, m: k((a, Reach(st, m)), m))
    if kind == 'scope': return steps(p.p, st, names, lambda a, m: k(a, At(m.base, st.left())))
    if kind == 'costs':
        f, l = starts_text(p.p, st)
        u, m = names.fresh('u'), names.fresh('m')
        return f'bind (charge {codes(l)} {"true" if p.late else "false"} {st}) (λ {u} {m}. {steps(p.p, At(m), names, k)})'
    raise Exception(kind)


def atom(p): return p.kind in ('ref', 'tok', 'opens')
def straight(p): return atom(p) or (p.kind in ('by', 'scope', 'spanned') and atom(p.p)) or (p.kind == 'seq' and atom(p.p) and atom(p.q))


def opened(p, seen):
    """the rules that `first` goes through"""
    if p.kind == 'ref':
        if p.name in seen: return
        seen.append(p.name)
        opened(RULES[p.name].body, seen)
        return
    if hasattr(p, 'p'):
        opened(p.p, seen)
        if p.kind == 'either' or (p.kind == 'seq' and facts(p.p, FAMILY)[0]): opened(p.q, seen)


HANDMADE = set('prefixed_by comparison_rest braces_called after_braces some_links_by logic_links post_rest rest bracket late_expression late_sum expression_after_name sum_rests minus_alone parameters_after_minus parameters_after_name field_values_after_name more_parameters after_minus after_first_name other_in_braces late_range maybe_late_range after_bang minus_pattern bang_pattern'.split())
LOOPS = {}
lemmas = []


def step_lemma(name):
    r = RULES[name]
    st = At('st')
    names = Names()
    seen = []
    binder = f' {r.binder}' if r.binder else ''
    at = name if r.variable is None else f'({name} {r.variable})'
    var = f' {r.variable}' if r.variable else ''
    p, f = r.body, None
    if p.kind == 'by' and p.p.kind in ('opt', 'either'): p, f = p.p, p
    value = (lambda v: v) if f is None else (lambda v: built(f, v))
    if r.acc: k = lambda v, e: f'Ok (f {shown(value(v)) if shown(value(v)).startswith("(") or " " not in shown(value(v)) else "(" + shown(value(v)) + ")"}, {e})'
    else: k = lambda v, e: f'Ok ({shown(value(v))}, {e})'
    head_type = f'{{B : Type 0}} (d : ℕ){binder} (st : Cursor) (k : {r.type} → Cursor → Outcome B)' if r.acc else f'(d : ℕ){binder} (st : Cursor)'
    left = f'bind (reading d {at} st) k' if r.acc else f'reading d {at} st'
    args = f'd{var} st k' if r.acc else f'd{var} st'
    through = f'(λ x end. Ok ({"(" + f.function + ")" if f and f.function[0] != "(" else (f.function if f else "")} x, end))' if f else None
    kont = '(λ x end. Ok (f x, end))' if r.acc else through
    if p.kind == 'opt':
        opened(p.p, seen)
        test, _ = starts_text(p.p, st)
        some = steps(p.p, st, names, lambda v, e: k("(Some " + shown(v) + ")", e))
        right = f'pick ({test}) ({some}) ({k("None", st)})'
        inner = 'refl' if p.p.kind == 'ref' else 'simp bind_bind'
        if kont: proof = f'optional_as d {text(p.p)} st {kont} ({some}) ({inner})'
        else: proof = f'optional_plain d {text(p.p)} st ({some}) ({inner})'
    elif p.kind == 'either' and kont:
        def alternatives(q):
            if q.kind != 'either': return steps(q, st, Names(), k), ('refl' if q.kind == 'ref' else 'simp bind_bind')
            opened(q.p, seen)
            test, _ = starts_text(q.p, st)
            a, pa = steps(q.p, st, Names(), k), ('refl' if q.p.kind == 'ref' else 'simp bind_bind')
            b, pb = alternatives(q.q)
            return f'pick ({test}) ({a}) ({b})', f'choice_as d {text(q.p)} {text(q.q)} st {kont} ({a}) ({b}) ({pa}) ({pb})'
        right, proof = alternatives(p)
    elif p.kind == 'either':
        def direct(q):
            if q.kind == 'ref': return f'reading d {text(q)} st'
            if q.kind != 'either': return steps(q, st, Names(), k)
            opened(q.p, seen)
            test, _ = starts_text(q.p, st)
            return f'pick ({test}) ({direct(q.p)}) ({direct(q.q)})'
        right, proof = direct(p), 'refl'
    else:
        right = steps(p, st, names, k)
        proof = 'refl' if straight(p) and not r.acc else 'simp bind_bind'
    names_open = [name] + [n for n in seen if n != name]
    if r.acc:
        if r.acc == 'ends':
            names_open.append('ending')
            ends = re.sub(r'Ok \(f (.*?), (\w+)\)(?=\)|$)', lambda m: f'Ok (f (span_to from {m.group(2)}.last) {m.group(1)}, {m.group(2)})', right)
            lemmas.append(f'pub {name}_ends : {{B : Type 0}} (d : ℕ){binder} (from : Span) (f : Span → {bracketed(r.type)} → B) (st : Cursor) → ending from f (reading d {at} st) ≡ {ends}\nunfolding {" ".join(names_open)}\n{name}_ends d{var} from f st = {ends_proof(p, st, seen, kont)}\n')
            return
        names_open.append('then')
        lemmas.append(f'pub {name}_is : {{B : Type 0}} (d : ℕ){binder} (f : {bracketed(r.type)} → B) (st : Cursor) → then f (reading d {at} st) ≡ {right}\nunfolding {" ".join(names_open)}\n{name}_is d{var} f st = {proof}\n')
        return
    right2 = folded(right)
    if right2 != right: names_open.append('then' if 'then (' in right2 else 'ending')
    lemmas.append(f'pub {name}_is : {head_type} → {left} ≡ {right2}\nunfolding {" ".join(names_open)}\n{name}_is {args} = {proof}\n')


def ends_proof(p, st, seen, kont):
    kont = '(λ x end. Ok (f (span_to from end.last) x, end))'
    k = lambda v, e: f'Ok (f (span_to from {e.last()}) {shown(v) if shown(v).startswith("(") or " " not in shown(v) else "(" + shown(v) + ")"}, {e})'
    if p.kind == 'opt':
        some = steps(p.p, st, Names(), lambda v, e: k('(Some ' + shown(v) + ')', e))
        return f'optional_as d {text(p.p)} st {kont} ({some}) ({"refl" if p.p.kind == "ref" else "simp bind_bind"})'
    a, b = steps(p.p, st, Names(), k), steps(p.q, st, Names(), k)
    return f'choice_as d {text(p.p)} {text(p.q)} st {kont} ({a}) ({b}) ({"refl" if p.p.kind == "ref" else "simp bind_bind"}) ({"refl" if p.q.kind == "ref" else "simp bind_bind"})'


def bracketed(t): return f'({t})' if ' ' in t else t


for name in ORDER:
    if name in HANDMADE: continue
    r = RULES[name]
    p = r.body
    st = At('st')
    var = f' {r.variable}' if r.variable else ''
    binder = f' {r.binder}' if r.binder else ''
    inner = p.p if p.kind == 'by' else p
    if p.kind == 'many' and p.p.kind == 'ref':
        seen = []
        opened(p.p, seen)
        test, l = starts_text(p.p, st)
        lemmas.append(f'pub {name}_is : (d : ℕ) (st : Cursor) → reading d {name} st ≡ run_items (reading d {text(p.p)}) {codes(l)} (length st.toks) [] st\nunfolding {" ".join([name] + seen)}\n{name}_is d st = items_are d {text(p.p)} st\n')
    elif p.kind == 'many' and p.p.kind == 'seq':
        lemmas.append(f'pub {name}_is : (d : ℕ){binder} (from : Span) (left : Expr) (st : Cursor) → then (chained from left) (reading d {name if not var else "(" + name + var + ")"} st) ≡ run_chain (reading d {text(p.p.q.p)}) {codes(p.p.p.codes)} {codes(p.p.p.codes)} from (length st.toks) left st\nunfolding {name} then\n{name}_is d{var} from left st = chain_is d {text(p.p.q.p)} {codes(p.p.p.codes)} from left st\n')
    elif p.kind == 'many':
        lemmas.append(f'pub {name}_is : (d : ℕ) (from : Span) (left : Expr) (st : Cursor) → then (as_chained from left) (reading d {name} st) ≡ run_as_chain (reading d as_type) from (length st.toks) left st\nunfolding {name} then\n{name}_is d from left st = as_chain_are d as_type from left st\n')
    elif p.kind == 'by' and p.function == 'seconds':
        item = p.p.p.q
        lemmas.append(f'pub {name}_is : (d : ℕ) (found : List ({RULES[item.name].type})) (st : Cursor) → then (behind found) (reading d {name} st) ≡ run_more (reading d {text(item)}) (length st.toks) found st\nunfolding {name} then behind\n{name}_is d found st = more_are d {text(item)} found st\n')
    elif p.kind == 'by' and p.template and p.template[0] == '$0 ∷ seconds $1':
        item = p.p.p
        lemmas.append(f'pub {name}_is : (d : ℕ) (st : Cursor) → reading d {name} st ≡ bind (reading d {text(item)} st) (λ x mid. run_more (reading d {text(item)}) (length mid.toks) (x ∷ []) mid)\nunfolding {name}\n{name}_is d st = commas_are d {text(item)} st\n')
    elif p.kind == 'by' and p.template and p.template[0] == '$0 ∷ seconds $1.0':
        item = p.p.p
        seen = []
        opened(item, seen)
        l = listing(item)
        lemmas.append(f'pub {name}_is : (d : ℕ) (st : Cursor) → reading d {name} st ≡ bind (reading d {text(item)} st) (λ x mid. run_listed (reading d {text(item)}) (kind.Comma ∷ []) {codes(l)} (length mid.toks) (x ∷ []) mid)\nunfolding {" ".join([name] + seen)}\n{name}_is d st = listed_are d {text(item)} (kind.Comma ∷ []) st\n')
    else: step_lemma(name)


def cited(crate, found):
    """the lemmas that the crate's functions and its other proofs name, and those that these are proved by"""
    named = {re.match(r'pub (\w+) ', lemma).group(1): lemma for lemma in found}
    files = glob.glob(f'{CRATES}/{crate}/src/*.rt') + glob.glob(f'{CRATES}/{crate}/proofs/**/*.antt', recursive=True)
    texts = [open(file).read() for file in files if not file.endswith('/Steps.antt')]
    kept = set()
    while texts:
        words = set(re.findall(r'\w+', texts.pop()))
        for name in [n for n in named if n in words and n not in kept]:
            kept.add(name)
            texts.append(named[name])
    return [lemma for name, lemma in named.items() if name in kept]


def write_steps(crate, found):
    """the lemmas about the rules that a crate reads"""
    body = '\n'.join(found)
    head = '-- Each rule as the steps of the function that reads it.\n' + GENERATED
    head += from_module('Rattle.std.proofs.Common', '◌≡◌ ℕ suc ◌⊎◌ inl inr ◌-◌ ◌<◌ Bool true false nat_eq List [] ◌∷◌ ◌++◌ length Option Some None Ok refl ◌∙◌'.split(), body) + imports(body)
    head += from_kinds(body) + from_module(PRE + 'Cursor', CURSOR + ['extent'], body) + from_module(PRE + 'Combinators', COMBINATORS, body)
    head += from_module(PRE + 'Reader', 'Outcome bind pick first run_tok run_opens'.split(), body) + from_module(PRE + 'Build', HELPERS, body) + from_module(PRE + 'Rules', ['Sym'] + list(SYMBOLS) + ORDER, body)
    head += from_module('Rattle.asl_parse_expr.specs.private.Code', 'reading symbol charge then ending'.split(), body)
    head += from_module('Rattle.asl_parse_expr.proofs.Loops', 'bind_bind optional_as optional_plain choice_as run_items items_are run_chain chain_is run_as_chain as_chain_are run_more more_are commas_are run_listed listed_are'.split(), body)
    OUT[crate + '/proofs/Steps.antt'] = head + '\n' + body


STATEMENTS = [at for title, at in SECTIONS if title == 'Statements'][0]
OF_EXPRESSIONS = set(list(RULES)[:STATEMENTS])


def of_expressions(lemma):
    return re.match(r'pub (\w+?)_(is|ends)\b', lemma).group(1) in OF_EXPRESSIONS


write_steps('asl_parse_expr', cited('asl_parse_expr', [lemma for lemma in lemmas if of_expressions(lemma)]))
write_steps('asl_parse_stmt', cited('asl_parse_stmt', [lemma for lemma in lemmas if not of_expressions(lemma)]))

# ---- the tokens that a rule may begin with, where there are several


def operators(name): return RULES[name].body.p.p.codes


FIRSTS = {
    'asl_parse_expr': [
        ('AFTER_NAME', listing(part('after_name')), 'What stands behind a name: arguments, or braces.'),
        ('BOOLEAN_LITERAL', listing(part('boolean_literal')), '`TRUE` or `FALSE`.'),
        ('COMPARISON_OPERATORS', operators('comparison_rest'), 'The operators that compare numbers.'),
        ('EQUALITY_OPERATORS', operators('equality_rest'), 'The operators of a chain of equations.'),
        ('EXPRESSION', listing(part('expression')), 'An expression.'),
        ('LITERAL', listing(part('literal')), 'A literal that is an expression.'),
        ('NAME', listing(part('name')), 'A name.'),
        ('LOGIC_OPERATORS', listing(part('logic_links')), 'The logical operators.'),
        ('OTHER_PREFIX_OPERATORS', RULES['other_unary'].body.p.arg, 'The operators before an operand, without `-`.'),
        ('PREFIX_OPERATORS', RULES['unary'].body.p.arg, 'The operators before an operand.'),
        ('PRODUCT_OPERATORS', operators('product_rest'), 'The operators of a product.'),
        ('SLICE_FORM', listing(part('slice_form')), 'What stands between the two expressions of a slice.'),
        ('SUFFIX', listing(part('suffix')), 'A suffix.'),
        ('SUM_OPERATORS', operators('sum_rest'), 'The operators of a sum.'),
        ('TYPE_EXPRESSION', listing(part('type_expression')), 'A type.'),
        ('UNARY', listing(part('unary')), 'An operand.'),
    ],
    'asl_parse_stmt': [
        ('BODY_WORD', listing(part('body_word')), 'Whether a body may be replaced, or replaces another.'),
        ('CALLED', listing(part('called')), 'The parameters or the arguments of a call.'),
        ('DECLARATION', listing(part('declaration')), 'A declaration.'),
        ('FIXED_STORAGE', listing(part('fixed_storage')), 'A constant, or a `let` of the whole program.'),
        ('FUNCTION', listing(part('function')), 'A subprogram, behind the word of its body.'),
        ('PRINT_ITEM', listing(part('print_item')), 'What `print` writes.'),
        ('SIMPLE_STATEMENT', listing(part('simple_statement')), 'A statement that holds no other and begins with no name.'),
        ('SOME_MEMBERS', listing(part('some_members')), 'What stands in the braces of a record.'),
        ('STATEMENT', listing(part('statement')), 'A statement.'),
        ('WRITTEN_QUALIFIER', listing(part('written_qualifier')), 'A qualifier.'),
    ],
}


def array(kinds):
    """as `rt fmt` lays an array out"""
    line = ', '.join('Kind::' + kind for kind in kinds)
    return f'[{line}]' if len(line) <= 60 else '[\n' + ''.join(f'    Kind::{kind},\n' for kind in kinds) + ']'


for crate, found in FIRSTS.items():
    body = '//! The tokens that a rule may begin with, where there are several, and the operators of a level.\n// Written by tools/grammar/generate.py from tools/grammar/table.py.\n\nuse asl_grammar::kinds::Kind;\n'
    OUT[crate + '/src/firsts.rt'] = body + ''.join(f'\n/// {comment}\npub const {name}: [Kind; {len(kinds)}] = {array(kinds)};\n' for name, kinds, comment in found)

# ---- samples

exec(open(os.path.join(HERE, 'samples.py')).read())
SPELLING = dict(zip('( ) [ ] { } ; , . .. : :: = == => ! != && || --> <-> < <= << > >= >> + +: - * *: ^ / <=>'.split(), MARKS))
LETTERS = {'AND': 'BitAnd', 'OR': 'BitOr', 'XOR': 'BitXor', 'EOR': 'BitEor', 'DIV': 'Div', 'DIVRM': 'DivRm', 'MOD': 'Mod', 'NOT': 'Not', 'IN': 'In', 'TRUE': 'True', 'FALSE': 'False', 'type': 'TypeWord', 'println': 'PrintLine', 'downto': 'DownTo', 'elsif': 'ElsIf',
           'looplimit': 'LoopLimit', 'recurselimit': 'RecurseLimit', 'readonly': 'ReadOnly'}
LETTERS.update({w.lower(): w for w in WORDS if w.lower() not in [x.lower() for x in LETTERS.values()] and w not in ('BitAnd', 'BitOr', 'BitXor', 'Div', 'DivRm', 'Mod', 'Not', 'In', 'True', 'False')})


def tokens_of(source):
    found, at = [], 0
    for m in re.finditer(r"\s+|[A-Za-z_]\w*|\d+|'[01 ]*'|" + '|'.join(re.escape(s) for s in sorted(SPELLING, key=len, reverse=True)), source):
        t = m.group(0)
        if t.isspace(): continue
        if t in SPELLING: kind = f'tk.Mark mk.{SPELLING[t]}'
        elif t in LETTERS: kind = f'tk.Word wd.{LETTERS[t]}'
        elif t[0].isdigit(): kind = f'tk.Int {t}'
        else: kind = 'tk.Bits' if t[0] == "'" else 'tk.Name'
        found.append(f'token ({kind}) {m.start()} {m.end()}')
    return ' ∷ '.join(found + ['[]'])


def spans(t):
    t = re.sub(r'#(\w+)@(\d+)', lambda m: f'(record {{ span = at {m.group(2)} {int(m.group(2)) + len(m.group(1))}; text = codes "{m.group(1)}" }})', t)
    return re.sub(r'@(\d+)-(\d+)', r'(at \1 \2)', t)


body = 'abbrev at : ℕ → ℕ → Span\nat from to = record { file = 0; start = from; len = to - from }\n\nabbrev token : TokenKind → ℕ → ℕ → Token\ntoken kind from to = record { kind = kind; span = at from to }\n'
for i, (levels, source, tree) in enumerate(SAMPLES):
    body += f'\nsample{i} : without_end (outcome {levels} (lexemes (codes "{source}") ({tokens_of(source)}))) ≡ {spans(tree)}\nunfolding {" ".join(n for n in ORDER)} end_of behind\nsample{i} = refl\n'
head = '-- Texts with their trees or their faults, by computing.\n' + GENERATED.replace('table.py', 'samples.py')
head += 'use Rattle.std.proofs.Common.{◌≡◌, ℕ, ◌-◌, true, false, [], ◌∷◌, Some, None, Ok, Err, refl}\nuse Rattle.std.specs.Prelude.{codes}\n'
for t, a in (('Mark', 'mk'), ('Word', 'wd'), ('TokenKind', 'tk')): head += f'use Rattle.asl_syn.specs.declared.token.{t}.TheVariants as {a}\n'
head += 'use Rattle.asl_syn.specs.declared.token.TokenKind.{TokenKind}\nuse Rattle.asl_syn.specs.declared.token.Token.{Token}\n'
for t, a in (('UnaryOperator', 'un'), ('BinaryOperator', 'bin')): head += f'use Rattle.asl_syn.specs.declared.tree.{t}.TheVariants as {a}\n'
head += ''.join(line + '\n' for line in imports(body).split('\n') if ' as ' in line or '{Span}' in line)
head += 'use Rattle.asl_grammar.specs.declared.error.ParseError.TheVariants.{Syntax, TooDeep}\n' + from_module(PRE + 'Cursor', ['end_of'], body) + from_module(PRE + 'Build', ['behind'], body) + from_module(PRE + 'Language', ['outcome', 'without_end'], body) + from_module(PRE + 'Faults', ['lexemes'], body) + from_module(PRE + 'Rules', ORDER, body)
OUT['asl_grammar/proofs/grammar/Samples.antt'] = head + '\n' + body

# ---- the spans of what each rule reads

OUT.update(inside.files(sys.modules[__name__]))


if __name__ == '__main__':
    wrong = 0
    for name, content in OUT.items():
        file = os.path.join(CRATES, name)
        if '--check' in sys.argv:
            if not os.path.exists(file) or open(file).read() != content:
                print('not as generated:', name)
                wrong = 1
        else:
            os.makedirs(os.path.dirname(file), exist_ok=True)
            open(file, 'w').write(content)
    print(len(RULES), 'rules,', len(SYMBOLS), 'symbols,', len(KINDS), 'kinds,', len(set(conflicts)), 'conflicts')
    sys.exit(1 if wrong or conflicts else 0)
