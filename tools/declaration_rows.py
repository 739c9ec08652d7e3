"""The rows of crates/source_rows that ask for the last declaration of a theory: those by hand, random theories, and random
lists of patterns. `tools/source-rows` writes them after its own.

First come the rows of crates/source_rows/declarations, as they are there. Of the random theories the first COUNT have four
declarations that are well typed. Each further one has one name, type or number of arguments changed in one of those
declarations, after those before it. Half of the theories have a record or the pattern of one in the last declaration. The
elaborator here is plain: it gathers all faults of names and takes the one at the first token, where those of a record's fields
count as at its brace; it unifies by substitution on trees, and it looks for a type that is left open node by node. Then come a
thousand lists of patterns, ten in a line: each is exhaustive where each shape that is deeper than its patterns is met. Last
come theories with several faults of names in one declaration: after two to four changes, in a `let` one in the pattern and one
in the value, or all in one record.
"""
import copy
import inspect
import itertools
import os
import random
import re
import sys

sys.dont_write_bytecode = True
TOP = os.path.dirname(os.path.dirname(os.path.realpath(__file__)))
OPERATORS = {"+": 2, "-": 2, "<": 2, "-_": 1}
FORMULAS = ("true", "false", "not", "join", "eq", "all", "ex")
TERMS = ("int", "tup", "cast", "rec")
CONNECTIVES = {"/\\": "A", "&&": "B", "\\/": "O", "||": "P", "->": "I", "<->": "E"}


# ---- writing: tokens are counted as they are written, and each node becomes a tuple whose token is after its kind
FIELD = "'."  # the dot before a field, which is written without blanks


class Writer:
    def __init__(self):
        self.out = []

    def put(self, *words):
        first = len(self.out)
        self.out += words
        return first

    def text(self):
        text = " ".join(self.out).replace(f" {FIELD} ", ".")
        for old, new in (("( ", "("), (" )", ")"), (" ,", ","), (" :", ":")):
            text = text.replace(old, new)
        return text

    def row(self, items, write, between=None):
        made = []
        for item in items:
            if between and made:
                self.put(between)
            made.append(write(item))
        return made

    def form(self, f, atom=False):
        if f[0] == "v":
            return ("v", self.put(f[1]), f[1])
        if f[0] == "p":
            i = self.put("(")
            made = self.row(f[1], self.form, ",")
            self.put(")")
            return ("p", i, made)
        if f[2] and atom:
            self.put("(")
            made = self.form(f)
            self.put(")")
            return made
        i = self.put(f[1])
        return ("c", i, f[1], self.row(f[2], lambda g: self.form(g, True)))

    def fields(self, e, write):
        """The fields of a record, each with the token of its name, and a semicolon after the last one where it has it."""

        def field(f):
            i = self.put(f[1], "=")
            return (i, f[1], write(f[2]))

        i = self.put("{")
        made = self.row(e[1], field, ";")
        self.put(*";}" if e[2] else "}")
        return (e[0], i, made)

    def pattern(self, p, atom=False):
        if p[0] == "_":
            return ("_", self.put("_"))
        if p[0] == "x":
            return ("x", self.put(p[1]), p[1])
        if p[0] == "recp":
            return self.fields(p, self.pattern)
        if p[0] == "t":
            i = self.put("(")
            made = self.row(p[1], self.pattern, ",")
            self.put(")")
            return ("t", i, made)
        if p[0] == "beside":
            return ("t", len(self.out), self.row(p[1], self.pattern, ","))
        if p[0] == "as":
            self.put("(")
            made = self.pattern(p[1], True)
            self.put("as")
            i = self.put(p[2])
            self.put(")")
            return ("as", i, made, p[2])
        if p[2] and atom:
            self.put("(")
            made = self.pattern(p)
            self.put(")")
            return made
        i = self.put(p[1])
        return ("k", i, p[1], self.row(p[2], lambda q: self.pattern(q, True)))

    def enclosed(self, e, bare):
        """Writes an expression, in parentheses where it can't stand bare."""
        if bare:
            return self.expression(e)
        self.put("(")
        made = self.expression(e)
        self.put(")")
        return made

    def atom(self, e):
        return self.enclosed(e, e[0] in ("int", "true", "false", "tup", "cast", "dot", "rec") or e[0] == "app" and not e[2])

    def plain(self, e):
        """Writes what a field may be taken of."""
        is_name = e[0] == "app" and not e[2] and e[1][:1].islower()
        return self.enclosed(e, e[0] in ("tup", "cast", "dot", "match", "rec") or is_name)

    def subject(self, e):
        if e[0] == "beside":
            return ("tup", len(self.out), self.row(e[1], self.atom, ","))
        return self.atom(e)

    def branch(self, b):
        self.put("|")
        made = []
        for p in b[0]:
            if made:
                self.put("|")
            first = len(self.out)
            made.append((first, self.pattern(p)))
        self.put("->")
        return made, self.atom(b[1])

    def expression(self, e):
        return getattr(self, f"write_{e[0]}")(e)

    def write_app(self, e):
        i = self.put(e[1])
        return ("app", i, e[1], self.row(e[2], self.atom))

    def write_pre(self, e):
        i = self.put(e[1][0])
        return ("app", i, e[1], [self.atom(e[2])])

    def write_op(self, e):
        a = self.atom(e[2])
        i = self.put(e[1])
        return ("op", i, e[1], a, self.atom(e[3]))

    def write_int(self, e):
        return ("int", self.put(str(e[1])), e[1])

    def write_true(self, e):
        return (e[0], self.put(e[0]))

    write_false = write_true

    def write_tup(self, e):
        i = self.put("(")
        made = self.row(e[1], self.atom, ",")
        self.put(")")
        return ("tup", i, made)

    def write_cast(self, e):
        i = self.put("(")
        a = self.atom(e[1])
        self.put(":")
        f = self.form(e[2])
        self.put(")")
        return ("cast", i, a, f)

    def write_rec(self, e):
        return self.fields(e, self.expression)

    def write_dot(self, e):
        """The token of a field is that of its term's beginning; its name has one of its own."""
        i = len(self.out)
        a = self.plain(e[1])
        self.put(FIELD)
        return ("dot", i, a, self.put(e[2]), e[2])

    def write_not(self, e):
        i = self.put("not")
        return ("not", i, self.atom(e[1]))

    def write_join(self, e):
        a = self.atom(e[2])
        i = self.put(e[1])
        return ("join", i, e[1], a, self.atom(e[3]))

    def write_eq(self, e):
        a = self.atom(e[2])
        i = self.put("=" if e[1] else "<>")
        return ("eq", i, e[1], a, self.atom(e[3]))

    def write_if(self, e):
        i = self.put("if")
        c = self.atom(e[1])
        self.put("then")
        a = self.atom(e[2])
        self.put("else")
        return ("if", i, c, a, self.atom(e[3]))

    def write_let(self, e):
        i = self.put("let", e[1], "=")
        a = self.atom(e[2])
        self.put("in")
        return ("let", i, e[1], a, self.atom(e[3]))

    def write_letp(self, e):
        """A `let` of a pattern is a `match` with one branch."""
        i = self.put("let")
        first = len(self.out)
        p = self.pattern(e[1])
        self.put("=")
        a = self.atom(e[2])
        self.put("in")
        return ("match", i, a, [([(first, p)], self.atom(e[3]))])

    def write_match(self, e):
        i = self.put("match")
        subject = self.subject(e[1])
        self.put("with")
        made = self.row(e[2], self.branch)
        self.put("end")
        return ("match", i, subject, made)

    def write_all(self, e):
        i = self.put("forall" if e[0] == "all" else "exists")
        binders = []
        for names, f in e[1]:
            if binders:
                self.put(",")
            self.put(*names)
            if f:
                self.put(":")
            binders.append((names, self.form(f) if f else None))
        triggers = []
        if e[2]:
            self.put("[")
            triggers = self.row(e[2], self.atom, ",")
            self.put("]")
        self.put(".")
        return (e[0], i, binders, triggers, self.atom(e[3]))

    write_ex = write_all

    def name(self, x):
        if x in OPERATORS:
            return (self.put("(", *x, ")"), x)
        return (self.put(x), x)

    def params(self, ps):
        made = []
        for names, f in ps:
            if not names:
                made.append(([], self.form(f, True)))
                continue
            self.put("(")
            named = self.row(names, self.name)
            self.put(":")
            made.append((named, self.form(f)))
            self.put(")")
        return made

    def member(self, m):
        name = self.name(m[0])
        params = self.params(m[1])
        result = None
        if m[2]:
            self.put(":")
            result = self.form(m[2])
        body = None
        if m[3]:
            self.put("=")
            body = self.atom(m[3])
        return name, params, result, body

    def algebraic(self, a):
        name = self.name(a[0])
        variables = self.row(a[1], self.name)
        self.put("=")
        if a[2][0][0] is None:
            return name, variables, [(None, self.record(*a[2][0][1:]))]
        cons = self.row(a[2], lambda k: (self.name(k[0]), self.params(k[1])), "|")
        return name, variables, cons

    def field(self, p):
        name = self.name(p[0][0])
        self.put(":")
        return [name], self.form(p[1])

    def record(self, fields, semi):
        """The fields of a record, each with one name, and whether a semicolon is after the last one."""
        self.put("{")
        fields = self.row(fields, self.field, ";")
        self.put(*";}" if semi else "}")
        return fields

    def inductive(self, d):
        name = self.name(d[0])
        params = self.params(d[1])
        self.put("=")
        clauses = []
        for c in d[2]:
            self.put("|")
            n = self.name(c[0])
            self.put(":")
            clauses.append((n, self.atom(c[1])))
        return name, params, clauses

    def declaration(self, d):
        kind = d[0]
        if kind == "type":
            self.put("type")
            name = self.name(d[1])
            variables = self.row(d[2], self.name)
            f = None
            if d[3]:
                self.put("=")
                f = self.form(d[3])
            return (kind, name, variables, f)
        if kind == "alg":
            self.put("type")
            return (kind, self.row(d[1], self.algebraic, "with"))
        if kind == "fun":
            self.put("function" if d[1][0][2] else "predicate")
            return (kind, self.row(d[1], self.member, "with"))
        if kind == "const":
            self.put("constant")
            return ("fun", [self.member([d[1], [], d[2], d[3]])])
        if kind == "ind":
            self.put("inductive")
            return (kind, self.row(d[1], self.inductive, "with"))
        self.put(d[1])
        name = self.name(d[2])
        self.put(":")
        return (kind, d[1], name, self.atom(d[3]))


# ---- types: ("a", entry, arguments), ("v", number) a type variable of the declaration, ("u", number) an unknown
class Fault(Exception):
    pass


def named_params(ps):
    return [n for names, _ in ps for n in names]


def mapped(t, leaf):
    return ("a", t[1], [mapped(s, leaf) for s in t[2]]) if t[0] == "a" else leaf(t)


def instance(t, types):
    return mapped(t, lambda s: types[s[1]] if s[0] == "v" else s)


INT = ("a", 0, [])


class Theory:
    """What is declared: entries, and for each table what its names stand for."""

    def __init__(self):
        self.entries = [("BuiltIn", "int", "type", 0, [], None)]
        self.types = {"int": ("entry", 0, 0)}
        self.built = {"int"}
        self.symbols = {}
        self.propositions = set()
        self.tuples = {}
        self.number = 0

    def add(self, theory, name, kind, variables, args, result):
        self.entries.append((theory, name, kind, variables, args, result))
        return len(self.entries) - 1

    def constructor(self, theory, name, variables, own, fields, words=()):
        """The constructor's number; the projection to a field has its word, where it has one."""
        k = self.add(theory, name, "constructor", variables, fields, own)
        for i, f in enumerate(fields):
            word = words[i] if i < len(words) else None
            n = self.add(theory, word or f"{name}'{i + 1}", "projection", variables, [own], f)
            if word:
                self.symbols[word] = n
        return k

    def record_of(self, name):
        """The constructor of the record of which a name is a field, or None."""
        k = self.symbols[name]
        while self.entries[k][2] == "projection":
            k -= 1
        return k if self.is_record(k) else None

    def is_record(self, k):
        return self.entries[k][2] == "constructor" and self.entries[k][1][0].islower()

    def tuple(self, n):
        if n not in self.tuples:
            k = self.add("BuiltIn", f"tuple{n}", "type", n, [], None)
            self.tuples[n] = k
            variables = [("v", i) for i in range(n)]
            self.constructor("BuiltIn", f"Tuple{n}", n, ("a", k, variables), variables)


def seen_in(x, variables, widths):
    """The type variables and the widths of tuples of an annotated tree, in the order of its parts."""
    if isinstance(x, list) or isinstance(x, tuple):
        if x and isinstance(x, tuple) and x[0] == "v" and len(x) == 3 and isinstance(x[1], int):
            variables.append(x[2])
            return
        if x and isinstance(x, tuple) and x[0] in ("p", "t", "tup") and len(x) == 3 and isinstance(x[1], int):
            widths.append(len(x[2]))
        for y in x:
            seen_in(y, variables, widths)


def by_first(items):
    return list(dict.fromkeys(items))


class Elaborator:
    """One declaration over a theory."""

    def __init__(self, theory):
        self.t = theory
        self.faults = []
        self.open = False
        self.variables = []
        self.unknowns = []
        self.equations = 0
        self.nodes = []
        self.matches = []
        self.locals = 0

    # ---- names
    def at(self, token, rank, word, place=None):
        """A fault at a token comes at its place among the others, which is the token where it isn't told."""
        self.faults.append((token if place is None else place, rank, token, word))

    def raise_first(self):
        if self.faults:
            _, _, token, word = min(self.faults)
            raise Fault(word, token, len({at for _, _, at, _ in self.faults}))

    def made(self, table, names, new):
        for token, name in names:
            if name in table or name in new:
                self.at(token, 0, "Duplicate")
            new.add(name)

    def distinct(self, names):
        self.made((), names, set())

    def check_form(self, f):
        if f is None:
            return
        if f[0] == "v":
            if not self.open and f[2] not in self.variables:
                self.at(f[1], 0, "Unknown")
            return
        if f[0] == "c":
            meaning = self.t.types.get(f[2])
            if meaning is None:
                self.at(f[1], 0, "Unknown")
            elif meaning[2] != len(f[3]):
                self.at(f[1], 2, "Arity")
        for g in f[-1]:
            self.check_form(g)

    def check_use(self, token, name, count, names, due):
        if name in names:
            if due:
                self.at(token, 1, "WrongKind")
            elif count:
                self.at(token, 2, "Arity")
            return
        k = self.t.symbols.get(name)
        if k is None:
            self.at(token, 0, "Unknown")
            return
        e = self.t.entries[k]
        if (e[2] == "predicate") != due:
            self.at(token, 1, "WrongKind")
        elif len(e[4]) != count:
            self.at(token, 2, "Arity")

    def check_pattern(self, p, bound):
        if p[0] == "x":
            self.bind(p[1], p[2], bound)
        elif p[0] == "as":
            self.check_pattern(p[2], bound)
            self.bind(p[1], p[3], bound)
        elif p[0] == "t":
            for q in p[2]:
                self.check_pattern(q, bound)
        elif p[0] == "k":
            k = self.t.symbols.get(p[2])
            if k is None:
                self.at(p[1], 0, "Unknown")
            elif self.t.entries[k][2] != "constructor":
                self.at(p[1], 1, "WrongKind")
            elif len(self.t.entries[k][4]) != len(p[3]):
                self.at(p[1], 2, "Arity")
            for q in p[3]:
                self.check_pattern(q, bound)
        elif p[0] == "recp":
            self.check_fields(p, False)
            for _, _, q in p[2]:
                self.check_pattern(q, bound)

    def check_fields(self, e, is_whole):
        """The names of a record's fields come before its parts, and then that one isn't there."""
        first = e[2][0][1]
        record = self.t.record_of(first) if first in self.t.symbols else None
        seen = set()
        for token, name, _ in e[2]:
            if name not in self.t.symbols:
                self.at(token, 2, "Unknown", e[1])
            elif record is None or self.t.record_of(name) != record:
                self.at(token, 2, "WrongKind", e[1])
            elif name in seen:
                self.at(token, 2, "Duplicate", e[1])
            seen.add(name)
        if is_whole and record is not None and len(seen) < len(self.t.entries[record][4]):
            self.at(e[1], 3, "Arity", e[1])

    def bind(self, token, name, bound):
        if name in bound:
            self.at(token, 0, "Duplicate")
        bound.append(name)

    def is_formula_trigger(self, e, names):
        if e[0] in ("app", "op"):
            k = None if e[2] in names else self.t.symbols.get(e[2])
            return k is not None and self.t.entries[k][2] == "predicate"
        return e[0] == "eq" and e[2]

    def check(self, e, names, due):
        if e[0] in FORMULAS and not due or e[0] in TERMS and due:
            self.at(e[1], 1, "WrongKind")
        getattr(self, f"check_{e[0]}")(e, names, due)

    def check_app(self, e, names, due):
        self.check_use(e[1], e[2], len(e[3]), names, due)
        for a in e[3]:
            self.check(a, names, False)

    def check_op(self, e, names, due):
        self.check_use(e[1], e[2], 2, names, due)
        self.check(e[3], names, False)
        self.check(e[4], names, False)

    def check_int(self, e, names, due):
        pass

    check_true = check_false = check_int

    def check_tup(self, e, names, due):
        for a in e[2]:
            self.check(a, names, False)

    def check_cast(self, e, names, due):
        self.check(e[2], names, False)
        self.check_form(e[3])

    def check_rec(self, e, names, due):
        self.check_fields(e, True)
        for _, _, a in e[2]:
            self.check(a, names, False)

    def check_dot(self, e, names, due):
        self.check(e[2], names, False)
        k = self.t.symbols.get(e[4])
        if k is None:
            self.at(e[3], 0, "Unknown")
        elif due or self.t.entries[k][2] != "projection":
            self.at(e[3], 1, "WrongKind")

    def check_not(self, e, names, due):
        self.check(e[2], names, True)

    def check_join(self, e, names, due):
        self.check(e[3], names, True)
        self.check(e[4], names, True)

    def check_eq(self, e, names, due):
        self.check(e[3], names, False)
        self.check(e[4], names, False)

    def check_if(self, e, names, due):
        self.check(e[2], names, True)
        self.check(e[3], names, due)
        self.check(e[4], names, due)

    def check_let(self, e, names, due):
        self.check(e[3], names, False)
        self.check(e[4], names + [e[2]], due)

    def check_match(self, e, names, due):
        self.check(e[2], names, False)
        for alternatives, body in e[3]:
            first = None
            for token, p in alternatives:
                bound = []
                self.check_pattern(p, bound)
                if first is None:
                    first = bound
                elif set(first) != set(bound):
                    self.at(token, -1, "WrongKind")
            self.check(body, names + first, due)

    def check_all(self, e, names, due):
        inner = names[:]
        for xs, f in e[2]:
            self.check_form(f)
            inner += xs
        for g in e[3]:
            self.check(g, inner, self.is_formula_trigger(g, inner))
        self.check(e[4], inner, True)

    check_ex = check_all

    # ---- types
    def meaning(self, f):
        if f[0] == "v":
            return ("v", self.variables.index(f[2]))
        args = [self.meaning(g) for g in f[-1]]
        if f[0] == "p":
            return ("a", self.t.tuples[len(args)], args)
        m = self.t.types[f[2]]
        return ("a", m[1], args) if m[0] == "entry" else instance(m[3], args)

    def unknown(self):
        self.unknowns.append(None)
        return ("u", len(self.unknowns) - 1)

    def solved(self, t):
        if t[0] == "u" and self.unknowns[t[1]] is not None:
            return self.solved(self.unknowns[t[1]])
        return ("a", t[1], [self.solved(s) for s in t[2]]) if t[0] == "a" else t

    def equal(self, a, b):
        if not self.unify(a, b):
            raise Fault("Clash", self.equations)
        self.equations += 1

    def unify(self, a, b):
        a, b = self.solved(a), self.solved(b)
        if a == b:
            return True
        if a[0] == "u" or b[0] == "u":
            u, t = (a, b) if a[0] == "u" else (b, a)
            if self.within(u, t):
                return False
            self.unknowns[u[1]] = t
            return True
        if a[0] != "a" or b[0] != "a" or a[1] != b[1]:
            return False
        return all([self.unify(x, y) for x, y in zip(a[2], b[2])])

    def within(self, u, t):
        return t == u or t[0] == "a" and any(self.within(u, s) for s in t[2])

    def node(self, token, *types):
        self.nodes.append((token, types))

    def is_open(self, t):
        t = self.solved(t)
        return t[0] == "u" or t[0] == "a" and any(self.is_open(s) for s in t[2])

    # ---- terms: each bound variable has a number of its own; when it is printed it is the number of binders between
    def local(self, name, t):
        self.locals += 1
        return (name, self.locals, t)

    def use(self, token, k, args, env, w, places=None):
        """An entry before arguments; those of a record are at places of their own."""
        e = self.t.entries[k]
        types = [self.unknown() for _ in range(e[3])]
        self.node(token, *([w] if w else []), *types)
        if w:
            self.equal(instance(e[5], types), w)
        wanted = [e[4][at] for at in places or range(len(args))]
        made = [self.term(a, env, instance(t, types)) for a, t in zip(args, wanted)]
        return ("fun", k, types, made, w) if w else ("pred", k, types, made)

    def name(self, token, name, args, env, w):
        for x, number, t in reversed(env):
            if x == name:
                self.node(token, w)
                self.equal(t, w)
                return ("bound", number, t)
        return self.use(token, self.t.symbols[name], args, env, w)

    def pattern(self, p, t, first, bound):
        if p[0] == "_":
            self.node(p[1], t)
            return ("any", t)
        if p[0] == "x":
            self.node(p[1], t)
            self.bind_pattern(p[2], t, first, bound)
            return ("var", t)
        if p[0] == "as":
            made = self.pattern(p[2], t, first, bound)
            self.bind_pattern(p[3], t, first, bound)
            return ("alias", made)
        if p[0] == "recp":
            return self.record_pattern(p, t, first, bound)
        parts = p[2] if p[0] == "t" else p[3]
        k = self.t.tuples[len(parts)] + 1 if p[0] == "t" else self.t.symbols[p[2]]
        e = self.t.entries[k]
        types = [self.unknown() for _ in range(e[3])]
        self.node(p[1], t, *types)
        self.equal(instance(e[5], types), t)
        return ("con", k, types, [self.pattern(q, instance(s, types), first, bound) for q, s in zip(parts, e[4])], t)

    def record_pattern(self, p, t, first, bound):
        """Its fields have types in the order in which they are written, and stand and bind in that of the record."""
        k = self.t.record_of(p[2][0][1])
        e = self.t.entries[k]
        types = [self.unknown() for _ in range(e[3])]
        self.node(p[1], t, *types)
        self.equal(instance(e[5], types), t)
        wanted = [instance(s, types) for s in e[4]]
        parts = [(("any", s), []) for s in wanted]
        for _, name, q in p[2]:
            at, own = self.t.symbols[name] - k - 1, []
            parts[at] = (self.pattern(q, wanted[at], first, own), own)
        for _, own in parts:
            bound += own
        return ("con", k, types, [q for q, _ in parts], t)

    def bind_pattern(self, name, t, first, bound):
        if first is None:
            bound.append(self.local(name, t))
            return
        number, own = next((n, s) for x, n, s in first if x == name)
        self.equal(own, t)
        bound.append((name, number, own))

    def term(self, e, env, w):
        """A term of the type `w`, or where that is None a formula."""
        return getattr(self, f"type_{e[0]}")(e, env, w)

    def type_app(self, e, env, w):
        return self.name(e[1], e[2], e[3], env, w)

    def type_op(self, e, env, w):
        return self.name(e[1], e[2], [e[3], e[4]], env, w)

    def type_tup(self, e, env, w):
        return self.use(e[1], self.t.tuples[len(e[2])] + 1, e[2], env, w)

    def type_int(self, e, env, w):
        self.node(e[1], w)
        self.equal(INT, w)
        return ("int", e[2])

    def type_true(self, e, env, w):
        return (e[0],)

    type_false = type_true

    def type_cast(self, e, env, w):
        t = self.meaning(e[3])
        self.node(e[1], w)
        self.equal(t, w)
        return self.term(e[2], env, t)

    def type_rec(self, e, env, w):
        """Its values have types in the order in which they are written, and stand in that of the record."""
        k = self.t.record_of(e[2][0][1])
        places = [self.t.symbols[name] - k - 1 for _, name, _ in e[2]]
        made = self.use(e[1], k, [a for _, _, a in e[2]], env, w, places)
        return (*made[:3], [a for _, a in sorted(zip(places, made[3]))], w)

    def type_dot(self, e, env, w):
        return self.use(e[1], self.t.symbols[e[4]], [e[2]], env, w)

    def type_not(self, e, env, w):
        return ("not", self.term(e[2], env, None))

    def type_join(self, e, env, w):
        return ("join", e[2], self.term(e[3], env, None), self.term(e[4], env, None))

    def type_eq(self, e, env, w):
        u = self.unknown()
        self.node(e[1], u)
        made = ("eq", self.term(e[3], env, u), self.term(e[4], env, u))
        return made if e[2] else ("not", made)

    def type_if(self, e, env, w):
        self.node(e[1], *([w] if w else []))
        return ("if", self.term(e[2], env, None), self.term(e[3], env, w), self.term(e[4], env, w))

    def type_let(self, e, env, w):
        u = self.unknown()
        self.node(e[1], *([w] if w else []), u)
        a = self.term(e[3], env, u)
        x = self.local(e[2], u)
        return ("let", a, x[1], self.term(e[4], env + [x], w))

    def type_match(self, e, env, w):
        u = self.unknown()
        self.node(e[1], *([w] if w else []), u)
        patterns = []
        self.matches.append((e[1], patterns))
        subject = self.term(e[2], env, u)
        arms = []
        for alternatives, body in e[3]:
            first = None
            own = []
            for _, p in alternatives:
                bound = []
                tree = self.pattern(p, u, first, bound)
                patterns.append(tree)
                own.append((tree, [n for _, n, _ in bound]))
                first = bound if first is None else first
            tree = self.term(body, env + first, w)
            arms += [(p, numbers, tree) for p, numbers in own]
        return ("match", subject, arms)

    def type_all(self, e, env, w):
        bound = []
        for xs, f in e[2]:
            bound += [self.local(x, self.meaning(f) if f else self.unknown()) for x in xs]
        self.node(e[1], *(t for _, _, t in bound))
        inner = env + bound
        names = [x for x, _, _ in inner]
        for g in e[3]:
            u = None
            if not self.is_formula_trigger(g, names):
                u = self.unknown()
                self.node(g[1], u)
            self.term(g, inner, u)
        made = self.term(e[4], inner, None)
        for _, number, t in reversed(bound):
            made = (e[0], t, number, made)
        return made

    type_ex = type_all

    def determined(self):
        for token, types in self.nodes:
            if any(self.is_open(t) for t in types):
                raise Fault("Undetermined", token)

    # ---- printing
    def show_type(self, t):
        t = self.solved(t)
        if t[0] == "a":
            return f"t{t[1]}" + self.show_list([self.show_type(s) for s in t[2]])
        return ("'" if t[0] == "v" else "!") + str(t[1])

    def show_list(self, texts):
        return "".join("," + x for x in texts) + "."

    def show_types(self, types):
        return self.show_list(map(self.show_type, types))

    def show_all(self, terms, env):
        return self.show_list([self.show(e, env) for e in terms])

    def show_pattern(self, p):
        kind = p[0]
        if kind in ("any", "var"):
            return ("_" if kind == "any" else "v") + self.show_type(p[1])
        if kind == "alias":
            return "@" + self.show_pattern(p[1])
        return f"c{p[1]}" + self.show_types(p[2]) + self.show_list(map(self.show_pattern, p[3])) + self.show_type(p[4])

    def show(self, e, env):
        kind = e[0]
        if kind == "fun":
            return f"f{e[1]}" + self.show_types(e[2]) + self.show_all(e[3], env) + self.show_type(e[4])
        if kind == "pred":
            return f"p{e[1]}" + self.show_types(e[2]) + self.show_all(e[3], env)
        if kind == "bound":
            return f"b{env[::-1].index(e[1])}" + self.show_type(e[2])
        if kind == "int":
            return f"#{e[1]}"
        if kind in ("true", "false"):
            return kind[0].upper()
        if kind == "not":
            return "~" + self.show(e[1], env)
        if kind == "join":
            return CONNECTIVES[e[1]] + self.show(e[2], env) + self.show(e[3], env)
        if kind == "eq":
            return "=" + self.show(e[1], env) + self.show(e[2], env)
        if kind == "if":
            return "?" + "".join(self.show(a, env) for a in e[1:])
        if kind == "let":
            return "L" + self.show(e[1], env) + self.show(e[3], env + [e[2]])
        if kind == "match":
            arms = [":" + self.show_pattern(p) + self.show(b, env + xs) for p, xs, b in e[2]]
            return "M" + self.show(e[1], env) + self.show_list(arms)
        return ("V" if kind == "all" else "X") + self.show_type(e[1]) + self.show(e[3], env + [e[2]])

    # ---- declarations: the names are made and used, and then the entries and the trees
    def tuples_of(self, d):
        widths = []
        seen_in(d, [], widths)
        for n in by_first(widths):
            self.t.tuple(n)

    def variables_of(self, *parts):
        variables = []
        seen_in(parts, variables, [])
        return by_first(variables)

    def declaration(self, d):
        return getattr(self, "declare_" + d[0])(d)

    def declare_type(self, d):
        _, (token, name), variables, f = d
        self.made([x for x in self.t.types if x not in self.t.built], [(token, name)], set())
        self.distinct(variables)
        self.raise_first()
        self.variables = [x for _, x in variables]
        self.check_form(f)
        self.raise_first()
        n = len(variables)
        if f is None:
            k = self.t.add("T", name, "type", n, [], None)
            self.t.types[name] = ("entry", k, n)
            self.t.built.discard(name)
            return f"T {name} {n} t{k}"
        self.tuples_of(f)
        self.t.types[name] = ("alias", None, n, self.meaning(f))
        self.t.built.discard(name)
        return ""

    def declare_alg(self, d):
        types, symbols = set(), set()
        for name, variables, cons in d[1]:
            self.made([x for x in self.t.types if x not in self.t.built], [name], types)
            self.distinct(variables)
            self.made(self.t.symbols, [x for c, fields in cons for x in [*filter(None, [c]), *(y for names, _ in fields for y in names)]], symbols)
        self.raise_first()
        self.tuples_of(d)
        for (_, name), variables, cons in d[1]:
            self.t.types[name] = ("entry", self.t.add("T", name, "type", len(variables), [], None), len(variables))
            self.t.built.discard(name)
        for _, variables, cons in d[1]:
            self.variables = [x for _, x in variables]
            for _, fields in cons:
                for _, f in fields:
                    self.check_form(f)
        self.raise_first()
        text = ""
        for (_, name), variables, cons in d[1]:
            self.variables = [x for _, x in variables]
            k = self.t.types[name][1]
            own = ("a", k, [("v", i) for i in range(len(variables))])
            text += f"@{k}"
            for c, fields in cons:
                word = c[1] if c else f"mk_{name}"
                words = [x for names, _ in fields for _, x in names or [(0, None)]]
                types = [self.meaning(f) for names, f in fields for _ in names or [0]]
                n = self.t.constructor("T", word, len(variables), own, types, words)
                if c:
                    self.t.symbols[word] = n
                text += f"c{n}" + self.show_types(types) + "".join(f"^{n + 1 + i}" for i in range(len(types)))
        (_, name), variables, _ = d[1][0]
        return f"T {name} {len(variables)} {text}"

    def signature(self, params, result):
        self.variables = self.variables_of([f for _, f in params], result)
        args = [self.meaning(f) for names, f in params for _ in (names or [0])]
        return self.variables, args, self.meaning(result) if result else None

    def enter_members(self, members):
        entered = []
        for (_, name), params, result in members:
            variables, args, t = self.signature(params, result)
            k = self.t.add("T", name, "function" if result else "predicate", len(variables), args, t)
            entered.append((k, variables, args, t))
        return entered

    def check_members(self, members):
        """The members' names are there with as many arguments and of the kinds that they have."""
        for (_, name), params, result in members:
            count = sum(len(names) or 1 for names, _ in params)
            k = self.t.add("T", name, "function" if result else "predicate", 0, [INT] * count, INT if result else None)
            self.t.symbols[name] = k

    def declare_fun(self, d):
        heads = [m[:3] for m in d[1]]
        names = set()
        for name, params, _ in heads:
            self.made(self.t.symbols, [name], names)
            self.distinct(named_params(params))
        self.raise_first()
        self.tuples_of([(m[1], m[2], m[3]) for m in d[1]])
        before = len(self.t.entries)
        self.check_members(heads)
        for _, params, result, body in d[1]:
            self.open = True
            for _, f in params:
                self.check_form(f)
            self.check_form(result)
            self.open = False
            self.variables = self.variables_of([f for _, f in params], result)
            if body:
                self.check(body, [x for _, x in named_params(params)], result is None)
        self.raise_first()
        del self.t.entries[before:]
        entered = self.enter_members(heads)
        bodies = []
        for (_, params, _, body), (k, variables, args, t) in zip(d[1], entered):
            self.variables = variables
            words = [x[1] if x else "" for names, _ in params for x in (names or [None])]
            env = [self.local(x, s) for x, s in zip(words, args)]
            bodies.append((env, self.term(body, env, t) if body else None))
        self.determined()
        (_, name), _, _, body = d[1][0]
        if not body:
            return f"T {name} {len(entered[0][1])} s{entered[0][0]}"
        text = ""
        for (k, variables, args, t), (env, tree) in zip(entered, bodies):
            text += f"d{k}" + self.equation(k, len(variables), args, t, env, tree)
        return f"T {name} {len(entered[0][1])} {text}"

    def equation(self, k, n, args, t, env, tree):
        numbers = [x for _, x, _ in env]
        own = [("v", i) for i in range(n)]
        left = [("bound", x, s) for _, x, s in env]
        formula = ("eq", ("fun", k, own, left, t), tree) if t else ("join", "<->", ("pred", k, own, left), tree)
        return "".join("V" + self.show_type(s) for s in args) + self.show(formula, numbers)

    def declare_ind(self, d):
        symbols, propositions = set(), set()
        for name, params, clauses in d[1]:
            self.made(self.t.symbols, [name], symbols)
            self.distinct(named_params(params))
            self.made(self.t.propositions, [c for c, _ in clauses], propositions)
        self.raise_first()
        self.tuples_of([(p, c) for _, p, c in d[1]])
        heads = [(name, params, None) for name, params, _ in d[1]]
        before = len(self.t.entries)
        self.check_members(heads)
        self.open = True
        for _, params, clauses in d[1]:
            for _, f in params:
                self.check_form(f)
            for _, e in clauses:
                self.check(e, [], True)
        self.raise_first()
        del self.t.entries[before:]
        entered = self.enter_members(heads)
        made = []
        for (_, _, clauses), (k, variables, _, _) in zip(d[1], entered):
            made.append((k, []))
            for (_, c), e in clauses:
                self.variables = variables + [x for x in self.variables_of(e) if x not in variables]
                made[-1][1].append(self.term(e, [], None))
                self.t.propositions.add(c)
        self.determined()
        text = "".join(f"i{k}" + self.show_list([self.show(e, []) for e in es]) for k, es in made)
        return f"T {d[1][0][0][1]} {len(entered[0][1])} {text}"

    def declare_prop(self, d):
        _, kind, name, e = d
        self.made(self.t.propositions, [name], set())
        self.raise_first()
        self.open = True
        self.check(e, [], True)
        self.raise_first()
        self.tuples_of(e)
        self.variables = self.variables_of(e)
        made = self.term(e, [], None)
        self.determined()
        self.t.propositions.add(name[1])
        rigid = [] if kind == "axiom" else [self.t.add("", x, "type", 0, [], None) for x in self.variables]
        schematic = len(self.variables)
        text = self.show(made, [])
        if kind == "goal":
            schematic = 0
            text = text.replace("'", "\0")
            for i in range(len(rigid) - 1, -1, -1):
                text = rigid_at(text, i, rigid[i])
        return f"T {name[1]} {schematic} {text}" + "".join(f" !{k}" for k in rigid)


def rigid_at(text, i, k):
    """The type variable `i` of a text becomes the rigid type of an entry."""
    parts = text.split(f"\0{i}")
    made = parts[0]
    for part in parts[1:]:
        made += (f"\0{i}" if part[:1].isdigit() else f"!{k}") + part
    return made


def show_entry(elaborator, e):
    theory, name, kind, variables, args, result = e
    text = f"|{theory} {name} {kind} {variables}" + elaborator.show_list(map(elaborator.show_type, args))
    return text + (elaborator.show_type(result) if result else "")


def answer_of(theory, declarations):
    """What annotated declarations become, the first of which has the number after the theory's last one."""
    text = ""
    for d in declarations:
        theory.number += 1
        before = len(theory.entries)
        elaborator = Elaborator(theory)
        try:
            made = elaborator.declaration(d)
        except Fault as f:
            return f"{f.args[0]} {theory.number} {f.args[1]}"
        entries = "".join(show_entry(elaborator, e) for e in theory.entries[before:])
        matches = ""
        for i, ps in elaborator.matches:
            matches += f" {i}" + elaborator.show_list(map(elaborator.show_pattern, ps))
        text = f"Made {len(theory.entries)}{entries} # {made} %{matches}".rstrip()
    return text


# ---- random declarations, in trees without tokens
class Generator:
    """With `form` some form is drawn more often."""

    def __init__(self, rng, theory, form=None):
        self.r = rng
        self.t = theory
        self.form_asked = form
        self.vars = []

    def chance(self, p):
        return self.r.random() < p

    def fresh(self, pool, table):
        free = [x for x in pool if x not in table]
        return self.r.choice(free) if free else None

    # ---- types
    def form(self, depth, variables):
        k = self.r.random()
        if variables and k < 0.3:
            return ["v", self.r.choice(variables)]
        names = [x for x in self.t.types if depth > 0 or self.t.types[x][2] == 0]
        if depth == 0 or k < 0.85:
            x = self.r.choice(names)
            return ["c", x, [self.form(depth - 1, variables) for _ in range(self.t.types[x][2])]]
        return ["p", [self.form(depth - 1, variables) for _ in range(self.r.choice([2, 2, 2, 3, 0]))]]

    def type(self, depth):
        """A type over the type variables of the declaration."""
        if self.vars and self.chance(0.3):
            return ("v", self.r.choice(self.vars))
        named = [(k, e[3]) for k, e in enumerate(self.t.entries) if e[2] == "type" and e[0]]
        known = [(k, n) for k, n in named if depth > 0 or n == 0]
        k, n = self.r.choice(known) if depth > 0 or self.chance(0.4) else (0, 0)
        return ("a", k, [self.type(depth - 1) for _ in range(n)])

    def form_of(self, t):
        if t[0] == "v":
            return ["v", t[1]]
        args = [self.form_of(s) for s in t[2]]
        e = self.t.entries[t[1]]
        return ["p", args] if e[0] == "BuiltIn" and e[1] != "int" else ["c", e[1], args]

    def match(self, general, t, found):
        if general[0] == "v":
            return found.setdefault(general[1], t) == t
        return t[0] == "a" and general[1] == t[1] and all([self.match(a, b, found) for a, b in zip(general[2], t[2])])

    def symbols_for(self, t, kinds):
        made = []
        for name, k in self.t.symbols.items():
            e = self.t.entries[k]
            if e[2] in kinds:
                found = {}
                if t is None or self.match(e[5], t, found):
                    made.append((name, e, found))
        return made

    def functions_for(self, t, env):
        """A variable hides a function of its name, but not a field."""
        known = self.symbols_for(t, ("function", "constructor", "projection"))
        return [s for s in known if s[0] not in dict(env) or s[1][2] == "projection"]

    def records_for(self, t):
        """The records that have the type, or any, each as what its fields are named and their types."""
        made = []
        for k, e in enumerate(self.t.entries):
            found = {}
            if self.t.is_record(k) and (t is None or self.match(e[5], t, found)):
                words = [name for _, name, *_ in self.t.entries[k + 1 : k + 1 + len(e[4])]]
                made.append([(x, instance(s, found) if t else s) for x, s in zip(words, e[4])])
        return made

    def record(self, kind, fields, write):
        made = [["field", x, write(s)] for x, s in fields]
        self.r.shuffle(made)
        return [kind, made, self.chance(0.2)]

    def fields_of(self, env):
        """The fields of variables, with their types."""
        made = []
        for name, e, _ in self.symbols_for(None, ("projection",)):
            for x, s in self.visible(env):
                found = {}
                if x and self.match(e[4][0], s, found):
                    made.append((["dot", ["app", x, []], name], instance(e[5], found)))
        return made

    # ---- terms and formulas: `env` has the names and types of the variables, the innermost last
    def visible(self, env):
        seen = {}
        for x, t in env:
            seen[x] = t
        return list(seen.items())

    def apply(self, name, e, found, env, depth):
        types = [found.get(i) or self.type(1) for i in range(e[3])]
        args = [self.term(instance(s, types), env, depth - 1) for s in e[4]]
        if name in OPERATORS:
            return ["op" if OPERATORS[name] == 2 else "pre", name, *args]
        if e[2] == "projection" and (name in dict(env) or self.chance(0.5)):
            return ["dot", args[0], name]
        return ["app", name, args]

    def smallest(self, t, env):
        own = [x for x, s in self.visible(env) if s == t]
        if own and self.chance(0.9):
            return ["app", self.r.choice(own), []]
        if t == INT:
            return ["int", self.r.randint(0, 9)]
        known = self.functions_for(t, env)
        flat = [s for s in known if not s[1][4]]
        records = self.records_for(t)
        if records and not (flat and self.chance(0.5)):
            return self.record("rec", records[0], lambda s: self.smallest(s, env))
        if flat or known:
            return self.apply(*self.r.choice(flat or known), env, 0)
        if t[0] == "a" and self.t.entries[t[1]][1].startswith("tuple"):
            return ["tup", [self.smallest(s, env) for s in t[2]]]
        if own:
            return ["app", self.r.choice(own), []]
        raise LookupError

    def term(self, t, env, depth):
        if depth <= 0 or self.chance(0.15):
            return self.smallest(t, env)
        fields = [e for e, s in self.fields_of(env) if s == t]
        if fields and self.chance(0.4):
            return self.r.choice(fields)
        records = self.records_for(t)
        if records and self.chance(0.6):
            return self.record("rec", records[0], lambda s: self.term(s, env, depth - 1))
        if self.form_asked == "recp" and self.chance(0.4):
            return self.either(env, depth, lambda more: self.term(t, more, depth - 1))
        k = self.r.random()
        if k < 0.55:
            known = self.functions_for(t, env)
            if t[0] == "a" and self.t.entries[t[1]][1].startswith("tuple") and self.chance(0.6):
                return ["tup", [self.term(s, env, depth - 1) for s in t[2]]]
            if known:
                return self.apply(*self.r.choice(known), env, depth)
            return self.smallest(t, env)
        if k < 0.65:
            return ["cast", self.term(t, env, depth - 1), self.form_of(t)]
        if k < 0.75:
            return ["if", self.formula(env, depth - 1), self.term(t, env, depth - 1), self.term(t, env, depth - 1)]
        return self.either(env, depth, lambda more: self.term(t, more, depth - 1))

    def name(self):
        return self.r.choice("xyzw" if self.chance(0.93) else "cdfp")

    def either(self, env, depth, body):
        """A `let` or a `match`."""
        if self.chance(0.35):
            s = self.type(1)
            x = self.name()
            return ["let", x, self.term(s, env, depth - 1), body(env + [(x, s)])]
        of_records = self.form_asked == "recp" or self.chance(0.5)
        s = self.subject(of_records) if of_records or self.chance(0.5) else self.type(2)
        value = self.term(s, env, depth - 1)
        if self.chance(0.1):
            s = ("a", self.t.tuples[2], [self.type(1), self.type(1)]) if 2 in self.t.tuples else s
            value = self.term(s, env, depth - 1)
        if value[0] == "tup" and len(value[1]) > 1 and self.chance(0.5):
            value = ["beside", value[1]]
        if self.chance(0.2):
            bound = []
            p = self.open_pattern(s, bound)
            if p[0] != "x" and value[0] != "beside":
                return ["letp", p, value, body(env + bound)]
        branches = []
        for _ in range(self.r.randint(1, 3)):
            bound = []
            alternatives = [self.open_pattern(s, bound)]
            if len(bound) > 1 and self.chance(0.5):
                alternatives.append(self.reordered(alternatives[0], self.exchanged(bound)))
            for _ in range(4):
                other = []
                p = self.open_pattern(s, other)
                if len(alternatives) < 3 and dict(other) == dict(bound) and self.chance(0.6):
                    alternatives.append(p)
            branches.append([alternatives, body(env + bound)])
        return ["match", value, branches]

    def open_pattern(self, t, bound):
        """A pattern of a branch: one of a tuple may stand without parentheses."""
        p = self.pattern(t, 2, bound)
        return ["beside", p[1]] if p[0] == "t" and len(p[1]) > 1 and self.chance(0.5) else p

    def exchanged(self, bound):
        """What two variables of one type become where they change places."""
        pairs = [(x, y) for x, s in bound for y, t in bound if x != y and s == t]
        x, y = self.r.choice(pairs) if pairs else ("", "")
        return {x: y, y: x}

    def reordered(self, p, names):
        """A pattern with the fields of its records in another order, and with other names."""
        if p[0] == "recp":
            fields = [["field", x, self.reordered(q, names)] for _, x, q in p[1]]
            self.r.shuffle(fields)
            return ["recp", fields, p[2]]
        if p[0] in ("t", "beside"):
            return [p[0], [self.reordered(q, names) for q in p[1]]]
        if p[0] == "k":
            return ["k", p[1], [self.reordered(q, names) for q in p[2]]]
        if p[0] == "as":
            return ["as", self.reordered(p[1], names), names.get(p[2], p[2])]
        return ["x", names.get(p[1], p[1])] if p[0] == "x" else p

    def with_fields(self):
        """A type that has a field with a name, if there is one."""
        known = [e[4][0] for _, e, _ in self.symbols_for(None, ("projection",))]
        t = self.r.choice(known) if known else self.type(1)
        return instance(t, [self.type(1) for _ in t[2]]) if known else t

    def subject(self, of_records=False):
        """A type that has a constructor, of a record where that is asked for, if there is one."""
        made = [k for k, e in enumerate(self.t.entries) if e[2] == "constructor"]
        known = [self.t.entries[k][5] for k in made if not of_records or self.t.is_record(k)]
        if not known:
            return self.type(1)
        t = self.r.choice(known)
        return instance(t, [self.type(1) for _ in t[2]])

    def pattern(self, t, depth, bound):
        k = self.r.random()
        if depth > 0 and k < 0.6 and t[0] == "a":
            if self.t.entries[t[1]][1].startswith("tuple"):
                return ["t", [self.pattern(s, depth - 1, bound) for s in t[2]]]
            known = self.symbols_for(t, ("constructor",))
            if known:
                name, e, found = self.r.choice(known)
                types = [found[i] for i in range(e[3])]
                return ["k", name, [self.pattern(instance(s, types), depth - 1, bound) for s in e[4]]]
            for fields in self.records_for(t):
                chosen = self.r.sample(fields, self.r.randint(1, len(fields)))
                return self.record("recp", chosen, lambda s: self.pattern(s, depth - 1, bound))
        free = [x for x in "xyzw" if x not in dict(bound)]
        if k < 0.75 or not free:
            return ["_"]
        x = self.r.choice(free)
        if k > 0.95 and depth > 0:
            p = self.pattern(t, depth - 1, bound)
            if x not in dict(bound):
                bound.append((x, t))
                return ["as", p, x]
            return p
        bound.append((x, t))
        return ["x", x]

    def formula(self, env, depth):
        if depth > 0 and self.form_asked == "recp" and self.chance(0.4):
            return self.either(env, depth, lambda more: self.formula(more, depth - 1))
        k = self.r.random()
        if depth <= 0 or k < 0.1:
            known = [s for s in self.symbols_for(None, ("predicate",)) if s[0] not in dict(env)]
            if known and self.chance(0.6):
                return self.apply(*self.r.choice(known), env, 1)
            return [self.r.choice(["true", "false"])]
        fields = [s for _, s in self.fields_of(env)]
        if k < 0.35 or fields and self.chance(0.3):
            t = self.r.choice(fields) if fields and self.chance(0.5) else self.type(1)
            return ["eq", self.chance(0.8), self.term(t, env, depth - 1), self.term(t, env, depth - 1)]
        if k < 0.5:
            op = self.r.choice(list(CONNECTIVES))
            return ["join", op, self.formula(env, depth - 1), self.formula(env, depth - 1)]
        if k < 0.55:
            return ["not", self.formula(env, depth - 1)]
        if k < 0.6:
            return ["if", self.formula(env, depth - 1), self.formula(env, depth - 1), self.formula(env, depth - 1)]
        if k < 0.7:
            return self.either(env, depth, lambda more: self.formula(more, depth - 1))
        if k < 0.85:
            known = [s for s in self.symbols_for(None, ("predicate",)) if s[0] not in dict(env)]
            if known:
                return self.apply(*self.r.choice(known), env, depth)
        binders = []
        inner = env[:]
        for _ in range(self.r.randint(1, 2)):
            t = self.with_fields() if self.chance(0.5) else self.type(1)
            xs = [self.name() for _ in range(self.r.randint(1, 2))]
            binders.append([xs, self.form_of(t) if self.chance(0.7) else None])
            inner += [(x, t) for x in xs]
        triggers = []
        if self.chance(0.15):
            triggers = [self.formula(inner, 0) if self.chance(0.3) else self.term(self.type(0), inner, 1)]
        triggers = [g for g in triggers if g[0] in ("app", "op", "eq", "dot", "rec")]
        return [self.r.choice(["all", "ex"]), binders, triggers, self.formula(inner, depth - 1)]

    # ---- declarations
    def params(self, variables):
        made = []
        taken = []
        for _ in range(self.r.randint(0, 2)):
            f = self.form(1, variables)
            known = [k[1] for _, e, _ in self.symbols_for(None, ("projection",)) for k in [self.t.entries[e[4][0][1]]]]
            if known and self.chance(0.4):
                x = self.r.choice(known)
                f = ["c", x, [self.form(0, variables) for _ in range(self.t.types[x][2])]]
            names = []
            if not self.chance(0.15):
                free = [x for x in ("xyzw" if self.chance(0.85) else "cdfp") if x not in taken]
                names = self.r.sample(free, 1 if self.chance(0.8) or len(free) < 2 else 2)
            taken += names
            made.append([names, f])
        return made

    def algebraic_group(self):
        r = self.r
        names = r.sample([x for x in "tuv" if x not in self.t.types], r.choice([1, 1, 2]))
        heads = [(x, r.sample(["'a", "'b"], r.choice([0, 1, 1]))) for x in names]
        kept = dict(self.t.types)
        for x, vs in heads:
            self.t.types[x] = ("entry", 0, len(vs))
        pool = [x for x in "ABCDEFGH" if x not in self.t.symbols]
        r.shuffle(pool)
        words = [x for x in "cdefghpq" if x not in self.t.symbols]
        r.shuffle(words)
        made = []
        for x, vs in heads:
            made.append([x, vs, []])
            if len(words) > 3 and self.chance(0.3):
                group = self.t.types
                self.t.types = group if self.chance(0.2) else kept
                fields = [[[words.pop()], self.form(1, vs)] for _ in range(r.randint(1, 3))]
                self.t.types = group
                made[-1][2].append([None, fields, self.chance(0.3)])
                continue
            for _ in range(r.randint(1, 2)):
                fields = []
                for _ in range(r.randint(0, 2)):
                    count = 0 if len(words) < 4 or self.chance(0.6) else r.choice([1, 1, 2])
                    fields.append([[words.pop() for _ in range(count)], self.form(1, vs)])
                made[-1][2].append([pool.pop(), fields])
        self.t.types = kept
        return ["alg", made]

    def declaration(self, is_last):
        r = self.r
        weights = [0, 0, 1, 4, 2, 1, 3, 5] if is_last else [1, 1, 3, 4, 2, 1, 2, 1]
        kind = r.choices(["type", "alias", "alg", "fun", "pred", "const", "ind", "prop"], weights)[0]
        variables = r.sample(["'a", "'b"], r.choice([0, 0, 1, 1, 2]))
        if kind in ("type", "alias"):
            name = self.fresh("tuv", self.t.types)
            return ["type", name, variables, self.form(2, variables) if kind == "alias" else None]
        if kind == "alg":
            return self.algebraic_group()
        if kind == "prop":
            self.vars = r.sample(["'a", "'b"], r.choice([0, 0, 1]))
            name = self.fresh("jklmno", self.t.propositions)
            return ["prop", r.choice(["axiom", "lemma", "goal"]), name, self.formula([], 4)]
        if kind == "const":
            f = self.form(1, variables if self.chance(0.3) else [])
            return self.with_bodies(["const", self.fresh("cdefghpq", self.t.symbols), f, None], is_last)
        count = r.choice([1, 1, 1, 2])
        names = r.sample([x for x in "cdefghpq" if x not in self.t.symbols], count)
        if kind == "ind":
            heads = [[x, self.params(r.sample(["'a", "'b"], r.choice([0, 0, 1]))), []] for x in names]
            return self.with_bodies(["ind", heads], is_last)
        members = []
        for n, x in enumerate(names):
            result = kind == "fun" if n == 0 else self.chance(0.5)
            op = r.choice(["+", "-", "-_"]) if result else "<"
            if count == 1 and self.chance(0.2) and op not in self.t.symbols:
                params = [[[y], self.form(1, variables)] for y in "xy"[: OPERATORS[op]]]
                members.append([op, params, self.form(1, variables) if result else None, None])
            else:
                members.append([x, self.params(variables), self.form(1, variables) if result else None, None])
        return self.with_bodies(["fun", members], is_last)

    def with_bodies(self, d, is_last):
        """The declaration with bodies or clauses that are over its own entries."""
        t = copy.deepcopy(self.t)
        if d[0] == "const":
            members = [[d[1], [], d[2], None]]
        elif d[0] == "fun":
            members = d[1]
        else:
            members = [[x, ps, None, None] for x, ps, _ in d[1]]
        heads = Writer().declaration(["fun", members])
        elaborator = Elaborator(t)
        elaborator.tuples_of([m[:3] for m in heads[1]])
        entered = elaborator.enter_members([m[:3] for m in heads[1]])
        for ((_, name), _, _, _), (k, _, _, _) in zip(heads[1], entered):
            t.symbols[name] = k
        inner = Generator(self.r, t, self.form_asked)
        abstract = d[0] != "ind" and not is_last and self.chance(0.5) and len(members) == 1
        for i, ((_, params, result, _), (k, variables, args, own)) in enumerate(zip(heads[1], entered)):
            inner.vars = variables
            numbered = lambda s: mapped(s, lambda v: ("v", variables[v[1]]))
            words = [x[1] if x else "" for names, _ in params for x in (names or [None])]
            env = [(x, numbered(s)) for x, s in zip(words, args)]
            if d[0] == "ind":
                pool = [x for x in ("ka", "kb", "kc", "kd", "ke") if x not in t.propositions]
                args = [s for _, s in env]
                for x in self.r.sample(pool, self.r.randint(1, min(2, len(pool)))):
                    d[1][i][2].append([x, inner.clause(members[i][0], args)])
                t.propositions |= {c for c, _ in d[1][i][2]}
            elif not abstract:
                body = inner.term(numbered(own), env, 3) if own else inner.formula(env, 3)
                members[i][3] = body
        if d[0] == "const":
            d[3] = members[0][3]
        return d

    def clause(self, name, args):
        binders = [[[x], self.form_of(s) if self.chance(0.8) else None] for x, s in zip("xyzw", args)]
        env = [(b[0][0], s) for b, s in zip(binders, args)]
        made = ["app", name, [self.term(s, env, 1) for s in args]]
        if self.chance(0.5):
            made = ["join", "->", self.formula(env, 2), made]
        return ["all", binders, [], made] if binders else made


# ---- changes
def lists_of(x, found):
    if isinstance(x, list):
        found.append(x)
        for y in x:
            lists_of(y, found)


def is_applied(x):
    return len(x) == 3 and x[0] in ("app", "k", "c") and isinstance(x[1], str) and isinstance(x[2], list)


def is_head(x):
    """Whether it is an algebraic type, a member of a group or an inductive predicate."""
    expressions = ("all", "ex", "cast", "dot", "rec", "recp", "not", "if", "match", "letp", "as", "let")
    return len(x) > 2 and isinstance(x[1], list) and x[0] not in expressions


def change_name(rng, x, words):
    if is_applied(x):
        x[1] = rng.choice([w for w in words if w[0].isupper() == (x[0] == "k")])
    elif len(x) == 3 and x[0] == "dot":
        x[2] = rng.choice([w for w in words if w[0].islower()])
    elif len(x) == 3 and x[0] == "field":
        x[1] = rng.choice([w for w in words if w[0].islower()])
    elif is_head(x) and x[0][0].islower() and rng.random() < 0.7:
        x[0] = rng.choice([w for w in words if w[0].islower()])
    elif len(x) == 2 and x[0] == "v" and isinstance(x[1], str):
        x[1] = rng.choice(["'a", "'b", "'c"])
    elif len(x) > 1 and x[0] in ("x", "as") and isinstance(x[-1], str):
        x[-1] = rng.choice("xyzw")
    elif len(x) == 4 and x[0] in ("type", "const"):
        x[1] = rng.choice([w for w in words if w[0].islower()])
    elif len(x) == 4 and x[0] == "prop":
        x[2] = rng.choice("jklm")
    elif len(x) == 4 and x[0] == "let":
        x[1] = rng.choice("xyzw")
    else:
        return False
    return True


def change_type(rng, x, words):
    if len(x) == 3 and x[0] == "cast":
        x[2] = rng.choice([["c", "int", []], ["v", "'a"], ["p", []]])
    elif len(x) == 4 and x[0] in ("all", "ex") and x[1]:
        b = rng.choice(x[1])
        b[1] = None if b[1] else ["c", "int", []]
    elif is_applied(x) and x[0] == "c" and x[1] != "int":
        x[:] = ["c", "int", []]
    elif x == ["c", "int", []]:
        x[:] = rng.choice([["p", []], ["p", [["c", "int", []], ["c", "int", []]]], ["c", rng.choice("tuv"), []]])
    elif x[0] in ("int", "true", "false") and rng.random() < 0.3:
        x[:] = ["rec", [["field", rng.choice([w for w in words if w[0].islower()]), ["int", 1]]], False]
    elif len(x) == 2 and x[0] == "int":
        x[:] = rng.choice([["tup", [["int", 1], ["int", 2]]], ["tup", []], ["true"], ["app", rng.choice("xyzw"), []]])
    elif x in (["true"], ["false"]):
        equation = ["eq", True, ["app", "x", []], ["int", 1]]
        x[:] = rng.choice([["int", 1], ["all", [[["x"], None]], [], ["true"]], equation])
    elif len(x) == 4 and x[0] == "join":
        x[2] = rng.choice([["int", 1], ["ex", [[["y"], None]], [], ["true"]]])
    elif len(x) == 4 and x[0] == "eq":
        x[2] = rng.choice([["int", 0], ["tup", [["int", 1], ["int", 2]]], ["app", rng.choice("xyzw"), []]])
    else:
        return False
    return True


def change_arity(rng, x, words):
    if is_applied(x):
        if x[2] and rng.random() < 0.5:
            x[2].pop(rng.randrange(len(x[2])))
        else:
            x[2].insert(rng.randint(0, len(x[2])), {"app": ["int", 1], "k": ["_"], "c": ["c", "int", []]}[x[0]])
    elif len(x) == 2 and x[0] in ("tup", "t", "p") and isinstance(x[1], list) and x[1]:
        x[1].append(copy.deepcopy(x[1][0]))
    else:
        return False
    return True


def change_field(rng, x, words):
    """A function on its argument as a field of it, or a field as a function."""
    if is_applied(x) and x[0] == "app" and len(x[2]) == 1 and x[1][0].islower():
        x[:] = ["dot", x[2][0], x[1]]
    elif len(x) == 3 and x[0] == "dot":
        x[:] = ["app", x[2], [x[1]]]
    else:
        return False
    return True


def change_record(rng, x, words):
    """A field of a record is left out, or stands once more, or elsewhere, or one of another name does."""
    if len(x) != 3 or x[0] not in ("rec", "recp"):
        return False
    kind = rng.randrange(4)
    if kind == 0 and len(x[1]) > 1:
        x[1].pop(rng.randrange(len(x[1])))
    elif kind < 2:
        x[1].insert(rng.randint(0, len(x[1])), copy.deepcopy(rng.choice(x[1])))
    elif kind == 2:
        more = ["field", rng.choice([w for w in words if w[0].islower()]), copy.deepcopy(rng.choice(x[1])[2])]
        x[1].insert(rng.randint(0, len(x[1])), more)
    else:
        rng.shuffle(x[1])
    return True


def strings_of(x):
    return {x} if isinstance(x, str) else set().union(*map(strings_of, x)) if isinstance(x, list) else set()


def change(rng, declarations, part=None):
    """Changes one name, type or number of arguments of the last of these declarations, or of a part of it."""
    found = strings_of(declarations) | set("pqtuxAB")
    words = sorted(w for w in found if w.isalpha() and len(w) < 3 and w not in ("if", "eq", "op", "as", "ex"))
    words += ["nope", "Nope"]
    found = []
    lists_of(part or declarations[-1], found)
    for _ in range(200):
        kind = rng.choice([change_name, change_type, change_arity, change_field, change_record, change_record])
        if any(kind(rng, x, words) for x in rng.sample(found, min(8, len(found))) if x and isinstance(x[0], str)):
            return


def changed(rng, declarations):
    """The declarations with a change of the last one, mostly such that it is refused."""
    for _ in range(3):
        other = copy.deepcopy(declarations)
        change(rng, other)
        if not answer_of(Theory(), source_of(other)[1]).startswith("Made"):
            break
    return other


def fault_of_names(declarations):
    """The first fault of names: its declaration, its token, and how many tokens are at fault there; or None."""
    for k, d in enumerate(source_of(declarations)[1]):
        theory = Theory() if k == 0 else theory
        try:
            Elaborator(theory).declaration(d)
        except Fault as f:
            return (k, *f.args[1:]) if f.args[2:] else None
    return None


def changed_often(rng, declarations):
    """The declarations with two to four changes of the last one, such that names at several tokens are wrong, or None."""
    for _ in range(10):
        other = copy.deepcopy(declarations)
        for _ in range(rng.randint(2, 4)):
            change(rng, other)
        fault = fault_of_names(other)
        if fault and fault[2] > 1:
            return other
    return None


def let_of_pattern(rng, declarations):
    """The declarations, and after them a goal that is a `let` of a pattern with parts, or None."""
    theory = Theory()
    answer_of(theory, source_of(declarations)[1])
    inner = Generator(rng, theory)
    name = inner.fresh("jklmno", theory.propositions)
    t, bound = inner.subject(), []
    pattern = inner.pattern(t, 2, bound)
    try:
        goal = ["prop", "goal", name, ["letp", pattern, inner.term(t, [], 2), inner.formula(bound, 1)]]
        is_long = len(source_of([goal])[0]) > 190
    except (LookupError, RecursionError, ValueError):
        return None
    has_parts = pattern[0] == "recp" or pattern[0] in "kt" and pattern[-1]
    return declarations + [goal] if has_parts and not is_long else None


def changed_let(rng, declarations):
    """The same with a change in the value, and one in the pattern that is told before it, or None."""
    right = let_of_pattern(rng, declarations)
    for _ in range(20 if right else 0):
        other = copy.deepcopy(right)
        _, pattern, value, _ = other[-1][3]
        change(rng, other, value)
        later = fault_of_names(other)
        change(rng, other, pattern)
        first = fault_of_names(other)
        if later and first and first[:2] < later[:2]:
            return other
    return None


def changed_record(rng, declarations):
    """The same with two or three changes in one record of the last declaration, or None."""
    for _ in range(10):
        other = copy.deepcopy(declarations)
        found = []
        lists_of(other[-1], found)
        records = [x for x in found if len(x) == 3 and x[0] in ("rec", "recp")]
        if not records:
            return None
        record = rng.choice(records)
        for _ in range(rng.randint(2, 3)):
            change(rng, other, record)
        fault = fault_of_names(other)
        if fault and fault[2] > 1:
            return other
    return None


def rows_of_faults(rng, rows, count):
    """So many sources with several faults of names, a third of them at a `let` of a pattern, and a third in one record."""
    heads = [row[: k + 1] for row in rows for k in range(len(row))]
    kinds = [changed_let, changed_often, changed_record]
    made = {}
    while len(made) < count:
        other = kinds[len(made) % 3](rng, rng.choice(heads))
        if other:
            text, annotated = source_of(other)
            made[text] = answer_of(Theory(), annotated)
    return list(made.items())


def source_of(declarations):
    """The text of a theory, and its annotated declarations."""
    writer = Writer()
    writer.put("theory", "T")
    made = [writer.declaration(d) for d in declarations]
    writer.put("end")
    return writer.text(), made


def names_field(d):
    return d[0] == "alg" and any(names for _, _, cons in d[1] for con in cons for names, _ in con[1])


def names_record(d):
    return d[0] == "alg" and any(cons[0][0] is None for _, _, cons in d[1])


def has_form(x, form):
    return isinstance(x, list) and (len(x) == 3 and x[0] == form or any(has_form(y, form) for y in x))


# What the first declaration of a theory makes, and a form that is in the last one.
WANTED = (lambda d: True, None), (names_field, "dot"), (names_record, "rec"), (names_record, "recp")


def is_short(declaration):
    """Whether the text has at most 260 bytes. A declaration that is too deep to be written has more."""
    try:
        return len(source_of([declaration])[0]) <= 260
    except RecursionError:
        return False


def well_typed(rng, first, form):
    """Declarations of a theory, each of which is well typed; of the first and the last one something is asked."""
    theory = Theory()
    made = []
    for _ in range(200):
        if len(made) == 4:
            break
        state = copy.deepcopy(theory)
        try:
            d = Generator(rng, copy.deepcopy(theory), form).declaration(len(made) == 3)
        except (LookupError, RecursionError, ValueError):
            continue
        if None in d[:3] and d[0] != "type" and d[0] != "const" or d[0] in ("type", "const") and d[1] is None:
            continue
        if not is_short(d):
            continue
        if len(made) == 0 and not first(d) or len(made) == 3 and form and not has_form(d, form):
            continue
        answer = answer_of(state, source_of(made + [d])[1][-1:])
        if answer.startswith("Made"):
            made.append(d)
            theory = state
    return made


# ---- rows of patterns against an enumeration of the shapes that are deeper than any of them
COVERED = "type t = A | B type list 'a = Nil | Cons 'a (list 'a) type pair 'a 'b = Pair 'a 'b type r = {a: t; b: list t; c: t}"
CONSTRUCTORS = {
    "t": {"A": (), "B": ()},
    "list t": {"Nil": (), "Cons": ("t", "list t")},
    "pair t (list t)": {"Pair": ("t", "list t")},
    "r": {"": ("t", "list t", "t")},
}


def random_pattern(rng, kind, depth):
    choice = rng.randrange(6 if depth < 3 else 24)
    if depth == 0 or choice == 0:
        return ("_",)
    if choice == 1:
        return ("x",)
    if choice == 2:
        return ("as", random_pattern(rng, kind, depth - 1))
    con = rng.choice(list(CONSTRUCTORS[kind]))
    return (con, *(random_pattern(rng, part, depth - 1) for part in CONSTRUCTORS[kind][con]))


def fields_text(rng, parts):
    """The fields of a record in any order, of which those with a wildcard may be left out."""
    fields = [f"{x} = {part}" for x, part in zip("abc", parts)]
    named = [field for field in fields if not field.endswith(" = _")] or [rng.choice(fields)]
    fields = rng.choice([fields, named])
    rng.shuffle(fields)
    return "{" + "; ".join(fields) + "}"


def pattern_text(rng, pattern, count):
    """With names that differ."""
    if pattern[0] == "_":
        return "_"
    if pattern[0] == "x":
        count[0] += 1
        return f"v{count[0]}"
    if pattern[0] == "as":
        count[0] += 1
        name = f"v{count[0]}"
        return f"({pattern_text(rng, pattern[1], count)} as {name})"
    parts = [pattern_text(rng, part, count) for part in pattern[1:]]
    if pattern[0] == "":
        return fields_text(rng, parts)
    return f"({' '.join([pattern[0], *parts])})" if parts else pattern[0]


def shapes_of(kind, depth):
    if depth == 0:
        return [None]
    made = []
    for con, parts in CONSTRUCTORS[kind].items():
        made += [(con, *them) for them in itertools.product(*(shapes_of(part, depth - 1) for part in parts))]
    return made


def meets(pattern, shape):
    if pattern[0] in ("_", "x") or shape is None:
        return True
    if pattern[0] == "as":
        return meets(pattern[1], shape)
    return pattern[0] == shape[0] and all(map(meets, pattern[1:], shape[1:]))


def cover_rows(rng, shapes):
    """A line of ten matches, and its answer: which of them leave a shape."""
    text, answer, token = "", "", 0
    for k in range(10):
        kind = rng.choice(list(CONSTRUCTORS))
        patterns = [random_pattern(rng, kind, 3) for _ in range(rng.randrange(1, 8))]
        count = [0]
        arms = " | ".join(f"{pattern_text(rng, pattern, count)} -> true" for pattern in patterns)
        text += f"{' with' if text else 'predicate'} p{k} (x: {kind}) = match x with {arms} end"
        is_open = any(not any(meets(p, shape) for p in patterns) for shape in shapes[kind])
        answer += "|{}" + " open" * is_open
    source = f"theory T {COVERED} {text} end"
    words = re.findall(r"[\w']+|->|[^\w\s]", source)
    places = [place for place, word in enumerate(words) if word == "match"]
    return f"open {source}", answer.format(*places)


def rows_by_hand(folder):
    """The rows of a folder's files: a source, and its answer after four blanks in the next line. A line `before: TEXT` or
    `after: TEXT` gives what stands around the sources after it, a blank between."""
    made = []
    for name in sorted(os.listdir(folder)):
        around = {"before:": "", "after:": ""}
        with open(f"{folder}/{name}", encoding="utf-8") as it:
            lines = [line for line in it.read().split("\n") if line and not line.startswith("#")]
        source = None
        for line in lines:
            word = next((word for word in around if line.startswith(word)), None)
            if word:
                around[word] = line[len(word) :].strip()
            elif line.startswith("    ") and source is not None:
                made.append((" ".join([around["before:"], source, around["after:"]]).strip(), line[4:]))
                source = None
            elif source is None and not line.startswith(" "):
                source = line
            else:
                sys.exit(f"{name}: no row: {line}")
    return made


def declaration_rows(seed, count):
    """Lines of `stdin`, each with its answer."""
    # A declaration that nests without end draws numbers up to this limit, so that the rows depend on it.
    sys.setrecursionlimit(998 + len(inspect.stack()))
    rng = random.Random(seed)
    rows = [well_typed(rng, *WANTED[k % 4]) for k in range(count)]
    rows += [changed(rng, declarations[: k + 1]) for declarations in rows[:] for k in range(len(declarations))]
    made = [source_of(declarations) for declarations in rows]
    pairs = [(text, answer_of(Theory(), annotated)) for text, annotated in made]
    shapes = {kind: shapes_of(kind, 5) for kind in CONSTRUCTORS}
    pairs += [cover_rows(rng, shapes) for _ in range(100)]
    pairs += rows_of_faults(rng, rows[:count], 225)
    pairs = rows_by_hand(f"{TOP}/crates/source_rows/declarations") + pairs
    return [(f"last {text}", answer) for text, answer in pairs]
