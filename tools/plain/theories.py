"""Random theories, as text and as plain tasks. All of them are typed; a few are refused by the side conditions."""
import random

from . import tasks as P
from .tasks import Symbol, Task

INT = ("int",)
OPS = {"and": "/\\", "aand": "&&", "or": "\\/", "oor": "||", "imp": "->", "iff": "<->"}


def show_type(t, top=True):
    if t[0] == "int":
        return "int"
    if t[0] == "v":
        return f"'{t[1]}"
    if not t[2]:
        return t[1].name
    it = " ".join([t[1].name] + [show_type(x, False) for x in t[2]])
    return it if top else f"({it})"


def show_pattern(p):
    if p[0] == "_":
        return "_"
    if p[0] == "px":
        return p[1]
    if p[0] == "as":
        return f"({show_pattern(p[1])} as {p[2]})"
    return f"({' '.join([p[1].name] + [show_pattern(q) for q in p[3]])})" if p[3] else p[1].name


def show(e):
    k = e[0]
    if k == "x":
        return e[1]
    if k == "lit":
        return str(e[1])
    if k in ("true", "false"):
        return k
    if k == "s":
        it = " ".join([e[1].name] + [show(a) for a in e[3]])
        if e[3]:
            it = f"({it})"
        return f"({it}: {show_type(P.type_of(e))})" if e[1].result and e[1].tyvars else it
    if k == "eq":
        return f"({show(e[2])} = {show(e[3])})"
    if k == "not":
        return f"(not {show(e[1])})"
    if k in OPS:
        return f"({show(e[1])} {OPS[k]} {show(e[2])})"
    if k in ("forall", "exists"):
        return f"({k} {e[1]}: {show_type(e[2])}. {show(e[3])})"
    if k == "let":
        return f"(let {e[1]} = {show(e[2])} in {show(e[3])})"
    if k == "if":
        return f"(if {show(e[1])} then {show(e[2])} else {show(e[3])})"
    arms = " ".join(f"| {show_pattern(p)} -> {show(b)}" for p, b in e[2])
    return f"(match {show(e[1])} with {arms} end)"


class Maker:
    """A random theory, declaration by declaration."""

    def __init__(self, seed, allowed=None):
        self.allowed = allowed or set(P.BY_NAME)
        self.r = random.Random(seed)
        self.types, self.algs, self.funs, self.preds = [], {}, [], []
        self.decls, self.lines, self.count = [], [], 0
        self.forms = {f for f in ("let", "match", "if", "eqlit", "quant") if self.r.random() < 0.75}

    def name(self, letter):
        self.count += 1
        return f"{letter}{self.count}"

    def a_type(self, tyvars, depth=2):
        r = self.r
        pool = [INT] + [("v", a) for a in tyvars] * 2 + [s for s in self.types]
        it = r.choice(pool)
        if isinstance(it, tuple):
            return it
        if it.tyvars and depth == 0:
            return INT
        return ("t", it, tuple(self.a_type(tyvars, depth - 1) for _ in it.tyvars))

    # ---- terms
    def term(self, ty, env, tyvars, depth, no=()):
        r, choices = self.r, []
        here = [("x", x, t) for x, t in env if t == ty]
        if here:
            choices += [lambda: r.choice(here)] * 4
        if ty == INT and "eqlit" in self.forms:
            choices += [lambda: ("lit", r.randrange(4))]
        for s in self.funs:
            if s in no:
                continue
            m = P.matches(s.result, ty, {})
            if m is not None and (depth > 0 or not s.args):
                choices.append(lambda s=s, m=m: self.use(s, m, env, tyvars, depth - 1, no))
        if depth > 0 and "if" in self.forms:
            choices.append(lambda: self.whole(("if", self.formula(env, tyvars, depth - 1, no),
                                               self.term(ty, env, tyvars, depth - 1, no),
                                               self.term(ty, env, tyvars, depth - 1, no))))
        if depth > 0 and "let" in self.forms:
            choices.append(lambda: self.let(env, tyvars, depth, no, lambda e: self.term(ty, e, tyvars, depth - 1, no)))
        if depth > 0 and "match" in self.forms and self.algs:
            choices.append(lambda: self.match(env, tyvars, depth, no, lambda e: self.term(ty, e, tyvars, depth - 1, no)))
        for _ in range(6):
            if choices:
                it = r.choice(choices)()
                if it is not None:
                    return it
        if ty == INT:
            return ("lit", r.randrange(4))
        return self.smallest(ty, env, no, 3)

    def whole(self, e):
        return None if None in e else e

    def smallest(self, ty, env, no, depth):
        for x, t in env:
            if t == ty:
                return ("x", x, t)
        if ty == INT:
            return ("lit", 0)
        for s in self.funs:
            m = P.matches(s.result, ty, {})
            if s not in no and m is not None and set(m) == set(s.tyvars) and depth:
                args = [self.smallest(P.type_at(t, m), env, no, depth - 1) for t in s.args]
                if None not in args:
                    return ("s", s, tuple(m[a] for a in s.tyvars), args)
        return None

    def use(self, s, m, env, tyvars, depth, no):
        m = dict(m)
        for a in s.tyvars:
            if a not in m:
                m[a] = self.a_type(tyvars, 1)
        args = [self.term(P.type_at(t, m), env, tyvars, depth, no) for t in s.args]
        return None if None in args else ("s", s, tuple(m[a] for a in s.tyvars), args)

    def let(self, env, tyvars, depth, no, inner):
        ty, x = self.a_type(tyvars, 1), self.name("l")
        v = self.term(ty, env, tyvars, depth - 1, no)
        if v is None:
            return None
        e = inner(env + [(x, ty)])
        return e and ("let", x, v, e)

    def pattern(self, ty, depth, names):
        r = self.r
        it = r.random()
        if ty[0] == "t" and ty[1] in self.algs and depth and it < 0.5:
            c = r.choice(self.algs[ty[1]])
            env = dict(zip(ty[1].tyvars, ty[2]))
            p = ("pc", c, ty[2], [self.pattern(P.type_at(t, env), depth - 1, names) for t in c.args])
        elif it < 0.7:
            return ("_",)
        else:
            x = self.name("m")
            names.append((x, ty))
            return ("px", x)
        if r.random() < 0.2:
            x = self.name("m")
            names.append((x, ty))
            return ("as", p, x)
        return p

    def match(self, env, tyvars, depth, no, inner):
        r = self.r
        head = r.choice(list(self.algs))
        ty = ("t", head, tuple(self.a_type(tyvars, 1) for _ in head.tyvars))
        s = self.term(ty, env, tyvars, depth - 1, no)
        if s is None:
            return None
        arms, tyenv = [], dict(zip(head.tyvars, ty[2]))
        nested = False
        for c in self.algs[head]:
            if r.random() < 0.2:
                nested = True
                continue
            names, ps = [], []
            for t in c.args:
                p = self.pattern(P.type_at(t, tyenv), 1, names)
                nested = nested or p[0] in ("pc", "as")
                ps.append(p)
            p = ("pc", c, ty[2], ps)
            order = dict(P.variable_types(p, ty))
            arms.append((p, [(x, order[x]) for x in P.pattern_vars(p)]))
        if nested or not arms or r.random() < 0.2:
            x = self.name("m")
            arms.append((("px", x), [(x, ty)]) if r.random() < 0.5 else (("_",), []))
        out = []
        for p, names in arms:
            b = inner(env + names)
            if b is None:
                return None
            out.append((p, b))
        return ("match", s, out)

    # ---- formulas
    def formula(self, env, tyvars, depth, no=()):
        for _ in range(4):
            it = self.formula_once(env, tyvars, depth, no)
            if it is not None:
                return it
        return ("true",)

    def formula_once(self, env, tyvars, depth, no):
        r = self.r
        kinds = ["atom", "atom", "eq", "const"]
        if depth > 0:
            kinds = ["atom", "atom", "eq", "not", "join", "join", "join", "const"]
            if "quant" in self.forms:
                kinds += ["quant", "quant"]
            for k in ("if", "let", "match"):
                if k in self.forms:
                    kinds.append(k)
        k = r.choice(kinds)
        if k == "const":
            return (r.choice(["true", "false"]),)
        if k == "atom":
            ps = [p for p in self.preds if p not in no]
            return self.use(r.choice(ps), {}, env, tyvars, depth - 1, no) if ps else None
        if k == "eq":
            ty = self.a_type(tyvars, 1)
            a, b = self.term(ty, env, tyvars, depth - 1, no), self.term(ty, env, tyvars, depth - 1, no)
            return None if a is None or b is None else ("eq", ty, a, b)
        if k == "not":
            return ("not", self.formula(env, tyvars, depth - 1, no))
        if k == "join":
            return (r.choice(list(OPS)), self.formula(env, tyvars, depth - 1, no), self.formula(env, tyvars, depth - 1, no))
        if k == "quant":
            x, ty = self.name("x"), self.a_type(tyvars, 1)
            return (r.choice(["forall", "forall", "exists"]), x, ty, self.formula(env + [(x, ty)], tyvars, depth - 1, no))
        if k == "if":
            return ("if", *[self.formula(env, tyvars, depth - 1, no) for _ in range(3)])
        if k == "let":
            return self.let(env, tyvars, depth, no, lambda e: self.formula(e, tyvars, depth - 1, no))
        return self.match(env, tyvars, depth, no, lambda e: self.formula(e, tyvars, depth - 1, no)) if self.algs else None

    # ---- declarations
    def tyvars(self):
        return ["a"] if self.r.random() < (0.35 if "discriminate" in self.allowed else 0.05) else []

    def declare_type(self):
        s = Symbol(self.name("t"), "type", ["a"] if self.r.random() < 0.3 else [])
        self.types.append(s)
        self.decls.append(("type", s))
        self.lines.append(" ".join(["type", s.name] + [f"'{a}" for a in s.tyvars]))

    def declare_alg(self):
        r = self.r
        group = [Symbol(self.name("t"), "type", self.tyvars()) for _ in range(1 if r.random() < 0.75 else 2)]
        made, texts, before = [], [], list(self.types)
        for s in group:
            cons = []
            whole = ("t", s, tuple(("v", a) for a in s.tyvars))
            for i in range(r.choice([1, 2, 2, 3])):
                args = []
                for _ in range(r.choice([0, 1, 1, 2]) if i else r.choice([0, 0, 1])):
                    args.append(whole if i and r.random() < 0.5 else self.a_type(s.tyvars, 1))
                if i and s is group[-1] and len(group) == 2 and not group[0].tyvars and r.random() < 0.6:
                    args.append(("t", group[0], ()))
                c = Symbol(self.name("C"), "con", s.tyvars, args, whole)
                c.projections = [Symbol(f"{c.name}'{j + 1}", "proj", s.tyvars, [whole], t) for j, t in enumerate(args)]
                cons.append(c)
            made.append((s, cons))
            texts.append(" ".join([s.name] + [f"'{a}" for a in s.tyvars]) + " = " + " | ".join(
                " ".join([c.name] + [show_type(t, False) for t in c.args]) for c in cons))
        self.types = before + group
        for s, cons in made:
            self.algs[s] = cons
            self.funs += cons
        self.decls.append(("alg", made))
        self.lines.append("type " + " with ".join(texts))

    def declare_symbol(self):
        r, vs = self.r, self.tyvars()
        if r.random() < 0.5:
            args = [self.a_type(vs, 1) for _ in range(r.choice([0, 1, 2]))]
            s = Symbol(self.name("f"), "fun", vs, args, self.a_type(vs, 1))
            used = {a for t in args + [s.result] for a in P.type_vars(t)}
            s.tyvars = [a for a in vs if a in used]
            self.funs.append(s)
            self.lines.append(f"function {s.name} {' '.join(show_type(t, False) for t in args)}: {show_type(s.result)}")
        else:
            args = [self.a_type(vs, 1) for _ in range(r.choice([0, 1, 1, 2]))]
            s = Symbol(self.name("p"), "pred", vs, args)
            used = {a for t in args for a in P.type_vars(t)}
            s.tyvars = [a for a in vs if a in used]
            self.preds.append(s)
            self.lines.append(f"predicate {s.name} {' '.join(show_type(t, False) for t in args)}")
        self.decls.append(("sym", s))

    def declare_def(self):
        r, group, texts = self.r, [], []
        many = 1 if r.random() < 0.7 else 2
        vs = self.tyvars()
        heads = []
        for _ in range(many):
            pred = r.random() < 0.5
            params = [(self.name("y"), self.a_type(vs, 1)) for _ in range(r.choice([0, 1, 2, 2]))]
            s = Symbol(self.name("q" if pred else "g"), "pred" if pred else "fun", vs, [t for _, t in params],
                       None if pred else self.a_type(vs, 1))
            heads.append((s, params))
        for i, (s, params) in enumerate(heads):
            used = {a for t in s.args + ([s.result] if s.result else []) for a in P.type_vars(t)}
            s.tyvars = [a for a in vs if a in used]
        for i, (s, params) in enumerate(heads):
            no = [h for h, _ in heads]
            body = self.trivial(s, params) if r.random() < 0.3 else None
            if body is None:
                body = (self.formula(params, s.tyvars, 2, no) if s.result is None
                        else self.term(s.result, params, s.tyvars, 2, no))
            if body is None:
                return False
            group.append((s, params, body))
        self.finish_def(group)
        return True

    def trivial(self, s, params):
        pool = self.preds if s.result is None else self.funs
        fits = [f for f in pool if not f.tyvars and f.result == s.result and len(f.args) <= len(params)]
        xs = [("x", x, t) for x, t in params]
        self.r.shuffle(xs)
        for f in fits:
            args, left = [], list(xs)
            for t in f.args:
                it = next((x for x in left if x[2] == t), None)
                if it is None:
                    break
                args.append(it)
                if self.r.random() < 0.8:
                    left.remove(it)
            if len(args) == len(f.args):
                return ("s", f, (), args)
        return None

    def finish_def(self, group):
        texts = []
        for i, (s, params, body) in enumerate(group):
            word = ("function" if s.result else "predicate") if i == 0 else "with"
            ps = " ".join(f"({x}: {show_type(t)})" for x, t in params)
            texts.append(f"{word} {s.name} {ps}{': ' + show_type(s.result) if s.result else ''} = {show(body)}")
            (self.funs if s.result else self.preds).append(s)
        self.decls.append(("def", group))
        self.lines.append(" ".join(texts))

    def declare_recursive(self):
        """A function or predicate by a match on one parameter, called at what a constructor holds."""
        if not self.algs:
            return False
        r = self.r
        head = r.choice(list(self.algs))
        vs = list(head.tyvars)
        whole = ("t", head, tuple(("v", a) for a in head.tyvars))
        params = [(self.name("y"), self.a_type(vs, 1)) for _ in range(r.choice([0, 0, 1]))] + [(self.name("y"), whole)]
        if r.random() < 0.5:
            params.append((self.name("y"), self.a_type(vs, 1)))
        at = next(i for i, (_, t) in enumerate(params) if t == whole)
        pred = r.random() < 0.5
        s = Symbol(self.name("r"), "pred" if pred else "fun", vs, [t for _, t in params], None if pred else self.a_type(vs, 1))
        arms, used = [], False
        for c in self.algs[head]:
            zs = [(self.name("z"), t) for t in c.args]
            ps = [("px", z) if r.random() < 0.8 else ("_",) for z, _ in zs]
            names = [(z, t) for (z, t), p in zip(zs, ps) if p[0] == "px"]
            env = params + names
            body = self.formula(env, vs, 1) if pred else self.term(s.result, env, vs, 1)
            if body is None:
                return False
            smaller = [(z, t) for z, t in names if t == whole]
            if smaller:
                args = []
                for i, (x, t) in enumerate(params):
                    args.append(("x", *r.choice(smaller)) if i == at else self.term(t, env, vs, 0))
                if None in args:
                    return False
                call = ("s", s, tuple(("v", a) for a in vs), args)
                if pred:
                    body = (r.choice(list(OPS)), call, body)
                elif r.random() < 0.5:
                    body = call
                else:
                    body = ("if", ("eq", s.result, call, body), call, body)
                used = True
            arms.append((("pc", c, whole[2], ps), body))
        if not used:
            return False
        if r.random() < 0.2:
            arms[-1] = (("_",), arms[-1][1]) if not P.pattern_vars(arms[-1][0]) else arms[-1]
        self.finish_def([(s, params, ("match", ("x", *params[at]), arms))])
        return True

    def declare_ind(self):
        r, vs = self.r, self.tyvars()
        group = []
        for _ in range(1 if r.random() < 0.7 else 2):
            args = [self.a_type(vs, 1) for _ in range(r.choice([0, 1, 1, 2]))]
            s = Symbol(self.name("i"), "pred", vs, args)
            used = {a for t in args for a in P.type_vars(t)}
            s.tyvars = [a for a in vs if a in used]
            group.append(s)
        self.forms, forms = self.forms - {"let", "match"} if r.random() < 0.5 else self.forms, self.forms
        made, texts = [], []
        for i, s in enumerate(group):
            clauses = []
            for _ in range(r.choice([1, 2, 2])):
                ys = [(self.name("y"), self.a_type(s.tyvars, 1)) for _ in range(r.choice([0, 1, 2]))]
                hyps = [self.formula(ys, s.tyvars, 1, group) for _ in range(r.choice([0, 0, 1, 2]))]
                other = [g for g in group if set(g.tyvars) <= set(s.tyvars)]
                if other and r.random() < 0.5:
                    it = self.use(r.choice(other), {}, ys, s.tyvars, 1, group)
                    if it and (it[1] is not s or it[2] == tuple(("v", a) for a in s.tyvars)) and it[2] == tuple(
                            ("v", a) for a in it[1].tyvars):
                        hyps.append(it)
                end = [self.term(t, ys, s.tyvars, 1, group) for t in s.args]
                if None in end:
                    continue
                c = ("s", s, tuple(("v", a) for a in s.tyvars), end)
                for h in reversed(hyps):
                    c = ("imp", h, c)
                clauses.append(P.quantify("forall", ys, c))
            if not clauses:
                self.forms = forms
                return False
            made.append((s, clauses))
            texts.append(f"{'inductive' if i == 0 else 'with'} {s.name} {' '.join(show_type(t, False) for t in s.args)} = " +
                         " ".join(f"| {self.name('k')}: {show(c)}" for c in clauses))
        self.forms = forms
        self.preds += group
        self.decls.append(("ind", made))
        self.lines.append(" ".join(texts))
        return True

    def declare_axiom(self):
        vs = self.tyvars() if "discriminate" in self.allowed else []
        e = self.formula([], vs, 3)
        vs = [a for a in vs if a in P.types_in(e)]
        self.decls.append(("prop", vs, e))
        self.lines.append(f"axiom {self.name('h')}: {show(e)}")

    def theory(self):
        r = self.r
        self.declare_type()
        makers = [self.declare_type, self.declare_symbol, self.declare_symbol, self.declare_axiom, self.declare_axiom]
        if "eliminate_algebraic" in self.allowed or r.random() < 0.1:
            makers.append(self.declare_alg)
            if r.random() < 0.7:
                self.declare_alg()
        if "eliminate_definition" in self.allowed:
            makers += [self.declare_def] * 2
        if "eliminate_recursion" in self.allowed:
            makers.append(self.declare_recursive)
        if "eliminate_inductive" in self.allowed:
            makers.append(self.declare_ind)
        self.declare_symbol()
        for _ in range(r.randrange(3, 9)):
            r.choice(makers)()
        goal = self.formula([], [], 4)
        text = "theory T\n" + "".join(f"  {x}\n" for x in self.lines) + f"  goal g: {show(goal)}\nend\n"
        return Task(self.decls, [], [], goal), text
