"""A second, plain program for print: tasks as trees with named variables, transformations by their equations, the SMT text.

It is written from docs/FORMATS.md alone, shares nothing with the program, and is slow: no term is shared, each binder that is
copied gets a new name.

Types are ("int",), ("t", symbol, types), ("v", name). Terms and formulas are tuples: ("x", name, type), ("lit", n),
("par", n, type), ("s", symbol, types, args), ("eq", type, a, b), ("true",), ("false",), ("not", a), (connective, a, b),
("forall" | "exists", name, type, body), ("let", name, value, body), ("if", c, a, b), ("match", s, [(pattern, body)]).
Patterns are ("_",), ("px", name), ("as", pattern, name), ("pc", constructor, types, patterns).
"""
import itertools

CONNECTIVES = {"and": "and", "aand": "and", "or": "or", "oor": "or", "imp": "=>", "iff": "="}
FRESH = itertools.count()


class Misplaced(Exception):
    """A transformation isn't allowed where this declaration stands."""


class Symbol:
    def __init__(self, name, kind, tyvars=(), args=(), result=None):
        self.name, self.kind, self.tyvars, self.args, self.result = name, kind, list(tyvars), list(args), result
        self.projections = []


class Task:
    """Declarations ("type", s), ("sym", s), ("alg", [(type, [constructors])]), ("prop", tyvars, formula),
    ("def", [(s, params, body)]), ("ind", [(s, [clauses])]); parameters' types, locals and the goal."""

    def __init__(self, decls, params, local, goal):
        self.decls, self.params, self.local, self.goal = decls, params, local, goal

    def having(self, decls=None, local=None, goal=None, params=None):
        return Task(self.decls if decls is None else decls, self.params if params is None else params,
                    self.local if local is None else local, self.goal if goal is None else goal)


# ---- types
def type_at(ty, env):
    if ty[0] == "v":
        return env.get(ty[1], ty)
    return ("t", ty[1], tuple(type_at(x, env) for x in ty[2])) if ty[0] == "t" else ty


def type_of(e):
    """Returns the type of a term, None for a formula."""
    k = e[0]
    if k == "x":
        return e[2]
    if k == "lit":
        return ("int",)
    if k == "par":
        return e[2]
    if k == "s":
        return e[1].result and type_at(e[1].result, dict(zip(e[1].tyvars, e[2])))
    if k == "let":
        return type_of(e[3])
    if k == "if":
        return type_of(e[2])
    if k == "match":
        return type_of(e[2][0][1])
    return None


def is_formula(e):
    return type_of(e) is None


# ---- substitution, with new names for every binder that is met
def pattern_vars(p):
    if p[0] == "px":
        return [p[1]]
    if p[0] == "as":
        return pattern_vars(p[1]) + [p[2]]
    return [x for q in p[3] for x in pattern_vars(q)] if p[0] == "pc" else []


def renamed(p, names, tys):
    if p[0] == "px":
        return ("px", names[p[1]])
    if p[0] == "as":
        return ("as", renamed(p[1], names, tys), names[p[2]])
    if p[0] == "pc":
        return ("pc", p[1], tuple(type_at(x, tys) for x in p[2]), [renamed(q, names, tys) for q in p[3]])
    return p


def put(e, env, tys=None):
    """e with terms for variables and types for type variables."""
    tys = tys or {}
    k = e[0]
    if k == "x":
        return env[e[1]] if e[1] in env else ("x", e[1], type_at(e[2], tys))
    if k in ("lit", "true", "false"):
        return e
    if k == "par":
        return e
    if k == "s":
        return ("s", e[1], tuple(type_at(x, tys) for x in e[2]), [put(a, env, tys) for a in e[3]])
    if k == "eq":
        return ("eq", type_at(e[1], tys), put(e[2], env, tys), put(e[3], env, tys))
    if k == "not":
        return ("not", put(e[1], env, tys))
    if k in CONNECTIVES:
        return (k, put(e[1], env, tys), put(e[2], env, tys))
    if k in ("forall", "exists"):
        n, ty = f"v{next(FRESH)}", type_at(e[2], tys)
        return (k, n, ty, put(e[3], {**env, e[1]: ("x", n, ty)}, tys))
    if k == "let":
        n, v = f"v{next(FRESH)}", put(e[2], env, tys)
        return ("let", n, v, put(e[3], {**env, e[1]: ("x", n, type_of(v))}, tys))
    if k == "if":
        return ("if", put(e[1], env, tys), put(e[2], env, tys), put(e[3], env, tys))
    s = put(e[1], env, tys)
    arms = []
    for p, b in e[2]:
        types = dict(variable_types(p, type_of(e[1])))
        names = {x: f"v{next(FRESH)}" for x in pattern_vars(p)}
        inner = {x: ("x", names[x], type_at(types[x], tys)) for x in names}
        arms.append((renamed(p, names, tys), put(b, {**env, **inner}, tys)))
    return ("match", s, arms)


def variable_types(p, ty):
    """The variables of a pattern of a type, each with its own, in reading order."""
    if p[0] == "px":
        return [(p[1], ty)]
    if p[0] == "as":
        return variable_types(p[1], ty) + [(p[2], ty)]
    if p[0] == "pc":
        env = dict(zip(p[1].tyvars, p[2]))
        return [x for q, t in zip(p[3], p[1].args) for x in variable_types(q, type_at(t, env))]
    return []


def parts_of(e):
    """Returns the parts of a node, and how it is made of others."""
    k = e[0]
    if k == "s":
        return e[3], lambda ps: ("s", e[1], e[2], ps)
    if k == "eq":
        return [e[2], e[3]], lambda ps: ("eq", e[1], ps[0], ps[1])
    if k == "not":
        return [e[1]], lambda ps: ("not", ps[0])
    if k in CONNECTIVES:
        return [e[1], e[2]], lambda ps: (k, ps[0], ps[1])
    if k in ("forall", "exists"):
        return [e[3]], lambda ps: (k, e[1], e[2], ps[0])
    if k == "let":
        return [e[2], e[3]], lambda ps: ("let", e[1], ps[0], ps[1])
    if k == "if":
        return [e[1], e[2], e[3]], lambda ps: ("if", ps[0], ps[1], ps[2])
    if k == "match":
        return ([e[1]] + [b for _, b in e[2]],
                lambda ps: ("match", ps[0], [(p, b) for (p, _), b in zip(e[2], ps[1:])]))
    return [], lambda ps: e


def image(e, rule):
    """The images of the parts first, then the rule."""
    parts, make = parts_of(e)
    return rule(make([image(a, rule) for a in parts]))


def preorder(e):
    yield e
    for a in parts_of(e)[0]:
        yield from preorder(a)


def everywhere(task, f):
    decls = [("prop", d[1], f(d[2])) if d[0] == "prop" else d for d in task.decls]
    return task.having(decls, [f(a) for a in task.local], f(task.goal))


def occurs(x, e):
    return any(n[0] == "x" and n[1] == x for n in preorder(e))


def join(op, es, empty):
    if not es:
        return empty
    return es[0] if len(es) == 1 else (op, es[0], join(op, es[1:], empty))


# ---- goals
def split(a):
    k = a[0]
    if k == "and":
        return split(a[1]) + split(a[2])
    if k == "aand":
        return split(a[1]) + [("imp", a[1], b) for b in split(a[2])]
    if k == "imp":
        return [("imp", a[1], b) for b in split(a[2])]
    if k == "iff":
        return [("imp", a[1], a[2]), ("imp", a[2], a[1])]
    if k == "forall":
        return [("forall", a[1], a[2], b) for b in split(a[3])]
    if k == "let":
        return [("let", a[1], a[2], b) for b in split(a[3])]
    if k == "if":
        return [("imp", a[1], b) for b in split(a[2])] + [("imp", ("not", a[1]), b) for b in split(a[3])]
    return [] if k == "true" else [a]


def split_goal_right(task):
    return [task.having(goal=g) for g in split(task.goal)]


def introduce_premises(task):
    while True:
        g = task.goal
        if g[0] == "forall":
            c = ("par", len(task.params), g[2])
            task = task.having(params=task.params + [g[2]], goal=put(g[3], {g[1]: c}))
        elif g[0] == "imp":
            task = task.having(local=task.local + [g[1]], goal=g[2])
        else:
            return [task]


# ---- definitions
def uses_any(e, symbols):
    return any(n[0] == "s" and n[1] in symbols for n in preorder(e))


def is_recursive(group):
    return any(uses_any(b, [s for s, _, _ in group]) for _, _, b in group)


def unfold(e, member):
    s, params, body = member

    def rule(n):
        if n[0] == "s" and n[1] is s:
            return put(body, dict(zip([x for x, _ in params], n[3])), dict(zip(s.tyvars, n[2])))
        return n
    return image(e, rule)


def is_trivial(member):
    _, params, body = member
    if body[0] == "lit" or body[0] == "x":
        return True
    args = body[3] if body[0] == "s" else [body[2], body[3]] if body[0] == "eq" else None
    if args is None or any(a[0] != "x" for a in args):
        return False
    return len({a[1] for a in args}) == len(args)


def inline(mode):
    def run(task):
        members = [m for d in task.decls if d[0] == "def" and not is_recursive(d[1]) for m in d[1]]
        members = [m for m in members if mode != "trivial" or is_trivial(m)]

        def f(e):
            for m in reversed(members):
                e = unfold(e, m)
            return e
        return [task.having(goal=f(task.goal)) if mode == "goal" else everywhere(task, f)]
    return run


def quantify(q, params, e):
    for x, ty in reversed(params):
        e = (q, x, ty, e)
    return e


def same(left, right):
    return ("iff", left, right) if is_formula(left) else ("eq", type_of(left), left, right)


def applied(s, params):
    return ("s", s, tuple(("v", a) for a in s.tyvars), [("x", x, ty) for x, ty in params])


def equation(member):
    s, params, body = member
    return quantify("forall", params, same(applied(s, params), body))


def said(member):
    """The equations of a member of a recursive group."""
    s, params, body = member
    names = [x for x, _ in params]
    if body[0] != "match" or body[1][0] != "x" or body[1][1] not in names:
        return [equation(member)]
    cons = []
    for p, _ in body[2]:
        if p[0] != "pc" or any(q[0] not in ("_", "px") for q in p[3]) or p[1] in cons:
            return [equation(member)]
        cons.append(p[1])
    k, out = names.index(body[1][1]), []
    for p, b in body[2]:
        env = dict(zip(p[1].tyvars, p[2]))
        zs = [(q[1] if q[0] == "px" else f"v{next(FRESH)}", type_at(t, env)) for q, t in zip(p[3], p[1].args)]
        term = ("s", p[1], p[2], [("x", z, t) for z, t in zs])
        around = params[:k] + zs + params[k + 1:]
        args = [("x", x, t) for x, t in params]
        args[k] = term
        left = ("s", s, tuple(("v", a) for a in s.tyvars), args)
        out.append(quantify("forall", around, same(left, put(b, {names[k]: term}))))
    return out


def eliminate_definition(task):
    out = []
    for d in task.decls:
        if d[0] == "def" and not is_recursive(d[1]):
            out += [("sym", s) for s, _, _ in d[1]] + [("prop", m[0].tyvars, equation(m)) for m in d[1]]
        else:
            out.append(d)
    return [task.having(out)]


def eliminate_recursion(task):
    out = []
    for d in task.decls:
        if d[0] == "def" and is_recursive(d[1]):
            out += [("sym", s) for s, _, _ in d[1]] + [("prop", m[0].tyvars, e) for m in d[1] for e in said(m)]
        else:
            out.append(d)
    return [task.having(out)]


def inversion(s, clauses):
    xs = [(f"v{next(FRESH)}", t) for t in s.args]
    cases = []
    for c in clauses:
        ys, hyps = [], []
        while c[0] in ("forall", "imp", "let"):
            if c[0] == "forall":
                ys.append((c[1], c[2]))
                c = c[3]
            else:
                hyps.append(c[1])
                c = c[2]
        eqs = [("eq", t, ("x", x, t), a) for (x, t), a in zip(xs, c[3])]
        cases.append(quantify("exists", ys, join("and", hyps + eqs, ("true",))))
    return quantify("forall", xs, ("imp", applied(s, xs), join("or", cases, ("false",))))


def eliminate_inductive(task):
    out = []
    for d in task.decls:
        if d[0] == "ind":
            out += [("sym", s) for s, _ in d[1]]
            out += [("prop", s.tyvars, c) for s, cs in d[1] for c in cs]
            out += [("prop", s.tyvars, inversion(s, cs)) for s, cs in d[1]]
        else:
            out.append(d)
    return [task.having(out)]


# ---- let, match, if
def eliminate_let(task):
    return [everywhere(task, lambda e: image(e, lambda n: put(n[3], {n[1]: n[2]}) if n[0] == "let" else n))]


def projection(con, types, j, s):
    return ("s", con.projections[j], types, [s])


def tests(p, s):
    if p[0] == "pc":
        fields = [projection(p[1], p[2], j, s) for j in range(len(p[3]))]
        out = [("eq", type_of(s), s, ("s", p[1], p[2], fields))]
        for q, f in zip(p[3], fields):
            out += tests(q, f)
        return out
    return tests(p[1], s) if p[0] == "as" else []


def bind(p, s):
    if p[0] == "px":
        return [(p[1], s)]
    if p[0] == "as":
        return bind(p[1], s) + [(p[2], s)]
    if p[0] == "pc":
        return [x for j, q in enumerate(p[3]) for x in bind(q, projection(p[1], p[2], j, s))]
    return []


def match_out(n):
    if n[0] != "match":
        return n
    out = None
    for p, b in reversed(n[2]):
        a = put(b, dict(bind(p, n[1])))
        out = a if out is None else ("if", join("and", tests(p, n[1]), ("true",)), a, out)
    return out


def eliminate_match(task):
    return [everywhere(task, lambda e: image(e, match_out))]


def first_if(e):
    """Returns the first conditional of a term or atom in preorder, and how it is replaced."""
    if e[0] == "if":
        return e, lambda x: x
    parts, make = parts_of(e)
    for i, a in enumerate(parts):
        found = first_if(a)
        if found:
            it, back = found
            return it, lambda x, i=i, back=back, parts=parts, make=make: make(
                parts[:i] + [back(x)] + parts[i + 1:])
    return None


def if_out(e):
    k = e[0]
    if k == "if":
        c = if_out(e[1])
        return ("and", ("imp", c, if_out(e[2])), ("imp", ("not", c), if_out(e[3])))
    if k in ("s", "eq"):
        found = first_if(e)
        if not found:
            return e
        it, back = found
        c = if_out(it[1])
        return ("and", ("imp", c, if_out(back(it[2]))), ("imp", ("not", c), if_out(back(it[3]))))
    parts, make = parts_of(e)
    return make([if_out(a) for a in parts])


def formulas_by_place(task):
    out = [(i, d[2]) for i, d in enumerate(task.decls) if d[0] == "prop"]
    return out + [(len(task.decls), e) for e in task.local + [task.goal]]


def eliminate_if(task):
    for place, e in formulas_by_place(task):
        if any(n[0] in ("let", "match") for n in preorder(e)):
            raise Misplaced(place)
    return [everywhere(task, if_out)]


# ---- algebraic types, laws, instances
def refuse_definitions(task):
    for place, d in enumerate(task.decls):
        if d[0] in ("def", "ind"):
            raise Misplaced(place)


def algebraic_formulas(ty, cons):
    out = []
    tyargs = tuple(("v", a) for a in ty.tyvars)
    whole = ("t", ty, tyargs)
    for c in cons:
        for j, p in enumerate(c.projections):
            xs = [(f"v{next(FRESH)}", t) for t in c.args]
            out.append(quantify("forall", xs, ("eq", c.args[j], ("s", p, tyargs, [applied(c, xs)]), ("x", *xs[j]))))
    for i, c in enumerate(cons):
        for d in cons[i + 1:]:
            xs = [(f"v{next(FRESH)}", t) for t in c.args]
            ys = [(f"v{next(FRESH)}", t) for t in d.args]
            out.append(quantify("forall", xs + ys, ("not", ("eq", whole, applied(c, xs), applied(d, ys)))))
    x = ("x", f"v{next(FRESH)}", whole)
    cases = [("eq", whole, x, ("s", c, tyargs, [projection(c, tyargs, j, x) for j in range(len(c.args))])) for c in cons]
    out.append(("forall", x[1], whole, join("or", cases, ("false",))))
    return [("prop", ty.tyvars, e) for e in out]


def eliminate_algebraic(task):
    refuse_definitions(task)
    task = eliminate_match(task)[0]
    out = []
    for d in task.decls:
        if d[0] == "alg":
            for ty, cons in d[1]:
                out.append(("type", ty))
                for c in cons:
                    out.append(("sym", c))
                    out += [("sym", p) for p in c.projections]
            for ty, cons in d[1]:
                out += algebraic_formulas(ty, cons)
        else:
            out.append(d)
    return [task.having(out)]


TRUE, FALSE = ("true",), ("false",)


def law(n):
    k = n[0]
    if k == "not":
        return FALSE if n[1] == TRUE else TRUE if n[1] == FALSE else n
    if k in ("and", "aand"):
        a, b = n[1:]
        return b if a == TRUE else a if b == TRUE else FALSE if FALSE in (a, b) else n
    if k in ("or", "oor"):
        a, b = n[1:]
        return b if a == FALSE else a if b == FALSE else TRUE if TRUE in (a, b) else n
    if k == "imp":
        a, b = n[1:]
        return b if a == TRUE else TRUE if a == FALSE or b == TRUE else law(("not", a)) if b == FALSE else n
    if k == "iff":
        a, b = n[1:]
        if b == TRUE:
            return a
        if a == TRUE:
            return b
        return law(("not", a)) if b == FALSE else law(("not", b)) if a == FALSE else n
    if k == "if":
        return n[2] if n[1] == TRUE else n[3] if n[1] == FALSE else n
    if k in ("forall", "exists"):
        return n if occurs(n[1], n[3]) else n[3]
    return n


def simplify_formula(task):
    return [everywhere(task, lambda e: image(e, law))]


def type_vars(ty):
    return [ty[1]] if ty[0] == "v" else [a for x in ty[2] for a in type_vars(x)] if ty[0] == "t" else []


def occurrences(e):
    """The symbols with types and `=` with its type, in preorder; a pattern's constructors before the branch's body."""
    def in_pattern(p):
        if p[0] == "pc":
            yield p[1], p[2]
            for q in p[3]:
                yield from in_pattern(q)
        elif p[0] == "as":
            yield from in_pattern(p[1])
    if e[0] == "s":
        yield e[1], e[2]
    elif e[0] == "eq":
        yield "=", (e[1],)
    if e[0] == "match":
        yield from occurrences(e[1])
        for p, b in e[2]:
            yield from in_pattern(p)
            yield from occurrences(b)
        return
    for a in parts_of(e)[0]:
        yield from occurrences(a)


def types_in(e):
    """The type variables that occur in a formula, the first of the declaration first."""
    def of(n):
        if n[0] in ("forall", "exists"):
            yield from type_vars(n[2])
        if n[0] == "s":
            for t in n[2]:
                yield from type_vars(t)
        if n[0] == "eq":
            yield from type_vars(n[1])
        if n[0] == "match":
            for p, _ in n[2]:
                yield from pattern_types(p)

    def pattern_types(p):
        if p[0] == "pc":
            for t in p[2]:
                yield from type_vars(t)
            for q in p[3]:
                yield from pattern_types(q)
        elif p[0] == "as":
            yield from pattern_types(p[1])
    return {a for n in preorder(e) for a in of(n)}


def matches(ty, ground, env):
    if ty[0] == "v":
        if ty[1] in env:
            return env if env[ty[1]] == ground else None
        return {**env, ty[1]: ground}
    if ty[0] != ground[0] or (ty[0] == "t" and ty[1] is not ground[1]):
        return None
    if ty[0] == "t":
        for a, b in zip(ty[2], ground[2]):
            env = matches(a, b, env)
            if env is None:
                return None
    return env


def wanted(e, tyvars, instances):
    """All assignments at which the driving occurrences whose instances are among these mention each type variable."""
    occs = list(dict.fromkeys(occurrences(e)))
    driving = [o for o in occs if o[0] != "="]
    if {a for _, ts in driving for t in ts for a in type_vars(t)} != set(tyvars):
        driving = occs
    found = []

    def go(env, at):
        # every assignment is a union of matches; filtered at the end by definition
        if set(env) == set(tyvars):
            key = tuple(env[a] for a in tyvars)
            if key not in found:
                found.append(key)
            return
        if at == len(driving):
            return
        s, ts = driving[at]
        for s2, ground in instances:
            if s2 is s or s2 == s:
                more = env
                for a, b in zip(ts, ground):
                    more = matches(a, b, more)
                    if more is None:
                        break
                if more is not None:
                    go(more, at + 1)
        go(env, at + 1)
    go({}, 0)
    return found


def ranks(instances):
    out = []

    def add(t):
        if t[0] == "t":
            for x in t[2]:
                add(x)
        if t not in out:
            out.append(t)
    for _, ts in instances:
        for t in ts:
            add(t)
    return {t: i for i, t in enumerate(out)}


def discriminate(task):
    refuse_definitions(task)
    poly, instances = [], {}

    def note(e):
        for o in occurrences(e):
            instances.setdefault(o)
    for i, d in enumerate(task.decls):
        if d[0] == "prop":
            vs = [a for a in d[1] if a in types_in(d[2])]
            if vs:
                poly.append((i, vs, d[2]))
            else:
                note(d[2])
    for e in task.local + [task.goal]:
        note(e)
    for _ in range(2):
        now, rank = list(instances), ranks(list(instances))
        for _, vs, e in poly:
            for key in sorted(wanted(e, vs, now), key=lambda k: [rank[t] for t in k]):
                note(put(e, {}, dict(zip(vs, key))))
    now, rank, out = list(instances), ranks(list(instances)), []
    by_place = {i: (vs, e) for i, vs, e in poly}
    for i, d in enumerate(task.decls):
        if i in by_place:
            vs, e = by_place[i]
            for key in sorted(wanted(e, vs, now), key=lambda k: [rank[t] for t in k]):
                out.append(("prop", [], put(e, {}, dict(zip(vs, key)))))
        else:
            out.append(d if d[0] != "prop" else ("prop", [], d[2]))
    return [task.having(out)]


BY_NAME = {
    "split_goal_right": split_goal_right, "introduce_premises": introduce_premises, "inline_all": inline("all"),
    "inline_goal": inline("goal"), "inline_trivial": inline("trivial"), "eliminate_definition": eliminate_definition,
    "eliminate_recursion": eliminate_recursion, "eliminate_inductive": eliminate_inductive,
    "eliminate_let": eliminate_let, "eliminate_match": eliminate_match, "eliminate_if": eliminate_if,
    "eliminate_algebraic": eliminate_algebraic, "simplify_formula": simplify_formula, "discriminate": discriminate,
}


# ---- printing
class Unprintable(Exception):
    """The first fault of a task: its code and place."""


def clean(name):
    name = name[0].lower() + name[1:]
    if name[0] == "_":
        name = "u_" + name[1:]
    return name.replace("'", "q")


def print_task(task, k, n):
    """The SMT text of a task under a driver without templates."""
    things = []

    def thing(s, types):
        if (s, types) not in things:
            things.append((s, types))

    def note_type(t):
        if t[0] == "t":
            for x in t[2]:
                note_type(x)
            thing(t[1], t[2])

    def note(e):
        kind = e[0]
        if kind in ("forall", "exists"):
            note_type(e[2])
        if kind == "eq":
            note_type(e[1])
        if kind == "s":
            env = dict(zip(e[1].tyvars, e[2]))
            for t in e[1].args + ([e[1].result] if e[1].result else []):
                note_type(type_at(t, env))
            for t in e[2]:
                note_type(t)
            thing(e[1], e[2])
        for a in parts_of(e)[0]:
            note(a)
    for place, d in enumerate(task.decls):
        if d[0] in ("def", "ind", "alg"):
            raise Unprintable("81", place)
        if d[0] == "prop":
            if any(x[0] == "match" for x in preorder(d[2])):
                raise Unprintable("81", place)
            if types_in(d[2]):
                raise Unprintable("80", place)
            note(d[2])
    for t in task.params:
        note_type(t)
    for e in task.local + [task.goal]:
        if any(x[0] == "match" for x in preorder(e)):
            raise Unprintable("81", len(task.decls))
        note(e)
    table, order = {}, []
    for d in task.decls:
        if d[0] in ("type", "sym"):
            for s, types in things:
                if s is d[1]:
                    table[(s, types)] = f"{clean(s.name)}_{len(order) + 1}"
                    order.append((s, types))

    def typed(t):
        return "Int" if t[0] == "int" else table[(t[1], t[2])]

    def text(e, env, depth):
        kind = e[0]
        if kind == "x":
            return env[e[1]]
        if kind == "lit":
            return str(e[1])
        if kind == "par":
            return f"c{e[1]}"
        if kind in ("true", "false"):
            return kind
        if kind == "s":
            name = table[(e[1], e[2])]
            return f"({' '.join([name] + [text(a, env, depth) for a in e[3]])})" if e[3] else name
        if kind == "eq":
            return f"(= {text(e[2], env, depth)} {text(e[3], env, depth)})"
        if kind == "not":
            return f"(not {text(e[1], env, depth)})"
        if kind in CONNECTIVES:
            return f"({CONNECTIVES[kind]} {text(e[1], env, depth)} {text(e[2], env, depth)})"
        if kind in ("forall", "exists"):
            return f"({kind} ((x{depth} {typed(e[2])})) {text(e[3], {**env, e[1]: f'x{depth}'}, depth + 1)})"
        if kind == "let":
            return f"(let ((x{depth} {text(e[2], env, depth)})) {text(e[3], {**env, e[1]: f'x{depth}'}, depth + 1)})"
        return f"(ite {text(e[1], env, depth)} {text(e[2], env, depth)} {text(e[3], env, depth)})"

    lines = [f"; {k} of {n}"]
    lines += [f"(declare-sort {table[o]} 0)" for o in order if o[0].kind == "type"]
    for s, types in order:
        if s.kind != "type":
            env = dict(zip(s.tyvars, types))
            args = " ".join(typed(type_at(t, env)) for t in s.args)
            lines.append(f"(declare-fun {table[(s, types)]} ({args}) {typed(type_at(s.result, env)) if s.result else 'Bool'})")
    lines += [f"(declare-fun c{i} () {typed(t)})" for i, t in enumerate(task.params)]
    lines += [f"(assert {text(d[2], {}, 0)})" for d in task.decls if d[0] == "prop"]
    lines += [f"(assert {text(e, {}, 0)})" for e in task.local]
    lines += [f"(assert (not {text(task.goal, {}, 0)}))", "(check-sat)"]
    return "".join(f"{x}\n" for x in lines)


def print_goal(task, names):
    """The text that `print` writes, or the code of the refusal."""
    tasks = [task]
    for at, name in enumerate(names):
        out = []
        for t in tasks:
            try:
                out += BY_NAME[name](t)
            except Misplaced as it:
                return f"refused: 70 {at + 1} {it.args[0]}"
        tasks = out
    texts = []
    for k, t in enumerate(tasks):
        try:
            texts.append(print_task(t, k + 1, len(tasks)))
        except Unprintable as it:
            return f"refused: {it.args[0]} {k + 1} {it.args[1]}"
    return "".join(texts)
