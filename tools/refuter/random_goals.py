"""Random goals that are valid by the way they are made: what truth values show, what rules give from facts, equations by
congruence, sums of inequalities, and what algebraic types, recursion and clauses say.
"""
import itertools
import re


def number(value):
    return str(value) if value >= 0 else f"(- {-value})"


def formula(draw, atoms, depth):
    """Returns a random formula, as text and as a function of the atoms' truth values."""
    if depth == 0 or draw.random() < 0.15:
        at = draw.randrange(len(atoms))
        return atoms[at], lambda v: v[at]
    if draw.random() < 0.2:
        text, value = formula(draw, atoms, depth - 1)
        return f"not ({text})", lambda v: not value(v)
    one, a = formula(draw, atoms, depth - 1)
    two, b = formula(draw, atoms, depth - 1)
    word = draw.choice(["/\\", "\\/", "->", "<->", "/\\", "\\/", "&&", "||"])
    values = {
        "&&": lambda v: a(v) and b(v),
        "||": lambda v: a(v) or b(v),
        "/\\": lambda v: a(v) and b(v),
        "\\/": lambda v: a(v) or b(v),
        "->": lambda v: not a(v) or b(v),
        "<->": lambda v: a(v) == b(v),
    }
    return f"({one}) {word} ({two})", values[word]


def truth_goal(draw):
    """A formula over four predicates that holds for all truth values."""
    atoms = ["p", "q", "r", "s"]
    while True:
        text, value = formula(draw, atoms, 5)
        if 60 < len(text) < 600 and all(value(v) for v in itertools.product((False, True), repeat=4)):
            return "theory T\n" + "".join(f"  predicate {it}\n" for it in atoms) + f"  goal g: {text}\nend\n"


def rule_goal(draw):
    """A fact that rules over a type give from facts, among rules and facts that don't matter."""
    names = [f"p{it}" for it in range(8)]
    lines = ["  type t", "  function f t: t"] + [f"  constant c{it}: t" for it in range(3)]
    lines += [f"  predicate {it} t t" for it in names]
    one, two = (draw.choice(["c0", "c1", "c2", "(f c0)", "(f c1)"]) for _ in range(2))
    have, lines_of = [(names[0], one, two)], []
    axioms = [f"{names[0]} {one} {two}"]
    for name in names[1 : draw.randint(4, 8)]:
        old, a, b = draw.choice(have)
        kind = draw.randrange(4)
        if kind == 0:
            axioms.append(f"forall x y: t. {old} x y -> {name} y x")
            have.append((name, b, a))
        elif kind == 1:
            axioms.append(f"forall x y: t. {old} x y -> {name} (f x) y")
            have.append((name, f"(f {a})", b))
        elif kind == 2:
            other, c, d = draw.choice(have)
            axioms.append(f"forall x y z w: t. {old} x y -> {other} z w -> {name} x w")
            have.append((name, a, d))
        else:
            axioms.append(f"forall x: t. (exists y: t. {old} x y) -> {name} x x")
            have.append((name, a, a))
    for _ in range(3):
        axioms.append(f"forall x y: t. {draw.choice(names)} x y -> {draw.choice(names[:-1])} x c2 \\/ {names[-1]} y x")
    draw.shuffle(axioms)
    name, a, b = have[-1]
    goal = draw.choice([f"{name} {a} {b}", f"exists x: t. {name} x {b}", f"exists x y: t. {name} x y"])
    lines += [f"  axiom a{at}: {it}" for at, it in enumerate(axioms)] + lines_of
    return "theory T\n" + "\n".join(lines) + f"\n  goal g: {goal}\nend\n"


def term(draw, depth):
    if depth == 0 or draw.random() < 0.3:
        return draw.choice("abcd")
    if draw.random() < 0.6:
        return f"(f {term(draw, depth - 1)})"
    return f"(g {term(draw, depth - 1)} {term(draw, depth - 1)})"


def equal_goal(draw):
    """An equation, or what a predicate says, that follows from equations by congruence."""
    lines = ["  type t", "  function f t: t", "  function g t t: t", "  predicate p t"] + [f"  constant {it}: t" for it in "abcd"]
    while True:
        equations = [(term(draw, 2), term(draw, 2)) for _ in range(draw.randint(3, 6))]
        left = right = term(draw, 4)
        moves = 0
        for _ in range(draw.randint(4, 12)):
            one, two = draw.choice(equations)
            one, two = (one, two) if draw.random() < 0.5 else (two, one)
            places = [it.start() for it in re.finditer(r"(?<!\w)" + re.escape(one) + r"(?!\w)", right)]
            if places and one != two:
                at = draw.choice(places)
                right = right[:at] + two + right[at + len(one) :]
                moves += 1
        if moves > 2 and left != right and len(right) < 200:
            break
    said = " -> ".join(f"{one} = {two}" for one, two in equations)
    goal = f"{left} = {right}" if draw.random() < 0.5 else f"p {left} -> p {right}"
    return "theory T\n" + "\n".join(lines) + f"\n  goal g: {said} -> {goal}\nend\n"


def sum_of(coefficients, names):
    parts_ = [f"{number(c)} * {name}" for c, name in zip(coefficients, names) if c]
    return " + ".join(parts_) if parts_ else "0"


def sum_goal(draw):
    """A sum of inequalities of integers with multipliers, weakened, from these and others."""
    names = ["x", "y", "z", "w"][: draw.randint(2, 4)]
    rows = [([draw.randint(-4, 4) for _ in names], draw.randint(-9, 9)) for _ in range(draw.randint(3, 6))]
    weights = [draw.randint(0, 3) for _ in rows]
    for at in draw.sample(range(len(rows)), 2):
        weights[at] = draw.randint(1, 3)
    total = [sum(w * row[0][at] for w, row in zip(weights, rows)) for at in range(len(names))]
    limit = sum(w * row[1] for w, row in zip(weights, rows)) + draw.randint(0, 2)
    said = " -> ".join(f"{sum_of(c, names)} <= {number(k)}" for c, k in rows)
    goal = f"{sum_of(total, names)} <= {number(limit)}"
    if draw.random() < 0.3:
        goal = f"let t = {sum_of(total, names)} in if t > 0 then t < {number(limit + 1)} else t <= {number(limit)} \\/ t <= 0"
    return f"theory T\n  use int.Int\n  goal g: forall {' '.join(names)}: int. {said} -> {goal}\nend\n"


# ---- algebraic types
class Type:
    """A random type t whose first constructor has no field: the fields of each constructor, and functions f and g over it.

    On a constructor f is a number and a sum of the integer fields and of f of the others, each with a factor; g is so many times
    that, by the same recursion.
    """

    def __init__(self, draw):
        self.draw, self.times = draw, draw.randint(2, 5)
        self.fields = [[]]
        for _ in range(draw.randint(1, 3)):
            self.fields.append([draw.choice(["int", "t", "t"]) for _ in range(draw.randint(1, 3))])
        self.names = [f"C{at}" for at in range(len(self.fields))]
        self.factors = [[draw.randint(-3, 3) for _ in [None, *row]] for row in self.fields]

    def text(self):
        """Returns the declarations."""
        shapes = " | ".join(" ".join([name, *row]) for name, row in zip(self.names, self.fields))
        lines = ["theory T", "  use int.Int", f"  type t = {shapes}"]
        for function, times in (("f", 1), ("g", self.times)):
            lines.append(f"  function {function} (x: t) : int = match x with")
            for name, row, factors in zip(self.names, self.fields, self.factors):
                fields = [f"x{at}" for at in range(len(row))]
                terms = [number(times * factors[0])]
                for kind, field, factor in zip(row, fields, factors[1:]):
                    is_int = kind == "int"
                    terms.append(f"{number(times * factor if is_int else factor)} * {field if is_int else f'{function} {field}'}")
                lines.append(f"    | {' '.join([name, *fields])} -> {' + '.join(terms)}")
            lines.append("    end")
        return lines

    def value(self, depth):
        """Returns a random closed value as text, and f of it."""
        at = self.draw.randrange(len(self.fields)) if depth else 0
        texts, total = [self.names[at]], self.factors[at][0]
        for kind, factor in zip(self.fields[at], self.factors[at][1:]):
            if kind == "int":
                size = self.draw.randint(0, 9)
                text = number(size)
            else:
                text, size = self.value(depth - 1)
            texts.append(text)
            total += factor * size
        return (f"({' '.join(texts)})" if len(texts) > 1 else texts[0]), total

    def variables(self, at, letter):
        """Returns variables for the fields of a constructor, their binders, and the constructor on them."""
        names = [f"{letter}{place}" for place in range(len(self.fields[at]))]
        binders = ", ".join(f"{name}: {kind}" for name, kind in zip(names, self.fields[at]))
        return names, binders, " ".join([self.names[at], *names])


def algebraic_goal(draw):
    """A value of a recursive function, a step of an induction, what constructors' equations say, or clauses and their inversion."""
    it = Type(draw)
    at = draw.randrange(1, len(it.fields))
    names, binders, built = it.variables(at, "x")
    others, more, again = it.variables(at, "y")
    inner = [name for name, kind in zip(names, it.fields[at]) if kind == "t"]
    lines, way = it.text(), draw.randrange(5)
    if way == 0:
        text, total = it.value(3)
        goal = f"f {text} = {number(total)}"
    elif way == 1:
        said = "".join(f"g {name} = {it.times} * f {name} -> " for name in inner)
        goal = f"forall {binders}. {said}g ({built}) = {it.times} * f ({built})"
    elif way == 2:
        same = " /\\ ".join(f"{one} = {two}" for one, two in zip(names, others))
        goal = f"forall {binders}, {more}. {built} = {again} -> {same}"
    elif way == 3:
        shapes = [it.variables(place, "z") for place in range(len(it.fields))]
        ways = [f"(exists {binder}. x = {made})" if binder else f"x = {made}" for _, binder, made in shapes]
        draw.shuffle(ways)
        goal = f"forall x: t. not ({ways[0]}) -> " + " \\/ ".join(ways[1:])
    else:
        said = "".join(f"p {name} -> " for name in inner)
        lines += ["  inductive p t =", f"    | first: p {it.names[0]}", f"    | next: forall {binders}. {said}p ({built})"]
        holds = " /\\ ".join(f"p {name}" for name in inner or it.names[:1])
        goal = f"forall {binders}. p ({built}) -> {holds}"
    return "\n".join([*lines, f"  goal g: {goal}", "end", ""])


KINDS = [
    ("truth values", truth_goal),
    ("rules", rule_goal),
    ("equations", equal_goal),
    ("sums", sum_goal),
    ("algebraic types", algebraic_goal),
]
