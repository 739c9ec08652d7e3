"""Which terms universal formulas are taken at.

Where a formula has patterns, they are matched with the terms of the branch, up to its equations (matching as in Simplify, up
to congruence). A formula without patterns, and each formula where all else is done, is taken at the terms of its sort
that there are, the earliest and smallest first. Bounds of integers give terms too: of `y < t` under a quantifier over y come
t, t - 1 and t + 1. The cases of an algebraic type are taken at terms of which a constructor would say more: arguments of functions
that are defined by constructors, and sides of inequalities. A prover's own list of instances goes before all.
"""
from itertools import islice, product

from . import arithmetic
from . import terms as t


class Universal:
    """A universal formula: the sorts of its variables, its body, and its patterns, each a list of open terms.

    `age` is how much older its instances are than the terms that they are at: nothing where they say what a constructor gives.
    """

    def __init__(self, formula, table, shapes):
        self.formula = formula
        self.sorts, self.body = t.prefix_of(formula)
        self.patterns = patterns_of(self.body, len(self.sorts), table)
        self.symbols = frozenset(it.data for it, _ in t.subtrees(self.body) if it.op == "sym" and it.data not in table.words)
        self.solved = solved_of(self.body, len(self.sorts), table)
        self.sums = sums_of(self.body, len(self.sorts), table)
        outside = [it for it, depth in t.subtrees(self.body) if not depth and it.op == "eq"]
        self.equations = [it for it in outside if is_whole(it, len(self.sorts))]
        self.cases, self.differing = shapes.cases(self.body, len(self.sorts)), shapes.differing(self.body)
        self.compared = shapes.compared(self.body)
        defined = shapes.defined(self.body) or shapes.symbol(self.body)
        self.age = 0 if self.differing or defined else 1
        if defined and defined.data not in shapes.projections and is_whole(defined, len(self.sorts)):
            self.patterns = [[defined]]


def variables_of(tree, depth, count, seen=None):
    """Returns the variables of the prefix that a tree with `depth` binders around it has; None where it has another one."""
    found = set()
    for it, inner in t.subtrees(tree, depth):
        if it.op == "bound" and it.data >= inner - depth:
            place = it.data - inner
            if place < 0 or place >= count:
                return None
            found.add(place)
    return found


def patterns_of(body, count, table):
    """Returns lists of terms that have all variables together: single terms where there are such, else pairs and triples."""
    found = []
    for it, depth in t.subtrees(body):
        if depth or it.op != "sym" or not it.args or it.data in table.words or not it.open:
            continue
        has = variables_of(it, 0, count)
        if has and not any(sub.op in ("let", "if", "forall", "exists") for sub, _ in t.subtrees(it)):
            found.append((it, has))
    whole = [it for it, has in found if len(has) == count]
    if whole:
        inside = [it for it in whole if not any(other is not it and is_inside(other, it) for other in whole)]
        return [[it] for it in inside[:4]]
    lists = []
    for first, _ in found[:4]:
        chosen, has = [first], variables_of(first, 0, count)
        for it, more in sorted(found, key=lambda pair: (-len(pair[1]), pair[0].size)):
            if more - has:
                chosen.append(it)
                has = has | more
        if len(has) == count:
            lists.append(chosen)
    return lists[:3]


def is_whole(tree, count):
    """Returns whether a tree has all variables of the prefix, and no others."""
    has = variables_of(tree, 0, count)
    return has is not None and len(has) == count


def is_inside(one, two):
    return any(it is one for it, _ in t.subtrees(two))


def solved_of(body, count, table):
    """Returns pairs of a variable and an open term at which a comparison or equation has equal sides, by the variable's place."""
    found, sums = [], arithmetic.Sums(table)
    for it, depth in t.subtrees(body):
        if depth or not (it.op == "eq" or (it.op == "sym" and table.words.get(it.data) in arithmetic.RELATIONS)):
            continue
        for one, two in (it.args, it.args[::-1]):
            has = variables_of(two, 0, count)
            if one.op == "bound" and one.data < count and has is not None and one.data not in has:
                found.append((one.data, two))
        if table.has_int and it.args[0].sort == table.int:
            atoms, constant = arithmetic.added(sums.of(it.args[0]), sums.of(it.args[1]), -1)
            found += solved_sum(atoms, constant, table)
    return found


def solved_sum(atoms, constant, table):
    """Returns the pairs of a sum that is 0: for one variable whose other atoms are closed, or for one alone."""
    variables = [it for it in atoms if it.op == "bound"]
    rest = {it: c for it, c in atoms.items() if it.op != "bound"}
    if len(variables) != 1 or any(it.open for it in rest):
        return []
    one, c = variables[0], atoms[variables[0]]
    if not rest:
        return [(one.data, t.num(-constant // c, table.int))]
    if abs(c) != 1:
        return []
    key = tuple((it, -c * d) for it, d in rest.items())
    value, low = arithmetic.term_of(key, table), -c * constant
    if low:
        value = t.sym(table.ints["+" if low > 0 else "-"], (value, t.num(abs(low), table.int)), table.int)
    return [(one.data, value)]


def sums_of(body, count, table):
    """Returns the sums of the comparisons and equations of integers that have one variable of the prefix, with that variable."""
    found, sums = [], arithmetic.Sums(table)
    for it, depth in t.subtrees(body):
        is_relation = it.op == "eq" or (it.op == "sym" and table.words.get(it.data) in arithmetic.RELATIONS)
        if not depth and table.has_int and is_relation and it.args[0].sort == table.int:
            total = arithmetic.added(sums.of(it.args[0]), sums.of(it.args[1]), -1)
            variables = [a for a in total[0] if a.op == "bound"]
            if len(variables) == 1 and not any(a.open for a in total[0] if a.op != "bound") and count == 1:
                found.append((variables[0], total))
    return found


def solutions(universal, solved, table):
    """Gives tuples for one variable from its equations, by what the atoms of these are equal to."""
    for variable, total in universal.sums:
        atoms, constant = solved.reduced(total)
        c = atoms.get(variable, 0)
        rest = {it: d for it, d in atoms.items() if it is not variable}
        if c and 0 < len(rest) < 4 and not any(d % c for d in rest.values()):
            value, low = arithmetic.term_of(tuple((it, -d // c) for it, d in rest.items()), table), -constant // c
            if low:
                value = t.sym(table.ints["+" if low > 0 else "-"], (value, t.num(abs(low), table.int)), table.int)
            yield (value,)


def separated(universal, closure, unequal):
    """Gives tuples at which an equation of a formula has the sides of an inequality of the branch."""
    count = len(universal.sorts)
    for equation in universal.equations:
        for formula in unequal:
            one, two = formula.args[0].args
            for sides in ((one, two), (two, one)):
                for env in match_all(equation.args, sides, {}, closure):
                    if len(env) == count:
                        yield tuple(env[count - 1 - at] for at in range(count))


def match(pattern, term, env, closure):
    """Gives the environments in which a pattern is equal to a term, by the equations of the branch."""
    if pattern.op == "bound":
        had = env.get(pattern.data)
        if had is None:
            if pattern.sort == term.sort:
                yield {**env, pattern.data: term}
        elif closure.equal(had, term):
            yield env
        return
    if not pattern.open:
        if closure.equal(pattern, term):
            yield env
        return
    if pattern.op != "sym":
        return
    for it in list(closure.members.get(closure.find(term), [term])):
        if it.op == "sym" and it.data == pattern.data:
            yield from match_all(pattern.args, it.args, env, closure)


def match_all(patterns, terms, env, closure):
    if not patterns:
        yield env
        return
    for found in match(patterns[0], terms[0], env, closure):
        yield from match_all(patterns[1:], terms[1:], found, closure)


def match_list(patterns, env, closure):
    """Gives the environments in which each of the patterns is equal to some term of the branch."""
    if not patterns:
        yield env
        return
    first, seen = patterns[0], set()
    for term in list(closure.heads.get(first.data, [])):
        key = closure.signature(term)
        if key in seen:
            continue
        seen.add(key)
        for found in match_all(first.args, term.args, env, closure):
            yield from match_list(patterns[1:], found, closure)


def matched(universal, closure, most):
    """Gives tuples of terms, for the variables from the outermost one on, at which the patterns of a formula match."""
    count = len(universal.sorts)
    for patterns in universal.patterns:
        for env in islice(match_list(patterns, {}, closure), most):
            if len(env) == count:
                yield tuple(env[count - 1 - at] for at in range(count))


def has_constructor(term, closure, shapes):
    return any(map(shapes.is_built, closure.members.get(closure.find(term), (term,))))


def cased(universal, universals, branch):
    """Gives the terms at which the cases of a type may help, one of each class, where no constructor is known."""
    sort, closure, shapes = universal.sorts[0], branch.closure, branch.shapes
    terms = [it.args[at] for name, at in shapes.asked for it in closure.heads.get(name, ())]
    terms += [side for it in branch.unequal for side in it.args[0].args]
    terms += [it for other in universals for it in other.compared]
    if len(universal.cases) == 1:
        terms += closure.new_terms
    seen = set()
    for it in terms:
        if it.sort == sort and closure.find(it) not in seen and not has_constructor(it, closure, shapes):
            seen.add(closure.find(it))
            yield (it,)


def equal_sides(universal, closure):
    """Gives tuples at which a formula says of two equal terms of the branch that they differ."""
    first, second = universal.differing
    for one in list(closure.heads.get(first.data, ())):
        for two in list(closure.members.get(closure.find(one), ())):
            if two.op == "sym" and two.data == second.data:
                for env in match_all(universal.differing, (one, two), {}, closure):
                    yield tuple(env[len(universal.sorts) - 1 - at] for at in range(len(universal.sorts)))


def listed(universal, candidates, most):
    """Gives tuples of terms of the right sorts, those with early candidates first; `candidates` has the terms by sort."""
    lists = [candidates(sort) for sort in universal.sorts]
    if any(not it for it in lists):
        return
    longest = max(1, int((most * 4) ** (1 / len(lists))))
    ranked = product(*(list(enumerate(it[:longest])) for it in lists))
    for found in sorted(ranked, key=lambda it: sum(rank for rank, _ in it))[:most]:
        yield tuple(term for _, term in found)


def bounds(universal, closure, relations, table):
    """Gives tuples for one variable from what its comparisons say, where that is closed, and from the comparisons of the branch
    that have the same other side.
    """
    if len(universal.sorts) != 1:
        return
    for _, term in universal.solved:
        if term.open:
            continue
        yield (term,)
        for atom in relations:
            for one, two in (atom.args, atom.args[::-1]):
                if one.sort == term.sort and closure.equal(one, term):
                    yield (two,)
        if term.sort == table.int and table.has_int:
            one = t.num(1, table.int)
            yield (t.sym(table.ints["+"], (term, one), table.int),)
            yield (t.sym(table.ints["-"], (term, one), table.int),)
