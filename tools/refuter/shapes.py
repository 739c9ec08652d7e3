"""What the laws of algebraic types look like in a problem: the cases of a type, constructors that differ, and functions that are
defined by constructors.

They are known by their form alone, so what a source states by axioms in these forms counts as well.
"""
from . import terms as t


def cases_of(formula):
    """Returns the right sides of a formula `z = C (p z) .. \\/ ..` over the variable 0; None for another one."""
    if formula.op in ("or", "orelse"):
        left, right = map(cases_of, formula.args)
        return left + right if left and right else None
    if formula.op != "eq" or formula.args[0].op != "bound" or formula.args[1].op != "sym":
        return None
    variable, value = formula.args
    fits = all(it.op == "sym" and it.args == (variable,) for it in value.args)
    return [value] if fits else None


def projections_of(asserts):
    """Returns the pairs of a projection and a constructor of the assertions `forall x ... p (C x ..) = x`."""
    found = set()
    for it in asserts:
        _, body = t.prefix_of(it)
        if body.op == "eq" and body.args[1].op == "bound" and body.args[0].op == "sym" and len(body.args[0].args) == 1:
            built = body.args[0].args[0]
            if built.op == "sym" and body.args[1] in built.args:
                found.add((body.args[0].data, built.data))
    return found


class Shapes:
    """The constructors of the assertions, and the places of symbols at which they say something of a constructor."""

    def __init__(self, asserts):
        self.constructors, self.projections, self.asked = set(), set(), set()
        pairs = projections_of(asserts)
        for it in asserts:
            ways = cases_of(t.prefix_of(it)[1])
            if ways and all((arg.data, way.data) in pairs for way in ways for arg in way.args):
                self.constructors.update(way.data for way in ways)
                self.projections.update(arg.data for way in ways for arg in way.args)
        for it in asserts if self.constructors else ():
            for tree, _ in t.subtrees(it):
                if tree.op == "sym" and tree.data not in self.constructors:
                    self.asked.update((tree.data, at) for at, arg in enumerate(tree.args) if self.is_built(arg))

    def is_built(self, term):
        return term.op == "sym" and term.data in self.constructors

    def cases(self, formula, count):
        """Returns the cases of a type where a formula over one variable has them."""
        ways = cases_of(formula) if count == 1 else None
        return ways if ways and all(map(self.is_built, ways)) else None

    def defined(self, formula):
        """Returns the function or predicate on a constructor of which a formula says what it is; None for another one."""
        left = formula.args[0] if formula.op in ("eq", "iff", "not") else formula
        is_defined = left.op == "sym" and not self.is_built(left) and any(map(self.is_built, left.args))
        return left if is_defined else None

    def symbol(self, formula):
        """Returns the left side of a definition without recursion, a symbol on different variables; None for another formula."""
        left = formula.args[0] if formula.op in ("eq", "iff") and self.constructors else None
        if left is None or left.op != "sym" or len(set(left.args)) != len(left.args) or any(it.op != "bound" for it in left.args):
            return None
        is_recursive = any(it.op == "sym" and it.data == left.data for it, _ in t.subtrees(formula.args[1]))
        return None if is_recursive or self.is_built(left) else left

    def differing(self, formula):
        """Returns the sides of a formula that says that two constructors differ; None for another one."""
        if formula.op != "not" or formula.args[0].op != "eq":
            return None
        sides = formula.args[0].args
        return sides if all(map(self.is_built, sides)) and sides[0].data != sides[1].data else None

    def compared(self, formula):
        """Returns the closed terms that a formula compares with constructors."""
        found = []
        for it, depth in t.subtrees(formula):
            if it.op == "eq" and not depth:
                for one, two in (it.args, it.args[::-1]):
                    if self.is_built(two) and not one.open and not self.is_built(one):
                        found.append(one)
        return found
