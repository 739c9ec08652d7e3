"""A branch of the tableau: its formulas, its classes of equal terms, its bounds, and what it says of a formula."""
import time

from . import arithmetic, equations
from . import terms as t
from .closure import Closure
from .shapes import Shapes


class Open(Exception):
    """A leaf that no rule closes within the limits."""


class Late(Exception):
    """The time is over."""


class Limits:
    def __init__(self, age=2, instances=200, listed=0, rounds=3, splits=2000):
        self.age, self.instances, self.listed, self.rounds, self.splits = age, instances, listed, rounds, splits


def sides_of(formula):
    """Returns the rule and the two lists that a branching rule adds; None for a formula of another form."""
    negated = formula.op == "not"
    it = formula.args[0] if negated else formula
    if it.op not in t.JOINS:
        return None
    a, b = it.args
    if not negated:
        if it.op in ("or", "orelse"):
            return it.op, (a,), (b,)
        if it.op == "imp":
            return "imp", (t.neg(a),), (b,)
        return ("iff", (a, b), (t.neg(a), t.neg(b))) if it.op == "iff" else None
    if it.op in ("and", "andthen"):
        return "not" + it.op, (t.neg(a),), (t.neg(b),)
    return ("notiff", (a, t.neg(b)), (t.neg(a), b)) if it.op == "iff" else None


def parts_of(formula):
    """Returns the rule and the list that a rule without branches adds; None for a formula of another form."""
    if formula.op in ("and", "andthen"):
        return formula.op, formula.args
    if formula.op != "not":
        return None
    it = formula.args[0]
    if it.op == "not":
        return "notnot", it.args
    if it.op in ("or", "orelse"):
        return "not" + it.op, tuple(map(t.neg, it.args))
    if it.op == "imp":
        return "notimp", (it.args[0], t.neg(it.args[1]))
    return None


class Branch:
    """The state of a search. Each change of a branch can be undone."""

    def __init__(self, problem, deadline=None, hints=None):
        self.problem, self.table, self.deadline, self.hints = problem, problem.table, deadline, hints
        problem.shapes = self.shapes = problem.shapes or Shapes(problem.asserts)
        self.closure, self.sums, self.simplex = Closure(self.table), arithmetic.Sums(self.table), arithmetic.Simplex()
        self.trail = self.closure.trail
        self.put, self.push = self.closure.put, self.closure.push
        self.facts, self.spent, self.taken, self.age, self.term_age = {}, {}, {}, {}, {}
        self.betas, self.universals, self.differing, self.unequal, self.equal, self.relations = [], [], [], [], [], []
        self.state = {"terms": 0, "matched": -1, "instances": 0, "found": 0}
        self.queue, self.constants, self.next, self.known = [], {}, problem.params, {}
        self.activity, self.splits, self.limits = {}, 0, Limits()

    def mark(self):
        return self.closure.mark(), self.simplex.mark()

    def undo(self, mark):
        self.closure.undo(mark[0])
        self.simplex.undo(mark[1])
        self.queue.clear()

    def set(self, key, value):
        self.put(self.state, key, value)

    def enqueue(self, formulas, age):
        for it in formulas:
            if it not in self.facts:
                self.queue.append((it, age))

    def check_time(self):
        if self.deadline is not None and time.process_time() > self.deadline:
            raise Late

    def says(self, formula):
        """Returns whether a formula holds on the branch: True, False, or None where it doesn't say."""
        if formula in self.facts:
            return True
        op = formula.op
        if op == "not":
            found = self.says(formula.args[0])
            return None if found is None else not found
        if op in ("true", "false"):
            return op == "true"
        if op in t.JOINS:
            return self.says_join(op, *formula.args)
        if op == "if":
            test = self.says(formula.args[0])
            return None if test is None else self.says(formula.args[1 if test else 2])
        if t.neg(formula) in self.facts:
            return False
        if op == "eq":
            if self.closure.equal(*formula.args):
                return True
            if self.closure.unequal(*formula.args):
                return False
        elif op == "sym":
            found = self.closure.truth(formula)
            if found is not None:
                return found
        if op in ("eq", "sym"):
            total = self.sums.of_literal(formula)
            return self.simplex.says(total) if total else None
        return None

    def says_join(self, op, left, right):
        a = self.says(left)
        if op == "iff":
            b = None if a is None else self.says(right)
            return None if b is None else a == b
        if op == "imp":
            a = None if a is None else not a
        at_once = op not in ("and", "andthen")
        if a is at_once:
            return at_once
        b = self.says(right)
        if b is at_once:
            return at_once
        return None if a is None or b is None else not at_once

    def says_all(self, formulas):
        said = [self.says(it) for it in formulas]
        return False if False in said else True if all(said) else None

    def sides(self, formula):
        sides = sides_of(formula)
        if sides:
            return sides[1:]
        negated = formula.op == "not"
        test, then, other = (formula.args[0] if negated else formula).args
        return ((test, t.neg(then) if negated else then), (t.neg(test), t.neg(other) if negated else other))

    def ways(self, formula):
        """Returns the three ways of a trichotomy for an inequality: less, equal, greater."""
        left, right = formula.args[0].args
        less = self.table.ints["<"]
        return t.sym(less, (left, right), t.BOOL), formula.args[0], t.sym(less, (right, left), t.BOOL)

    def solved(self):
        """Returns the equations of integers of the branch, solved."""
        made = equations.Solved()
        for it in self.equal:
            made.take(it, self.sums.of_literal(it)[0])
            if made.unsolvable:
                break
        return made
