"""Congruence closure with its reasons, for the equations and predicates of a branch.

Classes of closed terms are kept in lists (the smaller is joined to the greater), with a table of applications by the classes
of their arguments, as in Nelson and Oppen's method and in SMT provers. Each join has an edge in a forest: an equation
of the branch, or that two applications have equal arguments. `chain` turns a path of the forest into steps by `replace`, one
for each equation that it uses, as SMTCoq's and Alethe's reconstructions of congruence do. Every change can be undone.
"""
from . import proofs as p
from . import terms as t

CONGRUENT = object()


class Closure:
    def __init__(self, table):
        self.table = table
        self.trail = []
        self.rep, self.members, self.uses, self.lookup = {}, {}, {}, {}
        self.edge, self.differs, self.holds, self.number = {}, {}, {}, {}
        self.heads = {}
        self.waiting, self.conflict, self.changes = [], None, 0
        self.new_terms = []

    # ---- undoing
    def mark(self):
        return len(self.trail)

    def undo(self, mark):
        while len(self.trail) > mark:
            kind, where, key, old = self.trail.pop()
            if kind == "set":
                if old is None:
                    where.pop(key, None)
                else:
                    where[key] = old
            else:
                del where[old:]
        self.waiting.clear()
        self.conflict = None
        self.changes += 1

    def put(self, where, key, value):
        self.trail.append(("set", where, key, where.get(key)))
        where[key] = value

    def push(self, items, item):
        self.trail.append(("cut", items, None, len(items)))
        items.append(item)

    # ---- terms
    def find(self, term):
        return self.rep.get(term, term)

    def knows(self, term):
        return term in self.rep

    def signature(self, term):
        return (term.data, tuple(self.find(it) for it in term.args))

    def add(self, term):
        """Takes a closed term, or an application of a predicate, with its parts."""
        if term in self.rep:
            return
        if term.op == "sym":
            for it in term.args:
                self.add(it)
        self.put(self.rep, term, term)
        self.put(self.members, term, [term])
        self.put(self.uses, term, [])
        self.put(self.differs, term, [])
        self.changes += 1
        self.push(self.new_terms, term)
        if term.op == "num":
            self.put(self.number, term, term)
        if term.op == "sym":
            self.push(self.heads.setdefault(term.data, []), term)
        if term.op == "sym" and term.args:
            for it in set(map(self.find, term.args)):
                self.push(self.uses[it], term)
            key = self.signature(term)
            twin = self.lookup.get(key)
            if twin is None:
                self.put(self.lookup, key, term)
            else:
                self.waiting.append((term, twin, CONGRUENT))
                self.work()

    def known(self, term):
        """Returns the class of a term, also of one that was not taken but is congruent to one; else the term."""
        if term in self.rep:
            return self.rep[term]
        if term.op == "sym" and term.args:
            twin = self.lookup.get((term.data, tuple(map(self.known, term.args))))
            if twin is not None:
                return self.rep[twin]
        return term

    def equal(self, left, right):
        return left is right or self.known(left) is self.known(right)

    def unequal(self, left, right):
        """Returns whether the branch says that two terms differ, or they are two numbers."""
        if left.op == "num" and right.op == "num":
            return left is not right and self.table.has_int
        one, two = self.known(left), self.known(right)
        if one in self.number and two in self.number and self.number[one] is not self.number[two]:
            return self.table.has_int
        if one not in self.rep or two not in self.rep:
            return False
        if len(self.differs[one]) > len(self.differs[two]):
            one, two = two, one
        for formula in self.differs[one]:
            a, b = formula.args[0].args
            if {self.find(a), self.find(b)} == {one, two}:
                return True
        return False

    def truth(self, atom):
        """Returns what the branch says of an application of a predicate: True, False, or None."""
        found = self.holds.get(self.known(atom))
        return None if found is None else found.op != "not"

    # ---- facts of the branch
    def assume(self, formula):
        """Takes an equation, a predicate, or the negation of one."""
        negated = formula.op == "not"
        atom = formula.args[0] if negated else formula
        if atom.op == "eq":
            for it in atom.args:
                self.add(it)
            if negated:
                self.differ(formula)
            else:
                self.waiting.append((*atom.args, formula))
        elif atom.op == "sym":
            self.add(atom)
            self.hold(self.rep[atom], formula)
        self.work()

    def differ(self, formula):
        for it in set(map(self.find, formula.args[0].args)):
            self.push(self.differs[it], formula)
        left, right = formula.args[0].args
        if self.equal(left, right) and self.conflict is None:
            self.conflict = ("differ", formula)

    def hold(self, rep, formula):
        old = self.holds.get(rep)
        if old is None:
            self.put(self.holds, rep, formula)
            self.changes += 1
        elif (old.op == "not") != (formula.op == "not") and self.conflict is None:
            self.conflict = ("holds", *((formula, old) if old.op == "not" else (old, formula)))

    def work(self):
        while self.waiting and self.conflict is None:
            left, right, reason = self.waiting.pop()
            self.join(left, right, reason)
        if self.conflict is not None:
            self.waiting.clear()

    def join(self, left, right, reason):
        one, two = self.rep[left], self.rep[right]
        if one is two:
            return
        self.changes += 1
        if len(self.members[one]) + len(self.uses[one]) > len(self.members[two]) + len(self.uses[two]):
            left, right, one, two = right, left, two, one
        # The path of the forest from `left` to its root is turned round, and `left` is hung below `right`.
        at, above, why = left, right, reason
        while at is not None:
            onward = self.edge.get(at)
            self.put(self.edge, at, (above, why))
            at, above, why = (onward[0], at, onward[1]) if onward else (None, None, None)
        for it in self.members[one]:
            self.put(self.rep, it, two)
            self.push(self.members[two], it)
        for formula in self.differs[one]:
            a, b = formula.args[0].args
            self.push(self.differs[two], formula)
            if self.rep[a] is self.rep[b] and self.conflict is None:
                self.conflict = ("differ", formula)
        if one in self.number:
            if two in self.number:
                if self.number[one] is not self.number[two] and self.table.has_int and self.conflict is None:
                    self.conflict = ("numbers", self.number[one], self.number[two])
            else:
                self.put(self.number, two, self.number[one])
        if one in self.holds:
            self.hold(two, self.holds[one])
        for it in self.uses[one]:
            key = self.signature(it)
            twin = self.lookup.get(key)
            self.push(self.uses[two], it)
            if twin is None:
                self.put(self.lookup, key, it)
            elif self.rep[twin] is not self.rep[it]:
                self.waiting.append((it, twin, CONGRUENT))

    # ---- reasons
    def path(self, left, right):
        """Returns the edges between two terms of one class: from, to, reason."""
        seen, at = {}, left
        while at is not None:
            seen[at] = True
            at = self.edge[at][0] if at in self.edge else None
        meet, back = right, []
        while meet not in seen:
            above, why = self.edge[meet]
            back.append((above, meet, why))
            meet = above
        there, at = [], left
        while at is not meet:
            above, why = self.edge[at]
            there.append((at, above, why))
            at = above
        return there + back[::-1]

    def chain(self, context, left, right):
        """Returns the wraps that make `context(right)` of `context(left)`, for two terms of one class."""
        wraps = []
        if left is right:
            return wraps
        for one, two, why in self.path(left, right):
            if why is CONGRUENT:
                for at in range(len(one.args)):

                    def inner(term, at=at, one=one, two=two):
                        return context(t.with_args(one, two.args[:at] + (term,) + one.args[at + 1 :]))

                    wraps += self.chain(inner, one.args[at], two.args[at])
            else:
                equation = t.eq(one, two)
                if why is not equation:
                    wraps += turned(two, one)
                wraps.append(replaced(equation, context))
        return wraps

    def derived(self, left, right):
        """Returns the wraps that make the equation of two terms of one class."""
        start = t.eq(left, left)
        return [p.Wrap("refl", [("tree", left)], [], [start])] + self.chain(lambda it: t.eq(left, it), left, right)

    def refutation(self):
        """Returns the node of the conflict."""
        kind, *about = self.conflict
        if kind == "differ":
            left, right = about[0].args[0].args
            wraps = self.chain(lambda it: t.neg(t.eq(it, right)), left, right)
            return p.fold(wraps, p.close("irrefl", t.neg(t.eq(right, right))))
        if kind == "holds":
            positive, negative = about
            wraps = self.chain(lambda it: it, positive, negative.args[0])
            return p.fold(wraps, p.clash(negative.args[0], negative))
        left, right = about
        return p.fold(self.derived(left, right), p.linear([(t.eq(left, right), 1 if left.data > right.data else -1)]))


def replaced(equation, context):
    """Returns the wrap that puts the right side of an equation for its left one in a context."""
    left, right = equation.args
    hole = context(t.bound(0, left.sort))
    before, after = context(left), context(right)
    return p.Wrap("replace", p.at(equation, before) + [("tree", hole)], [equation, before], [after])


def turned(left, right):
    """Returns the wraps that make `right = left` of `left = right`."""
    start = t.eq(left, left)
    return [p.Wrap("refl", [("tree", left)], [], [start]), replaced(t.eq(left, right), lambda it: t.eq(it, left))]
