"""The search: a tableau whose leaves are closed by congruence closure and linear arithmetic.

Rules that don't branch are used first, then those of whose two sides one is false already (unit propagation), then instances of
universal formulas, then a split. The second side of a split may use that the first one is false (by `cut`), as in DPLL; a
side that didn't need what the split added is the whole answer, as in backjumping. An attempt has limits; one that meets an open
leaf ends, and the next has greater limits.
"""
from . import instances
from . import proofs as p
from . import terms as t
from .branch import Open
from .combination import Combination


class Search(Combination):
    """The splits of the tableau and the instances of universal formulas, within limits."""

    def solve(self):
        """Returns a node that closes the branch; raises Open where the limits don't allow one."""
        wraps = []
        while True:
            node = self.saturate(wraps)
            if node is None and self.instantiate(wraps):
                continue
            if node is None:
                formula = self.choice()
                node = self.split(formula) if formula is not None else self.finish(wraps)
            if node is True:
                continue
            for it in node.needs:
                self.activity[it] = self.activity.get(it, 0) + 1
            return p.fold(wraps, node)

    def choice(self):
        """Returns the formula to split: of those that helped most often, the youngest of the smallest age."""
        best, rank = None, None
        for place, formula in enumerate(self.betas):
            if formula not in self.spent:
                here = (self.activity.get(formula, 0), -self.age[formula], -formula.size, place)
                if rank is None or here > rank:
                    best, rank = formula, here
        return best

    def count_split(self):
        self.splits += 1
        if self.splits > self.limits.splits:
            raise Open

    def side(self, added, age, spent):
        """Returns a node for the branch with these formulas added and one formula spent."""
        mark = self.mark()
        self.put(self.spent, spent, True)
        self.enqueue(added, age)
        node = self.solve()
        self.undo(mark)
        return node

    def split(self, formula):
        self.count_split()
        sides, age = self.sides(formula), self.age[formula]
        first = self.side(sides[0], age, formula)
        if not first.needs.intersection(sides[0]):
            return first
        single = len(sides[0]) == 1
        opposite = (complement(sides[0][0]),) if single else ()
        second = self.side(sides[1] + opposite, age, formula)
        if not single or opposite[0] not in second.needs:
            return self.joined(formula, (first, second))
        if not second.needs.intersection(sides[1]):
            inner = second
        else:
            inner = self.joined(formula, (clashing(sides[0][0], opposite[0]), second))
        if sides[0][0].op == "not" and opposite[0] is sides[0][0].args[0]:
            return p.cut(opposite[0], inner, first)
        return p.cut(sides[0][0], first, inner)

    def split_ways(self, formula):
        self.count_split()
        ways, age = self.ways(formula), self.age[formula]
        first = self.side([ways[0]], age, formula)
        if ways[0] not in first.needs:
            return first
        return self.trichotomy(formula, first, self.side([ways[2]], age, formula))

    def instantiate(self, wraps):
        """Takes universal formulas at terms of the branch. Returns whether it took any."""
        self.check_time()
        if self.state["instances"] >= self.limits.instances:
            return False
        stamp = (self.closure.changes, len(self.universals), len(self.facts))
        if self.state["matched"] == stamp:
            return False
        found = self.matches()
        if not found:
            self.set("matched", (self.closure.changes, len(self.universals), len(self.facts)))
            return False
        false = [it for it in found if it[0] == 0]
        for rank, age, size, universal, terms in (false[:1] or found[:40]):
            self.take_at(universal, terms, age, wraps)
        return True

    def matches(self):
        """Returns the instances that patterns and the prover's list give, those that are false on the branch first."""
        found, seen = [], set()
        for universal in self.universals:
            base = self.age.get(universal.formula, 0)
            for tuples, trusted in self.ways_of(universal):
                for terms in tuples:
                    key = (universal.formula, terms)
                    if key in seen or key in self.taken:
                        continue
                    seen.add(key)
                    age = universal.age + max([base] + [self.term_age.get(it, 0) for it in terms])
                    if age > self.limits.age and not trusted:
                        continue
                    body = t.instance(universal.body, list(terms)[::-1])
                    said = self.says(body)
                    if said is True:
                        continue
                    rank = 0 if said is False else 1
                    found.append((rank, age, body.size, universal, terms))
        found.sort(key=lambda it: it[:3])
        return found

    def ways_of(self, universal):
        """Returns the lists of terms at which to take a universal formula, each with whether a prover named them."""
        given = self.hints(universal) if self.hints else ()
        if universal.cases:
            ways = [(given, True), (instances.cased(universal, self.universals, self), False)]
        elif universal.differing and len(universal.patterns) and len(universal.patterns[0]) > 1:
            return [(given, True), (instances.equal_sides(universal, self.closure), False)]
        else:
            ways = [(given, True), (instances.matched(universal, self.closure, 200), False)]
            ways.append((instances.bounds(universal, self.closure, self.relations, self.table), False))
            ways.append((instances.separated(universal, self.closure, self.unequal), False))
        if universal.sums:
            ways.append((instances.solutions(universal, self.solved(), self.table), False))
        if not universal.patterns:
            ways.append((instances.listed(universal, self.candidates, 12 + self.limits.listed), False))
        return ways

    def candidates(self, sort):
        """Returns the terms of a sort on the branch, one of each class, the earliest and smallest first; a parameter of its own
        where there are none.
        """
        reps = {}
        for term in self.closure.new_terms:
            if term.sort == sort and term in self.closure.rep:
                rep = self.closure.find(term)
                rank = (self.term_age.get(term, 0), term.size, term.key)
                if rep not in reps or rank < reps[rep][0]:
                    reps[rep] = (rank, term)
        ordered = [term for _, term in sorted(reps.values(), key=lambda it: it[0])]
        if sort == self.table.int:
            for value in (0, 1):
                if not any(it.op == "num" and it.data == value for it in ordered):
                    ordered.append(t.num(value, sort))
        if not ordered:
            key = ("any", sort)
            if key not in self.constants:
                self.constants[key] = self.next
                self.next += 1
            ordered.append(t.param(self.constants[key], sort))
        return ordered

    def take_at(self, universal, terms, age, wraps):
        """Takes a universal formula at terms, quantifier by quantifier."""
        self.put(self.taken, (universal.formula, terms), True)
        self.set("instances", self.state["instances"] + 1)
        formula = universal.formula
        negated = formula.op == "not"
        for term in terms:
            body = (formula.args[0] if negated else formula).args[0]
            made = t.instance(body, [term])
            added = t.neg(made) if negated else made
            rule = "notexists" if negated else "forall"
            wraps.append(p.Wrap(rule, p.at(formula) + [("tree", term)], [formula], [added]))
            formula = added
        self.enqueue([formula], age)

    def finish(self, wraps):
        """Combines equations and arithmetic, then takes more instances. Returns a node, or True where something was added."""
        if self.table.has_int:
            found = self.combine(wraps)
            if found is not None:
                return found
        if self.state["found"] < self.limits.rounds and self.limits.listed:
            self.set("found", self.state["found"] + 1)
            if self.enumerate(wraps):
                return True
        raise Open

    def enumerate(self, wraps):
        """Takes some universal formulas at terms that are there, few variables and early terms first. Returns how many."""
        found = []
        for universal in self.universals:
            base = self.age.get(universal.formula, 0)
            for rank, terms in enumerate(instances.listed(universal, self.candidates, self.limits.listed)):
                if (universal.formula, terms) not in self.taken:
                    if self.says(t.instance(universal.body, list(terms)[::-1])) is not True:
                        age = 1 + max([base] + [self.term_age.get(it, 0) for it in terms])
                        found.append((rank + 3 * len(terms) + 4 * age, universal.body.size, len(found), universal, terms, age))
        found.sort(key=lambda it: it[:3])
        for _, _, _, universal, terms, age in found[: self.limits.listed]:
            self.take_at(universal, terms, age, wraps)
        self.set("instances", self.state["instances"] - len(found[: self.limits.listed]))
        return len(found)


def complement(formula):
    return formula.args[0] if formula.op == "not" else t.neg(formula)


def clashing(formula, opposite):
    return p.clash(opposite, formula) if formula.op == "not" and formula.args[0] is opposite else p.clash(formula, opposite)
