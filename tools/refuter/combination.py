"""Equations and arithmetic together, as Nelson and Oppen combine them: each is told what the other makes equal."""
from . import arithmetic
from . import proofs as p
from . import terms as t
from .saturation import Saturation


class Combination(Saturation):
    """A branch where no rule without a choice is left."""

    def combine(self, wraps):
        """Tells arithmetic the equations of classes, and the classes what arithmetic makes equal (Nelson and Oppen), splits
        inequalities, and bounds fractions. Returns a node, True where something was added, or None.
        """
        if self.tell_sums(wraps):
            return True
        node = self.unsolvable()
        if node is not None:
            return node
        for formula in self.differing:
            if formula not in self.spent:
                left, right = formula.args[0].args
                if self.simplex.value_of(self.sums.of(left)) == self.simplex.value_of(self.sums.of(right)):
                    self.put(self.spent, formula, True)
                    return self.split_ways(formula)
        found = self.tell_classes(wraps)
        if found is not None:
            return found
        return self.bound_fraction()

    def is_number(self, term):
        return term.op == "num" or ((term, 1),) in self.simplex.places or (term.op == "sym" and term.data in self.table.words)

    def tell_sums(self, wraps):
        made = False
        for rep, members in list(self.closure.members.items()):
            if rep.sort != self.table.int or self.closure.rep.get(rep) is not rep or len(members) < 2:
                continue
            numbers = [it for it in members if self.is_number(it)]
            for it in numbers[1:]:
                equation = t.eq(numbers[0], it)
                total = self.sums.of_literal(equation)
                if equation in self.facts or t.eq(it, numbers[0]) in self.facts or not total[0][0]:
                    continue
                if self.simplex.says(total) is True:
                    continue
                wraps += self.closure.derived(numbers[0], it)
                self.enqueue([equation], 0)
                made = True
        return made

    def arguments(self):
        """Returns the integer terms at each argument of each symbol."""
        found = {}
        for term in self.closure.new_terms:
            if term.op == "sym" and term.data not in self.table.words and term in self.closure.rep:
                for at, it in enumerate(term.args):
                    if it.sort == self.table.int:
                        found.setdefault((term.data, at), []).append(it)
        return found

    def tell_classes(self, wraps):
        """Looks for two arguments that arithmetic makes equal."""
        tried, loose = set(), None
        for terms in self.arguments().values():
            groups = {}
            for it in terms:
                groups.setdefault(self.simplex.value_of(self.sums.of(it)), []).append(it)
            for group in groups.values():
                for one in group:
                    for two in group:
                        key = (one, two)
                        if one.key >= two.key or key in tried or self.closure.equal(one, two):
                            continue
                        tried.add(key)
                        self.check_time()
                        found = self.equal_numbers(one, two, wraps)
                        if found:
                            return found
                        if t.neg(t.eq(one, two)) not in self.facts:
                            loose = loose or key
        if loose:
            return self.split_equal(*loose)
        return None

    def equal_numbers(self, one, two, wraps):
        """Uses a trichotomy whose outer ways arithmetic closes."""
        less = self.table.ints["<"]
        ways = t.sym(less, (one, two), t.BOOL), t.sym(less, (two, one), t.BOOL)
        nodes = []
        for it in ways:
            mark = self.simplex.mark()
            pairs = self.simplex.assume(it, self.sums.of_literal(it)) or self.simplex.check()
            self.simplex.undo(mark)
            if not pairs:
                return None
            nodes.append(p.linear(pairs))
            if it not in nodes[-1].needs:
                return nodes[-1]
        equation = t.eq(one, two)
        args = [("tree", one), ("tree", two)]

        def build(node):
            return p.Node("trichotomy", args, [], [((ways[0],), nodes[0]), ((equation,), node), ((ways[1],), nodes[1])])

        wraps.append(p.Built((equation,), build))
        self.enqueue([equation], 0)
        return True

    def split_equal(self, one, two):
        """Splits on whether two arguments are equal."""
        self.count_split()
        equation = t.eq(one, two)
        mark = self.mark()
        self.enqueue([equation], 0)
        first = self.solve()
        self.undo(mark)
        if equation not in first.needs:
            return first
        self.enqueue([t.neg(equation)], 0)
        mark = self.mark()
        second = self.solve()
        self.undo(mark)
        return p.cut(equation, first, second)

    def bound_fraction(self):
        """Splits an atom whose value is a fraction at the next whole number below."""
        for key, place in list(self.simplex.places.items()):
            value = self.simplex.value[place]
            if value.denominator != 1 and len(key) == 1:
                low = value.numerator // value.denominator
                if not abs(low) < arithmetic.LARGEST:
                    continue
                self.count_split()
                ints, term = self.table.int, key[0][0]
                below = t.sym(self.table.ints["<="], (term, t.num(low, ints)), t.BOOL)
                above = t.sym(self.table.ints["<="], (t.num(low + 1, ints), term), t.BOOL)
                nodes = []
                for it in (below, above):
                    mark = self.mark()
                    self.enqueue([it], 0)
                    nodes.append(self.solve())
                    self.undo(mark)
                    if it not in nodes[-1].needs:
                        return nodes[-1]
                return p.Node("bound", [("tree", term), ("number", low)], [], [((below,), nodes[0]), ((above,), nodes[1])])
        return None
