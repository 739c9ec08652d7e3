"""The rules that need no choice: those with one premise, those that close a branch, and those of which a side is false."""
from . import arithmetic, instances
from . import proofs as p
from . import terms as t
from .branch import Branch, parts_of, sides_of


class Saturation(Branch):
    """A branch with the rules that need no choice; `split` and `split_ways` are those of the tableau."""

    def saturate(self, wraps):
        """Uses the rules that need no choice. Returns a node where they close the branch, else None."""
        while True:
            self.check_time()
            while self.queue:
                formula, age = self.queue.pop(0)
                node = self.take(formula, age, wraps)
                if node is not None:
                    self.queue.clear()
                    return node
            pairs = self.simplex.check()
            if pairs:
                return p.linear(pairs)
            if self.define(wraps):
                continue
            found = self.propagate(wraps)
            if found is not None:
                if isinstance(found, p.Node):
                    return found
                continue
            return None

    def take(self, formula, age, wraps):
        """Takes a formula into the branch. Returns a node where this closes it."""
        if formula in self.facts:
            return None
        self.put(self.facts, formula, True)
        self.put(self.age, formula, age)
        if t.neg(formula) in self.facts:
            return p.clash(formula, t.neg(formula))
        negated = formula.op == "not"
        it = formula.args[0] if negated else formula
        if negated and it in self.facts:
            return p.clash(it, formula)
        if it.op in ("true", "false"):
            if negated == (it.op == "true"):
                return p.close("nottrue" if negated else "false", formula)
            return None
        parts = parts_of(formula)
        if parts:
            wraps.append(p.Wrap(parts[0], p.at(formula), [formula], list(parts[1])))
            self.enqueue(parts[1], age)
        elif it.op in t.JOINS or it.op == "if":
            self.push(self.betas, formula)
        elif it.op == "let":
            move, added = p.let_move(it, negated)
            wraps.append(move)
            self.enqueue([added], age)
        elif t.is_quantified(formula, True):
            self.push(self.universals, self.universal(formula))
        elif t.is_quantified(formula, False):
            self.constant(formula, it, negated, age, wraps)
        else:
            return self.literal(formula, it, negated, age, wraps)
        return None

    def universal(self, formula):
        if formula not in self.known:
            self.known[formula] = instances.Universal(formula, self.table, self.shapes)
        return self.known[formula]

    def constant(self, formula, it, negated, age, wraps):
        """Uses a parameter of its own for what a formula says that there is."""
        if formula not in self.constants:
            self.constants[formula] = self.next
            self.next += 1
        number = self.constants[formula]
        made = t.instance(it.args[0], [t.param(number, it.data)])
        added = t.neg(made) if negated else made
        rule = "notforall" if negated else "exists"
        wraps.append(p.Wrap(rule, p.at(formula) + [("number", number)], [formula], [added]))
        self.enqueue([added], age)

    def literal(self, formula, it, negated, age, wraps):
        word = self.table.words.get(it.data) if it.op == "sym" else None
        if word in arithmetic.RELATIONS:
            self.push(self.relations, it)
            for side in it.args:
                self.closure.add(side)
        else:
            self.closure.assume(formula)
        for term in self.closure.new_terms[self.state["terms"] :]:
            if term not in self.term_age:
                self.put(self.term_age, term, age)
        if self.closure.conflict is not None:
            return self.closure.refutation()
        if negated and it.op == "eq":
            self.push(self.unequal, formula)
        if negated and it.op == "eq" and it.args[0].sort == self.table.int and self.table.has_int:
            self.push(self.differing, formula)
            for side in it.args:
                self.see(self.sums.of(side))
        total = self.sums.of_literal(formula)
        if total is None:
            return None
        if total[1]:
            self.push(self.equal, formula)
        pairs = self.simplex.assume(formula, total)
        if pairs:
            return p.linear(pairs)
        return self.rounded(formula, total, age, wraps)

    def see(self, total):
        for atom in total[0]:
            self.simplex.variable(((atom, 1),))

    def rounded(self, formula, total, age, wraps):
        """Uses `bound` where a formula bounds whole numbers by a fraction."""
        (atoms, constant), equation = total
        if not atoms:
            return None
        key, factor = arithmetic.direction(atoms)
        if constant % factor == 0:
            return None
        low = -constant // factor
        if not abs(low) < arithmetic.LARGEST:
            return None
        term, ints = arithmetic.term_of(key, self.table), self.table.int
        below = t.sym(self.table.ints["<="], (term, t.num(low, ints)), t.BOOL)
        above = t.sym(self.table.ints["<="], (t.num(low + 1, ints), term), t.BOOL)
        args = [("tree", term), ("number", low)]

        def leaf(extra):
            probe = arithmetic.Simplex()
            for it in (formula, extra):
                pairs = probe.assume(it, self.sums.of_literal(it))
                if pairs:
                    return p.linear(pairs)
            return p.linear(probe.check())

        if equation:
            return p.Node("bound", args, [], [((below,), leaf(below)), ((above,), leaf(above))])
        keep, drop = (below, above) if factor > 0 else (above, below)
        closed = leaf(drop)

        def build(node):
            ways = [((below,), node), ((above,), closed)] if factor > 0 else [((below,), closed), ((above,), node)]
            return p.Node("bound", args, [], ways)

        wraps.append(p.Built((keep,), build))
        self.enqueue([keep], age)
        return None

    def unsolvable(self):
        """Returns a node where the equations have no whole solution, by `bound`."""
        made = self.solved()
        if not made.unsolvable:
            return None
        key, factor = arithmetic.direction(made.unsolvable[0])
        low = -made.unsolvable[1] // factor
        if not abs(low) < arithmetic.LARGEST:
            return None
        term, ints = arithmetic.term_of(key, self.table), self.table.int
        ways = []
        for sides in ((term, t.num(low, ints)), (t.num(low + 1, ints), term)):
            added, probe = t.sym(self.table.ints["<="], sides, t.BOOL), arithmetic.Simplex()
            pairs = None
            for it in made.used + [added]:
                pairs = pairs or probe.assume(it, self.sums.of_literal(it))
            ways.append(((added,), p.linear(pairs or probe.check())))
        return p.Node("bound", [("tree", term), ("number", low)], [], ways)

    def define(self, wraps):
        """Uses `letdef` and `ifdef` for the terms that are new. Returns whether there were any."""
        terms, start = self.closure.new_terms, self.state["terms"]
        if start >= len(terms):
            return False
        made = False
        for term in terms[start:]:
            if term.op in ("let", "if") and not term.open:
                age = self.term_age.get(term, 0)
                if term.op == "let":
                    added = t.eq(term, t.instance(term.args[1], [term.args[0]]))
                else:
                    added = p.if_halves(term)[0]
                wraps.append(p.Wrap(term.op + "def", [("tree", term)], [], [added]))
                self.enqueue([added], age)
                made = True
        self.set("terms", len(terms))
        return made

    def propagate(self, wraps):
        """Uses a branching rule of which a side is false. Returns True, or a node where that closes the branch, or None."""
        for formula in self.betas:
            if formula in self.spent:
                continue
            sides = self.sides(formula)
            said = [self.says_all(it) for it in sides]
            if True in said:
                self.put(self.spent, formula, True)
                continue
            if False in said:
                self.put(self.spent, formula, True)
                return self.one_sided(formula, sides, said.index(False), wraps)
        for formula in self.differing:
            if formula in self.spent:
                continue
            ways = self.ways(formula)
            said = [self.says(it) for it in (ways[0], ways[2])]
            if True in said:
                self.put(self.spent, formula, True)
            elif False in said:
                self.put(self.spent, formula, True)
                return self.one_way(formula, ways, said.index(False) * 2, wraps)
        return None

    def joined(self, formula, nodes):
        """Returns the node of a branching rule from those of its two sides."""
        sides = self.sides(formula)
        for added, node in zip(sides, nodes):
            if not node.needs.intersection(added):
                return node
        rule = sides_of(formula)
        if rule:
            return p.branch(rule[0], formula, list(zip(sides, nodes)))
        negated = formula.op == "not"
        return p.if_node(formula.args[0] if negated else formula, negated, *nodes)

    def closed(self, added, age):
        """Returns a node that closes the branch with these formulas added, which are false on it; else None."""
        mark = self.mark()
        self.enqueue(added, age)
        wraps = []
        node = self.saturate(wraps)
        self.undo(mark)
        return None if node is None else p.fold(wraps, node)

    def one_sided(self, formula, sides, false, wraps):
        age = self.age[formula]
        node = self.closed(sides[false], age)
        if node is None:
            return self.split(formula)
        if not node.needs.intersection(sides[false]):
            return node
        other = sides[1 - false]
        wraps.append(p.Built(other, lambda it: self.joined(formula, (it, node) if false else (node, it))))
        self.enqueue(other, age)
        return True

    def trichotomy(self, formula, first, last):
        left, right = formula.args[0].args
        ways = self.ways(formula)
        for added, node in ((ways[0], first), (ways[2], last)):
            if added not in node.needs:
                return node
        middle = p.clash(formula.args[0], formula)
        args = [("tree", left), ("tree", right)]
        return p.Node("trichotomy", args, [], [((ways[0],), first), ((ways[1],), middle), ((ways[2],), last)])

    def one_way(self, formula, ways, false, wraps):
        age = self.age[formula]
        node = self.closed([ways[false]], age)
        if node is None:
            return self.split_ways(formula)
        if ways[false] not in node.needs:
            return node
        other = ways[2 - false]
        wraps.append(p.Built((other,), lambda it: self.trichotomy(formula, *((it, node) if false else (node, it)))))
        self.enqueue([other], age)
        return True
