"""A second, plain check of files of steps, for the tests: it reads the lines and tests each step by its row in docs/FORMATS.md.

It knows the rules that the search uses. Facts are given as the file's own trees.
"""
import re

from .. import arithmetic
from .. import terms as t

NEGATED = {"notand": "and", "notandthen": "andthen", "notor": "or", "notorelse": "orelse", "notimp": "imp", "notiff": "iff"}


class Wrong(Exception):
    """A line that isn't right, by its number."""


def need(said):
    if not said:
        raise Wrong("condition")


class File:
    def __init__(self, problem, locals_count=0):
        self.problem, self.table = problem, problem.table
        count = len(problem.asserts) - 1 - locals_count
        self.facts, self.start = problem.asserts[:count], tuple(problem.asserts[count:])
        self.types, self.trees, self.steps = [], [], []

    def read(self, text):
        """Reads a file; raises Wrong with the number of the first wrong line."""
        number = 0
        for number, line in enumerate(text.splitlines(), 1):
            try:
                self.line(line)
            except (Wrong, IndexError, ValueError, KeyError, AttributeError) as it:
                raise Wrong(f"line {number}: {line}: {it}") from it
        if not self.steps or self.steps[-1] != self.start:
            raise Wrong(f"line {number + 1}: the start")

    def line(self, line):
        words = line.split(" ")
        if words[0] == "y":
            self.types.append(words[1])
        elif words[0] == "e":
            self.trees.append(self.tree(words[1], words[2:]))
        else:
            found = re.fullmatch(r"s((?: \d+)*) : (\w+)((?: -?\d+)*) :((?: \d+)*)", line)
            need(found)
            sequent = tuple(self.trees[int(it)] for it in found[1].split())
            need(all(it.sort == t.BOOL and not it.open for it in sequent))
            premises = [self.steps[int(it)] for it in found[4].split()]
            wanted = self.premises(sequent, found[2], [int(it) for it in found[3].split()])
            need(len(premises) == len(wanted))
            for made, added in zip(premises, wanted):
                need(made == sequent + tuple(added))
            self.steps.append(sequent)

    def tree(self, op, words):
        if op == "sym":
            args = [self.trees[int(it)] for it in words[1:]]
            word = self.table.words.get(words[0])
            sort = (t.BOOL if word[0] in "<>" else self.table.int) if word else self.problem.symbols[words[0]][1]
            return t.sym(words[0], args, sort)
        numbers = [int(it) for it in words]
        if op in ("bound", "param"):
            return t.make(op, numbers[0], (), self.types[numbers[1]])
        if op == "num":
            return t.num(numbers[0], self.table.int)
        if op in ("forall", "exists"):
            return t.quantified(op, self.types[numbers[0]], self.trees[numbers[1]])
        args = [self.trees[it] for it in numbers]
        sort = args[1].sort if op in ("let", "if") else t.BOOL
        return t.make(op, None, args, sort)

    def premises(self, sequent, rule, args):
        """Returns what each premise adds, where the rule's condition holds."""
        if rule == "keep":
            raise Wrong("keep")
        if rule in ("false", "nottrue", "irrefl", "clash", "linear"):
            self.leaf(sequent, rule, args)
            return []
        if rule in ("refl", "cut", "letdef", "ifdef", "trichotomy", "bound"):
            return self.free(rule, args)
        if rule == "fact":
            return [[self.facts[args[0]]]]
        formula = sequent[args[0]]
        if rule in ("forall", "exists", "notforall", "notexists"):
            return [[self.quantifier(sequent, formula, rule, args[1])]]
        if rule == "replace":
            hole, (left, right) = self.trees[args[2]], formula.args
            need(formula.op == "eq" and t.instance(hole, [left]) is sequent[args[1]])
            return [[t.instance(hole, [right])]]
        return self.join(formula, rule)

    def join(self, formula, rule):
        if rule == "notnot":
            need(formula.op == "not" and formula.args[0].op == "not")
            return [[formula.args[0].args[0]]]
        negated = rule in NEGATED
        it = formula.args[0] if negated else formula
        need(it.op == NEGATED.get(rule, rule) and (not negated or formula.op == "not"))
        a, b = it.args
        no_a, no_b = t.neg(a), t.neg(b)
        rows = {
            "and": [[a, b]],
            "or": [[a], [b]],
            "imp": [[no_a], [b]],
            "iff": [[a, b], [no_a, no_b]],
            "notand": [[no_a], [no_b]],
            "notor": [[no_a, no_b]],
            "notimp": [[a, no_b]],
            "notiff": [[a, no_b], [no_a, b]],
        }
        return rows[rule.replace("andthen", "and").replace("orelse", "or")]

    def quantifier(self, sequent, formula, rule, arg):
        negated = rule.startswith("not")
        it = formula.args[0] if negated else formula
        need(it.op == rule.replace("not", "") and (not negated or formula.op == "not"))
        if rule in ("forall", "notexists"):
            term = self.trees[arg]
            need(term.sort == it.data and not term.open)
        else:
            term = t.param(arg, it.data)
            need(not any(sub.op == "param" and sub.data == arg for f in sequent for sub, _ in t.subtrees(f)))
        made = t.instance(it.args[0], [term])
        return t.neg(made) if negated else made

    def free(self, rule, args):
        one = self.trees[args[0]]
        need(not one.open)
        if rule == "refl":
            return [[t.eq(one, one)]]
        if rule == "cut":
            return [[one], [t.neg(one)]]
        if rule == "letdef":
            need(one.op == "let")
            return [[same(one, t.instance(one.args[1], [one.args[0]]))]]
        if rule == "ifdef":
            need(one.op == "if")
            test, then, other = one.args
            return [[t.join("and", t.join("imp", test, same(one, then)), t.join("imp", t.neg(test), same(one, other)))]]
        ints, less = self.table.int, self.table.ints["<"]
        need(one.sort == ints)
        if rule == "trichotomy":
            two = self.trees[args[1]]
            return [[t.sym(less, (one, two), t.BOOL)], [t.eq(one, two)], [t.sym(less, (two, one), t.BOOL)]]
        most = self.table.ints["<="]
        return [[t.sym(most, (one, t.num(args[1], ints)), t.BOOL)], [t.sym(most, (t.num(args[1] + 1, ints), one), t.BOOL)]]

    def leaf(self, sequent, rule, args):
        if rule == "linear":
            sums, total = arithmetic.Sums(self.table), ({}, 0)
            for place, multiplier in zip(args[::2], args[1::2]):
                made, equation = sums.of_literal(sequent[place])
                need(equation or multiplier >= 0)
                total = arithmetic.added(total, made, multiplier)
            need(not total[0] and total[1] > 0)
            return
        formula = sequent[args[0]]
        if rule == "clash":
            need(sequent[args[1]] is t.neg(formula))
        elif rule == "irrefl":
            need(formula.op == "not" and formula.args[0].op == "eq" and formula.args[0].args[0] is formula.args[0].args[1])
        else:
            need(formula is (t.FALSE if rule == "false" else t.neg(t.TRUE)))


def same(one, two):
    return t.join("iff", one, two) if one.sort == t.BOOL else t.eq(one, two)
