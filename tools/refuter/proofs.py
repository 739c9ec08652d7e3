"""Refutations as trees of rules, and what of them is needed.

A node closes a sequent by a rule: its `principals` are the formulas that the rule is about, and each premise has the formulas
that it adds and a node. A node `needs` the formulas that its sequent must have: its principals, and what its premises need
besides what they add. What isn't needed is left out on the way, as in a tableau whose useless steps are pruned.
"""
from . import terms as t


class Node:
    """A rule with its arguments, in order: `("at", formula)`, `("tree", expr)`, `("number", n)`, `("bound", t, n)`."""

    __slots__ = ("rule", "args", "principals", "premises", "needs", "steps")

    def __init__(self, rule, args, principals, premises=()):
        self.rule, self.args, self.principals, self.premises = rule, args, principals, premises
        needs = set(principals)
        for added, node in premises:
            needs |= node.needs.difference(added)
        self.needs = frozenset(needs)
        self.steps = 1 + sum(node.steps for _, node in premises)


def at(*formulas):
    return [("at", it) for it in formulas]


def close(rule, *formulas):
    """Returns a leaf: a rule without premises on these formulas."""
    return Node(rule, at(*formulas), formulas)


def clash(formula, negation):
    return close("clash", formula, negation)


def linear(pairs):
    """Returns the leaf of a sum of formulas with multipliers."""
    args = []
    for formula, multiplier in pairs:
        args += [("at", formula), ("number", multiplier)]
    return Node("linear", args, [formula for formula, _ in pairs])


def branch(rule, principal, premises):
    """Returns a rule on one formula with its premises; a premise that needs nothing of what it adds is the node itself."""
    for added, node in premises:
        if not node.needs.intersection(added):
            return node
    return Node(rule, at(principal), [principal], premises)


def cut(formula, positive, negative):
    if formula not in positive.needs:
        return positive
    if t.neg(formula) not in negative.needs:
        return negative
    return Node("cut", [("tree", formula)], [], [((formula,), positive), ((t.neg(formula),), negative)])


class Wrap:
    """A rule with one premise that adds formulas, before its premise is known."""

    __slots__ = ("rule", "args", "principals", "added")

    def __init__(self, rule, args, principals, added):
        self.rule, self.args, self.principals, self.added = rule, args, principals, added

    def around(self, node):
        if not node.needs.intersection(self.added):
            return node
        return Node(self.rule, self.args, self.principals, [(self.added, node)])


class Built:
    """What takes a node to the node around it, where several rules make one move."""

    __slots__ = ("added", "build")

    def __init__(self, added, build):
        self.added, self.build = added, build

    def around(self, node):
        return self.build(node) if node.needs.intersection(self.added) else node


def fold(wraps, node):
    """Returns a node with wraps around it, the last one innermost."""
    for it in reversed(wraps):
        node = it.around(node)
    return node


# ---- moves of several rules
def agree(formula, value, negated, node):
    """Returns the node around one that has `value` (or its negation) in place of `formula` (or its negation), below the
    equivalence of both.
    """
    negation = t.neg(formula)
    if negated:
        ways = [((formula, value), clash(formula, negation)), ((negation, t.neg(value)), node)]
    else:
        ways = [((formula, value), node), ((negation, t.neg(value)), clash(formula, negation))]
    both = t.join("iff", formula, value)
    return Node("iff", at(both), [both], ways)


def let_move(formula, negated):
    """Returns the wrap of a `let` formula, or of its negation, and what it adds."""
    value, body = formula.args
    inner = t.instance(body, [value])
    added = t.neg(inner) if negated else inner

    def build(node):
        both = t.join("iff", formula, inner)
        return Node("letdef", [("tree", formula)], [], [((both,), agree(formula, inner, negated, node))])

    return Built((added,), build), added


def if_halves(tree):
    """Returns what `ifdef` adds for a conditional: the conjunction and its two implications."""
    test, then, other = tree.args

    def same(value):
        return t.join("iff", tree, value) if tree.sort == t.BOOL else t.eq(tree, value)

    first = t.join("imp", test, same(then))
    second = t.join("imp", t.neg(test), same(other))
    return t.join("and", first, second), first, second


def if_node(formula, negated, then, other):
    """Returns the node of a conditional formula, or of its negation, from one that has the test and the first part, and one
    that has the test's negation and the second part.
    """
    test, first_part, second_part = formula.args
    both, first, second = if_halves(formula)
    not_test = t.neg(test)
    with_first = t.join("iff", formula, first_part)
    with_second = t.join("iff", formula, second_part)
    not_not = t.neg(not_test)
    first_way = ((with_first,), agree(formula, first_part, negated, then))
    second_way = ((with_second,), agree(formula, second_part, negated, other))
    yes = Node("imp", at(first), [first], [((not_test,), clash(test, not_test)), first_way])
    no = Node("imp", at(second), [second], [((not_not,), clash(not_test, not_not)), second_way])
    split = Node("cut", [("tree", test)], [], [((test,), yes), ((not_test,), no)])
    halves = Node("and", at(both), [both], [((first, second), split)])
    return Node("ifdef", [("tree", formula)], [], [((both,), halves)])
