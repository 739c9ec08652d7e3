"""Writes a refutation as a file of steps, in the form of docs/FORMATS.md.

The start has the locals and `not` of the goal; an assertion before these is cited by `fact`. The lines of all trees come
first, each tree once, then the steps, premises before the step that has them.
"""
from . import proofs as p


class Writer:
    def __init__(self):
        self.types, self.trees, self.lines, self.steps = {}, {}, [], []

    def type(self, sort):
        if sort not in self.types:
            self.types[sort] = len(self.types)
            self.lines.append(f"y {sort}")
        return self.types[sort]

    def tree(self, it):
        if it in self.trees:
            return self.trees[it]
        parts = [self.tree(a) for a in it.args]
        if it.op in ("bound", "param"):
            words = [it.op, it.data, self.type(it.sort)]
        elif it.op == "num":
            words = ["num", it.data]
        elif it.op == "sym":
            words = ["sym", it.data, *parts]
        elif it.op in ("forall", "exists"):
            words = [it.op, self.type(it.data), *parts]
        else:
            words = [it.op, *parts]
        self.trees[it] = len(self.trees)
        self.lines.append("e " + " ".join(map(str, words)))
        return self.trees[it]

    def step(self, sequent, rule, words, premises):
        formulas = " ".join(str(self.tree(it)) for it in sequent)
        head = " ".join([rule, *map(str, words)])
        line = f"s {formulas} : {head} :" if formulas else f"s : {head} :"
        self.steps.append(line + "".join(f" {it}" for it in premises))
        return len(self.steps) - 1

    def words(self, node, sequent):
        made = []
        for kind, value in node.args:
            made.append(sequent.index(value) if kind == "at" else self.tree(value) if kind == "tree" else value)
        return made

    def node(self, root, start):
        """Writes the steps of a node, whose sequent is `start`; returns the number of its own step."""
        stack, done = [(root, start, False)], []
        while stack:
            node, sequent, ready = stack.pop()
            if ready:
                count = len(node.premises)
                premises = done[len(done) - count :] if count else []
                del done[len(done) - count :]
                if node is not None:
                    done.append(self.step(sequent, node.rule, self.words(node, sequent), premises))
                continue
            stack.append((node, sequent, True))
            for added, it in reversed(node.premises):
                stack.append((it, sequent + tuple(added), False))
        return done[0]


def text_of(root, asserts, locals_count):
    """Returns the file of steps of a refutation, where the last assertions are that many locals and `not` of the goal."""
    count = len(asserts) - 1 - locals_count
    start, node = tuple(asserts[count:]), root
    for at in range(count):
        fact = asserts[at]
        if fact in node.needs and fact not in start:
            node = p.Node("fact", [("number", at)], [], [((fact,), node)])
    missing = node.needs.difference(start)
    if missing:
        raise ValueError(f"formulas that aren't asserted: {missing}")
    made = Writer()
    made.node(node, start)
    return "".join(f"{it}\n" for it in made.lines + made.steps)
