"""Terms and formulas, each once: two equal trees are one object.

A bound variable is the number of binders between it and its own, as in step files. Sorts and symbols have the names of
the problem's table; the sort of a formula is `Bool`. Connectives are as in step files, `and` beside `andthen`.
"""

BOOL = "Bool"
JOINS = ("and", "andthen", "or", "orelse", "imp", "iff")


class Expr:
    """A term or a formula: its operator, what belongs to the operator, its parts, its sort.

    `open` is the number of binders that have to be around it; `size` the number of its nodes.
    """

    __slots__ = ("op", "data", "args", "sort", "open", "size", "key")

    def __repr__(self):
        return text_of(self)


_all = {}


def make(op, data, args, sort):
    """Returns the tree with this root and these parts."""
    key = (op, data, sort, tuple(it.key for it in args))
    found = _all.get(key)
    if found is None:
        found = Expr()
        found.op, found.data, found.args, found.sort, found.key = op, data, tuple(args), sort, len(_all)
        found.size = 1 + sum(it.size for it in args)
        if op == "bound":
            found.open = data + 1
        elif op in ("forall", "exists"):
            found.open = max(0, args[0].open - 1)
        elif op == "let":
            found.open = max(args[0].open, args[1].open - 1)
        else:
            found.open = max((it.open for it in args), default=0)
        _all[key] = found
    return found


def bound(index, sort):
    return make("bound", index, (), sort)


def param(number, sort):
    return make("param", number, (), sort)


def num(value, sort):
    return make("num", value, (), sort)


def sym(name, args, sort):
    return make("sym", name, args, sort)


def eq(left, right):
    return make("eq", None, (left, right), BOOL)


def neg(formula):
    return make("not", None, (formula,), BOOL)


def join(word, left, right):
    return make(word, None, (left, right), BOOL)


def quantified(word, sort, body):
    return make(word, sort, (body,), BOOL)


def let(value, body):
    return make("let", None, (value, body), body.sort)


def conditional(test, then, other):
    return make("if", None, (test, then, other), then.sort)


TRUE = make("true", None, (), BOOL)
FALSE = make("false", None, (), BOOL)


def with_args(tree, args):
    """Returns the tree with other parts of the same sorts."""
    return make(tree.op, tree.data, args, tree.sort)


def instance(tree, env, depth=0, seen=None):
    """Returns a tree with closed terms for its open variables: `env[0]` for the variable 0, and so on."""
    if tree.open <= depth:
        return tree
    seen = {} if seen is None else seen
    key = (tree.key, depth)
    if key not in seen:
        if tree.op == "bound":
            place = tree.data - depth
            seen[key] = env[place] if place < len(env) else bound(tree.data - len(env), tree.sort)
        elif tree.op in ("forall", "exists"):
            seen[key] = with_args(tree, (instance(tree.args[0], env, depth + 1, seen),))
        elif tree.op == "let":
            value, body = tree.args
            seen[key] = with_args(tree, (instance(value, env, depth, seen), instance(body, env, depth + 1, seen)))
        else:
            seen[key] = with_args(tree, [instance(it, env, depth, seen) for it in tree.args])
    return seen[key]


def subtrees(tree, depth=0, seen=None):
    """Gives each subtree once with the binders around it, the tree first."""
    seen = set() if seen is None else seen
    if (tree.key, depth) in seen:
        return
    seen.add((tree.key, depth))
    yield tree, depth
    for at, it in enumerate(tree.args):
        under = tree.op in ("forall", "exists") or (tree.op == "let" and at == 1)
        yield from subtrees(it, depth + under, seen)


def is_quantified(formula, universal):
    """Returns whether a formula is a quantifier that holds for all values (`universal`) or for some."""
    if formula.op == "not":
        return formula.args[0].op == ("exists" if universal else "forall")
    return formula.op == ("forall" if universal else "exists")


def prefix_of(formula):
    """Returns the sorts of the universal quantifiers in front of a formula, and what they are about."""
    negated = formula.op == "not"
    body, word, sorts = formula.args[0] if negated else formula, "exists" if negated else "forall", []
    while body.op == word:
        sorts.append(body.data)
        body = body.args[0]
    return sorts, neg(body) if negated else body


def text_of(tree):
    """Returns a tree as one line, for messages."""
    if tree.op in ("bound", "param", "num"):
        return {"bound": "#", "param": "c", "num": ""}[tree.op] + str(tree.data)
    head = tree.data if tree.op == "sym" else tree.op
    return f"({head} {' '.join(map(text_of, tree.args))})" if tree.args else head
