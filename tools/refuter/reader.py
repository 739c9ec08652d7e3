"""Reads the printed SMT-LIB text of a problem, and the names of its table.

A text is that of `print`, with one problem: the declarations of its symbols, its assertions, the last of which is `not`
of the goal. What a template prints is known for the symbols of int.Int as drivers/smt_syntax.drv prints them.
"""
import re

from . import terms as t

INTS = {"+": "(+)", "-": "(-)", "neg": "(-_)", "*": "(*)", "<": "(<)", "<=": "(<=)", ">": "(>)", ">=": "(>=)"}


class Unreadable(Exception):
    """A text of another form."""


class Table:
    """A problem's name table: the name of `int`, and those of int.Int's symbols where it has them.

    `ints` has the names by their operators (`neg` is the prefix minus), `words` the operators by their names.
    """

    def __init__(self, lines=()):
        self.int, names = "int_0", {}
        for line in lines:
            words = line.split()
            if len(words) >= 3 and words[1:3] == ["type", "int"]:
                self.int = words[0]
            elif len(words) >= 3 and words[2].startswith("int.Int."):
                names[words[2][8:]] = words[0]
        self.ints = {word: names[name] for word, name in INTS.items() if name in names}
        self.words = {name: word for word, name in self.ints.items()}
        self.has_int = len(self.ints) == len(INTS)


class Problem:
    """A problem: its table, the symbols with their sorts, and its assertions in order, the last of them `not` of the goal."""

    def __init__(self, table):
        self.table, self.sorts, self.symbols, self.asserts, self.params, self.sensitive = table, [], {}, [], 0, 0
        self.shapes = None


def parts_of(text):
    """Returns the texts of the problems that `print` wrote, or the tables that `names` wrote, each without its first line."""
    return [it for it in re.split(r"^; \d+ of \d+\n", text, flags=re.M)[1:]]


def s_expressions(text):
    """Returns the s-expressions of a text: words as strings, lists as lists."""
    stack = [[]]
    for word in re.findall(r";[^\n]*|\(|\)|\|[^|]*\||\"(?:[^\"]|\"\")*\"|[^\s()]+", text):
        if word == "(":
            stack.append([])
        elif word == ")":
            if len(stack) < 2:
                raise Unreadable("a parenthesis too many")
            done = stack.pop()
            stack[-1].append(done)
        elif not word.startswith(";"):
            stack[-1].append(word)
    if len(stack) != 1:
        raise Unreadable("a parenthesis that isn't closed")
    return stack[0]


class Reader:
    """Makes trees of s-expressions. A place in `words` says which conjunctions and disjunctions are `&&` and `||`."""

    def __init__(self, problem, lazy=()):
        self.problem, self.table, self.lazy, self.met = problem, problem.table, lazy, 0

    def sort(self, word):
        if not isinstance(word, str):
            raise Unreadable(f"sort {word}")
        return self.table.int if word == "Int" else word

    def tree(self, it, env):
        """Returns the tree of an s-expression; `env` has the bound names with their sorts, the outermost first."""
        if isinstance(it, str):
            return self.word(it, env)
        if not it or not isinstance(it[0], str):
            raise Unreadable(f"form {it}")
        head, rest = it[0], it[1:]
        if head in ("forall", "exists"):
            return self.quantifier(head, rest[0], rest[1], env)
        if head == "let":
            return self.let(rest[0], rest[1], env)
        if head == "!":
            return self.tree(rest[0], env)
        place = self.met
        self.met += head in ("and", "or")
        args = [self.tree(a, env) for a in rest]
        return self.application(head, args, place)

    def word(self, it, env):
        for at in range(len(env) - 1, -1, -1):
            if env[at][0] == it:
                value = env[at][1]
                return t.bound(len(env) - 1 - at, value) if isinstance(value, str) else value
        if it in ("true", "false"):
            return t.TRUE if it == "true" else t.FALSE
        if re.fullmatch(r"-?\d+", it):
            return t.num(int(it), self.table.int)
        if it in self.problem.symbols:
            args, sort = self.problem.symbols[it]
            if not args:
                return t.param(int(it[1:]), sort) if re.fullmatch(r"c\d+", it) else t.sym(it, (), sort)
        raise Unreadable(f"name {it}")

    def quantifier(self, head, binders, body, env):
        inner, sorts = list(env), []
        for name, sort in binders:
            inner.append((name, self.sort(sort)))
            sorts.append(self.sort(sort))
        made = self.tree(body, inner)
        for sort in reversed(sorts):
            made = t.quantified(head, sort, made)
        return made

    def let(self, bindings, body, env):
        if len(bindings) != 1:
            raise Unreadable("a let of several names")
        value = self.tree(bindings[0][1], env)
        return t.let(value, self.tree(body, list(env) + [(bindings[0][0], value.sort)]))

    def application(self, head, args, place):
        if head == "not":
            return t.neg(*args)
        if head in ("and", "or"):
            word = head + {"and": "then", "or": "else"}[head] if place in self.lazy else head
            made = args[-1]
            for it in reversed(args[:-1]):
                made = t.join(word, it, made)
            return made
        if head == "=>":
            made = args[-1]
            for it in reversed(args[:-1]):
                made = t.join("imp", it, made)
            return made
        if head == "=":
            return t.join("iff", *args) if args[0].sort == t.BOOL else t.eq(*args)
        if head == "ite":
            return t.conditional(*args)
        if head in self.problem.symbols:
            sorts, sort = self.problem.symbols[head]
            if len(sorts) == len(args):
                return t.sym(head, args, sort)
        word = "neg" if head == "-" and len(args) == 1 else head
        if word in self.table.ints:
            made = args[0]
            if word == "neg":
                return t.sym(self.table.ints[word], args, self.table.int)
            for it in args[1:]:
                made = t.sym(self.table.ints[word], (made, it), t.BOOL if word[0] in "<>" else self.table.int)
            return made
        raise Unreadable(f"form ({head} ..)")


def read_problem(text, table, lazy=()):
    """Returns the problem of a text. The conjunctions and disjunctions at the places `lazy`, counted through the text, are
    `&&` and `||`; `sensitive` has how many there are.
    """
    problem = Problem(table)
    reader = Reader(problem, frozenset(lazy))
    for it in s_expressions(text):
        if not isinstance(it, list) or not it:
            raise Unreadable(f"command {it}")
        if it[0] == "declare-sort":
            problem.sorts.append(it[1])
        elif it[0] == "declare-fun":
            sort = it[3] if it[3] == t.BOOL else reader.sort(it[3])
            problem.symbols[it[1]] = (tuple(reader.sort(a) for a in it[2]), sort)
            if re.fullmatch(r"c\d+", it[1]):
                problem.params = max(problem.params, int(it[1][1:]) + 1)
        elif it[0] == "assert":
            problem.asserts.append(reader.tree(it[1], []))
    problem.sensitive = reader.met
    if not problem.asserts or problem.asserts[-1].op != "not":
        raise Unreadable("no goal")
    return problem
