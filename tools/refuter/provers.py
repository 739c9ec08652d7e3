"""What a prover that is installed says of a problem: whether it is unsat, which assertions it used, which instances it made.

z3, cvc4 and cvc5 are known. Nothing that they say is believed: an instance is a hint where to look, as in Sledgehammer, whose
provers name the facts that a reconstruction then uses.
"""
import re
import shutil
import subprocess

from . import reader
from . import terms as t

KNOWN = ("z3", "cvc5", "cvc4")
WORDS = {"not": "not", "and": "and", "andthen": "and", "or": "or", "orelse": "or"}
WORDS.update({"imp": "=>", "iff": "=", "eq": "=", "if": "ite"})


def installed():
    return [it for it in KNOWN if shutil.which(it)]


def kind_of(command):
    """Returns which of the known provers a command is, by its name."""
    name = command.rsplit("/", 1)[-1]
    return next((it for it in KNOWN if name.startswith(it)), None)


def run(command, flags, text, seconds):
    try:
        ran = subprocess.run([command, *flags], input=text.encode(), capture_output=True, timeout=seconds, check=False)
    except (OSError, subprocess.TimeoutExpired):
        return ""
    return ran.stdout.decode(errors="replace")


class Printer:
    """Prints formulas of a branch for a prover."""

    def __init__(self, problem):
        self.problem, self.table = problem, problem.table

    def sort(self, sort):
        return "Int" if sort == self.table.int else sort

    def tree(self, it, depth=0):
        op = it.op
        if op == "bound":
            return f"x{depth - 1 - it.data}"
        if op == "param":
            return f"c{it.data}"
        if op == "num":
            return str(it.data) if it.data >= 0 else f"(- {-it.data})"
        if op in ("true", "false"):
            return op
        if op in ("forall", "exists"):
            return f"({op} ((x{depth} {self.sort(it.data)})) {self.tree(it.args[0], depth + 1)})"
        if op == "let":
            return f"(let ((x{depth} {self.tree(it.args[0], depth)})) {self.tree(it.args[1], depth + 1)})"
        head = WORDS.get(op) or self.table.words.get(it.data, it.data)
        parts = " ".join(self.tree(a, depth) for a in it.args)
        return f"({'-' if head == 'neg' else head} {parts})" if it.args else head

    def text(self, formulas, named=False):
        lines = [f"(declare-sort {it} 0)" for it in self.problem.sorts]
        for name, (args, sort) in self.problem.symbols.items():
            if not re.fullmatch(r"c\d+", name):
                lines.append(f"(declare-fun {name} ({' '.join(map(self.sort, args))}) {self.sort(sort)})")
        params = {}
        for formula in formulas:
            for it, _ in t.subtrees(formula):
                if it.op == "param":
                    params[it.data] = it.sort
        lines += [f"(declare-fun c{n} () {self.sort(sort)})" for n, sort in sorted(params.items())]
        for at, it in enumerate(formulas):
            shown = self.tree(it)
            lines.append(f"(assert (! {shown} :named a{at}))" if named else f"(assert {shown})")
        return "\n".join(lines) + "\n"


def verdict(command, problem, formulas, seconds):
    """Returns what a prover says of formulas (`unsat`, `sat`, `unknown`), and the places of those that it used."""
    kind, printed = kind_of(command), Printer(problem).text(formulas, True)
    text = "(set-option :produce-unsat-cores true)\n(set-logic ALL)\n" + printed + "(check-sat)\n(get-unsat-core)\n"
    flags = ["-in", f"-T:{max(1, int(seconds))}"] if kind == "z3" else ["--lang=smt2", f"--tlimit={int(seconds * 1000)}"]
    if kind == "cvc4":
        text = text.replace("(set-logic ALL)", "(set-logic ALL_SUPPORTED)")
    said = run(command, flags, text, seconds + 2).split("\n", 1)
    word = said[0].strip()
    core = [int(it) for it in re.findall(r"\ba(\d+)\b", said[1])] if word == "unsat" and len(said) > 1 else None
    return word if word in ("unsat", "sat", "unknown") else "no answer", core


def instances(command, problem, formulas, seconds):
    """Returns the instances that a prover made: lists of the bound sorts, the terms, and the symbols of the formula."""
    kind, printed = kind_of(command), Printer(problem).text(formulas)
    if kind == "z3":
        text = "(set-option :produce-proofs true)\n" + printed + "(check-sat)\n(get-proof)\n"
        return z3_instances(problem, run(command, ["-in", f"-T:{max(1, int(seconds))}"], text, seconds + 2))
    logic = "ALL_SUPPORTED" if kind == "cvc4" else "ALL"
    whole = ["--miniscope-quant=off"] if kind == "cvc5" else ["--no-miniscope-quant"]
    flags = ["--lang=smt2", "--dump-instantiations", f"--tlimit={int(seconds * 1000)}", *whole, "--prenex-quant=none"]
    text = f"(set-logic {logic})\n" + printed + "(check-sat)\n"
    said = run(command, flags, text, seconds + 2)
    if not said:
        said = run(command, flags[:3], text, seconds + 2)
    return cvc_instances(problem, said)


class Terms:
    """Reads terms of a prover; None for one with a symbol that the problem doesn't have."""

    def __init__(self, problem, formulas):
        self.params = {}
        for formula in formulas:
            for it, _ in t.subtrees(formula):
                if it.op == "param":
                    self.params[f"c{it.data}"] = it
        self.reader = reader.Reader(problem)

    def read(self, it):
        env = [(name, term) for name, term in self.params.items()]
        try:
            return self.reader.tree(flat(it), env)
        except (reader.Unreadable, IndexError, TypeError, KeyError):
            return None


def flat(it):
    """Returns an s-expression in which `(- 3)` is a number as our texts have it, and sums have two parts."""
    return [flat(a) for a in it] if isinstance(it, list) else it


def symbols_of(it, found):
    if isinstance(it, str):
        found.add(it)
    else:
        for a in it:
            symbols_of(a, found)
    return found


def binders_of(it):
    return [pair[1] for pair in it[1]]


def cvc_instances(problem, text):
    found = []
    try:
        forms = reader.s_expressions(text)
    except reader.Unreadable:
        return found
    for it in forms:
        if isinstance(it, list) and it and it[0] in ("instantiation", "instantiations") and isinstance(it[1], list):
            quantifier = it[1]
            if quantifier and quantifier[0] == "forall":
                for row in it[2:]:
                    words = [word for word in comma_free(row) if word != ""]
                    found.append((binders_of(quantifier), words, symbols_of(quantifier, set())))
    return found


def comma_free(row):
    return [it.rstrip(",") if isinstance(it, str) else it for it in row if it != ","]


def z3_instances(problem, text):
    """Returns the instances of a proof of z3: steps `((_ quant-inst t ..) (or (not Q) ..))`, in which names stand for parts."""
    found, names = [], {}
    try:
        forms = reader.s_expressions(text)
    except reader.Unreadable:
        return found

    def whole(it, fuel=60):
        while isinstance(it, str) and it in names and fuel:
            it, fuel = names[it], fuel - 1
        if isinstance(it, list) and fuel:
            return [whole(a, fuel - 1) for a in it]
        return it

    def walk(root):
        stack = [root]
        while stack:
            it = stack.pop()
            if not isinstance(it, list) or not it:
                continue
            if it[0] == "let" and len(it) == 3:
                for name, value in it[1]:
                    names[name] = value
                    stack.append(value)
                stack.append(it[2])
                continue
            if isinstance(it[0], list) and it[0][:2] == ["_", "quant-inst"] and len(it) > 1:
                steps.append((it[0][2:], it[1]))
            stack.extend(it)

    steps = []
    for it in forms:
        walk(it)
    for terms, claim in steps:
        claim = whole(claim, 40)
        quantifier = claim[1][1] if claim[0] == "or" and isinstance(claim[1], list) and claim[1][0] == "not" else None
        if quantifier and quantifier[0] == "forall":
            found.append((binders_of(quantifier), [whole(a) for a in terms], symbols_of(quantifier, set())))
    return found


def hints(problem, formulas, found):
    """Returns a function from a universal formula to the tuples of terms that a prover's instances give it."""
    terms, rows, by_sort = Terms(problem, formulas), [], {}
    for sorts, words, symbols in found:
        made = [terms.read(it) for it in words]
        named = ["int" if it == "Int" else it for it in sorts]
        for it in made:
            if it is not None and it not in by_sort.setdefault(it.sort, []):
                by_sort[it.sort].append(it)
        if None not in made and len(made) == len(named):
            rows.append((tuple(it.sort for it in made), tuple(made), symbols))

    def of(universal):
        wanted, given = tuple(universal.sorts), []
        for sorts, made, symbols in rows:
            if sorts == wanted and universal.symbols <= symbols:
                given.append(made)
            elif len(sorts) > len(wanted) and universal.symbols <= symbols and sorts[: len(wanted)] == wanted:
                given.append(made[: len(wanted)])
        if not given and len(wanted) == 1:
            given = [(it,) for it in by_sort.get(wanted[0], [])[:30]]
        elif not given:
            given = list(small_product([by_sort.get(sort, [])[:12] for sort in wanted]))
        return given

    return of


def small_product(lists, most=60):
    made = [()]
    for items in lists:
        made = [one + (it,) for one in made for it in items][:most]
    return made
