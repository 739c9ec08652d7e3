"""Tests of the search: problems are refuted or not, each file is right by a second check, and wrong files aren't.

Run by `python3 -m unittest discover -s tools/refuter/tests -t tools`.
"""
import itertools
import random
import tempfile
import unittest

from .. import arithmetic, lazy, parts, provers, reader, refute, writer
from .. import terms as t
from ..closure import Closure
from ..shapes import Shapes
from .check import File, Wrong
from .problems import INTS, LIST, ROWS

TABLE = reader.Table(INTS.splitlines())


def problem_of(text, lazy=()):
    return reader.read_problem(text, TABLE, lazy)


class Reading(unittest.TestCase):
    def test_table(self):
        self.assertTrue(TABLE.has_int)
        self.assertEqual(TABLE.ints["neg"], "prefix_minus_1")
        self.assertFalse(reader.Table(["int_0 type int"]).has_int)

    def test_parts(self):
        self.assertEqual(reader.parts_of("; 1 of 2\na\n; 2 of 2\nb\n"), ["a\n", "b\n"])

    def test_variables_count_binders(self):
        made = problem_of("(declare-sort t_1 0)(declare-fun p_2 (t_1 t_1) Bool)(assert (not (forall ((x0 t_1)) (exists ((x1 t_1)) (p_2 x0 x1)))))")
        inner = made.asserts[0].args[0].args[0].args[0]
        self.assertEqual([it.data for it in inner.args], [1, 0])

    def test_lazy_places(self):
        text = "(declare-fun p_1 () Bool)(assert (not (and (or p_1 p_1) p_1)))"
        self.assertEqual(problem_of(text, [0]).asserts[0].args[0].op, "andthen")
        self.assertEqual(problem_of(text, [1]).asserts[0].args[0].args[0].op, "orelse")
        self.assertEqual(problem_of(text).sensitive, 2)

    def test_other_texts(self):
        for text in ("(assert p)", "(assert (not (p_1 2)))", "(assert", ")", "", "(assert true)"):
            with self.assertRaises(reader.Unreadable):
                problem_of(text)


class Types(unittest.TestCase):
    GOAL = "(assert (not (= nil_10 nil_10)))"

    def test_shapes(self):
        made = Shapes(problem_of(LIST + self.GOAL).asserts)
        self.assertEqual(made.constructors, {"nil_10", "cons_11"})
        self.assertEqual(made.projections, {"consq1_12", "consq2_13"})
        self.assertEqual(made.asked, {("consq1_12", 0), ("consq2_13", 0), ("length_14", 0)})

    def test_other_shapes(self):
        inverse = "(declare-sort t_1 0)(declare-fun f_2 (t_1) t_1)(declare-fun g_3 (t_1) t_1)(assert (forall ((x0 t_1)) (= x0 (f_2 (g_3 x0)))))"
        for text in (inverse + "(assert (not true))", LIST.replace("(consq2_13 (cons_11 x0 x1)) x1", "x1 x1") + self.GOAL):
            made = Shapes(problem_of(text).asserts)
            self.assertEqual((made.constructors, made.asked), (set(), set()))


class Searching(unittest.TestCase):
    def test_rows(self):
        for name, text, locals_count, wanted in ROWS:
            with self.subTest(name):
                problem = problem_of(text)
                found = refute.refute(problem, 5)
                self.assertEqual(found.node is not None, wanted)
                if found.node:
                    File(problem, locals_count).read(writer.text_of(found.node, problem.asserts, locals_count))

    def test_wrong_files(self):
        problem = problem_of(ROWS[1][1])
        text = writer.text_of(refute.refute(problem, 5).node, problem.asserts, 0)
        lines = text.splitlines()
        for at in range(len(lines)):
            with self.assertRaises(Wrong):
                File(problem).read("\n".join(lines[:at] + lines[at + 1 :]))
        with self.assertRaises(Wrong):
            File(problem, 1).read(text)

    def test_random_formulas(self):
        draw = random.Random(3)
        atoms = [t.sym(it, (), t.BOOL) for it in "pqr"]
        valid = 0
        for _ in range(300):
            formula = drawn(draw, atoms, 4)
            holds = all(value(formula, dict(zip(atoms, it))) for it in itertools.product((False, True), repeat=3))
            problem = problem_of("(declare-fun p () Bool)(declare-fun q () Bool)(declare-fun r () Bool)(assert (not true))")
            problem.asserts = [t.neg(formula)]
            found = refute.refute(problem, 5)
            self.assertEqual(found.node is not None, holds, formula)
            valid += holds
            if holds:
                File(problem).read(writer.text_of(found.node, problem.asserts, 0))
        self.assertGreater(valid, 20)


def drawn(draw, atoms, depth):
    if depth == 0 or draw.random() < 0.1:
        return draw.choice(atoms)
    word = draw.choice(("not", "and", "or", "imp", "iff", "if", "andthen", "orelse"))
    parts_ = [drawn(draw, atoms, depth - 1) for _ in range({"not": 1, "if": 3}.get(word, 2))]
    return t.make(word, None, parts_, t.BOOL)


def value(formula, of):
    if formula in of:
        return of[formula]
    said = [value(it, of) for it in formula.args]
    a, b = said[0], said[-1]
    kind = {"andthen": "and", "orelse": "or"}.get(formula.op, formula.op)
    return {"not": not a, "and": a and b, "or": a or b, "imp": not a or b, "iff": a == b, "if": said[1] if a and len(said) > 1 else b}[kind]


class Classes(unittest.TestCase):
    def test_undo(self):
        draw = random.Random(5)
        names = [t.sym(it, (), "t") for it in "abcd"]
        terms = names + [t.sym("f", (it,), "t") for it in names] + [t.sym("g", it, "t") for it in itertools.product(names, repeat=2)]
        for _ in range(60):
            closure = Closure(TABLE)
            for it in terms:
                closure.add(it)
            before = snapshot(closure, terms)
            mark = closure.mark()
            for _ in range(draw.randint(1, 6)):
                one, two = draw.choice(terms), draw.choice(terms)
                closure.assume(t.eq(one, two))
                for wraps in [closure.chain(lambda it: it, one, two)]:
                    self.assertTrue(closure.equal(one, two))
                    self.assertTrue(wraps or one is two)
            closure.undo(mark)
            self.assertEqual(snapshot(closure, terms), before)


def snapshot(closure, terms):
    return [[closure.equal(one, two) for two in terms] for one in terms]


class Sums(unittest.TestCase):
    def test_against_all_values(self):
        """Small systems: where no values in a box satisfy them, and rational ones neither, the multipliers add up to a contradiction."""
        draw = random.Random(9)
        closed = 0
        for _ in range(300):
            sums, simplex, formulas, pairs = arithmetic.Sums(TABLE), arithmetic.Simplex(), [], None
            for _ in range(draw.randint(2, 6)):
                formulas.append(inequality(draw))
                pairs = simplex.assume(formulas[-1], sums.of_literal(formulas[-1])) or simplex.check()
                if pairs:
                    break
            if pairs is None:
                values = {atom: simplex.value_of(sums.of(atom)) for atom in ATOMS}
                for it in formulas:
                    (atoms, constant), equation = sums.of_literal(it)
                    total = constant + sum(c * values[a] for a, c in atoms.items())
                    self.assertTrue(total == 0 if equation else total <= 0)
                continue
            closed += 1
            total = ({}, 0)
            for formula, multiplier in pairs:
                made, equation = sums.of_literal(formula)
                self.assertTrue(equation or multiplier >= 0)
                total = arithmetic.added(total, made, multiplier)
            self.assertEqual(total[0], {})
            self.assertGreater(total[1], 0)
        self.assertGreater(closed, 50)


ATOMS = [t.param(it, TABLE.int) for it in range(3)]


def inequality(draw):
    def side():
        made = t.num(draw.randint(-3, 3), TABLE.int)
        for it in ATOMS:
            part = t.sym(TABLE.ints["*"], (t.num(draw.randint(-2, 2), TABLE.int), it), TABLE.int)
            made = t.sym(TABLE.ints[draw.choice("+-")], (made, part), TABLE.int)
        return made

    word = draw.choice(("<", "<=", ">", ">=", "="))
    if word == "=":
        return t.eq(side(), side())
    made = t.sym(TABLE.ints[word], (side(), side()), t.BOOL)
    return t.neg(made) if draw.random() < 0.3 else made


class Provers(unittest.TestCase):
    PROBLEM = "(declare-sort t_1 0)(declare-fun p_2 (t_1) Bool)(declare-fun c0 () t_1)(assert (forall ((x0 t_1)) (p_2 x0)))(assert (not (p_2 c0)))"

    def test_lists_of_instances(self):
        problem = problem_of(self.PROBLEM)
        z3 = "unsat\n((proof (let (($x1 (forall ((x0 t_1)) (p_2 x0)))) (mp ((_ quant-inst c0) (or (not $x1) (p_2 c0))) false))))"
        cvc = "unsat\n(instantiation (forall ((x0 t_1)) (p_2 x0)) ( c0 ) )\n"
        for found in (provers.z3_instances(problem, z3), provers.cvc_instances(problem, cvc)):
            self.assertEqual([(sorts, words) for sorts, words, _ in found], [(["t_1"], ["c0"])])
            given = provers.hints(problem, problem.asserts, found)
            universal = refute.tableau.instances.Universal(problem.asserts[0], TABLE, Shapes(problem.asserts))
            self.assertEqual(given(universal), [(t.param(0, "t_1"),)])

    def test_installed_provers(self):
        problem = problem_of(ROWS[-2][1])
        for command in provers.installed():
            with self.subTest(command):
                self.assertEqual(provers.verdict(command, problem, problem.asserts, 5)[0], "unsat")
                self.assertTrue(provers.instances(command, problem, problem.asserts, 5))


class Stub:
    """A program whose `lift` tests the files by the second check, for problems with this many locals and these lazy places."""

    def __init__(self, made, locals_count, lazy):
        self.made, self.locals, self.lazy, self.calls = made, locals_count, lazy, 0

    def answer(self, _, *words):
        self.calls += 1
        for part, name in zip(self.made, words):
            with open(name, encoding="utf-8") as it:
                text = it.read()
            try:
                File(reader.read_problem(part.problem, reader.Table(part.names.splitlines()), self.lazy), self.locals).read(text)
            except reader.Unreadable:
                return 1, b"", f"refused: 91 {part.number} 1\n"
            except Wrong as it:
                return 1, b"", f"refused: 91 {part.number} {str(it).split()[1].rstrip(':')}\n"
        return 0, b"derivation", ""


class Parts(unittest.TestCase):
    LOCALS = "(declare-fun p_1 () Bool)(declare-fun q_2 () Bool)(assert (=> p_1 q_2))(assert p_1)(assert (not q_2))"
    LAZY = "(declare-fun p_1 () Bool)(declare-fun q_2 () Bool)(assert (and p_1 q_2))(assert (not (or q_2 p_1)))"

    def settled(self, problems, locals_count, choice, source):
        made = [parts.Part(at, problem, INTS) for at, problem in enumerate(problems, 1)]
        with tempfile.TemporaryDirectory() as folder:
            stub = Stub(made, locals_count, choice)
            parts.search(made, 5, [], 2)
            done = parts.Lifting(stub, [], made, folder, source).settle_all(5, [])
            for it in made:
                it.stop()
        return done, [it.settled for it in made], stub.calls

    def test_locals(self):
        for count in range(3):
            self.assertEqual(self.settled([self.LOCALS, self.LOCALS], count, (), "")[:2], (True, [True, True]))
        self.assertEqual(self.settled([self.LOCALS] * 4, 0, (), "")[2], 1)

    def test_lazy(self):
        sources = {(): "/\\ \\/", (0,): "&& \\/", (1,): "/\\ ||", (0, 1): "&& ||"}
        for choice, source in sources.items():
            self.assertEqual(self.settled([self.LAZY], 0, choice, source)[:2], (True, [True]))
        self.assertEqual(self.settled([self.LAZY], 0, (0,), "")[:2], (False, [False]))

    def test_open_parts(self):
        no = "(declare-fun p_1 () Bool)(assert (not p_1))"
        self.assertEqual(self.settled([self.LOCALS, no, self.LOCALS], 1, (), "")[:2], (False, [True, False, False]))
        self.assertEqual(self.settled([self.LOCALS, "(assert", self.LOCALS], 1, (), "")[:2], (False, [True, False, False]))

    def test_choices(self):
        text = "(assert (not (or (and p q) r)))"
        self.assertEqual(lazy.choices(text, "goal g: p && q \\/ r"), [frozenset([1])])
        self.assertEqual(lazy.choices(text, "goal g: (p /\\ q) || r")[0], frozenset([0]))
        both = "(assert (and p q))(assert (not (and q (and p (or q p)))))"
        self.assertEqual(lazy.choices(both, "axiom a: p && q goal g: q /\\ p && (q || p)")[0], frozenset([0, 2, 3]))


if __name__ == "__main__":
    unittest.main()
