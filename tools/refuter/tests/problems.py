"""Problems as `print` writes them, for the tests: name, text, number of locals, whether a refutation is there to be found."""

INTS = """int_0 type int
prefix_minus_1 function int.Int.(-_)
infix_plus_2 function int.Int.(+)
infix_minus_3 function int.Int.(-)
infix_star_4 function int.Int.(*)
infix_lt_5 predicate int.Int.(<)
infix_lt_eq_6 predicate int.Int.(<=)
infix_gt_7 predicate int.Int.(>)
infix_gt_eq_8 predicate int.Int.(>=)
"""

# Lists of integers with their length, as eliminate_recursion and eliminate_algebraic write them.
LIST = (
    "(declare-sort list_9 0)(declare-fun nil_10 () list_9)(declare-fun cons_11 (Int list_9) list_9)(declare-fun consq1_12 (list_9) Int)"
    "(declare-fun consq2_13 (list_9) list_9)(declare-fun length_14 (list_9) Int)"
    "(assert (forall ((x0 Int)) (forall ((x1 list_9)) (= (consq1_12 (cons_11 x0 x1)) x0))))"
    "(assert (forall ((x0 Int)) (forall ((x1 list_9)) (= (consq2_13 (cons_11 x0 x1)) x1))))"
    "(assert (forall ((x0 Int)) (forall ((x1 list_9)) (not (= nil_10 (cons_11 x0 x1))))))"
    "(assert (forall ((x0 list_9)) (or (= x0 nil_10) (= x0 (cons_11 (consq1_12 x0) (consq2_13 x0))))))"
    "(assert (= (length_14 nil_10) 0))"
    "(assert (forall ((x0 Int)) (forall ((x1 list_9)) (= (length_14 (cons_11 x0 x1)) (+ 1 (length_14 x1))))))"
)
ROWS = [
    ("a fact", "(declare-fun p_1 () Bool)(assert p_1)(assert (not p_1))(check-sat)", 0, True),
    (
        "an implication",
        "(declare-fun p_1 () Bool)(declare-fun q_2 () Bool)(assert p_1)(assert (not (=> q_2 p_1)))(check-sat)",
        0,
        True,
    ),
    ("no reason", "(declare-fun p_1 () Bool)(declare-fun q_2 () Bool)(assert p_1)(assert (not q_2))(check-sat)", 0, False),
    ("every truth value", "(declare-fun p_1 () Bool)(declare-fun q_2 () Bool)(assert (not (= (= p_1 q_2) (= q_2 p_1))))", 0, True),
    ("false at once", "(assert false)(assert (not true))", 1, True),
    (
        "some before all",
        "(declare-sort t_1 0)(declare-fun p_2 (t_1 t_1) Bool)(assert (not (=> (exists ((x0 t_1)) (forall ((x1 t_1)) (p_2 x0 x1)))"
        " (forall ((x0 t_1)) (exists ((x1 t_1)) (p_2 x1 x0))))))",
        0,
        True,
    ),
    (
        "a type has a value",
        "(declare-sort t_1 0)(declare-fun p_2 (t_1) Bool)(assert (forall ((x0 t_1)) (p_2 x0)))(assert (not (exists ((x0 t_1)) (p_2 x0))))",
        0,
        True,
    ),
    (
        "congruence two levels up",
        "(declare-sort t_1 0)(declare-fun a_2 () t_1)(declare-fun b_3 () t_1)(declare-fun f_4 (t_1 t_1) t_1)(assert (= a_2 b_3))"
        "(assert (not (= (f_4 (f_4 a_2 b_3) a_2) (f_4 (f_4 b_3 a_2) b_3))))",
        0,
        True,
    ),
    (
        "an equation read backwards",
        "(declare-sort t_1 0)(declare-fun a_2 () t_1)(declare-fun b_3 () t_1)(declare-fun p_4 (t_1) Bool)(assert (= a_2 b_3))"
        "(assert (p_4 b_3))(assert (not (p_4 a_2)))",
        1,
        True,
    ),
    ("a sum", "(declare-fun c0 () Int)(declare-fun c1 () Int)(assert (< c0 c1))(assert (not (<= (+ c0 1) c1)))", 1, True),
    ("a sum that holds", "(declare-fun c0 () Int)(declare-fun c1 () Int)(assert (<= c0 c1))(assert (not (< c0 c1)))", 1, False),
    ("equal by bounds", "(declare-fun c0 () Int)(declare-fun c1 () Int)(assert (<= c0 c1))(assert (<= c1 c0))(assert (not (= c0 c1)))", 2, True),
    ("no half", "(declare-fun c0 () Int)(assert (= (* 2 c0) 5))(assert (not false))", 1, True),
    ("no third of a sum", "(declare-fun c0 () Int)(declare-fun c1 () Int)(assert (not (not (= (+ (* 3 c0) (* 6 c1)) 1))))", 0, True),
    (
        "numbers as arguments",
        "(declare-fun f_9 (Int) Int)(declare-fun c0 () Int)(assert (= c0 (+ 1 1)))(assert (not (= (f_9 c0) (f_9 2))))",
        1,
        True,
    ),
    ("a conditional", "(declare-fun c0 () Int)(assert (not (>= (ite (< c0 0) (- c0) c0) 0)))", 0, True),
    ("a conditional formula", "(declare-fun c0 () Int)(assert (not (ite (< c0 0) (< c0 1) (>= c0 0))))", 0, True),
    ("a let", "(declare-fun c0 () Int)(assert (not (let ((x0 (+ c0 1))) (let ((x1 (+ x0 x0))) (= x1 (+ (* 2 c0) 2))))))", 0, True),
    ("a let in a term", "(declare-fun f_9 (Int) Int)(declare-fun c0 () Int)(assert (not (= (f_9 (let ((x0 c0)) x0)) (f_9 c0))))", 0, True),
    ("the next number", "(assert (not (forall ((x0 Int)) (exists ((x1 Int)) (< x0 x1)))))", 0, True),
    (
        "a list of one number",
        LIST + "(assert (forall ((x0 list_9)) (>= (length_14 x0) 0)))(assert (not (= (length_14 (cons_11 1 nil_10)) 1)))(check-sat)",
        0,
        True,
    ),
    (
        "a list without length",
        LIST + "(declare-fun c0 () list_9)(assert (forall ((x0 list_9)) (>= (length_14 x0) 0)))"
        "(assert (not (=> (= (length_14 c0) 0) (= c0 nil_10))))",
        0,
        True,
    ),
    (
        "a list of two by its length",
        LIST + "(declare-fun c0 () list_9)(assert (forall ((x0 list_9)) (>= (length_14 x0) 0)))(assert (= (length_14 c0) 2))"
        "(assert (not (exists ((x0 Int)) (exists ((x1 Int)) (= c0 (cons_11 x0 (cons_11 x1 nil_10)))))))",
        1,
        True,
    ),
    (
        "two constructors of one value",
        "(declare-sort t_9 0)(declare-fun a_10 (Int) t_9)(declare-fun b_11 (Int) t_9)(declare-fun aq1_12 (t_9) Int)(declare-fun bq1_13 (t_9) Int)"
        "(declare-fun c0 () t_9)(declare-fun c1 () Int)(declare-fun c2 () Int)(assert (forall ((x0 Int)) (= (aq1_12 (a_10 x0)) x0)))"
        "(assert (forall ((x0 Int)) (= (bq1_13 (b_11 x0)) x0)))(assert (forall ((x0 Int)) (forall ((x1 Int)) (not (= (a_10 x0) (b_11 x1))))))"
        "(assert (forall ((x0 t_9)) (or (= x0 (a_10 (aq1_12 x0))) (= x0 (b_11 (bq1_13 x0))))))"
        "(assert (= c0 (a_10 c1)))(assert (not (not (= c0 (b_11 c2)))))",
        1,
        True,
    ),
    (
        "clauses of even",
        "(declare-fun even_9 (Int) Bool)(assert (even_9 0))"
        "(assert (forall ((x0 Int)) (=> (>= x0 0) (=> (even_9 x0) (even_9 (+ x0 2))))))"
        "(assert (forall ((x0 Int)) (=> (even_9 x0) (or (= x0 0) (exists ((x1 Int)) (and (>= x1 0) (and (even_9 x1) (= x0 (+ x1 2)))))))))"
        "(assert (not (not (even_9 1))))",
        0,
        True,
    ),
]
