"""Looks for a refutation of one problem: attempts with growing limits, and the instances of a prover where one is installed."""
import sys
import threading
import time

from . import branch, provers, tableau
from .shapes import Shapes

OWN = [
    branch.Limits(age=1, instances=60, listed=0, rounds=0, splits=60),
    branch.Limits(age=2, instances=200, listed=12, rounds=2, splits=300),
    branch.Limits(age=3, instances=500, listed=25, rounds=4, splits=1500),
    branch.Limits(age=5, instances=1500, listed=50, rounds=6, splits=8000),
    branch.Limits(age=8, instances=5000, listed=100, rounds=12, splits=50000),
]
# Where types have cases, an attempt that follows them some steps, by patterns alone.
CASES = branch.Limits(age=4, instances=400, listed=0, rounds=0, splits=400)
HINTED = [
    branch.Limits(age=0, instances=300, listed=0, rounds=0, splits=1500),
    branch.Limits(age=1, instances=500, listed=12, rounds=2, splits=3000),
]


class Found:
    """What a search gives: the node, or None; by which means; what the prover said, if one was asked."""

    def __init__(self, node=None, means="", said=""):
        self.node, self.means, self.said = node, means, said


def attempt(problem, formulas, limits, deadline, hints=None):
    """Returns a node that refutes the formulas, or None."""
    search = tableau.Search(problem, deadline, hints)
    search.limits = limits
    search.enqueue(formulas, 0)
    try:
        return search.solve()
    except branch.Open:
        return None


def root_of(problem, formulas, deadline):
    """Returns the formulas of the branch before its first split and instance."""
    search = tableau.Search(problem, deadline)
    search.enqueue(formulas, 0)
    search.saturate([])
    return list(search.facts)


def is_useful(formula):
    return branch.parts_of(formula) is None and formula.op not in ("true",)


def hinted(problem, formulas, command, deadline):
    """Returns a node that is found by a prover's instances, or None."""
    shown = [it for it in root_of(problem, formulas, deadline) if is_useful(it)]
    found = provers.instances(command, problem, shown, max(1, min(5, deadline - time.process_time())))
    if not found:
        return None
    given = provers.hints(problem, shown, found)
    for limits in HINTED:
        node = attempt(problem, formulas, limits, deadline, given)
        if node is not None:
            return node
    return None


def attempts(problem):
    """Returns the limits of the attempts before any prover is asked."""
    has_cases = bool(Shapes(problem.asserts).constructors)
    return [OWN[0], CASES, *OWN[1:3]] if has_cases else OWN[:3]


def refute(problem, seconds=10.0, commands=()):
    """Looks for a refutation of a problem with these provers, for so many seconds of a processor. Returns what was found."""
    begin = time.process_time()
    deadline, formulas, found, tried = begin + seconds, problem.asserts, Found(), 0
    try:
        first = min(deadline, begin + max(0.5, seconds / 8))
        try:
            for limits in attempts(problem):
                node = attempt(problem, formulas, limits, first)
                if node is not None:
                    return Found(node, "own search")
                tried += limits in OWN
        except branch.Late:
            pass
        for command in commands:
            name = provers.kind_of(command)
            said, core = provers.verdict(command, problem, formulas, max(1, seconds / 4))
            found.said += f"{', ' if found.said else ''}{name}: {said}"
            if said == "sat":
                return found
            used = [formulas[at] for at in core] if core is not None else formulas
            if said == "unsat":
                limit = min(deadline, time.process_time() + seconds / 4)
                node = named(problem, used, command, limit, found, name)
                if node is not None:
                    return node
        for limits in OWN[tried:]:
            node = attempt(problem, formulas, limits, deadline)
            if node is not None:
                return Found(node, "own search", found.said)
    except branch.Late:
        pass
    return found


def named(problem, used, command, limit, found, name):
    """Looks for a refutation with what a prover names: its instances, then its assertions alone."""
    try:
        node = hinted(problem, used, command, limit)
        if node is not None:
            return Found(node, f"instances by {name}", found.said)
        if len(used) < len(problem.asserts):
            for limits in OWN[1:3]:
                node = attempt(problem, used, limits, limit)
                if node is not None:
                    return Found(node, f"assertions by {name}", found.said)
    except branch.Late:
        pass
    return None


def with_room(call):
    """Returns what a call returns, in a thread with room for deep recursion."""
    sys.setrecursionlimit(200000)
    threading.stack_size(512 * 1024 * 1024)
    made = []

    def body():
        try:
            made.append((call(), None))
        except Exception as it:  # pylint: disable=broad-except
            made.append((None, it))

    thread = threading.Thread(target=body)
    thread.start()
    thread.join()
    return made[0] if made else (None, RuntimeError("the search broke off"))
