"""Looks for a refutation of one problem, and writes it as a file of steps.

    python3 tools/refuter PROBLEM NAMES [--locals N] [--seconds S] [--prover COMMAND].. [--own]

PROBLEM has the text of one problem, and NAMES its name table, as `print` and `names` of why3lift write them. The last N
assertions before the goal are locals, and those before them facts.
"""
import argparse
import os
import sys

sys.dont_write_bytecode = True
if __package__ in (None, ""):
    sys.path.insert(0, os.path.dirname(os.path.dirname(os.path.realpath(__file__))))

from refuter import provers, reader, refute, writer  # pylint: disable=wrong-import-position


def text_of(file):
    with open(file, encoding="utf-8") as it:
        return it.read()


def main():
    words = argparse.ArgumentParser(usage=__doc__)
    words.add_argument("problem")
    words.add_argument("names")
    words.add_argument("--locals", type=int, default=0)
    words.add_argument("--seconds", type=float, default=10)
    words.add_argument("--prover", action="append")
    words.add_argument("--own", action="store_true")
    said = words.parse_args()
    commands = [] if said.own else said.prover or provers.installed()

    def call():
        table = reader.Table(text_of(said.names).splitlines())
        problem = reader.read_problem(text_of(said.problem), table)
        found = refute.refute(problem, said.seconds, commands)
        if found.node is None:
            return found, ""
        return found, writer.text_of(found.node, problem.asserts, said.locals)

    made, fault = refute.with_room(call)
    if fault:
        sys.exit(f"refuter: {fault}")
    found, text = made
    sys.stdout.write(text)
    if found.node is None:
        print(f"no refutation found; {found.said or 'no prover asked'}", file=sys.stderr)
        return 1
    print(f"refuted: {found.node.steps} steps, {found.means}; {found.said}", file=sys.stderr)
    return 0


if __name__ == "__main__":
    sys.exit(main())
