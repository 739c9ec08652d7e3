"""What ./why3lift-prove does: prints a goal's problems, looks for a refutation of each, lifts them, and checks.

    ./why3lift-prove [OPTION..] SRC DRV THEORY GOAL

    --to FOLDER         where the files go: K.smt2, K.names and K.ref of each part, GOAL.der (default: lifted/THEORY.GOAL)
    --prover COMMAND    a prover to ask, z3, cvc4 or cvc5; may be given more than once (default: those that are installed)
    --no-prover         asks none
    --seconds S         of a processor, for each part (default: 10)
    --jobs N            parts at once (default: the processors)
    --program PATH      the program why3lift; also by the environment variable WHY3LIFT (default: the proved one)

Exit statuses: 0 accepted, 1 a part is open, or the goal is refused, 2 wrong words.
"""
import os
import re
import sys

import stack

from . import parts, provers

DEFAULTS = {"--to": None, "--seconds": "10", "--jobs": None, "--program": None}


class Words(Exception):
    """Words of another form."""


def options_of(words):
    """Returns the options and the four operands of the words."""
    options, operands, commands, at = dict(DEFAULTS), [], [], 0
    while at < len(words):
        word = words[at]
        if word == "--no-prover":
            options["none"] = True
        elif word in DEFAULTS or word == "--prover":
            at += 1
            if at == len(words):
                raise Words(f"{word} lacks its value")
            if word == "--prover":
                commands.append(words[at])
            else:
                options[word] = words[at]
        elif word.startswith("-"):
            raise Words(f"no option {word}")
        else:
            operands.append(word)
        at += 1
    if len(operands) != 4:
        raise Words("four operands are due")
    try:
        options["--seconds"] = float(options["--seconds"])
        options["--jobs"] = int(options["--jobs"] or len(os.sched_getaffinity(0)))
    except ValueError as it:
        raise Words("--seconds and --jobs take numbers") from it
    if options["--seconds"] <= 0 or options["--jobs"] < 1:
        raise Words("--seconds and --jobs take numbers above 0")
    unknown = [it for it in commands if provers.kind_of(it) is None]
    if unknown:
        raise Words(f"{unknown[0]} is no prover that is known")
    options["provers"] = [] if options.get("none") else commands or provers.installed()
    return options, operands


def write(folder, name, data):
    with open(os.path.join(folder, name), "wb") as it:
        it.write(data if isinstance(data, bytes) else data.encode())


def shown(part, count):
    """Returns the line of a part."""
    said = f"; {part.said}" if part.said else ""
    if part.steps is None:
        why = part.means or part.said or "no prover asked"
        return f"{part.number} of {count}: no refutation found ({why})"
    steps = f"{part.steps} {'step' if part.steps == 1 else 'steps'}"
    after = "" if part.settled else ", not lifted: a part before it is open"
    return f"{part.number} of {count}: refuted, {steps} ({part.means}{said}){after}"


def written(folder, made):
    """Writes the files of the parts into their folder, without what an earlier run left there."""
    os.makedirs(folder, exist_ok=True)
    for it in os.listdir(folder):
        if re.fullmatch(r"\d+\.(smt2|names|ref)", it):
            os.remove(os.path.join(folder, it))
    for it in made:
        write(folder, f"{it.number}.smt2", it.problem)
        write(folder, f"{it.number}.names", it.names)


def searched(made, options):
    done = []

    def tell(part):
        done.append(part)
        parts.tell_progress(f"{len(done)} of {len(made)} parts searched")

    parts.search(made, options["--seconds"], options["provers"], options["--jobs"], tell)
    parts.tell_progress("")


def prove(program, operands, options, say):
    """Proves a goal. Returns the status, the parts, and the derivation's file name where it is accepted."""
    source, _, theory, goal = operands
    status, problems, err = program.answer("print", *operands)
    if status:
        say(err.rstrip("\n"))
        return status, [], None
    tables = program.answer("names", *operands)[1].decode(errors="replace")
    problems = problems.decode(errors="replace")
    if problems.startswith("%"):
        say("the driver's printer is tptp-tff0; refutations are looked for in SMT-LIB texts")
        return 1, [], None
    folder, made = options["--to"] or os.path.join("lifted", f"{theory}.{goal}"), parts.parts_of(problems, tables)
    written(folder, made)
    searched(made, options)
    with open(source, encoding="utf-8", errors="replace") as it:
        lifting = parts.Lifting(program, operands, made, folder, it.read())
    lifting.settle_all(options["--seconds"], options["provers"])
    for part in made:
        part.stop()
        say(shown(part, len(made)))
    if any(it.steps is None for it in made):
        return 1, made, None
    file = os.path.join(folder, f"{goal}.der")
    write(folder, f"{goal}.der", lifting.lift(len(made))[1])
    status, out, err = program.answer("check", source, theory, goal, file)
    if status or out != b"accepted\n":
        say(f"check: {err.strip()}")
        return 1, made, None
    return 0, made, file


def main(words, command_of):
    """Runs with words; `command_of` gives the program's command where no option names one. Returns the exit status."""
    try:
        options, operands = options_of(words)
    except Words as it:
        print(f"why3lift-prove: {it}\n{__doc__.strip()}" if words else __doc__.strip(), file=sys.stderr)
        return 2
    named = options["--program"] or os.environ.get("WHY3LIFT")
    program = parts.Program([named] if named else command_of())
    try:
        status, made, file = prove(program, operands, options, print)
    except KeyboardInterrupt:
        parts.tell_progress("")
        return 130
    except parts.StackTooSmall as it:
        print(it, file=sys.stderr)
        return stack.TOO_SMALL
    if file:
        print(f"accepted: {file}")
    elif made:
        print("open:", *[it.number for it in made if it.steps is None])
    return status
