"""What the launchers do: prove and build a program before they run it, or run its sources by a trial run."""
import os
import re
import shutil
import signal
import subprocess
import sys
import tempfile

import stack

ROOT = os.path.dirname(os.path.dirname(os.path.realpath(__file__)))
# Lines of code that are proved in a minute, from nothing, on four processors of a common machine; and crates that are
# loaded and built in a minute beside that.
LINES_A_MINUTE = 1500
CRATES_A_MINUTE = 4
USAGE = "usage: why3lift print|names SRC DRV THEORY GOAL | lift SRC DRV THEORY GOAL REF... | check SRC THEORY GOAL DER | stress N"
# How many words a command has; `lift` has one more for each refutation.
FORMS = {"print": 5, "names": 5, "lift": 5, "check": 5, "stress": 2}


def tell(text):
    print(text, file=sys.stderr, flush=True)


def crates_of(name):
    """Returns the crates below a crate, each after those that it depends on, and the crate itself."""
    below = {}
    with open(f"{ROOT}/crates.txt", encoding="utf-8") as lines:
        for line in lines:
            crate, colon, names = line.split("#")[0].partition(":")
            if colon:
                below[crate.split()[0]] = names.split()
    found = []

    def walk(crate):
        if crate in below and crate not in found:
            for it in below[crate]:
                walk(it)
            found.append(crate)

    walk(name)
    return found


def sources_of(crate):
    for part in ("src", "specs", "proofs"):
        for folder, _, files in os.walk(f"{ROOT}/crates/{crate}/{part}"):
            yield from (f"{folder}/{it}" for it in files)


def is_newer(file, crate):
    """Returns whether a file is there, and no source of a crate is newer."""
    if not os.path.isfile(file):
        return False
    made = os.path.getmtime(file)
    return all(os.path.getmtime(it) <= made for it in sources_of(crate))


def binary_of(name):
    return f"{ROOT}/crates/{name}/out/{name}"


def is_current(name):
    return all(is_newer(binary_of(name), it) for it in crates_of(name))


def minutes_of(name):
    """Returns about how many minutes it takes to prove the crates of a program that aren't built."""
    lines, crates = 0, 0
    for crate in crates_of(name):
        if not is_newer(f"{ROOT}/crates/{crate}/out/rlib/stamp", crate):
            crates += 1
            for file in sources_of(crate):
                if file.endswith(".rt"):
                    with open(file, "rb") as it:
                        lines += len(it.readlines())
    return lines // LINES_A_MINUTE + crates // CRATES_A_MINUTE + 1


def run_rt(name):
    """Proves, builds and runs a program, without words; returns whether it came to run. Shows the crate at work."""
    order, shows, runs = crates_of(name), sys.stderr.isatty(), False
    how = {"cwd": f"{ROOT}/crates/{name}", "stdin": subprocess.DEVNULL, "errors": "replace"}
    with open(f"{ROOT}/crates/{name}/build.log", "w", encoding="utf-8") as log:
        with subprocess.Popen(["rt", "run"], stdout=subprocess.PIPE, stderr=subprocess.STDOUT, **how) as run:
            for line in run.stdout:
                log.write(line)
                log.flush()
                at_work = re.match(r"rt: chose --jobs \d+ for (\w+)$", line)
                if shows and at_work and at_work[1] in order:
                    at = order.index(at_work[1]) + 1
                    print(f"\r\033[K{at} of {len(order)} crates: {at_work[1]}", end="", file=sys.stderr, flush=True)
                runs = runs or line.startswith(f"rt: running out/{name}")
    if shows:
        print("\r\033[K", end="", file=sys.stderr, flush=True)
    return runs


def build(name):
    """Proves and builds a program where its binary is missing or older than a source of its crates."""
    if is_current(name):
        return
    if not shutil.which("rt"):
        tell("why3lift: the toolchain's command rt isn't there")
        sys.exit(70)
    minutes = minutes_of(name)
    tell(f"why3lift: proves and builds {name} first, in up to {minutes} min where nothing of its crates is proved yet")
    if minutes > 5:
        tell("why3lift: ./why3lift-unproved runs the same sources in a minute or two, without proofs")
    try:
        runs = run_rt(name)
    except KeyboardInterrupt:
        sys.exit(130)
    if not runs or not os.path.isfile(binary_of(name)):
        tell(f"why3lift: the build failed, see crates/{name}/build.log")
        sys.exit(70)
    os.utime(binary_of(name))


def is_usage(words):
    """Returns whether why3lift answers these words with its usage line."""
    count = FORMS.get(words[0] if words else "")
    if count is None or len(words) < count or (len(words) > count and words[0] != "lift"):
        return True
    if words[0] == "stress" and not re.fullmatch("[1-9][0-9]?|1[0-9][0-9]|200", words[1]):
        return True
    try:
        return any(not it or it.startswith("-") or not it.encode() for it in words)
    except UnicodeEncodeError:
        return True


def places_of(words):
    """Returns the places of the words that name files: the source, then the driver or the derivation, then the refutations."""
    command = words[0] if words else ""
    return {"print": [1, 2], "names": [1, 2], "check": [1, 4], "lift": [1, 2, *range(5, len(words))]}.get(command, [])


def imports_below(driver, named):
    """Returns the pairs of a file that a driver imports and its name, in the order in which they are fetched, each once.

    `named` is the driver's name: an import's name is that up to its last `/`, with the string of the import after it.
    """
    found, seen = [], {named}

    def walk(file, name):
        try:
            with open(file, encoding="utf-8", errors="replace") as it:
                text = re.sub(r"\(\*(?!\)).*?\*\)", " ", it.read(), flags=re.DOTALL)
        except OSError:
            return
        for string in re.findall(r'\bimport\s*"([^"]*)"', text):
            one, its_name = file[: file.rfind("/") + 1] + string, name[: name.rfind("/") + 1] + string
            if its_name not in seen:
                seen.add(its_name)
                found.append((one, its_name))
                walk(one, its_name)

    walk(driver, named)
    return found


def file_of(words, number):
    """Returns the name of the file that a command fetches with this number, if it has one."""
    files = [words[it] for it in places_of(words) if it < len(words)]
    if words[0] != "check" and len(files) > 1:
        files[2:2] = [name for _, name in imports_below(files[1], files[1])]
    return files[number] if number < len(files) else None


def file_of_refusal(words, numbers):
    """Returns the name of the file that a refusal with these numbers is about."""
    if numbers[0] == 91 and words[0] == "lift":
        return words[numbers[1] + 4]
    return file_of(words, numbers[1] if numbers[0] in (15, 91) or 50 <= numbers[0] < 60 else 0)


def fault_words(code):
    """Returns what the table of faults says of a code; nothing where it has none."""
    with open(f"{ROOT}/crates/fault_rows/data/FAULTS.md", encoding="utf-8") as lines:
        for line in lines:
            cells = [it.strip() for it in line.split(" | ")]
            if cells[0] == f"| {code}" and len(cells) > 2:
                return cells[2]
    return ""


def tell_words(words, numbers):
    """Says in one line what a refusal of the trial run means, and which command shows the place."""
    file = file_of_refusal(words, numbers)
    shows = f"; ./why3lift-unproved explain {file} {' '.join(map(str, numbers))} says where" if file else ""
    tell(f"why3lift-unproved: {fault_words(numbers[0])}{shows}")


def missing_words(words, line, number):
    """Says which file a line `absent` or `read fault` is about."""
    why = "no such file" if line == "absent" else "can't be read"
    return f"{file_of(words, number)}: {why}"


def explain(words, line):
    """Says what the line on standard error means, for a reader at a terminal."""
    found = re.fullmatch(r"(refused|absent|read fault): ([0-9 ]+)\n|usage: .*\n", line)
    if not found:
        return
    numbers = [int(it) for it in (found[2] or "").split()]
    if found[1] == "refused":
        build("why3lift_explain")
        file = file_of_refusal(words, numbers)
        if file is not None:
            subprocess.run([binary_of("why3lift_explain"), file, *map(str, numbers)], stdout=sys.stderr, check=False)
    elif found[1]:
        tell(missing_words(words, found[1], numbers[0]))


def run_proved(words):
    """Runs why3lift with these words, as it was proved and built; wrong words get the usage line without a build."""
    if is_usage(words) and not is_current("why3lift"):
        tell(USAGE)
        return 2
    build("why3lift")
    for it in (signal.SIGTERM, signal.SIGHUP):
        if signal.getsignal(it) != signal.SIG_IGN:
            signal.signal(it, lambda number, _: sys.exit(128 + number))
    shows = sys.stderr.isatty()
    try:
        ran = stack.run([binary_of("why3lift"), *words], stderr=subprocess.PIPE if shows else None)
    except KeyboardInterrupt:
        return 130
    if shows:
        sys.stderr.buffer.write(ran.stderr)
        sys.stderr.flush()
        explain(words, ran.stderr.decode(errors="replace"))
    return told_status(ran.returncode)


def told_status(returncode):
    """Returns the exit status for what the program ended with; says where the machine's stack was too small."""
    status, line = stack.status_of(returncode)
    if line:
        tell(line)
    return status


def run_explain(words):
    """Runs why3lift-explain with these words, as it was proved and built."""
    build("why3lift_explain")
    os.execv(binary_of("why3lift_explain"), [binary_of("why3lift_explain"), *words])


def copied(at, word, data):
    """Returns the name of a file's copy, which `data` gains; a name that nothing has where there is no file."""
    if not word or word.startswith("-"):
        return word
    if not os.path.isfile(word) or not os.access(word, os.R_OK):
        return "no-such-file"
    name = word if not os.path.isabs(word) and ".." not in word.split("/") else f"{at}-{os.path.basename(word)}"
    data += ["--data", f"{name}={os.path.abspath(word)}"]
    return name


def copies_of(words, places):
    """Returns the words with the names of copies for those of files, and the options of the trial run that make the copies."""
    data = []
    shown = [copied(at, word, data) if at in places else word for at, word in enumerate(words)]
    if 2 in places and len(words) > 2:
        for file, name in imports_below(words[2], shown[2]):
            if os.path.isfile(file):
                data += ["--data", f"{name}={os.path.abspath(file)}"]
    return shown, data


def tell_answer(words, lines, crate):
    """Shows what came on standard error, and what a refusal means."""
    for line in lines:
        if re.match(r"checked: .*out of stack", line):
            tell("why3lift-unproved: the machine's stack is too small for the trial run")
        if not re.match(r"checked: |run=|rt: |case=", line):
            tell(line)
        found = re.fullmatch(r"(refused|absent|read fault): ([0-9 ]+)", line)
        if found and crate == "why3lift":
            numbers = [int(it) for it in found[2].split()]
            if found[1] == "refused":
                tell_words(words, numbers)
            else:
                tell(f"why3lift-unproved: {missing_words(words, found[1], numbers[0])}")


def run_unproved(words):
    """Runs the sources of why3lift, or after the word `explain` those of why3lift-explain, by a trial run. Without words it
    takes commands from standard input, a line each, where that is no terminal.
    """
    crate, places = "why3lift", places_of(words)
    if words[:1] == ["explain"]:
        crate, words, places = "why3lift_explain", words[1:], [0]
    elif not words and not sys.stdin.isatty():
        commands = [it.split() for it in sys.stdin if it.strip() and not it.startswith("#")]
        if commands:
            return run_commands(commands)
    if crate == "why3lift" and is_usage(words):
        tell(USAGE)
        return 2
    if not shutil.which("rt"):
        tell("why3lift-unproved: the toolchain's command rt isn't there")
        return 70
    tell("why3lift-unproved: nothing was proved; this trial run takes a minute or two, over copies of the files")
    shown, data = copies_of(words, places)
    how = {"cwd": f"{ROOT}/crates/{crate}", "stdin": subprocess.DEVNULL, "stderr": subprocess.PIPE}
    ran = stack.run(["rt", "try", *data, "--", *shown], **how)
    tell_answer(words, ran.stderr.decode(errors="replace").splitlines(), crate)
    return ran.returncode


def run_commands(commands):
    """Runs several commands by one trial run: shows each, its standard output, and its line of standard error. A command whose
    words are wrong gets the usage line. Returns the greatest status of them.
    """
    right = [it for it in commands if not is_usage(it)]
    if right and not shutil.which("rt"):
        tell("why3lift-unproved: the toolchain's command rt isn't there")
        return 70
    if right:
        tell("why3lift-unproved: nothing was proved; one trial run for all commands takes a minute or two")
    answers = iter(tried(right)) if right else iter(())
    worst = 0
    for words in commands:
        print("$", *words, flush=True)
        status, out, lines = (2, "", [USAGE]) if is_usage(words) else next(answers)
        sys.stdout.write(out)
        sys.stdout.flush()
        tell_answer(words, lines, "why3lift")
        worst = max(worst, status)
    return worst


def tried(commands):
    """Returns the status, the standard output and the lines of standard error of each command, by one trial run."""
    with tempfile.TemporaryDirectory() as cases:
        flags = {}
        for at, words in enumerate(commands):
            shown, data = copies_of(words, places_of(words))
            flags.update(dict.fromkeys(data[1::2]))
            with open(f"{cases}/case{at:04}", "w", encoding="utf-8"):
                pass
            with open(f"{cases}/case{at:04}.args", "w", encoding="utf-8") as it:
                it.writelines(f"{word}\n" for word in shown)
        how = {"cwd": f"{ROOT}/crates/why3lift", "stdin": subprocess.DEVNULL, "capture_output": True}
        options = [it for flag in flags for it in ("--data", flag)]
        ran = stack.run(["rt", "try", "--cases", cases, *options], **how)
    err = ran.stderr.decode(errors="replace")
    outs = re.split(r"^== case\d+\n", ran.stdout.decode(errors="replace"), flags=re.M)[1:]
    errs = re.split(r"^(case=case\d+ .*)\n", err, flags=re.M)
    if len(outs) != len(commands) or len(errs) < 2 * len(commands) + 1:
        tell(err)
        sys.exit(70)
    made = []
    for at, out in enumerate(outs):
        body, head = errs[2 * at], errs[2 * at + 1]
        status = re.search(r"\b(?:exit|status|rc)=(\d+)", head)
        made.append((int(status[1]) if status else 0, out, body.splitlines()))
    return made
