"""The parts of a goal: a search for each, several at once, and files of steps that `lift` takes.

A printed problem doesn't say which of its assertions are locals (the last ones), nor which `and` is `&&` and which `or` is `||`.
`lift` does: it takes a file of steps where these are right, and tells the first wrong line where they aren't. So each
part is settled after those before it, by trying.
"""
import itertools
import multiprocessing
import os
import re
import subprocess
import sys
import time

import stack

from . import lazy, reader, refute, writer

MOST_TRIES = 64


class StackTooSmall(Exception):
    """The program was ended by a signal; the line that says so."""


class Program:
    """The program why3lift, run with words; `answer` has its status, its standard output and its line of standard error."""

    def __init__(self, command):
        self.command, self.seconds = command, {}

    def answer(self, *words):
        begin = time.monotonic()
        ran = stack.run([*self.command, *words], stdin=subprocess.DEVNULL, capture_output=True)
        self.seconds[words[0]] = self.seconds.get(words[0], 0) + time.monotonic() - begin
        status, line = stack.status_of(ran.returncode)
        if line:
            raise StackTooSmall(line)
        err = [it for it in ran.stderr.decode(errors="replace").splitlines(keepends=True) if not it.startswith("why3lift")]
        return status, ran.stdout, "".join(err)


def served(pipe, problem, names, seconds, commands, choice):
    """The process of a part: searches, says what it found, and writes the file for each number of locals that it is asked."""

    def call():
        table = reader.Table(names.splitlines())
        made = reader.read_problem(problem, table, choice)
        return made, refute.refute(made, seconds, commands)

    found, fault = refute.with_room(call)
    if fault:
        pipe.send((None, f"{type(fault).__name__}: {fault}", "", 0))
        return
    made, it = found
    pipe.send((it.node.steps if it.node else None, it.means, it.said, len(made.asserts)))
    while it.node:
        count = pipe.recv()
        if count is None:
            return
        pipe.send(refute.with_room(lambda: writer.text_of(it.node, made.asserts, count))[0])


class Part:
    """One problem of a goal, its search, and what came of it."""

    def __init__(self, number, problem, names):
        self.number, self.problem, self.names = number, problem, names
        self.process = self.pipe = self.steps = self.text = None
        self.means, self.said, self.asserts, self.seconds, self.begin = "", "", 0, 0.0, 0.0
        self.settled, self.limit = False, 0.0

    def start(self, seconds, commands, choice=()):
        mine, its = multiprocessing.Pipe()
        self.begin = time.monotonic()
        self.pipe = mine
        args = (its, self.problem, self.names, seconds, commands, choice)
        self.process = multiprocessing.Process(target=served, args=args, daemon=True)
        self.process.start()
        its.close()
        self.limit = self.begin + 8 * seconds + 20

    def is_done(self):
        return self.pipe.poll() or not self.process.is_alive() or time.monotonic() > self.limit

    def take(self):
        """Takes what the search found."""
        self.seconds = time.monotonic() - self.begin
        try:
            if not self.pipe.poll(0.2):
                raise EOFError
            self.steps, self.means, self.said, self.asserts = self.pipe.recv()
        except EOFError:
            self.steps, self.means = None, "the search broke off"
        if self.steps is None:
            self.stop()

    def file(self, locals_count):
        """Returns the file of steps for this number of locals."""
        self.pipe.send(locals_count)
        return self.pipe.recv()

    def settle(self):
        """Takes the file that `lift` took as the part's own."""
        self.settled = True
        self.steps = sum(it.startswith("s") for it in self.text.splitlines())
        self.stop()

    def stop(self):
        if self.process is None:
            return
        if self.process.is_alive():
            self.process.terminate()
        self.process.join()
        self.process = None


def search(parts, seconds, commands, jobs, tell=None):
    """Searches for refutations of parts, so many at once; `tell` is called with each part that is done."""
    waiting, running = list(parts), []
    while waiting or running:
        while waiting and len(running) < jobs:
            running.append(waiting.pop(0))
            running[-1].start(seconds, commands)
        for it in [it for it in running if it.is_done()]:
            running.remove(it)
            it.take()
            if tell:
                tell(it)
        if running:
            time.sleep(0.005)


class Lifting:
    """The words of `lift` for a goal, its parts, and a folder for their files."""

    def __init__(self, program, words, parts, folder, source):
        self.program, self.words, self.parts, self.folder = program, words, parts, folder
        self.source, self.has_lazy = source, "&&" in source or "||" in source
        self.locals = 0

    def name(self, number):
        return os.path.join(self.folder, f"{number}.ref")

    def write(self, number, text):
        with open(self.name(number), "w", encoding="utf-8") as it:
            it.write(text)

    def lift(self, upto):
        """Runs `lift` with the files of the first parts, and empty ones after them. Returns the part and line that it
        refuses, or None where it refuses none of these.
        """
        for it in self.parts[upto:]:
            self.write(it.number, "")
        status, out, err = self.program.answer("lift", *self.words, *(self.name(it.number) for it in self.parts))
        if status == 0:
            return None, out
        refused = re.search(r"^refused: 91 (\d+) (\d+)$", err, flags=re.M)
        if not refused:
            raise RuntimeError(err.strip() or f"lift ends with status {status}")
        place = int(refused[1]), int(refused[2])
        return (None, None) if place[0] > upto else (place, None)

    def settle_all(self, seconds, commands):
        """Finds the files that `lift` takes, part by part up to the first one that is open. Returns whether all are settled."""
        at = 0
        while at < len(self.parts) and self.parts[at].steps is not None:
            right = at + self.right_from(at)
            for it in self.parts[at:right]:
                it.settle()
            at = right
            if at < len(self.parts) and self.parts[at].steps is not None:
                if not self.settle(at, seconds, commands):
                    return False
                at += 1
        return at == len(self.parts)

    def right_from(self, at):
        """Returns how many parts from one on have files that `lift` takes with the number of locals that was right last."""

        def may_be(part):
            return part.steps is not None and part.asserts > self.locals

        found = list(itertools.takewhile(may_be, self.parts[at:]))
        for it in found:
            it.text = it.file(self.locals)
            self.write(it.number, it.text)
        refused = self.lift(at + len(found))[0] if found else None
        return refused[0] - 1 - at if refused else len(found)

    def settle(self, at, seconds, commands):
        """Finds the file of a part that `lift` takes, where those of all parts before it are settled. Returns whether it is."""
        part = self.parts[at]
        if self.try_locals(at, part):
            return True
        part.stop()
        if self.has_lazy:
            for choice in lazy.choices(part.problem, self.source):
                part.start(seconds, commands, choice)
                while not part.is_done():
                    time.sleep(0.005)
                part.take()
                if part.steps is not None and self.try_locals(at, part):
                    return True
                part.stop()
        part.steps, part.means = None, "lift takes none of the files"
        return False

    def try_locals(self, at, part):
        counts = [self.locals] + [it for it in range(min(part.asserts, MOST_TRIES)) if it != self.locals]
        for count in counts:
            if count >= part.asserts:
                continue
            part.text = part.file(count)
            self.write(part.number, part.text)
            if self.lift(at + 1)[0] is None:
                self.locals = count
                part.settle()
                return True
        return False


def parts_of(problems, tables):
    """Returns the parts of a goal from what `print` and `names` wrote."""
    pairs = zip(reader.parts_of(problems), reader.parts_of(tables))
    return [Part(number, problem, names) for number, (problem, names) in enumerate(pairs, 1)]


def tell_progress(text):
    if sys.stderr.isatty():
        print(f"\r\033[K{text}", end="", file=sys.stderr, flush=True)
