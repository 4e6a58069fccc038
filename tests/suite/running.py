"""Runs of the program, and what is expected of them.

A case is a name and a fault: None where it passed, else what was wrong.
"""
import dataclasses
import os
import re
import subprocess
import sys
import tempfile
from typing import Optional

# A run that takes longer hangs. A sweep over as many rows as there may be takes the longest.
SECONDS = 600


# How a line begins that notes a behaviour which ended by a fault.
NOTE = b"boc: note: "

# How a line begins that explains the fault before it. What such lines say is a matter of explained.py alone.
EXPLAINS = b"     "


# How much of its memory a program may use at once where a file never ends, and what it may ask the system for in all, which is more: its threads have
# stacks and heaps of which they use little. In kilobytes.
MOST_MEMORY = 64 * 1024
MOST_ASKED = 256 * 1024


@dataclasses.dataclass(frozen=True)
class Answer:
    """What came of a run. What it noted stands apart from its other lines on standard error; None is no matter of the test. Its words may name files."""
    status: int
    output: bytes
    errors: bytes
    notes: Optional[bytes] = None
    words: tuple = dataclasses.field(default=(), compare=False)


def done(output, notes=None):
    """The answer of a run that did what it was asked for."""
    return Answer(0, output, b"", notes)


def refused(status, line):
    """The answer of a run that told a fault by this line."""
    return Answer(status, b"", line.encode() + b"\n", b"")


def told(errors):
    """What was written to standard error, and the notes of it."""
    lines = errors.splitlines(keepends=True)
    return [b"".join(line for line in lines if line.startswith(NOTE) is is_note) for is_note in (False, True)]


MEMORY = refused(5, "boc: memory")
DEVICE = refused(5, "boc: device")


class Program:
    def __init__(self, path, examples):
        self.path = path
        self.examples = examples

    def example(self, name):
        """The bytes of an example of the repository."""
        with open(os.path.join(self.examples, name), "rb") as file:
            return file.read()

    def run(self, words, source=b"", **options):
        """The answer to these words, with these bytes on standard input or with that of the options."""
        if "stdin" not in options:
            options["input"] = source
        return self.answer([self.path, *words], **options)

    def run_beside(self, words, option, content, source=b""):
        """The answer to these words with a file of this content behind the option."""
        handle, path = tempfile.mkstemp()
        try:
            with os.fdopen(handle, "wb") as file:
                file.write(content)
            return self.run([*words, option, path], source)
        finally:
            os.remove(path)

    def run_by_shell(self, line, words):
        """The answer of a shell's line, in which "$0" "$@" is the program with these words."""
        return self.answer(["sh", "-c", line, self.path, *words])

    def answer(self, command, timeout=SECONDS, **options):
        options.setdefault("stdout", subprocess.PIPE)
        try:
            run = subprocess.run(command, stderr=subprocess.PIPE, timeout=timeout, **options)
        except subprocess.TimeoutExpired:
            return None
        return Answer(run.returncode, run.stdout or b"", *told(run.stderr), tuple(command))


# Runs a command within these seconds and kilobytes, and writes to a pipe how many kilobytes it used. What a process uses counts from its fork on, so the
# command is run by a process that itself uses little.
MEASURE = """
import os, resource, signal, sys
pipe, seconds, asked = map(int, sys.argv[1:4])
child = os.fork()
if child == 0:
    signal.alarm(seconds)
    resource.setrlimit(resource.RLIMIT_AS, (asked * 1024, asked * 1024))
    os.execv(sys.argv[4], sys.argv[4:])
_, status, used = os.wait4(child, 0)
os.write(pipe, b"%d" % used.ru_maxrss)
sys.exit(os.waitstatus_to_exitcode(status) % 256)
"""


def measured(command, seconds, asked, source=b"", **options):
    """The answer to a command within so many seconds and kilobytes of addresses, and how many kilobytes of memory it used at once."""
    if "stdin" not in options:
        options["input"] = source
    reading, writing = os.pipe()
    with os.fdopen(reading, "rb") as pipe:
        words = [sys.executable, "-S", "-c", MEASURE, *map(str, (writing, seconds, asked)), *command]
        run = subprocess.run(words, capture_output=True, pass_fds=[writing], check=False, **options)
        os.close(writing)
        return Answer(run.returncode, run.stdout, *told(run.stderr), tuple(command)), int(pipe.read() or b"0")


def fault_of(expected, answer):
    """What is wrong with an answer, or None."""
    if answer is None:
        return "it did not end in time"
    for part in ("status", "output", "errors", "notes"):
        wanted, got = getattr(expected, part), getattr(answer, part)
        if part == "errors" and wanted:
            got = without_explanation(got, wanted.count(b"\n"), answer.words)
        if None not in (wanted, got) and wanted != got:
            return f"its {part}: {difference(wanted, got)}"
    return None


def without_explanation(errors, count, words):
    """What was written to standard error, without the lines after the first ones that explain a fault: one names a place in a file of these words."""
    names = b"|".join(re.escape(printed(name)) for word in words for name in (word, word[word.find("=") + 1:]))
    explains = re.compile(rb"%s|(?:%s):\d+:\d+:[ \n]" % (EXPLAINS, names))
    lines = errors.splitlines(keepends=True)
    return b"".join(lines[:count] + [line for line in lines[count:] if not explains.match(line)])


def printed(name):
    """The bytes by which a name is printed."""
    return re.sub(rb"[^ -~]", b"?", os.fsencode(name))


def difference(wanted, got):
    if isinstance(wanted, int):
        return f"{got} in place of {wanted}"
    place = next((at for at, (a, b) in enumerate(zip(wanted, got)) if a != b), min(len(wanted), len(got)))
    begin = max(0, place - 20)
    return f"from byte {place} on, {got[begin:place + 40]!r} in place of {wanted[begin:place + 40]!r}"


class Results:
    """Counts the cases, and prints those that fail."""

    def __init__(self):
        self.passed = 0
        self.failed = 0

    def tell(self, name, fault):
        if fault is None:
            self.passed += 1
        else:
            self.failed += 1
            print(f"failed: {name}: {fault}", flush=True)

    def end(self):
        """Prints the last line, and gives the status."""
        print(f"{self.passed} passed, {self.failed} failed", flush=True)
        return 1 if self.failed else 0
