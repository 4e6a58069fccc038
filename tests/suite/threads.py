"""Runs by threads: at the limits of what a behaviour may have, with many that wait at once, with bodies side by side, and on little stack.

In each program main alone spawns, or what is spawned doesn't depend on who comes first, so its rows are known; every run is to end
within a minute.
"""
import resource
import tempfile

from . import model
from .running import done, fault_of, refused
from .copies import view_of

# A run that takes longer hangs.
SECONDS = 60

NUMBERS = [1, 2, 4, 16]

# Programs, and their rows: as many arguments and cowns as a behaviour may have, as many cowns and kinds as a program may have, and
# behaviours that wait by the hundred.
PROGRAMS = [
    ("8 arguments and 8 cowns",
     "cown c[8] = 1; def f(a, b, d, e, g, h, i, j; k, l, m, n, o, p, q, r)"
     "{ k = a; l = b; m = d; n = e; o = g; p = h; q = i; r = j; }"
     "main {" + "when f(1, 2, 3, 4, 5, 6, 7, 8; c[7], c[6], c[5], c[4], c[3], c[2], c[1], c[0]);" * 20 + "}",
     [model.Row(0, 0, (), 21)] + [model.Row(0, 2 + it, tuple(range(8)), 9) for it in range(20)]),
    ("8 cowns, and 4 of which 3 are among them",
     "cown c[9] = 1; def f(; k, l, m, n, o, p, q, r) { work 3; r = 1; } def g(; k, l, m, n) { k = 2; }"
     "main {" + "when f(; c[0], c[1], c[2], c[3], c[4], c[5], c[6], c[7]); when g(; c[8], c[3], c[1], c[6]);" * 30 + "}",
     [model.Row(0, 0, (), 61)] + [model.Row(0, 2 + it, (1, 3, 6, 8) if it % 2 else tuple(range(8)), 2 if it % 2 else 5) for it in range(60)]),
    ("256 cowns",
     "cown c[256] = 5; def f(; x, y) { x = y; } main {" + "".join(f"when f(; c[{it}], c[{(it * 7 + 1) % 256}]);" for it in range(100)) + "}",
     [model.Row(0, 0, (), 101)] + [model.Row(0, 2 + it, tuple(sorted({it, (it * 7 + 1) % 256})), 2) for it in range(100)]),
    ("64 kinds",
     "cown a = 1;" + "".join(f"def f{it}(; x) {{ work {it}; }}\n" for it in range(64)) + "main {" + "".join(f"when f{it}(; a);" for it in range(64)) + "}",
     [model.Row(0, 0, (), 65)] + [model.Row(0, 2 + it, (0,), 1 + it) for it in range(64)]),
    ("300 that wait at once",
     "cown a = 0; cown b = 0; def wait(; x) { work 100; } def one(k; x, y) { x = x + k; y = y + 1; }"
     "main { when wait(; a); repeat 300 { when one(2; a, b); } }",
     [model.Row(0, 0, (), 603), model.Row(0, 2, (0,), 101)] + [model.Row(0, 5 + 2 * it, (0, 1), 3) for it in range(300)]),
    ("3,000 that wait for nobody",
     "def f(;) { work 2; } main { repeat 3000 { when f(;); } }",
     [model.Row(0, 0, (), 6002)] + [model.Row(0, 4 + 2 * it, (), 3) for it in range(3000)]),
]

# One body that takes long, and many short ones over other cowns.
LONG_AND_SHORT = """cown a = 0; cown c[200] = 0;
def long(; x) { repeat 400000 { x = x + 1; } }
def short(; x) { x = 1; }
main { when long(; a); let k = 0; repeat 200 { when short(; c[k]); k = k + 1; } }
"""

# How often it may happen that no short body comes between the long one's start and its end.
TRIES = 20

# How much stack the system gives, in kilobytes: as little as there may be, and the usual.
STACKS = [256, 512, 8192]

# Bodies that nest as deep as they may, and the value that comes out.
ONE = "cown a = 0; def f(; x) { %s } main { when f(; a); }"
DEEP = [
    ("998 parentheses", ONE % f"x = {'(' * 998}7{')' * 998};", 7),
    ("997 signs", ONE % f"x = {'- ' * 997}7;", -7),
    ("499 ifs", ONE % f"{'if 1 { ' * 499}x = 7;{' }' * 499}", 7),
    ("499 loops", ONE % f"{'repeat 1 { ' * 499}x = 7;{' }' * 499}", 7),
]

# What is written over and over to the end of a text that is as long as it may be, and what is wrong on its first line.
TOO_DEEP = [
    ("main { work ", "(", "8 TooMany"),
    ("main { work ", "-", "8 TooMany"),
    ("main { work ", "[", "3 Unexpected"),
    ("main { work ", "{", "3 Unexpected"),
    ("main { ", "repeat 1 {", "8 TooMany"),
    ("main { ", "if 1 {", "8 TooMany"),
    ("main { ", "if 1 { } else {", "8 TooMany"),
]
MOST_TEXT = 65536

# The commands that run a program, and those of `boc-view`.
RUNS = [["run"], ["run", "-w", "4"], ["run", "-w", "16"], ["run", "-w", "3", "--seed", "1"], ["time", "-w", "2"], ["outcomes", "--runs", "2"], ["why"],
        ["why", "-w", "4"], ["cowns"]]
VIEWS = [["text"], ["plan", "-w", "4"], ["page"]]


def cases(program):
    for name, text, rows in PROGRAMS:
        for workers in NUMBERS:
            words = ["time", "--workers", str(workers), "--p", "3"]
            answer = program.run(words, text.encode(), timeout=SECONDS)
            yield f"{name}, {workers} workers", fault_of(done(model.report(rows, 3)), answer)
            record = program.run(["run", "--workers", str(workers)], text.encode(), timeout=SECONDS)
            checked = program.run(["check"], record.output) if record else None
            yield f"{name}, a record of {workers} workers", fault_of(done(b"ok %d\n" % len(rows)), checked)
    for workers in (2, 4):
        yield f"a short body while a long one runs, {workers} workers", fault_of_bodies(program, workers)
    for stack in STACKS:
        yield from deep(program, view_of(program), stack)


def deep(program, view, stack):
    """However little stack the system gives, what nests deep is read, run and refused as it is where there is more."""
    def limited():
        resource.setrlimit(resource.RLIMIT_STACK, (stack * 1024, resource.getrlimit(resource.RLIMIT_STACK)[1]))

    def runs(asked, words, text):
        return asked.run(words, text, timeout=SECONDS, preexec_fn=limited)

    for name, text, value in DEEP:
        source, name = text.encode(), f"{name} on {stack} kilobytes"
        yield f"{name}: values", fault_of(done(b"a %d\n" % value), runs(program, ["values"], source))
        record = program.run(["run"], source).output
        for asked, words in [(program, words) for words in RUNS] + [(view, words) for words in VIEWS]:
            yield f"{name}: {words}", fault_of_done(runs(asked, words, source))
        with tempfile.NamedTemporaryFile() as file:
            file.write(source)
            file.flush()
            yield f"{name}: check", fault_of(done(b"ok 2\n"), runs(program, ["check", "--program", file.name], record))
            yield f"{name}: whatif", fault_of_done(runs(program, ["whatif", "--program", file.name, "f=1/2", "--short"], record))
    for front, more, kind in TOO_DEEP:
        source, name = (front + more * MOST_TEXT)[:MOST_TEXT].encode(), f"{more} without end on {stack} kilobytes"
        for asked, words in [(program, words) for words in [["values"]] + RUNS] + [(view, words) for words in VIEWS]:
            yield f"{name}: {words}", fault_of(refused(3, f"boc: line 1: {kind}"), runs(asked, words, source))
        with tempfile.NamedTemporaryFile() as file:
            file.write(source)
            file.flush()
            answer = runs(program, ["check", "--program", file.name], program.example("transfer.record"))
            yield f"{name}: check", fault_of(refused(3, f"boc: program: line 1: {kind}"), answer)


def fault_of_done(answer):
    """What is wrong where a command is to do what it is asked for, whatever it answers."""
    return fault_of(done(answer.output), answer) if answer else "it did not end in time"


def fault_of_bodies(program, workers):
    """Bodies run with the lock free: in some run a short body starts and ends between the long one's start and its end."""
    for _ in range(TRIES):
        answer = program.run(["run", "--workers", str(workers)], LONG_AND_SHORT.encode(), timeout=SECONDS)
        if answer is None or answer.status != 0:
            return f"it answered {answer}"
        lines = answer.output.decode().splitlines()
        during = lines[lines.index("> 1"):next(at for at, line in enumerate(lines) if line.startswith("< 1 "))]
        started = {line.split()[1] for line in during if line.startswith(">")}
        if started & {line.split()[1] for line in during if line.startswith("<")}:
            return None
    return f"in {TRIES} runs no short body started and ended while the long one ran"
