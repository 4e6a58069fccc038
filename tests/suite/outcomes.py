"""Which ends a program comes to: what is told is tallied anew from the runs of the seeds, and each end is one that the rules of runs allow."""
import collections
import random
from typing import NamedTuple

from . import model
from .programs import Program, Run, follow
from .random_programs import random_program
from .running import done, fault_of, refused
from .why import rows_of
from .worked import VALUES

# Programs by chance, each from this seed and its number, and how many runs are drawn of each.
SEED = 20261129
PROGRAMS = 60
RUNS = 24

# A program with more states than this on the way to its ends is left out where all its ends are walked through.
MOST_STATES = 20_000

# Two behaviours that nothing orders and that don't commute.
RACE = b"""cown a = 1; cown b = 0; cown c = 0;
def add(; x) { x = x + 1; }
def double(; x) { x = x * 2; }
def left(; y) { when add(; a); }
def right(; y) { work 1; when double(; a); }
main { when left(; b); when right(; c); }
"""

# Programs of few ends, by how many workers, all of which are to be found.
FEW = {
    "a race": (RACE, 2),
    "a race of three": (b"""cown a = 1; cown b = 0; cown c = 0; cown d = 0;
def put(k; x) { x = x * 3 + k; }
def go(k; y) { when put(k; a); }
main { when go(0; b); when go(1; c); when go(2; d); }""", 4),
    "two cowns": (b"""cown a = 1; cown b = 2; cown c = 0; cown d = 0;
def swap(; x, y) { let t = x; x = y; y = t; }
def add(; x) { x = x + 10; }
def one(; z) { when swap(; a, b); }
def two(; z) { when add(; a); }
main { when one(; c); when two(; d); }""", 3),
    "a branch": (b"""cown a = 0; cown b = 0; cown c = 0; cown d = 0;
def set(k; x) { x = k; }
def look(; x, y) { if x == 1 { y = 5; when set(9; d); } }
def one(; z) { when set(1; a); }
def two(; z) { when look(; a, b); }
main { when one(; c); when two(; d); }""", 4),
    "one end alone": (b"cown a = 0; def f(k; x) { x = x + k; } main { let i = 0; repeat 6 { when f(i; a); i = i + 1; } }", 4),
}


# Nine behaviours write their digits into one cown, two times each, in whatever order. Before it stand 60 cowns that nobody writes.
DIGITS = b"""cown o[60] = 0; cown r = 0; cown g[9] = 0;
def put(k; x) { x = x * 10 + k; }
def go(n, k; y) { when put(k; r); if n > 0 { when go(n - 1, k; y); } }
main { let i = 0; repeat 9 { i = i + 1; when go(1, i; g[i - 1]); } }
"""
MANY_RUNS = 5_000
PART = 250

# What two workers come to in the race of three, of the six ends that there are: the third `go` waits for a worker until one of the first two has
# spawned its `put`, so its own is never first.
BY_TWO = {b"a %d\nb 0\nc 0\nd 0\n" % value for value in (32, 34, 38, 42)}


def cases(program):
    for number in range(PROGRAMS):
        chance = random.Random(f"{SEED} {number}")
        plain, text = random_program(chance)
        workers, seed = chance.choice([1, 2, 4, 16]), chance.choice([0, 1, 77, 2 ** 64 - 5])
        depth = chance.choice([None, None, 1, 2, 5, 16])
        yield f"random program {number}", fault_of_tally(program, plain, text, workers, seed, depth)
    for name, (text, workers) in FEW.items():
        yield f"{name}: all ends are found", fault_of_ends(program, text, workers)
    found = found_ends(program.run(["outcomes", "--runs", "20000", "--workers", "2", "--depth", "5"], FEW["a race of three"][0]).output)
    yield "a race of three by two workers", None if found == BY_TWO else f"its ends are {found}"
    found = found_ends(program.run(["outcomes"], program.example("race.boc")).output)
    yield "race.boc: both ends", None if found == {b"a 4\nb 0\nc 0\n", b"a 3\nb 0\nc 0\n"} else f"its ends are {found}"
    found = found_ends(program.run(["outcomes", "--runs", "100000"], program.example("commute.boc")).output)
    yield "commute.boc: one end", None if found == {VALUES["commute.boc"].encode()} else f"its ends are {found}"
    yield "nine digits: each run is the one of its seed", fault_of_tally(program, Program(DIGITS), DIGITS, 4, 0, None)
    yield "nine digits: many ends", fault_of_many_ends(program)
    yield "without options", fault_of_defaults(program)
    yield from refusals(program)


def told(runs):
    """The text that tells of runs, each with its seed, its values, its rows and its span, in the order in which they were drawn."""
    def span_text(own):
        return f"{min(own)} {max(own)}"

    ends = collections.OrderedDict()
    for seed, values, rows, span in runs:
        ends.setdefault(values, []).append((seed, span))
    lines = [f"runs {len(runs)}", f"rows {span_text([run[2] for run in runs])}", f"spans {span_text([run[3] for run in runs])}"]
    for values, own in sorted(ends.items(), key=lambda entry: -len(entry[1])):
        lines.append(f"outcome {len(own)} seed {own[0][0]} span {span_text([span for _, span in own])}")
        lines.append(values.decode().rstrip("\n"))
    return "".join(f"{line}\n" for line in lines if line).encode()


def tally_by_seeds(program, plain, text, runs, words, first):
    """What so many runs come to, the first by this seed and each other one by the next: what is told of them, and how the first that strays does."""
    drawn = []
    for number in range(runs):
        seed = (first + number) % 2 ** 64
        record = program.run(["run", *words, "--seed", str(seed)], text).output
        try:
            run = follow(plain, record)
        except Exception as strays:
            return None, f"the record of seed {seed} strays: {strays}"
        rows, _ = rows_of(record)
        drawn.append((seed, run.values_text(), len(rows), model.span(rows)))
    return told(drawn), None


def fault_of_tally(program, plain, text, workers, first, depth):
    """Each seed brings its run back, and what is told is what these runs come to."""
    words = ["--workers", str(workers)] + (["--depth", str(depth)] if depth else [])
    wanted, strays = tally_by_seeds(program, plain, text, RUNS, words, first)
    return strays or fault_of(done(wanted), program.run(["outcomes", "--runs", str(RUNS), *words, "--seed", str(first)], text))


class TooMany(Exception):
    """There are more states than are looked at."""


def all_ends(program, workers):
    """The ends of all runs in which at most so many behaviours run at once, by the rules of runs."""
    ends, seen, states = set(), set(), [(Run(program), [0], [])]
    while states:
        run, pending, running = states.pop()
        if not pending and not running:
            ends.add(run.values_text())
            continue
        before, may_start = {cown for row in running for cown in run.behaviours[row].cowns}, []
        for row in pending:
            may_start += [] if before & set(run.behaviours[row].cowns) or len(running) == workers else [row]
            before |= set(run.behaviours[row].cowns)
        for row in may_start + running:
            after = copied(run)
            waiting, under_way = list(pending), list(running)
            if row in running:
                if after.spawn(row):
                    waiting.append(len(after.behaviours) - 1)
                else:
                    after.end(row)
                    under_way.remove(row)
            else:
                waiting.remove(row)
                under_way.append(row)
                after.start(row)
            key = (tuple(after.values), tuple(after.behaviours[row] for row in waiting),
                   tuple(sorted((after.behaviours[row], len(after.wishes[row]), tuple(after.meanings[row].outputs)) for row in under_way)))
            if key not in seen:
                seen.add(key)
                if len(seen) > MOST_STATES:
                    raise TooMany
                states.append((after, waiting, under_way))
    return ends


def copied(run):
    """A run of its own that stands where this one does."""
    other = Run(run.program)
    other.values, other.behaviours = list(run.values), list(run.behaviours)
    other.meanings, other.ended = dict(run.meanings), dict(run.ended)
    other.wishes = {row: list(wishes) for row, wishes in run.wishes.items()}
    return other


def found_ends(output):
    """The ends that an answer tells of."""
    return {block.partition(b"\n")[2] for block in output.split(b"outcome ")[1:]}


class End(NamedTuple):
    """An end that an answer tells of: how many runs came to it, the seed of the first of them, and the least and the greatest of their spans."""
    runs: int
    seed: int
    least: int
    most: int


def ends_of(program, text, runs, first):
    """The ends of so many runs from this seed on, in the order in which they are told: the values of each, and what is told of it."""
    output = program.run(["outcomes", "--runs", str(runs), "--seed", str(first)], text).output
    blocks = [block.partition(b"\n") for block in output.split(b"outcome ")[1:]]
    return [(values, End(*(int(word) for word in head.split() if word.isdigit()))) for head, _, values in blocks]


def fault_of_many_ends(program):
    """What is told of many runs at once is what is told of a few at a time, put together; and each end is one that the digits can come to."""
    found = ends_of(program, DIGITS, MANY_RUNS, 0)
    ends = {}
    for first in range(0, MANY_RUNS, PART):
        for values, end in ends_of(program, DIGITS, PART, first):
            old = ends.get(values, End(0, end.seed, end.least, end.most))
            ends[values] = End(old.runs + end.runs, old.seed, min(old.least, end.least), max(old.most, end.most))
    wanted = sorted(ends.items(), key=lambda item: (-item[1].runs, item[1].seed))
    if found != wanted:
        return f"of {MANY_RUNS} runs it tells of {len(found)} ends, and of {len(wanted)} where {PART} runs at a time are put together"
    if sum(end.runs for _, end in found) != MANY_RUNS or len(found) > MANY_RUNS:
        return f"{sum(end.runs for _, end in found)} runs are counted"
    if 2 * len(found) < MANY_RUNS:
        return f"there are {len(found)} ends alone, which are not many"
    for values, _ in found:
        told_values = [line.split()[-1] for line in values.splitlines()]
        if sorted(told_values.pop(60)) != sorted(b"112233445566778899") or set(told_values) != {b"0"}:
            return f"no order of the digits ends so: {values}"
    return None


def fault_of_ends(program, text, workers):
    """All ends that so many workers can come to are found, and no other one."""
    wanted = all_ends(Program(text), workers)
    for depth in ([], ["--depth", "2"], ["--depth", "5"]):
        found = found_ends(program.run(["outcomes", "--runs", "20000", "--workers", str(workers), *depth], text).output)
        if not found <= wanted:
            return f"it tells of {found - wanted}, which no run comes to"
    return None if found == wanted else f"it finds {len(found)} of {len(wanted)} ends"


def fault_of_defaults(program):
    """A thousand runs by four workers, from seed 0 on."""
    wanted = program.run(["outcomes", "--runs", "1000", "--workers", "4", "--seed", "0"], RACE)
    if not wanted.output.startswith(b"runs 1000\n"):
        return f"it answered {wanted}"
    return fault_of(wanted, program.run(["outcomes"], RACE))


def refusals(program):
    for words in (["--runs", "0"], ["--runs", "1000001"], ["--workers", "17"], ["--depth", "0"], ["--depth", "17"], ["--seed", "-1"], ["--p", "2"]):
        answer = program.run(["outcomes", *words], RACE)
        yield f"outcomes {words}", None if answer.status == 2 and not answer.output else f"it was taken: {answer}"
    for command in ("run", "time"):
        answer = program.run([command, "--depth", "2"], RACE)
        yield f"{command} --depth without --seed", None if answer.status == 2 and not answer.output else f"it was taken: {answer}"
    yield "a wrong text", fault_of(refused(3, "boc: line 1: 2 BadToken"), program.run(["outcomes"], b"main { ? }"))
    many = b"cown a = 0; def f(; x) { repeat 300 { when g(; a); } } def g(; x) { x = 1; } main { repeat 300 { when f(; a); } }"
    yield "too many behaviours", fault_of(refused(4, "boc: run: 2 Behaviours"), program.run(["outcomes", "--runs", "2", "--workers", "3"], many))
    no_cown = done(b"runs 5\nrows 1 1\nspans 1 1\noutcome 5 seed 9 span 1 1\n")
    yield "no cowns", fault_of(no_cown, program.run(["outcomes", "--runs", "5", "--seed", "9"], b"main { }"))
