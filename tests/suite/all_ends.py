"""All ends of a program: what `outcomes --all` prints is compared with a walk through all runs by the rules alone, and each end with the record of its run.

The walk is told plainly once more, without the dispatcher and without fronts: rows are spawned, start and end, whenever the rules of docs/RECORDS.md allow it.
"""
import os
import random
import tempfile
import time

from .interleavings import FIVE, MOST_STATES as MOST_MACHINE_STATES, TooLarge, Walk, racing_program
from .outcomes import FEW, RACE, found_ends
from .programs import Behaviour, Execution, Program
from .random_programs import random_program
from .running import done, fault_of, refused
from .worked import VALUES

# Programs by chance, each from this seed and its number. One with more states than this is too large, and another one takes its place. At least so many of
# all come to several ends.
SEED = 20261201
PROGRAMS = 200
MOST_STATES = 1_500
SEVERAL = 60

# So many of the first are walked through once more without haste, as far as that has at most so many states.
PLAINLY = 60
MOST_PLAIN = 4_000

# So many of the first are also walked through as some workers serve them: the ends of these are among all.
BY_WORKERS = 40

# The most ends of a program whose runs are recorded and checked.
MOST_RECORDED = 4

# How many runs are drawn of an example, each of whose ends is to be among all.
RUNS = "100"

# All of the examples with few fronts, and how many ends they have.
EXAMPLES = {"race.boc": 2, "two_orders.boc": 2, "commute.boc": 1, "transfer.boc": 1, "accounts.boc": 1, "bank.boc": 1, "countdown.boc": 1, "division.boc": 1, "overflow.boc": 1,
            "peeks.boc": 1, "pipeline.boc": 1, "same_cown_twice.boc": 1, "scaling.boc": 1, "anomaly_three_workers.boc": 1}

# As many orders as there are behaviours in a row, each with an end of its own.
THREE = FEW["a race of three"][0]

# What stands below an end that is not there: of a search that stopped, and of one that cut runs off.
STOPPED = "\n     the search stopped: a greater --most looks farther"
CUT_OFF = "\n     runs that need more than 65,535 rows have no end"

# A behaviour that spawns itself for ever; one that does so until another one, which may come at any time, says to stop; and both of two kinds.
FOR_EVER = b"cown a = 0; def f(; x) { x = 1; when f(; a); } main { when f(; a); }"
UNTIL_STOPPED = b"""cown stop = 0; cown own = 0;
def go(; s) { if s == 0 { when go(; stop); } }
def end(; s) { s = 1; }
def later(; o) { when end(; stop); }
main { when later(; own); when go(; stop); }"""

# A body that faults between two spawns: its writes and the second spawn don't take place, the first does. A `when` over no cowns, and one of the same cown twice.
FAULTY = b"""cown a = 7; cown b = 0; cown c = 0;
def put(k; x) { x = x * 10 + k; }
def half(; x) { when put(1; b); let z = x / 0; when put(2; b); x = 9; }
def other(;) { when put(3; b); }
def twice(; x, y) { x = 1; }
main { when half(; a); when other(;); when twice(; c, c); when put(4; b); }"""


class Rows:
    """A beginning of a run: the values, the rows that have not ended in the order of their spawns, each with its inputs if it has started and with how many it
    has spawned; and how many rows there are."""

    def __init__(self, values, opened, count):
        self.values, self.opened, self.count = values, opened, count

    def key(self):
        return self.values, self.opened, self.count

    def with_row(self, place, *row):
        return Rows(self.values, self.opened[:place] + row + self.opened[place + 1:], self.count)


class RulesWalk:
    """All beginnings of runs that the rules allow, up to a number of them.

    Starts and ends take nothing from any other row, so with haste they are made as soon as they are allowed.
    """

    def __init__(self, program, most, has_haste=True):
        self.program, self.most, self.has_haste = program, most, has_haste
        self.meanings = {}

    def ends(self):
        """The fewest and the most rows of the runs to each end."""
        states, seen, ends = [Rows(tuple(self.program.initial), ((Behaviour(0, (), ()), None, 0),), 1)], set(), {}
        while states:
            state = states.pop()
            if state.key() in seen:
                continue
            seen.add(state.key())
            if len(seen) > self.most:
                raise TooLarge
            if not state.opened:
                least, most = ends.get(state.values, (state.count, state.count))
                ends[state.values] = min(least, state.count), max(most, state.count)
            states += self.afters(state)
        return ends

    def afters(self, state):
        steps, spawns = [], []
        for place, (behaviour, inputs, spawned) in enumerate(state.opened):
            if inputs is None:
                before = {cown for other, _, _ in state.opened[:place] for cown in other.cowns}
                if before.isdisjoint(behaviour.cowns):
                    steps.append(state.with_row(place, (behaviour, tuple(state.values[cown] for cown in behaviour.cowns), 0)))
                continue
            meaning = self.meaning(behaviour, inputs)
            if spawned == len(meaning.wishes):
                after = state.with_row(place)
                values = list(state.values)
                for cown, value in zip(behaviour.cowns, meaning.outputs):
                    values[cown] = value
                steps.append(Rows(tuple(values), after.opened, after.count))
            else:
                after = state.with_row(place, (behaviour, inputs, spawned + 1))
                spawns.append(Rows(after.values, after.opened + ((meaning.wishes[spawned][1], None, 0),), after.count + 1))
        return steps[:1] or spawns if self.has_haste else steps + spawns

    def meaning(self, behaviour, inputs):
        key = behaviour, inputs
        if key not in self.meanings:
            self.meanings[key] = Execution(self.program, *key).meaning()
        return self.meanings[key]


def values_of(plain, values):
    return "".join(f"{name} {value}\n" for name, value in zip(plain.cowns, values))


def told(plain, ends, fronts):
    """The text of all ends, of which each has the fewest and the most rows of its runs."""
    text = f"all yes\nfronts {fronts}\n"
    if ends:
        text += f"rows {min(least for least, _ in ends.values())} {max(most for _, most in ends.values())}\n"
    for number, values in enumerate(sorted(ends), 1):
        least, most = ends[values]
        text += f"end {number} rows {least} {most}\n{values_of(plain, values)}"
    return text.encode()


def fronts_in(answer):
    """How many fronts an answer tells of, or 0."""
    lines = answer.output.split(b"\n")
    is_told = answer.status == 0 and len(lines) > 1 and lines[1].startswith(b"fronts ")
    return int(lines[1].split()[1]) if is_told else 0


def cases(program):
    several = 0
    for number in range(PROGRAMS):
        text, ends, fault = walked(number)
        several += len(ends) > 1
        yield f"random program {number}", fault or fault_of_all(program, text, ends) or fault_of_limit(program, text, ends, 1 + number % 9)
        if number < BY_WORKERS:
            yield f"random program {number}: the ends of some workers", fault_of_workers(text, ends, 1 + number % 3)
    yield "programs of several ends", None if several >= SEVERAL else f"there are {several}"
    for name, count in EXAMPLES.items():
        yield f"{name}: all ends", fault_of_example(program, name, count)
    for name, (text, _) in FEW.items():
        yield f"{name}: all ends", fault_of_all(program, text, RulesWalk(Program(text), 10 ** 5).ends())
    for name, text, count in (("three", THREE, 6), ("five", FIVE, 120)):
        yield f"{name}: {count} ends", fault_of_count(program, text, count)
    yield "faults among spawns", fault_of_all(program, FAULTY, RulesWalk(Program(FAULTY), 10 ** 5).ends())
    yield "no cowns", fault_of(done(b"all yes\nfronts 1\nrows 1 1\nend 1 rows 1 1\n"), program.run(["outcomes", "--all"], b"main { }"))
    yield "a run that never ends", fault_of_endless(program)
    yield "no end in a search that stopped", fault_of_no_end(program, FIVE, 0, STOPPED, ["--most", "1"])
    yield "a run that may never end", fault_of_stopped(program)
    yield from worked(program)
    yield from refusals(program)


def walked(number):
    """A program by chance that isn't too large: its text, its ends, and what the walk without haste finds other."""
    chance = random.Random(f"{SEED} {number}")
    while True:
        text = racing_program(chance) if number % 3 else random_program(chance)[1]
        try:
            ends = RulesWalk(Program(text), MOST_STATES).ends()
            break
        except TooLarge:
            pass
    try:
        other = RulesWalk(Program(text), MOST_PLAIN, False).ends() if number < PLAINLY else ends
    except TooLarge:
        other = ends
    return text, ends, None if ends == other else f"without haste the walk finds {other}, and with it {ends}"


def fault_of_all(program, text, ends):
    """The ends are all told, with their rows, and the run to each of the first is one of the program that ends so."""
    plain = Program(text)
    answer = program.run(["outcomes", "--all"], text)
    fault = fault_of(done(told(plain, ends, fronts_in(answer)), b""), answer)
    for number, values in enumerate(sorted(ends)[:MOST_RECORDED], 1):
        fault = fault or fault_of_record(program, text, number, ends[values][0], values_of(plain, values).encode())
    return fault or fault_of_no_end(program, text, len(ends))


def fault_of_record(program, text, number, rows, values):
    """The record of the run to an end."""
    record = program.run(["outcomes", "--all", "--end", str(number)], text)
    if record.status or record.errors or record.notes:
        return f"there is no run to end {number}: {record}"
    checked = program.run_beside(["check"], "--program", text, record.output)
    return fault_of(done(b"ok %d\n" % rows), checked) or fault_of(done(values), program.run_beside(["values", "--quiet"], "--record", record.output, text))


def fault_of_no_end(program, text, count, missed="", most=()):
    """There is no end behind the last one; below that stands what the search did not look at."""
    number = count + 1
    answer = program.run(["outcomes", "--all", "--end", str(number), *most], text)
    return fault_of(refused(4, f"boc: end {number}: 1 NoEnd\n     ends found: {count}{missed}"), answer)


def fault_of_limit(program, text, ends, most):
    """The ends that a search with a limit finds are some of all, and those of all runs of fewer rows than it says."""
    plain = Program(text)
    answer = program.run(["outcomes", "--all", "--most", str(most)], text)
    lines = answer.output.decode().splitlines()
    if answer.status or answer.errors or not lines:
        return f"with a limit of {most}: {answer}"
    if lines[0] == "all yes":
        return fault_of(done(told(plain, ends, fronts_in(answer))), answer)
    if not lines[0].startswith("all below ") or lines[1] != f"fronts {most}" or "endless" in lines:
        return f"with a limit of {most} it begins with {lines[:3]}"
    below, found, count = int(lines[0].split()[2]), {}, len(plain.cowns)
    for place, line in enumerate(lines):
        if line.startswith("end "):
            least, most_rows = map(int, line.split()[3:])
            found["\n".join(lines[place + 1:place + 1 + count])] = least, most_rows
    for values, rows in ends.items():
        name = values_of(plain, values).rstrip("\n")
        least, most_rows = found.pop(name, (None, None))
        if least is None and rows[0] < below or least is not None and not (rows[0] <= least <= most_rows <= rows[1] and (least == rows[0] or below <= rows[0])):
            return f"with a limit of {most} all below {below} has {least} {most_rows} for {name!r} in place of {rows}"
    return f"with a limit of {most} it has {found}, which is no end" if found else None


def fault_of_workers(text, ends, workers):
    """What so many workers come to by the dispatcher's steps is among all ends."""
    plain = Program(text)
    try:
        by_workers = Walk(plain, workers, MOST_MACHINE_STATES).ends()
    except TooLarge:
        return None
    strange = by_workers - {values_of(plain, values).encode() for values in ends}
    return f"{workers} workers come to {strange}, which is no end" if strange else None


def fault_of_example(program, name, count):
    """An example has as many ends, and those of drawn runs are among them."""
    text = program.example(name)
    answer = program.run(["outcomes", "--all"], text)
    lines = answer.output.split(b"\n")
    ends = [b"\n".join(part.split(b"\n")[1:]) for part in answer.output.split(b"end ")[1:]]
    if answer.status or lines[0] != b"all yes" or len(ends) != count:
        return f"it has {len(ends)} ends: {answer}"
    strange = found_ends(program.run(["outcomes", "--runs", RUNS], text).output) - set(ends)
    values = program.run(["values", "--quiet"], text).output
    return f"{strange or values} is no end" if strange or values not in ends else None


def fault_of_count(program, text, count):
    """As many ends, in rising order, each of which some run comes to."""
    answer = program.run(["outcomes", "--all"], text)
    heads = [line for line in answer.output.split(b"\n") if line.startswith(b"end ")]
    values = [int(line.split()[1]) for line in answer.output.split(b"\n") if line.startswith(b"a ")]
    if len(heads) != count or values != sorted(set(values)):
        return f"there are {len(heads)} ends: {values}"
    return fault_of_record(program, text, count, int(heads[-1].split()[3]), answer.output[answer.output.index(heads[-1]) + len(heads[-1]) + 1:])


def fault_of_endless(program):
    """No end, which is an answer too."""
    answer = program.run(["outcomes", "--all"], FOR_EVER)
    return fault_of(done(b"all yes\nfronts %d\nendless\n" % fronts_in(answer)), answer) or fault_of_no_end(program, FOR_EVER, 0, CUT_OFF)


def fault_of_stopped(program):
    """One end, which runs of 4 rows have, and of each further number of rows up to the limit; and some run needs more."""
    answer = program.run(["outcomes", "--all"], UNTIL_STOPPED)
    wanted = b"all yes\nfronts %d\nrows 4 65535\nendless\nend 1 rows 4 65535\nstop 1\nown 0\n" % fronts_in(answer)
    return fault_of(done(wanted), answer)


def worked(program):
    """Rows worked out by hand."""
    race = b"all yes\nfronts 7\nrows 5 5\nend 1 rows 5 5\na 3\nb 0\nc 0\nend 2 rows 5 5\na 4\nb 0\nc 0\n"
    yield "race", fault_of(done(race[race.index(b"rows"):]), only_ends(program.run(["outcomes", "--all"], RACE)))
    first = b"all below 2\nfronts 1\n"
    for name in EXAMPLES:
        answer = program.run(["outcomes", "--all", "--most", "1"], program.example(name))
        wanted = answer if answer.output.startswith(b"all yes\nfronts 1\n") and name == "same_cown_twice.boc" else done(first)
        yield f"{name}: one front", fault_of(wanted, answer)
    yield "one front that is an end", fault_of(done(b"all yes\nfronts 1\nrows 1 1\nend 1 rows 1 1\na 5\n"),
                                               program.run(["outcomes", "--all", "--most", "1"], b"cown a = 5; main { }"))
    yield "the greatest limit", fault_of(program.run(["outcomes", "--all"], RACE), program.run(["outcomes", "--all", "--most", "100000000"], RACE))
    yield "the limit without --most", fault_of(program.run(["outcomes", "--all"], RACE), program.run(["outcomes", "--all", "--most", "1000000"], RACE))
    yield "two calls have one answer", fault_of(program.run(["outcomes", "--all"], FIVE), program.run(["outcomes", "--all", "-"], FIVE))


def only_ends(answer):
    """The answer without its first two lines."""
    return done(b"\n".join(answer.output.split(b"\n")[2:])) if answer.status == 0 else answer


def refusals(program):
    for words in (["--runs", "2"], ["--seed", "0"], ["--workers", "4"], ["-w", "1"], ["--depth", "2"], ["--most", "0"], ["--most", "100000001"], ["--most", "-1"],
                  ["--most"], ["--end", "0"], ["--end", "100000001"], ["--end"], ["--end", "x"], ["--all"], ["--most", "2", "--most", "2"], ["--quiet"], ["--p", "2"]):
        yield f"--all {words}", fault_of_words(program, ["outcomes", "--all", *words])
    for words in (["outcomes", "--most", "5"], ["outcomes", "--end", "1"], ["outcomes", "--runs", "5", "--end", "1"], ["outcomes", "--all=1"], ["why", "--most", "5"],
                  ["values", "--all"], ["run", "--all"], ["why", "--end", "1"], ["cowns", "--all"]):
        yield f"{words}", fault_of_words(program, words)
    for words in ([], ["--end", "1"]):
        for name, text in (("a wrong text", b"main { ? }"), ("a record", program.example("transfer.record")), ("no text", b""), ("a text too long", b"#" * 70_000)):
            told_of = program.run(["outcomes"], text)
            line = told_of.errors.partition(b"\n")[0].decode()
            yield f"{name}, {words}", "it was taken" if told_of.status != 3 else fault_of(refused(3, line), program.run(["outcomes", "--all", *words], text))


def fault_of_words(program, words):
    answer = program.run(words, RACE)
    return None if answer.status == 2 and not answer.output else f"it was taken: {answer}"
