"""Runs that a seed draws: each is one of the program, the same each time, and of several seeds several are drawn."""
import random
from concurrent.futures import ThreadPoolExecutor

from .programs import follow
from .random_programs import random_program
from .record_reader import read_record
from .running import done, fault_of, refused

# Programs by chance, each from this seed and its number; of how many all is compared that is told of a run; and the seeds that draw their runs.
SEED = 20261128
PROGRAMS = 500
COMPARED = 100
SEEDS = ["0", "1", "7", "4294967296", "18446744073709551615"]
WORKERS = ["1", "2", "4", "16"]

# Two behaviours that nothing orders, each of which spawns one over `a`: which of these comes first is up to the seed.
RACE = b"""cown a = 1; cown b = 0; cown c = 0;
def add(; x) { x = x + 1; }
def double(; x) { x = x * 2; }
def left(; y) { when add(; a); }
def right(; y) { work 1; when double(; a); }
main { when left(; b); when right(; c); }
"""
ENDS = {b"a 4\nb 0\nc 0\n", b"a 3\nb 0\nc 0\n"}

# `big` spawns more behaviours than there may be where `mark` comes first at `a`, and else none. By two workers the seed 43 has `mark` first, and the seed 0
# has `big` first; where main's two behaviours change places, it is the other way round.
DEFS = b"""cown a = 0; cown b = 0; cown c = 0;
def leaf(;) { }
def big(; x) { if x == 1 { repeat 66000 { when leaf(;); } } x = 2; }
def mark(; x) { x = 1; }
def l(; y) { when big(; a); }
def r(; y) { when mark(; a); }
"""
FULL_BY_43 = DEFS + b"main { when l(; b); when r(; c); }"
FULL_BY_0 = DEFS + b"main { when r(; c); when l(; b); }"


def cases(program):
    yield from random_programs(program)
    yield from race(program)
    yield from refusals(program)
    for words in (["--seed", "-1"], ["--seed", "18446744073709551616"], ["--seed", "x"], ["--seed"], ["--seed", "1", "--seed", "2"]):
        for command in ("run", "time"):
            answer = program.run([command, *words], RACE)
            yield f"{command} {words}", None if answer.status == 2 and not answer.output else f"it was taken: {answer}"
    yield "values --seed", None if program.run(["values", "--seed", "1"], RACE).status == 2 else "it was taken"
    yield "a wrong text", fault_of(refused(3, "boc: line 1: 2 BadToken"), program.run(["run", "--seed", "1"], b"main { ? }"))
    many = b"cown a = 0; def f(; x) { repeat 300 { when g(; a); } } def g(; x) { x = 1; } main { repeat 300 { when f(; a); } }"
    yield "too many behaviours", fault_of(refused(4, "boc: run: 2 Behaviours"), program.run(["run", "--workers", "3", "--seed", "5"], many))


def random_programs(program):
    """Of each program by chance a run by every seed, and of some all that is told of one of these runs."""
    models, runs = [], []
    for number in range(PROGRAMS):
        chance = random.Random(f"{SEED} {number}")
        model, text = random_program(chance)
        seed, workers = chance.choice(SEEDS), chance.choice(WORKERS)
        if number < COMPARED:
            for name, fault in of_program(program, model, text, ["--workers", workers, "--seed", seed]):
                yield f"random program {number}, {workers} workers, seed {seed}: {name}", fault
        models.append(model)
        runs += [(number, text, chance.choice(WORKERS), seed) for seed in SEEDS]
    with ThreadPoolExecutor() as pool:
        answers = pool.map(lambda run: program.run(["run", "--workers", run[2], "--seed", run[3]], run[1]), runs)
        for (number, _, workers, seed), answer in zip(runs, answers):
            yield f"random program {number}, {workers} workers, seed {seed}: its record", fault_of_record(models[number], answer)


def fault_of_record(model, answer):
    """The answer is a record that keeps the rules of runs, and is that of a run of the program."""
    if answer is None or answer.status != 0:
        return f"the answer {answer}"
    try:
        read_record(answer.output)
        follow(model, answer.output)
    except Exception as fault:
        return f"the record is refused: {fault!r}"
    return fault_of(done(answer.output), answer)


def of_program(program, model, text, words):
    """What is told of a program's run by a seed: the record is that of a run of it, and the same once more, and `time` tells of it."""
    first = program.run(["run", *words], text)
    yield "run", fault_of(done(first.output), first)
    yield "once more", fault_of(first, program.run(["run", *words], text))
    try:
        run = follow(model, first.output)
        yield "values --record", fault_of(done(run.values_text()), program.run_beside(["values"], "--record", first.output, text))
    except Exception as strays:
        yield "run", f"the record strays: {strays}"
    yield "check --program", fault_of(done(b"ok %d\n" % first.output.count(b"+")), program.run_beside(["check"], "--program", text, first.output))
    yield "time", fault_of(done(program.run(["profile"], first.output).output), program.run(["time", *words], text))


def race(program):
    """Both ends of a race are drawn, and by one worker one alone."""
    for workers, count in (("1", 1), ("4", 2)):
        ends = set()
        for seed in range(60):
            record = program.run(["run", "--workers", workers, "--seed", str(seed)], RACE).output
            ends.add(program.run_beside(["values"], "--record", record, RACE).output)
        is_so = len(ends) == count and ends <= ENDS
        yield f"a race by {workers} workers", None if is_so else f"its ends are {ends}"
    serial = done(program.run(["run"], RACE).output)
    for words in (["--seed", "0"], ["--seed", SEEDS[-1], "--depth", "16"], ["--seed", "7", "--depth", "1"]):
        yield f"a race by one worker, {words}", fault_of(serial, program.run(["run", "--workers", "1", *words], RACE))
    for workers in WORKERS:
        words = ["run", "--workers", workers, "--seed", "7"]
        yield f"a race once more, {words}", fault_of(done(program.run(words, RACE).output), program.run(words, RACE))


def refusals(program):
    """The commands that run a program refuse the run of a seed where that very draw has no room, or the one by seed 0 that counts the steps of a depth."""
    full = refused(4, "boc: run: 2 Behaviours")
    for name, text, by in (("43", FULL_BY_43, "0"), ("0", FULL_BY_0, "43")):
        for command in ("run", "time", "why", "cowns"):
            words = [command, "--workers", "2", "--seed", name]
            yield f"a program that is full by {name}: {words}", fault_of(full, program.run(words, text))
        yield from of_five_rows(program, f"a program that is full by {name}, by the seed {by}", text, ["--workers", "2", "--seed", by])
    yield from of_five_rows(program, "a depth that is counted", FULL_BY_43, ["--workers", "2", "--seed", "43", "--depth", "2"])
    for command in ("run", "time", "why", "cowns"):
        words = [command, "--workers", "2", "--seed", "43", "--depth", "2"]
        yield f"a depth that isn't counted: {words}", fault_of(full, program.run(words, FULL_BY_0))


def of_five_rows(program, name, text, words):
    """The run is of main, `l`, `r`, and `big` before `mark`, so `a` ends as 1; and the commands that tell of it tell of that run."""
    record = program.run(["run", *words], text)
    rows = record.output.count(b"+")
    yield f"{name}: run", fault_of(done(record.output), record) or (None if rows == 5 else f"it has {rows} rows")
    yield f"{name}: values", fault_of(done(b"a 1\nb 0\nc 0\n"), program.run_beside(["values"], "--record", record.output, text))
    yield f"{name}: time", fault_of(program.run(["profile"], record.output), program.run(["time", *words], text))
    for command in ("why", "cowns"):
        yield f"{name}: {command}", fault_of(program.run_beside([command], "--record", record.output, text), program.run([command, *words], text))
