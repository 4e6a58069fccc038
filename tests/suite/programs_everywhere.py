"""`profile`, `curve`, `sweep` and `whatif` of programs: what is told of a run, worked out plainly from its record and the program's text; and which
inputs are programs."""
import random

from . import model, names_file
from .named import Called, random_names
from .plans import random_rows, record_of
from .programs import Program, RunNames, follow
from .random_programs import random_program
from .running import done, fault_of, refused
from .why import rows_of
from .whatif_names import as_bytes, short, supposed

EXAMPLES = ["transfer.boc", "pipeline.boc", "bank.boc", "four_squares.boc", "peeks.boc", "overflow.boc", "philosophers.boc", "tree.boc", "division.boc"]

# Programs by chance, each from this seed and its number.
SEED = 20261129
PROGRAMS = 40

# So many bytes are looked at for the first token: one more than a program may have.
LOOKED_AT = 65_537

# Texts that begin as no program does, and what is wrong with their first line as a record's.
RECORDS = [
    (b"", "line 1: 11 Truncated"),
    (b"b", "line 1: 11 Truncated"),
    (b"boc 2 1", "line 1: 11 Truncated"),
    (b"definitely", "line 1: 11 Truncated"),
    (b"definitely\n", "line 1: 1 Header"),
    (b"main_ {}\n", "line 1: 1 Header"),
    (b"mainly\n", "line 1: 1 Header"),
    (b"cown2 = 1;\n", "line 1: 1 Header"),
    (b"cow n = 1;\n", "line 1: 1 Header"),
    (b"# x\n", "line 1: 1 Header"),
    (b"# x", "line 1: 11 Truncated"),
    (b"# main {}\n", "line 1: 1 Header"),
    (b" \t\r\n\n", "line 1: 1 Header"),
    (b"when w();\n", "line 1: 1 Header"),
    (b"x main {}\n", "line 1: 1 Header"),
    (b"; main {}\n", "line 1: 1 Header"),
    (b"\x00main {}\n", "line 1: 1 Header"),
    (b"1 main {}\n", "line 1: 1 Header"),
    (b"#" * LOOKED_AT + b"\nmain {}\n", "line 1: 1 Header"),
    (b" " * (LOOKED_AT - 3) + b"main {}\n", "line 1: 1 Header"),
    (b"a" * 70_000, "line 1: 1 Header"),
]

# Texts that begin as a program does, and what is wrong with them, if anything is.
STARTS = [
    (b"main {}", None),
    (b"\n# one\r\n\t # two\nmain{}", None),
    (b"cown a = 1; main { }", None),
    (b"# " + b"x" * 60_000 + b"\nmain {}", None),
    (b"main", "line 1: 3 Unexpected"),
    (b"def", "line 1: 3 Unexpected"),
    (b"cown;", "line 1: 3 Unexpected"),
    (b"main;", "line 1: 3 Unexpected"),
    (b"# \xff\nmain {}", "line 1: 1 NotAscii"),
    (b"main {} @", "line 1: 2 BadToken"),
    (b"main {}" + b" " * 65_536, "line 1: 0 TooLong"),
]

COMMANDS = [["profile"], ["curve"], ["sweep"], ["sweep", "--best", "3"], ["sweep", "--cowns"], ["sweep", "--spawns"], ["whatif"], ["whatif", "--short"]]


def cases(program):
    yield from worked(program)
    for name in EXAMPLES:
        yield from of_program(program, name, Program(program.example(name)), program.example(name), random.Random(f"{SEED} {name}"))
    for number in range(PROGRAMS):
        chance = random.Random(f"{SEED} {number}")
        yield from of_program(program, f"random program {number}", *random_program(chance), chance)
        yield from of_rows(program, f"random rows {number}", chance)
    yield from beginnings(program)
    yield from notes(program)


def worked(program):
    """Sweeps of the transfer and of the pipeline, with names."""
    transfer, pipeline = program.example("transfer.boc"), program.example("pipeline.boc")
    names = b"@ 1 till\n= 2 pay 7\n= 0 start\n"
    for words, text, told in [
        (["sweep", "--best", "2"], transfer, "2 7 2 move(3; a, b)\n1 8 1 add(5; a)\n"),
        (["sweep", "--best", "1", "--cowns"], transfer, "1 7 2 b\n"),
        (["sweep", "--best", "3", "--spawns"], transfer, "1 8 1 add(5; a)\n2 9 0 move(3; a, b)\n3 9 0 add(1; b)\n"),
        (["sweep", "--best", "1", "-p", "2"], transfer, "2 7 2 move(3; a, b)\n"),
        (["sweep"], transfer, "0 9\n1 8\n2 7\n3 8\n"),
        (["sweep", "--best", "2"], pipeline, "36 272 7 keep(126; store)\n0 279 0 main\n"),
        (["sweep", "--cowns", "--best", "2"], pipeline, "2 219 60 pricer\n0 277 2 parser\n"),
    ]:
        yield f"worked: {words}", fault_of(done(told.encode()), program.run(words, text))
    record = program.example("transfer.record")
    for words, text, told in [
        (["sweep"], record, "0 9 start\n1 8 row 1\n2 7 pay(7)\n3 8 row 3\n"),
        (["sweep", "--cowns"], record, "0 8 cown 0\n1 7 till\n"),
        (["sweep", "--best", "1"], record, "2 7 2 pay(7)\n"),
        (["sweep"], transfer, "0 9 start\n1 8 add(5; a)\n2 7 pay(7)\n3 8 add(1; b)\n"),
        (["sweep", "--cowns", "--best", "2"], transfer, "1 7 2 till\n0 8 1 a\n"),
    ]:
        yield f"worked: {words} --names", fault_of(done(told.encode()), program.run_beside(words, "--names", names, text))


def lines_with(text, called):
    """The lines of a sweep, each with what its row or cown is called."""
    return b"".join(line + b" " + called[int(line.split()[0])].encode() + b"\n" for line in text.splitlines())


def best_of(text, most, was):
    """The best lines of a sweep, each with what it gains."""
    ends = sorted(((int(end), int(number)) for number, end in (line.split() for line in text.splitlines())))
    return model.text(f"{number} {end} {was - end}" for end, number in ends[:most])


def sweeps(rows, cowns, workers):
    """Words of a sweep, what it tells by numbers alone, where the plan ends as it is, and whether its lines are of cowns."""
    p = ["-p", str(workers)] if workers else []
    now = model.greedy_end(rows, workers) if workers else model.span(rows)
    yield ["sweep", *p], model.greedy_sweep(rows, workers) if workers else model.sweep(rows), now, False
    yield ["sweep", "--cowns", *p], model.cown_sweep(rows, cowns, workers), now, True
    if not workers:
        yield ["sweep", "--spawns"], model.spawn_sweep(rows), now, False


def told_of(rows, cowns, names, workers, most, is_named):
    """Words, and what they tell of these rows; of a sweep with names where the lines have such."""
    p = ["-p", str(workers)] if workers else []
    yield ["profile", *p], model.report(rows, workers)
    yield ["curve", "-p", str(workers or 64)], model.curve(rows, workers or 64)
    for words, text, now, of_cowns in sweeps(rows, cowns, workers):
        called = names.cowns if of_cowns else names.rows
        best = best_of(text, most, now)
        yield words, lines_with(text, called) if is_named == "all" else text
        yield [*words, "--best", str(most)], lines_with(best, called) if is_named else best


def of_program(program, name, plain, text, chance):
    """A program's runs: by one worker, as a seed draws, timed, and that of a record beside it."""
    workers, most = chance.choice([None, 1, 2, 3]), chance.choice([1, 2, 65_535])
    other = program.run(["run", "-w", "3", "--seed", str(chance.randrange(2 ** 64))], text).output
    seed = ["-w", "2", "--seed", str(chance.randrange(2 ** 64))] + chance.choice([[], ["--depth", "3"]])
    for how, beside in [([], None), (seed, None), (["--timed", "-w", "3"], None), ([], other)]:
        record = beside or program.run(["run", *how], text).output
        rows, cowns = rows_of(record)
        names = RunNames(follow(plain, record))
        for words, told in told_of(rows, cowns, names, workers, most, "best"):
            yield f"{name}: {words} {how or ''}", fault_of(done(told), asked(program, [*words, *how], beside, text))
        yield from changes(program, f"{name} {how or ''}", rows, names, how, beside, text, chance)
    rows, cowns = rows_of(program.run(["run"], text).output)
    file = random_names(chance, len(rows), cowns)
    names = RunNames(follow(plain, program.run(["run"], text).output))
    laid = Called(*names_file.names_of(file, len(rows), cowns, as_bytes(names)))
    for words, text_of, now, of_cowns in sweeps(rows, cowns, workers):
        called = laid.cowns if of_cowns else laid.rows
        yield f"{name}: {words} --names", fault_of(done(lines_with(text_of, called)), program.run_beside(words, "--names", file, text))
        best = lines_with(best_of(text_of, most, now), called)
        yield f"{name}: {words} --best --names", fault_of(done(best), program.run_beside([*words, "--best", str(most)], "--names", file, text))


def asked(program, words, beside, text):
    return program.run_beside(words, "--record", beside, text) if beside else program.run(words, text)


def changes(program, name, rows, names, how, beside, text, chance):
    """`whatif` with defs and cowns by their names in the program."""
    cown = chance.choice(names.cowns + ["nobody"]) if names.cowns else None
    edits = [f"{chance.choice(names.def_names)}={chance.randint(1, 3)}/{chance.randint(1, 3)}" for _ in range(chance.randint(0, 2))]
    without = [cown] if cown and chance.random() < 0.6 else []
    early = [chance.choice(names.def_names + ["nothing"])] if chance.random() < 0.5 else []
    words = [word for own in without for word in ("--without", own)] + [f"--early={own}" for own in early]
    after = supposed(rows, as_bytes(names), without, edits, early)
    wanted = refused(3, after) if isinstance(after, str) else done(short(rows, after, as_bytes(names), defs=[own.encode() for own in names.def_names]))
    yield f"{name}: whatif --short {words} {edits}", fault_of(wanted, asked(program, ["whatif", "--short", *words, *edits, *how], beside, text))
    if not isinstance(after, str):
        yield f"{name}: whatif {words} {edits}", fault_of(done(model.report(after)), asked(program, ["whatif", *words, *edits, *how], beside, text))


def of_rows(program, name, chance):
    """Sweeps of a record with a file of names."""
    record = None
    while record is None:
        record = record_of(random_rows(chance))
    rows, cowns = rows_of(record)
    file = random_names(chance, len(rows), cowns)
    called = Called(*names_file.names_of(file, len(rows), cowns))
    for words, text, now, of_cowns in sweeps(rows, cowns, chance.choice([None, 2])):
        names = called.cowns if of_cowns else called.rows
        yield f"{name}: {words} --names", fault_of(done(lines_with(text, names)), program.run_beside(words, "--names", file, record))
        best = lines_with(best_of(text, 2, now), names)
        yield f"{name}: {words} --best --names", fault_of(done(best), program.run_beside([*words, "--best", "2"], "--names", file, record))


def beginnings(program):
    """What begins as no program does is refused as a record, and the rest as a program."""
    for command in COMMANDS:
        for text, line in RECORDS:
            yield f"{command}: {text[:20]!r}", fault_of(refused(3, f"boc: {line}"), program.run(command, text))
        for text, line in STARTS:
            answer = program.run(command, text)
            wanted = 0 if line is None else 3
            first = answer.errors.decode().split("\n")[0]
            is_so = answer.status == wanted and (line is None or first.split(":")[:2] == ["boc", " " + line.split(":")[0]])
            yield f"{command}: program {text[:20]!r}", None if is_so else f"it told {answer}"


def notes(program):
    """What says how a program is run is left aside beside a record, with a note."""
    text, record = program.example("transfer.boc"), program.example("transfer.record")
    drawn = b"boc: note: the input is a record, which is not run again: --workers, --seed and --depth have no effect\n"
    timed = b"boc: note: the input is a record, which is not run again: --timed and --workers have no effect\n"
    of_record = b"boc: note: the input is a record, which is not run again: --record has no effect\n"
    of_program = b"boc: note: the input is a program, whose names are known: --program has no effect\n"
    beside = b"boc: note: the run is that of --record FILE, and the program is not run again: --workers, --seed and --depth have no effect\n"
    for command in COMMANDS:
        plain = program.run(command, record).output
        for words, note in [(["-w", "2"], drawn), (["--seed", "1"], drawn), (["--seed=1", "--depth", "2"], drawn), (["--timed"], timed), ([], b"")]:
            yield f"{command} {words} of a record", fault_of(done(plain, note), program.run([*command, *words], record))
        yield f"{command} --record of a record", fault_of(done(plain, of_record), program.run_beside(command, "--record", b"junk", record))
        own = program.run(command, text).output
        yield f"{command} --record", fault_of(done(own, b""), program.run_beside(command, "--record", record, text))
        yield f"{command} -w --record", fault_of(done(own, beside), program.run_beside([*command, "-w", "2"], "--record", record, text))
    yield "profile --quiet", fault_of(done(program.run(["profile"], record).output, b""), program.run(["profile", "--quiet", "-w", "2"], record))
    own = program.run(["whatif"], text).output
    yield "whatif --program of a program", fault_of(done(own, of_program), program.run_beside(["whatif"], "--program", b"junk", text))
    noted = b"boc: note: row 1, part(0; a), ended by 2 ZeroDivisor at its tick 2\n"
    division = program.example("division.boc")
    told = program.run(["time", "--quiet"], division).output
    yield "profile notes faults", fault_of(done(told, noted), program.run(["profile"], division))
