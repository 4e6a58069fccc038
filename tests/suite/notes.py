"""The notes on behaviours that ended by a fault, worked out plainly from the ends of a record and the names of a program."""
import os
import tempfile

from .programs import Program, RunNames, follow, serial_run
from .running import done, fault_of, refused
from .copies import view_of

STATUSES = ["Done", "Overflow", "ZeroDivisor", "OutOfRange", "SameCown", "Negative", "TickCap"]
MOST = 10


def ends_of(record):
    """The ticks and the status of each row of a record, in the order of their numbers."""
    ends = (list(map(int, line.split()[1:4])) for line in record.decode().splitlines() if line.startswith("<"))
    return [(ticks, status) for _, ticks, status in sorted(ends)]


def notes_of(ends, names=None):
    """The notes on rows that ended so, with what they are called."""
    lines = []
    for row, (ticks, status) in enumerate(ends):
        called = f", {names[row]}," if names else ""
        if status:
            lines.append(f"boc: note: row {row}{called} ended by {status} {STATUSES[status]} at its tick {ticks}\n")
    more = len(lines) - MOST
    return "".join(lines[:MOST] + [f"boc: note: {more} more ended by a fault\n"] * (more > 0)).encode()


# Each behaviour of the first def ends by a fault of its own, and those of the second by none.
FAULTS = b"""cown a = 9223372036854775807;
cown b[3] = 0;
def ends(how, z; x) {
  if how == 1 { x = x + 1; }
  if how == 2 { x = 1 / z; }
  if how == 3 { when keep(; b[z - 1]); }
  if how == 4 { when two(; b[z], b[0]); }
  if how == 5 { work z - 1; }
  if how == 6 { work 1000000; }
}
def keep(; x) { x = 1; }
def two(; x, y) { x = y; }
main {
  when ends(0, 0; a);
  when ends(1, 0; a);
  when ends(2, 0; b[1]);
  when ends(3, 0; b[1]);
  when ends(4, 0; b[2]);
  when ends(5, 0; b[2]);
  when ends(6, 0; b[0]);
  when keep(; b[1]);
}
"""

# What is noted of it: the tick at which an `if` finds its condition is that of its charge, as is that of the statement in it.
NOTED = b"""boc: note: row 2, ends(1, 0; a), ended by 1 Overflow at its tick 3
boc: note: row 3, ends(2, 0; b[1]), ended by 2 ZeroDivisor at its tick 4
boc: note: row 4, ends(3, 0; b[1]), ended by 3 OutOfRange at its tick 5
boc: note: row 5, ends(4, 0; b[2]), ended by 4 SameCown at its tick 6
boc: note: row 6, ends(5, 0; b[2]), ended by 5 Negative at its tick 6
boc: note: row 7, ends(6, 0; b[0]), ended by 6 TickCap at its tick 7
"""

# Main ends by a fault, as the only row.
MAIN = b"cown a = 0; main { let x = 1 / 0; }"
MAIN_NOTED = b"boc: note: row 0, main, ended by 2 ZeroDivisor at its tick 2\n"

# Twelve behaviours end by a fault, of which ten are told.
MANY = b"cown a = 0; def f(n; x) { x = n / 0; } main { " + b"".join(b"when f(%d; a); " % n for n in range(12)) + b"}"
MANY_NOTED = b"".join(b"boc: note: row %d, f(%d; a), ended by 2 ZeroDivisor at its tick 2\n" % (n + 1, n) for n in range(10)) \
    + b"boc: note: 2 more ended by a fault\n"

# Forty behaviours, of which every third ends by a fault.
THIRDS = b"cown a = 0; def f(n; x) { x = 1 / (n % 3); } main { let n = 0; repeat 40 { when f(n; a); n = n + 1; } }"
THIRDS_NOTED = b"".join(b"boc: note: row %d, f(%d; a), ended by 2 ZeroDivisor at its tick 2\n" % (n + 1, n) for n in range(0, 30, 3)) \
    + b"boc: note: 4 more ended by a fault\n"

# Forty behaviours end by a fault, those that come first after the longest work, so that they end in another order than that of their rows.
LATE = b"cown c[40] = 0; def f(n; x) { work (40 - n) * 5000; x = n / 0; } def g(n; ) { when f(n; c[n]); } main { " \
    + b"".join(b"when %s(%d; %s); " % ((b"f", n, b"c[%d]" % n) if n % 3 else (b"g", n, b"")) for n in range(40)) + b"}"

# A record in which rows ended by each fault, without a program.
RECORD = b"boc 2 1\n+ 0 0 0\n> 0\n+ 1 0 1 0\n+ 2 0 2\n+ 3 0 3\n+ 4 0 4\n+ 5 0 5\n+ 6 0 6\n< 0 7 0\n" \
    + b"".join(b"> %d\n< %d %d %d\n" % (row, row, 10 - row, row) for row in (3, 1, 2, 6, 5, 4)) + b".\n"
RECORD_NOTED = b"".join(b"boc: note: row %d ended by %d %s at its tick %d\n" % (row, row, STATUSES[row].encode(), 10 - row) for row in range(1, 7))

# The commands that note, and whether a program is their input, or a record may be too.
OF_PROGRAMS = ["values", "run", "time", "why", "cowns"]
OF_RECORDS = ["profile", "why", "cowns"]

# What is noted where words say how a program is run, and a record came in.
NOT_RUN = b"boc: note: the input is a record, which is not run again: --workers, --seed and --depth have no effect\n"

# The same where a record stands beside the program, and where the words have one worker draw.
OF_FILE = b"boc: note: the run is that of --record FILE, and the program is not run again: --workers, --seed and --depth have no effect\n"
OF_ONE = b"boc: note: one worker leaves nothing to draw: --seed and --depth have no effect; give --workers at least 2\n"

# Words that say how a program is run, and what is noted where it is run by them.
SCHEDULES = [
    (["-w", "1"], b""),
    (["-w4"], b""),
    (["-w=2"], b""),
    (["--workers=16"], b""),
    (["--seed", "3"], OF_ONE),
    (["--seed=3", "-w", "1"], OF_ONE),
    (["--workers", "1", "--depth=2", "--seed", "0"], OF_ONE),
    (["--seed", "3", "-w", "2"], b""),
    (["--depth", "1", "--seed", "3", "-w2"], b""),
]

# Words of `outcomes`, which draws by four workers if no word says how many, and what is noted.
DRAWS = [
    ([], b""),
    (["-w", "1"], b""),
    (["--seed", "7"], b""),
    (["--depth", "2"], b""),
    (["-w", "1", "--seed", "7"], OF_ONE),
    (["-w1", "--depth=2"], OF_ONE),
    (["-w", "2", "--seed", "7", "--depth", "3"], b""),
]


def cases(program):
    for name, text, noted in [("each fault", FAULTS, NOTED), ("main", MAIN, MAIN_NOTED), ("twelve", MANY, MANY_NOTED), ("thirds", THIRDS, THIRDS_NOTED)]:
        yield from of_program(program, name, text, noted)
    for name, text in [("each fault", FAULTS), ("main", MAIN), ("twelve", MANY), ("thirds", THIRDS), ("late", LATE)]:
        yield from of_runs(program, name, text)
    for command in OF_RECORDS:
        yield f"a record: {command}", fault_of_notes(program.run([command], RECORD), RECORD_NOTED)
        yield f"a record: {command} --quiet", fault_of_notes(program.run([command, "--quiet"], RECORD), b"")
    for command in ["whatif", "sweep", "curve", "check"]:
        yield f"a record: {command} notes nothing", fault_of_notes(program.run([command], RECORD), b"")
        refusal = program.run([command, "--quiet"], RECORD)
        yield f"{command} --quiet", None if refusal.status == 2 and not refusal.output else f"it was taken: {refusal}"
    for words in (["why", "-w", "3"], ["cowns", "--seed", "1"]):
        plain = program.run(words[:1], RECORD)
        yield f"a record: {words}", fault_of(done(plain.output, RECORD_NOTED + NOT_RUN), program.run(words, RECORD))
        yield f"a record: {words} --quiet", fault_of(done(plain.output, b""), program.run([*words, "--quiet"], RECORD))
        yield f"a program: {words}", fault_of_notes(program.run(words, b"main { }"), OF_ONE if "--seed" in words else b"")
    yield from idle_words(program)
    named = program.run_beside(["why"], "--names", b"= 2 second\n= 3 third 5 six\n", RECORD)
    noted = RECORD_NOTED.replace(b"row 2 ", b"row 2, second, ").replace(b"row 3 ", b"row 3, third(5, six), ")
    yield "a record with names: why", fault_of_notes(named, noted)
    yield "a fault of the input beside one of a row", fault_of(refused(3, "boc: line 24: 12 After"), program.run(["profile"], RECORD + b"\n"))


def idle_words(program):
    """Words that say how a program is run, and nothing of what is done, are noted, and change no answer."""
    text, record = program.example("transfer.boc"), program.example("transfer.record")
    view = view_of(program)
    for words, noted in SCHEDULES:
        for command in ["run", "time", "why", "cowns"]:
            yield f"{command} {words}", fault_of_notes(program.run([command, *words], text), noted)
            yield f"{command} {words} --quiet", fault_of_notes(program.run([command, *words, "--quiet"], text), b"")
        yield f"boc-view text {words}", fault_of_notes(view.run(["text", *words], text), noted)
        for asked, command in [(program, "why"), (program, "cowns"), (view, "text")]:
            plain = asked.run([command], record)
            yield f"{command} {words} of a record", fault_of(done(plain.output, NOT_RUN), asked.run([command, *words], record))
            plain = asked.run_beside([command], "--record", record, text)
            answer = asked.run_beside([command, *words], "--record", record, text)
            yield f"{command} {words} --record", fault_of(done(plain.output, OF_FILE), answer)
            yield f"{command} --record", fault_of_notes(plain, b"")
        for command in ["why", "cowns"]:
            yield f"{command} {words} --record --quiet", fault_of_notes(program.run_beside([command, *words, "--quiet"], "--record", record, text), b"")
    for words, noted in DRAWS:
        yield f"outcomes {words}", fault_of_notes(program.run(["outcomes", "--runs", "3", *words], text), noted)
    with tempfile.TemporaryDirectory() as folder:
        with open(os.path.join(folder, "--seed"), "wb") as file:
            file.write(record)
        yield "a file with the name of an option", fault_of_notes(program.run(["why", "--", "--seed"], cwd=folder), b"")


def of_program(program, name, text, noted):
    """What commands note of a program, from the text alone, and beside the record of a run."""
    plain = serial_run(Program(text), 65535)
    yield f"{name}: values", fault_of(done(plain.values_text(), noted), program.run(["values"], text))
    for command in OF_PROGRAMS:
        loud, quiet = program.run([command], text), program.run([command, "--quiet"], text)
        yield f"{name}: {command}", fault_of_notes(loud, noted)
        yield f"{name}: {command} --quiet", fault_of(done(loud.output, b""), quiet)
    record = program.run(["run", "--workers", "4"], text).output
    told = notes_of(ends_of(record), RunNames(follow(Program(text), record)).rows)
    for command in ["values", "why", "cowns"]:
        yield f"{name}: {command} --record", fault_of_notes(program.run_beside([command], "--record", record, text), told)
    yield f"{name}: profile", fault_of_notes(program.run(["profile"], record), notes_of(ends_of(record)))


def of_runs(program, name, text):
    """What is noted of runs by threads and of one that is drawn, from the record that came out beside the notes."""
    for words in [["-w", "1"], ["-w", "2"], ["-w", "4"], ["-w", "16"], ["--seed", "7", "-w", "4"]]:
        answer = program.run(["run", *words], text)
        told = notes_of(ends_of(answer.output), RunNames(follow(Program(text), answer.output)).rows)
        yield f"{name}: run {' '.join(words)}, by its own record", fault_of_notes(answer, told)


def fault_of_notes(answer, noted):
    """What is wrong with the notes of an answer that did what it was asked for."""
    return fault_of(done(answer.output, noted), answer)
