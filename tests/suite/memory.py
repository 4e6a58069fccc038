"""Each request for memory refused in turn: the answer is the want of memory, or the whole right one."""
import dataclasses
import functools
import os
import shutil
import subprocess
import tempfile

from . import model
from .hot_cowns import cowns_text
from .notes import FAULTS, NOTED, RECORD as FAULTED, RECORD_NOTED
from .outcomes import FEW, RACE, tally_by_seeds
from .programs import Program, RunNames, follow, serial_run
from .records import fan, fan_text
from .running import MEMORY, Answer, done, fault_of, refused
from .why import Names, TRANSFER, rows_of, why
from .worked import CURVE, GREEDY, PROFILE, SHORTER, SHORTER_GREEDY, VALUES, WITHOUT_A

# What the transfer comes to without `a`: main leads to move, and that hands b to add.
WITHOUT_A_SHORT = b"""\
         was   now
work      11    11
span       9     8    -1
chain    add 4, move 3, main 2   ->   main 3, move 3, add 2
"""

# With main's spawns at its ticks 1, 2 and 3 add runs from 1 to 3, move from 3 to 6, and the other add from 6 to 8.
EARLY_MAIN_SHORT = b"""\
         was   now
work      11    11
span       9     8    -1
chain    add 4, move 3, main 2   ->   add 4, move 3, main 1
"""

NO_DEF = "boc: edit 1: 7 NoDef\n     no row is of this def; names are those of --program FILE or --names FILE"

REFUSE = os.path.join(os.path.dirname(os.path.dirname(os.path.abspath(__file__))), "refuse.c")

# What may be told where the request belonged to the start of a thread.
NO_THREAD = refused(4, "boc: run: 4 NoThread")

# A run that makes more requests than this never ends, and one that takes longer hangs.
MOST_REQUESTS = 100000
SECONDS = 30

# Rows enough that a sweep for workers or over cowns takes several threads, each of which needs memory of its own.
MANY = fan(400, lambda number: (number % 3,), lambda number: 1 + number % 4)

# The fewest rows of which a sweep takes two threads, and as many as there may be, of which it takes more.
TWO_PIECES = 32766
MOST_ROWS = 65535

# A behaviour with as many arguments and cowns as there may be, and behind it 300 that wait at once for a cown that the first one has.
FULL = b"""cown c[8] = 1; cown d = 0;
def all(a, b, e, f, g, h, i, j; k, l, m, n, o, p, q, r) { k = a + b + e + f + g + h + i + j; l = k; m = n; r = 8; }
def one(k; x) { x = x + k; }
def many(; x) { repeat 300 { when one(1; x); } }
main { when all(1, 2, 3, 4, 5, 6, 7, 8; c[7], c[6], c[5], c[4], c[3], c[2], c[1], c[0]); when many(; d); }
"""

# Behaviours of one def over members of an array that follow each other, so that in `why` both stand together.
FOLDED = b"""cown a[4] = 1; cown log = 0;
def sum(k; x, y, z, all) { all = x + y + z + k; }
main { let i = 0; repeat 5 { when sum(i; a[0], a[1], a[2], log); i = i + 1; } }
"""

# More behaviours than a run may have.
FOREVER = b"def f(;) { when f(;); } main { when f(;); }"


def runs(program):
    """Words, what stands on standard input, and the answer with ample memory; none where it may be any record of a run of the transfer."""
    text, record = program.example("transfer.boc"), program.example("transfer.record")
    yield ["values"], text, done(VALUES["transfer.boc"].encode())
    yield ["check"], record, done(b"ok 4\n")
    yield ["profile"], record, done(PROFILE.encode())
    yield ["profile", "--p", "2"], record, done((PROFILE + GREEDY).encode())
    yield ["whatif"], record, done(PROFILE.encode())
    yield ["run"], text, done(record)
    yield ["run", "--workers", "2"], text, None
    yield ["run", "--seed", "9"], text, done(record)
    yield ["run", "--workers", "4", "--seed", "9"], FAULTS, program.run(["run", "--workers", "4", "--seed", "9"], FAULTS)
    yield ["run", "--timed", "--workers", "1"], text, done(record)
    yield ["time", "--timed", "--workers", "2", "--p", "2"], text, done((PROFILE + GREEDY + GREEDY.replace("greedy", "timed")).encode())
    yield ["run", "--timed"], FAULTS, program.run(["run", "--timed"], FAULTS)
    yield ["why", "--timed", "--workers", "1"], text, done(TRANSFER.replace("span 9\n", "span 9   end 11 on 1 worker\n", 1).encode())
    yield ["values"], FAULTS, done(serial_run(Program(FAULTS), 65535).values_text(), NOTED)
    yield ["profile"], FAULTED, done(program.run(["profile", "--quiet"], FAULTED).output, RECORD_NOTED)
    yield ["time", "--workers", "3", "--p", "2"], text, done((PROFILE + GREEDY).encode())
    yield ["time", "--workers", "2"], FULL, program.run(["time"], FULL)
    other = os.path.join(program.examples, "race.boc")
    for words in (["why", "--runs", "3"], ["compare", "-", other], ["compare", "--runs", "2", "-p", "2", "-", other]):
        yield words, text, program.run(words, text)
    yield ["run", "--workers", "2"], b"main { x = 1; }", refused(3, "boc: line 1: 5 UnknownName")
    yield ["whatif", "--p", "2", "2=1"], record, done((SHORTER + SHORTER_GREEDY).encode())
    race, _ = FEW["a race of three"]
    yield ["outcomes", "--runs", "12"], race, done(tally_by_seeds(program, Program(race), race, 12, ["--workers", "4"], 0)[0])
    for more in ([], ["--most", "3"], ["--end", "2"], ["--end", "3"]):
        yield ["outcomes", "--all", *more], RACE, program.run(["outcomes", "--all", *more], RACE)
    yield ["curve", "--p", "3"], record, done(CURVE.encode())
    yield ["curve", "--p", "5"], fan_text(3, MANY), done(model.curve(MANY, 5))
    yield ["sweep"], record, done(b"0 9\n1 8\n2 7\n3 8\n")
    yield ["sweep"], fan_text(3, MANY), done(model.sweep(MANY))
    yield ["sweep"], fan_text(0, fan(TWO_PIECES)), done(model.sweep_of_apart(fan(TWO_PIECES)))
    yield ["sweep", "--p", "1"], record, done(b"0 11\n1 10\n2 9\n3 10\n")
    yield ["sweep", "--p", "2"], fan_text(3, MANY), done(model.greedy_sweep(MANY, 2))
    yield ["sweep", "--cowns"], record, done(b"0 8\n1 7\n")
    yield ["sweep", "--cowns"], fan_text(3, MANY), done(model.cown_sweep(MANY, 3))
    yield ["sweep", "--cowns", "--p", "1"], record, done(b"0 11\n1 11\n")
    yield ["sweep", "--cowns", "--p", "2"], fan_text(3, MANY), done(model.cown_sweep(MANY, 3, 2))
    yield ["sweep", "--spawns"], record, done(b"1 8\n2 9\n3 9\n")
    yield ["sweep", "--spawns"], fan_text(3, MANY), done(model.spawn_sweep(MANY))
    yield ["why"], text, done(TRANSFER.encode())
    yield ["why"], fan_text(3, MANY), done(why(MANY, Names(len(MANY), 3)))
    folded = program.run(["run"], FOLDED).output
    yield ["why"], FOLDED, done(why(rows_of(folded)[0], RunNames(follow(Program(FOLDED), folded))))
    yield ["why", "--all"], record + b"x", refused(3, "boc: line 15: 12 After")
    beside, of_program = os.path.join(program.examples, "transfer.record"), os.path.join(program.examples, "transfer.boc")
    yield ["why", "--record", beside], text, done(TRANSFER.encode())
    yield ["cowns"], record, done(cowns_text(record.decode()).encode())
    yield ["cowns", "--record", beside, "--top", "1"], text, done(cowns_text(record.decode(), RunNames(follow(Program(text), record)), top=1).encode())
    yield ["check", "--program", of_program], record, done(b"ok 4\n")
    yield ["values", "--record", beside], text, done(b"a 12\nb 4\n")
    yield ["whatif", "--program", of_program, "--without", "a", "--short"], record, done(WITHOUT_A_SHORT)
    yield ["whatif", "--program", of_program, "nobody=1/2"], record, refused(3, NO_DEF)
    yield ["whatif", "--program", of_program, "--early", "main", "--early", "main", "--short"], record, done(EARLY_MAIN_SHORT)
    yield ["whatif", "--early", "row 0", "--early", "main"], record, refused(3, NO_DEF.replace("edit 1", "early 2"))
    yield ["whatif", "--without", "0"], record, done(WITHOUT_A.encode())
    yield ["whatif", "--without", "0", "--without", "0", "2=1/1", "2@3", "3=2"], record, done(WITHOUT_A.encode())
    yield ["whatif", "--without", "2"], record, refused(3, "boc: without 1: 6 NoCown")
    yield ["whatif", "2@3", "2@9"], record, refused(3, "boc: edit 2: 5 NotBetween")
    yield ["whatif", "--without", "x"], b"", refused(3, "boc: line 1: 11 Truncated")
    yield ["sweep", "--best", "2"], record, done(b"2 7 2\n1 8 1\n")
    yield ["profile", "--p", "2", "--no-plan"], record, done((PROFILE[: PROFILE.index("plan\n")] + "greedy 2\nend 9 bound 14\n").encode())
    yield ["time", of_program], b"", done(PROFILE.encode())
    yield ["sweep", "--spawns", "--p", "2"], b"", program.run(["sweep", "--spawns", "--p", "2"])
    yield ["--help"], b"", program.run(["--help"])
    yield ["whatif", "--help"], b"", program.run(["whatif", "--help"])
    yield ["--p", "65"], b"", program.run(["--p", "65"])
    yield ["values"], b"main { x = 1; }", refused(3, "boc: line 1: 5 UnknownName")
    yield ["check"], record + b"x", refused(3, "boc: line 15: 12 After")
    yield ["whatif", "2=1", "4=1"], record, refused(3, "boc: edit 2: 1 NoRow")
    yield ["whatif", "2=01"], record, Answer(2, b"", b"boc: edit 1: not ROW=TICKS\n     an edit is ROW=TICKS, ROW@OFFSET, ROW=K/D or DEF=K/D\n")


def cases(program):
    with tempfile.TemporaryDirectory() as folder:
        library = os.path.join(folder, "refuse.so")
        fault = build(library)
        yield "the library that refuses requests", fault
        if fault is None:
            for words, source, expected in runs(program):
                name = f"{' '.join(words)} of {len(source)} bytes"
                yield name, fault_of_refusals(program, library, words, source, expected)
            yield "a second thread that can't be started is told before what comes later", fault_of_late_start(program, library)
            for words in (["values"], ["run", "--workers", "4"], ["sweep", "--p", "2"], ["--help"]):
                yield f"{words[0]}: the thread that does the work can't be started", fault_of_no_start(program, library, words)
            for count, starts in ((TWO_PIECES - 1, 0), (TWO_PIECES, 1), (MOST_ROWS, 1)):
                yield f"a sweep of {count} rows starts {'a thread' if starts else 'none'}, and does without", fault_of_alone(program, library, count, starts)


def build(library):
    """Compiles the library, and tells why that failed."""
    compiler = shutil.which("cc") or shutil.which("gcc")
    if compiler is None:
        return "there is no C compiler"
    command = [compiler, "-O1", "-shared", "-fPIC", "-o", library, REFUSE, "-ldl"]
    made = subprocess.run(command, stderr=subprocess.PIPE)
    return made.stderr.decode(errors="replace") if made.returncode else None


def fault_of_refusals(program, library, words, source, expected):
    """Goes on to the number of the first request that the program doesn't make."""
    is_run = words[0] in ("why", "cowns", "compare") and not source.startswith(b"boc") and not {"--record", "--runs"} & set(words)
    in_threads = (words[0] in ("run", "time") or is_run) and not {"--seed", "--timed"} & set(words)
    fault_of_whole = functools.partial(fault_of, expected) if expected else functools.partial(fault_of_transfer, program)
    told = []
    for request in range(1, MOST_REQUESTS):
        answer, note = run_with_refusal(program, library, words, source, request)
        if not note:
            fault = fault_of_whole(answer)
            return f"with no request refused: {fault}" if fault else fault_of_told(told, in_threads and answer.status == 0)
        if answer == MEMORY or is_no_thread(answer) and in_threads and note != b"w":
            told.append(answer)
        elif fault_of_whole(answer) is not None:
            return f"with request {request} refused: {fault_of(MEMORY, answer)}"
    return f"it makes more than {MOST_REQUESTS} requests"


def fault_of_transfer(program, answer):
    """What is wrong with an answer that is to be the record of a run of the transfer, by whichever threads."""
    if answer is None or answer.status != 0:
        return f"it answered {answer}"
    return fault_of(done(PROFILE.encode()), program.run(["profile"], answer.output))


def fault_of_told(told, has_run):
    """What was never told: that a request was refused, or, where threads ran a program, that one of them was not started."""
    if not told:
        return "no request was told as refused"
    return "no thread was told as not started" if has_run and not any(map(is_no_thread, told)) else None


def is_no_thread(answer):
    """Whether a thread was told as not started. `compare` adds a line that names the input."""
    return dataclasses.replace(answer, errors=answer.errors.partition(b"\n")[0] + b"\n") == NO_THREAD


def fault_of_late_start(program, library):
    """Where the second thread of a run can't be started, the first one ends, and what it would come to later is told by nobody."""
    answer, note = run_with_refusal(program, library, ["run", "--workers", "2"], FOREVER, 3, "REFUSED_START")
    return fault_of(NO_THREAD, answer) if note == b"t" else "no second thread was started"


def fault_of_no_start(program, library, words):
    """Where the thread that does the work can't be started nothing is done, and memory is wanting, since a thread has some of its own."""
    answer, note = run_with_refusal(program, library, words, FOREVER, 1, "REFUSED_START")
    return fault_of(MEMORY, answer) if note == b"t" else "no thread was started"


def fault_of_alone(program, library, count, starts):
    """A sweep starts a thread or none beside the one that does the work, and where that can't be started, what it answers is the same."""
    rows = fan(count)
    answer, note = run_with_refusal(program, library, ["sweep"], fan_text(0, rows), 2, "REFUSED_START")
    if note != b"t" * starts:
        return f"{len(note)} threads were refused in place of {starts}"
    return fault_of(done(model.sweep_of_apart(rows)), answer)


def run_with_refusal(program, library, words, source, number, counted="REFUSED_REQUEST"):
    """The answer where the request, or the start, of this number is refused, and of which kind it was: nothing where it was not made."""
    reading, writing = os.pipe()
    environment = dict(os.environ, LD_PRELOAD=library, REFUSAL_NOTE=str(writing), **{counted: str(number)})
    try:
        answer = program.run(words, source, timeout=SECONDS, env=environment, pass_fds=[writing])
    finally:
        os.close(writing)
    with os.fdopen(reading, "rb") as note:
        return answer, note.read()
