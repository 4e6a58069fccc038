"""One read of the input, or one write of the output, fails: the answer is the device, behind what went out before.

Each command is tried with each of its calls in turn, where calls move a few bytes at most. A source that fails before its end lets nothing go out; a sink
that fails has what the writes before it took.
"""
import functools
import os
import shutil
import subprocess
import tempfile
from concurrent.futures import ThreadPoolExecutor

from .hot_cowns import cowns_text
from .records import lines_text
from .running import DEVICE, Answer, done, fault_of, refused
from .why import TRANSFER as WHY
from .worked import COMMANDS, GREEDY, PROFILE, VALUES

BREAK = os.path.join(os.path.dirname(os.path.dirname(os.path.abspath(__file__))), "break.c")

# How many bytes a read moves at most, and a write.
READ = [1, 5]
WRITTEN = 7

# The transfer's program without its comments.
TEXT = b"""cown a = 10; cown b = 0;
def add(k; x) { x = x + k; }
def move(k; x, y) { x = x - k; y = y + k; }
main { when add(5; a); when move(3; a, b); when add(1; b); }
"""

# All ends of the transfer.
ALL_ENDS = """\
all yes
fronts 4
rows 4 4
end 1 rows 4 4
a 12
b 4
"""

# What three draws for one worker come to.
ENDS = """\
runs 3
rows 4 4
spans 9 9
outcome 3 seed 7 span 9 9
a 12
b 4
"""

# So many rows have a record that goes out in several parts.
WIDE = 5000

# What a source gives before it fails, behind the whole record where that is none, and the line that is told, if it isn't the device.
FIRST_READS = [
    (b"", b"x" * 80, None),
    (b"", b"x" * 81, "line 1: 1 Header"),
    (b"boc 2 2\n", b"x" * 80, None),
    (b"boc 2 2\n", b"x" * 81, "line 2: 2 Form"),
    (None, b"x", None),
    (None, b"x" * 80, None),
    (None, b"x\n", "line 15: 12 After"),
    (None, b"x" * 81, "line 15: 12 After"),
]

# Texts with a line of as many bytes as one may have, or of more, and what is told of them, however few bytes a read moves.
LONG = [b"x" * 80 + b"\n", b"x" * 81, b"x" * 81 + b"\n", b"x" * 20000 + b"\nb\n"]
LONG_LINES = [(b"", b"x" * 80, "line 1: 11 Truncated"), (b"boc 2 2\n", b"x" * 80, "line 2: 11 Truncated")] \
    + [(b"", text, "line 1: 1 Header") for text in LONG] + [(b"boc 2 2\n", text, "line 2: 2 Form") for text in LONG]
PIECES = [1, 7, 81, 100000]

# The commands of worked rows that are tried here, one of each kind.
OF_RECORDS = ["check", "profile", "profile --p 2", "whatif 2=1", "whatif --p 2 2=1", "curve --p 3", "sweep", "sweep --p 1", "sweep --cowns",
              "sweep --cowns --p 1", "sweep --spawns"]


def answers(program):
    """Words, what is on standard input, and the answer where no call fails."""
    record, values = program.example("transfer.record"), VALUES["transfer.boc"]
    text_file, record_file = (os.path.join(program.examples, name) for name in ("transfer.boc", "transfer.record"))
    yield ["values"], TEXT, values
    yield ["run"], TEXT, record.decode()
    yield ["run", "--workers", "1", "--seed", "7"], TEXT, record.decode()
    yield ["time"], TEXT, PROFILE
    yield ["outcomes", "--runs", "3", "--seed", "7", "--workers", "1"], TEXT, ENDS
    yield ["outcomes", "--all"], TEXT, ALL_ENDS
    to_end = ["outcomes", "--all", "--end", "1"]
    yield to_end, TEXT, program.run(to_end, TEXT).output.decode()
    yield ["why"], TEXT, WHY
    yield ["cowns"], record, cowns_text(record.decode())
    yield ["values", "--record", record_file], TEXT, values
    yield ["check", "--program", text_file], record, "ok 4\n"
    yield ["sweep", "--best", "2"], record, "2 7 2\n1 8 1\n"
    yield ["profile", "--p", "2", "--no-plan"], record, PROFILE[:PROFILE.index("plan")] + GREEDY[:GREEDY.index("0 0")] + GREEDY[GREEDY.index("end"):]
    yield ["check"], program.example("transfer_1.record"), "ok 4\n"
    worked = {" ".join(words): (words, text) for words, text in COMMANDS}
    for name in OF_RECORDS:
        words, text = worked[name]
        yield words, record, text


def cases(program):
    with tempfile.TemporaryDirectory() as folder:
        library = os.path.join(folder, "break.so")
        fault = build(library)
        yield "the library that breaks calls", fault
        if fault is None:
            with ThreadPoolExecutor() as pool:
                run = functools.partial(run_broken, program, library)
                yield from of_inputs(pool, run, program)
                yield from of_nothing(pool, run, program)
                yield from of_parts(pool, run)
            yield from of_first_reads(run, program.example("transfer.record"))
            yield from of_long_lines(run)


def of_inputs(pool, run, program):
    """The commands that read something."""
    for words, source, text in answers(program):
        name, output = " ".join(map(os.path.basename, words)), text.encode()
        for most in READ:
            yield f"{name}: one read of {most} bytes fails", fault_of_reads(pool, run, words, source, done(output), most)
        yield f"{name}: one write fails", fault_of_writes(pool, run, words, source, output)


def of_nothing(pool, run, program):
    """The words that ask for help or the version: no read is made, so none fails."""
    for words in ["--help"], ["sweep", "--help"], ["--version"]:
        name, output = " ".join(words), program.run(words).output
        yield f"{name}: nothing is read", fault_of(done(output, b""), run(words, b"", BROKEN_READ=1))
        yield f"{name}: one write fails", fault_of_writes(pool, run, words, b"", output)


def of_parts(pool, run):
    """A record that goes out in several parts: where one fails, what went out are the parts before it, and so its beginning."""
    wide = b"def f(;) { } main { repeat %d { when f(;); } }" % WIDE
    record = wide_record(WIDE)
    answers = list(pool.map(lambda write: run(["run"], wide, BROKEN_WRITE=write), range(1, 10)))
    parts = sum(answer.status != 0 for answer in answers)
    yield "a record of several parts", None if 3 <= parts < len(answers) else f"it has {parts} parts"
    gone = [len(answer.output) for answer in answers[:parts + 1]]
    yield "a record, part by part", None if gone == sorted(set(gone)) and gone[0] == 0 and gone[-1] == len(record) else f"{gone} bytes went out"
    wanted = [Answer(DEVICE.status, record[:count], DEVICE.errors, b"") for count in gone[:-1]] + [done(record)]
    yield "a record of several parts: one write fails", first_fault(range(1, 10), map(fault_of, wanted, answers))


def wide_record(rows):
    """The record of a run of main, which spawns so many rows without cowns: a tick for its start and for `repeat`, and two for each turn."""
    lines = ["boc 2 0", "+ 0 0 0", "> 0", *(f"+ {row} 0 {2 + 2 * row}" for row in range(1, rows + 1)), f"< 0 {2 + 2 * rows} 0"]
    for row in range(1, rows + 1):
        lines += [f"> {row}", f"< {row} 1 0"]
    return lines_text(lines + ["."])


def of_first_reads(run, record):
    """A source gives its first bytes at once, and its next read fails: the lines that are whole, or too long already, are judged before that."""
    for front, behind, line in FIRST_READS:
        source = (record if front is None else front) + behind
        expected = refused(3, f"boc: {line}") if line else DEVICE
        answer = run(["check"], source, BROKEN_READ=2, MOST_BYTES=len(source))
        yield f"{len(source)} bytes that end in {source[-12:]!r}, and a read that fails", fault_of(expected, answer)


def of_long_lines(run):
    """A line that is too long is told as such, and one that isn't as what it is, in whichever pieces it comes."""
    for front, text, line in LONG_LINES:
        for most in PIECES:
            answer = run(["check"], front + text, MOST_BYTES=most)
            yield f"{len(front)} bytes and {len(text)} of a line, {most} at a time", fault_of(refused(3, f"boc: {line}"), answer)


def build(library):
    """Compiles the library, and tells why that failed."""
    compiler = shutil.which("cc") or shutil.which("gcc")
    if compiler is None:
        return "there is no C compiler"
    made = subprocess.run([compiler, "-O1", "-shared", "-fPIC", "-o", library, BREAK], stderr=subprocess.PIPE)
    return made.stderr.decode(errors="replace") if made.returncode else None


def fault_of_reads(pool, run, words, source, whole, most):
    """Each read is tried, of which one more than the source fills finds its end. Where the next one is to fail, the program makes none."""
    reads = -(-len(source) // most) + 1
    numbers = range(1, reads + 2)
    found = pool.map(lambda read: run(words, source, BROKEN_READ=read, MOST_BYTES=most), numbers)
    faults = (fault_of(DEVICE if read <= reads else whole, answer) for read, answer in zip(numbers, found))
    return first_fault(numbers, faults)


def fault_of_writes(pool, run, words, source, output):
    """Each write is tried, before which the others went out. Where the one behind the last is to fail, all went out."""
    writes = -(-len(output) // WRITTEN)
    numbers = range(1, writes + 2)
    found = pool.map(lambda write: run(words, source, BROKEN_WRITE=write, MOST_BYTES=WRITTEN), numbers)
    wanted = [Answer(DEVICE.status, output[:WRITTEN * (write - 1)], DEVICE.errors, b"") for write in numbers[:-1]] + [done(output)]
    return first_fault(numbers, map(fault_of, wanted, found))


def first_fault(numbers, faults):
    """The first fault of those of calls by their numbers."""
    return next((f"where call {number} fails: {fault}" for number, fault in zip(numbers, faults) if fault), None)


def run_broken(program, library, words, source, **numbers):
    """The answer where a call fails, and calls move a few bytes, as these numbers say."""
    return program.run(words, source, env=dict(os.environ, LD_PRELOAD=library, **{name: str(number) for name, number in numbers.items()}))
