"""The recorders in recorders/: what they record is accepted by `check`, whatever the threads, the mode and the limits, and all three make the same record
of the same buffers.

tests/recorders has programs in C and in Rust that take several locks at once, on threads of their own. Their buffers are dumped too, and boc_record.py
makes a record of those. Compilers that are missing are told by a note.
"""
import io
import os
import re
import shutil
import subprocess
import sys
import tempfile
import threading

from .record_reader import Refused, read_record
from .running import done, fault_of
from .runtimes import GUIDE, RECORDERS, TOP, text_of

sys.path.insert(0, RECORDERS)
import boc_record

SOURCES = os.path.join(TOP, "tests", "recorders")
ORDER = [sys.executable, os.path.join(RECORDERS, "boc_record.py")]

THREADS = (1, 4, 8)
MODES = ("profile", "audit")
SECONDS = 120

STRICT = ["-Wall", "-Wextra", "-Wpedantic", "-Wconversion", "-Wshadow", "-Werror"]
# A compiler, how it is told the language, and by which word the source is that.
COMPILERS = [("gcc", "-std=gnu11", "c"), ("clang", "-std=gnu11", "c"), ("g++", "-std=c++17", "c++"), ("clang++", "-std=c++17", "c++")]
SANITIZERS = ["thread", "address,undefined"]

STOPPED = "recording stopped after"

# Rows of each thread, cowns, the most of one row, kibibytes; and what is said of the record if it is not the whole run.
SIZES = [
    ((400, 6, 3, 65536), None),
    ((1500, 6, 3, 128), STOPPED),
    ((1500, 400, 4, 65536), "more than 256 cowns"),
    ((400, 60, 20, 65536), "more than 8 cowns"),
]
MANY = (9000, 6, 3, 65536)

# In one of four such runs a thread is just between the number of an event and the event itself.
LIVE_RUNS = 8

# Records of more rows are judged by `check` alone, since the plain reader looks at all rows for each start.
MOST_READ = 1000


def cases(program):
    with tempfile.TemporaryDirectory() as folder:
        yield from of_python(program)
        built = []
        for compiler, *language in COMPILERS:
            path, fault = built_c(folder, "locks", compiler, language, STRICT)
            if path is None and fault is None:
                print(f"note: recorders/boc_record.h was not tried with {compiler}, which is not there or does not build", flush=True)
                continue
            yield f"boc_record.h: {compiler} {language[0]}", fault
            built += [path] if fault is None else []
        if shutil.which("rustc"):
            path, fault = built_rust(folder, "locks")
            yield "boc_record.rs: its build", fault
            built += [path] if fault is None else []
        else:
            print("note: recorders/boc_record.rs was not tried, since there is no rustc", flush=True)
        # Those of two compilers differ in no line of the recorder, so one of each language is tried with all sizes.
        for path in built:
            yield from of_locks(program, folder, path, is_first=path in (built[0], built[-1]))
        yield from sanitized(program, folder)
        yield from of_cost(folder)
    yield from of_guide()


# What the lines to copy in the guide are a part of.
AROUND_C = """#include "boc_record.h"
typedef struct cown { boc_cown asked; } cown;
typedef struct behaviour { boc_row row; unsigned count; cown *cown[3]; } behaviour;
void lines(behaviour *b, behaviour *parent, FILE *record_file, FILE *names_file);
void lines(behaviour *b, behaviour *parent, FILE *record_file, FILE *names_file)
{
%s
}
"""
AROUND_RUST = """#[path = "%s/boc_record.rs"] mod boc_record;
use boc_record::*;
pub struct Queue { asked: Cown }
pub fn lines(parent_row: Row, queues: &mut [Queue], mut record_file: std::fs::File, mut names_file: std::fs::File) -> Result<(), Fault> {
%s
Ok(())
}
"""


def ran(command, **options):
    """The status, the output and the errors of a command; a status of None if it did not end in time."""
    try:
        run = subprocess.run(command, capture_output=True, timeout=SECONDS, check=False, **options)
        return run.returncode, run.stdout, run.stderr.decode(errors="replace")
    except subprocess.TimeoutExpired:
        return None, b"", "it did not end in time"


def built_c(folder, name, compiler, language, options):
    """The program that a compiler makes, or what it says; neither, if there is no such compiler."""
    standard, kind = language
    path = os.path.join(folder, re.sub(r"\W", "_", "_".join([name, compiler, *options[-1:]])))
    small = os.path.join(folder, "small.c")
    with open(small, "w", encoding="ascii") as file:
        file.write("int main(void) { return 0; }\n")
    tools = [compiler, "-x", kind, standard, "-O2", "-pthread", "-I", RECORDERS, *options]
    if not shutil.which(compiler) or ran([*tools, "-o", path, small])[0] or ran([path])[0]:
        return None, None
    status, _, errors = ran([*tools, "-o", path, os.path.join(SOURCES, name + ".c")])
    return path, errors if status else None


def built_rust(folder, name):
    path = os.path.join(folder, name + "_rs")
    status, _, errors = ran(["rustc", "--edition", "2021", "-O", "-D", "warnings", "-o", path, os.path.join(SOURCES, name + ".rs")])
    return path, errors if status else None


def of_locks(program, folder, path, is_first):
    name = os.path.basename(path)
    for mode in MODES:
        for threads in THREADS:
            for size, said in SIZES if is_first and threads == 4 else SIZES[:1]:
                yield f"{name}: {mode}, {threads} threads, {size}", fault_of_run(program, folder, [path, mode, threads, *size], said)
        if is_first:
            yield f"{name}: {mode}, everything", fault_of_run(program, folder, [path, mode, 4, 500, 300, 20, 65536], None, whole=True)
            yield f"{name}: {mode}, live", fault_of_live(program, folder, [path, mode, 4, 4000, 6, 3, 65536])
            for when in ("alarm", "midway"):
                yield f"{name}: {mode}, {when}", fault_of_midway(program, folder, [path, mode, 4, 4000, 6, 3, 65536], when, when == "midway")


    if is_first:
        yield f"{name}: clocks that differ", fault_of_run(program, folder, [path, "skewed", 4, *SIZES[0][0]], None)
        yield f"{name}: too many rows", fault_of_run(program, folder, [path, "profile", 8, *MANY], "65,535")


def fault_of_run(program, folder, command, said, whole=False):
    """The record is accepted, and says how much of the run it is; the same is made of the buffers."""
    files = {kind: os.path.join(folder, kind) for kind in ("names", "other", "buffers")}
    status, record, errors = ran([*map(str, command), "2" if whole else "0", files["names"], files["buffers"]])
    if status != 0 or (said not in errors if said else errors):
        return f"the status {status} and {errors!r}"
    again = ran([*ORDER, *["--whole"] * whole, "--names", files["other"], files["buffers"]])
    if again[:2] != (0, record) or said not in (None, STOPPED) and said not in again[2]:
        return f"of its buffers another record is made, with the status {again[0]} and {again[2]!r}"
    names = text_of(files["names"])
    if names != text_of(files["other"]):
        return "of its buffers other names are made"
    return None if whole else fault_of_record(program, record) or fault_of_names(program, record, names)


def fault_of_record(program, record):
    rows = record.count(b"\n+ ")
    try:
        if rows <= MOST_READ and read_record(record) != rows:
            return "it has other rows"
        return fault_of(done(b"ok %d\n" % rows), program.run(["check"], record))
    except Refused as refusal:
        return f"line {refusal.args[0]} is {refusal.args[1]}"


def fault_of_names(program, record, names):
    """The names are taken by `why`, and none has a byte that they may not have."""
    answer = program.run_beside(["why"], "--names", names.encode(), record)
    if answer is None or answer.status or answer.errors:
        return f"with its names why answers {answer}"
    return None if re.fullmatch(r"(?:[@=](?: [!-~]+)+\n)*", names) and "transfer__[31m_of" in names else "its names have other bytes"


def fault_of_midway(program, folder, command, when, cuts=False):
    """Buffers that are dumped while threads go on make a record, once rows that wait are left out and those that run end. So do those that are cut off."""
    buffers = os.path.join(folder, f"buffers.{when}")
    status, record, errors = ran([*map(str, command), "0", os.path.join(folder, "names"), buffers])
    if status != 0:
        # Nothing at all may have been recorded.
        return None if errors.startswith("boc_record: nothing was recorded\n") else f"the status {status} and {errors!r}"
    if STOPPED not in errors:
        return f"recording did not stop: {errors!r}"
    closed = ran([*ORDER, "--close", buffers])
    if closed[0] != 0:
        return None if "nothing was recorded" in closed[2] else f"of the buffers: {closed}"
    with open(buffers, "rb") as file:
        content = file.read()
    return fault_of_record(program, record) or fault_of_record(program, closed[1]) or (fault_of_cut(program, buffers, content) if cuts else None)


def fault_of_live(program, folder, command):
    """Each record that is written while threads go on is accepted, without the rows that wait; rows that run end."""
    for _ in range(LIVE_RUNS):
        status, record, errors = ran([*map(str, command), "1", os.path.join(folder, "names"), os.path.join(folder, "buffers.live")])
        fault = fault_of_record(program, record) if status == 0 else f"the status {status} and {errors!r}"
        if fault:
            return fault
    return None


def fault_of_cut(program, path, content):
    """Buffers that are cut off anywhere, or damaged, make a record or are refused by a line."""
    parts = [content[:len(content) * part // 12] for part in range(12)]
    parts += [content.replace(b"chunk", b"chalk"), content[:200] + bytes(40) + content[200:], b"", b"boc 2 0\n"]
    for number, part in enumerate(parts):
        with open(path, "wb") as file:
            file.write(part)
        status, record, errors = ran([*ORDER, "--close", path])
        fault = fault_of_record(program, record) if status == 0 else None
        if fault or status and not re.fullmatch(r"boc_record: [a-z ,]+\n", errors):
            return f"part {number}: {fault or errors}"
    return None


def sanitized(program, folder):
    for compiler, *language in COMPILERS[:2]:
        for sanitizer in SANITIZERS:
            path, fault = built_c(folder, "locks", compiler, language, ["-g", f"-fsanitize={sanitizer}"])
            if path is None and fault is None:
                print(f"note: recorders/boc_record.h was not tried with {compiler} -fsanitize={sanitizer}, which is not there or does not work", flush=True)
                continue
            for mode in MODES:
                yield f"boc_record.h: {compiler}, {sanitizer}, {mode}, live", fault or fault_of_live(program, folder, [path, mode, 4, 2000, 6, 3, 65536])
                # A handler that interrupts ThreadSanitizer itself may hang, so there a thread dumps the buffers.
                when = "midway" if sanitizer == "thread" else "alarm"
                yield (f"boc_record.h: {compiler}, {sanitizer}, {mode}", fault or
                       fault_of_run(program, folder, [path, mode, 4, 1000, 6, 3, 65536], None) or
                       fault_of_midway(program, folder, [path, mode, 4, 2000, 6, 3, 65536], when))


def of_cost(folder):
    """The programs that measure run, and print a line for each mode and clock."""
    for name, (path, fault) in [("cost.c", built_c(folder, "cost", "cc", ("-std=gnu11", "c"), STRICT)),
                                ("cost.rs", built_rust(folder, "cost") if shutil.which("rustc") else (None, None))]:
        if path is not None:
            yield name, fault or fault_of_cost([path, "2", "500"])
    yield from lines_to_copy(folder)
    yield "cost.py", fault_of_cost([sys.executable, os.path.join(SOURCES, "cost.py"), "500"])


def lines_to_copy(folder):
    """The lines to copy compile."""
    guide = text_of(GUIDE)
    for language, around, compiler in [("c", AROUND_C, ["gcc", "-std=gnu11", *STRICT, "-I", RECORDERS, "-c"]),
                                       ("rust", AROUND_RUST, ["rustc", "--edition", "2021", "--crate-type", "lib", "-D", "warnings"])]:
        lines = re.search(rf"```{language}\n(.*?)```", guide, re.DOTALL)[1]
        path = os.path.join(folder, "lines." + language[0])
        with open(path, "w", encoding="ascii") as file:
            file.write(around % ((RECORDERS, lines) if language == "rust" else lines))
        if shutil.which(compiler[0]):
            status, _, errors = ran([*compiler, "-o", path + ".out", path])
            yield f"the lines to copy in {language}", errors if status else None


def fault_of_cost(command):
    status, output, errors = ran(command)
    return None if status == 0 and re.fullmatch(rb"(?:(?:profile|audit), [a-z ]+: \d+ ns\n)+", output) else f"{status} {output} {errors}"


def of_guide():
    """The guide names no call or option that its recorder does not have."""
    guide = text_of(GUIDE)
    for name, pattern in [("boc_record.h", r"\b(?:boc_[a-z_]+|BOC_[A-Z]+)\b")]:
        source = text_of(os.path.join(RECORDERS, name))
        unknown = {word for word in re.findall(pattern, guide) if not re.search(rf"\b{word}\b", source)} - {"boc_record"}
        yield f"the guide and {name}", f"{sorted(unknown)} are not there" if unknown else None


# The recorder in Python

def record_of(recorder, **how):
    record, names = io.StringIO(), io.StringIO()
    report = recorder.write(record, names, **how)
    return record.getvalue().encode(), names.getvalue(), report


def of_python(program):
    for mode in MODES:
        for threads in THREADS:
            recorder = boc_record.Recorder(mode=mode, knows_writes=True)
            take_and_release(recorder, threads, 200)
            record, _, report = record_of(recorder)
            lines = None if not report.lines else str(report.lines)
            yield f"boc_record.py: {mode}, {threads} threads", lines or fault_of_record(program, record)
        recorder = boc_record.Recorder(mode=mode, memory=100 * boc_record.ROW_BYTES)
        take_and_release(recorder, 4, 100)
        record, _, report = record_of(recorder)
        yield f"boc_record.py: {mode}, little memory", fault_of_record(program, record) or (None if report.full and report.kept < 100 else str(report))
    for name, fault in python_cases(program):
        yield f"boc_record.py: {name}", fault


def take_and_release(recorder, threads, rows):
    """Threads that take two of six locks at once, as behaviours over cowns, from outside."""
    locks = [(threading.Lock(), recorder.cown(f"lock[{number}]")) for number in range(6)]
    outside = recorder.outside()

    def work(number):
        for turn in range(rows):
            first = (number + turn) % 5
            (low, low_cown), (high, high_cown) = locks[first], locks[first + 1]
            with low, high:
                row = recorder.spawn(outside, "take", [low_cown, high_cown], (turn,))
                recorder.start(row)
                recorder.wrote(row, low_cown)
                child = recorder.spawn(row, "note")
                recorder.end(row)
            recorder.start(child)
            recorder.end(child)

    workers = [threading.Thread(target=work, args=(number,)) for number in range(threads)]
    for worker in workers:
        worker.start()
    for worker in workers:
        worker.join()


class Clock:
    def __init__(self):
        self.now = 5

    def __call__(self):
        return self.now


def small(mode=boc_record.PROFILE, **options):
    """A recorder by a clock of its own, with main running."""
    clock = Clock()
    recorder = boc_record.Recorder(mode=mode, clock=clock, unit=1, **options)
    main = recorder.spawn(None, "main")
    recorder.start(main)
    return recorder, clock, main


def python_cases(program):
    recorder, clock, main = small(knows_writes=True)
    cowns = [recorder.cown("a b\x1b"), recorder.cown()]
    clock.now += 7
    row = recorder.spawn(main, "", [cowns[1], cowns[0]], ("x y", "a" * 70, 3))
    recorder.end(main)
    recorder.start(row)
    recorder.wrote(row, cowns[0])
    clock.now += 3
    recorder.end(row, status=1)
    record, names, _ = record_of(recorder)
    yield "a small record", compared(record, b"boc 2 2\n+ 0 0 0\n> 0\n+ 1 0 7 0 1\n> 1\n< 0 7 0\n< 1 3 1 0\n.\n") or fault_of_record(program, record)
    yield "names", compared(names, "@ 0 a_b_\n@ 1 cown[1]\n= 0 main\n= 1 _ x_y " + "a" * 64 + " 3\n")

    recorder, clock, main = small()
    clock.now += 3000000
    rows = [recorder.spawn(main, "short") for _ in range(3)]
    recorder.end(main)
    for row in rows:
        recorder.start(row)
        recorder.end(row)
    record, _, report = record_of(recorder)
    yield "ticks beyond what a record takes", (None if report.scale == 5 else str(report)) or fault_of_record(program, record)

    # A run that hangs: row 2 waits for ever.
    recorder, clock, main = small()
    cown = recorder.cown()
    first, second = (recorder.spawn(main, "wait", [cown]) for _ in range(2))
    recorder.end(main)
    recorder.start(first)
    record, _, _ = record_of(recorder)
    closed, _, report = record_of(recorder, close=True)
    yield "a run that hangs", None if unended(record) else "it is taken for one that ended"
    yield "a run that hangs, closed", (None if report.pending == 1 else str(report)) or fault_of_record(program, closed)

    # The second of three turns at a cown is missing, and so are the third, which has a child, and what its parent spawns after it.
    recorder, clock, main = small()
    cown = recorder.cown()
    turns = [recorder.spawn(main, "turn", [cown]) for _ in range(3)]
    others = [recorder.spawn(main, "other")]
    for row in [*turns, *others]:
        recorder.start(row)
        others.append(recorder.spawn(row, "child"))
        recorder.end(row)
    recorder.rows.remove(turns[1])
    record, _, report = record_of(recorder, close=True)
    yield "a turn that is missing", (None if (report.kept, report.broken, report.pending) == (2, 5, 1) else str(report)) or fault_of_record(program, record)

    # The second in the queue goes first: by the turns no start is early, and so there is no order.
    recorder, clock, main = small()
    cown = recorder.cown()
    first, second = (recorder.spawn(main, "wait", [cown]) for _ in range(2))
    recorder.start(second)
    third = recorder.spawn(second, "spawn", [])
    recorder.end(second)
    first_of_third = recorder.spawn(third, "late", [])
    recorder.end(main)
    yield "what cannot be in order", None if first_of_third and contradicts(recorder, [first, third, first_of_third]) else "it has an order"

    for mode in MODES:
        recorder, clock, main = small(mode)
        recorder.end(main)
        recorder.end(main)
        recorder.start(None)
        record, _, report = record_of(recorder)
        if mode == "profile":
            yield "what is out of place, in profile", None if report.strange == 2 and not fault_of_record(program, record) else str(report)
        else:
            yield "what is out of place, in audit", compared(record, b"boc 1 0\n+ 0 0 0\n> 0\n< 0 1 0\n< 0 1 0\n> 1\n.\n")
    yield "an unknown mode", None if raises(lambda: boc_record.Recorder(mode="all"), ValueError) else "it is taken"
    yield "nothing recorded", None if raises(lambda: record_of(boc_record.Recorder()), boc_record.Failed) else "it is a record"


def unended(record):
    try:
        read_record(record)
    except Refused as refusal:
        return refusal.args[1] == "Unended"
    return False


def contradicts(recorder, rows):
    """Whether no order is found once these rows have ended too, though one began before a child of the other could be spawned."""
    first, third, late = rows
    recorder.start(third)
    late.parent = first             # as if the first, which has the turn before, had been spawned by what comes after it
    first.parent = third
    for row in (first, late):
        recorder.start(row)
        recorder.end(row)
    recorder.end(third)
    return raises(lambda: record_of(recorder), boc_record.Failed)


def raises(call, kind):
    try:
        call()
    except kind:
        return True
    return False


def compared(got, wanted):
    return None if got == wanted else f"{got!r} in place of {wanted!r}"
