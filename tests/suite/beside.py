"""Commands that read a file beside their input: `check` with a program, and `values` with a record.

The records are worked by hand from the texts: a body's start, an assignment, a `let` and a `when` cost a tick each, `work` as many as it
names, and an end tells the cowns that the body assigned to.
"""
import os
import tempfile

from .records import TRANSFER, WRITTEN, lines_text
from .refusals import READER_KINDS, RECORD_KINDS
from .running import done, fault_of, refused

# A run of examples/two_orders.boc in which `right` spawns first, so that a is doubled before 1 is added to it.
DOUBLED_FIRST = ["boc 2 4", "+ 0 0 0", "> 0", "+ 1 0 2 2", "+ 2 0 3 3", "< 0 3 0", "> 2", "+ 3 2 2 0", "< 2 2 0", "> 1", "+ 4 1 2 0 1", "< 1 2 0",
                 "> 3", "< 3 2 0 0", "> 4", "< 4 3 0 0 1", "."]
DOUBLED_FIRST_VALUES = "a 1\nb 1\np 0\nq 0\n"

# The order of its serial run.
ADDED_FIRST = ["boc 2 4", "+ 0 0 0", "> 0", "+ 1 0 2 2", "+ 2 0 3 3", "< 0 3 0", "> 1", "+ 3 1 2 0 1", "< 1 2 0", "> 2", "+ 4 2 2 0", "< 2 2 0",
               "> 3", "< 3 3 0 0 1", "> 4", "< 4 2 0 0", "."]
ADDED_FIRST_VALUES = "a 2\nb 1\np 0\nq 0\n"

# A run of examples/peeks.boc, whose first two behaviours only read.
PEEKS = ["boc 2 1", "+ 0 0 0", "> 0", "+ 1 0 2 0", "+ 2 0 3 0", "+ 3 0 4 0", "< 0 4 0", "> 1", "< 1 7 0", "> 2", "< 2 7 0", "> 3", "< 3 2 0 0", "."]

# A behaviour that fails, and leaves no outputs behind its fault.
FAILING = b"cown a = 5; def fail(; x) { x = x + 1; x = x / 0; x = 9; } main { when fail(; a); }"
FAILED = ["boc 2 1", "+ 0 0 0", "> 0", "+ 1 0 2 0", "< 0 2 0", "> 1", "< 1 3 2 0", "."]

# Programs, records of their runs, how many rows these have, and the values at their ends.
RUNS = [
    ("transfer.boc", WRITTEN, 4, "a 12\nb 4\n"),
    # In version 1 each row is taken to have written all of its cowns, which here it did.
    ("transfer.boc", TRANSFER, 4, "a 12\nb 4\n"),
    ("two_orders.boc", DOUBLED_FIRST, 5, DOUBLED_FIRST_VALUES),
    ("two_orders.boc", ADDED_FIRST, 5, ADDED_FIRST_VALUES),
    ("peeks.boc", PEEKS, 4, "a 1\n"),
    (FAILING, FAILED, 2, "a 6\n"),
    (b"main { }", ["boc 2 0", "+ 0 0 0", "> 0", "< 0 1 0", "."], 1, ""),
]

STRAY_KINDS = {15: "OtherCowns", 16: "NotNextSpawn", 17: "NotItsEnd"}


def with_lines(lines, changed):
    """The lines of a record with others at these places, counted from 1."""
    return [changed.get(number, line) for number, line in enumerate(lines, 1)]


# Programs, records of no run of them, and the line and the kind of what strays first.
STRAYS = [
    ("two_orders.boc", WRITTEN, 1, 15),
    ("transfer.boc", DOUBLED_FIRST, 1, 15),
    ("transfer.boc", with_lines(WRITTEN, {1: "boc 2 3"}), 1, 15),
    # Another offset, other cowns, and one spawn more.
    ("transfer.boc", with_lines(WRITTEN, {4: "+ 1 0 1 0"}), 4, 16),
    ("transfer.boc", with_lines(WRITTEN, {4: "+ 1 0 2 1", 9: "< 1 2 0 1"}), 4, 16),
    ("transfer.boc", with_lines(WRITTEN, {6: "+ 3 0 4 0", 13: "< 3 2 0 0"}), 6, 16),
    ("transfer.boc", WRITTEN[:6] + ["+ 4 0 5", "< 0 5 0"] + WRITTEN[7:13] + ["> 4", "< 4 1 0", "."], 7, 16),
    ("two_orders.boc", with_lines(DOUBLED_FIRST, {8: "+ 3 2 2 0 1"}), 8, 16),
    # Other ticks, another status, other written cowns, and an end before the last spawn.
    ("transfer.boc", with_lines(WRITTEN, {13: "< 3 3 0 1"}), 13, 17),
    ("transfer.boc", with_lines(WRITTEN, {13: "< 3 2 1 1"}), 13, 17),
    ("transfer.boc", with_lines(WRITTEN, {13: "< 3 2 0"}), 13, 17),
    ("transfer.boc", with_lines(WRITTEN, {7: "< 0 5 0"}), 7, 17),
    ("transfer.boc", WRITTEN[:5] + WRITTEN[6:11] + ["."], 6, 17),
    ("peeks.boc", with_lines(PEEKS, {1: "boc 1 1", 13: "< 3 2 0"}), 9, 17),
    # Of two places the first is told.
    ("transfer.boc", with_lines(WRITTEN, {9: "< 1 3 0 0", 13: "< 3 2 0"}), 9, 17),
    (FAILING, with_lines(FAILED, {7: "< 1 3 0 0"}), 7, 17),
    (b"cown a = 5; main { }", FAILED, 4, 16),
]

# What is no program, and what is no record, with the line and the kind of the fault.
NO_PROGRAMS = [(b"", 1, 3), (b"main {\n  when f(;);\n}\n", 2, 5), (b"\n" * 65537, 65537, 9), (b"boc 2 0\n", 1, 3)]
NO_RECORDS = [(b"", 1, 11), (b"main { }", 1, 11), (lines_text(WRITTEN)[:-1], 14, 11), (lines_text(WRITTEN) + b"\n", 15, 12)]


def cases(program):
    yield from runs(program)
    yield from strays(program)
    yield from faulty(program)
    with tempfile.TemporaryDirectory() as folder:
        yield from without_file(program, folder)


def check(program, text, record):
    return program.run_beside(["check"], "--program", text, record)


def values(program, text, record):
    return program.run_beside(["values"], "--record", record, text)


def text_of(program, source):
    return source if isinstance(source, bytes) else program.example(source)


def runs(program):
    for source, lines, rows, end in RUNS:
        text, record = text_of(program, source), lines_text(lines)
        yield f"check of a run of {source!r}", fault_of(done(b"ok %d\n" % rows), check(program, text, record))
        yield f"values of a run of {source!r}", fault_of(done(end.encode()), values(program, text, record))
    for source in ["bank.boc", "pipeline.boc", "accounts.boc", "overflow.boc"]:
        text = program.example(source)
        record = program.run(["run", "--workers", "4"], text).output
        rows = sum(line.startswith(b"+") for line in record.splitlines())
        yield f"check of a run of {source}", fault_of(done(b"ok %d\n" % rows), check(program, text, record))


def strays(program):
    for source, lines, line, kind in STRAYS:
        text, record = text_of(program, source), lines_text(lines)
        rows = sum(event.startswith("+") for event in lines)
        told = f"line {line}: {kind} {STRAY_KINDS[kind]}"
        yield f"a record that strays on line {line}", fault_of(done(b"ok %d\n" % rows), program.run(["check"], record))
        yield f"check: {told} of {source!r}", fault_of(refused(3, f"boc: {told}"), check(program, text, record))
        yield f"values: {told} of {source!r}", fault_of(refused(3, f"boc: record: {told}"), values(program, text, record))


def faulty(program):
    """A program that is none is told before what is wrong with the record, whichever of them is the file."""
    text, record = program.example("transfer.boc"), program.example("transfer.record")
    for source, line, kind in NO_PROGRAMS:
        told = f"line {line}: {kind} {READER_KINDS[kind]}"
        for other in (record, b"x", lines_text(DOUBLED_FIRST)):
            yield f"check: {told}", fault_of(refused(3, f"boc: program: {told}"), check(program, source, other))
            yield f"values: {told}", fault_of(refused(3, f"boc: {told}"), values(program, source, other))
    for source, line, kind in NO_RECORDS:
        told = f"line {line}: {kind} {RECORD_KINDS[kind]}"
        for other in (text, program.example("two_orders.boc")):
            yield f"check: {told}", fault_of(refused(3, f"boc: {told}"), check(program, other, source))
            yield f"values: {told}", fault_of(refused(3, f"boc: record: {told}"), values(program, other, source))


def without_file(program, folder):
    """Where the file can't be read, nothing of the input is."""
    missing = os.path.join(folder, "missing")
    for words in (["check", "--program"], ["values", "--record"]):
        for path, said in ((missing, "No such file or directory (os error 2)"), (folder, "Is a directory (os error 21)")):
            expected = refused(5, f"boc: {path}: {said}")
            with tempfile.TemporaryFile() as source:
                source.write(b"x")
                source.seek(0)
                yield f"{words} of {said}", fault_of(expected, program.run([*words, path], stdin=source))
                place = os.lseek(source.fileno(), 0, os.SEEK_CUR)
                yield f"{words} of {said}: the input", None if place == 0 else f"{place} bytes of it were read"
