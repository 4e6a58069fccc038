"""Files, pipes and devices: sources that come in pieces, end early or fail, and sinks that fail.

A reader that goes away is a sink that fails, so it is told as a device with the status 5, and no signal ends the
program. Python starts its children with the usual answer to that signal, to end, so the program has to see to it.
"""
import dataclasses
import os
import subprocess
import tempfile
import threading
import time

from . import model
from .copies import TOP
from .records import TRANSFER, fan, fan_text, lines_text
from .running import DEVICE, Answer, done, fault_of, refused
from .worked import GREEDY, PROFILE

# The commands that read a program, and those that read a record.
OTHER = os.path.join(TOP, "examples", "race.boc")
OF_PROGRAMS = [["values"], ["run"], ["time"], ["time", "--workers", "4", "--p", "2"], ["why"], ["cowns"], ["why", "--runs", "3"], ["outcomes", "--all"],
               ["outcomes", "--all", "--end", "1"], ["compare", "-", OTHER], ["compare", "--runs", "3", "-", OTHER]]
OF_RECORDS = [["check"], ["profile"], ["profile", "--p", "2"], ["whatif"], ["whatif", "--p", "2", "2=1"], ["curve"], ["sweep"],
              ["sweep", "--p", "2"], ["sweep", "--cowns"], ["sweep", "--cowns", "--p", "2"], ["sweep", "--spawns"], ["cut"], ["cut", "--from", "2"], ["cut", "--tiles", "2"],
              ["whatif", "--without", "1", "2@3", "2=1/2"], ["why", "--all"], ["cowns", "--top", "1"],
              ["whatif", "--without", "cown 1", "--short"], ["whatif", "--early", "row 0"]]


def source_of(program, words):
    """What a command reads."""
    return program.example("transfer.boc" if words in OF_PROGRAMS else "transfer.record")


def cases(program):
    for words in OF_PROGRAMS + OF_RECORDS:
        name, source = " ".join(words), source_of(program, words)
        whole = program.run(words, source)
        with open("/dev/full", "wb") as full:
            yield f"{name}: a full disk", fault_of(DEVICE, program.run(words, source, stdout=full))
        yield f"{name}: no reader", fault_of(DEVICE, run_without_reader(program, words, source))
        yield f"{name}: a closed output", fault_of(DEVICE, run_without_output(program, words, source))
        yield f"{name}: a directory", fault_of(DEVICE, run_on_directory(program, words))
        yield f"{name}: a closed input", fault_of(DEVICE, program.run_by_shell('exec "$0" "$@" <&-', words))
        yield f"{name}: files", fault_of(whole, run_on_files(program, words, source))
        yield f"{name}: byte by byte", fault_of(whole, run_in_pieces(program, words, source, 1))
        yield f"{name}: 7 bytes at a time", fault_of(whole, run_in_pieces(program, words, source, 7))
    yield from failing_help(program)
    yield from early_ends(program)
    yield from long_outputs(program)
    yield from failing_errors(program)


def failing_help(program):
    with open("/dev/full", "wb") as full:
        yield "help: a full disk", fault_of(DEVICE, program.run(["--help"], stdout=full))
    yield "help: no reader", fault_of(DEVICE, run_without_reader(program, ["--help"], b""))


def early_ends(program):
    """Pipes that are closed in mid record: the line that is missing or cut is told."""
    for bytes_left, line in ((1, 14), (2, 14), (3, 13), (20, 11), (len(lines_text(TRANSFER)) - 3, 1)):
        source = lines_text(TRANSFER)[:-bytes_left]
        for words in OF_RECORDS:
            answer = run_in_pieces(program, words, source, 16)
            expected = refused(3, f"boc: line {line}: 11 Truncated")
            # A stream may end between two lines.
            is_whole = words[0] == "cut" and source.endswith(b"\n")
            fault = (f"it told {answer}" if answer.status else None) if is_whole else fault_of(expected, answer)
            yield f"{' '.join(words)}: a source without its last {bytes_left} bytes", fault


def long_outputs(program):
    """A report of many times what a pipe holds, to a reader that is slow, and to one that goes away."""
    rows = fan(20000, main_ticks=20000)
    source = fan_text(0, rows)
    words = ["profile", "--p", "3"]
    expected = done(model.report(rows, 3))
    yield "profile: a slow reader", fault_of(expected, run_with_reader(program, words, source, slowly=True))
    answer = run_with_reader(program, words, source, slowly=False)
    begins = expected.output.startswith(answer.output)
    yield "profile: a reader that goes away", fault_of(DEVICE, dataclasses.replace(answer, output=b""))
    yield "profile: what went out", None if begins else "it is no beginning of the report"


def failing_errors(program):
    """Where the fault's line can't be written, the status still tells the fault."""
    answer = program.run_by_shell('printf x | "$0" "$@" 2> /dev/full', ["check"])
    yield "check: full standard error", fault_of(Answer(3, b"", b""), answer)
    answer = program.run_by_shell('printf x | "$0" "$@" 2>&-', ["check"])
    yield "check: closed standard error", fault_of(Answer(3, b"", b""), answer)


def run_without_reader(program, words, source):
    reading, writing = os.pipe()
    os.close(reading)
    try:
        return program.run(words, source, stdout=writing)
    finally:
        os.close(writing)


def run_without_output(program, words, source):
    with tempfile.NamedTemporaryFile() as file:
        file.write(source)
        file.flush()
        return program.run_by_shell(f'exec "$0" "$@" < {file.name} >&-', words)


def run_on_directory(program, words):
    directory = os.open("/", os.O_RDONLY)
    try:
        return program.run(words, stdin=directory)
    finally:
        os.close(directory)


def run_on_files(program, words, source):
    with tempfile.TemporaryFile() as given, tempfile.TemporaryFile() as made:
        given.write(source)
        given.seek(0)
        answer = program.run(words, stdin=given, stdout=made)
        made.seek(0)
        return dataclasses.replace(answer, output=made.read())


def run_in_pieces(program, words, source, size):
    """The answer where the source comes by a pipe, in so many pieces, now and then after a pause."""
    reading, writing = os.pipe()

    def give():
        for start in range(0, len(source), size):
            if start % (size * 16) == 0:
                time.sleep(0.001)
            try:
                os.write(writing, source[start:start + size])
            except BrokenPipeError:
                break
        os.close(writing)

    giver = threading.Thread(target=give)
    giver.start()
    try:
        return program.run(words, stdin=reading)
    finally:
        os.close(reading)
        giver.join()


def run_with_reader(program, words, source, slowly):
    """The answer where the output is read in pieces with pauses between them, or its first piece alone."""
    with tempfile.TemporaryFile() as given:
        given.write(source)
        given.seek(0)
        run = subprocess.Popen([program.path, *words], stdin=given, stdout=subprocess.PIPE, stderr=subprocess.PIPE)
        output = os.read(run.stdout.fileno(), 4096)
        while slowly:
            time.sleep(0.001)
            piece = os.read(run.stdout.fileno(), 4096)
            if not piece:
                break
            output += piece
        run.stdout.close()
        errors = run.stderr.read()
        run.stderr.close()
        return Answer(run.wait(), output, errors)
