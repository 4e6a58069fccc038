"""Each replacement of one byte of a record's text and of a program's, and each beginning of both: what is told is what plain readers find.

There are more of these texts than the program could be started for in a short while. So they stand in tables for `tables`, a
program of the repository's own tests, which hands each text to the reader that the commands have. The program itself is given those
with a byte that the texts have.
"""
import os
from concurrent.futures import ProcessPoolExecutor

from . import program_reader, record_reader
from .refusals import READER_KINDS, RECORD_KINDS
from .running import Program, done, fault_of, refused

TOP = os.path.dirname(os.path.dirname(os.path.dirname(os.path.abspath(__file__))))
TABLES = os.path.join(TOP, "crates", "tables", "out", "tables")

# The bytes that records and the program are given in each place, by their kind.
TRIED = {"record": b" \n.+<>01239b\x80", "program": b" \n{};(09ax=#\x80"}

# The examples, by their kind, and the command that reads them.
EXAMPLES = [("record", "transfer.record", "check"), ("program", "transfer.boc", "values")]


def replaced(text, place, byte):
    return text[:place] + bytes([byte]) + text[place + 1:]


def replacements(text, place):
    """The texts with another byte at this place."""
    return [replaced(text, place, byte) for byte in range(256) if byte != text[place]]


def beginnings(text):
    return [text[:end] for end in range(len(text) + 1)]


def fault_line(fault, kinds):
    line, name = fault.args
    number = next(number for number, kind in kinds.items() if kind == name)
    return f"line {line}: {number} {name}"


def line_on_record(text):
    """How many rows the record has, which is written again as this text; or the first fault."""
    try:
        return f"ok {record_reader.read_record(text)}"
    except record_reader.Refused as fault:
        return fault_line(fault, RECORD_KINDS)


def line_on_program(text):
    """That the text is a program's, or the first fault."""
    try:
        program_reader.read_program(text)
        return "ok"
    except program_reader.Refused as fault:
        return fault_line(fault, READER_KINDS)


LINE_ON = {"record": line_on_record, "program": line_on_program}


def lines_on(kind, text, place):
    """What is to be told of each text with another byte at this place."""
    return [LINE_ON[kind](it) for it in replacements(text, place)]


def told(answers, kind, texts):
    """The lines that are told of some texts, or None."""
    table = b"".join(b"%s %d\n%s\n" % (kind.encode(), len(text), text) for text in texts)
    answer = answers.run([], table)
    return answer.output.decode().splitlines() if answer and answer.status == 0 else None


def difference(texts, expected, lines):
    """The first text of which something else is told, or None."""
    if lines is None or len(lines) != len(texts):
        return "the table was not worked through"
    for text, wanted, line in zip(texts, expected, lines):
        if line != wanted:
            return f"{text!r}: {line!r} in place of {wanted!r}"
    return None


def cases(program):
    with ProcessPoolExecutor() as pool:
        for kind, name, command in EXAMPLES:
            text = program.example(name)
            yield from in_tables(pool, Program(TABLES, program.examples), kind, name, text)
            for place in range(len(text)):
                yield f"{command} of {name} with another byte at {place}", by_the_program(program, command, kind, text, place)


def in_tables(pool, answers, kind, name, text):
    """All replacements and beginnings, a table for each place."""
    if not os.access(TABLES, os.X_OK):
        yield "the program that works through tables", f"there is none at {TABLES}: rt ci builds it"
        return
    places = range(len(text))
    for place, expected in zip(places, pool.map(lines_on, [kind] * len(text), [text] * len(text), places, chunksize=4)):
        texts = replacements(text, place)
        yield f"{name} with each other byte at {place}", difference(texts, expected, told(answers, kind, texts))
    texts = beginnings(text)
    yield f"the beginnings of {name}", difference(texts, [LINE_ON[kind](it) for it in texts], told(answers, kind, texts))


def by_the_program(program, command, kind, text, place):
    """The first fault among some replacements at this place. What a program's values are is not known here."""
    for byte in TRIED[kind]:
        source = replaced(text, place, byte)
        line = LINE_ON[kind](source)
        if line == "ok":
            continue
        expected = done(f"{line}\n".encode()) if line.startswith("ok") else refused(3, f"boc: {line}")
        fault = fault_of(expected, program.run([command], source))
        if fault:
            return f"{bytes([byte])!r}: {fault}"
    return None
