"""Texts of records, read plainly as docs/RECORDS.md has them: the rows, or the first faulty line and what is wrong with it."""
import re

NUMBER = re.compile(rb"0|[1-9][0-9]*")
MOST_NUMBER = 4294967295
MOST_LINE = 80
MOST_TICKS = 1000000
MOST_ROWS = 65535
MOST_COWNS = 256
MOST_HELD = 8


class Refused(Exception):
    """The line of a text's first fault, counted from 1, and the name of what is wrong with it."""


class Wrong(Exception):
    """What is wrong with a line, by its name."""


def read_record(text):
    """How many rows the record has whose text this is. A text that is none is refused."""
    number, rest = 1, text
    try:
        line, rest = first_line(rest, "Header")
        version, run = header_of(line)
        while line != b".":
            number += 1
            line, rest = first_line(rest, "Form")
            if line != b".":
                run.take(*event_of(line, version, run))
        if not run.rows or any(row.life != "ended" for row in run.rows):
            raise Wrong("Unended")
        number += 1
        if rest:
            raise Wrong("After")
        return len(run.rows)
    except Wrong as wrong:
        raise Refused(number, wrong.args[0]) from None


def first_line(text, too_long):
    """The first line of a text, without its line feed, and what stands behind it."""
    end = text.find(b"\n", 0, MOST_LINE + 1)
    if end < 0:
        raise Wrong(too_long if len(text) > MOST_LINE else "Truncated")
    return text[:end], text[end + 1:]


def numbers_of(fields):
    """The numbers that fields are, or none where one of them is no number."""
    if all(NUMBER.fullmatch(field) and int(field) <= MOST_NUMBER for field in fields):
        return [int(field) for field in fields]
    return None


def header_of(line):
    mark, *fields = line.split(b" ")
    numbers = numbers_of(fields)
    if mark != b"boc" or not numbers or len(numbers) != 2 or numbers[0] not in (1, 2) or numbers[1] > MOST_COWNS:
        raise Wrong("Header")
    return numbers[0], Run(numbers[1])


def event_of(line, version, run):
    """The event of a line: what happens, to which row, and the numbers that go with it."""
    sign, *fields = line.split(b" ")
    numbers = numbers_of(fields)
    if numbers and sign == b"+" and 3 <= len(numbers) <= 3 + MOST_HELD:
        row, parent, offset, *cowns = numbers
        return "spawn", row, (parent, offset, cowns)
    if numbers and sign == b">" and len(numbers) == 1:
        return "start", numbers[0], ()
    if numbers and sign == b"<" and 3 <= len(numbers) <= (3 + MOST_HELD if version == 2 else 3) and numbers[2] <= 6:
        row, ticks, _, *written = numbers
        if version == 1 and row < len(run.rows):
            written = run.rows[row].cowns
        return "end", row, (ticks, written)
    raise Wrong("Form")


def rises_below(numbers, limit):
    return all(a < b for a, b in zip(numbers, numbers[1:])) and all(number < limit for number in numbers)


class RowSoFar:
    def __init__(self, cowns):
        self.cowns = cowns
        self.life = "pending"
        self.last_offset = 0


class Run:
    """The rows of a run so far."""

    def __init__(self, cowns):
        self.cowns = cowns
        self.rows = []

    def take(self, what, row, numbers):
        """Takes an event, or tells the first rule that it breaks."""
        {"spawn": self.spawn, "start": self.start, "end": self.end}[what](row, *numbers)

    def is_alive(self, row, life):
        return row < len(self.rows) and self.rows[row].life == life

    def spawn(self, row, parent, offset, cowns):
        is_main = not self.rows
        if row != len(self.rows):
            raise Wrong("NumberNotNext")
        if row >= MOST_ROWS:
            raise Wrong("TooMany")
        if parent != 0 if is_main else not self.is_alive(parent, "running"):
            raise Wrong("ParentNotRunning")
        if offset != 0 if is_main else not self.rows[parent].last_offset < offset <= MOST_TICKS:
            raise Wrong("Offset")
        if cowns if is_main else not rises_below(cowns, self.cowns):
            raise Wrong("Cowns")
        if not is_main:
            self.rows[parent].last_offset = offset
        self.rows.append(RowSoFar(cowns))

    def start(self, row):
        if not self.is_alive(row, "pending"):
            raise Wrong("StartNotAllowed")
        for number, other in enumerate(self.rows):
            is_before = other.life == "running" or other.life == "pending" and number < row
            if is_before and set(other.cowns) & set(self.rows[row].cowns):
                raise Wrong("StartNotAllowed")
        self.rows[row].life = "running"

    def end(self, row, ticks, written):
        if not self.is_alive(row, "running"):
            raise Wrong("EndNotAllowed")
        ended = self.rows[row]
        if not max(1, ended.last_offset) <= ticks <= MOST_TICKS:
            raise Wrong("EndNotAllowed")
        if not rises_below(written, self.cowns) or not set(written) <= set(ended.cowns):
            raise Wrong("EndNotAllowed")
        ended.life = "ended"
