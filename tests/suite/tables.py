"""Tables of texts, records and drives by subject (`tests/tables`), through the program of the crate `tables`.

A case begins with a line `# ` that says what it shows. Then comes a line with its kind, as `crates/tables/src/main.rt` lists them; then the
text that goes in, and what is to come out. A line `| ` is a line of the text, and one `\\ ` a last line without a line feed; `= ` is a line of
the answer. `\\xNN` is a byte that no text shows, `\\xNN{N}` that byte N times, and `\\\\` a backslash. Cases are parted by an empty line. The answers are
those of an independent model, or were found by hand.
"""
import os
import re
import subprocess

from .records import fan, fan_text

TOP = os.path.dirname(os.path.dirname(os.path.dirname(os.path.abspath(__file__))))
TABLES = os.path.join(TOP, "crates", "tables", "out", "tables")
FOLDER = os.path.join(TOP, "tests", "tables")
SECONDS = 120

# The most rows that a record may have, and one more.
LARGE = [(65535, b"ok 65535\n"), (65536, b"line 65538: 9 TooMany\n")]


def bytes_of(shown):
    """The bytes that a line of a table shows."""
    def meant(match):
        if match.group(0) == "\\\\":
            return "\\"
        return chr(int(match.group(1), 16)) * int(match.group(2) or 1)
    return re.sub(r"\\\\|\\x([0-9a-f]{2})(?:\{(\d+)\})?", meant, shown).encode("latin-1")


def read_case(lines):
    """What a case shows, what goes in for it, and what is to come out."""
    text, answer = b"", b""
    for line in lines[2:]:
        sign, shown = line[0], bytes_of(line[2:])
        if sign == "=":
            answer += shown + b"\n"
        else:
            text += shown + (b"\n" if sign == "|" else b"")
    return lines[0][2:], b"%s %d\n%s\n" % (lines[1].encode(), len(text), text), answer


def read_table(path):
    """The cases of a table, without the line at its head."""
    with open(path, encoding="ascii") as file:
        blocks = file.read().rstrip("\n").split("\n\n")
    return [read_case(block.split("\n")) for block in blocks[1:]]


def answers(table):
    """What the program tells of a table."""
    return subprocess.run([TABLES], input=table, stdout=subprocess.PIPE, timeout=SECONDS, check=False).stdout


def wrong_in(table):
    """The first case of a table whose answer is another one, if there is one."""
    if answers(b"".join(case[1] for case in table)) == b"".join(case[2] for case in table):
        return None
    for shows, given, answer in table:
        told = answers(given)
        if told != answer:
            return f"{shows}: {told[:200]!r} in place of {answer[:200]!r}"
    return "each case alone is right, and all together are not"


def cases(_program):
    """A case for each table."""
    if not os.access(TABLES, os.X_OK):
        yield "the program that works through tables", f"there is none at {TABLES}: rt ci builds it"
        return
    for name in sorted(os.listdir(FOLDER)):
        table = read_table(os.path.join(FOLDER, name))
        yield f"{name}, {len(table)} cases", wrong_in(table) if table else "it has no case"
    for rows, answer in LARGE:
        text = fan_text(0, fan(rows)).replace(b"boc 1", b"boc 2", 1)
        told = answers(b"record %d\n%s\n" % (len(text), text))
        yield f"a record of {rows} rows", None if told == answer else f"{told[:200]!r} in place of {answer!r}"
