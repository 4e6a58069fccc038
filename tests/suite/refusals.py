"""Each fault of program texts, of records, of edits and of runs: its number, its name and its line."""
from .records import TRANSFER, fan, lines_text, spawn_line, with_line
from .running import done, fault_of, refused

RECORD_KINDS = {
    1: "Header", 2: "Form", 3: "NumberNotNext", 4: "ParentNotRunning", 5: "Offset", 6: "Cowns",
    7: "StartNotAllowed", 8: "EndNotAllowed", 9: "TooMany", 10: "Unended", 11: "Truncated", 12: "After",
}

READER_KINDS = {
    1: "NotAscii", 2: "BadToken", 3: "Unexpected", 4: "NumberTooLarge", 5: "UnknownName", 6: "NameTaken",
    7: "WrongCount", 8: "TooMany", 9: "TooLong",
}

WHOLE = lines_text(TRANSFER)
BEFORE_LAST = lines_text(TRANSFER[:-1])
# Two rows over one cown, of which the first runs.
ONE_RUNS = ["boc 1 1", "+ 0 0 0", "> 0", "+ 1 0 2 0", "+ 2 0 3 0", "> 1"]


def spawned(line):
    """A record in which this line follows main's start."""
    return lines_text(TRANSFER[:3] + [line])


# Texts that are numbers, which are at most 4,294,967,295, and texts that are none.
NUMBERS = ["0", "7", "10", "305419896", "4294967295"]
NO_NUMBERS = ["", "00", "01", "4294967296", "4294967305", "9999999999", "42949672950", "18446744073709551617", "a", "1a", "a1", "+1", "-1", " 1", "1 ", "1\n",
              "/", ":"]

# Texts that are no record's, the line of the fault and its kind.
RECORDS = [
    (lines_text(["boc 3 2"] + TRANSFER[1:]), 1, 1),
    (lines_text(["boc 1 257"] + TRANSFER[1:]), 1, 1),
    (lines_text(["boc 1 02"] + TRANSFER[1:]), 1, 1),
    (lines_text(["boc 1"] + TRANSFER[1:]), 1, 1),
    (lines_text(["boc 1 2 "] + TRANSFER[1:]), 1, 1),
    (lines_text(["Boc 1 2"] + TRANSFER[1:]), 1, 1),
    (lines_text([""]), 1, 1),
    (b"x" * 81, 1, 1),
    (b"boc 1 " + b"0" * 75 + b"\n", 1, 1),
    (with_line(2, "x"), 2, 2),
    (with_line(2, ""), 2, 2),
    (with_line(2, "+ 0 0 0 "), 2, 2),
    (with_line(2, "+ 0 0"), 2, 2),
    (with_line(3, "> 00"), 3, 2),
    (with_line(3, ">0"), 3, 2),
    (with_line(3, "> 0\r"), 3, 2),
    (with_line(7, "< 0 4 7"), 7, 2),
    (with_line(7, "< 0 4"), 7, 2),
    (with_line(7, "< 0 4294967296 0"), 7, 2),
    (with_line(4, "+ 1 0 2 0 1 2 3 4 5 6 7 8"), 4, 2),
    (with_line(4, "+ 1 0 2 0" + " " * 72), 4, 2),
    (lines_text(TRANSFER[:3]) + b"y" * 81, 4, 2),
    (with_line(2, "+ 1 0 0"), 2, 3),
    (with_line(4, "+ 2 0 2 0"), 4, 3),
    (with_line(4, "+ 0 0 2 0"), 4, 3),
    (with_line(4, "+ 65535 0 2 0"), 4, 3),
    (with_line(2, "+ 0 1 0"), 2, 4),
    (lines_text(TRANSFER[:2] + ["+ 1 0 1"]), 3, 4),
    (with_line(4, "+ 1 1 2 0"), 4, 4),
    (with_line(4, "+ 1 1 0 9"), 4, 4),
    (with_line(2, "+ 0 0 1"), 2, 5),
    (with_line(4, "+ 1 0 0 0"), 4, 5),
    (with_line(4, "+ 1 0 1000001 0"), 4, 5),
    (with_line(5, "+ 2 0 2 0"), 5, 5),
    (with_line(5, "+ 2 0 2 9"), 5, 5),
    (with_line(2, "+ 0 0 0 0"), 2, 6),
    (with_line(4, "+ 1 0 2 1 0"), 4, 6),
    (with_line(4, "+ 1 0 2 1 1"), 4, 6),
    (with_line(4, "+ 1 0 2 2"), 4, 6),
    (with_line(8, "> 2"), 8, 7),
    (with_line(8, "> 0"), 8, 7),
    (with_line(8, "> 4"), 8, 7),
    (lines_text(ONE_RUNS + ["> 2"]), 7, 7),
    (with_line(3, "< 0 4 0"), 3, 8),
    (with_line(7, "< 0 0 0"), 7, 8),
    (with_line(7, "< 0 3 0"), 7, 8),
    (with_line(7, "< 0 1000001 0"), 7, 8),
    (with_line(7, "< 1 4 0"), 7, 8),
    (with_line(6, "+ 3 1 9"), 6, 4),
    (with_line(14, "+ 4 0 9"), 14, 4),
    # The first rule that is broken is told.
    (with_line(4, "+ 5 9 0 7"), 4, 3),
    (with_line(4, "+ 1 9 0 7"), 4, 4),
    (with_line(4, "+ 1 0 0 7"), 4, 5),
    (with_line(2, "+ 0 1 1 0"), 2, 4),
    (with_line(2, "+ 0 0 1 0"), 2, 5),
    (with_line(2, "> 0"), 2, 7),
    (with_line(7, "> 2"), 7, 7),
    (with_line(7, "> 3"), 7, 7),
    (with_line(7, "> 0"), 7, 7),
    (with_line(7, "> 4"), 7, 7),
    (with_line(9, "> 2"), 9, 7),
    (with_line(11, "> 3"), 11, 7),
    (with_line(14, "> 1"), 14, 7),
    (with_line(2, "< 0 1 0"), 2, 8),
    (with_line(4, "< 0 0 0"), 4, 8),
    (with_line(7, "< 1 1 0"), 7, 8),
    (with_line(14, "< 1 2 0"), 14, 8),
    (lines_text(["boc 1 2", "."]), 2, 10),
    (lines_text(ONE_RUNS + ["."]), 7, 10),
    (with_line(13, "."), 13, 10),
    (b"", 1, 11),
    (b"boc 1 2", 1, 11),
    (b"x" * 80, 1, 11),
    (lines_text(TRANSFER[:1]), 2, 11),
    (BEFORE_LAST, 14, 11),
    (BEFORE_LAST + b".", 14, 11),
    (BEFORE_LAST[:-1], 13, 11),
    (lines_text(TRANSFER[:4]) + b"y" * 80, 5, 11),
    (WHOLE + b"x", 15, 12),
    (WHOLE + b"\n", 15, 12),
    (WHOLE + WHOLE, 15, 12),
    (WHOLE + b"x" * 100, 15, 12),
]

# Program texts that are refused, the line of the fault and its kind.
PROGRAMS = [
    (b"main { } # \xc3", 1, 1),
    (b"main {\n\xc3", 2, 1),
    (b"main { let n = 01; }", 1, 2),
    (b"main { }\n\n@", 3, 2),
    (b"main { let " + b"n" * 33 + b" = 1; }", 1, 2),
    (b"", 1, 3),
    (b"main { } x", 1, 3),
    (b"main {\nwork 1\n}", 3, 3),
    (b"cown c[0] = 0; main { }", 1, 3),
    (b"main { let n = 9223372036854775808; }", 1, 4),
    (b"main { x = 1; }", 1, 5),
    (b"main {\nwhen f(;); }", 2, 5),
    (b"cown a = 0;\ncown a = 1; main { }", 2, 6),
    (b"def f(x; x) { } main { }", 1, 6),
    (b"def f(k; x) { } main { when f(; ); }", 1, 7),
    (b"cown c[2] = 0; def f(; x) { }\nmain { when f(; c); }", 2, 7),
    (b"cown c[257] = 0; main { }", 1, 8),
    (b"cown c[256] = 0;\ncown d = 0; main { }", 2, 8),
    (b"def f(a, b, c, d, e, g, h, i,\nj;) { } main { }", 2, 8),
    (b"main {\n" + b"work 1;\n" * 501 + b"}", 502, 8),
    (b"main { work " + b"(" * 999 + b"1" + b")" * 999 + b"; }", 1, 8),
    (b"main { work " + b"(" * 30000 + b"1" + b")" * 30000 + b"; }", 1, 8),
    (b"".join(b"def f%d(;) { }\n" % number for number in range(65)) + b"main { }", 65, 8),
    (b" " * 65537, 1, 9),
    (b"\n" * 65537, 65537, 9),
]

# Edits of the transfer's record, and the line of the fault.
EDITS = [
    (["4=1"], "boc: edit 1: 1 NoRow"),
    (["4294967295=1"], "boc: edit 1: 1 NoRow"),
    (["4=0"], "boc: edit 1: 1 NoRow"),
    (["0=3"], "boc: edit 1: 2 BelowSpawn"),
    (["1=0"], "boc: edit 1: 2 BelowSpawn"),
    (["2=1000001"], "boc: edit 1: 3 TooManyTicks"),
    (["2=4294967295"], "boc: edit 1: 3 TooManyTicks"),
    (["2=1", "4=1"], "boc: edit 2: 1 NoRow"),
    (["2=1", "0=3", "4=1"], "boc: edit 2: 2 BelowSpawn"),
    (["--p", "2", "2=1", "3=1", "1=1000001"], "boc: edit 3: 3 TooManyTicks"),
    (["4@0"], "boc: edit 1: 1 NoRow"),
    (["4294967295@1"], "boc: edit 1: 1 NoRow"),
    (["4=1/2"], "boc: edit 1: 1 NoRow"),
    (["0@0"], "boc: edit 1: 4 NoParent"),
    (["0@2"], "boc: edit 1: 4 NoParent"),
    (["1@0"], "boc: edit 1: 5 NotBetween"),
    (["1@3"], "boc: edit 1: 5 NotBetween"),
    (["2@2"], "boc: edit 1: 5 NotBetween"),
    (["2@4"], "boc: edit 1: 5 NotBetween"),
    (["3@3"], "boc: edit 1: 5 NotBetween"),
    (["3@5"], "boc: edit 1: 5 NotBetween"),
    (["3@1000001"], "boc: edit 1: 5 NotBetween"),
    (["3@4294967295"], "boc: edit 1: 5 NotBetween"),
    (["0=9", "3@10"], "boc: edit 2: 5 NotBetween"),
    (["1@1", "2@1"], "boc: edit 2: 5 NotBetween"),
    # The parent may be shortened only down to where the child has gone, and costs are edits like others.
    (["0=9", "3@9", "0=8"], "boc: edit 3: 2 BelowSpawn"),
    (["0=2/1", "3@8", "2@6", "1@5", "1@6"], "boc: edit 5: 5 NotBetween"),
    (["0=2/1", "0=7"], "boc: edit 2: 2 BelowSpawn"),
    (["0=1/2", "0=3", "0=2"], "boc: edit 3: 2 BelowSpawn"),
    (["2=1000/1", "2=1000/1"], "boc: edit 2: 3 TooManyTicks"),
    (["2=333334", "2=3/1"], "boc: edit 2: 3 TooManyTicks"),
    (["2=500001", "2=2/1", "2=1"], "boc: edit 2: 3 TooManyTicks"),
    (["--without", "2"], "boc: without 1: 6 NoCown"),
    (["--without", "4294967295"], "boc: without 1: 6 NoCown"),
    (["--without", "1", "--without", "256", "--without", "2"], "boc: without 2: 6 NoCown"),
    (["--without", "1", "4=1"], "boc: edit 1: 1 NoRow"),
    # A cown is judged before every edit, wherever it stands.
    (["4=1", "--without", "2"], "boc: without 1: 6 NoCown"),
    (["--p", "2", "2=1", "4=1", "--without", "0", "--without", "2"], "boc: without 2: 6 NoCown"),
]

# Sweeps and edits of a text that is no record's are refused for that, and not for what would be wrong with a cown or an edit.
OF_NO_RECORD = [
    ["sweep", "--cowns"],
    ["sweep", "--cowns", "--p", "2"],
    ["sweep", "--spawns"],
    ["whatif", "--without", "9", "9=1"],
    ["whatif", "0@0", "9=1/2"],
]

DOWN = b"cown a = 0; def down(n; x) { x = x + 1; if n > 1 { when down(n - 1; x); } } main { when down(%d; a); }"

READ_PROGRAMS = [["values"], ["run"], ["time", "--workers", "4", "--p", "2"]]

READ_RECORDS = [["check"], ["profile"], ["profile", "--p", "2"], ["whatif", "2=1"], ["sweep"], *OF_NO_RECORD]


def cases(program):
    for source, line, kind in RECORDS:
        expected = refused(3, f"boc: line {line}: {kind} {RECORD_KINDS[kind]}")
        for words in READ_RECORDS:
            yield f"{words} of {source[-40:]!r}", fault_of(expected, program.run(words, source))
    for kind, texts in [(3, NUMBERS), (2, NO_NUMBERS)]:
        for text in texts:
            answer = program.run(["check"], spawned(f"+ {text} 0 1"))
            yield f"{text!r} as the number of a row", fault_of(refused(3, f"boc: line 4: {kind} {RECORD_KINDS[kind]}"), answer)
    for source, line, kind in PROGRAMS:
        expected = refused(3, f"boc: line {line}: {kind} {READER_KINDS[kind]}")
        for words in READ_PROGRAMS:
            yield f"{words} of {source[-40:]!r}", fault_of(expected, program.run(words, source))
    yield from beginnings(program)
    for edits, line in EDITS:
        answer = program.run(["whatif", *edits], WHOLE)
        yield f"whatif {edits}", fault_of(refused(3, line), answer)
    yield from too_many(program)


def beginnings(program):
    """Each beginning of a program text lacks something, on its last line."""
    whole = program.example("transfer.boc").rstrip()
    for end in range(len(whole)):
        line = whole[:end].count(b"\n") + 1
        answer = program.run(["values"], whole[:end])
        yield f"the first {end} bytes of a program", fault_of(refused(3, f"boc: line {line}: 3 Unexpected"), answer)


def too_many(program):
    """The row 65,535 of a record, and of a program's own order, is one too many; the row before is the last."""
    rows = fan(65536)
    lines = [spawn_line(number, row) for number, row in enumerate(rows)]
    source = "".join(["boc 1 0\n", lines[0], "> 0\n"] + lines[1:]).encode()
    answer = program.run(["check"], source)
    yield "65,536 rows", fault_of(refused(3, "boc: line 65538: 9 TooMany"), answer)
    answer = program.run(["values"], DOWN % 65534)
    yield "65,535 behaviours", fault_of(done(b"a 65534\n"), answer)
    for words in READ_PROGRAMS:
        answer = program.run(words, DOWN % 65535)
        yield f"{words} of 65,536 behaviours", fault_of(refused(4, "boc: run: 2 Behaviours"), answer)
    record = program.run(["run", "--workers", "2"], DOWN % 65534)
    answer = program.run(["check"], record.output)
    yield "a run of 65,535 behaviours", fault_of(done(b"ok 65535\n"), answer)
    for words in [["values"], ["run"], ["run", "--workers", "4"], ["time", "--workers", "16"]]:
        endless = program.run(words, b"def f(;) { when f(;); } main { when f(;); }")
        yield f"{words} of endless behaviours", fault_of(refused(4, "boc: run: 2 Behaviours"), endless)
