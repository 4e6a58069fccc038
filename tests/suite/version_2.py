"""Records of version 2, whose ends name the cowns that the rows wrote."""
from . import model
from .records import TRANSFER, WRITTEN, lines_text
from .refusals import RECORD_KINDS
from .running import done, fault_of, refused
from .worked import GREEDY, PROFILE, SHORTER, sweep_lines


def with_written(number, line):
    """The record with another line in this place, counted from 1."""
    return lines_text(WRITTEN[:number - 1] + [line] + WRITTEN[number:])


def of_256(record):
    """The record, over as many cowns as there may be."""
    header, rows = record.split(b"\n", 1)
    return header[:len(b"boc 2 ")] + b"256\n" + rows


# Two rows that only read their cown, and one that writes it: the text and the rows.
READERS = lines_text(["boc 2 1", "+ 0 0 0", "> 0", "+ 1 0 2 0", "+ 2 0 3 0", "+ 3 0 4 0", "< 0 4 0", "> 1", "< 1 7 0", "> 2",
                      "< 2 7 0", "> 3", "< 3 2 0 0", "."])
READERS_ROWS = [model.Row(0, 0, (), 4), model.Row(0, 2, (0,), 7), model.Row(0, 3, (0,), 7), model.Row(0, 4, (0,), 2)]

# The program of which this is the record of a run by one worker.
PEEKS = b"""cown a = 1;
def peek(; x) { let y = x; work 5; }
def set(; x) { x = x; }
main { when peek(; a); when peek(; a); when set(; a); }
"""

# The report on these rows where what was only read is shared, and its greedy part for two workers.
SHARED = """rows 4
work 20
span 12
chain
0 spawn 3
2 order 7
3 end 2
plan
0 0 4
1 2 9
2 3 10
3 10 12
"""
SHARED_GREEDY = """greedy 2
0 0 4 0
1 2 9 1
2 4 11 0
3 11 13 0
end 13 bound 22
"""

# The report where the cown orders nobody.
FREED = """rows 4
work 20
span 10
chain
0 spawn 3
2 end 7
plan
0 0 4
1 2 9
2 3 10
3 4 6
"""

# The same text in version 1, in which rows count as having written all their cowns.
READERS_OF_1 = lines_text(["boc 1 1", "+ 0 0 0", "> 0", "+ 1 0 2 0", "+ 2 0 3 0", "+ 3 0 4 0", "< 0 4 0", "> 1", "< 1 7 0", "> 2",
                           "< 2 7 0", "> 3", "< 3 2 0", "."])

# Records, and the answers to the commands that read them.
READ = [
    (READERS, ["check"], "ok 4\n"),
    (READERS, ["profile"], model.report(READERS_ROWS).decode()),
    (READERS, ["profile", "--p", "2"], model.report(READERS_ROWS, 2).decode()),
    (READERS, ["profile", "--shared-reads"], SHARED),
    (READERS, ["profile", "--shared-reads", "--p", "2"], SHARED + SHARED_GREEDY),
    (READERS, ["whatif", "--p", "2", "--shared-reads"], SHARED + SHARED_GREEDY),
    (READERS, ["whatif", "--shared-reads", "2=1", "2=7"], SHARED),
    (READERS, ["sweep"], model.sweep(READERS_ROWS).decode()),
    (READERS, ["sweep", "--shared-reads"], "0 12\n1 12\n2 11\n3 11\n"),
    (READERS, ["curve", "--p", "3"], model.curve(READERS_ROWS, 3).decode()),
    (READERS, ["curve", "--p", "3", "--shared-reads"], "work 20\nspan 12\n1 20 20 32\n2 13 12 22\n3 12 12 18\n"),
    (READERS, ["sweep", "--p", "2"], "0 18\n1 12\n2 12\n3 17\n"),
    (READERS, ["sweep", "--p", "2", "--shared-reads"], "0 13\n1 12\n2 11\n3 12\n"),
    (READERS, ["sweep", "--p", "3", "--shared-reads"], "0 12\n1 12\n2 11\n3 11\n"),
    (READERS, ["sweep", "--cowns"], "0 10\n"),
    (of_256(READERS), ["sweep", "--cowns"], sweep_lines(range(256), 18, {0: 10})),
    (of_256(READERS), ["sweep", "--cowns", "--shared-reads"], sweep_lines(range(256), 12, {0: 10})),
    (of_256(lines_text(WRITTEN)), ["sweep", "--cowns"], sweep_lines(range(256), 9, {0: 8, 1: 7})),
    (of_256(lines_text(WRITTEN)), ["sweep", "--cowns", "--shared-reads"], sweep_lines(range(256), 9, {0: 8, 1: 7})),
    (READERS, ["sweep", "--cowns", "--shared-reads"], "0 10\n"),
    (READERS, ["sweep", "--cowns", "--p", "2", "--shared-reads"], "0 11\n"),
    (READERS, ["sweep", "--spawns"], "1 17\n2 18\n3 18\n"),
    (READERS, ["sweep", "--spawns", "--shared-reads"], "1 12\n2 12\n3 12\n"),
    (READERS, ["whatif", "--without", "0", "--shared-reads"], FREED),
    (READERS, ["whatif", "--without", "0"], FREED),
    (READERS, ["whatif", "--shared-reads", "2=1/7", "2=7/1"], SHARED),
    (PEEKS, ["run"], READERS.decode()),
    (PEEKS, ["time"], model.report(READERS_ROWS).decode()),
    (PEEKS, ["time", "--shared-reads", "--p", "2"], SHARED + SHARED_GREEDY),
    (READERS_OF_1, ["profile"], model.report(READERS_ROWS).decode()),
    (READERS_OF_1, ["profile", "--shared-reads"], model.report(READERS_ROWS).decode()),
    (READERS_OF_1, ["sweep", "--shared-reads"], model.sweep(READERS_ROWS).decode()),
    (lines_text(WRITTEN), ["check"], "ok 4\n"),
    (lines_text(WRITTEN), ["profile"], PROFILE),
    (lines_text(WRITTEN), ["profile", "--p", "2"], PROFILE + GREEDY),
    (lines_text(WRITTEN), ["whatif", "2=1"], SHORTER),
    (lines_text(WRITTEN), ["sweep"], "0 9\n1 8\n2 7\n3 8\n"),
    # A row need not have written its cowns.
    (with_written(9, "< 1 2 0"), ["check"], "ok 4\n"),
    (with_written(11, "< 2 3 0 1"), ["check"], "ok 4\n"),
    # In version 1 no cowns are named, and rows are read as if they had written all of theirs.
    (lines_text(TRANSFER), ["check"], "ok 4\n"),
    (lines_text(["boc 2 0"] + ["+ 0 0 0", "> 0", "< 0 1 0", "."]), ["check"], "ok 1\n"),
]

# Texts that are no record's, the line of the fault and its kind.
REFUSED = [
    (with_written(1, "boc 2 257"), 1, 1),
    (with_written(1, "boc 2"), 1, 1),
    (with_written(1, "boc 02 2"), 1, 1),
    (with_written(9, "< 1 2 0 "), 9, 2),
    (with_written(9, "< 1 2 0 00"), 9, 2),
    (with_written(11, "< 2 3 0 0 1 2 3 4 5 6 7 8"), 11, 2),
    (with_written(9, "< 1 2 0 1"), 9, 8),
    (with_written(9, "< 1 2 0 2"), 9, 8),
    (with_written(9, "< 1 2 0 0 0"), 9, 8),
    (with_written(11, "< 2 3 0 0 2"), 11, 8),
    (with_written(9, "< 1 2 0 4294967295"), 9, 8),
    (with_written(11, "< 2 3 0 1 0"), 11, 8),
    (with_written(11, "< 2 3 0 0 0"), 11, 8),
    (with_written(7, "< 0 4 0 0"), 7, 8),
    # A version 1 record's ends name no cowns.
    (with_written(1, "boc 1 2"), 9, 2),
]


def cases(program):
    for source, words, text in READ:
        yield f"{words} of {source[-40:]!r}", fault_of(done(text.encode()), program.run(words, source))
    for source, line, kind in REFUSED:
        expected = refused(3, f"boc: line {line}: {kind} {RECORD_KINDS[kind]}")
        yield f"check of {source[-40:]!r}", fault_of(expected, program.run(["check"], source))
