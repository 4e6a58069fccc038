"""Worked examples: programs with their values, and records of runs with their reports, edits and sweeps."""
from . import model, records
from .running import done, fault_of

VALUES = {
    "accounts.boc": "account[0] 20\naccount[1] 250\nrefused 2\n",
    "anomaly_cown.boc": "a 0\n",
    "anomaly_three_workers.boc": "a 0\nb 0\n",
    "anomaly_two_workers.boc": "",
    "bank.boc": "acct[0] 191\nacct[1] 111\nacct[2] 53\nacct[3] 65\nacct[4] 190\nacct[5] 202\nacct[6] 110\nacct[7] 1\nacct[8] 101\n"
                "acct[9] 112\nacct[10] 27\nacct[11] 37\nlog 24\ntotal 2400\n",
    "transfer.boc": "a 12\nb 4\n",
    "division.boc": "a 1\n",
    "race.boc": "a 4\nb 0\nc 0\n",
    "commute.boc": "acct[0] 85\nacct[1] 94\nacct[2] 103\nacct[3] 118\nlog 3\ndesk[0] 0\ndesk[1] 0\ndesk[2] 0\n",
    "countdown.boc": "a 3\n",
    "four_squares.boc": "c[0] 1\nc[1] 4\nc[2] 9\nc[3] 16\n",
    "overflow.boc": "a 9223372036854775807\n",
    "philosophers.boc": "fork[0] 6\nfork[1] 6\nfork[2] 6\nfork[3] 6\nfork[4] 6\nmeals 15\n",
    "pipeline.boc": "parser 12\nchecker 234\npricer 126\nstore 126\n",
    "same_cown_twice.boc": "a 10\nb 0\n",
    "scaling.boc": "log 24\n",
    "scoreboard.boc": "player[0] 27\nplayer[1] 28\nplayer[2] 29\nplayer[3] 30\nplayer[4] 31\nplayer[5] 32\nplayer[6] 33\n"
                      "player[7] 34\nplayer[8] 35\nplayer[9] 36\nbest 36\n",
    "tree.boc": "node[0] 0\nnode[1] 376\nnode[2] 156\nnode[3] 220\nnode[4] 70\nnode[5] 86\nnode[6] 102\nnode[7] 118\n"
                "node[8] 33\nnode[9] 37\nnode[10] 41\nnode[11] 45\nnode[12] 49\nnode[13] 53\nnode[14] 57\nnode[15] 61\n"
                "node[16] 16\nnode[17] 17\nnode[18] 18\nnode[19] 19\nnode[20] 20\nnode[21] 21\nnode[22] 22\nnode[23] 23\n"
                "node[24] 24\nnode[25] 25\nnode[26] 26\nnode[27] 27\nnode[28] 28\nnode[29] 29\nnode[30] 30\nnode[31] 31\n"
                "need[0] 2\nneed[1] 0\nneed[2] 0\nneed[3] 0\nneed[4] 0\nneed[5] 0\nneed[6] 0\nneed[7] 0\nneed[8] 0\nneed[9] 0\n"
                "need[10] 0\nneed[11] 0\nneed[12] 0\nneed[13] 0\nneed[14] 0\nneed[15] 0\nneed[16] 2\nneed[17] 2\nneed[18] 2\n"
                "need[19] 2\nneed[20] 2\nneed[21] 2\nneed[22] 2\nneed[23] 2\nneed[24] 2\nneed[25] 2\nneed[26] 2\nneed[27] 2\n"
                "need[28] 2\nneed[29] 2\nneed[30] 2\nneed[31] 2\n",
    "two_orders.boc": "a 2\nb 1\np 0\nq 0\n",
}


def sweep_lines(numbers, most_often, others):
    """The lines of a sweep: the end that is told most often, and the others by their numbers."""
    return "".join(f"{number} {others.get(number, most_often)}\n" for number in numbers)


# Questions about the run of an example by one thread, with the lines that its comment speaks of.
QUESTIONS = [
    ("anomaly_two_workers.boc", ["sweep", "--p", "2"], "0 8\n1 9\n2 8\n3 8\n"),
    ("anomaly_two_workers.boc", ["sweep"], "0 8\n1 8\n2 6\n3 8\n"),
    ("anomaly_three_workers.boc", ["sweep", "--p", "3"], "0 9\n1 10\n2 9\n3 9\n4 9\n"),
    ("anomaly_cown.boc", ["sweep", "--cowns", "--p", "3"], "0 8\n"),
    ("anomaly_cown.boc", ["sweep", "--cowns"], "0 7\n"),
    ("anomaly_cown.boc", ["sweep", "--p", "3"], "0 7\n1 7\n2 7\n3 7\n"),
    ("bank.boc", ["sweep"],
     sweep_lines(range(29), 798, {0: 827, 1: 803, 13: 796, 14: 796, 21: 800, 26: 827, 27: 823, 28: 796})),
    ("bank.boc", ["sweep", "--cowns"], sweep_lines(range(14), 827, {2: 823, 3: 797, 12: 437, 13: 791})),
    ("bank.boc", ["sweep", "--cowns", "--p", "4"], sweep_lines(range(14), 827, {2: 823, 3: 797, 12: 467, 13: 791})),
    ("bank.boc", ["sweep", "--cowns", "--shared-reads"], sweep_lines(range(14), 827, {2: 797, 3: 797, 12: 437, 13: 763})),
    ("bank.boc", ["sweep", "--spawns"], sweep_lines(range(1, 29), 827, {1: 817})),
    ("pipeline.boc", ["sweep"], sweep_lines(range(37), 279, {36: 272})),
    ("pipeline.boc", ["sweep", "--cowns"], "0 277\n1 279\n2 219\n3 279\n"),
    ("pipeline.boc", ["sweep", "--cowns", "--p", "4"], "0 309\n1 279\n2 219\n3 279\n"),
    ("pipeline.boc", ["sweep", "--spawns"], sweep_lines(range(1, 37), 279, {1: 275, 14: 277, 15: 268, 36: 271})),
    ("scaling.boc", ["sweep", "--cowns"], "0 134\n"),
    ("same_cown_twice.boc", ["sweep", "--cowns"], "0 2\n1 2\n"),
    ("same_cown_twice.boc", ["sweep", "--spawns"], ""),
    ("anomaly_two_workers.boc", ["sweep", "--cowns"], ""),
    ("anomaly_two_workers.boc", ["sweep", "--spawns"], "1 8\n2 6\n3 8\n"),
    ("scaling.boc", ["curve", "--p", "10"],
     "work 1778\nspan 245\n1 1778 1778 2023\n2 916 889 1134\n3 624 593 837\n4 480 445 689\n5 389 356 600\n6 318 297 541\n"
     "7 299 254 499\n8 257 245 467\n9 248 245 442\n10 245 245 422\n"),
]

# All transfers of the bank, and all prices of the pipeline, at half their cost.
TRANSFERS = [f"{row}=1/2" for row in range(1, 27) if row not in (13, 14)]
PRICES = [f"{row}=1/2" for row in (15, 19, 23, 27, 31, 35)]

# What is left of the work and the span of the run of an example by one thread where cowns are left out and rows are edited.
LEFT = [
    ("bank.boc", [], 1001, 827),
    ("bank.boc", ["--without", "12"], 1001, 437),
    ("bank.boc", TRANSFERS, 643, 483),
    ("bank.boc", ["--without", "12", *TRANSFERS], 643, 309),
    ("bank.boc", [*TRANSFERS, "--without", "12", "--without=13"], 643, 259),
    ("pipeline.boc", PRICES, 495, 200),
    ("pipeline.boc", ["--without", "2"], 609, 219),
    ("pipeline.boc", ["15@1"], 609, 268),
    ("pipeline.boc", ["15=1/2"], 590, 267),
    ("pipeline.boc", ["15=38"], 609, 279),
]

# The same of the family.
FAMILY_LEFT = [
    ([], 35, 20),
    (["--without", "0"], 35, 16),
    (["--without", "0", "--without", "0"], 35, 16),
    (["--without", "2"], 35, 20),
    (["--without", "1", "--without", "0"], 35, 13),
    (["1@1"], 35, 19),
    (["2@3"], 35, 20),
    (["2@8", "3@12"], 35, 21),
    (["3@12", "2@11"], 35, 24),
    (["5@7"], 35, 20),
    (["0=14", "3@14"], 37, 20),
    (["3@5", "0=5"], 28, 20),
    (["4@2", "5@3", "2=3"], 31, 16),
    (["2=1/1"], 35, 20),
    (["2=1/2"], 32, 17),
    (["2=3/2"], 39, 24),
    # The offsets 3 and 4 would both be 1, and the ticks 2: the second child is spawned at 2.
    (["2=1/4"], 30, 15),
    (["2=1/1000"], 30, 15),
    (["2=7", "2=1/2"], 32, 17),
    (["2=1/2", "2=7"], 35, 20),
    (["2=5/7", "4=1/6"], 28, 17),
    (["0=1/3"], 27, 19),
    (["0=1000/1"], 12023, 12000),
]

# Without the cown 1, and with row 2 spawned sooner and at half its cost.
FAMILY_CHANGED = """rows 6
work 32
span 17
chain
0 spawn 2
1 order 5
2 order 4
4 end 6
plan
0 0 12
1 2 7
2 7 11
3 9 13
4 11 17
5 10 11
greedy 2
0 0 12 0
1 2 7 1
2 7 11 1
3 11 15 1
4 12 18 0
5 15 16 1
end 18 bound 33
"""

FAMILY_COMMANDS = [
    (["sweep"], "0 20\n1 17\n2 17\n3 20\n4 19\n5 20\n"),
    (["sweep", "--cowns"], "0 16\n1 20\n2 20\n"),
    (["sweep", "--cowns", "--p", "2"], "0 19\n1 20\n2 20\n"),
    (["sweep", "--p", "1", "--cowns"], "0 35\n1 35\n2 35\n"),
    (["sweep", "--spawns"], "1 19\n2 20\n3 20\n4 20\n5 20\n"),
    (["whatif", "--p", "2", "--without", "1", "2@3", "2=1/2"], FAMILY_CHANGED),
    (["whatif", "2@3", "2=1/2", "--without=1", "--p=2"], FAMILY_CHANGED),
]

# Programs and the values that they leave.
PROGRAMS = [
    (b"main { }", ""),
    (b"main { work 1; }", ""),
    (b"main { work " + b"(" * 998 + b"1" + b")" * 998 + b"; }", ""),
    (b"cown low = -9223372036854775807; main { }", "low -9223372036854775807\n"),
    (b"cown low = -9223372036854775807; cown none = 0; def down(; x) { x = x - 1; } main { when down(; low); }",
     "low -9223372036854775808\nnone 0\n"),
    (b"cown a = 9223372036854775807; def up(; x) { x = x + 1; x = 0; } main { when up(; a); }", "a 9223372036854775807\n"),
    (b"cown c[4] = 0; def w(n; x) { work n; x = x + n; }\n"
     b"main { when w(6; c[0]); when w(6; c[1]); when w(6; c[2]); when w(6; c[3]); }", "c[0] 6\nc[1] 6\nc[2] 6\nc[3] 6\n"),
]

# A run without cowns, and the report on it.
NO_COWNS = b"boc 1 0\n+ 0 0 0\n> 0\n+ 1 0 2\n+ 2 0 3\n< 0 3 0\n> 1\n< 1 4 0\n> 2\n< 2 4 0\n.\n"
NO_COWNS_PROFILE = "rows 3\nwork 11\nspan 7\nchain\n0 spawn 3\n2 end 4\nplan\n0 0 3\n1 2 6\n2 3 7\n"
NO_COWNS_GREEDY = "greedy 1\n0 0 3 0\n1 3 7 0\n2 7 11 0\nend 11 bound 18\n"

PROFILE = """rows 4
work 11
span 9
chain
0 spawn 2
1 order 2
2 order 3
3 end 2
plan
0 0 4
1 2 4
2 4 7
3 7 9
"""

GREEDY = """greedy 2
0 0 4 0
1 2 4 1
2 4 7 0
3 7 9 0
end 9 bound 14
"""

ONE_WORKER = """greedy 1
0 0 4 0
1 4 6 0
2 6 9 0
3 9 11 0
end 11 bound 20
"""

# With one tick in row 2.
SHORTER = """rows 4
work 9
span 7
chain
0 spawn 2
1 order 2
2 order 1
3 end 2
plan
0 0 4
1 2 4
2 4 5
3 5 7
"""

SHORTER_GREEDY = """greedy 2
0 0 4 0
1 2 4 1
2 4 5 0
3 5 7 0
end 7 bound 11
"""

# With one tick in row 2 and 5 in row 3: both edits take effect.
TWO_EDITS = """rows 4
work 12
span 10
chain
0 spawn 2
1 order 2
2 order 1
3 end 5
plan
0 0 4
1 2 4
2 4 5
3 5 10
"""

# Where a orders nobody, row 2 begins as soon as it is spawned.
WITHOUT_A = """rows 4
work 11
span 8
chain
0 spawn 3
2 order 3
3 end 2
plan
0 0 4
1 2 4
2 3 6
3 6 8
"""

CURVE = "work 11\nspan 9\n1 11 11 20\n2 9 9 14\n3 9 9 12\n"

COMMANDS = [
    (["check"], "ok 4\n"),
    (["profile"], PROFILE),
    (["profile", "--p", "1"], PROFILE + ONE_WORKER),
    (["profile", "--p", "2"], PROFILE + GREEDY),
    (["whatif"], PROFILE),
    (["whatif", "--p", "2"], PROFILE + GREEDY),
    (["whatif", "2=1"], SHORTER),
    (["whatif", "2=1", "2=1"], SHORTER),
    (["whatif", "2=3", "2=1"], SHORTER),
    (["whatif", "2=1", "2=3"], PROFILE),
    (["whatif", "2=1", "3=5"], TWO_EDITS),
    (["whatif", "3=5", "2=1"], TWO_EDITS),
    (["whatif", "--p", "2", "2=1"], SHORTER + SHORTER_GREEDY),
    (["whatif", "2=1", "--p", "2"], SHORTER + SHORTER_GREEDY),
    (["whatif", "--without", "0"], WITHOUT_A),
    (["whatif", "2=1/3"], SHORTER),
    (["whatif", "2=1/1", "3@4", "1@2"], PROFILE),
    (["curve", "--p", "3"], CURVE),
    (["curve", "--p", "3", "--shared-reads"], CURVE),
    (["sweep"], "0 9\n1 8\n2 7\n3 8\n"),
    (["sweep", "--p", "1"], "0 11\n1 10\n2 9\n3 10\n"),
    (["sweep", "--shared-reads", "--p", "2"], "0 9\n1 8\n2 7\n3 8\n"),
    (["sweep", "--cowns"], "0 8\n1 7\n"),
    (["sweep", "--cowns", "--p", "1"], "0 11\n1 11\n"),
    (["sweep", "--cowns", "--p", "2"], "0 9\n1 7\n"),
    (["sweep", "--cowns", "--shared-reads"], "0 8\n1 7\n"),
    (["sweep", "--spawns"], "1 8\n2 9\n3 9\n"),
    (["sweep", "--shared-reads", "--spawns"], "1 8\n2 9\n3 9\n"),
]

# Programs, and the records of their runs by one thread.
RUNS = [
    (b"cown a = 10; cown b = 0; def move(k; x, y) { x = x - k; y = y + k; } main { when move(1; a, a); }",
     "boc 2 2\n+ 0 0 0\n> 0\n< 0 2 4\n.\n"),
    (b"def f(;) { work 3; } main { when f(;); when f(;); }",
     "boc 2 0\n+ 0 0 0\n> 0\n+ 1 0 2\n+ 2 0 3\n< 0 3 0\n> 1\n< 1 4 0\n> 2\n< 2 4 0\n.\n"),
    (b"main { let x = 9223372036854775807; x = x + 1; }", "boc 2 0\n+ 0 0 0\n> 0\n< 0 3 1\n.\n"),
    (b"main { work 999999; }", "boc 2 0\n+ 0 0 0\n> 0\n< 0 1000000 0\n.\n"),
    (b"main { work 1000000; }", "boc 2 0\n+ 0 0 0\n> 0\n< 0 1 6\n.\n"),
    (b"cown a = 1; def peek(; x) { let y = x; work 5; } def set(; x) { x = x; } main { when peek(; a); when peek(; a); when set(; a); }",
     "boc 2 1\n+ 0 0 0\n> 0\n+ 1 0 2 0\n+ 2 0 3 0\n+ 3 0 4 0\n< 0 4 0\n> 1\n< 1 7 0\n> 2\n< 2 7 0\n> 3\n< 3 2 0 0\n.\n"),
]

# Programs, for how many workers the greedy plan is, if it is asked for, and the report on their runs, whichever threads run them.
FOUR_SQUARES = b"""cown c[4] = 0; def w(n; x) { work n; x = x + n; }
main { when w(6; c[0]); when w(6; c[1]); when w(6; c[2]); when w(6; c[3]); }"""
FOUR_SQUARES_PROFILE = "rows 5\nwork 37\nspan 13\nchain\n0 spawn 5\n4 end 8\nplan\n0 0 5\n1 2 10\n2 3 11\n3 4 12\n4 5 13\n"
TIMED = [
    (b"main { }", [], "rows 1\nwork 1\nspan 1\nchain\n0 end 1\nplan\n0 0 1\n"),
    (FOUR_SQUARES, [], FOUR_SQUARES_PROFILE),
    (FOUR_SQUARES, ["--p", "2"], FOUR_SQUARES_PROFILE + "greedy 2\n0 0 5 0\n1 2 10 1\n2 5 13 0\n3 10 18 1\n4 13 21 0\nend 21 bound 31\n"),
    (FOUR_SQUARES, ["--p", "4"], FOUR_SQUARES_PROFILE + "greedy 4\n0 0 5 0\n1 2 10 1\n2 3 11 2\n3 4 12 3\n4 5 13 0\nend 13 bound 22\n"),
    (b"cown c[2] = 0; def w(n; x) { work n; x = x + n; } main { when w(6; c[0]); when w(6; c[1]); }", [],
     "rows 3\nwork 19\nspan 11\nchain\n0 spawn 3\n2 end 8\nplan\n0 0 3\n1 2 10\n2 3 11\n"),
    (b"cown a = 0; def down(n; x) { x = x + n; if n > 0 { when down(n - 1; x); } } main { when down(2; a); }", [],
     "rows 4\nwork 13\nspan 13\nchain\n0 spawn 2\n1 spawn 4\n2 spawn 4\n3 end 3\nplan\n0 0 2\n1 2 6\n2 6 10\n3 10 13\n"),
    (b"def f(;) { work 3; } main { when f(;); when f(;); }", ["--p", "1"], NO_COWNS_PROFILE + NO_COWNS_GREEDY),
]

# Numbers of threads; none is one.
THREADS = [[], ["--workers", "1"], ["--workers", "2"], ["--workers", "16"]]

# The rows of the transfer.
ROWS = [model.Row(0, 0, (), 4), model.Row(0, 2, (0,), 2), model.Row(0, 3, (0, 1), 3), model.Row(0, 4, (1,), 2)]


def cases(program):
    for name, values in VALUES.items():
        answer = program.run(["values"], program.example(name))
        yield f"values of {name}", fault_of(done(values.encode()), answer)
    for name, words, lines in QUESTIONS:
        record = program.run(["run"], program.example(name)).output
        yield f"{' '.join(words)} of a run of {name}", fault_of(done(lines.encode()), program.run(words, record))
    for name, words, work, span in LEFT:
        record = program.run(["run"], program.example(name)).output
        yield f"whatif {' '.join(words)} of a run of {name}", fault_of_left(program, words, record, work, span)
    for words, work, span in FAMILY_LEFT:
        yield f"whatif {' '.join(words)} of the family", fault_of_left(program, words, records.FAMILY, work, span)
    for words, text in FAMILY_COMMANDS:
        yield f"{' '.join(words)} of the family", fault_of(done(text.encode()), program.run(words, records.FAMILY))
    for source, values in PROGRAMS:
        yield f"values of {source[-40:]!r}", fault_of(done(values.encode()), program.run(["values"], source))
    answer = program.run(["profile", "--p", "1"], NO_COWNS)
    yield "a run without cowns", fault_of(done((NO_COWNS_PROFILE + NO_COWNS_GREEDY).encode()), answer)
    record = program.example("transfer.record")
    yield "the record of the transfer", None if record == records.lines_text(records.WRITTEN) else "it is another"
    first = program.example("transfer_1.record")
    yield "its record in version 1", None if first == records.lines_text(records.TRANSFER) else "it is another"
    text = program.example("transfer.boc")
    yield "run", fault_of(done(record), program.run(["run"], text))
    for threads in THREADS:
        for workers, greedy in [("1", ONE_WORKER), ("2", GREEDY)]:
            answer = program.run(["time", "--p", workers, *threads], text)
            yield f"time --p {workers} {threads}", fault_of(done((PROFILE + greedy).encode()), answer)
        yield f"run {threads}", fault_of_record(program, program.run(["run", *threads], text))
    for source, lines in RUNS:
        yield f"run of {source[-40:]!r}", fault_of(done(lines.encode()), program.run(["run", "--workers", "1"], source))
    for source, words, text in TIMED:
        for threads in THREADS:
            answer = program.run(["time", *words, *threads], source)
            yield f"time {' '.join(words + threads)} of {source[-40:]!r}", fault_of(done(text.encode()), answer)
    for words, text in COMMANDS:
        answer = program.run(words, record)
        yield " ".join(words), fault_of(done(text.encode()), answer)
    yield "the model's report", None if model.report(ROWS, 2) == (PROFILE + GREEDY).encode() else "it is another"
    yield "the model's curve", None if model.curve(ROWS, 3) == CURVE.encode() else "it is another"
    yield "64 points of a curve", fault_of(done(model.curve(ROWS)), program.run(["curve"], record))
    yield "the model's sweep", None if model.sweep(ROWS) == b"0 9\n1 8\n2 7\n3 8\n" else "it is another"


def fault_of_left(program, words, record, work, span):
    """The lines that tell the work and the span of changed rows."""
    answer = program.run(["whatif", *words], record)
    if answer is None or answer.status != 0 or answer.errors:
        return f"it answered {answer}"
    lines = answer.output.decode().splitlines()[1:3]
    return None if lines == [f"work {work}", f"span {span}"] else f"it told {lines}"


def fault_of_record(program, answer):
    """The record of a run of the transfer has the transfer's rows, whatever the threads did."""
    if answer is None or answer.status != 0 or answer.errors:
        return f"it answered {answer}"
    return fault_of(done((PROFILE + GREEDY).encode()), program.run(["profile", "--p", "2"], answer.output))
