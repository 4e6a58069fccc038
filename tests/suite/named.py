"""`cowns`, and the names that `why` and `cowns` have from a program, from a file, or from numbers."""
import random
import re

from . import names_file, why
from .hot_cowns import cowns_text, rows_of
from .programs import Program, RunNames, follow
from .plans import random_rows, record_of
from .running import done, fault_of, refused

EXAMPLES = ["transfer.boc", "pipeline.boc", "bank.boc", "scaling.boc", "accounts.boc", "four_squares.boc", "peeks.boc", "two_orders.boc", "overflow.boc",
            "same_cown_twice.boc", "anomaly_cown.boc", "anomaly_two_workers.boc", "philosophers.boc", "scoreboard.boc", "tree.boc",
             "division.boc", "race.boc", "commute.boc"]

# What is told of the cowns of these runs, by one thread.
PIPELINE = """\
cown     rows  wrote  held  of span  waited  chain  without
pricer      6      6   228      81%     180    190      219
parser     12     12   156      55%     660     13      277
checker    12     12   138      49%       0      0      279
store       6      6    48      17%       0      0      279
several cowns at once            without
  parser and pricer                  202
  parser and checker and pricer      119
  every cown                         109
span 279; by spawns alone 109; busiest cown 228
load: pricer is held 228 of 279 ticks; split it, or shorten what holds it
lower bound for any order: 261 (pricer is held for 228 ticks, from tick 33 on)
"""

PIPELINE_FOR_TWO = """\
cown     rows  wrote  held  of span  waited  chain  without  end without
pricer      6      6   228      81%     180    190      219          322
checker    12     12   138      49%       0      0      279          345
store       6      6    48      17%       0      0      279          352
parser     12     12   156      55%     660     13      277          371
several cowns at once            end without  without
  parser and pricer                      326      202
  parser and checker and pricer          314      119
  every cown                             314      109
span 279; by spawns alone 109; busiest cown 228
load: pricer is held 228 of 279 ticks; split it, or shorten what holds it
lower bound for any order: 261 (pricer is held for 228 ticks, from tick 33 on)
2 workers   end 352   least 305   work/2 305   busy 86%
plan: neither the work nor the critical path takes more than 305 of 352 ticks; earlier spawns or another order may save up to 47
"""

SCOREBOARD = """\
cown       rows  wrote  held  of span  waited  chain  without
best         50     12   472      98%    7892    463      207
player[3]     4      4   166      34%       0      0      478
player[1]     4      4   165      34%       0      0      478
.. and 8 more cowns
several cowns at once  without
  every cown               207
span 478; by spawns alone 207; busiest cown 472
load: best is held 472 of 478 ticks; split it, or shorten what holds it
lower bound for any order: 478 (best is held for 472 ticks, from tick 6 on)
with --shared-reads the span is 236: 38 of the 50 rows of best only read it
"""

TREE = """\
cown      rows  wrote  held  of span  waited  chain  without
node[20]     1      1    84      48%       0      0      174
.. and 63 more cowns
several cowns at once  without
  node[*] and need[*]      141
  every cown               141
span 174; by spawns alone 141; busiest cown 84
spawns: they alone need 141 of 174 ticks; spawn earlier, or do less
lower bound for any order: 141 (their spawns take that long)
a better order ends at 141: start whatever can start; it differs first at node[10], where row 37, up(21, 21; node[10], need[10]), comes before row 36, up(20, 20; node[10], need[10])
"""

# The cown is held for most of the span, and nobody waits for it: each behaviour spawns the next one as it ends.
COUNTDOWN = """\
cown  rows  wrote  held  of span  waited  chain  without
a        3      3    11      84%       0      0       13
span 13; by spawns alone 13; busiest cown 11
spawns: they alone need 13 of 13 ticks; spawn earlier, or do less
lower bound for any order: 13 (a is held for 11 ticks, from tick 2 on)
"""

# Two read for 7 ticks side by side, and then the one that writes holds the cown alone, for 2.
PEEKS_SHARED = """\
cown  rows  wrote  held  of span  waited  chain  without
a        3      1     2      16%       6      7       10
several cowns at once  without
  every cown                10
span 12; by spawns alone 10; busiest cown 2
spawns: they alone need 10 of 12 ticks; spawn earlier, or do less
lower bound for any order: 10 (their spawns take that long)
"""


class Called:
    """What rows and cowns are called, as the model of `why` has it."""

    def __init__(self, rows, defs, cowns, families):
        self.rows, self.cowns = [name.decode() for name in rows], [name.decode() for name in cowns]
        self.defs, self.def_names = names_file.groups([name.decode() for name in defs])
        self.families, self.family_names = names_file.groups([name.decode() for name in families])


def cown_names(text):
    """The names of the cowns that a program declares, in their order."""
    names = []
    for name, size in re.findall(rb"^cown (\w+)(?:\[(\d+)\])? =", text, re.M):
        names += [f"{name.decode()}[{member}]" for member in range(int(size))] if size else [name.decode()]
    return names


def cases(program):
    yield "pipeline.boc: cowns", fault_of(done(PIPELINE.encode()), program.run(["cowns"], program.example("pipeline.boc")))
    yield "scoreboard.boc: cowns", fault_of(done(SCOREBOARD.encode()), program.run(["cowns", "--top", "3"], program.example("scoreboard.boc")))
    yield "tree.boc: cowns", fault_of(done(TREE.encode()), program.run(["cowns", "--top", "1"], program.example("tree.boc")))
    yield "countdown.boc: cowns", fault_of(done(COUNTDOWN.encode()), program.run(["cowns"], program.example("countdown.boc")))
    yield "peeks.boc: cowns --shared-reads", fault_of(
        done(PEEKS_SHARED.encode()), program.run(["cowns", "--shared-reads"], program.example("peeks.boc")))
    for name in EXAMPLES:
        yield from of_example(program, name, program.example(name))
    chance = random.Random(42424242)
    for number in range(100):
        yield from of_rows(program, chance, number)
    yield from faults(program)


def of_example(program, name, text):
    """The cowns of a run by one thread: of the program, of its record, and of the record with a file of names."""
    record = program.run(["run"], text).output
    names = RunNames(follow(Program(text), record))
    for words, shared, top in [([], False, None), (["--shared-reads"], True, None), (["--top", "2"], False, 2)]:
        told = cowns_text(record.decode(), names, shared, top).encode()
        yield f"{name}: cowns {' '.join(words)}", fault_of(done(told), program.run(["cowns", *words], text))
        yield f"{name}: cowns {' '.join(words)} of its record", fault_of(
            done(cowns_text(record.decode(), None, shared, top).encode()), program.run(["cowns", *words], record))
        yield f"{name}: cowns {' '.join(words)} of the record beside it", fault_of(
            done(told), program.run_beside(["cowns", *words], "--record", record, text))
    file = b"".join(b"@ %d %s\n" % (number, name.encode()) for number, name in enumerate(cown_names(text)))
    rows, cowns = why.rows_of(record)
    called = Called(*names_file.names_of(file, len(rows), cowns))
    yield f"{name}: cowns with names", fault_of(
        done(cowns_text(record.decode(), called).encode()), program.run_beside(["cowns"], "--names", file, record))
    yield f"{name}: why of the record beside it", fault_of(program.run(["why"], text), program.run_beside(["why"], "--record", record, text))


def random_names(chance, rows, cowns):
    """A file that names some rows and cowns, few names many times."""
    lines = [b"# names"]
    for row in range(rows):
        if chance.random() < 0.7:
            args = b"".join(b" %d" % chance.randrange(100) for _ in range(chance.randrange(3)))
            lines.append(b"= %d d%d" % (row, chance.randrange(4)) + args)
    for cown in range(cowns):
        if chance.random() < 0.7:
            lines.append(b"@ %d " % cown + chance.choice([b"c%d" % cown, b"acct[%d]" % cown, b"log"]))
    chance.shuffle(lines)
    return b"".join(line + b"\n" for line in lines + [b""])


def of_rows(program, chance, number):
    """`why` and `cowns` of a record with a file of names."""
    record = None
    while record is None:
        record = record_of(random_rows(chance))
    rows, cowns = why.rows_of(record)
    file = random_names(chance, len(rows), cowns)
    called = Called(*names_file.names_of(file, len(rows), cowns))
    yield f"random rows {number}: why with names", fault_of(done(why.why(rows, called)), program.run_beside(["why"], "--names", file, record))
    for words, shared, top, workers in [([], False, None, None), (["--shared-reads"], True, None, None), (["-p", "2"], False, None, 2),
                                        (["-p", "3", "--shared-reads", "--top", "2"], True, 2, 3)]:
        yield f"random rows {number}: cowns with names {' '.join(words)}", fault_of(
            done(cowns_text(record.decode(), called, shared, top, workers).encode()), program.run_beside(["cowns", *words], "--names", file, record))
    shared = rows_of(record.decode())[0]
    for words, told in [(["-p", "2"], why.why(rows, called, workers=2)), (["--then", "3"], why.steps(rows, called, 3)),
                        (["--then", "5", "-p", "3", "--shared-reads"], why.steps_of_seen(shared, called, 5, 3))]:
        yield f"random rows {number}: why with names {' '.join(words)}", fault_of(done(told), program.run_beside(["why", *words], "--names", file, record))
    answer = program.run_beside(["why", "-p", "2", "--shared-reads"], "--names", file, record)
    yield f"random rows {number}: why with names -p 2 --shared-reads", why.fault_of_advice(answer, shared, called, 2)


def faults(program):
    transfer = program.example("transfer.boc")
    record = program.run(["run"], transfer).output
    for text, rows, cowns, wanted in names_file.WORKED:
        if isinstance(wanted[0], int) and (rows, cowns) in [(1, 0), (1, 1), (0, 1)]:
            small = b"boc 2 %d\n+ 0 0 0\n> 0\n< 0 1 0\n.\n" % cowns
            if rows == 1:
                yield f"a file of names: {text[:30]!r}", fault_of(
                    refused(3, f"boc: names: line {wanted[0]}: {wanted[1]}"), program.run_beside(["why"], "--names", text, small))
    yield "two files", None if program.run(["why", "--record", "a", "--names", "b"], transfer).status == 2 else "status 2 is wanted"
    yield "one option twice", None if program.run(["why", "--names", "a", "--names", "b"], transfer).status == 2 else "status 2 is wanted"
    yield "the input is judged before the names", fault_of(
        refused(3, "boc: line 2: 5 UnknownName"), program.run_beside(["why"], "--names", b"x", b"cown a = 0;\nmain { x = 1; }"))
    yield "a record of another program", fault_of(
        refused(3, "boc: record: line 4: 16 NotNextSpawn"),
        program.run_beside(["why"], "--record", record, transfer.replace(b"when add(5; a);", b"when add(5; b);")))
    yield "a record that is none", fault_of(
        refused(3, "boc: record: line 1: 1 Header"), program.run_beside(["why"], "--record", transfer, transfer))
    for command in ("why", "cowns"):
        absent = program.run([command, "--names", "/nowhere/at/all"], transfer)
        yield f"{command}: a file that isn't there", None if absent.status == 5 and absent.errors.startswith(b"boc: /nowhere/at/all: ") else str(absent)
    yield "transfer.boc: why --p 4", fault_of(done(why.TRANSFER_FOR_FOUR.encode()), program.run(["why", "--p", "4"], transfer))
    pipeline = program.example("pipeline.boc")
    yield "pipeline.boc: why --then 3 --p 2", fault_of(done(why.PIPELINE_STEPS.encode()), program.run(["why", "--then", "3", "--p", "2"], pipeline))
    yield "pipeline.boc: cowns --p 2", fault_of(done(PIPELINE_FOR_TWO.encode()), program.run(["cowns", "--p", "2"], pipeline))
