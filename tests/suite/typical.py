"""`--typical`: what is told of rows that take the median ticks of their defs, worked out plainly from the record of the run and the program's text; the
pictures of such rows; and the note on rows that take very long."""
import json
import os
import random
import re

from . import model, names_file
from .copies import view_of
from .hot_cowns import cowns_text
from .named import Called, random_names
from .notes import ends_of, notes_of
from .plans import random_rows, record_of
from .programs import Program, RunNames, follow
from .random_programs import random_program
from .running import Answer, done, fault_of, refused
from .whatif_names import as_bytes, short, supposed
from .why import rows_of, steps, why

# Programs by chance, each from this seed and its number.
SEED = 20261130
PROGRAMS = 150

# Of so many records by chance every picture is drawn.
PICTURES = 12

# Runs of more rows are not judged for workers here: the plain model looks at each pair of rows.
MOST_JUDGED = 40

# Three deposits of 5, 60 and 7 ticks take 7 each, so the last of them ends at 23 in place of 74.
UNEVEN = b"""\
cown a = 0;
def deposit(n; x) { work n; x = x + n; }
main { when deposit(3; a); when deposit(58; a); when deposit(5; a); }
"""
UNEVEN_SHORT = """\
         was   now
work      25    25
span      23    23
chain    deposit 21, main 2   ->   deposit 21, main 2
"""


# What each row of a def takes, how much more main takes than it spawns, and how many rows are noted: 20 medians are not too many, nor is a tenth of all ticks.
LONG = [([1, 1, 1, 20], 4, 0), ([1, 1, 1, 21], 4, 1), ([1, 1, 1, 21], 181, 1), ([1, 1, 1, 21], 182, 0), ([2, 30, 41, 2, 90, 2, 2], 7, 2), ([700], 1, 0)]

# Two deposits take more than twenty times what most take, but a program's ticks are counted and not measured.
MEANT = b"""\
cown a = 0;
def deposit(n; x) { work n; x = x + n; }
main { when deposit(3; a); when deposit(580; a); when deposit(5; a); when deposit(3; a); when deposit(600; a); }
"""

# The commands that note rows that take very long.
NOTING = (["why"], ["why", "--then", "2"], ["why", "-p", "3"], ["cowns"], ["cowns", "--shared-reads", "-p", "2"])


def medians(rows, defs):
    """For each def the median of its rows' ticks; of two in the middle the lower one."""
    ticks = {}
    for row, own in zip(rows, defs):
        ticks.setdefault(own, []).append(row.ticks)
    return {own: sorted(all_of)[(len(all_of) - 1) // 2] for own, all_of in ticks.items()}


def typical_numbers(rows, defs):
    """The offset and the ticks of each row that takes the typical ticks of its def."""
    middle, last, offsets = medians(rows, defs), [0] * len(rows), [row.offset for row in rows]
    for number, row in list(enumerate(rows))[1:]:
        parent = row.parent
        part = -(-row.offset * middle[defs[parent]] // rows[parent].ticks)
        offsets[number] = last[parent] = max(part, last[parent] + 1)
    return offsets, [max(middle[own], latest) for own, latest in zip(defs, last)]


def typical_record(record, defs):
    """The record's text with these numbers in place of its own; all else stays."""
    rows, _ = rows_of(record)
    offsets, ticks = typical_numbers(rows, defs)
    lines = []
    for line in record.decode().splitlines():
        words = line.split(" ")
        if words[0] == "+":
            words[3] = str(offsets[int(words[1])])
        elif words[0] == "<":
            words[2] = str(ticks[int(words[1])])
        lines.append(" ".join(words) + "\n")
    return "".join(lines).encode()


def long_note(rows, defs):
    """The note on rows above twenty medians of their defs, where they take more than a tenth of all ticks."""
    middle, work = medians(rows, defs), sum(row.ticks for row in rows)
    found = [row.ticks for row, own in zip(rows, defs) if row.ticks > 20 * middle[own]]
    if 10 * sum(found) <= work:
        return b""
    words = "row above 20 times the median ticks of its def takes" if len(found) == 1 else "rows above 20 times the median ticks of their def take"
    return f"boc: note: {len(found)} {words} {sum(found)} of {work} ticks: see --typical\n".encode()


def cases(program):
    yield from worked(program)
    yield from long_rows(program)
    yield from pictures(program, view_of(program))
    for name in sorted(os.listdir(program.examples)):
        if name.endswith(".boc"):
            yield from of_program(program, name, Program(program.example(name)), program.example(name), random.Random(f"{SEED} {name}"))
    for number in range(PROGRAMS):
        chance = random.Random(f"{SEED} {number}")
        yield from of_program(program, f"random program {number}", *random_program(chance), chance)
        yield from of_rows(program, f"random rows {number}", chance)
    yield from refusals(program)


def worked(program):
    short_of = program.run(["whatif", "--short", "--typical"], UNEVEN)
    yield "worked: whatif --short --typical", fault_of(done(UNEVEN_SHORT.encode()), short_of)
    yield "worked: sweep --typical", fault_of(done(b"0 23\n1 17\n2 17\n3 17\n"), program.run(["sweep", "--typical"], UNEVEN))
    record = program.run(["run"], UNEVEN).output
    for words in (["why"], ["cowns"], ["profile"], ["curve"], ["sweep"], ["whatif"], ["sweep", "--cowns", "--best", "2"], ["whatif", "--short", "1=9"]):
        plain = program.run(words, record)
        yield f"worked: {words} --typical of a record without names", fault_of(plain, program.run([*words, "--typical"], record))


def notes_told(program, words, names, record):
    """What is noted with a file of names, and what with --typical or --quiet, which leave it out."""
    notes = [program.run_beside([*words, *more], "--names", names, record) for more in ([], ["--typical"], ["--quiet"])]
    return Answer(0, None, b"", notes[0].notes) if all(fault_of(Answer(0, None, b"", b""), it) is None for it in notes[1:]) else notes[1]


def long_rows(program):
    """The note on rows that take very long: of a record with names alone."""
    for ticks, work, count in LONG:
        rows = [model.Row(0, 0, (), work + len(ticks))] + [model.Row(0, place, (), own) for place, own in enumerate(ticks, start=1)]
        record, names = record_of(rows), "".join(f"= {place} own\n" for place in range(1, len(rows))).encode()
        note = long_note(rows, ["main"] + ["own"] * len(ticks))
        yield f"long rows: {ticks} beside {work}", None if note.startswith(b"boc: note: %d row" % count) == bool(count) == bool(note) else f"{note}"
        for words in NOTING:
            yield f"long rows: {words} of {ticks} beside {work}", fault_of(Answer(0, None, b"", note), notes_told(program, words, names, record))
            yield f"long rows: {words} of {ticks} without names", fault_of(Answer(0, None, b"", b""), program.run(words, record))
        for words in (["profile"], ["curve"], ["sweep"], ["whatif"], ["whatif", "--short"]):
            yield f"long rows: {words} of {ticks}", fault_of(Answer(0, None, b"", b""), program.run(words, record))
    record = program.run(["run"], MEANT).output
    names = b"".join(b"= %d deposit\n" % row for row in range(1, 6))
    for words in (["why"], ["cowns"]):
        yield f"long rows: {words} of a program", fault_of(Answer(0, None, b"", b""), program.run(words, MEANT))
        yield f"long rows: {words} of a program with its record", fault_of(Answer(0, None, b"", b""), program.run_beside(words, "--record", record, MEANT))
        yield f"long rows: {words} of a program with names", fault_of(Answer(0, None, b"", b""), program.run_beside(words, "--names", names, MEANT))
        yield f"long rows: {words} of the record", fault_of(
            Answer(0, None, b"", long_note(rows_of(record)[0], ["main"] + ["deposit"] * 5)), notes_told(program, words, names, record))


def pictures(program, view):
    """A picture with typical ticks is the one of a record that has them, but for its heading."""
    for number in range(PICTURES):
        chance = random.Random(f"{SEED} picture {number}")
        record, names, defs = named_rows(chance)
        changed = typical_record(record, defs)
        for words in (["text"], ["text", "--cowns"], ["text", "--curve"], ["text", "-p", "2"], ["trace"], ["trace", "-p", "3", "--shared-reads"]):
            wanted = view.run_beside(words, "--names", names, changed)
            yield f"pictures: {number} {words}", fault_of(done(wanted.output, b""), view.run_beside([*words, "--typical"], "--names", names, record))
        for words in (["plan"], ["plan", "--cowns", "-p", "2"], ["curve"]):
            wanted = shown_in(view.run_beside(words, "--names", names, changed).output)
            found = shown_in(view.run_beside([*words, "--typical"], "--names", names, record).output)
            yield f"pictures: {number} {words}", None if found == [wanted[0], "typical ticks", *wanted[1:]] else f"{found} in place of {wanted}"
        wanted = of_page(view.run_beside(["page"], "--names", names, changed).output)
        found = of_page(view.run_beside(["page", "--typical"], "--names", names, record).output)
        yield f"pictures: {number} page", None if found == wanted.replace("names in FILE", "typical ticks, names in FILE") else "it is not that of a typical record"
    for words, run in (([], ""), (["-w", "2", "--seed", "3"], ", 2 workers, seed 3"), (["--timed", "-w", "2"], ", timed on 2 workers"),
                       (["--shared-reads"], "")):
        told = told_in(view.run(["page", "--typical", *words], UNEVEN))
        first = program.run(["why", "--typical", *words], UNEVEN).output.decode().splitlines()[0]
        numbers = f"rows {len(told['ticks'])}   work {told['work']}   span {told['span']}"
        yield f"pictures: page --typical {words}", None if (numbers, told["run"]) == (first, "typical ticks" + run) else f"{numbers} and {told['run']}"
        plain = told_in(view.run(["page", *words], UNEVEN))
        yield f"pictures: page {words}", None if plain["run"] == run.removeprefix(", ") and plain["work"] != told["work"] else f"{plain['run']}"
    notes = [view.run(["text", "-p", "4", *more], program.example("tree.boc")).notes for more in ([], ["--typical"])]
    yield "pictures: the note on the timed run is left out", None if notes[0] and not notes[1] else f"{notes}"
    timed = [b"timed" in view.run(["text", "--timed", "-w", "2", *more], UNEVEN).output for more in ([], ["--typical"])]
    yield "pictures: nothing is shown of a timed run", None if timed == [True, False] else f"{timed}"


def named_rows(chance):
    """A record, the bytes of a file of names for it, and the defs of its rows."""
    record = None
    while record is None:
        record = record_of(random_rows(chance))
    rows, cowns = rows_of(record)
    names = random_names(chance, len(rows), cowns)
    return record, names, names_file.names_of(names, len(rows), cowns).defs


def shown_in(drawing):
    """The texts of a drawing, in their order."""
    return [it for it in re.findall(r">([^<>]+)<", re.sub(r"(?s)<style>.*?</style>", "", drawing.decode())) if it.strip()]


def of_page(page):
    """A page without the name that its file of names has by chance."""
    return re.sub(r"names in tmp\w+", "names in FILE", page.decode())


def told_in(answer):
    """The data block of a page."""
    return json.loads(re.search(r'\{"format":1.*?\}(?=\s*</script>)', answer.output.decode(), re.DOTALL).group())


def told_of(rows, cowns, names, record, workers):
    """Words, and what they tell of these rows with these names."""
    p = ["-p", str(workers)] if workers else []
    yield ["profile", *p], model.report(rows, workers)
    yield ["curve", "-p", str(workers or 64)], model.curve(rows, workers or 64)
    yield ["sweep", *p], model.greedy_sweep(rows, workers) if workers else model.sweep(rows)
    yield ["sweep", "--cowns", *p], model.cown_sweep(rows, cowns, workers)
    if not workers or len(rows) <= MOST_JUDGED:
        yield ["why", *p], why(rows, names, workers=workers)
        yield ["why", "--then", "2", *p], steps(rows, names, 2, workers)
        yield ["cowns", *p], cowns_text(record.decode(), names, workers=workers).encode()


def of_program(program, name, plain, text, chance):
    """A program's runs: by one worker, as a seed draws, timed, and that of a record beside it."""
    workers = chance.choice([None, 1, 2, 3])
    seed = ["-w", "2", "--seed", str(chance.randrange(2 ** 64))]
    other = program.run(["run", "-w", "3", *seed[2:]], text).output
    for how, beside in [([], None), (seed, None), (["--timed", "-w", "3"], None), ([], other)]:
        record = beside or program.run(["run", *how], text).output
        cowns = rows_of(record)[1]
        names = RunNames(follow(plain, record))
        changed = typical_record(record, names.defs)
        rows = rows_of(changed)[0]
        noted = notes_of(ends_of(record), names.rows)
        for words, told in told_of(rows, cowns, names, changed, workers):
            has_notes = words[0] in ("why", "cowns", "profile")
            yield f"{name}: {words} --typical {how}", fault_of(done(told, noted if has_notes else b""), asked(program, [*words, "--typical", *how], beside, text))
        yield from changes(program, f"{name} {how}", rows, names, how, beside, text, chance)


def asked(program, words, beside, text):
    return program.run_beside(words, "--record", beside, text) if beside else program.run(words, text)


def changes(program, name, rows, names, how, beside, text, chance):
    """`whatif`: typical ticks come before all other changes."""
    edits = [f"{chance.choice(names.def_names)}={chance.randint(1, 3)}/{chance.randint(1, 3)}" for _ in range(chance.randint(0, 2))]
    without = [chance.choice(names.cowns)] if names.cowns and chance.random() < 0.5 else []
    early = [chance.choice(names.def_names)] if chance.random() < 0.5 else []
    words = [word for own in without for word in ("--without", own)] + [f"--early={own}" for own in early]
    after = supposed(rows, as_bytes(names), without, edits, early)
    wanted = refused(3, after) if isinstance(after, str) else done(short(rows, after, as_bytes(names), defs=[own.encode() for own in names.def_names]))
    answer = asked(program, ["whatif", "--short", "--typical", *words, *edits, *how], beside, text)
    yield f"{name}: whatif --short --typical {words} {edits}", fault_of(wanted, answer)


def of_rows(program, name, chance):
    """A record with a file of names."""
    record = None
    while record is None:
        rows = random_rows(chance)
        longest = chance.sample(range(len(rows)), chance.choice([0, 0, 1, min(2, len(rows))]))
        record = record_of([row._replace(ticks=row.ticks * chance.choice([20, 21, 100])) if place in longest else row for place, row in enumerate(rows)])
    rows, cowns = rows_of(record)
    file = random_names(chance, len(rows), cowns)
    found = names_file.names_of(file, len(rows), cowns)
    names, changed = Called(*found), typical_record(record, found.defs)
    after = rows_of(changed)[0]
    note = long_note(rows, found.defs)
    for words in NOTING:
        yield f"{name}: {words} --names", fault_of(Answer(0, None, b"", note), notes_told(program, words, file, record))
    for words, told in [(["why"], why(after, names)), (["why", "--then", "3"], steps(after, names, 3)), (["cowns"], cowns_text(changed.decode(), names).encode()),
                        (["whatif"], model.report(after)), (["whatif", "--short"], short(after, after, found))]:
        yield f"{name}: {words} --typical --names", fault_of(done(told), program.run_beside([*words, "--typical"], "--names", file, record))


def refusals(program):
    """Words: a flag takes no value, once is enough, and no other command has it."""
    text = program.example("transfer.boc")
    for words in (["why", "--typical=1"], ["why", "--typical", "--typical"], ["run", "--typical"], ["time", "--typical"], ["values", "--typical"],
                  ["check", "--typical"], ["outcomes", "--typical"]):
        answer = program.run(words, text)
        yield f"{' '.join(words)} is refused", None if answer.status == 2 and not answer.output and answer.errors else f"it told {answer}"
    yield "a fault comes as without it", fault_of(refused(3, "boc: line 1: 3 Unexpected"), program.run(["why", "--typical"], b"x = 1"))
