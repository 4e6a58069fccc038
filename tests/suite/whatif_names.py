"""What `whatif` tells of cowns and defs by name, of those that spawn early too, computed plainly from the rows of a record and their names, and worked
examples of it."""
import os
import random
import re
import tempfile

from . import model, names_file
from .plans import random_rows, record_of
from .programs import Program, RunNames, follow
from .running import done, fault_of, refused
from .why import rows_of, shares, steps_of, table

MOST_TICKS = 1_000_000
NO_COWN = "6 NoCown"
NO_DEF = "7 NoDef\n     no row is of this def; names are those of --program FILE or --names FILE"
NO_ROW, BELOW_SPAWN, TOO_MANY_TICKS, NOT_BETWEEN = "1 NoRow", "2 BelowSpawn", "3 TooManyTicks", "5 NotBetween"


def cowns_meant(names, word):
    """The cowns that a word leaves out: the one with a number; or all with a name; or, where none has it, those of the array with it."""
    if word.isdecimal():
        return [int(word)] if int(word) < len(names.cowns) else []
    name = word.encode()
    named = [cown for cown, own in enumerate(names.cowns) if name in (own, names.families[cown])]
    return named or [cown for cown, family in enumerate(names.families) if family == name + b"[*]"]


def edits_meant(names, word):
    """The edits of a word, each a row and its ticks, or a row and the part of its ticks that it costs."""
    subject, what = word.rsplit("=", 1)
    change = tuple(int(part) for part in what.split("/"))
    if subject.isdecimal():
        return [(int(subject), change)]
    return [(row, change) for row, own in enumerate(names.defs) if own == subject.encode()]


def changed(rows, row, change):
    """The rows after an edit, or why they can't take it."""
    if row >= len(rows):
        return NO_ROW
    if len(change) == 2:
        after = model.scaled(rows, row, *change)
        return TOO_MANY_TICKS if after[row].ticks > MOST_TICKS else after
    if change[0] < model.least_ticks(rows)[row]:
        return BELOW_SPAWN
    return TOO_MANY_TICKS if change[0] > MOST_TICKS else model.edited(rows, row, change[0])


def spawned_early(rows, names, word):
    """The rows in which each of a def spawns its first child at its tick 1, and each further one a tick later; none where no row is of the def."""
    children = {row: 0 for row, own in enumerate(names.defs) if own == word.encode()}
    after = list(rows)
    for number, row in list(enumerate(rows))[1:]:
        if row.parent in children:
            children[row.parent] += 1
            after[number] = row._replace(offset=children[row.parent])
    return after if children else None


def supposed(rows, names, cowns, edits, early=()):
    """The rows without some cowns, with early spawns by some defs and after some edits, or the line of what is refused."""
    for number, word in enumerate(cowns, 1):
        meant = cowns_meant(names, word)
        if not meant:
            return f"boc: without {number}: {NO_COWN}"
        for cown in meant:
            rows = model.without(rows, cown)
    for number, word in enumerate(early, 1):
        rows = spawned_early(rows, names, word)
        if rows is None:
            return f"boc: early {number}: {NO_DEF}"
    for number, word in enumerate(edits, 1):
        meant = edits_meant(names, word)
        if not meant:
            return f"boc: edit {number}: {NO_DEF}"
        for row, change in meant:
            rows = changed(rows, row, change)
            if isinstance(rows, str):
                return f"boc: edit {number}: {rows}"
    return rows


def heaviest(rows, names, defs=None):
    """The three defs that weigh most on the chain. Where these are all defs, those of one weight come in their order, and else in that of their first rows."""
    numbers, def_names = ([defs.index(own) for own in names.defs], defs) if defs else names_file.groups(names.defs)
    steps = steps_of(rows, model.earliest_starts(rows))
    told = shares([numbers[step[0]] for step in steps], steps)
    return ", ".join([f"{def_names[key].decode()} {ticks}" for key, ticks, _ in told[:3]] + [".."] * (len(told) > 3))


def short(rows, after, names, workers=None, defs=None):
    """What rows come to before and after."""
    lines = [["", " was", " now", "    "], ["work  "] + [str(sum(row.ticks for row in each)) for each in (rows, after)] + [""]]
    ends = [("span", model.span(rows), model.span(after))]
    if workers:
        ends.append(("end", model.greedy_end(rows, workers), model.greedy_end(after, workers)))
    for name, was, now in ends:
        lines.append([name, str(was), str(now), f"{now - was:+d}" if now != was else ""])
    return model.text(table("lrrr", lines) + [f"chain    {heaviest(rows, names, defs)}   ->   {heaviest(after, names, defs)}"])


def wanted(rows, names, cowns, edits, workers, is_short, early=(), defs=None):
    after = supposed(rows, names, cowns, edits, early)
    if isinstance(after, str):
        return refused(3, after)
    return done(short(rows, after, names, workers, defs) if is_short else model.report(after, workers))


# A bank of 12 accounts; 24 transfers, each of which also notes itself in a log; an audit at the end of each day.
BANK = b"""\
cown acct[12] = 100;
cown log = 0;
cown total = 0;

def transfer(amount; from, to, lg) {
    work 20;
    if from >= amount {
        from = from - amount;
        to = to + amount;
    }
    work 5;
    lg = lg + 1;
}

def audit(; a, b, c, d, e, f, t) {
    work 30;
    t = t + a + b + c + d + e + f;
}

main {
    let seed = 7;
    let day = 0;
    repeat 2 {
        let i = 0;
        repeat 12 {
            seed = (seed * 1103 + 12345) % 65536;
            let from = seed % 12;
            let to = (from + 1 + seed / 12 % 11) % 12;
            when transfer(seed % 50; acct[from], acct[to], log);
            i = i + 1;
        }
        when audit(; acct[0], acct[1], acct[2], acct[3], acct[4], acct[5], total);
        when audit(; acct[6], acct[7], acct[8], acct[9], acct[10], acct[11], total);
        day = day + 1;
    }
}
"""

# All prices at half their cost.
CHEAPER_PRICES = """\
         was   now
work     609   495
span     279   200   -79
chain    price 228, parse 26, check 12, ..   ->   parse 156, price 19, check 12, ..
"""

# The log orders nobody, and all transfers are at half their cost.
NO_LOG = """\
         was   now
work    1004   646
span     828   310  -518
chain    transfer 688, audit 128, main 12   ->   audit 128, transfer 104, main 78
"""

# The second parse, from tick 18 on, spawns its check at 19, not at 31, and all that come after it are 12 ticks sooner.
EARLY_PARSES = """\
         was   now
work     609   609
span     279   267   -12
chain    price 228, parse 26, check 12, ..   ->   price 228, parse 14, check 12, ..
"""

# What is asked of each, and what it tells in short; the bank's accounts are one array.
WORKED_BY_PROGRAM = [
    ("pipeline", ["--early", "parse"], EARLY_PARSES),
    ("pipeline", ["--early", "parse", "--early=parse"], EARLY_PARSES),
    ("pipeline", ["price=1/2"], CHEAPER_PRICES),
    ("bank", ["--without", "log", "transfer=1/2"], NO_LOG),
    ("bank", ["--without", "12", "transfer=1/2"], NO_LOG),
]

# What is refused of the pipeline's record with its names.
REFUSED_BY_PROGRAM = [
    (["--without", "nobody"], f"boc: without 1: {NO_COWN}"),
    (["--without", "parser", "--without", "4"], f"boc: without 2: {NO_COWN}"),
    (["--without", "pric", "nothing=1/2"], f"boc: without 1: {NO_COWN}"),
    (["nothing=1/2"], f"boc: edit 1: {NO_DEF}"),
    (["price=1/2", "Price=1/2"], f"boc: edit 2: {NO_DEF}"),
    (["price=1/2", "0=1", "nothing=1/2"], f"boc: edit 2: {BELOW_SPAWN}"),
    (["nothing=1/2", "0=1"], f"boc: edit 1: {NO_DEF}"),
    (["parse=1000/1", "parse=1000/1"], f"boc: edit 2: {TOO_MANY_TICKS}"),
    (["price=1/2", "37=1"], f"boc: edit 2: {NO_ROW}"),
    (["--early", "nothing"], f"boc: early 1: {NO_DEF}"),
    (["--early", "parse", "--early", "Parse", "--early", "nothing"], f"boc: early 2: {NO_DEF}"),
    (["--early", ""], f"boc: early 1: {NO_DEF}"),
    (["--early", "parse=1/2"], f"boc: early 1: {NO_DEF}"),
    (["--early", "1"], f"boc: early 1: {NO_DEF}"),
    (["--early", "row 1"], f"boc: early 1: {NO_DEF}"),
    (["--early", "p" * 100], f"boc: early 1: {NO_DEF}"),
    (["--early", "nothing", "--without", "nobody"], f"boc: without 1: {NO_COWN}"),
    (["nothing=1/2", "--early", "nothing"], f"boc: early 1: {NO_DEF}"),
    (["--early", "keep", "nothing=1/2"], f"boc: edit 1: {NO_DEF}"),
    (["0=11", "--early", "main"], f"boc: edit 1: {BELOW_SPAWN}"),
    (["--early", "main", "price=1/2", "1@2"], f"boc: edit 2: {NOT_BETWEEN}"),
]

# Five rows: main spawns two that share a cown of an array, and each of these spawns one that has another of it.
FAMILY = b"boc 1 4\n+ 0 0 0\n> 0\n+ 1 0 2 1\n+ 2 0 4 1 3\n< 0 6 0\n> 1\n+ 3 1 5 2\n< 1 8 0\n> 2\n+ 4 2 3 2\n< 2 9 0\n> 3\n< 3 7 0\n> 4\n< 4 5 0\n.\n"
FAMILY_NAMES = b"= 0 main\n= 1 ask 1\n= 2 ask 2\n= 3 tell 1\n= 4 tell 2\n@ 0 log\n@ 1 seat[0]\n@ 2 seat[1]\n@ 3 seats\n"

# Before, row 2 waits for row 1 up to 10, and ends at 19. Without both seats of the array, and with twice the cost of those who ask, row 1 takes 16 ticks and
# spawns row 3 at its tick 10, and row 2 takes 18 and spawns row 4 at 6. They start at 2 and 4, rows 3 and 4 at 12 and 10, and all is over at 22.
NO_SEATS = """\
         was   now
work      35    52
span      19    22    +3
chain    ask 17, main 2   ->   ask 18, main 4
"""

# A cown that is called as an array is, of which another one is a member, and defs with an equals sign. Rows 1 and 2 take 10 ticks each over `x`, rows 3 and 4
# take 6 over `x[1]`; main spawns them from its tick 2 on. Row 2 ends at 22. Without `x` alone row 4 is the last, at 16; without `x[1]` alone row 2 is; with
# `a=b` at half its ticks row 4 is the last, at 16, again.
ALIKE = b"boc 1 2\n+ 0 0 0\n> 0\n+ 1 0 2 0\n+ 2 0 3 0\n+ 3 0 4 1\n+ 4 0 5 1\n< 0 5 0\n> 1\n< 1 10 0\n> 2\n< 2 10 0\n> 3\n< 3 6 0\n> 4\n< 4 6 0\n.\n"
ALIKE_NAMES = b"@ 0 x\n@ 1 x[1]\n= 1 a=b\n= 2 a=b 1\n= 3 =c=\n= 4 5=6\n"
ALIKE_SPANS = [(["--without", "x"], 16), (["--without", "x[*]"], 22), (["--without", "x[1]"], 22), (["a=b=1/2"], 16), (["=c==1/2", "5=6=1/2"], 22)]


# A candidate of `why`: a def that spawns early, and then the end and the span, or the span alone, each with what is gained.
EARLY = re.compile(rb"\n  early spawns by (\w+) +([ 0-9]+)")


def cases(program):
    yield from of_programs(program)
    yield from of_files(program)
    yield from of_candidates(program)


def of_programs(program):
    """Records of programs, whose names come from the text of the program."""
    with tempfile.TemporaryDirectory() as folder:
        bank = written(folder, "bank.boc", BANK)
        texts = {"bank": (bank, BANK), "pipeline": (os.path.join(program.examples, "pipeline.boc"), program.example("pipeline.boc"))}
        records = {name: program.run(["run"], text).output for name, (_, text) in texts.items()}
        for name, words, told in WORKED_BY_PROGRAM:
            answer = program.run(["whatif", "--short", "--program", texts[name][0], *words], records[name])
            yield f"{name}: whatif --short {' '.join(words)}", fault_of(done(told.encode()), answer)
        for words, line in REFUSED_BY_PROGRAM:
            answer = program.run(["whatif", "--program", texts["pipeline"][0], *words], records["pipeline"])
            yield f"pipeline: whatif {' '.join(words)}", fault_of(refused(3, line), answer)


def of_files(program):
    """Records whose names come from a file, or that have none but numbers."""
    rows, count = rows_of(FAMILY)
    names = names_file.names_of(FAMILY_NAMES, len(rows), count)
    told = wanted(rows, names, ["seat"], ["ask=2/1"], None, True)
    yield "the model's seats", None if told == done(NO_SEATS.encode()) else f"it told {told}"
    with tempfile.TemporaryDirectory() as folder:
        path = written(folder, "family.names", FAMILY_NAMES)
        for cowns in ([], ["seat"], ["seat[*]"], ["seat[0]"], ["seats"], ["2"], ["log", "seat[1]"], ["sea"], ["seat[2]"], ["cown 1"]):
            yield from of_names(program, "family", FAMILY, names, path, cowns, ["ask=2/1"])
        for edits in ([], ["main=1/2", "tell=3/1"], ["tell=1/7", "ask=1/2"], ["ask=1/2", "4=1"], ["1=4"], ["ask=1/2", "1=2"], ["row 1=1/2"]):
            yield from of_names(program, "family", FAMILY, names, path, ["seat[1]"], edits)
        for early in (["main"], ["ask"], ["tell"], ["ask", "main"], ["main", "main"], ["main", "asks"], ["row 1"], [""], ["a=b"], ["2"]):
            for edits in ([], ["ask=2/1"], ["main=1/2", "0=2"], ["0=1"]):
                yield from of_names(program, "family", FAMILY, names, path, ["log"], edits, early)
        numbers = names_file.names_of(b"", len(rows), count)
        for early in (["row 1"], ["row 2", "row 0"], ["row 4"], ["row 5"], ["main"], ["1"]):
            yield from of_names(program, "family by numbers", FAMILY, numbers, None, [], ["1=9"], early)
        yield from of_alike(program, written(folder, "alike.names", ALIKE_NAMES))
        yield from random_cases(program, folder)


def of_candidates(program):
    """Each def that `why` lists as one that could spawn early comes with `--early` to what is listed, and to what the model has."""
    listed = set()
    for name in sorted(os.listdir(program.examples)):
        text = program.example(name) if name.endswith(".boc") else None
        if not text:
            continue
        record = program.run(["run"], text).output
        rows, cowns = rows_of(record)
        run_names = RunNames(follow(Program(text), record))
        names, defs = as_bytes(run_names), [own.encode() for own in run_names.def_names]
        for workers in (None, 4):
            options = ["--p", str(workers)] if workers else []
            for def_name, numbers in EARLY.findall(program.run(["why", *options], text).output):
                numbers = numbers.decode().split()
                listed.add(name)
                word = def_name.decode()
                answer = program.run(["whatif", "--short", *options, "--early", word], text)
                yield f"{name}: whatif --early {word} {options}", fault_of(wanted(rows, names, [], [], workers, True, [word], defs), answer)
                ends = model.greedy_end(spawned_early(rows, names, word), workers) if workers else None
                told = [str(end) for end in (ends, model.span(spawned_early(rows, names, word))) if end]
                yield f"{name}: why of early spawns by {word} {options}", None if told == numbers[::2] else f"it lists {numbers}, not {told}"
    yield "examples with early spawns", None if len(listed) > 3 else f"only {sorted(listed)} list any"


def as_bytes(names):
    """Names of a run, as those of a file are laid over them."""
    return names_file.Names(*([own.encode() for own in texts] for texts in (
        names.rows, [names.def_names[number] for number in names.defs], names.cowns, [names.family_names[number] for number in names.families])))


def of_alike(program, path):
    """What a name means to `whatif` it means among the candidates of `why`, too."""
    for words, span in ALIKE_SPANS:
        answer = program.run(["whatif", "--names", path, *words], ALIKE)
        yield f"alike: whatif {' '.join(words)}", None if f"\nspan {span}\n".encode() in answer.output else f"it tells {answer}"
    told = program.run(["why", "--names", path], ALIKE).output.split(b"candidates", 1)[-1]
    yield "alike: why", None if re.search(rb"\n  without x +16 +6\n", told) else f"it tells {told!r}"


def of_names(program, name, record, names, path, cowns, edits, early=()):
    rows, _ = rows_of(record)
    given = edits[:1] + [word for cown in cowns for word in ("--without", cown)] + [word for own in early for word in ("--early", own)] + edits[1:]
    for workers in (None, 2):
        for is_short in (False, True):
            options = (["--names", path] if path else []) + (["--p", str(workers)] if workers else []) + (["--short"] if is_short else [])
            answer = program.run(["whatif", *options, *given], record)
            told = wanted(rows, names, cowns, edits, workers, is_short, early)
            yield f"{name}: whatif {' '.join(options[2 if path else 0:] + given)}", fault_of(told, answer)


def random_cases(program, folder):
    """Random rows over four cowns, with random names for some of them."""
    chance = random.Random(20261127)
    for number in range(60):
        record = None
        while record is None:
            rows = random_rows(chance)
            record = record_of(rows)
        lines = [f"= {row} {chance.choice(['main', 'ask', 'tell'])} {row}\n" for row in range(len(rows)) if chance.random() < 0.8]
        lines += [f"@ {cown} {chance.choice(['log', 'seat[0]', 'seat[1]', 'seats'])}\n" for cown in range(4) if chance.random() < 0.8]
        text = "".join(lines).encode()
        path = written(folder, f"{number}.names", text) if chance.random() < 0.9 else None
        names = names_file.names_of(text if path else b"", len(rows), 4)
        for _ in range(4):
            cowns = chance.sample(["log", "seat", "seat[1]", "seats", "cown 0", "cown 3", "2", "4"], chance.choice([0, 0, 1, 1, 2]))
            edits = [random_word(chance, len(rows)) for _ in range(chance.choice([0, 1, 1, 2, 3]))]
            early = chance.sample(["main", "ask", "tell", "row 0", "row 1", "row 9"], chance.choice([0, 0, 1, 1, 2]))
            yield from of_names(program, f"random names {number}", record, names, path, cowns, edits, early)


def random_word(chance, rows):
    if chance.random() < 0.3:
        return f"{chance.randrange(rows + 1)}={chance.randint(1, 20)}"
    subject = chance.choice(["main", "ask", "tell", "row 0", "row 2", str(chance.randrange(rows))])
    return f"{subject}={chance.randint(1, 6)}/{chance.randint(1, 6)}"


def written(folder, name, text):
    path = os.path.join(folder, name)
    with open(path, "wb") as file:
        file.write(text)
    return path
