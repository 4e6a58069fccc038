"""`compare`: what has changed from one run to another, worked out plainly from the records of both and from what their rows and cowns are called."""
import os
import random
import tempfile

from . import advice, names_file
from .hot_cowns import Earliest, bare, exclusive, hot_cowns, rows_of
from .many_runs import draws_of, percent, spread
from .named import Called, random_names
from .notes import ends_of, notes_of
from .plans import random_rows, record_of
from .programs import Program, RunNames, follow
from .random_programs import random_program
from .running import done, fault_of, refused
from .typical import medians, typical_record
from .why import Names

# Pairs by chance, each from this seed and its number.
SEED = 20261130
PAIRS = 120

# Runs of more rows are not judged for workers here: the plain model looks at each pair of rows.
MOST_JUDGED = 40

SLOW = b"""\
cown a = 0; cown b = 0;
def put(n; x) { work n; x = x + n; }
main { when put(20; a); when put(20; a); when put(20; b); }
"""
FAST = b"""\
cown a = 0; cown b = 0;
def put(n; x) { work n; x = x + n; }
def note(; y) { y = y + 1; }
main { when put(20; a); when put(10; b); when note(; b); }
"""

# A `put` takes two ticks more than it works, main 4. Before, two of them follow each other from tick 2 on; after, the first of them ends at 24. The second
# waits for a worker up to tick 4, and ends at 16, before it.
WORKED = """\
                     before  after
rows                      4      4
work                     70     40  -30
span                     46     24  -22
end for 2                46     24  -22
least for 2              46     24  -22
a better order           46     24  -22
bound for any order      46     24  -22
"""


class Side:
    """What is told of one run."""

    def __init__(self, record, names, shared, workers, is_typical):
        text = typical_record(record, names.defs) if is_typical else record
        own, cowns = rows_of(text.decode())
        usual = rows_of(typical_record(record, names.defs).decode())[0]
        rows, usual = (own, usual) if shared else (exclusive(own), exclusive(usual))
        self.names, self.rows = names, rows
        chain = advice.earliest_chain(rows, names)
        self.work, self.span, self.end = numbers_of(rows, workers)
        self.usual = numbers_of(usual, workers)
        self.least = None if workers is None else max(-(-self.work // workers), self.span)
        self.order = max(advice.ends_of(rows, advice.eager_starts(rows)))
        hot = {it[0]: it for it in hot_cowns(own, cowns, shared)}
        self.bound = max([Earliest(bare(rows)).span()] + [it[3] + it[7] for it in hot.values() if any(it[0] in row.written for row in rows)])
        self.by_def = [(names.def_names[key], ticks) for key, ticks, _ in chain.by_def]
        self.defs, self.cowns = defs_of(rows, names, dict(self.by_def)), cowns_of(names, hot, chain)


def numbers_of(rows, workers):
    return sum(row.ticks for row in rows), advice.span(rows), None if workers is None else advice.greedy_end(rows, workers)


def defs_of(rows, names, on_chain):
    """For each def its rows, their ticks, the median of these, and its ticks of the chain."""
    middle, own = medians(rows, names.defs), {}
    for row, number in zip(rows, names.defs):
        name = names.def_names[number]
        count, ticks, _, _ = own.get(name, (0, 0, 0, 0))
        own[name] = (count + 1, ticks + row.ticks, middle[number], on_chain.get(name, 0))
    return own


def cowns_of(names, hot, chain):
    """For each family how many cowns it has, how long the one is held that is held longest, the waits for all of them, and the chain's ticks through it."""
    own = {}
    for cown, family in enumerate(names.families):
        name = names.family_names[family]
        count, held, waited, _ = own.get(name, (0, 0, 0, 0))
        through = sum(weight for link, weight in zip(chain.links, chain.weights)
                      if link[0] == "cowns" and any(names.families[it] == family for it in link[1]))
        own[name] = (count + 1, max(held, hot[cown][3]), waited + hot[cown][4], through)
    return own


def pairs_lines(word, heads, before, after):
    """A line for each name of either side: those first that weigh most on either chain, then whose ticks are most, then as they come."""
    def most(name, place):
        return max(side[name][place] for side in (before, after) if name in side)

    names = sorted(dict.fromkeys([*before, *after]), key=lambda name: (-most(name, 3), -most(name, 1)))
    lines = []
    for name in names:
        cells = [str(side[name][place]) if name in side else "-" for place in range(4) for side in (before, after)]
        lines.append([name, *cells, "new" if name not in before else "gone" if name not in after else ""])
    return advice.table("l" + "r" * 8 + "l", [[word, *(cell for head in heads for cell in (head, "now")), ""], *advice.listed(lines)])


def heaviest(side):
    return ", ".join([f"{name} {ticks}" for name, ticks in side.by_def[:3]] + ([".."] if len(side.by_def) > 3 else []))


def compared(one, two, workers, named, is_typical):
    """What `compare` writes of two sides."""
    lines = [["", "before", "after", ""]]

    def line(word, was, now):
        lines.append([word, str(was), str(now), f"{now - was:+}" if now != was else ""])

    line("rows", len(one.rows), len(two.rows))
    line("work", one.work, two.work)
    line("span", one.span, two.span)
    if workers is not None:
        line(f"end for {workers}", one.end, two.end)
        line(f"least for {workers}", one.least, two.least)
    line("a better order", one.order, two.order)
    line("bound for any order", one.bound, two.bound)
    is_usual = named and not is_typical
    if is_usual:
        for word, was, now in zip(("typical work", "typical span", f"typical end for {workers}"), one.usual, two.usual):
            if was is not None:
                line(word, was, now)
    told = advice.table("lrrr", lines)
    if named:
        told += ["", f"chain  {heaviest(one)}  ->  {heaviest(two)}", "", *pairs_lines("def", ("rows", "ticks", "typical", "chain"), one.defs, two.defs)]
    if one.cowns or two.cowns:
        told += ["", *pairs_lines("cown", ("cowns", "held", "waited", "chain"), one.cowns, two.cowns)]
    last = f"the span is {percent(one.span, two.span)}"
    if is_usual:
        last += f", with typical ticks {percent(one.usual[1], two.usual[1])}"
    if workers is not None:
        last += f"; for {advice.count_text(workers)} the end is {percent(one.end, two.end)}"
    return "".join(f"{text}\n" for text in [*told, last]).encode()


class Input:
    """One of two inputs: its bytes, its words for names, the record of its run, what is called how, and whether that are names."""

    def __init__(self, program, chance, how):
        self.file, self.notes = None, b""
        kind = chance.random()
        if kind < 0.7:
            plain, self.text = random_program(chance)
            self.record = program.run(["run", *how], self.text).output
            self.names, self.is_named = RunNames(follow(plain, self.record)), True
        else:
            self.record = None
            while self.record is None:
                self.record = record_of(random_rows(chance))
            self.text = self.record
            rows, cowns = rows_of(self.record.decode())
            self.names, self.is_named = Names(len(rows), cowns), False
            if chance.random() < 0.5:
                self.file = random_names(chance, len(rows), cowns)
                self.names, self.is_named = Called(*names_file.names_of(self.file, len(rows), cowns)), True
        self.notes = notes_of(ends_of(self.record), self.names.rows if self.is_named or self.text is not self.record else [])


def cases(program):
    yield from worked(program)
    for number in range(PAIRS):
        yield from of_pair(program, f"random pair {number}", random.Random(f"{SEED} {number}"))
    yield from of_runs(program)
    yield from words_refused(program)
    yield from inputs_refused(program)


class Files:
    """Files with these contents, in a folder of their own, by their names."""

    def __init__(self, **contents):
        self.folder, self.contents = tempfile.TemporaryDirectory(), contents

    def __enter__(self):
        for name, content in self.contents.items():
            with open(self.path(name), "wb") as file:
                file.write(content)
        return self

    def __exit__(self, *_):
        self.folder.cleanup()

    def path(self, name):
        return os.path.join(self.folder.name, name)


def noted(one, two):
    """The notes on both sides, each behind a line that says which it is."""
    return b"".join(head + notes for head, notes in ((b"boc: note: in BEFORE:\n", one), (b"boc: note: in AFTER:\n", two)) if notes)


def worked(program):
    with Files(a=SLOW, b=FAST) as files:
        answer = program.run(["compare", "-p", "2", files.path("a"), files.path("b")])
        begins = answer.output.decode().startswith(WORKED)
        yield "worked: the numbers", None if answer.status == 0 and begins else f"it told {answer}"
        same = program.run(["compare", files.path("a"), files.path("a")]).output.decode()
        yield "worked: a program and itself", None if same.endswith("the span is the same, with typical ticks the same\n") else f"it told {same}"
        first = program.run(["compare", "-", files.path("b")], SLOW)
        yield "worked: the first from standard input", fault_of(first, program.run(["compare", files.path("a"), files.path("b")]))
        second = program.run(["compare", files.path("a"), "-"], FAST)
        yield "worked: the second from standard input", fault_of(first, second)


def of_pair(program, name, chance):
    """Two inputs by chance, with options by chance."""
    how = chance.choice([[], [], ["-w", "3", "--seed", str(chance.randrange(2 ** 64))], ["--timed", "-w", "2"]])
    one, two = Input(program, chance, how), Input(program, chance, how)
    shared, is_typical = chance.random() < 0.3, chance.random() < 0.3
    workers = chance.choice([None, 1, 2, 3])
    if max(map(len, (one.names.defs, two.names.defs))) > MOST_JUDGED:
        workers = None
    named = one.is_named and two.is_named
    sides = [Side(it.record, it.names, shared, workers, is_typical) for it in (one, two)]
    told = compared(*sides, workers, named, is_typical)
    words = [*how, *(["-p", str(workers)] if workers else []), *["--shared-reads"] * shared, *["--typical"] * is_typical]
    with Files(a=one.text, b=two.text, c=one.file or b"", d=two.file or b"") as files:
        words += ["--names-a", files.path("c")] * (one.file is not None) + ["--names-b", files.path("d")] * (two.file is not None)
        answer = program.run(["compare", *words, files.path("a"), files.path("b")])
        notes = None if how and b"boc" in (one.text[:3], two.text[:3]) else noted(one.notes, two.notes)
        yield f"{name}: {words}", fault_of(done(told, notes), answer)
        yield f"{name}: --quiet", fault_of(done(told, b""), program.run(["compare", "--quiet", *words, files.path("a"), files.path("b")]))


def of_runs(program):
    """Many runs of two programs, by the same seeds."""
    for number in range(20):
        chance = random.Random(f"{SEED} runs {number}")
        (one, first), (two, second) = random_program(chance), random_program(chance)
        runs, draws, seed = chance.choice([1, 2, 7]), chance.choice([1, 2, 4]), chance.choice([0, 5, 2 ** 64 - 2])
        depth, workers, shared = chance.choice([None, 2]), chance.choice([None, 2]), chance.random() < 0.3
        words = ["--runs", str(runs), "-w", str(draws), "--seed", str(seed), *(["--depth", str(depth)] if depth else [])]
        sides = [draws_of(program, plain, text, runs, draws, seed, depth, shared, workers) for plain, text in ((one, first), (two, second))]
        words += [*(["-p", str(workers)] if workers else []), *["--shared-reads"] * shared]
        with Files(a=first, b=second) as files:
            answer = program.run(["compare", *words, files.path("a"), files.path("b")])
            yield f"many runs {number}: {words}", fault_of(done(runs_told(*sides, runs, draws, seed, workers)), answer)


def runs_told(one, two, runs, draws, seed, workers):
    lines = [["", "least", "median", "most", "->", "least", "median", "most"]]

    def line(word, number):
        lines.append([word, *map(str, spread([number(run) for run in one])), "", *map(str, spread([number(run) for run in two]))])

    line("rows", lambda run: len(run.rows))
    line("work", lambda run: sum(row.ticks for row in run.rows))
    line("span", lambda run: run.span)
    if workers is not None:
        line(f"end for {workers}", lambda run: run.end)
    was, now = [run.judged for run in one], [run.judged for run in two]
    word = "span" if workers is None else f"end for {workers}"
    less, same = sum(b < a for a, b in zip(was, now)), sum(b == a for a, b in zip(was, now))
    told = [f"runs {runs}   workers {draws}   seeds {seed}..{(seed + runs - 1) % 2 ** 64}", "", *advice.table("lrrrlrrr", lines),
            f"the median {word} is {percent(spread(was)[1], spread(now)[1])}; it is less in {less} and the same in {same} of {runs} seeds"]
    return "".join(f"{text}\n" for text in told).encode()


def words_refused(program):
    """Words that exclude each other, and bad values."""
    with Files(a=SLOW, b=FAST, c=b"") as files:
        one, two, names = (files.path(it) for it in "abc")
        for words in ([], [one], [one, two, two], ["-", "-"], ["-p", "0", one, two], ["-p", "65", one, two], ["--runs", "0", one, two],
                      ["--runs", "1000001", one, two], ["--runs", "x", one, two], ["--runs", "2", "--timed", one, two], ["--runs", "2", "--typical", one, two],
                      ["--runs", "2", "--names", names, one, two], ["--runs", "2", "--names-a", names, one, two],
                      ["--runs", "2", "--names-b", names, one, two], ["--runs", "2", "--runs", "2", one, two], ["--depth", "2", one, two],
                      ["--timed", "--seed", "1", one, two], ["--record", names, one, two], ["--all", one, two], ["--names-a", names, "--names-a", names, one, two],
                      ["--names", names, "--names", names, one, two], ["--runs", "2", "-", "-"], ["--top", "1", one, two]):
            answer = program.run(["compare", *words], SLOW)
            yield f"compare {words} is refused", None if answer.status == 2 and not answer.output and answer.errors else f"it told {answer}"
        for words in (["--names", names], ["--names", names, "--names-a", names], ["--names-a", names, "--names-b", names], ["--depth", "2", "--runs", "2"]):
            answer = program.run(["compare", *words, one, two])
            yield f"compare {words} is taken", None if answer.status == 0 and answer.output else f"it told {answer}"


def inputs_refused(program):
    """A fault in either input names its file, and the first one comes first."""
    bad, record = b"cown a = 0;\nmain { x = 1; }\n", program.run(["run"], SLOW).output
    full = b"def leaf(;) { } main { repeat 66000 { when leaf(;); } }"
    with Files(a=SLOW, bad=bad, cut=record[:-3], names=b"= 9 x\n", full=full, record=record) as files:
        path = files.path
        for words, status, line, name in (
                (["bad", "a"], 3, "boc: line 2: 5 UnknownName", "bad"), (["a", "bad"], 3, "boc: line 2: 5 UnknownName", "bad"),
                (["cut", "bad"], 3, "boc: line 13: 11 Truncated", "cut"), (["a", "cut"], 3, "boc: line 13: 11 Truncated", "cut"),
                (["--names-b", path("names"), "a", "a"], 3, "boc: names: line 1: 4 NoRow", "names"),
                (["--runs", "2", "a", "bad"], 3, "boc: line 2: 5 UnknownName", "bad"), (["a", "full"], 4, "boc: run: 2 Behaviours", "full"),
                (["--runs", "2", "full", "a"], 4, "boc: run: 2 Behaviours", "full")):
            answer = program.run(["compare", *(path(it) if it in files.contents else it for it in words)])
            lines = answer.errors.decode().splitlines()
            is_so = answer.status == status and not answer.output and lines[0] == line and any(path(name) in it for it in lines[1:])
            yield f"compare {words[-2:]}: {line}", None if is_so else f"it told {answer}"
        answer = program.run(["compare", "--runs", "2", path("a"), path("record")])
        yield "compare --runs of a record", None if answer.status == 3 and b"this looks like a record" in answer.errors else f"it told {answer}"
        answer = program.run(["compare", path("a"), path("none")])
        yield "a file that is not there", None if answer.status == 5 and path("none").encode() in answer.errors else f"it told {answer}"
        yield "an empty second input", fault_of(refused(3, "boc: line 1: 3 Unexpected"), program.run(["compare", path("a"), "-"], b""))
        for words in ([path("a"), "-"], ["-", path("a")], ["--runs", "2", path("a"), "-"]):
            lines = program.run(["compare", *words], bad).errors.decode().splitlines()
            yield f"compare {words}: a fault in standard input", None if lines[1:2] == ["     in standard input"] else f"it told {lines}"
        for words in (["--names", path("names"), path("record"), path("a")], ["--names-b", path("names"), path("a"), path("record")]):
            lines = program.run(["compare", *words]).errors.decode().splitlines()
            yield f"compare {words}: whose names", None if lines[1:2] == [f"     for the run of {path('record')}"] else f"it told {lines}"
