"""`why --runs`: what many runs of a program say, worked out plainly from the records of the runs that the same seeds draw."""
import random

from . import advice
from .hot_cowns import exclusive, rows_of
from .programs import RunNames, follow
from .random_programs import random_program
from .running import done, fault_of, refused

# Programs by chance, each from this seed and its number.
SEED = 20261130
PROGRAMS = 60

MOST_JUDGED = 60
BINS, WIDTH = 10, 40
NEARLY = 75

# Two deposits, and who comes first is drawn.
RACE = b"""\
cown a = 0; cown b = 0; cown c = 0;
def add(n; x) { work n; x = x + n; }
def left(; y) { when add(5; a); }
def right(; y) { work 1; when add(30; a); }
main { when left(; b); when right(; c); }
"""


def middle(numbers):
    """Of so many numbers the one in the middle, of two the lower one."""
    return sorted(numbers)[(len(numbers) - 1) // 2]


def spread(numbers):
    return [min(numbers), middle(numbers), max(numbers)]


def percent(was, now):
    """By how many percent a number changes."""
    if was == now:
        return "the same"
    part = abs(was - now) * 100 // was
    return (f"{part}%" if part else "less than 1%") + (" less" if now < was else " more")


class Drawn:
    """A run that was drawn, as rows share cowns, and what is tried in it."""

    def __init__(self, record, names, shared, workers):
        rows = rows_of(record.decode())[0]
        self.names, self.rows, self.workers = names, rows if shared else exclusive(rows), workers
        chains = [advice.earliest_chain(self.rows, names)] + ([] if workers is None else [advice.greedy_chain(self.rows, names, workers)])
        self.span, self.judged = chains[0].end, chains[-1].end
        self.end = None if workers is None else self.judged
        self.order = max(advice.ends_of(self.rows, advice.eager_starts(self.rows)))
        self.tried = advice.tried(names, chains)

    def less(self, change):
        rows = advice.changed(self.rows, self.names, change)
        return self.judged - (advice.span(rows) if self.workers is None else advice.greedy_end(rows, self.workers))


def draws_of(program, plain, text, runs, draws, seed, depth, shared, workers):
    """The runs of so many seeds from this one on."""
    drawn = []
    for number in range(runs):
        words = ["run", "-w", str(draws), "--seed", str((seed + number) % 2 ** 64), *(["--depth", str(depth)] if depth else [])]
        record = program.run(words, text).output
        drawn.append(Drawn(record, RunNames(follow(plain, record)), shared, workers))
    return drawn


def most_tried(drawn):
    """What is tried in some run: first what most runs try, of equal ones what comes first."""
    counts = {}
    for run in drawn:
        for change in run.tried:
            counts[change] = counts.get(change, 0) + 1
    return sorted(counts, key=lambda change: -counts[change])[:MOST_JUDGED]


def candidates(drawn):
    """What each change that is told brings, and in how many runs it is the best one."""
    changes = most_tried(drawn)
    less = [[run.less(change) for change in changes] for run in drawn]
    best = [0] * len(changes)
    for own in less:
        racing = [place for place, change in enumerate(changes) if own[place] > 0
                  and not any(advice.is_within(other, change) and own[small] * 100 >= NEARLY * own[place] for small, other in enumerate(changes))]
        if racing:
            best[max(racing, key=lambda place: (own[place], -place))] += 1
    columns = [[own[place] for own in less] for place in range(len(changes))]
    told = sorted(advice.told(changes, columns), key=lambda place: (-middle(columns[place]), -best[place], -max(columns[place]), place))
    return [[advice.change_text(drawn[0].names, changes[place]), *map(str, spread(columns[place])), str(best[place])] for place in told]


def histogram(numbers):
    least, most = min(numbers), max(numbers)
    width = -(-(most - least + 1) // BINS)
    counts = [0] * ((most - least) // width + 1)
    for number in numbers:
        counts[(number - least) // width] += 1
    lines = []
    for place, count in enumerate(counts):
        first, last = least + place * width, min(most, least + (place + 1) * width - 1)
        lines.append([f"  {first}" + (f"..{last}" if first < last else ""), str(count), "#" * -(-count * WIDTH // max(counts))])
    return advice.table("lrl", lines)


def told_of(drawn, alone, draws, seed, workers):
    """What is told of many runs, where the run by one worker has this span."""
    runs, word = len(drawn), f"end for {workers}"
    lines = [["", "least", "median", "most"], ["rows", *map(str, spread([len(run.rows) for run in drawn]))],
             ["work", *map(str, spread([sum(row.ticks for row in run.rows) for run in drawn]))], ["span", *map(str, spread([run.span for run in drawn]))],
             ["a better order", *map(str, spread([run.order for run in drawn]))]]
    if workers is not None:
        lines.append([word, *map(str, spread([run.end for run in drawn]))])
    told = [f"runs {runs}   workers {draws}   seeds {seed}..{(seed + runs - 1) % 2 ** 64}", "", *advice.table("lrrr", lines)]
    spans = [run.span for run in drawn]
    if not min(spans) <= alone <= max(spans):
        told.append(f"the run on one worker has span {alone}, {'more' if alone > max(spans) else 'less'} than any of these")
    told += ["", "spans" if workers is None else f"ends for {workers}", *histogram([run.judged for run in drawn]), ""]
    head = ["candidates", "least less", "median", "most", "best in"]
    return "".join(f"{text}\n" for text in told + advice.table("lrrrr", [head, *advice.listed(candidates(drawn))])).encode()


def cases(program):
    for number in range(PROGRAMS):
        chance = random.Random(f"{SEED} {number}")
        yield from of_program(program, f"random program {number}", *random_program(chance), chance)
    yield from words_refused(program)
    yield from inputs_refused(program)


def of_program(program, name, plain, text, chance):
    runs, draws, seed = chance.choice([1, 2, 5, 9]), chance.choice([1, 2, 4, 16]), chance.choice([0, 3, 2 ** 64 - 2])
    depth, workers, shared = chance.choice([None, None, 1, 3]), chance.choice([None, None, 1, 2, 3]), chance.random() < 0.3
    drawn = draws_of(program, plain, text, runs, draws, seed, depth, shared, workers)
    rows = rows_of(program.run(["run"], text).output.decode())[0]
    alone = advice.span(rows if shared else exclusive(rows))
    words = ["--runs", str(runs), "-w", str(draws), "--seed", str(seed), *(["--depth", str(depth)] if depth else []),
             *(["-p", str(workers)] if workers else []), *["--shared-reads"] * shared]
    notes = None if draws == 1 else b""
    yield f"{name}: {words}", fault_of(done(told_of(drawn, alone, draws, seed, workers), notes), program.run(["why", *words], text))
    again = program.run(["why", *words, "--quiet"], text)
    yield f"{name}: {words} once more", fault_of(done(told_of(drawn, alone, draws, seed, workers), b""), again)


def words_refused(program):
    """Words that exclude each other, and bad values."""
    for words in (["--runs", "0"], ["--runs", "1000001"], ["--runs", "-1"], ["--runs", "x"], ["--runs"], ["--runs", "2", "--runs", "2"],
                  ["--runs", "2", "--record", "a"], ["--runs", "2", "--names", "a"], ["--runs", "2", "--all"], ["--runs", "2", "--then", "2"],
                  ["--runs", "2", "--timed"], ["--runs", "2", "--typical"], ["--runs", "2", "--depth", "17"], ["--runs", "2", "-w", "17"],
                  ["--runs", "2", "-p", "65"], ["--runs", "2", "--seed", "-1"]):
        answer = program.run(["why", *words], RACE)
        yield f"why {words} is refused", None if answer.status == 2 and not answer.output and answer.errors else f"it told {answer}"
    for command in ("run", "time", "profile", "cowns", "whatif", "sweep", "curve", "values"):
        answer = program.run([command, "--runs", "2"], RACE)
        yield f"{command} --runs is refused", None if answer.status == 2 and not answer.output and answer.errors else f"it told {answer}"


def inputs_refused(program):
    record = program.run(["run"], RACE).output
    answer = program.run(["why", "--runs", "2"], record)
    yield "why --runs of a record", None if answer.status == 3 and b"this looks like a record" in answer.errors else f"it told {answer}"
    yield "a wrong text", fault_of(refused(3, "boc: line 1: 5 UnknownName"), program.run(["why", "--runs", "2"], b"main { x = 1; }"))
    full = b"def leaf(;) { } main { repeat 66000 { when leaf(;); } }"
    yield "too many behaviours", fault_of(refused(4, "boc: run: 2 Behaviours"), program.run(["why", "--runs", "2"], full))
    depth = program.run(["why", "--runs", "3", "--depth", "2"], RACE)
    yield "--depth needs no --seed", None if depth.status == 0 and depth.output.startswith(b"runs 3   workers 4   seeds 0..2\n") else f"it told {depth}"
