"""The program boc-view: each picture is read back, and what it shows is compared with the plans of the model."""
import collections
import dataclasses
import html
import json
import os
import random
import re
import subprocess
import tempfile
import time
import xml.etree.ElementTree as tree_of
from concurrent.futures import ThreadPoolExecutor

from . import memory, model
from .copies import TOP, tree, view_of
from .packages import command_of
from .plans import random_rows, record_of
from .records import fan, fan_text, tower, tower_text
from .running import DEVICE, Program, done, fault_of, refused
from .why import rows_of

# How many records are drawn at random as text and as traces, and of how many every picture is drawn and read by xmllint.
RANDOM = 60
DRAWN = 200

# Of how many records the widths of all texts are looked at.
WIDTHS = 60

TRANSFER = b"""\
rows 4   work 11   span 9

1 column = 1 tick; # runs, and the chain goes through it; = runs; . waits for a cown
  0 main          |##==     |
  1 add(5; a)     |  ##     |
  2 move(3; a, b) |   .###  |
  3 add(1; b)     |    ...##|
"""

PIPELINE_COWNS = b"""\
who holds what: 1 column = 4 ticks; m main, p parse, c check, P price, k keep
parser  | pppppppppppppppppppppppppppppppppppppppp                             |  55%
checker |    cccccccccccccccccccccccccccccccccccccccc                          |  49%
pricer  |          PPPPPPPPPPPPPPPPPPPPPPPPPPPPPPPPPPPPPPPPPPPPPPPPPPPPPPPPPP  |  81%
store   |                    kkk      kkk       kkk      kkk       kkk      kkk|  17%
"""

NARROW = b"""\
rows 4   work 11   span 9

1 column = 1 tick; # runs, and the chain
  goes through it; = runs; . waits for a
  cown
  0 main          |##==     |
  1 add(5; a)     |  ##     |
  2 move(3; a, b) |   .###  |
  3 add(1; b)     |    ...##|
"""

# How wide a letter is: in a bar and at a link, of a label, and of a label, a title and a heading where the drawing is shown narrow.
IN_BAR, LETTER, NARROW_LETTER, TITLE_LETTER, HEADING_LETTER = 7.3, 7.83, 12.05, 14.45, 12.65

NAMES = b"""= 0 <start> & "go"
= 1 a\\b 1
@ 0 <c>
"""

# What xmllint says of an element that HTML didn't have before its fifth version.
OF_A_DRAWING = re.compile(r"Tag (circle|g|line|path|polyline|rect|svg|text|title|header|main|section|aside|canvas|figure|figcaption|details|summary|bdi) invalid$")

# What is wrong with a drawing and with a page: what stands there, and what is put in its place. xmllint is to refuse each.
BROKEN_DRAWINGS = [(b"</g>", b""), (b"row 0", b"row & 0"), (b'id="r0"', b'id="r0" id="r0"'), (b'id="r0"', b"id=r0"), (b"row 0", b"row < 0"),
                   (b"</svg>", b"</svg><p/>"), (b"row 0", b"row \x01 0"), (b"row 0", b"row \xff 0")]
BROKEN_PAGES = [(b"</div>", b""), (b"</table>", b""), (b"</h1>", b"</h2>"), (b"</section>", b""), (b"spawns row", b"spawns & row"),
                (b'id="tables"', b'id="curve"'), (b"<tr>", b"<cell>"), (b"spawns row", b"spawns \x01 row")]


class Pictures:
    """Drawings and pages that are kept for xmllint, each with a name."""

    def __init__(self):
        self.drawings = []
        self.pages = []

    def keep_drawing(self, name, text):
        self.drawings.append((name, text))

    def keep_page(self, name, text):
        self.pages.append((name, text))
        for number, drawing in enumerate(drawings_of(text)):
            self.keep_drawing(f"{name}, its drawing {number}", drawing)


def drawings_of(page):
    """The drawings in a page."""
    return re.findall(rb"<svg.*?</svg>", page, re.DOTALL)


def cases(program):
    view = view_of(program)
    if not os.access(view.path, os.X_OK):
        yield "the program", f"there is none at {view.path}"
        return
    pictures = Pictures()
    yield from texts(program, view)
    yield from widths(view)
    yield from options(program, view)
    yield from drawings(program, view, pictures)
    yield from folds(view, pictures)
    yield from many_rows(view)
    yield from titles(view)
    yield from hostile_names(view, pictures)
    yield from sizes(view)
    yield from traces(view)
    yield from names_that_mean_something(view, pictures)
    yield from read_by_xmllint(program, view, pictures)
    yield from words(view)
    yield from operands(view)
    yield from at_the_limit(view)
    yield from wants(view)


def texts(program, view):
    transfer, pipeline = program.example("transfer.boc"), program.example("pipeline.boc")
    yield "text: the transfer", fault_of(done(TRANSFER), view.run(["text"], transfer))
    yield "text: its record", fault_of(done(TRANSFER), view.run_beside(["text"], "--record", program.example("transfer.record"), transfer))
    yield "text: who holds what", fault_of(done(PIPELINE_COWNS), view.run(["text", "--cowns", "--width", "86"], pipeline))
    yield "text: a width from outside", fault_of(done(PIPELINE_COWNS), view.run(["text", "--cowns"], pipeline, env={"COLUMNS": "86"}))
    for name in ("pipeline.boc", "philosophers.boc", "bank.boc"):
        source = program.example(name)
        rows, _ = rows_of(program.run(["run"], source).output)
        yield f"text: workers of {name}", fault_of_workers(view.run(["text", "--p", "3"], source).output, rows, 3)
        yield f"text: curve of {name}", fault_of_curve(view.run(["text", "--curve"], source).output, rows)
    yield "text: the transfer in 40 columns", fault_of(done(NARROW), view.run(["text", "--width", "40"], transfer))
    chance = random.Random(6)
    many = [fan_text(4, fan(count, lambda number: (chance.randrange(4),), lambda number: chance.randrange(1, most))) for count, most in ((90, 9), (2_000, 900))]
    for source in [transfer, pipeline, program.example("bank.boc"), *many, record_of([model.Row(0, 0, (), 1_000_000)])]:
        for width in (40, 41, 52, 63, 64, 80, 100):
            for command in ([], ["--cowns"], ["--p", "3"], ["--curve"]):
                output = view.run(["text", *command, "--width", str(width)], source).output
                longest = max(map(len, output.splitlines()), default=0)
                yield f"text: {command} in {width} columns", None if 0 < longest <= width else f"a line has {longest}"
    for number, rows in enumerate(random_records(0, RANDOM)):
        if len(rows) <= 60:
            yield f"text: {number}", fault_of_lines(view.run(["text", "--width", "1000"], record_of(rows)).output, rows)


def widths(view):
    """No line of a text is wider than it was asked for, whatever its rows and cowns are called and however long they take."""
    chance = random.Random(8)
    for number in range(WIDTHS):
        count = chance.choice((2, 5, 40, 60, 61, 90, 400))
        most = chance.choice((3, 40, 1_000_000))
        rows = fan(count, lambda _: sorted(chance.sample(range(4), chance.randrange(3))), lambda _: chance.randrange(1, most))
        few = chance.randrange(1, 9)
        names = [f"= {row} {long_name(row % few)}"[:80] for row in range(count)] + [f"@ {cown} {long_name(60 + cown).split()[0]}"[:80] for cown in range(4)]
        record, names = fan_text(4, rows), "".join(f"{name}\n" for name in names).encode()
        with tempfile.NamedTemporaryFile() as file:
            file.write(names)
            file.flush()
            width = chance.choice((40, 41, 42, 43, 44, 63, 64, 65, 999, 1000, chance.randrange(40, 1001)))
            for command in ([], ["--cowns"], ["--p", str(chance.randrange(1, 65))], ["--curve"], ["--cowns", "--p", "2"], ["--cowns", "--curve", "--p", "9"]):
                command = [*command, *chance.choice(([], ["--shared-reads"])), "--width", str(width), "--names", file.name]
                answer = view.run(["text", *command], record)
                longest = max(map(len, answer.output.splitlines()), default=0)
                yield f"text: {number} with {command[:-2]}", None if 0 < longest <= width else f"a line has {longest}: {answer.errors}"


    longest_run = fan_text(1, fan(11_000, lambda _: (0,), lambda _: 1_000_000))
    for width in (40, 41, 63, 64, 74, 75, 100):
        longest = max(map(len, view.run(["text", "--curve", "--width", str(width)], longest_run).output.splitlines()), default=0)
        yield f"text: ends of 11 digits in {width} columns", None if 0 < longest <= width else f"a line has {longest}"


def long_name(number):
    """A name, one and the same for each number: of one word, mostly a long one, or of two."""
    chance = random.Random(number)
    word = "".join(chance.choice("abcdefghijklmnopqrstuvwxyz<>&\"\\") for _ in range(chance.choice((3, 30, 80, 80))))
    return f"n{number}{word}" + chance.choice(("", "", f" {number}"))


# A program whose record depends on the seed, on the number of workers and on the depth, and whose span is lesser where reads are shared. One thread runs
# its behaviours in one order alone.
ORDERS = b"""\
cown a = 1; cown b = 2; cown c = 3;
def one(; x) { x = x + 1; work 3; }
def two(; x, y) { x = x * 2; work 2; when one(; y); }
def go(; x) { work 1; when two(; x, b); when one(; x); }
def look(n; x, y) { work n; y = x; }
main { when go(; a); when go(; c); when look(4; a, b); when look(2; a, c); when one(; b); when look(3; a, b); }
"""

# How the program is run.
RUNS = [[], ["--workers", "4", "--seed", "1"], ["--workers", "4", "--seed", "2"], ["--workers", "4", "--seed", "2", "--depth", "2"],
        ["--workers", "3", "--seed", "1"]]


def options(program, view):
    """What each picture shows is what `boc` answers with the same options: which run it is, and how its plans see the rows."""
    records = [program.run(["run", *run], ORDERS).output for run in RUNS]
    yield "options: each way to run it has a record of its own", None if len(set(records)) == len(RUNS) else "two are the same"
    shares = [["--shared-reads"], []]
    spans = [Report(program, records[1], share, "3").span for share in shares]
    yield "options: reads that are shared make it shorter", None if spans[0] < spans[1] else f"{spans}"
    for share in shares:
        for run, record in zip(RUNS, records):
            yield from shown_as(view, [*run, *share], Report(program, record, share, "3"), lambda words_: view.run(words_, ORDERS))
            yield from shown_as(view, ["--record", *share], Report(program, record, share, "3"),
                                lambda words_, text=record: view.run_beside([it for it in words_ if it != "--record"], "--record", text, ORDERS))
            yield from shown_as(view, ["--names", *run, *share], Report(program, record, share, "3"),
                                lambda words_: view.run_beside([it for it in words_ if it != "--names"], "--names", b"= 0 start\n", ORDERS), "start")


class Report:
    """What `boc` answers of a record: the plan, the chain, the greedy plan and the curve."""

    def __init__(self, program, record, share, workers):
        lines = [line.split() for line in program.run(["profile", *share, "--p", workers], record).output.decode().splitlines()]
        plan, greedy = lines.index(["plan"]), lines.index(["greedy", workers])
        self.work, self.span = int(lines[1][1]), int(lines[2][1])
        self.chain = [int(line[0]) for line in lines[4:plan]]
        self.plan = [tuple(map(int, line)) for line in lines[plan + 1:greedy]]
        self.greedy = [tuple(map(int, line)) for line in lines[greedy + 1:-1]]
        self.end, self.bound = int(lines[-1][1]), int(lines[-1][3])
        self.curve = [tuple(map(int, line.split())) for line in program.run(["curve", *share, "--p", workers], record).output.decode().splitlines()[2:]]
        self.sweep = [int(line.split()[1]) for line in program.run(["sweep", *share], record).output.decode().splitlines()]
        self.rows, _ = rows_of(record)


def shown_as(view, words_, report, answer, name="main"):
    """Each picture with these words shows what the report says."""
    for picture, fault_of_picture in (("text", fault_of_told_rows), ("text --p 3", fault_of_told_workers), ("text --cowns", fault_of_told_cowns),
                                      ("text --curve --p 3", fault_of_told_curve), ("plan --p 3", fault_of_drawn_plans), ("curve --p 3", fault_of_drawn_curve),
                                      ("page --p 3", fault_of_told_page), ("trace --p 3", fault_of_traced_plans)):
        output = answer([*picture.split(), *words_, *(["--width", "1000"] if picture.startswith("text") else [])]).output.decode()
        fault = fault_of_picture(output, report) if output else "there is none"
        if fault is None and "curve" not in picture and "text -" not in picture and name not in output:
            fault = f"it does not name {name}"
        yield f"{picture} with {words_}", fault


def ticks_of(cells):
    """The ticks whose cells are not blank, where a column is a tick."""
    return {tick for tick, cell in enumerate(cells) if cell not in " ."}


def fault_of_told_rows(text, report):
    lines = [line for line in text.splitlines() if line.endswith("|")]
    found = [(int(line.split()[0]), ticks_of(line[line.index("|") + 1:-1])) for line in lines]
    chain = [int(line.split()[0]) for line in lines if "#" in line]
    if found != [(row, set(range(start, end))) for row, start, end in report.plan]:
        return f"its rows are {found}"
    return None if chain == report.chain else f"its chain is {chain}"


def fault_of_told_workers(text, report):
    found = [ticks_of(line[line.index("|") + 1:line.rindex("|")]) for line in text.splitlines() if line.startswith("worker ")]
    wanted = [{tick for _, start, end, own in report.greedy if own == worker for tick in range(start, end)} for worker in range(3)]
    return None if found == wanted and f"end {report.end}, bound {report.bound}:" in text else f"its workers are {found}"


def fault_of_told_cowns(text, report):
    found = [(ticks_of(line[line.index("|") + 1:line.rindex("|")]), int(line.split()[-1][:-1])) for line in text.splitlines() if line.endswith("%")]
    wanted = []
    for cown in range(3):
        ticks = {tick for row, start, end in report.plan if cown in report.rows[row].cowns for tick in range(start, end)}
        wanted.append((ticks, len(ticks) * 100 // report.span))
    return None if found == wanted else f"its cowns are {found}"


def fault_of_told_curve(text, report):
    found = [tuple(map(int, line.split()[:4])) for line in text.splitlines()[2:-1]]
    least = min(point[1] for point in report.curve)
    enough = next(point[0] for point in report.curve if point[1] == least)
    return None if found == [point for point in report.curve if point[0] in (1, 2, enough)] else f"its points are {found}"


def fault_of_drawn_plans(svg, report):
    return (fault_of_drawing(svg, report.rows, starts=[start for _, start, _ in report.plan])
            or fault_of_workers_drawn(svg, "The greedy plan", report.greedy, 3, report.end, report.bound))


def fault_of_drawn_curve(svg, report):
    found = [tuple(map(int, it)) for it in re.findall(r"<title>workers (\d+): end (\d+), no plan of this run before (\d+), bound (\d+);", svg)]
    return None if found == report.curve and f"work {report.work}, span {report.span}<" in svg else f"its points are {found}"


def fault_of_told_page(page, report):
    data = data_of(page.encode())
    starts, greedy = [start for _, start, _ in report.plan], [[start, worker] for _, start, _, worker in report.greedy]
    if (data["work"], data["span"], data["end"], data["bound"], data["p"]) != (report.work, report.span, report.end, report.bound, 3):
        return "its numbers are others"
    if data["chain"] != report.chain or data["start"] != starts or list(map(list, zip(data["greedyStart"], data["worker"]))) != greedy:
        return f"its chain is {data['chain']}, and its rows start at {data['start']}"
    if data["curve"][:3] != [list(point[1:]) for point in report.curve] or len(data["curve"]) != 64:
        return f"its curve is {data['curve'][:3]}"
    return None if "<h2>The program</h2>" in page and "def look(n; x, y)" in page and "def look(n; x, y)" in data["source"] else "it lacks the program"


def fault_of_traced_plans(text, report):
    events = [it for it in json.loads(text)["traceEvents"] if it["ph"] == "X"]
    found = [sorted((it["args"]["row"], it["ts"], it["ts"] + it["dur"], it["tid"]) for it in events if it["pid"] == process) for process in (1, 2)]
    if [it[:3] for it in found[0]] != report.plan:
        return "its earliest plan is another one"
    on_chain = [it["args"]["row"] for it in sorted(events, key=lambda it: it["args"]["row"]) if it["pid"] == 1 and it["args"]["chain"]]
    return None if found[1] == report.greedy and on_chain == report.chain else f"its greedy plan is {found[1]}, and its chain {on_chain}"


def random_records(seed, count):
    """The rows of so many records by chance."""
    chance, found = random.Random(seed), []
    while len(found) < count:
        rows = random_rows(chance)
        if record_of(rows):
            found.append(rows)
    return found


def columns_of(end, most):
    """How many ticks a column takes."""
    return max(1, -(-end // most))


def fault_of_lines(output, rows):
    """Each line has a row's number, and marks where it waits and runs."""
    starts = model.earliest_starts(rows)
    ends = model.ends_of(rows, starts)
    weights = {int(line.split()[0]): int(line.split()[2]) for line in model.chain(rows, starts)}
    label = max(len(f"row {number}") for number in range(len(rows)))
    ticks = columns_of(max(ends), 1000 - label - 7)
    count = -(-max(ends) // ticks)
    for number, line in enumerate(output.decode().splitlines()[3:]):
        row = rows[number]
        spawned = starts[row.parent] + row.offset if number else 0
        marks = [" "] * count
        for mark, begin, past in ((".", spawned, starts[number]), ("=", starts[number], ends[number]),
                                  ("#", starts[number], starts[number] + weights.get(number, 0))):
            if mark == "." and spawned == starts[number] or mark == "#" and number not in weights:
                continue
            for column in range(begin // ticks, -(-past // ticks)):
                marks[column] = mark
        wanted = f"{number:>3} {f'row {number}':<{label}} |{''.join(marks)}|"
        if line != wanted:
            return f"{line!r} in place of {wanted!r}"
    return None if len(output.splitlines()) == len(rows) + 3 else "another number of lines"


def fault_of_workers(output, rows, workers):
    """Each worker's load is that of the greedy plan."""
    lines = [line.split() for line in model.greedy_lines(rows, workers)]
    end = int(lines[-1][1])
    busy = collections.Counter()
    for line in lines:
        if len(line) == 4 and line[0].isdigit():
            busy[int(line[3])] += int(line[2]) - int(line[1])
    wanted = [busy[worker] * 100 // end for worker in range(workers)]
    found = [int(line.split()[-1].rstrip("%")) for line in output.decode().splitlines() if line.startswith("worker ")]
    return None if found == wanted else f"loads {found} in place of {wanted}"


def fault_of_curve(output, rows):
    """Each line has the numbers of the curve, and the last one says from which number of workers on none ends sooner, where that is known."""
    points = [[int(it) for it in line.split()] for line in model.curve(rows).decode().splitlines()[2:]]
    work = sum(row.ticks for row in rows)
    least = min(point[1] for point in points)
    enough = next(point[0] for point in points if point[1] == least)
    wanted = []
    for workers, end, low, bound in points:
        if workers & (workers - 1) == 0 or workers == enough:
            speed_up = work * 100 // end
            wanted.append([str(workers), str(end), str(low), str(bound), f"{speed_up // 100}.{speed_up % 100:02}", f"{work * 100 // (workers * end)}%"])
    lines = output.decode().splitlines()
    found = [line.split()[:6] for line in lines[2:-1]]
    if found != wanted:
        return f"{found} in place of {wanted}"
    gain = f"more than {enough} worker{'' if enough == 1 else 's'} gain{'s' if enough == 1 else ''} nothing in this run: the plan ends at the span"
    last = gain if least == model.span(rows) else f"no plan for up to 64 workers ends at the span; that for {enough} ends soonest"
    return None if lines[-1] == last else f"the last line is {lines[-1]!r}"


# How wide a drawing of plans is, where its axis begins and how long that is, in hundredths of a pixel.
WIDE, AXIS_FROM, AXIS = 1_000_00, 216_00, 714_00

# How high bars of rows and of workers are, and those of a cown, all rows of folded lanes, and what waits for a cown.
BAR, HOLDERS, ROWS_HIGH, QUEUE = 20, 19, 700_00, 13_00

# The fewest hundredths that a row is apart in a folded lane.
FEWEST_HIGH = 50

SPACE = "{http://www.w3.org/2000/svg}"
AREA = re.compile(r"M([\d.]+) ([\d.]+)h([\d.]+)v([\d.]+)h-[\d.]+z")
TITLE = re.compile(r"row (\d+)\b.*?: (\d+) to (\d+)(?:;|$)", re.DOTALL)
RUN_TITLE = re.compile(r"([\d,]+) rows of (.*): (\d+) to (\d+)$", re.DOTALL)
FOLD_TITLE = re.compile(r"(.*): ([\d,]+) rows?, ([\d,]+) ticks?, at most (\d+) at once; the chain goes through ([\d,]+) ticks?$", re.DOTALL)


class Drawing:
    """A drawing of plans, read back: its heading, and each part with the elements in it."""

    def __init__(self, svg):
        self.root = tree_of.fromstring(svg)
        self.style = self.root.find(f"{SPACE}style").text
        self.title = next(it.text for it in self.root.iter(f"{SPACE}text") if it.get("class") == "t")
        self.parts = []
        for element in self.root:
            if element.tag == f"{SPACE}text" and element.get("class") == "h":
                self.parts.append((element.text, []))
            elif self.parts:
                self.parts[-1][1].append(element)

    def part(self, begin):
        """The elements of the part whose heading begins so."""
        return next((elements for heading, elements in self.parts if heading.startswith(begin)), [])

    def heading(self, begin):
        return next((heading for heading, _ in self.parts if heading.startswith(begin)), "")


@dataclasses.dataclass
class DrawnBar:
    """A bar: its row, or None where it is of several; how many rows it is of; its ticks, its place and size in pixels, its colour, and the text in it."""

    row: int
    rows: int
    start: int
    end: int
    area: tuple
    colour: str
    word: object


def class_of(element):
    return element.get("class") or ""


def title_of(element):
    title = element.find(f"{SPACE}title")
    return "" if title is None else title.text or ""


def drawn_bars(elements):
    """The bars of a part."""
    bars = []
    for group in elements:
        title = title_of(group)
        of_row, of_rows = TITLE.match(title), RUN_TITLE.match(title)
        path = group.find(f"{SPACE}path")
        if group.tag != f"{SPACE}g" or path is None or not (of_row or of_rows):
            continue
        row, rows = (int(of_row[1]), 1) if of_row else (None, int(of_rows[1].replace(",", "")))
        start, end = (int(of_row[2]), int(of_row[3])) if of_row else (int(of_rows[3]), int(of_rows[4]))
        area = tuple(map(float, AREA.match(path.get("d")).groups()))
        bars.append(DrawnBar(row, rows, start, end, area, class_of(path), group.find(f"{SPACE}text")))
    return bars


def areas_of(elements, class_):
    """The rectangles of the paths of a class."""
    return [tuple(map(float, it)) for path in elements if class_of(path) == class_ for it in AREA.findall(path.get("d") or "")]


def labels_of(elements):
    """The labels of lanes as they are in a wide drawing, each with its height, as far as the legend."""
    found = []
    for it in elements:
        if it.tag == f"{SPACE}text" and class_of(it) in ("n", "n wide") and it.get("x") == "10":
            found.append((float(it.get("y")), it.text))
    return found


def x_of(tick, end):
    """Where a tick is."""
    return (AXIS_FROM + tick * AXIS // end) / 100


def is_near(one, other, by=0.011):
    return abs(one - other) <= by


def fault_of_area(bar, end, height):
    """A bar is exactly as long as its ticks, and begins where they do."""
    x, _, width, high = bar.area
    if not is_near(x, x_of(bar.start, end)) or not is_near(x + width, x_of(bar.end, end), 0.021) or not is_near(high, height):
        return f"row {bar.row} from {bar.start} to {bar.end} begins at {x}, and is {width} long and {high} high"
    return None


def steps_of(stretches):
    """From which tick on how many of these run."""
    changes = collections.Counter()
    for start, end in stretches:
        changes[start] += 1
        changes[end] -= 1
    steps, count = [], 0
    for tick in sorted(changes):
        count += changes[tick]
        if not steps or steps[-1][1] != count:
            steps.append((tick, count))
    return steps


def fault_of_steps(path, stretches, end, high):
    """A path is as high as many of these run, at each tick."""
    begin = re.match(r"M([\d.]+) ([\d.]+)", path.get("d"))
    foot = float(begin[2])
    found = [(float(x), foot - float(y)) for x, y in re.findall(r"H([\d.]+)V([\d.]+)", path.get("d"))]
    wanted = [(x_of(tick, end), high(count) / 100) for tick, count in steps_of(stretches)]
    if len(found) != len(wanted) or any(not is_near(a, c) or not is_near(b, d) for (a, b), (c, d) in zip(found, wanted)):
        return f"its steps are {found[:6]} in place of {wanted[:6]}"
    return None


def ranked(rows, defs):
    """The defs by rank: that of the first row, and then those with the most work."""
    work = collections.Counter()
    for row, own in zip(rows, defs):
        work[own] += row.ticks
    return sorted(work, key=lambda own: (own != defs[0], -work[own], own))


def fault_of_drawing(svg, rows, defs=None, names=None, starts=None):
    """The earliest plan is drawn: a bar for each row of up to 60, or else how many rows of each def run, and below them the chain."""
    drawing = Drawing(svg)
    defs = defs or [0] * len(rows)
    starts = starts or model.earliest_starts(rows)
    ends = model.ends_of(rows, starts)
    end = last_of(drawing, max(ends))
    elements = drawing.part("The earliest plan: ")
    if drawing.heading("The earliest plan: ") != f"The earliest plan: {rows_word(len(rows))}, work {sum(row.ticks for row in rows)}, span {max(ends)}":
        return f"its heading is {drawing.heading('The earliest plan: ')!r}"
    strips = sum(area[2] for area in areas_of(elements, "chain"))
    if abs(strips - max(ends) * AXIS / end / 100) > 14.1 + 0.02 * len(rows):
        return f"the chain is {strips} long"
    if len(rows) > 60:
        return fault_of_folds(elements, rows, defs, names, list(zip(starts, ends)), end)
    bars = drawn_bars(elements)
    if [(bar.row, bar.start, bar.end) for bar in bars] != list(zip(range(len(rows)), starts, ends)):
        return "its bars are not the rows of the plan"
    if len({bar.area[1] for bar in bars}) != len(rows):
        return "two rows share a lane"
    return next(filter(None, (fault_of_area(bar, end, BAR) for bar in bars)), None)


def rows_word(count):
    return "1 row" if count == 1 else f"{count} rows"


def last_of(drawing, span):
    """The last tick of all plans of a drawing: so far its axis goes."""
    return max([span] + [int(re.search(r": end (\d+), bound", heading)[1]) for heading, _ in drawing.parts if ": end " in heading])


def fault_of_folds(elements, rows, defs, names, runs, end):
    """Each lane is as high as many rows of its def run; the sixtieth is of all further ones."""
    ranks = ranked(rows, defs)
    place = {own: min(rank, 59) for rank, own in enumerate(ranks)}
    lanes = [[run for run, own in zip(runs, defs) if place[own] == lane] for lane in range(min(len(ranks), 60))]
    found = [path for path in elements if FOLD_TITLE.match(title_of(path))]
    if len(found) != len(lanes):
        return f"{len(found)} lanes in place of {len(lanes)}"
    most = [max(count for _, count in steps_of(lane)) for lane in lanes]
    labels = [label for _, label in labels_of(elements) if label.startswith("▸ ")]
    for lane, (path, own) in enumerate(zip(found, lanes)):
        title = FOLD_TITLE.match(title_of(path))
        numbers = [int(it.replace(",", "")) for it in title.groups()[1:4]]
        if numbers != [len(own), sum(end_ - start for start, end_ in own), most[lane]]:
            return f"lane {lane} is of {numbers}"
        if not labels[lane].endswith(f", {len(own)}") or names and lane < 59 and not labels[lane].startswith(f"▸ {names[ranks[lane]][:12]}"):
            return f"lane {lane} is called {labels[lane]!r}"
        fault = fault_of_steps(path, own, end, lambda count: count * ROWS_HIGH // max(sum(most), FEWEST_HIGH))
        if fault:
            return f"lane {lane}: {fault}"
    return None


def fault_of_lanes(bars):
    """No two bars of a part lie over each other."""
    bars = sorted(bars, key=lambda bar: (bar.area[1], bar.area[0]))
    for one, other in zip(bars, bars[1:]):
        if one.area[1] == other.area[1] and one.area[0] + one.area[2] > other.area[0] + 0.011:
            return f"rows {one.row} and {other.row} overlap"
    return None


def fault_of_workers_drawn(svg, begin, plan, workers, end, bound):
    """A plan on workers is drawn: of each row its start, end and worker, where it isn't one of several narrow ones of a def."""
    drawing = Drawing(svg)
    elements, bars = drawing.part(begin), drawn_bars(drawing.part(begin))
    word = "worker" if workers == 1 else "workers"
    if not drawing.heading(begin).endswith(f" {workers} {word}: end {end}, bound {bound}"):
        return f"its heading is {drawing.heading(begin)!r}"
    tops = {round(y - 14.5, 2): int(label.split()[1]) for y, label in labels_of(elements) if label.startswith("worker ")}
    if sorted(tops.values()) != list(range(workers)):
        return f"its lanes are {tops}"
    last = last_of(drawing, 0)
    rest = set(plan)
    for bar in bars:
        worker = tops.get(bar.area[1])
        if bar.row is not None and (bar.row, bar.start, bar.end, worker) not in rest:
            return f"row {bar.row} runs from {bar.start} to {bar.end} on {worker}"
        own = {it for it in rest if it[3] == worker and bar.start <= it[1] and it[2] <= bar.end and (bar.row is None or it[0] == bar.row)}
        if len(own) != bar.rows or sum(it[2] - it[1] for it in own) != bar.end - bar.start:
            return f"a bar from {bar.start} to {bar.end} on {worker} is of {len(own)} rows"
        rest -= own
        fault = fault_of_area(bar, max(last, int(re.search(r"span (\d+)", drawing.heading("The earliest plan: "))[1])), BAR)
        if fault:
            return fault
    if any(it[2] > it[1] and (it[2] - it[1]) * AXIS // last > 1 for it in rest):
        return f"{len(rest)} rows are missing"
    return fault_of_lanes(bars)


def cut(text, most):
    """A text, of which at most so many letters are there."""
    return text if len(text) <= most else text[:most - 1] + "…"


def waits_over(rows):
    """For each cown when rows wait for it: those that start at the end of the least row that shares a cown with them and ends then."""
    starts = model.earliest_starts(rows)
    ends = model.ends_of(rows, starts)
    waits = collections.defaultdict(list)
    for number, row in enumerate(rows):
        spawned = starts[row.parent] + row.offset if number else 0
        if spawned < starts[number]:
            after = next(it for it in range(number) if ends[it] == starts[number] and set(rows[it].cowns) & set(row.cowns))
            for cown in set(rows[after].cowns) & set(row.cowns):
                waits[cown].append((spawned, starts[number]))
    return waits


def fault_of_cowns_drawn(svg, rows, cowns):
    """Each cown has a lane, that which is held longest first: which row holds it when, and how many wait for it."""
    drawing = Drawing(svg)
    elements = drawing.part("The cowns: ")
    starts = model.earliest_starts(rows)
    ends = model.ends_of(rows, starts)
    end, waits = last_of(drawing, max(ends)), waits_over(rows)
    held = {cown: sum(row.ticks for row in rows if cown in row.cowns) for cown in range(len(cowns))}
    order = sorted((cown for cown in held if held[cown]), key=lambda cown: (-held[cown], cown))[:60]
    labels = [(y, label) for y, label in labels_of(elements)][:len(order)]
    if [label for _, label in labels] != [cut(cowns[cown], 25) for cown in order]:
        return f"its lanes are {labels}"
    bars = drawn_bars(elements)
    queues = {title_of(it).split(": ")[0]: it for it in elements if class_of(it) == "queue" and title_of(it)}
    for cown, (y, _) in zip(order, labels):
        name = cowns[cown]
        own = [bar for bar in bars if is_near(bar.area[1], y - 13.2)]
        wanted = sorted((starts[number], ends[number], number) for number, row in enumerate(rows) if cown in row.cowns)
        if sum(bar.rows for bar in own) != len(wanted) or sum(bar.end - bar.start for bar in own) != held[cown]:
            return f"{name}: {sum(bar.rows for bar in own)} rows hold it in place of {len(wanted)}"
        if any(bar.row is not None and (bar.start, bar.end, bar.row) not in wanted for bar in own):
            return f"{name}: a row holds it at another time"
        fault = next(filter(None, (fault_of_area(bar, end, HOLDERS) for bar in own)), None) or fault_of_lanes(own)
        if fault:
            return f"{name}: {fault}"
        if (name in queues) != bool(waits[cown]):
            return f"{name}: {len(waits[cown])} rows wait for it"
        if waits[cown]:
            most = max(count for _, count in steps_of(waits[cown]))
            if title_of(queues[name]) != f"{name}: up to {most} {'waits' if most == 1 else 'wait'}":
                return f"{name}: {title_of(queues[name])}"
            fault = fault_of_steps(queues[name], waits[cown], end, lambda count: count * QUEUE // most)
            if fault:
                return f"{name}: {fault}"
    return None


def fault_of_texts(svg):
    """No name reaches out of its bar, no label into the lanes, and no text out of the drawing."""
    drawing = Drawing(svg)
    for group in drawing.root.iter(f"{SPACE}g"):
        path, word = group.find(f"{SPACE}path"), group.find(f"{SPACE}text")
        if path is not None and word is not None and class_of(word).startswith("b "):
            x, _, width, _ = map(float, AREA.match(path.get("d")).groups())
            if float(word.get("x")) + len(word.text) * IN_BAR > x + width:
                return f"{word.text!r} reaches out of its bar"
    for word in drawing.root.iter(f"{SPACE}text"):
        class_, x = class_of(word), float(word.get("x"))
        letters = {"n": NARROW_LETTER, "n narrow": NARROW_LETTER, "n wide": LETTER, "t": TITLE_LETTER, "h": HEADING_LETTER}.get(class_)
        room = 216 if x == 10 and class_ in ("n", "n wide", "n narrow") else 1000
        if letters and x < 100 and x + len(word.text or "") * letters > room + 0.1:
            return f"{word.text!r} is {len(word.text) * letters} long"
    for _, elements in drawing.parts:
        for group in elements:
            for word in group.findall(f"{SPACE}text") if class_of(group) == "links" else []:
                long = len(word.text) * IN_BAR
                begin = float(word.get("x")) - (long if "e" in class_of(word).split() else 0)
                if begin < 216 or begin + long > 1000:
                    return f"{word.text!r} goes from {begin} on"
    return None


def contrast(one, other):
    """The contrast of two colours such as #4c78a8."""
    light = []
    for colour in (one, other):
        parts = [int(colour[at:at + 2], 16) / 255 for at in (1, 3, 5)]
        parts = [part / 12.92 if part <= 0.03928 else ((part + 0.055) / 1.055) ** 2.4 for part in parts]
        light.append(0.2126 * parts[0] + 0.7152 * parts[1] + 0.0722 * parts[2] + 0.05)
    return max(light) / min(light)


def fault_of_colours(svg):
    """A def's colour has a contrast of 3 to 1 with both papers, and the words on it of 4.5 to 1; so have all other words with the paper."""
    style = Drawing(svg).style
    colours = dict(re.findall(r"\.(c\d+)\{fill:(#\w{6})\}", style))
    if len(colours) != 27:
        return f"{len(colours)} colours"
    for name, colour in colours.items():
        ink = "#ffffff" if name == "c1" else "#000000"
        if min(contrast(colour, "#ffffff"), contrast(colour, "#14171a")) < 3 or contrast(colour, ink) < 4.5:
            return f"{name} is {colour}"
    light, dark = style.split("@media screen")
    for part, paper in ((light, "#ffffff"), (dark, "#14171a")):
        for colour in re.findall(r"(?:^|\n)(?:text|\.s[^{]*|\.r|\.links text)\{[^}]*?fill:(#\w{6})", part):
            if contrast(colour, paper) < 4.5:
                return f"words in {colour} on {paper}"
    return None


def fault_of_def_colours(svg, rows, defs, is_program):
    """The bars of a def have one colour, by its rank: main of a program has none of the hues, and the greyer ones come again."""
    ranks = ranked(rows, defs)
    ranks = ranks[1:] if is_program else ranks
    wanted = {own: f"c{rank + 1 if rank < 26 else (rank - 10) % 16 + 11}" for rank, own in enumerate(ranks)}
    drawing = Drawing(svg)
    for _, elements in drawing.parts:
        for bar in drawn_bars(elements):
            if bar.row is not None and bar.colour != wanted.get(defs[bar.row], "c0"):
                return f"row {bar.row} is {bar.colour}"
            if bar.word is not None and class_of(bar.word) != ("b w" if bar.colour == "c1" else "b k"):
                return f"the name of row {bar.row} is {class_of(bar.word)}"
    return None


def drawings(program, view, pictures):
    chance = random.Random(5)
    many = fan(300, lambda number: (chance.randrange(4),), lambda number: chance.randrange(1, 30))
    records = [(record_of(rows), rows) for rows in random_records(1, DRAWN)] + [(fan_text(4, many), many)]
    for number, ((_, rows), drawn) in enumerate(zip(records, drawn_of(view, [record for record, _ in records], "2"))):
        yield f"plan: {number}", fault_of_drawing(drawn[0], rows)
        yield from pictures_of(str(number), drawn, rows, pictures)
    examples = [(name, program.example(name)) for name in sorted(os.listdir(program.examples)) if name.endswith(".boc")]
    examples = [(name, text) for name, text in examples if program.run(["run"], text).status == 0]
    for (name, text), drawn in zip(examples, drawn_of(view, [text for _, text in examples], "4")):
        yield f"plan: {name}", fault_of_xml(drawn[0])
        yield f"plan: {name}: its texts are in their places", next(filter(None, map(fault_of_texts, drawn[:2])), None)
        yield from pictures_of(name, drawn, rows_of(program.run(["run"], text).output)[0], pictures)
    for path, command in (("docs/transfer.svg", ["plan", "transfer.boc"]), ("docs/pipeline.html", ["page", "pipeline.boc"])):
        with open(os.path.join(TOP, path), "rb") as file:
            yield path, fault_of(done(file.read()), view.run([command[0], os.path.join(program.examples, command[1])]))


def drawn_of(view, sources, workers):
    """Of each of these inputs the plan, the plan for so many workers, the curve and the page. They are drawn side by side."""
    commands = [["plan"], ["plan", "--p", workers], ["curve"], ["page"]]
    with ThreadPoolExecutor() as pool:
        return list(pool.map(lambda source: [view.run(command, source).output for command in commands], sources))


def pictures_of(name, drawn, rows, pictures):
    """What is drawn of an input is looked at, and kept."""
    plan, plan_for_workers, curve, page = drawn
    yield f"plan: {name} for workers", fault_of_xml(plan_for_workers)
    yield f"curve: {name}", fault_of_xml(curve)
    yield f"page: {name}", fault_of_page(page, rows)
    pictures.keep_drawing(f"plan: {name}", plan)
    pictures.keep_drawing(f"plan: {name} for workers", plan_for_workers)
    pictures.keep_drawing(f"curve: {name}", curve)
    pictures.keep_page(f"page: {name}", page)


def fault_of_xml(text):
    """It is one element, with no script, no font and no picture from outside."""
    try:
        tree_of.fromstring(text)
    except tree_of.ParseError as error:
        return f"it is no XML: {error}"
    rest = text.replace(b"http://www.w3.org/2000/svg", b"")
    if b"http" in rest or b"url(" in rest or b"<script" in rest or b"@import" in rest:
        return "it takes something from outside, or has a script"
    return None


def read_by_xmllint(program, view, pictures):
    """xmllint reads all drawings and all pages, in a few runs, and refuses each one that is broken."""
    xmllint = command_of("libxml2-utils", "xmllint")
    if xmllint is None:
        print("note: no drawing and no page was read by xmllint, since there is none and its package can't be had", flush=True)
        return
    transfer = program.example("transfer.boc")
    drawing, page = view.run(["plan"], transfer).output, view.run(["page"], transfer).output
    for what, texts, faults_of, whole, changes in (("drawings", pictures.drawings, faults_of_drawings, drawing, BROKEN_DRAWINGS),
                                                   ("pages", pictures.pages, faults_of_pages, page, BROKEN_PAGES)):
        faults = faults_of(xmllint, [text for _, text in texts])
        for (name, _), fault in zip(texts, faults):
            if fault is not None:
                yield f"xmllint: {name}", fault
        yield f"xmllint: {len(texts)} {what}", None if len(texts) > DRAWN else "there are too few"
        broken = [whole.replace(old, new, 1) for old, new in changes]
        for change, text, fault in zip(changes, broken, faults_of(xmllint, broken)):
            yield f"xmllint: {what} with {change}", "nothing stands there" if text == whole else "it was taken" if fault is None else None


def faults_of_drawings(xmllint, texts):
    """What xmllint says of each of these drawings."""
    return said_by(xmllint, [], texts)


def faults_of_pages(xmllint, texts):
    """What xmllint says of each of these pages, as HTML, and as XML, which alone asks for an end of each element. A script has signs that XML doesn't take."""
    bare = [re.sub(rb"(?<=<script>).*(?=</script>)", b"", text, flags=re.DOTALL) for text in texts]
    return [one or other for one, other in zip(said_by(xmllint, ["--html"], texts), said_by(xmllint, [], bare))]


def said_by(xmllint, options, texts):
    """The first line of what xmllint says of each of these texts, which it reads in one run; None of one that it takes."""
    with tempfile.TemporaryDirectory() as folder:
        for number, text in enumerate(texts):
            with open(os.path.join(folder, str(number)), "wb") as file:
                file.write(text)
        run = subprocess.run([xmllint, *options, "--noout", *map(str, range(len(texts)))], cwd=folder, capture_output=True, check=False)
    said = [None] * len(texts)
    for line in run.stderr.decode(errors="replace").splitlines():
        found = re.match(r"(\d+):(\d+: .*)", line)
        if found and not OF_A_DRAWING.search(line) and said[int(found.group(1))] is None:
            said[int(found.group(1))] = f"line {found.group(2)}"
    return said if any(said) or run.returncode == 0 else [f"xmllint ended with {run.returncode}: {run.stderr[:80]}"] * len(texts)


def data_of(page):
    """The data block of a page."""
    return json.loads(re.search(rb'<script type="application/json" id="data">(.*?)</script>', page, re.DOTALL).group(1))


def fault_of_page(text, rows):
    """Its drawing is XML, its data block has the rows and their plan, no sign of HTML is in it, and nothing comes from outside."""
    if len(drawings_of(text)) != 1:
        return f"{len(drawings_of(text))} drawings"
    if fault_of_xml(drawings_of(text)[0]):
        return fault_of_xml(drawings_of(text)[0])
    if re.search(rb"https?:", text.replace(b"http://www.w3.org/2000/svg", b"")) or b"src=" in text:
        return "it takes something from outside"
    data, starts = data_of(text), model.earliest_starts(rows)
    block = re.search(rb'id="data">(.*?)</script>', text, re.DOTALL).group(1)
    if re.search(rb"[<>&\x00-\x1f]", block):
        return "a sign that means something in HTML is in its data block"
    columns = {"parent": [row.parent for row in rows], "offset": [row.offset for row in rows], "ticks": [row.ticks for row in rows],
               "holds": [list(row.cowns) for row in rows], "start": starts, "chain": [int(line.split()[0]) for line in model.chain(rows, starts)]}
    wrong = [key for key, column in columns.items() if data[key] != column]
    return f"its {wrong[0]} is another one" if wrong else None


# How many rows drawings are made of in which defs have names, and of how many defs and cowns.
FOLDED = [(4, 2, 1), (40, 5, 3), (60, 7, 4), (61, 5, 4), (150, 12, 9), (400, 75, 20)]


def a_shop(count, defs, cowns, seed):
    """Rows by chance, the number of the def of each, the names of these, and the file of all names."""
    chance = random.Random(seed)
    rows = fan(count, lambda _: sorted(chance.sample(range(cowns), chance.randrange(1, min(cowns, 3) + 1))), lambda _: chance.randrange(1, 30), 3 * count)
    own = [0] + [chance.randrange(1, defs) for _ in range(1, count)]
    first = {it: place for place, it in enumerate(dict.fromkeys(own))}
    own = [first[it] for it in own]
    names = ["main"] + [f"def{number}{'_of_the_shop' * (number % 3)}" for number in range(1, defs)]
    lines = [f"= {row} {names[it]}" + (f" {chance.randrange(99)} stock" if row else "") for row, it in enumerate(own)]
    called = [f"cown{cown}{'_that_is_held_by_many' * (cown % 2)}" for cown in range(cowns)]
    lines += [f"@ {cown} {name}" for cown, name in enumerate(called)]
    return rows, own, names, called, "".join(f"{line}\n" for line in lines).encode()


def folds(view, pictures):
    """Rows have lanes up to 60 of them, and defs beyond; bars have names and the colours of their defs; and cowns have lanes with their queues."""
    for number, (count, defs, cowns) in enumerate(FOLDED):
        rows, own, names, called, file = a_shop(count, defs, cowns, number)
        record = fan_text(cowns, rows)
        plan, more = (view.run_beside(["plan", *words_], "--names", file, record) for words_ in ([], ["-p", "3", "--cowns"]))
        again = view.run_beside(["plan", "-p", "3", "--cowns"], "--names", file, record)
        lines = [line.split() for line in model.greedy_lines(rows, 3)]
        greedy = [tuple(map(int, line)) for line in lines[1:-1]]
        for name, fault in (("rows", fault_of_drawing(plan.output, rows, own, names)), ("rows with more", fault_of_drawing(more.output, rows, own, names)),
                            ("workers", fault_of_workers_drawn(more.output, "The greedy plan", greedy, 3, int(lines[-1][1]), int(lines[-1][3]))),
                            ("cowns", fault_of_cowns_drawn(more.output, rows, called)), ("texts", fault_of_texts(more.output)),
                            ("contrast", fault_of_colours(plan.output)), ("colours", fault_of_def_colours(more.output, rows, own, False)),
                            ("the same each time", None if again == more else "it is another one")):
            yield f"plan: {count} named rows: {name}", fault
        pictures.keep_drawing(f"plan: {count} named rows", more.output)
        shared = view.run_beside(["plan", "--cowns", "--shared-reads"], "--names", file, record).output
        bars = drawn_bars(Drawing(shared).part("The cowns: "))
        held = sum(len(row.cowns) for row in rows)
        yield f"plan: {count} named rows: shared reads", fault_of_lanes(bars) or (None if sum(bar.rows for bar in bars) == held else "a holder is missing")


def many_rows(view):
    """Above 200 rows a note says what is for so many; the drawing is there nevertheless."""
    for count in (199, 200, 201, 4_000):
        record = fan_text(1, fan(count, lambda _: (0,)))
        note = f"boc: note: {count} rows are many for a drawing: see boc-view page\n".encode() if count > 200 else b""
        for words_, noted in ((["plan"], note), (["plan", "--cowns"], note), (["text"], b""), (["curve"], b""), (["page"], b""), (["trace"], b"")):
            answer = view.run(words_, record)
            fault = fault_of(done(answer.output, noted), answer) or (None if answer.output else "nothing is drawn")
            yield f"{words_}: the note on {count} rows", fault


def titles(view):
    """A drawing is called by its file, and by how the program was run; its size is that of what shows it."""
    pipeline, record = (os.path.join(view.examples, name) for name in ("pipeline.boc", "transfer.record"))
    runs = [([pipeline], "pipeline.boc", None), (["-w", "4", "--seed", "3", pipeline], "pipeline.boc", "4 workers, seed 3"),
            (["-w2", "--seed", "3", "--depth", "2", pipeline], "pipeline.boc", "2 workers, seed 3, depth 2"),
            (["--timed", "-w", "1", pipeline], "pipeline.boc", "timed on 1 worker"), (["--timed", "-p4", pipeline], "pipeline.boc", "timed on 4 workers"),
            ([record], "transfer.record", None),
            (["--record", record, os.path.join(view.examples, "transfer.boc")], "transfer.boc", "the run in transfer.record")]
    for words_, title, run in runs:
        for command in ("plan", "curve"):
            svg = view.run([command, *words_]).output
            drawing = Drawing(svg)
            found = [it.text for it in drawing.root.findall(f"{SPACE}text") if class_of(it) in ("t", "s") and it.get("x") == "10"][:2 if run else 1]
            wanted = [title, run] if run else [title]
            label = drawing.root.get("aria-label")
            fault = None if found == wanted and label.endswith(", ".join(wanted)) else f"it is {found}, {label!r}"
            yield f"{command}: the title with {words_[:-1]}", fault
            size = (drawing.root.get("width"), drawing.root.get("height"), drawing.root.get("viewBox").split()[:3])
            wide = "1000" if command == "plan" else "720"
            yield f"{command}: the size with {words_[:-1]}", None if size == ("100%", None, ["0", "0", wide]) else f"it is {size}"
    timed = view.run(["plan", "--timed", "-w", "2", pipeline]).output
    yield "plan: the timed run", None if Drawing(timed).heading("The timed run on 2 workers: end ") else "it is missing"
    for command in (["curve"], ["curve", "-p", "2"]):
        svg = view.run([*command, pipeline]).output.decode()
        above = "" if command == ["curve"] else ", above"
        yield f"{command}: the roof", None if f">parallelism 2.18{above}</text>" in svg and ('"roof"' in svg) else "it is missing"


# Names of files that mean something in XML, or nothing on paper, and how they are drawn.
HOSTILE = [("<b>&\"'.boc", "<b>&\"'.boc"), ("]]><script>", "]]><script>"), ("a\x01\x1b[0m\x7f", "a??[0m?"),
           ("stra\u00dfe \u2013 \u20ac", "stra\u00dfe \u2013 \u20ac"),
           ("c\u0085\u009b\uffff\ufffe", "c????"), ("\u00e9" * 70, "\u00e9" * 59 + "\u2026"), ("--><!--", "--><!--"), ("&amp;", "&amp;")]


def hostile_names(view, pictures):
    """Names of files, rows and cowns are text in a drawing, whatever they are."""
    source, names = view.example("transfer.record"), b"= 0 <script>alert(1)</script>\n= 1 '\"&lt; ]]>\n@ 0 <!--&'\"-->\n"
    with tempfile.TemporaryDirectory() as folder:
        for name, shown in HOSTILE:
            path = os.path.join(folder, name)
            with open(path, "wb") as file:
                file.write(source)
            for command in (["plan", "--cowns", "-p", "2"], ["curve"]):
                answer = view.run([*command, path])
                fault = fault_of_xml(answer.output) or (None if Drawing(answer.output).title == shown else f"it is {Drawing(answer.output).title!r}")
                yield f"{command[0]}: a file called {name!r}", fault
                pictures.keep_drawing(f"{command[0]}: a file called {name!r}", answer.output)
    answer = view.run_beside(["plan", "--cowns", "-p", "2"], "--names", names, source)
    svg = answer.output
    yield "plan: hostile names", fault_of_xml(svg)
    pictures.keep_drawing("plan: hostile names", svg)
    texts = [it.text for it in Drawing(svg).root.iter(f"{SPACE}text")]
    yield "plan: they are text", None if "<!--&'\"-->" in texts and "0 <script>alert…" in texts and b"<script" not in svg else f"they are {texts}"


def sizes(view):
    """Twice the rows take at most twice the bytes, and a little."""
    shapes = (("one def over one cown", lambda count: fan_text(1, fan(count, lambda _: (0,), lambda _: 3)), lambda _: b""),
              ("rows of many defs", lambda count: fan_text(9, fan(count, lambda it: (it % 9,), lambda it: it % 40 + 1)),
               lambda count: "".join(f"= {row} def{row} {row}\n" for row in range(count)).encode()))
    for name, record, names in shapes:
        for words_ in (["plan"], ["plan", "--cowns", "-p", "4"]):
            lengths = [len(view.run_beside(words_, "--names", names(count), record(count)).output) for count in (2_000, 4_000)]
            inputs = [len(record(count)) + len(names(count)) for count in (2_000, 4_000)]
            fault = None if lengths[1] < 2.2 * lengths[0] + 9_000 and lengths[1] < 20 * inputs[1] + 9_000 else f"{lengths} bytes of {inputs}"
            yield f"{words_}: the size of {name}", fault


def traces(view):
    for number, rows in enumerate(random_records(2, RANDOM)):
        yield f"trace: {number}", fault_of_trace(view.run(["trace", "--p", "3"], record_of(rows)).output, rows)


def fault_of_trace(text, rows):
    """Its events of each plan add up to the work, those of a thread don't overlap, and arrows go along the chain."""
    events = json.loads(text)["traceEvents"]
    work = sum(row.ticks for row in rows)
    for process in (1, 2):
        own = [it for it in events if it["ph"] == "X" and it["pid"] == process]
        if sum(it["dur"] for it in own) != work or sorted(it["args"]["row"] for it in own) != list(range(len(rows))):
            return f"process {process} is no plan of the rows"
        threads = collections.defaultdict(list)
        for it in own:
            threads[it["tid"]].append((it["ts"], it["ts"] + it["dur"]))
        if any(one[1] > other[0] for lane in threads.values() for one, other in zip(sorted(lane), sorted(lane)[1:])):
            return f"two events of a thread of process {process} overlap"
    starts = model.earliest_starts(rows)
    if {(it["args"]["row"], it["ts"]) for it in events if it["ph"] == "X" and it["pid"] == 1} != set(enumerate(starts)):
        return "the first process is not the earliest plan"
    arrows = [it for it in events if it["ph"] == "f"]
    links = model.chain(rows, starts)
    return None if len(arrows) == len(links) - 1 else f"{len(arrows)} arrows along a chain of {len(links)} rows"


def names_that_mean_something(view, pictures):
    """What means something in XML or JSON is escaped."""
    record = record_of([model.Row(0, 0, (), 4), model.Row(0, 1, (0,), 2), model.Row(0, 2, (0,), 2)])
    for command in ("plan", "curve", "page"):
        output = view.run_beside([command], "--names", NAMES, record).output
        for drawing in drawings_of(output):
            yield f"{command}: names are escaped", fault_of_xml(drawing)
        keep = pictures.keep_page if command == "page" else pictures.keep_drawing
        keep(f"{command}: names are escaped", output)
        yield f"{command}: no raw name", "it stands there" if b"<start>" in output or b"<c>" in output else None
    events = json.loads(view.run_beside(["trace"], "--names", NAMES, record).output)["traceEvents"]
    names = {it["name"] for it in events if it["ph"] == "X"}
    yield "trace: names are escaped", None if "a\\b(1; <c>)" in names or any(it.startswith("a\\b") for it in names) else f"they are {names}"


def words(view):
    for words_ in (["text", "--depth", "2"], ["plan", "--p", "65"], ["plan", "--workers", "17"], ["picture"], ["curve", "--cowns"], ["page", "--cowns"],
                   ["text", "--width", "39"]):
        answer = view.run(words_)
        yield f"words: {words_}", None if answer.status == 2 and not answer.output and answer.errors else f"the answer {answer}"
    yield "a faulty program", fault_of(refused(3, "boc: line 1: 5 UnknownName"), view.run(["plan"], b"main { x = 1; }"))
    yield "a faulty record", fault_of(refused(3, "boc: line 1: 1 Header"), view.run(["text"], b"boc 9\n"))
    told = b"     main { x = 1; }\n            ^\n     no parameter or `let` of this body is called `x`\n     declare a local with `let x = ..;`\n"
    for words_ in (["plan"], ["page"], ["text", "--cowns"]):
        answer = view.run(words_, b"main { x = 1; }")
        yield f"{words_}: what is told of a fault", None if answer.errors == b"boc: line 1: 5 UnknownName\n" + told else f"it is {answer.errors}"
    answer = view.run(["plan", "--names", "/no/such"], b"main { }")
    yield "no file", None if answer.status == 5 and not answer.output and b"/no/such" in answer.errors else f"the answer {answer}"
    race = b"cown a = 1; def one(; x) { x = x + 1; } def two(; x) { x = x * 2; } def go(; x) { when two(; x); } main { when go(; a); when one(; a); }"
    seeds = [view.run(["text", "--workers", "4", "--seed", str(seed)], race) for seed in range(4)]
    again = [view.run(["text", "--workers", "4", "--seed", str(seed)], race) for seed in range(4)]
    yield "a seed brings its picture back", None if seeds == again and all(it.status == 0 for it in seeds) else "it does not"


def called(answer, name):
    """An answer with this name of a file in place of that of standard input, but in the script of a page."""
    return dataclasses.replace(answer, output=answer.output.replace(b"standard input", name).replace(b"=== '" + name + b"'", b"=== 'standard input'"))


def operands(view):
    """A file behind the picture is read in place of standard input, and the short options are the long ones. A page is called by its file."""
    transfer, record = (os.path.join(view.examples, name) for name in ("transfer.boc", "transfer.record"))
    for command in ("text", "plan", "curve", "page", "trace"):
        wanted, of_record = (view.run([command], view.example(name)) for name in ("transfer.boc", "transfer.record"))
        yield f"{command}: - is standard input", fault_of(wanted, view.run([command, "-"], view.example("transfer.boc")))
        yield f"{command}: a file", fault_of(called(wanted, b"transfer.boc"), view.run([command, transfer], b"main { ? }"))
        yield f"{command}: a record in a file", fault_of(called(of_record, b"transfer.record"), view.run([command, record]))
        for path, why in (("/no/such", "No such file or directory (os error 2)"), (view.examples, "Is a directory (os error 21)")):
            yield f"{command}: {path}", fault_of(refused(5, f"boc-view: {path}: {why}"), view.run([command, path], b"main { }"))
    yield "text: a file and its record", fault_of(done(TRANSFER), view.run(["text", "--record", record, transfer]))
    yield "text: a faulty file", fault_of(refused(3, "boc: line 1: 5 UnknownName"), view.run_beside(["text"], "--", b"main { x = 1; }"))
    yield "plan: -p", fault_of(view.run(["plan", "--p", "3", transfer]), view.run(["plan", "-p", "3", transfer]))
    words_ = ["text", "--seed", "7", transfer]
    yield "text: -w", fault_of(view.run(["text", "--workers", "4", *words_[1:]]), view.run(["text", "-w4", *words_[1:]]))
    for words_ in (["plan", transfer, transfer], ["plan", "-w", "17"], ["plan", "-p", "0"], ["plan", "-x"]):
        answer = view.run(words_)
        yield f"words: {words_}", None if answer.status == 2 and not answer.output and answer.errors else f"the answer {answer}"
    tree = view.example("tree.boc")
    for words_, note in ((["plan", "-p4"], b"4 workers the span is 166"), (["text", "-p16"], b"16 workers the span is 158"), (["text", "--curve", "-p4"], b""),
                         (["plan", "-p4", "-w2"], b""), (["trace", "-p4", "--timed"], b"")):
        line = b"boc: note: timed on " + note + b": see --timed\n" if note else b""
        answer = view.run(words_, tree)
        yield f"{words_}: the note on a timed run", fault_of(done(answer.output, line), answer)
    help_ = view.run(["plan", "--help"]).output
    yield "help names the file", None if b"[FILE]" in help_ and b"-w, --workers" in help_ and b"-p, --p" in help_ else f"it is {help_}"


def the_most_rows():
    """As many rows as there may be, and their record."""
    chance = random.Random(7)
    rows = fan(65_535, lambda number: (chance.randrange(256),), lambda number: chance.randrange(1, 1000))
    return rows, fan_text(256, rows)


def at_the_limit(view):
    """As many rows as there may be: within ten megabytes, and two seconds on a machine that does nothing else."""
    rows, record = the_most_rows()
    begun = time.monotonic()
    output = view.run(["plan"], record).output
    seconds = time.monotonic() - begun
    yield "plan: 65,535 rows, bytes", None if len(output) < 10_000_000 and output.endswith(b"</svg>\n") else f"{len(output)} bytes"
    yield "plan: 65,535 rows, seconds", None if seconds < 20 else f"{seconds:.1f} s"
    yield "plan: 65,535 rows", fault_of_drawing(output, rows)
    for command in (["text"], ["text", "--cowns"], ["text", "--p", "4"], ["trace"], ["page"]):
        answer = view.run(command, record)
        yield f"{command}: 65,535 rows", None if answer and answer.status == 0 else f"it answered {answer and answer.errors}"
    in_turn = fan_text(1, fan(65_535, lambda _: (0,), lambda _: 3))
    for kind, chain in (("over one cown", in_turn), ("that spawn each other", tower_text(tower(65_535)))):
        for command in (["plan"], ["plan", "--p", "4"], ["page"], ["trace"]):
            begun = time.monotonic()
            answer = view.run(command, chain)
            seconds = time.monotonic() - begun
            yield f"{command}: a chain of 65,535 rows {kind}", None if answer and answer.status == 0 and seconds < 3 else f"{seconds:.1f} s"


def wants(view):
    """A full disk is told, and each request for memory refused in turn."""
    source = view.example("transfer.record")
    commands = [["text"], ["text", "--cowns"], ["text", "--p", "2"], ["text", "--curve"], ["plan", "--p", "2", "--cowns"], ["curve"], ["page"],
                ["trace", "--p", "2"]]
    with tempfile.TemporaryDirectory() as folder:
        library = os.path.join(folder, "refuse.so")
        fault = memory.build(library)
        yield "the library that refuses requests", fault
        for command in commands:
            with open("/dev/full", "wb") as full:
                yield f"{command}: a full disk", fault_of(DEVICE, view.run(command, source, stdout=full))
            if fault is None:
                yield f"{command}: each request refused", memory.fault_of_refusals(view, library, command, source, view.run(command, source))
        command = ["text", os.path.join(view.examples, "transfer.record")]
        if fault is None:
            yield f"{command}: each request refused", memory.fault_of_refusals(view, library, command, b"", view.run(command))
