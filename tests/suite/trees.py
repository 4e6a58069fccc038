"""Sweeps of trees of rows, some of which only read, beside the spans of the rows with one of them changed, each computed from scratch."""
from . import model
from .hot_cowns import Row, exclusive, freed
from .records import lines_text, spawn_line
from .running import done, fault_of

# Three rows each, and the spans where the second, and where the last, is spawned as early as it can be. Main takes 30 ticks, and the last row ends the plan as
# it is. In the first it follows its elder sibling at tick 6, and in the second it waits for that one's end at tick 15. In the third it is spawned at tick 40 of
# a row that starts at tick 20, and then either of them at tick 1 of its parent.
EARLY = [
    ([Row(0, 0, (), 30, ()), Row(0, 5, (0,), 10, (0,)), Row(0, 25, (1,), 40, (1,))], (65, 46)),
    ([Row(0, 0, (), 30, ()), Row(0, 5, (0,), 10, (0,)), Row(0, 25, (0,), 40, (0,))], (65, 55)),
    ([Row(0, 0, (), 30, ()), Row(0, 20, (0,), 50, (0,)), Row(1, 40, (1,), 30, (1,))], (71, 70)),
]

# So many trees are swept whole; of the greatest one the spans are told of these rows.
TREES = 100
MOST_ROWS = 65535
SOME = [0, 1, 255, 32768, 65534]


def cases(program):
    yield from early_rows(program)
    yield from trees(program)
    yield from greatest_tree(program)


def early_rows(program):
    for number, (rows, spans) in enumerate(EARLY):
        expected = done(model.text(f"{row} {span}" for row, span in enumerate(spans, 1)))
        yield f"early rows {number}", fault_of(expected, program.run(["sweep", "--spawns"], serial_text(2, rows)))


def trees(program):
    """Trees of rows, some of which only read: each sweep tells the spans of the rows with one of them changed, or without a cown."""
    for seed in range(1, TREES):
        count = 1 + seed % 9
        rows = tree(10 + seed, count, seed * 31, 1 + seed % 3)
        source = serial_text(count + 1, rows)
        for words, seen in (([], exclusive(rows)), (["--shared-reads"], rows)):
            yield f"tree {seed}: {words}", fault_of(done(swept(seen, range(len(seen)))), program.run(["sweep", *words], source))
            spans = model.text(f"{cown} {span(freed(seen, cown))}" for cown in range(count + 1))
            yield f"tree {seed}: --cowns {words}", fault_of(done(spans), program.run(["sweep", "--cowns", *words], source))
            least = model.least_offsets(seen)
            spans = model.text(f"{row} {span(model.moved(seen, row, least[row]))}" for row in range(1, len(seen)))
            yield f"tree {seed}: --spawns {words}", fault_of(done(spans), program.run(["sweep", "--spawns", *words], source))


def greatest_tree(program):
    """A tree of as many rows as there may be, of which some are told."""
    rows = tree(MOST_ROWS, 200, 77, 1)
    source = serial_text(201, rows)
    for words, seen in (([], exclusive(rows)), (["--shared-reads"], rows)):
        answer = program.run(["sweep", *words], source)
        lines = answer.output.splitlines(keepends=True)
        some = b"".join(lines[row] for row in SOME) if len(lines) == MOST_ROWS else b""
        yield f"the greatest tree: {words}", None if some == swept(seen, SOME) else f"it told {some}"


def tree(count, cowns, seed, gap):
    """Rows that spawn two others each, so far apart, where there are so many rows. A row needs one cown or the next too, and wrote none, the lower, or all."""
    rows = [Row(0, 0, (), 7, ())]
    for number in range(1, count):
        seed = seed % 65521 * 2609 % 65521 + 1
        needed = (seed % cowns, seed % cowns + 1)[:1 if seed % 3 == 0 else 2]
        written = () if seed % 4 else needed[:1] if seed % 5 == 0 else needed
        rows.append(Row((number - 1) // 2, gap * (1 + (number - 1) % 2), needed, 2 * gap + seed // 7 % 23, written))
    return rows


def serial_text(cowns, rows):
    """The record of a run in which each row starts behind the end of the one before, spawns its children and ends."""
    children = [[] for _ in rows]
    for number, row in enumerate(rows[1:], 1):
        children[row.parent].append(spawn_line(number, row).rstrip("\n"))
    lines = [f"boc 2 {cowns}", "+ 0 0 0"]
    for number, row in enumerate(rows):
        lines += [f"> {number}", *children[number], " ".join(map(str, ["<", number, row.ticks, 0, *row.written]))]
    return lines_text(lines + ["."])


def span(rows):
    """The tick at which the earliest plan ends: a row waits for those before it on its cowns, but a reader for no other reader."""
    starts, used, written = [], {}, {}
    ends = []
    for number, row in enumerate(rows):
        spawned = starts[row.parent] + row.offset if number else 0
        starts.append(max([spawned] + [(used if cown in row.written else written).get(cown, 0) for cown in row.cowns]))
        ends.append(starts[-1] + row.ticks)
        for cown in row.cowns:
            used[cown] = max(used.get(cown, 0), ends[-1])
        for cown in row.written:
            written[cown] = max(written.get(cown, 0), ends[-1])
    return max(ends)


def swept(rows, numbers):
    """The lines of a sweep of rows, for these of them."""
    least = model.least_ticks(rows)
    return model.text(f"{row} {span(model.edited(rows, row, least[row]))}" for row in numbers)
