"""Plans, chains and reports as docs/COMMANDS.md defines them, computed plainly from the rows of a record."""
import heapq
from collections import deque
from typing import NamedTuple, Tuple


class Row(NamedTuple):
    parent: int
    offset: int
    cowns: Tuple[int, ...]
    ticks: int


def earliest_starts(rows):
    """The starts of the earliest plan: each row at the later of its spawn and the latest end on its cowns."""
    starts, latest_ends = [], {}
    for number, row in enumerate(rows):
        spawned = starts[row.parent] + row.offset if number else 0
        start = max([spawned] + [latest_ends.get(cown, 0) for cown in row.cowns])
        starts.append(start)
        for cown in row.cowns:
            latest_ends[cown] = start + row.ticks
    return starts


def ends_of(rows, starts):
    return [start + row.ticks for start, row in zip(starts, rows)]


def span(rows):
    return max(ends_of(rows, earliest_starts(rows)))


def chain(rows, starts):
    """The lines of the chain, led back from the least row that ends at the span.

    A spawn is taken where it is tight, else the order behind the least row that is.
    """
    ends = ends_of(rows, starts)
    least_ending = {}
    for number, row in enumerate(rows):
        for cown in row.cowns:
            least_ending.setdefault((cown, ends[number]), number)
    row = ends.index(max(ends))
    lines = [f"{row} end {rows[row].ticks}"]
    while row != 0:
        parent, offset = rows[row].parent, rows[row].offset
        if starts[parent] + offset == starts[row]:
            row = parent
            lines.append(f"{row} spawn {offset}")
        else:
            tight = [(cown, starts[row]) for cown in rows[row].cowns if (cown, starts[row]) in least_ending]
            row = min(least_ending[key] for key in tight)
            lines.append(f"{row} order {rows[row].ticks}")
    return lines[::-1]


class Greedy:
    """The greedy plan: at each tick the least ready rows go to the least free workers."""

    def __init__(self, rows, workers):
        self.rows = rows
        self.starts = [None] * len(rows)
        self.workers = [None] * len(rows)
        self.free = list(range(workers))
        self.spawned = [False] * len(rows)
        self.ready = []
        self.children = [[] for _ in rows]
        for number, row in enumerate(rows[1:], start=1):
            self.children[row.parent].append(number)
        self.queues = {}
        for number, row in enumerate(rows):
            for cown in row.cowns:
                self.queues.setdefault(cown, deque()).append(number)
        self.changes = []
        self.make()

    def make(self):
        self.spawn(0)
        self.start_ready(0)
        while self.changes:
            tick = self.changes[0][0]
            while self.changes and self.changes[0][0] == tick:
                _, kind, number = heapq.heappop(self.changes)
                if kind == "end":
                    self.end(number)
                else:
                    self.spawn(number)
            self.start_ready(tick)

    def spawn(self, number):
        self.spawned[number] = True
        self.see(number)

    def end(self, number):
        heapq.heappush(self.free, self.workers[number])
        for cown in self.rows[number].cowns:
            queue = self.queues[cown]
            queue.popleft()
            if queue:
                self.see(queue[0])

    def see(self, number):
        """A row is ready where it is spawned, and first on each of its cowns."""
        if self.spawned[number] and all(self.queues[cown][0] == number for cown in self.rows[number].cowns):
            heapq.heappush(self.ready, number)

    def start_ready(self, tick):
        while self.free and self.ready:
            number = heapq.heappop(self.ready)
            self.starts[number] = tick
            self.workers[number] = heapq.heappop(self.free)
            heapq.heappush(self.changes, (tick + self.rows[number].ticks, "end", number))
            for child in self.children[number]:
                heapq.heappush(self.changes, (tick + self.rows[child].offset, "spawn", child))


def greedy_lines(rows, workers):
    greedy = Greedy(rows, workers)
    ends = ends_of(rows, greedy.starts)
    lines = [f"greedy {workers}"]
    for number in range(len(rows)):
        lines.append(f"{number} {greedy.starts[number]} {ends[number]} {greedy.workers[number]}")
    bound = sum(row.ticks for row in rows) // workers + span(rows)
    return lines + [f"end {max(ends)} bound {bound}"]


def greedy_end(rows, workers):
    return max(ends_of(rows, Greedy(rows, workers).starts))


def text(lines):
    return "".join(line + "\n" for line in lines).encode()


def report(rows, workers=None):
    """The text of the report on these rows, with the greedy plan where a number of workers is given."""
    starts = earliest_starts(rows)
    ends = ends_of(rows, starts)
    lines = [f"rows {len(rows)}", f"work {sum(row.ticks for row in rows)}", f"span {max(ends)}", "chain"]
    lines += chain(rows, starts) + ["plan"]
    lines += [f"{number} {starts[number]} {ends[number]}" for number in range(len(rows))]
    return text(lines + (greedy_lines(rows, workers) if workers else []))


def edited(rows, number, ticks):
    """The rows with these ticks in one of them."""
    return rows[:number] + [rows[number]._replace(ticks=ticks)] + rows[number + 1:]


def least_ticks(rows):
    """For each row the least ticks that it can take: its last child's offset, and at least 1."""
    least = [1] * len(rows)
    for row in rows[1:]:
        least[row.parent] = max(least[row.parent], row.offset)
    return least


def moved(rows, number, offset):
    """The rows with one of them spawned at this tick of its parent."""
    return rows[:number] + [rows[number]._replace(offset=offset)] + rows[number + 1:]


def scaled(rows, number, over, under):
    """The rows of which one costs over / under of what it did, and spawns its children so much sooner or later."""
    rows, last = list(rows), 0
    for child in range(number + 1, len(rows)):
        if rows[child].parent == number:
            last = max(-(-rows[child].offset * over // under), last + 1)
            rows[child] = rows[child]._replace(offset=last)
    ticks = max(1, -(-rows[number].ticks * over // under), last)
    return edited(rows, number, ticks)


def without(rows, cown):
    """The rows, none of which has this cown."""
    return [row._replace(cowns=tuple(other for other in row.cowns if other != cown)) for row in rows]


def least_offsets(rows):
    """For each row the earliest tick of its parent that it can be spawned at: behind its elder sibling. Main has none."""
    least, last = [0], [0] * len(rows)
    for row in rows[1:]:
        least.append(last[row.parent] + 1)
        last[row.parent] = row.offset
    return least


def most_offset(rows, number):
    """The latest tick of its parent that a row can be spawned at: before its younger sibling, or the parent's last."""
    younger = [row.offset - 1 for row in rows[number + 1:] if row.parent == rows[number].parent]
    return min(younger + [rows[rows[number].parent].ticks])


def cown_sweep(rows, count, workers=None):
    """The text of the sweep over so many cowns, for the span, or by greedy plans where a number of workers is given."""
    left = [without(rows, cown) for cown in range(count)]
    return text(f"{cown} {greedy_end(those, workers) if workers else span(those)}" for cown, those in enumerate(left))


def spawn_sweep(rows):
    """The text of the sweep over spawns, each of its lines computed from scratch."""
    least = least_offsets(rows)
    return text(f"{number} {span(moved(rows, number, least[number]))}" for number in range(1, len(rows)))


def sweep(rows):
    """The text of the sweep over rows, each of its lines computed from scratch."""
    least = least_ticks(rows)
    return text(f"{number} {span(edited(rows, number, least[number]))}" for number in range(len(rows)))


def greedy_sweep(rows, workers):
    """The text of the sweep over rows by greedy plans for so many workers, each of them made from scratch."""
    least = least_ticks(rows)
    return text(f"{number} {greedy_end(edited(rows, number, least[number]), workers)}" for number in range(len(rows)))


def curve(rows, most=64):
    """The text of the curve of these rows: for each number of workers the end of the greedy plan, and what it lies between."""
    work, least = sum(row.ticks for row in rows), span(rows)
    lines = [f"work {work}", f"span {least}"]
    for workers in range(1, most + 1):
        lines.append(f"{workers} {greedy_end(rows, workers)} {max(least, -(-work // workers))} {work // workers + least}")
    return text(lines)


def sweep_of_apart(rows):
    """The text of the sweep over main and children of it that have no cowns, so that none waits for another."""
    least, ends = least_ticks(rows), [row.offset + row.ticks for row in rows]
    greatest, second = sorted(ends)[:-3:-1]
    lines = []
    for number, row in enumerate(rows):
        others = second if ends[number] == greatest else greatest
        lines.append(f"{number} {max(others, row.offset + least[number])}")
    return text(lines)
