"""What `cowns` tells, computed plainly from the rows of a record and the names of its cowns."""
from typing import NamedTuple, Tuple

from . import advice
from .why import Names, bound_line, table

MOST = 75
HEADS = ["cown", "rows", "wrote", "held", "of span", "waited", "chain", "without"]


class Row(NamedTuple):
    parent: int
    offset: int
    cowns: Tuple[int, ...]
    ticks: int
    written: Tuple[int, ...]


def rows_of(record):
    """The rows of a record's text, and how many cowns it has. In version 1 a row wrote all that it had."""
    lines = record.splitlines()
    _, version, cowns = lines[0].split(" ")
    rows = []
    for line in lines[1:]:
        sign, *words = line.split(" ")
        numbers = [int(word) for word in words]
        if sign == "+":
            rows.append(Row(numbers[1], numbers[2], tuple(numbers[3:]), 0, ()))
        elif sign == "<":
            row = rows[numbers[0]]
            rows[numbers[0]] = row._replace(ticks=numbers[1], written=row.cowns if version == "1" else tuple(numbers[3:]))
    return rows, int(cowns)


def exclusive(rows):
    """The rows as they are where to have a cown is to write it."""
    return [row._replace(written=row.cowns) for row in rows]


def bare(rows):
    """The rows as if none had a cown."""
    return [row._replace(cowns=(), written=()) for row in rows]


def freed(rows, cown):
    """The rows of which none has the cown."""
    return [row._replace(cowns=tuple(own for own in row.cowns if own != cown), written=tuple(own for own in row.written if own != cown))
            for row in rows]


def conflicts(one, other):
    """The cowns that both rows have, and of which one of them wrote each."""
    return {cown for cown in set(one.cowns) & set(other.cowns) if cown in one.written or cown in other.written}


class Earliest:
    """The earliest plan: when each row is spawned, starts and ends, each at the later of its spawn and the ends of the rows in conflict before it."""

    def __init__(self, rows):
        self.rows, self.spawned, self.starts, self.ends, self.after = rows, [], [], [], []
        having, writing = {}, {}
        for number, row in enumerate(rows):
            before = set()
            for cown in row.cowns:
                before.update((having if cown in row.written else writing).get(cown, ()))
                having.setdefault(cown, []).append(number)
                if cown in row.written:
                    writing.setdefault(cown, []).append(number)
            spawned = self.starts[row.parent] + row.offset if number else 0
            busy = max((self.ends[other] for other in before), default=0)
            self.spawned.append(spawned)
            self.starts.append(max(spawned, busy))
            self.ends.append(self.starts[-1] + row.ticks)
            self.after.append(min(other for other in before if self.ends[other] == busy) if busy > spawned else None)

    def span(self):
        return max(self.ends)

    def chain(self):
        """The rows of the chain, from the last back to main, each with the row behind it that it hands cowns to, if it does."""
        row, steps = self.ends.index(self.span()), []
        while row:
            before = self.after[row]
            if before is None:
                row = self.rows[row].parent
            else:
                steps.append((before, row))
                row = before
        return steps


def span(rows):
    return Earliest(rows).span()


def hot_cowns(rows, count, shared):
    """For each cown its number, how many rows have it and how many wrote it, how long one row alone holds it and how long it is waited for, the chain's
    ticks through it, the span without it, and a tick before which no row that wrote it starts; those that are held longest first."""
    seen = rows if shared else exclusive(rows)
    plan = Earliest(seen)
    alone = Earliest(bare(seen)).starts
    waited, through = [0] * count, [0] * count
    for number, after in enumerate(plan.after):
        if after is not None:
            for cown in conflicts(seen[after], seen[number]):
                waited[cown] += plan.starts[number] - plan.spawned[number]
    for before, after in plan.chain():
        for cown in conflicts(seen[before], seen[after]):
            through[cown] += seen[before].ticks
    hot = []
    for cown in range(count):
        own = [row for row in rows if cown in row.cowns]
        wrote = sum(cown in row.written for row in own)
        held = sum(row.ticks for row in own if cown in row.written or not shared)
        first = min((alone[number] for number, row in enumerate(seen) if cown in row.written), default=0)
        hot.append((cown, len(own), wrote, held, waited[cown], through[cown], span(freed(seen, cown)), first))
    return sorted(hot, key=lambda cown: (-cown[3], cown[0]))


def verdict(names, whole, spawns, hot):
    if not hot or spawns * 100 >= MOST * whole:
        return f"spawns: they alone need {spawns} of {whole} ticks; spawn earlier, or do less"
    cown, held = hot[0][0], hot[0][3]
    if held * 100 >= MOST * whole:
        return f"load: {names[cown]} is held {held} of {whole} ticks; split it, or shorten what holds it"
    last = max(hot, key=lambda own: own[3] + own[7])
    if (last[3] + last[7]) * 100 >= MOST * whole + (100 - MOST) * spawns:
        return (f"load: {names[last[0]]} is held {last[3]} of {whole} ticks, none of them before tick {last[7]}; "
                "spawn earlier, split it, or shorten what holds it")
    return f"order: no cown is held for more than {held} of {whole} ticks; another order of the behaviours may end sooner"


def shared_reads(names, shared, hot):
    """What shared reads would bring."""
    line = f"with --shared-reads the span is {shared}"
    cown, rows, wrote = hot[0][:3]
    return line + f": {rows - wrote} of the {rows} rows of {names[cown]} only read it" if wrote < rows else line


def without_lines(names, whole, told, ends):
    """A line for each of these cowns, with the greedy end without it where there are such ends."""
    lines = [HEADS + ([] if ends is None else ["end without"])]
    for cown, having, wrote, held, waited, through, left, _ in told:
        lines.append([names[cown], str(having), str(wrote), str(held), f"{held * 100 // whole}%", str(waited), str(through), str(left)])
        lines[-1] += [] if ends is None else [str(ends[cown])]
    return table("l" + "r" * (len(lines[0]) - 1), lines)


def cowns_text(record, called=None, shared=False, top=None, workers=None):
    """The text that `cowns` writes for a record's text: all cowns, or the first so many. The names are those of its rows and cowns; without them these are
    called by their numbers."""
    rows, count = rows_of(record)
    called = called or Names(len(rows), count)
    names = called.cowns
    seen = rows if shared else exclusive(rows)
    hot = hot_cowns(rows, count, shared)
    whole, spawns, reads = span(seen), span(bare(seen)), span(rows)
    ends = {cown: advice.greedy_end(freed(seen, cown), workers) for cown in range(count)} if workers else None
    told = (sorted(hot, key=lambda own: ends[own[0]]) if workers else hot)[:top]
    lines = without_lines(names, whole, told, ends)
    more = count - len(told)
    if more:
        lines.append(f".. and {more} more cown" + ("s" if more > 1 else ""))
    lines += advice.cowns_together(seen, called, workers)
    lines.append(f"span {whole}; by spawns alone {spawns}" + (f"; busiest cown {hot[0][3]}" if hot else ""))
    lines.append(verdict(names, whole, spawns, hot))
    lines.append(bound_line(spawns, [(own[3], own[7]) for own in sorted(hot)], names, shared))
    lines += advice.order_lines(seen, called)
    if workers:
        end = advice.greedy_end(seen, workers)
        lines += [advice.head_line(seen, workers, end), advice.verdict_line(seen, workers, end)]
    if not shared and reads < whole:
        lines.append(shared_reads(names, reads, hot))
    return "".join(line + "\n" for line in lines)
