"""What several cowns gain at once, a better order, and what is told for a number of workers, computed plainly from rows and their names.

Rows are as plans see them: where cowns are exclusive, each row wrote all its cowns.
"""
import heapq
from typing import NamedTuple, Tuple

MOST_LISTED = 20
MOST_TRIED = 20
NEARLY = 75
MOST = 90
ROUNDS, KEPT = 3, 3


class Row(NamedTuple):
    parent: int
    offset: int
    cowns: Tuple[int, ...]
    ticks: int
    written: Tuple[int, ...]


def seen(rows):
    """Rows that have no written cowns, as rows that wrote all of theirs."""
    return [Row(row.parent, row.offset, tuple(row.cowns), row.ticks, tuple(row.cowns)) for row in rows]


def conflicts(one, other):
    return sorted(cown for cown in set(one.cowns) & set(other.cowns) if cown in one.written or cown in other.written)


def starts_of(rows):
    """The earliest plan."""
    starts, having, writing = [], {}, {}
    for number, row in enumerate(rows):
        start = starts[row.parent] + row.offset if number else 0
        for cown in row.cowns:
            start = max(start, (having if cown in row.written else writing).get(cown, 0))
        starts.append(start)
        for cown in row.cowns:
            having[cown] = max(having.get(cown, 0), start + row.ticks)
            if cown in row.written:
                writing[cown] = max(writing.get(cown, 0), start + row.ticks)
    return starts


def ends_of(rows, starts):
    return [start + row.ticks for start, row in zip(starts, rows)]


def span(rows):
    return max(ends_of(rows, starts_of(rows)))


def greedy(rows, workers):
    """The starts of the greedy plan, and the worker that each row is on, looked for at each tick at which something can change."""
    before = [[a for a in range(b) if conflicts(rows[a], rows[b])] for b in range(len(rows))]
    starts, places, tick = [None] * len(rows), [None] * len(rows), 0
    while None in starts:
        busy = {places[a] for a, start in enumerate(starts) if start is not None and start + rows[a].ticks > tick}
        for b, row in enumerate(rows):
            if starts[b] is not None or len(busy) == workers:
                continue
            spawned = b == 0 or starts[row.parent] is not None and starts[row.parent] + row.offset <= tick
            if spawned and all(starts[a] is not None and starts[a] + rows[a].ticks <= tick for a in before[b]):
                starts[b], places[b] = tick, min(set(range(workers)) - busy)
                busy.add(places[b])
        begun = [a for a, start in enumerate(starts) if start is not None]
        later = [starts[a] + rows[a].ticks for a in begun] + [starts[row.parent] + row.offset for row in rows[1:] if starts[row.parent] is not None]
        tick = min([it for it in later if it > tick], default=tick + 1)
    return starts, places


def greedy_end(rows, workers):
    return max(ends_of(rows, greedy(rows, workers)[0]))


def steps_of(rows, starts, places=None):
    """The chain of a plan, from main: rows, what leads on from each, and what it weighs. The plan is greedy where rows have places on workers."""
    ends = ends_of(rows, starts)
    row = ends.index(max(ends))
    steps = [(row, ("end",), rows[row].ticks)]
    while row:
        parent = rows[row].parent
        if starts[parent] + rows[row].offset == starts[row]:
            steps.append((parent, ("spawn", parent), rows[row].offset))
        else:
            handing = [a for a in range(row) if ends[a] == starts[row] and conflicts(rows[a], rows[row])]
            if handing:
                steps.append((handing[0], ("cowns", tuple(conflicts(rows[handing[0]], rows[row]))), rows[handing[0]].ticks))
            else:
                freed = [a for a in range(len(rows)) if ends[a] == starts[row] and places[a] == places[row]]
                steps.append((freed[0], ("worker",), rows[freed[0]].ticks))
        row = steps[-1][0]
    return steps[::-1]


class Chain:
    """A chain with its shares: `links` names a spawn by its def."""

    def __init__(self, rows, names, starts, places=None):
        self.steps = steps_of(rows, starts, places)
        self.links = [("spawn", names.defs[row]) if link[0] == "spawn" else link for row, link, _ in self.steps]
        self.weights = [weight for _, _, weight in self.steps]
        self.end = sum(self.weights)
        self.by_def = self.shares([names.defs[row] for row, _, _ in self.steps])
        self.by_link = [(self.links[place], ticks, count) for place, ticks, count in self.shares([self.links.index(link) for link in self.links])]

    def shares(self, keys):
        """For each key how much its steps weigh, and how many they are; those that weigh most first."""
        totals = {}
        for key, weight in zip(keys, self.weights):
            ticks, count = totals.get(key, (0, 0))
            totals[key] = (ticks + weight, count + 1)
        return sorted(((key, *total) for key, total in totals.items()), key=lambda share: (-share[1], share[0]))

    def handed(self, names):
        return {names.families[cown] for link in self.links if link[0] == "cowns" for cown in link[1]}

    def sets(self, names):
        """The families that links hand on together, each set once, the heaviest first, and of equal ones the one that comes first."""
        weights = {}
        for link, weight in zip(self.links, self.weights):
            if link[0] == "cowns":
                mine = tuple(sorted({names.families[cown] for cown in link[1]}))
                weights[mine] = weights.get(mine, 0) + weight
        return sorted(weights, key=lambda mine: (-weights[mine], mine))[:MOST_TRIED]


def earliest_chain(rows, names):
    return Chain(rows, names, starts_of(rows))


def greedy_chain(rows, names, workers):
    return Chain(rows, names, *greedy(rows, workers))


# ---- changes: ("half", def), ("without", families), ("early", def)


def without(rows, names, families):
    gone = {cown for cown, family in enumerate(names.families) if family in families}
    return [row._replace(cowns=tuple(cown for cown in row.cowns if cown not in gone),
                         written=tuple(cown for cown in row.written if cown not in gone)) for row in rows]


def halved(rows, names, def_of):
    rows, last = list(rows), [0] * len(rows)
    for number, row in enumerate(rows[1:], start=1):
        if names.defs[row.parent] == def_of:
            last[row.parent] = max((row.offset + 1) // 2, last[row.parent] + 1)
            rows[number] = row._replace(offset=last[row.parent])
    return [row._replace(ticks=max((row.ticks + 1) // 2, last[number])) if names.defs[number] == def_of else row for number, row in enumerate(rows)]


def early(rows, names, def_of):
    rows, last = list(rows), [0] * len(rows)
    for number, row in enumerate(rows[1:], start=1):
        if names.defs[row.parent] == def_of:
            last[row.parent] += 1
            rows[number] = row._replace(offset=last[row.parent])
    return rows


def changed(rows, names, change):
    return {"half": halved, "without": without, "early": early}[change[0]](rows, names, change[1])


def families_text(names, families):
    return " and ".join(names.family_names[family] for family in families)


def change_text(names, change):
    kind, what = change
    if kind == "without":
        return "without " + families_text(names, what)
    return names.def_names[what] + " at 1/2" if kind == "half" else "early spawns by " + names.def_names[what]


def each_once(things):
    return list(dict.fromkeys(things))


def tried(names, chains):
    """What is tried for some chains."""
    half = each_once(key for chain in chains for key, _, _ in chain.by_def[:MOST_TRIED])
    spawners = each_once(def_of for chain in chains for def_of in [link[1] for link, _, _ in chain.by_link if link[0] == "spawn"][:MOST_TRIED])
    alone = [(family,) for family in sorted(set().union(*(chain.handed(names) for chain in chains)))]
    sets = each_once(mine for chain in chains for mine in chain.sets(names) if len(mine) > 1)
    return [("half", key) for key in half] + [("without", mine) for mine in alone + sets] + [("early", key) for key in spawners]


def is_within(small, large):
    return small[0] == large[0] == "without" and set(small[1]) < set(large[1])


def told(changes, gains):
    """All but a set within which a smaller one gains nearly as much by each measure."""
    return [place for place, change in enumerate(changes)
            if not any(is_within(other, change) and all(a * 100 >= NEARLY * b for a, b in zip(gains[small], gains[place]))
                       for small, other in enumerate(changes))]


# ---- several cowns at once


def looked_at(rows, names):
    """The sets that are looked at, each with the span without it."""
    found, front = {(): span(rows)}, [()]
    for _ in range(ROUNDS):
        new = []
        for base in front:
            for more in earliest_chain(without(rows, names, base), names).sets(names):
                mine = tuple(sorted(set(base) | set(more)))
                if mine not in found:
                    found[mine] = span(without(rows, names, mine))
                    new.append(mine)
        front = sorted(new, key=lambda mine: (found[mine], len(mine), mine))[:KEPT]
    return found


def best_sets(rows, names):
    found, best = looked_at(rows, names), []
    for size in range(2, max(map(len, found)) + 1):
        own = sorted((left, mine) for mine, left in found.items() if len(mine) == size)
        if own and all(own[0][0] < left for mine, left in found.items() if len(mine) < size):
            best.append(own[0][1])
    return best


def table(sides, lines):
    """Texts in columns, each on its side, two blanks between them, and none at the end of a line."""
    widths = [max(len(line[column]) for line in lines) for column in range(len(sides))]
    return ["  ".join(text.ljust(width) if side == "l" else text.rjust(width) for side, width, text in zip(sides, widths, line)).rstrip(" ")
            for line in lines]


def listed(lines):
    """The first lines of a list, behind two blanks, and how many more there are."""
    rest = [[f"  {len(lines) - MOST_LISTED} more"] + [""] * (len(lines[0]) - 1)] if len(lines) > MOST_LISTED else []
    return [["  " + line[0]] + [str(cell) for cell in line[1:]] for line in lines[:MOST_LISTED]] + rest


def together_lines(rows, names, sets, workers=None):
    """The table of several cowns at once."""
    lines = []
    for mine in sets + [None]:
        left = without(rows, names, set(names.families) if mine is None else mine)
        ends = [span(left)] if workers is None else [greedy_end(left, workers), span(left)]
        lines.append(["every cown" if mine is None else families_text(names, mine)] + ends)
    head = ["several cowns at once"] + ([] if workers is None else ["end without"]) + ["without"]
    return table("l" + "r" * (len(head) - 1), [head] + listed(lines))


# ---- a better order


def eager_starts(rows):
    """Whatever can start does: at each tick at which something can change, in the order of their numbers."""
    starts, waiting, changes = [None] * len(rows), [0], []
    children = [[] for _ in rows]
    for number, row in enumerate(rows[1:], start=1):
        children[row.parent].append(number)
    held, tick = {}, 0
    while waiting or changes:
        for number in sorted(waiting):
            row = rows[number]
            if all(set(held.get(cown, {}).values()) <= (set() if cown in row.written else {False}) for cown in row.cowns):
                starts[number] = tick
                waiting.remove(number)
                for cown in row.cowns:
                    held.setdefault(cown, {})[number] = cown in row.written
                heapq.heappush(changes, (tick + row.ticks, "end", number))
                for child in children[number]:
                    heapq.heappush(changes, (tick + rows[child].offset, "spawn", child))
        if changes:
            tick = changes[0][0]
        while changes and changes[0][0] == tick:
            _, kind, number = heapq.heappop(changes)
            if kind == "spawn":
                waiting.append(number)
            else:
                for cown in rows[number].cowns:
                    del held[cown][number]
    return starts


def order_lines(rows, names):
    """Where that ends before the span, when, and where it first goes otherwise."""
    starts = eager_starts(rows)
    end = max(ends_of(rows, starts))
    if end >= span(rows):
        return []
    _, ahead, passed, cown = min((starts[b], b, a, conflicts(rows[a], rows[b])[0]) for b in range(len(rows)) for a in range(b)
                                 if starts[b] < starts[a] and conflicts(rows[a], rows[b]))
    one, other = (f"row {row}" if names.rows[row] == f"row {row}" else f"row {row}, {names.rows[row]}" for row in (ahead, passed))
    comma = "," if ", " in one else ""
    return [f"a better order ends at {end}: start whatever can start; it differs first at {names.cowns[cown]}, where {one}{comma} comes before {other}"]


# ---- for a number of workers


def count_text(workers):
    return f"{workers} worker" + ("" if workers == 1 else "s")


def head_line(rows, workers, end):
    work = sum(row.ticks for row in rows)
    share = -(-work // workers)
    return (f"{count_text(workers)}   end {end}   least {max(share, span(rows))}   work/{workers} {share}   "
            f"busy {work * 100 // (workers * end)}%")


def verdict_line(rows, workers, end):
    share, whole = -(-sum(row.ticks for row in rows) // workers), span(rows)
    if share * 100 >= MOST * end:
        return (f"workers: the work alone takes {count_text(workers)} {share} of {end} ticks; "
                f"a change that leaves the work as it is saves at most {end - share}")
    if whole * 100 >= MOST * end:
        return f"chain: the critical path takes {whole} of {end} ticks; more workers save " + (f"at most {end - whole}" if end > whole else "nothing")
    least = max(share, whole)
    return (f"plan: neither the work nor the critical path takes more than {least} of {end} ticks; "
            f"earlier spawns or another order may save up to {end - least}")


def candidate_lines(rows, names, chains, workers):
    """The table of the candidates, and the sets of cowns that stand in it."""
    changes, was = tried(names, chains), [chain.end for chain in chains]
    left = [changed(rows, names, change) for change in changes]
    ends = [[span(own)] if workers is None else [greedy_end(own, workers), span(own)] for own in left]
    now = was if workers is None else [was[1], was[0]]
    gains = [[before - after for before, after in zip(now, own)] for own in ends]
    places = sorted(told(changes, gains), key=lambda place: ends[place][0])
    lines = [[change_text(names, changes[place])] + [cell for pair in zip(ends[place], gains[place]) for cell in pair] for place in places]
    head = ["candidates", "span", "less"] if workers is None else [f"candidates for {count_text(workers)}", "end", "less", "span", "less"]
    return table("l" + "r" * (len(head) - 1), [head] + listed(lines)), [changes[place][1] for place in places if changes[place][0] == "without"]


def advice_lines(rows, names, chains, workers):
    """The candidates, and several cowns at once that aren't among them."""
    lines, out = candidate_lines(rows, names, chains, workers)
    if any(chain.handed(names) for chain in chains):
        lines += together_lines(rows, names, [mine for mine in best_sets(rows, names) if mine not in out], workers)
    return lines


def cowns_together(rows, names, workers=None):
    """The table that `cowns` has."""
    chain = earliest_chain(rows, names)
    if not chain.handed(names):
        return []
    sets = each_once([mine for mine in chain.sets(names) if len(mine) > 1] + best_sets(rows, names))
    return together_lines(rows, names, sets, workers)


def steps_text(rows, names, most, workers=None):
    """What `why --then` writes."""
    lines = [f"rows {len(rows)}   work {sum(row.ticks for row in rows)}   span {span(rows)}"]
    if workers is not None:
        lines.append(head_line(rows, workers, greedy_end(rows, workers)))
    made, told_steps = [], []
    while len(made) < most:
        chains = [earliest_chain(rows, names)] + ([] if workers is None else [greedy_chain(rows, names, workers)])
        now = [chain.end for chain in chains][::-1]
        changes = [change for change in tried(names, chains) if change not in made]
        left = [changed(rows, names, change) for change in changes]
        ends = [[span(own)] if workers is None else [greedy_end(own, workers), span(own)] for own in left]
        gains = [[now[0] - own[0]] for own in ends]
        places = [place for place in told(changes, gains) if gains[place][0] > 0]
        if not places:
            break
        best = min(places, key=lambda place: ends[place][0])
        made.append(changes[best])
        told_steps.append([f"{len(made)}  {change_text(names, changes[best])}"]
                          + [cell for before, after in zip(now, ends[best]) for cell in (after, before - after)])
        rows = left[best]
    head = ["steps", "span", "less"] if workers is None else [f"steps for {count_text(workers)}", "end", "less", "span", "less"]
    lines += ["", *table("l" + "r" * (len(head) - 1), [head] + listed(told_steps))]
    return lines + (["no further change that was tried saves anything"] if len(made) < most else [])
