"""Greedy plans beside ones that are made tick by tick, and the sweep over a wide fan."""
import random

from . import model
from .records import fan, fan_text, lines_text, spawn_line
from .running import done, fault_of

# Records of random rows, from this seed.
SEED = 20240229
RECORDS = 500

# Two children that share nothing, and one that waits for both; its rows as they are run, one after the other.
TWO_AND_ONE = [model.Row(0, 0, (), 4), model.Row(0, 2, (0,), 3), model.Row(0, 3, (1,), 2), model.Row(0, 4, (0, 1), 1)]


# Rows whose greedy plan for 3 workers ends later than that for 2.
RISING = [
    model.Row(0, 0, (), 7), model.Row(0, 2, (0,), 3), model.Row(1, 3, (1,), 11), model.Row(2, 1, (), 1), model.Row(2, 2, (3,), 3),
    model.Row(2, 6, (3,), 16), model.Row(4, 1, (), 3), model.Row(5, 3, (1, 2, 3), 1), model.Row(2, 8, (0, 3), 2),
    model.Row(6, 1, (1, 2, 3), 5), model.Row(5, 7, (0,), 1), model.Row(0, 6, (), 5), model.Row(2, 11, (2, 3), 1),
    model.Row(11, 3, (1, 2, 3), 5),
]


def ticked(rows, workers):
    """The starts and workers of the greedy plan, looked for at every tick: ended rows free their workers, and then the least
    rows that are ready go to the least free workers."""
    starts, places = [None] * len(rows), [None] * len(rows)
    before = [[other for other in range(number) if set(rows[other].cowns) & set(rows[number].cowns)] for number in range(len(rows))]
    tick = 0
    while None in starts:
        busy = {places[number] for number, start in enumerate(starts) if start is not None and start + rows[number].ticks > tick}
        for number, row in enumerate(rows):
            if starts[number] is not None or len(busy) == workers:
                continue
            is_spawned = number == 0 or starts[row.parent] is not None and starts[row.parent] + row.offset <= tick
            if is_spawned and all(starts[it] is not None and starts[it] + rows[it].ticks <= tick for it in before[number]):
                starts[number] = tick
                places[number] = min(set(range(workers)) - busy)
                busy.add(places[number])
        tick += 1
    return starts, places


def ticked_report(rows, workers):
    """The report on rows whose greedy plan is made tick by tick."""
    starts, places = ticked(rows, workers)
    ends = model.ends_of(rows, starts)
    lines = [f"greedy {workers}"] + [f"{number} {starts[number]} {ends[number]} {places[number]}" for number in range(len(rows))]
    bound = sum(row.ticks for row in rows) // workers + model.span(rows)
    return model.report(rows) + model.text(lines + [f"end {max(ends)} bound {bound}"])


def random_rows(chance):
    """Up to 14 rows that spawn one another, over up to 4 cowns."""
    rows, last = [model.Row(0, 0, (), 1)], [0]
    for number in range(1, chance.randint(1, 14)):
        parent = chance.randrange(number)
        offset = last[parent] + chance.randint(1, 4)
        last[parent] = offset
        last.append(0)
        cowns = tuple(sorted(chance.sample(range(4), chance.choice([0, 1, 1, 1, 2, 2, 3]))))
        rows.append(model.Row(parent, offset, cowns, 1))
    return [row._replace(ticks=max(1, last[number] + chance.choice([0, 0, 1, 2, 5, 9]))) for number, row in enumerate(rows)]


def record_of(rows):
    """The text of a record of these rows, in which every row that spawns stays under way until its last child is spawned; or None
    where two rows that share a cown would have to be under way at once."""
    last_child = [max([number] + [child for child, row in enumerate(rows) if child and row.parent == number]) for number in range(len(rows))]
    lines, started, ended = ["boc 1 4"], set(), set()

    def start(number):
        shared = set(rows[number].cowns)
        for other in range(number):
            if other not in ended and shared & set(rows[other].cowns):
                if other not in started and not start(other):
                    return False
                if last_child[other] > spawned[0]:
                    return False
                end(other)
        started.add(number)
        lines.append(f"> {number}")
        return True

    def end(number):
        ended.add(number)
        lines.append(f"< {number} {rows[number].ticks} 0")

    spawned = [0]
    lines.append("+ 0 0 0")
    for number in range(1, len(rows)):
        parent = rows[number].parent
        if parent not in started and not start(parent):
            return None
        if parent in ended:
            return None
        lines.append(spawn_line(number, rows[number]).rstrip("\n"))
        spawned[0] = number
    spawned[0] = len(rows)
    for number in range(len(rows)):
        if number not in started:
            start(number)
        if number not in ended:
            end(number)
    return lines_text(lines + ["."])


def cases(program):
    yield from greedy_plans(program)
    yield "a sweep over 2,500 rows", fault_of_wide_sweep(program)


def greedy_plans(program):
    """The rows of worked examples, and random ones."""
    ends = [model.greedy_end(RISING, number) for number in (2, 3)]
    yield "the end rises", None if ends == [41, 42] else f"the ends are {ends}"
    for name, rows in [
        ("two and one", TWO_AND_ONE),
        ("four squares", fan(5, lambda number: (number - 1,), lambda number: 8, 5)[:1]
         + [model.Row(0, number + 1, (number - 1,), 8) for number in range(1, 5)]),
        ("an end that rises", RISING),
        ("no cowns", [model.Row(0, 0, (), 3), model.Row(0, 2, (), 4), model.Row(0, 3, (), 4)]),
    ]:
        yield from plans_of(program, name, rows, range(1, 9))
    chance, made = random.Random(SEED), 0
    while made < RECORDS:
        rows = random_rows(chance)
        if record_of(rows) is not None:
            made += 1
            yield from plans_of(program, f"random rows {made}", rows, [chance.randint(1, 8)])
            yield from changes_of(program, chance, f"random rows {made}", rows)


def plans_of(program, name, rows, workers):
    source = record_of(rows)
    for number in workers:
        expected = done(ticked_report(rows, number))
        yield f"{name}, {number} workers", fault_of(expected, program.run(["profile", "--p", str(number)], source))
        swept = program.run(["sweep", "--p", str(number)], source)
        yield f"{name}, swept for {number} workers", fault_of(done(model.greedy_sweep(rows, number)), swept)
        freed = program.run(["sweep", "--cowns", "--p", str(number)], source)
        yield f"{name}, its cowns swept for {number} workers", fault_of(done(model.cown_sweep(rows, 4, number)), freed)
    freed = program.run(["sweep", "--cowns"], source)
    yield f"{name}, its cowns swept", fault_of(done(model.cown_sweep(rows, 4)), freed)
    moved = program.run(["sweep", "--spawns"], source)
    yield f"{name}, its spawns swept", fault_of(done(model.spawn_sweep(rows)), moved)
    drawn = program.run(["curve", "--p", "8"], source)
    yield f"{name}, up to 8 workers", fault_of(done(model.curve(rows, 8)), drawn)


def changes_of(program, chance, name, rows):
    """The report on rows of which up to two cowns are left out and some are edited, by chance."""
    words, after = ["whatif", "--p", "2"], rows
    for cown in chance.sample(range(4), chance.randrange(3)):
        words += ["--without", str(cown)]
        after = model.without(after, cown)
    for _ in range(chance.randint(1, 5)):
        word, after = random_edit(chance, after)
        words.append(word)
    answer = program.run(words, record_of(rows))
    yield f"{name}: {' '.join(words)}", fault_of(done(model.report(after, 2)), answer)


def random_edit(chance, rows):
    """The word of an edit that fits, of one of the three kinds, and the rows after it."""
    number, kind = chance.randrange(len(rows)), chance.choice("=@/")
    if kind == "=":
        ticks = model.least_ticks(rows)[number] + chance.choice([0, 0, 1, 2, 5, 9])
        return f"{number}={ticks}", model.edited(rows, number, ticks)
    if kind == "@" and number:
        offset = chance.randint(model.least_offsets(rows)[number], model.most_offset(rows, number))
        return f"{number}@{offset}", model.moved(rows, number, offset)
    over, under = chance.randint(1, 9), chance.randint(1, 9)
    return f"{number}={over}/{under}", model.scaled(rows, number, over, under)


def fault_of_wide_sweep(program):
    """Main spawns row R at its tick R + 1, and the last row takes 5 ticks in place of one."""
    rows = [model.Row(0, 0, (), 2500)] + [model.Row(0, number + 1, (), 5 if number == 2499 else 1) for number in range(1, 2500)]
    assert model.span(rows) == 2505
    expected = model.text(f"{number} {2501 if number == 2499 else 2505}" for number in range(2500))
    return fault_of(done(expected), program.run(["sweep"], fan_text(0, rows)))
