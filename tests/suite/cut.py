"""`cut`: windows of streams, compared with those of a plain model on random streams, and with what is promised of them.

A stream is the lines of a record without a record's limits, and may stop between any two of them. docs/COMMANDS.md says what a window keeps, and what is
noted of it. The model keeps all of the stream, and searches it again for each thing that it needs.
"""
import contextlib
import os
import random
import re
import resource
import stat
import tempfile
import threading
from collections import Counter, defaultdict

from .copies import NOBODY
from .files import fed
from .record_reader import MOST_COWNS, MOST_HELD, MOST_ROWS, MOST_TICKS, Refused, read_record
from .running import DEVICE, NOTE, SECONDS, Answer, done, fault_of, measured, refused

# Random streams, each from this seed and its number, and how many there are; how many are whole records, how many are broken, of how many all tiles are cut,
# and how many have names.
SEED = 20261130
STREAMS = 2000
WHOLE = 100
BROKEN = 400
TILED = 200
NAMED = 150

# A line has at most so many bytes, and a number so many digits. So many rows may be alive before a window begins, and so many cowns they may have together.
MOST_LINE = 4096
MOST_DIGITS = 18
MOST_ALIVE = 262144
MOST_USES = 1048576

# A long stream has so many rows over so many cowns. A window of it, or its tiles, may take so many seconds of a processor, and the program so many kilobytes of
# memory and of addresses. The limits are generous: docs/MEASUREMENTS.md has what it takes. A program that has not ended after so many more seconds hangs.
LONG = 1000000
LONG_COWNS = 50000
MOST_SECONDS = 60
MOST_MEMORY = 100 * 1024
MOST_ASKED = 1024 * 1024

NUMBERS = {"Form": 2, "NumberNotNext": 3, "ParentNotRunning": 4, "Offset": 5, "Cowns": 6, "StartNotAllowed": 7, "EndNotAllowed": 8, "Unended": 10,
           "Truncated": 11, "After": 12, "LongLine": 18, "ManyAlive": 19, "ManyCowns": 20, "BeyondEnd": 21}
DIVISORS = [number * 10 ** power for power in range(19) for number in (1, 2, 5)]


def cases(program):
    yield from worked(program)
    yield from by_chance(program)
    yield from whole(program)
    yield from broken(program)
    yield from limits(program)
    yield from endless(program)
    yield from tiled(program)
    yield from named(program)
    yield from words_refused(program)
    yield from files(program)
    yield from long(program)


# ---- streams

class Fault(Exception):
    """The line of a stream's first fault, counted from 1, and its name."""


class Row:
    """A row of a stream."""

    def __init__(self, number, rank, parent, offset, cowns):
        self.number, self.rank, self.parent, self.offset, self.cowns = number, rank, parent, offset, cowns
        self.life, self.last, self.ticks, self.status, self.written = "pending", 0, 0, 0, []
        self.progress, self.ran = 0, False


class Stream:
    """A stream that is read line by line, with all rows that it had so far."""

    def __init__(self, text):
        self.text, self.at, self.line = text, 0, 0
        self.version, self.cowns = 2, None
        self.rows, self.spawned, self.queues = {}, [], defaultdict(list)

    def next_line(self):
        """The next line without its line feed, or None at the end."""
        if self.at == len(self.text):
            return None
        end = self.text.find(b"\n", self.at, self.at + MOST_LINE + 1)
        if end < 0:
            raise Fault(self.line + 1, "LongLine" if len(self.text) - self.at > MOST_LINE else "Truncated")
        line, self.at, self.line = self.text[self.at:end], end + 1, self.line + 1
        return line

    def parts(self, line):
        """The sign and the numbers of a line."""
        if not re.fullmatch(rb"[+<>.]( (0|[1-9][0-9]{0,%d}))*" % (MOST_DIGITS - 1), line):
            raise Fault(self.line, "Form")
        sign, numbers = line[:1], [int(field) for field in line[1:].split()]
        least = {b"+": 3, b">": 1, b"<": 3, b".": 0}[sign]
        most = least if sign in b">." or sign == b"<" and self.version == 1 else MOST_LINE
        if not least <= len(numbers) <= most or sign == b"<" and numbers[2] > 6:
            raise Fault(self.line, "Form")
        return sign, numbers

    def is_allowed(self, sign, numbers, window):
        """The first rule that an event breaks, if it breaks one. Of rows behind a window it is known up to which number there are some, and no more."""
        row = self.rows.get(numbers[0])
        newest = window.kept[-1].number if window and window.kept else 0
        beyond = window and self.spawned and newest < numbers[0] <= self.spawned[-1].number
        if sign == b"+":
            number, parent, offset, *cowns = numbers
            spawner = self.rows.get(parent)
            if self.spawned and number <= self.spawned[-1].number:
                return "NumberNotNext"
            if not self.spawned:
                if parent != 0:
                    return "ParentNotRunning"
                if offset != 0:
                    return "Offset"
            elif not window or len(self.spawned) < window.end or not newest < parent <= self.spawned[-1].number:
                if not spawner or spawner.life != "running":
                    return "ParentNotRunning"
                if offset <= spawner.last:
                    return "Offset"
            if not self.spawned and cowns or cowns != sorted(set(cowns)) or self.cowns is not None and any(cown >= self.cowns for cown in cowns):
                return "Cowns"
        elif beyond:
            return None
        elif sign == b">":
            if not row or row.life != "pending" or any(self.queues[cown][0] is not row for cown in row.cowns):
                return "StartNotAllowed"
        else:
            number, ticks, _, *written = numbers
            if not row or row.life != "running" or not 1 <= ticks >= row.last:
                return "EndNotAllowed"
            if written != sorted(set(written)) or not set(written) <= set(row.cowns):
                return "EndNotAllowed"
        return None

    def take(self, sign, numbers, window):
        """Takes an event, and gives its row."""
        broken_rule = self.is_allowed(sign, numbers, window)
        if broken_rule:
            raise Fault(self.line, broken_rule)
        if sign == b"+":
            number, parent, offset, *cowns = numbers
            row = self.rows[number] = Row(number, len(self.spawned), parent, offset, cowns)
            self.spawned.append(row)
            if row.rank and parent in self.rows and not (window and row.rank >= window.end):
                self.rows[parent].last = offset
            for cown in cowns:
                self.queues[cown].append(row)
            return row
        row = self.rows.get(numbers[0])
        if not row:
            return Row(numbers[0], len(self.spawned), 0, 0, [])
        if sign == b">":
            row.life = "running"
        else:
            row.life, row.ticks, row.status, row.written = "ended", numbers[1], numbers[2], row.cowns if self.version == 1 else numbers[3:]
            for cown in row.cowns:
                if row in self.queues[cown]:
                    self.queues[cown].remove(row)
        return row

    def alive(self):
        return [row for row in self.spawned if row.life != "ended"]


# ---- windows

def helpers(count):
    """How many helpers there are of each level, the upper first, for so many rows; how many rows each spawns at most; and how late one is at most."""
    for levels in (3, 2):
        if count >= 8:
            width = 2
            while width ** levels < count:
                width += 1
            sizes, left = [], count
            for _ in range(levels - 1):
                left = -(-left // width)
                sizes.insert(0, left)
            if 1 + count + sum(sizes) <= MOST_ROWS:
                return sizes, width, width * levels
    return [], max(count, 1), count


class Window:
    """The rows of a window, and what happened to them, as a stream is read."""

    def __init__(self, stream, asked):
        self.carried, self.log, self.has_tail = stream.alive(), [], False
        if len(self.carried) >= MOST_ROWS:
            raise Fault(stream.line, "ManyAlive")
        self.begin, self.asked, self.kept = len(stream.spawned), asked, list(self.carried)
        for row in self.carried:
            row.ran = row.life == "running"
            row.progress = row.last if row.ran else 0
        self.has_main = not stream.spawned or self.carried[:1] == stream.spawned[:1]
        helped = len(self.carried) - (self.has_main and bool(self.carried))
        room = MOST_ROWS - len(self.carried) - (not self.has_main) - sum(helpers(helped)[0])
        self.end = self.begin + (room if asked is None else min(asked, room))

    def is_over(self, stream):
        """All of it has ended, but for the run's first row at most, and no more comes."""
        left = [row for row in self.kept if row.life != "ended"]
        if len(stream.spawned) < self.end:
            return False
        past = len(stream.spawned) > self.end or self.asked == self.end - self.begin
        return not left or past and left == stream.spawned[:1] and left[0].life == "running"


def read_window(text, begin, asked):
    """The stream as far as it was read, and its window."""
    stream, window = Stream(text), None
    while not (window and window.is_over(stream)):
        line = stream.next_line()
        if line is None:
            break
        header = stream.line == 1 and re.fullmatch(rb"boc ([12]) (0|[1-9][0-9]{0,17})", line)
        if header:
            stream.version, stream.cowns = int(header[1]), int(header[2])
            continue
        sign, numbers = stream.parts(line)
        if sign == b".":
            if not stream.spawned:
                raise Fault(stream.line, "Unended")
            if stream.at < len(text):
                raise Fault(stream.line + 1, "After")
            break
        if sign == b"+" and len(stream.spawned) == begin and not window and (not stream.spawned or numbers[0] > stream.spawned[-1].number):
            window = Window(stream, asked)
        row = stream.take(sign, numbers, window)
        if window:
            if sign == b"+":
                if row.rank < window.end:
                    window.kept.append(row)
                else:
                    window.has_tail |= row.parent == stream.spawned[0].number
            if row.rank < window.end:
                window.log.append((sign, row))
    if not window:
        raise Fault(stream.line + 1, "BeyondEnd")
    return stream, window


class Made:
    """A row of the record that is made of a window."""

    def __init__(self, row, parent, offset, ticks):
        self.row, self.parent, self.offset, self.ticks = row, parent, offset, ticks
        self.cowns = list(row.cowns) if row else []
        self.written = list(row.written) if row and row.life == "ended" else []


def rows_of(stream, window):
    """The rows of the record, first to last, with their ticks, and how late those are that were alive before the window."""
    kept = [row for row in window.kept if row.life != "pending"]
    main = kept[0] if kept and kept[0] is stream.spawned[0] else None
    carried = [row for row in window.carried if row.life != "pending" and row is not main]
    carries_main = main is not None and main.rank < window.begin
    sizes, width, late = helpers(len(carried))
    children = sizes[0] if sizes else len(carried)

    def left(row):
        return (row.ticks if row.life == "ended" else row.last) - row.progress
    made = [Made(main, None, 0, 1 if main is None else max(1, left(main) + (children if carries_main else 0)))]
    group = made[:1]
    for size in sizes:
        group = [Made(None, group[place // width], place % width + 1, 1) for place in range(size)]
        made += group
    number = {}
    if main:
        number[main.number] = made[0]
    for place, row in enumerate(carried):
        number[row.number] = Made(row, group[place // width], place % width + 1, max(1, left(row)))
        made.append(number[row.number])
    for row in kept:
        if row.rank >= window.begin and row is not main:
            spawner = stream.rows[row.parent]
            offset = row.offset - spawner.progress + (children if spawner is main and carries_main else 0)
            number[row.number] = Made(row, number[row.parent], offset, max(1, left(row)))
            made.append(number[row.number])
    for one in made[1:]:
        if one.parent.row is None:
            one.parent.ticks = max(one.parent.ticks, one.offset)
    if main is None or carries_main or window.has_tail:
        made[0].ticks = max([1] + [one.offset for one in made[1:] if one.parent is made[0]])
    return made, number, late, carries_main


def divide(made):
    """Divides ticks by the least divisor by which all fit, and gives it."""
    for divisor in DIVISORS:
        last, offsets = Counter(), []
        for one in made:
            offset = 0 if one.parent is None else max(last[one.parent] + 1, -(-one.offset // divisor))
            if one.parent is not None:
                last[one.parent] = offset
            offsets.append(offset)
        ticks = [max(1, -(-one.ticks // divisor), last[one]) for one in made]
        if max(offsets + ticks) <= MOST_TICKS:
            for one, offset, tick in zip(made, offsets, ticks):
                one.offset, one.ticks = offset, tick
            return divisor
    raise AssertionError("no divisor fits")


def plan(made):
    """The earliest plan of rows: when each starts, and why; the row that ends last, and when."""
    starts, whys, free = {}, {}, {}
    last, span = None, 0
    for one in made:
        start, why = (0, None) if one.parent is None else (starts[one.parent] + one.offset, None)
        for cown in one.cowns:
            if free.get(cown, (0, None))[0] > start:
                start, why = free[cown][0], (cown, free[cown][1])
        starts[one], whys[one] = start, why
        for cown in one.cowns:
            free[cown] = start + one.ticks, one
        if start + one.ticks > span:
            last, span = one, start + one.ticks
    return starts, whys, last, span


class Cowns:
    """Which cowns of the rows are kept, and what was left out."""

    def __init__(self, stream, window, made):
        self.starts, self.whys, self.last, self.whole_span = plan(made)
        self.users = defaultdict(list)
        for one in made:
            for cown in one.cowns:
                self.users[cown].append(one)
        self.solo = {cown for cown, users in self.users.items() if len(users) == 1}
        first, self.twin = {}, {}
        for cown in sorted(set(self.users) - self.solo):
            self.twin[cown] = first.setdefault(tuple(map(id, self.users[cown])), cown)
        self.weigh(made)
        own = max([stream.cowns or 0] + [cown + 1 for cown in self.users])
        self.left_out = self.wide = self.lost = 0
        self.has_own = not window.carried and own <= MOST_COWNS and all(len(one.cowns) <= MOST_HELD for one in made)
        if self.has_own:
            self.kept = list(range(own))
        else:
            self.kept = sorted(cown for cown, stands in self.twin.items() if cown == stands)
            self.left_out = max(0, len(self.kept) - MOST_COWNS)
            self.kept = sorted(sorted(self.kept, key=self.weight, reverse=True)[:MOST_COWNS])
        self.choose(made)

    def weigh(self, made):
        """How often the chain goes by a cown and how long rows waited for it; and by which of its cowns it goes, or was waited for, of each row."""
        self.chain, self.waited, self.links, self.tight = Counter(), Counter(), set(), set()
        for one in made:
            if self.whys[one]:
                cown, before = self.twin[self.whys[one][0]], self.whys[one][1]
                self.waited[cown] += self.starts[one] - self.starts[one.parent] - one.offset
                self.tight |= {(one, cown), (before, cown)}
        one = self.last
        while one.parent is not None:
            if self.whys[one]:
                cown, before = self.twin[self.whys[one][0]], self.whys[one][1]
                self.chain[cown] += 1
                self.links |= {(one, cown), (before, cown)}
                one = before
            else:
                one = one.parent

    def weight(self, cown):
        return self.chain[cown] > 0, self.waited[cown], len(self.users[cown]), -cown

    def choose(self, made):
        """Each row keeps what is kept, or the eight of it that weigh most."""
        number = {cown: place for place, cown in enumerate(self.kept)}
        for one in made:
            written = set(one.written) | (set() if self.has_own else {self.twin.get(cown, cown) for cown in one.written})
            cowns = [cown for cown in one.cowns if cown in number]
            if len(cowns) > MOST_HELD:
                self.wide, self.lost = self.wide + 1, self.lost + len(cowns) - MOST_HELD
                cowns.sort(key=lambda cown: ((one, cown) in self.links, (one, cown) in self.tight, self.weight(cown)), reverse=True)
                cowns = sorted(cowns[:MOST_HELD])
            one.cowns, one.written = [number[cown] for cown in cowns], [number[cown] for cown in cowns if cown in written]


def count(number, one, more):
    return f"1 {one}" if number == 1 else f"{number} {more}"


class Cut:
    """The record of a window, and what is told of it."""

    def __init__(self, text, begin, asked):
        stream, window = read_window(text, begin, asked)
        self.made, number, self.late, carries_main = rows_of(stream, window)
        self.divisor = divide(self.made)
        self.cowns = Cowns(stream, window, self.made)
        self.span = plan(self.made)[3]
        self.stream, self.window = stream, window
        self.text = self.lines(number, carries_main)
        self.notes = b"".join(NOTE + note.encode() + b"\n" for note in self.noted(begin, asked, carries_main))

    def noted(self, begin, asked, carries_main):
        """What is noted of the window."""
        window, cowns, main = self.window, self.cowns, self.made[0].row
        alive = sum(row.life != "pending" for row in window.carried)
        others, helpers = alive - carries_main, sum(one.row is None for one in self.made[1:])
        end = min(window.end, len(self.stream.spawned))
        if begin or end == min(asked or MOST_ROWS, MOST_ROWS):
            no_row = f"no row of rank {begin} or above fits: {alive} were alive before it"
            yield f"the window is ranks {begin} to {end - 1} of the stream" if end > begin else no_row
        if others:
            yield f"{count(others, 'row was', 'rows were')} alive before it, and {'is' if others == 1 else 'are'} spawned up to {self.late} ticks late"
        if helpers:
            yield f"rows {0 if main is None else 1} to {helpers} are added: they spawn these"
        elif main is None:
            yield "row 0 is added: it stands in for that of the run"
        lives = Counter(row.life for row in window.kept if row is not main)
        if lives["pending"]:
            yield count(lives["pending"], "row that had not started is left out", "rows that had not started are left out")
        if lives["running"]:
            yield count(lives["running"], "row that had not ended ends at its last spawn", "rows that had not ended end at their last spawn")
        if cowns.wide:
            lost = f"{cowns.lost} in all are" if cowns.wide > 1 else "1 is" if cowns.lost == 1 else f"{cowns.lost} are"
            yield count(cowns.wide, "row keeps 8 of its cowns", "rows keep 8 of their cowns") + f"; {lost} left out"
        is_lossless = not cowns.left_out and not cowns.lost
        if len(cowns.kept) < len(cowns.users) or not is_lossless:
            is_exact = "exact" if self.span == cowns.whole_span else f"{self.span}, with all cowns {cowns.whole_span}"
            yield f"kept {len(cowns.kept)} of {len(cowns.users)} cowns; " + ("no order is lost" if is_lossless else f"the span is {is_exact}")
        if self.divisor > 1:
            yield f"ticks are divided by {self.divisor}, so that each is at most {MOST_TICKS}"

    def lines(self, number, carries_main):
        place = {one: str(at) for at, one in enumerate(self.made)}

        def spawn(one):
            parent = "0" if one.parent is None else place[one.parent]
            return " ".join(["+", place[one], parent, str(one.offset), *map(str, one.cowns)])

        def end(one):
            status = one.row.status if one.row and one.row.life == "ended" else 0
            return " ".join(["<", place[one], str(one.ticks), str(status), *map(str, one.written)])
        lines = [f"boc 2 {len(self.cowns.kept)}"]
        main = self.made[0]
        if main.row is None or carries_main:
            helping = [one for one in self.made[1:] if one.row is None]
            carried = [number[row.number] for row in self.window.carried if row.number in number and number[row.number] is not main]
            lines += [spawn(main), "> 0"]
            for one in helping:
                lines += [spawn(one), f"> {place[one]}"]
            lines += [spawn(one) for one in carried] + [f"> {place[one]}" for one in carried if one.row.ran]
            lines += [end(one) for one in helping] + ([end(main)] if main.row is None else [])
        for sign, row in self.window.log:
            if row.number in number:
                one = number[row.number]
                lines.append(spawn(one) if sign == b"+" else f"> {place[one]}" if sign == b">" else end(one))
        lines += [end(number[row.number]) for row in self.window.kept if row.life == "running"]
        return "\n".join(lines + [".", ""]).encode()


# ---- random streams

def random_stream(rng, rows, cowns, held, ticks, sparse):
    """The lines of a stream of a run that ends, without a first line and a last."""
    names = sorted(rng.sample(range(10 ** 9), rows)) if sparse else list(range(rows))
    names[0] = 0
    lines, count = ["+ 0 0 0", "> 0"], 1
    parent, last, needs, queues = {0: 0}, {0: 0}, {0: []}, defaultdict(list)
    running, pending = [0], []
    while running or pending:
        ready = [row for row in pending if all(queues[cown][0] == row for cown in needs[row])]
        chance = rng.random()
        if count < rows and running and chance < .45:
            spawner, row = rng.choice(running), count
            last[spawner] += 1 + rng.randrange(ticks)
            needs[row], last[row], count = sorted(rng.sample(range(cowns), rng.randint(0, min(held, cowns)))), 0, count + 1
            for cown in needs[row]:
                queues[cown].append(row)
            pending.append(row)
            lines.append(" ".join(map(str, ["+", names[row], names[spawner], last[spawner], *needs[row]])))
        elif ready and chance < .75:
            row = rng.choice(ready)
            pending.remove(row)
            running.append(row)
            lines.append(f"> {names[row]}")
        elif running and (count == rows or len(running) + len(pending) > 1) and (len(running) > 1 or not pending or ready or count == rows):
            row = rng.choice(running)
            if count < rows and len(running) == 1:
                continue
            running.remove(row)
            for cown in needs[row]:
                queues[cown].remove(row)
            wrote = [cown for cown in needs[row] if rng.random() < .6]
            status = 0 if rng.random() < .9 else rng.randrange(7)
            lines.append(" ".join(map(str, ["<", names[row], max(1, last[row]) + rng.randrange(ticks), status, *wrote])))
    return lines


def random_case(number):
    """A random stream: its text, whether it has ended, and its lines."""
    rng = random.Random(SEED * 1000003 + number)
    rows = rng.randrange(2, 120)
    cowns, held, ticks = rng.choice([1, 3, 8, 30, 400]), rng.choice([1, 2, 4, 12]), rng.choice([1, 5, 50, 300000, 10 ** 10])
    lines = random_stream(rng, rows, cowns, held, ticks, rng.random() < .3)
    stops = rng.random() < .2
    given = lines[:rng.randrange(1, len(lines) + 1)] if stops else list(lines)
    if rng.random() < .5:
        given.insert(0, f"boc 2 {rng.choice([cowns, cowns + 3, 1000])}")
    if not stops and rng.random() < .5:
        given.append(".")
    return rng, "".join(line + "\n" for line in given).encode(), not stops, lines


def words(begin, asked):
    return ["cut"] + (["--from", str(begin)] if begin else []) + ([] if asked is None else ["--rows", str(asked)])


def span_of(lines):
    """The span of all of a run."""
    starts, free, ticks, span = {}, {}, {}, 0
    for line in lines:
        sign, *numbers = line.split()
        if sign == "<":
            ticks[numbers[0]] = int(numbers[1])
    for line in lines:
        sign, *numbers = line.split()
        if sign == "+":
            row, parent, offset, *cowns = numbers
            start = max([starts.get(parent, 0) + int(offset)] + [free.get(cown, 0) for cown in cowns])
            starts[row] = start
            span = max(span, start + ticks[row])
            for cown in cowns:
                free[cown] = start + ticks[row]
    return span


def promises(cut, lines, has_ended):
    """What of the promises on a window does not hold, if anything."""
    try:
        read_record(cut.text)
    except Refused as fault:
        return f"it is no record: {fault.args}"
    rows = [one for one in cut.made if one.row]
    is_lossless = not cut.cowns.left_out and not cut.cowns.lost
    for place, one in enumerate(rows):
        for other in rows[place + 1:]:
            in_run, in_window = bool(set(one.row.cowns) & set(other.row.cowns)), bool(set(one.cowns) & set(other.cowns))
            if in_window and not in_run or in_run and not in_window and is_lossless:
                return f"rows {one.row.number} and {other.row.number} are ordered in one of the two alone"
    if has_ended and cut.divisor == 1 and cut.span > span_of(lines) + cut.late:
        return f"its span is {cut.span}, that of the run {span_of(lines)}, and rows are {cut.late} late"
    return None


def modelled(text, begin, asked):
    """The answer that the model gives, and the window if there is one."""
    try:
        cut = Cut(text, begin, asked)
    except Fault as fault:
        line, name = fault.args
        return refused(3, f"boc: line {line}: {NUMBERS[name]} {name}"), None
    return done(cut.text, cut.notes), cut


def by_chance(program):
    """Windows of random streams are the model's, which keeps what is promised."""
    wrong = {"the model": None, "promises": None}
    for number in range(STREAMS):
        rng, text, has_ended, lines = random_case(number)
        begin, asked = rng.choice([0, 0, rng.randrange(60)]), rng.choice([None, 1, 3, 10, 40, 1000])
        expected, cut = modelled(text, begin, asked)
        fault = fault_of(expected, program.run(words(begin, asked), text))
        if fault:
            wrong["the model"] = wrong["the model"] or f"stream {number} from {begin}, rows {asked}: {fault}"
        if cut:
            wrong["promises"] = wrong["promises"] or promises(cut, lines, has_ended)
    yield from wrong.items()


def whole(program):
    """A record comes out as it is; one of the first version, and one that lacks its first line or its last, as that of the second version that it is."""
    wrong = None
    for number in range(WHOLE):
        rng = random.Random(SEED * 1000003 - number)
        cowns = rng.choice([1, 3, 8, 30, 256])
        lines = random_stream(rng, rng.randrange(2, 200), cowns, rng.choice([1, 2, 8]), rng.choice([1, 5, 50]), False)
        record = "".join(line + "\n" for line in [f"boc 2 {cowns}", *lines, "."]).encode()
        needs = {line.split()[1]: line.split()[4:] for line in lines if line[0] == "+"}
        wrote = [" ".join([*line.split()[:4], *needs[line.split()[1]]]) if line[0] == "<" else line for line in lines]
        first = [" ".join(line.split()[:4]) if line[0] == "<" else line for line in lines]
        texts = {
            record: record,
            record[:-2]: record,
            "".join(line + "\n" for line in [f"boc 1 {cowns}", *first, "."]).encode():
            "".join(line + "\n" for line in [f"boc 2 {cowns}", *wrote, "."]).encode(),
        }
        for text, wanted in texts.items():
            fault = fault_of(done(wanted, b""), program.run(["cut"], text))
            wrong = wrong or fault and f"record {number}: {fault}"
    yield "whole records", wrong


# ---- broken streams

def breaks(rng, text):
    """A stream that is broken by chance."""
    lines = text.splitlines(keepends=True)
    at = rng.randrange(len(lines))
    kind = rng.randrange(8)
    if kind == 0:
        return text[:rng.randrange(len(text))]
    if kind == 1:
        lines.insert(at, rng.choice([b"\n", b"+\n", b"> 1 2\n", b"< 1 2\n", b"+ 01 0 1\n", b"x\n", b"> 1 \n", b">  1\n", b"\xff\n", b"> 1\r\n", b"< 1 2 7\n"]))
    if kind == 2:
        lines.insert(at, lines[rng.randrange(len(lines))])
    if kind == 3:
        del lines[at]
    if kind == 4:
        other = rng.randrange(len(lines))
        lines[at], lines[other] = lines[other], lines[at]
    if kind == 5:
        fields = lines[at].split()
        fields[rng.randrange(len(fields))] = str(rng.choice([0, 1, 5, 70, 10 ** 18 - 1, 10 ** 18])).encode()
        lines[at] = b" ".join(fields) + b"\n"
    if kind == 6:
        lines.insert(at, b"+ " + b"1" * rng.choice([18, 19, 4094, 4095, 5000]) + b"\n")
    if kind == 7:
        lines.append(rng.choice([b".\n", b".\n.\n", b".\nx", b"."]))
    return b"".join(lines)


def broken(program):
    """A broken stream is refused at its line, with an empty standard output; or its window is the model's."""
    wrong = None
    for number in range(BROKEN):
        rng, text, _, _ = random_case(STREAMS + number)
        text = breaks(rng, text)
        begin, asked = rng.choice([0, 0, rng.randrange(60)]), rng.choice([None, None, 10])
        fault = fault_of(modelled(text, begin, asked)[0], program.run(words(begin, asked), text))
        wrong = wrong or fault and f"stream {number} from {begin}, rows {asked}: {fault}"
    yield "broken streams", wrong
    yield from broken_one_way(program)
    yield from cut_off(program)


# A stream of four rows in two lines of spawns, and what is put behind so many of its lines.
SHORT = b"+ 0 0 0\n> 0\n+ 1 0 1 5\n+ 2 0 2 5 9\n> 1\n< 1 7 0 5\n> 2\n+ 3 2 4\n< 0 3 0\n< 2 9 0\n> 3\n< 3 1 0\n.\n"
WRONG = [
    (0, b"boc 3 4\n", "line 1: 2 Form"),
    (0, b"boc 2 9\n", "line 5: 6 Cowns"),
    (0, b"\n", "line 1: 2 Form"),
    (0, b"\xef\xbb\xbf", "line 1: 2 Form"),
    (0, b"#\n", "line 1: 2 Form"),
    (0, b"> 0\n", "line 1: 7 StartNotAllowed"),
    (0, b".\n", "line 1: 10 Unended"),
    (1, b"boc 2 10\n", "line 2: 2 Form"),
    (1, b"+ 1 0 1 5\n", "line 2: 4 ParentNotRunning"),
    (2, b"+ 2 0 1 5\n", "line 4: 3 NumberNotNext"),
    (2, b"+ 1 9 1\n", "line 3: 4 ParentNotRunning"),
    (2, b"+ 1 0 0\n", "line 3: 5 Offset"),
    (2, b"+ 1 0 1 5 5\n", "line 3: 6 Cowns"),
    (2, b"+ 1 0 1 6 5\n", "line 3: 6 Cowns"),
    (2, b"> 7\n", "line 3: 7 StartNotAllowed"),
    (2, b"> 0\n", "line 3: 7 StartNotAllowed"),
    (4, b"> 2\n", "line 5: 7 StartNotAllowed"),
    (4, b"< 1 7 0\n", "line 5: 8 EndNotAllowed"),
    (5, b"< 7 7 0\n", "line 6: 8 EndNotAllowed"),
    (5, b"< 1 0 0\n", "line 6: 8 EndNotAllowed"),
    (5, b"< 1 7 0 6\n", "line 6: 8 EndNotAllowed"),
    (5, b"< 1 7 7\n", "line 6: 2 Form"),
    (5, b"< 0 1 0\n", "line 6: 8 EndNotAllowed"),
    (6, b"< 1 7 0 5\n", "line 7: 8 EndNotAllowed"),
    (6, b"+ 3 1 9\n", "line 7: 4 ParentNotRunning"),
    (6, b".\n", "line 8: 12 After"),
    (8, b"+ 4 1 9\n", "line 9: 4 ParentNotRunning"),
    (8, b"+ 4 5 9\n", "line 9: 4 ParentNotRunning"),
    (12, b"> 3\n", "line 13: 7 StartNotAllowed"),
    (12, b"> 1000000000000000000\n", "line 13: 2 Form"),
    (12, b"> 9999999999999999999999999\n", "line 13: 2 Form"),
    (12, b"> -1\n", "line 13: 2 Form"),
    (12, b"> 3\r\n", "line 13: 2 Form"),
    (13, b"\n", "line 14: 12 After"),
    (13, b".\n", "line 14: 12 After"),
    (13, b"\0", "line 14: 12 After"),
]


def broken_one_way(program):
    """Each kind of broken stream has its fault, whichever window is asked for that reaches its line. A last line while rows are alive is the end."""
    lines = SHORT.splitlines(keepends=True)
    for count in range(1, len(lines)):
        text = b"".join(lines[:count])
        yield f"a last line after {count} lines", fault_of(modelled(text + b".\n", 0, None)[0], program.run(["cut"], text + b".\n"))
    for place, piece, fault in WRONG:
        text = b"".join(lines[:place] + [piece] + lines[place:])
        expected = refused(3, f"boc: {fault}")
        yield f"{piece} after {place} lines", fault_of(expected, program.run(["cut"], text))
        yield f"{piece} after {place} lines: tiles", fault_of(expected, program.run(["cut", "--tiles", "2"], text))
        rank = sum(line.startswith(b"+") for line in lines[:place])
        yield f"{piece} after {place} lines, from {rank}", fault_of(modelled(text, rank, None)[0], program.run(words(rank, None), text))
        yield f"{piece} after {place} lines: the model", None if modelled(text, 0, None)[0] == expected else "it has another answer"


def cut_off(program):
    """A stream that is cut off within a line is refused there. One that is cut off between two lines is taken as far as it goes."""
    wrong = None
    for length in range(len(SHORT) + 1):
        for begin in (0, 1, 3):
            text = SHORT[:length]
            fault = fault_of(modelled(text, begin, None)[0], program.run(words(begin, None), text))
            wrong = wrong or fault and f"{length} bytes from {begin}: {fault}"
            if length and not text.endswith(b"\n") and modelled(text, begin, None)[1]:
                wrong = wrong or f"{length} bytes from {begin}: the model takes a line that is cut off"
    yield "streams that are cut off", wrong


def limits(program):
    """Rows that are alive, and their cowns, at the limits and above them."""
    alive = "+ 0 0 0\n> 0\n" + "".join(f"+ {row} 0 {row}\n" for row in range(1, MOST_ALIVE + 2))
    most = MOST_ROWS - 1
    notes = [f"the window is ranks {most} to {most} of the stream", f"{most} rows that had not started are left out"]
    expected = done(b"boc 2 0\n+ 0 0 0\n> 0\n< 0 1 0\n.\n", b"".join(NOTE + note.encode() + b"\n" for note in notes))
    yield "as many rows alive as a record can have", fault_of(expected, program.run(words(most, 1), alive.encode()))
    for begin, line in [(most + 1, most + 3), (MOST_ALIVE + 1, MOST_ALIVE + 2)]:
        yield f"too many rows alive from {begin}", fault_of(refused(3, f"boc: line {line}: 19 ManyAlive"), program.run(words(begin, 1), alive.encode()))
    answer = program.run(["cut", "--tiles", "3"], alive.encode())
    yield "too many rows alive for tiles", fault_of(refused(3, f"boc: line {MOST_ALIVE + 2}: 19 ManyAlive"), answer)
    needs = " ".join(str(cown) for cown in range(100, 900))
    wide = "+ 0 0 0\n> 0\n" + "".join(f"+ {row} 0 {row} {needs}\n" for row in range(1, MOST_USES // 800 + 2))
    yield "too many cowns", fault_of(refused(3, f"boc: line {MOST_USES // 800 + 3}: 20 ManyCowns"), program.run(["cut"], wide.encode()))
    longest = b"+ 0 0 0\n> 0\n+ 1 0 1"
    longest += b" " + b" ".join(b"%d" % cown for cown in range(10000, 10000 + (MOST_LINE - 7) // 6))
    line = longest.splitlines()[-1]
    for more in (MOST_LINE - len(line), MOST_LINE - len(line) + 1):
        text = longest[:-5] + b"9" * (5 + more) + b"\n> 1\n"
        expected = modelled(text, 0, None)[0]
        yield f"a line of {len(line) + more} bytes", fault_of(expected, program.run(["cut"], text))


# Streams that never end, by what they begin with and what they repeat, and their fault.
ENDLESS = [
    (b"", b"\0", "line 1: 18 LongLine"),
    (b"", b"\n", "line 1: 2 Form"),
    (b"boc ", b"2", "line 1: 18 LongLine"),
    (b"boc 2 9\n", b"\0", "line 2: 18 LongLine"),
    (b"+ 0 0 0\n> 0\n", b"> 0\n", "line 3: 7 StartNotAllowed"),
    (b"+ 0 0 0\n> 0\n+ 1 0 1", b" 7", "line 3: 18 LongLine"),
    (SHORT, b"\n", "line 14: 12 After"),
    (SHORT, b"\0", "line 14: 12 After"),
]


def endless(program):
    """Streams that never end and are refused, in little memory."""
    with tempfile.TemporaryDirectory(prefix="boc-cut-") as folder:
        for options in (["--from", "0"], ["--from", "9"], ["--tiles", "9"]):
            for front, more, line in ENDLESS:
                with fed(folder, front, more) as pipe:
                    yield f"{options} of {front[-20:]} and {more} ..", fault_in_little([program.path, "cut", *options, pipe], refused(3, f"boc: {line}"))
            expected = refused(3, "boc: line 1: 18 LongLine")
            yield f"{options} /dev/zero", fault_in_little([program.path, "cut", *options, "/dev/zero"], expected)
        front = b"".join(SHORT.splitlines(keepends=True)[:6])
        with fed(folder, front, b"\0") as pipe:
            expected = modelled(front + b"\0", 1, 1)[0]
            yield "what is after the window is not read", fault_in_little([program.path, "cut", "--from", "1", "--rows", "1", pipe], expected)
        yield "an empty stream", fault_of(refused(3, "boc: line 1: 21 BeyondEnd"), program.run(["cut"]))
        yield "an empty stream: tiles", fault_of(refused(3, "boc: line 1: 21 BeyondEnd"), program.run(["cut", "--tiles", "2"]))
        most = ["--from", str(2 ** 64 - 1)]
        yield "spawns without ends", fault_in_little([program.path, "cut", *most], refused(3, f"boc: line {MOST_ALIVE + 2}: 19 ManyAlive"), spawns())
    for begin in (4, 5, 10 ** 9, 2 ** 64 - 1):
        yield f"from {begin}, which is beyond the end", fault_of(refused(3, "boc: line 14: 21 BeyondEnd"), program.run(words(begin, None), SHORT))


def spawns():
    """More rows than may be alive, over a cown each."""
    return b"+ 0 0 0\n> 0\n" + b"".join(b"+ %d 0 %d %d\n" % (row, row, row) for row in range(1, MOST_ALIVE + 100))


def fault_in_little(command, expected, source=b""):
    """What is wrong with the answer of a command that is to use little memory."""
    answer, used = measured(command, SECONDS, MOST_ASKED, source)
    return f"it used {used} kilobytes" if used > MOST_MEMORY else fault_of(expected, answer)


# ---- tiles

def tiles_of(text, most):
    """Where a stream is cut into at most so many windows: of the ranks that are at most a quarter of a window from equal parts, where the fewest rows are
    alive. Each is the rank, how many rows come up to the next one, and how many are alive."""
    alive, rows = [], 0
    for line in text.decode().splitlines():
        if line.startswith("+"):
            alive.append(rows)
        rows += line.startswith("+") - line.startswith("<")
    width, begins = len(alive) // most, [0]
    for number in range(1, most):
        near = [rank for rank in range(len(alive)) if abs(rank - width * number) <= width // 4]
        best = min(near, key=lambda rank: (alive[rank], rank))
        if best > begins[-1]:
            begins.append(best)
    return [(begin, after - begin, alive[begin]) for begin, after in zip(begins, [*begins[1:], len(alive)])]


def tiled(program):
    """Tiles cover a stream, begin where few rows are alive, and their spans add up to no less than the run's."""
    wrong = None
    for number in range(TILED):
        rng, text, has_ended, lines = random_case(2 * STREAMS + number)
        most = rng.choice([1, 2, 3, 5, 200])
        tiles = tiles_of(text, most)
        expected = "".join(f"{begin} {rows} {alive} fits\n" for begin, rows, alive in tiles).encode()
        fault = fault_of(done(expected, b""), program.run(["cut", "--tiles", str(most)], text))
        wrong = wrong or fault and f"stream {number}: {fault}"
        cuts = [Cut(text, begin, rows) for begin, rows, _ in tiles]
        if any(len(cut.window.carried) != alive for cut, (_, _, alive) in zip(cuts, tiles)):
            wrong = wrong or f"stream {number}: another number of rows is alive where a tile begins"
        if has_ended and all(cut.divisor == 1 for cut in cuts) and sum(cut.cowns.whole_span for cut in cuts) < span_of(lines):
            wrong = wrong or f"stream {number}: the spans of its tiles are less than the run's"
    yield "tiles", wrong
    rows = 2 * MOST_ROWS
    text = b"+ 0 0 0\n> 0\n" + b"".join(b"+ %d 0 %d\n> %d\n< %d 1 0\n" % (row, row, row, row) for row in range(1, rows))
    for most, notes in ((1, b"1 of 1 window is"), (2, None), (3, b"")):
        answer = program.run(["cut", "--tiles", str(most)], text)
        lines = answer.output.decode().splitlines()
        large = [line.endswith(" large") for line in lines]
        fits = [int(line.split()[1]) + int(line.split()[2]) <= MOST_ROWS for line in lines]
        said = b"%d of %d windows are" % (sum(large), len(lines)) if sum(large) > 1 else b"1 of %d windows is" % len(lines)
        noted = NOTE + (notes or said) + b" too large for a record: give a larger K\n" if any(large) else b""
        fault = None if fits == [not it for it in large] and (most != 1 or large == [True]) and (most != 3 or not any(large)) else f"the tiles {lines}"
        yield f"{most} tiles of {rows} rows", fault or fault_of(done(answer.output, noted), answer)


# ---- a stream worked out by hand

# Rows 10, 20 and 30 are spawned by row 0; row 10 runs where the window begins, and 20 waits for its cown. Row 30 waits for both.
STREAM = b"""\
+ 0 0 0
> 0
+ 10 0 4 100 200
+ 20 0 6 200
> 10
+ 15000 10 3 300
+ 30000 0 9 100 300
> 15000
< 15000 8 0 300
< 10 20 0 100 200
> 20
< 20 5 0 200
< 0 12 0
> 30000
< 30000 7 0 100
"""

# From rank 3 on row 0 has 12 - 6 = 6 ticks and two children more, at its ticks 1 and 2: rows 10 and 20. The row of rank 3 is a child of row 10, which has no
# child before, so its offset is still 3; that of rank 4 comes at 9 - 6 + 2 = 5. All three cowns order two rows.
CUT = b"""\
boc 2 3
+ 0 0 0
> 0
+ 1 0 1 0 1
+ 2 0 2 1
> 1
+ 3 1 3 2
+ 4 0 5 0 2
> 3
< 3 8 0 2
< 1 20 0 0 1
> 2
< 2 5 0 1
< 0 5 0
> 4
< 4 7 0 0
.
"""
CUT_NOTES = b"""\
boc: note: the window is ranks 3 to 4 of the stream
boc: note: 2 rows were alive before it, and are spawned up to 2 ticks late
"""

# The names of that stream, one of them too long with its new number, and those of its window.
NAMES = b"""\
# a bank
= 0 main
= 10 pay 5 x
@ 100 acct[0]
= 30000 %s 1
@ 777 other
""" % (b"a" * 60 + b" " + b"b" * 9)
CUT_NAMED = b"""\
= 0 main
= 1 pay 5 x
@ 0 acct[0]
= 4 %s 1
@ 1 cown_200
@ 2 cown_300
= 2 row_20
= 3 row_15000
""" % (b"a" * 60 + b" " + b"b" * 9)


def worked(program):
    """Answers worked out by hand."""
    yield "a window", fault_of(done(CUT, CUT_NOTES), program.run(["cut", "--from", "3"], STREAM))
    with tempfile.TemporaryDirectory(prefix="boc-cut-") as folder:
        own, made = os.path.join(folder, "names"), os.path.join(folder, "made")
        write(own, NAMES)
        answer = program.run(["cut", "--from", "3", "--names", own, "--out-names", made], STREAM)
        yield "a window with names", fault_of(done(CUT, CUT_NOTES), answer) or (None if read(made) == CUT_NAMED else f"its names are {read(made)}")
        yield "names that are not read twice", None if read(own) == NAMES else "they were changed"
    yield "tiles", fault_of(done(b"0 5 0 fits\n", b""), program.run(["cut", "--tiles", "1"], STREAM))


def write(path, content):
    with open(path, "wb") as file:
        file.write(content)


def read(path):
    with open(path, "rb") as file:
        return file.read()


# ---- names

def random_names(rng, text):
    """Names for some of a stream's rows and cowns, and for some that it does not have."""
    rows, cowns = set(), set()
    for line in text.decode().splitlines():
        if line.startswith("+"):
            _, row, _, _, *held = line.split()
            rows.add(int(row))
            cowns |= set(map(int, held))
    lines = [b"# names", b""]
    for sign, numbers in ((b"=", sorted(rows)), (b"@", sorted(cowns))):
        for number in {*rng.sample(numbers, rng.randint(0, len(numbers))), 10 ** 12}:
            word = rng.choice([b"pay", b"move", b"a" * rng.randrange(1, 70), b"acct[%d]" % number])
            more = b"".join(b" %s" % (b"7" * rng.randrange(1, 30)) for _ in range(rng.randrange(3))) if sign == b"=" else b""
            lines.append(b"%s %d %s" % (sign, number, word) + more)
    rng.shuffle(lines)
    return b"".join(line[:80].rstrip() + b"\n" for line in lines if len(line.split()) != 2 or line.startswith(b"#"))


def names_of(cut, text):
    """The names of a window by those of its stream: those that are given first, in their order, then what has none."""
    rows = {one.row.number: place for place, one in enumerate(cut.made) if one.row}
    cowns = {cown: place for place, cown in enumerate(cut.cowns.kept)}
    lines, named = [], set()
    for line in text.splitlines():
        if line and not line.startswith(b"#"):
            sign, number, name = line.split(b" ", 2)
            place = (rows if sign == b"=" else cowns).get(int(number))
            if place is not None:
                lines.append(b"%s %d %s" % (sign, place, name))
                named.add((sign, place))
    lines += [b"@ %d cown_%d" % (place, cown) for place, cown in enumerate(cut.cowns.kept) if (b"@", place) not in named]
    for place, one in enumerate(cut.made):
        if (b"=", place) not in named:
            lines.append(b"= %d row_%d" % (place, one.row.number) if one.row else b"= %d outside" % place)
    return b"".join(shortened(line) + b"\n" for line in lines)


def shortened(line):
    """A line of names without its last arguments, if it is too long, or without its name's end."""
    return line if len(line) <= 80 else line[:line.rfind(b" ", 0, 81) if line.count(b" ", 0, 81) > 2 else 80]


# Names of which a window of STREAM has some, what is wrong with them, and that a fault of a name that is not of the window is one too, but for a second name.
WRONG_NAMES = [
    (b"= 10 pay", "line 1: 1 Cut"),
    (b"@ 100 a\n= 10 " + b"p" * 76 + b"\n", "line 2: 2 TooLong"),
    (b"= 10\n", "line 1: 3 Form"),
    (b"= 10 pay \n", "line 1: 3 Form"),
    (b"= 010 pay\n", "line 1: 3 Form"),
    (b"= 7 p\xc3\xa4y\n", "line 1: 3 Form"),
    (b"@ 100 a b\n", "line 1: 3 Form"),
    (b"\x1b[31m\n", "line 1: 3 Form"),
    (b"= 10 pay\n\n= 10 pay\n", "line 3: 6 Twice"),
    (b"@ 200 a\n= 10 pay\n@ 200 a\n", "line 3: 6 Twice"),
]


def named(program):
    wrong = None
    with tempfile.TemporaryDirectory(prefix="boc-cut-") as folder:
        own, made = os.path.join(folder, "names"), os.path.join(folder, "made")
        beside = ["--names", own, "--out-names", made]
        for number in range(NAMED):
            rng, text, _, _ = random_case(3 * STREAMS + number)
            begin, asked = rng.choice([0, rng.randrange(30)]), rng.choice([None, 10])
            expected, cut = modelled(text, begin, asked)
            if cut:
                names = random_names(rng, text)
                write(own, names)
                fault = fault_of(expected, program.run([*words(begin, asked), *beside], text))
                if not fault and read(made) != names_of(cut, names):
                    fault = f"the names {read(made)}, and not {names_of(cut, names)}"
                wrong = wrong or fault and f"stream {number} from {begin}, rows {asked}: {fault}"
        yield "random names", wrong
        for text, line in WRONG_NAMES:
            write(own, text)
            yield f"names {text}", fault_of(refused(3, f"boc: names: {line}"), program.run(["cut", "--from", "3", *beside], STREAM))
        write(own, b"= 999 pay\n= 999 pay\n@ 888 a\n@ 888 b\n")
        yield "two names of what is not in the window", fault_of(done(CUT, CUT_NOTES), program.run(["cut", "--from", "3", *beside], STREAM))
        command = [program.path, "cut", "--names", "/dev/zero", "--out-names", made]
        yield "names without end", fault_in_little(command, refused(3, "boc: names: line 1: 9 TooMany"), STREAM)


# ---- words and files

REFUSED = [["--from", "-1"], ["--from", "x"], ["--from", str(2 ** 64)], ["--from"], ["--from", "1", "--from", "1"], ["--rows", "0"], ["--rows", "65536"],
           ["--rows", "x"], ["--rows"], ["--rows", "1", "--rows", "1"], ["--tiles", "0"], ["--tiles", "65536"], ["--tiles", "-1"], ["--tiles"],
           ["--tiles", "2", "--tiles", "2"], ["--tiles", "2", "--from", "0"], ["--tiles", "2", "--rows", "2"],
           ["--tiles", "2", "--names", "a", "--out-names", "b"], ["--names", "a"], ["--out-names", "a"], ["--names"], ["a", "b"], ["--p", "2"]]


def words_refused(program):
    """Bad values, options that exclude each other, and options of other commands."""
    for options in REFUSED:
        answer = program.run(["cut", *options], STREAM)
        yield f"cut {options} is refused", None if answer.status == 2 and not answer.output and answer.errors else f"it told {answer}"


def files(program):
    """A stream from a file, and files that cannot be read or written: standard output is empty then, and what was there stays."""
    with tempfile.TemporaryDirectory(prefix="boc-cut-") as folder:
        stream, own, made = (os.path.join(folder, name) for name in ("stream", "names", "made"))
        write(stream, STREAM)
        write(own, NAMES)
        asked = ["cut", "--from", "3"]
        expected = done(CUT, CUT_NOTES)
        for given in ([stream], ["-"]):
            yield f"a stream from {given}", fault_of(expected, program.run([*asked, *given], STREAM if given == ["-"] else b""))
        with open("/dev/full", "wb") as full:
            yield "a full disk", fault_of(DEVICE, program.run(asked, STREAM, stdout=full))
        absent, closed = os.path.join(folder, "absent"), os.path.join(folder, "closed")
        faults = [(os.path.join(absent, "file"), "No such file or directory (os error 2)"), (folder, "Is a directory (os error 21)")]
        for path, told in faults:
            for given in ([path], ["--names", path, "--out-names", made], ["--names", own, "--out-names", path]):
                yield f"{given}", fault_of(Answer(5, b"", f"boc: {path}: {told}\n".encode(), b""), program.run([*asked, *given], STREAM))
        answer = program.run([*asked, "--names", own, "--out-names", "/dev/full"], STREAM)
        yield "names on a full disk", fault_of(Answer(5, b"", b"boc: /dev/full: No space left on device (os error 28)\n", b""), answer)
        write(closed, NAMES)
        os.chmod(closed, 0)
        os.chmod(folder, stat.S_IRWXU | stat.S_IXGRP | stat.S_IXOTH)
        who = {"user": NOBODY, "group": NOBODY, "extra_groups": []} if os.getuid() == 0 else {}
        for given in ([closed], ["--names", closed, "--out-names", "/dev/null"], ["--names", own, "--out-names", closed]):
            told = Answer(5, b"", f"boc: {closed}: Permission denied (os error 13)\n".encode(), b"")
            yield f"{given} that may not be used", fault_of(told, program.run([*asked, *given], STREAM, **who))
        yield "a file that was not written", None if read(closed) == NAMES else "it was changed"
        write(own, b"x")
        write(made, b"old")
        program.run([*asked, "--names", own, "--out-names", made], STREAM)
        yield "names that are refused", None if read(made) in (b"old", b"") else f"{read(made)} was written"


# ---- a long stream

# The cown that each row of so many asks for, for so many ticks: what limits the run.
HOT, EVERY, LONG_TICKS = 7, 40, 500


def long_stream(rows, cowns):
    """Pieces of the text of a run with so many rows over so many cowns. Up to 500 rows are alive at once, of which 32 run; each row spawns one more."""
    chance = random.Random(SEED).random
    yield b"+ 0 0 0\n> 0\n" + b"".join(b"+ %d 0 %d\n" % (row, row) for row in range(1, 500)) + b"< 0 500 0\n"
    spawned, running, holder, held, lines = 500, {}, {}, {}, []

    def end(row):
        needs = held.pop(row, ())
        lines.append(b"< %d %d 0%s\n" % (row, running.pop(row), b"".join([b" %d" % cown for cown in needs])))
        for cown in needs:
            del holder[cown]
    for row in range(1, rows):
        needs = held.get(row, ())
        for cown in needs:
            if cown in holder:
                end(holder[cown])
            holder[cown] = row
        if len(running) == 32:
            end(next(iter(running)))
        ticks = running[row] = LONG_TICKS if HOT in needs else 2 + int(58 * chance())
        lines.append(b"> %d\n" % row)
        if spawned < rows:
            needs = held[spawned] = sorted({HOT if spawned % EVERY == 0 else int(cowns * chance()) for _ in range(1 + int(3 * chance()))})
            lines.append(b"+ %d %d %d%s\n" % (spawned, row, 1 + int((ticks - 1) * chance()), b"".join([b" %d" % cown for cown in needs])))
            spawned += 1
        if len(lines) > 10000:
            yield b"".join(lines)
            lines.clear()
    for row in list(running):
        end(row)
    yield b"".join(lines)


@contextlib.contextmanager
def piped(pieces):
    """A pipe that gives pieces of bytes."""
    reading, writing = os.pipe()

    def feed():
        with open(writing, "wb", buffering=0) as pipe, contextlib.suppress(BrokenPipeError):
            for piece in pieces:
                pipe.write(piece)
    feeder = threading.Thread(target=feed, daemon=True)
    feeder.start()
    with open(reading, "rb", buffering=0) as pipe:
        yield pipe
    feeder.join()


def long(program):
    """A window near the end of a long stream, and its tiles: in bounded memory, and `why` names what limits the run."""
    with tempfile.TemporaryDirectory(prefix="boc-cut-") as folder:
        own, made = os.path.join(folder, "names"), os.path.join(folder, "made")
        write(own, b"@ %d ledger\n" % HOT)
        asked = ["--from", str(LONG - 30000), "--rows", "20000"]
        answer, fault = long_answer(program, [*asked, "--names", own, "--out-names", made])
        yield "a long stream", fault
        notes = answer.notes.decode()
        yield "a long stream: its notes", None if re.search(r"kept 256 of \d+ cowns; the span is", notes) and "alive before it" in notes else notes
        checked = program.run(["check"], answer.output)
        yield "a long stream: its record", None if re.fullmatch(rb"ok 20[0-9]{3}\n", checked.output) else f"{checked}"
        why = program.run_beside(["why"], "--names", read(made), answer.output) if os.path.exists(made) else Answer(1, b"", b"")
        yield "a long stream: its bottleneck", None if why.status == 0 and b"without ledger" in why.output else f"{why}"
    answer, fault = long_answer(program, ["--tiles", "50"])
    tiles = [line.split() for line in answer.output.decode().splitlines()]
    covers = sum(int(rows) for _, rows, _, _ in tiles) == LONG and all(fits == "fits" for *_, fits in tiles) if not fault else None
    yield "a long stream: tiles", fault or (None if covers and len(tiles) == 50 else f"{answer}")


def long_answer(program, options):
    """The answer to a long stream, and what is wrong with its status, time or memory."""
    before = processor_time()
    with piped(long_stream(LONG, LONG_COWNS)) as pipe:
        answer, used = measured([program.path, "cut", *options], SECONDS, MOST_ASKED, stdin=pipe)
    took = processor_time() - before
    fault = f"{answer.status} {answer.errors}" if answer.status or answer.errors else f"it used {used} kilobytes" if used > MOST_MEMORY else None
    return answer, fault or (f"it took {took:.0f} seconds" if took > MOST_SECONDS else None)


def processor_time():
    """How many seconds of a processor all programs have taken that ended so far."""
    used = resource.getrusage(resource.RUSAGE_CHILDREN)
    return used.ru_utime + used.ru_stime
