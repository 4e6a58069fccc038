#!/usr/bin/env python3
"""Records a run of behaviours (tasks) over cowns (concurrent owners), so that `boc` can analyse it: a module for runtimes in Python 3.9 or later.

docs/RECORDING.md says where the calls belong. In short, with the queues of all its cowns locked:

    behaviour.row = recorder.spawn(parent.row, "transfer", [cown.asked for cown in behaviour.cowns])

and around the body, while it holds its cowns:

    recorder.start(behaviour.row)
    behaviour.body()                            # recorder.wrote(behaviour.row, cown.asked) if it writes that cown
    recorder.end(behaviour.row)                 # status=1 if it failed

In the mode PROFILE a spawn notes its turn at each cown, and `write` finds an order of the events that keeps them. AUDIT also keeps the order in which
things happened, so that `boc check` can judge it.

As a program this makes a record of the buffers that boc_record.h or boc_record.rs dumped:

    boc_record.py [--close] [--whole] [--names FILE] BUFFERS > RECORD
"""
import argparse
import array
import collections
import dataclasses
import heapq
import itertools
import re
import sys
import time

PROFILE, AUDIT = "profile", "audit"

MOST_ROWS = 65535
MOST_COWNS = 256
MOST_HELD = 8
MOST_TICKS = 1000000
MOST_LINE = 80
MOST_NAME = 64

# What a row takes in memory, about, without its cowns and for each of them.
ROW_BYTES = 700
COWN_BYTES = 100

SPAWN, START, END = range(3)
SIGNS = "+><"


class Cown:
    """What a cown of the runtime has for the recorder."""
    __slots__ = ("number", "turns")

    def __init__(self, number):
        self.number = number
        self.turns = 0


class Row:
    """A behaviour. Times are those of the clock; those of events are None until they happen."""
    __slots__ = ("parent", "name", "arguments", "turns", "written", "offset", "last", "began", "ended", "status", "is_main", "is_outside")

    def __init__(self, parent, name, arguments, turns, offset):
        self.parent = parent
        self.name = name
        self.arguments = arguments
        self.turns = turns          # the number of each cown, and its turn there, from 1 on
        self.written = set()        # numbers of cowns
        self.offset = offset
        self.last = 0               # the offset of its last child
        self.began = None
        self.ended = None           # how long it took
        self.status = 0
        self.is_main = False
        self.is_outside = False


# The row of a behaviour that is not recorded, since there is no memory for it.
LOST = Row(None, "", (), (), 0)


@dataclasses.dataclass
class Report:
    """What `write` did. `lines` are worth showing to whoever waits for the record."""
    spawned: int = 0        # rows that were recorded
    kept: int = 0           # rows of the record
    pending: int = 0        # rows left out that had not started, if asked for
    broken: int = 0         # rows left out, because a row before them is missing
    strange: int = 0        # starts and ends that were out of place, in PROFILE
    scale: int = 1          # a tick is this many units, since a row took over 1,000,000
    full: bool = False      # the memory was used up: later rows were not recorded
    bound: str = ""         # why the record has the first rows only

    @property
    def lines(self):
        said = [
            (self.bound, f"the first {self.kept} of {self.spawned} rows: {self.bound}"),
            (self.full, f"recording stopped after {self.spawned} rows, so the record is the run's beginning"),
            (self.pending, f"{self.pending} rows are left out that had not started"),
            (self.broken, f"{self.broken} rows are left out since one before them is missing"),
            (self.strange, f"{self.strange} starts or ends were out of place; record in audit mode to see where"),
            (self.scale > 1, f"a tick is {self.scale} units of the clock's, since a row took more than 1,000,000"),
        ]
        return [f"boc_record: {line}" for is_so, line in said if is_so]


class Failed(Exception):
    """Why there is no record."""


class Recorder:
    """Records the behaviours of one run. All calls may come from several threads at once."""

    def __init__(self, mode=PROFILE, clock=time.perf_counter_ns, unit=1000, memory=64 << 20, knows_writes=False):
        """The clock grows with the time or the work of the thread that runs a body; a unit of it is a tick. Each behaviour counts as writing all its
        cowns, unless the runtime knows what it writes, and calls `wrote`."""
        if mode not in (PROFILE, AUDIT):
            raise ValueError(f"the mode is {mode!r}, and not {PROFILE!r} or {AUDIT!r}")
        self.mode = mode
        self.clock = clock
        self.unit = unit
        self.memory = memory
        self.knows_writes = knows_writes
        self.names = {}
        self.rows = []
        self.events = []        # in AUDIT: each with its row, in the order in which they happened; list.append is one step for all threads
        self.strange = 0
        self.stopped = False
        self.numbers = itertools.count()
        self.offsets = itertools.count(1)
        self.mains = itertools.count()

    def cown(self, name=None):
        """A cown. `acct[0]` and `acct[1]` are members of an array."""
        cown = Cown(next(self.numbers))
        if name is not None:
            self.names[cown.number] = word_of(name)
        return cown

    def outside(self):
        """The row 0 of a program whose threads spawn from outside the runtime: the parent of all that they spawn. Call it once, before any spawn."""
        row = self.spawn(None, "outside")
        if row is not LOST:
            row.is_outside = True
        self.start(row)
        return row

    def spawn(self, parent, name, cowns=(), arguments=()):
        """Records a spawn over these cowns, while their queues are locked, on the thread that runs the parent. The first one has None as its parent.
        Arguments are shown with the name. Returns the behaviour's row."""
        if self.stopped or parent is LOST:
            return LOST
        self.memory -= ROW_BYTES + COWN_BYTES * len(cowns)
        if self.memory < 0:
            self.stopped = True
            return LOST
        turns = []
        for cown in cowns:
            cown.turns += 1
            turns.append((cown.number, cown.turns))
        row = Row(parent, name, arguments, turns, 0 if parent is None else self.next_offset(parent))
        row.is_main = parent is None and next(self.mains) == 0
        self.rows.append(row)
        if self.mode == AUDIT:
            self.events.append((SPAWN, row))
        return row

    def next_offset(self, parent):
        """The offset of the next child of a row. Offsets rise strictly."""
        if parent.is_outside:
            return next(self.offsets)
        passed = 0 if parent.began is None else self.clock() - parent.began
        parent.last = max(parent.last + 1, passed)
        return parent.last

    def start(self, row):
        """Records the start, once all cowns are held."""
        if row is LOST:
            return
        if self.mode == AUDIT:
            self.events.append((START, row))
        if row is None or row.began is not None:
            self.strange += 1
        else:
            row.began = self.clock()

    def wrote(self, row, cown):
        """Records that the body writes this cown of its own."""
        if row is not None and row is not LOST:
            row.written.add(cown.number)

    def end(self, row, status=0):
        """Records the end, while the cowns are still held. The status is 1 if the body failed."""
        if row is LOST:
            return
        now = self.clock()
        if self.mode == AUDIT:
            self.events.append((END, row))
        if row is None or row.ended is not None or row.began is None and self.mode == PROFILE:
            self.strange += 1
        else:
            row.status = status
            row.ended = max(row.last, 0 if row.began is None else now - row.began)

    def write(self, record, names=None, close=False, whole=False):
        """Writes the record, and the names of its rows and cowns if there is a file for them. Other threads may still run, and a signal handler may
        call this. Returns a report.

        close: rows that wait are left out, and rows that run end, so that a run that hangs or crashed becomes a record.
        whole: everything is written, also what is too much for `boc`."""
        events = list(self.events) if self.mode == AUDIT else None
        run = Run(list(self.rows), events)
        run.names = dict(self.names)
        run.unit = self.unit
        run.knows_writes = self.knows_writes
        report = run.write(record, names, close, whole)
        report.full = self.stopped
        report.strange = self.strange if self.mode == PROFILE else 0
        return report


def word_of(text):
    """A text as `boc` takes it for a name: printable ASCII without blanks. Any other character becomes `_`."""
    return re.sub(r"[^!-~]", "_", str(text))[:MOST_NAME] or "_"


class Run:
    """Rows on their way into a record. `events` are given in AUDIT, else an order is found for them."""

    def __init__(self, rows, events=None):
        self.rows = rows
        self.is_audit = events is not None
        self.events = events or []
        self.places = {row: place for place, row in enumerate(rows)}
        self.times = [(row.began, row.ended if row.began is not None else None) for row in rows]    # as they are now, if threads go on
        self.names = {}
        self.unit = 1000
        self.knows_writes = False

    def write(self, record, names, close, whole):
        report = Report(spawned=len(self.rows))
        if not self.is_audit:
            broken = self.leave_out_broken()
            report.broken = len(broken)
            self.order(broken)
        else:
            report.broken = len(self.rows) - sum(kind == SPAWN for kind, _ in self.events)
        self.close(close, report)
        spawns = [row for kind, row in self.events if kind == SPAWN]
        if not spawns:
            raise Failed("nothing was recorded")
        kept = spawns if whole else self.fitting(spawns, report)
        report.kept = len(kept)
        numbers = {row: number for number, row in enumerate(spawns)}
        self.events = [(kind, row) for kind, row in self.events if numbers.get(row, len(kept)) < len(kept) or row not in numbers and kept == spawns]
        cowns, count = self.numbered_cowns(kept, whole)
        values = self.scaled(whole, report)
        record.write(f"boc {2 if self.knows_writes else 1} {count}\n")
        record.writelines(self.line_of(kind, row, value, numbers, cowns, len(kept)) for (kind, row), value in zip(self.events, values))
        record.write(".\n")
        if names is not None:
            names.writelines(f"@ {number} {self.names.get(cown, f'cown[{cown}]')}\n" for cown, number in cowns.items())
            names.writelines(name_line(number, row) for number, row in enumerate(kept))
        return report

    # An order of the events of PROFILE

    def turns_at_cowns(self):
        """At each cown, the turns and rows there, in this order."""
        at = collections.defaultdict(list)
        for row in self.rows:
            for number, turn in row.turns:
                if turn:
                    at[number].append((turn, self.places[row]))
        return {number: sorted(turns) for number, turns in at.items()}

    def leave_out_broken(self):
        """Rows of which one before them is missing: at a cown, among the children of their parent, or the parent. Buffers that are read while threads
        go on may lack some."""
        children = [[] for _ in self.rows]
        for place, row in enumerate(self.rows):
            if row.parent in self.places:
                children[self.places[row.parent]].append((row.offset, place))
        self.children = [[place for _, place in sorted(of)] for of in children]
        self.next_child = {a: b for of in self.children for a, b in zip(of, of[1:])}
        self.after = [[] for _ in self.rows]    # the rows that have the next turn at each of its cowns
        broken = [place for place, row in enumerate(self.rows) if row.parent not in self.places and not row.is_main or not is_complete(row)]
        for turns in self.turns_at_cowns().values():
            for (before, first), (turn, place) in zip([(0, None), *turns], turns):
                if turn != before + 1:
                    broken.append(place)
                if first not in (None, place):
                    self.after[first].append(place)
        found = set()
        while broken:
            place = broken.pop()
            if place not in found:
                found.add(place)
                broken += self.children[place][:1] + self.after[place]
                broken += [self.next_child[place]] if place in self.next_child else []
        return found

    def time_of(self, kind, place):
        """The clock at an event, as far as clocks of several threads can be compared."""
        row = self.rows[place]
        if kind == SPAWN:
            return 0 if row.is_main or row.parent.is_outside else self.times[self.places[row.parent]][0] + row.offset
        began, ended = self.times[place]
        return began + (ended if kind == END else 0)

    def order(self, broken):
        """Finds an order that keeps the turns: of the events that may come next, always the one with the earliest clock."""
        waits = [[0, 1, 1] for _ in self.rows]
        whole = [place for place in range(len(self.rows)) if place not in broken]
        for place in whole:
            if not self.rows[place].is_main:
                waits[place][SPAWN] += 1
                waits[self.places[self.rows[place].parent]][END] += 1
            for after in self.after[place]:
                waits[after][SPAWN] += 1
                waits[after][START] += 1
        heap = []

        def may_come(place, kind, less=1):
            waits[place][kind] -= less
            happened = kind == SPAWN or self.times[place][kind - START] is not None
            if waits[place][kind] == 0 and place not in broken and happened:
                heapq.heappush(heap, (self.time_of(kind, place), kind, place))

        for place in whole:
            may_come(place, SPAWN, 0)
        while heap:
            _, kind, place = heapq.heappop(heap)
            row = self.rows[place]
            self.events.append((kind, row))
            for after in self.after[place] if kind != START else ():
                may_come(after, SPAWN if kind == SPAWN else START)
            if kind == SPAWN:
                may_come(place, START)
                if not row.is_main:
                    may_come(self.places[row.parent], END)
                if place in self.next_child:
                    may_come(self.next_child[place], SPAWN)
            elif kind == START:
                may_come(place, END)
                if self.children[place]:
                    may_come(self.children[place][0], SPAWN)
        still_run = [place for place in whole if self.times[place][1] is None]
        if len(self.events) < 3 * len(whole) - len(still_run) and all(self.rows[place].is_outside for place in still_run):
            raise Failed("no order of the events keeps the turns at the cowns; record in audit mode to see where")

    # What goes into the record

    def close(self, all_rows, report):
        """Ends what still runs, and leaves out what has not started: of all rows, or of the row 0 of threads outside only."""
        started = {row for kind, row in self.events if kind == START}
        ended = {row for kind, row in self.events if kind == END}
        if all_rows:
            report.pending = sum(kind == SPAWN and row not in started for kind, row in self.events)
            self.events = [(kind, row) for kind, row in self.events if row is None or row in started]
        self.events += [(END, row) for row in self.rows if row in started and row not in ended and (all_rows or row.is_outside)]

    def fitting(self, spawns, report):
        """As many of the first rows as fit into a record. If not all cowns of the run do, only those count that rows share."""
        of_all = {number for row in self.rows for number, _ in row.turns}
        self.keeps_all = len(of_all) <= MOST_COWNS and all(len(row.turns) <= MOST_HELD for row in self.rows)
        first, counts, shared, cowns = {}, collections.Counter(), collections.Counter(), 0
        for kept, row in enumerate(spawns):
            if kept == MOST_ROWS:
                report.bound = "a record has at most 65,535"
                return spawns[:kept]
            holds_too_many = False
            for number, _ in row.turns:
                counts[number] += 1
                both = [first.setdefault(number, row)] * (counts[number] == 2) + [row] * (counts[number] > 1)
                cowns += counts[number] == 2
                for one in both:
                    shared[one] += 1
                    holds_too_many |= shared[one] > MOST_HELD
            if not self.keeps_all and (cowns > MOST_COWNS or holds_too_many):
                report.bound = f"the next one makes {'more than 256 cowns' if cowns > MOST_COWNS else 'a row with more than 8 cowns'} that rows share"
                return spawns[:kept]
        return spawns

    def numbered_cowns(self, kept, whole):
        """The numbers of the record's cowns, as the runtime has them if that fits, and how many there are."""
        counts = collections.Counter(number for row in kept for number, _ in row.turns)
        numbers = sorted(number for number, count in counts.items() if whole or self.keeps_all or count > 1)
        if whole or not numbers or numbers[-1] < MOST_COWNS:
            return {number: number for number in numbers}, numbers[-1] + 1 if numbers else 0
        return {number: place for place, number in enumerate(numbers)}, len(numbers)

    def measured(self, unit):
        """The ticks of each event, of this many units of the clock: the offset of a spawn, the ticks of an end."""
        last = collections.Counter()
        for kind, row in self.events:
            if kind == SPAWN and row.parent is not None:
                last[row.parent] = max(last[row.parent] + 1, 0 if row.parent.is_outside else row.offset // unit)
                yield last[row.parent]
            elif kind == END and row is not None:
                yield max(1, last[row], 0 if row.is_outside else (row.ended or 0) // unit)
            else:
                yield 0

    def scaled(self, whole, report):
        """The ticks of each event by the unit times the least of 1, 2, 5, 10, 20, 50 and so on by which they fit."""
        for scale in (part * 10 ** tens for tens in itertools.count() for part in (1, 2, 5)):
            values = list(self.measured(self.unit * scale))
            if whole or max(values) <= MOST_TICKS:
                report.scale = scale
                return values

    def line_of(self, kind, row, value, numbers, cowns, kept):
        """The line of an event. A row that was not spawned has the number after those of the record, or of any record if it is a parent."""
        fields = [SIGNS[kind], numbers.get(row, kept)]
        if kind == SPAWN:
            fields += [0 if row.is_main else numbers.get(row.parent, MOST_ROWS), value]
            fields += sorted(cowns[number] for number, _ in row.turns if number in cowns)
        elif kind == END:
            fields += [value, 0 if row is None else row.status]
            if self.knows_writes and row is not None:
                fields += sorted(cowns[number] for number in row.written if number in cowns)
        return " ".join(map(str, fields)) + "\n"


def is_complete(row):
    """Whether the turns of a row at all its cowns are known: if a dump was made in the middle of a spawn, some are not."""
    return all(turn for _, turn in row.turns)


def name_line(number, row):
    """What a row is called, with as many of its arguments as there is space for."""
    line = f"= {number} {word_of(row.name)}"
    for argument in row.arguments:
        more = f"{line} {word_of(argument)}"
        if len(more) > MOST_LINE:
            break
        line = more
    return line + "\n"


# Buffers that boc_record.h and boc_record.rs dump: their comments say what is in a slot

HEAD, PARENT, OFFSET, LAST, BEGAN, ENDED, SPAWN_AT = range(7)
CHUNK_WORDS = 8192
IS_MAIN, IS_OUTSIDE = 1, 2
WRITTEN = 1 << 63


class Buffers:
    """What a dump has, as far as it goes: one that is cut off lacks the rest."""

    def __init__(self, file):
        self.is_cut = True
        self.defs, self.names, self.stranges, self.slots = {}, {}, [], {}
        mark, version, *numbers = (file.readline().decode("ascii", "replace").split() + ["", ""])[:7]
        if (mark, version) != ("boc-buffers", "1") or len(numbers) != 5 or not all(number.isdigit() for number in numbers):
            raise Failed("these are not the buffers of a recorder")
        self.is_audit, self.knows_writes, self.unit, self.events, self.strange = map(int, numbers)
        self.header = SPAWN_AT + 3 if self.is_audit else SPAWN_AT
        try:
            while self.is_cut:
                self.take(file)
        except (ValueError, IndexError):
            raise Failed("these are not buffers of this kind of machine, or they are damaged") from None
        except EOFError:
            pass

    def take(self, file):
        line = file.readline()
        if not line.endswith(b"\n"):
            raise EOFError
        word, *rest = line.decode("ascii").split()
        if word == "end":
            self.is_cut = False
        elif word == "def":
            self.defs[int(rest[0])] = rest[1]
        elif word == "cown":
            self.names.setdefault(int(rest[0]), rest[1])
        elif word == "strange":
            self.stranges.append(tuple(map(int, rest)))
        elif word == "chunk":
            self.take_chunk(int(rest[0]), int(rest[1]), file)
        else:
            raise ValueError(word)

    def take_chunk(self, number, used, file):
        if used > CHUNK_WORDS:
            raise ValueError(used)
        data = file.read(8 * used)
        words = array.array("Q", data[:len(data) // 8 * 8])
        at = 1
        while at < len(words):
            size, cowns, count = words[at] & 0xffff, words[at] >> 16 & 0xffff, words[at] >> 48 & 0xff
            if size != self.header + cowns + count:
                raise ValueError(size)
            if at + size <= len(words):
                self.slots[number * CHUNK_WORDS + at] = words[at:at + size]
            at += size
        if len(data) < 8 * used:
            raise EOFError

    def row_of(self, slot):
        """The row of a slot, as yet without its parent."""
        cowns, def_number, count, flags = slot[HEAD] >> 16 & 0xffff, slot[HEAD] >> 32 & 0xffff, slot[HEAD] >> 48 & 0xff, slot[HEAD] >> 56
        asked = slot[self.header:self.header + cowns]
        arguments = [word - (1 << 64) if word >> 63 else word for word in slot[self.header + cowns:self.header + cowns + count]]
        turns = [(word & 0xffffffff, word >> 32 & 0x7fffffff) for word in asked]
        row = Row(None, self.defs.get(def_number, "_"), arguments, turns, slot[OFFSET])
        row.written = {word & 0xffffffff for word in asked if word & WRITTEN}
        row.last = slot[LAST]
        row.began = slot[BEGAN] or None
        if slot[ENDED]:
            row.ended, row.status = slot[ENDED] >> 3, (slot[ENDED] & 7) - 1
        row.is_main, row.is_outside = bool(flags & IS_MAIN), bool(flags & IS_OUTSIDE)
        return row

    def run(self):
        rows = {place: self.row_of(slot) for place, slot in sorted(self.slots.items())}
        nowhere = Row(None, "", (), (), 0)
        for place, row in rows.items():
            if self.slots[place][PARENT] or not row.is_main:
                row.parent = rows.get(self.slots[place][PARENT], nowhere)
        run = Run(list(rows.values()), self.events_of(rows) if self.is_audit else None)
        run.names = self.names
        run.unit = self.unit
        run.knows_writes = bool(self.knows_writes)
        return run

    def events_of(self, rows):
        """The events in the order of their numbers, up to the first number whose event is not there."""
        at = {}
        for place, row in rows.items():
            happened = (is_complete(row), row.began is not None, row.ended is not None)
            at.update({number: (kind, row) for kind, number in enumerate(self.slots[place][SPAWN_AT:SPAWN_AT + 3]) if number and happened[kind]})
        at.update({number: (kind, rows.get(place)) for number, kind, place in self.stranges})
        return [at[number] for number in itertools.takewhile(at.__contains__, range(1, self.events + 1))]


def main():
    parser = argparse.ArgumentParser(description="Makes a record of the buffers that boc_record.h or boc_record.rs dumped, on standard output.")
    parser.add_argument("buffers", metavar="BUFFERS")
    parser.add_argument("--names", metavar="FILE", help="write what rows and cowns are called to FILE")
    parser.add_argument("--close", action="store_true", help="leave out rows that wait, and end rows that run")
    parser.add_argument("--whole", action="store_true", help="write everything, also what is too much for boc")
    asked = parser.parse_args()
    names = None
    try:
        with open(asked.buffers, "rb") as file:
            buffers = Buffers(file)
        if asked.names:
            names = open(asked.names, "w", encoding="ascii")
        report = buffers.run().write(sys.stdout, names, asked.close, asked.whole)
        report.strange = 0 if buffers.is_audit else buffers.strange
        sys.stdout.flush()
    except (Failed, OSError) as error:
        sys.exit(f"boc_record: {error}")
    finally:
        if names is not None:
            names.close()
    if buffers.is_cut:
        print("boc_record: the buffers are cut off", file=sys.stderr)
    for line in report.lines:
        print(line, file=sys.stderr)


if __name__ == "__main__":
    main()
