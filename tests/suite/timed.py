"""Timed runs: who runs when, where ticks are time, is found anew by a plain simulation; and what is told of such a run is told of its record."""
import random
from collections import deque
from concurrent.futures import ThreadPoolExecutor

from . import model
from .programs import Run
from .random_programs import random_program
from .running import done, fault_of, refused

# Programs by chance, each from this seed and its number; of how many all is compared that is told of a run; and by how many workers they are run.
SEED = 20261129
PROGRAMS = 300
COMPARED = 40
WORKERS = [1, 2, 3, 4, 7, 16]
# Of how many the note is compared on the span of the timed run, and for how many workers plans are.
NOTED = 100
PLANNED = [1, 2, 4, 16, 40]

TRANSFER = b"""timed 2
0 0 4 0
1 2 4 1
2 4 7 0
3 7 9 0
end 9 bound 14
"""
OF_RECORD = b"boc: note: the input is a record, which is not run again: --timed and --workers have no effect\n"


def cases(program):
    yield from worked(program)
    yield from random_programs(program)
    yield from refusals(program)
    yield from notes(program)


class Simulation:
    """The run of a program by workers that take ticks as time. At each time first all is done that is due of busy workers, by their numbers. Then each idle
    worker, by its number, takes the row that has been ready longest."""

    def __init__(self, program, workers):
        self.run, self.serving, self.now = Run(program), [None] * workers, 0
        self.rows, self.queues, self.ready = [], {}, deque()
        self.starts, self.on, self.events = {}, {}, []
        self.spawned(0, [0])
        while self.ready or any(row is not None for row in self.serving):
            for worker, row in enumerate(self.serving):
                self.go_on(worker, row)
            for worker, row in enumerate(self.serving):
                if row is None and self.ready:
                    self.start(worker, self.ready.popleft())
            self.now = min((self.due(row) for row in self.serving if row is not None), default=self.now)

    def due(self, row):
        """When a row makes its next call."""
        wishes, meaning = self.run.wishes[row], self.run.meanings[row]
        return self.starts[row] + (wishes[-1][0] if wishes else meaning.ticks)

    def spawned(self, parent, told):
        """A row was spawned over these cowns, behind its offset. It is ready where it is the first on each."""
        row = len(self.rows)
        offset, *cowns = told
        self.rows.append((parent, offset, tuple(cowns)))
        self.events.append("+ " + " ".join(map(str, [row, parent, *told])))
        for cown in cowns:
            self.queues.setdefault(cown, deque()).append(row)
        self.make_ready(row)

    def make_ready(self, row):
        if all(self.queues[cown][0] == row for cown in self.rows[row][2]):
            self.ready.append(row)

    def start(self, worker, row):
        self.starts[row], self.on[row], self.serving[worker] = self.now, worker, row
        self.run.start(row)
        self.events.append(f"> {row}")

    def go_on(self, worker, row):
        """A worker makes all calls of its row that are due now."""
        while row is not None and self.due(row) == self.now:
            told = self.run.spawn(row)
            if told:
                self.spawned(row, told)
                continue
            told = self.run.end(row)
            self.events.append("< " + " ".join(map(str, [row, *told])))
            self.serving[worker], over, row = None, row, None
            for cown in self.rows[over][2]:
                self.queues[cown].popleft()
                if self.queues[cown]:
                    self.make_ready(self.queues[cown][0])

    def record(self):
        return model.text([f"boc 2 {len(self.run.values)}", *self.events, "."])

    def model_rows(self):
        return [model.Row(*row, self.run.ends[number][0]) for number, row in enumerate(self.rows)]

    def section(self):
        """The lines of `time` on when rows ran."""
        rows = self.model_rows()
        ends = [self.starts[number] + row.ticks for number, row in enumerate(rows)]
        lines = [f"timed {len(self.serving)}"] + [f"{number} {self.starts[number]} {end} {self.on[number]}" for number, end in enumerate(ends)]
        bound = sum(row.ticks for row in rows) // len(self.serving) + model.span(rows)
        return model.text(lines + [f"end {max(ends)} bound {bound}"]), max(ends), bound


def worked(program):
    """Rows of which it is known when they run, and how many workers there are where that isn't given."""
    text = program.example("transfer.boc")
    report = program.run(["time"], text).output
    yield "the transfer", fault_of(done(report + TRANSFER), program.run(["time", "--timed", "--workers", "2"], text))
    short = report[:report.index(b"plan\n")] + b"timed 2\nend 9 bound 14\n"
    yield "the transfer, without plans", fault_of(done(short), program.run(["time", "--timed", "-w", "2", "--no-plan"], text))
    yield "main alone", fault_of(done(b"rows 1\nwork 1\nspan 1\nchain\n0 end 1\nplan\n0 0 1\ntimed 1\n0 0 1 0\nend 1 bound 2\n"),
                                 program.run(["time", "--timed", "--workers", "1"], b"main { }"))
    text = program.example("philosophers.boc")
    for words, workers in (([], "16"), (["--p", "3"], "3"), (["--p", "17"], "16"), (["--p", "3", "--workers", "2"], "2")):
        asked = program.run(["time", "--timed", *words], text).output
        yield f"workers of {words}", None if f"\ntimed {workers}\n".encode() in asked else "they are others"
    head = program.run(["why", "--timed", "--workers", "4"], text).output.splitlines()[0]
    yield "the head of why", None if head == b"rows 31   work 1108   span 717   end 720 on 4 workers" else f"it is {head}"
    shared = program.run(["time", "--timed", "--workers", "2", "--shared-reads"], program.example("peeks.boc")).output
    yield "shared reads", None if b"span 12\n" in shared and shared.endswith(b"end 18 bound 28\n") else f"they are {shared}"


def random_programs(program):
    """Of each program by chance the run by each number of workers."""
    made, runs = [], []
    for number in range(PROGRAMS):
        plain, text = random_program(random.Random(f"{SEED} {number}"))
        made.append((plain, text))
        runs += [(number, workers) for workers in WORKERS]
    with ThreadPoolExecutor() as pool:
        answers = pool.map(lambda it: program.run(["run", "--timed", "--workers", str(it[1])], made[it[0]][1]), runs)
        for (number, workers), answer in zip(runs, answers):
            plain, text = made[number]
            simulated = Simulation(plain, workers)
            name = f"random program {number}, {workers} workers"
            yield f"{name}: run", fault_of(done(simulated.record()), answer)
            if workers == 1:
                yield f"{name}: as by one thread", fault_of(done(program.run(["run"], text).output), answer)
            if number < COMPARED:
                for what, fault in told_of(program, text, answer.output, simulated, workers):
                    yield f"{name}: {what}", fault


def told_of(program, text, record, simulated, workers):
    """The commands that tell of a run tell of this one, and `time` when it ran."""
    words = ["--timed", "--workers", str(workers)]
    section, end, bound = simulated.section()
    rows = simulated.model_rows()
    yield "the end", None if model.span(rows) <= end <= bound else f"{end} is not within {bound}"
    yield "time", fault_of(done(model.report(rows) + section), program.run(["time", *words], text))
    yield "time with a plan", fault_of(done(model.report(rows, 3) + section), program.run(["time", *words, "--p", "3"], text))
    yield "cowns", fault_of(program.run_beside(["cowns"], "--record", record, text), program.run(["cowns", *words], text))
    head, rest = program.run_beside(["why"], "--record", record, text).output.split(b"\n", 1)
    field = f"   end {end} on {workers} worker{'s' if workers > 1 else ''}".encode()
    yield "why", fault_of(done(head + field + b"\n" + rest), program.run(["why", *words], text))


def refusals(program):
    """Too many behaviours, words at odds, and a record, of which there is no other run."""
    endless = b"def f(;) { when f(;); } main { when f(;); }"
    for command in ("run", "time", "why", "cowns"):
        yield f"{command}, too many behaviours", fault_of(refused(4, "boc: run: 2 Behaviours"), program.run([command, "--timed", "-w", "3"], endless))
        for words, line in ((["--seed", "1"], b"error: the argument '--timed' cannot be used with '--seed <S>'"),
                            (["--seed", "1", "--depth", "2"], b"error: the argument '--timed' cannot be used with '--seed <S>'"),
                            (["--depth", "2"], b"error: the argument '--depth <D>' cannot be used without '--seed <S>'")):
            answer = program.run([command, "--timed", *words], b"main { }")
            is_so = answer.status == 2 and not answer.output and answer.errors.splitlines()[0] == line
            yield f"{command} --timed {words}", None if is_so else f"the answer is {answer}"
    record = program.run(["run"], b"main { }").output
    for command in ("why", "cowns"):
        yield f"{command} of a record", fault_of(done(program.run([command], record).output, OF_RECORD), program.run([command, "--timed"], record))


def note_on(plain, planned):
    """The note of `why -p P` on a program that one thread runs: the span of the timed run, where it is another one."""
    workers = min(planned, 16)
    own, timed = (model.span(Simulation(plain, number).model_rows()) for number in (1, workers))
    return b"" if own == timed else f"boc: note: timed on {workers} workers the span is {timed}: see --timed\n".encode()


def notes(program):
    """The note of `why -p P`, and of `cowns -p P`, on the span of the timed run: the last line, and only of a program that one thread runs."""
    tree, dinner = program.example("tree.boc"), program.example("handbook/dinner.boc")
    record = program.run(["run"], tree).output
    for command in ("why", "cowns"):
        for name, text, planned, span in (("the tree", tree, "4", 166), ("the tree", tree, "16", 158), ("the tree", tree, "64", 158), ("a dinner", dinner, "4", 523)):
            line = f"boc: note: timed on {min(int(planned), 16)} workers the span is {span}: see --timed\n".encode()
            answer = program.run([command, "--p", planned], text)
            yield f"the note of {command} on {name} for {planned}", fault_of(done(answer.output, line), answer)
        for words in (["--p", "4", "--quiet"], ["--p", "4", "--workers", "2"], ["--p", "4", "--seed", "1"], ["--p", "4", "--timed"], [], ["--p", "1"]):
            answer = program.run([command, *words], tree)
            yield f"no note of {command} with {words}", None if b"timed on" not in answer.notes and answer.status == 0 else f"it is {answer.notes}"
        for name, answer in (("a record", program.run([command, "--p", "4"], record)),
                             ("--record", program.run_beside([command, "--p", "4"], "--record", record, tree))):
            yield f"no note of {command} with {name}", fault_of(done(answer.output, b""), answer)
    for number in range(NOTED):
        plain, text = random_program(random.Random(f"{SEED} note {number}"))
        others = program.run(["why"], text).notes
        for planned, command in ((it, command) for it in PLANNED for command in ("why", "cowns")):
            answer = program.run([command, "--p", str(planned)], text)
            yield f"random program {number}, the note of {command} for {planned}", fault_of(done(answer.output, others + note_on(plain, planned)), answer)
