"""The ticks of a page's lines: the bodies of a run are executed again by the model of the tests, which notes for each charge the line that it is of and
whether the chain goes through it. No browser is needed."""
import collections
import random

from . import programs, random_programs
from .browser import examples_of
from .copies import view_of
from .pictures import data_of
from .program_reader import tokens_of

# How many programs are drawn, and what is put between their tokens.
RANDOM = 40
APART = [b" ", b" ", b"\n", b" # x = 3; {\n", b"\n\n", b"\t"]

# The ways in which examples are run.
RUNS = [[], ["--workers", "4", "--seed", "1"], ["--timed", "--workers", "3"]]

# Behaviours that spawn themselves in loops, whose bodies and statements share lines, with each kind of statement, faults, and blocks that are empty.
SHARED_LINES = b"""\
cown a = 1; cown b[3] = 2;
def add(n; x) { x = x + n; work n; } def twice(n; x, y) {
  if n > 0 { when twice(n - 1; x, y); } else { } repeat 2 { when add(n; y); work 1; } let z = n * 2; y = y + z; }
def falls(n; x)
{ work n; x = 7; let q = 1 / (n - n); x = q; }
def long(; x) { x = 3; repeat 10 { work 200000; } x = 4; }
def negative(; x) { repeat 0 - 1 { work 1; } }
main { repeat 3 { when twice(2; a, b[0]); when add(1; b[1]); }
  when falls(3; b[2]); when long(; a); when negative(; a); when twice(0; a, a); work 5; }
"""


class LinedParser(programs.Parser):
    """Notes the line on which each statement begins, and for each block that of the token before it, on which a body starts."""

    def __init__(self, text):
        super().__init__(text)
        self.places = [1 + text.count(b"\n", 0, token.at) for token in tokens_of(text)]
        self.noted = {}

    def statement(self):
        return self.note(0, super().statement)

    def block(self):
        return self.note(1, super().block)

    def note(self, before, part):
        line = self.places[len(self.places) - len(self.left) - before]
        said = part()
        self.noted[id(said)] = line, said
        return said


class Lines:
    """The ticks of lines, and those of them that the chain goes through."""

    def __init__(self, text):
        parser = LinedParser(text)
        self.program = programs.Program(text)
        _, self.program.bodies = parser.program()
        self.noted = parser.noted
        self.ticks = collections.defaultdict(lambda: [0, 0])

    def line_of(self, part):
        return self.noted[id(part)][0]

    def add(self, line, ticks, through):
        self.ticks[line][0] += ticks
        self.ticks[line][1] += through

    def listed(self):
        return [[line, *ticks] for line, ticks in sorted(self.ticks.items()) if ticks[0]]


class LinedExecution(programs.Execution):
    """A body under way of which each charge is noted. The chain goes through its first ticks, up to this one."""

    def __init__(self, lines, behaviour, inputs, until):
        super().__init__(lines.program, behaviour, inputs)
        self.lines, self.until, self.line = lines, until, lines.line_of(self.body.block)

    def charge(self, ticks):
        before = self.ticks
        super().charge(ticks)
        self.lines.add(self.line, ticks, max(0, min(self.until, self.ticks) - before))

    def run(self, block):
        outer = self.line
        for statement in block:
            self.line = self.lines.line_of(statement)
            if statement[0] == "repeat":
                self.charge(1)
                for _ in range(self.at_least_0(statement[1])):
                    self.charge(1)
                    self.run(statement[2])
            else:
                super().run([statement])
        self.line = outer


def lines_of(text, record, data):
    """The lines that take ticks in the run of a record, with those ticks, and those of them that the chain of a page goes through."""
    lines = Lines(text)
    chain, start, ticks = data["chain"], data["start"], data["ticks"]
    through = {row: start[after] - start[row] for row, after in zip(chain, chain[1:])}
    through[chain[-1]] = ticks[chain[-1]]

    class Run(programs.Run):
        def start(self, row):
            behaviour = self.behaviours[row]
            inputs = [self.values[cown] for cown in behaviour.cowns]
            meaning = LinedExecution(lines, behaviour, inputs, through.get(row, 0)).meaning()
            self.meanings[row], self.wishes[row] = meaning, meaning.wishes[::-1]

    original, programs.Run = programs.Run, Run
    try:
        programs.follow(lines.program, record)
    finally:
        programs.Run = original
    return lines.listed()


def fault_of_lines(data, text, record):
    """The lines of a page have the ticks that the model finds, and together the work of the run and the span of its plan."""
    wanted, found = lines_of(text, record, data), data["lines"]
    if found != wanted:
        return f"its lines are {found}, and not {wanted}"
    sums = [sum(line[place] for line in found) for place in (1, 2)]
    return None if sums == [data["work"], data["span"]] else f"its lines add up to {sums}"


def page_of(view, words, record, text):
    """The data block of a page of a program, with the record of its run beside it if there is one."""
    if record is None:
        return data_of(view.run(["page", *words], text).output)
    return data_of(view.run_beside(["page", *words], "--record", record, text).output)


def spread(text, chance):
    """The same tokens on other lines."""
    return b"".join(token.text + chance.choice(APART) for token in tokens_of(text))


def cases(program):
    view = view_of(program)
    sources = {name: program.example(name) for name in examples_of(program)}
    for name, text in [*sources.items(), ("behaviours that share lines", SHARED_LINES)]:
        for words in RUNS:
            record = program.run(["run", "--quiet", *words], text).output
            yield f"{name} {' '.join(words)}", fault_of_lines(page_of(view, words, None, text), text, record)
        yield f"{name} with its record", fault_of_lines(page_of(view, ["--shared-reads"], record, text), text, record)
    for seed in range(RANDOM):
        chance = random.Random(seed)
        drawn, text = random_programs.random_program(chance)
        record = random_programs.random_run(drawn, chance)
        shared = ["--shared-reads"] if chance.randrange(3) == 0 else []
        for what, own in (("", text), (", its tokens on other lines", spread(text, chance))):
            yield f"program {seed}{what}", fault_of_lines(page_of(view, shared, record, own), own, record)
    yield from without_lines(program, view, sources)
    yield "a model that notes another line", fault_of_faulty_models(view, program)


def without_lines(program, view, sources):
    """A record alone has no program, and so no lines."""
    for name, text in sources.items():
        data = data_of(view.run(["page"], program.run(["run", "--quiet"], text).output).output)
        yield f"{name}: its record alone", None if data["source"] is None and data["lines"] == [] else f"its lines are {data['lines']}"


def fault_of_faulty_models(view, program):
    """Where the model is made to note a tick on another line, or chain ticks past the chain's end of a row, the comparison fails."""
    record = program.run(["run", "--quiet"], SHARED_LINES).output
    data = page_of(view, [], None, SHARED_LINES)
    moved = [[line + (place == 1), *ticks] for place, (line, *ticks) in enumerate(data["lines"])]
    heavier = [[line, ticks, ticks] for line, ticks, _ in data["lines"]]
    for lines in (moved, heavier, [], data["lines"][1:]):
        if fault_of_lines({**data, "lines": lines}, SHARED_LINES, record) is None:
            return f"it finds nothing wrong with {lines}"
    return None
