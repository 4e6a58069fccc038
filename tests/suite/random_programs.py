"""Programs by chance, runs of them in which chance says what happens next, and records with a change at one place."""
from .programs import GREATEST, Program, Run, serial_run

MOST_BEHAVIOURS = 40
MOST_COUNTED = 3


class Writer:
    """Writes a program whose runs end: a def with a parameter `n` spawns while `n` is above 0, and hands on `n - 1`; the others spawn nothing."""

    def __init__(self, chance):
        self.chance = chance
        self.cowns = [(f"c{number}", chance.choice([None, None, 1, 2, 3, 4])) for number in range(chance.randint(1, 4))]
        self.defs = [self.signature(f"d{number}") for number in range(chance.randint(1, 5))]

    def signature(self, name):
        values = ["n"] * self.is_lucky(0.6) + [f"p{number}" for number in range(self.chance.choice([0, 1, 1, 2]))]
        return name, values, [f"x{number}" for number in range(self.chance.choice([0, 1, 1, 1, 2, 2, 3, 4, 5]))]

    def is_lucky(self, share):
        return self.chance.random() < share

    def text(self):
        lines = [f"cown {name}{f'[{size}]' if size else ''} = {self.initial()};" for name, size in self.cowns]
        for name, values, cowns in self.defs:
            self.held, self.is_main, self.counts = cowns, False, "n" in values
            lines += [f"def {name}({', '.join(values)}; {', '.join(cowns)}) " + self.block(values + cowns, 3)]
        self.held, self.is_main = [], True
        return "\n".join(lines + ["main " + self.block([], 3, True)]).encode() + b"\n"

    def initial(self):
        return self.chance.choice([0, 1, 2, 3, 5, 8, -1, -4, GREATEST if self.is_lucky(0.2) else 10])

    def block(self, names, depth, is_counted=False):
        """Statements in a block in which these names are in scope; and in one of a def, whether `n` was found to be above 0."""
        names = list(names)
        statements = [self.statement(names, depth, is_counted) for _ in range(self.chance.randint(depth, 2 * depth))]
        return "{ " + " ".join(statements) + " }"

    def statement(self, names, depth, is_counted):
        kinds = ["assign"] * 4 + ["let", "work"] + ["if", "repeat"] * (depth > 1) + ["spawn"] * (12 if self.is_main else 6 if self.counts else 0)
        kind = self.chance.choice(kinds)
        targets = [name for name in names if name != "n"]
        if kind == "spawn":
            return self.when(names) if is_counted else "if n > 0 " + self.block(names, 1, True)
        if kind == "if":
            other = " else " + self.block(names, depth - 1, is_counted) if self.is_lucky(0.5) else ""
            return f"if {self.expression(names)} " + self.block(names, depth - 1, is_counted) + other
        if kind == "repeat":
            turns = self.expression(names, 0) + " % 4" if self.is_lucky(0.2) else self.chance.randint(0, 3)
            return f"repeat {turns} " + self.block(names, depth - 1, is_counted)
        if kind == "work":
            ticks = self.chance.choice([999990, 1000000]) if self.is_lucky(0.03) else self.chance.randint(0, 12)
            return f"work {self.expression(names) if self.is_lucky(0.15) else ticks};"
        if kind == "assign" and targets:
            return f"{self.chance.choice(targets)} = {self.expression(names)};"
        new = f"v{len(names)}"
        statement = f"let {new} = {self.expression(names)};"
        names.append(new)
        return statement

    def when(self, names):
        name, values, cowns = self.chance.choice(self.defs)
        arguments = [self.expression(names, 1) for _ in values]
        if "n" in values:
            arguments[0] = str(self.chance.randint(0, MOST_COUNTED)) if self.is_main else "n - 1"
        refs = self.members(len(cowns)) if self.is_lucky(0.3) else []
        while len(refs) < len(cowns):
            ref = self.ref(names)
            if ref not in refs or self.is_lucky(0.1):
                refs.append(ref)
        return f"when {name}({', '.join(arguments)}; {', '.join(refs)});"

    def members(self, most):
        """At most so many members of an array that follow each other."""
        arrays = [(name, size) for name, size in self.cowns if size]
        if not arrays:
            return []
        name, size = self.chance.choice(arrays)
        first = self.chance.randrange(size)
        return [f"{name}[{member}]" for member in range(first, min(size, first + most))]

    def ref(self, names):
        name, size = self.chance.choice(self.cowns + [(held, None) for held in self.held])
        if size is None:
            return name
        index = f"{self.expression(names, 1)} % {size}" if names and self.is_lucky(0.3) else self.chance.randrange(size + self.is_lucky(0.05))
        return f"{name}[{index}]"

    def expression(self, names, depth=2):
        kind = self.chance.choice(["atom", "+", "+", "-", "*", "/", "%", "()", "minus", "compared"]) if depth else "atom"
        if kind == "atom":
            return self.chance.choice(names) if names and self.is_lucky(0.7) else str(GREATEST if self.is_lucky(0.03) else self.chance.randrange(10))
        left = self.expression(names, depth - 1)
        if kind == "minus":
            return "-" + left
        if kind == "()":
            return f"({left})"
        if kind == "compared":
            return f"({left} {self.chance.choice(['==', '!=', '<', '<=', '>', '>='])} {self.expression(names, depth - 1)})"
        is_divided = kind in "/%" and self.is_lucky(0.8)
        return f"{left} {kind} {self.chance.randint(1, 7) if is_divided else self.expression(names, depth - 1)}"


def random_program(chance):
    """A program with some behaviours in its serial run, and its text."""
    least = chance.choice([2, 4, 8, 16])
    while True:
        text = Writer(chance).text()
        program = Program(text)
        run = serial_run(program, MOST_BEHAVIOURS)
        if run and len(run.behaviours) >= least:
            return program, text


def random_run(program, chance):
    """The record of a run: time and again, of what the rules allow next, one comes about by chance."""
    run, pending, running = Run(program), [0], []
    lines = [["boc", 2, len(program.cowns)], ["+", 0, 0, 0]]
    while pending or running:
        may_start, before = [], {cown for row in running for cown in run.behaviours[row].cowns}
        for row in pending:
            may_start += [] if before & set(run.behaviours[row].cowns) else [row]
            before |= set(run.behaviours[row].cowns)
        row = chance.choice(may_start + running)
        spawned = run.spawn(row) if row in running else None
        if spawned:
            pending.append(len(run.behaviours) - 1)
            lines.append(["+", pending[-1], row, *spawned])
        elif row in running:
            running.remove(row)
            lines.append(["<", row, *run.end(row)])
        else:
            pending.remove(row)
            running.append(row)
            run.start(row)
            lines.append([">", row])
    return record_text(lines + [["."]])


def record_text(lines):
    return "".join(" ".join(map(str, line)) + "\n" for line in lines).encode()


def random_change(chance, record):
    """The text of a record with a change at one place, which may be none of a record: a number of a line, or its cowns, or two lines in turn. Or it is in
    version 1, as if each row had written all its cowns."""
    lines = [line.split(" ") for line in record.decode().splitlines()]
    places = [0, 0] + [place for place, line in enumerate(lines[:-1]) if line[0] != ">" or chance.random() < 0.2]
    place, at = chance.choice(places), chance.choice([2, 3, 4])
    line = lines[place]
    if place == 0 and at == 4:
        return record_text([["boc", 1, *line[2:]]] + [line[:4] if line[0] == "<" else line for line in lines[1:]])
    if line[0] == ">" or chance.random() < 0.05:
        lines[place], lines[place + 1] = lines[place + 1], line
    elif at == 4:
        line[4:] = sorted(set(map(int, line[4:])) ^ {chance.randrange(int(lines[0][2]))})
    else:
        at = min(at, len(line) - 1)
        line[at] = max(0, int(line[at]) + chance.choice([-2, -1, 1, 2]))
    return record_text(lines)
