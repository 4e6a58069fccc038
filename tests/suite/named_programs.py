"""Examples and programs by chance: what is told of their runs in the names of their texts, beside what is worked out plainly from the text and the record."""
import os
import random

from . import why
from .hot_cowns import cowns_text
from .notes import ends_of, notes_of
from .programs import Program, RunNames, Strays, follow, serial_run
from .random_programs import random_change, random_program, random_run
from .running import done, fault_of, refused

# Programs by chance, each from this seed and its number.
SEED = 20261127
PROGRAMS = 500
MOST_TRIED = 100

# Runs of more rows are not judged for workers here: the plain model looks at each pair of rows.
MOST_JUDGED = 40


def cases(program):
    for name in sorted(os.listdir(program.examples)):
        if name.endswith(".boc"):
            text = program.example(name)
            for case, fault in Tested(program, random.Random(f"{SEED} {name}"), Program(text), text).cases(is_changed=False):
                yield f"{name}: {case}", fault
    for number in range(PROGRAMS):
        chance = random.Random(f"{SEED} {number}")
        for name, fault in Tested(program, chance, *random_program(chance)).cases(is_changed=number % 10 == 0):
            yield f"random program {number}: {name}", fault


class Tested:
    """A program, and what chance does with it."""

    def __init__(self, program, chance, model, text):
        self.program, self.chance, self.model, self.text = program, chance, model, text

    def cases(self, is_changed):
        serial = serial_run(self.model, 65535)
        noted = notes_of(serial.ends, RunNames(serial).rows)
        yield "values", fault_of(done(serial.values_text(), noted), self.program.run(["values"], self.text))
        one, four = (self.program.run(["run", "--workers", workers], self.text).output for workers in ("1", "4"))
        by_chance = random_run(self.model, self.chance)
        for name, record in [("one worker", one), ("four workers", four), ("chance", by_chance)]:
            try:
                yield from self.of_run(f"a run by {name}", record, follow(self.model, record), name == "one worker")
            except Strays as strays:
                yield f"a run by {name}", f"line {strays.args[0]}: {strays.args[1]}"
        if is_changed:
            yield from self.changed(by_chance)

    def of_run(self, name, record, run, is_by_one=False):
        """What is told of the program beside a record of this run. Without a record the run by one thread is told."""
        names, rows = RunNames(run), why.rows_of(record)[0]
        noted = notes_of(ends_of(record), names.rows)
        yield f"{name}: check --program", fault_of(done(b"ok %d\n" % len(rows)), self.program.run_beside(["check"], "--program", self.text, record))
        yield f"{name}: values --record", fault_of(done(run.values_text(), noted), self.program.run_beside(["values"], "--record", record, self.text))
        for words, told in [(["why"], why.why(rows, names)), (["why", "--all"], why.why(rows, names, True)),
                            (["cowns"], cowns_text(record.decode(), names).encode())]:
            command = " ".join(words)
            yield f"{name}: {command} --record", fault_of(done(told, noted), self.program.run_beside(words, "--record", record, self.text))
            if is_by_one:
                yield command, fault_of(done(told, noted), self.program.run(words, self.text))
        if not is_by_one or len(rows) > MOST_JUDGED:
            return
        for words, told in [(["why", "-p", "2"], why.why(rows, names, workers=2)), (["why", "--then", "3"], why.steps(rows, names, 3)),
                            (["cowns", "-p", "3"], cowns_text(record.decode(), names, workers=3).encode())]:
            yield f"{name}: {' '.join(words)} --record", fault_of(done(told, noted), self.program.run_beside(words, "--record", record, self.text))

    def changed(self, record):
        """A record with a change at one place, such that it is the record of some run still."""
        for _ in range(MOST_TRIED):
            changed = random_change(self.chance, record)
            if changed != record and self.program.run(["check"], changed).status == 0:
                yield from self.of_change(changed)
                return
        yield "a change", f"none was found in {MOST_TRIED} tries"

    def of_change(self, record):
        try:
            yield from self.of_run("a change", record, follow(self.model, record))
        except Strays as strays:
            line, kind = strays.args
            told = f"line {line}: {kind}"
            yield f"a change, {told}: check", fault_of(refused(3, f"boc: {told}"), self.program.run_beside(["check"], "--program", self.text, record))
            yield f"a change, {told}: values", fault_of(refused(3, f"boc: record: {told}"), self.program.run_beside(["values"], "--record", record, self.text))
