"""What is shown on a terminal while a command goes on that takes long, and that nothing is shown elsewhere, nor of what ends soon."""
import dataclasses
import itertools
import os
import re
import subprocess
import tempfile
import threading
import time

from .copies import view_of
from .records import fan, fan_text
from .running import Answer, done, fault_of

# Sweeps that take longer than half a second on one processor: a greedy plan for each row, or for each of as many cowns as there may be.
ROWS = 8000
WORDS = ["sweep", "--p", "2"]
COWNS = 256
COWN_ROWS = 65_535
COWN_WORDS = ["sweep", "--cowns", "--p", "4"]

# Behaviours that run one after the other, of 5 ticks a turn and so of nearly as many as a body may take: all take about two seconds.
BEHAVIOURS = 2000
TURNS = 199_998
LONG = f"""cown a = 0;
def long(k; x) {{ let n = 0; repeat {TURNS} {{ n = n + k; }} x = x + n; }}
def many(;) {{ repeat 65535 {{ when none(;); }} }}
def none(;) {{ }}
main {{ repeat {BEHAVIOURS} {{ when long(1; a); }} %s}}
"""
# The rows of that program, main among them, and the events of its run: each row is spawned, starts and ends.
LONG_ROWS = BEHAVIOURS + 1
LONG_EVENTS = 3 * LONG_ROWS

# Ten behaviours that may spawn one each over the same cown in whatever order: so many fronts that a search of all ends takes long.
ORDERS = b"""cown a = 1; cown b[10] = 0;
def put(k; x) { x = x * 11 % 1000003 + k; }
def go(k; y) { when put(k; a); }
main { let k = 0; repeat 10 { when go(k; b[k]); k = k + 1; } }
"""

# The line goes back to its beginning and wipes what stood there.
WIPE = b"\r\x1b[K"
LINE = rb"(\d+) (?:of (\d+) done(?:, \d+ s left)?|done)"


def cases(program):
    yield from cases_of_sweeps(program)
    yield from cases_of_runs(program)
    yield from cases_of_records(program)
    answer, _ = run_on_terminal(program, ["values"], program.example("transfer.boc"))
    yield "a short program", None if answer.status == 0 and not answer.errors else f"it wrote {answer.errors}"
    answer, seconds = run_on_terminal(program, ["values"], (LONG % "when many(;); ").encode())
    lines, _, told = answer.errors.rpartition(WIPE)
    yield "how far it is before a fault", fault_of_lines(lines + WIPE, seconds, LONG_ROWS + 1)
    yield "a fault behind it", None if told.startswith(b"boc: ") and answer.status else f"it wrote {told}"


def cases_of_sweeps(program):
    """Sweeps on one processor, so that they take as long wherever there are more."""
    source = fan_text(3, fan(ROWS, lambda number: (number % 3,), lambda number: 1 + number % 4))
    yield from cases_of(program, "a sweep by greedy plans", WORDS, source, ROWS)
    for words in (["sweep"], ["sweep", "--cowns"]):
        answer, _ = run_on_terminal(program, words, source)
        yield f"{' '.join(words)} by earliest plans", None if answer.status == 0 and not answer.errors else f"it wrote {answer.errors}"
    answer, _ = run_on_terminal(program, WORDS, source[:-1])
    yield "a fault", None if answer.errors.startswith(b"boc: line ") else f"it wrote {answer.errors}"
    source = fan_text(COWNS, fan(COWN_ROWS, lambda number: (number % COWNS,), lambda number: 1 + number % 4))
    yield from cases_of(program, "a sweep over cowns", COWN_WORDS, source, COWNS)


def cases_of_runs(program):
    """Programs that are run: serially, by threads, and as a seed draws, where it is not known how many steps there are."""
    source = (LONG % "").encode()
    output = f"a {BEHAVIOURS * TURNS}\n".encode()
    for name, words, *phases in [
            ("values", ["values"], LONG_ROWS),
            ("a run by one thread", ["run", "-w", "1"], LONG_ROWS),
            ("a run that a seed draws", ["run", "--seed", "3", "-w", "2"], 0),
            ("why", ["why"], LONG_ROWS)]:
        yield from cases_of(program, name, words, source, *phases, output=output if words == ["values"] else None)
    yield from cases_of(program, "a search of all ends", ["outcomes", "--all"], ORDERS, 0)
    yield from cases_of(view_of(program), "boc-view", ["text"], source, LONG_ROWS)


def cases_of_records(program):
    """A run by several threads, and its record, which is compared with the program."""
    source = (LONG % "").encode()
    answer, seconds = run_on_terminal(program, ["run", "-w", "4"], source)
    yield "how far a run by four threads is", fault_of_lines(answer.errors, seconds, LONG_ROWS)
    record = answer.output
    with tempfile.NamedTemporaryFile(suffix=".boc") as beside:
        beside.write(source)
        beside.flush()
        answer, seconds = run_on_terminal(program, ["check", "--program", beside.name], record)
    yield "a record of a program", fault_of(program.run(["check"], record), dataclasses.replace(answer, errors=b""))
    yield "how far a record of a program is followed", fault_of_lines(answer.errors, seconds, LONG_EVENTS)


def cases_of(program, name, words, source, *phases, output=None):
    """The answer is the same on a terminal and elsewhere, and on a terminal alone it is shown how far it is, phase by phase."""
    whole = program.run(words, source)
    expected = output if output is not None else whole.output if whole else b""
    yield f"{name}, no terminal", fault_of(done(expected), whole)
    answer, seconds = run_on_terminal(program, words, source)
    yield name, fault_of(whole, dataclasses.replace(answer, errors=b""))
    yield f"how far it is: {name}", fault_of_lines(answer.errors, seconds, *phases)


def fault_of_lines(errors, seconds, *phases):
    """Each line wipes the one before, tells more of as many as a phase has, and comes a tenth of a second later or more; each phase has a line, and at the end
    the last one is wiped. A phase of which it is not known how many there are has 0 of them."""
    first, *lines = errors.split(WIPE)
    found = [re.fullmatch(LINE, line) for line in lines if line]
    if first or not found or None in found or lines[-1]:
        return f"{errors[:200]} was written"
    told = [(int(line[2] or 0), int(line[1])) for line in found]
    by_phase = [(of, [count for _, count in group]) for of, group in itertools.groupby(told, lambda pair: pair[0])]
    if [of for of, _ in by_phase] != list(phases) or any(fault_of_counts(of, counts) for of, counts in by_phase):
        return f"it told {told}"
    if phases[-1] and b" s left" not in found[-1][0]:
        return f"it told no time left: {found[-1][0]}"
    return None if len(found) <= seconds * 10 + 1 else f"{len(found)} lines were written in {seconds} seconds"


def fault_of_counts(of, counts):
    """The counts of a phase rise, and don't come to its end."""
    return counts != sorted(set(counts)) or (of and counts[-1] >= of)


def run_on_terminal(program, words, source):
    """The answer where standard error is a terminal, and how many seconds it took. It has one processor, so that nothing ends too soon."""
    reading, terminal = os.openpty()
    written = []

    def listen():
        try:
            while part := os.read(reading, 4096):
                written.append(part)
        except OSError:  # The last one who writes to a terminal has gone.
            pass

    listener = threading.Thread(target=listen)
    listener.start()
    processors = os.sched_getaffinity(0)
    with tempfile.TemporaryFile() as given:
        given.write(source)
        given.seek(0)
        begun = time.monotonic()
        os.sched_setaffinity(0, {min(processors)})
        try:
            run = subprocess.run([program.path, *words], stdin=given, stdout=subprocess.PIPE, stderr=terminal)
        finally:
            os.sched_setaffinity(0, processors)
        seconds = time.monotonic() - begun
    os.close(terminal)
    listener.join()
    os.close(reading)
    return Answer(run.returncode, run.stdout, b"".join(written)), seconds
