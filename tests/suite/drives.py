"""A drive, each of whose requests for memory is refused in turn: the answer is the want of memory, or the whole right one.

The table of `tables` has the drives, so its program is run on one of them.
"""
import os
import tempfile

from .memory import MOST_REQUESTS, SECONDS, build, run_with_refusal
from .running import Program, done, fault_of

TOP = os.path.dirname(os.path.dirname(os.path.dirname(os.path.abspath(__file__))))
TABLES = os.path.join(TOP, "crates", "tables", "out", "tables")

# Two behaviours, each of which asks for another on the same cown, and what the drive along these choices leaves.
TWO_COUNTS = "aaaaaaabaaaaaaabbaababbbbbb", b"""cown a = 0;
def inc(; x) { x = x + 1; }
def go(;) { when inc(; a); }
main { when go(;); when go(;); }""", b"""+ 0 0 0
> 0
+ 1 0 2
+ 2 0 3
< 0 3 0
> 1
> 2
+ 3 1 2 0
< 1 2 0
> 3
< 3 2 0 0
+ 4 2 2 0
< 2 2 0
> 4
< 4 2 0 0
steps 26, quiet
values 2
"""

# Two behaviours, of which the second overtakes the first on one cown and not on another.
TWO_ORDERS = "aaaaaaaaaaaaabaabbbaaababaaaaaaaabbbbbbb".replace("\n", ""), b"""cown a = 0; cown b = 0; cown p = 0; cown q = 0;
def one(; x, y) { x = x + 1; y = y + 1; }
def two(; x) { x = x * 10; }
def left(; g) { when one(; a, b); }
def right(; g) { when two(; a); }
main { when left(; p); when right(; q); }""", b"""+ 0 0 0
> 0
+ 1 0 2 2
+ 2 0 3 3
< 0 3 0
> 1
> 2
+ 3 1 2 0 1
+ 4 2 2 0
< 1 2 0
> 3
< 3 3 0 0 1
< 2 2 0
> 4
< 4 2 0 0
steps 38, quiet
values 10 1 0 0
"""

# A record, and the lines at which a spawn may want memory: those of its spawns, and the first, before any event.
RECORD = b"boc 2 2\n+ 0 0 0\n> 0\n+ 1 0 2 0\n+ 2 0 3 0 1\n+ 3 0 4 1\n< 0 4 0\n> 1\n< 1 2 0 0\n> 2\n< 2 3 0 0 1\n> 3\n< 3 2 0 1\n.\n"
SPAWN_LINES = [1, 2, 4, 5, 6]


def cases(program):
    if not os.access(TABLES, os.X_OK):
        yield "the program of the table", f"there is none at {TABLES}"
        return
    answers = Program(TABLES, program.examples)
    with tempfile.TemporaryDirectory() as folder:
        library = os.path.join(folder, "refuse.so")
        fault = build(library)
        yield "the library that refuses requests", fault
        if fault is None:
            for name, (choices, text, left) in [("two counts", TWO_COUNTS), ("two orders", TWO_ORDERS)]:
                given = choices.encode() + b"\n" + text
                source = b"drive 2 %d\n%s\n" % (len(given), given)
                yield name, fault_of_refusals(answers, library, source, left, [b"Memory\n"])
            source = b"record %d\n%s\n" % (len(RECORD), RECORD)
            # The sink stands in memory, and fails where it can't grow.
            wants = [b"line %d: 13 Memory\n" % line for line in SPAWN_LINES] + [b"out of memory\n", b"the sink failed after 0 bytes\n"]
            yield "a record that is read and written", fault_of_refusals(answers, library, source, answers.run([], source).output, wants)


def fault_of_refusals(answers, library, source, whole, wants):
    """Goes on to the number of the first request that the program doesn't make."""
    told = 0
    for request in range(1, MOST_REQUESTS):
        answer, note = run_with_refusal(answers, library, [], source, request)
        if not note:
            return fault_of(done(whole), answer) or (None if told else "it never told that memory was refused")
        if answer is None:
            return f"with request {request} refused: it did not end in {SECONDS} seconds"
        if answer.status == 0 and answer.output in wants:
            told += 1
        elif fault_of(done(whole), answer) and not is_refused_around_it(answer, whole):
            return f"with request {request} refused: {fault_of(done(whole), answer)}"
    return f"it makes more than {MOST_REQUESTS} requests"


def is_refused_around_it(answer, whole):
    """Whether the want of memory was that of the program of the table, of the reader, or of standard output."""
    return answer.output == b"line 0: 10 Memory\n" or answer.status != 0 and whole.startswith(answer.output)
