"""A run, the rules over its record, and a question about its rows, each of whose requests for memory is refused in turn: the program
`again` makes the call that was refused once more, and what it writes is then the same as where nothing was refused.
"""
import os
import tempfile

from .memory import MOST_REQUESTS, SECONDS, build, run_with_refusal
from .running import Program, done, fault_of

CRATE = os.path.join(os.path.dirname(os.path.dirname(os.path.dirname(os.path.abspath(__file__)))), "crates", "again")
BUILT = os.path.join(CRATE, "out", "again")


def cases(program):
    if not os.access(BUILT, os.X_OK):
        yield "the program that asks again", f"there is none at {BUILT}"
        return
    with open(os.path.join(CRATE, "stdout"), "rb") as file:
        whole = file.read()
    with tempfile.TemporaryDirectory() as folder:
        library = os.path.join(folder, "refuse.so")
        fault = build(library)
        yield "the library that refuses requests", fault
        if fault is None:
            yield "every call once more", fault_of_refusals(Program(BUILT, program.examples), library, whole)


def fault_of_refusals(again, library, whole):
    """Goes on to the number of the first request that the program doesn't make."""
    for request in range(1, MOST_REQUESTS):
        answer, note = run_with_refusal(again, library, [], b"", request)
        if answer is None:
            return f"with request {request} refused: it did not end in {SECONDS} seconds"
        # What standard output itself asks for is asked for once.
        if answer.status != 0 and whole.startswith(answer.output) and note:
            continue
        if fault_of(done(whole), answer) is not None:
            return f"with request {request} refused: {fault_of(done(whole), answer)}"
        if not note:
            return None if request > 50 else f"it makes no more than {request - 1} requests"
    return f"it makes more than {MOST_REQUESTS} requests"
