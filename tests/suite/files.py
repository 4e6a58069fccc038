"""The file that a command reads its input from: a path, `-` or none, what is told of one that can't be read, and files that never end."""
import os
import stat
import tempfile
import threading

from .copies import NOBODY
from .copies import view_of
from .records import TRANSFER, lines_text
from .running import MOST_ASKED, MOST_MEMORY, Answer, fault_of, measured, refused

RECORD = lines_text(TRANSFER)

# Each command with words of its own, and whether it reads a record.
COMMANDS = [
    (["values"], False),
    (["run"], False),
    (["time"], False),
    (["outcomes", "--runs", "3"], False),
    (["outcomes", "--all"], False),
    (["outcomes", "--all", "--end", "1"], False),
    (["why"], False),
    (["cowns"], False),
    (["check"], True),
    (["profile"], True),
    (["profile", "--p", "2"], True),
    (["why"], True),
    (["cowns"], True),
    (["curve"], True),
    (["sweep"], True),
    (["sweep", "--cowns"], True),
    (["whatif"], True),
    (["whatif", "2=1"], True),
    (["cut"], True),
    (["cut", "--from", "2", "--rows", "1"], True),
    (["cut", "--tiles", "2"], True),
]

# Words of `whatif` with a file among the edits, and those without it.
AMONG_EDITS = [
    (["whatif", "FILE", "2=1", "1=1"], ["whatif", "2=1", "1=1"]),
    (["whatif", "2=1", "FILE", "1=1"], ["whatif", "2=1", "1=1"]),
    (["whatif", "2=1", "1=1", "FILE"], ["whatif", "2=1", "1=1"]),
    (["whatif", "--without", "1", "FILE", "2=1"], ["whatif", "--without", "1", "2=1"]),
]

# What is told of a file of `whatif` that isn't there, since its word may be meant as an edit.
WHY_FILE = "     a word with neither = nor @ is the FILE with the input; an edit is ROW=TICKS, ROW@OFFSET, ROW=K/D or DEF=K/D\n"

# A program that has read as much as it wants ends at once.
SECONDS = 20

# So long is a file of which no byte stands on a disk.
SPARSE = 10 * 1024 ** 3

# The most bytes of a file of names: so many lines of four bytes, and the next one goes beyond.
MOST_NAMES = 8 * 1024 * 1024
COMMENT = b"# c\n"
BEYOND = "boc: names: line %d: 2 TooLong" % (MOST_NAMES // len(COMMENT) + 1)

# Words that read a file beside the input, which they read as this option's, whether a program is the input, and whether `boc-view` takes them.
BESIDE = [
    (["why"], "--names", True, False),
    (["cowns"], "--names", False, False),
    (["whatif"], "--names", False, False),
    (["whatif"], "--program", False, False),
    (["check"], "--program", False, False),
    (["values"], "--record", True, False),
    (["why"], "--record", True, False),
    (["cowns"], "--record", True, False),
    (["text"], "--names", True, True),
    (["page"], "--record", True, True),
]

# What is told of a file of zeros.
OF_ZEROS = {
    "--names": "boc: names: line 1: 2 TooLong",
    "--program": "boc: program: line 1: 9 TooLong",
    "--record": "boc: record: line 1: 1 Header",
}

# Files that never end, by what stands at their front and what they go on with, and what is told of them: of names, and of records.
ENDLESS_NAMES = [
    (b"", COMMENT, BEYOND),
    (b"", b"\n", f"boc: names: line {MOST_NAMES + 1}: 2 TooLong"),
    (b"= 0 main\n", COMMENT, "boc: names: line %d: 2 TooLong" % ((MOST_NAMES - 9) // len(COMMENT) + 2)),
    (b"", b"= 9 nobody\n", "boc: names: line 1: 4 NoRow"),
    (b"# c\n", b"c", "boc: names: line 2: 2 TooLong"),
]
ENDLESS_RECORDS = [
    (b"boc ", b"\0", "line 1: 1 Header"),
    (b"boc 1 0\n", b"\0", "line 2: 2 Form"),
    (b"boc 1 0\n+ 0 0 0\n", b"> 0\n", "line 4: 7 StartNotAllowed"),
    (RECORD, b"\n", f"line {len(TRANSFER) + 1}: 12 After"),
]
OF_RECORDS = ["check", "profile", "whatif", "curve", "sweep", "why", "cowns"]

# Programs that never end, of which as many bytes are read as are too many.
ENDLESS_PROGRAMS = [(b"", b"\0", "line 1: 9 TooLong"), (b"", b"\n", "line 65537: 9 TooLong"), (b"main { }\n", b"#", "line 2: 9 TooLong")]
OF_PROGRAMS = ["values", "run", "time", "outcomes", "why", "cowns"]


def cases(program):
    with tempfile.TemporaryDirectory(prefix="boc-files-") as folder:
        source = {False: program.example("transfer.boc"), True: RECORD}
        path = {False: written(folder, "transfer.boc", source[False]), True: written(folder, "transfer.record", RECORD)}
        for words, is_record in COMMANDS:
            yield from inputs(program, words, source[is_record], path[is_record])
        for words, others in AMONG_EDITS:
            given = [path[True] if word == "FILE" else word for word in words]
            yield f"{words}", fault_of(program.run(others, RECORD), program.run(given))
        yield from unreadable(program, folder)
        yield from too_many(program, path[True])
        faulty = written(folder, "faulty.record", b"boc 3 2\n")
        yield "a faulty file", fault_of(refused(3, "boc: line 1: 1 Header"), program.run(["check", faulty]))
        yield from long_names(program, folder, path[True])
        yield from endless(program, folder, path)


def inputs(program, words, source, path):
    """The same bytes have one answer, whether they come from standard input or from a file."""
    expected = program.run(words, source)
    yield f"{words}: standard input", None if expected.status == 0 else f"the answer {expected}"
    yield f"{words} FILE", fault_of(expected, program.run([*words, path], b"no program and no record"))
    yield f"{words} -", fault_of(expected, program.run([*words, "-"], source))
    yield f"{words} FILE, no standard input", fault_of(expected, program.run_by_shell(f'exec "$0" "$@" {path} <&-', words))


def unreadable(program, folder):
    absent = os.path.join(folder, "absent")
    for words in [["values"], ["check"], ["whatif", "2=1"], ["why"]]:
        more = WHY_FILE if words[0] == "whatif" else ""
        told = Answer(5, b"", f"boc: {absent}: No such file or directory (os error 2)\n{more}".encode())
        yield f"{words}: no such file", same(told, program.run([*words, absent], RECORD))
        told = Answer(5, b"", f"boc: {folder}: Is a directory (os error 21)\n".encode())
        yield f"{words}: a folder", same(told, program.run([*words, folder], RECORD))
    closed = written(folder, "closed", RECORD)
    os.chmod(closed, 0)
    os.chmod(folder, stat.S_IRWXU | stat.S_IXGRP | stat.S_IXOTH)
    told = Answer(5, b"", f"boc: {closed}: Permission denied (os error 13)\n".encode())
    who = {"user": NOBODY, "group": NOBODY, "extra_groups": []} if os.getuid() == 0 else {}
    yield "a file that may not be read", same(told, program.run(["check", closed], **who))


def long_names(program, folder, path):
    """A file of names may be as long as that, and no byte longer."""
    longest = COMMENT * (MOST_NAMES // len(COMMENT))
    for more, expected in ((b"", program.run(["cowns", path])), (b"\n", refused(3, BEYOND)), (b"x\n", refused(3, BEYOND.replace("2 TooLong", "3 Form")))):
        yield f"a file of {len(longest + more)} bytes of names", fault_of(expected, program.run(["cowns", path, "--names", written(folder, "long", longest + more)]))


def endless(program, folder, path):
    """Files that never end, or are far longer than they may be, are refused after as many bytes as can matter, and take little memory."""
    view, sparse = view_of(program), written(folder, "sparse", b"")
    os.truncate(sparse, SPARSE)
    for words, option, is_program, is_view in BESIDE:
        command = [(view if is_view else program).path, *words, option]
        for zeros in ("/dev/zero", sparse):
            yield f"{words} {option} {zeros}", fault_of_bounded(OF_ZEROS[option], [*command, zeros, path[not is_program]])
        known = {"--names": ENDLESS_NAMES, "--record": [(*given, f"boc: record: {fault}") for *given, fault in ENDLESS_RECORDS],
                 "--program": [(*given, f"boc: program: {fault}") for *given, fault in ENDLESS_PROGRAMS]}
        for front, more, line in known[option]:
            with fed(folder, front, more) as pipe:
                yield f"{words} {option} of {front} and {more} ..", fault_of_bounded(line, [*command, pipe, path[not is_program]])
    for commands, files in ((OF_RECORDS, ENDLESS_RECORDS), (OF_PROGRAMS, ENDLESS_PROGRAMS)):
        for front, more, line in files:
            for command in [[program.path, word] for word in commands] + [[view.path, "text"]]:
                with fed(folder, front, more) as pipe:
                    yield f"{command[1:]} of {front[-20:]} and {more} ..", fault_of_bounded(f"boc: {line}", [*command, pipe])


class fed:
    """The path of a pipe that gives some bytes, and others over and over for as long as somebody reads."""

    def __init__(self, folder, front, more):
        self.path, self.front, self.more = os.path.join(folder, "pipe"), front, more * (65536 // len(more))

    def __enter__(self):
        os.mkfifo(self.path)
        threading.Thread(target=self.feed, daemon=True).start()
        return self.path

    def __exit__(self, *_):
        os.remove(self.path)

    def feed(self):
        try:
            with open(self.path, "wb", buffering=0) as pipe:
                pipe.write(self.front)
                while True:
                    pipe.write(self.more)
        except BrokenPipeError:  # The reader has gone.
            pass


def fault_of_bounded(line, command):
    """What is wrong where this command is to refuse its input or the file beside it by this line."""
    answer, used = measured(command, SECONDS, MOST_ASKED)
    return f"it used {used} kilobytes" if used > MOST_MEMORY else fault_of(refused(3, line), answer)


def too_many(program, path):
    for words in [["check", path, path], ["values", path, "-"], ["whatif", path, "2=1", path], ["whatif", "-", "2=1", "-"]]:
        answer = program.run(words, RECORD)
        is_refused = answer is not None and answer.status == 2 and not answer.output and answer.errors
        yield f"{words[0]}: two files", None if is_refused else f"the answer {answer}"


def same(expected, answer):
    """What is wrong with an answer to which nothing is added."""
    if answer is not None and answer.errors != expected.errors:
        return f"it told {answer.errors!r} in place of {expected.errors!r}"
    return fault_of(expected, answer)


def written(folder, name, content):
    path = os.path.join(folder, name)
    with open(path, "wb") as file:
        file.write(content)
    return path
