"""Whether each wrong body still parses and types: the edits that the gate has refused, and those beside it.

The kit's compiler reads a copy of the sources with many edits in it at once, no two on one line. Those that may be to blame for what it refuses are tried
in ever smaller parts. It reads every library as source in one pass, which ends before any proof: the crate on top of the copy moves a value twice, and the
last of the stages that an edit has to pass, the one of moves and borrows, refuses that. Code of tests and of programs isn't read.
"""
import functools
import os
import re
import shutil
import subprocess
import sys
import tempfile
from concurrent.futures import ThreadPoolExecutor
from queue import SimpleQueue
from typing import NamedTuple

from .wrong_bodies import TOP, fault_of_edit, name_of, paths

TOP_CRATE = "every_library"

PLANTED = """//! A crate on top of every library.
#![tactic(auto)]

/// Moves a value twice.
pub fn planted(held: std::vec::Vec<u8>) -> std::vec::Vec<u8> {
    let moved = held;
    held
}
"""
PLANTED_FAULT = "src/lib.rt:7:5: error[borrow-e0382]"

ERROR = re.compile(r"^(?P<path>\S+):(?P<line>\d+):\d+: (?P<said>error\b.*)", re.MULTILINE)
HEAD = re.compile(r"\s*(pub(\(\w+\))? )?(const )?fn ")

# A pass takes a quarter of a minute, and up to 700 megabytes.
SECONDS = 600
AT_ONCE = min(4, len(os.sched_getaffinity(0)))


class Edit(NamedTuple):
    """An edit: the crate that it is of, and the lines that it writes anew, each by its file and its number there."""
    name: str
    crate: str
    lines: dict


class Unknown(Exception):
    """A pass told nothing of the edits."""


def cases(_program):
    yield from cases_of(None)


@functools.lru_cache(maxsize=None)
def cases_of(crates):
    """A case for each edit of these crates, or of all."""
    if not shutil.which("rt"):
        print("note: whether each wrong body parses and types was not tried, since there is no rt", flush=True)
        return []
    asked = [(path, crate) for path, crate in paths() if not crates or crate in crates]
    edits = [edit_of(path, crate) for path, crate in asked if is_library(crate) and fault_of_edit(path, crate) is None]
    for path, crate in asked:
        if not is_library(crate):
            print(f"note: whether {name_of(path)} parses and types was not tried, since {crate} is no library", flush=True)
    rooms, found = SimpleQueue(), {}
    with tempfile.TemporaryDirectory() as folder, ThreadPoolExecutor(AT_ONCE) as pool:
        try:
            for number in range(AT_ONCE):
                rooms.put(Room(os.path.join(folder, str(number))))
            for faults in pool.map(lambda batch: faults_of(batch, rooms), batches(edits)):
                found.update(faults)
        except Unknown as error:
            return [("a pass of the kit", str(error))]
    return [(edit.name, found.get(edit.name)) for edit in edits]


def is_library(crate):
    return os.path.isfile(os.path.join(TOP, "crates", crate, "src", "lib.rt"))


def edit_of(path, crate):
    """An edit that fits the sources. It writes one line for one line."""
    before, after = {}, {}
    with open(path, encoding="utf-8") as file:
        for word, _, rest in (line.rstrip("\n").partition(":") for line in file):
            rest = rest.removeprefix(" ")
            if word == "file":
                name = os.path.join("crates", crate, rest.strip())
                if name not in before:
                    before[name] = after[name] = text_of(os.path.join(TOP, name))
            elif word == "old":
                old = rest
            elif word == "new":
                after[name] = after[name].replace(old, rest)
    lines = {(name, number): new for name, text in before.items()
             for number, (was, new) in enumerate(zip(text.split("\n"), after[name].split("\n")), 1) if was != new}
    return Edit(name_of(path), crate, lines)


def text_of(path):
    with open(path, encoding="utf-8") as file:
        return file.read()


def batches(edits):
    """The edits in as few lists as their lines allow, no line twice in a list."""
    found = []
    for edit in edits:
        for batch, taken in found:
            if taken.isdisjoint(edit.lines):
                break
        else:
            batch, taken = [], set()
            found.append((batch, taken))
        batch.append(edit)
        taken.update(edit.lines)
    return [batch for batch, _ in found]


class Room:
    """A copy of the sources of every library, with a crate on top of them all."""

    def __init__(self, folder):
        self.folder = folder
        rows = text_of(os.path.join(TOP, "crates.txt"))
        names = re.findall(r"^\w+", rows, re.MULTILINE)
        for name in names:
            shutil.copytree(os.path.join(TOP, "crates", name, "src"), os.path.join(folder, "crates", name, "src"))
        shutil.copy(os.path.join(TOP, "HANDLES"), folder)
        self.write("crates.txt", f"{rows}\n{TOP_CRATE}: {' '.join(filter(is_library, names))}\n")
        self.write(os.path.join("crates", TOP_CRATE, "src", "lib.rt"), PLANTED)
        self.top = os.path.join(folder, "crates", TOP_CRATE)
        self.command = command_of(self.top, folder)

    def write(self, name, text):
        path = os.path.join(self.folder, name)
        os.makedirs(os.path.dirname(path), exist_ok=True)
        with open(path, "w", encoding="utf-8") as file:
            file.write(text)

    def errors(self, edits):
        """What the kit refuses where these edits are made: by the file and the line, what it says."""
        texts = {}
        for edit in edits:
            for (name, number), new in edit.lines.items():
                texts.setdefault(name, text_of(os.path.join(TOP, name)).split("\n"))[number - 1] = new
        for name, lines in texts.items():
            self.write(name, "\n".join(lines))
        try:
            run = subprocess.run(self.command, cwd=self.top, stdin=subprocess.DEVNULL, stdout=subprocess.PIPE, stderr=subprocess.STDOUT, text=True,
                                 errors="replace", timeout=SECONDS, check=False)
        except subprocess.TimeoutExpired:
            raise Unknown("it did not end in time") from None
        for name in texts:
            shutil.copy(os.path.join(TOP, name), os.path.join(self.folder, name))
        errors = {(os.path.relpath(error["path"], self.folder), int(error["line"])): error["said"].replace(self.folder + os.sep, "")
                  for error in ERROR.finditer(run.stdout) if not error[0].startswith(PLANTED_FAULT)}
        if not errors and PLANTED_FAULT not in run.stdout:
            raise Unknown(f"its status is {run.returncode}, and it says {run.stdout[:400]!r}")
        return errors


def command_of(folder, root):
    """What checks the crate of this folder as far as it needs no proof, over the sources of the libraries below."""
    tools = os.path.dirname(os.path.realpath(shutil.which("rt")))
    if tools not in sys.path:
        sys.path.append(tools)
    try:
        import rtlib
        return [rtlib.RATTLE, "check", *rtlib.Crate(folder, root, {}).words(["--jobs", "1", "--only", ""], as_source=True)]
    except (ImportError, AttributeError, TypeError, SystemExit) as error:
        raise Unknown(f"this kit makes none: {error}") from None


def faults_of(edits, rooms):
    """By their names, the edits that the kit refuses, with what it says first."""
    if not edits:
        return {}
    room = rooms.get()
    try:
        errors = room.errors(edits)
    finally:
        rooms.put(room)
    if not errors:
        return {}
    if len(edits) == 1:
        (_, line), said = next(iter(errors.items()))
        return {edits[0].name: f"line {line}: {said}"}
    suspects = blamed(edits, errors)
    half = len(edits) // 2
    parts = [edits[:half], edits[half:]] if len(suspects) == len(edits) else [suspects, [edit for edit in edits if edit not in suspects]]
    return {name: fault for part in parts for name, fault in faults_of(part, rooms).items()}


def blamed(edits, errors):
    """The edits of the lines of these errors; where an error's line is of none, those of its function, else of its file, else of its crate, else all."""
    found = []
    for name, number in errors:
        function, crate = function_at(name, number), crate_of(name)
        ways = (lambda edit: (name, number) in edit.lines, lambda edit: any(name == other and at in function for other, at in edit.lines),
                lambda edit: any(name == other for other, _ in edit.lines), lambda edit: edit.crate == crate, lambda edit: True)
        found += next(filter(None, ([edit for edit in edits if way(edit)] for way in ways)))
    return [edit for edit in edits if edit in found]


def function_at(name, number):
    """The lines of the function that has this one."""
    lines = text_of(os.path.join(TOP, name)).split("\n")
    heads = [at for at, line in enumerate(lines, 1) if HEAD.match(line)]
    return range(max((at for at in heads if at <= number), default=1), min((at for at in heads if at > number), default=len(lines) + 1))


def crate_of(name):
    return name.split(os.sep)[1]
