"""Copies of the tree, what stands for the kit in them, and what is wrong with what their scripts answer.

A copy is the tree as git would check it out, without anything that was built. On its PATH are a shell and the coreutils alone,
unless a case says otherwise; with the kit there are python3 and what stands for `rt` too.
"""
import contextlib
import os
import shlex
import shutil
import stat
import subprocess
import sys
import tempfile

from .running import Answer, Program, done
from .worked import VALUES

TOP = os.path.dirname(os.path.dirname(os.path.dirname(os.path.abspath(__file__))))
sys.path.insert(0, os.path.join(TOP, "bin", "lib"))

import tree

# What the scripts may use.
COREUTILS = ["cat", "chmod", "cp", "cut", "dirname", "head", "mkdir", "mv", "readlink", "rm", "sha256sum", "sleep", "sort", "stat", "tail",
             "tr", "uname", "wc"]

# A first answer compares a thousand files; what takes longer than this proves or hangs.
SECONDS = 60

# What install puts beside the programs.
BESIDE = {
    "share/bash-completion/completions/boc": "completions/boc.bash",
    "share/bash-completion/completions/boc-view": "completions/boc-view.bash",
    "share/zsh/site-functions/_boc": "completions/_boc",
    "share/zsh/site-functions/_boc-view": "completions/_boc-view",
    "share/fish/vendor_completions.d/boc.fish": "completions/boc.fish",
    "share/fish/vendor_completions.d/boc-view.fish": "completions/boc-view.fish",
    "share/man/man1/boc.1": "man/boc.1",
    "share/man/man1/boc-view.1": "man/boc-view.1",
}

# Whoever may not write to a folder of ours.
NOBODY = 65534

SOURCE = "crates/boc/src/main.rt"
DEFINITION = "crates/boc_program/specs/Meaning.antt"
PROOF = "crates/boc_order/proofs/Lib.antt"

# Both programs, as if they stood on two crates alone.
FEW_CRATES = "boc_text:\nboc_words: boc_text\nboc: boc_words\nboc_view: boc_words\n"

# The kit that the sources name.
KIT = tree.version()[1]


class Copy:
    """A copy of the tree, and folders of programs for its PATH. Where crates.txt is given, only the crates that it names are there."""

    def __init__(self, room, crates_text=None):
        self.room = room
        self.top = os.path.join(room, "tree")
        self.note = os.path.join(room, "note")
        self.tools = os.path.join(room, "tools")
        self.kit = os.path.join(room, "kit")
        if crates_text is None:
            with open(os.path.join(TOP, "crates.txt")) as file:
                crates_text = file.read()
        crates = filter(None, map(tree.name_of, crates_text.splitlines()))
        for part in ["bin", "completions", *(f"crates/{it}" for it in crates), "dist", "man"]:
            shutil.copytree(os.path.join(TOP, part), self.path(part), symlinks=True, ignore=shutil.ignore_patterns("out", "build.log", "__pycache__"))
        shutil.copy(os.path.join(TOP, "HANDLES"), self.top)
        with open(self.path("crates.txt"), "w") as file:
            file.write(crates_text)
        os.mkdir(self.tools)
        os.mkdir(self.kit)
        for name in ["sh", "env", *COREUTILS]:
            os.symlink(shutil.which(name), os.path.join(self.tools, name))
        os.symlink(sys.executable, os.path.join(self.kit, "python3"))
        self.kit_does("exit 1")
        os.chmod(room, 0o777)

    def path(self, name):
        return os.path.join(self.top, name)

    def kit_does(self, lines, kit=KIT):
        """What stands for the kit's command from here on: it tells of a kit, and where it is to prove, it notes its words and does these lines of a shell."""
        told = f"case $1 in version) echo {shlex.quote(kit)}; exit ;; help) echo '  --anew'; exit ;; esac"
        noted = f'echo "$@" >> {shlex.quote(self.note)}'
        write_script(os.path.join(self.kit, "rt"), f"PATH={shlex.quote(os.environ['PATH'])}\n{told}\n{noted}\n{lines}")

    def tool_does(self, name, lines):
        """Has one of the coreutils do these lines of a shell."""
        os.remove(os.path.join(self.tools, name))
        write_script(os.path.join(self.tools, name), lines)

    def environment(self, kit=False):
        return {"PATH": f"{self.kit}:{self.tools}" if kit else self.tools, "HOME": self.room}

    def run(self, *words, command="bin/boc", **options):
        """The answer of a script, of bin/boc if none is named."""
        return self.answer([command if os.path.isabs(command) else self.path(command), *words], **options)

    def answer(self, command, kit=False, source=b"", **options):
        options = {"cwd": self.room, "env": self.environment(kit), "timeout": SECONDS, **options}
        try:
            run = subprocess.run(command, input=source, capture_output=True, **options)
        except subprocess.TimeoutExpired:
            return None
        return Answer(run.returncode, run.stdout, run.stderr)

    def transfer(self, **options):
        """The answer to the values of the transfer program."""
        with open(os.path.join(TOP, "examples", "transfer.boc"), "rb") as file:
            return self.run("values", source=file.read(), **options)

    def was_called(self):
        return os.path.exists(self.note)


def view_of(program):
    """The program that draws: the boc-view beside a boc, if there is one; else that of dist/ where this one is of dist/, and the built one."""
    folder, name = os.path.split(program.path)
    path = os.path.join(folder, "boc-view")
    if name != "boc" or not os.access(path, os.X_OK):
        is_shipped = name == os.path.basename(tree.SHIPPED)
        path = os.path.join(TOP, tree.SHIPPED_VIEW if is_shipped else tree.BUILT_VIEW)
    return Program(path, program.examples)


ANSWER = done(VALUES["transfer.boc"].encode())


@contextlib.contextmanager
def copied():
    with tempfile.TemporaryDirectory(prefix="boc-tree-") as room:
        yield Copy(room)


@contextlib.contextmanager
def copied_of_few(prefix="boc-tree-"):
    """A copy with few crates, which is made and compared in a moment, and the manifest in dist/ that is of them."""
    with tempfile.TemporaryDirectory(prefix=prefix) as room:
        copy = Copy(room, FEW_CRATES)
        lay_manifest(copy)
        yield copy


def write_script(path, lines):
    with open(path, "w") as file:
        file.write(f"#!/bin/sh\n{lines}\n")
    os.chmod(path, 0o755)


def lay_manifest(copy):
    """Writes the manifest of what stands in dist/."""
    text = tree.manifest(tree.MANIFEST, tree.ALL_SHIPPED, KIT, tree.sums(tree.sources(copy.top), copy.top), copy.top)
    tree.write_whole(copy.path(tree.MANIFEST), text.encode())


def lay_built(copy):
    """Lays two programs where a build leaves them, which say `built here` and `built to view`, with their manifest."""
    for built, word in zip(tree.ALL_BUILT, ["here", "to view"]):
        os.makedirs(os.path.dirname(copy.path(built)), exist_ok=True)
        write_script(copy.path(built), f"echo built {word}")
    text = tree.manifest(tree.BUILT_MANIFEST, tree.ALL_BUILT, "a kit", tree.sums(tree.sources(copy.top), copy.top), copy.top)
    tree.write_whole(copy.path(tree.BUILT_MANIFEST), text.encode())


def change(copy, name, keep_date=False, at=2):
    """Changes one byte of a file, which keeps its size; each text has a word of a comment there."""
    path = copy.path(name)
    was = os.stat(path)
    with open(path, "r+b") as file:
        data = bytearray(file.read())
        data[at] ^= 1
        file.seek(0)
        file.write(data)
    if keep_date:
        os.utime(path, ns=(was.st_atime_ns, was.st_mtime_ns))


def refusal(answer, status, *words):
    """What is wrong with a refusal: it has this status and tells these words on standard error, and nothing goes out."""
    if answer is None:
        return "it did not end in time"
    if (answer.status, answer.output) != (status, b""):
        return f"the status {answer.status} and {answer.output!r} in place of the status {status} and nothing"
    missing = [it for it in words if it.encode() not in answer.errors]
    return f"{answer.errors!r} says nothing of {missing}" if missing else None


def fault_of_beside(prefix):
    """The programs and what goes with them are there, as they are in the tree, and nothing else."""
    for name, source in BESIDE.items():
        path = os.path.join(prefix, name)
        if not os.path.isfile(path) or tree.sum_of(path) != tree.sum_of(os.path.join(TOP, source)):
            return f"{name} is not {source}"
        if stat.S_IMODE(os.stat(path).st_mode) != 0o644:
            return f"{name} may be read or run by others than it should be"
    return fault_of_files(prefix, {"bin/boc", "bin/boc-view", *BESIDE})


def fault_of_files(prefix, wanted):
    """These files are below a folder, and no others."""
    found = {os.path.relpath(os.path.join(folder, name), prefix) for folder, _, names in os.walk(prefix) for name in names}
    return None if found == wanted else f"{sorted(found)} are there in place of {sorted(wanted)}"
