"""The scripts of bin/, each with what stands for the kit: what they answer, leave and refuse, where they are called in other ways or something fails meanwhile.

They are tried on copies of the tree with few crates, side by side.
"""
import fcntl
import os
import pty
import re
import shutil
import stat
import subprocess
import tempfile
import time
from concurrent.futures import ProcessPoolExecutor
from multiprocessing import get_context

from .copies import ANSWER, KIT, SECONDS, SOURCE, TOP, change, copied_of_few, fault_of_beside, fault_of_files, lay_built, lay_manifest, refusal, tree
from .copies import write_script
from .copies import view_of
from .running import Answer, Program, done, fault_of

TRANSFER = os.path.join(TOP, "examples", "transfer.boc")
VERSION = done(("\n".join(tree.version()) + "\n").encode())

# What the kit leaves at the top of a copy of the sources: two programs, or those of dist/.
LEAVES = " && ".join(f"mkdir -p {os.path.dirname(built)} && printf '#!/bin/sh\\necho {word}\\n' > {built} && chmod +x {built}"
                     for built, word in zip(tree.ALL_BUILT, ["new", "newly drawn"]))
LEAVES_SHIPPED = "\n".join(f'mkdir -p {os.path.dirname(built)} && cp "$DIST/{os.path.basename(shipped)}" {built}'
                           for built, shipped in zip(tree.ALL_BUILT, tree.ALL_SHIPPED))

# What it leaves in the folder of one crate.
LEAVES_CRATE = "name=$(basename \"$PWD\"); mkdir -p out/rlib; printf '#!/bin/sh\\necho new\\n' > \"out/$name\"; chmod +x \"out/$name\""

# What rt ci and tests/program say, what bin/test says last, and its status.
TOTALS = [
    ("both pass", "echo '5 passed, 0 failed'", "echo '7 passed, 0 failed'", "12 passed, 0 failed", 0),
    ("the gate fails behind a good last line", "echo '5 passed, 0 failed'; exit 1", "echo '7 passed, 0 failed'", "12 passed, 1 failed", 1),
    ("the gate fails without counts", "echo no; exit 1", "echo '7 passed, 0 failed'", "7 passed, 1 failed", 1),
    ("the gate ends well without counts", "echo no", "echo '7 passed, 0 failed'", "7 passed, 1 failed", 1),
    ("the gate tells of failures", "echo '5 passed, 2 failed'; exit 1", "echo '7 passed, 0 failed'", "12 passed, 2 failed", 1),
    ("tests tell of failures", "echo '5 passed, 0 failed'", "echo '7 passed, 3 failed'; exit 1", "12 passed, 3 failed", 1),
    ("tests end without counts", "echo '5 passed, 0 failed'", "exit 2", "5 passed, 1 failed", 1),
]


def cases(program):
    # They are processes and no threads: a script that one of them still writes is open in no child of another.
    with ProcessPoolExecutor(mp_context=get_context("fork")) as pool:
        for told in [pool.submit(all_of, part, program) for part in PARTS]:
            yield from told.result()


def all_of(part, program):
    return list(part(program))


def of_status(answer, status, *words):
    """What is wrong with an answer: it has this status, and tells these words."""
    if answer is None:
        return "it did not end in time"
    missing = [it for it in words if it.encode() not in answer.output + answer.errors]
    return None if answer.status == status and not missing else f"the status {answer.status} in place of {status}, or nothing of {missing}: {answer}"


def shipment(copy):
    """What stands in dist/, by name."""
    return {name: tree.sum_of(copy.path(f"dist/{name}")) for name in os.listdir(copy.path("dist"))}


# bin/boc and bin/boc-view.

def calls(_program):
    """The folder of this tree has blanks in its name."""
    with copied_of_few("boc a tree ") as copy:
        with open(copy.path(".boc-checked"), "w"):
            pass
        os.link(copy.path(".boc-checked"), os.path.join(copy.room, "kept"))
        yield "a tree in a folder with blanks in its name", fault_of(ANSWER, copy.transfer())
        is_kept = os.path.getsize(os.path.join(copy.room, "kept")) == 0
        yield "a note is moved to its place", None if is_kept else "the old one was written over, so a reader may see a part"
        for name in ["transfer.boc", "a transfer.boc"]:
            shutil.copy(TRANSFER, os.path.join(copy.room, name))
            yield f"{name!r} in the folder that it is called from", fault_of(ANSWER, copy.run("values", name))
        yield "words that are no command: the status is the program's", of_status(copy.run("bogus"), 2)
        yield "a record with a fault: the status is the program's", of_status(copy.run("check", source=b"boc 3 2\n"), 3)
        link = os.path.join(copy.room, "link")
        os.symlink(copy.path("bin/boc-view"), link)
        yield "boc-view through a link", fault_of(VERSION, copy.run("--version", command=link))
        write_script(copy.path("bin/boc"), 'echo "<${COLUMNS-none}>"')
        write_script(os.path.join(copy.tools, "tput"), "echo 133")
        yield "boc-view on a terminal: its width", fault_of_columns(copy, "133")
        yield "boc-view on a terminal: COLUMNS that was set stays", fault_of_columns(copy, "60", COLUMNS="60")


def fault_of_columns(copy, wanted, **more):
    """What is wrong with the columns that bin/boc is told by bin/boc-view, on a terminal."""
    reading, writing = pty.openpty()
    subprocess.run([copy.path("bin/boc-view")], stdin=subprocess.DEVNULL, stdout=writing, env={**copy.environment(), **more}, timeout=SECONDS, check=False)
    os.close(writing)
    try:
        told = os.read(reading, 100).strip()
    except OSError:
        told = b""
    os.close(reading)
    return None if told == f"<{wanted}>".encode() else f"{told!r} in place of {wanted}"


def edits(_program):
    """Sources that change between two looks at them."""
    with copied_of_few() as copy:
        begun = os.path.join(copy.room, "begun")
        compare = f'{shutil.which("sha256sum")} "$@"; status=$?'
        edit = f"[ -e {begun} ] || {{ : > {begun}; echo >> {copy.path(SOURCE)}; }}"
        copy.tool_does("sha256sum", f"{compare}; {edit}; exit $status")
        copy.transfer()
        yield "an edit during a first call: a later one doesn't answer from dist", refusal(copy.transfer(), 127, f"first {SOURCE}")
    with copied_of_few() as copy:
        change(copy, SOURCE)
        lay_built(copy)
        yield "what was built here answers", fault_of(done(b"built here\n"), copy.transfer())
        change(copy, SOURCE, keep_date=True, at=3)
        yield "and not once a source has changed since", refusal(copy.transfer(kit=True), 70, "proving and building")


def shipments_that_do_not_run(_program):
    with copied_of_few() as copy:
        os.chmod(copy.path(tree.SHIPPED_VIEW), 0o644)
        yield "boc-view without its run bit", refusal(copy.run("--version", command="bin/boc-view"), 70, tree.SHIPPED_VIEW, "chmod +x")
        os.chmod(copy.path(tree.SHIPPED_VIEW), 0o755)
        write_script(copy.path(tree.SHIPPED), "exit 1")
        lay_manifest(copy)
        yield "a program that does not start on this machine", refusal(copy.transfer(), 70, "GNU C library", "does not start here")


# bin/unproved.

# What stands for a kit's `rt try`: it has its compiler make a module, a script that tells the crate and the version, and is as large as a program's.
TRIES = """\
here=$(dirname "$(dirname "$(readlink -f "$0")")")
[ "$1" = try ] || exit 2
[ ! -e {fails} ] || {{ echo 'error[stub]: no such name' >&2; exit 1; }}
crate=$(basename "$PWD")
cd "$(mktemp -d)"
{{
    printf '#!/bin/sh\\nexec cat <<END\\n%s\\n' "$crate"
    cat "$OLDPWD/../boc_words/src/version.rt"
    printf 'END\\n'
    head -c 1000001 /dev/zero | tr '\\0' '#'
}} > module.bc
"$here/toolchain/bin/clang" -c -x ir module.bc -o module.o
"""

# Its compiler and its linker take the text of a module for what is made of it.
COMPILES = """\
for word; do case "$word" in *.bc|*.ll) [ -n "$in" ] || in=$word ;; esac; out=$word; done
cp "$in" "$out"
"""
LINKED = """\
while [ $# -gt 0 ]; do case "$1" in -o) out=$2 ;; */module.o) in=$1 ;; esac; shift; done
cp "$in" "$out"
"""


def lay_tries(copy):
    """Puts a kit on the copy's PATH that can try programs. Its path, and that of a file by which a try fails."""
    kit, fails = (os.path.join(copy.room, name) for name in ["kits", "fails"])
    for folder in ["bin", "toolchain/bin", "toolchain/lib", "c", "rattle"]:
        os.makedirs(os.path.join(kit, folder))
    path = f"PATH={os.environ['PATH']}\n"
    for name, text in [("bin/rt", TRIES.format(fails=fails)), ("bin/rtlib.py", ""), ("bin/rattle", "exit 0"),
                       ("toolchain/bin/clang", COMPILES), ("toolchain/bin/ld.lld", LINKED)]:
        write_script(os.path.join(kit, name), path + text)
    os.remove(os.path.join(copy.kit, "rt"))
    os.symlink(os.path.join(kit, "bin", "rt"), os.path.join(copy.kit, "rt"))
    return fails


def unproved(_program):
    with copied_of_few() as copy:
        os.symlink(os.path.join(copy.kit, "python3"), os.path.join(copy.tools, "python3"))
        yield "unproved without the kit", of_status(copy.run("values", command="bin/unproved"), 127, "the command rt of the Rattle kit is not on the PATH")
        fails, before = lay_tries(copy), shipment(copy)
        with open(copy.path(tree.VERSION), "rb") as file:
            version = file.read()
        folder = os.path.join(copy.room, "un proved")

        def answer(*words):
            return copy.run(*words, command="bin/unproved", kit=True)

        yield "both programs without a proof", of_status(answer("--build", folder), 0, "boc-view")
        for name, crate in [("boc", "boc"), ("boc-view", "boc_view")]:
            made = copy.answer([os.path.join(folder, name), "--version"])
            yield f"{name} without a proof says so", of_status(made, 0, crate, "\\nunproved\\n")
        with open(copy.path(tree.VERSION), "rb") as file:
            yield "the version of the sources stays", None if file.read() == version else "it was changed"
        alone = os.path.join(copy.room, "alone")
        yield "one program", of_status(answer("--build", alone, "boc-view"), 0) or (None if os.listdir(alone) == ["boc-view"] else str(os.listdir(alone)))
        os.symlink(copy.path("dist"), os.path.join(copy.room, "link"))
        for place in [copy.path("dist"), copy.path("dist/../dist"), os.path.join(copy.room, "link"), copy.path("bin"), copy.path("crates/boc/out"), copy.path(".")]:
            yield f"no unproved programs into {os.path.relpath(place, copy.room)}", of_status(answer("--build", place), 1, "bin/unproved:")
        yield "what is shipped stays", None if shipment(copy) == before else "it was changed"
        for words in [["--build"], ["--build", folder, "bocs"], ["--build", folder, "boc", "boc"]]:
            yield f"bin/unproved with {len(words)} words", of_status(answer(*words), 1, "--build takes a FOLDER")
        with open(fails, "w"):
            pass
        last = os.path.join(copy.room, "last")
        yield "sources that can't be tried", of_status(answer("--build", last), 1, "no such name", "boc can't be tried")
        yield "and no program is left", None if not os.listdir(last) else f"{os.listdir(last)}"


# bin/pages.

def pages(_program):
    with copied_of_few() as copy:
        def answer(*words):
            return copy.run(*words, command="bin/pages", kit=True)

        yield "pages --check of the tree", fault_of(done(b""), answer("--check"))
        change(copy, "man/boc.1")
        os.remove(copy.path("completions/_boc-view"))
        differing = [f"{it} is not what bin/pages writes\n".encode() for it in ("man/boc.1", "completions/_boc-view")]
        yield "pages --check of a changed file and one that is gone", fault_of(Answer(1, b"".join(differing), b""), answer("--check"))
        yield "pages", fault_of(done(b""), answer())
        yield "pages has written both", fault_of(done(b""), answer("--check"))
        yield "pages --write", refusal(answer("--write"), 1, "pages [--check]")
        for line, words in [("--nothing = ''", "no usage of boc-view has --nothing"), ("[boc.commands.run]\nusage = []", "pages.toml"),
                            ("[boc-view.commands.more]\nline = ''\nusage = ['[--more]']", "more names --more")]:
            with open(copy.path("bin/lib/pages.toml"), "a") as file:
                size = file.tell()
                file.write(f"{line}\n")
            yield f"pages with {line!r} in its table", refusal(answer("--check"), 1, words)
            os.truncate(copy.path("bin/lib/pages.toml"), size)


# bin/install.

def installs(_program):
    with copied_of_few() as copy:
        prefix = os.path.join(copy.room, "prefix")
        yield "install into a folder beside the one that it is called from", fault_of_relative(copy)
        copy.run(prefix, command="bin/install", umask=0o077)
        modes = {stat.S_IMODE(os.stat(f"{prefix}/bin/{name}").st_mode) for name in ("boc", "boc-view")}
        yield "install where new files are closed to others: who may run the programs", None if modes == {0o755} else f"{modes}"
        yield "install where new files are closed to others: who may read the rest", fault_of_beside(prefix)
        os.link(f"{prefix}/bin/boc", os.path.join(copy.room, "old"))
        off = copy.run(prefix, command="bin/install")
        is_new = not os.path.samefile(f"{prefix}/bin/boc", os.path.join(copy.room, "old"))
        yield "install over a program: it takes its place at once", None if is_new else "the old file was written over"
        yield "install where PREFIX/bin is not on the PATH", of_status(off, 0, "not on the PATH")
        on = copy.run(prefix, command="bin/install", env={"PATH": f"{copy.tools}:{prefix}/bin", "HOME": copy.room})
        yield "install where PREFIX/bin is on the PATH", None if on.status == 0 and b"not on the PATH" not in on.output else f"{on}"
        yield from checkouts(copy)
        copy.tool_does("cp", 'printf half > "$2"; exit 1')
        half = os.path.join(copy.room, "half")
        yield "install where a copy fails", refusal(copy.run(half, command="bin/install"), 73, "can't be written to")
        yield "and no part of it is there", fault_of_files(half, set())


def fault_of_relative(copy):
    answer = copy.run("beside", command="bin/install")
    if answer.status != 0 or os.path.exists(copy.path("beside")):
        return f"{answer}, or it is in the tree"
    return fault_of_beside(os.path.join(copy.room, "beside"))


def checkouts(copy):
    """The bin of a checkout is no place to install into, by whatever path."""
    home, other = os.path.join(copy.room, "home"), os.path.join(copy.room, "other")
    os.mkdir(home)
    os.symlink(copy.top, os.path.join(home, ".local"))
    os.mkdir(os.path.join(copy.room, "linked"))
    os.symlink(copy.path("bin"), os.path.join(copy.room, "linked", "bin"))
    shutil.copytree(copy.path("bin"), os.path.join(other, "bin"))
    was = scripts_of(copy.top), scripts_of(other)
    places = [
        ("the checkout, by its whole path", [copy.top], {}),
        ("the checkout, as the folder that it is called from", ["."], {"cwd": copy.top}),
        ("the checkout, from a folder of it", [".."], {"cwd": copy.path("bin")}),
        ("the checkout, out of a folder that is not there yet", ["new/.."], {"cwd": copy.top}),
        ("the checkout, by a link", [os.path.join(home, ".local")], {}),
        ("the checkout, as ~/.local", [], {"env": {**copy.environment(), "HOME": home}}),
        ("a folder whose bin is a link to that of the checkout", ["linked"], {}),
        ("another checkout", [other], {}),
    ]
    for name, words, options in places:
        yield f"install into {name}", refusal(copy.run(*words, command="bin/install", **options), 73, "the bin of a checkout", "another folder")
    yield "install into a checkout leaves it as it was", None if (scripts_of(copy.top), scripts_of(other)) == was else "bin has changed, or share is there"


def scripts_of(top):
    """What stands in a checkout's bin, by name, and whether share is beside it."""
    bin_ = os.path.join(top, "bin")
    return {name: tree.sum_of(os.path.join(bin_, name)) for name in os.listdir(bin_) if name != "lib"}, "share" in os.listdir(top)


# bin/ship, bin/build and bin/reproduce.

def ships(_program):
    with copied_of_few() as copy:
        change(copy, SOURCE)
        was = shipment(copy)
        failing = [
            ("a crate is not proved", "exit 1", "not proved"),
            ("a crate is not proved, and programs are left", f"{LEAVES}; exit 1", "not proved"),
            ("a source changes meanwhile", f"{LEAVES}; echo >> {copy.path(SOURCE)}", "changed meanwhile"),
        ]
        for name, lines, why in failing:
            copy.kit_does(lines)
            yield f"ship where {name}", refusal(copy.run(command="bin/ship", kit=True), 1, why)
            yield f"ship where {name}: dist/ stays as it was", None if shipment(copy) == was else "it has changed"
        copy.kit_does(LEAVES, kit="another kit")
        yield "ship with another kit", refusal(copy.run(command="bin/ship", kit=True), 1, "another kit", KIT)
        copy.kit_does(LEAVES)
        yield "ship", of_status(copy.run(command="bin/ship", kit=True), 0, *tree.ALL_SHIPPED, tree.MANIFEST)
        yield "the program that was shipped answers", fault_of(done(b"new\n"), copy.transfer())
        yield "and the other one", fault_of(done(b"newly drawn\n"), copy.run(command="bin/boc-view"))


def fault_of_manifest_built(copy, wanted):
    is_there = os.path.exists(copy.path(tree.BUILT_MANIFEST))
    return None if is_there == wanted else f"{tree.BUILT_MANIFEST} {'is there' if is_there else 'is missing'}"


def builds(_program):
    with copied_of_few() as copy:
        change(copy, SOURCE)
        lay_built(copy)
        eaten = os.path.join(copy.room, "eaten")
        copy.kit_does(f"wc -c >> {eaten}; exit 1")
        yield "build where a crate is not proved", of_status(copy.run(command="bin/build", kit=True), 1, "not proved")
        yield "build where a crate is not proved: no manifest is left", fault_of_manifest_built(copy, False)
        yield "an answer that waits for a build that fails", refusal(copy.transfer(kit=True), 70, "proving and building", "the build failed")
        with open(eaten) as file:
            told = file.read().split()
        yield "a build leaves standard input to the program", None if set(told) == {"0"} else f"it read {told} bytes of it"
        yield "a build waits for another one", fault_of_waiting(copy)
        copy.kit_does(f"{LEAVES_CRATE}; echo >> {copy.path(SOURCE)}")
        yield "build where a source changes meanwhile", of_status(copy.run(command="bin/build", kit=True), 1, "meanwhile")
        yield "build where a source changes meanwhile: no manifest is left", fault_of_manifest_built(copy, False)
        copy.kit_does(LEAVES_CRATE)
        yield "build", of_status(copy.run(command="bin/build", kit=True), 0, "0 left")
        yield "build: its manifest is left", fault_of_manifest_built(copy, True)
        yield "the program that was built answers", fault_of(done(b"new\n"), copy.transfer())


def fault_of_waiting(copy):
    """While another build has the tree, none asks the kit for anything; a second is time enough for one that would."""
    os.remove(copy.note)
    with open(copy.path(".boc-building"), "w") as lock:
        fcntl.flock(lock, fcntl.LOCK_EX)
        run = subprocess.Popen([copy.path("bin/build")], stdin=subprocess.DEVNULL, stderr=subprocess.PIPE, env=copy.environment(kit=True))
        said = run.stderr.readline()
        end = time.monotonic() + 1
        while not copy.was_called() and time.monotonic() < end:
            time.sleep(0.01)
        is_early = copy.was_called()
    run.communicate(timeout=SECONDS)
    if is_early or b"waiting" not in said:
        return f"the kit was called before the other build was over, or it says {said}"
    return None if copy.was_called() else "the kit was not called after it"


def reproductions(_program):
    with copied_of_few() as copy:
        same = f"DIST={copy.path('dist')}\n{LEAVES_SHIPPED}"
        copy.kit_does(same)
        yield "reproduce where both programs are the same", of_status(copy.run(command="bin/reproduce", kit=True), 0, "byte for byte")
        with open(copy.note) as file:
            words = file.read()
        yield "reproduce takes over nothing that was proved before", None if words == "ci --anew\n" else f"it called {words!r}"
        for built in tree.ALL_BUILT:
            copy.kit_does(f"{same}\necho >> {built}")
            yield f"reproduce where {built} is another one", of_status(copy.run(command="bin/reproduce", kit=True), 1, "is not")
        copy.kit_does(f"{same}\necho >> {tree.BUILT}", kit="another kit")
        yield "reproduce with another kit that gives other bytes", of_status(copy.run(command="bin/reproduce", kit=True), 3, "another kit")
        copy.kit_does(f"{same}\nexit 1")
        yield "reproduce where a crate is not proved", refusal(copy.run(command="bin/reproduce", kit=True), 1, "not proved")


# bin/test, bin/wrong-bodies and bin/bench.

def totals(_program):
    with tempfile.TemporaryDirectory(prefix="boc-totals-") as room:
        script, tests, guarded, kit = (os.path.join(room, name) for name in ("bin/test", "tests/program", "tests/guarded", "tools/rt"))
        for path in (script, tests, kit):
            os.mkdir(os.path.dirname(path))
        shutil.copy(os.path.join(TOP, "bin", "test"), script)
        write_script(guarded, "[ -f \"$1\" ] && echo '0 passed, 0 failed'")
        for name in ["cat", "dirname", "mktemp", "mv", "rm", "sed", "tail", "tee"]:
            os.symlink(shutil.which(name), os.path.join(room, "tools", name))
        for name, gate_says, tests_say, line, status in TOTALS:
            write_script(kit, gate_says)
            write_script(tests, tests_say)
            yield f"test where {name}", fault_of_total(script, os.path.dirname(kit), line, status)
        write_script(kit, "echo rt has tried; echo '5 passed, 0 failed'")
        write_script(tests, "echo '7 passed, 0 failed'")
        write_script(guarded, "[ \"$(cat \"$1\")\" = \"$(rt)\" ] && echo '21 passed, 2 failed'; exit 1")
        yield "test where a wrong body was not tried", fault_of_total(script, os.path.dirname(kit), "33 passed, 2 failed", 1)
        os.remove(kit)
        yield "test without the kit", fault_of_total(script, os.path.dirname(kit), "7 passed, 1 failed", 1)


def fault_of_total(script, tools, line, status):
    run = subprocess.run([script], capture_output=True, text=True, env={"PATH": tools}, timeout=SECONDS, check=False)
    last = (run.stdout.splitlines() or [""])[-1]
    return None if (last, run.returncode) == (line, status) else f"{last!r} and {run.returncode} in place of {line!r} and {status}"


def wrong_bodies(_program):
    with copied_of_few() as copy:
        bodies = shutil.copytree(os.path.join(TOP, "tests", "wrong-bodies"), copy.path("tests/wrong-bodies"))
        crate, other = "boc_text", "boc_words"
        copy.kit_does(f'[ "$*" = "must-fail {crate}" ] && diff -r crates/{crate}/must-fail {bodies}/{crate}')
        yield "wrong-bodies: the prover has those of the crate", of_status(copy.run(crate, command="bin/wrong-bodies", kit=True), 0)
        yield "wrong-bodies of another crate: the status is the prover's", of_status(copy.run(other, command="bin/wrong-bodies", kit=True), 1)
        yield "wrong-bodies of no crate", refusal(copy.run("bogus", command="bin/wrong-bodies", kit=True), 1, "none stand there for bogus")


def benches(program):
    with tempfile.TemporaryDirectory(prefix="boc-bench-") as room:
        slow, quick, failing = (os.path.join(room, name) for name in ("slow", "quick", "failing"))
        write_script(slow, "sleep 1")
        write_script(quick, ":")
        write_script(failing, "exit 1")
        row = ["--row", "wide check"]
        yield "bench of a program that does not answer", of_status(bench("--program", failing, *row), 1, "does not answer")
        told = bench("--program", slow, "--against", quick, *row)
        ratio = told.output.split()[-1] if told.status == 0 else b"0"
        yield "bench against a quicker program: the ratio is above 1", None if float(ratio) > 1 else f"{told}"
    rows = ["pone why", "pone whatif --program P --short f=1/2", "pdefs why", "pdefs whatif --program P --short f1=1/2"]
    told = bench("--program", program.path, *(word for row in rows for word in ("--row", row)))
    # Behind a row's command stand two counts of bytes and three times.
    measured = [b" ".join(line.split()[:-5]).decode() for line in told.output.splitlines()[1:]]
    yield "bench of why and whatif on programs", None if told.status == 0 and measured == rows else f"{told}"


def bench(*words):
    return answer_of(os.path.join(TOP, "bin", "bench"), "--rows", "100", "--runs", "1", *words)


# tests/program.

def groups(program):
    listed = suite("--list")
    yield "tests/program lists its groups", None if listed.status == 0 and {b"worked", b"scripts"} < set(listed.output.split()) else f"{listed}"
    yield "tests/program of a group that isn't there", refusal(suite("bogus"), 2, "no group 'bogus'", *listed.output.decode().split())
    worked, both = suite("--program", program.path, "worked"), suite("worked", "--program", program.path, "files")
    yield "tests/program of one group", None if count_of(worked) > 0 else f"{worked}"
    yield "tests/program of two groups", None if count_of(both) > count_of(worked) else f"{both}"
    yield "tests/program by the path of the program alone", None if suite(program.path, "worked") == worked else "it answers otherwise"
    with tempfile.TemporaryDirectory(prefix="boc-groups-") as room:
        path, view = os.path.join(room, "boc"), os.path.join(room, "boc-view")
        yield "tests/program of a program that isn't there", of_status(suite("--program", path, "worked"), 1, "0 passed, 1 failed")
        write_script(path, "exit 1")
        output = suite("--program", path, "worked").output
        has_failed = re.search(rb"^\d+ passed, [1-9]\d* failed\n\Z", output, re.MULTILINE)
        yield "tests/program of a program that does nothing", None if has_failed else f"it says {output[-80:]!r}"
        is_elsewhere = os.path.dirname(view_of(Program(path, program.examples)).path) != room
        yield "the other program where there is none beside", None if is_elsewhere else "it is looked for there"
        write_script(view, "exit 1")
        found = view_of(Program(path, program.examples)).path
        yield "the other program where it is beside", None if found == view else f"{found}"


def suite(*words):
    return answer_of(os.path.join(TOP, "tests", "program"), *words)


def count_of(answer):
    """How many cases passed, where none failed."""
    found = re.fullmatch(rb"(\d+) passed, 0 failed\n", answer.output)
    return int(found.group(1)) if answer.status == 0 and found else 0


def answer_of(*command):
    run = subprocess.run(command, stdin=subprocess.DEVNULL, capture_output=True, timeout=SECONDS, check=False)
    return Answer(run.returncode, run.stdout, run.stderr)


# The longest come first.
PARTS = [installs, unproved, ships, reproductions, builds, groups, calls, wrong_bodies, edits, benches, totals, shipments_that_do_not_run, pages]
