"""The shipped program and the scripts around it: what `bin/boc` answers from, and when it refuses to answer.

Each case has a copy of the tree as git would check it out, without anything that was built. On its PATH are a shell and the
coreutils alone, unless it says otherwise.
"""
import os
import shutil
import subprocess

from .copies import ANSWER, DEFINITION, NOBODY, PROOF, SECONDS, SOURCE, TOP, change, copied, fault_of_beside, fault_of_files, lay_built, refusal, tree
from .running import done, fault_of


def cases(program):
    yield "the manifest is that of the tree", fault_of_manifest()
    yield "--version", fault_of(done(("\n".join(tree.version()) + "\n").encode()), program.run(["--version"]))
    yield from answers()
    yield from changed_trees()
    yield from broken_shipments()
    yield from built_here()
    yield from installs()


def fault_of_manifest():
    """The manifest tells of the tree, whatever kit it names; that kit is the one that the sources name."""
    with open(os.path.join(TOP, tree.MANIFEST)) as file:
        told = file.read()
    kit = tree.said(told, "kit")
    if told != tree.manifest(tree.MANIFEST, tree.ALL_SHIPPED, kit, tree.sums(tree.sources())):
        return "it is another one: bin/ship makes it anew"
    return None if kit == tree.version()[1] else f"it names the kit {kit}, and {tree.VERSION} another"


def answers():
    with copied() as copy:
        yield "a first answer", fault_of(ANSWER, copy.transfer())
        yield "a later answer", fault_of(ANSWER, copy.transfer())
        yield "from another folder", fault_of(ANSWER, copy.transfer(cwd="/"))
        link = os.path.join(copy.room, "link")
        os.symlink(copy.path("bin/boc"), link)
        yield "through a link", fault_of(ANSWER, copy.transfer(command=link))
        yield "help names the program", fault_of_help(copy)
        told = copy.run("--version", command="bin/boc-view")
        yield "the other program", fault_of(done(("\n".join(tree.version()) + "\n").encode()), told)
        os.utime(copy.path(SOURCE))
        yield "after a touch", fault_of(ANSWER, copy.transfer(kit=True))
        yield "no proof is begun", "rt was called" if copy.was_called() else None
    with copied() as copy:
        begun = [subprocess.Popen([copy.path("bin/boc"), "--version"], stdout=subprocess.PIPE, env={"PATH": copy.tools}) for _ in range(4)]
        told = {run.communicate(timeout=SECONDS)[0] for run in begun}
        yield "four first answers at once", None if told == {("\n".join(tree.version()) + "\n").encode()} else f"they answer {told}"
        yield "an answer after them", fault_of(ANSWER, copy.transfer())
    if os.geteuid() == 0:
        with copied() as copy:
            yield "a tree that can't be written to", fault_of(ANSWER, copy.transfer(user=NOBODY, group=NOBODY, extra_groups=[]))
            yield "nothing is noted there", "a note was left" if os.path.exists(copy.path(".boc-checked")) else None


def fault_of_help(copy):
    """Help calls the program `boc`, and not as its file is named."""
    told = subprocess.run([copy.path("bin/boc"), "sweep", "--help"], capture_output=True, env={"PATH": copy.tools}, timeout=SECONDS, check=False)
    return None if b"Usage: boc sweep" in told.stdout else f"it says {told.stdout!r}"


def changed_trees():
    """A tree that isn't the manifest's is proved and built before it answers, whether or not it was looked at before."""
    for name in [SOURCE, DEFINITION, PROOF, "crates.txt", "HANDLES"]:
        # A proof is looked at by a first call alone.
        for is_noted in [False] if name == PROOF else [False, True]:
            with copied() as copy:
                if is_noted:
                    copy.transfer()
                change(copy, name, keep_date=True)
                answer = copy.transfer(kit=True)
                yield f"a changed byte of {name}", refusal(answer, 70, f"first {name}", "proving and building")
                yield "it is proved first", None if copy.was_called() else "rt was not called"
    with copied() as copy:
        change(copy, SOURCE)
        yield "a changed byte, without the kit", refusal(copy.transfer(), 127, f"first {SOURCE}", "rt is not on the PATH")
        yield "and the shipped program", None if copy.transfer().output == b"" else "it answered"
        change(copy, SOURCE)
        yield "and changed back", fault_of(ANSWER, copy.transfer())
        os.rename(copy.path(SOURCE), os.path.join(copy.room, "main.rt"))
        os.symlink(os.path.join(copy.room, "main.rt"), copy.path(SOURCE))
        yield "a source that is a link", fault_of(ANSWER, copy.transfer())
        change(copy, "../main.rt", keep_date=True)
        yield "a changed byte behind a link", refusal(copy.transfer(), 127, f"first {SOURCE}")
    with copied() as copy, copied() as other:
        change(copy, SOURCE)
        answer = copy.answer(["bin/boc", "values"], env={"PATH": copy.tools, "CDPATH": other.top}, cwd=copy.top)
        yield "another tree on the way of cd", refusal(answer, 127, f"first {SOURCE}")


def broken_shipments():
    with copied() as copy:
        change(copy, tree.SHIPPED)
        yield "a flipped byte of the program", refusal(copy.transfer(kit=True), 70, tree.SHIPPED, "git checkout dist")
    with copied() as copy:
        change(copy, tree.SHIPPED_VIEW)
        yield "a flipped byte of the other program", refusal(copy.transfer(kit=True), 70, tree.SHIPPED_VIEW, "git checkout dist")
    with copied() as copy:
        copy.transfer()
        change(copy, tree.SHIPPED, keep_date=True)
        yield "a flipped byte of a program that was run before", refusal(copy.transfer(kit=True), 70, tree.SHIPPED, "git checkout dist")
    with copied() as copy:
        os.chmod(copy.path(tree.SHIPPED), 0o644)
        yield "a program without its run bit", refusal(copy.transfer(kit=True), 70, tree.SHIPPED, "chmod +x")
    with copied() as copy:
        os.remove(copy.path(tree.SHIPPED))
        yield "a program that is missing", refusal(copy.transfer(kit=True), 70, tree.SHIPPED, "git checkout dist")
    with copied() as copy:
        shutil.rmtree(copy.path("dist"))
        yield "no dist", refusal(copy.transfer(kit=True), 70, tree.MANIFEST, "missing", "git checkout dist")
    with copied() as copy:
        with open(copy.path(tree.MANIFEST), "r+b") as file:
            data = file.read()
            for size in (0, 10, len(data) // 2, len(data) - 7, len(data) - 1):
                file.truncate(size)
                yield f"a manifest cut to {size} bytes", refusal(copy.transfer(kit=True), 70, "cut off", "git checkout dist")
                file.seek(0)
                file.write(data)
                file.flush()
            lines = data.splitlines(keepends=True)
            file.truncate(0)
            file.seek(0)
            file.writelines(lines[:20] + lines[21:])
            file.flush()
            yield "a manifest without a line in its middle", refusal(copy.transfer(kit=True), 70, "cut off", "git checkout dist")
    with copied() as copy:
        with open(copy.path(tree.MANIFEST)) as file:
            lines = file.readlines()
        for name, line in [("is none of its lines", "z" + lines[20]), ("stands there twice", lines[19])]:
            with open(copy.path(tree.MANIFEST), "w") as file:
                file.writelines(lines[:20] + [line] + lines[21:])
            yield f"a manifest of which a line {name}", refusal(copy.transfer(kit=True), 70, tree.MANIFEST, "git checkout dist")
        with open(copy.path(tree.MANIFEST), "w") as file:
            file.writelines(lines)
        os.remove(os.path.join(copy.tools, "sha256sum"))
        change(copy, SOURCE)
        yield "no sha256sum", refusal(copy.transfer(kit=True), 70, "sha256sum")
    for note in [b"", b"garbage(", b"# the tree as it was compared?\n"]:
        with copied() as copy:
            with open(copy.path(".boc-checked"), "wb") as file:
                file.write(note)
            yield f"a note that is {note}", fault_of(ANSWER, copy.transfer())
    with copied() as copy:
        os.remove(copy.path(SOURCE))
        yield "a manifest that names a file that isn't there", refusal(copy.transfer(kit=True), 70, tree.MANIFEST, SOURCE, "git checkout")
        yield "nothing is built then", "rt was called" if copy.was_called() else None


def built_here():
    """What was built here answers where its manifest is that of the tree, and not where it is half-written."""
    with copied() as copy:
        change(copy, DEFINITION)
        lay_built(copy)
        for _ in range(2):
            yield "the program that was built here", fault_of(done(b"built here\n"), copy.transfer())
            yield "the other program that was built here", fault_of(done(b"built to view\n"), copy.transfer(command="bin/boc-view"))
        with open(copy.path(tree.BUILT), "a") as file:
            file.write("echo half\n")
        yield "a build that is half-written", refusal(copy.transfer(kit=True), 70, "proving and building")
        yield "it is built first", None if copy.was_called() else "rt was not called"


def installs():
    with copied() as copy:
        prefix = os.path.join(copy.room, "prefix")
        answer = copy.run(prefix, command="bin/install")
        fault = None if answer and answer.status == 0 and f"{prefix}/bin/boc".encode() in answer.output else f"it answered {answer}"
        yield "install", fault
        yield "the installed program", fault_of(ANSWER, copy.transfer(command=f"{prefix}/bin/boc"))
        found = os.access(f"{prefix}/bin/boc-view", os.X_OK)
        yield "the other one", None if found else "it is not there"
        yield "what goes with them", fault_of_beside(prefix)
        yield "install once more", None if copy.run(prefix, command="bin/install") == answer else "it answers otherwise"
        yield "what goes with them still", fault_of_beside(prefix)
        answer = copy.run(command="bin/install")
        found = os.access(os.path.join(copy.room, ".local/bin/boc"), os.X_OK)
        yield "install into the home folder", None if found and answer.status == 0 else f"it answered {answer}"
        yield "install into two folders", refusal(copy.run("a", "b", command="bin/install"), 2, "one folder")
        yield "install into no folder", refusal(copy.run("-p", command="bin/install"), 2, "bin/install [PREFIX]")
        answer = copy.run("--help", command="bin/install")
        is_help = answer.status == 0 and b"usage" in answer.output and not os.path.exists(copy.path("--help"))
        yield "help of install", None if is_help else f"it answered {answer}"
        with open(os.path.join(copy.room, "file"), "w"):
            pass
        yield "install below a file", refusal(copy.run(os.path.join(copy.room, "file"), command="bin/install"), 73, "can't be written to")
        if os.geteuid() == 0:
            os.makedirs(os.path.join(copy.room, "closed", "bin"))
            answer = copy.run(os.path.join(copy.room, "closed"), command="bin/install", user=NOBODY, group=NOBODY, extra_groups=[])
            yield "install where nothing may be written", refusal(answer, 73, "can't be written to")
            os.makedirs(os.path.join(copy.room, "half", "bin"))
            os.makedirs(os.path.join(copy.room, "half", "share", "man"))
            os.chmod(os.path.join(copy.room, "half", "bin"), 0o777)
            answer = copy.run(os.path.join(copy.room, "half"), command="bin/install", user=NOBODY, group=NOBODY, extra_groups=[])
            yield "install where only programs may be written", refusal(answer, 73, "share", "can't be written to")
            yield "and no program is there", fault_of_files(os.path.join(copy.room, "half"), set())
        os.makedirs(os.path.join(copy.room, "taken", "share", "man", "man1", "boc.1"))
        yield "install over a folder", refusal(copy.run(os.path.join(copy.room, "taken"), command="bin/install"), 73, "boc.1 is a folder")
        yield "nothing is put beside it", fault_of_files(os.path.join(copy.room, "taken"), set())
        os.rename(copy.path("man/boc.1"), copy.path("man/boc.2"))
        yield "install without a man page", refusal(copy.run(os.path.join(copy.room, "pageless"), command="bin/install"), 70, "man/boc.1", "git checkout")
        yield "no program is there then", fault_of_files(os.path.join(copy.room, "pageless"), set())
        os.rename(copy.path("man/boc.2"), copy.path("man/boc.1"))
        os.chmod(copy.path(tree.SHIPPED), 0o644)
        yield "install without the run bit", refusal(copy.run(prefix, command="bin/install"), 70, "chmod +x")
        os.chmod(copy.path(tree.SHIPPED), 0o755)
        change(copy, tree.SHIPPED)
        yield "install of a flipped byte", refusal(copy.run(prefix, command="bin/install"), 70, tree.SHIPPED, "git checkout dist")
    with copied() as copy:
        change(copy, SOURCE)
        yield "install of another tree", refusal(copy.run(copy.room, command="bin/install"), 70, SOURCE)
