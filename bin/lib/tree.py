"""The crates of the repository, and the manifests of its programs: what they were proved and built from, file by file."""
import hashlib
import os
import re
import shutil
import subprocess
import sys

TOP = os.path.dirname(os.path.dirname(os.path.dirname(os.path.abspath(__file__))))

MANIFEST = "dist/MANIFEST"
SHIPPED = "dist/boc-x86_64-linux"
SHIPPED_VIEW = "dist/boc-view-x86_64-linux"
BUILT_MANIFEST = "crates/boc/out/MANIFEST"
BUILT = "crates/boc/out/boc"
BUILT_VIEW = "crates/boc_view/out/boc_view"

# The crates of the programs, and where each program is once it is shipped, and where it is built.
PROGRAMS = ["boc", "boc_view"]
ALL_SHIPPED = [SHIPPED, SHIPPED_VIEW]
ALL_BUILT = [BUILT, BUILT_VIEW]
VERSION = "crates/boc_words/src/version.rt"

HEAD = """\
# The programs boc and boc-view, as they were proved and built, and each file that they are proved and built from.
# At the top of the repository `sha256sum -c --quiet --strict {place}` compares them all.
# version: {version}
# kit: {kit}
# files: {count}
"""
END = "# end\n"


def name_of(line):
    """The crate that a line of crates.txt is about, if any; behind the name may stand counts."""
    words = line.split("#")[0].partition(":")[0].split()
    return words[0] if words else None


def read_crates(top=TOP):
    """The repository's libraries that each crate uses, as crates.txt lists them."""
    uses = {}
    with open(os.path.join(top, "crates.txt")) as lines:
        for line in lines:
            if name_of(line):
                uses[name_of(line)] = line.split("#")[0].partition(":")[2].split()
    return {name: [low for low in used if low in uses] for name, used in uses.items()}


def below(uses, *tops):
    """These crates and all that they stand on."""
    found, open_ = set(), list(tops)
    while open_:
        name = open_.pop()
        if name not in found:
            found.add(name)
            open_ += uses[name]
    return found


def sources(top=TOP):
    """The files that the programs are proved and built from, in the order of their names."""
    files = ["HANDLES", "crates.txt"]
    for crate in below(read_crates(top), *PROGRAMS):
        for part in ("src", "specs", "proofs"):
            for folder, _, names in os.walk(os.path.join(top, "crates", crate, part)):
                files += [os.path.relpath(os.path.join(folder, it), top) for it in names if it.endswith((".rt", ".antt"))]
    return sorted(files)


def sum_of(path):
    """The SHA-256 of a file."""
    with open(path, "rb") as file:
        return hashlib.sha256(file.read()).hexdigest()


def sums(files, top=TOP):
    """A line for each file, as sha256sum writes it."""
    return "".join(f"{sum_of(os.path.join(top, it))}  {it}\n" for it in files)


def version(top=TOP):
    """The version and the kit that the sources name."""
    with open(os.path.join(top, VERSION)) as file:
        lines = re.search(r'VERSION: &str = "(.*)";', file.read()).group(1).split("\\n")
    return lines[0], lines[1]


def kit():
    """The line of the kit on this machine."""
    return subprocess.run(["rt", "version"], capture_output=True, text=True, check=True).stdout.strip()


def anew():
    """The words by which `rt ci` takes over nothing that was proved before; a kit that knows none never does."""
    told = subprocess.run(["rt", "help"], capture_output=True, text=True, check=False)
    return ["--anew"] if "--anew" in told.stdout + told.stderr else []


def manifest(place, programs, kit_line, source_sums, top=TOP):
    """The text of the manifest at a place, of programs that were built by a kit from sources with these sums."""
    lines = sums(programs, top) + source_sums
    head = HEAD.format(place=place, version=version(top)[0], kit=kit_line, count=lines.count("\n"))
    return head + lines + END


def said(text, word):
    """What a manifest says behind a word, as `kit` or `version`."""
    found = re.search(rf"^# {word}: (.*)$", text, re.MULTILINE)
    return found.group(1) if found else None


def write_whole(path, data):
    """Writes a file so that nobody ever sees a part of it."""
    os.makedirs(os.path.dirname(path), exist_ok=True)
    made = f"{path}.{os.getpid()}"
    try:
        with open(made, "wb") as file:
            file.write(data)
        os.replace(made, path)
    finally:
        if os.path.exists(made):
            os.remove(made)


def copy_sources(room):
    """Copies what the programs are made of to a folder."""
    wanted = below(read_crates(), *PROGRAMS)
    os.makedirs(room, exist_ok=True)
    with open(os.path.join(TOP, "crates.txt")) as lines, open(os.path.join(room, "crates.txt"), "w") as kept:
        kept.writelines(line for line in lines if name_of(line) in wanted)
    shutil.copy(os.path.join(TOP, "HANDLES"), room)
    # The wrong bodies that must fail belong to the gate: nothing is built of them.
    for crate in wanted:
        shutil.copytree(os.path.join(TOP, "crates", crate), os.path.join(room, "crates", crate),
                        ignore=shutil.ignore_patterns("out", "must-fail", "build.log"))


def prove_copy(room, words):
    """Copies what the programs are made of to an empty folder, has `rt ci` prove and build them there, and tells how that ended."""
    copy_sources(room)
    return subprocess.run(["rt", "ci", *words], cwd=room, stdout=sys.stderr, check=False).returncode
