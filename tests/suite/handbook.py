"""The documents for users: each command in them is run, and its output compared with what they show; their programs are files, their links lead somewhere."""
import os
import re
import shutil
import subprocess
import tempfile

from .copies import TOP, tree
from .copies import view_of
from .running import SECONDS, Program, difference

# Those with commands, which share their programs, and those without.
WITH_COMMANDS = ["HANDBOOK.md", "EXERCISES.md", "OUTCOMES.md", "PICTURES.md"]
DOCUMENTS = WITH_COMMANDS + ["LANGUAGE.md", "RECORDING.md"]
PROGRAMS = os.path.join("examples", "handbook")
MOST_COLUMNS = 160

# A line that stands for any lines, or none.
LEFT_OUT = ".."

FENCE = re.compile(r"^```(\w*)\n(.*?)^```$", re.DOTALL | re.MULTILINE)
PROGRAM = re.compile(r"# (\w+\.boc)\n")
LINK = re.compile(r"\]\(([^)\s]+)\)")
HEADING = re.compile(r"^#+ (.*)$", re.MULTILINE)
CHANGE = re.compile(r"# (\w+\.boc) from (\w+\.boc)\n")


def blocks_of(text):
    """The programs of a document by the name of their file, and the commands with the output below each."""
    programs, commands = {}, []
    for kind, block in FENCE.findall(text):
        if kind == "boc" and PROGRAM.match(block):
            programs[PROGRAM.match(block).group(1)] = block
        elif kind == "diff" and CHANGE.match(block):
            name, before = CHANGE.match(block).groups()
            programs[name] = changed(programs[before], block.split("\n", 1)[1]).replace(f"# {before}\n", f"# {name}\n", 1)
        elif block.startswith("$ "):
            commands += [part.split("\n", 1) for part in re.split(r"^\$ ", block, flags=re.MULTILINE)[1:]]
    return programs, commands


def changed(text, change):
    """A program with lines removed and added, as a change has them with `-` and `+`; those with a blank stay."""
    for part in re.split(rf"^{re.escape(LEFT_OUT)}\n", change, flags=re.MULTILINE):
        lines = part.splitlines(keepends=True)
        before, after = ("".join(line[1:] for line in lines if line[0] in signs) for signs in (" -", " +"))
        assert text.count(before) == 1, f"the lines before a change are not there once: {before!r}"
        text = text.replace(before, after)
    return text


def fault_of_lines(wanted, got):
    """Whether these lines are the output, where a line `..` stands for any."""
    pattern = "".join("(?:.*\n)*?" if line == LEFT_OUT else re.escape(line + "\n") for line in wanted.splitlines())
    return None if re.fullmatch(pattern, got) else f"its output: {difference(wanted, got) if LEFT_OUT not in wanted.splitlines() else got!r}"


def text_of(path):
    with open(os.path.join(TOP, path), encoding="utf-8") as file:
        return file.read()


def cases(program):
    programs, commands = {}, []
    for name in DOCUMENTS:
        text = text_of(os.path.join("docs", name))
        yield from of_text(name, text)
        own_programs, own_commands = blocks_of(text)
        yield f"{name}: commands", None if bool(own_commands) == (name in WITH_COMMANDS) else f"there are {len(own_commands)}"
        programs.update(own_programs)
        commands += own_commands
    yield "the programs are files", fault_of_files(programs)
    view = view_of(program)
    if not os.access(view.path, os.X_OK):
        view = Program(os.path.join(TOP, tree.SHIPPED_VIEW), program.examples)
    with tempfile.TemporaryDirectory() as folder:
        prepare(folder, program, view, programs)
        for line, wanted in commands:
            yield line, fault_of_lines(wanted, answer(folder, line))
        unused = [name for name in programs if not any(name in line for line, _ in commands)]
        yield "programs that no command reads", f"{unused}" if unused else None


def of_text(name, text):
    """The columns, the fences and the links of a document."""
    long = [number for number, line in enumerate(text.splitlines(), start=1) if len(line) > MOST_COLUMNS]
    yield f"{name}: columns", f"lines {long} have more than {MOST_COLUMNS}" if long else None
    fences = text.count("\n```")
    yield f"{name}: fences", None if fences == 2 * len(FENCE.findall(text)) else f"{fences}, and they are not by twos"
    lost = [link for link in LINK.findall(FENCE.sub("", text)) if not leads_somewhere(name, link)]
    yield f"{name}: links", f"{lost} lead nowhere" if lost else None


def leads_somewhere(name, link):
    """Whether a link of a document leads to a file, and to a heading of it if it names one."""
    path, _, anchor = link.partition("#")
    path = os.path.join("docs", path or name)
    if not os.path.exists(os.path.join(TOP, path)):
        return False
    return not anchor or anchor in {anchor_of(heading) for heading in HEADING.findall(FENCE.sub("", text_of(path)))}


def anchor_of(heading):
    """The anchor that a heading has on the pages of a repository."""
    return re.sub(r"[^\w\- ]", "", heading.lower()).replace(" ", "-")


def fault_of_files(programs):
    """Each program of the documents is a file, with the same text, and each file is one of them."""
    names = set(os.listdir(os.path.join(TOP, PROGRAMS)))
    if names != set(programs):
        return f"{sorted(names ^ set(programs))} are only here or only there"
    differing = [name for name, text in programs.items() if text_of(os.path.join(PROGRAMS, name)) != text]
    return f"{differing} differ" if differing else None


def prepare(folder, program, view, programs):
    """A folder with the programs under test, the examples, and the documents' own programs."""
    os.mkdir(os.path.join(folder, "bin"))
    for name, path in (("boc", program.path), ("boc-view", view.path)):
        os.symlink(os.path.abspath(path), os.path.join(folder, "bin", name))
    shutil.copytree(program.examples, os.path.join(folder, "examples"))
    for name, text in programs.items():
        with open(os.path.join(folder, name), "w", encoding="utf-8") as file:
            file.write(text)


def answer(folder, line):
    """What a line of the shell prints, on standard output and on standard error."""
    environment = {**os.environ, "PATH": os.path.join(folder, "bin") + os.pathsep + os.environ["PATH"]}
    environment.pop("COLUMNS", None)
    run = subprocess.run(["sh", "-c", line], cwd=folder, env=environment, stdin=subprocess.DEVNULL, stdout=subprocess.PIPE, stderr=subprocess.STDOUT,
                         timeout=SECONDS, check=False)
    return run.stdout.decode()
