"""The documents: outputs that those for users show below a command are what the command prints, links lead somewhere, the list of contracts is that of the
sources, and the list of crates that of crates.txt.

The handbook has a group of its own, whose readers of blocks and of commands are taken here. A block of kind `text` shows a run by the clock, which is another
one each time, and is not compared.
"""
import collections
import glob
import os
import re
import subprocess
import sys
import tempfile

from .copies import TOP, tree
from .handbook import FENCE, MOST_COLUMNS, answer, blocks_of, fault_of_lines, prepare
from .copies import view_of
from .running import Program
from .words import commands_in

import contracts

README = "README.md"
COMMANDS = os.path.join("docs", "COMMANDS.md")
ARCHITECTURE = os.path.join("docs", "ARCHITECTURE.md")
SHOWING = [README, COMMANDS, os.path.join("docs", "RECORDS.md")]
NARROW = [*SHOWING, os.path.join("docs", "GLOSSARY.md")]
LINKED = ["*.md", "docs/*.md", "editors/*.md", "examples/*/*.md"]
MOST_LINES = 130

BY_THE_CLOCK = re.compile(r"^```text\n.*?^```$", re.DOTALL | re.MULTILINE)
CODE = re.compile(r"^```.*?^```$|`[^`\n]+`", re.DOTALL | re.MULTILINE)
LINK = re.compile(r"\]\(([^)\s]+)\)")
HEADING = re.compile(r"^#+ (.+)$", re.MULTILINE)
OPTION = re.compile(r"^ +(?:-\w, )?--([a-z-]+)", re.MULTILINE)
CRATES = re.compile(r"(?:^\| `\w+` \| \d+ \|.*\n)+", re.MULTILINE)
CRATE = re.compile(r"^\| `(\w+)` \| (\d+) \|", re.MULTILINE)

# A source of each kind of contract, and what is listed of it.
WORKED_SOURCE = """\
//! Numbers.
ghost use Rattle.boc_plans.specs.Plans.{Keeps, start_of as first};

/// Adds one to `n`. It can't
/// wrap: "}".
#[tactic(auto)]
pub fn next(n: u32) -> [u8; 4]
    requires small { n < 9 }
    ensures { Keeps result
        { n } }
{ "}" }

pub(crate) fn inner() -> u32 ensures one { result ≡ 1 } { 1 }

/// Nothing is promised of it.
pub fn plain() {}

/// Pairs rise.
pub fn rise() ensures { first ≡ 0 } {}

/// A pair.
pub struct Pair { pub ghost ordered: { a ≤ b }, a: u32, b: u32 }

struct Hidden { ghost ordered: { a ≤ b } }

impl Pair {
    // No word for others.
    fn inner(&self) ensures { a ≡ b };

    /// The sum.
    pub fn sum(&self) -> u32 ensures { result ≡ a + b } { a + b }
}

impl<T: Into<u32>> Into<T> for Pair {
    /// Becomes a number.
    fn into(&self) -> u32 ensures { result ≡ a } { a }
}

pub trait Shape {
    /// Draws it.
    fn draw(&self) requires { Fits self };
}

impl Hidden { pub fn sum(&self) ensures { 0 ≡ 0 } {} }
"""
WORKED_ITEMS = [
    ("next", "Adds one to `n`.", ["requires small n < 9", "ensures  Keeps result { n }"], ["Keeps"]),
    ("rise", "Pairs rise.", ["ensures  first ≡ 0"], ["start_of"]),
    ("Pair", "A pair.", ["keeps ordered a ≤ b"], []),
    ("Pair::sum", "The sum.", ["ensures  result ≡ a + b"], []),
    ("Pair::into", "Becomes a number.", ["ensures  result ≡ a"], []),
    ("Shape::draw", "Draws it.", ["requires  Fits self"], []),
]


def read(name):
    with open(os.path.join(TOP, name), encoding="utf-8") as file:
        return file.read()


def anchors_of(text):
    """The anchors of a document's headings: lower case, blanks as hyphens, and of signs hyphens alone; a heading that comes again has a number."""
    anchors, seen = set(), collections.Counter()
    for heading in HEADING.findall(FENCE.sub("", text)):
        plain = re.sub(r"\[([^\]]*)\]\([^)]*\)", r"\1", heading)
        anchor = re.sub(r"[^\w\- ]", "", plain.lower()).replace(" ", "-")
        anchors.add(f"{anchor}-{seen[anchor]}" if seen[anchor] else anchor)
        seen[anchor] += 1
    return anchors


def lost_links(name, text):
    """The links of a document that lead to no file or folder of the tree, or to no heading."""
    lost = []
    for link in LINK.findall(CODE.sub("", text)):
        path, _, anchor = link.partition("#")
        if re.match(r"[a-z]+:", path):
            continue
        target = os.path.normpath(os.path.join(os.path.dirname(name), path)) if path else name
        if not os.path.exists(os.path.join(TOP, target)) or anchor and anchor not in anchors_of(read(target)):
            lost.append(link)
    return lost


def cases(program):
    names = sorted(os.path.relpath(path, TOP) for pattern in LINKED for path in glob.glob(os.path.join(TOP, pattern)))
    for name in names:
        lost = lost_links(name, read(name))
        yield f"links of {name}", f"{lost} lead nowhere" if lost else None
    for name in NARROW:
        wide = [number for number, line in enumerate(read(name).splitlines(), start=1) if len(line) > MOST_COLUMNS]
        yield f"columns of {name}", f"lines {wide} have more than {MOST_COLUMNS}" if wide else None
    view = view_of(program)
    if not os.access(view.path, os.X_OK):
        view = Program(os.path.join(TOP, tree.SHIPPED_VIEW), program.examples)
    with tempfile.TemporaryDirectory() as folder:
        prepare(folder, program, view, {})
        for name in SHOWING:
            yield from shown(folder, name, read(name))
    lines = read(README).count("\n")
    yield "the length of README", f"{lines} lines, and not {MOST_LINES} at most" if lines > MOST_LINES else None
    yield "the def in README", fault_of_snippet(read(README), program.example("pipeline.boc").decode())
    yield from commands_documented(program, read(COMMANDS))
    yield "the worked contracts", fault_of_worked()
    yield contracts.DOCUMENT, fault_of_contracts()
    yield f"the crates of {ARCHITECTURE}", fault_of_crates(read(ARCHITECTURE), tree.read_crates())


def fault_of_contracts():
    """The list of contracts is what bin/contracts prints, which takes no other word."""
    script = os.path.join(TOP, "bin", "contracts")
    printed, refused = (subprocess.run([sys.executable, script, word], capture_output=True, text=True, encoding="utf-8") for word in ("--print", "--write"))
    if refused.returncode != 1 or refused.stdout or "contracts [--print]" not in refused.stderr:
        return f"of --write bin/contracts says {refused}"
    return None if printed.stdout == read(contracts.DOCUMENT) else "the sources have other contracts: bin/contracts writes it anew"


def fault_of_worked():
    """What is listed of a worked source: names, first sentences, clauses, and the definitions that these name."""
    source = contracts.Source("a.rt", WORKED_SOURCE, contracts.masked(WORKED_SOURCE), True, True, {"Pair", "Shape"}, set())
    found = [(item.name, item.says, [f"{one.kind} {one.name} {one.text}" for one in item.clauses], [own for one in item.clauses for _, _, own in one.cites])
             for item in contracts.listed(source)]
    laws = [item.name for item in contracts.listed(source) if item.is_law]
    return None if found == WORKED_ITEMS and laws == ["rise"] else f"{found}, of which {laws} are laws"


def fault_of_crates(text, uses):
    """Each crate is in one table, with its depth, and those of greater depth come later there. A crate that uses none has depth 1, any other one more than
    the deepest that it uses."""
    depths = {}
    for crate, used in uses.items():
        depths[crate] = 1 + max((depths[low] for low in used), default=0)
    tables = [[(crate, int(depth)) for crate, depth in CRATE.findall(table)] for table in CRATES.findall(text)]
    if sorted(row for rows in tables for row in rows) != sorted(depths.items()):
        return f"it has {sorted(set(depths.items()) ^ {row for rows in tables for row in rows})} too much or too little, or a crate twice"
    return None if all(rows == sorted(rows, key=lambda row: row[1]) for rows in tables) else "they are not in the order of their depths"


def shown(folder, name, text):
    """Each command of a document, with what stands below it."""
    fences = text.count("\n```")
    yield f"fences of {name}", None if fences == 2 * len(FENCE.findall(text)) else f"{fences}, and they are not by twos"
    _, commands = blocks_of(BY_THE_CLOCK.sub("", text))
    yield f"commands of {name}", None if commands else "there are none"
    for line, wanted in commands:
        yield f"{name}: {line}", fault_of_lines(wanted, answer(folder, line))


def fault_of_snippet(text, example):
    """A def that a document has on one line is one of the example, but for blanks."""
    snippets = [block for kind, block in FENCE.findall(text) if kind == "boc"]
    plain = " ".join(example.split())
    strange = [block for block in snippets if " ".join(block.split()) not in plain]
    return None if snippets and not strange else f"{strange or 'no def'}"


def commands_documented(program, text):
    """Each command has a section, whose lines of usage have the options that its help has."""
    for command in commands_in(program.run(["--help"], b"").output.decode()):
        section = re.search(rf"^## {command}\n(.*?)(?=^## |\Z)", text, re.DOTALL | re.MULTILINE)
        if section is None:
            yield f"the section of {command}", "there is none"
            continue
        usage = " ".join(re.findall(rf"^`boc {command} .*`", section[1], re.MULTILINE))
        named = {{"w": "workers", "p": "p"}.get(word, word) for word in re.findall(r"(?<![\w-])--?([a-z-]+)", usage)}
        wanted = set(OPTION.findall(program.run(["help", command], b"").output.decode())) - {"help"}
        yield f"the options of {command}", None if named == wanted else f"its usage has {sorted(named ^ wanted)} more or less"
