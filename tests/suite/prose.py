"""The words of documents, comments and help: no file has more of the idioms that readers stumble over than tests/prose.json says.

Each idiom has a pattern that is nearly always right, and a plain replacement. User documents and help keep to limits of their own: idioms in 100 words,
sentences of more than 40 words, and columns of help. `tests/prose --list` prints each finding, `tests/prose --write` saves the counts, which only fall.

A line that contains `words: ok` is skipped, and in Markdown all from `<!-- words: off -->` to `<!-- words: on -->`. Code is left out.
"""
import collections
import dataclasses
import glob
import json
import os
import re

from .copies import TOP, tree, view_of
from .running import Program
from .words import commands_in

SAVED = os.path.join("tests", "prose.json")
MOST_WORDS = 40
MOST_COLUMNS = 80
MOST_IDIOMS = 0.005
MOST_LONG = 0.01

USER_DOCUMENTS = ["README.md", *(f"docs/{name}.md" for name in (
    "COMMANDS", "EXERCISES", "GLOSSARY", "HANDBOOK", "LANGUAGE", "OUTCOMES", "PICTURES", "RECORDING", "RECORDS"))]
PROSE = ["README.md", "CONTRIBUTING.md", "CHANGELOG.md", "docs/*.md"]
COMMENTS = ["crates/*/src/**/*.rt"]

IDIOMS = [(name, re.compile(pattern, re.IGNORECASE), plain) for name, pattern, plain in [
    ("behind", r"\bbehind\b", "after, below, following"),
    ("in front of", r"\bin front of\b", "before"),
    ("so many", r"\bso (?:many|much)\b(?! (?:that|as|for|so)\b)", "N, that many, the given number of"),
    ("stands", r"\b(?:stand|stands|stood)\b(?! for\b)", "is, is kept, is written, appears; depends (on)"),
    ("told", r"\b(?:is|are|was|were|be|being) told\b|\btold (?:of|one by one|at)\b", "is reported, is printed"),
    ("tells", r"\b(?:tell|tells)\b(?! the two apart)", "prints, reports, says, shows"),
    ("is to be", r"\b(?:is|are) to (?:be|do|go|tell|stand)\b", "must; an imperative"),
    ("orders nobody", r"\border(?:s|ed)? (?:nobody|anybody)\b", "creates no dependencies, imposes no order"),
    ("nobody", r"\b(?:nobody|somebody|anybody)\b", "no behaviour, no row, no worker; name the thing"),
    ("whoever", r"\bwhoever\b|\bwhom\b", "you; to do X, do Y; the row that"),
    ("room", r"\b(?:room (?:for|that|made|of|is|goes|to)|(?:no|has|have|takes?|little|the|its|whose) room)\b", "memory, capacity, buffer, space"),
    ("want of memory", r"\bwants? of memory\b", "out of memory"),
    ("least", r"\bthe least (?!squares)\w+", "the lowest-numbered, the smallest, the earliest"),
    ("at the most", r"\bat the (?:most|least)\b|(?<=\d )at (?:most|least)(?= alone)", "at most, at least"),
    ("by N threads", r"\bby (?:one|two|three|four|several|many|more|so many|N|P|\d+) (?:\w+ )?(?:threads?|workers?|processors?)\b",
     "on N threads, with P workers"),
    ("comes to", r"\b(?:come|comes|came) (?:to|out)\b", "ends with, results in, reaches"),
    ("anew", r"\banew\b", "again"),
    ("beside", r"\bbeside\b", "next to, with, in addition to"),
    ("in place of", r"\bin (?:place of|(?:its|their) place)\b", "instead of"),
    ("given back", r"\b(?:gives?|given|gave|giving) back\b|\bgives? the \w+ back\b", "releases, frees"),
    ("handed in", r"\b(?:hand|hands|handed) in\b", "pass"),
    ("brings", r"\b(?:bring|brings|brought)\b", "saves, gains, lowers the span by"),
    ("lies", r"\b(?:lie|lies|lay)\b", "is stored, is"),
    ("is due", r"\b(?:is|are|was) due\b", "comes next, is expected"),
    ("be had", r"\bbe had\b", "is available"),
    ("but for", r"\bbut for\b", "except"),
    ("elder", r"\b(?:elder|younger)\b", "earlier, later (sibling)"),
    ("strays", r"\bstray(?:s|ed)?\b", "differs, diverges"),
    ("dear", r"\b(?:dear|dearest)\b", "expensive, slow to prove"),
    ("is over", r"\b(?:is|are|all) over(?= *(?:[.,;:)]|$|and\b))", "has finished"),
    ("ask of", r"\bis asked (?:of|for)\b|\basked of\b", "is requested; requires"),
]]

SENTENCE = re.compile(r"(?<=[.!?])[\"')*_\]]*\s+(?=[\"'(*_\[]*[A-Z`0-9])|(?<=[.!?])[\"')*_]*$")
INLINE = re.compile(r"`[^`]*`")
LINK = re.compile(r"!?\[([^\]]*)\]\([^)]*\)")


@dataclasses.dataclass(order=True)
class Finding:
    line: int
    kind: str
    text: str


class Block:
    """Consecutive lines that are one paragraph, list item or table cell."""

    def __init__(self):
        self.lines = []

    def put(self, number, text):
        self.lines.append((number, text))

    def text(self):
        return "".join(line.strip() + " " for _, line in self.lines)

    def line_at(self, place):
        for number, line in self.lines:
            place -= len(line.strip()) + 1
            if place < 0:
                return number
        return self.lines[-1][0]

    def sentences(self):
        text, begin = self.text(), 0
        for cut in [*[match.end() for match in SENTENCE.finditer(text)], len(text)]:
            if text[begin:cut].strip():
                yield self.line_at(begin), text[begin:cut].strip()
            begin = cut


@dataclasses.dataclass
class Findings:
    """What is found in one text, and how many words and sentences of prose it has."""
    words: int = 0
    sentences: int = 0
    found: list = dataclasses.field(default_factory=list)

    def counts(self):
        kinds = collections.Counter({"long sentence": "long", "wide line": "wide"}.get(one.kind, "idioms") for one in self.found)
        return {kind: kinds[kind] for kind in ("idioms", "long", "wide")}


def words_of(sentence):
    return [word for word in sentence.split() if any(letter.isalnum() for letter in word)]


def markdown_blocks(lines):
    """The prose of a Markdown text: each cell of a table is a block of its own."""
    block, fenced, off = Block(), False, False
    for number, line in enumerate(lines, start=1):
        if line.lstrip().startswith("```"):
            fenced = not fenced
            line = ""
        off = "<!-- words: off -->" in line or off and "<!-- words: on -->" not in line
        if fenced or off or "words: ok" in line or "<!-- words: on -->" in line:
            line = ""
        stripped = LINK.sub(r"\1", INLINE.sub("`x`", line)).strip()
        if stripped.startswith("|"):
            yield block
            block = Block()
            for cell in stripped.strip("|").split("|"):
                if set(cell.strip()) - set("-: "):
                    block.put(number, cell)
                    yield block
                    block = Block()
            continue
        if not stripped or stripped.startswith(("#", ">", "- ", "* ")) or re.match(r"\d+\. ", stripped):
            yield block
            block = Block()
        if stripped:
            block.put(number, re.sub(r"^(?:[-*>#]+|\d+\.)\s+", "", stripped))
    yield block


def comment_blocks(lines):
    """The comments of a source: lines of one kind that follow each other are one block."""
    block, kind = Block(), None
    for number, line in enumerate(lines, start=1):
        match = re.match(r"\s*(///|//!|//)(?: (.*))?$", line)
        now = match.group(1) if match and match.group(2) and "words: ok" not in line else None
        if now != kind or now is None:
            yield block
            block = Block()
        if now:
            block.put(number, INLINE.sub("`x`", match.group(2)))
        kind = now
    yield block


def help_blocks(lines):
    """The paragraphs of a help text: an option or a term with what is said of it is one. Usage and examples are no sentences."""
    block, depth = Block(), 0
    for number, line in enumerate(lines, start=1):
        text = re.sub(r"^\s+\S.*?\s{2,}(?=\S)", "", line)
        before, depth = depth, len(line) - len(line.lstrip())
        if not line.strip() or text != line or depth < before:
            yield block
            block = Block()
        if text.strip() and not re.match(r"\s*(?:Usage|Examples?|Exit statuses|See also|boc)\b", text):
            block.put(number, INLINE.sub("`x`", text))
    yield block


def findings_of(blocks):
    findings = Findings()
    for block in blocks:
        if not block.lines:
            continue
        text = block.text()
        findings.words += sum(len(words_of(line)) for _, line in block.lines)
        for name, pattern, plain in IDIOMS:
            findings.found += [Finding(block.line_at(match.start()), name, f"{match[0]} -> {plain}") for match in pattern.finditer(text)]
        for number, sentence in block.sentences():
            findings.sentences += 1
            count = len(words_of(sentence))
            if count > MOST_WORDS:
                findings.found.append(Finding(number, "long sentence", f"{count} words: {sentence[:60]}"))
    findings.found.sort()
    return findings


def in_files(top):
    """What is found in each document and each source below a folder."""
    found = {}
    for patterns, blocks in ((PROSE, markdown_blocks), (COMMENTS, comment_blocks)):
        for pattern in patterns:
            for path in sorted(glob.glob(os.path.join(top, pattern), recursive=True)):
                with open(path, encoding="utf-8") as file:
                    found[os.path.relpath(path, top)] = findings_of(blocks(file.read().splitlines()))
    return found


def in_help(program):
    """What is found in the help of both programs and of their commands."""
    found, view = {}, view_of(program)
    if not os.access(view.path, os.X_OK):
        view = Program(os.path.join(TOP, tree.SHIPPED_VIEW), program.examples)
    for name, tested in (("boc", program), ("boc-view", view)):
        first = tested.run(["--help"], b"").output.decode()
        for command in ["", *commands_in(first)]:
            lines = (tested.run(["help", command], b"").output.decode() if command else first).splitlines()
            findings = findings_of(help_blocks(lines))
            findings.found += [Finding(number, "wide line", f"{len(line)} columns") for number, line in enumerate(lines, start=1) if len(line) > MOST_COLUMNS]
            found[f"{name} help {command}".strip()] = findings
    return found


def fault_of_user_texts(texts):
    """How texts that users read pass the limits, all of them together."""
    words, sentences = sum(text.words for text in texts), sum(text.sentences for text in texts)
    sums = collections.Counter()
    for text in texts:
        sums.update(text.counts())
    if words == 0:
        return "they have no words"
    if sums["idioms"] > MOST_IDIOMS * words:
        return f"{sums['idioms']} idioms in {words} words"
    if sums["long"] > MOST_LONG * sentences:
        return f"{sums['long']} of {sentences} sentences have more than {MOST_WORDS} words"
    return f"{sums['wide']} lines have more than {MOST_COLUMNS} columns" if sums["wide"] else None


def cases(program):
    files, helped = in_files(TOP), in_help(program)
    yield "the documents for users", fault_of_user_texts([files[name] for name in USER_DOCUMENTS])
    yield "the help", fault_of_user_texts(list(helped.values()))
    with open(os.path.join(TOP, SAVED), encoding="utf-8") as file:
        saved = json.load(file)
    for name, findings in (files | helped).items():
        most = collections.Counter(saved.get(name, {}))
        worse = [f"{kind} {count}, and not {most[kind]} at most" for kind, count in findings.counts().items() if count > most[kind]]
        yield f"the words of {name}", f"{', '.join(worse)}: tests/prose --list {name}" if worse else None
