"""The grammars for editors: each token of a text has one scope, that of its kind, and nothing else has one.

The tokens of programs are those of program_reader, and the fields of records those that record_reader takes. The grammars are followed by a
small interpreter of TextMate grammars: match rules, begin and end, captures, lists of patterns, and includes.
"""
import glob
import json
import os
import re
from typing import NamedTuple

from .program_reader import KEYWORDS, Wrong as WrongProgram, tokens_of
from .record_reader import Wrong as WrongRecord, event_of, first_line, header_of

TOP = os.path.dirname(os.path.dirname(os.path.dirname(os.path.abspath(__file__))))
FOLDER = os.path.join(TOP, "editors")

# What a rule may have, by what it begins with.
SHAPES = {
    "match": {"name", "match", "captures"},
    "begin": {"name", "begin", "end", "beginCaptures", "endCaptures", "patterns"},
    "include": {"include"},
    "patterns": {"patterns"},
}

# Groups of Oniguruma that Python's expressions have too; any other is none that the interpreter could follow.
GROUP = re.compile(r"(?<!\\)\(\?(?![:=!])|\\[^bBdswtnr+\-*/%.\[\](){}]|[*+}][+]")


class Faulty(Exception):
    """What is wrong with a grammar."""


class Rule(NamedTuple):
    """A rule that takes a text at once, or from a begin to an end, between which patterns hold."""
    begin: re.Pattern
    end: re.Pattern
    scope: str
    captures: dict
    end_captures: dict
    patterns: list


class Span(NamedTuple):
    """A piece of a text, from one place to another, with its scopes."""
    begin: int
    end: int
    scopes: tuple


class Grammar:
    def __init__(self, name):
        with open(os.path.join(FOLDER, name), encoding="utf-8") as file:
            self.file = json.load(file)
        self.repository = {}
        for key, rule in self.file["repository"].items():
            self.repository[key] = []
            self.repository[key] += self.rules([rule])
        self.patterns = self.resolved(self.rules(self.file["patterns"]))
        for rule in list(self.every_rule()):
            rule.patterns[:] = self.resolved(rule.patterns)

    def rules(self, entries):
        """The rules of a list, in which an include stands as its text."""
        found = []
        for entry in entries:
            shape = next((it for it in SHAPES if it in entry), None)
            if shape is None or set(entry) - SHAPES[shape]:
                raise Faulty(f"a rule has {sorted(entry)}")
            if shape == "include":
                found.append(entry["include"])
            elif shape == "patterns":
                found += self.rules(entry["patterns"])
            else:
                end = expression(entry["end"]) if shape == "begin" else None
                captures = entry.get("captures", entry.get("beginCaptures", {}))
                inner = self.rules(entry.get("patterns", []))
                found.append(Rule(expression(entry[shape]), end, entry.get("name"), named(captures), named(entry.get("endCaptures", {})), inner))
        return found

    def every_rule(self):
        for rules in self.repository.values():
            yield from (it for it in rules if isinstance(it, Rule))

    def resolved(self, rules):
        """The rules with those of the repository in place of their includes."""
        found = []
        for rule in rules:
            if isinstance(rule, Rule):
                found.append(rule)
            elif rule[:1] != "#" or rule[1:] not in self.repository:
                raise Faulty(f"{rule} is not in the repository")
            else:
                found += self.resolved(self.repository[rule[1:]])
        return found

    def spans(self, text):
        """The pieces of a text that have scopes, in their order. Each line is looked at with its line feed, as editors do."""
        found, open_, start = [], [], 0
        for line in text.splitlines(keepends=True):
            at, taken = 0, None
            while True:
                inner, end = (open_[-1].patterns, open_[-1].end) if open_ else (self.patterns, None)
                choices = [(end.search(line, at), None)] if end else []
                choices += [(rule.begin.search(line, at), rule) for rule in inner]
                choices = [(match, rule) for match, rule in choices if match]
                if not choices:
                    break
                # The first place wins, and there the first rule.
                match, rule = min(choices, key=lambda it: it[0].start())
                if (match.end(), len(open_), rule) == taken:
                    raise Faulty(f"a rule takes nothing again and again in {line!r}")
                outer = tuple(it.scope for it in open_ if it.scope)
                if rule is None:
                    found += scoped(start, match, outer, None, open_.pop().end_captures)
                else:
                    found += scoped(start, match, outer, rule.scope, rule.captures)
                    if rule.end:
                        open_.append(rule)
                    elif not match.group():
                        raise Faulty(f"{rule.begin.pattern} takes nothing")
                at, taken = match.end(), (match.end(), len(open_), rule)
            start += len(line)
        return found


def expression(text):
    """An expression, which means the same to Oniguruma and here."""
    if GROUP.search(text):
        raise Faulty(f"{text} has more than is followed here")
    return re.compile(text)


def named(captures):
    if any(set(it) != {"name"} for it in captures.values()):
        raise Faulty("a capture has more than a name")
    return {int(number): it["name"] for number, it in captures.items()}


def scoped(start, match, outer, scope, captures):
    """The pieces of a match that have scopes of their own: its captures, and what lies between these."""
    inside = outer + ((scope,) if scope else ())
    at = match.start()
    for number in sorted(captures):
        begin, end = match.span(number)
        if begin > at and inside:
            yield Span(start + at, start + begin, inside)
        if end > begin:
            yield Span(start + begin, start + end, inside + (captures[number],))
        at = max(at, end)
    if match.end() > at and inside:
        yield Span(start + at, start + match.end(), inside)


# Programs.

OPERATORS = {
    **{sign: "keyword.operator.comparison.boc" for sign in (b"==", b"!=", b"<", b"<=", b">", b">=")},
    **{sign: "keyword.operator.arithmetic.boc" for sign in (b"+", b"-", b"*", b"/", b"%")},
    **{sign: "punctuation.section.boc" for sign in (b"(", b")", b"{", b"}", b"[", b"]")},
    **{sign: "punctuation.separator.boc" for sign in (b";", b",")},
    b"=": "keyword.operator.assignment.boc",
}
STORAGE = {b"cown", b"def", b"main", b"let"}


def spans_of_program(text):
    """The pieces that the tokens and the comments of a text are, and the scope of each. Names stand on the line of what declares or calls them."""
    tokens = [token for token in tokens_of(text) if token.kind != "end"]
    spans = [Span(found.start(), found.end(), ("comment.line.number-sign.boc",)) for found in re.finditer(rb"#[^\n]*", text)]
    are_parameters = False
    for place, token in enumerate(tokens):
        before = tokens[place - 1].text if place else b""
        if token.kind == "keyword":
            scope = "storage.type.boc" if token.text in STORAGE else "keyword.control.boc"
        elif token.kind == "number":
            scope = "constant.numeric.integer.boc"
        elif token.kind == "sign":
            scope = OPERATORS[token.text]
            if token.text in b"()":
                are_parameters = token.text == b"(" and tokens[place - 2].text == b"def"
        elif before in (b"def", b"when"):
            scope = "entity.name.function.boc"
        elif before == b"cown":
            scope = "entity.name.cown.boc"
        else:
            scope = "variable.parameter.boc" if are_parameters else "variable.other.boc"
        spans.append(Span(token.at, token.at + len(token.text), (scope,)))
    return sorted(spans)


# Texts whose tokens are not all tokens, with the piece that is none.
ILLEGAL_PROGRAMS = [
    (b"cown a = 01;", b"01"),
    (b"cown a = 9a;", b"9a"),
    (b"cown 1_ = 0;", b"1_"),
    (b"def f(; 0x) { }", b"0x"),
    (b"main { let x = 1 ! 2; }", b"!"),
    (b"main { let x = 1 & 2; }", b"&"),
    (b"main { x.y = 1; }", b"."),
    (b"cown " + b"n" * 33 + b" = 0;", b"n" * 33),
    (b"def " + b"n" * 33 + b"(; a) { }", b"n" * 33),
    (b"main { when " + b"n" * 40 + b"(; a); }", b"n" * 40),
    (b"main { let x = 1\x00; }", b"\x00"),
]

# Texts of tokens alone, most of which are no programs.
ODD_PROGRAMS = [
    b"",
    b"#",
    b"\t#a cown def\r\n\r\nmain{}#",
    b"cown a=-1;cown b[2]=0;def f(x,y;p,q){p=x*y%2-1/q+p;}main{when f(1,2;a,b[0]);}",
    b"def f(\n  x, # the first; one)\n  y; p\n) { work x; }\nmain { }",
    b"main { if a==b{}else{repeat 3{work 1;}} let c=a<=b; let d=a<b; let e=a!=b; let f=a>=b; let g=a>b; }",
    b"cowns deft mains lets works ifs elsewhere repeated whenever _ _1 a1_ A",
    b"cown " + b"n" * 32 + b" = 9223372036854775807;",
    b"===!=<==>==",
    b"def f ( a ; ) { a } def g(;){}",
]


def fault_of_program(grammar, text):
    wanted, found = spans_of_program(text), grammar.spans(text.decode("ascii"))
    return difference(text, wanted, found)


def difference(text, wanted, found):
    for want, got in zip(wanted, found):
        if want != got:
            return f"{text[got.begin:got.end]!r} at {got.begin} has {got.scopes}, in place of {text[want.begin:want.end]!r} with {want.scopes}"
    return None if len(wanted) == len(found) else f"{len(found)} pieces in place of {len(wanted)}"


def fault_of_illegal(grammar, text, piece):
    """The piece alone is illegal, which the tokens stop at."""
    try:
        tokens_of(text)
        return "its tokens are taken"
    except WrongProgram as wrong:
        at = wrong.args[0]
    found = [span for span in grammar.spans(text.decode("ascii")) if "invalid.illegal.boc" in span.scopes]
    wanted = [Span(at, at + len(piece), ("invalid.illegal.boc",))]
    return None if found == wanted and text[at:at + len(piece)] == piece else f"{found} in place of {wanted}"


# Records.

FIELDS = {
    b"boc": ["keyword.other.header", "constant.language.version", "constant.numeric.count"],
    b"+": ["keyword.operator.spawn", "entity.name.row", "variable.other.parent", "constant.numeric.offset"],
    b">": ["keyword.operator.start", "entity.name.row"],
    b"<": ["keyword.operator.end", "entity.name.row", "constant.numeric.ticks", "constant.language.status"],
    b".": ["keyword.other.last"],
}

# Lines that are none of a record, each by itself.
ILLEGAL_LINES = [
    b" ", b"..", b". ", b"# a comment", b"= 1 a", b"main { }",
    b"boc", b"boc 3 1", b"boc 2", b"boc 2 01", b"boc 2 257", b"boc 2 300", b"boc 2 1 ", b"Boc 2 1",
    b"+", b"+ 1 0", b"+ 1 0 ", b"+ 01 0 1", b"+ 1 0 2  1", b"+ 1 0 2 1 ", b"+ 1 0 2" + b" 1" * 9, b"+ 1 0 a", b"+ 1 0 2\t1", b"+ 1 0 2\r", b"+ 12345678901 0 1",
    b"> ", b"> 1 2", b">1", b"> -1",
    b"< 1 2", b"< 1 2 7", b"< 1 2 00", b"< 1 2 0 a", b"< 1 2 0" + b" 1" * 9,
]

# Lines of the right form, most of which no record has.
ODD_LINES = [
    b".", b"boc 1 0", b"boc 2 256", b"boc 2 99", b"boc 2 249", b"boc 2 100",
    b"+ 4294967295 4294967295 4294967295", b"+ 0 0 0" + b" 7" * 8, b"> 99", b"< 0 0 6" + b" 3" * 8,
]


def spans_of_record(text):
    """The pieces that the fields of a record are, and the scope of each."""
    spans, at = [], 0
    for line in text.split(b"\n"):
        if is_line(line):
            scopes = FIELDS[line.split(b" ")[0]]
            for place, found in enumerate(re.finditer(rb"[^ ]+", line)):
                scope = scopes[place] if place < len(scopes) else "variable.other.cown"
                spans.append(Span(at + found.start(), at + found.end(), (scope + ".boc-record",)))
        elif line:
            spans.append(Span(at, at + len(line), ("invalid.illegal.boc-record",)))
        at += len(line) + 1
    return spans


def is_line(line):
    """Whether a line has a form that a record's line may have."""
    try:
        first_line(line + b"\n", "Form")
        if line.startswith(b"boc"):
            header_of(line)
        elif line != b".":
            event_of(line, 2, None)
        return True
    except WrongRecord:
        return False


def records(program, folder):
    """The records of the examples, of runs of the programs, and of the guide."""
    for path in sorted(glob.glob(os.path.join(folder, "*.record"))):
        with open(path, "rb") as file:
            yield os.path.basename(path), file.read()
    for path in sorted(glob.glob(os.path.join(folder, "*.boc"))):
        yield f"a run of {os.path.basename(path)}", program.run(["run", "--workers", "4"], program.example(os.path.basename(path))).output
    with open(os.path.join(TOP, "docs", "RECORDING.md"), "rb") as file:
        for number, text in enumerate(re.findall(rb"^```\n(boc 2 .*?)^```", file.read(), re.DOTALL | re.MULTILINE)):
            yield f"the guide's record {number + 1}", text


def cases(program):
    try:
        of_programs, of_records = Grammar("boc.tmLanguage.json"), Grammar("boc-record.tmLanguage.json")
    except (Faulty, json.JSONDecodeError, re.error, KeyError) as fault:
        yield "a grammar", repr(fault)
        return
    yield "files of programs", None if of_programs.file["fileTypes"] == ["boc"] else "they have other names"
    yield "files of records", None if of_records.file["fileTypes"] == ["rec", "record"] else "they have other names"
    yield "keywords", None if {it.encode() for it in words_of(of_programs)} == KEYWORDS else f"they are {sorted(words_of(of_programs))}"
    for path in sorted(glob.glob(os.path.join(program.examples, "*.boc"))):
        name = os.path.basename(path)
        yield name, fault_of_program(of_programs, program.example(name))
    for text in ODD_PROGRAMS:
        yield f"tokens {text}", fault_of_program(of_programs, text)
    for text, piece in ILLEGAL_PROGRAMS:
        yield f"no tokens {text}", fault_of_illegal(of_programs, text, piece)
    for name, text in records(program, program.examples):
        yield name, difference(text, spans_of_record(text), of_records.spans(text.decode("ascii"))) or fault_of_lines(text)
    for line in ILLEGAL_LINES + ODD_LINES:
        is_known = None if is_line(line) is (line in ODD_LINES) else "it was taken for what it is not"
        yield f"a line {line}", is_known or difference(line, spans_of_record(line), of_records.spans(line.decode("ascii")))


def words_of(grammar):
    """The words that the rule of keywords lists."""
    return {word for rule in grammar.repository["keyword"] for word in re.search(r"\(\?:(.*)\)", rule.begin.pattern).group(1).split("|")}


def fault_of_lines(text):
    """Each line of a record has a form."""
    wrong = [line for line in text.split(b"\n")[:-1] if not is_line(line)]
    return f"{wrong} are no lines" if wrong else None
