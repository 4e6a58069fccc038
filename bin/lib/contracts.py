"""The contracts of the crates, read from their sources: what docs/CONTRACTS.md says, and nothing by hand.

A function is listed that has a clause and that others can call: in a library one that is public, in a program any that another module can call.
"""
import dataclasses
import os
import re

from tree import PROGRAMS, TOP, below, read_crates

DOCUMENT = os.path.join("docs", "CONTRACTS.md")
LONGEST = 100

HEAD = """\
# All contracts

<!-- Written by bin/contracts from the sources. Change those, and run it again. -->
<!-- words: off -->
"""
FOOT = """
<!-- words: on -->
"""

OWN = read_crates()

# What is no code: comments, strings and characters.
MASKED = re.compile(r"""//[^\n]*|b?"(?:\\.|[^"\\])*"|b?'(?:\\[^'\n]*|[^'\\\n])'""", re.DOTALL)
ATTRIBUTE = re.compile(r"#!?\[")
ITEM = re.compile(r"(pub(?:\([a-z]+\))? )?(?:const |unsafe )*(fn|struct|enum|trait|impl|mod|use|ghost|const|static|type|macro_rules!)\b")
CLAUSE = re.compile(r"\s*(requires|ensures)\b(?:\s+(\w+))?\s*(?=\{)")
SCOPE = re.compile(r"ghost use Rattle\.(\w+)\.([\w.]+)\.\{([^}]*)\}")
SPEC_SCOPE = re.compile(r"^use Rattle\.(\w+)\.([\w.]+)\.\{([^}]*)\}", re.MULTILINE)
DEFINITION = re.compile(r"^(?:unfoldable )?(?:abbrev )?pub (?:record |data |inductive )?([^\s:({]+)(?=[\s:({])", re.MULTILINE)
WORD = re.compile(r"[^\W\d][\w-]*")
SENTENCE = re.compile(r"(?<=[.!?])\s+(?=[A-Z`])")
SIGNATURE_END = re.compile(r"\b(?:requires|ensures)\b|[{;]")
BODY = re.compile(r"[{;]")
KEPT = re.compile(r"ghost (\w+): \{((?:[^{}]|\{[^{}]*\})*)\}")
INVARIANT = re.compile(r"ghost invariant = \{\s*(.*?)\s*\};", re.DOTALL)
OPENING, CLOSING = "([{", ")]}"


@dataclasses.dataclass
class Clause:
    kind: str
    name: str
    text: str
    cites: list


@dataclasses.dataclass
class Item:
    """A function or a type that is listed: what it is called, where it is, what its comment says, and its clauses."""
    name: str
    path: str
    says: str
    clauses: list
    is_law: bool = False


@dataclasses.dataclass
class Outer:
    """What a function is in: a type or a trait, if any, the definitions that its clauses can name, and whether all of its functions are listed."""
    owner: str
    scope: dict
    shows_all: bool


@dataclasses.dataclass
class Source:
    """A file of a crate, its code without comments and strings, whether all that is public in it is shown, and which types and names its crate shows."""
    path: str
    text: str
    code: str
    is_shown: bool
    is_library: bool
    types: set
    names: set

    def shows(self, name, visibility):
        """Whether a function, a trait or a type of this file can be called from outside: in a program, from its other modules."""
        return visibility == "pub " and (self.is_shown or name in self.names) if self.is_library else bool(visibility)

    def shows_of(self, owner, visibility):
        """The same of a function of a type."""
        return visibility == "pub " and owner in self.types if self.is_library else bool(visibility)


def read(path):
    with open(os.path.join(TOP, path), encoding="utf-8") as file:
        return file.read()


def files_below(folder, ending):
    found = [os.path.join(where, name) for where, _, names in os.walk(os.path.join(TOP, folder)) for name in names if name.endswith(ending)]
    return sorted(os.path.relpath(path, TOP) for path in found)


def masked(text):
    return MASKED.sub(lambda found: re.sub(r"[^\n]", " ", found[0]), text)


def closing(code, start):
    """The place after the bracket that closes the one at a place."""
    depth = 0
    for place in range(start, len(code)):
        if code[place] in OPENING:
            depth += 1
        elif code[place] in CLOSING:
            depth -= 1
            if depth == 0:
                return place + 1
    raise ValueError("a bracket is not closed")


def until(code, start, wanted):
    """The first place from here on, outside round and square brackets, at which one of these patterns matches."""
    place = start
    while place < len(code):
        if code[place] in "([":
            place = closing(code, place)
        elif wanted.match(code, place):
            return place
        else:
            place += 1
    return place


def comment_before(text, place):
    """The documentation that is written above a place, attributes apart; without it, the plain comment there."""
    lines = text[:text.rfind("\n", 0, place) + 1].splitlines()
    said, plain = [], []
    while lines:
        line = lines.pop().strip()
        if line.startswith("///"):
            said.insert(0, line[3:].strip())
        elif line.startswith("//") and not line.startswith("//!"):
            plain.insert(0, line[2:].strip())
        elif not line.startswith("#[") and not line.endswith(")]"):
            break
    return said or plain


def first_sentence(lines):
    paragraph = []
    for line in lines:
        if not line and paragraph:
            break
        paragraph += [line] if line else []
    return SENTENCE.split(" ".join(paragraph))[0]


def imported(pattern, text):
    """The names that a text takes from files of definitions: each as it is called there, with its crate, its file and its own name."""
    names = {}
    for crate, module, inner in pattern.findall(text):
        if module.startswith("specs.") and not module.startswith("specs.declared.") and crate in OWN:
            for part in inner.split(","):
                own, _, called = part.strip().partition(" as ")
                names[called.strip() or own] = (crate, module[len("specs."):], own)
    return names


def clause_of(kind, name, text, scope):
    text = " ".join(text.split())
    return Clause(kind, name or "", text, list(dict.fromkeys(scope[word] for word in WORD.findall(text) if word in scope)))


def clauses_of(source, place, scope):
    """The clauses that begin at a place, and where they end."""
    clauses = []
    while found := CLAUSE.match(source.code, place):
        place = closing(source.code, found.end())
        clauses.append(clause_of(found[1], found[2], source.text[found.end() + 1:place - 1], scope))
    return clauses, place


def past(source, place):
    """The place after a body in braces, or after a semicolon."""
    return closing(source.code, place) if source.code[place:place + 1] == "{" else place + 1


def items_of(source, start, end, outer):
    """What is listed of the part of a file between two places."""
    place = start
    while place < end:
        found = ITEM.match(source.code, place)
        if ATTRIBUTE.match(source.code, place):
            place = closing(source.code, source.code.index("[", place))
        elif found is None:
            place += 1
        else:
            body = until(source.code, found.end(), BODY)
            if found[2] == "fn":
                item, body = function_at(source, found, outer)
                yield from [item] if item else []
            elif found[2] in ("impl", "trait"):
                yield from members_at(source, found, body)
            elif found[2] == "struct":
                yield from struct_at(source, found, body, outer)
            place = past(source, body)


def function_at(source, found, outer):
    """The function that begins at a place, if it is listed, and where its body begins."""
    name = WORD.search(source.code, found.end())[0]
    signature = until(source.code, found.end(), SIGNATURE_END)
    clauses, after = clauses_of(source, signature, outer.scope)
    is_public = found[1] is not None
    is_law = not outer.owner and is_public and source.code[found.end():signature].strip() == f"{name}()"
    is_shown = outer.shows_all or is_law or (source.shows_of(outer.owner, found[1]) if outer.owner else source.shows(name, found[1]))
    item = Item(f"{outer.owner}::{name}" if outer.owner else name, source.path, first_sentence(comment_before(source.text, found.start())), clauses, is_law)
    return item if clauses and is_shown else None, until(source.code, after, BODY)


def struct_at(source, found, body, outer):
    """A struct whose fields have ghost fields among them, which each value keeps."""
    name = WORD.search(source.code, found.end())[0]
    kept = [clause_of("keeps", *one, outer.scope) for one in KEPT.findall(source.code[body:past(source, body)])]
    if kept and source.shows(name, found[1]):
        yield Item(name, source.path, first_sentence(comment_before(source.text, found.start())), kept)


def plain_type(words):
    """The name of a type, without lifetimes, arguments and references."""
    return WORD.search(re.sub(r"<.*>|'\w+|&|\bmut\b|\bdyn\b", " ", words))[0]


def members_at(source, found, body):
    """What is listed of an impl or a trait."""
    end = past(source, body) - 1
    scope = imported(SCOPE, source.text[:body]) | imported(SCOPE, source.text[body:end])
    head = re.sub(r"^<[^<>]*(?:<[^<>]*>[^<>]*)*>\s*", "", " ".join(source.code[found.end():body].split()))
    if found[2] == "trait":
        name = WORD.match(head)[0]
        if source.shows(name, found[1]):
            yield from items_of(source, body + 1, end, Outer(name, scope, True))
        return
    trait, _, of = head.rpartition(" for ")
    owner = plain_type(of or head)
    if source.is_library and owner not in source.types:
        return
    invariant = INVARIANT.search(source.text[body:end])
    if invariant:
        declared = re.search(rf"^.*\b(?:struct|enum) {owner}\b", source.code, re.MULTILINE)
        says = first_sentence(comment_before(source.text, declared.start())) if declared else ""
        yield Item(owner, source.path, says, [clause_of("keeps", "", invariant[1], scope)])
    yield from items_of(source, body + 1, end, Outer(owner, scope, bool(trait)))


def listed(source):
    """What is listed of a file."""
    return items_of(source, 0, len(source.code), Outer("", imported(SCOPE, source.text), False))


def exports_of(lib):
    """The modules that a crate shows, and the names that it takes from its others."""
    names = set()
    for path in re.findall(r"pub use ([^;]+);", lib):
        module, _, inner = path.partition("::{") if "::{" in path else path.rpartition("::")
        names |= {part.strip().rpartition(" as ")[0] or part.strip() for part in inner.rstrip("}").split(",")}
    return set(re.findall(r"^pub mod (\w+);", lib, re.MULTILINE)), names


def sources_of(crate):
    """The files of a crate in the order of their names."""
    folder = os.path.join("crates", crate, "src")
    is_library = os.path.exists(os.path.join(TOP, folder, "lib.rt"))
    modules, names = exports_of(masked(read(os.path.join(folder, "lib.rt")))) if is_library else (set(), set())
    files = []
    for path in files_below(folder, ".rt"):
        text = read(path)
        is_shown = os.path.relpath(path, folder)[:-len(".rt")].split(os.sep)[0] in modules
        files.append(Source(path, text, masked(text), is_shown, is_library, set(), names))
    types = {name for source in files for name in re.findall(r"^pub (?:struct|enum|type|trait) (\w+)", source.code, re.MULTILINE)
             if source.shows(name, "pub ")}
    for source in files:
        source.types = types
    return files


def definitions_of(crate):
    """Each file of definitions of a crate, with what it is about, and what is said of each definition in it."""
    folder = os.path.join("crates", crate, "specs")
    for path in files_below(folder, ".antt"):
        text = read(path)
        module = os.path.relpath(path, folder)[:-len(".antt")].replace(os.sep, ".")
        yield module, path, {found[1]: spec_comment(text, found.start()) for found in DEFINITION.finditer(text)}


def fields_of(path, name):
    """The fields of a definition that is a record."""
    found = re.search(rf"^(?:unfoldable )?pub record {re.escape(name)}\b[^\n]*(?:\n    [^\n]*)*\bwhere\n((?:  [^\n]*\n)*)", read(path), re.MULTILINE)
    return re.findall(r"^  pub (\w+)", found[1], re.MULTILINE) if found else []


def spec_about(path):
    """The first sentence of the comment with which a file begins."""
    said = []
    for line in read(path).splitlines():
        if not line.startswith("-- "):
            break
        said.append(line[3:].strip())
    return first_sentence(said)


def spec_comment(text, place):
    said = []
    for line in reversed(text[:place].splitlines()):
        if not line.startswith("-- ") or line.startswith("-- --"):
            break
        said.insert(0, line[3:].strip())
    return first_sentence(said)


def cell(text):
    return text.replace("|", "\\|")


def quoted(text):
    return f"`{cell(text)}`"


def listing(names):
    return ", ".join(map(quoted, names))


def clause_cell(clause):
    """A clause: its name, and itself where it is short; else the definitions that it is made of."""
    if len(clause.text) <= LONGEST:
        return f"{quoted(clause.name)}: {quoted(clause.text)}" if clause.name else quoted(clause.text)
    cited = listing(own for _, _, own in clause.cites)
    if clause.name:
        return f"{quoted(clause.name)}: of {cited}" if cited else quoted(clause.name)
    return cited or quoted(clause.text)


def table(heads, rows):
    if not rows:
        return ""
    line = "| " + " | ".join(heads) + " |\n" + "|---" * len(heads) + "|\n"
    return line + "".join("| " + " | ".join(row) + " |\n" for row in rows)


def linked(item):
    return f"[{quoted(item.name)}](../{item.path})"


def clauses_cell(item, *kinds):
    return "; ".join(clause_cell(clause) for clause in item.clauses if clause.kind in kinds)


def section(crate, items, cited, reached, keepers):
    """What is told of one crate."""
    source = os.path.join("crates", crate, "src")
    top = next(name for name in ("lib.rt", "main.rt") if os.path.exists(os.path.join(TOP, source, name)))
    about = first_sentence([line[3:].strip() for line in read(os.path.join(source, top)).splitlines() if line.startswith("//!")])
    kept = [item for item in items if item.clauses[0].kind == "keeps"]
    laws = [item for item in items if item.is_law]
    calls = [item for item in items if item not in kept and item not in laws]
    tables = [
        table(["type", "is", "keeps"], [[linked(it), cell(it.says), clauses_cell(it, "keeps")] for it in kept]),
        table(["trait", "is kept by"], [[quoted(name), listing(types)] for name, types in keepers]),
        table(["function", "does", "requires", "ensures"],
              [[linked(it), cell(it.says), clauses_cell(it, "requires"), clauses_cell(it, "ensures")] for it in calls]),
        table(["law", "says", "ensures"], [[linked(it), cell(it.says), clauses_cell(it, "ensures")] for it in laws]),
        *definition_tables(crate, cited, reached),
    ]
    return f"\n## {crate}\n" + (f"\n{about}\n" if about else "") + "".join(f"\n{one}" for one in tables if one)


def definition_tables(crate, cited, reached):
    """The definitions of a crate that clauses name, with what is said of each, and file by file those that these are made of."""
    named, further = [], []
    for module, path, defined in definitions_of(crate):
        own = [name for name in defined if (crate, module, name) in reached]
        direct = [name for name in own if (crate, module, name) in cited]
        named += [[f"[{quoted(name)}](../{path})", cell(defined[name]), listing(fields_of(path, name))] for name in direct]
        others = listing(name for name in own if name not in direct)
        further += [[f"[{quoted(module.replace('.', '/'))}](../{path})", cell(spec_about(path)), others]] if own else []
    return [table(["definition that clauses name", "says", "has"], named), table(["file of definitions", "is about", "further definitions"], further)]


def citing(crates):
    """For each definition those that it is made of."""
    made = {}
    for crate in crates:
        for module, path, defined in definitions_of(crate):
            text = read(path)
            scope = {name: (crate, module, name) for name in defined} | imported(SPEC_SCOPE, text)
            heads = [found for found in DEFINITION.finditer(text)]
            for found, following in zip(heads, [*heads[1:], None]):
                body = re.sub(r"^ *--.*$", "", text[found.start():following.start() if following else None], flags=re.MULTILINE)
                made[crate, module, found[1]] = [scope[word] for word in WORD.findall(body) if word in scope]
    return made


def reached_from(cited, made):
    """These definitions, and those that they are made of."""
    found, open_ = set(), list(cited)
    while open_:
        name = open_.pop()
        if name not in found:
            found.add(name)
            open_ += made.get(name, [])
    return found


def keepers_of(crate, sources):
    """The public traits of a crate, and the types that keep each."""
    names = [name for source in sources[crate] for name in re.findall(r"^pub trait (\w+)", source.code, re.MULTILINE)]
    codes = [source.code for files in sources.values() for source in files]
    found = {name: [plain_type(of) for code in codes for of in re.findall(rf"^impl(?:<[^{{]*?>)? {name}(?:<[^{{]*?>)? for ([^{{]+)\{{", code, re.MULTILINE)]
             for name in names}
    return [(name, types) for name, types in found.items() if types]


def document():
    """The text of docs/CONTRACTS.md: the crates that the programs stand on, in the order of crates.txt."""
    wanted = below(OWN, *PROGRAMS)
    sources = {crate: sources_of(crate) for crate in OWN if crate in wanted}
    crates = {crate: [item for source in files for item in listed(source)] for crate, files in sources.items()}
    cited = {name for items in crates.values() for item in items for clause in item.clauses for name in clause.cites}
    reached = reached_from(cited, citing(crates))
    return HEAD + "".join(section(crate, items, cited, reached, keepers_of(crate, sources)) for crate, items in crates.items() if items) + FOOT
