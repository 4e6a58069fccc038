"""Program texts, read plainly as docs/LANGUAGE.md has them, in three passes: a text spells a program, or it has a first fault."""
import re
from typing import NamedTuple, Optional

MOST_TEXT = 65536
MOST_NAME = 32
MOST_NUMBER = 9223372036854775807
MOST_COWNS = 256
MOST_DEFS = 64
MOST_NODES = 1000
MOST_LISTED = 8

KEYWORDS = set(b"cown def main let work if else repeat when".split())
TOKEN = re.compile(rb"([ \t\r\n]+|#[^\n]*)|([A-Za-z_][A-Za-z0-9_]*)|([0-9][A-Za-z0-9_]*)|([=!<>]=|[=<>+\-*/%(){}\[\];,])")
NUMBER = re.compile(rb"0|[1-9][0-9]*")
OTHER_BYTE = re.compile(rb"[\x80-\xff]")


class Refused(Exception):
    """The line of a text's first fault, counted from 1, and the name of what is wrong there."""


class Wrong(Exception):
    """The place of a fault in a text, and the name of what is wrong there."""


class Token(NamedTuple):
    kind: str
    text: bytes
    at: int


def read_program(text):
    """Sees that the text spells a program. One that spells none is refused."""
    try:
        if len(text) > MOST_TEXT:
            raise Wrong(MOST_TEXT, "TooLong")
        resolve(Parser(tokens_of(text)).program())
    except Wrong as wrong:
        at, kind = wrong.args
        raise Refused(text.count(b"\n", 0, at) + 1, kind) from None


# Tokens.

def tokens_of(text):
    tokens, at = [], 0
    while at < len(text):
        found = TOKEN.match(text, at)
        if not found:
            raise Wrong(at, "NotAscii" if text[at] >= 128 else "BadToken")
        apart, name, number, sign = found.groups()
        other = OTHER_BYTE.search(text, at, found.end())
        if other:
            raise Wrong(other.start(), "NotAscii")
        if name:
            if len(name) > MOST_NAME:
                raise Wrong(at, "BadToken")
            tokens.append(Token("keyword" if name in KEYWORDS else "name", name, at))
        elif number:
            if not NUMBER.fullmatch(number):
                raise Wrong(at, "BadToken")
            if len(number) > 19 or int(number) > MOST_NUMBER:
                raise Wrong(at, "NumberTooLarge")
            tokens.append(Token("number", number, at))
        elif sign:
            tokens.append(Token("sign", sign, at))
        at = found.end()
    return tokens + [Token("end", b"", len(text))]


# Shape.

class Cown(NamedTuple):
    name: Token
    size: Optional[int]


class Def(NamedTuple):
    name: Token
    values: list
    cowns: list
    block: list


class Parser:
    """Goes through the tokens of a text. What has a place in the grammar has a function, named for it.

    A block is a list of what its statements say of names, in the order of the text: ("let", name), ("use", name), ("when", name,
    how many arguments, how many cowns), ("cown", name, whether it has an index), and ("block", block).
    """

    def __init__(self, tokens):
        self.tokens = tokens
        self.place = 0
        self.nodes = 0

    @property
    def next(self):
        return self.tokens[self.place]

    def take(self):
        self.place += 1
        return self.tokens[self.place - 1]

    def wrong(self, kind="Unexpected"):
        return Wrong(self.next.at, kind)

    def is_at(self, *texts):
        return self.next.kind in ("sign", "keyword") and self.next.text in texts

    def try_take(self, *texts):
        return self.take() if self.is_at(*texts) else None

    def want(self, text):
        if not self.is_at(text):
            raise self.wrong()
        return self.take()

    def want_kind(self, kind):
        if self.next.kind != kind:
            raise self.wrong()
        return self.take()

    def node(self):
        """The next token begins a node."""
        self.nodes += 1
        if self.nodes > MOST_NODES:
            raise self.wrong("TooMany")

    def program(self):
        cowns, defs, members = [], [], 0
        while self.is_at(b"cown"):
            cown = self.cown(members)
            members += cown.size or 1
            cowns.append(cown)
        while self.is_at(b"def"):
            if len(defs) == MOST_DEFS:
                raise self.wrong("TooMany")
            defs.append(self.def_())
        self.want(b"main")
        main = self.body()
        if self.next.kind != "end":
            raise self.wrong()
        return cowns, defs, main

    def cown(self, members):
        """A cown, before which so many are declared. Where it is one too many, its size is that, or its name."""
        self.want(b"cown")
        name = self.want_kind("name")
        size = None
        if self.try_take(b"["):
            number = self.want_kind("number")
            size = int(number.text)
            if size == 0:
                raise Wrong(number.at, "Unexpected")
            if members + size > MOST_COWNS:
                raise Wrong(number.at, "TooMany")
            self.want(b"]")
        elif members == MOST_COWNS:
            raise Wrong(name.at, "TooMany")
        self.want(b"=")
        self.try_take(b"-")
        self.want_kind("number")
        self.want(b";")
        return Cown(name, size)

    def def_(self):
        self.want(b"def")
        name = self.want_kind("name")
        self.want(b"(")
        values = self.listed(b";", ["name"], lambda: self.want_kind("name"))
        self.want(b";")
        cowns = self.listed(b")", ["name"], lambda: self.want_kind("name"))
        self.want(b")")
        return Def(name, values, cowns, self.body())

    def listed(self, behind, kinds, item, signs=()):
        """Items between commas, up to the sign behind them. One that begins as an item does is too many behind the most."""
        items = []
        if not self.is_at(behind):
            items.append(item())
            while self.try_take(b","):
                if len(items) == MOST_LISTED and (self.next.kind in kinds or self.is_at(*signs)):
                    raise self.wrong("TooMany")
                items.append(item())
        return items

    def body(self):
        self.nodes = 0
        return self.block()

    def block(self):
        self.want(b"{")
        said = []
        while not self.try_take(b"}"):
            self.statement(said)
        return said

    def statement(self, said):
        if self.next.kind != "name" and not self.is_at(b"let", b"work", b"if", b"repeat", b"when"):
            raise self.wrong()
        self.node()
        token = self.take()
        if token.kind == "name":
            self.want(b"=")
            said.append(("use", token))
            self.expression(said)
            self.want(b";")
        elif token.text == b"let":
            name = self.want_kind("name")
            self.want(b"=")
            self.expression(said)
            self.want(b";")
            said.append(("let", name))
        elif token.text == b"work":
            self.expression(said)
            self.want(b";")
        elif token.text == b"when":
            self.when(said)
        else:
            self.expression(said)
            said.append(("block", self.block()))
            if token.text == b"if" and self.try_take(b"else"):
                said.append(("block", self.block()))

    def when(self, said):
        name = self.want_kind("name")
        self.want(b"(")
        inner = []
        values = self.listed(b";", ["number", "name"], lambda: self.expression(inner), [b"-", b"("])
        self.want(b";")
        cowns = self.listed(b")", ["name"], lambda: self.reference(inner))
        self.want(b")")
        self.want(b";")
        said.append(("when", name, len(values), len(cowns)))
        said.extend(inner)

    def reference(self, said):
        self.node_at_name()
        name = self.take()
        place = len(said)
        has_index = self.try_take(b"[") is not None
        if has_index:
            self.expression(said)
            self.want(b"]")
        said.insert(place, ("cown", name, has_index))

    def node_at_name(self):
        if self.next.kind != "name":
            raise self.wrong()
        self.node()

    def expression(self, said):
        self.sum(said)
        if self.is_at(b"==", b"!=", b"<", b"<=", b">", b">="):
            self.operator()
            self.sum(said)

    def sum(self, said):
        self.term(said)
        while self.is_at(b"+", b"-"):
            self.operator()
            self.term(said)

    def term(self, said):
        self.unary(said)
        while self.is_at(b"*", b"/", b"%"):
            self.operator()
            self.unary(said)

    def operator(self):
        self.node()
        self.take()

    def unary(self, said):
        while self.is_at(b"-"):
            self.operator()
        self.atom(said)

    def atom(self, said):
        if self.next.kind not in ("number", "name") and not self.is_at(b"("):
            raise self.wrong()
        self.node()
        token = self.take()
        if token.kind == "name":
            said.append(("use", token))
        elif token.kind == "sign":
            self.expression(said)
            self.want(b")")


# Names.

def resolve(program):
    """Goes through the text in its order; the names of the top are known from its beginning on."""
    cowns, defs, main = program
    top = {}
    for item in cowns + defs:
        top.setdefault(item.name.text, item)
    for item in cowns + defs:
        if top[item.name.text] is not item:
            raise Wrong(item.name.at, "NameTaken")
        if isinstance(item, Def):
            Resolver(top, [("value", name) for name in item.values] + [("cown", name) for name in item.cowns]).block(item.block)
    Resolver(top, []).block(main)


class Resolver:
    """The names of a body: those of the top, and those in scope, of which each is a value, a cown or a local."""

    def __init__(self, top, parameters):
        self.top = top
        self.scope = {}
        for kind, name in parameters:
            self.declare(name, kind)

    def declare(self, token, kind):
        if token.text in self.scope or token.text in self.top:
            raise Wrong(token.at, "NameTaken")
        self.scope[token.text] = kind

    def block(self, said):
        outer = dict(self.scope)
        for kind, token, *more in (("block", None, it[1]) if it[0] == "block" else it for it in said):
            {"let": self.let, "use": self.use, "when": self.when, "cown": self.cown, "block": self.inner}[kind](token, *more)
        self.scope = outer

    def inner(self, _, said):
        self.block(said)

    def let(self, token):
        self.declare(token, "local")

    def use(self, token):
        if token.text not in self.scope:
            raise Wrong(token.at, "UnknownName")

    def when(self, token, values, cowns):
        item = self.top.get(token.text)
        if not isinstance(item, Def):
            raise Wrong(token.at, "UnknownName")
        if (values, cowns) != (len(item.values), len(item.cowns)):
            raise Wrong(token.at, "WrongCount")

    def cown(self, token, has_index):
        item = self.top.get(token.text)
        if self.scope.get(token.text) != "cown" and not isinstance(item, Cown):
            raise Wrong(token.at, "UnknownName")
        if has_index != (isinstance(item, Cown) and item.size is not None):
            raise Wrong(token.at, "WrongCount")
