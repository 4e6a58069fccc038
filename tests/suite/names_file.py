"""The names that a file gives to rows and cowns, read plainly from its text.

`names_of` answers the first faulty line and what is wrong with it, or what rows and cowns are called, the name of each row's def, and the name of each
cown's family.
"""
import re
from typing import List, NamedTuple, Tuple, Union

MOST_LINE = 80
MOST_TEXT = 8 * 1024 * 1024
ROW = re.compile(rb"= (0|[1-9][0-9]*)((?: [!-~]+)+)")
COWN = re.compile(rb"@ (0|[1-9][0-9]*)( [!-~]+)")

KINDS = ("1 Cut", "2 TooLong", "3 Form", "4 NoRow", "5 NoCown", "6 Twice", "7 Memory")
CUT, TOO_LONG, FORM, NO_ROW, NO_COWN, TWICE, _MEMORY = KINDS


class Names(NamedTuple):
    """Of each row its text and its def's name, and of each cown its text and its family's name."""
    rows: List[bytes]
    defs: List[bytes]
    cowns: List[bytes]
    families: List[bytes]


def numbered(rows: int, cowns: int) -> Names:
    """The names of a record without a file: numbers."""
    row_names = [b"row %d" % row for row in range(rows)]
    cown_names = [b"cown %d" % cown for cown in range(cowns)]
    return Names(row_names, row_names[:], cown_names, cown_names[:])


def names_of(text: bytes, rows: int, cowns: int, base: Names = None) -> Union[Tuple[int, str], Names]:
    """The first fault as (line, kind), or the names: those of the base, which are numbers where none is given, with the file's laid over them."""
    base = base or numbered(rows, cowns)
    names = Names(*(list(part) for part in base))
    named = set()
    lines, length = text.split(b"\n"), 0
    for number, line in enumerate(lines, 1):
        is_last = number == len(lines)
        if is_last and not line:
            break
        length += len(line) + 1
        kind = lay(line, is_last, rows, cowns, names, named) or (TOO_LONG if length > MOST_TEXT else None)
        if kind:
            return number, kind
    return names


def lay(line, is_last, rows, cowns, names, named):
    """Calls a thing as a line says, or tells what is wrong with the line."""
    if len(line) > MOST_LINE:
        return TOO_LONG
    if is_last:
        return CUT
    if not line or line.startswith(b"#"):
        return None
    row, cown = ROW.fullmatch(line), COWN.fullmatch(line)
    thing = row or cown
    if not thing or int(thing[1]) >= 2 ** 32:
        return FORM
    number, words = int(thing[1]), thing[2].split(b" ")[1:]
    if row and number >= rows:
        return NO_ROW
    if cown and number >= cowns:
        return NO_COWN
    if (line[:1], number) in named:
        return TWICE
    named.add((line[:1], number))
    if row:
        names.rows[number] = words[0] + (b"(" + b", ".join(words[1:]) + b")" if words[1:] else b"")
        names.defs[number] = words[0]
    else:
        names.cowns[number] = words[0]
        names.families[number] = family_of(words[0])
    return None


def family_of(name: bytes) -> bytes:
    """The family of a cown with this name: the array's, where it is a member of one."""
    bracket = name.find(b"[", 1)
    return name[:bracket] + b"[*]" if bracket > 0 and name.endswith(b"]") else name


def groups(names: List[bytes]) -> Tuple[List[int], List[bytes]]:
    """The number of each one's group, and the groups' names, in the order in which they come first."""
    distinct = list(dict.fromkeys(names))
    places = {name: place for place, name in enumerate(distinct)}
    return [places[name] for name in names], distinct


# A text, its rows and cowns, and what it must give: worked out by hand.
WORKED = [
    (b"", 1, 0, Names([b"row 0"], [b"row 0"], [], [])),
    (b"# a bank\n= 0 main\n\n= 2 move 3 a,b\n@ 1 acct[0]\n", 3, 2, Names(
        [b"main", b"row 1", b"move(3, a,b)"], [b"main", b"row 1", b"move"], [b"cown 0", b"acct[0]"], [b"cown 0", b"acct[*]"])),
    (b"@ 0 [0]\n@ 1 [[0]\n@ 2 a[]\n@ 3 b]\n", 0, 4, Names(
        [], [], [b"[0]", b"[[0]", b"a[]", b"b]"], [b"[0]", b"[[*]", b"a[*]", b"b]"])),
    (b"= 0 main", 1, 0, (1, CUT)),
    (b"\n#", 1, 0, (2, CUT)),
    (b"#" * 81, 1, 0, (1, TOO_LONG)),
    (b"#" * 81 + b"\n", 1, 0, (1, TOO_LONG)),
    (b"#" * 80 + b"\n", 1, 0, Names([b"row 0"], [b"row 0"], [], [])),
    (b"= 0 main \n", 1, 0, (1, FORM)),
    (b"=  0 main\n", 1, 0, (1, FORM)),
    (b"= 00 main\n", 1, 0, (1, FORM)),
    (b"= 4294967295 main\n", 1, 0, (1, NO_ROW)),
    (b"= 4294967296 main\n", 1, 0, (1, FORM)),
    (b"= 0\n", 1, 0, (1, FORM)),
    (b"= 0 m\xc3\xa4in\n", 1, 0, (1, FORM)),
    (b"= 0 main\r\n", 1, 0, (1, FORM)),
    (b"@ 0 a b\n", 0, 1, (1, FORM)),
    (b" \n", 1, 0, (1, FORM)),
    (b"= 1 a\n", 1, 0, (1, NO_ROW)),
    (b"@ 1 a\n", 1, 1, (1, NO_COWN)),
    (b"= 0 a\n@ 0 b\n= 0 c 1\n", 1, 1, (3, TWICE)),
    (b"# c\n" * (MOST_TEXT // 4), 1, 0, Names([b"row 0"], [b"row 0"], [], [])),
    (b"# c\n" * (MOST_TEXT // 4) + b"\n", 1, 0, (MOST_TEXT // 4 + 1, TOO_LONG)),
    (b"# c\n" * (MOST_TEXT // 4) + b"x\n", 1, 0, (MOST_TEXT // 4 + 1, FORM)),
    (b"x\n" + b"# c\n" * (MOST_TEXT // 4), 1, 0, (1, FORM)),
]


def cases(_program):
    for text, rows, cowns, wanted in WORKED:
        found = names_of(text, rows, cowns)
        yield f"names of {text[:40]!r}", None if found == wanted else f"{found} in place of {wanted}"
