"""What is told below the line of a fault: the whole of standard error, for each kind of fault of programs, of records, of names, of edits and of words."""
import random
import re
import string
import tempfile
from concurrent.futures import ThreadPoolExecutor

from . import model, program_reader, record_reader
from .completion import helps_of
from .copies import view_of
from .files import written
from .pictures import random_records
from .plans import random_edit, record_of
from .records import TRANSFER, lines_text
from .refusals import READER_KINDS, RECORD_KINDS
from .replacements import fault_line, replaced
from .running import EXPLAINS, MOST_ASKED, MOST_MEMORY, measured, printed

# The most bytes of a line.
MOST_WIDTH = 160

MOST_ROWS = 65535

# How many records are edited by chance.
RANDOM = 100

PRINTABLE = set(string.printable.encode()) - set(b"\t\r\x0b\x0c")

# What can be done about a program that is past a limit.
FEWER_COWNS_DECLARED = "use one cown for several that are always held together: the order of behaviours stays the same"
HANDED_ON = "move some of it to another behaviour: spawn that with `when`; it runs later, over cowns of its own"

# What can be done about a record that is past a limit.
FEWER_ROWS = '`boc cut` makes a record of a part of the run; docs/RECORDING.md, "A long run", says how'
FEWER_COWNS = '`boc cut` keeps the cowns that limit the run; docs/RECORDING.md, "A long run", says how'
COARSER_TICKS = '`boc cut` divides all ticks; or count larger units, such as milliseconds; docs/RECORDING.md, "Ticks", has the rules'

# Program texts, the line of their fault, and the lines behind it.
PROGRAMS = [
    (b"", "line 1: 3 Unexpected", ["the input is empty; if it comes from a pipe, did the command before it fail?"]),
    (b"boc 2 0\n", "line 1: 3 Unexpected", [
        "this looks like a record; values reads programs: check, profile, whatif, curve, sweep, why, cowns and compare read records"]),
    (b"main {\n\tlet a = 1; # \xc3\xa9\n}\n", "line 2: 1 NotAscii", [
        " let a = 1; # ??",
        "              ^",
        "the byte 0xC3 is not ASCII; programs are ASCII, their comments too"]),
    (b"cown a = 007;\nmain { }\n", "line 1: 2 BadToken", [
        "cown a = 007;",
        "         ^",
        "`007`: a number can't begin with 0, except 0 itself"]),
    (b"cown a = 1x;\nmain { }\n", "line 1: 2 BadToken", [
        "cown a = 1x;",
        "         ^",
        "`1x`: a number has only digits, and a name can't begin with one"]),
    (b"cown a23456789012345678901234567890123 = 1;\nmain { }\n", "line 1: 2 BadToken", [
        "cown a23456789012345678901234567890123 = 1;",
        "     ^",
        "`a23456789012345678901234567890123`: a name has at most 32 bytes, and this one has 33"]),
    (b"main { work 1 & 2; }", "line 1: 2 BadToken", [
        "main { work 1 & 2; }",
        "              ^",
        "`&` is not a token"]),
    (b"main { work 1 && 2; }", "line 1: 2 BadToken", [
        "main { work 1 && 2; }",
        "              ^",
        "`&` is not a token: write `and` as a product, `(x == 1) * (y == 2)`, of which both sides are evaluated"]),
    (b"main { work 1 || 2; }", "line 1: 2 BadToken", [
        "main { work 1 || 2; }",
        "              ^",
        "`|` is not a token: write `or` as a sum, `(x == 1) + (y == 2)`, of which both sides are evaluated"]),
    (b"main { let x := 1; }", "line 1: 2 BadToken", [
        "main { let x := 1; }",
        "             ^",
        "`:` is not a token: declare a local with `let NAME = ..;`, and change it with `NAME = ..;`"]),
    (b"main:\n    work 1\n", "line 1: 2 BadToken", [
        "main:",
        "    ^",
        "`:` is not a token: a block is `{ .. }`"]),
    (b"def f(; c) { c.x = 1; }\nmain { }\n", "line 1: 2 BadToken", [
        "def f(; c) { c.x = 1; }",
        "              ^",
        "`.` is not a token: a name has no members"]),
    (b"main { for i in 0..9 { } }", "line 1: 2 BadToken", [
        "main { for i in 0..9 { } }",
        "                 ^",
        "`.` is not a token: the only loop is `repeat N { .. }`"]),
    (b"main { work 1.5; }", "line 1: 2 BadToken", [
        "main { work 1.5; }",
        "             ^",
        "`.` is not a token: values are integers"]),
    (b"main { let x = 1 ? 2 : 3; }", "line 1: 2 BadToken", [
        "main { let x = 1 ? 2 : 3; }",
        "                 ^",
        "`?` is not a token: an `if` is a statement, not a value: `if .. { .. } else { .. }`"]),
    (b"def f(; c) { c =! 1; }\nmain { }\n", "line 1: 2 BadToken", [
        "def f(; c) { c =! 1; }",
        "                ^",
        "`!` is not a token: `x != y` is 1 if they differ"]),
    (b"main { work 1\x00; }", "line 1: 2 BadToken", [
        "main { work 1?; }",
        "             ^",
        "the byte 0x00 is not a token"]),
    (b"cown a = 0\n\n# it begins\ndef f(; x) { }\nmain { }\n", "line 4: 3 Unexpected", [
        "cown a = 0",
        "          ^",
        "a `;` is missing after `0` on line 1"]),
    (b"main {\n    work 1\n}\n", "line 3: 3 Unexpected", [
        "    work 1",
        "          ^",
        "a `;` is missing after `1` on line 2"]),
    (b"main { let x = (1 + 2; }\n", "line 1: 3 Unexpected", [
        "main { let x = (1 + 2; }",
        "                     ^",
        "`;` can't follow `2` on line 1",
        "expected one of: `)`, `+`, `-`, .."]),
    (b"main { let if = 1; }\n", "line 1: 3 Unexpected", [
        "main { let if = 1; }",
        "           ^",
        "`if` can't follow `let` on line 1",
        "expected a name; `if` is a keyword"]),
    (b"def f(;) { } mian { }\n", "line 1: 3 Unexpected", [
        "def f(;) { } mian { }",
        "             ^",
        "`mian` can't follow `}` on line 1",
        "expected one of: `def`, `main`"]),
    (b"main { work ; }\n", "line 1: 3 Unexpected", [
        "main { work ; }",
        "            ^",
        "`;` can't follow `work` on line 1",
        "expected one of: a name, a number, `(`, .."]),
    (b"main { let = 1; }\n", "line 1: 3 Unexpected", [
        "main { let = 1; }",
        "           ^",
        "`=` can't follow `let` on line 1",
        "expected a name"]),
    (b"; main { }\n", "line 1: 3 Unexpected", [
        "; main { }",
        "^",
        "a program can't begin with `;`",
        "expected one of: `cown`, `def`, `main`"]),
    (b"main { }\nmain { }\n", "line 2: 3 Unexpected", [
        "main { }",
        "^",
        "`main` can't follow `}` on line 1",
        "a program ends with main's block"]),
    (b"main { work 1;", "line 1: 3 Unexpected", [
        "main { work 1;",
        "              ^",
        "the program can't end after `;` on line 1",
        "the block that begins on line 1 is not closed: a `}` is missing"]),
    (b"main { work (1 + 2", "line 1: 3 Unexpected", [
        "main { work (1 + 2",
        "                  ^",
        "the program can't end after `2` on line 1",
        "expected one of: `)`, `+`, `-`, .."]),
    (b"cown a = 0;\ndef f(; x) {\n    x = 1;\nmain { when f(; a); }\n", "line 4: 3 Unexpected", [
        "main { when f(; a); }",
        "^",
        "`main` can't follow `;` on line 3",
        "the block that begins on line 2 is not closed: a `}` is missing"]),
    (b"def f(; x) {\n    if x {\n        x = 1;\n    }\ndef g(; x) { }\nmain { }\n", "line 5: 3 Unexpected", [
        "def g(; x) { }",
        "^",
        "`def` can't follow `}` on line 4",
        "the block that begins on line 1 is not closed: a `}` is missing"]),
    (b"def f(; x) {\n    if x {\n        repeat 2 {\n            x = 1;\nmain { }\n", "line 5: 3 Unexpected", [
        "main { }",
        "^",
        "`main` can't follow `;` on line 4",
        "3 blocks are not closed: the innermost begins on line 3, the outermost on line 1"]),
    (b"def f(; x) { } }\nmain { }\n", "line 1: 3 Unexpected", [
        "def f(; x) { } }",
        "               ^",
        "`}` can't follow `}` on line 1",
        "expected one of: `def`, `main`",
        "this `}` has no matching `{`"]),
    (b"cown a[0] = 0; main { }\n", "line 1: 3 Unexpected", [
        "cown a[0] = 0; main { }",
        "       ^",
        "an array has 1 to 256 members"]),
    (b"cown a = 9223372036854775808; main { }\n", "line 1: 4 NumberTooLarge", [
        "cown a = 9223372036854775808; main { }",
        "         ^",
        "`9223372036854775808` is above 9223372036854775807, the largest number"]),
    (b"cown log = 0;\nmain {\n    log = 1;\n}\n", "line 3: 5 UnknownName", [
        "    log = 1;",
        "    ^",
        "`log` is a cown, declared on line 1",
        "main has no cowns: read and write them in a def that main spawns with `when`"]),
    (b"cown a = 0;\nmain { when a(; a); }\n", "line 2: 5 UnknownName", [
        "main { when a(; a); }",
        "            ^",
        "`a` is a cown, declared on line 1",
        "a `when` takes the name of a def"]),
    (b"def f(k; x) { when f(k; k); }\nmain { }\n", "line 1: 5 UnknownName", [
        "def f(k; x) { when f(k; k); }",
        "                        ^",
        "`k` is a value parameter, declared on line 1",
        "a `when` takes cowns of the program or cown parameters after its `;`"]),
    (b"main {\n    work n;\n    let n = 1;\n}\n", "line 2: 5 UnknownName", [
        "    work n;",
        "         ^",
        "`n` is a `let`, declared only later, on line 3",
        "a `let` is in scope after its statement, until the end of its block"]),
    (b"main { work n; }\n", "line 1: 5 UnknownName", [
        "main { work n; }",
        "            ^",
        "no parameter or `let` of this body is called `n`"]),
    (b"main { when f(;); }\n", "line 1: 5 UnknownName", [
        "main { when f(;); }",
        "            ^",
        "no def is called `f`"]),
    (b"def f(; x) { }\nmain { when f(; a); }\n", "line 2: 5 UnknownName", [
        "main { when f(; a); }",
        "                ^",
        "no cown is called `a`"]),
    (b"cown a = 0;\ncown b = 0;\ncown log = 0;\n\n\ndef f(log; x) { }\nmain { }\n", "line 6: 6 NameTaken", [
        "def f(log; x) { }",
        "      ^",
        "`log` is a cown, declared on line 3; a parameter can't have its name"]),
    (b"cown a[2] = 0;\ncown a = 0;\nmain { }\n", "line 2: 6 NameTaken", [
        "cown a = 0;",
        "     ^",
        "`a` is an array of cowns, declared on line 1; a cown can't have its name"]),
    (b"def f(; x) {\n    let x = 1;\n}\nmain { }\n", "line 2: 6 NameTaken", [
        "    let x = 1;",
        "        ^",
        "`x` is a cown parameter, declared on line 1; a `let` can't have its name"]),
    (b"def f(k; x) { }\nmain { when f(; ); }\n", "line 2: 7 WrongCount", [
        "main { when f(; ); }",
        "            ^",
        "`f`, declared on line 1, takes 1 argument and 1 cown, but is given 0 and 0"]),
    (b"cown c[2] = 0;\ndef f(; x, y) { }\nmain { when f((1 + 2) * 3, 4; c[1 - 1]); }\n", "line 3: 7 WrongCount", [
        "main { when f((1 + 2) * 3, 4; c[1 - 1]); }",
        "            ^",
        "`f`, declared on line 2, takes 0 arguments and 2 cowns, but is given 2 and 1"]),
    (b"cown c[2] = 0;\ndef f(; x) { }\nmain { when f(; c); }\n", "line 3: 7 WrongCount", [
        "main { when f(; c); }",
        "                ^",
        "`c` is an array, declared on line 1: it needs an index, such as `c[0]`"]),
    (b"cown c = 0;\ndef f(; x) { }\nmain { when f(; c[0]); }\n", "line 3: 7 WrongCount", [
        "main { when f(; c[0]); }",
        "                ^",
        "`c` is a cown, declared on line 1, not an array: it takes no index"]),
    (b"cown c[257] = 0;\nmain { }\n", "line 1: 8 TooMany", [
        "cown c[257] = 0;",
        "       ^",
        "a program has at most 256 cowns, members of arrays included",
        FEWER_COWNS_DECLARED]),
    (b"cown c[256] = 0;\ncown d = 0;\nmain { }\n", "line 2: 8 TooMany", [
        "cown d = 0;",
        "     ^",
        "a program has at most 256 cowns, members of arrays included",
        FEWER_COWNS_DECLARED]),
    (b"def f(a, b, c, d, e, g, h, i,\nj;) { } main { }", "line 2: 8 TooMany", [
        "j;) { } main { }",
        "^",
        "a def has at most 8 value parameters and 8 cown parameters, and a `when` as many arguments",
        HANDED_ON]),
    (b"main {\n" + b"work 1;\n" * 501 + b"}", "line 502: 8 TooMany", [
        "work 1;",
        "^",
        "a body has at most 1000 nodes: statements, numbers, names, operators, parentheses and cowns of `when`s",
        HANDED_ON]),
    (b"".join(b"def f%d(;) { }\n" % number for number in range(65)) + b"main { }", "line 65: 8 TooMany", [
        "def f64(;) { }",
        "^",
        "a program has at most 64 defs",
        "merge some of them: pass a value that says which one is meant, and choose with `if`"]),
    (b" " * 65537, "line 1: 9 TooLong", ["a program text has at most 65536 bytes"]),
    # What other languages write.
    (b"cown a = 0; // it counts\nmain { }\n", "line 1: 3 Unexpected", [
        "cown a = 0; // it counts",
        "            ^",
        "`/` can't follow `;` on line 1",
        "expected one of: `cown`, `def`, `main`",
        "a comment begins with `#` and ends with its line"]),
    (b"def f(;) { }\nmain { f(;); }\n", "line 2: 3 Unexpected", [
        "main { f(;); }",
        "        ^",
        "`(` can't follow `f` on line 2",
        "expected `=`",
        "spawn a behaviour with `when f(values; cowns);`"]),
    (b"main {\n    log(1);\n}\n", "line 2: 3 Unexpected", [
        "    log(1);",
        "       ^",
        "`(` can't follow `log` on line 2",
        "expected `=`",
        "spawn a behaviour with `when log(values; cowns);`",
        "and declare it with `def log(values; cowns) { .. }`: there are no other calls"]),
    (b"main {\n    print(1);\n}\n", "line 2: 3 Unexpected", [
        "    print(1);",
        "         ^",
        "`(` can't follow `print` on line 2",
        "expected `=`",
        "a program prints nothing: `boc values` prints the final values of its cowns"]),
    (b"def print(n;) { }\nmain { print(1); }\n", "line 2: 3 Unexpected", [
        "main { print(1); }",
        "            ^",
        "`(` can't follow `print` on line 2",
        "expected `=`",
        "spawn a behaviour with `when print(values; cowns);`"]),
    (b"cown a;\nmain { }\n", "line 1: 3 Unexpected", [
        "cown a;",
        "      ^",
        "`;` can't follow `a` on line 1",
        "expected one of: `=`, `[`",
        "declare each cown on its own, with a number: `cown NAME = 0;`"]),
    (b"cown a, b = 0;\nmain { }\n", "line 1: 3 Unexpected", [
        "cown a, b = 0;",
        "      ^",
        "`,` can't follow `a` on line 1",
        "expected one of: `=`, `[`",
        "declare each cown on its own, with a number: `cown NAME = 0;`"]),
    (b"x = 1;\nmain { }\n", "line 1: 3 Unexpected", [
        "x = 1;",
        "^",
        "a program can't begin with `x`",
        "expected one of: `cown`, `def`, `main`",
        "declare a cown outside the bodies: `cown NAME = 0;`"]),
    (b"let x = 1;\nmain { }\n", "line 1: 3 Unexpected", [
        "let x = 1;",
        "^",
        "a program can't begin with `let`",
        "expected one of: `cown`, `def`, `main`",
        "declare a cown outside the bodies: `cown NAME = 0;`"]),
    (b"work 3;\n", "line 1: 3 Unexpected", [
        "work 3;",
        "^",
        "a program can't begin with `work`",
        "expected one of: `cown`, `def`, `main`",
        "statements belong in a body: that of a def, or of `main { .. }`"]),
    (b"\n", "line 2: 3 Unexpected", [
        "",
        "^",
        "the program has no tokens",
        "expected one of: `cown`, `def`, `main`",
        "a program ends with `main { .. }`"]),
    (b"def f(;) { }", "line 1: 3 Unexpected", [
        "def f(;) { }",
        "            ^",
        "the program can't end after `}` on line 1",
        "expected one of: `def`, `main`",
        "a program ends with `main { .. }`"]),
    (b"main { y = 1; }\n", "line 1: 5 UnknownName", [
        "main { y = 1; }",
        "       ^",
        "no parameter or `let` of this body is called `y`",
        "declare a local with `let y = ..;`"]),
    (b"main { let x = true; }\n", "line 1: 5 UnknownName", [
        "main { let x = true; }",
        "               ^",
        "no parameter or `let` of this body is called `true`",
        "values are integers: a comparison is 1 if it holds, else 0"]),
    (b"def f() { }\nmain { }\n", "line 1: 3 Unexpected", [
        "def f() { }",
        "      ^",
        "`)` can't follow `(` on line 1",
        "expected one of: `;`, a name",
        "write a `;` before the cowns, even if there are none: `(x; a)`, `(; a)`, `(x;)`, `(;)`"]),
    (b"def f(;) { }\nmain { when f(); }\n", "line 2: 3 Unexpected", [
        "main { when f(); }",
        "              ^",
        "`)` can't follow `(` on line 2",
        "expected one of: `;`, `(`, a name, ..",
        "write a `;` before the cowns, even if there are none: `(x; a)`, `(; a)`, `(x;)`, `(;)`"]),
    (b"def f(int x; c) { }\nmain { }\n", "line 1: 3 Unexpected", [
        "def f(int x; c) { }",
        "          ^",
        "`x` can't follow `int` on line 1",
        "expected one of: `;`, `,`",
        "parameters have no types: `(x, y; a, b)`"]),
    (b"def main() { }\n", "line 1: 3 Unexpected", [
        "def main() { }",
        "    ^",
        "`main` can't follow `def` on line 1",
        "expected a name; `main` is a keyword",
        "write `main { .. }` on its own, after the defs"]),
    (b"main() { }\n", "line 1: 3 Unexpected", [
        "main() { }",
        "    ^",
        "`(` can't follow `main` on line 1",
        "expected `{`",
        "`main` takes no parameters: `main { .. }`"]),
    (b"main { let x: int = 0; }\n", "line 1: 2 BadToken", [
        "main { let x: int = 0; }",
        "            ^",
        "`:` is not a token: there are no types, all values are integers"]),
    (b"main { let x; }\n", "line 1: 3 Unexpected", [
        "main { let x; }",
        "            ^",
        "`;` can't follow `x` on line 1",
        "expected `=`",
        "a local needs a first value: `let NAME = 0;`"]),
    (b"main { int x[4]; }\n", "line 1: 3 Unexpected", [
        "main { int x[4]; }",
        "           ^",
        "`x` can't follow `int` on line 1",
        "expected `=`",
        "only cowns have arrays, declared before the defs: `cown x[N] = 0;`"]),
    (b"cown b[2] = 0;\nmain { let x = b[0]; }\n", "line 2: 3 Unexpected", [
        "main { let x = b[0]; }",
        "                ^",
        "`[` can't follow `b` on line 2",
        "expected one of: `;`, `+`, `-`, ..",
        "a body reads and writes only its parameters: pass it the member in the `when` that spawns it"]),
    (b"def f(; c) { c[0] = 1; }\nmain { }\n", "line 1: 3 Unexpected", [
        "def f(; c) { c[0] = 1; }",
        "              ^",
        "`[` can't follow `c` on line 1",
        "expected `=`",
        "a parameter or a `let` is one number: only a `cown NAME[N]` of the program has members"]),
    (b"main { if not 1 { } }\n", "line 1: 3 Unexpected", [
        "main { if not 1 { } }",
        "              ^",
        "`1` can't follow `not` on line 1",
        "expected one of: `+`, `-`, `*`, ..",
        "`x == 0` is 1 if x is 0, else 0"]),
    (b"main { repeat i in 3 { } }\n", "line 1: 3 Unexpected", [
        "main { repeat i in 3 { } }",
        "                ^",
        "`in` can't follow `i` on line 1",
        "expected one of: `{`, `+`, `-`, ..",
        "a `repeat` has no counter: `let i = 0; repeat N { .. i = i + 1; }`"]),
    (b"main { repeat 3 { break; } }\n", "line 1: 3 Unexpected", [
        "main { repeat 3 { break; } }",
        "                       ^",
        "`;` can't follow `break` on line 1",
        "expected `=`",
        "a `repeat` always takes all its turns"]),
    (b"main { work 1 }\n", "line 1: 3 Unexpected", [
        "main { work 1 }",
        "             ^",
        "a `;` is missing after `1` on line 1"]),
    (b"cown a = 1 cown b = 2;\nmain { }\n", "line 1: 3 Unexpected", [
        "cown a = 1 cown b = 2;",
        "          ^",
        "a `;` is missing after `1` on line 1"]),
    (b"main { work 1 work 2; }\n", "line 1: 3 Unexpected", [
        "main { work 1 work 2; }",
        "             ^",
        "a `;` is missing after `1` on line 1"]),
    (b"main { if 1 work 2; }\n", "line 1: 3 Unexpected", [
        "main { if 1 work 2; }",
        "            ^",
        "`work` can't follow `1` on line 1",
        "expected one of: `{`, `+`, `-`, ..",
        "a block is `{ .. }`"]),
    (b"main {\n    cown b = 0;\n}\n", "line 2: 3 Unexpected", [
        "    cown b = 0;",
        "    ^",
        "`cown` can't follow `{` on line 1",
        "expected one of: `}`, a name, `let`, ..",
        "declare cowns and defs outside all bodies, cowns first"]),
    (b"main { main(); }\n", "line 1: 3 Unexpected", [
        "main { main(); }",
        "       ^",
        "`main` can't follow `{` on line 1",
        "expected one of: `}`, a name, `let`, ..",
        "`main` is written once, outside all other bodies, and can't be spawned"]),
    (b"def f(;) { }\nint main() { }\n", "line 2: 3 Unexpected", [
        "int main() { }",
        "^",
        "`int` can't follow `}` on line 1",
        "expected one of: `def`, `main`",
        "write `main { .. }` on its own, after the defs"]),
    (b"def f(;) { }\nlet n = 3;\nmain { }\n", "line 2: 3 Unexpected", [
        "let n = 3;",
        "^",
        "`let` can't follow `}` on line 1",
        "expected one of: `def`, `main`",
        "declare cowns before the defs: `cown NAME = 0;`"]),
    (b"def f(n;) { }\nmain { let x = 1; when f(x = 5;); }\n", "line 2: 3 Unexpected", [
        "main { let x = 1; when f(x = 5;); }",
        "                           ^",
        "`=` can't follow `x` on line 2",
        "expected one of: `;`, `,`, `+`, .."]),
    (b"main { if 1 => 1 { } }\n", "line 1: 3 Unexpected", [
        "main { if 1 => 1 { } }",
        "            ^",
        "`=` can't follow `1` on line 1",
        "expected one of: `{`, `+`, `-`, ..",
        "`x >= y` is 1 if x is at least y"]),
    (b"main { work 1); }\n", "line 1: 3 Unexpected", [
        "main { work 1); }",
        "             ^",
        "`)` can't follow `1` on line 1",
        "expected one of: `;`, `+`, `-`, ..",
        "this `)` has no matching `(`"]),
    (b"cown a = 0);\nmain { }\n", "line 1: 3 Unexpected", [
        "cown a = 0);",
        "          ^",
        "`)` can't follow `0` on line 1",
        "expected `;`",
        "this `)` has no matching `(`"]),
    (b"main { let x = 1 if 1 else 2; }\n", "line 1: 3 Unexpected", [
        "main { let x = 1 if 1 else 2; }",
        "                 ^",
        "`if` can't follow `1` on line 1",
        "expected one of: `;`, `+`, `-`, ..",
        "an `if` is a statement, not a value: `if .. { .. } else { .. }`"]),
    (b"def f(;) { }\nmain { let x = when f(;); }\n", "line 2: 3 Unexpected", [
        "main { let x = when f(;); }",
        "               ^",
        "`when` can't follow `=` on line 2",
        "expected one of: `(`, a name, a number, ..",
        "a spawn has no value: a behaviour writes its result to a cown"]),
    (b"main { else { } }\n", "line 1: 3 Unexpected", [
        "main { else { } }",
        "       ^",
        "`else` can't follow `{` on line 1",
        "expected one of: `}`, a name, `let`, ..",
        "an `else` follows the `}` of its `if`, at most once"]),
    (b"main { if 1 { }; }\n", "line 1: 3 Unexpected", [
        "main { if 1 { }; }",
        "               ^",
        "`;` can't follow `}` on line 1",
        "expected one of: `}`, a name, `let`, ..",
        "a `;` ends a statement, and a block needs none"]),
    (b"def f(x; cown c) { }\nmain { }\n", "line 1: 3 Unexpected", [
        "def f(x; cown c) { }",
        "         ^",
        "`cown` can't follow `;` on line 1",
        "expected a name; `cown` is a keyword",
        "parameters are only names: those after the `;` are cowns"]),
    (b"def f(;) -> int { }\nmain { }\n", "line 1: 3 Unexpected", [
        "def f(;) -> int { }",
        "         ^",
        "`-` can't follow `)` on line 1",
        "expected `{`",
        "a def has no type and returns no value"]),
    (b"def f(;) { }\nmain { when f; }\n", "line 2: 3 Unexpected", [
        "main { when f; }",
        "             ^",
        "`;` can't follow `f` on line 2",
        "expected `(`",
        "a spawn needs a list, even if it is empty: `when NAME(values; cowns);`"]),
    (b"cown a[2];\nmain { }\n", "line 1: 3 Unexpected", [
        "cown a[2];",
        "         ^",
        "`;` can't follow `]` on line 1",
        "expected `=`",
        "the members of an array need a first value: `cown NAME[N] = 0;`"]),
    (b"main { return 3; }\n", "line 1: 3 Unexpected", [
        "main { return 3; }",
        "              ^",
        "`3` can't follow `return` on line 1",
        "expected `=`",
        "a body ends with its block and returns no value: write the result to a cown"]),
    (b"cown a = 0;\ndef g(n; c) { }\ndef f(n; c) { when g(a; c); }\nmain { }\n", "line 3: 5 UnknownName", [
        "def f(n; c) { when g(a; c); }",
        "                     ^",
        "`a` is a cown, declared on line 1",
        "a `when` takes numbers before its `;`: a body reads a cown through its parameter"]),
    (b"main {\n    sleep(10);\n}\n", "line 2: 3 Unexpected", [
        "    sleep(10);",
        "         ^",
        "`(` can't follow `sleep` on line 2",
        "expected `=`",
        "`work N;` takes N ticks"]),
    (b"cown a = 0;\ndef f(; x) { }\nmain { spawn f(; a); }\n", "line 3: 3 Unexpected", [
        "main { spawn f(; a); }",
        "             ^",
        "`f` can't follow `spawn` on line 3",
        "expected `=`",
        "spawn a behaviour with `when f(values; cowns);`"]),
    (b"cown a = 0;\ndef f(; x) { }\nmain { when (a) { } }\n", "line 3: 3 Unexpected", [
        "main { when (a) { } }",
        "            ^",
        "`(` can't follow `when` on line 3",
        "expected a name",
        "a `when` takes the name of a def: `when NAME(values; cowns);`"]),
    (b"def f(n; x) { x = f(n); }\nmain { }\n", "line 1: 3 Unexpected", [
        "def f(n; x) { x = f(n); }",
        "                   ^",
        "`(` can't follow `f` on line 1",
        "expected one of: `+`, `-`, `*`, ..",
        "a def can't be called for a value: spawn it with `when`"]),
    (b"main { let mut i = 0; }\n", "line 1: 3 Unexpected", [
        "main { let mut i = 0; }",
        "               ^",
        "`i` can't follow `mut` on line 1",
        "expected `=`",
        "declare a local with `let i = ..;`"]),
    (b"main { int i = 0; }\n", "line 1: 3 Unexpected", [
        "main { int i = 0; }",
        "           ^",
        "`i` can't follow `int` on line 1",
        "expected `=`",
        "declare a local with `let i = ..;`"]),
    (b"cown b[2] = 0;\nmain { b[0] = 1; }\n", "line 2: 3 Unexpected", [
        "main { b[0] = 1; }",
        "        ^",
        "`[` can't follow `b` on line 2",
        "expected `=`",
        "a body reads and writes only its parameters: pass it the member in the `when` that spawns it"]),
    (b"def f(n; x) { if n and x { } }\nmain { }\n", "line 1: 3 Unexpected", [
        "def f(n; x) { if n and x { } }",
        "                   ^",
        "`and` can't follow `n` on line 1",
        "expected one of: `{`, `+`, `-`, ..",
        "write `and` as a product: `(x == 1) * (y == 2)`, of which both sides are evaluated"]),
    (b"def f(n; x) { if n or x { } }\nmain { }\n", "line 1: 3 Unexpected", [
        "def f(n; x) { if n or x { } }",
        "                   ^",
        "`or` can't follow `n` on line 1",
        "expected one of: `{`, `+`, `-`, ..",
        "write `or` as a sum: `(x == 1) + (y == 2)`, of which both sides are evaluated"]),
    (b"def f(n; x) { if n { } elif x { } }\nmain { }\n", "line 1: 3 Unexpected", [
        "def f(n; x) { if n { } elif x { } }",
        "                            ^",
        "`x` can't follow `elif` on line 1",
        "expected `=`",
        "an `else` takes a block: `else { if .. { .. } }`"]),
    (b"main {\n    if 1 { } else if 2 { }\n}\n", "line 2: 3 Unexpected", [
        "    if 1 { } else if 2 { }",
        "                  ^",
        "`if` can't follow `else` on line 2",
        "expected `{`",
        "an `else` takes a block: `else { if .. { .. } }`"]),
    (b"def f(c) { }\nmain { }\n", "line 1: 3 Unexpected", [
        "def f(c) { }",
        "       ^",
        "`)` can't follow `c` on line 1",
        "expected one of: `;`, `,`",
        "values come first, then a `;`, then cowns: `(x, y; a, b)`, or `(; a, b)` without values"]),
    (b"def f(; c) { c += 2; }\nmain { }\n", "line 1: 3 Unexpected", [
        "def f(; c) { c += 2; }",
        "               ^",
        "`+` can't follow `c` on line 1",
        "expected `=`",
        "write the change in full: `c = c + ..;`"]),
    (b"def f(; c) { c--; }\nmain { }\n", "line 1: 3 Unexpected", [
        "def f(; c) { c--; }",
        "              ^",
        "`-` can't follow `c` on line 1",
        "expected `=`",
        "write the change in full: `c = c - 1;`"]),
    (b"def f(; c) { while c { } }\nmain { }\n", "line 1: 3 Unexpected", [
        "def f(; c) { while c { } }",
        "                   ^",
        "`c` can't follow `while` on line 1",
        "expected `=`",
        "the only loop is `repeat N { .. }`"]),
    (b"def f(; c) { if c = 1 { } }\nmain { }\n", "line 1: 3 Unexpected", [
        "def f(; c) { if c = 1 { } }",
        "                  ^",
        "`=` can't follow `c` on line 1",
        "expected one of: `{`, `+`, `-`, ..",
        "compare two values with `==`"]),
    (b"fn f(; c) { }\nmain { }\n", "line 1: 3 Unexpected", [
        "fn f(; c) { }",
        "^",
        "a program can't begin with `fn`",
        "expected one of: `cown`, `def`, `main`",
        "declare a behaviour with `def`"]),
    (b"main { work !1; }", "line 1: 2 BadToken", [
        "main { work !1; }",
        "            ^",
        "`!` is not a token: `x == 0` is 1 if x is 0, else 0"]),
    (b"cown a = 0;\ndef e(n; x) { x = n; }\nmain {\n  when e(1, a\n  when e(2; a);\n}\n", "line 5: 3 Unexpected", [
        "  when e(2; a);",
        "  ^",
        "`when` can't follow `a` on line 4",
        "this list is not closed: a list is `(values; cowns)`"]),
    (b"cown a = 0;\ndef e(n; x) { x = n; }\nmain {\n  when e(1, a\n}\n", "line 5: 3 Unexpected", [
        "}",
        "^",
        "`}` can't follow `a` on line 4",
        "this list is not closed: a list is `(values; cowns)`"]),
    (b"cown a = 0;\ndef e(n; x) { x = n; }\nmain {\n  let y = 1; y ** 2;\n}\n", "line 4: 3 Unexpected", [
        "  let y = 1; y ** 2;",
        "               ^",
        "`*` can't follow `y` on line 4",
        "expected `=`",
        "there is no power operator: write the product, such as `x * x`"]),
    (b"cown a = 0;\ndef e(n; x) { x = n; }\nmain {\n  let y = 1; y // two\n}\n", "line 4: 3 Unexpected", [
        "  let y = 1; y // two",
        "               ^",
        "`/` can't follow `y` on line 4",
        "expected `=`",
        "a comment begins with `#` and ends with its line"]),
    (b"cown a = 0;\ndef e(n; x) { x = n; }\nmain {\n  let y = 1; --y;\n}\n", "line 4: 3 Unexpected", [
        "  let y = 1; --y;",
        "             ^",
        "`-` can't follow `;` on line 4",
        "expected one of: `work`, `if`, `repeat`, ..",
        "write the change in full: `x = x - 1;`"]),
    (b"cown a = 0;\ndef e(n; x) { x = n; }\nmain {\n  work 1; -- five\n}\n", "line 4: 3 Unexpected", [
        "  work 1; -- five",
        "          ^",
        "`-` can't follow `;` on line 4",
        "expected one of: `work`, `if`, `repeat`, ..",
        "a comment begins with `#` and ends with its line"]),
    (b"cown a = 0;\ndef e(n; x) { x = n; }\nmain {\n  var work = 5;\n}\n", "line 4: 3 Unexpected", [
        "  var work = 5;",
        "      ^",
        "`work` can't follow `var` on line 4",
        "expected `=`",
        "declare a local with `let NAME = ..;`; `work` is a keyword"]),
    (b"cown a = 0;\ndef e(n; x) { x = n; }\nmain {\n  int a = 2;\n}\n", "line 4: 3 Unexpected", [
        "  int a = 2;",
        "      ^",
        "`a` can't follow `int` on line 4",
        "expected `=`",
        "declare a local with `let NAME = ..;`; `a` is taken"]),
    (b"cown a = 0;\ndef e(n; x) { x = n; }\nmain {\n  let x = 1; var x = 2;\n}\n", "line 4: 3 Unexpected", [
        "  let x = 1; var x = 2;",
        "                 ^",
        "`x` can't follow `var` on line 4",
        "expected `=`",
        "declare a local with `let x = ..;`, once, and change it without `let`"]),
    (b"cown a = 0;\ndef e(n; x) { x = n; }\nmain {\n  const int y = 1;\n}\n", "line 4: 3 Unexpected", [
        "  const int y = 1;",
        "        ^",
        "`int` can't follow `const` on line 4",
        "expected `=`",
        "declare a local with `let y = ..;`"]),
    (b"cown a = 0;\ndef e(n; x) { x = n; }\nmain {\n  let y += 1;\n}\n", "line 4: 3 Unexpected", [
        "  let y += 1;",
        "        ^",
        "`+` can't follow `y` on line 4",
        "expected `=`",
        "a local needs a first value: `let NAME = 0;`"]),
    (b"cown a = 0;\ndef e(n; x) { x = n; }\nmain {\n  e++;\n}\n", "line 4: 3 Unexpected", [
        "  e++;",
        "   ^",
        "`+` can't follow `e` on line 4",
        "expected `=`",
        "only a `when` can name a def"]),
    (b"cown a = 0;\ndef e(n; x) { x = n; }\nmain {\n  a += 5;\n}\n", "line 4: 3 Unexpected", [
        "  a += 5;",
        "    ^",
        "`+` can't follow `a` on line 4",
        "expected `=`",
        "a body reads and writes only its parameters: pass it the cown in the `when` that spawns it"]),
    (b"cown a = 0;\ndef e(n; x) { x = n; }\nmain {\n  if 1 < 2 < 3 { }\n}\n", "line 4: 3 Unexpected", [
        "  if 1 < 2 < 3 { }",
        "           ^",
        "`<` can't follow `2` on line 4",
        "expected one of: `{`, `+`, `-`, ..",
        "a value has at most one comparison: `(x < y) * (y < z)` is 1 if both hold"]),
    (b"cown a = 0;\ndef e(n; x) { x = n; }\nmain {\n  if 1 =< 2 { }\n}\n", "line 4: 3 Unexpected", [
        "  if 1 =< 2 { }",
        "       ^",
        "`=` can't follow `1` on line 4",
        "expected one of: `{`, `+`, `-`, ..",
        "`x <= y` is 1 if x is at most y"]),
    (b"cown a = 0;\ndef e(n; x) { x = n; }\nmain {\n  if 1 ( work 1; )\n}\n", "line 4: 3 Unexpected", [
        "  if 1 ( work 1; )",
        "       ^",
        "`(` can't follow `1` on line 4",
        "expected one of: `+`, `-`, `*`, ..",
        "a block is `{ .. }`"]),
    (b"cown a = 0;\ndef e(n; x);\nmain { }\n", "line 2: 3 Unexpected", [
        "def e(n; x);",
        "           ^",
        "`;` can't follow `)` on line 2",
        "expected `{`",
        "a block is `{ .. }`"]),
    (b"cown a = 0;\ndef e(n; x) { x = n; }\nx = 2;\nmain { }\n", "line 3: 3 Unexpected", [
        "x = 2;",
        "^",
        "`x` can't follow `}` on line 2",
        "expected one of: `def`, `main`",
        "statements belong in a body: that of a def, or of `main { .. }`"]),
    (b"cown a = 0;\ndef loop(n; x) { }\nmain {\n  loop(1; a);\n}\n", "line 4: 3 Unexpected", [
        "  loop(1; a);",
        "      ^",
        "`(` can't follow `loop` on line 4",
        "expected `=`",
        "spawn a behaviour with `when loop(values; cowns);`"]),
    (b"cown a = 0;\ndef e(n; x) { x = n; }\nmain {\n  if 1 == 2: work 1;\n}\n", "line 4: 2 BadToken", [
        "  if 1 == 2: work 1;",
        "           ^",
        "`:` is not a token: a block is `{ .. }`"]),
    (b"cown a = 0;\ndef e(n; x) { x = n; }\nmain {\n  if 1 =:= 2 { }\n}\n", "line 4: 2 BadToken", [
        "  if 1 =:= 2 { }",
        "        ^",
        "`:` is not a token: compare two values with `==`"]),
    (b"cown a = 0;\ndef e(n; x) { x = n; }\nmain {\n  when e(1: a);\n}\n", "line 4: 2 BadToken", [
        "  when e(1: a);",
        "          ^",
        "`:` is not a token: a spawn is `when NAME(values; cowns);`"]),
    (b"cown a = 0;\ndef e(n; x) { x = n; }\nmain {\n  let y = 1:\n}\n", "line 4: 2 BadToken", [
        "  let y = 1:",
        "           ^",
        "`:` is not a token: a statement ends with `;`"]),
    (b"def e(n: int; x) { }\nmain { }\n", "line 1: 2 BadToken", [
        "def e(n: int; x) { }",
        "       ^",
        "`:` is not a token: there are no types, all values are integers"]),
    (b"def e(n; x): x = 1;\nmain { }\n", "line 1: 2 BadToken", [
        "def e(n; x): x = 1;",
        "           ^",
        "`:` is not a token: a block is `{ .. }`"]),
    (b"cown a = 0;\ndef e(n; x) { x = n; }\nmain {\n  when e(1; a).\n}\n", "line 4: 2 BadToken", [
        "  when e(1; a).",
        "              ^",
        "`.` is not a token: a statement ends with `;`"]),
    (b"cown a = 0;\ndef e(n; x) { x = n; }\nmain {\n  let y = .5;\n}\n", "line 4: 2 BadToken", [
        "  let y = .5;",
        "          ^",
        "`.` is not a token: values are integers"]),
    (b"cown a = 0;\ndef e(n; x) { x = n; }\nmain {\n  let y = 1..5;\n}\n", "line 4: 2 BadToken", [
        "  let y = 1..5;",
        "           ^",
        "`.` is not a token: values are integers"]),
    (b"def e(cown x; n) { }\nmain { }\n", "line 1: 3 Unexpected", [
        "def e(cown x; n) { }",
        "      ^",
        "`cown` can't follow `(` on line 1",
        "expected a name; `cown` is a keyword",
        "parameters are only names: those after the `;` are cowns"]),
    (b"def e(n; x) : int { }\nmain { }\n", "line 1: 2 BadToken", [
        "def e(n; x) : int { }",
        "            ^",
        "`:` is not a token: there are no types, all values are integers"]),
    (b"cown r[2] = 0;\ndef e(n; x) { }\nmain { when e(1; r.0); }\n", "line 3: 2 BadToken", [
        "main { when e(1; r.0); }",
        "                  ^",
        "`.` is not a token: a name has no members"]),
    (b"main { let y = 1; y //= 2; }\n", "line 1: 3 Unexpected", [
        "main { let y = 1; y //= 2; }",
        "                    ^",
        "`/` can't follow `y` on line 1",
        "expected `=`",
        "write the change in full: `y = y / ..;`"]),
    (b"main { if 1 then { } }\n", "line 1: 3 Unexpected", [
        "main { if 1 then { } }",
        "            ^",
        "`then` can't follow `1` on line 1",
        "expected one of: `{`, `+`, `-`, ..",
        "a block is `{ .. }`"]),
    (b"cown a = 0;\ndef e(n; x) { x = n; }\nmain {\n  e!(1; a);\n}\n", "line 4: 2 BadToken", [
        "  e!(1; a);",
        "   ^",
        "`!` is not a token"]),
    (b"@ 0 store\n= 1 put 4\n", "line 1: 2 BadToken", ["this looks like a names file; pass it with --names, and a program or a record as FILE"]),
    # A line is cut round the place.
    (b"main { " + b"work 1; " * 20 + b"@ " + b"work 2; " * 20 + b"}", "line 1: 2 BadToken", [
        ".." + ("work 1; " * 20)[-68:] + "@ " + ("work 2; " * 20)[:46] + "..",
        " " * 70 + "^",
        "`@` is not a token"]),
]

# Programs whose runs come to too many behaviours, and the line that says how.
MANY = [
    (b"cown a = 0;\ndef f(; x) {\n    when f(; x);\n}\nmain { when f(; a); }\n",
     "`f` may spawn itself too often, by the `when` on line 3: check the condition that ends it"),
    (b"cown a = 0;\ndef f(; x) { when g(; x); }\ndef g(; x) {\n    if x == 0 { when f(; x); }\n}\nmain { when g(; a); }\n",
     "`f` may spawn itself too often through `g`, by the `when` on line 2: check the condition that ends it"),
    (b"cown a = 0;\ndef f(; x) { when f(; x); }\ndef g(; x) { x = 1; }\ndef h(; x) { repeat 300 { when g(; x); } }\nmain { repeat 300 { when h(; a); } }\n",
     "no def spawns itself: look for a `when` in a `repeat`, and for defs that each spawn several others"),
]

MAIN_RUNS = ["boc 2 2", "+ 0 0 0", "> 0"]
TWO_ROWS = MAIN_RUNS + ["+ 1 0 5 0", "+ 2 0 6 0 1"]

# How one continues with what a record has that its fault leaves unended: the input, or a file.
CUT_INPUT = "`boc cut | boc why` of the same input continues with what is there"
CUT_FILE = "`boc cut FILE | boc why` continues with what is there"

# Texts of records, the line of their fault, and the lines behind it.
RECORDS = [
    ([], "line 1: 11 Truncated", ["the input is empty; if it comes from a pipe, did the command before it fail?"]),
    (["# A bank.", "cown a = 0;"], "line 1: 1 Header", ["this looks like a program; check reads records: boc run FILE | boc check"]),
    (["boc 3 2"], "line 1: 1 Header", ["`boc 3 2`: version 3 is not known; boc reads 1 and 2"]),
    (["boc 2 303"], "line 1: 1 Header", ["`boc 2 303`: 303 cowns, but at most 256 are allowed", FEWER_COWNS]),
    (["boc 1 257"], "line 1: 1 Header", ["`boc 1 257`: 257 cowns, but at most 256 are allowed", FEWER_COWNS]),
    (["boc 2 2\r"], "line 1: 1 Header", ["`boc 2 2?`: it ends with a carriage return; lines end with only a line feed"]),
    (["boc 2 2 "], "line 1: 1 Header", ["`boc 2 2 `: it ends with a space"]),
    (["boc 2 02"], "line 1: 1 Header", ["`boc 2 02`: the first line of a record is `boc 2 COWNS`, in plain decimals"]),
    (["Boc 2 2"], "line 1: 1 Header", ["`Boc 2 2`: the first line of a record is `boc 2 COWNS`"]),
    (["boc 2 \x00"], "line 1: 1 Header", ["`boc 2 ?`: the byte 0x00 is not printable ASCII; records are"]),
    (MAIN_RUNS + ["<\t0 4 0"], "line 4: 2 Form", ["`<?0 4 0`: the byte 0x09 is not printable ASCII; records are"]),
    (MAIN_RUNS + ["# a note"], "line 4: 2 Form", ["`# a note`: a record has no comments"]),
    (MAIN_RUNS + ["@ 0 a"], "line 4: 2 Form", ["`@ 0 a`: names go in a file of their own, for --names"]),
    (MAIN_RUNS + [""], "line 4: 2 Form", ["a record has no empty lines"]),
    (MAIN_RUNS + ["< 0 4 0 "], "line 4: 2 Form", ["`< 0 4 0 `: it ends with a space"]),
    (MAIN_RUNS + ["<  0 4 0"], "line 4: 2 Form", ["`<  0 4 0`: two spaces; fields are separated by one"]),
    (MAIN_RUNS + ["< 0 4 -1"], "line 4: 2 Form", ["`< 0 4 -1`: `-1` is negative; numbers are plain decimals"]),
    (MAIN_RUNS + ["< 0 04 0"], "line 4: 2 Form", ["`< 0 04 0`: `04` begins with a 0"]),
    (MAIN_RUNS + ["< 0 4294967296 0"], "line 4: 2 Form", ["`< 0 4294967296 0`: `4294967296` is above 4294967295", COARSER_TICKS]),
    (MAIN_RUNS + ["+ 1 0 4294967296 0"], "line 4: 2 Form", ["`+ 1 0 4294967296 0`: `4294967296` is above 4294967295", COARSER_TICKS]),
    (MAIN_RUNS + ["+ 1 4294967296 1 0"], "line 4: 2 Form", ["`+ 1 4294967296 1 0`: `4294967296` is above 4294967295"]),
    (MAIN_RUNS + ["< 4294967296 1 0"], "line 4: 2 Form", ["`< 4294967296 1 0`: `4294967296` is above 4294967295"]),
    (MAIN_RUNS + ["< 0 01 0"], "line 4: 2 Form", ["`< 0 01 0`: `01` begins with a 0"]),
    (MAIN_RUNS + ["< 0 4 7"], "line 4: 2 Form", ["`< 0 4 7`: a status is 0 to 6"]),
    (MAIN_RUNS + ["< 0 4"], "line 4: 2 Form", ["`< 0 4`: 2 numbers; the form is `< ROW TICKS STATUS COWN ..`, with at most 8 cowns"]),
    (MAIN_RUNS + ["< 0 4 -"], "line 4: 2 Form", ["`< 0 4 -`: `-` is not a plain decimal"]),
    (MAIN_RUNS + ["< 0 4 -0"], "line 4: 2 Form", ["`< 0 4 -0`: `-0` is not a plain decimal"]),
    (MAIN_RUNS + ["<0 4 0"], "line 4: 2 Form", ["`<0 4 0`: no space after the sign"]),
    (MAIN_RUNS + ["<"], "line 4: 2 Form", ["`<`: no numbers after the sign"]),
    (MAIN_RUNS + [" < 0 4 0"], "line 4: 2 Form", ["` < 0 4 0`: it begins with a space"]),
    (MAIN_RUNS + ["@x 0"], "line 4: 2 Form", ["`@x 0`: a line begins with `+`, `>` or `<`, and the last one is `.`"]),
    (MAIN_RUNS + ["boc 2 2"], "line 4: 2 Form", ["`boc 2 2`: another record begins here, before the last line `.` of this one"]),
    (["# a run"] + TRANSFER, "line 1: 1 Header", ["`# a run`: a record has no comments; its first line is `boc 2 COWNS`"]),
    (["cown 3"] + TRANSFER[1:], "line 1: 1 Header", ["`cown 3`: the first line of a record is `boc 2 COWNS`"]),
    (["boc 22"], "line 1: 1 Header", ["`boc 22`: the first line of a record is `boc 2 COWNS`, in plain decimals"]),
    (["boc 2 2\r+ 0 0 0\r> 0\r+ 1 0 1 0\r> 1\r< 0 4 0\r< 1 3 0\r.\r" + "\r" * 40], "line 1: 1 Header", [
        "`boc 2 2?+ 0 0 0?> 0?+ 1 0 1 0?> 1?< 0 4 0?< 1 3 0?.?????????????..`: "
        "a line ends with a line feed, not a carriage return, and has at most 80 bytes"]),
    (MAIN_RUNS + ["! 0"], "line 4: 2 Form", ["`! 0`: a line begins with `+`, `>` or `<`, and the last one is `.`"]),
    (["boc 1 2", "+ 0 0 0", "> 0", "< 0 1 0 0"], "line 4: 2 Form", ["`< 0 1 0 0`: 4 numbers; the form is `< ROW TICKS STATUS`, in version 1 without cowns"]),
    # More cowns than a row can have. A line of more than 80 bytes is not read to its end, and its cowns are not counted.
    (MAIN_RUNS + ["+ 1 0 5 0 1 2 3 4 5 6 7 8"], "line 4: 2 Form", ["`+ 1 0 5 0 1 2 3 4 5 6 7 8`: 9 cowns, but a row has at most 8", FEWER_COWNS]),
    (MAIN_RUNS + ["+ 1 0 5 0 1 2 3 4 5 6 7 8 9 10 11 12 13 14 15 16"], "line 4: 2 Form",
     ["`+ 1 0 5 0 1 2 3 4 5 6 7 8 9 10 11 12 13 14 15 16`: 17 cowns, but a row has at most 8", FEWER_COWNS]),
    (MAIN_RUNS + ["< 0 5 0 0 1 2 3 4 5 6 7 8"], "line 4: 2 Form", ["`< 0 5 0 0 1 2 3 4 5 6 7 8`: 9 cowns, but a row has at most 8", FEWER_COWNS]),
    (["boc 1 9", "+ 0 0 0", "> 0", "+ 1 0 5 0 1 2 3 4 5 6 7 8"], "line 4: 2 Form",
     ["`+ 1 0 5 0 1 2 3 4 5 6 7 8`: 9 cowns, but a row has at most 8", FEWER_COWNS]),
    (MAIN_RUNS + ["+ 1 0 5" + "".join(f" {cown}" for cown in range(100, 140))], "line 4: 2 Form",
     ["`+ 1 0 5 100 101 102 103 104 105 106 107 108 109 110 111 112 113 ..`: more than 8 cowns, but a row has at most 8", FEWER_COWNS]),
    (MAIN_RUNS + ["+ 1 0 5 1 2 3 4 5 6 7 8 " + "9" * 60], "line 4: 2 Form", [f"`+ 1 0 5 1 2 3 4 5 6 7 8 {'9' * 40}..`: a line has at most 80 bytes"]),
    (MAIN_RUNS + ["+ 1 0 5 0 1 2 3 4 5 6 7 8 "], "line 4: 2 Form", ["`+ 1 0 5 0 1 2 3 4 5 6 7 8 `: it ends with a space"]),
    (MAIN_RUNS + ["+ 1 0"], "line 4: 2 Form", ["`+ 1 0`: 2 numbers; the form is `+ ROW PARENT OFFSET COWN ..`, with at most 8 cowns"]),
    (MAIN_RUNS + ["+ 2 0 5"], "line 4: 3 NumberNotNext", ["`+ 2 0 5`: the next row is 1"]),
    (["boc 2 2", "+ 0 1 0"], "line 2: 4 ParentNotRunning", ["`+ 0 1 0`: row 0 is main; its parent must be 0"]),
    (["boc 2 2", "+ 0 0 0", "+ 1 0 1"], "line 3: 4 ParentNotRunning", ["`+ 1 0 1`: row 0, its parent, hasn't started"]),
    (MAIN_RUNS + ["+ 1 7 5"], "line 4: 4 ParentNotRunning", ["`+ 1 7 5`: row 7, its parent, is not spawned yet"]),
    (MAIN_RUNS + ["< 0 4 0", "+ 1 0 5"], "line 5: 4 ParentNotRunning", ["`+ 1 0 5`: row 0, its parent, has ended"]),
    (["boc 2 2", "+ 0 0 1"], "line 2: 5 Offset", ["`+ 0 0 1`: row 0 is main; its offset must be 0"]),
    (MAIN_RUNS + ["+ 1 0 0"], "line 4: 5 Offset", ["`+ 1 0 0`: an offset is at least 1"]),
    (MAIN_RUNS + ["+ 1 0 1000001"], "line 4: 5 Offset", ["`+ 1 0 1000001`: an offset is at most 1000000", COARSER_TICKS]),
    (MAIN_RUNS + ["+ 1 0 5", "+ 2 0 5"], "line 5: 5 Offset", ["`+ 2 0 5`: row 0 spawned row 1 at its tick 5, so the offset is at least 6"]),
    (MAIN_RUNS + ["+ 1 0 1000000", "+ 2 0 1000000"], "line 5: 5 Offset",
     ["`+ 2 0 1000000`: row 0 spawned row 1 at its tick 1000000, the largest offset, and can spawn no more", COARSER_TICKS]),
    (["boc 2 2", "+ 0 0 0 0"], "line 2: 6 Cowns", ["`+ 0 0 0 0`: row 0 is main, which has no cowns"]),
    (MAIN_RUNS + ["+ 1 0 5 2"], "line 4: 6 Cowns", ["`+ 1 0 5 2`: there is no cown 2; the first line declares 2 cowns, from 0 on"]),
    (MAIN_RUNS + ["+ 1 0 5 1 0"], "line 4: 6 Cowns", ["`+ 1 0 5 1 0`: cowns must rise, each above the one before it"]),
    (TWO_ROWS + ["> 2"], "line 6: 7 StartNotAllowed", ["`> 2`: row 1 was spawned before row 2, hasn't started, and has cown 0 too"]),
    (TWO_ROWS + ["> 1", "> 2"], "line 7: 7 StartNotAllowed", ["`> 2`: row 1 is running, and has cown 0 too"]),
    (TWO_ROWS + ["> 0"], "line 6: 7 StartNotAllowed", ["`> 0`: row 0 has started already"]),
    (TWO_ROWS + ["> 3"], "line 6: 7 StartNotAllowed", ["`> 3`: row 3 is not spawned yet"]),
    (MAIN_RUNS + ["< 0 4 0", "> 0"], "line 5: 7 StartNotAllowed", ["`> 0`: row 0 has ended already"]),
    (["boc 2 2", "+ 0 0 0", "< 0 4 0"], "line 3: 8 EndNotAllowed", ["`< 0 4 0`: row 0 hasn't started"]),
    (MAIN_RUNS + ["< 0 0 0"], "line 4: 8 EndNotAllowed", ["`< 0 0 0`: 0 ticks; a row takes at least 1"]),
    (MAIN_RUNS + ["+ 1 0 4", "< 0 0 0"], "line 5: 8 EndNotAllowed", ["`< 0 0 0`: row 0 spawned row 1 at its tick 4, so it takes at least 4 ticks"]),
    (MAIN_RUNS + ["< 0 1100158 0 1"], "line 4: 8 EndNotAllowed", ["`< 0 1100158 0 1`: 1100158 ticks; a row takes at most 1000000", COARSER_TICKS]),
    (TWO_ROWS + ["< 0 5 0"], "line 6: 8 EndNotAllowed", ["`< 0 5 0`: row 0 spawned row 2 at its tick 6, so it takes at least 6 ticks"]),
    (TWO_ROWS + ["> 1", "< 1 2 0 1"], "line 7: 8 EndNotAllowed", ["`< 1 2 0 1`: row 1 doesn't have cown 1"]),
    (MAIN_RUNS + ["+ 1 0 5 0 1", "> 1", "< 1 2 0 1 0"], "line 6: 8 EndNotAllowed",
     ["`< 1 2 0 1 0`: written cowns must rise, each above the one before it"]),
    (TWO_ROWS + ["> 1", "."], "line 7: 10 Unended", ["1 row not started, the first is row 2", "2 rows started and not ended, the first is row 0", CUT_INPUT]),
    (["boc 2 2", "."], "line 2: 10 Unended", ["no row was spawned yet"]),
    (MAIN_RUNS, "line 4: 11 Truncated", ["the record ends before the line `.`", "1 row started and not ended, the first is row 0", CUT_INPUT]),
    (MAIN_RUNS + ["< 0 4 0"], "line 5: 11 Truncated", ["the record ends before the line `.`", CUT_INPUT]),
    (["boc 2 2", "+ 0 0 0"], "line 3: 11 Truncated", ["the record ends before the line `.`", "1 row not started, the first is row 0"]),
    # No row runs, and some are pending.
    (["boc 2 2", "+ 0 0 0", "."], "line 3: 10 Unended", [
        "1 row not started, the first is row 0",
        "row 0 could start and nothing runs: its wake-up was lost; no row waits for it"]),
    (TWO_ROWS + ["< 0 9 0", "."], "line 7: 10 Unended", [
        "2 rows not started, the first is row 1",
        "row 1 could start and nothing runs: its wake-up was lost; 1 row waits for it", CUT_INPUT]),
    # Row 2 waits for row 1 over cown 0, and row 3 for row 2 over cown 1: so it waits for row 1 too. Row 4 waits for no row.
    (TWO_ROWS + ["+ 3 0 7 1", "+ 4 0 8", "< 0 9 0", "."], "line 9: 10 Unended", [
        "4 rows not started, the first is row 1",
        "row 1 could start and nothing runs: its wake-up was lost; 2 rows wait for it",
        "row 4 could start too: its wake-up was lost; no row waits for it", CUT_INPUT]),
    (MAIN_RUNS + [f"+ {row} 0 {row}" for row in range(1, 5)] + ["< 0 9 0", "."], "line 9: 10 Unended", [
        "4 rows not started, the first is row 1",
        "row 1 could start and nothing runs: its wake-up was lost; no row waits for it",
        "row 2 could start too: its wake-up was lost; no row waits for it",
        "row 3 could start too: its wake-up was lost; no row waits for it",
        "1 more row could start: its wake-up was lost", CUT_INPUT]),
    (MAIN_RUNS + [f"+ {row} 0 {row} {row % 2}" for row in range(1, 5)] + [f"+ {row} 0 {row}" for row in range(5, 9)] + ["< 0 9 0", "."], "line 13: 10 Unended", [
        "8 rows not started, the first is row 1",
        "row 1 could start and nothing runs: its wake-up was lost; 1 row waits for it",
        "row 2 could start too: its wake-up was lost; 1 row waits for it",
        "row 5 could start too: its wake-up was lost; no row waits for it",
        "3 more rows could start: their wake-ups were lost", CUT_INPUT]),
    (TRANSFER + ["", "more"], "line 15: 12 After", ["``: nothing can follow the line `.`"]),
    (TRANSFER + ["more"], "line 15: 12 After", ["`more`: nothing can follow the line `.`"]),
    (TRANSFER + TRANSFER, "line 15: 12 After", ["`boc 1 2`: another record begins here; a file has only one"]),
]

# Words for the record of the transfer, its fault, and the lines behind it.
EDITS = [
    (["9=1"], "edit 1: 1 NoRow", ["`9=1`: the record has rows 0 to 3"]),
    (["0=3"], "edit 1: 2 BelowSpawn", ["`0=3`: row 0 spawns row 3 at its tick 4, so it takes at least 4 ticks"]),
    (["0=9", "3@9", "0=8"], "edit 3: 2 BelowSpawn", ["`0=8`: row 0 spawns row 3 at its tick 9, so it takes at least 9 ticks"]),
    (["0=2/1", "0=7"], "edit 2: 2 BelowSpawn", ["`0=7`: row 0 spawns row 3 at its tick 8, so it takes at least 8 ticks"]),
    (["1=0"], "edit 1: 2 BelowSpawn", ["`1=0`: a row takes at least 1 tick"]),
    (["1=1000001"], "edit 1: 3 TooManyTicks", ["`1=1000001`: a row takes at most 1000000 ticks"]),
    (["1=500001", "1=2/1"], "edit 2: 3 TooManyTicks", ["`1=2/1`: row 1 takes 500001 ticks; the edit would exceed the limit of 1000000"]),
    (["0@3"], "edit 1: 4 NoParent", ["`0@3`: row 0 is main, which no row spawns"]),
    (["1@4"], "edit 1: 5 NotBetween", ["`1@4`: row 1, before its later sibling, can be spawned at tick 1 to 2 of row 0"]),
    (["2@4"], "edit 1: 5 NotBetween", ["`2@4`: row 2, between its siblings, can be spawned only at tick 3 of row 0"]),
    (["0=9", "3@10"], "edit 2: 5 NotBetween", ["`3@10`: row 3, after its earlier sibling, can be spawned at tick 4 to 9 of row 0"]),
    (["--without", "7"], "without 1: 6 NoCown", ["no cown is called `7`; the record has cowns 0 to 1"]),
    (["--without", "log"], "without 1: 6 NoCown", ["no cown is called `log`; the record has cowns 0 to 1"]),
]

# Words for the program of the transfer itself, which is run: its text doesn't say which rows there are.
RUN_EDITS = [
    (["9=1"], "edit 1: 1 NoRow", ["`9=1`: the run has no such row; rows count from 0, in the order of their spawns"]),
    (["0=3"], "edit 1: 2 BelowSpawn", ["`0=3`: a row takes at least 1 tick, and at least the offset of its last child"]),
    (["add=1000/1", "add=1000/1"], "edit 2: 3 TooManyTicks", ["`add=1000/1`: a row takes at most 1000000 ticks"]),
    (["0@3"], "edit 1: 4 NoParent", ["`0@3`: row 0 is main, which no row spawns"]),
    (["2@4"], "edit 1: 5 NotBetween", ["`2@4`: a row is spawned at a tick of its parent, between those at which its siblings are"]),
    (["--without", "7"], "without 1: 6 NoCown", ["no cown is called `7`; the program has cowns 0 to 1"]),
    (["--without", "log"], "without 1: 6 NoCown", ["no cown is called `log`; the program's cowns are a, b"]),
]

# Edits of defs, of the record of the transfer beside its program: row 0 is of main, rows 1 and 3 are of `add`, and row 2 is of `move`.
DEF_EDITS = [
    (["main=1/2", "0=1"], "edit 2: 2 BelowSpawn", ["`0=1`: row 0 spawns row 3 at its tick 3, so it takes at least 3 ticks"]),
    (["main=3/1", "3@8"], "edit 2: 5 NotBetween", ["`3@8`: row 3, after its earlier sibling, can be spawned at tick 10 to 12 of row 0"]),
    (["main=2/1", "3@9"], "edit 2: 5 NotBetween", ["`3@9`: row 3, after its earlier sibling, can be spawned at tick 7 to 8 of row 0"]),
    (["move=2/1", "9=1"], "edit 2: 1 NoRow", ["`9=1`: the record has rows 0 to 3"]),
    (["move=900/1", "2=1000/2"], "edit 2: 3 TooManyTicks", ["`2=1000/2`: row 2 takes 2700 ticks; the edit would exceed the limit of 1000000"]),
    (["1=900000", "add=3/2"], "edit 2: 3 TooManyTicks", ["`add=3/2`: row 1 takes 900000 ticks; the edit would exceed the limit of 1000000"]),
    (["add=1000/1", "add=1000/1"], "edit 2: 3 TooManyTicks", ["`add=1000/1`: row 1 takes 2000 ticks; the edit would exceed the limit of 1000000"]),
    (["1=1", "3=600000", "add=2/1"], "edit 3: 3 TooManyTicks", ["`add=2/1`: row 3 takes 600000 ticks; the edit would exceed the limit of 1000000"]),
]

IS_NAMES = "; --names takes lines `@ COWN NAME` and `= ROW NAME [ARG ..]`"

# Files of names for the record of the transfer, the line of their fault, and the line behind it.
NAMES = [
    (b"= 0 main", "line 1: 1 Cut", "`= 0 main`: the last line has no line feed"),
    (b"# rows\n= 1 " + b"x" * 80 + b"\n", "line 2: 2 TooLong", "`= 1 " + "x" * 60 + "..`: a line has at most 80 bytes"),
    (b"1 main\n", "line 1: 3 Form", "`1 main`: a line is `@ COWN NAME`, `= ROW NAME [ARG ..]`, empty, or a `#` comment"),
    (b"=1 main\n", "line 1: 3 Form", "`=1 main`: no space after the sign"),
    (b"= 0 main\n= 1 x\r\n", "line 2: 3 Form", "`= 1 x?`: it ends with a carriage return; lines end with only a line feed"),
    (b"= 1 main \n", "line 1: 3 Form", "`= 1 main `: it ends with a space"),
    (b"= 1  main\n", "line 1: 3 Form", "`= 1  main`: two spaces; words are separated by one"),
    (b"= x main\n", "line 1: 3 Form", "`= x main`: `x` is not a plain decimal"),
    (b"= 01 main\n", "line 1: 3 Form", "`= 01 main`: `01` begins with a 0"),
    (b"@ -1 a\n", "line 1: 3 Form", "`@ -1 a`: `-1` is negative; numbers are plain decimals"),
    (b"@ 4294967296 a\n", "line 1: 3 Form", "`@ 4294967296 a`: `4294967296` is above 4294967295"),
    (b"@ 1\n", "line 1: 3 Form", "`@ 1`: no name; the form is `@ COWN NAME`"),
    (b"= 1\n", "line 1: 3 Form", "`= 1`: no name; the form is `= ROW NAME [ARG ..]`"),
    (b"@ 1 a b\n", "line 1: 3 Form", "`@ 1 a b`: words after the name; the form is `@ COWN NAME`"),
    (b"= 1 caf\xc3\xa9\n", "line 1: 3 Form", "`= 1 caf??`: the byte 0xC3 is not printable ASCII; names and arguments are"),
    (b"= 1 a\tb\n", "line 1: 3 Form", "`= 1 a?b`: the byte 0x09 is not printable ASCII; names and arguments are"),
    (b"\n= 4 x\n", "line 2: 4 NoRow", "`= 4 x`: the record has rows 0 to 3"),
    (b"@ 2 c\n", "line 1: 5 NoCown", "`@ 2 c`: the run has cowns 0 to 1"),
    (b"= 1 x\n\n= 1 y 3\n", "line 3: 6 Twice", "`= 1 y 3`: line 1 already names it: `= 1 x`"),
    (b"@ 1 x\n= 1 x\n@ 1 x\n", "line 3: 6 Twice", "`@ 1 x`: line 1 already names it: `@ 1 x`"),
    (b"boc 2 2\n", "line 1: 3 Form", "this looks like a record" + IS_NAMES),
    (b"# The accounts.\n\ncown a = 10;\n", "line 3: 3 Form", "this looks like a program" + IS_NAMES),
    (b"# " + b"x" * 80 + b"\ncown a = 10;\n", "line 1: 2 TooLong", "this looks like a program" + IS_NAMES),
]

# The column of the fault in those of these files where it is not 1: that of the word, of the byte, or of the number that names the row or the cown.
COLUMNS = {
    b"= x main\n": 3,
    b"= 01 main\n": 3,
    b"@ -1 a\n": 3,
    b"@ 4294967296 a\n": 3,
    b"= 1 caf\xc3\xa9\n": 8,
    b"= 1 a\tb\n": 6,
    b"\n= 4 x\n": 3,
    b"@ 2 c\n": 3,
    b"= 1 x\n\n= 1 y 3\n": 3,
    b"@ 1 x\n= 1 x\n@ 1 x\n": 3,
}

# Lines of the record of the transfer, by their numbers, that are put in place of others; the fault of the record that this makes, beside the program; and the
# lines behind it.
STRAYS = [
    ({4: "+ 1 0 1 0"}, "line 4: 16 NotNextSpawn", [
        "`+ 1 0 1 0`: in the program row 0 continues with `+ 1 0 2 0`",
        "row 0 is `main`, and next spawns `add(5; a)`",
        "it spawns it at its tick 2, and the record has 1"]),
    ({5: "+ 2 0 3 1", 11: "< 2 3 0 1"}, "line 5: 16 NotNextSpawn", [
        "`+ 2 0 3 1`: in the program row 0 continues with `+ 2 0 3 0 1`",
        "row 0 is `main`, and next spawns `move(3; a, b)`",
        "it spawns it over cowns 0 1, and the record has cown 1"]),
    ({6: "+ 3 0 5", 7: "< 0 5 0", 13: "< 3 2 0"}, "line 6: 16 NotNextSpawn", [
        "`+ 3 0 5`: in the program row 0 continues with `+ 3 0 4 1`",
        "row 0 is `main`, and next spawns `add(1; b)`",
        "it spawns it at its tick 4, and the record has 5",
        "it spawns it over cown 1, and the record has no cown"]),
    ({9: "+ 4 1 1 0\n< 1 2 0 0", 13: "< 3 2 0 1\n> 4\n< 4 1 0"}, "line 9: 16 NotNextSpawn", [
        "`+ 4 1 1 0`: in the program row 1 continues with `< 1 2 0 0`",
        "row 1 is `add(5; a)`, and ends without another spawn"]),
    ({7: "< 0 5 0"}, "line 7: 17 NotItsEnd", [
        "`< 0 5 0`: in the program row 0 continues with `< 0 4 0`",
        "row 0 is `main`, and ends",
        "its ticks are 4, and the record has 5"]),
    ({9: "< 1 3 1"}, "line 9: 17 NotItsEnd", [
        "`< 1 3 1`: in the program row 1 continues with `< 1 2 0 0`",
        "row 1 is `add(5; a)`, and ends",
        "its ticks are 2, and the record has 3",
        "its status is 0, and the record has 1",
        "it writes cown 0, and the record has no cown"]),
    ({11: "< 2 3 0 1"}, "line 11: 17 NotItsEnd", [
        "`< 2 3 0 1`: in the program row 2 continues with `< 2 3 0 0 1`",
        "row 2 is `move(3; a, b)`, and ends",
        "it writes cowns 0 1, and the record has cown 1"]),
    ({6: "< 0 4 0", 7: "> 1", 8: "< 1 2 0 0", 9: "> 2", 10: "< 2 3 0 0 1", 11: ".", 12: None, 13: None, 14: None}, "line 6: 17 NotItsEnd", [
        "`< 0 4 0`: in the program row 0 continues with `+ 3 0 4 1`",
        "row 0 is `main`, and before it ends it spawns `add(1; b)`"]),
]

# A program in which a behaviour writes one of its cowns, and the record of its run in version 1, in which there is no telling that.
WRITES_ONE = b"cown a = 0; cown b = 0; def f(; x, y) { x = y; } main { when f(; a, b); }"
WRITES_ALL = ["boc 1 2", "+ 0 0 0", "> 0", "+ 1 0 2 0 1", "< 0 2 0", "> 1", "< 1 2 0", "."]

# Words that are no edits, the number of the first of them, and the line behind its fault.
EDIT_WORDS = [
    (["print=0.5"], 1, "`print=0.5`: `0.5` is not a part K/D; half of what the rows of a def cost is `print=1/2`"),
    (["print=5"], 1, "`print=5`: `5` is not a part K/D; half of what the rows of a def cost is `print=1/2`"),
    (["1=0.5"], 1, "`1=0.5`: `0.5` is neither ticks nor a part K/D; half of what the row costs is `1=1/2`"),
    (["1=2=3"], 1, "`1=2=3`: `2=3` is neither ticks nor a part K/D; half of what the row costs is `1=1/2`"),
    (["1=2", "2=01"], 2, "`2=01`: `01` begins with a 0"),
    (["01=2"], 1, "`01=2`: `01` begins with a 0"),
    (["=2"], 1, "`=2`: a row or a def goes before the `=`"),
    (["add="], 1, "`add=`: ticks or a part K/D go after the `=`"),
    (["1=1001/1"], 1, "`1=1001/1`: the numbers of a part K/D are 1 to 1000"),
    (["add=1/0"], 1, "`add=1/0`: the numbers of a part K/D are 1 to 1000"),
    (["add=1/x"], 1, "`add=1/x`: `x` is not a plain decimal"),
    (["add=/2"], 1, "`add=/2`: a number goes on both sides of the `/`"),
    (["1=2/"], 1, "`1=2/`: a number goes on both sides of the `/`"),
    (["1 = 2"], 1, "`1 = 2`: an edit has no spaces"),
    (["row 1=2"], 1, "`row 1=2`: an edit has no spaces"),
    (["+1=2"], 1, "`+1=2`: `+1` is not a plain decimal"),
    (["1=4294967296"], 1, "`1=4294967296`: a row takes at most 1000000 ticks"),
    (["1@-"], 1, "`1@-`: `-` is not a plain decimal"),
    (["007=1/2"], 1, "`007=1/2`: `007` begins with a 0"),
    (["@3"], 1, "`@3`: a row goes before the `@`"),
    (["3@"], 1, "`3@`: a tick goes after the `@`"),
    (["add@3"], 1, "`add@3`: `add` is not a plain decimal"),
    (["1@x"], 1, "`1@x`: `x` is not a plain decimal"),
    (["1=2", "--without", "a=b", "-p", "2", "--names=x=y", "--short", "run.record", "2=z"], 2,
     "`2=z`: `z` is neither ticks nor a part K/D; half of what the row costs is `2=1/2`"),
    (["--", "--names", "1=2", "x=\x1b[1m\u00e9"], 2, "`x=?[1m??`: `?[1m??` is not a part K/D; half of what the rows of a def cost is `x=1/2`"),
]

ONE_FILE = "are two FILEs, but the input is read from one"

# Words with more than one file to read the input from, what the parser says of them, and the lines behind that.
FILES = [
    (["run", "a.boc", "b.boc"], "unexpected argument 'b.boc' found\n\nUsage: boc run [OPTIONS] [FILE]", [f"`a.boc` and `b.boc` {ONE_FILE}"]),
    (["why", "--record", "r", "a.boc", "-w2", "--p", "3", "--quiet", "b.boc"], "unexpected argument 'b.boc' found\n\nUsage: boc why [OPTIONS] [FILE]",
     [f"`a.boc` and `b.boc` {ONE_FILE}"]),
    (["why", "--then", "3", "a.boc", "-p", "2", "b.boc"], "unexpected argument 'b.boc' found\n\nUsage: boc why [OPTIONS] [FILE]",
     [f"`a.boc` and `b.boc` {ONE_FILE}"]),
    (["cowns", "-p", "3", "a.boc", "--top", "2", "b.boc"], "unexpected argument 'b.boc' found\n\nUsage: boc cowns [OPTIONS] [FILE]",
     [f"`a.boc` and `b.boc` {ONE_FILE}"]),
    (["whatif", "a.record", "1=2", "b.record"], "the input cannot be read from more than one FILE\n\nUsage: boc <COMMAND>", [
        f"`a.record` and `b.record` {ONE_FILE}",
        "an argument with neither = nor @ is a FILE, and each other one an edit"]),
    (["whatif", "--early", "f", "a.boc", "--early=g", "b.boc"], "the input cannot be read from more than one FILE\n\nUsage: boc <COMMAND>", [
        f"`a.boc` and `b.boc` {ONE_FILE}",
        "an argument with neither = nor @ is a FILE, and each other one an edit"]),
    (["run", "--frob", "a.boc", "b.boc"], None, []),
]


def told(fault, lines, head=None):
    """The whole of standard error. A head names a place in a file: it begins the line of the first message, which comes before those that show the place."""
    more = [EXPLAINS + line.encode() for line in lines]
    if head is not None:
        shown = shown_lines(lines)
        whole = head + b" " + lines[shown].encode()
        more = ([whole] if len(whole) <= MOST_WIDTH else [head, more[shown]]) + more[:shown] + more[shown + 1:]
    return b"".join(line + b"\n" for line in [f"boc: {fault}".encode(), *more])


def shown_lines(lines):
    """How many of the lines show a place: none, or a line and its mark."""
    return 2 if len(lines) > 1 and lines[1].strip() == "^" else 0


def head_of(path, line, column):
    return printed(path) + b":%d:%d:" % (line, column)


def told_in_file(program, words, option, content, source, fault, lines, column=1):
    """What is wrong with what is told where a file with this content is behind an option. A fault in it has the line in which it is."""
    with tempfile.TemporaryDirectory(prefix="boc-explained-") as folder:
        path = written(folder, "beside", content)
        at = re.match(r"(?:program|record|names): line (\d+):", fault)
        head = head_of(path, int(at[1]), column) if at else None
        return difference(told(fault, lines, head), program.run([*words, option, path], source))


def difference(expected, answer, status=3):
    if answer is None or answer.status != status or answer.output:
        return f"the answer {answer}"
    return None if answer.errors == expected else f"{answer.errors.decode(errors='replace')!r} in place of {expected.decode()!r}"


def cases(program):
    yield from places(program)
    for source, fault, lines in PROGRAMS:
        yield f"{source[-40:]!r}", difference(told(fault, lines), program.run(["values"], source))
    for lines, fault, more in RECORDS:
        source = lines_text(lines) if lines else b""
        yield f"{lines[-2:]}", difference(told(fault, more), program.run(["check"], source))
    cut = lines_text(MAIN_RUNS) + b"< 0 1"
    expected = told("line 4: 11 Truncated", [
        "`< 0 1`: the record ends within this line",
        "1 row started and not ended, the first is row 0",
        "`head -n 3 | boc cut | boc why` of the same input continues with what is there"])
    yield "a cut line", difference(expected, program.run(["check"], cut))
    for words, fault, lines in EDITS:
        yield f"whatif {words}", difference(told(fault, lines), program.run(["whatif", *words], lines_text(TRANSFER)))
    for source, line in MANY:
        lines = ["a run has at most 65535 behaviours, main included, and this one has more", line]
        for command in (["values"], ["run"], ["run", "--seed", "1"], ["why"], ["outcomes", "--runs", "2"]):
            yield f"{command} of {source[-40:]!r}", difference(told("run: 2 Behaviours", lines), program.run(command, source), 4)
    yield from counted_draws(program)
    yield from beside(program)
    yield from pairs(program)
    yield from names(program)
    yield from strays(program)
    yield from words_refused(program)
    yield from options_of_others(program)
    yield from nearest_commands(program)
    yield from values_are_no_files(program)
    yield from keywords(program)
    yield from random_edits(program)
    yield from long_records(program)
    yield from unended_in_files(program)
    yield from unended_everywhere(program)
    yield from unended_by_chance(program)
    yield from long_queues(program)
    yield from replacements(program)
    yield from random_bytes(program)


# Texts of files, by the command that reads them: the line of the fault, its place in the file, and the lines below it.
PLACES = [
    ("values", b"cown a = 0;\ndef f(; x) { work 8 x = x + 1; }\nmain { }\n", "line 2: 3 Unexpected", (2, 21), [
        "def f(; x) { work 8 x = x + 1; }",
        "                    ^",
        "`x` can't follow `8` on line 2",
        "expected one of: `;`, `+`, `-`, .."]),
    # A sign is missing on a line before that of the fault.
    ("values", b"cown a = 0\n\n# it begins\ndef f(; x) { }\nmain { }\n", "line 4: 3 Unexpected", (1, 11), [
        "cown a = 0",
        "          ^",
        "a `;` is missing after `0` on line 1"]),
    # A tab is a byte, and the carriage return at the end of a line is none that counts.
    ("values", b"main {\r\n\tlet a = 1; # \xc3\xa9\r\n}\r\n", "line 2: 1 NotAscii", (2, 15), [
        " let a = 1; # ??",
        "              ^",
        "the byte 0xC3 is not ASCII; programs are ASCII, their comments too"]),
    # The column is that in the whole line, of which a part is shown.
    ("values", b"main { " + b"work 1; " * 20 + b"@ " + b"work 2; " * 20 + b"}", "line 1: 2 BadToken", (1, 168), [
        ".." + ("work 1; " * 20)[-68:] + "@ " + ("work 2; " * 20)[:46] + "..",
        " " * 70 + "^",
        "`@` is not a token"]),
    ("values", b"main { work 1;\n", "line 2: 3 Unexpected", (2, 1), [
        "",
        "^",
        "the program can't end after `;` on line 1",
        "the block that begins on line 1 is not closed: a `}` is missing"]),
    ("values", b"", "line 1: 3 Unexpected", (1, 1), ["the file is empty"]),
    ("values", b"@ 0 store\n= 1 put 4\n", "line 1: 2 BadToken", (1, 1), [
        "this looks like a names file; pass it with --names, and a program or a record as FILE"]),
    ("values", lines_text(TRANSFER), "line 14: 2 BadToken", (14, 1), [
        "this looks like a record; values reads programs: check, profile, whatif, curve, sweep, why, cowns and compare read records"]),
    ("check", b"", "line 1: 11 Truncated", (1, 1), ["the file is empty"]),
    ("check", b"# A bank.\ncown a = 0;\n", "line 1: 1 Header", (1, 1), ["this looks like a program; check reads records: boc run FILE | boc check"]),
    ("check", lines_text(MAIN_RUNS + ["< 0 4 -1"]), "line 4: 2 Form", (4, 7), ["`< 0 4 -1`: `-1` is negative; numbers are plain decimals"]),
    ("check", lines_text(MAIN_RUNS + ["<  0 4 0"]), "line 4: 2 Form", (4, 3), ["`<  0 4 0`: two spaces; fields are separated by one"]),
    ("check", lines_text(MAIN_RUNS + ["<\t0 4 0"]), "line 4: 2 Form", (4, 2), ["`<?0 4 0`: the byte 0x09 is not printable ASCII; records are"]),
    ("check", lines_text(MAIN_RUNS + ["+ 2 0 5"]), "line 4: 3 NumberNotNext", (4, 3), ["`+ 2 0 5`: the next row is 1"]),
    ("check", lines_text(MAIN_RUNS + ["+ 1 7 5"]), "line 4: 4 ParentNotRunning", (4, 5), ["`+ 1 7 5`: row 7, its parent, is not spawned yet"]),
    ("check", lines_text(MAIN_RUNS + ["+ 1 0 0"]), "line 4: 5 Offset", (4, 7), ["`+ 1 0 0`: an offset is at least 1"]),
    ("check", lines_text(TWO_ROWS + ["> 3"]), "line 6: 7 StartNotAllowed", (6, 1), ["`> 3`: row 3 is not spawned yet"]),
    ("check", lines_text(MAIN_RUNS), "line 4: 11 Truncated", (4, 1), [
        "the record ends before the line `.`",
        "1 row started and not ended, the first is row 0",
        CUT_FILE]),
    ("check", lines_text(TRANSFER + ["more"]), "line 15: 12 After", (15, 1), ["`more`: nothing can follow the line `.`"]),
]

# Names of files: with blanks, with bytes that are printed as others, with a colon, and so long that the message has a line of its own.
FILE_NAMES = ["text.boc", "a b.boc", "a\x1b[1mb\u00e9\n.boc", "a:1:2: b", "x" * 200]


def places(program):
    """Where the file of a fault has a name, the first message begins with that and with the place; standard input has none."""
    view = view_of(program)
    with tempfile.TemporaryDirectory(prefix="boc-explained-") as folder:
        for command, content, fault, place, lines in PLACES:
            path = written(folder, "text", content)
            lines = [line.replace("FILE", word_of(path)) if line == CUT_FILE else line for line in lines]
            yield f"{path}: {lines}", difference(told(fault, lines, head_of(path, *place)), program.run([command, path]))
        command, content, fault, place, lines = PLACES[0]
        for name in FILE_NAMES:
            path = written(folder, name, content)
            for words in ([command, path], ["run", "--quiet", path], ["why", "--", path]):
                yield f"{words}", difference(told(fault, lines, head_of(path, *place)), program.run(words))
            answer = view.run(["page", path])
            yield f"boc-view page {path}", difference(told(fault, lines, head_of(path, *place)), answer)
            yield f"names: {path}", difference(told(f"names: {NAMES[0][1]}", [NAMES[0][2]], head_of(path, 1, 1)),
                                               view.run(["text", f"--names={written(folder, name, NAMES[0][0])}"], program.example("transfer.record")))
        yield "standard input", difference(told(fault, lines), program.run([command, "-"], content))
        yield "boc-view of standard input", difference(told(fault, lines), view.run(["text", "-"], content))
        record = written(folder, "text", lines_text(TRANSFER))
        yield "a fault without a line", difference(told(*EDITS[0][1:]), program.run(["whatif", *EDITS[0][0], record]))
        for source, fault, lines in PROGRAMS:
            if shown_lines(lines) and not lines[0].startswith(".."):
                path = written(folder, "text", source)
                head = head_of(path, *place_of(source, fault, lines))
                yield f"a file of {source[-40:]!r}", difference(told(fault, lines, head), program.run(["values", path]))


def place_of(source, fault, lines):
    """The place of the mark: its line is that with the text that is shown, the one of the fault or else the last before it."""
    of_fault = int(re.match(r"line (\d+)", fault)[1])
    texts = [re.sub(rb"[^ -~]", b"?", line.replace(b"\t", b" ")).decode() for line in source.split(b"\n")[:of_fault]]
    return max(number for number, text in enumerate(texts, 1) if text == lines[0]), lines[1].index("^") + 1


# What the line of a def that no row is of says of names.
NAMES_ARE = "no row is of this def; names are those of --program FILE or --names FILE"

# More of a file than is kept for explanations.
LONG_COMMENTS = (b"#" * 79 + b"\n") * 200000


def beside(program):
    """Files beside the input, and what they name."""
    text, record = program.example("transfer.boc"), program.example("transfer.record")
    for name, words, option, content, source, fault, lines in [
        ("an empty program", ["check"], "--program", b"", record, "program: line 1: 3 Unexpected", ["the file is empty"]),
        ("other cowns", ["check"], "--program", b"cown a[3] = 0; main { }", record, "line 1: 15 OtherCowns", ["`boc 2 2`: the program has 3 cowns"]),
        ("a cown's name", ["whatif", "--without", "acct"], "--program", text, record, "without 1: 6 NoCown",
         ["no cown is called `acct`; the program's cowns are a, b"]),
        ("a def's name", ["whatif", "mov=1/2"], "--program", text, record, "edit 1: 7 NoDef",
         [NAMES_ARE, "no row belongs to a def `mov`; the program's defs are add, move, and main"]),
        ("a def to spawn early", ["whatif", "--early", "main", "--early", "mov"], "--program", text, record, "early 2: 7 NoDef",
         [NAMES_ARE, "no row belongs to a def `mov`; the program's defs are add, move, and main"]),
        ("a def to spawn early that a file doesn't have", ["whatif", "--early", "mov"], "--names", b"= 1 work\n= 2 work 7\n= 3 rest\n", record,
         "early 1: 7 NoDef", [NAMES_ARE, "no row belongs to a def `mov`; the file's defs are work, rest"]),
        ("an edit of rows that spawn early", ["whatif", "--early", "main", "0=2"], "--program", text, record, "edit 1: 2 BelowSpawn",
         ["`0=2`: a row takes at least 1 tick, and at least the offset of its last child"]),
        ("an edit of rows with typical ticks", ["whatif", "--typical", "0=2"], "--program", text, record, "edit 1: 2 BelowSpawn",
         ["`0=2`: a row takes at least 1 tick, and at least the offset of its last child"]),
        ("a def that a file doesn't have", ["whatif", "mov=1/2"], "--names", b"= 1 work\n= 2 work 7\n= 3 rest\n", record, "edit 1: 7 NoDef",
         [NAMES_ARE, "no row belongs to a def `mov`; the file's defs are work, rest"]),
        ("a def where a file names no row", ["whatif", "mov=1/2"], "--names", b"@ 0 pot\n", record, "edit 1: 7 NoDef",
         [NAMES_ARE, "no row belongs to a def `mov`; the file names no row"]),
        ("a cown that a file doesn't have", ["whatif", "--without", "acct"], "--names", b"@ 0 pot\n", record, "without 1: 6 NoCown",
         ["no cown is called `acct`; the file's cowns are pot"]),
        ("an array of a file", ["whatif", "--without", "acct"], "--names", b"@ 0 pot[0]\n@ 1 pot[1]\n", record, "without 1: 6 NoCown",
         ["no cown is called `acct`; the file's cowns are pot[*]"]),
        ("long names of a file", ["whatif", "mov=1/2"], "--names", b"".join(b"= %d %s\n" % (row, bytes([97 + row]) * 30) for row in range(4)), record,
         "edit 1: 7 NoDef", [NAMES_ARE, f"no row belongs to a def `mov`; the file's defs are {'a' * 30}, {'b' * 30}, .."]),
        ("a def of a file of more than a mebibyte", ["whatif", "mov=1/2"], "--names", LONG_COMMENTS[:2_000_000] + b"= 1 work\n", record, "edit 1: 7 NoDef",
         [NAMES_ARE, "no row belongs to a def `mov`; the file's defs are work"]),
        ("a file of names beyond 8 MiB", ["whatif", "mov=1/2"], "--names", LONG_COMMENTS + b"= 1 work\n", record, "names: line 104858: 2 TooLong",
         [f"`{'#' * 64}..`: a names file has at most 8 MiB"]),
        ("a cown where a file names none", ["whatif", "--without", "acct"], "--names", b"= 1 work\n", record, "without 1: 6 NoCown",
         ["no cown is called `acct`; the file names no cown"]),
        ("a def of a file of names", ["whatif", "work=1000/1", "work=1000/1"], "--names", b"= 1 work\n= 2 work 7\n", record, "edit 2: 3 TooManyTicks",
         ["`work=1000/1`: row 1 takes 2000 ticks; the edit would exceed the limit of 1000000"]),
    ]:
        yield name, told_in_file(program, words, option, content, source, fault, lines)
    lines = [NAMES_ARE, "no row belongs to a def `mov`; without either file each row is a def of its own, such as `row 0`"]
    yield "a def without names", difference(told("edit 1: 7 NoDef", lines), program.run(["whatif", "mov=1/2"], record))
    yield "a def to spawn early without names", difference(told("early 1: 7 NoDef", lines), program.run(["whatif", "--early", "mov"], record))
    for words, fault, lines in RUN_EDITS:
        yield f"{words} of a program", difference(told(fault, lines), program.run(["whatif", *words], program.example("transfer.boc")))
    for words, fault, lines in [
        (["--without", "b"], "without 1: 6 NoCown", ["no cown is called `b`; the program has cowns 0 to 1"]),
        (["mov=1/2"], "edit 1: 7 NoDef", [NAMES_ARE, "no row belongs to a def `mov`; names in --names FILE replace those of the program"]),
        (["2@4"], "edit 1: 5 NotBetween", [RUN_EDITS[4][2][0]]),
    ]:
        text = program.example("transfer.boc")
        yield f"{words} of a program with names", told_in_file(program, ["whatif", *words], "--names", b"@ 1 pot\n", text, fault, lines)
    for command in ["profile", "whatif", "curve", "sweep", "check"]:
        lines = ["`cwon a = 1;`: the first line of a record is `boc 2 COWNS`"]
        lines += ["a program begins with `cown`, `def` or `main`, after comments; all else is read as a record"] if command != "check" else []
        yield f"{command} of a word", difference(told("line 1: 1 Header", lines), program.run([command], b"cwon a = 1;\nmain { }\n"))
    for words, fault, lines in DEF_EDITS:
        yield f"whatif {words}", difference(told(fault, lines), program.run_beside(["whatif", *words], "--program", text, record))
    lines = ["`row 1=1000/1`: row 1 takes 2000 ticks; the edit would exceed the limit of 1000000"]
    yield "a row as a def", difference(told("edit 2: 3 TooManyTicks", lines), program.run(["whatif", "row 1=1000/1", "row 1=1000/1"], record))


# Whether the first body or the second one has `a` first is a matter of the schedule. One of them writes a 1, and the other spawns as many behaviours as
# there may be where it finds none.
RACE = """cown a = 0; cown b = 0; cown c = 0;
def none(;) {{ }}
def set(; x) {{ x = 1; }}
def many(; x) {{ if x == 0 {{ repeat 65535 {{ when none(;); }} }} }}
def first(; y) {{ when {}(; a); }}
def second(; y) {{ when {}(; a); }}
main {{ when first(; b); when second(; c); }}
"""


def counted_draws(program):
    """Where steps are counted for --depth, it is told whether the draw that counts them has too many behaviours, or the one that was asked for."""
    whole = "a run has at most 65535 behaviours, main included, and this one has more"
    by_repeat = "no def spawns itself: look for a `when` in a `repeat`, and for defs that each spawn several others"
    counting = "for --depth a run with seed 0 counts the steps first: that run has more, so none was started at this depth"
    counted = "for --depth a run with seed 0 counts the steps first: that run has no more, but one at this depth has"
    for text in (RACE.format("set", "many").encode(), RACE.format("many", "set").encode()):
        # The draw that counts is the run that seed 0 draws at random.
        count = program.run(["run", "--workers", "3", "--seed", "0"], text)
        has_room = count.status == 0
        yield f"the draw that counts, {has_room}", None if has_room else difference(told("run: 2 Behaviours", [whole, by_repeat]), count, 4)
        expected = told("run: 2 Behaviours", [whole, counted if has_room else counting, by_repeat])
        told_of = 0
        for seed in range(16):
            options = ["--workers", "3", "--seed", str(seed), "--depth", "5"]
            for words in (["run"], ["time"], ["why"], ["cowns"], ["outcomes", "--runs", "1"]):
                answer = program.run([*words, *options], text)
                if not has_room or answer.status != 0:
                    told_of += 1
                    yield f"{words} {options}, where the draw that counts has {'' if has_room else 'no '}room", difference(expected, answer, 4)
        yield "a draw that has no room", None if told_of else "there is none"


def pairs(program):
    """A program and its record, each where the other is wanted."""
    text, record = program.example("transfer.boc"), program.example("transfer.record")
    swapped = "the other file looks like a program: swap the two"
    for words in (["values"], ["why"], ["cowns"], ["why", "--then", "2"], ["why", "--then", "2", "-p", "3"], ["cowns", "-p", "2"]):
        command = words[0]
        reads = f"this looks like a record; {command} reads the program, and --record its record: boc {command} --record RECORD PROGRAM"
        takes = "this looks like a program; --record takes a record: boc run FILE > RECORD"
        for content, source, fault, lines in ((text, record, "line 14: 2 BadToken", [reads, swapped]), (record, record, "line 14: 2 BadToken", [reads]),
                                              (text, text, "record: line 1: 1 Header", [takes])):
            yield f"{' '.join(words)}: {lines}", told_in_file(program, words, "--record", content, source, fault, lines)
    for command in ("check", "whatif"):
        reads = f"{command} reads the record, and --program its program: boc {command} --program PROGRAM RECORD"
        # Of a program `whatif` takes no other.
        swapped = [(record, text, "program: line 14: 2 BadToken", [f"this looks like a record; {reads}"]),
                   (text, text, "line 1: 1 Header", [f"this looks like a program; {reads}"])]
        alike = (record, record, "program: line 14: 2 BadToken", [f"this looks like a record; {reads}"])
        for content, source, fault, lines in [alike] + (swapped if command == "check" else []):
            yield f"{command}: {lines}", told_in_file(program, [command], "--program", content, source, fault, lines)


def names(program):
    """Files of names, beside a record and beside a program."""
    text, record = program.example("transfer.boc"), program.example("transfer.record")
    without = lines_text(["boc 2 0", "+ 0 0 0", "> 0", "< 0 1 0", "."])
    for content, fault, line in NAMES:
        for words in (["why"], ["cowns"], ["whatif", "1=2"]):
            fault_ = told_in_file(program, words, "--names", content, record, f"names: {fault}", [line], COLUMNS.get(content, 1))
            yield f"names {content[-40:]!r} for {words}", fault_
    for content, source, fault, line in ((b"= 4 x\n", text, "line 1: 4 NoRow", "`= 4 x`: the run has no row with this number"),
                                         (b"@ 2 c\n", text, "line 1: 5 NoCown", "`@ 2 c`: the run has cowns 0 to 1"),
                                         (b"@ 0 c\n", without, "line 1: 5 NoCown", "`@ 0 c`: the run has no cowns")):
        yield f"names {content!r}", told_in_file(program, ["why"], "--names", content, source, f"names: {fault}", [line], 3)


def strays(program):
    """Records that stray from a program, as the input and as the file beside it."""
    text, record = program.example("transfer.boc"), program.example("transfer.record")
    for changes, fault, lines in STRAYS:
        strayed = with_lines_of(record, changes)
        yield f"check: {changes}", difference(told(fault, lines), program.run_beside(["check"], "--program", text, strayed))
        for command in ("values", "why", "cowns"):
            yield f"{command}: {changes}", told_in_file(program, [command], "--record", strayed, text, f"record: {fault}", lines)
        yield f"whatif: {changes}", difference(told(fault, lines), program.run_beside(["whatif"], "--program", text, strayed))
    lines = ["`< 1 2 0`: version 1 can't say how row 1 ends in the program; version 2 says `< 1 2 0 0`", "row 1 is `f(; a, b)`, and ends",
             "it writes cown 0, and in version 1 a record says that it writes all its cowns"]
    answer = program.run_beside(["check"], "--program", WRITES_ONE, lines_text(WRITES_ALL))
    yield "version 1", difference(told("line 7: 17 NotItsEnd", lines), answer)
    # Version 1 says of each end that it writes all cowns of its row.
    text = b"cown a = 3; def peek(; x) { let y = x; } main { when peek(; a); }"
    peeks = lines_text(["boc 1 1", "+ 0 0 0", "> 0", "+ 1 0 2 0", "< 0 2 0", "> 1", "< 1 2 0", "."])
    lines = ["`< 1 2 0`: version 1 can't say how row 1 ends in the program; version 2 says `< 1 2 0`", "row 1 is `peek(; a)`, and ends",
             "it writes no cown, and in version 1 a record says that it writes all its cowns"]
    yield "version 1, of a read", difference(told("line 7: 17 NotItsEnd", lines), program.run_beside(["check"], "--program", text, peeks))
    many = b"cown a = 0; def f(; x) { } main { repeat 60000 { when f(; a); } }"
    strayed = with_lines_of(program.run(["run"], many).output, {4: "+ 1 0 2 0"})
    # A tick for the start of main, one for the `repeat`, one for its turn, and one for the `when`.
    lines = ["`+ 1 0 2 0`: in the program row 0 continues with `+ 1 0 4 0`", "row 0 is `main`, and next spawns `f(; a)`",
             "it spawns it at its tick 4, and the record has 2"]
    yield "a record of more than a mebibyte", difference(told("line 4: 16 NotNextSpawn", lines), program.run_beside(["check"], "--program", many, strayed))


def words_refused(program):
    """Words of the command line that are no edits, and two files where one is read."""
    for words, number, line in EDIT_WORDS:
        lines = ["an edit is ROW=TICKS, ROW@OFFSET, ROW=K/D or DEF=K/D", line]
        yield f"whatif {words}", difference(told(f"edit {number}: not ROW=TICKS", lines), program.run(["whatif", *words]), 2)
    for words, fault, lines in FILES:
        answer = program.run(words)
        if fault is None:
            yield f"{words}", None if EXPLAINS not in answer.errors else f"it told {answer.errors!r}"
        else:
            text = f"error: {fault}\n\nFor more information, try '--help'.\n".encode()
            yield f"{words}", difference(text + b"".join(EXPLAINS + line.encode() + b"\n" for line in lines), answer, 2)


def options_of_others(program):
    """A command that reads a program says so where its input is named as others name it, and so does one that reads a record."""
    for command in ("values", "why", "cowns", "check"):
        reads, beside = ("record", "program") if command == "check" else ("program", "record")
        line = f"{command} reads the {reads}, and --{beside} its {beside}: boc {command} --{beside} {beside.upper()} {reads.upper()}"
        answer = program.run([command, f"--{reads}", "a", "b"])
        is_told = answer.status == 2 and answer.errors.endswith(EXPLAINS + line.encode() + b"\n")
        yield f"{command} --{reads}", None if is_told else f"{answer.errors!r}"
        answer = program.run([command, "--nothing", "a", "b"])
        yield f"{command} --nothing", None if EXPLAINS not in answer.errors else f"it told {answer.errors!r}"
    answer = program.run(["values", "--", "a", "--program"])
    is_told = answer.errors.endswith(EXPLAINS + f"`a` and `--program` {ONE_FILE}\n".encode())
    yield "values -- a --program", None if is_told else f"{answer.errors!r}"
    answer = program.run(["profile", "--program", "a", "b"])
    yield "profile --program", None if EXPLAINS not in answer.errors else f"it told {answer.errors!r}"


# Words that the parser finds like no command, and the command that is told; it is near by an edit, or by two where the word has six letters.
NEAREST = [("wyh", "why"), ("wy", "why"), ("wya", None), ("rnu", "run"), ("un", "run"), ("x", None), ("xyz", None), ("hi", None), ("colcom", None),
           ("a.boc", None), ("record", None)]


def nearest_commands(program):
    """A word that is no command is told with the name that is near to it, by the parser or below its text, and with none where none is near."""
    usage = "Usage: boc <COMMAND>\n\nFor more information, try '--help'.\n"
    for word, command in NEAREST:
        for words in ([word], ["help", word], [word, "a.boc", "--quiet"]):
            answer = program.run(words)
            expected = f"error: unrecognized subcommand '{word}'\n\n{usage}".encode()
            if command is not None:
                expected += EXPLAINS + f"did you mean `{command}`?\n".encode()
            yield f"{words}", difference(expected, answer, 2)
    for command in [name for name in helps_of(program) if name] + ["help"]:
        for at in range(len(command) - 1):
            word = command[:at] + command[at + 1] + command[at] + command[at + 2:]
            if word == command:
                continue
            errors = program.run([word]).errors.decode()
            tips, lines = errors.count(f"exists: '{command}'") + errors.count("some similar subcommands exist: "), errors.count(f"did you mean `{command}`?")
            yield f"the command {word}", None if tips + lines == 1 else f"it told {errors!r}"


def values_are_no_files(program):
    """Whatever option with a value stands in front of two files, it is these that are told, and not its value; `compare` reads two, and says that there is none."""
    for command, said in helps_of(program).items():
        for option, takes in said.options.items():
            if takes and command == "compare" and option != "--depth":
                run = program.run([command, option, "2", "a.boc", "b.boc"])
                is_told = run.errors.startswith((b"boc: b.boc: ", b"boc: 2: ")) and run.status == 5
                yield f"{command} {option} 2 and two files", None if is_told else f"{run.status}, {run.errors!r}"
            elif takes and command and command != "compare":
                told_files = f"`a.boc` and `b.boc` {ONE_FILE}".encode() in program.run([command, option, "2", "a.boc", "b.boc"]).errors
                yield f"{command} {option} 2 and two files", None if told_files else "the files are not told"


def keywords(program):
    """Each keyword of the language is told as one where a name is allowed."""
    for word in sorted(it.decode() for it in program_reader.KEYWORDS):
        answer = program.run(["values"], f"cown {word} = 0; main {{ }}".encode())
        is_told = f"expected a name; `{word}` is a keyword".encode() in answer.errors
        yield f"the keyword {word}", None if is_told else f"{answer.errors!r}"


def random_edits(program):
    """Behind edits of rows and of a def by chance, an edit that doesn't fit is told with its bound."""
    chance = random.Random(20261127)
    for number, rows in enumerate(random_records(8, RANDOM)):
        record = record_of(rows)
        of_def = sorted(chance.sample(range(len(rows)), chance.randint(1, len(rows))))
        words = []
        for _ in range(3):
            if chance.random() < 0.5:
                over, under = chance.randint(1, 9), chance.randint(1, 9)
                word = f"some={over}/{under}"
                for row in of_def:
                    rows = model.scaled(rows, row, over, under)
            else:
                word, rows = random_edit(chance, rows)
            words.append(word)
        word, fault, line = unfit_edit(chance, rows)
        named = "".join(f"= {row} some\n" for row in of_def).encode()
        answer = program.run_beside(["whatif", *words, word], "--names", named, record)
        yield f"edits by chance {number}: {words}, {word}", difference(told(f"edit 4: {fault}", [f"`{word}`: {line}"]), answer)


def unfit_edit(chance, rows):
    """The word of an edit of a row that these rows can't take, its fault, and what is told of it behind the word."""
    row = chance.randrange(len(rows))
    parent = rows[row].parent
    if row and chance.random() < 0.5:
        least, most = model.least_offsets(rows)[row], model.most_offset(rows, row)
        elder, younger = (any(it.parent == parent for it in some) for some in (rows[1:row], rows[row + 1:]))
        siblings = {(True, True): ", between its siblings,", (True, False): ", after its earlier sibling,", (False, True): ", before its later sibling,"}
        window = f"can be spawned only at tick {least}" if least == most else f"can be spawned at tick {least} to {most}"
        told_of = f"row {row}{siblings.get((elder, younger), '')} {window} of row {parent}"
        return f"{row}@{chance.choice([least - 1, most + 1])}", "5 NotBetween", told_of
    least, last = model.least_ticks(rows)[row], max((child for child, it in enumerate(rows) if child and it.parent == row), default=None)
    spawns = f"row {row} spawns row {last} at its tick {least}, so it takes at least {least} tick{'' if least == 1 else 's'}"
    return f"{row}={least - 1}", "2 BelowSpawn", "a row takes at least 1 tick" if last is None else spawns


def with_lines_of(record, changes):
    """A record with other lines in the place of some, which are counted from 1. A line that is None is left out."""
    lines = [changes.get(number, line) for number, line in enumerate(record.decode().splitlines(), 1)]
    return lines_text(line for line in lines if line is not None)


# The most bytes of a file's name that is shown in a command, and the bytes of those that are shown without quotes.
MOST_WORD = 80
PLAIN = set(string.ascii_letters + string.digits + "._-/+,:@%=")

# The most rows that could start which are listed.
MOST_STARTS = 3


def word_of(path):
    """A file's name as a word of a command: as it is printed, in quotes if a shell wants them, and FILE where it can't be one."""
    name = printed(path).decode()
    if len(name) > MOST_WORD or name.startswith("-") or not set(name) <= PLAIN and set(name) & set("'?"):
        return "FILE"
    return name if set(name) <= PLAIN else f"'{name}'"


class Left:
    """What the events of a record leave: a queue for each cown, of the rows that have not ended, in the order of their spawns."""

    def __init__(self, events):
        self.lives, self.cowns, self.queues = [], [], {}
        for event in events:
            row, *numbers = map(int, event[2:].split())
            if event[0] == "+":
                self.lives.append("pending")
                self.cowns.append(numbers[2:])
                for cown in numbers[2:]:
                    self.queues.setdefault(cown, []).append(row)
            elif event[0] == ">":
                self.lives[row] = "running"
            else:
                self.lives[row] = "ended"
                for cown in self.cowns[row]:
                    self.queues[cown].remove(row)

    def of(self, life):
        return [row for row, it in enumerate(self.lives) if it == life]

    def could_start(self):
        """The pending rows that are the first of each of their cowns' queues."""
        return [row for row in self.of("pending") if all(self.queues[cown][0] == row for cown in self.cowns[row])]

    def waiting_for(self, first):
        """The rows that are behind a row in a queue, or behind one of these, and so on."""
        found, new = set(), [first]
        while new:
            row = new.pop()
            behind = {it for cown in self.cowns[row] for it in self.queues[cown][self.queues[cown].index(row) + 1:]}
            new += behind - found
            found |= behind
        return found

    def lines(self):
        """What is told of the rows that have not ended."""
        if not self.lives:
            return ["no row was spawned yet"]
        return [f"{count_of(len(rows), 'row')} {come}, the first is row {rows[0]}"
                for rows, come in ((self.of("pending"), "not started"), (self.of("running"), "started and not ended")) if rows]

    def stalled(self):
        """What is told of the rows that could start, where none runs."""
        if self.of("running"):
            return []
        rows, lines = self.could_start(), []
        for row in rows[:MOST_STARTS]:
            count = len(self.waiting_for(row))
            waiting = "no row waits" if count == 0 else "1 row waits" if count == 1 else f"{count} rows wait"
            lines.append(f"row {row} could start{' too' if lines else ' and nothing runs'}: its wake-up was lost; {waiting} for it")
        more = len(rows) - MOST_STARTS
        return lines + (["1 more row could start: its wake-up was lost"] if more == 1 else
                        [f"{more} more rows could start: their wake-ups were lost"] if more > 1 else [])

    def cut(self, word, whole):
        """How one continues with what is there. Of a line that is cut, the lines before it are whole."""
        if not self.lives or self.lives[0] == "pending":
            return []
        name, same = (f" {word}", "") if word else ("", " of the same input")
        front = f"boc cut{name}" if whole is None else f"head -n {whole}{name} | boc cut"
        return [f"`{front} | boc why`{same} continues with what is there"]


def count_of(count, name):
    return f"{count} {name}{'' if count == 1 else 's'}"


def unended_lines(lines, word=None):
    """The line of the fault of a record whose run isn't over at its last line `.`, and the lines below it."""
    left = Left(lines[1:])
    return f"line {len(lines) + 1}: 10 Unended", left.lines() + left.stalled() + left.cut(word, None)


def truncated_lines(lines, part, word=None):
    """The same of a record that ends behind these lines, and this part of one more."""
    left, number = Left(lines[1:]), len(lines) + 1
    first = f"`{part}`: the record ends within this line" if part else "the record ends before the line `.`"
    return f"line {number}: 11 Truncated", [first] + left.lines() + left.cut(word, len(lines) if part else None)


# Names of files: words, with blanks, with quotes, with bytes that are printed as others, and long ones.
CUT_NAMES = ["a.record", "-a.record", "a b.record", "a'b.record", "a$b;c.record", "a?.record", "a\x1b[1m.record", "\u00e9.record", "x" * 50, "y" * 90]


def unended_in_files(program):
    """The command that continues has the file's name as a word, and no byte of it comes raw to a terminal."""
    lines = TWO_ROWS + ["< 0 9 0"]
    with tempfile.TemporaryDirectory(prefix="boc-explained-") as folder:
        for name in CUT_NAMES:
            for content, (fault, more) in ((lines_text(lines + ["."]), unended_lines(lines, word_of(f"{folder}/{name}"))),
                                           (lines_text(lines), truncated_lines(lines, "", word_of(f"{folder}/{name}"))),
                                           (lines_text(lines) + b"> 1", truncated_lines(lines, "> 1", word_of(f"{folder}/{name}")))):
                path = written(folder, name, content)
                place = int(re.match(r"line (\d+):", fault)[1])
                answer = program.run(["why", path])
                yield f"{name!r}, {fault}", difference(told(fault, more, head_of(path, place, 1)), answer)
                yield f"{name!r}, raw bytes", None if set(answer.errors) <= PRINTABLE else f"{answer.errors!r}"


def unended_everywhere(program):
    """Each command that reads a record tells the same below such a fault, and so does `boc-view`."""
    lines = TWO_ROWS + ["< 0 9 0"]
    view = view_of(program)
    for content, (fault, more) in ((lines_text(lines + ["."]), unended_lines(lines)), (lines_text(lines), truncated_lines(lines, ""))):
        for command in ("check", "why", "cowns"):
            yield f"{command}, {fault}", difference(told(fault, more), program.run([command], content))
        for command in ("text", "page"):
            yield f"boc-view {command}, {fault}", difference(told(fault, more), view.run([command], content))


def stalled_record(chance, record):
    """The lines of a record, without the last one, of the same run where some rows were never woken: with no event of theirs, and none of what waits for them."""
    lines = record.decode().splitlines()
    count = sum(line[0] == "+" for line in lines)
    lost = set(chance.sample(range(count), chance.randint(1, min(count, 4))))
    if chance.random() < 0.9:
        lost.discard(0)
    kept, numbers, started, cowns, queues = lines[:1], {}, set(), {}, {}
    for line in lines[1:-1]:
        sign, (row, *others) = line[0], map(int, line[2:].split())
        if sign == "+" and (row == 0 or others[0] in started):
            numbers[row], cowns[row] = len(numbers), others[2:]
            for cown in others[2:]:
                queues.setdefault(cown, []).append(row)
            kept.append(" ".join(map(str, ["+", numbers[row], numbers[others[0]], *others[1:]])))
        elif sign == ">" and row in numbers and row not in lost and all(queues[cown][0] == row for cown in cowns[row]):
            started.add(row)
            kept.append(f"> {numbers[row]}")
        elif sign == "<" and row in started:
            for cown in cowns[row]:
                queues[cown].remove(row)
            kept.append(" ".join(map(str, ["<", numbers[row], *others])))
    return kept


def unended_by_chance(program):
    """What is told of runs by chance that stand still, and of records that end anywhere, is what plain queues say."""
    chance, stalled = random.Random(20261130), 0
    for number, rows in enumerate(random_records(9, RANDOM)):
        lines = stalled_record(chance, record_of(rows))
        left = Left(lines[1:])
        if left.of("pending"):
            stalled += len(left.could_start()) > 0
            fault, more = unended_lines(lines)
            yield f"a run that stands still {number}", difference(told(fault, more), program.run(["check"], lines_text([*lines, "."])))
        begin, part = lines[:chance.randint(2, len(lines))], ""
        if len(begin) < len(lines) and chance.random() < 0.5:
            part = lines[len(begin)][:chance.randint(1, len(lines[len(begin)]))]
        fault, more = truncated_lines(begin, part)
        yield f"a record that ends anywhere {number}", difference(told(fault, more), program.run(["check"], lines_text(begin) + part.encode()))
    yield "runs that stand still", None if stalled > RANDOM // 2 else f"only {stalled}"


def long_queues(program):
    """As many rows as there may be, of one def over one cown, none of which was woken: told in time, and within the memory."""
    rows = MOST_ROWS
    for name, cowns, starts, waiting in (
            ("one cown", lambda row: " 0", [1], rows - 2),
            ("eight cowns", lambda row: " 0 1 2 3 4 5 6 7", [1], rows - 2),
            ("a chain over two cowns each", lambda row: f" {(row - 1) % 255} {(row - 1) % 255 + 1}", [1], rows - 2)):
        lines = ["boc 2 256", "+ 0 0 0", "> 0", *[f"+ {row} 0 {row}{cowns(row)}" for row in range(1, rows)], f"< 0 {rows} 0"]
        lines_below = [f"{rows - 1} rows not started, the first is row 1",
                       f"row {starts[0]} could start and nothing runs: its wake-up was lost; {waiting} rows wait for it", CUT_INPUT]
        answer, used = measured([program.path, "check"], 20, MOST_ASKED, lines_text([*lines, "."]))
        expected = told(f"line {len(lines) + 1}: 10 Unended", lines_below)
        yield f"a long queue, {name}", difference(expected, answer) if used < MOST_MEMORY else f"it used {used} kilobytes"


def long_records(program):
    """A fault is told wherever in a record it is, also behind as many bytes as can stand before it."""
    rows = 60000
    spawns = [f"+ {row} 0 {row} 0 1" for row in range(1, rows)]
    for name, lines, number, row in (("behind a mebibyte", spawns + ["> 9999999"], rows + 3, 9999999),
                                     ("in the first mebibyte", spawns[:100] + ["> 999"] + spawns[100:], 104, 999)):
        expected = told(f"line {number}: 7 StartNotAllowed", [f"`> {row}`: row {row} is not spawned yet"])
        yield f"a fault {name}", difference(expected, program.run(["check"], lines_text(MAIN_RUNS + lines)))
    full = full_record()
    for changed, fault, lines in (([*full[:-2], "> 1"], f"line {len(full) - 1}: 7 StartNotAllowed", ["`> 1`: row 1 has ended already"]),
                                  (full[:-2], f"line {len(full) - 1}: 11 Truncated", ["the record ends before the line `.`",
                                                                                     "1 row started and not ended, the first is row 65534", CUT_INPUT]),
                                  ([*full, "more"], f"line {len(full) + 1}: 12 After", ["`more`: nothing can follow the line `.`"])):
        source = lines_text(changed)
        yield f"{fault}, behind {len(source)} bytes", difference(told(fault, lines), program.run(["check"], source))
        answer, used = measured([program.path, "check"], 60, MOST_ASKED, source)
        yield f"{fault}, within the memory", difference(told(fault, lines), answer) if used < MOST_MEMORY else f"it used {used} kilobytes"
    spawns = [f"+ {row} 0 {row}" for row in range(1, MOST_ROWS)]
    for line, kind, reason in ((f"+ {MOST_ROWS} 0 {MOST_ROWS}", "9 TooMany", "a run has at most 65535 rows"),
                               (f"+ {MOST_ROWS + 1} 0 {MOST_ROWS}", "3 NumberNotNext", "a run has at most 65535 rows, and this is one more")):
        expected = told(f"line {MOST_ROWS + 3}: {kind}", [f"`{line}`: {reason}", FEWER_ROWS])
        yield f"a row too many, {line}", difference(expected, program.run(["check"], lines_text(MAIN_RUNS + spawns + [line])))


def full_record():
    """The lines of a record with as many rows as there may be, of 8 cowns each, all of which they write, with the longest numbers."""
    cowns = "".join(f" {cown}" for cown in range(248, 256))
    spawns = [f"+ {row} 0 {934466 + row}{cowns}" for row in range(1, MOST_ROWS)]
    ran = [line for row in range(1, MOST_ROWS) for line in (f"> {row}", f"< {row} 1000000 0{cowns}")]
    return ["boc 2 256", "+ 0 0 0", "> 0", *spawns, "< 0 1000000 0", *ran, "."]


# The examples, the command that reads them, the plain reader, the kinds of its faults, and the bytes that each place is given.
REPLACED = [
    ("transfer.boc", "values", program_reader.read_program, program_reader.Refused, READER_KINDS, b"\n;{0x=\x80"),
    ("transfer.record", "check", record_reader.read_record, record_reader.Refused, RECORD_KINDS, b"\n -9#.\x80"),
]


def replacements(program):
    """Behind each replacement of one byte the first line is what it is without an explanation, and the others can be read."""
    with ThreadPoolExecutor() as pool:
        for name, command, read, refusal, kinds, tried in REPLACED:
            whole = program.example(name)
            texts = [replaced(whole, place, byte) for place in range(len(whole)) for byte in tried if byte != whole[place]]
            for text, answer in zip(texts, pool.map(lambda text: program.run([command], text), texts)):
                try:
                    read(text)
                    first = None
                except refusal as fault:
                    first = f"boc: {fault_line(fault, kinds)}\n".encode()
                fault = fault_of_lines(first, answer)
                if fault is not None:
                    yield f"{command}: {text!r}", fault
            yield f"{command}: the replacements of a byte", None


def fault_of_lines(first, answer):
    """What is wrong with an answer to a text whose fault has this line, or to one that has none."""
    if answer is None:
        return "it did not end in time"
    if first is None:
        return None if answer.status == 0 and not answer.errors else f"it told {answer.errors!r}"
    if answer.status != 3 or answer.output or not answer.errors.startswith(first):
        return f"the answer {answer} in place of {first!r}"
    lines = answer.errors[len(first):].split(b"\n")
    if not lines[:-1] or lines[-1]:
        return f"nothing is explained, or its last line has no end: {answer.errors!r}"
    if any(not line.startswith(EXPLAINS) or len(line) > MOST_WIDTH for line in lines[:-1]):
        return f"a line that doesn't begin with five blanks, or is too long: {answer.errors!r}"
    return None if set(answer.errors) <= PRINTABLE else f"a byte that can't be printed: {answer.errors!r}"


# How many byte strings of a kind there are.
RANDOM_STRINGS = 300

# What such strings are made of, beside bytes by chance.
PIECES = [b"boc 2 9\n", b"boc 1 9\n", b"+ 0 0 0\n> 0\n", b"+ ", b"> ", b"< ", b"= 1 ", b"@ 0 ", b"cown ", b"a", b" = 0;\n", b"def f(; x) {", b"main { ",
          b"work ", b"when f(; a);", b"}", b"1", b" ", b"\n", b".\n", b"#", b"\x1b[31m", b"\x9b31m", b"\x7f", b"\x00", b"\t", b"\r", b"\xc3\xa9", b"\xff" * 70, b"x" * 90]


def random_bytes(program):
    """Whatever a program, a record or a file of names has, nothing but printable ASCII comes to standard error."""
    chance = random.Random(20261129)
    text, record = program.example("transfer.boc"), program.example("transfer.record")
    readers = {
        "a program": lambda content: program.run(["values"], content),
        "a record": lambda content: program.run(["check"], content),
        "names": lambda content: program.run_beside(["why"], "--names", content, record),
        "a program beside a record": lambda content: program.run_beside(["check"], "--program", content, record),
        "a record beside a program": lambda content: program.run_beside(["values"], "--record", content, text),
    }
    strings = [random_string(chance, text, record) for _ in range(RANDOM_STRINGS)]
    with ThreadPoolExecutor() as pool:
        for name, read in readers.items():
            told_of = 0
            for content, answer in zip(strings, pool.map(read, strings)):
                unseen = set(answer.errors + answer.notes) - PRINTABLE
                told_of += answer.status == 3
                if unseen or answer.status not in (0, 3):
                    yield f"{name} {content!r}", f"status {answer.status}, {answer.errors!r}"
            yield f"{name} by chance", None if told_of > RANDOM_STRINGS // 2 else f"only {told_of} are refused"


def random_string(chance, text, record):
    """A byte string by chance: of single bytes, of pieces of programs, records and names, or an example with pieces in it."""
    kind = chance.randrange(3)
    if kind == 0:
        return bytes(chance.randrange(256) for _ in range(chance.randint(1, 200)))
    pieces = [chance.choice(PIECES) if chance.random() < 0.8 else bytes([chance.randrange(256)]) for _ in range(chance.randint(1, 20))]
    if kind == 1:
        return b"".join(pieces)
    whole = chance.choice([text, record])
    place = chance.randrange(len(whole))
    return whole[:place] + b"".join(pieces[:3]) + whole[place:]
