"""Every command at its limits, with ample memory: numbers of rows, of cowns and of workers, and lengths of inputs."""
from . import model
from .records import fan, fan_of_length, fan_text, tower, tower_text
from .running import done, fault_of, refused

MOST_ROWS = 65535
MOST_TEXT = 65536

# Lengths about the sizes in which inputs are taken in, and about the most bytes of a program text.
LENGTHS = [4095, 4096, 4097, 8191, 8192, 8193, 65535, 65536, 65537]


def numbered(name, values):
    """The lines of these values of the members of an array, or of cowns whose names end with their numbers."""
    return "".join(f"{name.format(number)} {value}\n" for number, value in enumerate(values))


# Programs at the limits of the language, and their values.
PROGRAMS = [
    ("no cowns", "main { }", ""),
    ("256 cowns", "".join(f"cown c{number} = {number};\n" for number in range(256)) + "main { }",
     numbered("c{}", range(256))),
    ("an array of 256", "cown c[256] = -5; main { }", numbered("c[{}]", [-5] * 256)),
    ("64 defs",
     "cown a = 1;" + "".join(f"def f{number}(; x) {{ x = x * 2; }}\n" for number in range(64))
     + "main {" + "".join(f"when f{number}(; a);" for number in range(62)) + "}",
     f"a {2 ** 62}\n"),
    ("1,000 nodes", "cown a = 0; def f(; x) {" + "x = x;" * 498 + "x = 7 + x;" + "} main { when f(; a); }", "a 7\n"),
    ("8 arguments and 8 cowns",
     "cown c[8] = 1; def f(a, b, d, e, g, h, i, j; k, l, m, n, o, p, q, r)"
     "{ k = a; l = b; m = d; n = e; o = g; p = h; q = i; r = j; }"
     "main { when f(1, 2, 3, 4, 5, 6, 7, 8; c[7], c[6], c[5], c[4], c[3], c[2], c[1], c[0]); }",
     numbered("c[{}]", range(8, 0, -1))),
    ("a name of 32 letters", f"cown {'n' * 32} = 3; main {{ }}", f"{'n' * 32} 3\n"),
    ("the greatest and the least value",
     "cown a = 9223372036854775807; cown b = -9223372036854775807;"
     "def f(; x) { x = x - 1; } main { when f(; b); }",
     "a 9223372036854775807\nb -9223372036854775808\n"),
    ("as many ticks as there may be",
     "cown a = 0; def f(; x) { x = 1; work 999998; x = 2; } main { when f(; a); }",
     "a 1\n"),
    ("the last tick", "cown a = 0; def f(; x) { x = 1; work 999997; x = 2; } main { when f(; a); }", "a 2\n"),
]


def cases(program):
    yield from records_of_all_sizes(program)
    yield from records_of_most_rows(program)
    yield from records_of_lengths(program)
    yield from programs_of_lengths(program)
    yield from programs_at_limits(program)


def answers(program, name, source, rows, workers, sweeps):
    """The answers of each command that reads a record, but for edits."""
    yield f"{name}: check", fault_of(done(b"ok %d\n" % len(rows)), program.run(["check"], source))
    yield f"{name}: profile", fault_of(done(model.report(rows)), program.run(["profile"], source))
    for number in workers:
        words = ["profile", "--p", str(number)]
        yield f"{name}: {words}", fault_of(done(model.report(rows, number)), program.run(words, source))
    yield f"{name}: whatif", fault_of(done(model.report(rows)), program.run(["whatif"], source))
    if sweeps:
        yield f"{name}: sweep", fault_of(done(sweeps), program.run(["sweep"], source))


def eight_apart(number):
    """Of 256 cowns eight that stand together, and 32 rows on have them again."""
    first = number * 8 % 256
    return range(first, first + 8)


def eight_shifted(number):
    """Eight of 256 cowns, seven of which the next row has too."""
    first = number % 249
    return range(first, first + 8)


def records_of_all_sizes(program):
    """Few and many rows and cowns, and all commands."""
    for name, cowns, rows in [
        ("main alone", 0, fan(1)),
        ("main alone, 256 cowns", 256, fan(1, main_ticks=1000000)),
        ("100 rows without cowns", 0, fan(100, ticks_of=lambda number: 1 + number * 7 % 50)),
        ("100 rows over one cown", 1, fan(100, lambda number: (0,), lambda number: 1 + number % 3)),
        ("100 rows with 8 of 16 cowns each", 256, fan(100, lambda number: range(number % 2, 16, 2))),
        ("100 rows with 8 cowns each", 256, fan(100, eight_apart, lambda number: 40)),
        ("100 rows with 8 cowns that are shared", 256, fan(100, eight_shifted, lambda number: 1 + number % 5)),
        ("3 rows of the most ticks", 1, fan(3, lambda number: (0,), lambda number: 1000000, 1000000)),
    ]:
        source = fan_text(cowns, rows)
        yield from answers(program, name, source, rows, (1, 2, 7, 64), model.sweep(rows))
        yield from edits(program, name, source, rows)
        yield from many_edits(program, name, source, rows)
        yield from many_workers(program, name, source, rows)
        yield from sweeps_of_changes(program, name, source, cowns, rows)
        if rows[0].ticks <= 333333:
            yield from changes(program, name, source, rows)
    rows = tower(100)
    yield from answers(program, "a tower of 100", tower_text(rows), rows, (1, 2, 64), model.sweep(rows))
    yield from edits(program, "a tower of 100", tower_text(rows), rows)
    yield from changes(program, "a tower of 100", tower_text(rows), rows)
    yield from sweeps_of_changes(program, "a tower of 100", tower_text(rows), 1, rows)
    yield from many_workers(program, "a tower of 100", tower_text(rows), rows)


def edits(program, name, source, rows):
    """Edits of the first, a middle and the last row, to the least and to the most ticks."""
    least = model.least_ticks(rows)
    for number in sorted({0, len(rows) // 2, len(rows) - 1}):
        for ticks in (least[number], 1000000):
            words = ["whatif", "--p", "3", f"{number}={ticks}"]
            expected = model.report(model.edited(rows, number, ticks), 3)
            yield f"{name}: {words}", fault_of(done(expected), program.run(words, source))


def many_edits(program, name, source, rows):
    """An edit of each row, from the last to the first."""
    least, after, words = model.least_ticks(rows), rows, ["whatif", "--p", "2"]
    for number in reversed(range(len(rows))):
        ticks = least[number] + number % 7
        after = model.edited(after, number, ticks)
        words.append(f"{number}={ticks}")
    yield f"{name}: {len(rows)} edits", fault_of(done(model.report(after, 2)), program.run(words, source))


def changes(program, name, source, rows):
    """Main at three times its cost and at half of that, and the last row, spawned at the least and at the latest tick that it then can be."""
    last = len(rows) - 1
    after, words = model.scaled(model.scaled(rows, 0, 3, 1), 0, 1, 2), ["whatif", "--p", "3", "0=3/1", "0=1/2"]
    for offset in (model.least_offsets(after)[last], model.most_offset(after, last)) if last else ():
        words.append(f"{last}@{offset}")
        after = model.moved(after, last, offset)
    yield f"{name}: {words}", fault_of(done(model.report(after, 3)), program.run(words, source))


def sweeps_of_changes(program, name, source, cowns, rows):
    """The sweeps over cowns and spawns."""
    yield f"{name}: cowns", fault_of(done(model.cown_sweep(rows, cowns)), program.run(["sweep", "--cowns"], source))
    answer = program.run(["sweep", "--cowns", "--p", "2"], source)
    yield f"{name}: cowns for 2 workers", fault_of(done(model.cown_sweep(rows, cowns, 2)), answer)
    yield f"{name}: spawns", fault_of(done(model.spawn_sweep(rows)), program.run(["sweep", "--spawns"], source))


def many_workers(program, name, source, rows):
    """The curve up to as many workers as there may be, and sweeps for few workers and for many."""
    yield f"{name}: curve", fault_of(done(model.curve(rows)), program.run(["curve"], source))
    for number in (1, 2, 64):
        words = ["sweep", "--p", str(number)]
        yield f"{name}: {words}", fault_of(done(model.greedy_sweep(rows, number)), program.run(words, source))


def records_of_most_rows(program):
    """As many rows as there may be, apart from one another, all over one cown, and with 8 cowns each."""
    rows = fan(MOST_ROWS)
    yield from answers(program, "most rows", fan_text(0, rows), rows, (1, 64), model.sweep_of_apart(rows))
    yield from early_spawns(program, "most rows", fan_text(0, rows), rows)
    rows = fan(MOST_ROWS, lambda number: (0,), lambda number: 2, main_ticks=1000000)
    yield from answers(program, "most rows over one cown", fan_text(1, rows), rows, (1, 64), None)
    yield from early_spawns(program, "most rows over one cown", fan_text(1, rows), rows)
    for words in (["sweep", "--cowns"], ["sweep", "--cowns", "--p", "64"]):
        expected = model.cown_sweep(rows, 1, 64 if "--p" in words else None)
        yield f"most rows over one cown: {words}", fault_of(done(expected), program.run(words, fan_text(1, rows)))
    rows = fan(MOST_ROWS, eight_shifted, lambda number: 1 + number % 3)
    yield from answers(program, "most rows with 8 cowns each", fan_text(256, rows), rows, (1, 64), None)
    yield from edits(program, "most rows with 8 cowns each", fan_text(256, rows), rows)
    yield from changes(program, "most rows with 8 cowns each", fan_text(256, rows), rows)
    answer = program.run(["whatif", "0=16/1"], fan_text(256, rows))
    yield "most rows with 8 cowns each, too costly", fault_of(refused(3, "boc: edit 1: 3 TooManyTicks"), answer)
    answer = program.run(["curve", "--p", "3"], fan_text(256, rows))
    yield "most rows with 8 cowns each: curve", fault_of(done(model.curve(rows, 3)), answer)
    rows = tower(MOST_ROWS)
    yield from answers(program, "a tower of most rows", tower_text(rows), rows, (1, 64), None)
    rows = [row._replace(offset=number + 1) if number else row for number, row in enumerate(fan(MOST_ROWS, ticks_of=lambda _: 1000000, main_ticks=MOST_ROWS))]
    yield from answers(program, "most rows of the most ticks", fan_text(0, rows), rows, (64,), None)
    ends = program.run(["profile", "--p", "64", "--no-plan"], fan_text(0, rows)).output.splitlines()[-1:]
    yield "most rows of the most ticks: bound", None if ends and ends[0].endswith(b" bound 1025035308") else f"it ends with {ends}"


def early_spawns(program, name, source, rows):
    """Where each row is spawned as early as it can be already, no spawn is worth more than another."""
    assert model.least_offsets(rows) == [row.offset for row in rows]
    span = model.span(rows)
    expected = model.text(f"{number} {span}" for number in range(1, len(rows)))
    yield f"{name}: spawns", fault_of(done(expected), program.run(["sweep", "--spawns"], source))


def records_of_lengths(program):
    for length in LENGTHS:
        rows = fan_of_length(length)
        source = fan_text(0, rows)
        sweeps = model.sweep_of_apart(rows)
        yield from answers(program, f"a record of {length} bytes", source, rows, (1, 64), sweeps)
        cut = refused(3, f"boc: line {source.count(10)}: 11 Truncated")
        yield f"a cut record of {length - 1} bytes", fault_of(cut, program.run(["check"], source[:-1]))


def programs_of_lengths(program):
    """A program text with spaces, empty lines or a comment in front of it or behind."""
    text = program.example("transfer.boc")
    for length in LENGTHS:
        missing = length - len(text)
        for name, source in [
            ("spaces behind", text + b" " * missing),
            ("spaces in front", b" " * missing + text),
            ("empty lines behind", text + b"\n" * missing),
            ("a comment behind", text + b"#" * missing),
            ("a comment in front", b"#" * (missing - 1) + b"\n" + text),
        ]:
            line = 1 + source[:MOST_TEXT].count(b"\n")
            expected = done(b"a 12\nb 4\n") if length <= MOST_TEXT else refused(3, f"boc: line {line}: 9 TooLong")
            yield f"a text of {length} bytes, {name}", fault_of(expected, program.run(["values"], source))
    expected = refused(3, "boc: line 1: 9 TooLong")
    yield "a text of 1,000,000 bytes", fault_of(expected, program.run(["values"], b" " * 1000000))


def programs_at_limits(program):
    for name, text, values in PROGRAMS:
        yield name, fault_of(done(values.encode()), program.run(["values"], text.encode()))
