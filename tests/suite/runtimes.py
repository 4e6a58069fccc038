"""The small runtimes of examples/runtimes: each record that they write is accepted, and what is wrong with planted copies of them is told.

A copy is planted by replacing places of its source. What is wrong with its record, and at which line, is worked out by record_reader.
`check` says of each record in docs/RECORDING.md what the line below it has.
"""
import dataclasses
import os
import re
import shutil
import subprocess
import sys
import tempfile

from .record_reader import Refused, read_record
from .running import done, fault_of, refused

TOP = os.path.dirname(os.path.dirname(os.path.dirname(os.path.abspath(__file__))))
FOLDER = os.path.join(TOP, "examples", "runtimes")
RECORDERS = os.path.join(TOP, "recorders")
GUIDE = os.path.join(TOP, "docs", "RECORDING.md")

# So many runs in each mode, and as many of a planted copy until what is wrong with it shows.
RUNS = 25
THREADS = 4

# A run takes a twentieth of a second, and a build a second or two.
SECONDS = 60

NUMBERS = {"NumberNotNext": 3, "ParentNotRunning": 4, "StartNotAllowed": 7, "EndNotAllowed": 8, "Unended": 10}

# How each mistake is found in time.
MISTAKES = {
    "two behaviours at once on a cown": "StartNotAllowed",
    "a start before its spawn": "StartNotAllowed",
    "a lost wake-up": "Unended",
    "an end twice": "EndNotAllowed",
    "a queue out of order": "StartNotAllowed",
    "a child without its parent": "ParentNotRunning",
    "an end without a start": "EndNotAllowed",
}

# What is planted into a source, by mistake: texts there, and what takes the place of each.
PLANTS = {
    "philosophers.py": {
        "two behaviours at once on a cown": [("self.missing = len(cowns)", "self.missing = min(len(cowns), 1)")],
        "a start before its spawn": [
            ("            behaviour.row = self.recorder.spawn(", "            spawn = lambda: self.recorder.spawn("),
            ("            self.ready.put(behaviour)\n\n", "            self.ready.put(behaviour)\n        time.sleep(0.002)\n        behaviour.row = spawn()\n\n"),
        ],
        "a lost wake-up": [
            ("cown.requests[0].gets_one():\n                    self.ready.put", "cown.requests[0].gets_one() and next(WAKES) != 3:\n                    self.ready.put"),
            ("PATIENCE = 10\n", "PATIENCE = 1\nimport itertools\nWAKES = itertools.count()\n"),
        ],
        "an end twice": [("        self.recorder.end(behaviour.row)\n", "        self.recorder.end(behaviour.row)\n        self.recorder.end(behaviour.row)\n")],
        "a queue out of order": [
            ("cown.requests.append(behaviour)", "cown.requests.insert(min(len(cown.requests), 1) if len(cowns) == 1 else len(cown.requests), behaviour)"),
            ("        eaten.value += 1\n", "        eaten.value += 1\n        time.sleep(0.01)\n"),
        ],
        "a child without its parent": [
            ("        self.recorder.end(behaviour.row)\n", ""),
            ("        self.recorder.start(behaviour.row)\n", "        self.recorder.start(behaviour.row)\n        self.recorder.end(behaviour.row)\n"),
        ],
        "an end without a start": [("        self.recorder.start(behaviour.row)\n",
                                    "        if len(behaviour.cowns) != 1:\n            self.recorder.start(behaviour.row)\n")],
    },
    "bank.rs": {
        "two behaviours at once on a cown": [("        if behaviour.gets(held) {\n            self.make_ready(behaviour);\n        }\n",
                                              "        behaviour.missing.fetch_add(1000 - held, Ordering::Relaxed);\n        self.make_ready(behaviour);\n")],
        "a start before its spawn": [
            ("        let row = thread.spawn(parent, self.defs[code], cowns.len(), arguments);\n", "        let row = Row::NONE;\n"),
            ("            self.make_ready(behaviour);\n        }\n    }\n\n    fn make_ready",
             "            self.make_ready(behaviour);\n        }\n        thread.spawn(parent, self.defs[code], 0, arguments);\n    }\n\n    fn make_ready"),
        ],
        "a lost wake-up": [
            ("filter(|next| next.gets(1))", "filter(|next| next.gets(1) && WAKES.fetch_add(1, Ordering::Relaxed) != 3)"),
            ("Duration::from_secs(10);\n", "Duration::from_secs(1);\nstatic WAKES: AtomicUsize = AtomicUsize::new(0);\n"),
        ],
        "an end twice": [("        thread.end(behaviour.row, 0);\n", "        thread.end(behaviour.row, 0);\n        thread.end(behaviour.row, 0);\n"),
                         ("            thread,\n            behaviour,\n        };\n        (behaviour.body)",
                          "            thread: &mut *thread,\n            behaviour,\n        };\n        (behaviour.body)")],
        "a queue out of order": [
            ("            queue.waiting.push_back(behaviour.clone());\n",
             "            let last = queue.waiting.len();\n            let jumps = cowns[place] == LOG && arguments == [13];\n"
             "            queue.waiting.insert(if jumps { last.min(1) } else { last }, behaviour.clone());\n"),
            ("Duration::from_secs(10);\n", "Duration::from_secs(1);\n"),
        ],
        "a child without its parent": [
            ("        thread.end(behaviour.row, 0);\n", ""),
            ("        thread.start(behaviour.row);\n", "        thread.start(behaviour.row);\n        thread.end(behaviour.row, 0);\n"),
        ],
        "an end without a start": [("        thread.start(behaviour.row);\n",
                                    "        if behaviour.cowns.is_empty() {\n            thread.start(behaviour.row);\n        }\n")],
    },
    "heat.c": {
        "two behaviours at once on a cown": [
            ("    if (gets(one, held))\n        make_ready(one);\n", "    (void)held;\n    atomic_store(&one->missing, 1000);\n    make_ready(one);\n"),
            ("    free(one);\n", ""),
        ],
        "a start before its spawn": [
            ("    one->row = boc_spawn_with(&me->record, me->row, def, count, &round, count > 0 ? 1 : 0);\n", ""),
            ("        boc_ask(&me->record, one->row, i, &cowns[i]->asked);\n", ""),
            ("    if (gets(one, held))\n        make_ready(one);\n", """\
    if (gets(one, held))
        make_ready(one);
    nanosleep(&(struct timespec){0, 2000000}, NULL);
    one->row = boc_spawn_with(&me->record, me->row, def, count, &round, count > 0 ? 1 : 0);
    for (unsigned i = 0; i < count; i++)
        boc_ask(&me->record, one->row, i, &cowns[i]->asked);
"""),
            ("    free(one);\n", ""),
        ],
        "a lost wake-up": [
            ("next != NULL && gets(next->of, 1)", "next != NULL && gets(next->of, 1) && atomic_fetch_add(&wakes, 1) != 3"),
            ("static void release(", "static atomic_int wakes;\n\nstatic void release("),
            ("alarm((unsigned)rounds * 2);", "alarm(1);"),
        ],
        "an end twice": [("    boc_end(&me->record, one->row, 0);\n", "    boc_end(&me->record, one->row, 0);\n    boc_end(&me->record, one->row, 0);\n")],
        "a queue out of order": [
            ("    else\n        to->last->next = last;\n", """\
    else if (last->of->count == 1 && to->first->next != NULL) {
        last->next = to->first->next;
        to->first->next = last;
        return false;
    } else
        to->last->next = last;
"""),
        ],
        "a child without its parent": [
            ("    boc_end(&me->record, one->row, 0);\n", ""),
            ("    boc_start(&me->record, one->row);\n", "    boc_start(&me->record, one->row);\n    boc_end(&me->record, one->row, 0);\n"),
        ],
        "an end without a start": [("    boc_start(&me->record, one->row);\n", "    if (one->count == 0)\n        boc_start(&me->record, one->row);\n")],
    },
}

# Main's end stands before all that it spawns, so the first spawn is the fifth line.
KNOWN_LINES = {"a child without its parent": 5}

# What the rows and the cowns of each are called.
ROWS = {
    "philosophers.py": {"main", "think", "eat", "count"},
    "bank.rs": {"main", "day", "transfer", "audit"},
    "heat.c": {"main", "heat", "smooth", "report"},
}
COWNS = {"philosophers.py": {"fork", "eaten"}, "bank.rs": {"acct", "log", "total"}, "heat.c": {"cell"}}

# The cown that limits a long run of each, and how many rows such a run has at least here.
LIMITING = {"philosophers.py": "eaten", "bank.rs": "log", "heat.c": "log"}
LONG = 10000

# What `check` cannot see, as docs/RECORDING.md says: a record of a run, and others of the same run with one thing changed that are accepted too.
SEEN = "boc 2 2\n+ 0 0 0\n> 0\n+ 1 0 4 0\n+ 2 0 9 0 1\n< 0 12 0\n> 1\n+ 3 1 5 1\n< 1 20 0 0\n> 2\n< 2 20 0 0 1\n> 3\n< 3 8 0 1\n.\n"
UNSEEN = [
    ("a cown that the spawn does not list", "+ 2 0 9 0 1\n", "+ 2 0 9 0\n", "< 2 20 0 0 1\n", "< 2 20 0 0\n"),
    ("wrong ticks", "< 1 20 0 0\n", "< 1 7 0 0\n"),
    ("a wrong offset", "+ 3 1 5 1\n", "+ 3 1 17 1\n"),
    ("wrong cowns written", "< 2 20 0 0 1\n", "< 2 20 0\n"),
    ("a behaviour that was never numbered", "+ 3 1 5 1\n", "", "> 3\n", "", "< 3 8 0 1\n", ""),
]
# While two rows run that share no cown, either may be the parent.
TWO_PARENTS = "boc 2 2\n+ 0 0 0\n> 0\n+ 1 0 4 0\n> 1\n+ 2 {} 9 1\n< 1 20 0 0\n< 0 12 0\n> 2\n< 2 8 0 1\n.\n"

PIECE = re.compile(r"^```\n(boc 2 .*?)^```\n\n`boc check` prints `(boc: line \d+: \d+ \w+)`", re.DOTALL | re.MULTILINE)


def cases(program):
    pieces = PIECE.findall(text_of(GUIDE))
    yield "the guide has its five mistakes", None if len(pieces) == 5 else f"{len(pieces)} are found"
    for text, line in pieces:
        yield f"the guide: {line}", fault_of_refusal(line, program.run(["check"], text.encode()))
    for name, text in unseen():
        yield f"not seen: {name}", fault_of(done(b"ok %d\n" % text.count("+")), program.run(["check"], text.encode()))
    with tempfile.TemporaryDirectory() as folder:
        for name, plants in PLANTS.items():
            lacks = lacking(name, folder)
            if lacks:
                print(f"note: examples/runtimes/{name} was not tried, since there is no {lacks} that builds", flush=True)
                continue
            yield from of_runtime(program, name, folder)
            yield f"{name}: which mistakes are planted", None if plants.keys() == MISTAKES.keys() else str(sorted(plants))
            for mistake, changes in plants.items():
                yield f"{name}: {mistake}", fault_of_plant(program, name, mistake, changes, folder)


def unseen():
    """The records in which `check` finds nothing, each with what is wrong with its run."""
    yield "nothing is wrong", SEEN
    for name, *changes in UNSEEN:
        text = SEEN
        for old, new in zip(changes[::2], changes[1::2]):
            text = text.replace(old, new)
        yield name, text
    for parent in (0, 1):
        yield f"the parent is {parent}", TWO_PARENTS.format(parent)


def beginning(record, count):
    """The record of the first rows, so many: spawns of others are not logged, and neither are their starts and ends."""
    lines = [line for line in record.decode().splitlines() if line[0] not in "+><" or int(line.split()[1]) < count]
    return "".join(f"{line}\n" for line in lines).encode()


def window(record, first, after):
    """The record of the rows from one on and before another one: a row 0 of its own stands for all before, and spawns what they would have spawned."""
    head, *lines, _ = record.decode().splitlines()
    text, offset = [head, "+ 0 0 0", "> 0"], 0
    for sign, row, *rest in (line.split() for line in lines):
        if first <= int(row) < after:
            if sign == "+" and int(rest[0]) < first:
                offset += 1
                rest[:2] = ["0", str(offset)]
            elif sign == "+":
                rest[0] = str(int(rest[0]) - first + 1)
            text.append(" ".join([sign, str(int(row) - first + 1), *rest]))
    return "".join(f"{line}\n" for line in [*text, f"< 0 {max(1, offset)} 0", "."]).encode()


def fault_of_parts(program, record):
    """The first rows of a record are a record, and so are those of a window."""
    rows = read_record(record)
    for first in range(1, rows, 5):
        for part, count in ((beginning(record, first), first), (window(record, first, rows), rows - first + 1), (window(record, 1, first + 1), first + 1)):
            fault = fault_of(done(b"ok %d\n" % count), program.run(["check"], part))
            if fault or read_record(part) != count:
                return f"from row {first}: {fault}"
    return None


def fault_of_refusal(line, answer):
    """A record is refused by this line; what may stand below it is no matter here."""
    if answer is not None:
        answer = dataclasses.replace(answer, errors=b"".join(answer.errors.splitlines(keepends=True)[:1]))
    return fault_of(refused(3, line), answer)


def text_of(path):
    with open(path, encoding="utf-8") as file:
        return file.read()


def c_compiler():
    """The first compiler of C here, or none."""
    return next(filter(None, map(shutil.which, ("cc", "gcc", "clang"))), None)


def lacking(name, folder):
    """What is lacking to build a program of this name, or None."""
    small = {".rs": ("rustc", "fn main() {}"), ".c": ("C compiler", "#include <pthread.h>\nint main(void) { return 0; }")}
    compiler, source = small.get(os.path.splitext(name)[1], (None, ""))
    if compiler is None:
        return None
    try:
        output_of(command_of("small" + os.path.splitext(name)[1], source, folder))
    except Failed:
        return compiler
    return None


class Failed(Exception):
    """What went wrong when a runtime was built or run."""


def output_of(command, status=0, notes=False):
    """What a command prints, which ends with 0 or this status. It writes to standard error only if it may have notes, or does not end with 0."""
    try:
        run = subprocess.run(command, capture_output=True, timeout=SECONDS, check=False)
    except subprocess.TimeoutExpired:
        raise Failed("it did not end in time") from None
    except OSError as error:
        raise Failed(str(error)) from None
    if run.returncode not in (0, status) or run.stderr and not notes and run.returncode == 0:
        raise Failed(f"the status {run.returncode} and {run.stderr.decode(errors='replace')!r}")
    return run.stdout


def command_of(name, source, folder):
    """What runs a runtime of this source, which is built if that has to be done."""
    path, built = os.path.join(folder, name), os.path.join(folder, os.path.splitext(name)[0])
    with open(path, "w", encoding="utf-8") as file:
        file.write(source.replace("../../recorders", RECORDERS).replace('os.path.join(os.path.dirname(os.path.abspath(__file__)), "..", "..", "recorders")',
                                                                        repr(RECORDERS)))
    if name.endswith(".rs"):
        output_of(["rustc", "--edition", "2021", "-O", "-o", built, path])
    elif name.endswith(".c"):
        output_of([c_compiler() or "cc", "-std=gnu11", "-O2", "-pthread", "-Wall", "-Wextra", "-I", RECORDERS, "-o", built, path])
    else:
        return [sys.executable, path]
    return [built]


def of_runtime(program, name, folder):
    """Each of its runs has a record that is accepted, and the names of its rows and cowns."""
    try:
        command = command_of(name, text_of(os.path.join(FOLDER, name)), folder)
    except Failed as failed:
        yield f"{name}: its build", str(failed)
        return
    names = os.path.join(folder, "names")
    together, told = 0, set()
    for number in range(2 * RUNS):
        try:
            record = output_of([*command, str(THREADS), "--names", names, *["--audit"] * (number % 2)])
            together += has_two_at_once(record)
            yield f"{name}: the record of run {number}", fault_of(done(b"ok %d\n" % read_record(record)), program.run(["check"], record))
            yield f"{name}: the names of run {number}", fault_of_names(program, name, record, text_of(names), told)
            if number == 0:
                yield f"{name}: parts of a record", fault_of_parts(program, record)
        except (Failed, Refused) as wrong:
            yield f"{name}: run {number}", str(wrong)
    yield f"{name}: two at once", None if together else "no two behaviours were ever under way at once"
    for kind, wanted in [("rows", ROWS[name]), ("cowns", COWNS[name])]:
        yield f"{name}: {kind} that why told of by name", None if wanted & told else f"none of {sorted(wanted)}"
    try:
        yield f"{name}: a long run", fault_of_long(program, name, command, folder)
    except Failed as failed:
        yield f"{name}: a long run", str(failed)
    for threads in ([], ["1"], ["1", "--audit"], ["8"], ["8", "--audit"], ["16"]):
        try:
            record = output_of([*command, *threads])
            yield f"{name}: threads {threads}", fault_of(done(b"ok %d\n" % read_record(record)), program.run(["check"], record))
        except (Failed, Refused) as wrong:
            yield f"{name}: threads {threads}", str(wrong)


def fault_of_long(program, name, command, folder):
    """A long run has as many rows as are asked for, and of a window of it `why` says that without this cown a fifth of the span is saved."""
    names, made = os.path.join(folder, "long.names"), os.path.join(folder, "window.names")
    stream = output_of([*command, str(THREADS), "--long", str(LONG), "--names", names])
    if stream.count(b"\n+") < LONG:
        return f"its run has {stream.count(b'+')} rows"
    window = program.run(["cut", "--from", str(LONG // 2), "--rows", "5000", "--names", names, "--out-names", made], stream)
    if window.status or window.errors:
        return f"cut answers {window.status} and {window.errors}"
    fault = fault_of(done(b"ok %d\n" % read_record(window.output)), program.run(["check"], window.output))
    why = program.run(["why", "--typical", "--names", made], window.output)
    found = re.search(rb"^  without %s +(\d+) +(\d+)$" % LIMITING[name].encode(), why.output, re.MULTILINE)
    return fault or (None if found and 4 * int(found[2]) > int(found[1]) else f"why answers {why}")


def has_two_at_once(record):
    """Whether two behaviours were under way at once that are not main."""
    running, most = set(), 0
    for line in record.decode().splitlines():
        sign, *numbers = line.split()
        if sign in "<>" and numbers[0] != "0":
            (running.add if sign == ">" else running.discard)(numbers[0])
            most = max(most, len(running))
    return most > 1


def fault_of_names(program, name, record, names, told):
    """Each row and each cown has a line, and `why` calls each row of the chain as the file has it. The names that it tells are added to those told."""
    lines = [line.split(" ") for line in names.splitlines()]
    rows = {int(number): words for sign, number, *words in lines if sign == "="}
    cowns = [words[0] for sign, _, *words in lines if sign == "@"]
    if sorted(rows) != list(range(read_record(record))) or {words[0] for words in rows.values()} != ROWS[name]:
        return f"it names the rows {sorted(rows)}, and calls them {sorted({words[0] for words in rows.values()})}"
    if len(cowns) != int(record.split(maxsplit=3)[2]) or {cown.split("[")[0] for cown in cowns} != COWNS[name]:
        return f"it calls the cowns {cowns}"
    answer = program.run_beside(["why", "--all", "--quiet"], "--names", names.encode(), record)
    if answer is None or answer.status or answer.errors or answer.notes:
        return f"why answers {answer}"
    chain = chain_of(answer.output.decode())
    wrong = [(row, text) for row, text, _ in chain if text != called(rows[row])]
    if wrong or not chain or chain[0][0] != 0:
        return f"why tells {wrong or chain}"
    for row, _, then in chain:
        told.add(rows[row][0])
        if then.startswith("hands "):
            told.update(cown.split("[")[0] for cown in cowns if cown in then.split(" ")[1:])
    return None


def called(words):
    """What a row is called that has these words in the file."""
    return f"{words[0]}({', '.join(words[1:])})" if words[1:] else words[0]


def chain_of(text):
    """The rows of the chain that `why --all` tells, what it calls them, and what they do then."""
    head, *lines = text.split("\nchain\n")[1].splitlines()
    at, then = head.index("behaviour"), head.index("then")
    chain = []
    for line in lines:
        if not line[at:].strip():
            break
        chain.append((int(line[:at].split()[-1]), line[at:then].strip(), line[then:]))
    return chain


def fault_of_plant(program, name, mistake, changes, folder):
    """What is wrong with a planted copy is told in one of its runs, as an independent look at the record has it."""
    source, kind = text_of(os.path.join(FOLDER, name)), MISTAKES[mistake]
    for old, new in changes:
        if source.count(old) != 1:
            return f"{old!r} stands {source.count(old)} times in the source"
        source = source.replace(old, new)
    try:
        command = command_of(name, source, folder)
        for _ in range(RUNS):
            record = record_of(command, name, folder)
            try:
                read_record(record)
            except Refused as refusal:
                line, found = refusal.args
                if found == "Unended" != kind:
                    continue    # it hung before the mistake showed
                if found != kind or line != KNOWN_LINES.get(mistake, line):
                    return f"line {line} is {found} in place of {kind}"
                return fault_of_refusal(f"boc: line {line}: {NUMBERS[kind]} {kind}", program.run(["check"], record))
            fault = fault_of(done(b"ok %d\n" % read_record(record)), program.run(["check"], record))
            if fault:
                return fault
    except Failed as failed:
        return str(failed)
    return f"nothing was wrong with {RUNS} records"


def record_of(command, name, folder):
    """The record of a run in audit mode, also of one that hangs: heat.c leaves buffers then, and the others a record."""
    if not name.endswith(".c"):
        return output_of([*command, str(THREADS), "--audit"], 1, notes=True)
    buffers = os.path.join(folder, "buffers")
    record = output_of([*command, str(THREADS), "--audit", "--buffers", buffers], 1, notes=True)
    return record or output_of([sys.executable, os.path.join(RECORDERS, "boc_record.py"), buffers], notes=True)
