"""The words of the command line: calls for help, numbers of workers, cowns, edits, and words that are refused."""
import dataclasses
import os
import re
import tempfile

from .running import Answer, done, fault_of, refused
from .copies import view_of
from .worked import CURVE, GREEDY, PROFILE, SHORTER, SHORTER_GREEDY, WITHOUT_A

HELP = [["--help"], ["-h"], ["values", "--help"], ["check", "--help"], ["run", "--help"], ["profile", "--help"],
        ["time", "--help"], ["whatif", "--help"], ["curve", "--help"], ["sweep", "--help"], ["why", "--help"], ["cowns", "--help"], ["help"],
        ["help", "whatif"], ["why", "-h"]]

# An option with its text on one line, as short help has them.
SHORT_OPTION = re.compile(r" {2}(-\w, | {4})--[\w-]+( <\w+>)? {2,}\S.*")

TAKEN = [
    (["profile", "--p=2"], PROFILE + GREEDY),
    (["profile", "--p", "+2"], PROFILE + GREEDY),
    (["profile", "--p", "002"], PROFILE + GREEDY),
    (["profile", "--shared-reads", "--p", "2"], PROFILE + GREEDY),
    (["whatif", "--", "2=1"], SHORTER),
    (["whatif", "2=1", "--shared-reads"], SHORTER),
    (["whatif", "2=3", "--p", "2", "--", "2=1"], SHORTER + SHORTER_GREEDY),
    (["whatif", "--without=0"], WITHOUT_A),
    (["whatif", "--without", "+0"], WITHOUT_A),
    (["whatif", "--without", "000", "--without", "0"], WITHOUT_A),
    (["whatif", "2=1/1", "--without", "0", "--", "2@3"], WITHOUT_A),
    (["whatif", "2=1000/1000", "2=1/1000"], SHORTER),
    (["curve", "--p=+3", "--shared-reads"], CURVE),
    (["sweep", "--p", "002"], "0 9\n1 8\n2 7\n3 8\n"),
    (["sweep", "--p=+2", "--cowns"], "0 9\n1 7\n"),
    (["sweep", "--shared-reads", "--cowns"], "0 8\n1 7\n"),
    (["sweep", "--best", "2"], "2 7 2\n1 8 1\n"),
    (["sweep", "--best=4"], "2 7 2\n1 8 1\n3 8 1\n0 9 0\n"),
    (["sweep", "--best", "65535", "-"], "2 7 2\n1 8 1\n3 8 1\n0 9 0\n"),
    (["sweep", "--best", "1", "--cowns"], "1 7 2\n"),
    (["sweep", "--spawns", "--best", "3"], "1 8 1\n2 9 0\n3 9 0\n"),
    (["profile", "--no-plan"], PROFILE[: PROFILE.index("plan\n")]),
    (["profile", "-p", "2", "--no-plan"], PROFILE[: PROFILE.index("plan\n")] + "greedy 2\nend 9 bound 14\n"),
    (["profile", "-p2"], PROFILE + GREEDY),
    (["whatif", "2=1", "--no-plan"], SHORTER[: SHORTER.index("plan\n")]),
    # What says how a program is run is left aside where the input is a record.
    (["profile", "-w", "2"], PROFILE),
    (["profile", "--workers=16", "--seed", "3", "--depth", "2", "--p", "2"], PROFILE + GREEDY),
    (["profile", "--timed", "-"], PROFILE),
    (["whatif", "--timed", "-w", "3", "2=1"], SHORTER),
    (["curve", "--seed", "18446744073709551615", "--p", "3"], CURVE),
    (["sweep", "--timed", "--best", "1"], "2 7 2\n"),
]

# Words that ask for a run.
RUNS = [
    (["time"], PROFILE),
    (["time", "--workers", "1"], PROFILE),
    (["time", "--workers=16"], PROFILE),
    (["time", "--workers", "+4", "--p", "2"], PROFILE + GREEDY),
    (["time", "--p", "2", "--workers", "004"], PROFILE + GREEDY),
    (["time", "-p", "2", "-w", "4"], PROFILE + GREEDY),
    (["time", "-w16", "--no-plan"], PROFILE[: PROFILE.index("plan\n")]),
    (["time", "-"], PROFILE),
    (["profile"], PROFILE),
    (["profile", "-w", "4", "--p", "2"], PROFILE + GREEDY),
    (["profile", "--no-plan", "-"], PROFILE[: PROFILE.index("plan\n")]),
    (["curve", "--p", "3"], CURVE),
    (["sweep", "--p", "2"], "0 9\n1 8\n2 7\n3 8\n"),
    (["whatif", "2=1"], SHORTER),
]

REFUSED = [
    [],
    ["bogus"],
    ["Values"],
    ["--help=3"],
    ["--version=3"],
    ["values", "--version"],
    ["check", "-V"],
    ["values", "more", "more"],
    ["check", "more", "-"],
    ["sweep", "2=1", "2=1"],
    ["why", "--p", "0"],
    ["why", "--p", "65"],
    ["why", "--program", "a"],
    ["why", "--names", "a", "--record", "a"],
    ["why", "--workers", "17"],
    ["why", "--all", "--all"],
    ["why", "--all=1"],
    ["why", "2", "3"],
    ["sweep", "--p", "0"],
    ["sweep", "--p", "65"],
    ["sweep", "--cowns", "--spawns"],
    ["sweep", "--spawns", "--cowns"],
    ["sweep", "--spawns", "--p", "2"],
    ["sweep", "--p", "2", "--cowns", "--spawns"],
    ["sweep", "--spawns", "--p", "65"],
    ["sweep", "--cowns", "--cowns"],
    ["sweep", "--spawns", "--spawns"],
    ["sweep", "--cowns=1"],
    ["sweep", "--cowns", "0", "1"],
    ["sweep", "--best"],
    ["sweep", "--best", "0"],
    ["sweep", "--best", "65536"],
    ["sweep", "--best", "1", "--best", "1"],
    ["sweep", "--best", "two"],
    ["sweep", "-b", "2"],
    ["profile", "--best", "2"],
    ["sweep", "--no-plan"],
    ["profile", "--no-plan", "--no-plan"],
    ["profile", "--no-plan=1"],
    ["run", "--no-plan"],
    ["profile", "-p"],
    ["profile", "-p", "0"],
    ["profile", "-p65"],
    ["profile", "-p", "2", "--p", "2"],
    ["profile", "-w", "17"],
    ["profile", "--depth", "2"],
    ["profile", "--seed", "2", "--timed"],
    ["profile", "--record", "a", "--record", "b"],
    ["run", "-w", "17"],
    ["run", "-p", "2"],
    ["sweep", "--cown"],
    ["sweep", "--without", "0"],
    ["profile", "--cowns"],
    ["profile", "--without", "0"],
    ["curve", "--spawns"],
    ["check", "--without", "0"],
    ["time", "--without", "0"],
    ["whatif", "--cowns"],
    ["whatif", "--spawns"],
    ["whatif", "--without"],
    ["whatif", "--without", "-1"],
    ["whatif", "--without", b"1\xff"],
    ["sweep", "--early", "main"],
    ["why", "--early", "main"],
    ["whatif", "--early"],
    ["whatif", "--early", "-1"],
    ["whatif", "--early", b"f\xff"],
    ["whatif", "--program"],
    ["whatif", "--program", "a", "--names", "b"],
    ["whatif", "--names", "a", "--names", "a"],
    ["whatif", "--record", "a", "--names", "b"],
    ["whatif", "--record", "a", "--program", "b"],
    ["whatif", "--record", "a", "--record", "b"],
    ["whatif", "--depth", "2"],
    ["whatif", "--timed", "--seed", "1"],
    ["whatif", "x=", "--depth", "2"],
    ["whatif", "--short", "--short"],
    # A second file is told before an edit that is misspelt.
    ["whatif", "x=", "--program", "a", "--names", "b"],
    ["cowns", "--top", "0"],
    ["cowns", "--top", "257"],
    ["cowns", "--top", "1", "--top", "1"],
    ["cowns", "--all"],
    ["cowns", "--then", "2"],
    ["cowns", "-p", "2", "--p", "2"],
    ["cowns", "--p"],
    ["cowns", "--p", "2", "--timed", "--seed", "1"],
    ["why", "--then", "2", "--then", "2"],
    ["why", "--then", "2", "--timed", "--seed", "1"],
    ["why", "--then", "2", "--depth", "3"],
    ["why", "--then", "2", "--record", "a", "--names", "b"],
    ["why", "--then", "2", "--top", "3"],
    ["why", "--then", "2", "--short"],
    ["why", "--then", "2", "--program", "a"],
    ["sweep", "--then", "2"],
    ["curve", "--then", "2"],
    ["whatif", "--then", "2"],
    ["profile", "--then", "2"],
    ["time", "--then", "2"],
    ["cowns", "--record", "a", "--names", "b"],
    ["cowns", "a", "b"],
    ["values", "--record"],
    ["values", "--record", "a", "--record", "b"],
    ["values", "--names", "a"],
    ["check", "--program", "a", "--program", "a"],
    ["check", "--record", "a"],
    ["sweep", "--names", "a", "--record", "b"],
    ["sweep", "--names", "a", "--names", "a"],
    ["sweep", "--program", "a"],
    ["sweep", "--depth", "2"],
    ["sweep", "--spawns", "--timed", "--seed", "2"],
    ["profile", "--names", "a"],
    ["curve", "--names", "a"],
    ["curve", "--program", "a"],
    ["curve", "--record", "a", "--record", "b"],
    ["curve", "--seed", "1", "--timed"],
    ["curve", "--depth", "1"],
    ["curve", "--p", "0"],
    ["curve", "--p", "65"],
    ["curve", "2=1", "2=1"],
    ["curve", "--workers", "0"],
    ["profile", "2=1", "-"],
    ["values", "--p", "2"],
    ["profile", "--p"],
    ["profile", "--p", "0"],
    ["profile", "--p", "65"],
    ["profile", "--p", "two"],
    ["profile", "--p", ""],
    ["profile", "--p", "2", "--p", "2"],
    ["profile", "--q", "2"],
    ["profile", "--workers", "two"],
    ["profile", "--shared-reads", "--shared-reads"],
    ["profile", "--shared-reads=true"],
    ["sweep", "--shared"],
    ["check", "--shared-reads"],
    ["values", "--shared-reads"],
    ["run", "--shared-reads"],
    ["values", "--workers", "2"],
    ["run", "more", "more"],
    ["run", "--p", "2"],
    ["run", "--workers"],
    ["run", "--workers", "0"],
    ["run", "--workers", "17"],
    ["run", "--workers", "two"],
    ["run", "--workers", "2", "--workers", "2"],
    ["time", "--workers", "17"],
    ["time", "--p", "65"],
    ["outcomes", "--all", "--runs", "2"],
    ["outcomes", "--all", "--end", "0"],
    ["outcomes", "--most", "5"],
    ["whatif", "-1=2"],
    ["whatif", "--p", "0", "2=1"],
    ["whatif", "--p", "65", "2=01"],
    ["check", "record", "record"],
    ["profile", "2", "--", "3"],
    # Words that don't look like edits are files, and the input is read from one at the most.
    ["whatif", "x", "y"],
    ["whatif", "-", "-"],
    ["whatif", "2=1", "x", "0=0", "y", "2="],
    [b"values\xff"],
    ["whatif", b"2=1\xff"],
    [b"\xff"],
]

# Edits that are none, and the number of the first.
MISSPELT = [
    (["2=01", "0=0"], 1),
    (["--", "-1=2"], 1),
    (["2=01"], 1),
    (["2="], 1),
    (["=2"], 1),
    (["a=1"], 1),
    (["2=1 "], 1),
    ([" 2=1"], 1),
    (["+2=1"], 1),
    (["2==1"], 1),
    (["2=1=1"], 1),
    (["02=1"], 1),
    (["2=4294967296"], 1),
    (["4294967296=2"], 1),
    (["2=1", "3=x"], 2),
    (["9=1", "3=x", "y"], 2),
    # The file is no edit, and is not opened before all edits are spelt.
    (["no file", "2=1", "x="], 2),
    (["2=1", "-", "--p", "2", "2=1", "x=", "y="], 3),
    (["--", "-1=2"], 1),
    (["2@"], 1),
    (["@2"], 1),
    (["2@03"], 1),
    (["02@3"], 1),
    (["2@+3"], 1),
    (["2@@3"], 1),
    (["2@3@3"], 1),
    (["2=1@3"], 1),
    (["2@3=1"], 1),
    (["2@1/2"], 1),
    (["2@4294967296"], 1),
    (["4294967296@2"], 1),
    (["2=/2"], 1),
    (["2=1/"], 1),
    (["2=/"], 1),
    (["2/1=2"], 1),
    (["2=1/2/3"], 1),
    (["2=01/2"], 1),
    (["2=1/02"], 1),
    (["2=+1/2"], 1),
    (["2=1/ 2"], 1),
    (["02=1/2"], 1),
    (["2=0/1"], 1),
    (["2=1/0"], 1),
    (["2=0/0"], 1),
    (["2=1001/1"], 1),
    (["2=1/1001"], 1),
    (["2=4294967297/1"], 1),
    (["2=0.5"], 1),
    (["2@3", "2=1/2", "2:1="], 3),
    # The spelling is judged before the record, and before cowns and edits that it doesn't fit.
    (["--without", "9", "9=1", "x="], 2),
    (["--early", "nothing", "9=1", "x="], 2),
    (["x=", "--without", "4294967295"], 1),
    (["x@", "--without", "0", "--without", "b"], 1),
    (["=1/2"], 1),
    (["4294967296=1/2"], 1),
    (["a=b=2"], 1),
    (["a=2"], 1),
    (["a@2"], 1),
]

# Texts that name no cown of the record, which has the cowns 0 and 1.
NO_COWNS = ["", "a", "-1", "4294967296", "0,1", "1.0", " 1", "1=1", "cown", "cown 2", "cown 0[*]", "2"]

MISSPELT_TEXT = b"boc: edit %d: not ROW=TICKS\n     an edit is ROW=TICKS, ROW@OFFSET, ROW=K/D or DEF=K/D\n"

# A word with bytes by which a terminal sets its title, goes on elsewhere or begins a line, and how it is told: each such byte, and each of a letter that
# isn't ASCII, as a `?`.
RAW = "\033]0;x\007\r\n\x7f\t\u00e9\U0001f600"
PRINTED = "?]0;x" + "?" * 11

# Words with such a word, what the first line on standard error has of it, and the status. `whatif` takes a word with an `=` or an `@` for an edit.
TOLD = [
    (["RAW"], "unrecognized subcommand 'PRINTED'", 2),
    (["values", "--RAW"], "unexpected argument '--PRINTED'", 2),
    (["run", "--seed", "RAW"], "invalid value 'PRINTED'", 2),
    (["profile", "-pRAW"], "invalid value 'PRINTED'", 2),
    (["why", "--then", "RAW"], "invalid value 'PRINTED'", 2),
    (["cowns", "-p", "RAW"], "invalid value 'PRINTED'", 2),
    (["why", "--then", "0"], "error: invalid value '0' for '--then <K>': 0 is not in 1..=5", 2),
    (["why", "--then", "6"], "error: invalid value '6' for '--then <K>': 6 is not in 1..=5", 2),
    (["why", "--then=-1"], "error: invalid value '-1' for '--then <K>': -1 is not in 1..=5", 2),
    (["why", "--then", "4294967297"], "error: invalid value '4294967297' for '--then <K>': 4294967297 is not in 1..=5", 2),
    (["why", "--then", "x"], "error: invalid value 'x' for '--then <K>': invalid digit found in string", 2),
    (["why", "--then"], "error: a value is required for '--then <K>' but none was supplied", 2),
    (["why", "--then", "2", "--then", "2"], "error: the argument '--then <K>' cannot be used multiple times", 2),
    (["cowns", "-p", "0"], "error: invalid value '0' for '--p <P>': 0 is not in 1..=64", 2),
    (["cowns", "-p", "65"], "error: invalid value '65' for '--p <P>': 65 is not in 1..=64", 2),
    (["cowns", "--then", "2"], "error: unexpected argument '--then' found", 2),
    (["check", "RAW"], "boc: PRINTED: No such file or directory (os error 2)", 5),
    (["whatif", "RAW"], "boc: PRINTED: No such file or directory (os error 2)", 5),
    (["why", "--names", "RAW"], "boc: PRINTED: No such file or directory (os error 2)", 5),
    (["whatif", "RAW=1"], "boc: edit 1: not ROW=TICKS", 2),
    (["whatif", "RAW=1/0"], "boc: edit 1: not ROW=TICKS", 2),
    (["whatif", "RAW=1/2"], "boc: edit 1: 7 NoDef", 3),
    (["whatif", "--without", "RAW"], "boc: without 1: 6 NoCown", 3),
]
TOLD_BY_VIEW = [
    (["RAW"], "unrecognized subcommand 'PRINTED'", 2),
    (["text", "--width", "RAW"], "invalid value 'PRINTED'", 2),
    (["text", "RAW"], "boc-view: PRINTED: No such file or directory (os error 2)", 5),
    (["plan", "--record", "RAW"], "boc-view: PRINTED: No such file or directory (os error 2)", 5),
]


def cases(program):
    record = program.example("transfer.record")
    for words in HELP:
        yield f"help by {words}", fault_of_help(program.run(words, record))
    for command in commands_in(program.run(["--help"], b"").output.decode()):
        whole = program.run(["help", command], b"").output.decode()
        yield f"what help says of the input of {command}", fault_of_input(whole)
        yield f"short help of {command}", fault_of_short_help(program.run([command, "-h"], b"").output.decode(), whole)
    for words, text in TAKEN:
        yield f"taken {words}", fault_of(done(text.encode()), program.run(words, record))
    for words, text in RUNS:
        answer = program.run(words, program.example("transfer.boc"))
        yield f"taken {words}", fault_of(done(text.encode()), answer)
    for words in REFUSED:
        yield f"refused {words}", fault_of_refusal(program.run(words, record))
    for text in NO_COWNS:
        yield f"no cown {text!r}", fault_of(refused(3, "boc: without 1: 6 NoCown"), program.run(["whatif", f"--without={text}"], record))
    yield "a cown by its name", fault_of(program.run(["whatif", "--without", "0"], record), program.run(["whatif", "--without", "cown 0"], record))
    for edits, number in MISSPELT:
        expected = Answer(2, b"", MISSPELT_TEXT % number)
        for source in (record, b"no record"):
            answer = program.run(["whatif", *edits], source)
            yield f"misspelt {edits}", fault_of(expected, answer)
    for asked, told in [(program, TOLD), (view_of(program), TOLD_BY_VIEW)]:
        for words, line, status in told:
            answer = asked.run([word.replace("RAW", RAW) for word in words], record)
            yield f"told {os.path.basename(asked.path)} {words}", fault_of_told(answer, line.replace("PRINTED", PRINTED), status)
    with tempfile.TemporaryDirectory() as folder:
        path = os.path.join(folder, RAW)
        with open(path, "wb") as file:
            file.write(record)
        yield "a file with such a name is read", fault_of(done(b"ok 4\n"), program.run(["check", path]))


def fault_of_told(answer, line, status):
    """What is wrong where words are refused by this line, or one that has it, and all that is told is printed."""
    if answer is None or answer.status != status:
        return f"the answer {answer}"
    raw = [byte for byte in answer.errors if not (byte == 10 or 32 <= byte < 127)]
    if raw:
        return f"the bytes {raw} in {answer.errors!r}"
    first = answer.errors.decode().split("\n")[0]
    return None if line in first else f"it told {first!r} in place of {line!r}"


def commands_in(text):
    """The commands that a text of help names, but help itself."""
    lines = text[text.index("Commands:\n"):].split("\n\n")[0].split("\n")[1:]
    return [line.split()[0] for line in lines if line.split()[0] != "help"]


def fault_of_input(text):
    """The help of a command says that its input comes from FILE or from standard input, and has an example."""
    lacking = [word for word in ("FILE", "standard input", "Example") if word not in text]
    return f"it has no {lacking[0]!r}" if lacking else None


def fault_of_short_help(short, whole):
    """Short help of a command has its usage and a line for each option, and names the whole help, which begins with the place of the terms."""
    heads = [part.splitlines()[0] for part in short.split("\n\n")]
    if len(heads) != 4 or not heads[1].startswith("Usage: boc ") or heads[2:] != ["Arguments:", "Options:"]:
        return f"its parts are {heads}"
    strange = [line for line in short.partition("Options:\n")[2].splitlines() if not SHORT_OPTION.fullmatch(line)]
    if strange or "(see more with '--help')" not in short:
        return f"it doesn't name the whole help, or has the lines {strange}"
    return None if whole.startswith(f"{heads[0]}\n\nTerms (cown, row, tick, ..): boc --help\n\n{heads[1]}\n") else f"the whole help begins {whole[:200]!r}"


def fault_of_help(answer):
    """A call for help prints a text on standard output, and has the status 0."""
    if answer is not None and answer.output.strip():
        answer = dataclasses.replace(answer, output=b"")
        return fault_of(done(b""), answer)
    return "no text was printed"


def fault_of_refusal(answer):
    """Words that are refused have the status 2, and a text of the parser's own on standard error."""
    if answer is not None and answer.errors.strip():
        answer = dataclasses.replace(answer, errors=b"")
        return fault_of(Answer(2, b"", b""), answer)
    return "no text was printed"
