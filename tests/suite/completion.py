"""Completions and man pages: they are what bin/pages makes of its table, the table says what help says, and shells and man take them.

The shells and man are brought by the packages of Debian where they can be had.
"""
import contextlib
import dataclasses
import itertools
import os
import pty
import re
import shutil
import signal
import subprocess
import tempfile
import threading
import time
from typing import NamedTuple

from .copies import TOP, view_of

import pages

FOLDER = os.path.join(TOP, "completions")

PROGRAMS = ("boc", "boc-view")

# What is tried, and the package of each.
PACKAGES = {"bash": "bash", "zsh": "zsh", "fish": "fish", "man": "man-db"}
BASH_COMPLETION = "/usr/share/bash-completion/bash_completion"

# How long the packages may take, and how long an answer.
PACKAGE_SECONDS = 300
SECONDS = 30

# What is in the folder in which files are completed.
FILES = {"a.boc", "folder", "run.record"}

OPTION = re.compile(r"(?<![\w-])--?[A-Za-z][a-z-]*")
HELP_OPTION = re.compile(r"^ {2,6}(?:(-\w), )?(--[\w-]+)(?: <(\w+)>)?  +(\S.*)$")


class Help(NamedTuple):
    """What help says of a command: its line, its options and its operands."""
    line: str
    said: list
    operands: set

    @property
    def options(self):
        """What each option takes, if anything, by its name and by its letter."""
        return {form: option.value for option in self.said for form in option.forms()}


# What help says.

def text_of(path):
    with open(path, encoding="utf-8") as file:
        return file.read()


def section(text, head):
    """The lines below a head of help, up to an empty one."""
    found = re.search(rf"^{head}:\n((?:.+\n)+)", text + "\n", re.MULTILINE)
    return found.group(1).splitlines() if found else []


def helps_of(program):
    """The short help of each command by its name, and that of the program by none."""
    whole = program.run(["-h"]).output.decode()
    helps = {"": help_in(whole)}
    for line in section(whole, "Commands"):
        name = line.split()[0]
        helps[name] = help_in(program.run([name, "-h"] if name != "help" else ["help", name]).output.decode())
    return helps


def help_in(text):
    said = [pages.Option(*(it or "" for it in found.groups())) for found in map(HELP_OPTION.match, section(text, "Options")) if found]
    usage = re.search(r"^Usage: (.*)$", text, re.MULTILINE).group(1)
    words = {word for found in re.findall(r"\[([^\]]*)\]", usage) for word in found.split("|")} | set(re.findall(r"<(BEFORE|AFTER)>", usage))
    return Help(text.partition("\n")[0], said, words - {"OPTIONS"})


# What the table and the files say.

def of_table(program, table, helps):
    """The table names what help names, by the same lines where these are not the parser's own."""
    names = [it.name for it in table.commands]
    yield f"{table.called}: the commands of the table", None if names == [it for it in helps if it] else f"{names} in place of {list(helps)}"
    for command in [table.top, *(it for it in table.commands if it.name in helps)]:
        told, found = helps[command.name], {plain(it) for it in command.offered}
        differing = [found ^ {plain(it) for it in told.said}, set(command.operands) ^ told.operands, {command.line} - {told.line, "Print help"}]
        yield f"{table.called} {command.name}: the table", f"it differs from help in {differing}" if any(differing) else None
        yield f"{table.called} {command.name}: options that exclude each other", fault_of_excluded(program, command)


def plain(option):
    return dataclasses.replace(option, line="") if option.name in pages.ALONE else option


def fault_of_excluded(program, command):
    """Two options that no usage has together are refused together, and no others."""
    for one, other in itertools.combinations([it for it in command.options if it.name not in pages.ALONE], 2):
        words = [command.name, *given(one), *given(other), *("a.boc" for it in command.operands if it in ("BEFORE", "AFTER"))]
        is_refused = b"cannot be used with '" in program.run(words).errors
        if is_refused != (other in command.excluded(one)):
            return f"{words} are {'' if is_refused else 'not '}refused"
    return None


def given(option):
    """An option with a number that it takes, or with a file that isn't there; a depth with a seed, and what is about a search with it."""
    if option.name == "--depth":
        return ["--seed", "2", "--depth", "2"]
    if option.name in ("--most", "--end"):
        return ["--all", option.name, "2"]
    return [option.name, "40" if option.value == "COLUMNS" else "2"] if option.value else [option.name]


def of_files(helps):
    """Each file is what bin/pages makes, and names each option of help; a man page does so twice."""
    for name, text in pages.made(TOP).items():
        yield f"{name} and bin/pages", None if text_of(os.path.join(TOP, name)) == text else "it is not what bin/pages writes: run that"
        called = max((it for it in PROGRAMS if it in name), key=len)
        every = {option for it in helps[called].values() for option in it.options}
        for part in re.findall(r"^\.SH (?:SYNOPSIS|OPTIONS)\n((?:(?!\.SH ).*\n)*)", text, re.MULTILINE) or [text]:
            # In a man page hyphens have a backslash, and in fish an option is `-s o -l option`.
            words = re.sub(r"-s (?=\w )", "-", re.sub(r"-l (?=[a-z])", "--", re.sub(r"\\f.", "", part).replace("\\-", "-")))
            lacking = every - set(OPTION.findall(words))
            yield f"{name}: the options of help", f"it lacks {sorted(lacking)}" if lacking else None


# The shells.

class Wanted(NamedTuple):
    """A line before the cursor, and what it may be completed to. fish has files behind any equals sign, and options behind any dash: it is not asked there."""
    line: str
    words: set
    is_for_fish: bool = True


def questions(called, helps):
    commands = set(helps) - {""}
    yield Wanted(f"{called} ", commands)
    yield Wanted(f"{called} help ", commands)
    for begun in sorted({it[0] for it in commands}):
        yield Wanted(f"{called} {begun}", {it for it in commands if it.startswith(begun)})
    yield Wanted(f"{called} what is ", set())
    if "whatif" in commands:
        yield Wanted(f"{called} whatif 2=", set(), is_for_fish=False)
        yield Wanted(f"{called} whatif 2=1 ", FILES)
    for name, entry in helps.items():
        before = f"{called} {name} " if name else f"{called} "
        options = set(entry.options)
        if options:
            yield Wanted(before + "-", options)
            yield Wanted(before + "--", {it for it in options if it.startswith("--")})
        if "FILE" in entry.operands:
            yield Wanted(before, FILES)
            yield Wanted(before + "run", {"run.record"})
        for option, value in entry.options.items():
            if value:
                files = FILES if value == "FILE" else set()
                yield Wanted(f"{before}{option} ", files)
                yield Wanted(f"{before}{option} -", set(), is_for_fish=False)
                if option.startswith("--"):
                    yield Wanted(f"{before}{option}=", files)
        if "FILE" in entry.operands:
            yield from (Wanted(f"{before}{option} 1 ", FILES) for option, value in entry.options.items() if value and value != "FILE")


def ask_bash(paths, lines, folder):
    """What bash has for each line. It splits a line at equals signs too."""
    script = [*(f"source {it}" for it in paths), 'ask() { found=$(complete -p "$1"); found=${found#*-F }; found=${found%% *}',
              'COMP_WORDS=("$@"); COMP_CWORD=$(($# - 1)); COMPREPLY=(); "$found"; printf "%s\\n" "${COMPREPLY[@]}" .; }']
    for line in lines:
        words = re.findall(r"=|[^\s=]+", line) + ([""] if line[-1] in " =" else [])
        script.append("ask " + " ".join(f"'{word}'" for word in words))
    return shell(["bash", "--norc", "-c", "\n".join(script)], folder)


def ask_fish(paths, lines, folder):
    script = [f"source {it}" for it in paths]
    script += [f"complete -C '{line}' | string replace -r '\\t.*' ''; echo ." for line in lines]
    answers = shell(["fish", "--no-config", "-c", "\n".join(script)], folder)
    # What stands behind an equals sign is told with what stands before it.
    return [{word.partition("=")[2] if line.endswith("=") else word for word in words} for line, words in zip(lines, answers)]


def shell(command, folder):
    """The answers that a shell prints, each of which ends by a point."""
    environment = {"PATH": os.environ["PATH"], "HOME": folder, "LC_ALL": "C.UTF-8"}
    run = subprocess.run(command, cwd=os.path.join(folder, "files"), env=environment, capture_output=True, timeout=SECONDS, check=False)
    if run.stderr:
        raise Failed(run.stderr.decode(errors="replace"))
    answers = run.stdout.decode().split(".\n")[:-1]
    return [{word.rstrip("/") for word in answer.splitlines() if word} for answer in answers]


class Failed(Exception):
    """What a shell said in place of answers."""


# What zsh is told when it begins: the words that completions add are written to a file, and so is a point where one is over.
ZSH = r"""
PROMPT= RPROMPT=
fpath=(%s $fpath)
autoload -U compinit
compinit -u -D
zstyle ':completion:*' insert-tab false
compadd() {
    if [[ ${@[1,(i)(-|--)]} == *-(O|A|D)\ * ]]; then
        builtin compadd "$@"
        return
    fi
    local -a found
    builtin compadd -A found "$@"
    (( $#found )) && print -rl -- $found >> $FOUND
    return 0
}
ask() {
    zle complete-word
    print -r -- . >> $FOUND
    BUFFER=
}
zle -N ask
bindkey '^I' ask
print -r -- . >> $FOUND
"""


def ask_zsh(paths, lines, folder):
    """What zsh has for each line. It completes on a terminal alone."""
    found = os.path.join(folder, "found")
    with open(os.path.join(folder, ".zshrc"), "w", encoding="utf-8") as file:
        file.write(ZSH % os.path.dirname(paths[0]))
    with open(found, "wb"):
        pass
    environment = {"PATH": os.environ["PATH"], "HOME": folder, "ZDOTDIR": folder, "FOUND": found, "TERM": "vt100", "LC_ALL": "C.UTF-8"}
    child, terminal = pty.fork()
    if child == 0:
        os.chdir(os.path.join(folder, "files"))
        os.execvpe("zsh", ["zsh", "-d", "-i"], environment)
    threading.Thread(target=drain, args=[terminal], daemon=True).start()
    try:
        points_in(found, 1)
        for number, line in enumerate(lines):
            os.write(terminal, line.encode() + b"\t")
            points_in(found, number + 2)
    finally:
        os.kill(child, signal.SIGKILL)
        os.waitpid(child, 0)
    answers = text_of(found).split(".\n")[1:-1]
    return [{word.rstrip("/") for word in answer.splitlines()} for answer in answers]


def drain(terminal):
    with contextlib.suppress(OSError):
        while os.read(terminal, 4096):
            pass


def points_in(path, count):
    """Waits until a file has so many lines that are a point."""
    end = time.monotonic() + SECONDS
    while text_of(path).split("\n").count(".") < count:
        if time.monotonic() > end:
            raise Failed("it did not answer in time")
        time.sleep(0.002)


# What a shell calls its file for a program, and what asks it.
SHELLS = {"bash": ("{}.bash", ask_bash), "zsh": ("_{}", ask_zsh), "fish": ("{}.fish", ask_fish)}


def path_of(name, called):
    return os.path.join(FOLDER, SHELLS[name][0].format(called))


def install_packages():
    """Whatever is missing is taken from Debian's packages, where that can be done."""
    missing = [package for name, package in PACKAGES.items() if not shutil.which(name)]
    missing += [] if os.path.exists(BASH_COMPLETION) else ["bash-completion"]
    if missing and os.geteuid() == 0 and shutil.which("apt-get"):
        with contextlib.suppress(subprocess.TimeoutExpired):
            for command in (["apt-get", "update", "-qq"], ["apt-get", "install", "-y", "-qq", "--no-install-recommends", *missing]):
                subprocess.run(command, capture_output=True, timeout=PACKAGE_SECONDS, check=False, env={**os.environ, "DEBIAN_FRONTEND": "noninteractive"})


def cases(program):
    programs = dict(zip(PROGRAMS, [program, view_of(program)]))
    helps = {called: helps_of(it) for called, it in programs.items()}
    for called in pages.read_programs(TOP):
        yield from of_table(programs[called.called], called, helps[called.called])
    yield from of_files(helps)
    install_packages()
    for name in SHELLS:
        if shutil.which(name):
            yield from of_shell(name, [it for called in PROGRAMS for it in questions(called, helps[called]) if name != "fish" or it.is_for_fish])
        else:
            print(f"note: the completion of {name} was not tried, since there is no {name} and its package can't be had", flush=True)
    yield from of_bash_completion()
    if shutil.which("man"):
        yield from of_pages()
    else:
        print("note: no man page was formatted, since there is no man and its package can't be had", flush=True)


def of_shell(name, wanted):
    """What a shell answers that has read the files of both programs: it keeps the functions of all of them, so no two may be called the same."""
    with tempfile.TemporaryDirectory() as folder:
        make_files(folder)
        try:
            answers = SHELLS[name][1]([path_of(name, called) for called in PROGRAMS], [it.line for it in wanted], folder)
        except (Failed, subprocess.TimeoutExpired) as failed:
            yield name, str(failed)
            return
    yield f"{name}: answers", None if len(answers) == len(wanted) else f"{len(answers)} in place of {len(wanted)}"
    for (line, words, _), found in zip(wanted, answers):
        yield f"{name}: {line!r}", None if found == words else f"it lacks {sorted(words - found)} and has {sorted(found - words)} more"


def make_files(folder):
    os.mkdir(os.path.join(folder, "files"))
    for name in FILES - {"folder"}:
        with open(os.path.join(folder, "files", name), "wb"):
            pass
    os.mkdir(os.path.join(folder, "files", "folder"))


def of_bash_completion():
    """Where they are put into PREFIX/share, bash finds them by itself."""
    if not shutil.which("bash") or not os.path.exists(BASH_COMPLETION):
        print("note: bash was not asked to find its completions, since there is no bash-completion and its package can't be had", flush=True)
        return
    with tempfile.TemporaryDirectory() as folder:
        os.makedirs(os.path.join(folder, "bash-completion", "completions"))
        for called in PROGRAMS:
            shutil.copy(path_of("bash", called), os.path.join(folder, "bash-completion", "completions", called))
        environment = {"PATH": os.environ["PATH"], "HOME": folder, "XDG_DATA_HOME": folder}
        for called in PROGRAMS:
            script = f"source {BASH_COMPLETION}; _completion_loader {called}; complete -p {called}"
            run = subprocess.run(["bash", "--norc", "-c", script], env=environment, capture_output=True, timeout=SECONDS, check=False)
            wanted = f"complete -F _{called.replace('-', '_')} {called}\n"
            yield f"bash finds that of {called}", None if run.stdout.decode() == wanted else f"it says {run}"


def of_pages():
    """man formats each page without a warning, in a narrow window and in a wide one."""
    for name in (f"{called}.1" for called in PROGRAMS):
        for width in ("60", "80", "160"):
            environment = {**os.environ, "MANWIDTH": width, "LC_ALL": "C.UTF-8", "MANPAGER": "cat"}
            words = ["man", "--warnings", "-l", os.path.join(TOP, "man", name)]
            run = subprocess.run(words, env=environment, capture_output=True, timeout=SECONDS, check=False)
            is_well = run.returncode == 0 and not run.stderr and b"EXIT STATUS" in run.stdout
            yield f"{name}: {width} columns", None if is_well else f"the status {run.returncode}, {run.stderr!r} and {run.stdout[:80]!r}"
