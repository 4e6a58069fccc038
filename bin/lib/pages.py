"""The completions and the man pages of both programs, as they follow from the table pages.toml beside this file."""
import dataclasses
import itertools
import os
import re
import shlex
import string
import textwrap
import tomllib

TABLE = "bin/lib/pages.toml"
FROM = f"Written by bin/pages from {TABLE}. Change that, and run it again."

# The one place of the sources that has the version.
VERSION_SOURCE = "crates/boc_words/src/version.rt"
VERSION = re.compile(r'"(boc [0-9.]+)\\n')

FORM = re.compile(r"(?:(-\w), )?(--[\w-]+)(?: <(\w+)>)?")
NAME = re.compile(r"--[a-z-]+")
OPERAND = re.compile(r"[A-Z]+")
CHOICE = re.compile(r"\[(?:[^][]|\[[^][]*\])*\|(?:[^][]|\[[^][]*\])*\]")

# Options that stand alone: they print something, and nothing else is done.
ALONE = {"--help", "--version"}

# The columns of the source of a man page.
COLUMNS = 150


class Template(string.Template):
    """A file for a shell, with `@{name}` where something is filled in."""
    delimiter = "@"


BASH = Template("""\
# Completion of `@{called}` for bash: its commands, the options of each, and files. Numbers and names of cowns are not completed.
# @{source}

# The options of a command, or of none.
_@{function}_options() {
    case $1 in
@{options}
    esac
}

_@{function}_files() {
    compopt -o filenames 2> /dev/null
    mapfile -t COMPREPLY < <(compgen -f -- "$1")
}

_@{function}_words() {
    mapfile -t COMPREPLY < <(compgen -W "$1" -- "$2")
}

_@{function}() {
    local commands='@{commands}'
    local current=${COMP_WORDS[COMP_CWORD]} option=${COMP_WORDS[COMP_CWORD - 1]} command='' are_options=yes at
    COMPREPLY=()
    for ((at = 1; at < COMP_CWORD; at++)); do
        case ${COMP_WORDS[at]} in
        --) are_options= ;;
        -*) ;;
        *) command=${command:-${COMP_WORDS[at]}} ;;
        esac
    done
    # bash takes `--record=FILE` and `2=1` for three words.
    if [[ $current == = ]]; then
        current=
        [[ $option == -* ]] || return
    elif [[ $option == = ]]; then
        option=${COMP_WORDS[COMP_CWORD - 2]}
        [[ $option == -* ]] || return
    fi
    if [[ $are_options ]]; then
        case $option in
        @{files}) _@{function}_files "$current" && return ;;
        @{others}) return ;;
        esac
    fi
    if [[ $current == -* && $are_options ]]; then
        _@{function}_words "$(_@{function}_options "$command")" "$current"
    elif [[ -z $command || $command == help ]]; then
        _@{function}_words "$commands" "$current"
    elif [[ " $commands " == *" $command "* ]]; then
        _@{function}_files "$current"
    fi
}

complete -F _@{function} @{called}
""")

ZSH = Template("""\
#compdef @{called}
# Completion of `@{called}` for zsh: its commands, the options of each, and files. Numbers and names of cowns are not completed.
# @{source}

_@{called}_commands() {
    local -a commands=(
@{lines}
    )
    _describe -t commands command commands
}

_@{called}() {
    local curcontext=$curcontext state state_descr line
    typeset -A opt_args

    _arguments -S -C \\
@{top} \\
        ':command:_@{called}_commands' \\
        '*::argument:->rest' && return
    [[ $state == rest ]] || return
    curcontext=${curcontext%:*}-$line[1]:
    case $line[1] in
@{commands}
    esac
}

_@{called} "$@@"
""")

FISH = Template("""\
# Completion of `@{called}` for fish: its commands, the options of each, and files. Numbers and names of cowns are not completed.
# @{source}

# The command on the line, if there is one: the first word that is no option.
function __@{function}_command
    set -l words (commandline -opc)
    set -l plain (string match -v -- '-*' $words[2..-1])
    echo $plain[1]
end

# Whether it is one of these; whether there is none, where none of them is named.
function __@{function}_is
    set -l command (__@{function}_command)
    if test (count $argv) -eq 0
        test -z "$command"
    else
        test -n "$command"; and contains -- "$command" $argv
    end
end

complete -c @{called} -f
@{commands}

# The file that the input is read from; an edit is not completed.
complete -c @{called} -n '__@{function}_is @{with_file}' -F

@{options}
""")


@dataclasses.dataclass(frozen=True)
class Option:
    """An option: its letter, its name and what it takes, each with nothing where there is none, and the line of help."""
    letter: str
    name: str
    value: str
    line: str

    def forms(self):
        return [it for it in (self.letter, self.name) if it]


class Command:
    """A command, or the program without one, whose name is empty."""

    def __init__(self, name, entry, options):
        self.name, self.line, self.usages = name, entry["line"], entry["usage"]
        text, own = " ".join(self.usages), entry.get("options", {})
        names = dict.fromkeys(NAME.findall(text))
        strange = [it for it in [*names, *own] if it not in names or it not in options]
        if strange:
            raise ValueError(f"{name} names {', '.join(strange)}, which its usage or the options lack")
        self.options = [dataclasses.replace(options[it], line=own.get(it, options[it].line)) for it in names]
        self.operands = list(dict.fromkeys(OPERAND.findall(text)))
        # Every command has help but help itself.
        self.offered = list(dict.fromkeys([options["--help"], *self.options])) if self.options else []

    def repeats(self, option):
        return any(f"[{option.name}].." in it for it in self.usages)

    def excluded(self, option):
        """The options that no usage has together with this one."""
        return [it for it in self.options if it != option and not any(has_both(usage, it.name, option.name) for usage in self.usages)]


class Program:
    def __init__(self, called, table, version):
        self.called, self.table, self.version = called, table, version
        self.function = called.replace("-", "_")
        options = [Option(*(it or "" for it in FORM.fullmatch(form).groups()), line) for form, line in table["options"].items()]
        self.options = {it.name: it for it in options}
        self.top = Command("", {"line": table["line"], "usage": ["--help | --version"]}, self.options)
        self.commands = [Command(name, entry, self.options) for name, entry in table["commands"].items()]
        taken = {it.name for command in [self.top, *self.commands] for it in command.options}
        strange = (set(self.options) | set(table["longer"])) - taken - {it.name for it in self.commands}
        if strange:
            raise ValueError(f"no usage of {called} has {', '.join(sorted(strange))}")


def has_both(usage, one, other):
    """Whether a usage has both options, and not one or the other."""
    def names_both(text):
        return {one, other} <= set(NAME.findall(text))

    def is_between(choice):
        return names_both(choice) and not any(map(names_both, choice.split("|")))

    return names_both(usage) and not any(map(is_between, CHOICE.findall(usage)))


def version_of(top):
    """The version of the programs, such as `boc 0.2.0`, as the sources have it."""
    with open(os.path.join(top, VERSION_SOURCE), encoding="utf-8") as file:
        return VERSION.search(file.read())[1]


def read_programs(top):
    version = version_of(top)
    with open(os.path.join(top, TABLE), "rb") as file:
        return [Program(called, table, version) for called, table in tomllib.load(file).items()]


def made(top):
    """The text of each file by its name, for the table of the tree at this place."""
    texts = {}
    for program in read_programs(top):
        texts[f"completions/{program.called}.bash"] = bash(program)
        texts[f"completions/_{program.called}"] = zsh(program)
        texts[f"completions/{program.called}.fish"] = fish(program)
        texts[f"man/{program.called}.1"] = page(program)
    return texts


# Completions.

def bash(program):
    arms = []
    for command in [program.top, *program.commands]:
        if command.offered:
            forms = " ".join(form for it in command.offered for form in it.forms())
            arms.append(f"    {shlex.quote(command.name)}) echo {forms} ;;")
    files = [form for it in program.options.values() if it.value == "FILE" for form in it.forms()]
    others = [form for it in program.options.values() if it.value not in ("", "FILE") for form in it.forms()]
    return BASH.substitute(called=program.called, function=program.function, source=FROM, options="\n".join(arms), files=" | ".join(files),
                           others=" | ".join(others), commands=" ".join(it.name for it in program.commands))


def zsh(program):
    lines = [f"        {shlex.quote(f'{it.name}:{lowered(it.line)}')}" for it in program.commands]
    arms = []
    for names, specs in grouped((zsh_specs(program, it), it.name) for it in program.commands):
        arms.append(f"    {' | '.join(names)})\n        _arguments -S \\\n{specs}\n        ;;")
    return ZSH.substitute(called=program.called, source=FROM, lines="\n".join(lines), top=zsh_specs(program, program.top, " " * 8), commands="\n".join(arms))


def zsh_specs(program, command, indent=" " * 12):
    specs = [zsh_option(command, it) for it in command.offered]
    if "EDIT" in command.operands:
        specs.append("'*:file or edit:_files'")
    else:
        specs += [f"':command:_{program.called}_commands'" if it == "COMMAND" else f"':{it.lower()}:_files'" for it in command.operands]
    return " \\\n".join(indent + it for it in specs)


def zsh_option(command, option):
    """What _arguments is told of an option: those that it excludes, its forms, its line and what it takes."""
    forms = option.forms()
    excluded = [form for it in command.excluded(option) for form in it.forms()] + (forms if len(forms) > 1 else [])
    excluded = "- *" if option.name in ALONE else " ".join(excluded)
    before = (f"({excluded})" if excluded else "") + ("*" if command.repeats(option) else "")
    taken = [form + ("=" if form == option.name else "+") for form in forms] if option.value else forms
    value = {"": "", "FILE": f":{option.name[2:]}:_files", "COWN": ":cown: "}.get(option.value, ":number: ")
    line = re.sub(r"[][:]", r"\\\g<0>", lowered(option.line))
    after = f"[{line}]{value}"
    if len(forms) == 1:
        return shlex.quote(before + taken[0] + after)
    return f"{shlex.quote(before)}{{{','.join(taken)}}}{shlex.quote(after)}"


def fish(program):
    is_one = f"__{program.function}_is"
    lines = [fish_option(program, is_one, program.options["--version"]), fish_option(program, f"'not {is_one} help'", program.options["--help"]), ""]
    for it in program.commands:
        lines.append(f"complete -c {program.called} -n '{is_one}; or {is_one} help' -a {it.name} -d {shlex.quote(it.line)}")
    options = []
    for name in program.options:
        for names, option in grouped((option, it.name) for it in program.commands for option in it.options if option.name == name):
            options.append(fish_option(program, f"'{is_one} {' '.join(names)}'", option))
    return FISH.substitute(called=program.called, function=program.function, source=FROM, commands="\n".join(lines),
                           with_file=" ".join(it.name for it in program.commands if {"FILE", "BEFORE"} & set(it.operands)), options="\n".join(options))


def fish_option(program, condition, option):
    forms = (f"-s {option.letter[1:]} " if option.letter else "") + f"-l {option.name[2:]}"
    value = {"": "", "FILE": " -r -F"}.get(option.value, " -x")
    return f"complete -c {program.called} -n {condition} {forms}{value} -d {shlex.quote(option.line)}"


def grouped(pairs):
    """The second parts of pairs, by the first ones, as these come first."""
    groups = {}
    for key, value in pairs:
        groups.setdefault(key, []).append(value)
    return [(values, key) for key, values in groups.items()]


def lowered(line):
    return line[0].lower() + line[1:]


# Man pages.

def page(program):
    table, longer, statuses = program.table, program.table["longer"], program.table["exit_status"]
    parts = {
        "NAME": [roff(f"{program.called} - {lowered(program.top.line)}")],
        "SYNOPSIS": [".nh", ".ad l", *synopsis(program), ".ad", ".hy"],
        "DESCRIPTION": [roff(table["description"].strip().replace("\n\n", "\n.PP\n"))],
        "COMMANDS": items((f"`{it.name}`", longer.get(it.name, it.line + ".")) for it in program.commands),
        "OPTIONS": items((form_of(it, ", "), longer.get(it.name, marked(it) + ".")) for it in program.options.values()),
        "EXIT STATUS": [roff(statuses)] if isinstance(statuses, str) else items((f"`{status}`", says) for status, says in statuses.items()),
        "EXAMPLES": [".nf", roff(table["examples"].strip()), ".fi"],
        "SEE ALSO": [roff(table["see_also"])],
    }
    head = [f'.\\" {FROM}', f'.TH {roff(program.called.upper())} 1 "" "{program.version}" "User Commands"']
    return "\n".join([*head, *(line for name, part in parts.items() for line in (f".SH {name}", *part)), ""])


def synopsis(program):
    indents = itertools.chain([".HP 4"], itertools.repeat(".HP"))
    for command in [*program.commands, program.top]:
        for usage in command.usages:
            called = f"{program.called} {command.name}".strip()
            usage = NAME.sub(lambda found: form_of(program.options[found[0]], "|"), OPERAND.sub(r"_\g<0>_", usage))
            yield next(indents)
            yield from textwrap.wrap(roff(f"`{called}` {usage}"), COLUMNS, break_long_words=False, break_on_hyphens=False)


def form_of(option, between):
    return between.join(f"`{it}`" for it in option.forms()) + (f" _{option.value}_" if option.value else "")


def marked(option):
    """An option's line of help, with the options that it names bold, and what this one takes italic."""
    line = re.sub(r"(?<![\w-])--?[a-z][a-z-]*", r"`\g<0>`", option.line)
    return re.sub(rf"\b{option.value}\b", r"_\g<0>_", line) if option.value else line


def items(pairs):
    return [line for tag, text in pairs for line in (".TP", roff(tag), roff(text.strip()))]


def roff(text):
    """A text as roff has it: hyphens are kept, `x` is bold and _x_ italic."""
    return re.sub(r"_([^_]+)_", r"\\fI\1\\fR", re.sub(r"`([^`]+)`", r"\\fB\1\\fR", text.replace("-", r"\-")))
