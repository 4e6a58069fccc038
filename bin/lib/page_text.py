"""The text of a page around its data, as constants of a source file, from the files of the page; and what is wrong with those."""
import os
import re
import shutil
import subprocess

PAGE = "crates/boc_pictures/page"
MADE = "crates/boc_pictures/src/page_frame.rt"

# How long a line may be, and how many lines the script may have.
MOST_BYTES, MOST_LINES = 160, 1_400

# The marks in the page's frame at which something is put in, and the constant that ends there. The last one has all after the data.
ENDS = {"title": "BEFORE_TITLE", "head": "BEFORE_HEAD", "answer": "BEFORE_ANSWER", "runs": "BEFORE_RUNS", "plan": "BEFORE_PLAN",
        "tables": "BEFORE_TABLES", "curve": "BEFORE_CURVE", "program": "BEFORE_PROGRAM", "data": "BEFORE_DATA"}
LAST = "AFTER_DATA"

# What a script may not do: read a text as markup or as a program, ask a server, or draw what was named in the run.
FORBIDDEN = re.compile(r"innerHTML|outerHTML|insertAdjacentHTML|document\.write|\beval\b|new Function|\bfetch\b|XMLHttpRequest|\.src\b|DOMParser|localStorage")

HEAD = """\
// The text of a page around what is put into it. bin/page writes this file from the files in crates/boc_pictures/page.
"""


def read(top, name):
    with open(os.path.join(top, PAGE, name), encoding="utf-8") as file:
        return file.read()


def scripts(top):
    """The names of the files of the script, in their order."""
    return sorted(name for name in os.listdir(os.path.join(top, PAGE)) if name.endswith(".js"))


def frame_of(top):
    """The frame of the page, with style and script in it."""
    script = "\n".join(read(top, name) for name in scripts(top))
    return read(top, "page.html").replace("{{style}}", read(top, "page.css")).replace("{{script}}", script)


def constant(name, words, text):
    """A constant of the source file. Its text is between more signs than any that follow a quote in it."""
    signs = "#" * (1 + max((len(it) for it in re.findall(r'"(#*)', text)), default=0))
    return f'\n/// {words}.\npub(crate) const {name}: &str = r{signs}"{text}"{signs};\n'


def text_of(top):
    """The source file."""
    parts = re.split(r"\{\{(\w+)\}\}", frame_of(top))
    marks, texts = parts[1::2], parts[::2]
    if marks != list(ENDS):
        raise SystemExit(f"bin/page: {PAGE}/page.html has the marks {', '.join(marks)}, and not {', '.join(ENDS)}")
    made = [constant(ENDS[mark], f"What is before the {mark}", text) for mark, text in zip(marks, texts)]
    return HEAD + "".join(made) + constant(LAST, "What is after the data", texts[-1])


def faults(top):
    """What is wrong with the files of the page, a line each."""
    found = []
    names = scripts(top)
    count = sum(read(top, name).count("\n") for name in names)
    if count > MOST_LINES:
        found.append(f"{PAGE}: the script has {count} lines, and {MOST_LINES} at most are wanted")
    for name in [*names, "page.css", "page.html"]:
        for number, line in enumerate(read(top, name).split("\n"), 1):
            place = f"{PAGE}/{name}, line {number}"
            if len(line) > MOST_BYTES and "Content-Security-Policy" not in line:
                found.append(f"{place}: {len(line)} characters, and {MOST_BYTES} at most are wanted")
            if line != line.rstrip() or "\t" in line:
                found.append(f"{place}: a blank at the end, or a tab")
            if name.endswith(".js") and FORBIDDEN.search(line):
                found.append(f"{place}: `{FORBIDDEN.search(line)[0]}` is not for this script")
    return found + unused(top, names) + unparsed(top, names)


def unused(top, names):
    """Functions and constants of the script that nothing uses."""
    whole = "\n".join(read(top, name) for name in names)
    defined = re.findall(r"^(?:function|class|const|let) (\w+)", whole, re.MULTILINE)
    return [f"{PAGE}: nothing uses `{name}`" for name in defined if len(re.findall(rf"\b{name}\b", whole)) < 2]


def unparsed(top, names):
    """What node says of files that are no scripts, and eslint of what is suspicious in them; a line where they aren't there."""
    if not shutil.which("node"):
        print("note: bin/page: there is no node, so no script was parsed")
        return []
    found = []
    for name in names:
        done = subprocess.run(["node", "--check", os.path.join(top, PAGE, name)], capture_output=True, text=True, check=False)
        if done.returncode:
            found.append(f"{PAGE}/{name}: {done.stderr.strip()}")
    return found
