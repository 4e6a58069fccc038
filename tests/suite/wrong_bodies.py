"""Whether each wrong body still fits the sources: those that the gate has refused, and those beside it."""
import glob
import os

TOP = os.path.dirname(os.path.dirname(os.path.dirname(os.path.abspath(__file__))))


def cases(_program):
    for path, crate in paths():
        yield name_of(path), fault_of_edit(path, crate)


def paths():
    """Each wrong body, and the crate that it is of."""
    for path in sorted(glob.glob(os.path.join(TOP, "crates", "*", "must-fail", "*"))):
        yield path, path.split(os.sep)[-3]
    for path in sorted(glob.glob(os.path.join(TOP, "tests", "wrong-bodies", "*", "*"))):
        yield path, path.split(os.sep)[-2]


def name_of(path):
    return os.path.relpath(path, TOP)


def fault_of_edit(path, crate):
    """An edit names sources of its crate, and texts of one line each, of which the old one stands in its source exactly once."""
    if not path.endswith(".edit"):
        return "it is no edit"
    with open(path) as file:
        lines = [line.rstrip("\n").partition(":") for line in file if line.startswith(("file:", "old:", "new:"))]
    texts, name, old = {}, None, None
    for word, _, rest in lines:
        rest = rest.removeprefix(" ")
        if word == "file":
            name = os.path.join(TOP, "crates", crate, rest.strip())
            if not os.path.isfile(name):
                return f"there is no {name_of(name)}"
            if name not in texts:
                with open(name) as file:
                    texts[name] = file.read()
        elif name is None or (word == "old") == (old is not None):
            return "its texts aren't old and new by turns, behind the name of a file"
        elif word == "old":
            old = rest
            if texts[name].count(old) != 1:
                return f"`{old}` stands {texts[name].count(old)} times in {name_of(name)}"
        else:
            if old == rest:
                return "it changes nothing"
            texts[name] = texts[name].replace(old, rest)
            old = None
    return None if texts and old is None else "it has an old text without a new one"
