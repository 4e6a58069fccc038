"""`boc-view page --runs`: the histogram and the text on a page are those of `why --runs` for as many workers, nothing else of the page changes, and the same is
refused. In a browser the page is looked at as any other one is."""
import html
import re

from .chromium import Chromium, Lost, Tab
from .copies import view_of
from .packages import command_of
from .page import Opened
from .pictures import data_of, fault_of_xml
from .running import difference, fault_of, refused

# The section of many runs.
SECTION = re.compile(rb'\n<section id="runs".*?</section>', re.DOTALL)

# Words of a page, and the words of the page of its run alone, where they are others.
WORDS = [
    (["--runs", "50"], []),
    (["--runs", "1"], []),
    (["--runs", "30", "-p", "1"], ["-p", "1"]),
    (["--runs", "40", "--seed", "7"], ["--seed", "7", "-w", "4"]),
    (["--runs", "40", "--seed", "18446744073709551610", "-w", "2", "-p", "9"], ["--seed", "18446744073709551610", "-w", "2", "-p", "9"]),
    (["--runs", "20", "--depth", "2", "--shared-reads"], ["--shared-reads"]),
    (["--runs", "20", "--depth", "3", "--seed", "5"], ["--depth", "3", "--seed", "5", "-w", "4"]),
]

# Words that are refused beside many runs, and what is said of them.
AGAINST = [
    (["--timed"], "--timed"),
    (["--typical"], "--typical"),
    (["--record", "/no/such"], "--record <FILE>"),
    (["--names", "/no/such"], "--names <FILE>"),
]

EXAMPLES = ["pipeline.boc", "race.boc", "transfer.boc", "bank.boc"]

# The run by one thread ends sooner than any that is drawn, since what is spawned first is long.
SOONER = b"""\
cown a = 0; cown b = 0; cown c = 0;
def add(n; x) { work n; x = x + n; }
def left(; y) { when add(5; a); }
def right(; y) { work 1; when add(30; a); }
main { when left(; b); when right(; c); }
"""


def cases(program):
    view = view_of(program)
    sources = {name: program.example(name) for name in EXAMPLES}
    sources["a race"] = SOONER
    for name, source in sources.items():
        for words, own in WORDS:
            yield f"{name}: {' '.join(words)}", fault_of_runs(program, view, source, words, own)
    yield from refusals(program, view, sources["transfer.boc"])
    yield from looks(program, view, sources)


def for_why(words):
    """The words of `why` that print the text of a page with these words: a page is for 4 workers where no number is given."""
    return ["why", *words] if "-p" in words else ["why", *words, "-p", "4"]


def fault_of_runs(program, view, source, words, own):
    page, alone = view.run(["page", *words], source), view.run(["page", *own], source)
    if page.status != 0 or alone.status != 0:
        return f"the answers {page.status}, {page.errors}, {alone.status}, {alone.errors}"
    if len(SECTION.findall(page.output)) != 1 or SECTION.search(alone.output):
        return "there is no one section of runs"
    rest = SECTION.sub(b"", page.output)
    if rest != alone.output:
        return f"the rest of the page: {difference(alone.output, rest)}"
    if page.notes != alone.notes:
        return f"its notes are {page.notes}"
    section = SECTION.search(page.output)[0]
    why = program.run(for_why(words), source).output.decode()
    return fault_of_text(section, why) or fault_of_drawing(section.decode(), why, data_of(page.output))


def fault_of_text(section, why):
    """Its text is that of `why`, and all of it is XML."""
    text = html.unescape(re.search(rb"<pre [^>]*>(.*?)</pre>", section, re.DOTALL)[1].decode())
    if text != why:
        return f"its text: {difference(why.encode(), text.encode())}"
    return fault_of_xml(section.strip())


def numbers_in(text):
    return [int(it.replace(",", "")) for it in re.findall(r"\d[\d,]*", text)]


def fault_of_drawing(section, why, data):
    """Its bars have the lines of the histogram, as high as their runs are many, and its words the least, the median and the most, and the run of the page."""
    runs = numbers_in(why)[0]
    word = f"end for {data['p']}"
    told = f"{word} worker{'' if data['p'] == 1 else 's'}"
    least, median, most = map(int, re.search(rf"^{word} +(\d+) +(\d+) +(\d+)$", why, re.MULTILINE).groups())
    part = re.search(rf"^ends for {data['p']}\n((?:  .*\n)*)", why, re.MULTILINE)[1]
    bins = [[int(first), int(last or first), int(count)] for first, last, count in re.findall(r"^  (\d+)(?:\.\.(\d+))? +(\d+)", part, re.MULTILINE)]
    bars = re.findall(r'<path d="M[\d.]+ ([\d.]+)h([\d.]+)v([\d.]+)h-[\d.]+z"><title>([^<]*)</title></path>', section)
    if not section.startswith(f'\n<section id="runs" aria-labelledby="runs-title">\n<h2 id="runs-title">{runs} run{"" if runs == 1 else "s"}</h2>'):
        return "its heading is another one"
    wanted = [f"{told} {first:,}{f' to {last:,}' if first < last else ''}: {count:,} run{'' if count == 1 else 's'}" for first, last, count in bins if count]
    if [title for *_, title in bars] != wanted:
        return f"its bars are {bars}, and not {wanted}"
    highest = max(count for *_, count in bins)
    counts = [count for *_, count in bins if count]
    if any(abs(float(height) - max(1, 140 * count / highest)) > 0.02 or abs(float(top) + float(height) - 190) > 0.01
           for (top, _, height, _), count in zip(bars, counts)):
        return f"its bars are {bars}"
    own = data["end"]
    beyond = ", less than any of these" if own < least else ", more than any of these" if own > most else ""
    words = f"<p>The {told} of these runs is {least:,} at least, {median:,} at the median, and {most:,} at most. That of the run of this page is {own:,}{beyond}.</p>"
    if words not in section:
        return f"it doesn't say {words}"
    marks = [f">{name} {number:,}</text>" for name, number in (("least", least), ("median", median), ("most", most))]
    if any(section.count(mark) != 1 for mark in marks) or section.count(f">this run {own:,}</text>") != (not beyond):
        return "a mark is missing, or there is one too many"
    return None


def refusals(program, view, source):
    for words, name in AGAINST:
        answer, why = view.run(["page", "--runs", "5", *words], source), program.run(["why", "--runs", "5", *words], source)
        said = f"the argument '--runs <K>' cannot be used with '{name}'".encode()
        is_well = answer.status == why.status == 2 and not answer.output and said in answer.errors and said in why.errors
        yield f"--runs with {words[0]}", None if is_well else f"the answers {answer} and {why}"
    for words in (["page", "--runs", "0"], ["page", "--runs", "1000001"], ["page", "--runs"], ["page", "--runs", "x"], ["text", "--runs", "5"],
                  ["plan", "--runs", "5"], ["curve", "--runs", "5"], ["trace", "--runs", "5"], ["page", "--depth", "2"]):
        answer = view.run(words, source)
        yield f"refused: {' '.join(words)}", None if answer.status == 2 and not answer.output and answer.errors else f"the answer {answer}"
    record = program.run(["run"], source).output
    for name, text in (("a record", record), ("a long record", record * 9_000), ("a faulty program", b"main { x = 1; }"), ("no text", b"")):
        answer, why = view.run(["page", "--runs", "5"], text), program.run(["why", "--runs", "5"], text)
        is_refused = why.status == 3 and not answer.output
        yield f"{name} is refused as by why", fault_of(refused(3, why.errors.split(b"\n")[0].decode()), answer) if is_refused else f"the answer {answer}"
    endless = b"def again(;) { when again(;); } main { when again(;); }"
    answer, why = view.run(["page", "--runs", "5"], endless), program.run(["why", "--runs", "5"], endless)
    is_well = answer.status == why.status == 4 and not answer.output and answer.errors.split(b"\n")[0] == why.errors.split(b"\n")[0]
    yield "too many behaviours", None if is_well else f"the answers {answer} and {why}"


def looks(program, view, sources):
    """In light and dark, wide and narrow, and on paper, without a script of its own."""
    path = command_of("chromium", "chromium", "chromium-browser", "google-chrome")
    if path is None:
        print("note: no page with many runs was opened, since there is no Chromium and its package can't be had", flush=True)
        return
    chromium = Chromium(path)
    try:
        opened = Opened(program, view, Tab(chromium))
        for name, source in sources.items():
            for words in (["-p", "3", "--runs", "60"], ["-p", "3", "--runs", "1"], ["-p", "3", "--runs", "30", "--seed", "4"]):
                yield f"{name}: looks with {' '.join(words)}", opened.fault_of_looks(source, words)
    except Lost as fault:
        yield "the browser", f"{fault}"
    finally:
        chromium.close()
