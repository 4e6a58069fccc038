"""The page in a browser without a window: what its script computes is compared with what boc prints, also after edits drawn at random; what it paints with what
rows take; and a mouse and keys go over it. It is opened in light and dark, wide and narrow, on paper, with hostile names, and with as many rows as there
may be. What is seen and heard of it is in page_looks.py. Where no Chromium is on the PATH, a package of Debian brings one, if that can be had."""
import base64
import contextlib
import json
import os
import random
import re
import subprocess
import tempfile
import time

from .browser import examples_of
from .chromium import Chromium, Lost, Tab
from .copies import TOP, view_of
from .packages import command_of
from .page_looks import BROKEN_LOOKS, fault_of_controls, fault_of_looks
from .pictures import the_most_rows

# How wide and high the windows are.
WIDE, NARROW = (1280, 800), (390, 844)

# How many edits are tried of each program, and of how many programs; at how many places a plan is looked at.
EDITS, EDITED = 50, 10
PARTS = [(1, (0,)), (3, (0, 0.31, 0.77)), (17, (0, 0.31, 0.77)), (90, (0, 0.31, 0.77))]

# By how much of a lane its painted areas may differ from what its rows take, since edges are at whole columns.
NEARLY = 0.03

# Of a page of as many rows as there may be: the most bytes, elements, and seconds until all of it is there on a machine that does other things too.
MOST_BYTES, MOST_NODES, MOST_SECONDS = 4_000_000, 10_000, 60

# How many milliseconds its script may take for a frame at the median, on a machine that does other things too.
MOST_FRAME = 60

# A command of a page, in a shell whose boc is the program that is tested.
SHELL = 'boc() { "$BOC" "$@"; }\n'

# The command that a page shows for edits.
COMMAND = """(scale, without, early, p) => {
  state.workers = p;
  const words = commandOf({scale: new Map(scale), early: new Set(early), without: new Set(without)});
  state.workers = told.p;
  return words.join(' ');
}"""

# What the page computes with edits, for so many workers.
NUMBERS = """(scale, without, early, p) => {
  const now = reckon({scale: new Map(scale), early: new Set(early), without: new Set(without)});
  if (now.refused) return {refused: now.refused};
  const sums = chainSums(now), greedy = now.greedy(p), end = now.chain.length;
  return {work: now.work, span: now.span, end: greedy.end,
    chain: now.chain.map((row, k) => [row, k + 1 === end ? 'end' : linkOf(now, k).spawns ? 'spawn' : 'order', now.through[row]]),
    starts: Array.from(now.plan.start), greedy: Array.from(greedy.start, (start, row) => [start, greedy.worker[row]]),
    defs: sums.defs.map(s => [told.defs[s.key], s.ticks, s.count]), links: sums.links.map(s => [s.key, s.ticks, s.count]),
    cowns: cownLanes(now, now.plan, false).map(l => [told.cowns[l.cown], l.holders.length, l.held, l.waited])};
}"""

# By how much of a lane the area of a colour, or of the chain's strip, differs at most from what the rows in view take: bars that are drawn one by one leave out
# 0.7 pixels at their ends.
PAINTED = """(from, to) => {
  show(from, to);
  const {view, now, tracks} = state, found = [0];
  const area = list => {
    let sum = 0;
    for (let k = 0; k < list.length; k += 4) sum += list[k + 2] * list[k + 3];
    list.length = 0;
    return sum;
  };
  for (const track of tracks.filter(track => track.kind === 'bars')) {
    bars(track, 0);
    const painted = batches.map(area), chain = area(feet), scale = scaleNow();
    const wanted = new Float64Array(painted.length), whole = (view.to - view.from) * scale * track.h;
    let strip = 0;
    for (const row of track.list) {
      const begin = track.start[row], end = begin + track.ticks[row];
      const seen = (a, b) => Math.max(0, Math.min(b, view.to) - Math.max(a, view.from)) * scale;
      if (!seen(begin, end)) continue;
      wanted[4 + told.def[row]] += (seen(begin, end) - (track.ticks[row] * scale > 5 ? 0.7 : 0)) * track.h;
      if (!track.isChain) strip += 4 * seen(begin, begin + now.through[row]);
    }
    wanted.forEach((it, colour) => { if (colour >= 4) found.push(Math.abs(it - painted[colour]) / whole); });
    found.push(Math.abs(strip - chain) / whole * track.h / 4);
  }
  return Math.max(...found);
}"""

# How wide all of it is, what it warns of, how many elements it has, and whether its picture has more than one colour.
LOOK = """async () => {
  for (let k = 0; k < 3; k++) await new Promise(requestAnimationFrame);
  const {width, height} = canvas, copy = new OffscreenCanvas(width, height).getContext('2d', {willReadFrequently: true}), colours = new Set();
  copy.drawImage(canvas, 0, 0);
  const {data} = copy.getImageData(0, 0, width, height);
  for (let k = 0; k < data.length; k += 4 * 97) colours.add(data[k] << 16 | data[k + 1] << 8 | data[k + 2]);
  return {wide: document.documentElement.scrollWidth, warning: byId('warning').textContent, nodes: document.querySelectorAll('*').length,
    colours: colours.size, ground: getComputedStyle(document.body).backgroundColor, clipped: Array.from(document.querySelectorAll('.tile b, h1, h2'))
      .filter(it => it.scrollWidth > it.clientWidth + 1 && it.clientWidth).map(it => it.textContent)};
}"""

# Has a row selected, an edit of each kind made, and the lists opened.
OPEN = """() => {
  select(N - 1);
  applyEdits({scale: new Map([[rows.def[N - 1], [1, 2]]]), early: new Set([rows.def[0]]), without: new Set(C ? [0] : [])});
  document.querySelectorAll('details').forEach(it => { it.open = true; });
}"""

# What the lists of the chain and of all behaviours, where they are open, say otherwise than the plans do.
LISTS = """() => {
  const found = [], {plan, chain, through} = state.base;
  const listed = k => Array.from(document.querySelectorAll('#rows table')[k].tBodies[0].rows, it => Array.from(it.cells, cell => cell.textContent));
  const compare = (list, wanted) => list.forEach((cells, k) => { if (wanted(k).some((it, at) => it !== cells[at])) found.push([cells, wanted(k)]); });
  const called = row => `${row} ${rowName(row)}`;
  compare(listed(0), k => [num(plan.start[chain[k]]), num(through[chain[k]]), called(chain[k])]);
  compare(listed(1), k => [num(k), called(k), num(rows.ticks[k]), num(spawnedAt(state.base, k)), num(told.start[k]), num(told.start[k] + told.ticks[k]),
    num(told.start[k] - spawnedAt(state.base, k)), num(told.greedyStart[k]), num(told.worker[k]), num(through[k])]);
  return listed(0).length && listed(1).length ? found : ['no lines'];
}"""

# How long the script takes for a frame at the median, while it zooms in and out.
FRAME = """async () => {
  frames.length = 0;
  reset();
  for (let k = 0; k < 60; k++) {
    zoom(k < 30 ? 1 / 1.15 : 1.15, 700);
    await new Promise(requestAnimationFrame);
  }
  return frames.slice().sort((a, b) => a - b)[frames.length >> 1];
}"""

# The title of a page, what is said of its run, and whether what precedes or follows a name in it is out of its place.
TITLE = """() => {
  const run = document.querySelector('header p'), nodes = [], walker = document.createTreeWalker(run, NodeFilter.SHOW_TEXT);
  for (let node = walker.nextNode(); node; node = walker.nextNode()) nodes.push(node);
  const place = (node, at) => {
    const range = document.createRange();
    range.setStart(node, at);
    range.setEnd(node, at + 1);
    return range.getBoundingClientRect();
  };
  const last = nodes[nodes.length - 1], end = place(last, last.data.length - 1), before = place(last, last.data.length - 2);
  const turned = before.top === end.top && before.left >= end.left || place(nodes[0], 0).left > place(nodes[0], 1).left;
  return [document.querySelector('h1').textContent, run.textContent, turned ? 'what follows is turned' : ''];
}"""
GROUNDS = {"light": "rgb(255, 255, 255)", "dark": "rgb(20, 23, 26)"}

# What is wrong with a script: what stands there, and what is put in its place. Each is to be found by what is compared.
BROKEN = [
    ("Math.ceil((early ? i + 1", "Math.floor((early ? i + 1"),
    ("(early ? i + 1 - childFirst[row] :", "(early ? (i + 1 - childFirst[row]) * d / k :"),
    ("--early${name", "--without${name"),
    ("Math.max(1, Math.ceil(rows.ticks[row] * k / d), last)", "Math.max(1, Math.round(rows.ticks[row] * k / d), last)"),
    ("else if (end === at && who > other) who = other;", "else if (end === at && who < other) who = other;"),
    ("if (end > at) { at = end; who = other; }", "if (end >= at) { at = end; who = other; }"),
    ("worker[row] = free.pop();", "free.pop();"),
    ("shares = told.shared && !r.wrote[k]", "shares = told.shared"),
    ("Math.min(right, at + WIDE) - Math.max(left, at)) / WIDE", "Math.min(right, at + WIDE) - Math.max(left, at)) / WIDE / 1.3"),
    ("feet.push(x, y + h - 4, Math.min(middle, width + 2) - x, 4);", "feet.push(x, y + h - 4, w, 4);"),
]

# Names of rows and cowns that mean something elsewhere.
HOSTILE = ["</script><script>window.bad=1</script>", "<img/src=x/onerror=window.bad=1>", "__proto__", "constructor", "&lt;b&gt;&quot;", "'\"\\u003c\\",
           "{{data}}", "-->]]>", "x" * 76, "toString", "5", "-x", "a=b", "c@d", "$(touch${IFS}bad)", "`bad`", "--", "W" * 76, *map(str, range(100, 122))]

# Names of files that are written from right to left, turn what follows them, mean something in HTML or to a shell, or are no line of text.
FILES = ["<b onclick=1>&.boc", "&lt;script&gt;.boc", "\u05e9\u05dc\u05d5\u05dd \u05e2\u05d5\u05dc\u05dd.boc",
         "\u202eabc\u202d\u2066\u2067 \u0645\u0631\u062d\u0628\u0627", "a\x01\x1b[31m\n\tb\x7f\u0085\u2028.boc", "\U0001f404\U0001f3fd\u200d\U0001f6a9.boc",
         "it's \"$HOME\" `id` \\.boc", "-p=3@4", "o\u0301" * 60, "W" * 250]

# A program of 400 behaviours, which mouse and keys go over.
SHOP = b"""\
cown shelf[6] = 30000;
cown purse[4] = 200;
cown ledger = 0;
cown printer = 0;
def buy(buyer, amount; stock, lines) {
    work 10;
    if stock >= amount { stock = stock - amount; work 10; lines = lines + 1; when pay(amount * 2; purse[buyer]); }
}
def pay(price; money) { money = money - price; work 12; when print(; printer); }
def print(; pages) { work 9; pages = pages + 1; work 3; }
main { let n = 0; repeat 133 { work 8; when buy(n % 4, 1 + n % 5; shelf[n * 5 % 6], ledger); n = n + 1; } }
"""


# Deposits that take 5, 60, 7, 6 and 5 ticks, so 6 each where they take typical ones, as main does.
UNEVEN = b"""\
cown a = 0;
cown b = 0;
def deposit(n; x) { work n; x = x + n; }
main { when deposit(3; a); when deposit(58; a); when deposit(5; b); when deposit(4; a); when deposit(3; b); }
"""
UNEVEN_WORK = 36


def cases(program):
    yield "bin/page --check", fault_of_sources()
    path = command_of("chromium", "chromium", "chromium-browser", "google-chrome")
    if path is None:
        print("note: no page was opened, since there is no Chromium and its package can't be had", flush=True)
        return
    view = view_of(program)
    chromium = Chromium(path)
    try:
        opened = Opened(program, view, Tab(chromium))
        sources = {name: program.example(name) for name in examples_of(program)}
        for name, source in sources.items():
            yield f"{name}: looks", opened.fault_of_looks(source)
        for name in sorted(sources)[::max(1, len(sources) // EDITED)][:EDITED]:
            yield from opened.numbers(name, sources[name], name == "bank.boc")
        yield "names that mean something", opened.fault_of_names()
        yield "names of files", opened.fault_of_files()
        yield "typical ticks", opened.fault_of_typical()
        yield from opened.broken([sources["bank.boc"], SHOP.replace(b"133", b"1000")])
        yield from opened.broken_looks()
        yield from opened.clicks()
        yield from opened.as_large_as_can_be()
    except Lost as fault:
        yield "the browser", f"{fault}"
    finally:
        chromium.close()


def fault_of_sources():
    """What goes into the program is what the files of the page say, and nothing is wrong with those."""
    run = subprocess.run([os.path.join(TOP, "bin", "page"), "--check"], capture_output=True, text=True, check=False)
    return None if run.returncode == 0 and not run.stdout.replace("note: ", "") else (run.stdout + run.stderr)[:300]


class Opened:
    """A tab of a browser that opens one page after the other."""

    def __init__(self, program, view, tab):
        self.program, self.view, self.tab, self.folder = program, view, tab, None

    @contextlib.contextmanager
    def page(self, words, source, address="", change=lambda text: text):
        """Opens the page of this input, changed so, and gives its bytes."""
        with tempfile.TemporaryDirectory() as self.folder:
            shown, path = os.path.join(self.folder, "input"), os.path.join(self.folder, "page.html")
            with open(shown, "wb") as file:
                file.write(source)
            text = change(self.view.run(["page", *words, shown]).output)
            with open(path, "wb") as file:
                file.write(text)
            self.open(path + address)
            yield text

    def open(self, path):
        self.tab.open(path)
        end = time.monotonic() + MOST_SECONDS
        while not self.tab.ask("() => window.page ? page.ready : 0") and time.monotonic() < end:
            time.sleep(0.05)

    def fault_of_console(self):
        """Nothing is said on the console, and nothing is asked for but the file."""
        for it in self.tab.events("Network.requestWillBeSent", "Network.webSocketCreated"):
            if not it.get("request", it)["url"].startswith("file://"):
                return f"it asks for {it.get('request', it)['url']}"
        for it in self.tab.events("Runtime.exceptionThrown"):
            return f"its script fails: {it['exceptionDetails'].get('exception', {}).get('description', it['exceptionDetails']['text'])[:300]}"
        for it in self.tab.events("Runtime.consoleAPICalled", "Log.entryAdded"):
            return f"its console says {it['entry']['text'] if 'entry' in it else [said.get('value') for said in it['args']]}"
        return None

    def fault_of_looks(self, source, words=("-p", "3")):
        """In light and dark, wide and narrow, all of a page fits, can be told from what is behind it, and warns of nothing; so it is on paper."""
        with self.page(words, source):
            for size, scheme in ((NARROW, "dark"), (NARROW, "light"), (WIDE, "dark"), (WIDE, "light")):
                self.tab.resize(*size)
                self.tab.prefer(scheme)
                found = self.tab.ask(LOOK)
                is_well = found["wide"] <= size[0] and not found["warning"] and found["colours"] > 3 and found["ground"] == GROUNDS[scheme]
                fault = found if not is_well or found["clipped"] else fault_of_looks(self.tab)
                if fault is not None:
                    return f"at {size} in {scheme}: {fault}"
            return fault_of_controls(self.tab) or self.fault_of_paper() or self.fault_of_all_open() or self.fault_of_console()

    def fault_of_all_open(self):
        """With a row selected, with edits and with all lists open, it is as well, and the lists have what the picture shows."""
        self.tab.ask(OPEN)
        self.tab.ask(LOOK)
        fault = self.fault_of_sizes() or fault_of_controls(self.tab) or told_of([], self.tab.ask(LISTS))
        return fault and f"with all open: {fault}"

    def fault_of_paper(self):
        """From dark, it is printed in the colours of paper; afterwards it is as before."""
        looks = "() => [document.documentElement.dataset.theme ?? null, state.mode, theme.paper, canvas.width]"
        self.tab.resize(*WIDE)
        self.tab.prefer("dark")
        self.tab.ask(LOOK)
        before = self.tab.ask(looks)
        self.tab.call("Emulation.setEmulatedMedia", media="print", features=[{"name": "prefers-color-scheme", "value": "dark"}])
        self.tab.ask("() => dispatchEvent(new Event('beforeprint'))")
        fault = fault_of_looks(self.tab) or told_of("#fff", self.tab.ask("() => theme.paper"))
        self.tab.ask("() => dispatchEvent(new Event('afterprint'))")
        self.tab.call("Emulation.setEmulatedMedia", media="", features=[{"name": "prefers-color-scheme", "value": "dark"}])
        paper = base64.b64decode(self.tab.call("Page.printToPDF", printBackground=True)["data"])
        self.tab.ask(LOOK)
        fault = fault or told_of(before, self.tab.ask(looks)) or (None if paper.startswith(b"%PDF") else "it can't be printed")
        return fault and f"on paper: {fault}"

    def numbers(self, name, source, is_shared):
        """What the page of a drawn run computes is what boc prints of it."""
        shared = ["--shared-reads"] if is_shared else []
        drawn = ["--workers", "4", "--seed", "1"]
        record = self.program.run(["run", "--quiet", *drawn], source).output
        with self.page([*drawn, *shared], source) as text:
            compared = Compared(self, source, record, shared)
            yield f"{name}: the tables of the page", compared.fault_of_tables(text)
            for what, fault in (("its chain, cowns and candidates", compared.fault_of_report()), ("its curve", compared.fault_of_curve()),
                                ("what is painted", compared.fault_of_paint()), (f"{EDITS} edits", compared.fault_of_edits(random.Random(name)))):
                yield f"{name}: {what}", fault
            yield f"{name}: the console", self.fault_of_console()

    def broken(self, sources):
        """A script that computes or paints something else is found out, on the page of one of these programs."""
        drawn = ["--workers", "4", "--seed", "1"]
        records = [self.program.run(["run", "--quiet", *drawn], source).output for source in sources]
        for old, new in BROKEN:
            faults = (self.fault_of_broken(drawn, source, record, old.encode(), new.encode()) for source, record in zip(sources, records))
            yield f"a script with {new!r}", None if any(faults) else "nothing is found wrong with it"

    def broken_looks(self):
        """A page with too little contrast, a text on another one, or a control without a name is found out."""
        for old, new, word in BROKEN_LOOKS:
            with self.page([], SHOP, change=lambda text, old=old, new=new: text.replace(old.encode(), new.encode())):
                self.tab.resize(*WIDE)
                self.tab.prefer("light")
                self.tab.ask(LOOK)
                fault = fault_of_looks(self.tab) or fault_of_controls(self.tab)
            yield f"a page with {new!r}", None if word in (fault or "") else f"what is said of it is {fault}"

    def fault_of_broken(self, drawn, source, record, old, new):
        """What is found wrong with the page of a drawn run, whose script has this in place of that."""
        with self.page([*drawn, "--shared-reads"], source, change=lambda text: text.replace(old, new)) as text:
            compared = Compared(self, source, record, ["--shared-reads"])
            is_changed = new in text and old not in text.replace(new, b"")
            return is_changed and (compared.fault_of_report() or compared.fault_of_paint() or compared.fault_of_edits(random.Random(1)))

    def fault_of_command(self, scale, without, early, p):
        """In a shell, the command that the page shows for these edits answers what the page computes."""
        command = self.tab.ask(COMMAND, scale, without, early, p)
        run = subprocess.run(["sh", "-c", SHELL + command], cwd=self.folder, env={**os.environ, "BOC": self.program.path}, capture_output=True, check=False)
        found = [int(line.split()[2]) for line in run.stdout.decode().splitlines()[1:4]]
        now = self.tab.ask(NUMBERS, scale, without, early, p)
        fault = told_of([now[key] for key in ("work", "span", "end")], found)
        return fault and f"{command} answers {fault} {run.stderr.decode()[:200]}"

    def fault_of_names(self):
        """Names that mean something in HTML, in a script or to a shell are text on the page, which stays in its place, and the command means them."""
        lines = [f"= {row} {name} {name}" if len(name) < 30 else f"= {row} {name}" for row, name in enumerate(HOSTILE)]
        lines = [line if len(line) <= 80 else line[:80] for line in lines] + [f"@ {cown} {name}[{cown}]"[:80] for cown, name in enumerate(HOSTILE)]
        end = len(HOSTILE)
        record = f"boc 2 {end}\n+ 0 0 0\n> 0\n" + "".join(f"+ {row} 0 {row} 0 {row}\n" for row in range(1, end)) + f"< 0 {end} 0\n"
        record += "".join(f"> {row}\n< {row} 5 0\n" for row in range(1, end)) + ".\n"
        with self.named_page("hostile", record, "\n".join(lines) + "\n"):
            names = self.tab.ask("() => told.defs.concat(told.cowns, String(window.bad))")
            wanted = [line.split()[2] for line in lines] + ["undefined"]
            shown = self.tab.ask("() => [0, 2].map(row => { select(row); return document.querySelector('#details h3').textContent; })")
            elements = self.tab.ask("() => document.querySelectorAll('img, b[onclick], script').length")
            if names != wanted or shown != [HOSTILE[0], "__proto__(__proto__)"] or elements != 2:
                return f"it has {names}, shows {shown}, and has {elements} scripts and images"
            chance = random.Random(3)
            for number in range(20):
                scale = [[it, [1, 2]] for it in sorted(chance.sample(range(end), 2))]
                without, early = sorted(chance.sample(range(end), 2)), [it for it in range(end) if chance.random() < 0.2]
                self.tab.ask("(scale, without, early) => { applyEdits({scale: new Map(scale), without: new Set(without), early: new Set(early)}); }",
                             scale, without, early)
                fault = self.fault_of_command(scale, without, early, 1 + number % 4) or self.fault_of_sizes()
                if fault is not None:
                    return fault
            return self.fault_of_console()

    def fault_of_files(self):
        """The name of a file stands on the page as text, whichever way it is written, and turns nothing else."""
        record = "boc 2 1\n+ 0 0 0\n> 0\n+ 1 0 2 0\n< 0 2 0\n> 1\n< 1 5 0\n.\n"
        program = "cown a = 0;\ndef f(;x) { work 4; }\nmain { when f(;a); }\n"
        for name in FILES:
            shown = "".join(" " if it == "\t" else "?" if ord(it) < 32 or it == "\x7f" else it for it in name)
            for content, words, heading, how in ((record, [], shown, ""), (record, ["--record", f"./{name}"], "program.boc", f"the run in {shown} · "),
                                                 ("= 1 late\n", ["--names", f"./{name}"], "program.boc", f"names in {shown} · ")):
                with self.named_page(name, content, None, program if words else None, words):
                    title, run, turned = self.tab.ask(TITLE)
                    if title != heading or not run.startswith(how) or turned or self.tab.ask("() => window.bad ?? 0"):
                        return f"{name!r}: its title is {title!r}, its run {run!r}, {turned}"
                    self.tab.ask("() => applyEdits({...noEdits(), scale: new Map([[rows.def[1], [1, 2]]])})")
                    fault = self.fault_of_sizes() or self.fault_of_command([[self.tab.ask("() => rows.def[1]"), [1, 2]]], [], [], 2)
                    if fault is not None:
                        return f"{name!r}: {fault}"
        return self.fault_of_console()

    def fault_of_typical(self):
        """With typical ticks the page has these, and its commands ask for them, however the program is run."""
        record, names = self.program.run(["run"], UNEVEN).output.decode(), "".join(f"= {row} deposit {row}\n" for row in range(1, 6))
        ways = [([], "", ""), (["-w", "2", "--seed", "3"], "", ", 2 workers, seed 3"), (["-w", "2"], "", ", 2 workers"),
                (["-w", "3", "--seed", "4", "--depth", "2"], "", ", 3 workers, seed 4, depth 2"), (["--timed", "-w", "2"], "", ", timed on 2 workers"),
                (["--record", "./kept"], "", ", the run in kept"), ([], names, ", names in NAMES"),
                (["--timed", "-w", "2"], names, ", timed on 2 workers, names in NAMES"), (["of a record"], names, ", names in NAMES")]
        for words, named, run in ways:
            own = words == ["of a record"]
            with self.named_page("kept", record, named, None if own else UNEVEN.decode(), ["--typical", *([] if own else words)]):
                told, work = self.tab.ask("() => [told.run, told.work]")
                if (told, work) != (f"typical ticks{run}", UNEVEN_WORK):
                    return f"{words}: its run is {told!r}, and its work {work}"
                for scale, without in (([], []), ([[1, [1, 2]]], []), ([[1, [1, 2]]], [0])):
                    fault = self.fault_of_command(scale, without, [], 2)
                    if fault is not None:
                        return f"{words} {named}: {fault}"
                words_shown = self.tab.ask(COMMAND, [], [0], [], 2)
                if " --typical " not in words_shown or "  " in words_shown:
                    return f"{words}: its command is {words_shown}"
        return self.fault_of_console()

    @contextlib.contextmanager
    def named_page(self, name, record, names, program=None, words=()):
        """Opens the page of a record, in a file of this name, with a file of names or a program."""
        with tempfile.TemporaryDirectory() as self.folder:
            for own, content in ((name, record), ("NAMES", names), ("program.boc", program)):
                if content is not None:
                    with open(os.path.join(self.folder, own), "w") as file:
                        file.write(content)
            file = f"./{name}" if program is None else "program.boc"
            option = ["--names", "NAMES"] if names else []
            path = os.path.join(self.folder, "page.html")
            with open(path, "wb") as file_of_page:
                file_of_page.write(self.view.run(["page", *words, *option, file], cwd=self.folder).output)
            self.open(path)
            yield

    def fault_of_sizes(self):
        """Wide and narrow, what is open stays in its place."""
        for size, scheme in ((WIDE, "dark"), (NARROW, "light")):
            self.tab.resize(*size)
            self.tab.prefer(scheme)
            found = self.tab.ask(LOOK)
            if found["wide"] > size[0] or found["warning"]:
                return f"at {size}: {found}"
            fault = fault_of_looks(self.tab)
            if fault is not None:
                return f"at {size}: {fault}"
        return None

    def clicks(self):
        """A mouse and keys do what they are there for."""
        self.tab.resize(*WIDE)
        with self.page([], SHOP):
            hand = Hand(self.tab)
            yield from hand.zooms()
            yield from hand.selects()
            yield from hand.searches()
            yield from hand.folds()
            yield from hand.edits()
            yield "clicks: the console", self.fault_of_console()
        with self.page([], SHOP, "#r42"):
            yield "clicks: #r42 selects row 42", told_of(42, self.tab.ask("() => state.selected"))
        with self.page([], SHOP, "#edit=s1:1/2;w0"):
            yield "clicks: #edit makes edits", told_of([[[1, [1, 2]]], [0]],
                                                       self.tab.ask("() => [Array.from(state.edits.scale), Array.from(state.edits.without)]"))

    def as_large_as_can_be(self):
        """A page of as many rows as there may be is small, and is there soon."""
        rows, record = the_most_rows()
        begun = time.monotonic()
        with self.page([], record) as text:
            seconds = time.monotonic() - begun
            found = self.tab.ask(LOOK)
            yield f"a page of {len(rows)} rows, bytes", None if len(text) <= MOST_BYTES else f"{len(text)}"
            yield f"a page of {len(rows)} rows, elements", None if found["nodes"] <= MOST_NODES and not found["warning"] else f"{found}"
            yield f"a page of {len(rows)} rows, seconds", None if seconds < MOST_SECONDS else f"{seconds:.1f}"
            hand = Hand(self.tab)
            self.tab.ask("() => { select(7); scroll.focus({preventScroll: true}); }")
            hand.key("o")
            lanes = self.tab.ask("() => state.tracks.filter(it => it.plan).length")
            yield f"a page of {len(rows)} rows, its lanes", None if lanes > 100 else f"O opens {lanes}"
            hand.key("o")
            for without in ([], [74, 188]):
                words = ["whatif", "-p", "4", *(word for cown in without for word in ("--without", str(cown)))]
                now, told = self.tab.ask(NUMBERS, [], without, [], 4), numbers_of(self.program.run(words, record).output.decode())
                yield f"a page of {len(rows)} rows, without {without}", told_of(told, {key: now[key] for key in told})
            frame = self.tab.ask(FRAME)
            yield f"a page of {len(rows)} rows, a frame", None if frame < MOST_FRAME else f"{frame:.1f} ms"
            yield f"a page of {len(rows)} rows, looks", self.fault_of_sizes() or fault_of_controls(self.tab) or self.fault_of_paper()
            yield f"a page of {len(rows)} rows, painted", fault_of_paint(self.tab)
            yield f"a page of {len(rows)} rows, console", self.fault_of_console()


def told_of(wanted, given):
    """What differs, if anything."""
    return None if wanted == given else f"{str(given)[:200]} in place of {str(wanted)[:200]}"


def fault_of_paint(tab):
    """The area of each colour is what its rows take, at several places and scales."""
    span = tab.ask("() => { state.mode = 'defs'; layOut(); return state.now.span; }")
    for part, places in PARTS:
        wide = span / part
        for at in places:
            off = tab.ask(PAINTED, at * (span - wide), at * (span - wide) + wide)
            if off > NEARLY:
                return f"of {wide:.0f} ticks from {at} on, {off:.3f} of a lane is painted otherwise"
    return None


class Compared:
    """A page of a run, and what boc prints of it."""

    def __init__(self, opened, source, record, shared):
        self.opened, self.program, self.tab, self.source, self.record, self.shared = opened, opened.program, opened.tab, source, record, shared
        self.defs, self.cowns = self.tab.ask("() => [told.defs, told.cowns]")
        self.used = self.tab.ask("() => Array.from(new Set(told.def)).sort((a, b) => a - b)")

    def computed(self, scale, without, p, early=()):
        return self.tab.ask(NUMBERS, scale, without, list(early), p)

    def boc(self, command, *words):
        """The lines of a command on the program and the record of its run."""
        return self.program.run_beside([command, "--quiet", *self.shared, *words], "--record", self.record, self.source).output.decode().splitlines()

    def fault_of_tables(self, text):
        """Its tables and sentences are those of `why -p 4` and `cowns -p 4`, and are there without a script."""
        page = re.sub(r"<script.*?</script>", "", text.decode(), flags=re.DOTALL)
        seen = re.sub(r"\s+", " ", re.sub(r"<[^>]*>", "|", page).replace("&lt;", "<").replace("&gt;", ">").replace("&amp;", "&"))
        for line in self.boc("why", "-p", "4")[-3:] + self.boc("cowns", "-p", "4")[-6:]:
            kind, _, rest = line.partition(": ")
            if kind in ("load", "order", "spawns", "workers", "chain", "plan") and f"|{kind}||{rest}|" not in seen:
                return f"it does not say {line!r}"
            if line.startswith(("lower bound", "a better order", "with --shared-reads")) and line not in seen:
                return f"it does not say {line!r}"
        cells = re.sub(r"\|+", "|", seen.replace(",", ""))
        for what, end, less, span, span_less in candidates_of(self.boc("why", "-p", "4")):
            if f"|{what}|{end}|{less}|{span}|{span_less}|".replace(",", "") not in cells:
                return f"it has no candidate {what} with {end}, {less}, {span}, {span_less}"
        return None

    def fault_of_report(self):
        now = self.computed([], [], 4)
        for kind, name, ticks, count in sums_of(self.boc("why")):
            given = next((it for it in now["defs" if kind == "def" else "links"] if it[0] == name), None)
            if given != [name, ticks, count]:
                return f"the chain's ticks by {kind}: {given} in place of {[name, ticks, count]}"
        for line in self.boc("cowns")[1:]:
            if line.startswith(("span ", "several ")):
                break
            name, count, _, held, _, waited, _, _ = line.rsplit(None, 7)
            given = next((it for it in now["cowns"] if it[0] == name), None)
            if given != [name, int(count), int(held), int(waited)]:
                return f"{line!r}, and the page has {given}"
        return self.fault_of_candidates()

    def fault_of_candidates(self):
        told = self.tab.ask("() => told.candidates")
        wanted = candidates_of(self.boc("why", "-p", "4"))
        if [it[2:] for it in told] != [[span, end] for _, end, _, span, _ in wanted]:
            return f"its candidates are {told}"
        for k, (what, end, _, span, _) in enumerate(wanted):
            edits = self.tab.ask("k => { const {scale, without, early} = editsOf(told.candidates[k]);"
                                 " return [Array.from(scale), Array.from(without), Array.from(early)]; }", k)
            now = self.computed(edits[0], edits[1], 4, edits[2])
            if (now["span"], now["end"]) != (span, end):
                return f"{what}: {now['span']}, {now['end']} in place of {span}, {end}"
        return None

    def fault_of_curve(self):
        points = self.tab.ask("() => told.curve")
        lines = self.program.run(["curve", *self.shared], self.record).output.decode().splitlines()[2:]
        if points != [list(map(int, line.split()[1:])) for line in lines]:
            return "its curve is another one"
        return next((f"for {p} workers it ends at {end}" for p in (1, 2, 3, 7, 16, 64) if (end := self.computed([], [], p)["end"]) != points[p - 1][0]), None)

    def fault_of_paint(self):
        return fault_of_paint(self.tab)

    def fault_of_edits(self, chance):
        """Edits drawn at random: up to three defs cost a part of what they did, up to two spawn early, and up to two cowns are left out. The command that
        the page shows for some of them does the same."""
        for number in range(EDITS):
            scale = [[it, [chance.randrange(1, 41) * 5, 100]] for it in sorted(chance.sample(self.used, chance.randrange(0, min(4, len(self.used) + 1))))]
            scale = [[it, chance.choice([part, [chance.randrange(1, 1001), chance.randrange(1, 1001)]])] for it, part in scale]
            most = min(3, len(self.cowns) + 1)
            without = sorted(chance.sample(range(len(self.cowns)), chance.randrange(0, most)))
            early = sorted(chance.sample(self.used, min(len(self.used), chance.choice((0, 0, 1, 2, 2)))))
            p = chance.choice((1, 2, 3, 4, 5, 8, 16, 64))
            words = ["whatif", "-p", str(p), *self.shared]
            for cown in without:
                words += ["--without", str(cown)]
            for own in early:
                words += ["--early", self.defs[own]]
            words += [f"{self.defs[it]}={k}/{d}" for it, (k, d) in scale]
            answer, now = self.program.run_beside(words, "--program", self.source, self.record), self.computed(scale, without, p, early)
            fault = told_of(answer.status != 0, "refused" in now) if answer.status else told_of(numbers_of(answer.output.decode()), {
                key: now.get(key) for key in ("work", "span", "end", "chain", "starts", "greedy")})
            if number % 5 == 0 and "span" in now:
                fault = fault or self.opened.fault_of_command(scale, without, early, p)
            if fault is not None:
                return f"edit {number}, {words}: {fault}"
        return None


def numbers_of(report):
    """What whatif prints."""
    lines = report.splitlines()
    at = {line.split()[0]: k for k, line in enumerate(lines) if line[0].isalpha()}
    return {"work": int(lines[1].split()[1]), "span": int(lines[2].split()[1]), "end": int(lines[-1].split()[1]),
            "chain": [[int(row), link, int(ticks)] for row, link, ticks in (line.split() for line in lines[at["chain"] + 1:at["plan"]])],
            "starts": [int(line.split()[1]) for line in lines[at["plan"] + 1:at["greedy"]]],
            "greedy": [[int(start), int(worker)] for _, start, _, worker in (line.split() for line in lines[at["greedy"] + 1:-1])]}


def sums_of(lines):
    """The lines of the two tables of the chain's ticks that stand beside each other."""
    first = next(k for k, line in enumerate(lines) if line.startswith("chain by def"))
    middle = lines[first].index("chain by link")
    for line in lines[first + 1:]:
        if not line.startswith("  "):
            break
        for kind, part in (("def", line[:middle]), ("link", line[middle:])):
            if found := re.fullmatch(r"\s*(.+?)\s+(\d+)\s+(\d+)\s*", part):
                yield kind, found[1], int(found[2]), int(found[3])


def candidates_of(lines):
    """Each candidate of `why -p`, with the end, the span, and how much less these are."""
    first = next((k for k, line in enumerate(lines) if line.startswith("candidates")), len(lines))
    found = []
    for line in lines[first + 1:]:
        if not line.startswith("  ") or line.endswith(" more"):
            break
        what, *numbers = line.strip().rsplit(None, 4)
        found.append((what, *map(int, numbers)))
    return found


class Hand:
    """A mouse and keys on the page of the shop."""

    def __init__(self, tab):
        self.tab = tab
        tab.ask("() => byId('viewer').scrollIntoView()")
        time.sleep(0.3)
        self.left, self.top, self.wide = tab.ask("() => { const {left, top, width} = canvas.getBoundingClientRect(); return [left, top, width]; }")
        self.buy = self.y_of("track => track.name === 'buy'") if tab.ask("() => state.tracks.some(it => it.name === 'buy')") else None

    def y_of(self, which):
        return self.top + 26 + self.tab.ask(f"() => state.tracks.find({which}).y - scroll.scrollTop") + 8

    def view(self):
        return self.tab.ask("() => [state.view.from, state.view.to]")

    def key(self, keys, count=1):
        """Strokes of a key, or of each key of some."""
        for key in [keys] * count if len(keys) > 1 and keys.isalpha() else list(keys) * count:
            text = {"Enter": "\r", "Escape": ""}.get(key, key)
            self.tab.call("Input.dispatchKeyEvent", type="keyDown", key=key, text=text)
            time.sleep(0.06)
            self.tab.call("Input.dispatchKeyEvent", type="keyUp", key=key)
            time.sleep(0.15)

    def now(self, script):
        """What the page says, once it had time for it."""
        time.sleep(0.35)
        return self.tab.ask(f"() => {script}")

    def zooms(self):
        before = self.view()
        self.tab.turn(700, self.buy, -300, True)
        time.sleep(0.3)
        near = self.view()
        yield "clicks: ctrl and wheel zoom in", None if near[1] - near[0] < before[1] - before[0] else f"{before} to {near}"
        part = (700 - self.left - self.tab.ask("() => gutter")) / (self.wide - self.tab.ask("() => gutter"))
        ticks = [view[0] + part * (view[1] - view[0]) for view in (before, near)]
        yield "clicks: a zoom keeps the tick under the mouse", None if abs(ticks[0] - ticks[1]) < 3 else f"{ticks}"
        self.tab.call("Input.dispatchMouseEvent", type="mousePressed", x=700, y=self.buy, button="left", buttons=1, clickCount=1)
        for x in (690, 650, 600):
            self.tab.call("Input.dispatchMouseEvent", type="mouseMoved", x=x, y=self.buy, button="left", buttons=1)
        self.tab.call("Input.dispatchMouseEvent", type="mouseReleased", x=600, y=self.buy, button="left")
        panned = self.now("[state.view.from, state.view.to, state.selected]")
        yield "clicks: a drag pans, and selects nothing", None if panned[0] > near[0] and panned[2] == -1 else f"{near} to {panned}"
        self.tab.ask("() => scroll.focus({preventScroll: true})")
        self.key("0")
        yield "clicks: 0 shows all", told_of([0, True], self.now("[state.view.from, state.view.to === whole()]"))
        self.key("w")
        closer = self.view()
        self.key("d")
        yield "clicks: w zooms in, d pans", None if closer[1] - closer[0] < self.tab.ask("() => whole()") and self.view()[0] > closer[0] else f"{closer}"
        self.key("0")

    def selects(self):
        self.tab.click(700, self.buy)
        row = self.now("state.selected")
        yield "clicks: a click selects", told_of("buy", self.tab.ask("() => document.querySelector('#details h3')?.textContent.slice(0, 3)"))
        self.tab.ask("() => scroll.focus({preventScroll: true})")
        self.key("]")
        yield "clicks: ] goes along the chain", told_of(1, self.now(f"state.now.chain.indexOf(state.selected) - state.now.chain.indexOf({row})"))
        self.tab.ask("() => document.querySelector('#details dd button.link').click()")
        yield "clicks: a button goes to the parent", told_of(0, self.now("state.selected"))
        self.key("Escape")
        yield "clicks: Esc ends the selection", told_of(-1, self.now("state.selected"))
        self.tab.move(700, self.buy)
        yield "clicks: a mouse is told a row", None if "buy" in (self.now("!tip.hidden && tip.textContent") or "") else "it is not"
        self.tab.move(3, 3)
        yield "clicks: and no longer when it leaves", told_of(True, self.now("tip.hidden"))

    def searches(self):
        self.tab.ask("() => scroll.focus({preventScroll: true})")
        self.key("/")
        yield "clicks: / goes to the search", told_of("search", self.now("document.activeElement.id"))
        for letter in "pay(4":
            self.tab.call("Input.dispatchKeyEvent", type="char", text=letter)
        yield "clicks: a search highlights", told_of(0, self.now("state.hits - told.args.filter((args, row) => told.defs[told.def[row]] === 'pay'"
                                                                 " && args.startsWith('(4')).length"))
        self.key("Enter")
        yield "clicks: Enter selects the first", told_of("(4", self.now("told.args[state.selected]?.slice(0, 2)"))
        self.key("Escape")
        yield "clicks: Esc ends the search", told_of(None, self.now("state.highlight"))
        self.tab.ask("() => { scroll.scrollTop = 0; }")
        self.tab.click(self.left + 40, self.y_of("track => track.cown !== undefined"))
        yield "clicks: a click on a cown highlights it", told_of(["ledger", 133], self.now("[told.cowns[state.highlight?.cown], state.hits]"))
        self.tab.ask("() => document.querySelectorAll('#legend .chip')[2].click()")
        yield "clicks: a chip highlights a def", told_of(True, self.now("state.highlight?.def !== undefined"))
        before = self.tab.ask("() => state.height")
        self.tab.click(self.left + 60, self.y_of("track => track.id === 'greedy'"))
        yield "clicks: a head closes its part", told_of(True, self.now(f"state.height < {before}"))

    def folds(self):
        """Keys close and open parts, and go along the plan; with reduced motion one stroke is one step."""
        self.tab.ask("() => { state.closed.clear(); relay(); scroll.focus({preventScroll: true}); }")
        before = self.now("[state.height, state.tracks.filter(it => it.closed).length]")
        self.key("12345")
        yield "clicks: 1 to 5 close parts", told_of(5, self.now("state.tracks.filter(it => it.closed).length"))
        self.key("12345")
        yield "clicks: 1 to 5 open parts", told_of(before, self.now("[state.height, state.tracks.filter(it => it.closed).length]"))
        self.tab.call("Emulation.setEmulatedMedia", features=[{"name": "prefers-reduced-motion", "value": "reduce"}])
        self.key("0")
        self.key("w", 3)
        self.tab.call("Input.dispatchKeyEvent", type="keyDown", key="d", text="d")
        soon, later = self.now("state.view.from"), self.now("state.view.from")
        self.tab.call("Input.dispatchKeyEvent", type="keyUp", key="d")
        moves = self.tab.ask("() => [document.getAnimations().length, getComputedStyle(document.querySelector('button')).transitionDuration]")
        yield "clicks: reduced motion", None if soon == later > 0 and moves == [0, "0s"] else f"{soon}, {later}, {moves}"
        self.tab.scheme = None
        self.tab.prefer("light")
        self.key("0")

    def edits(self):
        self.tab.ask("() => { const it = document.querySelectorAll('#edits input[type=range]')[1]; it.value = 50; it.dispatchEvent(new Event('input')); }")
        yield "clicks: a slider changes the span", told_of(True, self.now("state.now.span < state.base.span"))
        self.tab.ask("() => document.querySelector('[data-box]').click()")
        yield "clicks: a cown is left out", told_of(1, self.now("state.edits.without.size"))
        command = self.tab.ask("() => document.querySelector('#result code').textContent")
        yield "clicks: the command says the same", None if "=50/100" in command and "--without " in command else command
        self.tab.ask("() => Array.from(document.querySelectorAll('#result button')).pop().click()")
        yield "clicks: undo", told_of([True, "100"], self.now("[state.now === state.base, document.querySelectorAll('#edits input[type=range]')[1].value]"))
        self.tab.ask("() => document.querySelector('[data-try] button').click()")
        yield "clicks: a candidate is tried", told_of(True, self.now("state.now.span === told.candidates[0][2]"))
        self.tab.ask("() => Array.from(document.querySelectorAll('#tables th button')).find(it => it.textContent === 'waited').click()")
        wanted = self.now("Math.max(...told.cownTable.map(it => it[3]))")
        yield "clicks: a table sorts", told_of(f"{wanted:,}", self.tab.ask("() => document.querySelector('#tables tbody tr').cells[5].textContent"))
