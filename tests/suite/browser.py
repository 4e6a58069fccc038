"""The drawing of each example in a browser without a window: where no Chromium is on the PATH, a package of Debian brings one, if that can be had. A mouse
goes over bars, and pictures are taken in the colours of light and of dark. Broken drawings are opened too, and have to be refused."""
import contextlib
import os
import re
import tempfile

from .chromium import Chromium, Lost, Tab
from .packages import command_of
from .painted import boxes_in, places_in
from .copies import view_of
from .pictures import the_most_rows
from .why import rows_of

# How large the window is: all of a drawing has room in it.
WIDTH, HEIGHT = 1000, 2400

# From how many rows on a drawing is large: less of it is looked at then, since all of it takes longer.
MANY = 1_000

# From how many rows on a drawing has a lane for each def in place of each row.
FOLDED = 61

# Of a drawing, while a mouse that is only told of goes over some of its bars: how many bars it draws, what their titles say, what is over them, over how many
# marks of spawns nothing has a title, how many strips the chain has, how many rows its lanes of defs have, and how wide all of it is.
LOOK = r"""most => {
  const drawing = document.querySelector('svg');
  const bars = Array.from(drawing.querySelectorAll('g[id^=r] > title + path'));
  const texts = bars.map(it => it.previousElementSibling.textContent);
  const says = what => what && (what.querySelector(':scope > title') || what.closest('g')?.querySelector(':scope > title'));
  const over = bar => {
    bar.scrollIntoView({block: 'center', inline: 'center'});
    const is = bar.getBoundingClientRect(), parts = [0.1, 0.3, 0.5, 0.7, 0.9];
    const under = parts.flatMap(right => parts.map(down => document.elementFromPoint(is.left + is.width * right, is.top + is.height * down)));
    const strange = under.filter(it => it !== bar && !says(it)).map(it => it ? it.getAttribute('class') || it.tagName : 'nothing');
    return {id: bar.parentNode.id, found: is.width < 1 || under.includes(bar), strange: strange};
  };
  const step = Math.max(1, Math.ceil(bars.length / most));
  const looked = bars.filter((it, number) => number % step === 0 || number === bars.length - 1).map(it => over(it));
  scrollTo(0, 0);
  const place = drawing.getBoundingClientRect(), spawns = bars.length && drawing.querySelector('path.spawns')?.getAttribute('d') || '';
  const blind = Array.from(spawns.matchAll(/M([\d.]+) ([\d.]+)V([\d.]+)/g)).filter(([all, x, y, end]) => {
    const under = document.elementFromPoint(place.left + Number(x) - 0.6, place.top + (Number(y) + Number(end)) / 2);
    return under && drawing.contains(under) && under !== drawing && !says(under);
  });
  const folds = Array.from(drawing.querySelectorAll('text.n:not(.narrow)'), it => /^▸ .*, (\d+)$/.exec(it.textContent)).filter(Boolean);
  return {titles: texts, bars: looked, blind: blind.length, strips: (drawing.querySelector('path.chain')?.getAttribute('d') || '').split('M').length - 1,
    chain: texts.filter(it => /; the chain goes through /.test(it)).length, folded: folds.reduce((sum, it) => sum + Number(it[1]), 0),
    wide: document.documentElement.scrollWidth};
}"""

# Whether a drawing is no XML: the browser draws it up to where it isn't.
IS_BROKEN = "() => document.querySelector('parsererror') !== null"

# The bar of a row.
BAR = """row => document.querySelector(`#r${row} > title + path`)"""

# Where in the window, at whole pixels as a mouse has them, it finds the bar of a row, and the bar's title; nothing where it finds it nowhere.
PLACE = r"""row => {
  const bar = window.bar = (BAR)(row), title = bar.previousElementSibling.textContent;
  bar.scrollIntoView({block: 'center', inline: 'center'});
  const is = bar.getBoundingClientRect();
  for (const part of [0.5, 0.6, 0.4, 0.7, 0.3, 0.8, 0.2, 0.9, 0.1])
    for (const down of [0.7, 0.9, 0.5, 0.3, 0.1]) {
      const x = Math.round(is.left + is.width * part), y = Math.round(is.top + is.height * down);
      if (document.elementFromPoint(x, y) === bar) return [x, y, title];
    }
  return null;
}""".replace("BAR", BAR)

# Whether the mouse is over that bar, and the title of the bar.
TOLD = "() => [window.bar.matches(':hover'), window.bar.previousElementSibling.textContent]"

# The colours of a picture in these places.
COLOURS = """async (picture, places) => {
  const image = new Image();
  image.src = 'data:image/png;base64,' + picture;
  await image.decode();
  const pen = new OffscreenCanvas(image.width, image.height).getContext('2d', {willReadFrequently: true});
  pen.drawImage(image, 0, 0);
  const all = pen.getImageData(0, 0, image.width, image.height).data;
  return places.map(([x, y]) => Array.from(all.slice(4 * (y * image.width + x), 4 * (y * image.width + x) + 3)));
}"""

# What is wrong with a drawing: what stands there, what is put in its place, and a word of what is to be said of it.
OUTSIDE = "http://boc.invalid/it"
BROKEN = [
    (r"(\.spawns\{[^}]*);pointer-events:none\}", r"\1}", "spawns"),
    (r'(?s)<g id="r3"><title>[^<]*</title>', '<g id="r3">', "titles"),
    ("#4c78a8", "#4c78a9", "the colour of c1"),
    ("#c8410c;pointer", "#c8400c;pointer", "the colour of chain"),
    ("#ff7a3d", "#c8410c", "dark"),
    ("scheme:dark", "scheme:light", "the colour of ground"),
    ("</svg>", f'<image href="{OUTSIDE}.png" width="9" height="9"/></svg>', OUTSIDE),
    ("</g>", "", "whole"),
]


def cases(program):
    path = command_of("chromium", "chromium", "chromium-browser", "google-chrome")
    if path is None:
        print("note: no drawing was opened, since there is no Chromium and its package can't be had", flush=True)
        return
    with contextlib.closing(Chromium(path)) as chromium:
        try:
            opened = Opened(chromium)
        except Lost as fault:
            print(f"note: no page was opened, since {path} does not run on this machine: {fault}", flush=True)
            return
        yield from cases_of(program, opened)


def cases_of(program, opened):
    """The drawing of each example, the drawing with the most rows, and those that are to be refused."""
    view = view_of(program)
    sources = {name: program.example(name) for name in examples_of(program)}
    counts = {name: len(rows_of(program.run(["run"], source).output)[0]) for name, source in sources.items()}
    for name, source in sources.items():
        yield f"{name}: its drawing", opened.fault_of(view.run(["plan"], source).output, counts[name])
    rows, record = the_most_rows()
    yield f"a drawing of {len(rows)} rows", opened.fault_of(view.run(["plan"], record).output, len(rows))
    whole = view.run(["plan"], sources["anomaly_cown.boc"]).output.decode()
    for old, new, word in BROKEN:
        broken = re.sub(old, new, whole, count=1)
        fault = opened.fault_of(broken.encode(), counts["anomaly_cown.boc"])
        yield f"a drawing with {new!r}", None if broken != whole and word in (fault or "") else f"what is said of it is {fault}"


def examples_of(program):
    """The names of the programs among the examples."""
    return [os.path.join(folder, name) for folder in ("", "savina") for name in sorted(os.listdir(os.path.join(program.examples, folder)))
            if name.endswith(".boc")]


class Opened:
    """A browser that opens one text after the other, and has another tab for the colours of the pictures that it takes."""

    def __init__(self, chromium):
        self.colours, self.tab, self.schemes = Tab(chromium), Tab(chromium), ["light", "dark"]

    def fault_of(self, text, count):
        """What is wrong with a drawing of so many rows."""
        with tempfile.TemporaryDirectory() as folder:
            path = os.path.join(folder, "drawing.svg")
            with open(path, "wb") as file:
                file.write(text)
            try:
                return self.fault_of_opened(path, text.decode(), count) if b"</svg>" in text else "there is no drawing"
            except Lost as fault:
                return f"{fault}"

    def fault_of_opened(self, path, text, count):
        """It has the right colours, a mouse finds its bars, and nothing goes wrong meanwhile."""
        self.tab.resize(WIDTH, HEIGHT)
        self.tab.open(path)
        if self.tab.ask(IS_BROKEN):
            return "it can't be read whole"
        drawing = text[text.index("<svg"):text.index("</svg>")]
        places, is_thin = places_in(drawing), all(box.right - box.left < 8 for box in boxes_in(drawing))
        return (self.fault_of_events(path) or self.fault_of_colours(places, is_thin) or self.fault_of_bars(count) or self.fault_of_mouse(count)
                or self.fault_of_events(path))

    def fault_of_events(self, path):
        """Nothing is said on the console, and nothing is asked for but the file."""
        for it in self.tab.events("Network.requestWillBeSent", "Network.webSocketCreated"):
            if it.get("request", it)["url"] != f"file://{path}":
                return f"it asks for {it.get('request', it)['url']}"
        for it in self.tab.events("Runtime.exceptionThrown"):
            return f"its script fails: {it['exceptionDetails'].get('exception', {}).get('description', it['exceptionDetails']['text'])[:200]}"
        for it in self.tab.events("Runtime.consoleAPICalled", "Log.entryAdded"):
            return f"its console says {it['entry']['text'] if 'entry' in it else [said.get('value') for said in it['args']]}"
        return None

    def fault_of_colours(self, places, is_thin):
        """Each place has the colour of its group, in light and in dark, beginning with the one that there is."""
        self.schemes.sort(key=lambda it: it != self.tab.scheme)
        for scheme in self.schemes:
            self.tab.prefer(scheme)
            colours = self.colours.ask(COLOURS, self.tab.picture(WIDTH, max(it.y for it in places) + 1), [(it.x, it.y) for it in places])
            fault = next(filter(None, (place.fault_of(tuple(colour), scheme) for place, colour in zip(places, colours))), None)
            if fault is not None:
                return fault
        return None if is_thin or any(it.group != "ground" for it in places) else "nothing in it can be told by its colour"

    def fault_of_bars(self, count):
        """There is a bar for each row, with its title, which a mouse finds, or lanes of all rows; and nothing else is wrong with what stands there."""
        found = self.tab.ask(LOOK, 24 if count < MANY else 8)
        rows = sorted(int(re.match(r"row (\d+)\b.*: \d+ to \d+", it).group(1)) for it in found["titles"])
        over = [bar for bar in found["bars"] if bar["strange"] or not bar["found"]]
        drawn = list(range(count)) if count < FOLDED else []
        faults = [
            (rows != drawn, f"of {count} rows it draws {len(rows)} bars with titles"),
            (count >= FOLDED and found["folded"] != count, f"of {count} rows its lanes have {found['folded']}"),
            (not found["strips"] or rows and found["strips"] > found["chain"], f"the chain has {found['strips']} strips, and goes through {found['chain']} rows"),
            (over, f"over bars a mouse finds other things: {over[:1]}"),
            (found["blind"], f"over {found['blind']} marks of spawns a mouse finds nothing that has a title"),
            (found["wide"] > WIDTH, f"it is {found['wide']} pixels wide"),
        ]
        return next((fault for is_so, fault in faults if is_so), None)

    def fault_of_mouse(self, count):
        """A mouse that moves over a bar is over it, and one that has left it isn't."""
        if count >= FOLDED:
            return None
        moved = 0
        for row in dict.fromkeys([0, count - 1, count // 2, count // 3, count // 5, count - 2, 1]):
            found = self.tab.ask(PLACE, row) if 0 <= row < count and moved < (3 if count < MANY else 1) else None
            if found is not None:
                x, y, title = found
                for place, wanted in (((x, y), [True, title]), ((1, 1), [False, title])):
                    self.tab.move(*place)
                    told = self.tab.ask(TOLD)
                    if told != wanted:
                        return f"of row {row} a mouse at {place} is told {told} in place of {wanted}"
                moved += 1
        return None if moved else "a mouse finds no bar"
