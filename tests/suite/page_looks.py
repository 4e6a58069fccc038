"""What can be seen and heard of a page that is open: whether its texts and bars differ enough from what is behind them, whether a text is on another one, what
its controls are called, and what a keyboard reaches. Each gives what is wrong, or nothing."""
from .chromium import Lost

# The contrast of a text with what is behind it, and of a bar, at least: levels AA of WCAG 2.2, 1.4.3 and 1.4.11.
TEXT, BAR = 4.5, 3

# The luminance and contrast of colours that a browser computed, as WCAG has them; any colour as numbers; and what is behind an element.
COLOURS = """
  const canvasOf = new OffscreenCanvas(1, 1).getContext('2d', {willReadFrequently: true}), known = new Map();
  const numbers = colour => {
    if (!known.has(colour)) {
      canvasOf.clearRect(0, 0, 1, 1);
      canvasOf.fillStyle = colour;
      canvasOf.fillRect(0, 0, 1, 1);
      known.set(colour, Array.from(canvasOf.getImageData(0, 0, 1, 1).data));
    }
    return known.get(colour);
  };
  const part = it => it / 255 <= 0.04045 ? it / 255 / 12.92 : ((it / 255 + 0.055) / 1.055) ** 2.4;
  const luminance = colour => { const [r, g, b] = numbers(colour); return 0.2126 * part(r) + 0.7152 * part(g) + 0.0722 * part(b); };
  const contrast = (a, b) => { const [low, high] = [luminance(a), luminance(b)].sort((x, y) => x - y); return (high + 0.05) / (low + 0.05); };
  const behind = it => {
    for (; it; it = it.parentElement) {
      const {backgroundColor} = getComputedStyle(it);
      if (numbers(backgroundColor)[3] === 255) return backgroundColor;
    }
    return 'white';
  };
"""

# Every text that is shown, every bar of a table, line of the curve and swatch, with too little contrast.
CONTRASTS = """(least, leastBar) => {""" + COLOURS + """
  const found = [], walker = document.createTreeWalker(document.body, NodeFilter.SHOW_TEXT), note = (what, of, on, wanted) => {
    const got = contrast(of, on);
    if (got < wanted) found.push(`${what}: ${of} on ${on} is ${got.toFixed(2)}`);
  };
  for (let node = walker.nextNode(); node; node = walker.nextNode()) {
    const it = node.parentElement;
    if (!node.data.trim() || !it.checkVisibility() || it.closest('script, style, noscript, button:disabled')) continue;
    const {color, fill} = getComputedStyle(it);
    note(`the text ${node.data.trim().slice(0, 40)}`, it.closest('svg') ? fill : color, behind(it), least);
  }
  for (const it of document.querySelectorAll('input[placeholder]')) note('a placeholder', getComputedStyle(it, '::placeholder').color, behind(it), least);
  for (const it of document.querySelectorAll('.meter i, .swatch')) {
    const style = getComputedStyle(it), own = numbers(style.backgroundColor)[3] ? style.backgroundColor : style.borderTopColor;
    if (it.checkVisibility()) note(`a bar of ${it.parentElement.className || it.parentElement.textContent}`, own, behind(it.parentElement), leastBar);
  }
  for (const it of document.querySelectorAll('svg .linear, svg .roof, svg .floor, svg .greedy'))
    note(`a line of the curve, ${it.getAttribute('class')},`, getComputedStyle(it).stroke, behind(it), leastBar);
  for (const it of document.querySelectorAll('button:not(.link, th button), select, input[type=search], input[type=number]'))
    if (it.checkVisibility()) note('the edge of a control', getComputedStyle(it).borderTopColor, behind(it.parentElement), leastBar);
  return found;
}"""

# The same of the picture: its colours, the texts in bars, and those beside them. The first colour is for what is not highlighted, and may be pale.
PALETTE = """(least, leastBar) => {""" + COLOURS + """
  const found = [], note = (what, of, on, wanted) => {
    if (contrast(of, on) < wanted) found.push(`${what}: ${of} on ${on} is ${contrast(of, on).toFixed(2)}`);
  };
  colours.forEach((colour, k) => {
    if (k) note(`the colour ${k}`, colour, theme.paper, leastBar);
    note(`a text on the colour ${k}`, inks[k], colour, least);
  });
  for (const name of ['ink', 'soft', 'focus']) for (const on of ['paper', 'band']) note(`${name} on ${on}`, theme[name], theme[on], least);
  return found;
}"""

# Every two texts of the page that are at one place, cut to what their boxes show.
OVERLAPS = """() => {
  const found = [], walker = document.createTreeWalker(document.body, NodeFilter.SHOW_TEXT), all = [];
  const shownOf = it => {
    const box = {left: -1e9, top: -1e9, right: 1e9, bottom: 1e9};
    for (; it && it !== document.body; it = it.parentElement) {
      if (getComputedStyle(it).overflow === 'visible' || it.closest('svg')) continue;
      const {left, top, right, bottom} = it.getBoundingClientRect();
      Object.assign(box, {left: Math.max(box.left, left), top: Math.max(box.top, top)});
      Object.assign(box, {right: Math.min(box.right, right), bottom: Math.min(box.bottom, bottom)});
    }
    return box;
  };
  for (let node = walker.nextNode(); node; node = walker.nextNode()) {
    const it = node.parentElement;
    if (!node.data.trim() || !it.checkVisibility() || it.closest('script, style, noscript, select, #said')) continue;
    const range = document.createRange(), shown = shownOf(it);
    range.selectNodeContents(node);
    for (const {left, top, right, bottom} of range.getClientRects()) {
      const box = [Math.max(left, shown.left), Math.max(top, shown.top), Math.min(right, shown.right), Math.min(bottom, shown.bottom)];
      if (box[2] - box[0] > 1 && box[3] - box[1] > 3) all.push({node, box, text: node.data.trim().slice(0, 30)});
    }
  }
  all.sort((a, b) => a.box[1] - b.box[1]);
  all.forEach(({node, box: [l, t, r, b], text}, k) => {
    for (let i = k + 1; i < all.length && all[i].box[1] < b - 4; i++) {
      const [left, top, right, bottom] = all[i].box;
      if (all[i].node !== node && Math.min(r, right) - Math.max(l, left) > 1.5 && Math.min(b, bottom) - top > 4) found.push([text, all[i].text]);
    }
    if (l < -1 || r > innerWidth + 1) found.push([text, 'the edge of the window']);
  });
  return found;
}"""

# The same of the texts that the picture draws, at its top.
WORDS = """() => {
  const own = say, all = [], found = [];
  window.say = (text, x, y, colour, font, align = 'left', on = pen) => {
    own(text, x, y, colour, font, align, on);
    const wide = on.measureText(text).width, left = align === 'left' ? x : align === 'right' ? x - wide : x - wide / 2;
    if (text && on === pen && y > 4 && y < height - 20) all.push([left, y - 5, left + wide, y + 5, text]);
  };
  scroll.scrollTop = 0;
  draw();
  window.say = own;
  all.forEach(([l, t, r, b, text], k) => {
    for (const [left, top, right, bottom, other] of all.slice(k + 1))
      if (Math.min(r, right) - Math.max(l, left) > 0.5 && Math.min(b, bottom) - Math.max(t, top) > 0.5) found.push([text, other]);
    if (l < 0 || r > width) found.push([text, 'the edge of the picture']);
  });
  return found;
}"""

# What each control does without a mouse: those that the key Tab reaches, in the order of the page, and whether it can be seen that it does.
REACHED = """() => Array.from(document.querySelectorAll('a[href], button, input, select, summary, [tabindex]')).filter(it => it.checkVisibility())
  .filter(it => it.tabIndex < 0 && !it.disabled).map(it => it.outerHTML.slice(0, 80))"""

# The roles of what can be worked with.
CONTROLS = {"button", "checkbox", "combobox", "link", "radio", "searchbox", "slider", "spinbutton", "textbox", "DisclosureTriangle"}


# What is wrong with the looks of a page: what stands there, what is put in its place, and a word of what is said of it.
BROKEN_LOOKS = [
    ("--soft: #5a6470;", "--soft: #8a94a0;", "contrast"),
    ("--plain: #6b93bb;", "--plain: #a0b8d0;", "the colour 2"),
    ("'#fff' : '#000'", "'#000' : '#fff'", "a text on the colour"),
    (".meter.chain i { background: var(--chain); }", ".meter.chain i { background: var(--line); }", "a bar"),
    ("h2 { margin: 34px 0 10px;", "h2 { margin: -30px 0 10px;", "on others"),
    ("return say(clipped(track.note, width - from - 8), from,", "return say(clipped(track.note, width - from - 8), from - 60,", "on others"),
    ("'aria-label': `early spawns by ${defName(def)}`,", "", "two of the kind checkbox"),
    ("'aria-label': `ticks of ${defName(def)} in percent`,", "", "a slider has no name"),
]


def fault_of_contrast(tab):
    """Texts and bars of the page and of its picture can be told from what is behind them."""
    found = tab.ask(CONTRASTS, TEXT, BAR) + tab.ask(PALETTE, TEXT, BAR)
    return f"{len(found)} have too little contrast, first {found[0]}" if found else None


def fault_of_overlaps(tab):
    """No text is on another one, or over the edge."""
    found = tab.ask(OVERLAPS) + tab.ask(WORDS)
    return f"{len(found)} texts are on others, first {found[0]}" if found else None


def fault_of_controls(tab):
    """In the tree that a screen reader is given, each control and each box that a key reaches has a name, and no two controls of a kind have the same one."""
    nodes = [it for it in tab.call("Accessibility.getFullAXTree")["nodes"] if not it["ignored"]]
    seen = set()
    for node in nodes:
        role, name = node.get("role", {}).get("value"), node.get("name", {}).get("value", "").strip()
        focusable = any(it["name"] == "focusable" and it["value"].get("value") for it in node.get("properties", []))
        if role in CONTROLS or focusable and role not in ("RootWebArea", "MenuListPopup", "MenuListOption", "option"):
            if not name:
                return f"a {role} has no name"
        if role in ("checkbox", "slider", "combobox", "searchbox", "spinbutton"):
            if (role, name) in seen:
                return f"two of the kind {role} are called {name!r}"
            seen.add((role, name))
        if role in ("image", "img", "graphics-document", "Canvas") and not name:
            return f"a picture, {role}, has no name"
    heads = [(it["name"]["value"], next(p["value"]["value"] for p in it["properties"] if p["name"] == "level")) for it in nodes
             if it.get("role", {}).get("value") == "heading"]
    if [level for _, level in heads][:1] != [1] or any(after > before + 1 for (_, before), (_, after) in zip(heads, heads[1:])):
        return f"its headings are {heads}"
    unreached = tab.ask(REACHED)
    return f"no key reaches {unreached[0]}" if unreached else None


def fault_of_looks(tab):
    try:
        return fault_of_contrast(tab) or fault_of_overlaps(tab)
    except Lost as fault:
        return f"{fault}"
