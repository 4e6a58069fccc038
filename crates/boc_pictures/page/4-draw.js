// Drawing. Bars narrower than two pixels are added up in columns of two pixels. A column is filled as high as the part of it that bars take, in the
// colours of their defs, and the chain's part is drawn at its foot in the same way. So the area of a colour is what its behaviours take at every
// zoom, and nothing is drawn over anything else.

const MUTED = 0, CHAIN = 1, PLAIN = 2, WAITS = 3, FIRST_DEF = 4;
const WIDE = 2, PAPER = 920, AXIS = 26, MAP = 46, SMALL = '11px system-ui, sans-serif', NORMAL = '12px system-ui, sans-serif';
const HUES = ['#4c78a8', '#4a9641', '#a8699a', '#bb8500', '#2a948e', '#9d755d', '#7b6cc4', '#d0658a', '#7a9040', '#4a8fbf'];
const canvas = document.getElementById('canvas'), scroll = document.getElementById('scroll'), map = document.getElementById('map');
const pen = canvas.getContext('2d', {alpha: false}), mapPen = map.getContext('2d', {alpha: false}), frames = [];
let colours = [], inks = [], batches = [], theme = {}, width = 0, height = 0, gutter = 0, dots = 1, mapStale = true;

function readTheme() {
  const style = getComputedStyle(document.documentElement);
  for (const name of ['paper', 'ink', 'soft', 'line', 'band', 'muted', 'chain', 'plain', 'waits', 'focus'])
    theme[name] = style.getPropertyValue(`--${name}`).trim();
  colours = [theme.muted, theme.chain, theme.plain, theme.waits];
  const others = defOrder.filter(def => def !== rows.def[0] || told.source === null);
  for (let def = 0; def < DEFS; def++) {
    const place = others.indexOf(def);
    colours.push(place < 0 ? '#7f8a99' : HUES[place] ?? `oklch(61% 0.06 ${Math.round(place * 137.5) % 360})`);
  }
  inks = colours.map(colour => isDark(colour) ? '#fff' : '#000');
  batches = colours.map(() => []);
  mapStale = true;
}

// Whether white is easier to read than black on a colour, by its luminance.
function isDark(colour) {
  const part = at => ((parseInt(colour.slice(at, at + 2), 16) / 255 + 0.055) / 1.055) ** 2.4;
  return /^#.{6}$/.test(colour) && 0.2126 * part(1) + 0.7152 * part(3) + 0.0722 * part(5) < 0.179;
}

const colourOf = row => state.hit && !state.hit[row] ? MUTED : rows.def[row] + FIRST_DEF;
const scaleNow = () => (width - gutter) / (state.view.to - state.view.from);
const xOf = tick => gutter + (tick - state.view.from) * (width - gutter) / (state.view.to - state.view.from);
const tickAt = x => state.view.from + (x - gutter) / scaleNow();
const fill = (colour, x, y, w, h, on = pen) => { on.fillStyle = colour; on.fillRect(x, y, w, h); };
function say(text, x, y, colour, font = SMALL, align = 'left', on = pen) {
  Object.assign(on, {fillStyle: colour, font, textAlign: align, textBaseline: 'middle'});
  on.fillText(text, x, y);
}
function size() {
  dots = state.printing ? 2 : Math.min(window.devicePixelRatio || 1, 2);
  width = state.printing ? 700 : scroll.clientWidth;
  height = state.printing ? Math.min(state.height + AXIS, PAPER) : scroll.clientHeight;
  gutter = width < 620 ? 82 : WIDE * Math.round(Math.min(110, width * 0.085));
  for (const [it, h] of [[canvas, height], [map, MAP]])
    Object.assign(it, {width: Math.round(width * dots), height: Math.round(h * dots)}).style.height = `${h}px`;
  document.getElementById('spacer').style.height = `${Math.max(0, state.height + AXIS - height)}px`;
  mapStale = true;
}

let asked = false;
function redraw() {
  if (asked) return;
  asked = true;
  requestAnimationFrame(() => { asked = false; draw(); });
}
function draw() {
  const from = performance.now(), {tracks} = state, top = state.printing ? 0 : scroll.scrollTop, yOf = track => track.y - top + AXIS;
  const first = lowerBound(tracks.length, k => tracks[k].y + tracks[k].h < top);
  const shown = tracks.slice(first, lowerBound(tracks.length, k => tracks[k].y < top + height));
  pen.setTransform(dots, 0, 0, dots, 0, 0);
  fill(theme.paper, 0, 0, width, height);
  each((tick, x) => fill(theme.line, x, AXIS, 1, height));
  for (const track of shown) if (track.kind === 'bars') bars(track, yOf(track)); else if (track.kind === 'steps') steps(track, yOf(track));
  flush(pen);
  for (const track of shown) if (track.kind === 'bars') words(track, yOf(track));
  links(yOf);
  if (state.selected >= 0) chosen(shown, yOf);
  fill(theme.paper, 0, 0, gutter, height);
  for (const track of shown) label(track, yOf(track));
  axis();
  const below = state.printing ? tracks.length - lowerBound(tracks.length, k => yOf(tracks[k]) + tracks[k].h <= height) : 0;
  if (below) {
    fill(theme.paper, 0, height - 18, width, 18);
    say(`${many(below, 'lane')} more than fit on this sheet`, gutter, height - 8, theme.soft);
  }
  drawMap();
  frames.push(performance.now() - from);
  if (frames.length > 240) frames.shift();
}

// Calls its function at ticks that are 1, 2 or 5 times a power of ten apart, and at least 86 pixels.
function each(what) {
  const raw = Math.max(86 / scaleNow(), 1), power = 10 ** Math.floor(Math.log10(raw));
  const step = [1, 2, 5, 10].map(k => k * power).find(step => step >= raw * 0.999);
  for (let tick = Math.ceil(state.view.from / step) * step; tick <= state.view.to; tick += step) what(tick, Math.round(xOf(tick)));
}
function axis() {
  fill(theme.paper, 0, 0, width, AXIS - 1);
  each((tick, x) => {
    const half = pen.measureText(num(tick)).width / 2;
    if (x > gutter - 1) say(num(tick), Math.min(Math.max(x, gutter + 4), width - half - 4), 12, theme.soft, SMALL, 'center');
  });
  say('ticks', 8, 12, theme.soft);
  fill(theme.line, 0, AXIS - 1, width, 1);
  const end = Math.round(xOf(state.now.span));
  if (end > gutter && end < width) { fill(theme.chain, end - 1, 18, 2, 8); say('span', end - 5, 22, theme.chain, SMALL, 'right'); }
  if (drag?.axis && drag.end) fill(`${theme.focus}40`, drag.x, 0, drag.end - drag.x, height);
}
function lowerBound(count, isBefore) {
  let at = 0;
  for (let left = count; left > 0;) {
    const half = left >> 1;
    if (isBefore(at + half)) { at += half + 1; left -= half + 1; } else left = half;
  }
  return at;
}
// Which part of a list, sorted by start, is in view: the first row is one before the first that starts there, unless rows overlap as they share a cown.
function seen(list, start, overlap) {
  const {from, to} = state.view;
  return [overlap ? 0 : Math.max(0, lowerBound(list.length, i => start[list[i]] < from) - 1), lowerBound(list.length, i => start[list[i]] < to)];
}
// Rectangles are kept by colour, so that the pen changes it once for each.
const rect = (colour, x, y, w, h) => batches[colour].push(x, y, w, h), feet = [], rules = [];
function flush(on) {
  batches.forEach((batch, colour) => {
    on.fillStyle = colours[colour];
    for (let k = 0; k < batch.length; k += 4) on.fillRect(batch[k], batch[k + 1], batch[k + 2], batch[k + 3]);
    batch.length = 0;
  });
}

// The column that is added up: which part of it each colour takes, and the chain, and up to where the most reaches. Columns that are filled alike, to
// half a pixel, become one rectangle.
const share = new Float64Array(FIRST_DEF + DEFS), used = [], last = {end: -1, stack: []};
let column = -1, chainShare = 0, peak = 0;
function addTo(at, colour, part, y, h) {
  if (at !== column) { closeColumn(y, h); column = at; }
  if (share[colour] === 0) used.push(colour);
  share[colour] += part;
}
function closeColumn(y, h) {
  if (column < 0) return;
  if (peak > 0) { const rest = peak - used.reduce((sum, colour) => sum + share[colour], 0); if (rest > 0.01) { used.push(MUTED); share[MUTED] = rest; } }
  if (used.length > 1) used.sort((a, b) => b - a);
  const strip = Math.round(chainShare * 40) / 10, {stack} = last;
  let same = last.end === column && last.y === y && last.strip === strip && stack.length === 2 * used.length;
  for (let k = 0; k < used.length; k++) {
    share[used[k]] = Math.round(2 * Math.min(share[used[k]], 1) * h) / 2;
    same &&= stack[2 * k] === used[k] && stack[2 * k + 1] === share[used[k]];
  }
  if (!same) {
    closeRun();
    Object.assign(last, {from: column, y, h, strip});
    stack.length = 0;
    for (const colour of used) stack.push(colour, share[colour]);
  }
  for (const colour of used) share[colour] = 0;
  last.end = column + WIDE;
  used.length = chainShare = peak = 0;
  column = -1;
}
function closeRun() {
  const {from, end, y, h, strip, stack} = last;
  if (end < 0) return;
  for (let k = 0, foot = y + h; k < stack.length; k += 2) rect(stack[k], from, foot -= stack[k + 1], end - from, stack[k + 1]);
  if (strip) feet.push(from, y + h - strip, end - from, strip);
  last.end = -1;
}
// Calls its function with the columns between two places, and the part of each that is between them.
function columnsOf(left, right, what) {
  if (left >= right) return;
  for (let at = Math.floor(Math.max(left, gutter) / WIDE) * WIDE, end = Math.min(right, width); at < end; at += WIDE)
    what(at, (Math.min(right, at + WIDE) - Math.max(left, at)) / WIDE);
}

// A list with many rows in view is drawn from a coarser copy, made once for each doubling of the scale: what each part of the time holds.
let copies = new WeakMap();
function coarse(list, make) {
  const parts = 2 ** Math.ceil(Math.log2(scaleNow() * whole())), per = whole() / parts;
  if (!copies.has(list)) copies.set(list, new Map());
  const own = copies.get(list);
  if (!own.has(parts)) own.set(parts, {per, ...make(per)});
  return own.get(parts);
}
function coarseBars(list, start, ticks, through, per) {
  const part = [], colour = [], amount = [], sums = new Float64Array(share.length), some = [];
  let now = -1;
  const close = () => { for (const key of some) { part.push(now); colour.push(key); amount.push(sums[key] / per); sums[key] = 0; } some.length = 0; };
  const add = (key, ticks) => { if (sums[key] === 0) some.push(key); sums[key] += ticks; };
  for (const row of list) {
    const key = colourOf(row), begin = start[row], end = begin + ticks[row], middle = through ? begin + through[row] : begin;
    for (let at = Math.floor(begin / per); at * per < end; at++) {
      if (at !== now) { close(); now = at; }
      const from = Math.max(begin, at * per), to = (at + 1) * per;
      add(key, Math.min(end, to) - from);
      if (middle > from) add(CHAIN, Math.min(middle, to) - from);
    }
  }
  close();
  return {part, colour, amount};
}
function coarseSteps({at, count}, per) {
  const mean = new Float64Array(Math.ceil(whole() / per) + 1), most = new Uint32Array(mean.length);
  for (let k = 0; k < at.length - 1; k++) for (let p = Math.floor(at[k] / per); p * per < at[k + 1]; p++) {
    mean[p] += count[k] * (Math.min(at[k + 1], (p + 1) * per) - Math.max(at[k], p * per)) / per;
    most[p] = Math.max(most[p], count[k]);
  }
  return {mean, most};
}
function bars({list, start, ticks, row: alone, h, isChain, overlap}, y) {
  const {view, now} = state, scale = scaleNow(), through = isChain ? null : now.through, [first, end] = seen(list, start, overlap);
  if (alone !== undefined) {                            // from its spawn to its start a row waits: a thin line
    const from = Math.max(xOf(spawnedAt(now, alone)), gutter), to = Math.min(xOf(now.plan.start[alone]), width);
    if (to - from > 1) rect(WAITS, from, y + h / 2 - 0.5, to - from, 1);
  }
  if (end - first > 2 * (width - gutter)) {
    const {per, part, colour, amount} = coarse(list, per => coarseBars(list, start, ticks, through, per));
    for (let k = lowerBound(part.length, i => (part[i] + 1) * per < view.from), next = k; k < part.length && part[k] * per < view.to; k = next) {
      while (next < part.length && part[next] === part[k]) next++;
      const left = xOf(part[k] * per);
      columnsOf(left, left + per * scale, (at, wide) => {
        for (let i = k; i < next; i++) if (colour[i] === CHAIN) chainShare += amount[i] * wide; else addTo(at, colour[i], amount[i] * wide, y, h);
      });
    }
  } else for (let k = first; k < end; k++) {
    const row = list[k], left = xOf(start[row]), right = left + ticks[row] * scale, middle = left + (through ? through[row] * scale : 0);
    if (right <= gutter) continue;
    if (right - left < 2) {
      columnsOf(left, right, (at, wide) => {
        addTo(at, colourOf(row), wide, y, h);
        chainShare += Math.max(0, Math.min(middle, at + WIDE) - Math.max(left, at)) / WIDE;
      });
      continue;
    }
    closeColumn(y, h);
    const x = Math.max(left, gutter - 2), w = Math.min(right, width + 2) - x;
    rect(colourOf(row), x, y, right - left > 5 ? w - 0.7 : w, h);
    if (middle > x) feet.push(x, y + h - 4, Math.min(middle, width + 2) - x, 4);
  }
  closeColumn(y, h);
  closeRun();
}

// How many there are at each tick: as high as they are on average in a column, and paler up to the most.
function steps({steps: shape, h, colour: own, line}, y) {
  const colour = state.hit && own >= FIRST_DEF && !state.hitDefs.has(own - FIRST_DEF) ? MUTED : own;
  const {view} = state, {at, count} = shape, tall = Math.max(shape.most, 1);
  const first = Math.max(0, lowerBound(at.length, i => at[i] <= view.from) - 1), end = lowerBound(at.length, i => at[i] < view.to);
  const add = (left, right, mean, most) => columnsOf(left, right, (p, part) => {
    addTo(p, colour, mean / tall * part, y, h);
    peak = Math.max(peak, most / tall);
  });
  if (end - first > 2 * (width - gutter)) {
    const {per, mean, most} = coarse(at, per => coarseSteps(shape, per));
    for (let k = Math.max(0, Math.floor(view.from / per)); k < mean.length && k * per < view.to; k++)
      if (most[k]) add(xOf(k * per), xOf((k + 1) * per), mean[k], most[k]);
  } else for (let k = first; k < end && k < at.length - 1; k++) {
    const left = xOf(at[k]), right = xOf(at[k + 1]);
    if (right <= gutter || !count[k]) continue;
    if (right - left < 2 * WIDE) { add(left, right, count[k], count[k]); continue; }
    // What is wide is one rectangle, except in the columns at its ends that it shares with what is narrow.
    const narrow = i => i < at.length - 1 && xOf(at[i + 1]) - xOf(at[i]) < 2 * WIDE;
    const snap = x => Math.round(Math.min(Math.max(x, gutter), width) * dots) / dots, high = count[k] / tall * h;
    const from = k > first && narrow(k - 1) ? Math.ceil(left / WIDE) * WIDE : left, to = narrow(k + 1) ? Math.floor(right / WIDE) * WIDE : right;
    add(left, from, count[k], count[k]);
    closeColumn(y, h);
    closeRun();
    rect(colour, snap(from), y + h - high, snap(to) - snap(from), high);
    add(to, right, count[k], count[k]);
  }
  closeColumn(y, h);
  closeRun();
  if (line && line < tall) rules.push(y + h - line / tall * h);
}

// Names in bars that are wide enough, and in a lane of one row marks where it spawns.
function words({list, start, ticks, row: alone, h, overlap}, y) {
  const [first, end] = seen(list, start, overlap);
  if (end - first > width) return;
  pen.font = SMALL;
  for (let k = first; k < end; k++) {
    const row = list[k], left = Math.max(xOf(start[row]), gutter), room = Math.min(xOf(start[row] + ticks[row]), width) - left - 8;
    const fits = text => text.length * 5.9 <= room || pen.measureText(text).width <= room;
    if (room > 14 && alone === undefined) say([rowName(row), defName(rows.def[row])].find(fits) ?? '', left + 4, y + h / 2 - 0.5, inks[colourOf(row)]);
    if (alone === undefined || scaleNow() < 0.2) continue;
    for (let i = childFirst[row]; i < childFirst[row + 1]; i++) {
      const x = xOf(start[row] + state.now.r.offset[child[i]]);
      if (x > gutter && x < width) fill(theme.ink, x - 1, y, 1.2, 5);
    }
  }
}
function stroke(colour, wide, places, dash = []) {
  Object.assign(pen, {strokeStyle: colour, lineWidth: wide});
  pen.setLineDash(dash);
  pen.beginPath();
  for (const line of places) line.forEach(([x, y], k) => k ? pen.lineTo(x, y) : pen.moveTo(x, y));
  pen.stroke();
  pen.setLineDash([]);
}

// The chain's strips, above the bars, and its links from row to row if they are far enough apart.
function links(yOf) {
  const {now, tracks} = state, {start} = now.plan, [first, end] = seen(now.chainList, start);
  for (let k = 0; k < feet.length; k += 4) {
    if (feet[k + 3] === 4) fill(theme.paper, feet[k], feet[k + 1] - 1, feet[k + 2], 1);
    fill(theme.chain, feet[k], feet[k + 1], feet[k + 2], feet[k + 3]);
  }
  for (const y of rules) fill(theme.ink, gutter, y - 0.5, width - gutter, 1);
  feet.length = rules.length = 0;
  if ((end - first) * 5 > width - gutter) return;
  const lines = [];
  for (let k = first; k < end && k + 1 < now.chain.length; k++) {
    const a = tracks[state.rowTrack[now.chain[k]]], b = tracks[state.rowTrack[now.chain[k + 1]]], x = xOf(start[now.chain[k + 1]]);
    if (!a || !b || a === b || x < gutter || x > width) continue;
    lines.push(a.y < b.y ? [[x, yOf(a) + a.h], [x, yOf(b)]] : [[x, yOf(a)], [x, yOf(b) + b.h]]);
  }
  stroke(theme.chain, 1.5, lines);
}

// Frames the selected row in each plan, with lines to its parent and to the row that it waits for.
function chosen(shown, yOf) {
  const row = state.selected, {now, tracks} = state, here = tracks[state.rowTrack[row]];
  const isIn = ({list, start}) => {
    let k = lowerBound(list.length, i => start[list[i]] < start[row]);
    while (k < list.length && start[list[k]] === start[row] && list[k] !== row) k++;
    return list[k] === row;
  };
  for (const track of shown.filter(track => track.kind === 'bars' && isIn(track))) {
    const x = xOf(track.start[row]) - 2.5, w = Math.max(track.ticks[row] * scaleNow(), 2) + 5, y = yOf(track) - 2.5;
    for (const [strokeStyle, lineWidth] of [[theme.paper, 4.5], [theme.focus, 2]]) {
      Object.assign(pen, {strokeStyle, lineWidth});
      pen.strokeRect(x, y, w, track.h + 5);
    }
  }
  for (const [other, tick, dash] of [[row ? now.r.parent[row] : -1, spawnedAt(now, row), [4, 3]], [now.plan.by[row], now.plan.start[row], []]]) {
    const there = other < 0 ? null : tracks[state.rowTrack[other]];
    if (!here || !there || here === there) continue;
    const foot = yOf(here) + here.h / 2;
    stroke(theme.focus, 1.5, [[[xOf(tick), yOf(there) + there.h / 2], [xOf(tick), foot], [xOf(now.plan.start[row]), foot]]], dash);
  }
}
function label(track, y) {
  if (track.kind === 'head') {
    fill(theme.band, 0, y, width, HEAD - 4);
    say(`${track.closed ? '▸' : '▾'} ${track.text}`, 8, y + 11, theme.ink, `600 ${NORMAL}`);
    const from = 20 + pen.measureText(`▾ ${track.text}`).width;
    pen.font = NORMAL;
    return say(clipped(track.note, width - from - 8), from, y + 11, theme.soft, NORMAL);
  }
  const {highlight: lit} = state, sub = track.sub && gutter > 140 ? track.sub : '', number = track.row === undefined ? '' : `${track.row} `;
  const isLit = lit && (track.cown !== undefined && lit.cown === track.cown || track.def !== undefined && lit.def === track.def);
  const sign = track.opens ? track.kind === 'steps' ? '▸ ' : '▾ ' : number;
  say(sub, gutter - 8, y + track.h / 2, theme.soft, SMALL, 'right');
  const room = gutter - 16 - (sub ? pen.measureText(sub).width + 6 : 0);
  pen.font = NORMAL;
  const name = track.row === undefined ? track.name : gutter > 100 ? rowName(track.row) : defName(rows.def[track.row]);
  say(clipped(sign + name, room), 8, y + track.h / 2, isLit ? theme.focus : theme.ink, NORMAL);
}
function clipped(text, room) {
  if (pen.measureText(text).width <= room) return text;
  const least = lowerBound(text.length, k => pen.measureText(text.slice(0, k + 1) + '…').width <= room);
  return least > 0 ? text.slice(0, least) + '…' : '';
}

// All of the run, with the chain by def and how many run at once, and a window over what is shown.
const still = document.createElement('canvas'), stillPen = still.getContext('2d', {alpha: false});
function drawMap() {
  const {view, now} = state;
  if (mapStale) {
    mapStale = false;
    Object.assign(still, {width: map.width, height: map.height});
    stillPen.setTransform(dots, 0, 0, dots, 0, 0);
    fill(theme.paper, 0, 0, width, MAP, stillPen);
    state.view = {from: 0, to: whole()};
    steps({steps: now.steps, h: 32, colour: PLAIN}, 12);
    bars({list: now.chainList, start: now.plan.start, ticks: now.through, h: 9, isChain: true}, 1);
    flush(stillPen);
    state.view = view;
  }
  mapPen.setTransform(1, 0, 0, 1, 0, 0);
  mapPen.drawImage(still, 0, 0);
  mapPen.setTransform(dots, 0, 0, dots, 0, 0);
  const per = (width - gutter) / whole(), from = gutter + view.from * per, to = gutter + view.to * per;
  fill(theme.paper, 0, 0, gutter, MAP, mapPen);
  mapPen.globalAlpha = 0.65;
  fill(theme.paper, gutter, 0, Math.max(0, from - gutter), MAP, mapPen);
  fill(theme.paper, to, 0, Math.max(0, width - to), MAP, mapPen);
  Object.assign(mapPen, {globalAlpha: 1, strokeStyle: theme.focus, lineWidth: 1.5});
  mapPen.strokeRect(from + 0.75, 0.75, Math.max(to - from - 1.5, 2), MAP - 1.5);
  say('all of it', 8, MAP / 2, theme.soft, SMALL, 'left', mapPen);
}

// How many ticks there are to show: all that a plan in the picture takes, and some room at its end.
const greedyNow = () => state.now === state.base && state.workers === told.p ? toldGreedy : state.now.greedy(state.workers);
const whole = () => 1.02 * Math.max(state.now.span, state.closed.has('greedy') ? 0 : greedyNow().end);
