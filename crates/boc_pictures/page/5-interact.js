// Mouse, fingers and keys: they pan, zoom, select and highlight.

const tip = document.getElementById('tip'), said = document.getElementById('said');
const calm = matchMedia('(prefers-reduced-motion: reduce)');
function show(from, to) {
  const most = whole(), least = Math.min(12, most);
  let wide = Math.min(Math.max(to - from, least), most), middle = (from + to) / 2;
  from = Math.min(Math.max(middle - wide / 2, 0), most - wide);
  state.view = {from, to: from + wide};
  tip.hidden = true;
  redraw();
}
const showRow = (begin, ticks) => show(begin - 2 * ticks, begin + 3 * ticks);
const reset = () => show(0, whole()), toSpan = () => show(0, state.now.span * 1.04);
function zoom(factor, x = (gutter + width) / 2) {
  const {from, to} = state.view, at = Math.min(Math.max(tickAt(x), from), to), wide = Math.min(Math.max((to - from) * factor, Math.min(12, whole())), whole());
  const part = (at - from) / (to - from);
  show(at - part * wide, at - part * wide + wide);
}
const pan = pixels => { const by = pixels * (state.view.to - state.view.from) / (width - gutter); show(state.view.from + by, state.view.to + by); };

// What is at a place of the canvas: a track, a tick, and a row where it is wide enough to be one, or else all the rows of that column.
function at(x, y) {
  const top = y - AXIS + scroll.scrollTop, track = state.tracks.find(track => top >= track.y - 1 && top <= track.y + track.h + 1);
  if (y < AXIS) return {axis: true};
  if (!track) return {};
  if (track.kind !== 'bars' || x < gutter) return {track, tick: tickAt(x)};
  const {list, start, ticks} = track, tick = tickAt(x), px = (state.view.to - state.view.from) / (width - gutter);
  const from = tickAt(Math.floor(x / WIDE) * WIDE), to = from + WIDE * px, found = [];
  for (let k = Math.max(0, lowerBound(list.length, i => start[list[i]] < from) - 40); k < list.length && start[list[k]] < to; k++) {
    const row = list[k];
    if (start[row] + ticks[row] > from) found.push(row);
  }
  const wide = found.filter(row => ticks[row] >= 2 * px);
  const under = wide.find(row => start[row] <= tick && tick < start[row] + ticks[row]) ?? wide[0];
  return {track, tick, row: under ?? (found.length === 1 ? found[0] : undefined), rows: found};
}
function hover(event) {
  const what = at(...placeOf(event)), lines = wordsOn(what);
  canvas.style.cursor = what.row !== undefined || what.track?.kind === 'head' || what.track?.opens ? 'pointer' : what.axis ? 'col-resize' : 'grab';
  tip.replaceChildren(...lines.map((line, k) => el(k ? 'div' : 'b', {}, line)));
  tip.hidden = lines.length === 0;
  if (tip.hidden) return;
  const {width: w, height: h} = tip.getBoundingClientRect();
  tip.style.left = `${Math.max(4, Math.min(event.clientX + 14, innerWidth - w - 6))}px`;
  tip.style.top = `${event.clientY + h + 24 > innerHeight ? event.clientY - h - 12 : event.clientY + 16}px`;
}

// What there is to say of what is at a place, line by line.
function wordsOn({track, tick, row, rows: found}) {
  const {now} = state;
  if (!track || track.kind === 'head' || tick < state.view.from) return [];
  if (track.kind === 'steps') {
    const {at: ticks, count} = track.steps, k = lowerBound(ticks.length, i => ticks[i] <= tick) - 1, n = k < 0 ? 0 : count[k];
    const waiting = track.cown !== undefined && `${many(n, 'behaviour waits', 'behaviours wait')} for ${told.cowns[track.cown]}`;
    return [waiting || `${many(n, 'behaviour')} at once`, `at tick ${num(Math.floor(tick))}`];
  }
  if (row !== undefined) {
    const begin = track.start[row], ticks = now.r.ticks[row], by = now.plan.by[row];
    const lines = [`${row}  ${rowName(row)}`, `${many(ticks, 'tick')}, from ${num(begin)} to ${num(begin + ticks)}`];
    if (by >= 0) lines.push(`waits ${num(now.plan.start[row] - spawnedAt(now, row))} for row ${by}: ${cownText(handed(now, by, row))}`);
    if (now.through[row]) lines.push(`the chain goes through ${num(now.through[row])} of its ticks`);
    return lines;
  }
  if (!found || !found.length) return [];
  const sums = new Map();
  for (const row of found) sums.set(rows.def[row], (sums.get(rows.def[row]) ?? 0) + 1);
  return [`${many(found.length, 'behaviour')} in this column`, ...Array.from(sums, ([def, n]) => `${num(n)} ${defName(def)}`), 'zoom in to see each'];
}
function select(row, isShown = true) {
  state.selected = row;
  if (row >= 0 && isShown) {
    const {now} = state, begin = now.plan.start[row], end = begin + now.r.ticks[row], {from, to} = state.view, wide = to - from;
    if (end < from || begin > to || (end - begin) < wide / 400) {
      const zoomed = Math.min(wide, Math.max((end - begin) * 24, 12));
      show((begin + end - zoomed) / 2, (begin + end + zoomed) / 2);
    }
    const track = state.tracks[state.rowTrack[row]];
    if (track && (track.y < scroll.scrollTop || track.y + track.h + 40 > scroll.scrollTop + height)) {
      const far = Math.abs(track.y - scroll.scrollTop) > 3 * height;
      scroll.scrollTo({top: Math.max(0, track.y - height / 2), behavior: calm.matches || far ? 'auto' : 'smooth'});
    }
    said.textContent = `row ${row}, ${rowName(row)}, ticks ${begin} to ${end}${now.through[row] ? ', on the chain' : ''}`;
  }
  tellDetails();
  redraw();
}

// Highlights the rows of a def, or those that have a cown, or those whose name has some letters; the same again ends it.
function highlight(what) {
  const same = what && state.highlight && what.def === state.highlight.def && what.cown === state.highlight.cown && what.text === state.highlight.text;
  state.highlight = !what || same && what.text === undefined ? null : what;
  Object.assign(state, {hit: null, hits: 0, hitDefs: new Set()});
  if (state.highlight) {
    const {def, cown, text} = state.highlight, wanted = text?.toLowerCase(), byNumber = wanted && /^#?\d+$/.test(wanted) ? Number(wanted.replace('#', '')) : -1;
    state.hit = new Uint8Array(N);
    for (let row = 0; row < N; row++) {
      const is = def !== undefined ? rows.def[row] === def : cown !== undefined ? cownsOf(row).includes(cown)
        : row === byNumber || rowName(row).toLowerCase().includes(wanted);
      if (is) { state.hit[row] = 1; state.hits++; state.hitDefs.add(rows.def[row]); }
    }
    const of = def !== undefined ? defName(def) : cown !== undefined ? told.cowns[cown] : `“${text}”`;
    said.textContent = `${of}: ${many(state.hits, 'behaviour')}`;
  } else said.textContent = '';
  copies = new WeakMap();
  mapStale = true;
  tellLegend();
  redraw();
}
function nextHit(by) {
  if (!state.hits) return;
  const sorted = byStart(allRows().filter(row => state.hit[row]), state.now.plan.start), place = sorted.indexOf(state.selected);
  select(sorted[place < 0 ? 0 : (place + by + sorted.length) % sorted.length]);
}
function alongChain(by) {
  const {chain, plan} = state.now, place = chain.indexOf(state.selected);
  if (place >= 0) return select(chain[Math.min(Math.max(place + by, 0), chain.length - 1)]);
  select(chain[Math.max(0, lowerBound(chain.length, k => plan.start[chain[k]] <= (state.view.from + state.view.to) / 2) - 1)]);
}
// Closes a part, or opens it; the lanes of a def likewise.
function fold(id) {
  if (!state.closed.delete(id)) state.closed.add(id);
  said.textContent = `${id}: ${state.closed.has(id) === id.startsWith('def ') ? 'open' : 'closed'}`;
  relay();
}

const fingers = new Map();
let drag = null;
const placeOf = ({clientX, clientY}) => { const {left, top} = canvas.getBoundingClientRect(); return [clientX - left, clientY - top]; };
function pointerDown(event) {
  const [x, y] = placeOf(event);
  fingers.set(event.pointerId, x);
  if (event.button) return;
  drag = {x, y, from: state.view.from, to: state.view.to, moved: false, axis: y < AXIS, spread: 0};
  if (fingers.size === 2) {
    const [a, b] = fingers.values();
    Object.assign(drag, {spread: Math.abs(a - b), x: (a + b) / 2});
  }
  canvas.setPointerCapture(event.pointerId);
  tip.hidden = true;
}
function pointerMove(event) {
  if (!drag) return hover(event);
  const [x] = placeOf(event);
  if (fingers.has(event.pointerId)) fingers.set(event.pointerId, x);
  if (Math.abs(x - drag.x) > 4) drag.moved = true;
  if (!drag.moved) return;
  const per = (drag.to - drag.from) / (width - gutter);
  if (fingers.size === 2 && drag.spread > 8) {
    const [a, b] = fingers.values(), factor = drag.spread / Math.max(Math.abs(a - b), 8);
    const middle = drag.from + (drag.x - gutter) * per, to = ((a + b) / 2 - gutter) * per * factor;
    show(middle - to, middle - to + (drag.to - drag.from) * factor);
  } else if (!drag.axis) show(drag.from - (x - drag.x) * per, drag.to - (x - drag.x) * per);
  else {
    drag.end = x;
    redraw();
  }
}
function pointerUp(event) {
  fingers.delete(event.pointerId);
  const was = drag;
  drag = null;
  if (!was || event.type === 'pointercancel') return;
  if (was.axis && was.moved) return show(Math.min(tickAt(was.x), tickAt(was.end)), Math.max(tickAt(was.x), tickAt(was.end)));
  if (was.moved) return;
  const {track, row, rows: found} = at(was.x, was.y);
  if (track && was.x < gutter && track.cown !== undefined) return highlight({cown: track.cown});
  if (track && was.x < gutter && track.def !== undefined && !track.opens) return highlight({def: track.def});
  if (row === undefined && found?.length > 1) return zoom(0.25, was.x);
  const id = track?.id ?? (track?.kind === 'steps' || was.x < gutter ? track?.opens : null);
  if (id) fold(id); else select(row ?? -1, false);
}
const doubleClick = event => { const {row, track} = at(...placeOf(event)); if (row !== undefined) showRow(track.start[row], track.ticks[row]); };
function wheel(event) {
  const sideways = event.shiftKey ? event.deltaY || event.deltaX : event.deltaX, isZoom = event.ctrlKey || event.metaKey;
  if (!isZoom && Math.abs(sideways) <= Math.abs(event.shiftKey ? 0 : event.deltaY)) return;
  event.preventDefault();
  if (isZoom) zoom(1.002 ** event.deltaY, placeOf(event)[0]); else pan(sideways);
}
function listen() {
  const hide = () => { tip.hidden = true; };
  const listenTo = (it, listeners) => { for (const [name, what] of Object.entries(listeners)) it.addEventListener(name, what); };
  const mapAt = event => (event.clientX - map.getBoundingClientRect().left - gutter) / (width - gutter) * whole();
  listenTo(canvas, {
    pointerdown: pointerDown, pointermove: pointerMove, pointerup: pointerUp, pointercancel: pointerUp, pointerleave: hide, dblclick: doubleClick,
  });
  listenTo(map, {
    pointerdown: event => { map.setPointerCapture(event.pointerId); centre(mapAt(event)); },
    pointermove: event => { if (event.buttons) centre(mapAt(event)); },
  });
  listenTo(window, {
    scroll: hide, blur: () => { hide(); held.clear(); }, keydown: keyDown, keyup: event => held.delete(event.key.toLowerCase()),
    beforeprint: () => printing(true), afterprint: () => printing(false), hashchange: fromHash,
  });
  scroll.addEventListener('wheel', wheel, {passive: false});
  scroll.addEventListener('scroll', () => { hide(); redraw(); });
  new ResizeObserver(() => { if (!state.printing) { size(); draw(); } }).observe(scroll);
  matchMedia('(prefers-color-scheme: dark)').addEventListener('change', recolour);
}
const centre = tick => { const half = (state.view.to - state.view.from) / 2; show(tick - half, tick + half); };
function printing(is) {
  const {dataset} = document.documentElement;
  if (is) state.before = {mode: state.mode, theme: dataset.theme};
  const {mode, theme} = state.before, asPrinted = is ? 'light' : theme;
  Object.assign(state, {printing: is, mode: is && state.height > PAPER && mode === 'rows' ? 'defs' : mode});
  if (asPrinted) dataset.theme = asPrinted; else delete dataset.theme;
  recolour();
  layOut();
  draw();
}
// `#r42` in the address selects row 42, and `#edit=..` makes these edits.
function fromHash() {
  const row = /^#r(\d+)$/.exec(location.hash), edits = /^#edit=(.*)$/.exec(location.hash);
  if (edits) applyEdits(editsFrom(edits[1]));
  if (!row || Number(row[1]) >= N) return;
  document.getElementById('viewer').scrollIntoView();
  select(Number(row[1]));
}

// Keys that are held go on, as fast as frames come; with reduced motion each stroke is one step.
const held = new Set(), MOVES = {w: [0, -1], s: [0, 1], a: [-1, 0], d: [1, 0], arrowleft: [-1, 0], arrowright: [1, 0], '+': [0, -1], '=': [0, -1], '-': [0, 1]};
function keyDown(event) {
  const key = event.key.toLowerCase(), row = state.selected;
  const inside = scroll.contains(document.activeElement) || document.activeElement === document.body;
  if (key === 'escape') {
    tip.hidden = true;
    if (document.activeElement === search()) search().blur();
    if (state.highlight) { search().value = ''; highlight(null); } else select(-1);
    return;
  }
  if (!inside || event.ctrlKey || event.metaKey || event.altKey) return;
  if (MOVES[key]) {
    event.preventDefault();
    if (calm.matches) return move(MOVES[key], 0.15);
    const idle = held.size === 0;
    if (!held.has(key)) move(MOVES[key], 0.06);
    held.add(key);
    if (idle) goOn(performance.now());
  } else if (key === '0') reset();
  else if (key === '/') { event.preventDefault(); search().focus(); search().select(); }
  else if (key === 'n' || key === 'p') nextHit(key === 'n' ? 1 : -1);
  else if (key === ']' || key === '[') alongChain(key === ']' ? 1 : -1);
  else if (key === 'f' && row >= 0) showRow(state.now.plan.start[row], state.now.r.ticks[row]);
  else if (key >= '1' && key <= '5') fold(['chain', 'once', 'plan', 'greedy', 'cowns'][key - 1]);
  else if (key === 'o' && (row >= 0 || state.highlight?.def !== undefined)) fold(`def ${state.highlight?.def ?? rows.def[row]}`);
  else if (key === 'arrowdown' || key === 'arrowup') { event.preventDefault(); scroll.scrollBy(0, key === 'arrowdown' ? 60 : -60); }
}
const move = ([sideways, out], part) => { if (sideways) pan(sideways * part * (width - gutter)); if (out) zoom((1 + part * 1.6) ** out); };
function goOn(before) {
  requestAnimationFrame(now => {
    for (const key of held) move(MOVES[key], Math.min((now - before) / 1000, 0.05) * 0.9);
    if (held.size) goOn(now);
  });
}
