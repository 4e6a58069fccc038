// Plans: edits, the order that cowns impose, the earliest plan, its chain, and greedy plans, by the rules of docs/RECORDS.md.

// A heap of numbers, the smallest one first. A tick and a row are kept in one number: 65,535,000,000 ticks by 131,072 codes stay below 2 ** 53.
class Heap {
  constructor(most) { this.items = new Float64Array(most + 1); this.size = 0; }
  get top() { return this.items[0]; }
  push(item) {
    const a = this.items;
    let at = this.size++;
    for (; at > 0; at = at - 1 >> 1) {
      const up = a[at - 1 >> 1];
      if (up <= item) break;
      a[at] = up;
    }
    a[at] = item;
  }
  pop() {
    const a = this.items, top = a[0], item = a[--this.size];
    let at = 0;
    for (let down = 1; down < this.size; down = 2 * at + 1) {
      if (down + 1 < this.size && a[down + 1] < a[down]) down++;
      if (a[down] >= item) break;
      a[at] = a[down];
      at = down;
    }
    a[at] = item;
    return top;
  }
}

const MOST_TICKS = 1e6, CODES = 131072;
const noEdits = () => ({scale: new Map(), early: new Set(), without: new Set()});
const isEdited = edits => edits.scale.size + edits.early.size + edits.without.size > 0;

// The rows with edits: without some cowns, then with the children of some defs spawned as early as possible, then with the ticks of defs scaled by [k, d].
function editedRows(edits) {
  let {first, hold, wrote, offset, ticks} = rows;
  if (edits.without.size) {
    const keep = [];
    first = new Uint32Array(N + 1);
    for (let row = 0; row < N; row++) {
      for (let k = rows.first[row]; k < rows.first[row + 1]; k++) if (!edits.without.has(rows.hold[k])) keep.push(k);
      first[row + 1] = keep.length;
    }
    hold = Uint16Array.from(keep, k => rows.hold[k]);
    wrote = Uint8Array.from(keep, k => rows.wrote[k]);
  }
  if (edits.scale.size || edits.early.size) { offset = offset.slice(); ticks = ticks.slice(); }
  for (let row = 0; row < N && offset !== rows.offset; row++) {
    const [k, d] = edits.scale.get(rows.def[row]) ?? [1, 1], early = edits.early.has(rows.def[row]);
    if (k === d && !early) continue;
    let last = 0;
    for (let i = childFirst[row]; i < childFirst[row + 1]; i++)
      offset[child[i]] = last = Math.max(Math.ceil((early ? i + 1 - childFirst[row] : rows.offset[child[i]]) * k / d), last + 1);
    ticks[row] = Math.max(1, Math.ceil(rows.ticks[row] * k / d), last);
    if (ticks[row] > MOST_TICKS) return {refused: `row ${row} would take more than ${num(MOST_TICKS)} ticks`};
  }
  return {def: rows.def, parent: rows.parent, offset, ticks, first, hold, wrote};
}

// The order on cowns: row before[k] ends before a row starts, over cown over[k], for k from edge[row] to edge[row + 1] - 1. Only the latest such
// rows are listed.
function orderOf(r) {
  const edge = new Uint32Array(N + 1), before = [], over = [], writer = new Int32Array(C).fill(-1), readers = Array.from({length: C}, () => []);
  for (let row = 0; row < N; row++) {
    for (let k = r.first[row]; k < r.first[row + 1]; k++) {
      const cown = r.hold[k], shares = told.shared && !r.wrote[k];
      if (!shares && readers[cown].length) for (const other of readers[cown]) { before.push(other); over.push(cown); }
      else if (writer[cown] >= 0) { before.push(writer[cown]); over.push(cown); }
      if (shares) readers[cown].push(row); else { writer[cown] = row; readers[cown].length = 0; }
    }
    edge[row + 1] = before.length;
  }
  return {edge, before: Uint32Array.from(before), over: Uint16Array.from(over)};
}

// Each row as early as possible; `by` is the lowest row whose end it starts at, or -1 if it starts as it is spawned.
function earliestPlan(r, order) {
  const start = new Float64Array(N), by = new Int32Array(N).fill(-1);
  let span = 0, last = 0;
  for (let row = 0; row < N; row++) {
    let at = row ? start[r.parent[row]] + r.offset[row] : 0, who = -1;
    for (let k = order.edge[row]; k < order.edge[row + 1]; k++) {
      const other = order.before[k], end = start[other] + r.ticks[other];
      if (end > at) { at = end; who = other; } else if (end === at && who > other) who = other;
    }
    start[row] = at;
    by[row] = who;
    if (at + r.ticks[row] > span) { span = at + r.ticks[row]; last = row; }
  }
  return {start, by, span, last};
}
function chainOf(r, plan) {
  const chain = [plan.last];
  for (let row = plan.last; row !== 0;) chain.push(row = plan.by[row] < 0 ? r.parent[row] : plan.by[row]);
  return chain.reverse();
}
function greedyPlan(r, order, workers) {
  const start = new Float64Array(N), worker = new Uint8Array(N), left = new Uint32Array(N);
  const events = new Heap(2 * N + 2), ready = new Heap(N), free = new Heap(workers);
  const [afterFirst, after] = grouped(N, order.before.length, k => order.before[k], k => k), rowOf = new Uint32Array(order.before.length);
  for (let row = 0; row < N; row++) {
    left[row] = 1 + order.edge[row + 1] - order.edge[row];
    for (let k = order.edge[row]; k < order.edge[row + 1]; k++) rowOf[k] = row;
  }
  for (let w = 0; w < workers; w++) free.push(w);
  const seen = row => { if (--left[row] === 0) ready.push(row); };
  const place = new Uint32Array(N);
  for (let i = 0; i < child.length; i++) place[child[i]] = i;
  const spawnAt = i => events.push((start[rows.parent[child[i]]] + r.offset[child[i]]) * CODES + 2 * child[i] + 1);
  let end = 0;
  seen(0);
  for (let tick = 0; ;) {
    while (free.size && ready.size) {
      const row = ready.pop();
      start[row] = tick;
      worker[row] = free.pop();
      end = Math.max(end, tick + r.ticks[row]);
      events.push((tick + r.ticks[row]) * CODES + 2 * row);
      if (childFirst[row] < childFirst[row + 1]) spawnAt(childFirst[row]);
    }
    if (!events.size) return {start, worker, end, workers};
    tick = Math.floor(events.top / CODES);
    while (events.size && Math.floor(events.top / CODES) === tick) {
      const code = events.pop() % CODES, row = code >> 1;
      if (code & 1) {
        const next = place[row] + 1;
        if (next < childFirst[rows.parent[row] + 1]) spawnAt(next);
        seen(row);
      } else {
        free.push(worker[row]);
        for (let i = afterFirst[row]; i < afterFirst[row + 1]; i++) seen(rowOf[after[i]]);
      }
    }
  }
}

// The rows of `list` in the order of their starts; and lanes for them, in none of which two overlap.
function byStart(list, start) {
  const keys = new Float64Array(list.length), sorted = new Uint32Array(list.length);
  let inOrder = true;
  for (let k = 0; k < keys.length; k++) { keys[k] = start[list[k]] * 65536 + list[k]; inOrder &&= k === 0 || keys[k - 1] < keys[k]; }
  if (!inOrder) keys.sort();
  for (let k = 0; k < keys.length; k++) sorted[k] = keys[k] % 65536;
  return sorted;
}
function lanesOf(sorted, start, ticks) {
  const lanes = [], busy = new Heap(sorted.length), free = new Heap(sorted.length);
  for (const row of sorted) {
    while (busy.size && Math.floor(busy.top / 65536) <= start[row]) free.push(busy.pop() % 65536);
    const lane = free.size ? free.pop() : lanes.push([]) - 1;
    lanes[lane].push(row);
    busy.push((start[row] + ticks[row]) * 65536 + lane);
  }
  return lanes;
}

// How many there are at each tick, as steps: count[k] from tick at[k] on. `spans` calls its function with the begin and the end of each.
function stepsOf(count, spans) {
  const keys = new Float64Array(2 * count);
  let n = 0;
  spans((from, to) => { if (to > from) { keys[n++] = from * 2 + 1; keys[n++] = to * 2; } });
  const sorted = keys.subarray(0, n).sort(), at = new Float64Array(n), counts = new Uint32Array(n);
  let level = 0, most = 0, k = -1;
  for (const key of sorted) {
    const tick = Math.floor(key / 2);
    level += key % 2 ? 1 : -1;
    if (k < 0 || at[k] !== tick) at[++k] = tick;
    counts[k] = level;
  }
  for (let i = 0; i <= k; i++) most = Math.max(most, counts[i]);
  return {at: at.subarray(0, k + 1), count: counts.subarray(0, k + 1), most};
}

// What is shown of some edits: rows, order, plan, chain, the ticks of each row that the chain goes through, and greedy plans on request.
function reckon(edits) {
  const r = isEdited(edits) ? editedRows(edits) : rows;
  if (r.refused) return r;
  const order = orderOf(r), plan = earliestPlan(r, order), chain = chainOf(r, plan), through = new Uint32Array(N);
  chain.forEach((row, k) => { through[row] = (k + 1 < chain.length ? plan.start[chain[k + 1]] : plan.span) - plan.start[row]; });
  const steps = stepsOf(N, f => r.ticks.forEach((ticks, row) => f(plan.start[row], plan.start[row] + ticks)));
  const work = r.ticks.reduce((sum, ticks) => sum + ticks, 0);
  const greedy = new Map(), greedyFor = workers => {
    if (!greedy.has(workers)) greedy.set(workers, greedyPlan(r, order, workers));
    return greedy.get(workers);
  };
  return {edits, r, order, plan, chain, chainList: Uint32Array.from(chain), through, work, steps, span: plan.span, greedy: greedyFor};
}

// The cowns that a row hands to another one.
function handed(now, row, next) {
  const found = [];
  for (let k = now.order.edge[next]; k < now.order.edge[next + 1]; k++) if (now.order.before[k] === row) found.push(now.order.over[k]);
  return found.sort((a, b) => a - b);
}
const spawnedAt = (now, row) => row ? now.plan.start[now.r.parent[row]] + now.r.offset[row] : 0;

// The link of the chain at place k: whether the row spawns the next one, and in words what it does for it.
function linkOf(now, k) {
  const row = now.chain[k], next = now.chain[k + 1];
  if (next === undefined) return {spawns: false, text: 'end'};
  if (now.plan.by[next] < 0) return {spawns: true, text: `spawn by ${defName(rows.def[row])}`};
  return {spawns: false, text: cownText(handed(now, row, next))};
}

// The chain's ticks by def and by link, the heaviest first.
function chainSums(now) {
  if (now.sums) return now.sums;
  const defs = new Map(), links = new Map();
  now.chain.forEach((row, k) => {
    for (const [map, key] of [[defs, rows.def[row]], [links, linkOf(now, k).text]]) {
      const sum = map.get(key) ?? {key, ticks: 0, count: 0};
      sum.ticks += now.through[row];
      sum.count++;
      map.set(key, sum);
    }
  });
  const [byDef, byLink] = [defs, links].map(map => Array.from(map.values()).sort((a, b) => b.ticks - a.ticks));
  return now.sums = {defs: byDef, links: byLink};
}
