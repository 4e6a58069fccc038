// Tracks, one below the other, from y on and h high. They show bars (rows sorted by start), steps (how many at each tick), or a head.
const state = {base: null, now: null, edits: noEdits(), workers: told.p, mode: 'defs', cownsOf: 'earliest', closed: new Set(),
  highlight: null, hit: null, hits: 0, selected: -1, view: {from: 0, to: 1}, tracks: [], rowTrack: null, height: 0};
const BAR = 18, GAP = 4, HEAD = 26, STEPS = 34, QUEUE = 12, MOST_LANES = DEFS > 12 ? 2 : 12;

// Adds tracks one below the other. A head closes the group below it.
class Tracks {
  constructor() { this.list = []; this.y = 0; }
  add(h, track) {
    this.list.push({...track, y: this.y, h});
    this.y += h + (track.kind === 'head' ? 0 : track.gap ?? GAP);
  }
  bars(plan, list, more) { this.add(more.h ?? BAR, {kind: 'bars', start: plan.start, ticks: state.now.r.ticks, list, ...more}); }
  steps(h, steps, more) { this.add(h, {kind: 'steps', steps, ...more}); }
  group(id, text, note, fill) {
    const closed = state.closed.has(id);
    this.add(HEAD, {kind: 'head', id, text, note, closed});
    if (closed) return;
    fill();
    this.y += 8;
  }
}
function layOut() {
  const {now} = state, tracks = new Tracks();
  copies = new WeakMap();
  tracks.group('chain', 'The chain', `${many(now.chain.length, 'behaviour')} in a row that take all of the span: ${num(now.span)} ticks`,
    () => tracks.bars(now.plan, now.chainList, {name: 'chain', ticks: now.through, isChain: true}));
  const most = `at most ${num(now.steps.most)}, ${ratio(now.work / now.span)} on average`;
  tracks.group('once', 'At once', `how many run at each tick of the earliest plan: ${most}`, () => {
    const sub = state.workers < now.steps.most ? `line: ${many(state.workers, 'worker')}` : '';
    tracks.steps(STEPS, now.steps, {name: `0 to ${num(now.steps.most)}`, sub, colour: PLAIN, line: state.workers});
  });
  tracks.group('plan', 'The earliest plan', 'each behaviour starts as soon as it is spawned and has its cowns', () => addPlan(tracks));
  const greedy = state.closed.has('greedy') && state.cownsOf !== 'greedy' ? null : greedyNow();
  const ends = greedy ? `it ends at ${num(greedy.end)}, ${ratio(now.work / greedy.end)} times faster than one worker` : '';
  tracks.group('greedy', `The greedy plan for ${many(state.workers, 'worker')}`, ends, () => addGreedy(tracks, greedy));
  const inGreedy = state.cownsOf === 'greedy' && greedy;
  tracks.group('cowns', 'The cowns', `which row holds what in the ${inGreedy ? 'greedy plan' : 'earliest plan, and below how many wait for it'}`,
    () => addCowns(tracks, inGreedy));
  state.tracks = tracks.list;
  state.height = tracks.y;
  state.rowTrack = new Int32Array(N).fill(-1);
  tracks.list.forEach((track, k) => { if (track.plan) for (const row of track.list) state.rowTrack[row] = k; });
  size();
}

// The earliest plan: a lane for each row, as few lanes as possible, or lanes by def. A def with many lanes is drawn as how many run at once.
function addPlan(tracks) {
  const {now} = state, {plan} = now;
  if (state.mode === 'rows') return allRows().forEach(row => tracks.bars(plan, [row], {h: BAR - 2, row, plan: true, gap: 3}));
  if (state.mode === 'lanes') {
    now.lanes ??= lanesOf(byStart(allRows(), plan.start), plan.start, now.r.ticks);
    return now.lanes.forEach((list, k) => tracks.bars(plan, list, {name: k ? '' : many(now.lanes.length, 'lane'), plan: true, gap: 1}));
  }
  now.byDef ??= defOrder.map(def => {
    const sorted = byStart(rowsOfDef(def), plan.start);
    const steps = stepsOf(sorted.length, f => sorted.forEach(row => f(plan.start[row], plan.start[row] + now.r.ticks[row])));
    return {def, lanes: lanesOf(sorted, plan.start, now.r.ticks), steps};
  });
  for (const {def, lanes, steps} of now.byDef) {
    const name = defName(def), id = `def ${def}`, opens = lanes.length > MOST_LANES ? id : null;
    if (opens && !state.closed.has(id)) tracks.steps(STEPS, steps, {name, sub: `${num(lanes.length)} at once`, colour: def + FIRST_DEF, def, opens});
    else lanes.forEach((list, k) => tracks.bars(plan, list, {name: k ? '' : name, def, plan: true, opens, gap: k + 1 < lanes.length ? 1 : GAP + 2}));
  }
}
function addGreedy(tracks, greedy) {
  const {ticks} = state.now.r;
  greedy.byWorker ??= Array.from({length: state.workers}, (_, w) => byStart(allRows().filter(row => greedy.worker[row] === w), greedy.start));
  greedy.byWorker.forEach((list, w) => tracks.bars(greedy, list, {name: `worker ${w}`, gap: 2,
    sub: `${percent(list.reduce((sum, row) => sum + ticks[row], 0), greedy.end)} busy`}));
}
function addCowns(tracks, greedy) {
  const {now} = state, plan = greedy || now.plan;
  for (const {cown, holders, held, queue} of cownLanes(now, plan, Boolean(greedy))) {
    const sub = `${percent(held, greedy ? greedy.end : now.span)} held`;
    tracks.bars(plan, holders, {name: told.cowns[cown], sub, cown, overlap: told.shared, gap: greedy ? GAP : 0});
    if (!greedy) tracks.steps(QUEUE, queue, {name: '', sub: queue.most ? `up to ${num(queue.most)} waiting` : '', colour: WAITS, cown, gap: GAP + 1});
  }
}

let everyRow = null;
const allRows = () => everyRow ??= new Uint32Array(N).map((_, row) => row);
const [defFirst, defRows] = grouped(DEFS, N, row => rows.def[row], row => row);
const rowsOfDef = def => defRows.subarray(defFirst[def], defFirst[def + 1]);
const defWork = Array.from({length: DEFS}, (_, def) => rowsOfDef(def).reduce((sum, row) => sum + rows.ticks[row], 0));
const defOrder = Array.from({length: DEFS}, (_, def) => def).filter(def => defFirst[def] < defFirst[def + 1])
  .sort((a, b) => (rows.def[0] === b) - (rows.def[0] === a) || defWork[b] - defWork[a]);

// For each cown that a row has: its rows in this plan, for how many ticks it is held, and how many wait for it. A row waits for the cowns that the
// lowest row hands it whose end it starts at, as in `boc cowns`.
function cownLanes(now, plan, isGreedy) {
  const key = isGreedy ? plan : now;
  if (key.cownLanes) return key.cownLanes;
  const {r} = now, rowOf = new Uint32Array(r.hold.length);
  for (let row = 0; row < N; row++) for (let k = r.first[row]; k < r.first[row + 1]; k++) rowOf[k] = row;
  const [first, list] = grouped(C, r.hold.length, k => r.hold[k], k => rowOf[k]), waits = Array.from({length: C}, () => []);
  for (let row = 1; row < N && !isGreedy; row++) {
    if (plan.by[row] < 0) continue;
    for (const cown of handed(now, plan.by[row], row)) waits[cown].push(spawnedAt(now, row), plan.start[row]);
  }
  const lanes = [];
  for (let cown = 0; cown < C; cown++) {
    if (first[cown] === first[cown + 1]) continue;
    const holders = byStart(list.subarray(first[cown], first[cown + 1]), plan.start), w = waits[cown];
    const queue = stepsOf(w.length / 2, f => { for (let k = 0; k < w.length; k += 2) f(w[k], w[k + 1]); });
    let waited = 0;
    for (let k = 0; k < w.length; k += 2) waited += w[k + 1] - w[k];
    lanes.push({cown, holders, held: heldTicks(r, holders, cown), queue, waited});
  }
  return key.cownLanes = lanes.sort((a, b) => b.held - a.held || a.cown - b.cown);
}
// For how many ticks one row alone has the cown.
const heldTicks = (r, holders, cown) => holders.reduce((sum, row) => sum + (told.shared && !writes(r, row, cown) ? 0 : r.ticks[row]), 0);
function writes(r, row, cown) {
  for (let k = r.first[row]; k < r.first[row + 1]; k++) if (r.hold[k] === cown) return r.wrote[k] === 1;
  return false;
}
