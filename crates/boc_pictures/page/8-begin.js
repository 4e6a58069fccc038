// The beginning. What the page computes must agree with the plans in the data block.

let toldGreedy = null;
function begin() {
  const base = reckon(noEdits());
  const isSame = (list, other) => list.length === other.length && list.every((it, k) => it === other[k]);
  const agrees = isSame(base.plan.start, told.start) && isSame(base.chain, told.chain) && base.span === told.span && base.work === told.work;
  toldGreedy = {start: Float64Array.from(told.greedyStart), worker: Uint8Array.from(told.worker), end: told.end, workers: told.p};
  Object.assign(state, {base, now: base, mode: N <= 60 ? 'rows' : 'defs'});
  byId('viewer').hidden = false;
  if (!agrees) put('warning', 'This page computes other numbers than boc printed. Trust neither.');
  readTheme();
  tellHead();
  layOut();
  state.view = {from: 0, to: whole() > 2.5 * told.span ? told.span * 1.04 : whole()};
  for (const part of [draw, tellBar, tellLegend, tellDetails, listen]) part();
  setTimeout(() => {
    tellWhatIf();
    enhanceTables();
    tellRows();
    fromHash();
    window.page.ready = performance.now();
  });
}

// What tests wait for: `ready` is when the page has all its parts.
window.page = {ready: 0};
begin();
