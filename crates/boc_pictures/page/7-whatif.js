// What if: the part of its ticks that each def costs, the defs that spawn early, and the cowns that impose no order.

const cownsNamed = name => told.cowns.flatMap((own, cown) => own === name || name.endsWith('[*]') && familyOf(cown) === name.slice(0, -3) ? [cown] : []);
// The edits that leave out the cowns of a list such as `log and acct[*]`.
function withoutCowns(text) {
  const cowns = text === 'every cown' ? told.cowns.keys() : text.split(' and ').flatMap(cownsNamed);
  return {...noEdits(), without: new Set(cowns)};
}
// The edits of a candidate, if they are of a def or a cown that the page knows.
function editsOf([kind, name]) {
  const edits = noEdits(), def = told.defs.indexOf(name);
  if (kind === 'without') return withoutCowns(name);
  if (def < 0 || !name) return null;
  if (kind === 'half') edits.scale.set(def, [1, 2]); else edits.early.add(def);
  return edits;
}

// Edits as a part of the address, and back: `s3:1/2` scales def 3, `e3` has it spawn early, and `w0` leaves cown 0 out.
const addressOf = ({scale, early, without}) =>
  [...Array.from(scale, ([def, [k, d]]) => `s${def}:${k}/${d}`), ...Array.from(early, def => `e${def}`), ...Array.from(without, cown => `w${cown}`)].join(';');
function editsFrom(text) {
  const edits = noEdits();
  for (const part of text.split(';')) {
    const [, kind, number, k, d] = /^([sew])(\d{1,5})(?::(\d{1,4})\/(\d{1,4}))?$/.exec(part) ?? [], place = Number(number);
    if (kind === 'w' && place < C) edits.without.add(place);
    if (kind === 'e' && place < DEFS) edits.early.add(place);
    if (kind === 's' && place < DEFS && Number(k) > 0 && Number(d) > 0) edits.scale.set(place, [Number(k), Number(d)]);
  }
  return edits;
}
const toggle = (set, thing, is) => { set[is ? 'add' : 'delete'](thing); edited(); };
function sliderOf(def) {
  const out = el('output', {}, '100 %');
  const input = el('input', {type: 'range', min: 5, max: 200, step: 5, value: 100, 'aria-label': `ticks of ${defName(def)} in percent`, oninput: () => {
    const k = Number(input.value);
    out.textContent = `${k} %`;
    if (k === 100) state.edits.scale.delete(def); else state.edits.scale.set(def, [k, 100]);
    edited();
  }});
  const early = el('input', {type: 'checkbox', 'aria-label': `early spawns by ${defName(def)}`,
    onchange: () => toggle(state.edits.early, def, early.checked)});
  const title = 'it spawns its first child at its tick 1, and each further one a tick later';
  return el('div', {class: 'slider', 'data-slider': def}, el('span', {}, swatch(colours[def + FIRST_DEF]), defName(def)), input, out,
    el('label', {title}, early, ' early spawns'));
}
function boxOf({cown, held}) {
  const box = el('input', {type: 'checkbox', 'data-box': cown, onchange: () => toggle(state.edits.without, cown, box.checked)});
  return el('label', {}, box, ` ${told.cowns[cown]} `, el('small', {}, `held ${percent(held, told.span)}`));
}
function familyButton(family, lanes) {
  const own = lanes.map(({cown}) => cown).filter(cown => familyOf(cown) === family);
  return own.length < 2 ? '' : button(`${family}[*]`, () => {
    const {without} = state.edits, all = own.every(cown => without.has(cown));
    own.forEach(cown => all ? without.delete(cown) : without.add(cown));
    applyEdits(state.edits);
  }, {class: 'chip'});
}
function tellWhatIf() {
  const lanes = cownLanes(state.base, state.base.plan, false), families = new Set(lanes.map(({cown}) => familyOf(cown)).filter(Boolean));
  const sliders = defOrder.slice(0, 64).map(sliderOf);
  put('edits', el('p', {id: 'result', role: 'status'}), el('div', {class: 'columns two'},
    el('fieldset', {}, el('legend', {}, 'The ticks of a def, and its spawns'), ...sliders),
    el('fieldset', {}, el('legend', {}, 'Without a cown: it imposes no order'),
      el('div', {class: 'families'}, ...Array.from(families, it => familyButton(it, lanes))), el('div', {class: 'boxes'}, ...lanes.map(boxOf)))));
  byId('whatif').hidden = false;
  tellResult();
}

let due = false;
function edited() {
  if (due) return;
  due = true;
  requestAnimationFrame(() => {
    due = false;
    const now = isEdited(state.edits) ? reckon(state.edits) : state.base;
    state.refused = now.refused ?? null;
    if (!now.refused) use(now);
    tellResult();
    if (state.selected >= 0) tellDetails();
  });
}
function use(now) {
  const all = state.view.to >= whole() * 0.999 && state.view.from === 0;
  state.now = now;
  layOut();
  if (all) reset(); else show(state.view.from, state.view.to);
}
function applyEdits(edits) {
  state.edits = {scale: new Map(edits.scale), early: new Set(edits.early), without: new Set(edits.without)};
  for (const slider of document.querySelectorAll('[data-slider]')) {
    const def = Number(slider.dataset.slider), [k, d] = edits.scale.get(def) ?? [1, 1], [range, early] = slider.querySelectorAll('input');
    range.value = 100 * k / d;
    early.checked = edits.early.has(def);
    slider.querySelector('output').textContent = `${Math.round(100 * k / d)} %`;
  }
  for (const box of document.querySelectorAll('[data-box]')) box.checked = edits.without.has(Number(box.dataset.box));
  edited();
}

// The edits as a reader calls them.
function toldEdits({scale, early, without}) {
  const all = [...Array.from(scale, ([def, [k, d]]) => `${defName(def)} at ${Math.round(100 * k / d)} %`),
    ...Array.from(early, def => `early spawns by ${defName(def)}`), ...Array.from(without, cown => `without ${told.cowns[cown]}`)];
  return all.slice(0, 8).join(', ') + (all.length > 8 ? ` and ${num(all.length - 8)} more` : '');
}

// The command of `boc whatif` that makes the same edits, quoted for a shell. Numbers replace names of cowns and defs that could mean something else.
const quoted = word => /^[\w.=\/-]+$/.test(word) ? word : `'${String(word).replace(/'/g, "'\\''")}'`;
function inputWords() {
  const {title} = told, [, typical, run] = told.run.match(/^(typical ticks(?:, |$))?(.*)$/s), path = name => quoted(name.replace(/^-/, './-'));
  const file = title === 'standard input' ? '-' : /[=@]/.test(title) ? `- < ${path(title)}` : path(title);
  const [, how, names] = run.match(/^(.*?)(?:(?:^|, )names in (.*))?$/s);
  const ran = told.source === null ? '' : how.startsWith('the run in ') ? `--record ${path(how.slice(11))}`
    : how.replace('timed on ', '--timed ').replace(/(\d+) workers?/, '-w $1').replace(/, (seed|depth)/g, ' --$1');
  return [typical ? '--typical' : '', ran, names === undefined ? '' : `--names ${path(names)}`, file].filter(Boolean).join(' ');
}
function commandOf({scale, early, without}) {
  const cownWord = cown => /^[-+\d]/.test(told.cowns[cown]) || cownsNamed(told.cowns[cown]).length > 1 ? cown : told.cowns[cown];
  const names = (def, others, rowWord) => others.test(told.defs[def]) ? Array.from(rowsOfDef(def), rowWord) : [told.defs[def]];
  const parts = Array.from(scale).flatMap(([def, [k, d]]) => names(def, /^\d*$/, String).map(name => quoted(`${name}=${k}/${d}`)));
  return [`boc whatif --short -p ${state.workers}${told.shared ? ' --shared-reads' : ''}`, ...Array.from(without, it => `--without ${quoted(cownWord(it))}`),
    ...Array.from(early).flatMap(def => names(def, /^$/, row => `row ${row}`).map(name => `--early${name.startsWith('-') ? '=' : ' '}${quoted(name)}`)),
    inputWords(), ...(parts.some(part => /^'?-/.test(part)) ? ['--'] : []), ...parts];
}
function changeOf(name, before, after) {
  const sign = after < before ? '−' : '+', part = ratio(100 * Math.abs(after - before) / before);
  return el('span', {class: 'change'}, `${name} `, el('b', {}, num(before)), ' → ', el('b', {}, num(after)),
    el('em', {class: after < before ? 'good' : after > before ? 'bad' : ''}, after === before ? ' no change' : ` ${sign}${part} %`));
}
const undo = () => {
  if (location.hash.startsWith('#edit=')) history.replaceState(null, '', location.pathname + location.search);
  applyEdits(noEdits());
};
function tellResult() {
  const {base, now, edits} = state, is = isEdited(edits);
  put('viewer-title', 'The plan', ...(is && !state.refused ? [el('span', {class: 'edited'}, `what if: ${toldEdits(edits)}`, button('undo', undo))] : []));
  for (const id of ['tables', 'curve']) byId(id).dataset.edited = is;
  if (state.refused) return put('result', `Refused: ${state.refused}. `, button('undo', undo));
  if (!is) return put('result', 'Move a slider or leave out a cown: plan, chain and ends change at once. Behaviours keep their order on each cown.');
  const p = state.workers, before = base.greedy(p).end, after = now.greedy(p).end, sums = chainSums(now);
  const defs = sums.defs.slice(0, 3).map(sum => `${defName(sum.key)} ${percent(sum.ticks, now.span)}`).join(', ');
  const words = commandOf(edits), few = words.length < 300 ? words : [`(a command of ${num(words.length)} words)`];
  // Without a seed, threads may make another run for each call.
  const anew = /^(typical ticks, )?([2-9]|\d\d+) workers(, names in |$)/.test(told.run)
    ? 'Threads make a new run for it: numbers may differ, but not with --seed.' : '';
  const chain = `the chain then: ${defs}; heaviest link: ${sums.links[0].key} ${percent(sums.links[0].ticks, now.span)}`;
  put('result', changeOf('span', base.span, now.span), changeOf('work', base.work, now.work),
    changeOf(`${many(p, 'worker')} end${p === 1 ? 's' : ''} at`, before, after), el('span', {class: 'change'}, chain), button('undo', undo),
    el('a', {href: `#edit=${addressOf(edits)}`}, 'link to these edits'), el('code', {}, ...few.flatMap(word => [el('bdi', {}, word), ' '])), anew);
}
