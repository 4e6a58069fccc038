// Words: elements, tables, the toolbar, the legend and the details of a row. What comes from the run only becomes text nodes.

function el(name, props = {}, ...children) {
  const it = document.createElement(name);
  for (const [key, value] of Object.entries(props)) {
    if (key.startsWith('on')) it.addEventListener(key.slice(2), value);
    else if (key === 'style') for (const [what, to] of Object.entries(value)) it.style.setProperty(what, to);
    else if (value === true) it.setAttribute(key, '');
    else if (value !== false && value !== null && value !== undefined) it.setAttribute(key, value);
  }
  it.append(...children.filter(it => it !== null && it !== undefined));
  return it;
}
const byId = id => document.getElementById(id), put = (id, ...children) => byId(id).replaceChildren(...children);
const swatch = colour => el('i', {class: 'swatch', style: {background: colour}, 'aria-hidden': 'true'});
const button = (text, what, props = {}) => el('button', {type: 'button', onclick: what, ...props}, text);
const link = (text, what, title) => button(text, what, {class: 'link', title});
const toPlan = () => byId('viewer').scrollIntoView();
const jump = row => link(`${row} ${rowName(row)}`, () => { select(row); toPlan(); });
// What sorts a list by a value: numbers as numbers, texts with the numbers in them.
const compare = (x, y) => typeof x === 'string' ? x.localeCompare(y, 'en', {numeric: true}) : x - y;
// Makes the heads of a table buttons. `sort` gets the number of the column, and whether the greatest comes first.
function sortable(heads, isText, sort, sorted = -1) {
  let by = sorted, down = true;
  const mark = () => heads.forEach((head, k) => head.setAttribute('aria-sort', k !== by ? 'none' : down ? 'descending' : 'ascending'));
  heads.forEach((head, k) => {
    const text = head.textContent;
    head.replaceChildren(button(text, () => {
      down = by === k ? !down : !isText(k);
      by = k;
      sort(k, down);
      mark();
    }, {title: head.title || null, 'aria-label': head.title ? `${text}: ${head.title}` : text}));
  });
  mark();
}

// A table of many lines, some at a time. A column is {head, value, cell?, text?, title?}.
function table(caption, columns, lines, size = 25) {
  const body = el('tbody'), foot = el('div', {class: 'pages'});
  let list = lines, at = 0;
  const cellOf = (column, line) => column.cell ? column.cell(line) : column.text ? column.value(line) : num(column.value(line));
  const fill = () => {
    const cells = line => columns.map(column => el('td', {class: column.text ? '' : 'n'}, cellOf(column, line)));
    body.replaceChildren(...Array.from(list.slice(at, at + size), line => el('tr', {}, ...cells(line))));
    if (list.length <= size) return;
    foot.replaceChildren(button('‹ back', () => { at = Math.max(0, at - size); fill(); }, {disabled: at === 0}),
      ` ${num(at + 1)} to ${num(Math.min(at + size, list.length))} of ${num(list.length)} `,
      button('on ›', () => { at += size; fill(); }, {disabled: at + size >= list.length}));
  };
  const heads = columns.map(({head, text, title}) => el('th', {scope: 'col', class: text ? '' : 'n', title}, head));
  sortable(heads, k => columns[k].text, (k, down) => {
    list = Array.from(lines).sort((a, b) => (down ? -1 : 1) * compare(columns[k].value(a), columns[k].value(b)));
    at = 0;
    fill();
  });
  fill();
  const inner = el('table', {}, el('caption', {}, caption), el('thead', {}, el('tr', {}, ...heads)), body);
  return el('div', {class: 'table'}, el('div', {class: 'wide', tabindex: '0', role: 'region', 'aria-label': caption}, inner), foot);
}

// The tables that are there without a script get heads that sort, colours of defs, and buttons.
function enhanceTables() {
  for (const it of document.querySelectorAll('table.sort')) {
    const body = it.tBodies[0], heads = Array.from(it.tHead.rows[0].cells);
    const valueOf = (row, k) => {
      const text = row.cells[k].textContent.trim(), number = parseFloat(text.replace(/,/g, ''));
      return heads[k].classList.contains('n') ? Number.isNaN(number) ? -Infinity : number : text;
    };
    sortable(heads, k => !heads[k].classList.contains('n'), (k, down) =>
      body.append(...Array.from(body.rows).sort((a, b) => (down ? -1 : 1) * compare(valueOf(a, k), valueOf(b, k)))));
  }
  const linked = (selector, what) => {
    for (const cell of document.querySelectorAll(selector)) cell.replaceChildren(...what(cell, cell.textContent.trim()));
  };
  const lit = what => () => { highlight(what); toPlan(); }, title = 'highlight it in the plan';
  linked('[data-cown]', (cell, text) => [link(text, lit({cown: Number(cell.dataset.cown)}), title)]);
  linked('[data-def]', ({dataset: {def}}, text) => [swatch(colours[Number(def) + FIRST_DEF]), link(text, lit({def: Number(def)}), title)]);
  linked('[data-head]', ({dataset: {head}}, text) => [swatch(colours[Number(head) + FIRST_DEF]), text]);
  const kinds = {half: 'each of its behaviours takes half the ticks', without: 'it imposes no order', early: 'each behaviour of it spawns its children first'};
  linked('[data-try]', (cell, text) => {
    const own = told.candidates[Number(cell.dataset.try)], edits = editsOf(own);
    return [edits ? link(text, () => { applyEdits(edits); toPlan(); }, `${kinds[own[0]]}; click to try it in the plan`) : text];
  });
  linked('[data-set]', (cell, text) => [link(text, () => { applyEdits(withoutCowns(text)); toPlan(); }, 'try it in the plan')]);
}
function tellHead() {
  const themes = ['auto', 'light', 'dark'], root = document.documentElement, pick = button('theme: auto', () => {
    const next = themes[(themes.indexOf(root.dataset.theme ?? 'auto') + 1) % 3];
    if (next === 'auto') delete root.dataset.theme; else root.dataset.theme = next;
    pick.textContent = `theme: ${next}`;
    recolour();
  });
  byId('head').append(pick);
}
const recolour = () => { readTheme(); tellLegend(); redraw(); };
function tellLegend() {
  const chips = defOrder.slice(0, 80).map(def => {
    const title = `${many(defFirst[def + 1] - defFirst[def], 'behaviour')}, ${many(defWork[def], 'tick')}`;
    return el('button', {type: 'button', class: 'chip', 'aria-pressed': String(state.highlight?.def === def), title, onclick: () => highlight({def})},
      swatch(colours[def + FIRST_DEF]), defName(def), el('small', {}, percent(defWork[def], told.work)));
  });
  const end = () => { search().value = ''; highlight(null); };
  const found = state.highlight && el('span', {class: 'found'}, `${num(state.hits)} highlighted `, button('end', end));
  const key = (colour, text) => el('span', {class: 'key'}, swatch(colour), text);
  put('legend', ...chips, key(theme.chain, 'the chain'), key(theme.waits, 'waits for a cown'), ...(found ? [found] : []));
}
const relay = () => { layOut(); redraw(); };
function tellBar() {
  const choice = (label, value, options, chosen) => {
    const all = options.map(([value, text]) => el('option', {value}, text));
    const it = el('select', {'aria-label': label, onchange: () => { chosen(it.value); relay(); }}, ...all);
    it.value = value;
    return it;
  };
  const modes = [['rows', 'a lane for each behaviour'], ['defs', 'lanes by def'], ['lanes', 'as few lanes as possible']];
  const plans = [['earliest', 'cowns in the earliest plan'], ['greedy', 'cowns in the greedy plan']];
  const mode = choice('Rows of the earliest plan', state.mode, modes, value => { state.mode = value; });
  const cowns = choice('The plan in which cowns are shown', state.cownsOf, plans, value => { state.cownsOf = value; });
  const workers = el('input', {type: 'number', min: 1, max: 64, value: state.workers, 'aria-label': 'Workers of the greedy plan', onchange: () => {
    workers.value = state.workers = Math.min(Math.max(Math.round(Number(workers.value)) || 1, 1), 64);
    relay();
    tellResult();
  }});
  put('bar', mode, el('label', {}, workers, ' workers'), cowns, searchBox(), el('span', {class: 'zoom'},
    button('−', () => zoom(1.5), {'aria-label': 'zoom out'}), button('+', () => zoom(1 / 1.5), {'aria-label': 'zoom in'}),
    button('all', reset, {'aria-label': 'show all of both plans', title: '0'}), button('span', toSpan, {'aria-label': 'show the earliest plan'}),
    button('chain ›', () => alongChain(1), {title: '] and [: along the chain'})));
}
function searchBox() {
  let later = 0;
  const find = el('input', {type: 'search', id: 'search', placeholder: 'search  /', 'aria-label': 'Highlight behaviours by name, cown or number',
    oninput: () => {
      clearTimeout(later);
      later = setTimeout(() => highlight(find.value.trim() ? {text: find.value.trim()} : null), 120);
    }, onkeydown: event => { if (event.key === 'Enter') nextHit(event.shiftKey ? -1 : 1); }});
  return find;
}
const search = () => byId('search');

// The cowns of a row, each with the rows that have it before and after.
function cownsTold(row) {
  const {now} = state;
  return Array.from(now.r.hold.subarray(now.r.first[row], now.r.first[row + 1])).map(cown => {
    const list = cownLanes(now, now.plan, false).find(lane => lane.cown === cown).holders, at = list.indexOf(row);
    const beside = (word, at) => at >= 0 && at < list.length ? el('div', {}, `${word}: `, jump(list[at])) : null;
    return el('div', {class: 'cown'}, link(told.cowns[cown], () => highlight({cown}), 'highlight the rows that have it'),
      writes(now.r, row, cown) ? '' : ' (reads)', beside('before', at - 1), beside('after', at + 1));
  });
}
function chainTold(row) {
  const {now} = state, place = now.chain.indexOf(row);
  if (place < 0) return ['not on it'];
  const next = now.chain[place + 1], {spawns, text} = linkOf(now, place), part = `${num(now.through[row])} of its ticks, then `;
  return next === undefined ? [`${part}the run ends`] : [part, spawns ? 'spawns ' : `hands ${text} to `, jump(next)];
}
function tellDetails() {
  const row = state.selected, {now} = state, line = (name, ...value) => [el('dt', {}, name), el('dd', {}, ...value)];
  byId('frame').classList.toggle('with', row >= 0);
  if (row < 0) return put('details');
  const begin = now.plan.start[row], ticks = now.r.ticks[row], by = now.plan.by[row], greedy = greedyNow(), waited = begin - spawnedAt(now, row);
  const children = Array.from(child.subarray(childFirst[row], childFirst[row + 1])), fault = told.faults.find(([faulty]) => faulty === row);
  const list = children.slice(0, 12).map(it => el('div', {}, jump(it))), cowns = cownsTold(row);
  const close = button('×', () => select(-1), {class: 'close', 'aria-label': 'end the selection'});
  put('details', close, el('h3', {}, swatch(colours[rows.def[row] + FIRST_DEF]), rowName(row)), el('dl', {},
    ...line('row', String(row)), ...line('ticks', num(ticks)), ...line('earliest', `${num(begin)} to ${num(begin + ticks)}`),
    ...line(many(state.workers, 'worker'), `${num(greedy.start[row])} to ${num(greedy.start[row] + ticks)}, worker ${greedy.worker[row]}`),
    ...(fault ? line('fault', `ended with status ${fault[1]}`) : []),
    ...(row ? line('spawned', `at ${num(spawnedAt(now, row))} by `, jump(now.r.parent[row])) : []),
    ...(by >= 0 ? line('waits', `${many(waited, 'tick')} for ${cownText(handed(now, by, row))}, after `, jump(by)) : line('waits', 'for nothing')),
    ...line('chain', ...chainTold(row)), ...(cowns.length ? line('cowns', ...cowns) : []),
    ...(children.length ? line('children', ...list, children.length > 12 ? `${num(children.length - 12)} more` : '') : [])));
}

// All rows of the chain, and all rows, some at a time.
function tellRows() {
  const {base} = state, {start} = base.plan, end = base.chain.length, waited = row => start[row] - spawnedAt(base, row);
  const then = k => linkOf(base, k).spawns ? 'spawns the next' : k + 1 < end ? `hands on ${linkOf(base, k).text}` : 'ends';
  const folded = (summary, make) => el('details', {ontoggle: ({target}) => { if (target.children.length === 1) target.append(make()); }},
    el('summary', {}, summary));
  put('rows', folded(`The chain, row by row (${num(end)})`, () => table('The chain', [
    {head: 'start', value: k => start[base.chain[k]]}, {head: 'ticks', value: k => base.through[base.chain[k]]},
    {head: 'behaviour', text: true, value: k => rowName(base.chain[k]), cell: k => jump(base.chain[k])}, {head: 'then', text: true, value: then},
  ], base.chain.map((_, k) => k))), folded(`All behaviours (${num(N)})`, () => table('Behaviours', [
    {head: 'row', value: row => row}, {head: 'behaviour', text: true, value: rowName, cell: jump}, {head: 'ticks', value: row => rows.ticks[row]},
    {head: 'spawned', value: row => spawnedAt(base, row)}, {head: 'start', value: row => start[row]}, {head: 'end', value: row => start[row] + rows.ticks[row]},
    {head: 'waited', value: waited}, {head: `start, ${many(told.p, 'worker')}`, value: row => toldGreedy.start[row]},
    {head: 'worker', value: row => toldGreedy.worker[row]}, {head: 'chain', value: row => base.through[row]},
  ], allRows())));
}
