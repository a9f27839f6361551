// The desk's page: sends what is typed, and shows what is answered. It works nothing out.
'use strict';

const by = id => document.getElementById(id);
const HINT = by('told').textContent;
const TYPED = 120; // milliseconds without a key before the desk is asked

function make(kind, text, into, name) {
  const e = document.createElement(kind);
  if (text !== null) e.textContent = text;
  if (name) e.className = name;
  if (into) into.appendChild(e);
  return e;
}

function trouble(words) {
  by('trouble').textContent = words;
  by('trouble').hidden = words === '';
}

async function ask(call, body) {
  let response;
  try {
    response = await fetch('/api/' + call, { method: 'POST', headers: { 'Content-Type': 'application/json' }, body: JSON.stringify(body) });
  } catch (error) {
    throw new Error('The desk is not there any more: `rewrites desk` has ended.');
  }
  const answer = await response.json();
  if (!response.ok) throw new Error(answer.error);
  return answer;
}

// The fault as the command says it.
function words(fault) {
  const line = fault.line === null ? '' : 'line ' + fault.line + ': ';
  const found = fault.found === null ? '' : ', found ' + fault.found;
  return fault.file.split('/').pop() + ': ' + fault.whose + ': ' + line + fault.words + '; expected ' + fault.expected + found;
}

// A typed text: the layer behind it shows the places that are told of it.
function field(id) {
  const area = by(id), back = area.parentNode.querySelector('.back');
  area.addEventListener('scroll', () => { back.scrollTop = area.scrollTop; });
  return {
    area,
    get text() { return area.value; },
    set text(value) { area.value = value; },
    show(places) {
      back.replaceChildren();
      let at = 0;
      for (const place of places) {
        make('span', area.value.slice(at, place.begin), back);
        make('mark', area.value.slice(place.begin, place.end) || '\u00a0', back, place.name);
        at = Math.max(place.end, place.begin);
      }
      make('span', area.value.slice(at) + '\n', back);
      back.scrollTop = area.scrollTop;
    },
    fault(answer) {
      const faults = answer.faults || [];
      by(id + '-fault').textContent = faults.map(words).join(' \u2014 ');
      area.setAttribute('aria-invalid', String(faults.length > 0));
      if (answer.place && answer.place.field === id) this.show([answer.place]);
      else this.show([]);
    },
  };
}

const fields = { condition: field('condition'), marks: field('marks'), start: field('start'), conditions: field('conditions') };

// Asks after a while without a key; of answers that overtake each other the last one asked for is shown.
function asker(id, call, body, show, clear) {
  let timer = 0, last = 0;
  async function now() {
    clearTimeout(timer);
    const mine = ++last;
    if (fields[id].text === '' && clear) { clear(); return; }
    try {
      const answer = await ask(call, body());
      if (mine === last) { trouble(''); show(answer); }
    } catch (error) {
      if (mine === last) trouble(error.message);
    }
  }
  fields[id].area.addEventListener('input', () => { clearTimeout(timer); timer = setTimeout(now, TYPED); });
  return now;
}

// The places of a path, a text for each statement that it comes by: its turns in order, and behind the last one where it goes round.
function order(path, turn) {
  const places = new Map();
  path.forEach((n, i) => places.set(n, (places.has(n) ? places.get(n) + ' ' : '') + (i + 1)));
  if (turn !== null) places.set(path[path.length - 1], places.get(path[path.length - 1]) + ' \u21a9 ' + turn);
  return places;
}

// The same in a line.
function led(path, turn) {
  return path.join(' \u2192 ') + (turn === null ? '' : ' \u2192 ' + path[turn - 1] + ' and so on for ever');
}

// Shows the places of a path in a last column of a table with a row for each statement; without a path there is no such column.
function lay(rows, places) {
  const head = rows[0].closest('table').tHead.rows[0];
  if (head.lastChild.className === 'step') [head, ...rows].forEach(tr => tr.lastChild.remove());
  rows.forEach(tr => tr.classList.toggle('path', false));
  if (places.size === 0) return;
  make('th', 'path', head, 'step').scope = 'col';
  rows.forEach((tr, i) => {
    const text = places.get(i + 1) ?? '';
    make('td', text, tr, 'step');
    tr.classList.toggle('path', text !== '');
  });
}

// A table with a row for each statement and a column for each of the columns, the leading one first. A path is asked for where
// a row of a column is chosen.
function marked(at, list, source, columns, lead, caption) {
  const table = make('table', null, null, 'marked' + (lead ? ' led' : '') + (columns.length > 20 ? ' many' : ''));
  make('caption', caption, table);
  const row = make('tr', null, make('thead', null, table)), heads = [], items = [];
  const head = (column, name) => {
    // No button: a browser prints one on the first sheet alone.
    const th = make('th', column.label, row, name);
    th.scope = 'col';
    th.tabIndex = 0;
    th.title = column.text;
    heads.push(th);
  };
  const sorted = lead ? [columns.length - 1, ...columns.keys()].slice(0, columns.length) : [...columns.keys()];
  if (lead) head(columns[sorted[0]], 'whole');
  for (const [text, name] of [['n', 'number'], ['statement', 'text']]) { make('th', text, row, name).scope = 'col'; }
  for (const k of lead ? sorted.slice(1) : sorted) head(columns[k]);
  const held = columns.map(column => new Set(column.statements));
  const body = make('tbody', null, table), rows = [];
  source.forEach((text, i) => {
    const tr = make('tr', null, body), n = i + 1;
    const cell = k => { const on = held[k].has(n); make('td', on ? '\u25cf' : '\u00b7', tr, on ? 'true' : ''); };
    if (lead) { cell(sorted[0]); tr.firstChild.className += ' whole'; }
    const number = make('th', n, tr, 'number');
    number.scope = 'row';
    number.tabIndex = i === 0 ? 0 : -1;
    const statement = make('th', text, tr, 'text');
    statement.scope = 'row';
    for (const k of lead ? sorted.slice(1) : sorted) cell(k);
    rows.push(tr);
  });
  at.replaceChildren(table);

  let fixed = -1, found = null; // the column that is held, and what is told of the path that is shown
  function show(k, n) {
    columns.forEach((_, j) => { items[j].parentNode.className = j === k ? 'on' : ''; });
    heads.forEach((th, j) => th.classList.toggle('on', sorted[j] === k));
    rows.forEach((tr, i) => { tr.classList.toggle('on', k >= 0 && held[k].has(i + 1)); });
    if (k < 0) return;
    if (found && found.k === k && (n === undefined || n === found.n)) { by('told').textContent = found.words; return; }
    const here = n === undefined ? '' : ' Statement ' + n + ': ' + (held[k].has(n) ? 'true.' : 'false.');
    by('told').textContent = columns[k].label + '  ' + columns[k].text + ': true at ' + columns[k].satisfied + ' of ' + source.length + '.' + here;
  }
  // The column that an element of the table stands in, -1 where it is none of these.
  function column(element) {
    const cell = element.closest('th, td');
    if (!cell || !cell.parentNode.cells) return -1;
    const at = cell.cellIndex;
    if (lead) return at === 0 ? sorted[0] : at < 3 ? -1 : sorted[at - 2] ?? -1;
    return at < 2 ? -1 : sorted[at - 2] ?? -1;
  }
  function statement(element) {
    const at = rows.indexOf(element.closest('tr'));
    return at < 0 ? undefined : at + 1;
  }
  // A table that grows under a pointer at rest tells nothing new.
  let rest = '';
  table.addEventListener('mousemove', e => { rest = e.screenX + ' ' + e.screenY; });
  table.addEventListener('mouseover', e => {
    const k = column(e.target), place = e.screenX + ' ' + e.screenY;
    if (k >= 0 && place !== rest) show(k, statement(e.target));
    rest = place;
  });
  table.addEventListener('mouseleave', () => show(fixed));
  table.addEventListener('focusin', e => { const k = column(e.target); if (k >= 0) show(k); });
  function hold(k) { fixed = fixed === k ? -1 : k; found = null; lay(rows, new Map()); show(k); }
  // Asks for the path of a column at a statement. Of two that are asked for the later is shown.
  let asked = 0;
  async function lead_to(k, n) {
    const mine = ++asked;
    fixed = k;
    found = null;
    show(k, n);
    try {
      const answer = await ask('witness', { condition: columns[k].condition, part: columns[k].part, statement: n });
      if (mine !== asked || !('truth' in answer)) return;
      lay(rows, answer.path ? order(answer.path, answer.turn) : new Map());
      const shown = answer.path ? 'as this path shows: ' + led(answer.path, answer.turn) : 'no path shows it';
      found = { k, n, words: columns[k].label + '  ' + columns[k].text + ': ' + answer.truth + ' at ' + n + ', ' + shown + '.' };
      show(k, n);
    } catch (error) {
      if (mine === asked) trouble(error.message);
    }
  }
  table.addEventListener('click', e => {
    const k = column(e.target), n = statement(e.target);
    if (k >= 0 && n !== undefined) lead_to(k, n);
    else if (k >= 0) hold(k);
  });
  // Arrow keys go from number to number; Enter asks for the path of the column that is held there, or of the whole condition.
  table.addEventListener('keydown', e => {
    const k = column(e.target), n = statement(e.target);
    if (n === undefined) { if (k >= 0 && e.key === 'Enter') hold(k); return; }
    if (e.key === 'Enter') { lead_to(fixed < 0 ? columns.length - 1 : fixed, n); return; }
    const next = rows[n - 1 + ({ ArrowUp: -1, ArrowDown: 1 }[e.key] ?? NaN)];
    if (!next) return;
    e.preventDefault();
    e.target.tabIndex = -1;
    const number = next.querySelector('.number');
    number.tabIndex = 0;
    number.focus();
  });

  list.replaceChildren();
  columns.forEach((part, k) => {
    const button = make('button', part.text, make('li', null, list));
    button.type = 'button';
    items.push(button);
    button.addEventListener('mouseenter', () => show(k));
    button.addEventListener('mouseleave', () => show(fixed));
    button.addEventListener('focus', () => show(k));
    button.addEventListener('click', () => hold(k));
  });
}

function empty(id, ...places) {
  fields[id].fault({ faults: [] });
  by(id + '-answer').textContent = '';
  for (const place of places) by(place).replaceChildren();
}

const tabulate = asker('condition', 'tabulate', () => ({ condition: fields.condition.text }), answer => {
  fields.condition.fault(answer);
  if (!answer.table) {
    // What was right before the last key is shown no more: it is of another text.
    by('condition-answer').textContent = '';
    by('condition-scroll').replaceChildren();
    by('condition-parts').replaceChildren();
    return;
  }
  by('condition-answer').textContent = 'true at ' + answer.satisfied + ' of ' + answer.statements + ' statements, first ' + answer.first + '; parts ' + answer.parts;
  const columns = answer.table.map(part => ({ label: String(part.part), text: part.text, satisfied: part.satisfied, statements: part.statements,
    condition: answer.condition, part: part.part }));
  const caption = answer.condition + ' over ' + document.querySelector('h1').textContent + ': the whole condition first; \u25cf true, \u00b7 false';
  marked(by('condition-scroll'), by('condition-parts'), answer.source, columns, true, caption);
}, () => empty('condition', 'condition-scroll', 'condition-parts'));

function grid(at, caption, heads, rows) {
  const table = make('table', null, null, 'plain');
  make('caption', caption, table);
  const top = make('tr', null, make('thead', null, table));
  for (const text of heads) make('th', text, top).scope = 'col';
  const body = make('tbody', null, table);
  for (const { name, cells } of rows) {
    const tr = make('tr', null, body, name);
    cells.forEach(([text, kind], i) => { const cell = make(i === 0 ? 'th' : 'td', text, tr, kind); if (i === 0) cell.scope = 'row'; });
  }
  at.replaceChildren(table);
  return table;
}

const check = asker('marks', 'check', () => ({ marks: fields.marks.text }), answer => {
  fields.marks.fault(answer);
  if (!answer.verdicts) {
    by('marks-answer').textContent = '';
    by('programs-scroll').replaceChildren();
    by('verdicts-scroll').replaceChildren();
    return;
  }
  fields.marks.show(answer.places.map((place, i) => ({ ...place, name: answer.verdicts[i].name })));
  const { ticks } = answer;
  by('marks-answer').textContent = 'marks ' + answer.marks + ', accepted ' + answer.accepted + '; changed statements ' + answer.changed.length +
    '; ticks given ' + ticks.given + ', rewritten ' + ticks.rewritten + ', saved ' + ticks.saved;
  const changed = new Set(answer.changed);
  const name = document.querySelector('h1').textContent;
  const programs = grid(by('programs-scroll'), name + ': the given and the rewritten program', ['n', 'given', 'rewritten', 'changed', 'ticks before', 'after'],
    answer.source.map((text, i) => ({ name: changed.has(i + 1) ? 'changed' : '', cells: [[i + 1, 'number'], [text, 'text'], [answer.rewritten[i], 'text'],
      [changed.has(i + 1) ? 'changed' : ''], [answer.prices.before[i]], [answer.prices.after[i]]] })));
  const rows = [...programs.tBodies[0].rows];
  const table = grid(by('verdicts-scroll'), name + ': the verdict on each mark', ['line', 'mark', 'verdict', 'in words', 'condition'],
    answer.verdicts.map(mark => ({ name: mark.name, cells: [[mark.line, 'number'], [mark.mark, 'text'], [mark.verdict], [mark.words, 'words'], ['']] })));
  answer.verdicts.forEach((mark, i) => {
    const button = make('button', mark.condition, table.tBodies[0].rows[i].lastChild);
    button.type = 'button';
    button.title = 'Look at this condition';
    button.addEventListener('click', () => { fields.condition.text = mark.condition; open(by('tab-condition')); tabulate(); });
    if (mark.name === 'unmet') because(table.tBodies[0].rows[i].cells[3], mark.line, rows);
  });
  if (!by('runs-panel').hidden) walk();
}, null);

// A button beside a verdict 14: the path that speaks against the mark, in the rows of the given program.
function because(cell, line, rows) {
  const button = make('button', 'Why?', cell, 'why');
  button.type = 'button';
  button.title = 'Show the path that speaks against this mark';
  button.addEventListener('click', async () => {
    try {
      const answer = await ask('why', { marks: fields.marks.text, line });
      // What was typed since may be of another list.
      if (!answer.because || !cell.isConnected) return;
      const { path } = answer.because, last = path[path.length - 1];
      lay(rows, order(path.map(step => step.statement), null));
      rows[path[0].statement - 1].scrollIntoView({ block: 'nearest' });
      by('told').textContent = 'line ' + line + '  ' + answer.mark + ': ' + led(path.map(step => step.statement), null) + ': ' + last.statement + ' ' + last.does + '.';
    } catch (error) {
      trouble(error.message);
    }
  });
}

let at = 0, most = 0;
function value(number) { return number === null ? '' : number; }
const walk = asker('start', 'steps', () => ({ marks: fields.marks.text, start: fields.start.text, from: at, count: 1 }), answer => {
  fields.start.fault(answer);
  // A refused list is told here too: there is no rewritten program to run.
  by('state').replaceChildren();
  if (!answer.states) { by('steps-all').textContent = 'steps'; return; }
  const state = answer.states[0];
  at = state.steps;
  most = answer.steps;
  by('step-at').value = at;
  by('step-at').max = most;
  by('steps-all').textContent = 'of ' + most + ' steps';
  const stands = stand => stand.statement === null ? stand.text : 'before ' + stand.statement + ': ' + stand.text;
  make('p', 'given: ' + stands(state.given), by('state'), 'stand').id = 'stand-given';
  make('p', 'rewritten: ' + stands(state.rewritten), by('state'), 'stand').id = 'stand-rewritten';
  make('p', 'At the end: given ' + answer.given_line + '; rewritten ' + answer.rewritten_line, by('state'));
  if (state.given.statement === null && state.rewritten.statement === null) return;
  const scroll = make('div', null, by('state'), 'scroll');
  scroll.tabIndex = 0;
  scroll.setAttribute('role', 'region');
  scroll.setAttribute('aria-label', 'The variables of both runs');
  grid(scroll, document.querySelector('h1').textContent + ': the variables after ' + at + ' steps; live: the given program may still use the value',
    ['variable', 'given', 'rewritten', 'live', 'differs'],
    state.rows.map(row => ({ name: (row.live ? 'live' : '') + (row.differs ? ' differs' : ''),
      cells: [[row.variable], [value(row.given)], [value(row.rewritten)], [row.live ? 'live' : ''], [row.differs ? 'differs' : '']] })));
}, () => { fields.start.fault({ faults: [] }); by('state').replaceChildren(); });

function step(to) { at = Math.max(0, Math.min(to, most)); walk(); }
by('step-first').addEventListener('click', () => step(0));
by('step-back').addEventListener('click', () => step(at - 1));
by('step-on').addEventListener('click', () => step(at + 1));
by('step-last').addEventListener('click', () => step(most));
by('step-at').addEventListener('change', () => step(Number(by('step-at').value) || 0));

const review = asker('conditions', 'review', () => ({ conditions: fields.conditions.text }), answer => {
  fields.conditions.fault(answer);
  if (!answer.conditions) {
    by('conditions-answer').textContent = '';
    by('review-scroll').replaceChildren();
    by('review-parts').replaceChildren();
    return;
  }
  by('conditions-answer').textContent = 'conditions ' + answer.lines + ', tables ' + answer.tables;
  const columns = answer.conditions.map(row => ({ label: String(row.line), text: row.condition, satisfied: row.satisfied, statements: row.statements,
    condition: row.condition, part: null }));
  const caption = 'A review over ' + document.querySelector('h1').textContent + '; \u25cf true, \u00b7 false';
  marked(by('review-scroll'), by('review-parts'), answer.source, columns, false, caption);
}, () => empty('conditions', 'review-scroll', 'review-parts'));

// What the files held when they were last read or saved.
const was = {};
let reviewed = 'conditions';
function name(id) { return id === 'conditions' ? reviewed : id; }

for (const id of Object.keys(fields)) {
  const note = by(id + '-saved');
  const tell = (text, is_wrong) => { note.textContent = text; note.classList.toggle('wrong', is_wrong); };
  fields[id].area.addEventListener('input', () => tell('not saved yet', false));
  by(id + '-save').addEventListener('click', async () => {
    const file = name(id);
    try {
      const answer = await ask('save', { file, text: fields[id].text, was: was[file] ?? null });
      was[file] = answer.text;
      tell('saved to ' + file, false);
      if (id === 'conditions') choose(file);
    } catch (error) {
      tell(error.message, true);
    }
  });
}

by('condition-add').addEventListener('click', () => {
  const { text } = fields.conditions;
  fields.conditions.text = (text === '' || text.endsWith('\n') ? text : text + '\n') + fields.condition.text + '\n';
  by('conditions-saved').textContent = 'not saved yet';
  by('condition-saved').textContent = 'added to the review, which is not saved yet';
  review();
});

// The reviews of the folder, with this one chosen.
function choose(file) {
  const select = by('review-file'), names = new Set([...select.options].map(option => option.value));
  if (!names.has(file)) make('option', file, select).value = file;
  select.value = file;
  reviewed = file;
  by('review-name').textContent = file;
}

async function load(file) {
  try {
    const paper = await ask('read', { file });
    was[file] = paper.text;
    fields.conditions.text = paper.text ?? '';
    trouble(paper.fault ? words(paper.fault) : '');
    choose(file);
    by('conditions-saved').textContent = '';
    review();
  } catch (error) {
    trouble(error.message);
    by('review-file').value = reviewed;
  }
}
by('review-file').addEventListener('change', () => load(by('review-file').value));
by('review-make').addEventListener('click', () => load('conditions-' + by('review-new').value));

// One panel is shown at a time. Arrow keys go from tab to tab.
const tabs = [...document.querySelectorAll('[role=tab]')];
function open(tab) {
  for (const other of tabs) {
    const chosen = other === tab;
    other.setAttribute('aria-selected', String(chosen));
    other.tabIndex = chosen ? 0 : -1;
    by(other.getAttribute('aria-controls')).hidden = !chosen;
  }
  by('told').textContent = HINT;
  if (tab.id === 'tab-runs') walk();
  // A layer that was hidden had no measure to scroll by.
  for (const { area } of Object.values(fields)) area.dispatchEvent(new Event('scroll'));
}
tabs.forEach((tab, i) => {
  tab.addEventListener('click', () => open(tab));
  tab.addEventListener('keydown', e => {
    const by_key = { ArrowLeft: -1, ArrowRight: 1 }[e.key];
    if (!by_key) return;
    const next = tabs[(i + by_key + tabs.length) % tabs.length];
    open(next);
    next.focus();
  });
});

(async () => {
  try {
    const opened = await ask('open', {});
    for (const [file, paper] of Object.entries(opened.files)) {
      if (paper.text !== null) was[file] = paper.text;
      if (paper.fault) trouble(words(paper.fault));
      if (fields[file]) fields[file].text = paper.text ?? '';
    }
    fields.condition.text = fields.condition.text.replace(/\n$/, '');
    by('review-lines').textContent = opened.review_lines;
    for (const file of new Set(['conditions', ...opened.reviews])) make('option', file, by('review-file')).value = file;
    choose('conditions');
    tabulate();
    check();
    review();
  } catch (error) {
    trouble(error.message);
  }
})();
