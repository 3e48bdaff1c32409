'use strict';
// Shows the classes of a spec's orders, and the first order of each, moment by moment. All that a spec says goes into the page as
// text, and never as markup.

const $ = id => document.getElementById(id);
// Each letter that a class may have, with its word and what it means.
const LETTERS = {
  W: ['waits', 'a session waits'],
  D: ['deadlock', 'a session is the victim of a deadlock'],
  E: ['error', 'another error'],
  N: ['not sent', 'a step is not sent: its session waits'],
  S: ['waits for ever', 'a session waits for ever'],
  R: ['anomaly', 'anomaly: no error, yet no serial order gives this result'],
};
const KEYWORDS = ['notices', 'permutation', 'session', 'setup', 'step', 'teardown'];
const OPEN = { in: ' is in a transaction', failed: ' is in a failed block', waits: ' waits' };
// Rows of classes that are drawn, and that are drawn before others may go on; rows of a SELECT that a cell shows; rows of a table.
const MOST_ROWS = 1000, ROWS_AT_ONCE = 100, MOST_SHOWN = 6, MOST_LEFT = 50;
// Characters that show nothing or steer.
const HIDDEN = new RegExp('[\\0-\\x1f\\x7f-\\x9f\\xad\\u034f\\u061c\\u115f\\u1160\\u17b4\\u17b5\\u180b-\\u180f\\u200b-\\u200f\\u2028-\\u202e\\u2060-\\u206f'
  + '\\u3164\\ufe00-\\ufe0f\\ufeff\\uffa0\\ufff0-\\ufffb\\u{1bca0}-\\u{1bca3}\\u{1d173}-\\u{1d17a}\\u{e0000}-\\u{e0fff}]', 'gu');

/* elements and texts */

function h(tag, props, ...children) {
  const made = document.createElement(tag);
  for (const [prop, value] of Object.entries(props || {})) {
    if (prop === 'class') made.className = value || '';
    else if (prop === 'vars') Object.entries(value).forEach(([one, of]) => made.style.setProperty(`--${one}`, of));
    else if (prop.startsWith('on')) made.addEventListener(prop.slice(2), value);
    else if (value !== null && value !== undefined && value !== false) made.setAttribute(prop, value === true ? '' : value);
  }
  made.append(...children.flat(Infinity).filter(one => one !== null && one !== undefined && one !== ''));
  return made;
}
const number = new Intl.NumberFormat('en').format;
const plural = (count, word, words) => `${number(count)} ${Number(count) === 1 ? word : words || `${word}s`}`;
// A part in percent, rounded as in the text.
const share = (count, all) => {
  const tenths = all ? (2000n * BigInt(count) + BigInt(all)) / (2n * BigInt(all)) : 0n;
  return count && !tenths ? '<0.1%' : `${tenths / 10n}.${tenths % 10n}%`;
};
const spaced = (parts, by) => parts.flatMap((part, at) => at ? [by, part] : [part]);
const listed = parts => parts.flatMap((part, at) => at ? [at === parts.length - 1 ? ' and ' : ', ', part] : [part]);
const visible = text => text.replace(HIDDEN, one => `\\u{${one.codePointAt(0).toString(16)}}`);
// What a text of JSON says. A number of so many digits that it would not stand there exactly is a BigInt.
const exact = text => text.replace(/"(?:[^"\\]|\\.)*"|\d{16,}/g, one => one[0] === '"' ? one : `{"digits":"${one}"}`);
const parsed = text => JSON.parse(/[[:,]\d{16}/.test(text) ? exact(text) : text, (_key, one) => one && one.digits ? BigInt(one.digits) : one);
// A text of the spec. It is isolated, so that its direction of writing leaves the words around it in their places.
const name = text => h('bdi', null, visible(text));
const isPlain = text => /^[A-Za-z_\u0080-\u{10ffff}][\w$\u0080-\u{10ffff}]*$/u.test(text) && !KEYWORDS.includes(text);
const spelled = text => name(isPlain(text) ? text : `"${text.replaceAll('"', '""')}"`);
const code = text => h('code', null, name(text));
const span = (kind, ...parts) => h('span', { class: kind }, ...parts);
const pill = (kind, text) => span(`pill ${kind}`, text);

// What is shown: the classes, who gives the order of one, which letters are wanted, how rows stand, and which class is picked.
let data, source, want = {}, by = 'first', picked = 0, drawnRows = MOST_ROWS, drawing = 0, linked = 0;
let linkTo = at => `#class=${at + 1}`;
const who = session => name(data.sessions[session]);
const stepOf = step => name(step === null ? 'setup' : data.steps[step].name);
const isByResult = () => data.by === 'answers';
const classWord = () => isByResult() ? 'result' : 'class';
const classesWord = count => isByResult() ? plural(count, 'result') : plural(count, 'class', 'classes');

/* the classes */

// The steps of a class's order with what becomes of each, by the transcript of its session, turn by turn.
function turnsOf(one) {
  const turns = one.order.map(step => ({ step }));
  one.transcripts.forEach((lines, session) => {
    const own = turns.filter(turn => data.steps[turn.step].session === session);
    let next = 0, sent = {};
    for (const line of lines) {
      if (line.startsWith('step ')) sent = own[next++] || {};
      else if (line.startsWith('not sent ')) (own[next++] || {}).skipped = true;
      else if (line === 'waiting') sent.waits = true;
      else if (line.startsWith('error: ')) sent.fails = true;
    }
  });
  return turns;
}

function orderShown(one) {
  return spaced(turnsOf(one).map(({ step, waits, fails, skipped }) => {
    const says = [skipped && 'not sent', waits && 'waits', fails && 'fails'].filter(Boolean).join(', ');
    return h('span', { class: skipped ? 'skipped' : fails ? 'fails' : waits ? 'waits' : '' }, spelled(data.steps[step].name),
      says ? [h('span', { 'aria-hidden': true }, (skipped ? '-' : '') + (waits ? ':' : '') + (fails ? '!' : '')), span('hidden', ` (${says})`)] : '');
  }), ' ');
}

const tagsOf = one => Object.keys(LETTERS).filter(letter => one.letters.includes(letter)).map(letter => span(letter, LETTERS[letter][0]));
const nothingOf = () => !isByResult() ? 'nobody waits' : data.totals.R ? 'result of a serial order' : 'no error';
const isAsked = one => Object.entries(want).every(([letter, how]) => (how === 'with') === one.letters.includes(letter));
// What a query finds: its rows, or that there is none, or an error.
const foundText = lines => lines.filter(line => !line.startsWith('rows ')).map(line => line.replace(/^row /, '')).join(', ') || 'no row';

function placesAsked() {
  const places = data.classes.map((_one, at) => at).filter(at => isAsked(data.classes[at]));
  const size = at => data.classes[at].orders;
  return by === 'size' ? places.sort((a, b) => (size(a) < size(b)) - (size(a) > size(b)) || a - b) : places;
}

function drawFilters() {
  $('filters').replaceChildren(...Object.entries(LETTERS).filter(([letter]) => letter === 'R' || data.totals[letter]).map(([letter, [word, meaning]]) => {
    const total = data.totals[letter], [orders, classes] = total || [0, 0], state = want[letter] || 'any';
    const told = total ? `${plural(orders, 'order')}, ${classesWord(classes)}` : 'not known';
    return h('button', {
      type: 'button', 'data-want': state, 'data-letter': letter, disabled: !orders, title: total ? meaning : 'not known for permutation lines',
      'aria-label': `${word}: ${told}; ${{ any: 'with and without', with: 'only with', without: 'only without' }[state]}`,
      onclick: () => press(letter, { any: 'with', with: 'without' }[state]),
    }, h('span', { class: 'sign', 'aria-hidden': true }, { any: '', with: '+', without: '\u2212' }[state]),
    span('word', word), span('share', total ? share(orders, data.asked) : '-'), span('counts', told));
  }));
}

function press(letter, state) {
  if (state) want[letter] = state; else delete want[letter];
  drawnRows = MOST_ROWS;
  drawFilters();
  drawClasses();
  $('filters').querySelector(`[data-letter="${letter}"]`).focus();
}

function rowOf(at, most) {
  const one = data.classes[at], tags = tagsOf(one);
  const bar = h('i');
  bar.style.width = `${Math.round(Number(one.orders) / Number(most) * 1000) / 10}%`;
  return h('tr', { role: 'row', id: `class-${at}`, 'data-at': at, tabindex: at === picked ? 0 : -1, 'aria-selected': String(at === picked), onclick: () => pick(at) },
    h('td', { role: 'gridcell', class: 'number' }, String(at + 1)),
    h('td', { role: 'gridcell' }, h('div', { class: 'order' }, orderShown(one)),
      h('div', { class: 'tags' }, tags.length ? spaced(tags, '\u00a0\u00b7 ') : span('none', nothingOf())),
      one.query_rows.map(lines => h('div', { class: 'seen' }, 'query ', name(foundText(lines))))),
    h('td', { role: 'gridcell', class: 'count' }, number(one.orders), ' ', span('share', share(one.orders, data.asked)),
      h('span', { class: 'bar', 'aria-hidden': true }, bar)));
}

// The first rows stand at once; the others come behind them while the page goes on.
function drawRows(places, most, count) {
  $('rows').append(...places.slice(0, count).map(at => rowOf(at, most)));
  clearTimeout(drawing);
  if (places.length > count) drawing = setTimeout(() => drawRows(places.slice(count), most, ROWS_AT_ONCE));
}

function drawClasses() {
  const places = placesAsked(), most = data.classes.reduce((most, one) => one.orders > most ? one.orders : most, 1);
  const orders = places.reduce((sum, at) => sum + BigInt(data.classes[at].orders), 0n);
  if (places.length && !places.includes(picked)) picked = places[0];
  drawnRows = Math.max(drawnRows, places.indexOf(picked) + 1);
  const all = classesWord(data.classes.length);
  $('shown').textContent = places.length === data.classes.length ? all : `${number(places.length)} of ${all}, ${plural(orders, 'order')}`;
  $('rows').replaceChildren();
  drawRows(places.slice(0, drawnRows), most, Math.max(ROWS_AT_ONCE, places.indexOf(picked) + 1));
  if (!places.length) $('rows').append(h('tr', { role: 'row' }, h('td', { role: 'gridcell', colspan: 3, class: 'muted' }, 'No order has these letters.')));
  $('more').hidden = places.length <= drawnRows;
  $('more').textContent = `${number(Math.max(0, places.length - drawnRows))} more`;
  for (const [id, key, sort, sign] of [['by-first', 'first', 'ascending', ' \u2191'], ['by-size', 'size', 'descending', ' \u2193']]) {
    $(id).parentElement.setAttribute('aria-sort', by === key ? sort : 'none');
    $(id).lastElementChild.textContent = by === key ? sign : '';
  }
  drawOrder();
}

function pick(at, has_focus) {
  const old = $(`class-${picked}`);
  if (old) { old.setAttribute('aria-selected', 'false'); old.tabIndex = -1; }
  picked = at;
  if (!isAsked(data.classes[at])) { want = {}; drawFilters(); }
  if (!$(`class-${at}`)) drawClasses();
  const row = $(`class-${at}`);
  row.setAttribute('aria-selected', 'true');
  row.tabIndex = 0;
  if (has_focus) { row.focus({ preventScroll: true }); row.scrollIntoView({ block: 'nearest' }); }
  clearTimeout(linked);
  // A browser may keep a page of a file from it.
  linked = setTimeout(() => { try { history.replaceState(null, '', linkTo(at)); } catch (_) { /* so there is no link */ } }, 300);
  drawOrder();
}

function onClassKey(event) {
  const rows = [...$('rows').children], at = rows.indexOf(document.activeElement);
  if (at < 0 || !rows[at].dataset.at) return;
  const to = { ArrowDown: at + 1, ArrowUp: at - 1, Home: 0, End: rows.length - 1, PageDown: at + 10, PageUp: at - 10 }[event.key];
  if (event.key === 'Enter' || event.key === 'ArrowRight') { event.preventDefault(); focusCell(0, 0); return; }
  if (to === undefined) return;
  event.preventDefault();
  pick(Number(rows[Math.max(0, Math.min(rows.length - 1, to))].dataset.at), true);
}

// Each expectation, in how many orders it holds, and the class of the first order in which it fails; and levels.
function drawExpected() {
  const asked = data.levels, levels = levelText(asked, asked ? asked.other_lines : data.level_lines);
  $('expected').hidden = !data.expectations.length && !levels;
  $('expected').replaceChildren(...data.expectations.map(one => {
    const at = one.first === null ? -1 : data.classes.findIndex(of => of.first_rank === one.first);
    return h('p', null, one.first === null ? pill('good', 'holds') : pill('fail', 'failed'), ' ', code(`${one.select} = ${one.values.join(', ')}`),
      ` holds in ${number(one.holds_in)} of ${plural(data.asked, 'order')}`,
      at < 0 ? '' : [`; first fails at rank ${one.first}, in `, h('button', { type: 'button', onclick: () => pick(at, true) }, `${classWord()} ${at + 1}`)]);
  }), levels ? h('p', { class: 'muted' }, levels) : '');
}

// Under which level all stands, or that levels have no effect, with the lines of the file.
function levelText(asked, lines) {
  const told = lines[0] ? ` (line${lines[1] ? 's' : ''} ${lines.join(', ')})` : '', names = ['READ COMMITTED', 'SERIALIZABLE'];
  if (!asked) return told && `Isolation levels have no effect${told}.`;
  if (asked.default === 'serializable') names.reverse();
  return `Isolation level: ${names[0]}${told && `; ${names[1]}${told}`}.`;
}

/* the moments of an order */

const wants = it => [`wants ${it.wants} on `, name(it.on), it.has ? (it.asks === it.wants ? `, has ${it.has}` : `: has ${it.has} and asks ${it.asks}`) : ''];
const reason = ([other, why, mode]) => [who(other), why === 'holds' ? ` holds ${mode}` : ` is ahead, for ${mode}`];
// What a session read that a commit made stale.
const staleOf = (moment, session) => (moment.stale || []).filter(([one]) => one === session)
  .map(([, step, was, now]) => [stepOf(step), ' read ', name(foundText(was)), '; ', who(moment.session), ' committed ', name(foundText(now))]);
const isWait = moment => moment.told.at(-1) === 'waiting';
const failed = moment => moment.told.some(line => line.startsWith('error: '));

// How things stand at each moment: the locks before it, in it and behind it, who waits, and for whom.
function statesOf(order) {
  const held = order.begun.map(one => new Map(one.locks)), status = order.begun.map(one => one.status);
  const waits = held.map(() => null), edges = held.map(() => []), slots = held.map(() => new Map()), since = held.map(() => new Map());
  const copies = maps => maps.map(map => new Map(map));
  let most = 1;
  // A lock keeps its place beside the lane while it is shown; the leftmost one that is free among those shown is taken.
  const put = (session, on, step, shown) => {
    since[session].set(on, step);
    if (shown.has(on)) return;
    const used = [...shown.keys()].map(one => slots[session].get(one));
    let slot = 0;
    while (used.includes(slot)) slot++;
    slots[session].set(on, slot);
    most = Math.max(most, slot + 1);
  };
  order.begun.forEach((one, session) => one.locks.forEach(([on], at) => put(session, on, null, new Map(one.locks.slice(0, at)))));
  const states = order.moments.map((moment, at) => {
    const before = copies(held), during = copies(held), mine = held[moment.session], got = [];
    if (moment.kind === 'resumed') waits[moment.session] = null;
    for (const lock of moment.locks) {
      if (lock === null) { mine.clear(); continue; }
      const [on, mode] = lock;
      if (mine.get(on) !== mode) got.push([on, mode]);
      if (!mine.has(on)) put(moment.session, on, moment.step, during[moment.session]);
      mine.set(on, mode);
      during[moment.session].set(on, mode);
    }
    status[moment.session] = moment.status;
    if (isWait(moment)) {
      waits[moment.session] = { at, step: moment.step, it: moment.want };
      edges[moment.session] = moment.want.for;
    }
    for (const [session, of] of moment.still) edges[session] = of;
    return { before, during, after: copies(held), got, status: [...status], waits: [...waits], edges: [...edges], since: copies(since), slots: copies(slots) };
  });
  return [states, most];
}

// An arrow lies above the text of the cell of who waits, and ends at the bar, or at the lane, of who is waited for. All lanes
// are equally wide, so its place needs no measuring, and is right in print too.
function arrow(from, [to, why], on, kind, row, state) {
  const slot = why === 'holds' && state.slots[to].has(on) ? state.slots[to].get(on) : 0;
  const props = { class: `arrow ${to > from ? 'right' : 'left'} ${kind}${why}`, 'data-from': from, 'data-to': to, 'data-on': on, 'aria-hidden': true };
  return h('span', { ...props, vars: { lanes: to - from, slot, row } });
}
const arrowsOf = (edges, from, on, row, state) => edges.map((edge, at) => arrow(from, edge, on, '', row + at, state));

let order = null, states = [];

function drawOrder() {
  const one = data.classes[picked], at = picked;
  order = null;
  for (const id of ['heads', 'moments', 'ends', 'columns']) $(id).replaceChildren();
  $('absent').hidden = true;
  $('what').textContent = one ? `${isByResult() ? 'Result' : 'Class'} ${number(at + 1)} of ${number(data.classes.length)}` : 'No class';
  $('where').textContent = one ? `rank ${one.first_rank}, ${one.orders === 1 ? 'its only order' : `the first of ${plural(one.orders, 'order')}`}` : '';
  inspect(null);
  if (one) source(at, found => { if (at === picked && one === data.classes[at]) drawFound(one, found); });
}

// The words of a command, for a shell.
const commandOf = words => words.map(word => /^[\w./+-]+$/.test(word) ? word : `'${word.replaceAll("'", "'\\''")}'`).join(' ');

function drawFound(one, found) {
  // A short order has no steps behind its end; those that are not sent are of the rank.
  order = found && one.order.length < found.order.length ? { ...found, moments: found.moments.filter(moment => moment.kind !== 'notsent') } : found;
  if (!order) {
    $('absent').replaceChildren('Its moments are not in this page. Here they are: ', code(commandOf(['isofarm', 'show', data.name, String(one.first_rank)])));
    $('absent').hidden = false;
    $('ends').replaceChildren(...one.final_rows.map(table => leftShown(table, table.rows)), ...openShown(one.open || []), ...foundShown(one));
    return;
  }
  let most;
  [states, most] = statesOf(order);
  $('heads').replaceChildren(h('th', { scope: 'col' }, span('hidden', 'Step')),
    ...data.sessions.map((_name, session) => h('th', { scope: 'col', class: 'lane' }, span('muted', 'session '), who(session))));
  $('columns').replaceChildren(h('col', { class: 'steps' }), ...data.sessions.map(() => h('col')));
  const longest = Math.min(13, Math.max(4, ...data.steps.map(step => visible(step.name).length)));
  for (const [one, of] of [['sessions', data.sessions.length], ['bars', most], ['longest', longest]]) $('timeline').style.setProperty(`--${one}`, of);
  $('moments').replaceChildren(...order.moments.map(drawMoment));
  const tables = order.left.map((table, place) => leftShown(table, order.first[place].rows));
  $('ends').replaceChildren(...endsShown(), ...tables, ...openShown(order.open), ...foundShown(one));
  const cell = $('moments').querySelector('td');
  if (cell) cell.tabIndex = 0;
}

function drawMoment(moment, row) {
  const state = states[row], is_under = moment.kind === 'resumed', waiting = isWait(moment) ? moment.want.for.length : 0;
  const step = stepOf(moment.step);
  const head = h('th', { scope: 'row' }, is_under ? [h('span', { 'aria-hidden': true }, '\u21b3 '), step, span('hidden', ' goes on')] : step);
  // Arrows have room of their own above the text: first those of the ring, then those of who waits, then those of others.
  const ring = moment.ring ? moment.ring.length : 0, rows = {};
  let above = ring + waiting;
  for (const [session, edges] of moment.still) { rows[session] = above; above += edges.length; }
  return h('tr', { class: is_under ? 'under' : '', vars: above ? { above } : {} }, head, data.sessions.map((_name, session) => {
    const is_mine = session === moment.session, waits = state.waits[session], now = moment.still.find(([one]) => one === session);
    const stale = staleOf(moment, session).map(one => why(one));
    const is_idle = state.status[session] === 'out' && !waits && !is_mine && !state.after[session].size;
    const classes = [waits && 'stands', waits && (is_mine || now || stale[0]) && 'says', is_idle && 'outside',
      is_mine && failed(moment) ? 'refused' : state.status[session] === 'failed' && !waits && 'broken'];
    const hop = moment.ring ? moment.ring.findIndex(([one]) => one === session) : -1;
    return h('td', { class: classes.filter(Boolean).join(' '), tabindex: -1, 'aria-describedby': 'inspector', 'data-row': row, 'data-session': session },
      [...state.during[session]].map(([on, mode]) => h('span', {
        class: `lock ${mode}${state.before[session].has(on) ? '' : ' from'}${state.after[session].has(on) ? '' : ' to'}`,
        'data-on': on, 'data-holder': session, 'aria-hidden': true, vars: { slot: state.slots[session].get(on) },
      })),
      is_mine ? cellOf(moment, state, ring) : '',
      now ? [now[1].map(edge => why('now ', part(reason(edge)))), arrowsOf(now[1], session, waits.it.on, rows[session], state)] : '', stale,
      hop >= 0 ? ringArrow(moment.ring[hop], hop, state) : '');
  }));
}

const ringArrow = ([session, , on, edge], hop, state) => arrow(session, edge, on, 'ring ', hop, state);
const wayOf = moment => spaced([...moment.ring.map(([one]) => one), moment.session].map(who), ' \u2192 ');
// A reason stays on a line of its own where it does not fit behind what stands before it.
const part = parts => span('part', parts);
const why = (...parts) => span('why', ...parts);
const told = (...parts) => span('told', ...parts);

function cellOf(moment, state, row) {
  const parts = [], sql = moment.step === null ? '' : data.steps[moment.step].sql;
  if (moment.kind === 'sent' && sql) parts.push(span('sql', name(sql)));
  const shown = moment.told.filter(line => line !== 'done'), rows = shown.filter(line => line.startsWith('row ')).length;
  const most = rows > MOST_SHOWN + 1 ? MOST_SHOWN : rows;
  const reasons = it => it.for.map(edge => why(part(reason(edge))));
  let shownRows = 0;
  for (const line of shown) {
    if (line.startsWith('row ')) {
      shownRows++;
      if (shownRows <= most) parts.push(told(name(line)));
      else if (shownRows === rows) parts.push(span('told muted', `and ${rows - most} rows more`));
    } else if (line === 'waiting') {
      parts.push(told(pill('wait', 'waits'), ' ', wants(moment.want)), reasons(moment.want), arrowsOf(moment.want.for, moment.session, moment.want.on, row, state));
    } else if (line.startsWith('not sent ')) parts.push(told(pill('wait', 'not sent'), ' still ', wants(moment.want)), reasons(moment.want));
    else if (line.startsWith('error: ')) {
      const ring = line === 'error: deadlock' && moment.ring, lacks = line === 'error: lock not available' && moment.lacks;
      parts.push(told(pill('fail', line.slice(7)), ring ? [' ring ', wayOf(moment)] : lacks ? [' ', wants(lacks)] : ''), lacks ? reasons(lacks) : '');
      if (ring) parts.push(ring.map(([one, mode, on, edge]) => why(who(one), ` wants ${mode} on `, name(on), ': ', part(reason(edge)))));
    } else if (line === 'resumed') parts.push(told(pill('on', line)));
    else parts.push(told(line === 'committed' || line === 'rolled back' ? pill('end', line) : name(line)));
  }
  if (!shown.length) parts.push(span('told muted', 'done'));
  if (state.got.length) parts.push(span('had', spaced(state.got.map(([on, mode]) => [`+${mode} `, name(on)]), '  ')));
  return parts;
}

/* final rows */

const endsShown = () => data.sessions.flatMap((_name, session) => {
  const last = states.at(-1), waits = last && last.waits[session];
  return waits ? [h('p', null, pill('wait', 'waits for ever'), ' ', who(session), ': it ', wants(waits.it), '; ', spaced(last.edges[session].map(reason), ', '), '.')] : [];
});
const openShown = open => open.filter(([, how]) => how !== 'waits' || !order).map(([session, how]) => h('p', { class: 'open' }, who(session), `${OPEN[how]}.`));
const foundShown = one => one.query_rows.map((lines, at) => h('p', null, 'query ', code(data.queries[at]), ': ', code(foundText(lines))));

const valuesOf = row => row.match(/'(?:[^']|'')*'|[^|]+/g) || [];
const keyText = value => value.slice(1, -1).replaceAll("''", "'");
const isBelow = (a, b) => a[0] === "'" ? keyText(a) < keyText(b) : BigInt(a) < BigInt(b);
const rises = values => values.every((value, at) => !at || isBelow(values[at - 1], value));

// By what rows are told apart: the column that rises, before and now, as a key's does; of several the one that has the most keys that
// are locked in this order, and of these the first. Without one whole rows are compared.
function keysOf(table, before, now) {
  const of = (rows, column) => rows.map(row => row[column]), all = [...before, ...now], locks = [...order.begun, ...order.moments].flatMap(one => one.locks);
  const locked = locks.filter(lock => lock && lock[0].startsWith(`${table}[`)).map(([on]) => on.slice(table.length + 1, -1));
  const named = column => new Set(locked.filter(key => of(all, column).includes(key))).size;
  const columns = [...(all[0] || []).keys()].filter(column => rises(of(before, column)) && rises(of(now, column)));
  const key = columns.reduce((best, column) => best < 0 || named(column) > named(best) ? column : best, -1);
  const whole = rows => rows.map((row, at) => JSON.stringify([row, rows.slice(0, at).filter(one => one.join('|') === row.join('|')).length]));
  return key < 0 ? [whole(before), whole(now)] : [of(before, key), of(now, key)];
}

function leftShown(table, first) {
  const before = first.map(valuesOf), now = table.rows.map(valuesOf), [old, keys] = order ? keysOf(table.table, before, now) : [now, now];
  const rows = now.map((row, at) => {
    const was = before[old.indexOf(keys[at])];
    return h('tr', { class: was ? '' : 'new' }, row.map((value, column) => {
      const is_other = !was || was[column] !== value;
      return h('td', { class: is_other ? 'other' : '' }, name(value), was && is_other ? span('was', 'was ', name(was[column])) : '');
    }), was ? '' : h('td', { class: 'sign' }, 'new'));
  });
  const gone = before.filter((_row, at) => !keys.includes(old[at]));
  rows.push(...gone.map(row => h('tr', { class: 'gone' }, row.map(value => h('td', null, name(value))), h('td', { class: 'sign' }, 'gone'))));
  const shown = rows.slice(0, MOST_LEFT), more = rows.length - shown.length;
  return h('table', null, h('caption', null, span('muted', 'final rows of '), name(table.table), span('muted', now.length ? '' : ': no row')),
    h('tbody', null, shown, more > 0 ? h('tr', null, h('td', { class: 'sign', colspan: 9 }, `and ${plural(more, 'row')} more`)) : ''));
}

/* what stands at a cell, in sentences */

const locksText = map => listed([...map].map(([on, mode]) => [`${mode} on `, name(on)]));

function reasonLong([other, why, mode], on, state) {
  if (why === 'ahead') return [who(other), ` waits there too, for ${mode}, and is ahead`];
  const since = state.since[other].get(on);
  return [who(other), ` holds ${mode} there`, since === undefined ? '' : since === null ? ' since its setup' : [' since ', stepOf(since)]];
}

function endOfWait(row, session) {
  const at = order.moments.findIndex((moment, place) => place > row && moment.session === session && moment.kind === 'resumed');
  if (at < 0) return 'It waits for ever.';
  return ['It goes on after ', stepOf(order.moments.slice(0, at).findLast(moment => moment.kind !== 'resumed').step), '.'];
}

function sentences(row, session) {
  const moment = order.moments[row], state = states[row], before = states[row - 1] || state, waits = state.waits[session];
  const says = [], is_mine = session === moment.session, step = stepOf(moment.step);
  const reasons = (edges, on, state) => listed(edges.map(edge => reasonLong(edge, on, state)));
  if (is_mine && moment.kind === 'notsent') says.push([step, ' is not sent, for good: ', who(session), ' still waits.']);
  else if (is_mine) says.push([step, moment.kind === 'resumed' ? ' goes on: ' : ': ', name((moment.step !== null && data.steps[moment.step].sql) || 'no statement')]);
  if (is_mine && moment.ring) {
    says.push(['To wait would close the ring ', wayOf(moment), ', so ', who(session), ' is refused and all that its transaction did is undone. ',
      moment.ring.map(([one, mode, on, edge]) => [who(one), ` wants ${mode} on `, name(on), ', and ', reasonLong(edge, on, before), '. '])]);
  }
  if (is_mine && moment.lacks) {
    says.push(['Its request does not wait, so it is refused: it ', wants(moment.lacks), '. ', reasons(moment.lacks.for, moment.lacks.on, before), '.']);
  }
  if (waits) {
    says.push([who(session), ' waits with ', stepOf(waits.step), ': it ', wants(waits.it), '. ', reasons(state.edges[session], waits.it.on, state), '. ',
      endOfWait(waits.at, session)]);
  }
  says.push(...staleOf(moment, session).map(one => [one, '.']));
  const open = { ...OPEN, failed: ' is in a failed block, which takes COMMIT and ROLLBACK alone,', out: ' has no transaction open' }[state.status[session]];
  const held = state.after[session].size ? locksText(state.after[session]) : 'no lock';
  says.push([is_mine && moment.locks.includes(null) ? 'Its locks were let go. ' : '', 'Then ', who(session), open, ' and holds ', held, '.']);
  return says;
}

function inspect(at) {
  for (const hot of document.querySelectorAll('.hot')) hot.classList.remove('hot');
  if (!at || !order) {
    $('inspector').replaceChildren(h('p', { class: 'muted' }, 'Point at a cell, or go from the classes to the timeline with Enter, through it with the arrow keys, '
      + 'and back with Escape: here stands why a session waits, and which locks it holds.'));
    return;
  }
  const [row, session] = at, state = states[row], waits = state.waits[session], moment = order.moments[row];
  $('inspector').replaceChildren(...sentences(row, session).map(parts => h('p', null, parts)));
  const mark = ([other, why], on) => {
    const bars = [...$('moments').children[row].querySelectorAll('.lock')];
    for (const bar of bars) if (why === 'holds' && Number(bar.dataset.holder) === other && bar.dataset.on === on) bar.classList.add('hot');
  };
  if (waits) for (const edge of state.edges[session]) mark(edge, waits.it.on);
  if (session !== moment.session) return;
  for (const [, , on, edge] of moment.ring || []) mark(edge, on);
  for (const edge of moment.lacks ? moment.lacks.for : []) mark(edge, moment.lacks.on);
}

function focusCell(row, session) {
  const rows = $('moments').children;
  if (!rows.length) return;
  const old = $('moments').querySelector('td[tabindex="0"]');
  if (old) old.tabIndex = -1;
  const cell = rows[Math.max(0, Math.min(rows.length - 1, row))].children[1 + Math.max(0, Math.min(data.sessions.length - 1, session))];
  cell.tabIndex = 0;
  cell.focus({ preventScroll: true });
  cell.scrollIntoView({ block: 'nearest', inline: 'nearest' });
}

function cellAt(event) {
  const at = event.target.closest('td');
  return at && at.dataset.row ? [Number(at.dataset.row), Number(at.dataset.session)] : null;
}

function onCellKey(event) {
  const at = cellAt(event);
  if (!at) return;
  const [row, session] = at;
  const to = {
    ArrowDown: [row + 1, session], ArrowUp: [row - 1, session], ArrowRight: [row, session + 1], ArrowLeft: [row, session - 1],
    Home: [0, session], End: [order.moments.length - 1, session], Escape: [],
  }[event.key];
  if (!to) return;
  event.preventDefault();
  if (to.length) focusCell(...to); else pick(picked, true);
}

/* the page */

const linkedClass = () => {
  const at = Number((location.hash.match(/class=(\d+)/) || [])[1]) - 1;
  return at >= 0 && at < data.classes.length ? at : -1;
};

function drawFigures() {
  const counted = text => { const [count, ...words] = text.split(' '); return [h('b', null, count), ` ${words.join(' ')}`]; };
  const is_part = data.asked !== data.orders;
  $('figures').replaceChildren(...[is_part ? [h('b', null, number(data.asked)), ' of '] : '', counted(plural(data.orders, 'order')), ' of ', counted(plural(data.steps.length, 'step')), ' in ',
    counted(plural(data.sessions.length, 'session')), is_part ? ' asked for, ' : ', ', counted(classesWord(data.classes.length))].flat(2));
  $('alike').textContent = `The orders of a ${isByResult() ? 'result have the same rows, counts and errors' : 'class return the same to each session'}, and the same final rows.`;
  $('classes-title').textContent = isByResult() ? 'Results of orders' : 'Classes of orders';
}

// Shows classes. `from(at, tell)` tells the order of the class at a place, or null where there is none; `at` is the class to pick.
function show(given, from, at) {
  data = given;
  source = from;
  picked = Math.max(0, at);
  for (const letter of Object.keys(want)) if (!data.totals[letter] || !data.totals[letter][0]) delete want[letter];
  drawFigures();
  drawExpected();
  drawFilters();
  drawClasses();
  if (at > 0) $(`class-${picked}`).scrollIntoView({ block: 'nearest' });
}

$('rows').addEventListener('keydown', onClassKey);
$('moments').addEventListener('keydown', onCellKey);
$('moments').addEventListener('focusin', event => inspect(cellAt(event)));
$('moments').addEventListener('pointerover', event => { if (cellAt(event)) inspect(cellAt(event)); });
$('by-first').addEventListener('click', () => { by = 'first'; drawClasses(); });
$('by-size').addEventListener('click', () => { by = 'size'; drawClasses(); });
$('more').addEventListener('click', () => { drawnRows += MOST_ROWS; drawClasses(); });
$('theme').addEventListener('click', () => {
  const next = { '': 'dark', dark: 'light', light: '' }[document.documentElement.style.colorScheme];
  document.documentElement.style.colorScheme = next;
  $('theme').textContent = `Theme: ${next || 'system'}`;
});

if ($('classes')) {
  const given = parsed($('classes').textContent), orders = document.querySelectorAll('script.order');
  data = given;
  $('name').replaceChildren(name(given.name));
  document.title = `${visible(given.name)}: ${plural(given.orders, 'order')}, ${classesWord(given.classes.length)}`;
  show(given, (at, tell) => tell(at < orders.length ? parsed(orders[at].textContent) : null), linkedClass());
  addEventListener('hashchange', () => { if (linkedClass() >= 0 && linkedClass() !== picked) pick(linkedClass(), true); });
}
