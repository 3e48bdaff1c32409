
/* the playground: the page beside a text that can be edited */

(() => {
  const PAUSE = 150, PATIENCE = 400, MOST_LINE = 48, FIRST_EXAMPLE = 'deadlock.spec', NAME = 'playground.spec';
  const REFUSED = {
    memory: 'There is not enough memory for this text in the page. A shorter one may still be run.',
    trap: 'The core has stopped at this text, and is made anew for the next one.',
    level: ['', 'There is no such level', 'A second line asks for a level', 'REPEATABLE READ is not modelled where a level is asked for'],
    start: ['', 'A main setup fails', 'The setup of a session fails', 'The setup of a session has to wait'],
  };
  // Lines that ask for a level, among what may seem to have one: blocks, names and other comments.
  const LEVEL_LINES = /\{[^}]*\}?|"[^"]*"?|((?<![^\n])[ \t]*#[ \t\r]*level:[^\n]*\n?)|#[^\n]*/g;
  const examples = JSON.parse($('given').textContent), encoder = new TextEncoder(), decoder = new TextDecoder();

  /* the worker: an old question is ended with the worker that has it */

  let module = null, worker = null, isBusy = false, asked = 0, spec = null, wanted = null, running = 0;

  function freshWorker() {
    if (worker) worker.terminate();
    const source = URL.createObjectURL(new Blob([$('worker').textContent], { type: 'text/javascript' }));
    worker = new Worker(source);
    worker.onmessage = event => { if (event.data.number === asked) tell(event.data); };
    worker.onerror = () => tell({ refused: { fault: 'trap' } });
    worker.postMessage({ module });
  }

  function put(question) {
    isBusy = true;
    worker.postMessage({ number: asked, spec, name: NAME, ...question });
  }

  // Asks what the text comes to. What was asked before is not told any more.
  function ask() {
    if (!worker || isBusy) freshWorker();
    asked++;
    spec = encoder.encode($('spec').value);
    wanted = null;
    clearTimeout(running);
    running = setTimeout(() => status(false, 'All orders are counted ..'), PATIENCE);
    put({});
  }

  function askOrder(at, tellOrder) {
    const rank = data.classes[at].first_rank;
    wanted = { rank, tellOrder };
    put({ rank });
  }

  function tell(answer) {
    clearTimeout(running);
    isBusy = false;
    if (answer.order) {
      if (wanted && wanted.rank === answer.rank) wanted.tellOrder(parsed(answer.order));
    } else if (answer.classes) tellClasses(parsed(answer.classes), answer.notes);
    else {
      stale(true);
      if (answer.refused && answer.refused.fault === 'level') $('level').value = null;
      if (answer.faults) status(true, ...answer.faults.map(faultShown));
      else status(true, refusedText(answer.refused));
    }
  }

  function refusedText({ fault, kind, place }) {
    if (fault === 'start') return `${REFUSED.start[kind]} (number ${place} of the file, from 0), so no order can be run.`;
    if (fault === 'level') return `${REFUSED.level[kind]} (line ${place}).`;
    if (fault === 'states') return `The orders lead to too many different states: more than ${number(place)}.`;
    return REFUSED[fault] || `The text is refused: ${fault}.`;
  }

  function tellClasses(given, notes) {
    stale(false);
    const counts = [plural(given.sessions.length, 'session'), plural(given.steps.length, 'step'), plural(given.orders, 'order')];
    status(false, h('p', null, `${counts.join(', ')}: ${given.orders === 1 ? 'it was' : 'all were'} counted here, in the page.`), ...notes.map(note => h('p', { class: 'muted' }, note)));
    $('level').value = given.levels ? given.levels.default : '';
    const linked = data ? picked : Number((location.hash.match(/class=(\d+)/) || [])[1] || 1) - 1;
    show(given, askOrder, linked < given.classes.length ? linked : 0);
  }

  /* what is told of the text */

  function status(is_wrong, ...parts) {
    $('status').className = is_wrong ? 'status wrong' : 'status';
    $('status').replaceChildren(...parts);
    $('spec').setAttribute('aria-invalid', String(is_wrong));
  }

  function stale(is_so) {
    for (const id of ['results', 'figures']) $(id).classList.toggle('old', is_so);
    $('results').classList.toggle('empty', is_so && !data);
  }

  // A fault with its line, a mark under the place, and a way there.
  function faultShown({ line, column, sentence, place }) {
    const text = [...decoder.decode(spec).split('\n')[line - 1] || ''], from = Math.max(0, column - 1 - MOST_LINE);
    const before = text.slice(from, column - 1).join(''), behind = text.slice(column - 1, column - 1 + MOST_LINE).join('');
    const dots = from ? '..' : '', mark = (dots + before).replace(/[^\t]/gu, ' ');
    const at = decoder.decode(spec.subarray(0, place)).length;
    return h('div', null, h('p', null, h('b', null, `Line ${line}, column ${column}. `), sentence),
      h('pre', null, `${dots}${visibleLine(before + behind)}\n${mark}^`),
      h('button', { type: 'button', onclick: () => { $('spec').focus(); $('spec').setSelectionRange(at, at + 1); } }, 'Go to the place'));
  }
  const visibleLine = text => text.split('\t').map(one => one.replace(HIDDEN, '\ufffd')).join('\t');

  /* the address keeps the text */

  const bytesOf = text => Uint8Array.from(atob(text.replaceAll('-', '+').replaceAll('_', '/')), one => one.charCodeAt(0));
  const textOf = bytes => btoa(Array.from(bytes, one => String.fromCharCode(one)).join('')).replaceAll('+', '-').replaceAll('/', '_').replaceAll('=', '');
  const through = async (bytes, stream) => new Uint8Array(await new Response(new Blob([bytes]).stream().pipeThrough(stream)).arrayBuffer());
  const unpacked = bytes => through(bytes, new DecompressionStream('deflate-raw'));

  let fragment = '';
  linkTo = at => `${fragment}&class=${at + 1}`;

  async function keep(text) {
    const bytes = encoder.encode(text), plain = `#spec=${textOf(bytes)}`, packed = `#packed=${textOf(await through(bytes, new CompressionStream('deflate-raw')))}`;
    if (text !== $('spec').value) return;
    const is_new = fragment !== '';
    fragment = packed.length < plain.length ? packed : plain;
    if (is_new) try { history.replaceState(null, '', fragment); } catch (_) { /* so there is no link */ }
  }

  // The text that the address has, or none.
  async function kept() {
    const [, how, text] = location.hash.match(/#(spec|packed)=([\w-]*)/) || [];
    if (!how) return null;
    try {
      return decoder.decode(how === 'packed' ? await unpacked(bytesOf(text)) : bytesOf(text));
    } catch (_) {
      return null;
    }
  }

  function load(text) {
    $('spec').value = text;
    changed();
  }

  function changed() {
    const text = $('spec').value, known = examples.findIndex(one => one.text === text);
    $('examples').value = known < 0 ? '' : known;
    keep(text);
    ask();
  }

  // The text asks for this level: by the line that asks for one, or at its beginning. For none no line does.
  function askLevel(level) {
    let line = level && `# level: ${level}\n`;
    const rest = $('spec').value.replace(LEVEL_LINES, (part, asks) => {
      const put = asks ? line : part;
      if (asks) line = '';
      return put;
    });
    picked = 0;
    load(line + rest);
  }

  let pause = 0;
  $('spec').addEventListener('input', () => { clearTimeout(pause); pause = setTimeout(changed, PAUSE); });
  $('examples').append(...examples.map((one, at) => h('option', { value: at }, one.name)));
  $('examples').addEventListener('change', event => {
    if (!event.target.value) return;
    picked = 0;
    load(examples[event.target.value].text);
  });
  $('level').addEventListener('change', event => askLevel(event.target.value));
  addEventListener('hashchange', async () => {
    const text = location.hash.startsWith(fragment) ? null : await kept();
    if (text !== null) load(text);
  });

  (async () => {
    stale(true);
    module = await unpacked(bytesOf($('module').textContent));
    const text = await kept();
    load(text === null ? examples.find(one => one.name === FIRST_EXAMPLE).text : text);
  })();
})();
