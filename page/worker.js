
// ---- what the playground asks, in a worker

let moduleBytes = null, core = null, last = Promise.resolve();

// What a text comes to: its faults; or its classes, which tell of levels themselves; or why there are none. A core that is spent is not used again.
function answerOf(spec, name) {
  const checked = core.check(spec, name);
  if (checked.fault) return { refused: checked };
  if (checked.faults.length) return { faults: checked.faults };
  const notes = checked.text.split('\n').filter(line => line.startsWith('no effect: ') && !line.startsWith('no effect: isolation level'));
  const classes = core.classes(spec, name);
  return typeof classes === 'string' ? { notes, classes } : { refused: classes };
}

function orderOfRank(spec, name, rank) {
  const order = core.show(spec, BigInt(rank), name);
  return typeof order === 'string' ? { rank, order } : { refused: order };
}

async function answer({ number, spec, name, rank }) {
  let found;
  try {
    if (!core || core.isSpent) core = await makeCore(moduleBytes);
    found = rank === undefined ? answerOf(spec, name) : orderOfRank(spec, name, rank);
  } catch (_) {
    core = null;
    found = { refused: { fault: 'trap' } };
  }
  self.postMessage({ number, ...found });
}

self.onmessage = event => {
  if (event.data.module) moduleBytes = event.data.module;
  else last = last.then(() => answer(event.data));
};
