// What the program answers of a spec, asked of the module that page/core/make makes of its proved parts. A plain script, for a page, a worker or Node:
// no request, no eval. It passes bytes to the module and takes bytes from it, and reads the places of faults out of its text.
//
//   const core = await makeCore(wasmBytes);
//
// `wasmBytes` are the bytes of page.wasm, or a module that was compiled of them. With {memory: N} the module has N bytes of memory at most, and tells
// want of memory where they do not do; else it has what the browser gives, 4 GiB at most.
//
// A spec is bytes (Uint8Array), a rank a BigInt, a name a string. Each call answers at once. A fault is an object {fault, kind, place}, where `fault` is
// one of the words of CORE_FAULTS; `kind` and `place` are numbers, as in the program's fault lines, or 0. Where the orders lead to too many different states,
// `fault` is 'states' and `place` is how many were noted. Where the spec says something wrong of levels, `fault` is 'level', `kind` is 1 for a level that there
// is not, 2 for a second line and 3 for REPEATABLE READ, and `place` is the number of the line.
// After a trap, as of a stack that is full, a call answers {fault: 'trap'}, as each later one does: `core.isSpent` is true, and another core is to be made.
'use strict';

const CORE_FAULTS = [null, 'spec', 'sql', 'bind', 'range', 'start', 'memory', 'room', 'name', 'states', 'level', 'trap'];
const CORE_MEMORY = 6, CORE_ROOM = 7, CORE_TRAP = 11;
// So many bytes of a spec are read at most, as the program does it: one more than a spec may have.
const CORE_SPEC = 65537;
// Room for a text at first. One that has more is asked for again.
const CORE_TEXT = 1 << 16;

async function makeCore(wasmBytes, {memory = 0} = {}) {
  const module = wasmBytes instanceof WebAssembly.Module ? wasmBytes : await WebAssembly.compile(wasmBytes);
  const calls = (await WebAssembly.instantiate(module, {})).exports;
  if (memory) calls.page_most(BigInt(memory));
  const encoder = new TextEncoder(), decoder = new TextDecoder('utf-8', {fatal: true, ignoreBOM: true});
  let isSpent = false;

  const faultOf = ([fault, kind, place]) => ({fault: CORE_FAULTS[Number(fault)], kind: Number(kind), place: Number(place)});
  const noMemory = () => [BigInt(CORE_MEMORY), 0n, 0n];

  // Runs a use of the module's memory. What it has taken there is given back, and a trap spends the core.
  function within(use) {
    if (isSpent) return {end: [BigInt(CORE_TRAP), 0n, 0n]};
    const taken = [];
    // A place for so many bytes, or 0.
    const room = count => {
      const at = calls.page_room(BigInt(count || 1)) >>> 0;
      if (at) taken.push(at);
      return at;
    };
    const put = bytes => {
      const at = room(bytes.length);
      if (at) new Uint8Array(calls.memory.buffer, at, bytes.length).set(bytes);
      return at;
    };
    try {
      const answer = use(room, put);
      for (const at of taken) calls.page_done(at);
      return answer;
    } catch (error) {
      isSpent = true;
      return {end: [BigInt(CORE_TRAP), 0n, 0n]};
    }
  }

  const endAt = at => [...new BigUint64Array(calls.memory.buffer, at, 3)];

  // The text that a call puts, and how it ended. `ask` is given the places and lengths of the spec, and of the text and the end.
  function textOf(given, name, ask) {
    return within((room, put) => {
      const spec = given.subarray(0, CORE_SPEC), named = encoder.encode(name);
      const specAt = put(spec), nameAt = put(named), endPlace = room(24);
      if (!specAt || !nameAt || !endPlace) return {end: noMemory()};
      for (let size = CORE_TEXT; ;) {
        const textAt = room(size);
        if (!textAt) return {end: noMemory()};
        const count = Number(ask([specAt, BigInt(spec.length), nameAt, BigInt(named.length)], [textAt, BigInt(size), endPlace]));
        const end = endAt(endPlace);
        if (Number(end[0]) === CORE_ROOM && count > size) {
          size = count;
          continue;
        }
        return {end, text: decoder.decode(new Uint8Array(calls.memory.buffer, textAt, count))};
      }
    });
  }

  // The number of the spec's orders, a BigInt, or a fault.
  function ranks(given) {
    const {end, count} = within((room, put) => {
      const spec = given.subarray(0, CORE_SPEC);
      const specAt = put(spec), endPlace = room(24);
      if (!specAt || !endPlace) return {end: noMemory()};
      const count = BigInt.asUintN(64, calls.page_ranks(specAt, BigInt(spec.length), endPlace));
      return {end: endAt(endPlace), count};
    });
    return end[0] ? faultOf(end) : count;
  }

  const textOrFault = ({end, text}) => (end[0] ? faultOf(end) : text);

  // What `isofarm show SPEC RANK --json` prints.
  function show(spec, rank, name) {
    return textOrFault(textOf(spec, name, (given, got) => calls.page_show(...given, BigInt.asUintN(64, BigInt(rank)), ...got)));
  }

  // What `isofarm classes SPEC --json` prints, or with --by-result.
  function classes(spec, name, {byResult = false} = {}) {
    return textOrFault(textOf(spec, name, (given, got) => calls.page_classes(...given, byResult ? 1 : 0, ...got)));
  }

  // What `isofarm check SPEC` prints, and each fault of it: {line, column, sentence, place}, where the place is an offset in the spec's bytes. Of a spec that
  // is right there is none. `first` is the fault that the program's other commands tell of it.
  function check(spec, name) {
    const {end, text} = textOf(spec, name, (given, got) => calls.page_check(...given, ...got));
    if (!end[0]) return {faults: [], text};
    const first = faultOf(end);
    if (!['spec', 'sql', 'bind'].includes(first.fault)) return first;
    const faults = faultsIn(spec, name, text);
    return {faults, first, text: `isofarm: ${name}: ${first.fault} error ${first.kind} at ${first.place}\n${text}\n`};
  }

  return {check, ranks, show, classes, get isSpent() { return isSpent; }};
}

// The faults in a text of check: of each there are its place, NAME:LINE:COLUMN, the line, the mark, and what is wrong. All but the first are behind `also`.
function faultsIn(spec, name, text) {
  const faults = [];
  for (let rest = text; rest;) {
    if (faults.length) rest = rest.slice('also '.length);
    const [where, , , sentence] = rest.slice(name.length).split('\n', 4);
    const [line, column] = where.split(':').slice(1).map(Number);
    faults.push({line, column, sentence, place: placeOf(spec, line, column)});
    rest = rest.slice(name.length + rest.slice(name.length).split('\n', 4).join('\n').length + 1);
  }
  return faults;
}

// The offset in the bytes of the character in a column of a line, both from 1. What is no UTF-8 counts as it is decoded.
function placeOf(spec, line, column) {
  let at = 0;
  for (let left = line; left > 1; left--) at = spec.indexOf(10, at) + 1;
  const end = spec.indexOf(10, at), decoder = new TextDecoder('utf-8', {ignoreBOM: true});
  const shown = count => [...decoder.decode(spec.subarray(at, at + count))].length;
  // The least number of bytes with which the column is reached.
  let few = 0, many = (end < 0 ? spec.length : end) - at;
  while (few < many) {
    const middle = (few + many) >> 1;
    if (shown(middle + 1) < column) few = middle + 1;
    else many = middle;
  }
  return at + few;
}

if (typeof module !== 'undefined' && module.exports) module.exports = {makeCore, CORE_FAULTS};
