// node crosscheck/core_asked.js WASM: answers what is asked of the module, a line of JSON for each line of JSON.
//
// {"memory": N} makes a new core, with N bytes of memory at most where N is not 0, and the others ask the core that there is then: {"call": NAME, "spec": BASE64,
// "more": [..]}. What is answered is {"answer": ..}, with a BigInt as a string, and whether the core is spent.
'use strict';
const fs = require('fs');
const {makeCore} = require('../page/core.js');

async function main() {
  const wasm = await WebAssembly.compile(fs.readFileSync(process.argv[2]));
  let core = await makeCore(wasm);
  for await (const line of require('readline').createInterface({input: process.stdin})) {
    const asked = JSON.parse(line);
    let answer = null;
    if ('memory' in asked) core = await makeCore(wasm, {memory: asked.memory});
    else answer = core[asked.call](new Uint8Array(Buffer.from(asked.spec, 'base64')), ...asked.more);
    const told = JSON.stringify({answer, spent: core.isSpent}, (_, it) => (typeof it === 'bigint' ? String(it) : it));
    process.stdout.write(told + '\n');
  }
}

main();
