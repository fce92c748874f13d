'use strict';
// Makes the calls of a folder by the module for browsers, and compares what comes of each.
//
//   node --experimental-wasm-memory64 calls.cjs MODULE.wasm FOLDER
const fs = require('fs'), path = require('path'), { openHib } = require('../wasm/hib.js');

const [, , file, folder] = process.argv, failures = [];
const part = (number, end) => fs.readFileSync(path.join(folder, `${number}.${end}`));
const isThere = number => fs.existsSync(path.join(folder, `${number}.words`));

openHib(fs.readFileSync(file)).then(call => {
  for (let number = 1; isThere(number); number++) {
    const words = part(number, 'words').toString().split('\n'), isTool = words[0] === 'tools';
    const { status, text, line } = call(isTool ? 'hib_tool' : 'hib_call', isTool ? words.slice(1) : words, part(number, 'input'));
    const isSame = status === Number(part(number, 'status')) && text === part(number, 'text').toString() && line === part(number, 'line').toString();
    if (!isSame) failures.push(`case ${number}: ${words.join(' ')}: ${status} ${line}`);
  }
  const small = call('hib_call', ['play'], part(1, 'input'), 10);
  if (small.status !== 5 || small.text.length !== 10 || small.length <= 10) failures.push('a small room');
  if (call('hib_call', ['play'], '#'.repeat(1048577)).status !== 6) failures.push('a long input');
  for (const what of failures.slice(0, 8)) console.log(`module: ${what}`);
  process.exitCode = failures.length ? 1 : 0;
});
