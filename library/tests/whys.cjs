'use strict';
// Compares what the rules of tools/whys say as the playground runs them with what AWK says, of each bad script of tools/expected/why.
//
//   node whys.cjs REPOSITORY
const fs = require('fs'), path = require('path'), { execFileSync } = require('child_process');

const [, , top] = process.argv, whys = path.join(top, 'tools/whys'), scripts = path.join(top, 'tools/expected/why');
const Awk = require(path.join(top, 'tools/playgrounds/awk.js'));
const files = fs.readdirSync(whys).filter(file => file.endsWith('.awk')).map(file => path.join(whys, file));
const rules = Awk.compile(files.map(file => fs.readFileSync(file, 'latin1')).join('\n'));
const byAwk = (file, variables) => {
  const words = Object.entries(variables).flatMap(([name, value]) => ['-v', `${name}=${value}`]);
  return execFileSync('awk', [...words, ...files.flatMap(one => ['-f', one]), '--', file], { env: { ...process.env, LC_ALL: 'C' } }).toString('latin1');
};

let count = 0, bad = 0;
for (const name of fs.readdirSync(scripts).filter(file => file.endsWith('.said'))) {
  const said = /^hib: line (\d+): ([a-z-]+)/m.exec(fs.readFileSync(path.join(scripts, name), 'latin1'));
  if (!said) continue;
  const file = path.join(scripts, name.replace(/said$/, 'hib')), input = fs.readFileSync(file, 'latin1');
  for (const more of [{}, { only: 'brief', told: 'told', file: 'f' }, { only: 'first' }]) {
    const variables = { line: Number(said[1]), said: said[2], ...more };
    count++;
    if (rules(input, variables) !== byAwk(file, variables)) {
      bad++;
      console.log(`rules: ${file} ${JSON.stringify(more)}`);
    }
  }
}
process.exitCode = bad || !count ? 1 : 0;
