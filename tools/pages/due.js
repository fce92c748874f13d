// Prints the reply that was due to the last entry of a journal, by the rules of the page.
//
//   node tools/pages/due.js SCRIPT JOURNAL
//
// JOURNAL is a report or JSON lines. It prints nothing if the entry follows, or can't come there at all; tools/why asks it.
'use strict';
const fs = require('fs'), path = require('path'), vm = require('vm');

const files = fs.readFileSync(path.join(__dirname, 'page.html'), 'utf8').match(/^@.*\.js@$/gm).map(line => line.replace(/@/g, ''));
const source = files.map(file => fs.readFileSync(path.join(__dirname, file), 'utf8')).join('\n');
const page = vm.runInThisContext(`(() => {${source}\nreturn { readScript, readJournal, analyse };})()`);

const [script, journal] = process.argv.slice(2).map(file => fs.readFileSync(file, 'utf8'));
const made = page.readScript(script), read = page.readJournal(journal, made);
const odd = page.analyse(made, read, null).odd.find(({ at }) => at === read.entries.length - 1);
if (odd && odd.due !== null && !odd.isReply) console.log(odd.due);
