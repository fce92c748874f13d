// Compares a run that is drawn from the states that `hib tools states` tells with the same run by the page's own rules.
//
//   node tools/pages/tests/told.js PROGRAM FOLDER ..      PROGRAM is the built one; each FOLDER has scripts NAME.hib, each with NAME.report
//
// After each entry: whatever it names, and whatever is told of; and some twenty times in a run the whole state. Of each run: what is said of
// each entry and how it is called, what is stale and why, and all lanes are the same, and so is what the panel draws of some of the
// entries, without a hole in it.
// An entry has a cause exactly if its reply refuses, and that is what the key, the table or the query has by the rules. The scripts are
// those without a section. The time grows as the journals do.
'use strict';
const fs = require('fs'), path = require('path'), vm = require('vm'), { spawnSync } = require('child_process');

const pages = path.join(__dirname, '..');
const files = fs.readFileSync(path.join(pages, 'page.html'), 'utf8').match(/^@.*\.js@$/gm).map(line => line.replace(/@/g, ''));
const source = files.map(file => fs.readFileSync(path.join(pages, file), 'utf8')).join('\n');
const names = source.match(/^(?:function|const) \w+/gm).map(declared => declared.split(' ')[1]);
const page = vm.runInThisContext(`(() => {${source}\nreturn { ${names.join(', ')} };})()`);

const totals = { runs: 0, entries: 0, facts: 0, causes: 0, wholes: 0, panels: 0, stories: 0 };
let wrong = 0;
function fail(file, text) {
  wrong++;
  if (wrong <= 20) console.log(`${file}: ${text.replace(/[\u0001\u0002]/g, '#')}`);
}

// A value as a text.
const textOf = value => JSON.stringify(value, (name, part) => part instanceof Map || part instanceof Set ? [...part] : part);

// Says where two runs differ.
function same(file, what, own, told) {
  const [here, there] = [own, told].map(textOf);
  if (here === there) return;
  let at = 0;
  while (here[at] === there[at]) at++;
  const near = text => text.slice(Math.max(0, at - 100), at + 100);
  fail(file, `${what} by the page: ${near(here)}\n    and as told: ${near(there)}`);
}

// ---- states ----

const FORGOTTEN = ['members', 'reused', 'collections', 'ticks', 'holding']; // what there is of one kind of state alone, or of sections

function wholeOf(state) {
  return Object.fromEntries(Object.entries(state).filter(([part]) => !FORGOTTEN.includes(part)));
}

// What a state has of a thing.
const HAS = {
  key(state, key) {
    const [{ regions, unsound, gone }] = state.nodes, region = regions.get(page.entityOf(key));
    return [state.committed.get(key), state.deleted.get(key), region && region.get(key), unsound.get(key), gone.get(key)];
  },
  table: (state, table) => state.stamps.get(table),
  query: (state, query) => state.kept.get(query),
  session: (state, session) => state.sessions.get(session),
};

// The things that an entry names, and those of which something is told at it.
function thingsOf(script, own, entry, facts) {
  const things = new Map(), add = (kind, name) => { if (name) things.set(`${kind} ${name}`, [kind, name]); };
  const left = / evicted (\d+)$/.exec(entry.reply), isOver = ['commit', 'rollback'].includes(entry.verb);
  add('key', entry.key);
  add('session', entry.session);
  add('query', entry.query);
  if (entry.verb === 'kill') add('session', entry.words[1]);
  if (entry.part === 'region' && left) add('key', page.keyOf(entry.entity, left[1]));
  if (entry.part === 'stamps' && entry.verb !== 'check') for (const table of entry.words.slice(1)) add('table', table);
  if (isOver) for (const { key } of own.sessions.get(entry.session).written) add('key', key);
  for (const fact of facts) for (const kind of ['key', 'table', 'query', 'session']) add(kind, fact[kind]);
  return [...things.values()];
}

// ---- causes ----

const isRefusal = ({ verb, reply, part }) => (part === 'region' && ((verb === 'get' && reply.startsWith('miss ')) ||
  (['put', 'after-insert'].includes(verb) && !reply.startsWith('stored')))) || (verb === 'check' && reply !== 'fresh') || (verb === 'look' && reply === 'absent');

const slotText = slot => !slot ? 'nothing' : slot.kind === 'item' ? `item ${page.rowText(slot.row)} of ${slot.tick}` :
  `lock ${slot.id} over ${slot.version} until ${slot.until} held ${slot.holders.length} shared ${slot.shared} released ${slot.release ? slot.release.tick : 0}`;
const causeText = fact => fact.holds === 'nothing' ? 'nothing' : fact.holds === 'item' ? `item ${page.rowText(fact.row)} of ${fact.stored}` :
  `lock ${fact.lock} over ${fact.row.version} until ${fact.until} held ${fact.holders} shared ${fact.shared} released ${fact.released}`;

// Whether something is as it is since an entry, by the page. A lock that is held may be touched after its last holder has joined.
function isSince({ node, state, slot, entry }, { table }, told) {
  if (table) return told === state.stamps.get(table).at;
  if (entry.query) return true;
  if (slot && page.isHeld(slot)) return slot.holders.every(({ at }) => at <= told);
  if (slot) return told === (slot.kind === 'item' ? slot.at : slot.release.at);
  const gone = node.gone.get(entry.key);
  return told === (gone && gone.how !== 'restart' ? gone.at : page.NEVER);
}

function checkCause(file, context, fact) {
  const { entry, slot, state } = context, isKey = Boolean(fact.key), said = isKey ? causeText(fact) : `${fact.table} ${fact.stamp}`;
  const here = isKey ? slotText(slot) : `${fact.table} ${fact.table && state.stamps.get(fact.table).value}`;
  const told = fact.since ? Number(fact.since) - 1 : page.NEVER;
  if (!fact.query && said !== here) fail(file, `${page.lineOf(entry)}   has the cause ${said}, and by the page ${here}`);
  if (!isSince(context, fact, told)) fail(file, `${page.lineOf(entry)}   is so since entry ${told + 1} as told, and by the page it isn't`);
}

function checkCauses(file, context, facts) {
  const causes = facts.filter(({ tells }) => tells === 'cause');
  totals.causes += causes.length;
  if (causes.length !== Number(isRefusal(context.entry))) fail(file, `${page.lineOf(context.entry)}   has ${causes.length} causes`);
  for (const cause of causes) checkCause(file, context, cause);
}

// ---- a run, step by step and as a whole ----

function checkStates(file, script, entries, told) {
  const own = page.startState(script), state = page.toldAtStart(script), stride = 1 + Math.floor(entries.length / 20);
  entries.forEach((entry, at) => {
    const facts = told[at], things = thingsOf(script, own, entry, facts);
    checkCauses(file, page.contextOf(script, own, entry, at), facts);
    page.step(script, own, entry, at);
    page.takeTold(script, state, entry, at, facts);
    for (const [kind, name] of things) same(file, `${page.lineOf(entry)}   ${kind} ${name}`, HAS[kind](own, name), HAS[kind](state, name));
    if (at % stride && at !== entries.length - 1) return;
    totals.wholes++;
    for (const [part, whole] of Object.entries(wholeOf(own))) same(file, `${page.lineOf(entry)}   ${part}`, whole, state[part]);
  });
}

const DRAWN = ['said', 'marks', 'findings', 'reads', 'oldCopies', 'unsound', 'odd', 'transactions', 'locks', 'commits', 'tableCommits', 'keys', 'queries', 'tables'];

function checkRuns(file, script, journal, told) {
  const [own, run] = [null, told].map(facts => ({ ...page.analyse(script, journal, facts), verdict: null, meanings: [] }));
  for (const part of DRAWN) same(file, part, own[part], run[part]);
  same(file, 'the texts of entries', ...[own, run].map(one => one.entries.map((entry, at) => page.briefOf(one, at))));
  totals.stories += run.findings.length;
  for (let at = page.NEVER; at < journal.entries.length; at += 1 + Math.floor(journal.entries.length / 20)) {
    const [here, there] = [own, run].map(one => page.drawPanel(one, at, null));
    totals.panels++;
    if (/undefined|NaN|\[object|null\b/.test(there)) fail(file, `the panel of entry ${at + 1} has a hole`);
    if (!there.includes('hib tools states')) fail(file, `the panel of entry ${at + 1} doesn't say who tells it`);
    same(file, `the panel of entry ${at + 1}`, here.replace(page.UNPROVED_NOTE, page.TOLD_NOTE), there);
  }
}

function toldOf(program, file) {
  const report = fs.readFileSync(file + '.report', 'utf8'), text = fs.readFileSync(file + '.hib', 'utf8'), script = page.readScript(text);
  const journal = page.readJournal(report, script);
  const lines = journal.entries.map(({ tick, session, part, act, reply }) => JSON.stringify({ act, part, reply, session, tick }));
  const { stdout, stderr, status } = spawnSync(program, ['tools', 'states'], { input: `${text}journal\n${lines.join('\n')}\n`, encoding: 'utf8', maxBuffer: 1 << 30 });
  if (status !== 0) fail(file, `the states end with status ${status}: ${stderr}`);
  return { script, journal, told: page.readTold(stdout, journal.entries) };
}

function compare(program, file) {
  const { script, journal, told } = toldOf(program, file);
  if (!told) return;
  totals.runs++;
  totals.entries += journal.entries.length;
  for (const facts of told) totals.facts += facts.length;
  checkStates(file, script, journal.entries, told);
  checkRuns(file, script, journal, told);
}

const [program, ...folders] = process.argv.slice(2);
for (const folder of folders) {
  for (const name of fs.readdirSync(folder).filter(one => one.endsWith('.hib')).sort()) {
    const file = path.join(folder, name.slice(0, -'.hib'.length));
    if (fs.existsSync(file + '.report') && !page.readScript(fs.readFileSync(file + '.hib', 'utf8')).section) compare(program, file);
  }
}
console.log(`${totals.runs} runs, ${totals.entries} entries, ${totals.facts} facts, ${totals.causes} causes, ${totals.wholes} whole states, ` +
  `${totals.panels} panels, ${totals.stories} stories; ${wrong} wrong`);
process.exit(wrong || !totals.runs ? 1 : 0);
