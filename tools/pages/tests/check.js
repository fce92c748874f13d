// Checks the page's scripts without a browser.
//
//   node tools/pages/tests/check.js [--kinds] FOLDER ..        each FOLDER has scripts NAME.hib, each with NAME.report
//
// Of each entry: its tick, its act and its reply follow by the rules from the entries before; it has a sentence, which names as many
// holders as the reply counts; and docs/JOURNAL.md has a row for its act and its reply. Of each run: the unsound keys are those that the
// report names;
// the states by step and from the start are the same; nothing waits for a node at the end; the committed members of an owner are those that
// the store lists; each stale read has a story with its load, put, commit and hit, which says what is old; as many hits and lists are stale as tools/stale names,
// which reads no section, and keys are unsound since the ticks that it names; beside itself a run comes to the same; and nothing that is
// drawn has a hole in it, nor what differs from the run before. Boxes of one key say two rows otherwise if they differ, and have room for
// what they say if it isn't the shortest; the text of a stale hit has the cells that differ. The reports in a folder `examples` come by their
// schedules, and by no schedule that begins with another session. A journal that is cut, that has a line which was changed, or that is of
// another script says so. With --kinds, how many entries of each kind there were.
'use strict';
const fs = require('fs'), path = require('path'), vm = require('vm'), { spawnSync } = require('child_process');

// The page's scripts, in the order of the page, as one function that hands out what is checked.
const pages = path.join(__dirname, '..'), top = path.join(pages, '..', '..');
const files = fs.readFileSync(path.join(pages, 'page.html'), 'utf8').match(/^@.*\.js@$/gm).map(line => line.replace(/@/g, ''));
const source = files.map(file => fs.readFileSync(path.join(pages, file), 'utf8')).join('\n');
const names = source.match(/^(?:function|const) \w+/gm).map(declared => declared.split(' ')[1]);
const page = vm.runInThisContext(`(() => {${source}\nreturn { ${names.join(', ')} };})()`);

// The rows of docs/JOURNAL.md, as a page has them.
const made = spawnSync(path.join(top, 'tools/page'), ['examples/first.hib', 'examples/first.report'], { cwd: top, encoding: 'utf8' }).stdout;
const meanings = page.readMeanings(/<pre id="meanings" hidden>\n([^]*?)<\/pre>/.exec(made)[1].replace(/&lt;/g, '<').replace(/&amp;/g, '&'));

const totals = { short: 0, reports: 0, entries: 0, faults: 0, stale: 0, lists: 0, stories: 0, unsound: 0 }, kinds = new Map();
let wrong = 0;
function fail(file, text) {
  wrong++;
  if (wrong <= 20) console.log(`${file}: ${text.replace(/[\u0001\u0002]/g, '#')}`);
}

const HOLE = /undefined|NaN|\[object|null\b/;
function checkText(file, what, text) {
  const at = text.search(HOLE);
  if (at >= 0) fail(file, `${what} has a hole: ${text.slice(Math.max(0, at - 80), at + 80)}`);
}

// ---- entries ----

// An entry without what differs from run to run.
function kindOf({ part, verb, reply }) {
  const words = reply.replace(/^(row|hit|list|found at) .*/, '$1').replace(/ ([A-Z]\w*|\d+|v\d+|v-)/g, '').replace(/^\d+$/, 'N');
  return `${part} ${verb} = ${words}`;
}

function checkEntry(file, script, state, entry, at) {
  const said = page.explain(script, state, entry, at), line = page.lineOf(entry), held = /^(?:held|miss locked|miss wide|wide) (\d+)$/.exec(entry.reply);
  if (!said) fail(file, `${line}   has no sentence`);
  checkText(file, `the sentence of ${line}`, said);
  checkText(file, `the text of ${line}`, page.brief(entry, false) + page.brief(entry, true));
  if (held && entry.verb !== 'lock-all' && (said.match(/\(since \u0001/g) || []).length !== Number(held[1])) fail(file, `${line}   the holders are: ${said}`);
  const owner = page.ownerOf(script, entry), isOthers = owner && !state.sessions.get(entry.session).written.length;
  if (isOthers && `list ${page.committedRow(state, owner).cells[0]}` !== entry.reply) fail(file, `${line}   the committed members are others`);
  const rows = page.meaningsOf(meanings, entry, script.section);
  if (!rows.some(row => page.saysAct(row, entry))) fail(file, `${line}   docs/JOURNAL.md has no row for the act`);
  if (!rows.some(row => page.saysReply(row, entry))) fail(file, `${line}   docs/JOURNAL.md has no row for the reply`);
}

// The state at the end.
function checkEntries(file, script, journal) {
  const state = page.startState(script);
  journal.entries.forEach((entry, at) => {
    totals.entries++;
    kinds.set(kindOf(entry), (kinds.get(kindOf(entry)) || 0) + 1);
    if (entry.part === 'store' && entry.reply === 'fault') totals.faults++;
    checkEntry(file, script, state, entry, at);
    const { due, isOnTime, isAct, isReply } = page.step(script, state, entry, at);
    if (!isOnTime) fail(file, `${page.lineOf(entry)}   by the rules the tick can't come here`);
    if (!isReply) fail(file, `${page.lineOf(entry)}   by the rules the reply is: ${due}`);
    if (!isAct) fail(file, `${page.lineOf(entry)}   by the rules this is no act of the session`);
  });
  return state;
}

// ---- runs ----

function checkStory(file, run, story) {
  const read = run.reads.find(({ to }) => to === story.at), places = story.steps.map(({ at }) => at), has = at => places.includes(at);
  const loads = read.loadedAt === page.NEVER || (has(read.loadedAt) && ['load', 'list'].includes(run.entries[read.loadedAt].verb));
  const commits = places.some(at => at < story.at && page.isCommit(run.entries[at]));
  const last = places.filter(at => !page.isFence(run.entries[at]) || at < story.at).pop();
  if (!loads || !commits || !has(read.keptAt) || last !== story.at) fail(file, `a part of the story is missing: ${story.head}`);
  const isOdd = !story.why || story.why === page.IMPOSSIBLE || places.some((at, k) => k && at <= places[k - 1]);
  if (isOdd) fail(file, `the story is odd: ${story.head} ${story.why} ${places}`);
  const aged = story.steps.filter(({ text }) => text.includes('old from here on'));
  const isSaid = ({ text }) => /\. (What was listed|The row with .+) is old from here on\.$|\. The list may be old from here on\.$/.test(text);
  if (!aged.length || !aged.every(isSaid)) fail(file, `the story doesn't say what is old: ${story.steps.map(({ text }) => text).join(' ')}`);
  checkText(file, 'a story', story.head + story.why + story.steps.map(({ text }) => text).join());
}

// The boxes of a key's rows, in all of its lanes.
function checkBoxes(file, run, { name, lanes, form }, width) {
  const boxOf = lane => segment => ({ ...segment, said: form(segment.row), room: lane.width });
  const boxes = lanes.flatMap(lane => lane.segments.filter(({ row }) => row).map(boxOf(lane)));
  const isSame = (one, other) => (one.said === other.said) === (page.rowText(one.row) === page.rowText(other.row));
  const odd = boxes.find(one => !boxes.every(other => isSame(one, other)));
  if (odd) fail(file, `two rows of ${name} have one text, or one row has two, ${width} wide: ${odd.said}`);
  if (boxes.some(({ row, said }) => row.version !== page.NO_VERSION && !said.startsWith(row.version))) fail(file, `a box of ${name} has no version`);
  const isWhole = boxes.every(({ row, said }) => said === page.briefRow(row)), { apart } = run.keys.get(name);
  totals.short += Number(!isWhole);
  if (isWhole && apart.length && boxes.some(box => page.widthInBox(box, box.said) > box.room) && boxes[0].row.cells.length > apart.length) {
    fail(file, `a box of ${name} is cut before what differs, ${width} wide`);
  }
}

// The texts of stale hits.
function checkShort(file, run) {
  for (const { at, key } of run.findings) {
    const row = key ? page.rowShown(run.entries[at]) : null, text = page.briefOf(run, at);
    if (row && !run.keys.get(key).apart.every(i => text.includes(row.cells[i]))) fail(file, `a stale hit doesn't say what is old: ${text}`);
  }
}

// Whether a run is by its schedule, and not by another one.
function checkAgain(file, run) {
  const acts = name => run.entries.some(({ session }) => session === name);
  const other = run.script.sessions.find(name => name !== run.entries[0].session && acts(name));
  const begins = name => ({ ...run, script: { ...run.script, orders: [['run', name, '1'], ...run.script.orders] } });
  checkText(file, 'how it is played again', page.drawAgain(run, path.basename(file)) + page.lengthOf('a'));
  if (path.basename(path.dirname(file)) === 'examples' && !page.isBySchedule(run)) fail(file, 'the run is said not to be by its schedule');
  if (other && run.entries[0].session && page.isBySchedule(begins(other))) fail(file, 'the run is said to be by another schedule');
}

function checkDrawing(file, run, width, story, filter) {
  const visible = story && !filter.length ? page.entriesOfStory(run, story) : page.entriesOfFilter(run, filter);
  if (!visible.length) return;
  const lanes = page.namesWithLanes(run, filter, story, page.roomForKeys(run, visible, width), ''), layout = page.layoutOf(run, visible, lanes, width);
  const drawn = {
    rows: page.drawRows(run, layout, story, 0), boxes: page.drawBoxes(run, layout), lines: page.drawAcross(run, layout, story),
    way: page.drawWay(run, layout, story), picked: run.reads.map(({ to }) => page.drawPicked(run, layout, to, null)).join(''),
    marks: page.drawMarks(run, layout), texts: page.drawTexts(run, layout, 0), keys: page.drawKeys(layout), head: page.drawHead(layout).html,
    words: page.drawWords(run, story, null, true), badges: page.badges(run),
  };
  for (const [what, text] of Object.entries(drawn)) checkText(file, `the picture (${what}, ${width} wide)`, text);
  for (const group of layout.groups) if (group.kind === 'key') checkBoxes(file, run, group, width);
}

let before = null;
function checkComparison(file, run) {
  if (!page.drawComparison([run, run], ['a', 'b']).includes('The two runs come to the same.')) fail(file, 'the run differs from itself');
  if (before) checkText(file, 'the comparison with the run before', page.drawComparison([before, run], ['a', 'b']));
  before = run;
}

function checkRun(file, run, end) {
  const last = run.entries.length - 1, whole = state => JSON.stringify(page.tablesOf(run, state, page.NEVER, null));
  if (whole(page.walkTo(run, last)) !== whole(end)) fail(file, 'the states by step and from the start differ');
  for (const story of run.findings) checkStory(file, run, story);
  checkComparison(file, run);
  checkShort(file, run);
  if (run.entries.length) checkAgain(file, run);
  for (const width of [400, 1000, 1800]) for (const story of [run.findings[0] || null, null]) checkDrawing(file, run, width, story, []);
  for (const filter of [[...run.keys.keys()].slice(0, 1), run.script.sessions.slice(0, 1)]) checkDrawing(file, run, 1000, null, filter);
  for (let at = page.NEVER; at <= last; at += 1 + Math.floor(last / 12)) checkText(file, 'the panel', page.drawPanel(run, at, null));
  checkText(file, 'the panel', page.drawPanel(run, Math.floor(last / 2), null));
}

function checkStale(file, hits, stale, lists, old, unsound) {
  const said = spawnSync(path.join(top, 'tools/stale'), [file + '.hib', file + '.report'], { encoding: 'utf8' }).stdout;
  if (!said.endsWith(`stale hits: ${stale} of ${hits}\nstale lists: ${old} of ${lists}\n`)) {
    fail(file, `${stale} stale of ${hits} hits, ${old} of ${lists} lists, and tools/stale says ${said.slice(-60).replace(/\n/g, ', ')}`);
  }
  for (const since of unsound) if (!said.includes(`\n${since}: `) && !said.startsWith(`${since}: `)) fail(file, `${since}, and tools/stale says otherwise`);
}

// ---- what is wrong with a journal ----

// The warnings of a page of such a text, or why it can't be drawn.
function warningsOf(script, text) {
  try {
    const run = page.analyse(script, page.readJournal(text, script), null);
    return { first: run.odd.length ? run.odd[0].at : page.NEVER, said: page.drawWarnings({ ...run, verdict: null }) };
  } catch (fault) {
    return { first: page.NEVER, said: fault.message };
  }
}

const FEW = 300; // entries of a run that is bent

const BENDS = {
  'another reply': line => /\d$/.test(line) ? line + '1' : line + ' 1',
  'another tick': line => line.replace(/^\d+/, '0'),
  'no reply': line => line.slice(0, line.lastIndexOf(' = ')),
};

// A journal that was cut, and one with a line that was changed or is of another script, say so.
function checkWrong(file, script, lines, entries) {
  const place = Math.floor(entries.length / 2), cut = warningsOf(script, lines.slice(0, 1 + place).join('\n')).said;
  if (!cut.includes(`it has ${place} of ${entries.length} entries`)) fail(file, `a journal that was cut says: ${cut}`);
  for (const [what, bend] of Object.entries(BENDS)) {
    const { first, said } = warningsOf(script, lines.map((line, n) => n === 1 + place ? bend(line) : line).join('\n'));
    const isSaid = what === 'no reply' ? said.includes('is no entry') : first === place && /n't follow from those before/.test(said);
    if (!isSaid) fail(file, `a line with ${what} says: ${said}`);
  }
  const other = warningsOf({ ...script, sessions: [] }, lines.join('\n')).said;
  if (entries.some(({ session }) => session) && !other.includes('the report is of another script')) fail(file, `the report of another script says: ${other}`);
}

function checkReport(file) {
  const script = page.readScript(fs.readFileSync(file + '.hib', 'utf8')), text = fs.readFileSync(file + '.report', 'utf8'), lines = text.split('\n');
  const journal = page.readJournal(text, script), isReport = lines[0].startsWith('journal ');
  const misread = journal.entries.find((entry, at) => page.lineOf(entry) !== lines[at + 1]);
  if (journal.cut) fail(file, `is cut short: ${journal.cut}`);
  if (isReport && journal.entries.length && journal.entries.length <= FEW) checkWrong(file, script, lines, journal.entries);
  if (isReport && misread) fail(file, `a line is read as ${page.lineOf(misread)}`);
  const end = checkEntries(file, script, journal), run = page.analyse(script, journal, null), unsound = [...end.nodes[0].unsound.keys()].sort().join();
  run.meanings = meanings;
  for (const { number, queue } of end.nodes) if (queue.length) fail(file, `${queue.length} changes wait for ${page.nodeName(number)} at the end`);
  if (journal.unsound && unsound !== journal.unsound.slice().sort().join()) fail(file, `unsound by the rules: ${unsound}; by the report: ${journal.unsound}`);
  if (run.findings.length !== run.stale.size) fail(file, `${run.stale.size} stale reads, ${run.findings.length} stories`);
  checkRun(file, run, end);
  const hits = run.reads.filter(({ key }) => key), stale = hits.filter(({ isStale }) => isStale).length;
  const lists = run.reads.filter(({ query }) => query), old = lists.filter(({ isStale }) => isStale).length;
  const since = [...end.nodes[0].unsound].map(([key, { at }]) => `unsound ${key} since ${journal.entries[at].tick}`);
  if (isReport && !script.section) checkStale(file, hits.length, stale, lists.length, old, since);
  totals.reports++;
  totals.stale += stale;
  totals.lists += old;
  totals.stories += run.findings.length;
  totals.unsound += run.unsound.length;
}

const words = process.argv.slice(2), wantsKinds = words[0] === '--kinds';
for (const folder of wantsKinds ? words.slice(1) : words) {
  for (const name of fs.readdirSync(folder).filter(one => one.endsWith('.hib'))) {
    const file = path.join(folder, name.slice(0, -'.hib'.length));
    if (fs.existsSync(file + '.report')) checkReport(file);
  }
}
if (wantsKinds) for (const [kind, number] of [...kinds].sort()) console.log(String(number).padStart(7), kind);
console.log(`${totals.reports} reports, ${totals.entries} entries of ${kinds.size} kinds, ${totals.faults} faults, ${totals.stale} stale hits, ` +
  `${totals.lists} stale lists, ${totals.stories} stories, ${totals.unsound} unsound keys, ${totals.short} keys told shortly; ${wrong} wrong`);
process.exit(wrong || !totals.reports ? 1 : 0);
