// Draws the findings of a trace of another cache: calls as bars of their time, and a story of each. What is said of a call is what its
// line says; when between its ends it took effect isn't known, and no rule of a cache is used.
'use strict';

const STEP = 17, LEFT = 120, LANE = 230, MOST = 160;

const WORDS = {
  hit: 'is answered', miss: 'misses', put: 'puts', update: 'puts', drop: 'drops the key', lock: 'locks the key', unlock: 'gives the key back',
  load: 'loads', 'list-hit': 'is answered', 'list-load': 'loads', 'list-put': 'puts', 'list-miss': 'misses', write: 'writes', commit: 'commits', rollback: 'rolls back',
};

const KINDS = {
  stale: 'A stale answer', dirty: 'An answer before its commit', 'rolled-back': 'An answer that was rolled back',
  resurrected: 'A stale answer of a deleted row', 'lost-update': 'A lost update', 'old-list': 'An old list', contradicted: 'A commit that contradicts the order',
};

const $ = (id) => document.getElementById(id);

function made(tag, text, more = {}) {
  const element = document.createElement(tag);
  element.textContent = text;
  for (const [name, value] of Object.entries(more)) element.setAttribute(name, value);
  return element;
}

const row_of = (call) => call.value !== undefined && call.value !== null ? call.value : call.version !== undefined && call.version !== null ? 'version ' + call.version : 'no row';

const has_row = (call) => ['hit', 'put', 'update', 'load', 'write', 'list-hit', 'list-put', 'list-load'].includes(call.op);

// An instant as it stands in a line: a clock in nanoseconds has more digits than a number here keeps.
const instant = (text, name) => BigInt(new RegExp(`"${name}"\\s*:\\s*([0-9]+)`).exec(text)[1]);

const sign = (n) => n < 0n ? -1 : n > 0n ? 1 : 0;

function call_of(numbered) {
  const tab = numbered.indexOf('\t'), text = numbered.slice(tab + 1);
  return {...JSON.parse(text), line: Number(numbered.slice(0, tab)), begin: instant(text, 'begin'), end: instant(text, 'end')};
}

// A finding with the calls that belong to it, each with its line in the trace.
function finding_of(element) {
  const calls = element.textContent.trim().split('\n').map(call_of), {line, kind, said, old} = element.dataset;
  return {line: Number(line), kind, said, old: old === '' ? null : BigInt(old), calls, hit: calls.find((c) => c.line === Number(line))};
}

// What a commit's transaction wrote at the key, or at the keys of a list's tables, told with the commit itself.
function with_writes({hit, calls}) {
  const wrote = new Map(), told = (c) => hit.op === 'list-hit' ? `${c.key} as ${row_of(c)}` : row_of(c);
  for (const c of calls) if (c.op === 'write') wrote.set(c.tx, [...(wrote.get(c.tx) || []), told(c)]);
  for (const c of calls) if (is_end(c)) c.rows = wrote.get(c.tx) || (c.writes || []).map((w) => 'version ' + w[1]);
  return calls;
}

const is_end = (call) => call.op === 'commit' || call.op === 'rollback';

// The calls that are drawn: those of the story, and as many of the others nearest before it as there is room for.
function drawn_calls(finding) {
  const {hit} = finding, all = with_writes(finding), own = hit.op === 'write' ? all.find((c) => is_end(c) && c.tx === hit.tx) : null;
  const calls = all.filter((c) => c.op !== 'write' || c === hit).sort((a, b) => sign(a.begin - b.begin) || sign(a.end - b.end));
  const until = calls.filter((c) => c.begin <= (own || hit).end);
  return until.slice(Math.max(0, until.length - MOST));
}

function said_of(call) {
  const word = WORDS[call.op] || call.op;
  if (call.op === 'commit') return `${call.outcome === 'unknown' ? 'may have committed' : word} ${call.rows.join(', ')}`;
  if (call.op === 'rollback') return `${word} ${call.rows.join(', ')}`;
  if (!has_row(call)) return word;
  return `${word} ${row_of(call)}${call.outcome === 'refused' ? ', refused' : ''}`;
}

const number = (n) => String(n).replace(/\B(?=(\d{3})+(?!\d))/g, ' ');

// The steps of a write that is found: who gave it its base, which commit had ended before its own began, and its own.
function story_of_write({hit: write, kind, calls: all}, calls) {
  const own = all.find((c) => is_end(c) && c.tx === write.tx), base = write.base, steps = [];
  const add = (call, text) => steps.push({call, text: `${call.session || 'somebody'} ${text}`});
  const earlier = calls.filter((c) => c.op === 'commit' && c !== own && own && c.end < own.begin);
  const by = (kind === 'lost-update' ? earlier.filter((c) => !c.rows.includes(base)) : earlier).pop();
  const read = kind !== 'lost-update' ? null :
    calls.filter((c) => ['hit', 'load'].includes(c.op) && row_of(c) === base && c.session === write.session && c.begin <= write.begin).pop();
  if (read) add(read, said_of(read));
  if (by) add(by, `${said_of(by)}: that had ended before ${write.session || 'the writer'}'s commit began`);
  add(write, `writes ${row_of(write)}${kind === 'lost-update' ? `, which rests on ${base}` : ''}`);
  if (own) add(own, said_of(own));
  return steps.sort((a, b) => sign(a.call.begin - b.call.begin));
}

// The steps of a story: the commit that made the row old, who loaded and put the row about then, and the answer.
function story_of(finding) {
  const {hit, old} = finding, row = row_of(hit), calls = drawn_calls(finding), first = calls[0].begin, steps = [];
  if (hit.op === 'write') return story_of_write(finding, calls);
  const add = (call, text) => steps.push({call, text: `${call.session || 'somebody'} ${text}`});
  const commits = calls.filter((c) => c.op === 'commit' && !c.rows.includes(row));
  const gone = old === null ? null : hit.begin - old;
  const by = gone === null ? null : commits.filter((c) => c.end === gone).pop() || commits.filter((c) => c.end <= gone).pop();
  const [puts, loads, old_text] = hit.op === 'list-hit' ? [['list-put'], 'list-load', `so ${row} was computed before it`] :
    [['put', 'update'], 'load', `so from then on ${row} was old`];
  const put = calls.filter((c) => puts.includes(c.op) && row_of(c) === row && c.outcome !== 'refused' && c.begin <= hit.end).pop();
  const load = put && calls.filter((c) => c.op === loads && row_of(c) === row && c.session === put.session && c.begin <= put.begin).pop();
  const own = calls.filter((c) => is_end(c) && c.rows.includes(row)).pop();
  if (own) add(own, said_of(own));
  if (by) add(by, `${said_of(by)}: that had ended at ${number(by.end - first)}, ${old_text}`);
  if (load) add(load, `loads ${row}${by ? (load.end <= by.begin ? ', before that commit began' : load.begin < by.end ? ', which overlaps that commit' : '') : ''}`);
  if (put) add(put, `puts ${row} into the cache${by ? (put.begin >= by.end ? ', after that commit had ended' : ', which overlaps that commit or comes before it') : ''}`);
  steps.sort((a, b) => sign(a.call.begin - b.call.begin));
  add(hit, `is answered ${row}${old === null ? '' : `: at least ${number(old)} old`}`);
  return steps;
}

function draw(finding) {
  const calls = drawn_calls(finding), sessions = [...new Set(calls.map((c) => c.session || '-'))];
  const first = calls[0].begin;
  const gone = finding.old === null ? null : finding.hit.begin - finding.old;
  const instants = [...new Set([...calls.flatMap((c) => [c.begin, c.end]), ...(gone === null ? [] : [gone])])].sort((a, b) => sign(a - b));
  const place = new Map(instants.map((at, n) => [at, n]));
  const drawn = $('drawn'), wide = LEFT + sessions.length * LANE, top = (at) => 24 + place.get(at) * STEP;
  drawn.replaceChildren();
  const put = (text, kind, left, up, width, height, title) => {
    const element = made('div', text, {class: kind});
    Object.assign(element.style, {left: left + 'px', top: up + 'px', width: width + 'px', height: height === null ? '' : height + 'px'});
    if (title) element.title = title;
    drawn.append(element);
  };
  sessions.forEach((s, n) => put(s, 'name', LEFT + n * LANE, 0, LANE - 10, 18));
  for (const at of instants) {
    put(number(at - first), 'at', 0, top(at) - 8, LEFT - 14, 15);
    put('', 'rule', LEFT - 8, top(at), wide - LEFT, null);
  }
  if (gone !== null) {
    put('', 'old', LEFT - 8, top(gone), wide - LEFT, null);
    put('old from here on', 'since', wide - 110, top(gone) - 15, 100, 14);
  }
  for (const c of calls) {
    const lane = sessions.indexOf(c.session || '-'), height = Math.max(STEP - 1, top(c.end) - top(c.begin) - 1);
    put(said_of(c), `call ${c.op}${c === finding.hit ? ' judged' : ''}`, LEFT + lane * LANE, top(c.begin), LANE - 12, height,
      `line ${c.line}: ${c.op}, ${c.begin} to ${c.end}`);
  }
  drawn.style.height = 40 + instants.length * STEP + 'px';
  drawn.style.width = wide + 'px';
  drawn.setAttribute('aria-label', finding.said);
}

function tell(finding) {
  const words = $('words'), story = made('details', '', {class: 'story on', open: ''});
  const hit = finding.hit;
  story.append(made('summary', `${KINDS[finding.kind] || finding.kind} of ${hit.key}, line ${finding.line} of the trace`));
  const list = made('ol', '');
  story_of(finding).forEach((step, n) => {
    const item = made('li', '');
    item.append(made('span', String(n + 1), {class: 'number'}), made('span', `line ${step.call.line}`), made('span', step.text));
    list.append(item);
  });
  story.append(list);
  words.replaceChildren(story);
}

function show(findings, n) {
  tell(findings[n]);
  draw(findings[n]);
  document.querySelectorAll('#top .tab').forEach((tab, m) => tab.setAttribute('aria-pressed', String(m === n)));
}

function begin() {
  const findings = [...document.querySelectorAll('pre[data-line]')].map(finding_of), top = $('top');
  top.append(made('h1', document.title));
  findings.forEach((f, n) => {
    const tab = made('button', `line ${f.line}: ${f.kind}`, {class: 'tab'});
    tab.addEventListener('click', () => show(findings, n));
    top.append(tab);
  });
  const premises = $('premised');
  $('premises').textContent = premises ? premises.textContent.trim() : '';
  if (findings.length) show(findings, 0);
  else $('words').append(made('p', 'Nothing in this trace is certainly wrong.', {class: 'caption'}));
}

if (typeof document !== 'undefined') begin();
if (typeof module !== 'undefined') module.exports = {finding_of, story_of, drawn_calls, said_of};
