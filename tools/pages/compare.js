'use strict';
// What two runs of one script come to, beside each other: their counts, how sessions ended, and what they were told.

// ---- what sessions were told ----

// The list of a kept result that was found, which is what a session gets if it counts as fresh.
const listFound = entry => entry.reply.slice(entry.reply.indexOf('['));

// What an entry tells its session of a row or a query; null if it tells nothing.
function answerIn(entry, found) {
  const { part, verb, key, query, reply } = entry, told = reply.replace(/^(hit|row|list) /, '');
  if (verb === 'find' || verb === 'load') return { what: key, told };
  if (isOfCache(entry) && verb === 'get') return reply.startsWith('hit ') ? { what: key, told } : null;
  if (part === 'store' && verb === 'list') return { what: query, told };
  return verb === 'check' && reply === 'fresh' ? { what: query, told: found } : null;
}

// All that sessions were told, by session, by what they asked for, and by how often they had asked for it.
function answersOf(run) {
  const answers = new Map(), found = new Map(), times = new Map();
  run.entries.forEach((entry, at) => {
    const { session, verb } = entry;
    if (verb === 'look') found.set(session, listFound(entry));
    const answer = answerIn(entry, found.get(session));
    if (!answer) return;
    const asked = `${session} ${answer.what}`, time = (times.get(asked) || 0) + 1;
    times.set(asked, time);
    answers.set(`${asked} ${time}`, { session, what: answer.what, time, told: withoutNoVersion(answer.told), at, isStale: run.stale.has(at) });
  });
  return answers;
}

// The answers that differ in what was told or whether it was stale, in the order of the first run.
function answersApart(one, other) {
  const [left, right] = [one, other].map(answersOf), names = new Set([...left.keys(), ...right.keys()]);
  const differs = (a, b) => !a || !b || a.told !== b.told || a.isStale !== b.isStale;
  return [...names].map(name => [left.get(name), right.get(name)]).filter(([a, b]) => differs(a, b));
}

// ---- counts ----

const countOf = (run, passes) => run.entries.filter(passes).length;

function outcomesOf(run, session) {
  return run.transactions.filter(one => one.session === session).map(({ outcome }) => outcome || 'open').join(', ');
}

function countsOf(run) {
  const hits = run.reads.filter(({ key }) => key).length, gets = countOf(run, entry => isOfCache(entry) && entry.verb === 'get');
  return new Map([
    ['strategies', [...run.script.entities.values()].map(({ name, strategy }) => `${name} ${strategy}`).join(', ')],
    ['entries', run.entries.length],
    ['hits', `${hits} of ${gets}`],
    ['stale reads', run.findings.length],
    ['unsound keys', run.unsound.map(({ key, node }) => key + atNode(node)).join(', ') || 'none'],
    ['loads', countOf(run, ({ verb }) => verb === 'load')],
    ['refused puts', run.marks.filter(mark => mark === 'refused').length],
    ...run.script.sessions.map(session => [`end of ${session}`, outcomesOf(run, session)]),
  ]);
}

// ---- drawing ----

const MOST_ANSWERS = 12; // answers that are shown

function drawAnswer(run, number, answer) {
  if (!answer) return 'not asked';
  const link = `<a href="#${run.entries[answer.at].tick}" data-run="${number}" data-entry="${answer.at}">tick&nbsp;${run.entries[answer.at].tick}</a>`;
  return `${codeHtml(answer.told)} ${answer.isStale ? '<b class="bad">stale</b>, ' : ''}${link}`;
}

const ordinal = time => time === 1 ? '' : `, time ${time}`;

// The runs as a table: counts that differ, and answers that differ.
function drawComparison(runs, names) {
  const [left, right] = runs.map(countsOf);
  const labels = [...new Set([...left.keys(), ...right.keys()])].filter(label => left.get(label) !== right.get(label));
  const cell = (counts, label) => escaped(counts.has(label) ? counts.get(label) : 'none'), apart = answersApart(...runs);
  const rows = labels.map(label => [escaped(label), cell(left, label), cell(right, label)]);
  for (const pair of apart.slice(0, MOST_ANSWERS)) {
    const { session, what, time } = pair[0] || pair[1];
    rows.push([`${codeHtml(session)} asks for ${codeHtml(what)}${ordinal(time)}`, ...pair.map((answer, n) => drawAnswer(runs[n], n, answer))]);
  }
  const drawn = rows.map(([head, ...cells]) => `<tr><th scope="row">${head}</th>${cells.map(text => `<td>${text}</td>`).join('')}</tr>`).join('');
  const more = apart.length > MOST_ANSWERS ? `<p class="note">${apart.length - MOST_ANSWERS} more answers differ.</p>` : '';
  if (!rows.length) return '<p class="note">The two runs come to the same.</p>';
  const heads = names.map(name => `<th scope="col">${escaped(name)}</th>`).join('');
  return `<table class="compare"><caption>What differs between the runs</caption><tr><td></td>${heads}</tr>${drawn}</table>${more}`;
}
