'use strict';
// The panel beside the picture: what the picked entry means, and the state after it. And the words above the picture.

const SHOWN = 40; // rows that a table of the panel shows

// ---- a state, as tables of names and what stands there ----

const byHtml = by => by ? ' by ' + escaped(by) : '';

// Some of a list, as HTML.
function someHtml(texts, most = 8) {
  return texts.slice(0, most).map(codeHtml).join(' ') + (texts.length > most ? ' and more' : '');
}

function rowHtml({ script, run, state }, key) {
  const now = committedOf(state, key);
  return now ? `${codeHtml(named(script, key, now.row))} since ${linkTo(run, now.at)}${byHtml(now.by)}` : 'no row';
}

function slotHtml({ script, run, state, tick }, node, key, slot) {
  if (slot.kind === 'item') {
    const old = isOldSlot(state, node, key, slot) ? '<b class="bad">old</b> ' : '';
    return `${old}${codeHtml(named(script, key, slot.row))}, ${sentence(run, storedBy(slot))}`;
  }
  if (!isHeld(slot)) return `released lock ${slot.id}, of ${slot.release.tick}, good until ${slot.until}: ${sentence(run, releasedBy(slot, script))}`;
  const over = tick > slot.until ? ' <b class="bad">(over)</b>' : '', version = slot.version === NO_VERSION ? 'no version' : slot.version;
  return `lock ${slot.id}, good until ${slot.until}${over}${slot.shared ? ', shared' : ''}, over ${version}; held by ${sentence(run, holdersOf(state, slot))}`;
}

function sessionHtml({ state }, session, isShort) {
  const parts = [`time ${session.time}, floor ${session.floor}`];
  if (isShort) return parts[0];
  const copies = [...session.copies].map(([key, { kind, row }]) => {
    return `${key} ${kind === 'removed' ? '(to remove)' : rowText(row)}${isOldCopy(state, session, key) ? ' (old)' : ''}`;
  });
  if (copies.length) parts.push('copies: ' + someHtml(copies));
  if (session.written.length) parts.push('written: ' + someHtml(session.written.map(({ kind, key }) => `${kind} ${key}`)));
  if (session.locks.size) parts.push('locks: ' + someHtml([...session.locks.keys()]));
  if (session.doneAt > session.began) parts.push('has committed');
  return parts.join('; ');
}

function sessionsTable(around) {
  const { state, actor } = around, open = openSessions(state).sort((one, other) => (other.name === actor) - (one.name === actor));
  return open.map(session => [session.name + atNode(session.node), sessionHtml(around, session, open.length > 8 && session.name !== actor)]);
}

// What lines do with the whole region of an entity, if they have ever done anything.
function wideRows({ run, state }, name, { holders, given }) {
  if (holders.length) return [[wholeOf(name), 'locked by ' + sentence(run, holdersOf(state, { holders }))]];
  return given ? [[wholeOf(name), `given back at ${linkTo(run, given.at)}${byHtml(given.by)}`]] : [];
}

// What waits for a node, the first on top.
function queueRows(run, { queue }) {
  return queue.map(({ key, at, by }) => [`${key} of ${run.entries[at].tick}`, `changed${byHtml(by)}, committed at ${linkTo(run, at)}`]);
}

const stampHtml = (run, { value, ahead, by, at }) => `${value}${ahead ? ' (ahead of time)' : ''},${byHtml(by)} at ${linkTo(run, at)}`;
const keptHtml = (run, { list, time, by, at }) => `${codeHtml(list)} of the time ${time},${byHtml(by)} at ${linkTo(run, at)}`;

// The state after an entry, as tables with a head and rows. With `shown`, only of these keys.
function tablesOf(run, state, at, shown) {
  const { script } = run, entry = at === NEVER ? { tick: 0, session: '' } : run.entries[at];
  const around = { script, run, state, tick: entry.tick, actor: entry.session }, table = (head, rows) => ({ head, rows });
  const keys = [...run.keys.keys()].filter(key => !shown || shown.has(key)), unsoundHtml = unsound => sentence(run, UNSOUND[unsound.cause](unsound));
  const regions = state.nodes.flatMap(node => [...node.regions].map(([name, region]) => {
    const { strategy, capacity } = declared(script, name), kind = script.collections.has(name) ? 'members' : strategy;
    const head = `Cache of ${name}${atNode(node.number)} (${kind}, ${region.size} of ${capacity})`;
    const slots = [...region].filter(([key]) => !shown || shown.has(key)).map(([key, slot]) => [key, slotHtml(around, node, key, slot)]);
    return table(head, [...wideRows(around, name, node.wides.get(name)), ...slots]);
  }));
  const queues = state.nodes.length < 2 ? [] : state.nodes.map(node => table(`Waits for ${nodeName(node.number)}`, queueRows(run, node)));
  const unsound = state.nodes.flatMap(node => [...node.unsound].map(([key, one]) => [key + atNode(node.number), one]));
  return [
    table('Committed rows', keys.map(key => [key, rowHtml(around, key)])),
    ...regions,
    ...queues,
    table('Open sessions', sessionsTable(around)),
    table('Stamps', [...state.stamps].map(([name, stamp]) => [name, stampHtml(run, stamp)])),
    table('Kept results', [...state.kept].map(([name, kept]) => [name, keptHtml(run, kept)])),
    table('Unsound keys', unsound.map(([name, one]) => [name, `since ${linkTo(run, one.at)}: ${unsoundHtml(one)}`])),
  ];
}

// A row of a table; a mark, as `changed`, is read out before it.
function drawRowOf(name, html, mark) {
  const front = mark ? `<span>${mark}: </span>` : '';
  return `<tr${mark ? ' class="new"' : ''}><th scope="row">${front}${escaped(name)}</th><td>${html}</td></tr>`;
}

// A table with what has changed since the entry before marked and on top.
function drawTable({ head, rows }, before, isFirst) {
  const now = new Map(rows), old = new Map(before.rows), lost = [...old].filter(([name]) => !now.has(name));
  if (!now.size && !lost.length) return '';
  const isNew = name => !isFirst && old.get(name) !== now.get(name), order = rows.slice().sort(([one], [other]) => isNew(other) - isNew(one));
  const drawn = order.slice(0, SHOWN).map(([name, html]) => drawRowOf(name, html, isNew(name) ? 'changed' : ''));
  const gone = lost.map(([name, html]) => drawRowOf(name, `<del>${html}</del>`, 'gone'));
  const more = order.length > SHOWN ? `<p>${order.length - SHOWN} more</p>` : '';
  return `<h2>${escaped(head)}</h2><table aria-label="${escaped(head)}">${drawn.join('')}${gone.join('')}</table>${more}`;
}

// The state after an entry, from the one that was shown last if that is before it.
function walkTo(run, at) {
  if (!run.walk || run.walk.at > at) run.walk = { state: atStart(run), at: NEVER };
  while (run.walk.at < at) goOn(run, run.walk.state, ++run.walk.at);
  return run.walk.state;
}

function drawState(run, at, shown) {
  const before = tablesOf(run, walkTo(run, at - 1), at, shown);
  return tablesOf(run, walkTo(run, at), at, shown).map((table, n) => drawTable(table, before[n], at === NEVER)).join('');
}

// ---- the panel ----

// What docs/JOURNAL.md says of the entry's act and reply.
function drawMeanings(run, entry) {
  const rows = meaningsOf(run.meanings, entry, run.script.section).filter(({ meaning }) => !meaning.startsWith('The reply to '));
  const drawn = rows.map(({ forms, meaning }) => `<dt>${sentence(run, forms)}</dt><dd>${sentence(run, meaning)}</dd>`);
  return drawn.length ? `<dl aria-label="what docs/JOURNAL.md says">${drawn.join('')}</dl>` : '';
}

function whyOdd({ due, isOnTime, isReply }) {
  if (!isOnTime) return "the tick can't come here: it is to be above those of its part and of its session";
  if (isReply) return "this can't be an act of the session: it says another time, floor, lock, row, list or version than the session's";
  return due === null ? "this can't come here" : `the reply was to be ${codeHtml(due)}`;
}

function drawEntry(run, at) {
  const entry = run.entries[at], odd = run.odd.find(one => one.at === at), story = run.findings.find(one => one.at === at);
  const parts = [`<p class="line mono">${escaped(lineOf(entry))}</p>`];
  if (run.said[at]) parts.push(`<p>${sentence(run, run.said[at])}</p>`);
  if (story) parts.push(`<p>${sentence(run, story.why)}</p>`);
  if (odd) parts.push(`<p class="bad">By the entries before, ${whyOdd(odd)}.</p>`);
  return parts.join('') + drawMeanings(run, entry);
}

const TOLD_NOTE = 'as <code>hib tools states</code> tells it, by the definitions of the journal, which is proved.';
const UNPROVED_NOTE = 'as this page works it out: an unproved account.';

// The same for the whole page.
const TOLD_ACCOUNT = 'Which rows are stale, why an entry was refused, and since when, is drawn from the states that <code>hib tools states</code> ' +
  'tells by the definitions of the journal, which is proved. What a query gives is worked out in this page, and the words are its own.';
const UNPROVED_ACCOUNT = "This is an unproved account: how a read came about is worked out in this page; tests compare its rules with the program. " +
  '<code>hib audit</code> says by proved rules whether a journal is legal.';

function drawPanel(run, at, shown) {
  const note = run.told ? TOLD_NOTE : UNPROVED_NOTE;
  const front = '<p><b>Before the first entry.</b> Pick an entry, or step with the arrow keys, to see what it means and the state after it.</p>';
  const what = at === NEVER ? `${front}<p class="note">Each state here is ${note}</p>` :
    `${drawEntry(run, at)}<p class="note">The state after this entry, ${note} What the entry changed is marked.</p>`;
  return what + drawState(run, at, shown);
}

// ---- the words above the picture ----

function badges(run) {
  const marked = kind => run.marks.filter(mark => mark === kind).length, stale = reads => reads.filter(read => read.isStale).length;
  const hits = run.reads.filter(read => read.key), lists = run.reads.filter(read => read.query);
  const unsound = run.unsound.slice(0, 3).map(({ key, node }) => escaped(key + atNode(node))).join(', ');
  const { sessions, lines } = run.script, sizes = [count(run.entries.length, 'entry', 'entries'), count(sessions.length - lines.size, 'session')];
  sizes.push(...(lines.size ? [count(lines.size, 'bulk line')] : []), count(run.keys.size, 'key'));
  const strategies = [...run.script.entities.values()].slice(0, 3).map(({ name, strategy }) => `${escaped(name)} ${strategy}`);
  const out = [`<span class="badge">${sizes.join(', ')}</span>`, `<span class="badge">${strategies.join(', ')}${run.script.entities.size > 3 ? ' and more' : ''}</span>`];
  const add = (kind, text, colour = '') => out.push(`<button class="badge ${colour}" data-next="${kind}" title="go to the next one">${text}</button>`);
  add('stale', `${stale(hits)} stale of ${count(hits.length, 'hit')}`, stale(hits) ? 'red' : '');
  if (lists.length) add('stale', `${stale(lists)} stale of ${count(lists.length, 'kept list')} used`, stale(lists) ? 'red' : '');
  if (run.unsound.length) add('unsound', `unsound: ${unsound}${run.unsound.length > 3 ? ' and more' : ''}`, 'amber');
  if (marked('refused')) add('refused', count(marked('refused'), 'refused put'));
  if (run.oldCopies.length) add('oldcopy', count(run.oldCopies.length, 'old copy', 'old copies'));
  if (marked('idle')) add('idle', `${count(marked('idle'), 'statement')} did nothing`);
  return out.join('');
}

// What is wrong with the journal, before anything is believed of it.
function drawWarnings(run) {
  const out = [], warn = text => out.push(`<p class="note bad">${text}</p>`), open = run.transactions.filter(({ to }) => to === null);
  if (run.verdict && run.entries[run.verdict.at]) {
    warn(`The journal isn't legal: the first entry that isn't is at tick ${linkTo(run, run.verdict.at)}, by its ${run.verdict.rule}. ` +
      'So says <code>hib tools states</code>, by proved rules.');
  }
  if (run.journal.cut) warn(`The journal is cut short: ${sentence(run, run.journal.cut)}.`);
  if (run.odd.length) {
    warn(`${count(run.odd.length, "entry doesn't", "entries don't")} follow from those before, the first at tick ${linkTo(run, run.odd[0].at)}. ` +
      'Is this the report of another script, was a line of it changed, or had the run a file with rows of its own?');
  }
  if (open.length && !run.journal.cut) {
    const names = listed(open.slice(0, 5).map(({ session }) => escaped(session)));
    warn(`The journal stops while ${names}${open.length > 5 ? ' and more' : ''} ${open.length === 1 ? 'is' : 'are'} open: it was cut short.`);
  }
  return out.join('');
}

const FEW_STORIES = 3; // up to so many, all stories are told above the picture
const STORIES = 30; // and else so many, where they are asked for

function drawStory(run, story, n, isShown, isOnly) {
  const steps = story.steps.map(({ at, text }, k) => {
    return `<li><span class="number">${k + 1}</span><span>${linkTo(run, at, 'tick&nbsp;')}</span><span>${sentence(run, text)}</span></li>`;
  });
  const button = `<button data-only="${n}">${isOnly ? 'show all entries' : 'show only the entries of this story'}</button>`;
  return `<details class="story${isShown ? ' on' : ''}" data-story="${n}"${isShown ? ' open' : ''}><summary>Stale: ${sentence(run, story.head)}</summary>` +
    `<ol>${steps.join('')}</ol><p><b>Why the cache answered so.</b> ${sentence(run, story.why)}</p>${button}</details>`;
}

function drawUnsoundNotes(run) {
  const notes = run.unsound.slice(0, 3).map(({ key, node, at, text }) => {
    const cache = node ? 'the cache of ' + nodeName(node) : 'the cache', since = `since tick ${linkTo(run, at)}: ${sentence(run, text)}`;
    return `<p class="note"><b>Unsound:</b> ${cache} can't vouch for ${codeHtml(key)} ${since}.</p>`;
  });
  return notes.join('') + (run.unsound.length > 3 ? `<p class="note">${run.unsound.length - 3} more unsound keys.</p>` : '');
}

// The stories: few of them one below the other, of many the one that is shown, and the others where they are asked for.
function drawStories(run, story, only, areAllShown) {
  const tell = one => drawStory(run, one, run.findings.indexOf(one), one === story, one === only);
  if (run.findings.length <= FEW_STORIES) return run.findings.map(tell).join('');
  const others = run.findings.filter(one => one !== story), told = areAllShown ? others.slice(0, STORIES).map(tell).join('') : '';
  const more = others.length > STORIES ? `<p class="note">${others.length - STORIES} more: the key n goes to each.</p>` : '';
  const head = `<summary>${others.length}${story ? ' more' : ''} stale reads</summary>`;
  return `${story ? tell(story) : ''}<details class="others"${areAllShown ? ' open' : ''}>${head}${told}${areAllShown ? more : ''}</details>`;
}

function drawWords(run, story, only, areAllShown) {
  const none = '<p class="note">No stale read: each row and each list that came from the cache was what the store had committed at that moment.</p>';
  return drawWarnings(run) + (run.findings.length ? drawStories(run, story, only, areAllShown) : none) + drawUnsoundNotes(run);
}
