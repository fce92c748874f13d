'use strict';
// The states of a run, as `hib tools states` tells them: by the journal's definitions, which is proved. A state goes on by what is told of
// an entry, and by no rule of this page. What isn't told is read off the entry that tells it: who made it so, and by which act. docs/DATA.md
// says what a line has.

// ---- the lines ----

const MEMBER = /"(\w+)":("(?:[^"\\]|\\.)*"|\[(?:"(?:[^"\\]|\\.)*"|[^\]"])*\]|[^,}]+)/g;

// The members of a line. Numbers and cells stay the texts that they are, since they may be too large for numbers here.
function toldFact(line) {
  const fact = { cells: [] };
  for (const [, name, text] of line.matchAll(MEMBER)) {
    if (name.startsWith('cell_')) fact.cells.push(text);
    else fact[name] = text[0] === '"' ? text.slice(1, -1) : text;
  }
  fact.entry = Number(fact.entry);
  fact.key = fact.entity ? keyOf(fact.entity, fact.id) : '';
  fact.row = { version: fact.version ? 'v' + fact.version : NO_VERSION, cells: fact.cells };
  if (fact.sessions) fact.sessions = fact.sessions.slice(1, -1).split(',').filter(one => one !== '').map(one => one.slice(1, -1));
  if (fact.list) fact.list = `[${(fact.list.slice(1, -1).match(/"(?:[^"\\]|\\.)*"|[^,]+/g) || []).join(' ')}]`;
  return fact;
}

// Of each entry, by its place, what is told of it; null if nothing was told of this run.
function readTold(text, entries) {
  const lines = text.split('\n').filter(line => line[0] === '{');
  if (!lines.length) return null;
  const told = entries.map(() => []);
  for (const fact of lines.map(toldFact)) told[fact.entry - 1].push(fact);
  return told;
}

// The first entry that isn't legal, and by which of its parts, if the program has said that in the place of states; or null.
function readVerdict(text) {
  const said = /^illegal (\d+) (\w+)/.exec(text.trimStart());
  return said ? { at: Number(said[1]) - 1, rule: said[2] } : null;
}

// ---- what a key has in its region ----

// The holders of a lock, the first one first. Who hasn't given back a lock that isn't there any more, holds another one.
const holdersOfLock = ({ holding }, key, id) => (holding.get(key) || []).filter(({ lock }) => lock === id).map(({ by, at }) => ({ by, at }));

function toldItem(context, fact, before) {
  const isPut = context.entry.verb === 'put', item = itemOf(context, fact.row, isPut ? loadBehind(context) : NEVER);
  return putOver({ ...item, tick: Number(fact.stored) }, isPut ? before : null);
}

// How a lock that nobody holds came to be so.
function releaseIn({ entry, at }, tick) {
  if (entry.reply === 'expired') return { tick, at, by: null, how: 'expired' };
  if (entry.verb === 'evict') return { tick, at, by: null, how: 'evicted' };
  return { tick, at, by: entry.session, how: 'given back', told: null };
}

function toldLock(context, fact, before) {
  const { state, at } = context, id = Number(fact.lock), own = before && before.kind === 'lock' && before.id === id ? before : { at, release: null };
  return {
    kind: 'lock', id, version: fact.row.version, until: Number(fact.until), holders: holdersOfLock(state, fact.key, id), shared: fact.shared === 'true',
    at: own.at, release: fact.holders === '0' ? releaseIn(context, Number(fact.released)) : own.release,
  };
}

// A key isn't in its region any more. Another key than the entry's has left for that.
function toldGone({ state, entry, at }, { entity, key }) {
  const [{ regions, gone }] = state.nodes;
  if (regions.get(entity).delete(key)) gone.set(key, { at, how: key === entry.key ? entry.reply : 'left' });
}

// Those who hold the key, the last one first.
function toldHolders({ state, session, entry, at }, { entity, key, sessions }) {
  const before = state.holding.get(key) || [], slot = state.nodes[0].regions.get(entity).get(key);
  const taken = { by: entry.session, at, lock: Number(entry.reply.split(' ')[1]) };
  state.holding.set(key, sessions.map(by => by === entry.session ? taken : before.find(one => one.by === by)).reverse());
  if (slot && slot.kind === 'lock') slot.holders = holdersOfLock(state, key, slot.id);
  if (sessions.includes(entry.session)) session.locks.set(key, taken.lock); else session.locks.delete(key);
}

// ---- a session's own copies ----

// The copy of a key after an act of the session; null if it has none.
const COPIES = {
  get: (copy, row, at) => managed(row, at),
  load: (copy, row, at) => managed(row, at),
  insert: (copy, row, at) => managed(row, at),
  update: (copy, row, at) => managed(row, at),
  persist: (copy, row) => ({ kind: 'new', row, base: null, at: NEVER }),
  set: (copy, row) => ({ ...copy, row }),
  remove: copy => copy.kind === 'new' ? null : { ...copy, kind: 'removed' },
  delete: () => null,
};

// ---- the state after an entry ----

// `holding` has of each key those who have locked it and not given that lock back.
const toldAtStart = script => ({ ...startState(script), holding: new Map() });

const TELLS = {
  row({ state, entry, at }, { key, row, holds }) {
    if (holds === 'row') state.committed.set(key, { row, at, by: entry.session }); else state.committed.delete(key);
    if (holds === 'nothing') state.deleted.set(key, { at, by: entry.session });
  },
  cache(context, fact) {
    const region = context.state.nodes[0].regions.get(fact.entity), before = region.get(fact.key);
    if (fact.holds === 'nothing') toldGone(context, fact);
    else region.set(fact.key, (fact.holds === 'item' ? toldItem : toldLock)(context, fact, before));
  },
  stamp({ state, entry, at }, { table, stamp: value }) {
    state.stamps.set(table, { value: Number(value), at, by: entry.session, ahead: entry.verb === 'pre' });
  },
  result({ state, session, entry, at }, { query, holds, time, list }) {
    state.kept.delete(query);
    if (holds !== 'nothing') state.kept.set(query, { time: Number(time), list, at, by: entry.session, listedAt: session.listedAt });
  },
  session({ state, entry, at }, fact) {
    const session = sessionOf(state, fact.session);
    if (fact.open === 'true') beginWork(session, { node: 0, time: Number(fact.time), floor: Number(fact.floor), at });
    else if (entry.verb === 'kill') cutOff(session, at); else session.open = false;
  },
  change({ session }, { change: kind, key, expected, holds, row }) {
    const version = kind === 'insert' ? '' : expected ? 'v' + expected : NO_VERSION;
    session.written.push({ kind, key, expected: version, row: holds === 'row' ? row : null });
  },
  copy({ session, entry, at }, { key, row }) {
    const copy = COPIES[entry.verb](session.copies.get(key), row, at);
    if (copy) session.copies.set(key, copy); else session.copies.delete(key);
  },
  emptied({ session }) { session.copies = new Map(); },
  holders: toldHolders,
  unsound({ state, entry, at }, { key, deleted }) {
    const [{ unsound }] = state.nodes, cause = / late$/.test(entry.reply) ? 'late' : 'expired';
    if (!unsound.has(key)) unsound.set(key, deleted ? { at, cause: 'reused', deletedAt: Number(deleted) - 1, key } : { at, cause });
  },
  restart({ state, at }) {
    startAnew(state, at);
    state.holding.clear();
  },
  cause() {}, // it says what the state before the entry has, which is told already
};

// What a session does beside that: which result it has found, what it has stamped, and what became of what it has written.
const DOES = {
  look({ state, session, entry }) { session.found = entry.reply === 'absent' ? null : use(state, entry.query); },
  stamp({ session, at }) { session.stampedAt = at; },
  commit({ session, entry, at }) { endWork(session, at, firstWord(entry.reply)); },
  rollback({ session }) { dropWork(session); },
};

// Takes what is told of an entry into the state.
function takeTold(script, state, entry, at, facts) {
  const context = contextOf(script, state, entry, at);
  for (const fact of facts) TELLS[fact.tells](context, fact);
  if (DOES[entry.verb]) DOES[entry.verb](context);
  rememberSources(context);
}
