'use strict';
// The state of a run between two entries, and what stands around an entry in it. It goes on by what is told of an entry (told.js), or by the
// rules of this page (steps.js), which also know the last ticks.
//
// A state has the committed rows by key, the stamps of tables, the kept results from the one that was used least recently on, the sessions,
// and when a key was deleted. Each node has of its own each region with its slots by key, and what explains a later reply: why a key isn't
// in its region any more, and since when it is unsound; what lines do with whole regions; and of two nodes what waits for it. `at` is always
// the place of an entry in the journal, and `by` a session or a bulk line.

function nodeAtStart(script, number) {
  const cached = [...script.entities.values(), ...script.collections.values()].filter(({ strategy }) => strategy !== 'none');
  const forEach = make => new Map(cached.map(({ name }) => [name, make()]));
  return { number, regions: forEach(() => new Map()), wides: forEach(wideAtStart), gone: new Map(), unsound: new Map(), queue: [], fence: null };
}

function startState(script) {
  const state = {
    committed: new Map(), stamps: new Map(), kept: new Map(), sessions: new Map(), deleted: new Map(), restarted: NEVER,
    collections: script.collections, members: new Map(), reused: new Map(), ticks: new Map(),
    nodes: nodesOf(script).map(number => nodeAtStart(script, number)),
  };
  for (const [key, row] of script.rows) {
    state.committed.set(key, { row, at: NEVER, by: null });
    moveMembers(state, key, null, row, { at: NEVER, by: null });
  }
  return state;
}

const nodeOf = (state, number) => state.nodes.find(node => node.number === number);

function sessionOf(state, name) {
  if (!state.sessions.has(name)) {
    state.sessions.set(name, {
      name, node: 0, open: false, time: 0, floor: 0, began: NEVER, killed: NEVER, outcome: '',
      doneAt: NEVER, stampedAt: NEVER, listedAt: NEVER, listed: '', found: null,
      written: [], done: [], owners: [], copies: new Map(), locks: new Map(), loads: new Map(),
    });
  }
  return state.sessions.get(name);
}

const openSessions = state => [...state.sessions.values()].filter(session => session.open);
const openAt = (state, number) => openSessions(state).filter(session => session.node === number);
const oldestOpen = (state, floor, number) => openAt(state, number).find(session => session.time === floor);
// What is committed of a key, and since when; of an owner, to which nothing has referred yet, that it has no members.
const unreferred = () => ({ row: membersRow([]), at: NEVER, by: null });
const committedOf = (state, key) => state.committed.get(key) || (state.collections.has(entityOf(key)) ? unreferred() : undefined);
const committedRow = (state, key) => committedOf(state, key) ? committedOf(state, key).row : null;
const rowsOf = state => new Map([...state.committed].map(([key, { row }]) => [key, row]));
const hasWritten = (session, key) => session.written.some(change => change.key === key);

// What stands around an entry, in the state before it.
function contextOf(script, state, entry, at) {
  const node = nodeOf(state, entry.node), entity = entry.entity ? declared(script, entry.entity) : null;
  const region = entity ? node.regions.get(entity.name) : null;
  return {
    script, state, node, entry, at, entity, region,
    slot: region ? region.get(entry.key) : undefined,
    session: entry.session === null ? null : sessionOf(state, entry.session),
    query: entry.query ? script.queries.get(entry.query) : null,
  };
}

// ---- what begins and ends ----

// A transaction of a session begins.
function beginWork(session, { node, time, floor, at }) {
  Object.assign(session, {
    node, open: true, time, floor, began: at, outcome: '',
    written: [], done: [], doneAt: NEVER, stampedAt: NEVER, locks: new Map(), loads: new Map(),
  });
}

// What a session has written is committed at an entry, or not.
function endWork(session, at, outcome) {
  Object.assign(session, { done: session.written, doneAt: outcome === 'committed' ? at : NEVER, written: [], outcome });
}

function dropWork(session) {
  Object.assign(session, { done: [], written: [], copies: new Map(), outcome: 'rolled-back' });
}

// A session ends where it stands.
function cutOff(session, at) {
  Object.assign(session, { open: false, killed: at, written: [], copies: new Map() });
}

// After a restart the caches are empty, and nobody is open.
function startAnew(state, at) {
  for (const session of openSessions(state)) cutOff(session, at);
  for (const { regions, gone, unsound } of state.nodes) {
    for (const key of [...gone.keys(), ...[...regions.values()].flatMap(region => [...region.keys()])]) gone.set(key, { at, how: 'restart' });
    for (const region of regions.values()) region.clear();
    unsound.clear();
  }
  for (const part of ['stamps', 'kept', 'deleted']) state[part].clear();
  state.restarted = at;
}

// ---- a session's own copies ----

// A copy is managed, new or to be removed; `base` is the row that it was read or written as, and null of a new one.
const managed = (row, at) => ({ kind: 'managed', row, base: row, at });

// Whether a copy isn't from the committed row, though the session hasn't written it itself.
function isOldCopy(state, session, key) {
  const copy = session.copies.get(key);
  return Boolean(copy) && copy.kind === 'managed' && !hasWritten(session, key) && rowText(committedRow(state, key)) !== rowText(copy.base);
}

// ---- regions ----

const isGuarded = (script, key) => script.entities.get(entityOf(key)).strategy === 'read-write';

// A slot is an item or a lock. A lock that nobody holds is released: `release` has the tick from which on loaded rows count as young enough,
// and how it came about.
const itemOf = ({ entry, at }, row, loadedAt) => ({ kind: 'item', row, tick: entry.tick, at, by: entry.session, how: entry.verb, loadedAt, over: null });
const lockOf = ({ entry, at }, version, until) => ({ kind: 'lock', id: entry.tick, version, until, holders: [], shared: false, at, release: null });

// An item over what was there before it, of which only that much is kept.
const putOver = (item, slot) => ({ ...item, over: slot ? { ...slot, over: null } : null });

const isHeld = slot => slot.kind === 'lock' && slot.holders.length > 0;
const tickOfSlot = slot => slot.kind === 'item' ? slot.tick : slot.release.tick;

// The row that a put offers.
const offeredRow = entry => entry.part === 'members' ? rowOf([NO_VERSION, entry.words[3]]) : rowIn(entry, 3, 'at');

// The load from which a session has the row that it offers.
function loadBehind({ session, entry }) {
  if (entry.part === 'members') return session.listedAt;
  return session && session.loads.has(entry.key) ? session.loads.get(entry.key) : NEVER;
}

// ---- kept results ----

// A result that is used becomes the last of the map, so the first of it is the one that was used least recently.
function use(state, name) {
  const kept = state.kept.get(name);
  if (kept) {
    state.kept.delete(name);
    state.kept.set(name, kept);
  }
  return kept;
}
