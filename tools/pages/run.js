'use strict';
// A whole run, walked through once: what is drawn of each session and each key, which reads are stale, and what each entry means.

const UNSOUND = {
  late: () => 'a put was stored over a lock that had run out',
  expired: () => 'a lock was given back that was no longer there',
  reused: ({ deletedAt }) => `it was deleted at ${ref(deletedAt)} and inserted again`,
};

// Whether a journal can be of this script at all.
function checkNames(script, entries) {
  const sessions = new Set(script.sessions);
  for (const entry of entries) {
    const missing = entry.session !== null && !sessions.has(entry.session) ? 'session ' + entry.session :
      entry.entity && !(entry.part === 'members' ? script.collections : script.entities).has(entry.entity) ? `entity or collection ${entry.entity}` :
        entry.query && !script.queries.has(entry.query) ? 'query ' + entry.query :
          nodesOf(script).includes(entry.node) ? '' : entry.node ? nodeName(entry.node) : 'entry without a node';
    if (missing) throw new Error(`the report is of another script: there is no ${missing}, as in its line ${lineOf(entry)}`);
    if (!(REPLIES[entry.part] || {})[entry.verb]) throw new Error(`this line of the journal is no entry: ${lineOf(entry)}`);
  }
}

// ---- lanes: what a key, a query or a table shows, from which entry to which ----

const holderText = (state, { by, at }) => by === null ? 'a fence' : by + (state.sessions.get(by).killed > at ? ' (killed)' : '');

// Whether an item isn't the committed row, or counts as old since a line has locked its whole region.
const isOldSlot = (state, { wides }, key, slot) => rowText(committedRow(state, key)) !== rowText(slot.row) || isOldItem(wides.get(entityOf(key)), slot);

// How a key's slot at a node looks at a tick.
function lookOfSlot(state, node, key, tick) {
  const region = node.regions.get(entityOf(key)), slot = region && region.get(key);
  if (!slot) return { kind: 'none', text: '' };
  if (slot.kind === 'item') return { kind: 'item', text: briefRow(slot.row), row: slot.row, isStale: isOldSlot(state, node, key, slot) };
  if (!isHeld(slot)) return { kind: 'released', text: 'released ' + slot.release.tick };
  if (slot.holders.every(({ by }) => by === null)) return { kind: 'lock', text: 'fence', isOver: false, until: slot.until };
  const isOver = tick > slot.until, holders = slot.holders.map(holder => holderText(state, holder)).join(', ');
  return { kind: 'lock', text: (isOver ? 'lock, time over: ' : 'locked: ') + holders, isOver, until: slot.until };
}

function lookOfRow(state, key) {
  const row = committedRow(state, key);
  return row ? { kind: 'row', text: briefRow(row), row } : { kind: 'none', text: '' };
}

const lookOfStamp = stamp => stamp ? { kind: stamp.ahead ? 'ahead' : 'row', text: String(stamp.value), of: stamp } : { kind: 'none', text: '' };
const lookOfKept = (kept, now) => kept ? { kind: 'item', text: kept.list, isStale: kept.list !== now, of: kept } : { kind: 'none', text: '' };

// Adds to a lane what it shows from an entry on, if that is something else than before.
function show(lane, at, look) {
  const last = lane[lane.length - 1];
  if (last && ['kind', 'text', 'isStale', 'isOver', 'of'].every(part => last[part] === look[part])) return;
  if (last) last.to = at;
  lane.push({ from: at, to: null, ...look });
}

// The lanes of a key: what is committed, what its region has at each node, and from where to where it is unsound. `touches` are its entries.
function keyLanes(run, state, key) {
  if (!run.keys.has(key)) {
    const isCached = declared(run.script, entityOf(key)).strategy !== 'none';
    const lanes = { key, isCached, store: [], caches: new Map(), unsound: [], touches: [] };
    show(lanes.store, NEVER, lookOfRow(state, key));
    for (const { number } of state.nodes) lanes.caches.set(number, [{ from: NEVER, to: null, kind: 'none', text: '' }]);
    run.keys.set(key, lanes);
  }
  return run.keys.get(key);
}

// The lanes of each query whose result is asked for or kept, and of the stamps of its tables.
function queryLanes(run, state) {
  for (const { verb, query: name } of run.entries) {
    if (!['look', 'keep'].includes(verb) || run.queries.has(name)) continue;
    const query = run.script.queries.get(name), now = gives(run.script, query, rowsOf(state));
    const lanes = { query, now, gives: [], kept: [], touches: [] };
    show(lanes.gives, NEVER, { kind: 'row', text: now });
    show(lanes.kept, NEVER, { kind: 'none', text: '' });
    run.queries.set(name, lanes);
    for (const table of query.tables) {
      if (run.tables.has(table)) continue;
      run.tables.set(table, { table, stamps: [] });
      show(run.tables.get(table).stamps, NEVER, { kind: 'none', text: '' });
    }
  }
}

// The keys that an entry names: its own, the one that leaves for it, and those that a line is to change.
function keysIn(run, state, entry) {
  const left = isOfCache(entry) ? / evicted (\d+)/.exec(entry.reply) : null, line = entry.verb === 'bulk' ? run.script.lines.get(entry.words[1]) : null;
  const changed = line ? changesOfLine(run.script, state, line).map(({ key }) => key) : [], own = entry.key || ownerOf(run.script, entry);
  return [...(own ? [own] : []), ...(left ? [keyOf(entry.entity, left[1])] : []), ...changed];
}

// The keys whose lanes may look otherwise after an entry.
function keysChangedBy(run, state, entry) {
  const keys = new Set(keysIn(run, state, entry));
  if (WIDE.includes(entry.verb)) for (const key of run.keys.keys()) if (entityOf(key) === entry.entity) keys.add(key);
  if (entry.verb === 'restart') for (const key of run.keys.keys()) keys.add(key);
  if (entry.verb === 'kill') for (const key of run.locked) keys.add(key);
  for (const [key, until] of run.goodUntil) if (entry.tick > until) keys.add(key);
  return keys;
}

// Which keys are locked, and until when those that are drawn as good are.
function noteLooks(run, key, looks) {
  const locks = looks.filter(({ kind }) => kind === 'lock'), good = locks.filter(({ isOver }) => !isOver).map(({ until }) => until);
  if (locks.length) run.locked.add(key); else run.locked.delete(key);
  if (good.length) run.goodUntil.set(key, Math.min(...good)); else run.goodUntil.delete(key);
}

function showKeys(run, state, keys, tick, at) {
  for (const key of keys) {
    const lanes = keyLanes(run, state, key), looks = state.nodes.map(node => lookOfSlot(state, node, key, tick));
    show(lanes.store, at, lookOfRow(state, key));
    state.nodes.forEach(({ number }, n) => show(lanes.caches.get(number), at, looks[n]));
    noteLooks(run, key, looks);
  }
}

// What waits for a node, of much the first.
function lookOfQueue({ queue }) {
  const more = queue.length > 3 ? ` and ${queue.length - 3} more` : '';
  return { kind: queue.length ? 'ahead' : 'none', text: queue.slice(0, 3).map(({ key }) => key).join(', ') + more };
}

// What lines do with the whole region of an entity.
function lookOfWide({ holders, given }) {
  if (holders.length) return { kind: 'lock', text: 'locked: ' + holders.map(({ by }) => by).join(', ') };
  return given ? { kind: 'released', text: 'released ' + given.tick } : { kind: 'none', text: '' };
}

function showWides(run, state, at) {
  for (const [name, wide] of state.nodes[0].wides) if (run.wides.has(name)) show(run.wides.get(name), at, lookOfWide(wide));
}

// How the lane of a whole region is called.
const wholeOf = name => 'all of ' + name;

const isEverShown = segments => segments.some(({ kind }) => kind !== 'none');
const showQueues = (run, state, at) => state.nodes.forEach(node => show(run.queues.get(node.number), at, lookOfQueue(node)));

// Results and stamps change with their own entries, and what a query gives with a commit.
function showQueries(run, state, entry, at) {
  if (!['results', 'stamps'].includes(entry.part) && !['commit', 'restart'].includes(entry.verb)) return;
  for (const [name, lanes] of run.queries) {
    show(lanes.gives, at, { kind: 'row', text: lanes.now });
    show(lanes.kept, at, lookOfKept(state.kept.get(name), lanes.now));
  }
  for (const [name, lanes] of run.tables) show(lanes.stamps, at, lookOfStamp(state.stamps.get(name)));
}

// ---- what is judged, from the state before an entry ----

// Tells the story of a read from the cache, if it is stale; `kept` and `loaded` are the entries from which it has what it got.
function judgeRead(run, at, read, story) {
  run.reads.push({ to: at, ...read });
  if (!read.isStale) return false;
  run.stale.add(at);
  run.findings.push(story());
  return true;
}

// The mark of an entry, with what is judged of it.
function judge(run, context) {
  const { state, session, slot, entry, at } = context;
  if (isOfCache(entry) && entry.reply.startsWith('hit ') && slot && slot.kind === 'item') {
    const isStale = rowText(committedRow(state, entry.key)) !== rowText(slot.row);
    const read = { keptAt: slot.at, loadedAt: slot.how === 'put' ? slot.loadedAt : NEVER, key: entry.key, node: entry.node, isStale };
    if (judgeRead(run, at, read, () => staleHit(run, context))) return 'stale';
  }
  if (entry.verb === 'check' && entry.reply === 'fresh' && run.queries.has(entry.query) && session.found) {
    const { found } = session, { now } = run.queries.get(entry.query);
    const read = { keptAt: found.at, loadedAt: found.listedAt, query: entry.query, isStale: found.list !== now };
    if (judgeRead(run, at, read, () => staleList(run, context, now))) return 'stale';
  }
  if (entry.part === 'own' && entry.verb === 'find' && isOldCopy(state, session, entry.key)) {
    run.oldCopies.push(at);
    return 'oldcopy';
  }
  return markOf(entry);
}

// ---- what is noted, from the state after an entry ----

function endTransaction(run, session, at, outcome) {
  const transaction = run.open.get(session);
  if (transaction) Object.assign(transaction, { to: at, outcome });
  run.open.delete(session);
}

function noteTransaction(run, entry, at) {
  if (entry.part !== 'registry') return;
  if (entry.verb === 'begin') {
    const transaction = { session: entry.session, from: at, to: null, outcome: '' };
    run.open.set(entry.session, transaction);
    run.transactions.push(transaction);
  }
  if (entry.verb === 'end') endTransaction(run, entry.session, at, entry.reply);
  if (entry.verb === 'kill') endTransaction(run, entry.words[1], at, 'killed');
  if (entry.verb === 'restart') for (const session of [...run.open.keys()]) endTransaction(run, session, at, 'killed by the restart');
}

function noteLock(run, entry, at) {
  const locked = WIDE.includes(entry.verb) ? wholeOf(entry.entity) : entry.key, name = entry.lane + ' ' + locked;
  const end = id => { run.openLocks.get(id).to = at; run.openLocks.delete(id); };
  if (entry.verb === 'restart') for (const id of [...run.openLocks.keys()]) end(id);
  if (!isOfCache(entry)) return;
  if (['lock', 'lock-all'].includes(entry.verb)) {
    const lock = { lane: entry.lane, key: locked, from: at, to: null };
    run.openLocks.set(name, lock);
    run.locks.push(lock);
  }
  if (['unlock', 'unlock-all', 'after-update'].includes(entry.verb) && run.openLocks.has(name)) end(name);
}

// What a commit or a line changed: its keys, and what queries give from here on. Answers the keys.
function noteCommit(run, state, entry, at) {
  if (!isCommit(entry)) return [];
  const session = sessionOf(state, entry.session), keys = [...new Set([...session.done.map(change => change.key), ...session.owners])];
  for (const key of keys) {
    keyLanes(run, state, key).touches.push(at);
    if (!run.commits.has(key)) run.commits.set(key, []);
    run.commits.get(key).push({ at, by: entry.session, began: session.began, row: committedRow(state, key) });
  }
  const tables = [...new Set(keys.map(entityOf))];
  if (!keys.length) return keys;
  run.tableCommits.push({ at, by: entry.session, tables, keys });
  const rows = rowsOf(state);
  for (const lanes of run.queries.values()) {
    if (!lanes.query.tables.some(table => tables.includes(table))) continue;
    lanes.now = gives(run.script, lanes.query, rows);
    lanes.touches.push(at);
  }
  return keys;
}

// Notes which keys are unsound from here on, or no longer; answers the new ones. Keys are added, or a restart takes all of them out.
function noteUnsound(run, state, at) {
  return state.nodes.flatMap(node => noteUnsoundAt(run, state, node, at));
}

function noteUnsoundAt(run, state, { number, unsound: now }, at) {
  const before = run.unsoundNow.get(number), added = now.size === before.size ? [] : [...now.keys()].filter(key => !before.has(key));
  if (now.size === before.size) return [];
  for (const key of added) {
    const unsound = now.get(key);
    keyLanes(run, state, key).unsound.push({ node: number, from: at, to: null, ...unsound });
    run.unsound.push({ key, node: number, at, text: UNSOUND[unsound.cause](unsound) });
  }
  for (const key of before) if (!now.has(key)) keyLanes(run, state, key).unsound.filter(({ node }) => node === number).slice(-1)[0].to = at;
  run.unsoundNow.set(number, new Set(now.keys()));
  return added;
}

// An old item that was read is drawn otherwise than one that lay there.
function markServed(run) {
  for (const { isStale, key, node, query, to } of run.reads) {
    if (!isStale) continue;
    const lane = key ? run.keys.get(key).caches.get(node) : run.queries.get(query).kept;
    const segment = lane.find(one => one.from < to && (one.to === null || one.to >= to));
    if (segment) segment.isServed = true;
  }
}

function touch(run, state, entry, at) {
  for (const key of keysIn(run, state, entry)) keyLanes(run, state, key).touches.push(at);
  if (run.queries.has(entry.query)) run.queries.get(entry.query).touches.push(at);
}

// Goes on by an entry: by what is told of it, or else by the rules of this page. Answers whether it follows; a journal of which states are told
// is legal.
function goOn({ script, entries, told }, state, at) {
  if (!told) return step(script, state, entries[at], at);
  takeTold(script, state, entries[at], at, told[at]);
  return { due: null, isOnTime: true, isReply: true, follows: true };
}

const atStart = ({ script, told }) => told ? toldAtStart(script) : startState(script);

// `told` is what is told of each entry, or null.
function analyse(script, journal, told) {
  checkNames(script, journal.entries);
  const { entries } = journal, state = atStart({ script, told });
  const run = {
    script, journal, entries, told,
    // what is drawn, and what is told
    transactions: [], locks: [], keys: new Map(), queries: new Map(), tables: new Map(), queues: new Map(), wides: new Map(),
    reads: [], stale: new Set(), findings: [], oldCopies: [], unsound: [], odd: [], marks: [], said: [],
    // what is known on the way
    open: new Map(), openLocks: new Map(), locked: new Set(), goodUntil: new Map(), unsoundNow: new Map(), commits: new Map(), tableCommits: [],
  };
  queryLanes(run, state);
  for (const { number } of state.nodes) {
    run.unsoundNow.set(number, new Set());
    run.queues.set(number, []);
  }
  for (const { entity } of script.lines.values()) run.wides.set(entity, []);
  showQueues(run, state, NEVER);
  showWides(run, state, NEVER);
  entries.forEach((entry, at) => {
    touch(run, state, entry, at);
    const changed = keysChangedBy(run, state, entry);
    run.marks.push(judge(run, contextOf(script, state, entry, at)));
    run.said.push(explain(script, state, entry, at));
    const { due, isOnTime, isReply, follows } = goOn(run, state, at);
    if (!follows) run.odd.push({ at, due, isOnTime, isReply });
    noteTransaction(run, entry, at);
    noteLock(run, entry, at);
    for (const key of [...noteUnsound(run, state, at), ...noteCommit(run, state, entry, at)]) changed.add(key);
    showKeys(run, state, changed, entry.tick, at);
    showQueries(run, state, entry, at);
    showQueues(run, state, at);
    showWides(run, state, at);
  });
  markServed(run);
  for (const lanes of run.keys.values()) lanes.apart = placesOfKey(lanes);
  run.end = state;
  return run;
}
