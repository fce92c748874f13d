'use strict';
// The rules of a factory, as far as a picture needs them: from the state before an entry to its reply and the state after it. They are
// those of docs/JOURNAL.md, said a second time and not proved; the tests compare them with the replies that the program gives.

// ---- registry ----

// The floor of an entry's node: the least time of its open sessions, or the entry's tick if there is none.
const floorAt = (state, { node, tick }) => openAt(state, node).reduce((least, { time }) => Math.min(least, time), tick);

const REGISTRY = {
  begin({ state, session, entry, at }) {
    const floor = floorAt(state, entry);
    beginWork(session, { node: entry.node, time: entry.tick, floor, at });
    return 'floor ' + floor;
  },
  end({ session }) {
    session.open = false;
    return session.outcome;
  },
  kill({ state, entry, at }) {
    cutOff(sessionOf(state, entry.words[1]), at);
    return 'done';
  },
  restart({ state, at }) {
    startAnew(state, at);
    return 'done';
  },
};

// ---- a session's own copies ----

const OWN = {
  find({ session, entry }) {
    const copy = session.copies.get(entry.key);
    return copy.kind === 'removed' ? 'none' : 'row ' + rowText(copy.row);
  },
  persist({ session, entry }) {
    if (session.copies.has(entry.key) || hasWritten(session, entry.key)) return 'known';
    session.copies.set(entry.key, { kind: 'new', row: rowIn(entry, 3), base: null, at: NEVER });
    return 'new';
  },
  set({ session, entity, entry }) {
    const copy = session.copies.get(entry.key);
    if (!copy || copy.kind === 'removed') return 'unknown';
    if (entity.strategy === 'read-only') return 'read-only';
    copy.row = { version: copy.row.version, cells: copy.row.cells.slice() };
    for (let i = 3; i < entry.words.length; i += 2) copy.row.cells[placeOfColumn(entity, entry.words[i])] = entry.words[i + 1];
    return 'set';
  },
  remove({ session, entry }) {
    const copy = session.copies.get(entry.key);
    if (!copy || copy.kind === 'removed') return 'unknown';
    if (copy.kind === 'new') session.copies.delete(entry.key); else copy.kind = 'removed';
    return 'removed';
  },
  clear({ session }) {
    session.copies = new Map();
    return 'cleared';
  },
};

// ---- the store ----

// The committed rows under a session's own written changes.
function viewOf(state, session) {
  const rows = rowsOf(state);
  for (const { key, row } of session.written) { if (row) rows.set(key, row); else rows.delete(key); }
  return rows;
}

// Why a commit is refused, by the first change that doesn't apply; or nothing.
function refusalOf(state, written) {
  const ahead = new Map();
  for (const { kind, key, expected, row } of written) {
    const here = ahead.has(key) ? ahead.get(key) : committedRow(state, key);
    if (kind === 'insert' && here) return 'duplicate ' + key;
    if (kind !== 'insert' && !here) return `stale ${key} found none`;
    if (kind !== 'insert' && here.version !== expected) return `stale ${key} found ${here.version}`;
    ahead.set(key, row);
  }
  return '';
}

// A read-write key that is inserted after it was deleted is unsound: its versions begin anew.
function noteReuse({ script, state, session, at }) {
  for (const { kind, key } of session.written) {
    if (kind !== 'insert' || !state.deleted.has(key)) continue;
    const reused = { at, cause: 'reused', deletedAt: state.deleted.get(key).at, key };
    for (const { name, entity } of script.collections.values()) if (entity === entityOf(key) && !state.reused.has(name)) state.reused.set(name, reused);
    if (!isGuarded(script, key)) continue;
    for (const { unsound } of state.nodes) if (!unsound.has(key)) unsound.set(key, reused);
  }
}

// What a commit has changed in read-write regions waits for the other node, if there is one: each key once.
function tellOthers({ script, state, session, entry, at }) {
  const keys = [...new Set(session.written.map(({ key }) => key))].filter(key => isGuarded(script, key));
  for (const { number, queue } of state.nodes) if (number !== entry.node) queue.push(...keys.map(key => ({ key, at, by: session.name })));
}

function applyChanges({ state, session, at }, changes) {
  session.owners = [];
  for (const { key, row } of changes) {
    session.owners.push(...moveMembers(state, key, committedRow(state, key), row, { at, by: session.name }));
    if (row) state.committed.set(key, { row, at, by: session.name }); else state.committed.delete(key);
    if (!row) state.deleted.set(key, { at, by: session.name });
  }
}

function write({ session, entry, at }, expected, row) {
  session.written.push({ kind: entry.verb, key: entry.key, expected, row });
  if (row) session.copies.set(entry.key, managed(row, at)); else session.copies.delete(entry.key);
  return 'written';
}

const STORE = {
  load({ state, session, entry }) {
    const own = session.written.filter(change => change.key === entry.key).pop(), row = own ? own.row : committedRow(state, entry.key);
    return row ? 'row ' + rowText(row) : 'none';
  },
  list: ({ script, state, session, query }) => 'list ' + gives(script, query, viewOf(state, session)),
  insert: context => write(context, '', rowIn(context.entry, 3)),
  update: context => write(context, context.entry.words[3], rowIn(context.entry, 4)),
  delete: context => write(context, context.entry.words[3], null),
  commit(context) {
    const { state, session, entry, at } = context, refusal = entry.reply === 'fault' ? 'fault' : refusalOf(state, session.written);
    if (refusal) {
      session.copies = new Map();
    } else {
      noteReuse(context);
      applyChanges(context, session.written);
      tellOthers(context);
    }
    endWork(session, at, refusal ? refusal.split(' ')[0] : 'committed');
    return refusal || 'committed';
  },
  rollback({ session }) {
    dropWork(session);
    return 'done';
  },
};

// ---- regions ----

function isNewer(old, version) {
  return old !== NO_VERSION && version !== NO_VERSION && Number(old.slice(1)) < Number(version.slice(1));
}

// Who leaves a region for a new key: a key, `''` if there is room, or null if nobody may leave.
function leaverOf({ entity, region }, floor) {
  if (region.size < entity.capacity) return '';
  for (const [key, slot] of region) {
    if (entity.strategy !== 'read-write' || (!isHeld(slot) && tickOfSlot(slot) < floor)) return key;
  }
  return null;
}

// Places a slot for a new key; answers what the reply says of the one that leaves.
function place({ node, region, entry, at }, slot, leaver) {
  if (leaver) {
    region.delete(leaver);
    node.gone.set(leaver, { at, how: 'left' });
  }
  region.set(entry.key, slot);
  return leaver ? ' evicted ' + leaver.split(' ')[1] : '';
}

function takeOut({ node, region, entry, at }, how) {
  region.delete(entry.key);
  node.gone.set(entry.key, { at, how });
  return how;
}

// Whether an offered row may take the place of what is there, as the reply to its put.
function verdictOn(slot, time, version) {
  if (slot.kind === 'item') return isNewer(slot.row.version, version) ? 'stored' : 'present ' + slot.row.version;
  if (time > slot.until) return isHeld(slot) || time <= slot.release.tick ? 'stored late' : 'stored';
  if (isHeld(slot)) return 'held ' + slot.holders.length;
  if (!slot.shared && slot.version !== NO_VERSION) return isNewer(slot.version, version) ? 'stored' : 'old ' + slot.version;
  return time > slot.release.tick ? 'stored' : 'early ' + slot.release.tick;
}

// A lock is to be given back that isn't there: a released one takes the place of whatever is.
function expire(context) {
  const { script, region, entry, at } = context, over = entry.tick + script.timeout;
  region.set(entry.key, { ...lockOf(context, NO_VERSION, over), release: { tick: over, at, by: null, how: 'expired' } });
  return 'expired';
}

// A holder gives a lock back; answers how many are left. Of a fence, `told` is the commit that its node is told of.
function giveBack({ node, slot, entry, at }) {
  slot.holders = slot.holders.filter(holder => holder.by !== entry.session);
  const how = isFence(entry) ? 'fenced' : 'given back';
  if (!slot.holders.length) slot.release = { tick: entry.tick, at, by: entry.session, how, told: node.fence };
  return slot.holders.length;
}

const isHeldAs = (slot, id) => Boolean(slot) && isHeld(slot) && slot.id === id;

const REGION = {
  get({ entity, slot, entry }) {
    if (!slot) return 'miss absent';
    if (slot.kind === 'lock') return isHeld(slot) ? 'miss locked ' + slot.holders.length : 'miss released ' + slot.release.tick;
    return entity.strategy === 'nonstrict' || numberBehind(entry, 'at') > slot.tick ? 'hit ' + rowText(slot.row) : 'miss young ' + slot.tick;
  },
  put(context) {
    const { entity, region, slot, entry } = context, item = itemOf(context, offeredRow(entry), loadBehind(context));
    if (!slot) {
      const leaver = leaverOf(context, numberBehind(entry, 'floor'));
      return leaver === null ? 'crowded' : 'stored' + place(context, item, leaver);
    }
    if (entity.strategy !== 'read-write') return 'present ' + slot.row.version;
    const verdict = verdictOn(slot, numberBehind(entry, 'at'), item.row.version);
    if (verdict.startsWith('stored')) region.set(entry.key, putOver(item, slot));
    return verdict;
  },
  lock(context) {
    const { script, region, slot, entry, at } = context, until = entry.tick + script.timeout, holder = { by: entry.session, at };
    if (slot && slot.kind === 'lock') {
      Object.assign(slot, { until, holders: [...slot.holders, holder], shared: true });
      return `lock ${slot.id} until ${until}`;
    }
    const lock = { ...lockOf(context, slot ? slot.row.version : entry.words[3], until), holders: [holder] }, said = `lock ${entry.tick} until ${until}`;
    if (!slot) return said + place(context, lock, leaverOf(context, numberBehind(entry, 'floor')));
    region.set(entry.key, lock);
    return said;
  },
  unlock(context) {
    return isHeldAs(context.slot, numberBehind(context.entry, 'lock')) ? 'released ' + giveBack(context) : expire(context);
  },
  'after-update'(context) {
    const { region, slot, entry } = context;
    if (!isHeldAs(slot, Number(entry.words[4]))) return expire(context);
    if (slot.shared) return 'shared ' + giveBack(context);
    region.set(entry.key, itemOf(context, rowIn(entry, 5), NEVER));
    return 'stored';
  },
  'after-insert'(context) {
    const { slot, entry } = context;
    if (slot) return 'present';
    const leaver = leaverOf(context, numberBehind(entry, 'floor'));
    return leaver === null ? 'crowded' : 'stored' + place(context, itemOf(context, rowIn(entry, 3, 'floor'), NEVER), leaver);
  },
  remove: context => context.slot ? takeOut(context, 'dropped') : 'absent',
  evict(context) {
    const { entity, region, slot, entry, at } = context;
    if (!slot) return 'absent';
    if (entity.strategy !== 'read-write') return takeOut(context, 'evicted');
    if (isHeld(slot)) return 'held';
    region.set(entry.key, { ...lockOf(context, NO_VERSION, entry.tick), release: { tick: entry.tick, at, by: null, how: 'evicted' } });
    return 'evicted';
  },
};

// ---- stamps and kept results ----

function stamp({ state, entry, at }, value, ahead) {
  for (const table of entry.words.slice(1)) state.stamps.set(table, { value, at, by: entry.session, ahead });
  return String(value);
}

const STAMPS = {
  pre: context => stamp(context, context.entry.tick + context.script.timeout, true),
  stamp(context) {
    context.session.stampedAt = context.at;
    return stamp(context, context.entry.tick, false);
  },
  check({ state, query, entry }) {
    const time = numberBehind(entry, 'at');
    const bad = query.tables.find(table => state.stamps.has(table) && state.stamps.get(table).value >= time);
    return bad === undefined ? 'fresh' : `stale ${bad} ${state.stamps.get(bad).value}`;
  },
};

const RESULTS = {
  look({ state, session, entry }) {
    session.found = use(state, entry.query) || null;
    return session.found ? `found at ${session.found.time} ${session.found.list}` : 'absent';
  },
  keep({ script, state, session, entry, at }) {
    let dropped = '';
    if (!use(state, entry.query) && state.kept.size >= script.results) {
      [dropped] = state.kept.keys();
      state.kept.delete(dropped);
    }
    const list = entry.act.slice(entry.act.indexOf('['));
    state.kept.set(entry.query, { time: Number(entry.words[3]), list, at, by: entry.session, listedAt: session.listedAt });
    return dropped ? 'kept dropped ' + dropped : 'kept';
  },
};
