'use strict';
// The rules of what the commands with a section add, beside those of rules.js: fences of two nodes, bulk changes, and the members of owners.

// ---- fences ----

// A fence takes the first that waits for its node: `fence` is what it tells the node, until its lock is given back.
const FENCES = {
  lock(context) {
    const { node } = context, said = REGION.lock(context);
    node.fence = { ...node.queue.shift(), lock: Number(said.split(' ')[1]) };
    return said;
  },
  unlock(context) {
    const said = REGION.unlock(context);
    context.node.fence = null;
    return said;
  },
};

// Whether a fence is of what waits first, or the second half of the one that has begun.
const FENCE_SAYS = {
  lock({ state, node, entry }) {
    return !node.fence && node.queue.length > 0 && node.queue[0].key === entry.key && numberBehind(entry, 'floor') === floorAt(state, entry);
  },
  unlock: ({ node, entry }) => Boolean(node.fence) && node.fence.key === entry.key && node.fence.lock === numberBehind(entry, 'lock'),
};

// ---- bulk changes ----

// What lines do with the whole region of an entity: who holds it, and when it was given back last.
const wideAtStart = () => ({ holders: [], given: null });
const wideOf = ({ node, entity }) => node.wides.get(entity.name);

const isOldItem = ({ holders, given }, slot) => slot.kind === 'item' && (holders.length > 0 || Boolean(given && slot.tick <= given.tick));

// The rows that a line changes, as they are and as they will be.
function changesOfLine(script, state, line) {
  const entity = script.entities.get(line.entity), rows = rowsOf(state);
  const met = [...rows].filter(([key, row]) => entityOf(key) === line.entity && meets(script, entity, line.condition, row, rows));
  return met.map(([key, row]) => ({ kind: line.kind, key, expected: row.version, row: line.kind === 'delete' ? null : changedRow(entity, row, line.sets) }));
}

function changedRow(entity, row, sets) {
  const cells = row.cells.slice();
  for (const [column, cell] of sets) cells[placeOfColumn(entity, column)] = cell;
  return { version: entity.versioned ? 'v' + (Number(row.version.slice(1)) + 1) : row.version, cells };
}

const BULK_STORE = {
  bulk(context) {
    const { script, state, session, entry, at } = context;
    session.outcome = entry.reply === 'fault' ? 'fault' : 'committed';
    if (entry.reply === 'fault') return 'fault';
    const changes = changesOfLine(script, state, script.lines.get(entry.words[1]));
    applyChanges(context, changes);
    Object.assign(session, { done: changes, doneAt: at });
    return 'changed ' + changes.length;
  },
};

// Why a whole region takes no row of a session of a time, or nothing.
function barOf(context, time) {
  const { holders, given } = wideOf(context);
  if (holders.length) return 'wide ' + holders.length;
  return given && time <= given.tick ? 'wide-early ' + given.tick : '';
}

const BULK_REGION = {
  'lock-all'(context) {
    const { holders } = wideOf(context);
    holders.push({ by: context.entry.session, at: context.at });
    return 'held ' + holders.length;
  },
  'unlock-all'(context) {
    const { entry, at } = context, wide = wideOf(context);
    wide.holders = wide.holders.filter(({ by }) => by !== entry.session);
    wide.given = { tick: entry.tick, at, by: entry.session };
    return 'released ' + wide.holders.length;
  },
  sweep(context) {
    const said = REGION.evict(context), slot = context.region.get(context.entry.key);
    if (slot && slot.release) slot.release.how = 'swept';
    return said;
  },
  get(context) {
    const { holders } = wideOf(context);
    return holders.length ? 'miss wide ' + holders.length : REGION.get(context);
  },
  put: context => barOf(context, numberBehind(context.entry, 'at')) || REGION.put(context),
  'after-insert': context => barOf(context, context.session.time) || REGION['after-insert'](context),
  'after-update'(context) {
    const lock = Number(context.entry.words[4]);
    if (!barOf(context, lock)) return REGION['after-update'](context);
    return isHeldAs(context.slot, lock) ? 'shared ' + giveBack(context) : expire(context);
  },
};

const BULK_SAYS = {
  'lock-all': ({ script, session, entity }) => script.lines.has(session.name) && script.lines.get(session.name).entity === entity.name,
  'unlock-all': context => wideOf(context).holders.some(({ by }) => by === context.session.name),
  bulk: ({ session, entry }) => entry.words[1] === session.name,
  sweep: context => Boolean(context.slot) && isOldItem(wideOf(context), context.slot),
};

// ---- collections ----

const membersRow = ids => rowOf([NO_VERSION, `[${ids.slice(0, 200).join(' ')}]`]);
const isOwner = cell => cell[0] !== '-' && cell !== '0';

function addInOrder(members, owner, id) {
  if (!members.has(owner)) members.set(owner, []);
  const ids = members.get(owner);
  let place = ids.length;
  while (place > 0 && compareCells(ids[place - 1], id) > 0) place--;
  ids.splice(place, 0, id);
}

// The owner whose members a list asks for, if a collection answers it.
function ownerOf(script, { part, verb, query: name }) {
  const query = part === 'store' && verb === 'list' ? script.queries.get(name) : null, condition = query && query.condition;
  if (!condition || query.isCached || query.select !== 'ids' || query.order.length || query.offset || query.limit !== 200) return '';
  if (condition.op !== 'eq' || condition.path.length > 1 || !isOwner(condition.cells[0])) return '';
  const place = placeOfColumn(script.entities.get(query.entity), condition.path[0]);
  const own = [...script.collections.values()].find(one => one.entity === query.entity && one.place === place);
  return own ? keyOf(own.name, condition.cells[0]) : '';
}

// Moves a row that is committed from the owner to which it has referred to that to which it refers. Answers the owners whose members that
// has changed.
function moveMembers(state, key, before, after, change) {
  const [entity, id] = key.split(' '), owners = [];
  for (const { name, entity: own, place } of state.collections.values()) {
    if (own !== entity) continue;
    const [from, to] = [before, after].map(row => row && isOwner(row.cells[place]) ? keyOf(name, row.cells[place]) : '');
    if (from === to) continue;
    if (from) state.members.set(from, state.members.get(from).filter(one => one !== id));
    if (to) addInOrder(state.members, to, id);
    owners.push(...[from, to].filter(Boolean));
  }
  for (const owner of owners) state.committed.set(owner, { row: membersRow(state.members.get(owner)), ...change });
  return owners;
}

const MEMBERS = {
  get: context => REGION.get(context).replace(/^hit v- /, 'hit '),
  put: context => REGION.put(context),
  lock: context => REGION.lock(context),
  unlock: context => REGION.unlock(context),
};

const MEMBERS_SAYS = {
  get: ({ session, entry }) => numberBehind(entry, 'at') === session.time,
  put({ session, entry }) {
    return entry.words[3] === session.listed && numberBehind(entry, 'at') === session.time && numberBehind(entry, 'floor') === session.floor;
  },
  lock: ({ session, entry }) => entry.words[3] === NO_VERSION && numberBehind(entry, 'floor') === session.floor,
  unlock: ({ session, entry }) => numberBehind(entry, 'lock') === session.locks.get(entry.key),
};
