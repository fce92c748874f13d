'use strict';
// A step of a run: from the state before an entry to the reply that is due and the state after it, by the rules of all parts.

const REPLIES = {
  registry: REGISTRY, own: OWN, store: { ...STORE, ...BULK_STORE }, region: { ...REGION, ...BULK_REGION }, members: MEMBERS,
  stamps: STAMPS, results: RESULTS,
};

const isOfCache = entry => entry.part === 'region' || entry.part === 'members';

// A row that a session is told becomes its copy.
function rememberRow({ session, entry, at }) {
  const got = /^(?:hit|row) (v.*)$/.exec(entry.reply);
  if (session && got && entry.part !== 'own') session.copies.set(entry.key, managed(rowOf(tokensOf(got[1])), at));
}

// A lock that a session is given, or gives back.
function rememberLock({ session, entry }) {
  if (!session || !isOfCache(entry)) return;
  if (entry.verb === 'lock') session.locks.set(entry.key, Number(entry.reply.split(' ')[1]));
  if (['unlock', 'after-update'].includes(entry.verb)) session.locks.delete(entry.key);
}

// By which entry a session has been told the row of a key, or a list.
function rememberSources({ session, entry, at }) {
  if (!session) return;
  if (/^(?:hit|row) v/.test(entry.reply) && entry.part !== 'own') session.loads.set(entry.key, at);
  if (entry.part === 'store' && entry.verb === 'list') Object.assign(session, { listedAt: at, listed: entry.reply.slice('list '.length) });
}

function noteExpired({ node, entry, at }) {
  const cause = entry.reply === 'expired' ? 'expired' : / late$/.test(entry.reply) ? 'late' : '';
  if (isOfCache(entry) && cause && !node.unsound.has(entry.key)) node.unsound.set(entry.key, { at, cause });
}

// A load that says something else than the state is believed, if it is a row of the entity or none, so that a run over a file with rows of
// its own can be drawn too.
function believe({ state, entity, entry }) {
  if (entry.part !== 'store' || entry.verb !== 'load') return;
  const told = /^row (v.*)$/.exec(entry.reply), row = told && rowOf(tokensOf(told[1]));
  if (entry.reply === 'none') state.committed.delete(entry.key);
  else if (row && row.cells.length === entity.columns.length) state.committed.set(entry.key, { row, at: NEVER, by: null });
}

// The store may answer a fault whenever it is asked.
const isFault = entry => entry.part === 'store' && entry.reply === 'fault';

// The reply that is due, or null if the entry can't come here; the state becomes that after the entry.
function dueReply(context) {
  try {
    return (isFence(context.entry) ? FENCES : REPLIES[context.entry.part])[context.entry.verb](context);
  } catch (fault) {
    return null;
  }
}

// What an act says of its session: its time, its floor, the lock that it got, the row or the list that it was told, the version that it
// writes. An act whose verb isn't here says nothing of it.
const SAYS = {
  ...BULK_SAYS,
  get: ({ session, entry }) => numberBehind(entry, 'at') === session.time,
  put({ session, entry }) {
    const copy = session.copies.get(entry.key), isOwnRow = copy && rowText(rowIn(entry, 3, 'at')) === rowText(copy.base);
    return isOwnRow && numberBehind(entry, 'at') === session.time && numberBehind(entry, 'floor') === session.floor;
  },
  lock: ({ session, entry }) => numberBehind(entry, 'floor') === session.floor,
  'after-insert': ({ session, entry }) => numberBehind(entry, 'floor') === session.floor,
  unlock: ({ session, entry }) => numberBehind(entry, 'lock') === session.locks.get(entry.key),
  'after-update': ({ session, entry }) => Number(entry.words[4]) === session.locks.get(entry.key),
  update({ entity, entry }) {
    const [expected, version] = entry.words.slice(3, 5);
    return entity.versioned ? Number(version.slice(1)) === Number(expected.slice(1)) + 1 : version === NO_VERSION;
  },
  check: ({ session, entry }) => Boolean(session.found) && numberBehind(entry, 'at') === session.found.time,
  keep: ({ session, entry }) => Number(entry.words[3]) === session.time && entry.act.endsWith(session.listed),
};

// Whether an act can be of its session as it stands. Which act is due isn't looked at.
function isOwnAct(context) {
  const { script, session, entry } = context, says = (entry.part === 'members' ? MEMBERS_SAYS : SAYS)[entry.verb];
  if (isFence(entry)) return Boolean(FENCE_SAYS[entry.verb]) && FENCE_SAYS[entry.verb](context);
  if (!session) return true;
  return entry.node === nodeOfSession(script, session.name) && session.open === (entry.verb !== 'begin') && (!says || Boolean(says(context)));
}

// Whether a tick can come here: none is below the one before, and each is above all those of its part and of its session before.
function isTimely({ ticks }, { tick, node, session, part, entity }) {
  const own = part === 'own' ? [] : [`${node} ${part} ${part === 'region' ? entity : ''}`], lanes = session === null ? own : [...own, session];
  const isRight = tick > 0 && tick >= (ticks.get('') || 0) && lanes.every(lane => tick > (ticks.get(lane) || 0));
  for (const lane of ['', ...lanes]) ticks.set(lane, tick);
  return isRight;
}

// Takes one entry, and answers whether its tick, its act and its reply follow from the state; `due` is the reply that was.
function step(script, state, entry, at) {
  const context = contextOf(script, state, entry, at), isOnTime = isTimely(state, entry), isAct = isOwnAct(context), due = dueReply(context);
  const isReply = due === entry.reply || isFault(entry);
  if (!isReply) believe(context);
  rememberRow(context);
  rememberLock(context);
  rememberSources(context);
  noteExpired(context);
  return { due, isOnTime, isAct, isReply, follows: isOnTime && isAct && isReply };
}
