'use strict';
// What an entry means in this run, as a sentence from the state before it: who, since when, and because of which entry. What an act or a
// reply means in every run stands in docs/JOURNAL.md alone; `meaningsOf` finds its row there. In a sentence `code` marks a word of the run,
// `ref` the place of an entry, and `**` what is wrong. The functions take what `contextOf` gives, with the session and the key as such words.

// ---- words ----

const code = text => '`' + text + '`';
const ref = at => `\u0001${at}\u0002`;
const since = at => at === NEVER ? 'from the start' : 'since ' + ref(at);
const listed = names => names.length < 2 ? names.join('') : names.slice(0, -1).join(', ') + ' and ' + names[names.length - 1];
const codes = (names, most = 6) => names.length > most ? names.slice(0, most).map(code).join(', ') + ' and so on' : listed(names.map(code));
const count = (number, word, many = word + 's') => `${number} ${number === 1 ? word : many}`;
const firstWord = text => text.split(' ')[0];

// A row with the names of its columns.
function named(script, key, row) {
  if (!row) return 'no row';
  const { columns } = declared(script, entityOf(key));
  const cells = row.cells.map((cell, i) => columns[i] ? `${columns[i].name} ${cell}` : cell);
  return (row.version === NO_VERSION ? cells : [row.version, ...cells]).join(' ');
}

// What differs between two rows of a key, of each: `price 30` against `price 20`.
function difference(script, key, one, other) {
  if (!one || !other) return [named(script, key, one), named(script, key, other)];
  const { columns } = declared(script, entityOf(key)), places = columns.map((column, i) => i).filter(i => one.cells[i] !== other.cells[i]);
  if (!places.length) return [one.version, other.version];
  return [one, other].map(row => places.map(i => `${columns[i].name} ${row.cells[i]}`).join(', '));
}

// ---- what explains the state of a key ----

const STORED = { put: 'put there by', 'after-insert': 'put there after the insert of', 'after-update': 'put there after the update of' };
const storedBy = item => `${STORED[item.how]} ${code(item.by)} at ${ref(item.at)}`;

const SLOW_OR_DEAD = "The cache can't tell a dead holder from a slow one";

const holderOf = (state, { by, at }) => by === null ? `a fence (since ${ref(at)})` :
  `${code(by)} (since ${ref(at)}${state.sessions.get(by).killed > at ? ', killed' : ''})`;
const holdersOf = (state, lock) => listed(lock.holders.map(holder => holderOf(state, holder)));

// The commit of which a node is told by a fence.
const toldOf = ({ at, by }) => `the change that ${code(by)} committed at ${ref(at)}`;

function releasedBy({ release }, script) {
  if (release.how === 'fenced') return `a fence ended at ${ref(release.at)}, since the node was told of ${toldOf(release.told)}`;
  if (release.how === 'swept') return `an old item was dropped at ${ref(release.at)}`;
  if (release.how === 'evicted') return `the key was evicted at ${ref(release.at)}`;
  if (release.how !== 'expired') return `${code(release.by)} gave the lock back at ${ref(release.at)}`;
  return `a lock had run out and was given back too late at ${ref(release.at)}; puts are barred for ${count(script.timeout, 'tick')} after that`;
}

const GONE = {
  left: at => `it left the full cache at ${ref(at)} for another key`,
  dropped: at => `it was taken out at ${ref(at)}`,
  evicted: at => `it was evicted at ${ref(at)}`,
  restart: at => `the restart at ${ref(at)} emptied the cache`,
};

function absentSince({ node, entry }) {
  const gone = node.gone.get(entry.key);
  return gone ? GONE[gone.how](gone.at) : 'nobody has put it there yet';
}

// Why nobody may leave a full region.
function whyCrowded({ state, entity, region, entry }) {
  const floor = numberBehind(entry, 'floor'), oldest = oldestOpen(state, floor, entry.node);
  const began = oldest ? `, at which ${code(oldest.name)} began, who is open` : '';
  const some = [...region].slice(0, 3).map(([key, slot]) => `${code(key)} is ${isHeld(slot) ? 'locked' : `of the tick ${tickOfSlot(slot)}`}`);
  return `The cache of ${code(entity.name)} is full (${region.size} of ${entity.capacity}), and nothing in it is older than the floor ${floor}${began}: ` +
    `${listed(some)}${region.size > 3 ? ', and so on' : ''}.`;
}

// Who leaves a full region for the key, as a sentence.
function leaverText({ entity, entry }) {
  const left = /evicted (\d+)/.exec(entry.reply);
  return left ? ` ${code(keyOf(entity.name, left[1]))} leaves the full cache for it.` : '';
}

// ---- registry ----

const REGISTRY_TEXTS = {
  begin({ state, entry, me }) {
    const floor = Number(entry.reply.split(' ')[1]), oldest = oldestOpen(state, floor, entry.node), where = atNode(entry.node);
    const others = oldest ? `The floor is ${floor}: ${code(oldest.name)} is the oldest that is open${where}.` :
      `Nobody who is open${where} began before.`;
    return `A transaction of ${me} begins${where}. Its time is ${entry.tick}. ${others}`;
  },
  end: ({ entry, me }) => `The transaction of ${me} ends: ${entry.reply}.`,
  kill({ state, entry }) {
    const session = sessionOf(state, entry.words[1]), locks = [...session.locks.keys()];
    const written = session.written.length ? ' What it has written is dropped.' : '';
    const held = locks.length ? ` It holds ${locks.length === 1 ? 'a lock' : 'locks'} on ${codes(locks)}.` : '';
    const isUnstamped = session.doneAt > session.began && session.stampedAt < session.doneAt && session.done.length;
    return `${code(session.name)} is killed.${written}${held}${isUnstamped ? ' It has committed, and its tables are never stamped.' : ''}`;
  },
  restart: ({ state }) => `The caches are empty now, and ${codes(openSessions(state).map(({ name }) => name)) || 'no session'} killed.`,
};

// ---- a session's own copies ----

// How an old copy differs from the committed row.
function oldCopyText({ script, state, session, entry }) {
  const { base, at } = session.copies.get(entry.key), now = state.committed.get(entry.key), [old, fresh] = difference(script, entry.key, base, now && now.row);
  return ` **The copy is old:** it has ${code(old)} from ${ref(at)}, and ${now ? `${code(fresh)} is committed ${since(now.at)}` : 'the row is deleted'}.`;
}

// Why a session can't change a copy.
function unknownText({ session, entry, me, key }) {
  if (session.copies.has(entry.key)) return `Nothing happens: ${me} has marked its copy of ${key} for removal.`;
  return `Nothing happens: ${me} has no copy of ${key}; it has to find the row first.`;
}

const OWN_TEXTS = {
  find(context) {
    const { state, session, entry, me, key } = context;
    if (entry.reply === 'none') return `${me} looks ${key} up, and has marked its copy for removal.`;
    return `${me} looks ${key} up, and has a copy of its own.${isOldCopy(state, session, entry.key) ? oldCopyText(context) : ''}`;
  },
  persist: ({ entry, me, key }) => entry.reply === 'new' ? `${me} makes a new row ${key}, for itself.` : `Nothing happens: ${me} has ${key} already.`,
  set(context) {
    const { entity, entry, me, key } = context;
    if (entry.reply === 'unknown') return unknownText(context);
    if (entry.reply === 'read-only') return `Nothing happens: ${code(entity.name)} is read-only.`;
    return `${me} sets cells of its copy of ${key}. Nothing is written yet.`;
  },
  remove: context => context.entry.reply === 'unknown' ? unknownText(context) : `${context.me} marks its copy of ${context.key} for removal.`,
  clear: ({ session, me }) => `${me} forgets ${count(session.copies.size, 'copy', 'copies')}.`,
};

// ---- the store ----

const byWhom = ({ at, by }) => `${since(at)}${by ? `, by ${code(by)}` : ''}`;
const WRITES = { insert: 'a new row', update: 'a changed row', delete: 'a removal of' };

function writeText({ entry, me, key }) {
  const expects = entry.verb !== 'insert' && entry.words[3] !== NO_VERSION ? ` Its commit will expect the version ${entry.words[3]}.` : '';
  return `${me} writes ${WRITES[entry.verb]} ${key}.${expects}`;
}

// What a commit found in the place of the row that it expected.
function foundText({ state }, key) {
  const now = state.committed.get(key), gone = state.deleted.get(key);
  if (now) return `the row has the version ${now.row.version} ${byWhom(now)}`;
  return `the row isn't there${gone ? `: ${code(gone.by)} has deleted it at ${ref(gone.at)}` : ''}`;
}

function refusedCommitText(context) {
  const { state, session, entry, me } = context, front = `Nothing of ${me} is committed: it was to`;
  const [why, entity, id] = entry.reply.split(' '), key = keyOf(entity, id);
  if (why === 'duplicate') return `${front} insert ${code(key)}, and a row is there ${byWhom(state.committed.get(key))}.`;
  const change = session.written.find(written => written.key === key), expected = change.expected === NO_VERSION ? '' : ` of the version ${change.expected}`;
  return `${front} ${change.kind} ${code(key)}${expected}, and ${foundText(context, key)}.`;
}

// For which node a commit's changes are to wait.
function waitsText({ script, session, entry }) {
  const others = nodesOf(script).filter(number => number !== entry.node).map(nodeName);
  return others.length && session.written.some(({ key }) => isGuarded(script, key)) ? ` The cache of ${listed(others)} isn't told yet.` : '';
}

const STORE_TEXTS = {
  load({ state, session, entry, me, key }) {
    const now = state.committed.get(entry.key), front = `${me} asks the store for ${key}.`;
    if (isFault(entry)) return `${front} The store fails.`;
    if (hasWritten(session, entry.key)) return `${front} It is told its own written change.`;
    return entry.reply === 'none' || !now ? `${front} There is no such row.` : `${front} It is told the committed row, ${byWhom(now)}.`;
  },
  list({ entry, me }) {
    const front = `${me} asks the store what ${code(entry.query)} gives`;
    return isFault(entry) ? `${front}. The store fails.` : `${front}: ${count(tokensOf(entry.reply.slice('list ['.length, -1)).length, 'cell')}.`;
  },
  insert: writeText,
  update: writeText,
  delete: writeText,
  commit(context) {
    const { session, entry, me } = context, keys = [...new Set(session.written.map(change => change.key))];
    if (isFault(entry)) return `The store fails, and nothing of ${me} is committed.`;
    if (entry.reply !== 'committed') return refusedCommitText(context);
    if (!keys.length) return `${me} commits. It has written nothing.`;
    return `${me} commits: ${codes(keys)} ${keys.length === 1 ? 'is' : 'are'} changed for all from here on.${waitsText(context)}`;
  },
  rollback({ session, me }) {
    const changes = session.written.length;
    return changes ? `${me} rolls back, and ${count(changes, 'change of it is', 'changes of it are')} dropped.` : `${me} rolls back. It has written nothing.`;
  },
};

// ---- regions ----

// The commits on a key of which a node isn't told yet.
const untoldOf = ({ queue }, key) => queue.filter(waiting => waiting.key === key);

function hitText({ script, state, node, slot, entry }) {
  const now = committedOf(state, entry.key), what = entry.part === 'members' ? 'members' : 'row';
  if (now && rowText(now.row) === rowText(slot.row)) return `It gets the committed ${what}, ${storedBy(slot)}.`;
  const [old, fresh] = difference(script, entry.key, slot.row, now && now.row);
  const truth = now ? `the committed ${what} ${what === 'row' ? 'has' : 'are'} ${code(fresh)} ${since(now.at)}` : 'the row is deleted';
  const untold = untoldOf(node, entry.key).length ? ` The change waits for ${nodeName(node.number)} still.` : '';
  return `**A stale read:** it gets ${code(old)}, ${storedBy(slot)}; ${truth}.${untold}`;
}

const MISSES = {
  absent: context => `A miss: ${absentSince(context)}.`,
  locked: ({ state, slot }) => `A miss: the key is locked by ${holdersOf(state, slot)}.`,
  released: ({ script, slot }) => `A miss: there is a released lock; ${releasedBy(slot, script)}.`,
  wide: context => `A miss: the whole region is locked by ${wideHolders(context)}.`,
  young: ({ slot, entry }) => `A miss: there is an item, ${storedBy(slot)}, and the session began at ${numberBehind(entry, 'at')}, not after that.`,
};

// How a put was taken over a lock that had run out.
function lateText({ script, state, slot, entry }) {
  const over = isHeld(slot) ? `${holdersOf(state, slot)} holds it still` : releasedBy(slot, script), began = numberBehind(entry, 'at');
  return `It is stored over a lock that was good until the tick ${slot.until}: ${over}, but the session began later, at ${began}. ${SLOW_OR_DEAD}.`;
}

// Why a put was taken over what was there.
function takenText({ slot, entry }) {
  const { version } = offeredRow(entry);
  if (slot.kind === 'item') return `its version ${version} is above that of the item, ${slot.row.version}`;
  if (numberBehind(entry, 'at') > slot.until) return `the released lock was good until ${slot.until}, and the session began after that`;
  if (!slot.shared && slot.version !== NO_VERSION) return `its version ${version} is above ${slot.version}, over which the lock was taken`;
  return `the lock was released at the tick ${slot.release.tick}, before the session began`;
}

const PUTS = {
  stored(context) {
    const { entity, slot, entry } = context;
    if (/late$/.test(entry.reply)) return lateText(context);
    if (slot) return `It is stored: ${takenText(context)}.`;
    const nonstrict = entity.strategy === 'nonstrict' ? ' A nonstrict cache asks no more than that.' : '';
    return `It is stored: the cache had nothing for the key (${absentSince(context)}).${leaverText(context)}${nonstrict}`;
  },
  present({ slot, entry }) {
    const { version } = slot.row, versions = `its version is ${version}, the offered one ${offeredRow(entry).version}`;
    return `Refused: an item is there, ${storedBy(slot)}, and ${version === NO_VERSION ? 'the rows have no versions' : versions}.`;
  },
  held({ state, slot }) {
    const isAlive = slot.holders.some(({ by, at }) => state.sessions.get(by).killed < at);
    return `Refused: the key is locked by ${holdersOf(state, slot)}${isAlive ? ', who may be about to change it' : `. ${SLOW_OR_DEAD}`}.`;
  },
  early({ script, slot, entry, me }) {
    return `Refused: ${releasedBy(slot, script)}. ${me} began at ${numberBehind(entry, 'at')}, and what it loaded may be from before that.`;
  },
  old({ slot, entry }) {
    return `Refused: the released lock was taken over a row of the version ${slot.version}, and the offered one is ${offeredRow(entry).version}.`;
  },
  crowded: context => 'Refused. ' + whyCrowded(context),
  wide: context => barText(context),
  'wide-early': context => barText(context),
};

// What was there when a lock was taken.
function lockedOverText({ state, slot }) {
  if (!slot) return '';
  if (slot.kind === 'item') return ' The item that was there is gone.';
  return isHeld(slot) ? ` It is shared: ${holdersOf(state, slot)} holds it, too.` : ' A released lock was there, and is taken again.';
}

function expiredText(context) {
  const { script, slot, me, key } = context;
  const there = !slot ? absentSince(context) : slot.kind === 'item' ? `there is an item, ${storedBy(slot)}` : 'there is another lock';
  return `${me} gives its lock on ${key} back, which isn't there any more: ${there}. What was put meanwhile may be old. ` +
    `Puts are barred for ${count(script.timeout, 'tick')}.`;
}

const INSERTED = {
  stored: context => 'It is stored.' + leaverText(context),
  present: () => 'Refused: the key has an entry.',
  crowded: context => 'Refused. ' + whyCrowded(context),
  wide: context => barText(context),
  'wide-early': context => barText(context),
};

const EVICTIONS = {
  evicted: ({ entity }) => entity.strategy === 'read-write' ? 'A released lock stays in its place.' : 'It is gone.',
  held: ({ state, slot }) => `It is locked by ${holdersOf(state, slot)}, and stays.`,
  absent: context => `It wasn't there: ${absentSince(context)}.`,
};

const REGION_TEXTS = {
  get(context) {
    const [word, kind] = context.entry.reply.split(' ');
    return `${context.me} asks the cache for ${context.key}. ${word === 'hit' ? hitText(context) : MISSES[kind](context)}`;
  },
  put(context) {
    const loadedAt = loadBehind(context), which = loadedAt === NEVER ? '' : ' at ' + ref(loadedAt);
    return `${context.me} offers the cache the row that it loaded${which}. ${PUTS[firstWord(context.entry.reply)](context)}`;
  },
  lock(context) {
    const { entry, me, key } = context, until = /until (\d+)/.exec(entry.reply)[1];
    return `${me} locks ${key}, so that nobody puts an old row there. The lock is good until the tick ${until}.` +
      lockedOverText(context) + leaverText(context);
  },
  unlock(context) {
    if (context.entry.reply === 'expired') return expiredText(context);
    const left = Number(context.entry.reply.split(' ')[1]);
    return `${context.me} gives its lock on ${context.key} back. ${left ? `${count(left, 'holder is', 'holders are')} left.` : 'Nobody holds it now.'}`;
  },
  'after-update'(context) {
    const word = firstWord(context.entry.reply), front = `${context.me} gives its lock on ${context.key} back`;
    if (word === 'expired') return expiredText(context);
    if (word === 'stored') return `${front}, and its committed row takes the place.`;
    if (!context.slot.shared) return `${front}. Its row isn't stored, since a line has locked the whole region meanwhile.`;
    return `${front}. Its row isn't stored, since another session that held the lock may be about to commit.`;
  },
  'after-insert': context => `${context.me} offers the cache the row that it has inserted. ${INSERTED[firstWord(context.entry.reply)](context)}`,
  remove(context) {
    const { session, entry, me, key } = context, when = session.doneAt > session.began ? 'has changed' : 'is about to change';
    const found = entry.reply === 'dropped' ? 'It was there.' : `It wasn't there: ${absentSince(context)}.`;
    return `${me} takes ${key} out of the cache, since it ${when} the row. ${found}`;
  },
  evict: context => `The schedule drops ${context.key} from the cache. ${EVICTIONS[context.entry.reply](context)}`,
};

// ---- stamps and kept results ----

// The stamps that a stamp takes back: those ahead of time of sessions that aren't done.
function takenBackText({ state, entry }) {
  const stamps = entry.words.slice(1).map(table => state.stamps.get(table)).filter(stamp => stamp && stamp.by !== entry.session);
  const taken = stamps.filter(({ value, by }) => value > entry.tick && state.sessions.get(by).open).map(({ by, at }) => `${code(by)} set at ${ref(at)}`);
  return taken.length ? ` **This takes back the stamp ahead of time** that ${listed(taken)}, who isn't done.` : '';
}

function stampsOf(state, query) {
  return listed(query.tables.map(table => {
    const stamp = state.stamps.get(table);
    return stamp ? `the stamp of ${code(table)} is ${stamp.value}` : `${code(table)} has no stamp`;
  }));
}

const STAMPS_TEXTS = {
  pre({ entry, me }) {
    const tables = entry.words.slice(1), over = `no kept result over ${tables.length === 1 ? 'it' : 'them'} counts as fresh`;
    return `${me} is about to write, and stamps ${codes(tables)} ahead of time: ${over} until the tick ${entry.reply}.`;
  },
  stamp: context => `${context.me} stamps ${codes(context.entry.words.slice(1))} with the present tick.${takenBackText(context)}`,
  check({ state, query, entry }) {
    const front = `May the kept result of ${code(entry.query)}, of the time ${numberBehind(entry, 'at')}, be used?`;
    if (entry.reply === 'fresh') return `${front} Yes: ${stampsOf(state, query)}.`;
    const [, table, value] = entry.reply.split(' '), { by, at } = state.stamps.get(table);
    return `${front} No: ${code(table)} has the stamp ${value}, of ${code(by)} at ${ref(at)}. The store is asked.`;
  },
};

const RESULTS_TEXTS = {
  look({ state, entry, me }) {
    const kept = state.kept.get(entry.query), front = `${me} looks for a kept result of ${code(entry.query)}.`;
    if (!kept) return front + ' There is none.';
    return `${front} There is one, kept by ${code(kept.by)} at ${ref(kept.at)}, of the time ${kept.time}. Whether it may be used is checked next.`;
  },
  keep({ entry, me }) {
    const dropped = /dropped (\S+)/.exec(entry.reply), left = dropped ? ` That of ${code(dropped[1])} leaves for it.` : '';
    return `${me} keeps the result of ${code(entry.query)} with its own time, ${entry.words[3]}, which is before all that it has read.${left}`;
  },
};
