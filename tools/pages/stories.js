'use strict';
// How a stale read came about: a headline, the steps that led to it, each at an entry, and why the cache answered so.

// The steps of a story; each entry stands in it once, with the first text that it is given.
function stepsOf() {
  const texts = new Map();
  return {
    add(at, text) { if (at !== NEVER && !texts.has(at)) texts.set(at, text); },
    has: at => texts.has(at),
    inOrder: () => [...texts].map(([at, text]) => ({ at, text })).sort((one, other) => one.at - other.at),
  };
}

// What a journal shows against its rules. Only a journal that was bent, or a run over a file of rows, comes to it.
const IMPOSSIBLE = "By the rules this can't be. Is the report of another script, was a line of it changed, or had the run a file with rows of its own?";

// ---- a row ----

// The commits that changed a key between two entries; of many, the first and the last.
function changesBetween(run, key, from, to) {
  const changes = (run.commits.get(key) || []).filter(change => change.at > from && change.at < to);
  return { first: changes[0], last: changes[changes.length - 1], told: changes.length > 4 ? [changes[0], changes[changes.length - 1]] : changes };
}

function tellChanges(steps, run, { script, entry }, { first, last, told }, old, fresh) {
  const key = code(entry.key), all = run.commits.get(entry.key) || [];
  const aged = entry.part === 'members' ? 'What was listed' : `The row with ${old}`;
  for (const change of told) {
    const where = atNode(run.entries[change.at].node);
    const before = all[all.indexOf(change) - 1], anew = change.row && before && !before.row ? `inserts ${key} anew and ` : '';
    const what = change.row ? `${anew}commits ${change === last ? fresh : code(named(script, entry.key, change.row))}` : `deletes ${key} and commits`;
    steps.add(change.at, `${code(change.by)}${where} ${what}.${change === first ? ` ${aged} is old from here on.` : ''}`);
  }
}

// Where the session of a change took the key out of the cache, up to an entry.
function removalsOf(run, key, change, to) {
  const isRemoval = ({ session, part, verb, key: other }) => session === change.by && other === key && part === 'region' && verb === 'remove';
  return run.entries.map((entry, at) => at).filter(at => at > change.began && at < to && isRemoval(run.entries[at]));
}

// When the session of the first change took the row out, as a sentence.
function removalsText(run, { state, entry, at }, first) {
  const removals = first ? removalsOf(run, entry.key, first, at) : [];
  if (!removals.length) return '';
  const again = removals.some(place => place > first.at) ? 'too early to catch this put' :
    state.sessions.get(first.by).killed > first.at ? 'and was killed before it did so again' : 'and has not yet done so again after its commit';
  return ` ${code(first.by)} took the row out at ${listed(removals.map(ref))}, ${again}.`;
}

const TAKES_ANY = 'its cache takes any row for a key of which it has none';
const WHY = {
  nonstrict: name => `${name} is nonstrict: ${TAKES_ANY}.`,
  'read-only': name => `${name} is read-only: ${TAKES_ANY}, and keeps it, since such rows aren't meant to change. This one was deleted.`,
};

function whyReused(steps, { slot, entry }, { at, deletedAt, key }) {
  const isRow = entry.part !== 'members', front = `${code(key)} was deleted at ${ref(deletedAt)} and inserted again at ${ref(at)}`;
  if (!isRow) return `${front}. A writer may have locked other owners than those of its change since then.`;
  steps.add(deletedAt, `${code(entry.key)} is deleted.`);
  steps.add(at, `${code(entry.key)} is inserted again, and versions begin anew.`);
  return `The key was deleted at ${ref(deletedAt)} and used again at ${ref(at)}. Versions began anew, so the old row with ${slot.row.version} looks newer.`;
}

function whyExpired(steps, { script, entry }, { at, cause }) {
  const key = code(entry.key), isLate = cause === 'late';
  steps.add(at, isLate ? `A put over a lock that had run out: nothing guards ${key} any more.` : `A lock on ${key} had run out.`);
  return `A lock on the key had run out (${count(script.timeout, 'tick')} in this script). ${SLOW_OR_DEAD}, and names the key as unsound since ${ref(at)}.`;
}

// The fence that tells a node of the first commit on a key of which it isn't told at an entry; NEVER if the journal ends before.
function fenceToCome(run, { number }, key, at) {
  const isIt = (entry, place) => place > at && isFence(entry) && entry.node === number && entry.verb === 'lock' && entry.key === key;
  return Math.max(NEVER, run.entries.findIndex(isIt));
}

// Why a node answers a row that is old by a commit of which it isn't told, and until when.
function whyUntold(run, steps, { node, entry, at }, untold) {
  const name = nodeName(node.number), fence = fenceToCome(run, node, entry.key, at), [{ at: since, by }] = untold;
  const place = node.queue.indexOf(untold[0]), before = place ? `, behind ${count(place, 'other')}` : '';
  if (fence !== NEVER) steps.add(fence, `The cache of ${name} is told of the commit at ${ref(since)}, and a fence drops what is there.`);
  const end = fence === NEVER ? 'This journal ends before it is told.' : `It is told at ${ref(fence)}: a fence drops what is there.`;
  return `The commit of ${code(by)} waits for ${name} since ${ref(since)}${before}, and no cache knows of a commit before it is told. ${end}`;
}

function whyStale(run, steps, context, first) {
  const { state, node, entity, entry } = context, unsound = node.unsound.get(entry.key) || state.reused.get(entity.name);
  const why = WHY[entity.strategy], untold = untoldOf(node, entry.key);
  if (untold.length) return whyUntold(run, steps, context, untold);
  const nonstrict = entity.strategy === 'nonstrict' ? `${removalsText(run, context, first)} A read-write entity guards the key by a lock against this.` : '';
  if (why) return why(code(entity.name)) + nonstrict;
  if (!unsound) return IMPOSSIBLE;
  return unsound.cause === 'reused' ? whyReused(steps, context, unsound) : whyExpired(steps, context, unsound);
}

// How the row came into the cache.
function tellStored(steps, run, { slot, entry }, first, old) {
  const by = code(slot.by), key = code(entry.key), lock = slot.over && isHeld(slot.over) ? slot.over : null;
  if (lock) for (const holder of lock.holders) steps.add(holder.at, `${code(holder.by)} locks ${key}, until the tick ${lock.until}.`);
  if (slot.how !== 'put') {
    steps.add(slot.at, `${by} puts its committed row into the cache: ${old}.`);
    return;
  }
  steps.add(slot.loadedAt, `${by} loads ${key} from the store: ${old}. That is right at this moment.`);
  const over = lock ? `, over the lock: it began at ${numberBehind(run.entries[slot.at], 'at')}, after the lock's time` : '';
  const which = slot.loadedAt === NEVER ? '' : ' at ' + ref(slot.loadedAt);
  const truth = first && slot.at > first.at ? ', though it is old by now' : '. It is right still';
  steps.add(slot.at, `${by} puts what it loaded${which} into the cache, and the cache takes it${over}${truth}.`);
}

// The story of a hit that isn't the committed row, from the state before it.
function staleHit(run, context) {
  const { script, state, slot, entry, at } = context, now = committedOf(state, entry.key), key = code(entry.key);
  const me = code(entry.session) + atNode(entry.node);
  const [old, fresh] = difference(script, entry.key, slot.row, now && now.row).map(code), steps = stepsOf();
  const changes = changesBetween(run, entry.key, slot.how === 'put' ? slot.loadedAt : slot.at, at), { first, last } = changes;
  tellStored(steps, run, context, first, old);
  tellChanges(steps, run, context, changes, old, fresh);
  const why = whyStale(run, steps, context, first), committed = now ? since(now.at) : '';
  steps.add(at, `${me} asks the cache and gets ${old}. ${now ? `Committed is ${fresh}, ${committed}.` : 'The row is deleted.'}`);
  const truth = now ? `${fresh} is committed ${committed}` : `the row is deleted since ${ref(last ? last.at : at)}`;
  const head = `${me} reads ${key} with ${old} from the cache at ${ref(at)}; ${truth}.`;
  return { at, key: entry.key, query: '', keys: [], head, why, steps: steps.inOrder() };
}

// ---- a list ----

// Two lists against each other: whole if they are short, else by what one has and the other hasn't.
function listsApart(one, other) {
  if (one.length + other.length <= 60) return [code(one), code(other)];
  const [left, right] = [one, other].map(list => tokensOf(list.slice(1, -1)));
  const some = cells => code(cells.slice(0, 4).join(' ') + (cells.length > 4 ? ' ..' : ''));
  const gone = left.filter(cell => !right.includes(cell)), come = right.filter(cell => !left.includes(cell));
  const size = count(left.length, 'cell'), otherSize = count(right.length, 'cell');
  if (!gone.length && !come.length) return [`a list of ${size}`, 'the same cells in another order or number'];
  const tell = (has, hasNot) => `${has.length ? ' with ' + some(has) : ''}${hasNot.length ? ' without ' + some(hasNot) : ''}`;
  return [`a list of ${size}${tell(gone, come)}`, otherSize + tell(come, gone)];
}

// Why a commit's tables have no stamp that would have kept the list from being used.
function whyUnstamped(steps, state, commit, tables, before) {
  const by = code(commit.by), missed = state.sessions.get(commit.by).killed > commit.at ? 'was killed before it stamped' : "hasn't stamped yet";
  const lost = state.restarted > before.at ? 'was lost by the restart' : 'has run out';
  return tables.map(table => {
    const stamp = state.stamps.get(table), isReplaced = stamp && stamp.at > before.at && stamp.by !== commit.by;
    if (!isReplaced) return `${by} ${missed} after its commit, and its stamp ahead of time, ${before.reply}, ${lost}.`;
    const how = stamp.ahead ? `stamps ${code(table)} ahead of time` : `is done and stamps ${code(table)}`;
    steps.add(stamp.at, `${code(stamp.by)} ${how} with ${stamp.value}. That takes the place of the stamp of ${by}: a table has only one.`);
    return `${by} ${missed} after its commit, and its stamp ahead of time was replaced at ${ref(stamp.at)}.`;
  });
}

// The stamps of a session around its commit: the last one ahead of time, and whether it has stamped since.
function stampsAround(run, commit, at) {
  let before = null, done = false;
  for (let i = 0; i < at; i++) {
    const { session, part, verb, reply } = run.entries[i];
    if (session !== commit.by || part !== 'stamps') continue;
    if (verb === 'pre' && i < commit.at) before = { at: i, reply };
    if (verb === 'stamp' && i > commit.at) done = true;
  }
  return { before, done };
}

// Tells a commit under a kept list, and answers why the list counts as fresh all the same.
function tellCommit(run, steps, { state, query, at }, commit) {
  const tables = commit.tables.filter(table => query.tables.includes(table)), { before, done } = stampsAround(run, commit, at), by = code(commit.by);
  steps.add(commit.at, `${by} commits a change of ${codes(tables)}. The list may be old from here on.`);
  if (before) steps.add(before.at, `${by} is about to write and stamps ${codes(tables)} ahead of time, with ${before.reply}.`);
  return before && !done ? whyUnstamped(steps, state, commit, tables, before) : [];
}

// The story of a list from the cache that isn't what its query gives, from the state before it was found fresh.
function staleList(run, context, now) {
  const { state, session, query, entry, at } = context, kept = session.found, name = code(entry.query), me = code(entry.session);
  const [was, is] = listsApart(kept.list, now), steps = stepsOf();
  steps.add(kept.listedAt, `${code(kept.by)} lists ${name} from the store: ${was}. That is right at this moment.`);
  steps.add(kept.at, `${code(kept.by)} keeps the list, with its own time ${kept.time}.`);
  const after = run.tableCommits.filter(commit => commit.at > kept.listedAt && commit.at < at);
  const commits = after.filter(({ tables }) => tables.some(table => query.tables.includes(table))).slice(-3);
  const reasons = new Set(commits.flatMap(commit => tellCommit(run, steps, context, commit)));
  steps.add(at, `${me} asks for ${name}, and the kept list counts as fresh: ${stampsOf(state, query)}, before the list's time ${kept.time}. ` +
    `It gets ${was}; the query gives ${is} now.`);
  const head = `${me} gets ${was} for ${name} from the cache at ${ref(at)}; the query gives ${is} over the committed rows.`;
  const keys = commits.flatMap(commit => commit.keys), why = [...reasons].join(' ') || IMPOSSIBLE;
  return { at, key: '', query: entry.query, keys, head, why, steps: steps.inOrder() };
}
