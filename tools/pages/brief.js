'use strict';
// An entry in few words, as it stands in the picture, and what kind of an entry it is.

// A row without its version if it has none; a text without its part, and without its key where a run has only one.
const briefRow = row => withoutNoVersion(rowText(row));
const ARROW = ' \u2192 ';
const withoutKey = reply => reply.replace(/ \S+ \d+( found)?/, '$1');
const unless = (reply, usual) => reply === usual ? '' : ARROW + reply;

const BRIEF = {
  registry: { begin: () => 'begin', end: entry => 'end: ' + entry.reply, kill: entry => 'kill ' + entry.words[1], restart: () => 'restart' },
  own: {
    find: (entry, key) => `find${key}${ARROW}${entry.reply === 'none' ? 'removed' : 'own copy ' + withoutNoVersion(entry.reply.slice('row '.length))}`,
    persist: (entry, key) => `persist${key} ${briefRow(rowIn(entry, 3))}${unless(entry.reply, 'new')}`,
    set: (entry, key) => `set${key} ${entry.words.slice(3).join(' ')}${unless(entry.reply, 'set')}`,
    remove: (entry, key) => `remove own${key}${unless(entry.reply, 'removed')}`,
  },
  store: {
    load: (entry, key) => `load${key}${ARROW}${withoutNoVersion(entry.reply.replace(/^row /, ''))}`,
    insert: (entry, key) => `write${key} ${briefRow(rowIn(entry, 3))}`,
    update: (entry, key) => `write${key} ${briefRow(rowIn(entry, 4))}`,
    delete: (entry, key) => `write${key} (delete)`,
    list: entry => `list ${entry.query}${ARROW}${entry.reply.replace(/^list /, '')}`,
    commit: (entry, key, isOnly) => entry.reply === 'committed' ? 'commit' : `commit${ARROW}refused: ${isOnly ? withoutKey(entry.reply) : entry.reply}`,
    rollback: () => 'rollback',
    bulk: entry => `change rows${ARROW}${entry.reply.replace(/^changed /, '')}`,
  },
  region: {
    get: (entry, key) => entry.reply.startsWith('hit ') ? `hit${key} ${withoutNoVersion(entry.reply.slice('hit '.length))}` : `get${key}${ARROW}${entry.reply}`,
    put: (entry, key) => `put${key}${ARROW}${entry.reply.startsWith('stored') ? '' : 'refused: '}${entry.reply}`,
    lock: (entry, key) => `lock${key}${ARROW}${/until \d+/.exec(entry.reply)}`,
    unlock: (entry, key) => `unlock${key}${ARROW}${entry.reply}`,
    'after-update': (entry, key) => `after-update${key}${ARROW}${entry.reply}`,
    'after-insert': (entry, key) => `after-insert${key}${ARROW}${entry.reply.startsWith('stored') ? '' : 'refused: '}${entry.reply}`,
    remove: (entry, key) => `take out${key}${ARROW}${entry.reply}`,
    'lock-all': entry => `lock all of ${entry.entity}${unless(entry.reply, 'held 1')}`,
    'unlock-all': entry => `unlock all of ${entry.entity}${unless(entry.reply, 'released 0')}`,
    sweep: (entry, key) => `drop old${key}`,
    evict: (entry, key) => `evict${key}${ARROW}${entry.reply}`,
  },
  stamps: {
    pre: entry => `stamp ${entry.words.slice(1).join(' ')} ahead${ARROW}${entry.reply}`,
    stamp: entry => `stamp ${entry.words.slice(1).join(' ')}${ARROW}${entry.reply}`,
    check: entry => `check ${entry.query}${ARROW}${entry.reply}`,
  },
  results: { look: entry => `look ${entry.query}${ARROW}${entry.reply}`, keep: entry => `keep ${entry.query}${unless(entry.reply, 'kept')}` },
};

const BRIEF_FENCE = { lock: (entry, key) => `fence${key || ' begins'}`, unlock: (entry, key) => `fence${key} ends${unless(entry.reply, 'released 0')}` };

// An entry in few words, for its lane.
function brief(entry, isOnly) {
  const say = (isFence(entry) ? BRIEF_FENCE : BRIEF[entry.part === 'members' ? 'region' : entry.part])[entry.verb];
  return say ? say(entry, entry.key && !isOnly ? ' ' + entry.key : '', isOnly) : entry.act;
}

// The same as it stands in the picture of a run: what is wrong comes first, a run's only key isn't said, and a long row is told shortly.
const PREFIXES = { stale: 'STALE ', oldcopy: 'old copy: ' };
function briefOf(run, at) {
  const entry = run.entries[at];
  return withShortRow(run, entry, (PREFIXES[run.marks[at]] || '') + brief(entry, run.keys.size === 1));
}

// What kind of an entry it is, for its colour; nothing if none in particular.
function markOf(entry) {
  const is = (part, ...verbs) => entry.part === part && verbs.includes(entry.verb);
  if (/ late$/.test(entry.reply) || entry.reply === 'expired' || isFault(entry)) return 'warn';
  if (is('registry', 'kill', 'restart')) return 'warn';
  if (isFence(entry)) return 'fence';
  if (isCommit(entry)) return 'commit';
  if (is('store', 'commit')) return 'warn';
  if (isOfCache(entry) && ['put', 'after-insert'].includes(entry.verb) && !entry.reply.startsWith('stored')) return 'refused';
  if (isOfCache(entry) && entry.verb === 'get') return entry.reply.startsWith('hit') ? 'hit' : 'miss';
  if (is('stamps', 'check')) return entry.reply === 'fresh' ? 'hit' : 'miss';
  if (entry.part === 'own' && ['unknown', 'known', 'read-only'].includes(entry.reply)) return 'idle';
  return '';
}
