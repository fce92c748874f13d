'use strict';
// Reads the texts of a run: its script, and its journal, which is a report or JSON lines. docs/SCRIPT.md and docs/JOURNAL.md say what
// they mean. Each file of this page is plain: what one declares at its top the next ones see, and none knows of the page but page.js.

const NEVER = -1; // the place of the start, before the first entry
const NO_VERSION = 'v-';

// ---- tokens, rows and keys ----

const TOKEN = /"(?:[^"\\]|\\.)*"|\[(?:"(?:[^"\\]|\\.)*"|[^\]"])*\]|[()]|[^\s()"[\]]+/g;
const tokensOf = text => text.match(TOKEN) || [];

const rowOf = words => ({ version: words[0], cells: words.slice(1) });
const rowText = row => row ? [row.version, ...row.cells].join(' ') : 'none';
const withoutNoVersion = text => text.replace(/^v- /, '');

const keyOf = (entity, id) => entity + ' ' + id;
const entityOf = key => key.slice(0, key.indexOf(' '));

// ---- the script ----

// The tokens of a line, one after the other.
function cursorOf(words) {
  let at = 0;
  return {
    next: () => words[at],
    take() {
      if (at === words.length) throw new Error('it ends too soon');
      return words[at++];
    },
  };
}

function readCondition(cursor) {
  cursor.take(); // its parenthesis
  const condition = { op: cursor.take(), left: null, right: null, path: [], cells: [] };
  if (['and', 'or', 'not'].includes(condition.op)) {
    condition.left = readCondition(cursor);
    if (condition.op !== 'not') condition.right = readCondition(cursor);
  } else {
    condition.path = cursor.take().split('.');
    while (cursor.next() !== ')') condition.cells.push(cursor.take());
  }
  cursor.take();
  return condition;
}

function readOrder(cursor) {
  const order = [];
  while (!['offset', 'limit', 'select'].includes(cursor.next())) {
    const column = cursor.take(), descending = cursor.next() === 'desc';
    if (descending) cursor.take();
    order.push({ column, descending });
  }
  return order;
}

// The entities to which the references in a condition lead.
function targetsOf(condition, entity) {
  if (!condition) return [];
  if (condition.left) return [...targetsOf(condition.left, entity), ...targetsOf(condition.right, entity)];
  return condition.path.length === 2 ? [entity.columns.find(column => column.name === condition.path[0]).target] : [];
}

function readQuery(words, entities) {
  const cursor = cursorOf(words.slice(1));
  const query = { name: cursor.take(), entity: '', condition: null, order: [], offset: 0, limit: 200, select: '', tables: [] };
  query.isCached = words[2] === 'cached';
  for (let word = cursor.take(); word !== 'select'; word = cursor.take()) {
    if (word === 'from') query.entity = cursor.take();
    else if (word === 'where') query.condition = readCondition(cursor);
    else if (word === 'order') query.order = readOrder(cursor);
    else if (word === 'offset' || word === 'limit') query[word] = Number(cursor.take());
  }
  query.select = cursor.take();
  const tables = new Set([query.entity, ...targetsOf(query.condition, entities.get(query.entity))]);
  query.tables = [...entities.keys()].filter(name => tables.has(name));
  return query;
}

function readRow(words, entities) {
  const [, entity, id, ...cells] = words;
  return [keyOf(entity, id), rowOf(entities.get(entity).versioned ? cells : [NO_VERSION, ...cells])];
}

// What each first word of a line says; sessions have lines of their own, which the page doesn't need, and those of the schedule are kept as words.
const LINES = {
  hib() {},
  timeout(script, words) { script.timeout = Number(words[1]); },
  results(script, words) { script.results = Number(words[1]); },
  entity(script, words) {
    const [, name, strategy, versioning, capacity] = words;
    script.entities.set(name, { name, strategy, versioned: versioning === 'versioned', capacity: Number(capacity), columns: [] });
  },
  column(script, words) {
    const entity = [...script.entities.values()].pop();
    entity.columns.push({ name: words[1], target: words[2] === 'ref' ? words[3] : '' });
  },
  row(script, words) { script.rows.set(...readRow(words, script.entities)); },
  query(script, words) { script.queries.set(words[1], readQuery(words, script.entities)); },
  session(script, words) { script.sessions.push(words[1]); },
  schedule() {},
};

function readScript(text) {
  const script = {
    timeout: 1000, results: 100, entities: new Map(), rows: new Map(), queries: new Map(), sessions: [], orders: [],
    section: '', places: new Map(), lines: new Map(), collections: new Map(),
  };
  let inside = '';
  text.split('\n').forEach((line, at) => {
    const words = tokensOf(line), [word] = words;
    if (!words.length || line.trimStart()[0] === '#') return;
    if (inside) {
      if (word === 'end') inside = ''; else if (inside === 'schedule') script.orders.push(words);
      return;
    }
    if (!script.section && Object.hasOwn(SECTION_LINES, line)) {
      script.section = line;
      return;
    }
    try {
      (script.section ? SECTION_LINES[script.section] : LINES)[word](script, words);
    } catch (fault) {
      throw new Error(`the script can't be read at its line ${at}: ${line.slice(0, 80)}`);
    }
    inside = word === 'session' || word === 'schedule' ? word : '';
  });
  return script;
}

// ---- the journal ----

// The acts that name an entity alone, those that name a key, and those that name a query, by the part that answers them.
const WIDE = ['lock-all', 'unlock-all'];
const KEYED = { own: ['find', 'persist', 'set', 'remove'], store: ['load', 'insert', 'update', 'delete'] };
const OF_QUERIES = ['look', 'keep', 'check', 'list'];

// `lane` is the session's, or that of a node's fences, or null for an order of the schedule.
function entryOf(tick, session, part, act, reply, node = 0) {
  const lane = session === null && node ? nodeName(node) : session;
  const words = tokensOf(act), [verb] = words;
  const isWide = part === 'region' && WIDE.includes(verb), keyed = (part === 'region' && !isWide) || part === 'members' || (KEYED[part] || []).includes(verb);
  const key = keyed ? keyOf(words[1], words[2]) : '', query = OF_QUERIES.includes(verb) ? words[1] : '';
  return { tick, node, session, lane, part, act, reply, words, verb, key, entity: isWide || keyed ? words[1] : '', query };
}

const lineOf = entry => `${entry.tick} ${entry.node ? entry.node + ' ' : ''}${entry.session || '-'} ${entry.part} ${entry.act} = ${entry.reply}`;

// A fence locks a key at a node for no session, and gives the lock back.
const isFence = entry => entry.node > 0 && entry.session === null;

// Whether an entry changes the committed rows: a commit, or a line's bulk change.
const isCommit = ({ part, verb, reply }) => part === 'store' && ((verb === 'commit' && reply === 'committed') || (verb === 'bulk' && reply !== 'fault'));

// The number that stands behind the last such word of an act.
const numberBehind = (entry, word) => Number(entry.words[entry.words.lastIndexOf(word) + 1]);

// The row of an act, from a place to the last such word, or to the end.
function rowIn(entry, from, word) {
  return rowOf(entry.words.slice(from, word ? entry.words.lastIndexOf(word) : entry.words.length));
}

// Where the reply begins: at the first ` = ` outside of a quoted text.
function replyPlace(text) {
  let quoted = false;
  for (let at = 0; at < text.length; at++) {
    if (text[at] === '\\') at++;
    else if (text[at] === '"') quoted = !quoted;
    else if (!quoted && text.startsWith(' = ', at)) return at;
  }
  return -1;
}

// The entry of a line of a report, or null.
function readLine(line) {
  const place = replyPlace(line), head = /^(\d+) (?:([12]) )?(\S+) (\S+) /.exec(line);
  if (place < 0 || !head) return null;
  const [front, tick, node = 0, session, part] = head;
  return entryOf(Number(tick), session === '-' ? null : session, part, line.slice(front.length, place), line.slice(place + 3), Number(node));
}

// The entry of a line of JSON, or null.
function readJson(line) {
  let value;
  try { value = JSON.parse(line); } catch (fault) { return null; }
  const { tick, session, part, act, reply } = value || {};
  const right = Number.isInteger(tick) && [part, act, reply].every(text => typeof text === 'string') && (session === null || typeof session === 'string');
  return right ? entryOf(tick, session, part, act, reply) : null;
}

// The entries of lines. The last line of a text may break off, since it was cut there; any other that is no entry is refused.
function readEntries(lines, read, isLast) {
  const entries = lines.map(read), bad = entries.indexOf(null);
  if (bad < 0) return { entries, broken: false };
  if (bad < lines.length - 1 || !isLast) throw new Error(`this line of the journal is no entry: ${lines[bad].slice(0, 120)}`);
  return { entries: entries.slice(0, -1), broken: true };
}

// The members of owners are told from rows by the names of their collections.
function toldApart(script, entries) {
  for (const entry of entries) {
    if (entry.part !== 'members') continue;
    entry.entity = nameOfCollection(script, entry.words[1]);
    entry.key = keyOf(entry.entity, entry.words[2]);
  }
  return entries;
}

// The entries, the keys that a report names as unsound (null if it names none), and how the text was cut short, if it was.
function readJournal(text, script) {
  const lines = text.split('\n').filter(line => line !== ''), [first = ''] = lines;
  if (first[0] === '{') {
    const { entries, broken } = readEntries(lines, readJson, true);
    return { entries, unsound: null, cut: broken ? 'its last line breaks off' : '' };
  }
  const head = /^journal (\d+)$/.exec(first);
  if (!head) throw new Error('this is neither a report, which begins with a line such as `journal 22`, nor JSON lines');
  const told = Number(head[1]), tail = lines.slice(1 + told), isCut = !tail.length;
  const entries = toldApart(script, readEntries(lines.slice(1, 1 + told), readLine, isCut).entries);
  const from = tail.findIndex(line => /^unsound \d+$/.test(line)), count = from < 0 ? 0 : Number(tail[from].slice('unsound '.length));
  const cut = entries.length < told ? `it has ${entries.length} of ${told} entries` : tail[tail.length - 1] !== 'end' ? 'it has no line `end`' : '';
  return { entries, unsound: from < 0 ? null : tail.slice(from + 1, from + 1 + count), cut };
}
