'use strict';
// Which entries and lanes are drawn, and where everything stands.

const ROW = 22; // the height of an entry
const TICKS = 62, HALF = 100, HALF_LEAST = 60, STAMP = 58, GAP = 10; // the widths of the ticks, of half a key's lanes, of a stamp, between groups
const TEXTS_LEAST = 300; // what the column of texts should have beside thin lanes
const MOST = 1500; // entries that are drawn at once

// How wide a text is, about; the page measures it.
let widthOfText = text => 6.8 * text.length;

// ---- which entries ----

const isLaneName = (run, name) => run.keys.has(name) || run.queries.has(name);
const touchesOf = (run, name) => (run.keys.get(name) || run.queries.get(name)).touches;

// The entries that touch a key or a query of the filter, with the stamps of its tables and what begins and ends the sessions that act.
function entriesTouching(run, names) {
  const wanted = new Set(names.flatMap(name => touchesOf(run, name)));
  const tables = new Set(names.flatMap(name => run.queries.has(name) ? run.queries.get(name).query.tables : []));
  run.entries.forEach((entry, at) => { if (entry.part === 'stamps' && entry.words.some(word => tables.has(word))) wanted.add(at); });
  const acting = new Set([...wanted].map(at => run.entries[at].session));
  run.entries.forEach((entry, at) => {
    if (entry.part === 'registry' && (entry.verb === 'restart' || acting.has(entry.session || entry.words[1]))) wanted.add(at);
  });
  return wanted;
}

// The entries that a filter leaves: those that touch one of its keys or queries, and are of one of its sessions.
function entriesOfFilter(run, filter) {
  const names = filter.filter(name => isLaneName(run, name)), sessions = filter.filter(name => run.script.sessions.includes(name));
  const wanted = names.length ? entriesTouching(run, names) : null, all = run.entries.map((entry, at) => at);
  return all.filter(at => (!wanted || wanted.has(at)) && (!sessions.length || sessions.includes(run.entries[at].session)));
}

const isWithin = (at, { from, to }) => at >= from && (to === null || at <= to);
const addBothEnds = (set, { from, to }) => { set.add(from); if (to !== null) set.add(to); };

// The entries of a story: its steps, with the transactions around them, the locks on its key, and what else its sessions ask of it.
function entriesOfStory(run, story) {
  const steps = story.steps.map(({ at }) => at), wanted = new Set(steps), acting = new Set(steps.map(at => run.entries[at].lane));
  for (const transaction of run.transactions) {
    if (steps.some(at => run.entries[at].session === transaction.session && isWithin(at, transaction))) addBothEnds(wanted, transaction);
  }
  for (const lock of run.locks) if (lock.key === story.key && acting.has(lock.lane)) addBothEnds(wanted, lock);
  const first = Math.min(...wanted);
  run.entries.forEach((entry, at) => {
    if (isOfCache(entry) && entry.key === story.key && acting.has(entry.lane) && at >= first && at <= story.at) wanted.add(at);
  });
  return [...wanted].sort((one, other) => one - other);
}

// ---- which lanes ----

const THREE_TOUCHES = 3; // what a query weighs beside the entries of keys

// The keys and queries that have lanes: those of the filter or of the story; else as many as there is room for, of which the picked entry's
// come first, then those with a finding, then the unsound ones, then the most touched.
function namesWithLanes(run, filter, story, room, picked) {
  const all = [...run.keys.keys(), ...run.queries.keys()], wanted = new Set(filter.filter(name => isLaneName(run, name)));
  if (story) wanted.add(story.key || story.query);
  if (wanted.size) return all.filter(name => wanted.has(name));
  if (all.length <= room) return all;
  const found = new Set(run.findings.flatMap(({ key, query, keys }) => [key || query, ...keys]));
  const unsound = new Set(run.unsound.map(({ key }) => key));
  const rank = name => [name === picked, found.has(name), unsound.has(name)].map(Number);
  const weight = name => run.keys.has(name) ? touchesOf(run, name).length : THREE_TOUCHES;
  const kept = new Set(all.map(name => [...rank(name), weight(name), name])
    .sort((one, other) => other[0] - one[0] || other[1] - one[1] || other[2] - one[2] || other[3] - one[3]).slice(0, room).map(entry => entry[4]));
  return all.filter(name => kept.has(name));
}

// ---- places ----

// How many of the drawn entries stand before an entry.
function placeOf(visible, at) {
  let from = 0, to = visible.length;
  while (from < to) {
    const middle = (from + to) >> 1;
    if (visible[middle] < at) from = middle + 1; else to = middle;
  }
  return from;
}

const between = (least, number, most) => Math.max(least, Math.min(most, number));
const thinLane = (sessions, width) => between(3, 0.4 * width / Math.max(1, sessions), sessions > 24 ? 11 : sessions > 8 ? 14 : 18);

// How many keys have room for their lanes.
function roomForKeys(run, visible, width) {
  const sessions = new Set(visible.map(at => run.entries[at].lane)).size, lanes = 1 + nodesOf(run.script).length;
  return Math.max(2, Math.floor((width - TICKS - sessions * thinLane(sessions, width) - TEXTS_LEAST) / (lanes * HALF_LEAST + GAP)));
}

// The lanes of those who act in the drawn entries, or are killed there: of sessions, of a node's fences, and null for the schedule.
function actingIn(run, visible) {
  const acting = new Set();
  for (const at of visible) {
    const entry = run.entries[at];
    acting.add(entry.lane);
    if (entry.verb === 'kill') acting.add(entry.words[1]);
  }
  return acting;
}

// Those who act, in the order of their lanes: the schedule, then the sessions, of each node with its fences behind them.
function inOrderOfLanes(run, acting) {
  const at = number => [...run.script.sessions.filter(name => nodeOfSession(run.script, name) === number), ...(number ? [nodeName(number)] : [])];
  return [null, ...nodesOf(run.script).flatMap(at)].filter(lane => acting.has(lane));
}

const laneFor = (part, head, segments, node = 0) => ({ part, head, segments, node, x: 0, width: 0 });

function groupOfKey(name, { isCached, caches, store, unsound }) {
  const lanes = [...caches].map(([number, cache]) => laneFor('region', number ? `cache ${number}` : 'in the cache', cache, number));
  if (!isCached) lanes.length = 0;
  lanes.push(laneFor('store', 'committed', store));
  return { name, kind: 'key', tables: [], unsound, lanes };
}

function groupOfQuery(name, { query, kept, gives }) {
  return { name, kind: 'query', tables: query.tables, unsound: [], lanes: [laneFor('results', 'kept', kept), laneFor('store', 'query gives', gives)] };
}

function groupOfTable(name, { stamps }) {
  return { name, kind: 'table', tables: [], unsound: [], lanes: [laneFor('stamps', 'stamp', stamps)] };
}

// What waits for each node for which ever something does.
function groupsOfQueues({ queues }) {
  const lanes = [...queues].filter(([, queue]) => isEverShown(queue)).map(([number, queue]) => laneFor('queue', nodeName(number), queue, number));
  return lanes.length ? [{ name: 'waits for', kind: 'queue', tables: [], unsound: [], lanes }] : [];
}

// The locks of whole regions that lines ever take.
function groupsOfWides({ wides }) {
  const taken = [...wides].filter(([, wide]) => isEverShown(wide));
  return taken.map(([name, wide]) => ({ name: wholeOf(name), kind: 'wide', tables: [], unsound: [], lanes: [laneFor('wide', 'the cache', wide)] }));
}

// The groups of lanes on the right: what a key has in the cache and committed, what a query keeps and gives, the stamps of its tables, what
// waits for nodes, and the locks of whole regions.
function groupsOf(run, names) {
  const groups = names.map(name => run.queries.has(name) ? groupOfQuery(name, run.queries.get(name)) : groupOfKey(name, run.keys.get(name)));
  const tables = new Set(groups.flatMap(group => group.tables));
  return [...groups, ...[...tables].map(name => groupOfTable(name, run.tables.get(name))), ...groupsOfQueues(run), ...groupsOfWides(run)];
}

// How wide the widest text of an entry is, with the session's name in front if it stands in a column of texts.
function widestText(run, visible, hasName) {
  return Math.max(0, ...visible.map(at => {
    const { lane } = run.entries[at], isBold = run.marks[at] === 'stale';
    return widthOfText(briefOf(run, at), isBold) + (hasName && lane ? widthOfText(lane, true) + 5 : 0);
  }));
}

// The widths of lanes with texts in them; null if there isn't room for that. Lanes of keys grow first, then all.
function wideWidths(room, sessions, lane, halves) {
  const spare = room - sessions * lane - halves * HALF;
  if (spare < 0) return null;
  const half = halves ? Math.min(190, HALF + Math.min(spare / halves, 30 + spare / (2 * halves))) : 0;
  return { lane: Math.min(300, (room - halves * half) / Math.max(1, sessions)), half };
}

// Places the lanes of sessions from a place on, those of a node apart from the next one's; answers where they end.
function placeSessions(layout, from, width) {
  let x = from, before = null;
  for (const session of layout.sessions) {
    const node = layout.nodeOf(session);
    if (before !== null && node !== before) x += GAP;
    before = node;
    const own = session === null && layout.isWide ? width * 0.6 : width;
    layout.laneOf.set(session, { x, width: own });
    x += own;
  }
  return x;
}

function placeGroups(groups, from, half) {
  let x = from;
  for (const group of groups) {
    x += GAP;
    group.x = x;
    for (const lane of group.lanes) {
      lane.x = x;
      lane.width = group.kind === 'table' ? STAMP : half;
      x += lane.width;
    }
    group.width = x - group.x;
  }
  return x;
}

// Where everything stands for a width: lanes that have room for their texts, or thin lanes and one column of texts.
function layoutOf(run, visible, names, width) {
  const acting = actingIn(run, visible), sessions = inOrderOfLanes(run, acting), nodes = nodesOf(run.script);
  const groups = groupsOf(run, names), stamps = groups.filter(group => group.kind === 'table').length;
  const halves = groups.reduce((sum, group) => sum + group.lanes.length, 0) - stamps, fixed = (groups.length + nodes.length - 1) * GAP + stamps * STAMP + 6;
  const shares = sessions.length - (acting.has(null) ? 0.4 : 0), textLane = between(120, 42 + widestText(run, visible, false), 230);
  const wide = wideWidths(width - TICKS - fixed, shares, textLane, halves), laneWidth = wide ? wide.lane : thinLane(sessions.length, width);
  const nodeOfLane = lane => nodes.find(number => nodeName(number) === lane) || nodeOfSession(run.script, lane);
  const layout = { isWide: Boolean(wide), laneWidth, sessions, nodeOf: nodeOfLane, laneOf: new Map(), groups, visible, textAt: 0, textWidth: 0 };
  let x = placeSessions(layout, TICKS, laneWidth), { half } = wide || { half: 0 };
  if (!wide) {
    const left = width - x - fixed, texts = between(190, 34 + widestText(run, visible, true), 400);
    half = between(HALF_LEAST, (left - texts) / Math.max(1, halves), 170);
    layout.textAt = x + 4;
    layout.textWidth = between(190, left - half * halves, 520);
    x = layout.textAt + layout.textWidth;
  }
  layout.width = Math.max(placeGroups(groups, x, half) + 4, width);
  for (const group of groups) group.form = group.kind === 'key' ? formOf(run, group) : null;
  layout.height = visible.length * ROW;
  layout.top = at => at === NEVER ? 0 : placeOf(visible, at) * ROW;
  layout.middle = at => layout.top(at) + ROW / 2;
  return layout;
}
