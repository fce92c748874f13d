'use strict';
// The picture, as texts of SVG and HTML. Colours are those of style.css.

const escaped = text => String(text).replace(/&/g, '&amp;').replace(/</g, '&lt;').replace(/"/g, '&quot;');
const pixels = number => Math.round(number * 10) / 10;
const stroke = (colour, width, more = '') => `stroke="var(--${colour})" stroke-width="${width}"${more}`;
const lineTo = (x1, y1, x2, y2, style) => `<line x1="${pixels(x1)}" y1="${pixels(y1)}" x2="${pixels(x2)}" y2="${pixels(y2)}" ${style}/>`;
const crossAt = (x, y, colour) => `<path d="M${pixels(x - 4)} ${pixels(y - 4)}l8 8m0 -8l-8 8" ${stroke(colour, 2)}/>`;
const headTo = (x, y, direction, style) => `<path d="M${pixels(x)} ${y}l${7 * direction} -4v8z" ${style}/>`;

// A sentence as HTML, and as a plain text.
const PLACES = /\u0001(-?\d+)\u0002/g;
function linkTo(run, at, front = '') {
  const { tick } = at === NEVER ? {} : run.entries[at];
  return at === NEVER ? 'the start' : `<a href="#${tick}" data-at="${at}" aria-label="tick ${tick}">${front}${tick}</a>`;
}
const codeHtml = text => `<code>${text.length <= 20 ? escaped(text).replace(/ /g, '&nbsp;') : escaped(text)}</code>`;
const sentence = (run, text) => text.split(/(`[^`]*`)/).map(part => part[0] === '`' ? codeHtml(part.slice(1, -1)) : escaped(part)).join('')
  .replace(/\*\*([^*]*)\*\*/g, '<b class="bad">$1</b>').replace(PLACES, (all, at) => linkTo(run, Number(at), 'tick&nbsp;'));
const plain = (run, text) => text.replace(PLACES, (all, at) => Number(at) === NEVER ? 'the start' : 'tick ' + run.entries[at].tick).replace(/`|\*\*/g, '');

// ---- what is where ----

// Where the mark of an entry stands in a session's lane, and where lines to the lanes of keys begin.
const markX = (layout, lane) => layout.isWide ? lane.x + 10 : lane.x + lane.width / 2;
const sideX = (layout, lane) => layout.isWide ? lane.x + lane.width - 3 : markX(layout, lane);

const firstOf = layout => layout.visible[0];
const lastOf = layout => layout.visible[layout.visible.length - 1];

// From where to where something is drawn that goes on from an entry to another; null if it isn't among the drawn entries.
function spanOf(layout, { from, to }) {
  const end = to === null ? lastOf(layout) : Math.min(to, lastOf(layout));
  return from > lastOf(layout) || end < firstOf(layout) ? null : { from: Math.max(from, firstOf(layout)), to: end };
}

const isVisible = (layout, at) => placeOf(layout.visible, at + 1) > placeOf(layout.visible, at);

// ---- sessions ----

const OUTCOMES = { committed: 'green', 'rolled-back': 'soft', stale: 'amber', duplicate: 'amber', fault: 'amber', '': 'soft' };

// A transaction, as a box in the colour of its outcome, or as a line in a thin lane.
function drawTransaction(layout, transaction) {
  const lane = layout.laneOf.get(transaction.session), span = spanOf(layout, transaction);
  if (!lane || !span) return '';
  const isKilled = transaction.outcome.startsWith('killed'), colour = isKilled ? 'red' : OUTCOMES[transaction.outcome], x = markX(layout, lane);
  const top = layout.top(span.from) + 2, bottom = layout.top(span.to) + (isVisible(layout, span.to) ? ROW - 2 : 0);
  const dashes = isKilled || transaction.to === null ? ' stroke-dasharray="4 3"' : '', cross = isKilled ? crossAt(x, bottom - 2, 'red') : '';
  if (!layout.isWide) return lineTo(x, top, x, bottom, stroke(colour, layout.laneWidth < 9 ? 1 : 3, dashes)) + cross;
  const size = `width="${pixels(lane.width - 5)}" height="${Math.max(4, bottom - top)}"`;
  return `<rect x="${pixels(lane.x + 2)}" y="${top}" ${size} rx="4" fill="none" ${stroke(colour, 1, dashes)}/>` +
    lineTo(lane.x + 2, top + 3, lane.x + 2, bottom - 3, stroke(colour, 3)) + cross;
}

// A lock that a session holds, as a bar at the side of its lane; it ends with the session's transaction, though the lock may stay.
function drawLock(run, layout, lock) {
  const lane = layout.laneOf.get(lock.lane);
  if (!lane || !layout.isWide) return '';
  const transaction = run.transactions.find(one => one.session === lock.lane && isWithin(lock.from, one));
  const ends = [lock.to, transaction ? transaction.to : null].filter(at => at !== null);
  const span = spanOf(layout, { from: lock.from, to: ends.length ? Math.min(...ends) : null });
  if (!span) return '';
  const x = lane.x + lane.width - 8;
  return lineTo(x, layout.middle(span.from), x, layout.middle(span.to), stroke('amber', 4, ' stroke-dasharray="4 2"'));
}

function drawBoxes(run, layout) {
  return run.transactions.map(one => drawTransaction(layout, one)).join('') + run.locks.map(one => drawLock(run, layout, one)).join('');
}

const MARKS = {
  region: (x, y) => `<circle cx="${x}" cy="${y}" r="4"/>`,
  store: (x, y) => `<rect x="${x - 3.5}" y="${y - 3.5}" width="7" height="7"/>`,
  own: (x, y) => `<circle cx="${x}" cy="${y}" r="3" fill="var(--bg)" stroke="currentColor"/>`,
  registry: (x, y) => `<path d="M${x - 4} ${y}h8" stroke="currentColor" stroke-width="2"/>`,
  stamps: (x, y) => `<path d="M${x} ${y - 4.5}l4.5 4.5l-4.5 4.5l-4.5 -4.5z" fill="var(--bg)" stroke="currentColor"/>`,
  results: (x, y) => `<path d="M${x} ${y - 4}l4.5 8h-9z"/>`,
};
const FENCE = (x, y) => `<path d="M${x - 4} ${y - 5}v10m4 -10v10m4 -10v10M${x - 6} ${y}h12" fill="none" stroke="currentColor"/>`;
const COLOURS = { stale: 'red', fence: 'amber', refused: 'amber', warn: 'amber', oldcopy: 'amber', hit: 'blue', commit: 'green' };

function drawMarks(run, layout) {
  return layout.visible.map(at => {
    const { part, lane } = run.entries[at], mark = run.marks[at], colour = `var(--${COLOURS[mark] || 'soft'})`;
    const x = pixels(markX(layout, layout.laneOf.get(lane))), draw = mark === 'fence' ? FENCE : MARKS[part === 'members' ? 'region' : part];
    return `<g fill="${colour}" style="color:${colour}">${draw(x, layout.middle(at))}</g>`;
  }).join('');
}

// The text of an entry, in its lane or in a column of texts with the session's name in front.
function drawText(run, layout, at, isPicked) {
  const entry = run.entries[at], mark = run.marks[at], lane = layout.laneOf.get(entry.lane);
  const [x, width] = layout.isWide ? [lane.x + 18, lane.width - 26] : [layout.textAt, layout.textWidth];
  const name = layout.isWide || !entry.lane ? '' : `<b>${escaped(entry.lane)}</b>`, isQuiet = ['begin', 'end'].includes(entry.verb);
  const kinds = ['text', mark, isQuiet ? 'quiet' : '', isPicked ? 'pick' : ''].filter(Boolean).join(' ');
  const place = `left:${pixels(x)}px;top:${layout.top(at) + 2}px;max-width:${pixels(width)}px`;
  return `<div class="${kinds}" style="${place}"><i>${name}${escaped(briefOf(run, at))}</i></div>`;
}

const drawTexts = (run, layout, picked) => layout.visible.map(at => drawText(run, layout, at, at === picked)).join('');

// ---- between a session's lane and those of keys ----

const ASKS = ['get', 'load', 'look', 'list'];

// The lanes of a part in the groups that pass a test.
function lanesOfPart(layout, part, passes) {
  return layout.groups.filter(passes).flatMap(group => group.lanes.filter(lane => lane.part === part).map(lane => ({ group, lane })));
}

// The lanes to which an entry goes.
function targetsOfEntry(run, layout, entry, at) {
  if (entry.part === 'own' || ['check', 'insert', 'update', 'delete'].includes(entry.verb)) return [];
  if (entry.part === 'stamps') return lanesOfPart(layout, 'stamps', ({ kind, name }) => kind === 'table' && entry.words.includes(name));
  if (WIDE.includes(entry.verb)) return lanesOfPart(layout, 'wide', ({ name }) => name === wholeOf(entry.entity));
  if (isCommit(entry)) {
    const changed = lanesOfPart(layout, 'store', ({ kind }) => kind === 'key');
    return changed.filter(({ lane }) => lane.segments.some(({ from }) => from === at));
  }
  const part = isOfCache(entry) ? 'region' : entry.part, asked = entry.key || ownerOf(run.script, entry) || entry.query;
  const lanes = lanesOfPart(layout, part, ({ kind, name }) => kind !== 'table' && name === asked);
  return lanes.filter(({ lane }) => part !== 'region' || lane.node === entry.node);
}

// Whether an entry's line to a group is a step of the story.
function isStep(story, group, at) {
  return Boolean(story) && story.steps.some(step => step.at === at) && (!story.key || group.name === story.key);
}

// Where the head of an arrow to a session stands: at its lane, or beside the texts that stand between.
const headX = (layout, lane) => layout.isWide ? sideX(layout, lane) : layout.textAt + layout.textWidth - 2;

// A line from a session to a lane, with a head to where something goes: a row, or a cross if it is refused. Steps of the story are strong.
function drawArrow(run, layout, at, to, isHot) {
  const entry = run.entries[at], lane = layout.laneOf.get(entry.lane), y = layout.middle(at);
  const colour = isHot ? (isCommit(entry) ? 'green' : 'red') : 'soft', fill = `fill="var(--${colour})"${isHot ? '' : ' opacity="0.6"'}`;
  const isMiss = /^miss|^absent|^none/.test(entry.reply), isRefused = run.marks[at] === 'refused' || /^(stale|duplicate)/.test(entry.reply);
  const dashes = isMiss || isRefused ? ' stroke-dasharray="2 3"' : '';
  const line = lineTo(sideX(layout, lane), y, to, y, stroke(colour, isHot ? 2 : 1, dashes + (isHot ? '' : ' opacity="0.45"')));
  if (isRefused) return line + crossAt(to - 4, y, 'amber');
  if (!ASKS.includes(entry.verb)) return line + headTo(to, y, -1, fill);
  return isMiss ? line : line + headTo(headX(layout, lane), y, 1, fill);
}

// What entries ask and get, or give.
function drawAcross(run, layout, story) {
  const arrow = at => ({ group, lane }) => drawArrow(run, layout, at, lane.x + 1, isStep(story, group, at));
  const arrowsOf = at => targetsOfEntry(run, layout, run.entries[at], at).map(arrow(at));
  return layout.visible.flatMap(arrowsOf).join('');
}

// The lane in which what a read got has lain.
function laneOfRead(layout, read) {
  const group = read && read.keptAt !== NEVER ? layout.groups.find(one => one.name === (read.key || read.query)) : null;
  return group ? group.lanes.find(lane => !read.key || lane.node === read.node) : null;
}

// The way of what a story's read got: down the lane of whoever loaded it, and down the cache to whoever read it.
function drawWay(run, layout, story) {
  const read = story && run.reads.find(({ to }) => to === story.at), lane = laneOfRead(layout, read);
  if (!lane) return '';
  const x = lane.x + 1, [loader, reader] = [read.keptAt, read.to].map(at => layout.laneOf.get(run.entries[at].lane));
  const kept = layout.middle(read.keptAt), y = layout.middle(read.to), parts = [lineTo(x, kept, x, y, stroke('red', 4))];
  if (loader && read.loadedAt !== NEVER) {
    const loaderX = markX(layout, loader);
    parts.push(lineTo(loaderX, layout.middle(read.loadedAt), loaderX, kept, stroke('red', 2.5, ' stroke-dasharray="5 3"')));
  }
  if (story.query && reader) parts.push(lineTo(sideX(layout, reader), y, x, y, stroke('red', 2)), headTo(headX(layout, reader), y, 1, 'fill="var(--red)"'));
  return parts.join('');
}

// The way of what a picked read got, if it is no story's.
function drawPicked(run, layout, picked, story) {
  const read = story && story.at === picked ? null : run.reads.find(({ to }) => to === picked), lane = laneOfRead(layout, read);
  if (!lane || !isVisible(layout, picked)) return '';
  const x = lane.x + 1, side = at => { const own = layout.laneOf.get(run.entries[at].lane); return own ? sideX(layout, own) : x; };
  const across = at => lineTo(side(at), layout.middle(at), x, layout.middle(at), stroke('blue', 2));
  return across(read.keptAt) + lineTo(x, layout.middle(read.keptAt), x, layout.middle(picked), stroke('blue', 4)) + across(picked);
}

// ---- lanes of keys ----

const REPEAT = 30 * ROW; // how far apart a long segment says its text again

// The class of a segment, and what stands before its text. Rows of the store come in two shades by turns.
function lookOf(segment, isOdd) {
  if (segment.kind === 'row') return { kind: isOdd ? 'row1' : 'row2', front: '' };
  if (segment.kind === 'item' && segment.isStale) return segment.isServed ? { kind: 'old', front: '<b>OLD</b> ' } : { kind: 'old unread', front: 'old: ' };
  return { kind: segment.kind + (segment.isOver ? ' out' : ''), front: '' };
}

const boxAt = (x, y, width, height) => `left:${pixels(x)}px;top:${pixels(y)}px;width:${pixels(width)}px;height:${pixels(height)}px`;

function drawSegment(lane, { kind, front }, text, top, height) {
  if (kind === 'none') return `<div class="segment none" style="${boxAt(lane.x + lane.width / 2, top, 2, height)}"></div>`;
  const times = Math.max(1, Math.ceil((height - 15) / REPEAT));
  const texts = Array.from({ length: times }, (none, n) => `<span style="top:${1 + n * REPEAT}px">${front}${escaped(text)}</span>`).join('');
  return `<div class="segment ${kind}" style="${boxAt(lane.x + 2, top, lane.width - 4, height)}">${texts}</div>`;
}

function drawLane(layout, group, lane) {
  let rows = 0;
  return lane.segments.map(segment => {
    if (segment.kind === 'row') rows++;
    if (!spanOf(layout, segment)) return '';
    const top = segment.from < firstOf(layout) ? 0 : layout.middle(segment.from);
    const bottom = segment.to === null || segment.to > lastOf(layout) ? layout.height : layout.middle(segment.to);
    return bottom - top < 2 ? '' : drawSegment(lane, lookOf(segment, rows % 2 === 1), boxText(group, segment), top, bottom - top);
  }).join('');
}

// From where on a key is unsound, as a dotted line at the side of its lanes with a flag.
function drawUnsound(layout, group, unsound) {
  const own = group.lanes.find(({ node }) => unsound.node && node === unsound.node) || group;
  const span = spanOf(layout, unsound), x = pixels(own.x + own.width);
  if (!span) return '';
  const top = layout.middle(span.from), bottom = unsound.to === null ? layout.height : layout.middle(unsound.to);
  return `<div class="unsound" style="left:${x}px;top:${top}px;height:${Math.max(2, bottom - top)}px"></div>` +
    `<div class="flag" style="right:calc(100% - ${x + 3}px);top:${top - 12}px">unsound</div>`;
}

function drawKeys(layout) {
  const drawGroup = group => [...group.lanes.map(lane => drawLane(layout, group, lane)), ...group.unsound.map(one => drawUnsound(layout, group, one))];
  return layout.groups.flatMap(drawGroup).join('');
}

// ---- rows and heads ----

// The lines of entries: what is clicked, hovered, and read out.
function drawRows(run, layout, story, picked) {
  const numbers = new Map(story ? story.steps.map(({ at }, n) => [at, n + 1]) : []);
  return layout.visible.map((at, n) => {
    const entry = run.entries[at], isGap = n > 0 && layout.visible[n - 1] !== at - 1, line = lineOf(entry), said = plain(run, run.said[at]);
    const number = numbers.has(at) ? `<span class="number">${numbers.get(at)}</span>` : '';
    const kinds = ['row', isGap ? 'gap' : '', at === picked ? 'pick' : ''].filter(Boolean).join(' ');
    const place = `top:${n * ROW}px;width:${pixels(layout.width)}px`;
    return `<div class="${kinds}" id="e${at}" data-at="${at}" style="${place}" role="option" aria-selected="${at === picked}" ` +
      `title="${escaped(`${line}\n${said}`)}" aria-label="${escaped(`${entry.tick}: ${said || line}`)}">${number}<span class="tick">${entry.tick}</span></div>`;
  }).join('');
}

// A name above a lane; one that can be filtered by is a button.
function drawName(kind, name, place, canFilter, title) {
  const text = escaped(name);
  if (!canFilter) return `<div class="${kind}" style="${place}" title="${title}">${text}</div>`;
  return `<button class="${kind}" style="${place}" data-name="${text}" title="${text}: ${title}">${text}</button>`;
}

function drawSessionHead(layout, session, height) {
  const { x, width } = layout.laneOf.get(session), node = layout.nodeOf(session), isFences = node > 0 && session === nodeName(node);
  const isOrder = session === null || isFences, name = session === null ? 'schedule' : isFences ? 'fences' : session;
  const title = isFences ? `fences at ${session}` : isOrder ? 'orders of the schedule' : 'show only this session';
  const place = `left:${pixels(x + 6)}px;width:${pixels(width - 10)}px;top:${height - 22}px`, front = node ? 20 : 0;
  if (layout.isWide) return drawName('lane', name, place, !isOrder, title);
  if (layout.laneWidth < 9) return '';
  const upright = `left:${pixels(x + width / 2 - 8)}px;height:${height - 6 - front}px;top:${2 + front}px`;
  return drawName('lane up', session === null ? '-' : name, upright, !isOrder, title);
}

// The name of a node above the lanes of its sessions, with a line below it.
function drawNodeHead(layout, number) {
  const lanes = layout.sessions.filter(lane => layout.nodeOf(lane) === number).map(lane => layout.laneOf.get(lane));
  if (!number || !lanes.length) return '';
  const from = lanes[0].x, to = lanes[lanes.length - 1].x + lanes[lanes.length - 1].width;
  const name = to - from < 50 ? String(number) : nodeName(number);
  return `<div class="key" style="left:${pixels(from)}px;width:${pixels(to - from)}px;top:0" title="${nodeName(number)}">${name}</div>`;
}

const TITLES = {
  key: 'show only what touches it', query: 'show only what touches it', table: 'the stamp of this table',
  wide: 'the lock of the whole region, which bulk lines take',
  queue: 'keys that another node has changed, of which the node is to be told',
};

function drawGroupHead(group, height) {
  const isName = ['key', 'query'].includes(group.kind), place = `left:${pixels(group.x)}px;width:${pixels(group.width)}px;top:${height - 40}px`;
  const heads = group.lanes.map(lane => {
    const text = lane.width < 90 ? lane.head.replace(/^(query|in the) /, '') : lane.head;
    return `<div class="sub" style="left:${pixels(lane.x)}px;width:${pixels(lane.width)}px;top:${height - 19}px">${text}</div>`;
  });
  return drawName('key', group.name, place, isName, TITLES[group.kind]) + heads.join('');
}

// The names above the lanes, and how high they stand.
function drawHead(layout) {
  const longest = Math.max(3, ...layout.sessions.map(session => session === null ? 1 : session.length));
  const nodes = [...new Set(layout.sessions.map(layout.nodeOf))];
  const least = nodes.some(Boolean) ? 60 : 40, height = layout.isWide || layout.laneWidth < 9 ? least : between(least, least - 32 + 7 * longest, least + 50);
  const names = [
    ...nodes.map(number => drawNodeHead(layout, number)), ...layout.sessions.map(session => drawSessionHead(layout, session, height)),
    ...layout.groups.map(group => drawGroupHead(group, height)),
  ];
  return { height, html: `<div class="sub" style="left:4px;top:${height - 20}px">tick</div>${names.join('')}` };
}
