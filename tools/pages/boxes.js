'use strict';
// What stands for a row where there is little room for it: its version, and what tells the rows of its key in this run apart.

const BOX_EDGE = 13; // how much of a lane is no room for a box's text
const SMALL = 11 / 12; // a box's letters beside those that are measured
const LONG = 44; // letters of a text from which on a row in it is told shortly

// A row's version, if it has one, and some of its cells as texts.
const withVersion = ({ version }, cells) => [...(version === NO_VERSION ? [] : [version]), ...cells].join(' ');

// The forms of a row, the longest first. `places` are those of the cells that differ.
const FORMS = [
  briefRow,
  (row, places, columns) => withVersion(row, places.map(i => columns[i] ? `${columns[i].name} ${row.cells[i]}` : row.cells[i])),
  (row, places) => withVersion(row, places.map(i => row.cells[i])),
];

// The places of the cells in which some rows differ.
function placesApart(rows) {
  const least = rows.length ? Math.min(...rows.map(({ cells }) => cells.length)) : 0;
  const places = Array.from({ length: least }, (none, i) => i);
  return places.filter(i => rows.some(({ cells }) => cells[i] !== rows[0].cells[i]));
}

// The same of the rows that a key has in the store and in caches.
function placesOfKey({ store, caches }) {
  return placesApart([store, ...caches.values()].flat().map(({ row }) => row).filter(Boolean));
}

// ---- in boxes ----

// How wide a segment's text is in its box, with what stands before it.
function widthInBox({ isStale, isServed }, text) {
  const front = isStale ? widthOfText(isServed ? 'OLD ' : 'old: ', isServed) + 5 : 0;
  return SMALL * (front + widthOfText(text));
}

// The form in which each row of a key's lanes has room, or the shortest; if no cell differs, the whole row.
function formOf(run, { name, lanes }) {
  const { columns } = declared(run.script, entityOf(name)), { apart } = run.keys.get(name);
  const boxes = lanes.flatMap(lane => lane.segments.filter(({ row }) => row).map(segment => ({ segment, room: lane.width - BOX_EDGE })));
  const hasRoom = form => boxes.every(({ segment, room }) => widthInBox(segment, form(segment.row, apart, columns)) <= room);
  const form = apart.length ? FORMS.find(hasRoom) || FORMS[FORMS.length - 1] : FORMS[0];
  return row => form(row, apart, columns);
}

// The text of a segment in a group's lanes.
const boxText = (group, { row, text }) => row && group.form ? group.form(row) : text;

// ---- in the texts of entries ----

// The row that stands in the text of an entry, if one does.
function rowShown(entry) {
  const got = /^(?:hit|row) (v.*)$/.exec(entry.reply);
  if (got) return rowOf(tokensOf(got[1]));
  if (entry.verb === 'update') return rowIn(entry, 4);
  return ['insert', 'persist'].includes(entry.verb) ? rowIn(entry, 3) : null;
}

// A text of an entry; of a long one with what tells its row apart in the place of the whole row.
function withShortRow(run, entry, text) {
  const row = text.length > LONG && run.keys.has(entry.key) ? rowShown(entry) : null;
  if (!row || !run.keys.get(entry.key).apart.length) return text;
  const whole = briefRow(row), short = FORMS[1](row, run.keys.get(entry.key).apart, declared(run.script, entry.entity).columns);
  return short.length < whole.length ? text.replace(whole, () => short) : text;
}
