'use strict';
// What docs/JOURNAL.md says of an act and of a reply. `tools/page` cuts the rows of its tables out and puts them into the page, so each of
// these sentences has one home.

// What each letter of a form there stands for.
const LETTERS = {
  K: '\\S+ \\d+', C: '\\S+', V: 'v(?:\\d+|-)', vN: 'v\\d+', ROW: 'v(?:\\d+|-) .+', LIST: '\\[.*\\]', NAME: '\\S+', CELL: '.+', N: '\\d+', '..': '.*',
};
const PARTS_OF_FORMS = /^(?:- )?(region|store) /;

function patternOf(form) {
  const words = form.replace(/ \.\.$/, '').split(' ').map(word => LETTERS[word] || word);
  return new RegExp(`^${words.join(' ')}${form.endsWith(' ..') ? '.*' : ''}$`);
}

// A form is of an act, of a reply, or of both; it may say of what part. In a row of replies only the first one has the mark `= `.
function readForm(form, front) {
  const text = front + form.replace(/^`(?:= )?|`$/g, ''), part = PARTS_OF_FORMS.exec(text), [act, reply] = text.replace(PARTS_OF_FORMS, '').split(/^= | = /);
  return { part: part ? part[1] : '', act: act ? patternOf(act) : null, reply: reply ? patternOf(reply) : null };
}

// The rows of its tables, which `tools/page` has cut out: table, forms and meaning, with tabs between them.
function readMeanings(text) {
  return text.split('\n').filter(line => line !== '').map(line => {
    const [table, forms, meaning] = line.split('\t'), front = forms.startsWith('`= ') ? '= ' : '', read = forms.split(', ').map(form => readForm(form, front));
    return { table, forms, meaning, read, isAct: read.every(({ reply }) => !reply), isReply: read.every(({ act }) => !act) };
  });
}

const saysAct = (row, { part, act }) => row.read.some(form => form.act && form.act.test(act) && (!form.part || form.part === part));
const saysReply = (row, { reply }) => row.read.some(form => form.reply && form.reply.test(reply));
const isBoth = ({ part, act, reply }, entry) => act.test(entry.act) && reply.test(entry.reply) && (!part || part === entry.part);
const isOf = verb => row => row.isAct && row.forms.startsWith('`' + verb + ' ');

// The row of a reply, which is the first that fits below its act's.
function replyBelow(rows, at, entry) {
  const reply = at < 0 ? undefined : rows.slice(at).find(row => row.isReply && saysReply(row, entry)), as = reply && /^As for `(\S+)`\.$/.exec(reply.meaning);
  return as ? rows.slice(rows.findIndex(isOf(as[1]))).find(row => row.isReply && saysReply(row, entry)) : reply;
}

// The tables of a section's command, which come before those that all commands have.
const TABLES = { nodes: 'Two nodes', bulk: 'Bulk changes', collections: 'members' };

// The rows of an entry's act and of its reply. `section` is that of the script. What the table of its part doesn't say of the reply to a
// `get` or a `put` stands in that of `region`.
function meaningsOf(meanings, entry, section) {
  const own = meanings.filter(({ table }) => table === TABLES[section]), plain = meanings.filter(({ table }) => table === entry.part);
  const isItsAct = row => row.isAct && saysAct(row, entry), at = plain.findIndex(isItsAct);
  const act = isFence(entry) || entry.part === 'members' ? own.find(isItsAct) : undefined, region = meanings.filter(({ table }) => table === 'region');
  const reply = replyBelow(plain, at, entry) || (act && replyBelow(region, region.findIndex(isOf(entry.verb)), entry));
  const both = own.filter(row => row.read.some(form => form.act && form.reply && isBoth(form, entry)));
  return [...new Set([act || plain[at], reply, ...both])].filter(Boolean);
}
