'use strict';
// What a page says of its script: the caption, how the run is made again, and the script itself.

// Whether the entries come by the orders of the script's schedule, and then each session goes to its end, the first one first.
function isBySchedule({ script, entries }) {
  const left = new Map(script.sessions.map(name => [name, 0]));
  let at = 0;
  for (const { session } of entries) if (session !== null) left.set(session, left.get(session) + 1);
  const takes = (name, most) => {
    for (let n = 0; n < most && left.get(name) > 0; n++, at++) {
      if (at === entries.length || entries[at].session !== name) return false;
      left.set(name, left.get(name) - 1);
    }
    return true;
  };
  const isHere = words => at < entries.length && entries[at].session === null && words.every((word, n) => entries[at].words[n] === word);
  const isDone = words => {
    const [word, name, steps] = words;
    if (word === 'run') return takes(name, Number(steps));
    if (isHere(words)) at++; else if (word !== 'kill') return false; // a kill of one who isn't open leaves no entry
    return true;
  };
  const isOver = () => script.sessions.every(name => takes(name, Infinity)) && at === entries.length;
  return script.orders.every(isDone) && isOver();
}

// A name as a shell reads it.
const shellWord = name => /^[\w.+][\w.+-]*$/.test(name) ? name : `'${name.replace(/'/g, "'\\''")}'`;

const COMMANDS = { '': 'play', collections: 'collect', bulk: 'bulk', nodes: 'nodes' };

// How a run is made again, by whoever has the page alone.
function drawAgain(run, name) {
  const file = shellWord(name), command = `./hib ${COMMANDS[run.script.section]} < ${file}`;
  if (run.script.section || isBySchedule(run)) {
    return `To play it again, copy the script above into ${codeHtml(file)}: <code>${escaped(command)}</code>.`;
  }
  return `This run isn't that of the script's schedule, as of workers: <code>${escaped(`./hib tools schedule ${file} LINES`)}</code> ` +
    'makes the script that repeats it, of the script above and the JSON lines of the run.';
}

// What the caption says, and of a script that has none nothing.
const drawCaption = caption => caption ? `<p class="caption">${escaped(caption)}</p>` : '';

// How long a script is.
const lengthOf = text => count(text.split('\n').length - Number(text.endsWith('\n')), 'line');

// Hands a text out for other programs; a browser that doesn't let it go is asked to copy what is picked of the page. `done` is told
// whether it did.
function copyText(text, element, done) {
  const byPick = () => {
    getSelection().selectAllChildren(element);
    done(document.execCommand('copy'));
  };
  if (navigator.clipboard) navigator.clipboard.writeText(text).then(() => done(true), byPick); else byPick();
}
