'use strict';
// Searches the orders of the script's sessions: with no switch, with one, and so on, so that what was found shows before all is done.

const FINDING = /^([1-5]) (stale-hit|old-list|lost-update|unsound-key|refused-commit) (\d+)/;

const findingsIn = text => text.split('\n').map(line => FINDING.exec(line)).filter(one => one && one[3] !== '0')
  .map(([, number, name, count]) => ({ number, name, count }));

// The words that search up to so many switches.
const wordsTo = switches => ['orders', '--switches', String(switches)];

function drawFound(script, switches, text) {
  const found = findingsIn(text);
  element('found').innerHTML = found.map(({ number, name, count }) =>
    `<button data-finding="${number}">${count} &times; ${escaped(name)}: play one</button>`).join(' ');
  element('found').onclick = event => {
    const button = event.target.closest('[data-finding]');
    if (button) busy('showing an order', () => show(script, switches, button.dataset.finding));
  };
  element('orders').textContent = text;
  return found;
}

// Puts the script with the schedule of an order that has a finding into the place of the script, and plays it.
async function show(script, switches, number) {
  const shown = await Calls.tools([...wordsTo(switches), '--show', number], script);
  if (shown.status !== 0) { say(shown.line.trim() || 'there is no such finding', true); return; }
  const caption = script.split('\n').filter((line, n, all) => line.startsWith('#') && all.slice(0, n).every(one => /^(#.*|hib 1|)$/.test(one)));
  Editor.set([...caption, shown.text].join('\n'));
  await play();
}

async function search() {
  const script = Editor.text(), most = Number(element('switches').value), began = performance.now();
  let told = '';
  Editor.mark([]);
  element('found').textContent = element('orders').textContent = '';
  for (let switches = 0; switches <= most; switches++) {
    const clock = setInterval(() => say(`${told}within ${switches} switches: ${((performance.now() - began) / 1000).toFixed(0)} s`), 500);
    try {
      const tried = await Calls.tools(wordsTo(switches), script);
      if (tried.status > 1) { refuse(script, tried.line.trim()); return; }
      const found = drawFound(script, switches, tried.text), [, count] = /^orders (\d+)/.exec(tried.text);
      told = `within ${switches} switches: ${count} orders${found.length ? '' : ', nothing found'}. `;
      say(`${told}${((performance.now() - began) / 1000).toFixed(1)} s`);
    } finally {
      clearInterval(clock);
    }
  }
}
