'use strict';
// The page: what buttons and keys do.

const exampleOf = name => document.querySelector(`pre[data-example="${CSS.escape(name)}"]`).textContent;

function openScript(name, script) {
  state.name = name;
  Editor.set(script);
  element('found').textContent = element('orders').textContent = '';
  return busy('playing', play);
}

element('play').onclick = () => busy('playing', play);
element('search').onclick = () => busy('trying orders', search);
element('stop').onclick = Calls.stop;
element('beside').onchange = () => busy('playing', play);
element('link').onclick = share;
for (const [what, keepIt] of Object.entries(KEEPS)) element(`keep-${what}`).onclick = keepIt;
element('examples').onchange = ({ target: { value } }) => openScript(value.replace(/.*\//, ''), exampleOf(value));

document.addEventListener('keydown', event => {
  const isBusy = element('play').disabled;
  if (event.key === 'Escape' && isBusy) Calls.stop();
  if (event.key !== 'Enter' || !(event.ctrlKey || event.metaKey) || isBusy) return;
  event.preventDefault();
  if (event.shiftKey) busy('trying orders', search); else busy('playing', play);
});

setBusy(false);
scriptIn(location.hash).then(script => {
  const { value: first } = element('examples');
  return script === null ? openScript(first, exampleOf(first)) : openScript('shared', script);
});
