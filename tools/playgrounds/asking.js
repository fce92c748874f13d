'use strict';
// Calls of the module, in a worker. A call that is stopped gets no answer: its worker ends, and the next call begins with a new one.

const element = id => document.getElementById(id);
const escaped = text => text.replace(/&/g, '&amp;').replace(/</g, '&lt;').replace(/"/g, '&quot;');

const bytesOf = text => Uint8Array.from(atob(text), letter => letter.charCodeAt(0));

const Calls = (() => {
  let worker = null, ready = null, last = 0;
  const waiting = new Map();

  function begin() {
    const source = element('hib').textContent + element('worker').textContent;
    worker = new Worker(URL.createObjectURL(new Blob([source], { type: 'text/javascript' })));
    ready = new Promise((resolve, reject) => {
      worker.onmessage = ({ data }) => {
        const one = data.id === undefined ? { resolve, reject } : waiting.get(data.id);
        waiting.delete(data.id);
        if (data.fault) one.reject(new Error(data.fault)); else one.resolve(data);
      };
      worker.onerror = ({ message }) => reject(new Error(message));
    });
    worker.postMessage({ bytes: bytesOf(element('module').textContent.trim()) });
  }

  // { status, text, line, ms, memory } of a call of the program, or of its tools; an error if it was stopped.
  async function ask(name, words, input) {
    if (!worker) begin();
    await ready;
    const id = ++last;
    return new Promise((resolve, reject) => {
      waiting.set(id, { resolve, reject });
      worker.postMessage({ id, name, words, input });
    });
  }

  function stop() {
    if (worker) worker.terminate();
    worker = ready = null;
    for (const { reject } of waiting.values()) reject(new Error('stopped'));
    waiting.clear();
  }

  return { program: (words, input) => ask('hib_call', words, input), tools: (words, input) => ask('hib_tool', words, input), stop };
})();

// ---- scripts

const SECTIONS = { collections: 'collect', bulk: 'bulk', nodes: 'nodes' };
const sectionOf = script => (/^(collections|bulk|nodes)$/m.exec(script) || [''])[0];
const withEnd = script => script === '' || script.endsWith('\n') ? script : script + '\n';

// The script with another strategy of each entity, and a capacity that fits it.
function withStrategy(script, strategy) {
  return script.replace(/^( *entity +\S+ +)\S+( +\S+ +)(\d+)/gm, (_, front, behind, capacity) => {
    const fitting = strategy === 'none' ? '0' : capacity === '0' ? '100' : capacity;
    return front + strategy + behind + fitting;
  });
}

// The first comment of a script, if nothing but the header stands above it: its lines up to an empty one, as one text.
function captionOf(script) {
  const said = [];
  for (const line of script.split('\n').map(one => one.trim())) {
    if (!said.length && (line === '' || line === 'hib 1')) continue;
    if (!line.startsWith('#')) break;
    const text = line.replace(/^#+ */, '');
    if (text === '' && said.length) break;
    if (text !== '') said.push(text);
  }
  const text = said.join(' ');
  return text.length > 600 ? text.slice(0, 600) + ' ..' : text;
}
