'use strict';
// Runs the playground without a browser: its scripts, over a few lines that stand in for a document and for a worker. How the page looks
// isn't tried.
//
//   node --experimental-wasm-memory64 page.cjs PLAYGROUND.html REPOSITORY
const fs = require('fs'), path = require('path'), vm = require('vm');

const [, , file, top] = process.argv, html = fs.readFileSync(file, 'utf8'), failures = [];
const expect = (holds, what) => { if (!holds) failures.push(what); };
const plain = text => text.replace(/&lt;/g, '<').replace(/&quot;/g, '"').replace(/&amp;/g, '&');

// ---- what stands in for a document

class Element {
  constructor(text) {
    Object.assign(this, { textContent: text, innerHTML: '', value: '', disabled: false, className: '', dataset: {}, style: {}, scrollTop: 0, scrollHeight: 1, listeners: {} });
  }

  addEventListener(name, work) { this.listeners[name] = work; }

  focus() {}

  click() { if (this.onclick) this.onclick({ target: this }); }

  setSelectionRange(from, to) { this.picked = this.value.slice(from, to); }
}

const elements = new Map();
for (const [, tag, id, text] of html.matchAll(/<(\w+)[^>]* id="([\w-]+)"[^>]*>([^]*?)<\/\1>/g)) elements.set(id, new Element(tag === 'script' ? text : plain(text).replace(/^\n/, '')));
for (const [, id] of html.matchAll(/ id="([\w-]+)"/g)) if (!elements.has(id)) elements.set(id, new Element(''));
const keys = [];
const document = {
  getElementById: id => elements.get(id) || null,
  querySelector: query => {
    const [, name] = /data-example="(.*)"\]$/.exec(query), [, text] = new RegExp(`<pre data-example="${name}" hidden>\n([^]*?)</pre>`).exec(html);
    return new Element(plain(text));
  },
  addEventListener: (name, work) => keys.push(work),
  createElement: () => new Element(''),
};

// ---- what stands in for a worker

const sources = new Map();
let workers = 0;

class Worker {
  constructor(url) {
    workers++;
    this.isOver = false;
    const inside = { WebAssembly, TextEncoder, TextDecoder, performance, BigInt, Number, Uint8Array, DataView, Error, Math, String };
    inside.postMessage = data => setImmediate(() => { if (!this.isOver) this.onmessage({ data }); });
    this.inside = vm.createContext(inside);
    vm.runInContext(sources.get(url), this.inside);
  }

  postMessage(data) { setImmediate(() => { if (!this.isOver) this.inside.onmessage({ data }); }); }

  terminate() { this.isOver = true; }
}

class Blob {
  constructor(parts) { this.text = parts.join(''); }
}

const kept = [];
const window = vm.createContext({
  document, Worker, Blob, TextEncoder, TextDecoder, performance, atob, btoa, setInterval, clearInterval, setTimeout, console,
  URL: { createObjectURL: blob => { const url = `blob:${sources.size}`; sources.set(url, blob.text); kept.push(blob.text); return url; }, revokeObjectURL: () => {} },
  CSS: { escape: text => text }, location: { hash: '', href: 'file:///playground.html' }, history: { replaceState: (_, __, link) => { window.link = link; } }, navigator: {},
});

const get = id => elements.get(id), said = () => get('said').textContent;
const until = async test => { for (let i = 0; i < 6000 && !test(); i++) await new Promise(resolve => setTimeout(resolve, 10)); };
const isDone = () => !get('play').disabled;

async function click(id) {
  get(id).click();
  await until(isDone);
}

async function press(event) {
  for (const key of keys) key({ ctrlKey: false, metaKey: false, shiftKey: false, preventDefault() {}, ...event });
  await until(isDone);
}

const partOf = (name, text = get('frame').srcdoc) => plain(new RegExp(`<pre id="${name}"[^>]*>\n([^]*?)</pre>`).exec(text)[1]);
const read = name => fs.readFileSync(path.join(top, name), 'utf8');

async function steps() {
  Object.assign(get('examples'), { value: 'stale' });
  get('switches').value = '1';
  for (const [, text] of html.matchAll(/<script>\n([^]*?)<\/script>/g)) if (!text.startsWith('<') && !get('page').textContent.includes(`<script>\n${text}`)) vm.runInContext(text, window);
  await until(() => /entries/.test(said()));
  expect(/^22 entries, /.test(said()), `opened: ${said()}`);
  expect(partOf('report0') === read('examples/stale.report'), 'the report of the frame');
  expect(partOf('states0') === read('tools/expected/stale.states'), 'the states of the frame');
  expect(get('frame').srcdoc.includes('no theorem is claimed of it') && !/definitions of the journal, which is proved/.test(get('frame').srcdoc), 'the account of the frame');
  await click('search');
  expect(/^within 1 switches: 124 orders/.test(said()), `orders: ${said()}`);
  expect(get('found').innerHTML.includes('2 &times; stale-hit'), `found: ${get('found').innerHTML}`);
  get('found').onclick({ target: { closest: () => ({ dataset: { finding: '1' } }) } });
  await until(isDone);
  expect(/schedule\nrun later 3\nrun writer 12\n/.test(get('script').value) && get('script').value.startsWith('#'), 'the script of a finding');
  get('beside').value = 'read-write';
  await click('play');
  expect(/^22 entries and \d+ entries, /.test(said()), `two strategies: ${said()}`);
  expect(/entity Book read-write versioned 10\n/.test(partOf('script1')), 'the script of the other strategy');
  await click('keep-script');
  expect(kept.pop() === get('script').value, 'the script that is kept');
  get('beside').value = '';
  get('script').value += 'nonsense\n';
  get('script').listeners.input();
  await press({ key: 'Enter', ctrlKey: true });
  const lines = get('script').value.split('\n').length - 1;
  expect(said() === `hib: line ${lines}: line` && get('script').picked === 'nonsense', `refused: ${said()}, ${get('script').picked}`);
  expect(get('problems').innerHTML.includes('begins no line'), `explained: ${get('problems').innerHTML}`);
  expect(get('numbers').innerHTML.includes(`<b>${lines}</b>`), 'the mark of the line');
  get('switches').value = '4';
  get('script').value = read('examples/stale.hib');
  await click('link');
  await until(() => window.link);
  window.shared = '';
  vm.runInContext('scriptIn(link.replace(/.*#/, "#")).then(script => { shared = script; })', window);
  await until(() => window.shared);
  expect(window.shared === read('examples/stale.hib'), `the script of a link: ${String(window.link).slice(0, 60)}`);
  get('search').click();
  await until(() => /^within 1/.test(said()));
  const before = workers;
  await press({ key: 'Escape' });
  expect(said() === 'stopped', `stopped: ${said()}`);
  await click('play');
  expect(workers === before + 1 && /^22 entries/.test(said()), 'a play after a stop');
  for (const [example, shown] of [['sections/sale', 'journal'], ['sections/twins', 'journal'], ['sections/moved', 'journal']]) {
    get('examples').onchange({ target: { value: example } });
    await until(() => isDone() && get('report').textContent === read(`examples/${example}.report`));
    expect(get('report').textContent.startsWith(shown), example);
  }
}

steps().catch(fault => failures.push(fault.stack)).finally(() => {
  for (const what of failures) console.log(`page: ${what}`);
  process.exit(failures.length ? 1 : 0);
});
