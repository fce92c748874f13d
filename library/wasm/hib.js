'use strict';
// The program as a WebAssembly module: words and an input go in, and a status, a text and a line come out. Each call gets a memory of its
// own, so nothing that a call has left behind reaches another. The module needs an engine with 64-bit memories.

const NO_ROOM = 5; // the status of a text that doesn't fit into its room
const LINE_ROOM = 256;
const FIRST_ROOM = 1 << 16, TEXT_PER_INPUT = 8; // the room of a first try
const WORD_BYTES = 8; // of a length

// Compiles a module once. The function that it answers makes a call: (name, words, input) => { status, text, line, ms, memory }. `name` is
// hib_call or hib_tool; the input is a text or bytes. A text that doesn't fit is made once more, unless the room is given.
async function openHib(bytes) {
  const module = await WebAssembly.compile(bytes), encoder = new TextEncoder(), decoder = new TextDecoder();
  const asBytes = text => typeof text === 'string' ? encoder.encode(text) : text;

  function once(name, words, input, room) {
    const { exports } = new WebAssembly.Instance(module, {}), { memory, hib_room: take } = exports;
    const seen = () => new Uint8Array(memory.buffer);
    const roomFor = size => {
      const at = take(BigInt(size));
      if (at === 0n) throw new Error('the browser gives no more memory');
      return at;
    };
    const put = given => {
      const at = roomFor(given.length);
      seen().set(given, Number(at));
      return [at, BigInt(given.length)];
    };
    const asked = put(words), read = put(input), lengths = put(new Uint8Array(2 * WORD_BYTES))[0];
    const line = put(new Uint8Array(LINE_ROOM)), out = roomFor(room);
    const status = exports[name](...asked, ...read, out, BigInt(room), lengths, ...line, lengths + BigInt(WORD_BYTES)) & 255;
    const told = new DataView(memory.buffer, Number(lengths), 2 * WORD_BYTES);
    const length = Number(told.getBigUint64(0, true)), lineLength = Number(told.getBigUint64(WORD_BYTES, true));
    const taken = (at, count) => seen().slice(Number(at), Number(at) + count);
    const text = taken(out, Math.min(length, room)), said = taken(line[0], Math.min(lineLength, LINE_ROOM));
    return { status, length, text, line: said, memory: memory.buffer.byteLength };
  }

  return (name, words, input, room) => {
    const began = performance.now(), asked = encoder.encode(words.join('\n')), read = asBytes(input);
    let answer = once(name, asked, read, room === undefined ? Math.max(FIRST_ROOM, TEXT_PER_INPUT * read.length) : room);
    if (answer.status === NO_ROOM && room === undefined) answer = once(name, asked, read, answer.length);
    const { status, length, memory } = answer;
    return { status, length, memory, text: decoder.decode(answer.text), line: decoder.decode(answer.line), ms: performance.now() - began };
  };
}

if (typeof module !== 'undefined') module.exports = { openHib };
