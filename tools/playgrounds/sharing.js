'use strict';
// Links that hold the script behind their #, and files to be kept. Nothing is sent anywhere.

const LETTERS = { '+': '-', '/': '_', '=': '' };
const asLink = bytes => btoa(Array.from(bytes, byte => String.fromCharCode(byte)).join('')).replace(/[+/=]/g, mark => LETTERS[mark]);
const ofLink = text => bytesOf(text.replace(/-/g, '+').replace(/_/g, '/'));

// Bytes through a stream that packs or unpacks them.
async function through(stream, bytes) {
  return new Uint8Array(await new Response(new Blob([bytes]).stream().pipeThrough(stream)).arrayBuffer());
}

// The address of this page with the script: packed behind `#z=`, or as it is behind `#s=` where the browser packs nothing.
async function linkOf(script) {
  const bytes = new TextEncoder().encode(script), here = location.href.split('#')[0];
  if (typeof CompressionStream === 'undefined') return `${here}#s=${asLink(bytes)}`;
  return `${here}#z=${asLink(await through(new CompressionStream('deflate-raw'), bytes))}`;
}

// The script that an address holds; null if it holds none, or a broken one.
async function scriptIn(hash) {
  const [, form, text] = /^#([sz])=([\w-]+)$/.exec(hash) || [];
  if (!form) return null;
  try {
    const bytes = form === 's' ? ofLink(text) : await through(new DecompressionStream('deflate-raw'), ofLink(text));
    return new TextDecoder().decode(bytes);
  } catch (fault) {
    say(`the link holds no script: ${fault.message}`, true);
    return null;
  }
}

async function share() {
  const link = await linkOf(Editor.text());
  history.replaceState(null, '', link);
  const isCopied = navigator.clipboard ? await navigator.clipboard.writeText(link).then(() => true, () => false) : false;
  say(isCopied ? 'the link is copied; the script is in it' : "the page's address holds the script now: copy it from there");
}

function keep(name, type, text) {
  const link = document.createElement('a');
  link.href = URL.createObjectURL(new Blob([text], { type }));
  link.download = name;
  link.click();
  setTimeout(() => URL.revokeObjectURL(link.href), 10000);
}

const KEEPS = {
  script: () => keep(`${state.name}.hib`, 'text/plain', Editor.text()),
  journal: () => {
    if (state.journal) keep(`${state.name}.jsonl`, 'application/x-ndjson', state.journal);
    else say('a script with a section has no journal of its own', true);
  },
  page: () => keep(`${state.name}.html`, 'text/html', state.drawn),
};
