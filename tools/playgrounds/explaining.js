'use strict';
// What is wrong with a refused script: what tools/why says, by the same rules, which aren't proved. The program alone says which line is
// refused, and by which word.

const Whys = (() => {
  const asLetters = text => Array.from(new TextEncoder().encode(text), byte => String.fromCharCode(byte)).join('');
  const asText = letters => new TextDecoder().decode(Uint8Array.from(letters, letter => letter.charCodeAt(0)));
  let rules = null;

  // The rows of the tables of refusals in docs/SCRIPT.md: the table, the words, the meaning.
  const rows = () => element('refusals').textContent.trim().split('\n').map(row => row.split('\t'));

  // The meaning of a word in the script's own table, or of a line of a section in that section's; the table of bulk holds of nodes, too.
  function meaningOf(word, line, script) {
    const section = sectionOf(script), begins = script.split('\n').indexOf(section) + 1;
    const isOwn = section !== '' && (line >= begins || ['order', 'strategy', 'cached'].includes(word));
    const own = isOwn ? [section, section === 'nodes' ? 'bulk' : ''] : [], all = rows();
    for (const table of [...own, 'script', 'collections', 'bulk', 'nodes']) {
      const row = all.find(([name, words]) => name === table && words.includes('`' + word + '`'));
      if (row) return row[2];
    }
    return '';
  }

  // Of a line that the program says of a script: each bad line, the refused one first, as { line, column, size, word, text }.
  function explain(script, said) {
    const found = /^hib: line (\d+): ([a-z-]+)/.exec(said);
    if (!found) return [];
    const line = Number(found[1]), word = found[2], bytes = asLetters(script);
    rules = rules || Awk.compile(asLetters(element('whys').textContent));
    const told = meaningOf(word, line, script);
    const brief = asText(rules(bytes, { line, said: word, only: 'brief', told: asLetters(told), file: '' }));
    const { at, size } = placeIn(rules(bytes, { line, said: word }));
    return brief.trim().split('\n').map(one => /^:(\d+):(\d+): ([a-z-]+): (.*)$/s.exec(one)).filter(Boolean).map(([, n, column, which, text], k) => {
      return { line: Number(n), column: k === 0 && at ? at : Number(column), size: k === 0 ? size : 1, word: which, text };
    });
  }

  // The part of the refused line that is wrong.
  function placeIn(help) {
    const [, at, size] = /^at (\d+) (\d+)/.exec(help) || [0, 0, 0];
    return { at: Number(at), size: Number(size) };
  }

  return { explain };
})();
