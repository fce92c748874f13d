'use strict';
// The script that is edited: its lines have numbers, and bad ones are marked.

const Editor = (() => {
  const area = element('script'), numbers = element('numbers');
  let bad = new Set();

  function drawNumbers() {
    const count = area.value.split('\n').length;
    numbers.innerHTML = Array.from({ length: count }, (_, n) => bad.has(n + 1) ? `<b>${n + 1}</b>` : n + 1).join('\n') + '\n';
    numbers.scrollTop = area.scrollTop;
  }

  // Picks a part of a line, and brings it into sight.
  function show({ line, column, size }) {
    const lines = area.value.split('\n'), from = lines.slice(0, line - 1).reduce((sum, one) => sum + one.length + 1, 0);
    const text = lines[line - 1] || '', at = from + Math.min(Math.max(column, 1) - 1, text.length);
    area.focus();
    area.setSelectionRange(at, Math.min(at + Math.max(size, 1), from + text.length));
    area.scrollTop = Math.max(0, (line - 4) * area.scrollHeight / lines.length);
  }

  // Marks what is wrong, a button for each bad line.
  function mark(problems) {
    bad = new Set(problems.map(({ line }) => line));
    drawNumbers();
    element('problems').innerHTML = problems.map(({ line, word, text }, n) =>
      `<li><button data-problem="${n}">line ${line}, <b>${escaped(word)}</b>: ${escaped(text)}</button></li>`).join('');
    element('problems').onclick = event => {
      const button = event.target.closest('[data-problem]');
      if (button) show(problems[Number(button.dataset.problem)]);
    };
    if (problems.length) show(problems[0]);
  }

  area.addEventListener('input', () => { if (bad.size) mark([]); else drawNumbers(); });
  area.addEventListener('scroll', () => { numbers.scrollTop = area.scrollTop; });

  return {
    mark,
    text: () => withEnd(area.value),
    set(text) {
      area.value = text;
      area.scrollTop = 0;
      mark([]);
    },
  };
})();
