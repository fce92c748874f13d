'use strict';
// Plays the script that is edited, and draws its run, in a frame that is the page of tools/page; beside it that of another strategy.

const state = { name: '', drawn: '', journal: '' };

const say = (text, isBad = false) => {
  element('said').textContent = text;
  element('said').className = isBad ? 'bad' : '';
};

function setBusy(isBusy) {
  for (const id of ['play', 'search']) element(id).disabled = isBusy;
  element('stop').disabled = !isBusy;
}

// Does something that takes time; one thing at once.
async function busy(what, work) {
  setBusy(true);
  say(what);
  try {
    await work();
  } catch (fault) {
    say(fault.message, fault.message !== 'stopped');
  } finally {
    setBusy(false);
  }
}

// The run of a script: { script, report, states, journal, entries, ms }; or { refused }, what the program says.
async function runOf(script) {
  const section = sectionOf(script), played = await Calls.program([SECTIONS[section] || 'play'], script);
  if (played.status !== 0) return { refused: played.line.trim() || `status ${played.status}` };
  const entries = Number(/^journal (\d+)/.exec(played.text)[1]);
  const run = { script, report: played.text, states: '', journal: '', entries, ms: played.ms };
  if (section !== '') return run;
  const journal = await Calls.program(['play', '--journal'], script);
  const told = await Calls.tools(['states'], `${script}journal\n${journal.text}`);
  if (told.status <= 1) run.states = told.status === 1 ? told.line.replace(/^hib: /, '') : told.text;
  return { ...run, journal: journal.text, ms: run.ms + journal.ms + told.ms };
}

// The page of runs, each with its name.
function pageOf(runs) {
  const texts = runs.map(({ script, report, states, name }, n) =>
    `<pre id="script${n}" data-name="${escaped(name)}" data-caption="${escaped(captionOf(script))}" hidden>\n${escaped(script)}</pre>\n` +
    `<pre id="report${n}" hidden>\n${escaped(report)}</pre>\n<pre id="states${n}" hidden>\n${escaped(states)}</pre>\n`);
  return element('page').textContent.replace('@RUNS@', () => texts.join(''));
}

function draw(runs) {
  state.drawn = pageOf(runs);
  state.journal = runs[0].journal;
  element('frame').srcdoc = state.drawn;
  element('report').textContent = runs[0].report;
}

// Tells a refusal, and marks what is wrong.
function refuse(script, said) {
  const problems = Whys.explain(script, said);
  say(said, true);
  Editor.mark(problems);
}

async function play() {
  const script = Editor.text(), other = element('beside').value;
  Editor.mark([]);
  const run = await runOf(script);
  if (run.refused) { refuse(script, run.refused); return; }
  const runs = [{ ...run, name: `${state.name}.hib` }];
  let refused = '';
  if (other !== '') {
    const beside = await runOf(withStrategy(script, other));
    if (beside.refused) refused = `; with ${other} it is refused: ${beside.refused}`;
    else runs.push({ ...beside, name: `${state.name}-${other}.hib` });
  }
  draw(runs);
  const entries = runs.map(one => `${one.entries} entries`).join(' and '), ms = runs.reduce((sum, one) => sum + one.ms, 0);
  say(`${entries}, ${ms.toFixed(1)} ms${refused}`, refused !== '');
}
