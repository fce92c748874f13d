'use strict';
// The page: what is picked, filtered and drawn, by clicks and keys.

const FEW_KEYS = 12; // up to so many, the panel shows the state of each
const PRINTED = 1040; // the width of a printed page
const NARROW = 900; // below this width, as in style.css, the panel stands under the picture and the legend is closed

// `sources` has the name, the caption and the text of each run's script.
function start(runs, sources) {
  let run = runs[0];
  const element = id => document.getElementById(id), main = element('main'), picture = element('picture');
  const names = sources.map(({ name }) => name), sourceOfRun = () => sources[runs.indexOf(run)];
  const shown = {
    pick: NEVER, story: null, only: null, areAllTold: false, filter: [], from: 0, isPrinting: false, wasLegendOpen: true, // what is asked for
    all: [], visible: [], names: [], layout: null, // what is drawn for it
  };

  // ---- drawing ----

  // Texts are measured in the letters in which they are drawn, as style.css has them.
  function measuring() {
    const context = document.createElement('canvas').getContext('2d');
    return (text, isBold) => {
      context.font = `${isBold ? '700 ' : ''}12px system-ui, sans-serif`;
      return context.measureText(text).width;
    };
  }

  const namesInPanel = () => run.keys.size > FEW_KEYS ? new Set(shown.names) : null;
  const nameOf = at => at === NEVER ? '' : run.entries[at].key || run.entries[at].query;

  function plan() {
    const width = shown.isPrinting ? PRINTED : main.clientWidth - 2;
    shown.all = shown.only ? entriesOfStory(run, shown.only) : entriesOfFilter(run, shown.filter);
    shown.from = Math.max(0, Math.min(shown.from, shown.all.length - 1));
    shown.visible = shown.all.slice(shown.from, shown.from + MOST);
    shown.names = namesWithLanes(run, shown.filter, shown.only, roomForKeys(run, shown.visible, width), nameOf(shown.pick));
    shown.layout = layoutOf(run, shown.visible, shown.names, width);
    return width;
  }

  function drawPicture() {
    const { layout, story, pick, visible } = shown, size = `width="${pixels(layout.width)}" height="${layout.height + 8}"`;
    if (!visible.length) return '';
    const sheet = (inside, id = '') => `<svg ${id} ${size} aria-hidden="true">${inside}</svg>`;
    const hide = (inside, id = '') => `<div ${id} aria-hidden="true">${inside}</div>`;
    return drawRows(run, layout, story, pick) + sheet(drawBoxes(run, layout)) + hide(drawKeys(layout)) +
      sheet(drawAcross(run, layout, story) + drawMarks(run, layout) + drawWay(run, layout, story)) +
      sheet(drawPicked(run, layout, pick, story), 'id="way"') + hide(drawTexts(run, layout, pick), 'id="texts"');
  }

  // What isn't shown, so that nobody takes a part for the whole.
  function drawHidden() {
    const parts = [], lanes = run.keys.size + run.queries.size, { all, names, from } = shown;
    const front = `${all.length} of ${run.entries.length} entries are shown${shown.only ? ', those of the story' : ''}`;
    if (all.length < run.entries.length) parts.push(`${front} <button data-all="1">show all</button>`);
    const which = 'that of the picked entry, those with findings, the most used; the filter shows others';
    if (names.length < lanes && !shown.only) parts.push(`${names.length} of ${lanes} keys and queries have lanes: ${which}`);
    if (all.length > MOST) {
      const pages = '<span id="pages"><button data-page="-1">earlier</button> <button data-page="1">later</button></span>';
      parts.push(`Entries ${from + 1} to ${Math.min(all.length, from + MOST)} of these are drawn ${pages}`);
    }
    return parts.length ? `<p class="note">${parts.join('. ')}.</p>` : '';
  }

  // The run's name, or a button for each of two.
  function drawTitle() {
    if (runs.length === 1) return `<h1>${escaped(names[0])}</h1>`;
    const tabs = names.map((name, n) => `<button class="tab" data-turn="${n}" aria-pressed="${runs[n] === run}" title="key: t">${escaped(name)}</button>`);
    return `<h1>Two runs</h1>${tabs.join('')}`;
  }

  function drawTop() {
    const options = [...run.keys.keys(), ...run.script.sessions, ...run.queries.keys()].map(name => `<option value="${escaped(name)}">`).join('');
    const chips = shown.filter.map(escaped).map(name => {
      return `<span class="chip">${name}<button data-name="${name}" aria-label="remove the filter ${name}">&#10005;</button></span>`;
    });
    const box = '<input id="find" list="names" placeholder="filter: key or session" aria-label="Filter by key, session or query">';
    return `${drawTitle()}${badges(run)}${box}<datalist id="names">${options}</datalist>${chips.join('')}`;
  }

  // What has the focus, so that it can be given back to what is drawn in its place; the picture, if that isn't there any more.
  function focusOf(active) {
    if (active.id) return '#' + active.id;
    const own = active.tagName === 'SUMMARY' ? active.parentNode : active, [name] = Object.keys(own.dataset);
    const front = name ? `[data-${name}="${own.dataset[name]}"]` : '.' + own.className;
    return own === active ? `${active.tagName}${front}` : `${front} > summary`;
  }

  function keepFocus(change) {
    const { activeElement: active } = document, place = active && active !== document.body ? focusOf(active) : '';
    change();
    if (place && !document.contains(active)) (document.querySelector(place) || picture).focus({ preventScroll: true });
  }

  const draw = () => keepFocus(drawAll);

  // The script, where it can be copied, and how the run is made again.
  function drawSource() {
    const { name, text } = sourceOfRun();
    element('named').innerHTML = `The script: ${codeHtml(name)}, ${lengthOf(text)}`;
    element('text').textContent = text;
    element('copied').textContent = '';
    element('again').innerHTML = drawAgain(run, name);
  }

  function drawAll() {
    const width = plan(), { layout } = shown, head = drawHead(layout);
    for (const id of ['words', 'source', 'legend', 'foot', 'made']) element(id).style.width = width + 'px';
    const comparison = runs.length > 1 ? drawComparison(runs, names) : '';
    const words = drawWords(run, shown.story, shown.only, shown.areAllTold);
    element('words').innerHTML = comparison + drawCaption(sourceOfRun().caption) + words + drawHidden();
    element('head').innerHTML = head.html;
    element('head').style.cssText = `height:${head.height}px;width:${pixels(layout.width)}px;--slack:${-head.height % ROW + ROW}px`;
    picture.style.cssText = `height:${layout.height + 8}px;width:${pixels(layout.width)}px`;
    picture.innerHTML = drawPicture();
    element('top').innerHTML = drawTop();
    element('account').innerHTML = run.told ? TOLD_ACCOUNT : UNPROVED_ACCOUNT;
    showPanel();
  }

  function showPanel() {
    element('panel').innerHTML = drawPanel(run, shown.pick, namesInPanel());
    picture.setAttribute('aria-activedescendant', 'e' + shown.pick);
  }

  // Moves the mark of the picked entry, where nothing else has changed.
  function movePick() {
    for (const one of picture.querySelectorAll('.pick')) {
      one.classList.remove('pick');
      if (one.id) one.setAttribute('aria-selected', 'false');
    }
    const row = element('e' + shown.pick);
    if (row) {
      row.classList.add('pick');
      row.setAttribute('aria-selected', 'true');
      element('texts').children[placeOf(shown.visible, shown.pick)].classList.add('pick');
    }
    if (element('way')) element('way').innerHTML = drawPicked(run, shown.layout, shown.pick, shown.story);
    keepFocus(showPanel);
  }

  function scrollTo(at) {
    const y = picture.offsetTop + shown.layout.top(at);
    const top = main.scrollTop + element('head').offsetHeight + 2 * ROW, bottom = main.scrollTop + main.clientHeight - 3 * ROW;
    if (y < top || y > bottom) main.scrollTop = Math.max(0, y - main.clientHeight / 2);
  }

  // ---- picking ----

  const showAll = () => Object.assign(shown, { only: null, filter: [] });
  const isLaneMissing = at => !shown.filter.length && isLaneName(run, nameOf(at)) && !shown.names.includes(nameOf(at));

  // Picks an entry and shows it, in another story or without the filter if need be.
  function pick(at, isHere) {
    const story = run.findings.find(one => one.at === at);
    let isElsewhere = Boolean(story && story !== shown.story) || (at !== NEVER && isLaneMissing(at));
    shown.pick = at;
    if (story) shown.story = story;
    if (at !== NEVER && !shown.all.includes(at)) {
      showAll();
      shown.all = entriesOfFilter(run, []);
      isElsewhere = true;
    }
    const place = placeOf(shown.all, at);
    if (at !== NEVER && (place < shown.from || place >= shown.from + MOST)) {
      shown.from = Math.floor(place / MOST) * MOST;
      isElsewhere = true;
    }
    if (isElsewhere) draw(); else movePick();
    if (!isHere && at !== NEVER) scrollTo(at);
    try {
      history.replaceState(null, '', at === NEVER ? '#' : '#' + run.entries[at].tick);
    } catch (refused) { /* a browser may refuse a file to name its place */ }
  }

  // Begins with a run: at an entry that is asked for, or else at the first story. A story that is begun with is shown alone.
  function open(number, at) {
    run = runs[number];
    const isAsked = at >= 0, [first = null] = run.findings;
    const own = isAsked ? run.findings.find(story => story.at === at) || null : first;
    Object.assign(shown, { story: own || first, only: own, areAllTold: false, filter: [], from: 0, pick: own && !isAsked ? own.at : NEVER });
    drawSource();
    draw();
    if (isAsked) pick(at);
  }

  const entryAtTick = (one, tick) => one.entries.findIndex(entry => entry.tick === tick);

  // The other of two runs, at the tick that is picked.
  function turn(number) {
    const tick = shown.pick === NEVER ? 0 : run.entries[shown.pick].tick;
    open(number, entryAtTick(runs[number], tick));
  }

  function go(steps) {
    const place = shown.pick === NEVER ? Math.max(0, steps) - 1 : placeOf(shown.all, shown.pick) + steps;
    pick(place < 0 ? NEVER : shown.all[Math.min(place, shown.all.length - 1)]);
  }

  // The next entry with one of some marks behind the picked one, and round again.
  function goToNext(marks, isBack) {
    const found = marks.includes('unsound') ? run.unsound.map(({ at }) => at) : run.marks.map((mark, at) => at).filter(at => marks.includes(run.marks[at]));
    if (!found.length) return;
    const next = isBack ? found.filter(at => at < shown.pick).pop() : found.find(at => at > shown.pick);
    pick(next === undefined ? (isBack ? found[found.length - 1] : found[0]) : next);
  }

  // Adds a name to the filter, or takes it out.
  function filter(name) {
    if (!isLaneName(run, name) && !run.script.sessions.includes(name)) return;
    Object.assign(shown, { filter: shown.filter.includes(name) ? shown.filter.filter(one => one !== name) : [...shown.filter, name], only: null, from: 0 });
    draw();
  }

  function showOnly(story) {
    Object.assign(shown, { only: shown.only === story ? null : story, story, filter: [], from: 0 });
    draw();
  }

  function openStory(story) {
    Object.assign(shown, { only: shown.only === story ? story : null, story: story === shown.story ? null : story });
    draw();
  }

  // The story alone, or all entries.
  function turnView() {
    if (!shown.only && shown.story) { showOnly(shown.story); return; }
    showAll();
    draw();
  }

  function copy() {
    const say = isDone => { element('copied').textContent = isDone ? 'copied' : 'it is picked: a key of yours copies it'; };
    copyText(sourceOfRun().text, element('text'), say);
  }

  function tellAll() {
    shown.areAllTold = !shown.areAllTold;
    draw();
  }

  // On paper the legend is open.
  function print(isPrinting) {
    const legend = element('legend');
    if (isPrinting) shown.wasLegendOpen = legend.open;
    shown.isPrinting = isPrinting;
    legend.open = isPrinting || shown.wasLegendOpen;
    draw();
  }

  // ---- clicks and keys ----

  const CLICKS = {
    run: (value, target) => open(Number(value), Number(target.dataset.entry)),
    turn: value => turn(Number(value)),
    at: (value, target) => pick(Number(value), target.classList.contains('row')),
    go: value => go(Number(value)),
    next: value => goToNext(value.split(' ')),
    name: filter,
    all() { showAll(); draw(); },
    page(value) { shown.from += MOST * Number(value); draw(); },
    only: value => showOnly(run.findings[value]),
    copy,
  };

  document.addEventListener('click', event => {
    const summary = event.target.closest('summary');
    for (const [kind, act] of Object.entries(CLICKS)) {
      const target = event.target.closest(`[data-${kind}]`);
      if (!target) continue;
      event.preventDefault();
      act(target.dataset[kind], target);
      return;
    }
    if (!summary || summary.parentNode.id) return;
    event.preventDefault();
    const { story } = summary.parentNode.dataset;
    if (story !== undefined) openStory(run.findings[story]); else tellAll();
  });

  const FINDINGS = ['stale', 'warn'];
  const KEYS = {
    ArrowDown: () => go(1), j: () => go(1), PageDown: () => go(10),
    ArrowUp: () => go(-1), k: () => go(-1), PageUp: () => go(-10),
    Home: () => pick(shown.all[0]), End: () => pick(shown.all[shown.all.length - 1]),
    n: () => goToNext(FINDINGS), N: () => goToNext(FINDINGS, true), r: () => goToNext(['refused']),
    '/': () => element('find').focus(),
    s: turnView,
    t: () => turn(runs.length - 1 - runs.indexOf(run)),
  };

  document.addEventListener('change', event => { if (event.target.id === 'find') filter(event.target.value); });
  document.addEventListener('keydown', event => {
    if (event.key === 'Escape') { showAll(); draw(); return; }
    if (event.target.tagName === 'INPUT' || event.ctrlKey || event.altKey || event.metaKey || !KEYS[event.key]) return;
    event.preventDefault();
    picture.focus({ preventScroll: true });
    KEYS[event.key]();
  });
  addEventListener('resize', draw);
  addEventListener('beforeprint', () => print(true));
  addEventListener('afterprint', () => print(false));

  widthOfText = measuring();
  if (innerWidth <= NARROW) element('legend').open = false;
  if (runs.length > 1) element('turns').textContent = 't the other run, ';

  // The address may name a tick.
  open(0, location.hash.length > 1 ? entryAtTick(run, Number(location.hash.slice(1))) : -1);
}

// Without a document, as in a test, nothing is drawn.
if (typeof document !== 'undefined') {
  const textOf = id => document.getElementById(id).textContent, scripts = [...document.querySelectorAll('pre[data-name]')];
  try {
    const meanings = readMeanings(textOf('meanings'));
    const runOf = (script, n) => {
      const journal = readJournal(textOf(`report${n}`), script), states = textOf(`states${n}`);
      return { ...analyse(script, journal, readTold(states, journal.entries)), verdict: readVerdict(states), meanings };
    };
    const runs = scripts.map(({ textContent }, n) => runOf(readScript(textContent), n));
    start(runs, scripts.map(({ dataset, textContent }) => ({ ...dataset, text: textContent })));
  } catch (fault) {
    document.getElementById('main').innerHTML = '<p id="fault"></p>';
    document.getElementById('fault').textContent = `This run can't be drawn: ${fault.message}` + (fault.constructor === Error ? '' : `\n${fault.stack}`);
  }
}
