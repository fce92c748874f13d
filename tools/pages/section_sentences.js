'use strict';
// What the entries mean in a run that only the commands with a section have; and of all entries, which function says it.

// ---- fences ----

const FENCE_TEXTS = {
  lock(context) {
    const { node, key } = context, [first] = node.queue;
    return `The cache of ${nodeName(node.number)} is told of ${toldOf(first)}. A fence locks ${key} there.${lockedOverText(context)}${leaverText(context)}`;
  },
  unlock({ node, slot, key }) {
    const others = slot.holders.filter(({ by }) => by !== null).length;
    return `The fence of ${key} at ${nodeName(node.number)} ends, and its lock is given back. ` +
      (others ? `${count(others, 'holder is', 'holders are')} left.` : 'A row that was loaded before this is refused from here on.');
  },
};

// ---- collections ----

const MEMBERS_TEXTS = {
  ...REGION_TEXTS,
  put(context) {
    const { session, entry } = context, which = session.listedAt === NEVER ? '' : ' at ' + ref(session.listedAt);
    return `${context.me} offers the cache the members of ${context.key} that it has listed${which}. ${PUTS[firstWord(entry.reply)](context)}`;
  },
  lock(context) {
    const until = /until (\d+)/.exec(context.entry.reply)[1];
    return `${context.me} is to change which rows refer to ${context.key}, and locks it, so that nobody puts old members there. The lock is good until ` +
      `the tick ${until}.${lockedOverText(context)}${leaverText(context)}`;
  },
};

// ---- bulk changes ----

const wideHolders = context => holdersOf(context.state, wideOf(context));

// Why a whole region takes no row: a line holds it, or has given it back since the session began.
function barText(context) {
  const { given } = wideOf(context), began = context.session.time;
  if (context.entry.reply.startsWith('wide ')) return `Refused: the whole region is locked by ${wideHolders(context)}, who may be about to change the row.`;
  return `Refused: ${code(given.by)} gave the whole region back at ${ref(given.at)}, and the session began at ${began}. Its row may be from before the change.`;
}

// Why an item that the cache drops is old.
function oldItemText(context) {
  const { slot } = context, { holders, given } = wideOf(context);
  const why = holders.length ? `the whole region is locked by ${wideHolders(context)}` : `${code(given.by)} gave the whole region back at ${ref(given.at)}`;
  return `${STORED[slot.how]} ${code(slot.by)} at ${ref(slot.at)}, and ${why} after that`;
}

const BULK_TEXTS = {
  'lock-all': ({ me, entity }) => `${me} locks all of ${code(entity.name)}: nothing is read from its cache or put there until it is given back.`,
  'unlock-all'(context) {
    const left = wideOf(context).holders.length - 1, still = left ? ` ${count(left, 'line holds', 'lines hold')} it still.` : '';
    return `${context.me} gives all of ${code(context.entity.name)} back.${still} Items of before count as old from here on, and rows of sessions ` +
      'that began before are refused.';
  },
  sweep: context => `${context.me} needs ${context.key}, and the cache drops the item there first: it was ${oldItemText(context)}.`,
};

function bulkText({ script, state, entry, me }) {
  const line = script.lines.get(entry.words[1]), keys = changesOfLine(script, state, line).map(({ key }) => key);
  if (isFault(entry)) return `The store fails, and ${me} changes nothing.`;
  if (!keys.length) return `${me} changes no row of ${code(line.entity)}: none meets its condition.`;
  return `${me} ${line.kind === 'delete' ? 'deletes' : 'changes'} ${codes(keys)} for all, in one step.`;
}

// ---- all of them ----

const TEXTS = {
  registry: REGISTRY_TEXTS, own: OWN_TEXTS, store: { ...STORE_TEXTS, bulk: bulkText }, region: { ...REGION_TEXTS, ...BULK_TEXTS },
  members: MEMBERS_TEXTS, stamps: STAMPS_TEXTS, results: RESULTS_TEXTS,
};

// What an entry means, from the state before it; nothing if it can't come there.
function explain(script, state, entry, at) {
  const me = (script.lines.has(entry.session) ? 'the line ' : '') + code(entry.session || '-');
  const context = { ...contextOf(script, state, entry, at), me, key: code(entry.key) };
  try {
    const said = (isFence(entry) ? FENCE_TEXTS : TEXTS[entry.part])[entry.verb](context);
    return said[0].toUpperCase() + said.slice(1);
  } catch (fault) {
    return '';
  }
}
