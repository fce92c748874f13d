'use strict';
// Reads the sections that stand behind the scripts of some commands. docs/SCRIPT.md says what their lines mean.

// A collection is drawn as an entity is, whose keys are its owners. One that is called as an entity gets a name of its own.
const nameOfCollection = (script, name) => script.entities.has(name) ? name + ':' : name;
const declared = (script, name) => script.entities.get(name) || script.collections.get(name);

// A bulk line acts as a session does, under its own name.
function readLineOfBulk(script, words) {
  const [kind, name, entity, ...rest] = words, where = rest.indexOf('where'), sets = [];
  if (kind === 'update') for (let i = 1; i + 1 < rest.length && i !== where; i += 2) sets.push([rest[i], rest[i + 1]]);
  script.lines.set(name, { kind, name, entity, sets, condition: where < 0 ? null : readCondition(cursorOf(rest.slice(where + 1))) });
  script.sessions.push(name);
}

// What each first word of a section's line says, by the section.
const SECTION_LINES = {
  collections: {
    collection(script, words) {
      const [, name, entity, column, capacity] = words, own = nameOfCollection(script, name), columns = [{ name: 'members', target: '' }];
      const collection = { name: own, entity, place: placeOfColumn(script.entities.get(entity), column), capacity: Number(capacity), columns };
      script.collections.set(own, { ...collection, strategy: 'read-write', versioned: false });
    },
  },
  bulk: {
    update: readLineOfBulk,
    delete: readLineOfBulk,
    schedule() {},
  },
  nodes: {
    place(script, words) { script.places.set(words[1], Number(words[2])); },
    schedule() {},
  },
};

// The numbers of the nodes of a run. A run that knows of no nodes has one, with the number 0.
const nodesOf = script => script.section === 'nodes' ? [1, 2] : [0];
const nodeOfSession = (script, name) => script.section === 'nodes' ? script.places.get(name) || 1 : 0;

// How a node is called, and what stands behind a word that is of a node alone.
const nodeName = number => 'node ' + number;
const atNode = number => number ? ' at ' + nodeName(number) : '';
