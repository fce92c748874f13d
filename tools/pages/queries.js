'use strict';
// What a named query gives over rows.

const compare = (one, other) => one < other ? -1 : one > other ? 1 : 0;
const numberOf = cell => cell.length < 16 ? Number(cell) : BigInt(cell); // JavaScript compares the two kinds rightly
const bareText = cell => cell[0] === '"' ? cell.slice(1, -1).replace(/\\(.)/g, '$1') : cell;

function compareCells(one, other) {
  return /^-?\d/.test(one) ? compare(numberOf(one), numberOf(other)) : compare(bareText(one), bareText(other));
}

const TESTS = {
  eq: order => order === 0,
  ne: order => order !== 0,
  lt: order => order < 0,
  le: order => order <= 0,
  gt: order => order > 0,
  ge: order => order >= 0,
};

const placeOfColumn = (entity, name) => entity.columns.findIndex(column => column.name === name);

// The cell to which a path leads from a row; undefined if it leads over a reference to a row that isn't there.
function cellAt(script, entity, path, row, rows) {
  const cell = row.cells[placeOfColumn(entity, path[0])];
  if (path.length === 1) return cell;
  const target = script.entities.get(entity.columns[placeOfColumn(entity, path[0])].target), found = rows.get(keyOf(target.name, cell));
  return found && found.cells[placeOfColumn(target, path[1])];
}

function meets(script, entity, condition, row, rows) {
  const also = part => meets(script, entity, part, row, rows);
  if (!condition) return true;
  if (condition.op === 'and') return also(condition.left) && also(condition.right);
  if (condition.op === 'or') return also(condition.left) || also(condition.right);
  if (condition.op === 'not') return !also(condition.left);
  const cell = cellAt(script, entity, condition.path, row, rows);
  if (cell === undefined) return false;
  if (condition.op === 'in') return condition.cells.includes(cell);
  return TESTS[condition.op](compareCells(cell, condition.cells[0]));
}

// What a query gives over rows, a map from keys to rows: the list as its text.
function gives(script, query, rows) {
  const entity = script.entities.get(query.entity), found = [];
  for (const [key, row] of rows) {
    if (entityOf(key) === entity.name && meets(script, entity, query.condition, row, rows)) found.push({ id: key.split(' ')[1], row });
  }
  if (query.select === 'count') return `[${found.length}]`;
  const orders = query.order.map(({ column, descending }) => ({ place: placeOfColumn(entity, column), sign: descending ? -1 : 1 }));
  found.sort((one, other) => {
    for (const { place, sign } of orders) {
      const order = compareCells(one.row.cells[place], other.row.cells[place]);
      if (order) return order * sign;
    }
    return compareCells(one.id, other.id);
  });
  const cellOf = ({ id, row }) => query.select === 'ids' ? id : row.cells[placeOfColumn(entity, query.select)];
  return `[${found.slice(query.offset, query.offset + query.limit).map(cellOf).join(' ')}]`;
}
