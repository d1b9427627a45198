"use strict";
// The cells that the page's texts name, what they hold after the step that is shown, and the parts of faces that can be looked at. A face is
// FACE leaves wide and high.
const FACE = 2 ** 30;
const byId = (id) => document.getElementById(id);
const data = JSON.parse(byId("data").textContent), names = new Map(data.names), last = data.changes.length;
// Each cell with its square in leaves of its face, i to the right and j upwards; the cells in the order in which they are drawn, the coarse
// ones below the fine ones; the squares of each level by column and row; and those of each face.
const cells = data.cells.map(([token, face, i, j, level]) => {
  const side = FACE / 2 ** level;
  return { token, face, level, side, i: i * side, j: j * side, number: numberOf(token), above: null, within: [], laid: null, isSeen: false };
});
const coarseFirst = cells.map((_, at) => at).sort((one, other) => cells[one].level - cells[other].level || one - other);
const levels = [...new Set(coarseFirst.map((at) => cells[at].level))], columns = new Map();
for (const at of coarseFirst) joinCell(at);
const onFaces = data.stairs.map((_, face) => coarseFirst.filter((at) => cells[at].face === face));
// For each cell its labels with their counts, after the step that is shown; and for each label the cells that it ever has.
const held = cells.map(() => new Map()), cellsOf = new Map();
let step = last, pairCount = 0, copyCount = 0;

function numberOf(token) { return BigInt(`0x${token.padEnd(16, "0")}`); }
function kindOf(before, after) { return before === 0 ? "added" : after === 0 ? "removed" : "changed"; }
function change() { return step > 0 ? data.changes[step - 1] : []; }

// The name of a column of squares, and the square of a level that a leaf lies in, if a text names it.
function columnOf({ face, i }, level) { return (face * 31 + level) * FACE + Math.floor(i * 2 ** level / FACE); }
function squareAt(leaf, level) { return columns.get(columnOf(leaf, level))?.get(Math.floor(leaf.j * 2 ** level / FACE)); }

// Notes the square of a cell, and the nearest cell that it lies in: those of coarser levels are noted by then.
function joinCell(at) {
  const cell = cells[at], column = columnOf(cell, cell.level);
  const above = levels.findLast((level) => level < cell.level && squareAt(cell, level) !== undefined);
  if (!columns.has(column)) columns.set(column, new Map());
  columns.get(column).set(Math.floor(cell.j / cell.side), at);
  if (above === undefined) return;
  cell.above = squareAt(cell, above);
  cells[cell.above].within.push(at);
}

// The labels over a cell with their copies, also those of the cells that it lies in, rising. They are kept until one of them changes.
function laidOver(at) {
  const cell = cells[at];
  if (cell.laid) return cell.laid;
  const found = new Map(cell.above === null ? [] : laidOver(cell.above));
  for (const [label, count] of held[at]) found.set(label, (found.get(label) ?? 0) + count);
  return cell.laid = [...found].sort(([one], [other]) => one - other);
}
function copiesOver(at, label) { return at === null ? 0 : (held[at].get(label) ?? 0) + copiesOver(cells[at].above, label); }

// Notes a cell, and all that lie in it, as those over which something changed.
function touch(at, touched) {
  if (touched.has(at)) return;
  touched.add(at);
  cells[at].laid = null;
  for (const inner of cells[at].within) touch(inner, touched);
}

function setCount(at, label, count) {
  const before = held[at].get(label) ?? 0;
  pairCount += (count > 0) - (before > 0);
  copyCount += count - before;
  if (count > 0) held[at].set(label, count); else held[at].delete(label);
}

function hold() {
  for (const [at, label, count] of data.pairs) setCount(at, label, count);
  for (const [at, label] of [data.pairs, ...data.changes].flat()) {
    if (!cellsOf.has(label)) cellsOf.set(label, new Set());
    cellsOf.get(label).add(at);
  }
}

// Does the changes up to a step, or takes back those after it. Returns the cells over which these changed something, and their labels.
function moveTo(wanted) {
  const changed = { cells: new Set(), labels: new Set() };
  const set = (at, label, count) => {
    setCount(at, label, count);
    touch(at, changed.cells);
    changed.labels.add(label);
  };
  for (; step < wanted; step++) for (const [at, label, , after] of data.changes[step]) set(at, label, after);
  for (; step > wanted; step--) for (const [at, label, before] of data.changes[step - 1]) set(at, label, before);
  return changed;
}

// What to say of a look at a label that has no pair after the step that is shown; nothing of another look.
function absence(words) {
  const [kind, field] = words.split(" "), label = Number(field);
  const isHeld = kind !== "label" || [...cellsOf.get(label) ?? []].some((at) => held[at].has(label));
  return isHeld ? "" : `${named(label)} isn't held ${step > 0 ? `after change ${step}` : "before the first change"}.`;
}

// A square part of a face around a middle.
function part(face, i, j, wanted) {
  const side = Math.min(Math.max(wanted, 1), FACE), from = (middle) => Math.min(Math.max(middle - side / 2, 0), FACE - side);
  return { face, i: from(i), j: from(j), side };
}

// The least box around some boxes, each a left, a low, a right and a high end; and its middle.
function boxAround(boxes) {
  const [left, low, right, high] = boxes.reduce((all, box) => all.map((end, at) => (at < 2 ? Math.min : Math.max)(end, box[at])));
  return { left, low, right, high, x: (left + right) / 2, y: (low + high) / 2 };
}

// The part of a face with some cells and a margin, or null if they lie on several faces.
function around(places) {
  const some = [...places].map((at) => cells[at]);
  if (some.length === 0 || some.some(({ face }) => face !== some[0].face)) return null;
  const { left, low, right, high, x, y } = boxAround(some.map(({ i, j, side }) => [i, j, i + side, j + side]));
  return part(some[0].face, x, y, 1.4 * Math.max(right - left, high - low));
}

// The square of a cell that one of the page's cells lies in, or else the page's cell that it lies in, or null.
function cellPart(token) {
  if (!/^[0-9a-f]{1,16}$/i.test(token)) return null;
  const number = numberOf(token), lowest = number & -number, level = 30 - (lowest.toString(2).length - 1) / 2;
  if (number === 0n || level % 1 !== 0 || number >> 61n > 5n) return null;
  const isWithin = (one, other) => one > other - (other & -other) && one < other + (other & -other);
  const inner = cells.find((cell) => isWithin(cell.number, number)), found = inner ?? cells.find((cell) => isWithin(number, cell.number));
  if (!found) return null;
  const side = inner ? FACE / 2 ** level : found.side;
  return { face: found.face, i: Math.floor(found.i / side) * side, j: Math.floor(found.j / side) * side, side };
}

// The part of a face that the words of a look name: `face F`, `part F I J SIDE` around I and J, `cell TOKEN`, `label L` or `change`. It is
// null for `cube`, for what names nothing, and for cells on several faces.
function partOf(words) {
  const [kind, ...fields] = words.split(" "), [first, ...numbers] = fields.map(Number), isFace = [0, 1, 2, 3, 4, 5].includes(first);
  if (kind === "face" && isFace) return { face: first, i: 0, j: 0, side: FACE };
  if (kind === "part" && isFace && numbers.length === 3 && numbers.every(Number.isFinite)) return part(first, ...numbers);
  if (kind === "cell" && fields.length) return cellPart(fields[0]);
  return kind === "label" ? around(cellsOf.get(first) ?? []) : kind === "change" ? around(change().map(([at]) => at)) : null;
}
