#!/usr/bin/env node
// Runs the scripts of a page of examples/draw on a sheet of its own, without a browser, at each step of the page.
//
//   tests/of_drawn_page/steps.js PAGE LOOK ..
//
// Of each look some steps are gone back, then all forth and back at once. A step fills nothing but what lies close to the cells that it
// changes, puts in or takes out elements only for these and for numbers that move, and leaves the picture that is drawn if the page begins
// there. No two numbers lie over one another. It prints what isn't so.
"use strict";
const fs = require("node:fs"), path = require("node:path"), vm = require("node:vm");
const EXAMPLES = path.join(__dirname, "..", "..", "examples"), SCRIPTS = ["page_cells.js", "page_squares.js", "page_picture.js"];
// The room for the picture, how many points of the sheet a pixel is wide, and how many steps are gone back one by one.
const ROOM = 320, FINE = 2, MOST_STEPS = 8;

// A sheet with the colour of each point, as a canvas's context fills it. It counts what is filled, and notes where.
class Sheet {
  constructor(width, height) {
    this.width = width * FINE;
    this.points = new Array(this.width * height * FINE).fill("");
    this.filled = new Uint8Array(this.points.length);
    Object.assign(this, { from: [0, 0], path: [], open: null, fillStyle: "" });
  }

  save() { this.open = null; }
  restore() { Object.assign(this, { from: [0, 0], open: null }); }
  scale() {}
  translate(x, y) { this.from = [x, y]; }
  beginPath() { this.path = []; }
  rect(...box) { this.path.push(box); }
  createLinearGradient(...ends) {
    const stops = [...ends];
    return { addColorStop: (at, colour) => stops.push(at, colour), toString: () => stops.join(" ") };
  }

  // Does something at each point of a box.
  eachOf([x, y, width, height], act) {
    const within = (at, end) => Math.min(Math.max(at * FINE, 0), end), rows = this.points.length / this.width;
    const left = within(x + this.from[0], this.width), right = within(x + this.from[0] + width, this.width);
    for (let row = within(y + this.from[1], rows); row < within(y + this.from[1] + height, rows); row++) {
      for (let at = row * this.width + left; at < row * this.width + right; at++) act(at);
    }
  }

  clip() {
    this.open = new Uint8Array(this.points.length);
    for (const box of this.path) this.eachOf(box, (at) => { this.open[at] = 1; });
  }

  fillRect(...box) {
    const colour = String(this.fillStyle);
    this.eachOf(box, (at) => {
      if (this.open[at] === 0) return;
      this.points[at] = colour;
      this.filled[at] = 1;
    });
  }
}

// An element as far as the picture needs one. All together count how many were put in or taken out.
class Element {
  static moved = 0;
  constructor() { Object.assign(this, { inside: [], style: {}, attributes: {}, over: null }); }
  get firstChild() { return this.inside[0]; }
  setAttribute(name, value) { this.attributes[name] = String(value); }
  addEventListener() {}
  append(...some) { for (const one of some) this.insertBefore(one, null); }
  prepend(one) { this.insertBefore(one, this.inside[0]); }
  appendChild(one) { this.append(one); return one; }
  remove() { this.over.inside.splice(this.over.inside.indexOf(this), 1); Element.moved++; }
  replaceChildren(...some) { Element.moved += this.inside.length; this.inside = []; this.append(...some); }
  insertBefore(one, next) {
    this.inside.splice(next ? this.inside.indexOf(next) : this.inside.length, 0, one);
    if (one instanceof Element) one.over = this;
    Element.moved++;
  }
}

// The scripts over a page's data: what the tests call of them, and the elements of the page by their ids.
function opened(page) {
  const elements = new Map(), byId = (id) => {
    if (!elements.has(id)) elements.set(id, new Element());
    return elements.get(id);
  };
  byId("data").textContent = /<script type="application\/json" id="data">([^]*?)<\/script>/.exec(page)[1];
  byId("view").parentNode = { clientWidth: ROOM };
  byId("squares").getContext = () => byId("squares").sheet ??= new Sheet(byId("squares").width / FINE, byId("squares").height / FINE);
  const document = { getElementById: byId, createElementNS: () => new Element(), documentElement: null };
  const outside = { document, devicePixelRatio: FINE, getComputedStyle: () => ({ getPropertyValue: () => "#ffffff" }), pick() {}, console };
  const own = "lookAt(words) { look = words; }, framesNow() { return frames; }";
  const calls = `({ cells, data, last, hold, moveTo, absence, drawPicture, drawChange, placeOf, ${own} })`;
  const script = SCRIPTS.map((name) => fs.readFileSync(path.join(EXAMPLES, name), "utf8")).join("");
  return { byId, ...vm.runInNewContext(`${script}\n${calls}`, outside) };
}

// The picture as it is drawn at once, if nothing is known of the steps before.
function drawnAtOnce(page) {
  for (const cell of page.cells) cell.laid = null;
  page.byId("squares").sheet = null;
  page.drawPicture();
  return page.byId("squares").sheet;
}

// The texts in a layer, in their order of reading.
function textsIn(page, id) { return page.byId(id).inside.map(({ attributes, inside }) => `${attributes.x} ${attributes.y} ${inside}`).sort(); }
function linesOf(page) { return page.byId("legend").inside.map(({ inside: [{ inside }] }) => inside[1]); }

function numbersOverlap(page) {
  const boxes = page.byId("numbers").inside.map(({ attributes: { x, y }, inside: [words] }) => [Number(x), Number(y), words.length * 9]);
  const areOver = ([x, y, wide], [other, low, width]) => Math.abs(x - other) < (wide + width) / 2 && Math.abs(y - low) < 16;
  return boxes.some((box, at) => boxes.slice(0, at).some((other) => areOver(box, other)));
}

// Whether a label has a pair after a step, by the page's data alone.
function isHeld({ data }, label, step) {
  const counts = new Map(data.pairs.filter(([, of]) => of === label).map(([at, , count]) => [at, count]));
  for (const [at, of, before] of data.changes.slice(step).reverse().flat()) if (of === label) counts.set(at, before);
  return [...counts.values()].some((count) => count > 0);
}

// What is wrong with a step to a change, under a look.
function faultsOf(page, look, step) {
  const sheet = page.byId("squares").sheet, before = new Set(textsIn(page, "numbers"));
  sheet.filled.fill(0);
  const marks = page.byId("marks"), kept = marks.inside;
  marks.inside = [];
  Element.moved = 0;
  const changed = page.moveTo(step);
  page.drawChange(changed);
  const moved = Element.moved, numbers = textsIn(page, "numbers"), lines = linesOf(page), faults = [];
  const near = new Uint8Array(sheet.points.length);
  for (const frame of page.framesNow()) for (const at of changed.cells) {
    const place = page.placeOf(frame, page.cells[at]);
    if (!place) continue;
    sheet.from = [frame.x - 3, frame.y - 3];
    sheet.eachOf([place.x, place.y, place.width + 6, place.height + 6], (point) => { near[point] = 1; });
  }
  sheet.from = [0, 0];
  const renewed = numbers.filter((one) => !before.has(one)).length + [...before].filter((one) => !numbers.includes(one)).length;
  if (sheet.filled.some((is, at) => is && !near[at])) faults.push("it fills what didn't change");
  // (a frame has a layer of marks, and a mark at most three elements with their words; a line of the legend four)
  const most = 12 + page.framesNow().length * 2 + changed.cells.size * 6 + changed.labels.size * 8 + renewed * 3;
  if (moved > most) faults.push(`it moves ${moved} elements, and not at most ${most}`);
  if (numbersOverlap(page)) faults.push("two numbers lie over one another");
  const whole = drawnAtOnce(page);
  if (whole.points.some((colour, at) => colour !== sheet.points[at])) faults.push("the squares are others than those that are drawn at once");
  if (textsIn(page, "numbers").join() !== numbers.join()) faults.push("the numbers are others than those that are drawn at once");
  if (linesOf(page).join() !== lines.join()) faults.push("the legend is another than that which is written at once");
  const isAbsent = look.startsWith("label ") && !isHeld(page, Number(look.slice(6)), step);
  if ((page.absence(look) !== "") !== isAbsent) faults.push(`it says '${page.absence(look)}' of a label that is ${isAbsent ? "not " : ""}held`);
  return faults;
}

const [, , file, ...looks] = process.argv, page = opened(fs.readFileSync(file, "utf8"));
page.hold();
for (const look of looks) {
  page.lookAt(look);
  drawnAtOnce(page);
  const steps = [...Array(page.last).keys()].reverse().slice(0, MOST_STEPS);
  for (const step of [...steps, page.last, 0]) {
    for (const fault of faultsOf(page, look, step)) console.log(`${path.basename(file)}, ${look}, step ${step}: ${fault}`);
  }
}
