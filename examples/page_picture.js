// Draws what is looked at: squares, then over them the outline of the label that is picked, the marks of a change, and numbers. The lengths are
// pixels of the picture: the greatest side of a part of a face that is looked at, the least widths of a cell that is marked by itself, of cells
// with a number and of a label that is outlined, and what a digit, a line of numbers and a letter of a sign take.
const ALONE = 620, LEAST_MARKED = 12, LEAST_NUMBERED = 32, LEAST_OUTLINED = 14, DIGIT = 9, NUMBER = 16, SIGN = 11;
const SIGNS = { added: "+", removed: "−", changed: "±" }, KINDS = Object.keys(SIGNS);
// `look` is in words, which `partOf` reads and the page's address keeps; `picked` is the label that was last looked at. Of each label in the
// picture its place in each frame and its line in the legend; and the numbers that are drawn.
const extents = new Map(), legend = new Map(), numberNodes = new Map();
let look = "cube", picked = null, frames = [];

function many(number, word) { return `${number.toLocaleString("en")} ${number === 1 ? word : word.replace(/y$/, "ie") + "s"}`; }
function named(label) { return names.has(label) ? `${label} ${names.get(label)}` : `label ${label}`; }
// Of some kinds those that occur, each with how often.
function tally(kinds) { return KINDS.map((kind) => [kind, kinds.filter((one) => one === kind).length]).filter(([, number]) => number > 0); }

// An element of HTML, or of SVG, with its attributes and what is in it.
function make(space, tag, attributes, inside) {
  const made = document.createElementNS(space, tag);
  for (const [name, value] of Object.entries(attributes)) made.setAttribute(name, value);
  made.append(...inside);
  return made;
}
function html(tag, attributes, ...inside) { return make("http://www.w3.org/1999/xhtml", tag, attributes, inside); }
function svg(tag, attributes, ...inside) { return make("http://www.w3.org/2000/svg", tag, attributes, inside); }
function button(words, act, attributes) {
  const made = html("button", { type: "button", ...attributes }, words);
  made.addEventListener("click", act);
  return made;
}

function nameOf(words) {
  const [kind, field] = words.split(" "), own = { face: `Face ${field}`, part: `Part of face ${field}`, cell: `Cell ${field}` };
  return { cube: "The cube, unfolded", change: "Each change’s cells", label: named(Number(field)), ...own }[kind];
}

// Some cells that are seen in a frame, each with its place.
function seenIn(frame, some) { return some.map((at) => ({ at, place: placeOf(frame, cells[at]) })).filter(({ place }) => place); }
function cellsNow(label) { return [...cellsOf.get(label) ?? []].filter((at) => held[at].has(label)); }
function boxOf(seen) { return boxAround(seen.map(({ place: { x, y, width, height } }) => [x, y, x + width, y + height])); }

// Notes for each frame with cells of a label the box around these, and how many copies lie over one of them at most.
function measure(label) {
  const some = cellsNow(label), found = frames.map((frame) => ({ frame, seen: seenIn(frame, some) })).filter(({ seen }) => seen.length > 0);
  const most = found.reduce((most, { seen }) => seen.reduce((most, { at }) => Math.max(most, copiesOver(at, label)), most), 0);
  const boxes = found.map(({ frame, seen }) => ({ frame, box: boxOf(seen) }));
  if (found.length > 0) extents.set(label, { most, boxes }); else extents.delete(label);
}

// Where numbers may be drawn: in the middle of what is seen of a label's cells, together those of labels with one middle. The label that is
// picked counts as the largest.
function numberPlaces() {
  const places = new Map(), middle = (from, to, end, least) => Math.min(Math.max((Math.max(from, 0) + Math.min(to, end)) / 2, least), end - least);
  for (const [label, { boxes }] of extents) for (const { frame: { x, y, pixels }, box: { left, right, low, high } } of boxes) {
    const at = { x: x + middle(left, right, pixels, 2 * DIGIT), y: y + middle(low, high, pixels, NUMBER / 2) };
    if (right - left < LEAST_NUMBERED) continue;
    const key = `${at.x} ${at.y}`, place = places.get(key) ?? { size: 0, labels: [] };
    const size = Math.max(place.size, label === picked ? Infinity : (right - left) * (high - low));
    places.set(key, { ...at, size, labels: [...place.labels, label] });
  }
  return [...places.values()].map(({ labels, ...place }) => ({ ...place, words: labels.sort((one, other) => one - other).join(" ") }));
}

// Of some numbers those that are drawn: none lies over one of larger squares.
function withRoom(places) {
  const taken = [], half = ({ words }) => (words.length * DIGIT + LEAST) / 2;
  const areNear = (one, other) => Math.abs(one.x - other.x) < half(one) + half(other) && Math.abs(one.y - other.y) < NUMBER;
  const bySize = places.sort((one, other) => (other.size > one.size) - (one.size > other.size) || one.y - other.y || one.x - other.x);
  for (const place of bySize) if (!taken.some((other) => areNear(place, other))) taken.push(place);
  return taken;
}

// Draws the numbers anew that moved or that have other words.
function drawNumbers() {
  const wanted = new Map(withRoom(numberPlaces()).map(({ x, y, words }) => [`${x} ${y} ${words}`, { x, y, words }]));
  for (const [key, node] of numberNodes) {
    if (wanted.has(key)) continue;
    node.remove();
    numberNodes.delete(key);
  }
  for (const [key, { x, y, words }] of wanted) {
    if (!numberNodes.has(key)) numberNodes.set(key, byId("numbers").appendChild(svg("text", { x, y, class: "over" }, words)));
  }
}

// Marks the cells whose pairs changed: each by its outline and a sign or, if all are too small for that, all by one ring.
function drawMarks(frame, layer) {
  const found = new Map(), sign = (x, y, words) => layer.append(svg("text", { x, y, class: "over sign" }, words));
  const mark = (tag, at, kind) => layer.append(svg(tag, { ...at, class: "halo" }), svg(tag, { ...at, class: `mark ${kind}` }));
  for (const [at, , before, after] of change()) {
    const kind = kindOf(before, after), place = placeOf(frame, cells[at]);
    if (place) found.set(at, { place, kind: (found.get(at)?.kind ?? kind) === kind ? kind : "changed" });
  }
  const all = [...found.values()], kinds = tally(all.map(({ kind }) => kind));
  if (all.length > 0 && all.every(({ place }) => place.width < LEAST_MARKED)) {
    const { left, right, x, y, low, high } = boxOf(all);
    const words = kinds.map(([kind, number]) => SIGNS[kind] + number).join(" "), half = words.length * SIGN / 2;
    const r = Math.max(Math.hypot(right - left, high - low) / 2 + 5, 11), away = r + half + 5;
    mark("circle", { cx: x, cy: y, r }, kinds.length > 1 ? "changed" : kinds[0][0]);
    return sign(Math.max(x + away + half < frame.pixels ? x + away : x - away, half), y, words);
  }
  for (const { place: { x, y, width, height }, kind } of all) {
    mark("rect", { x: x + 2, y: y + 2, width: Math.max(width - 4, 1), height: Math.max(height - 4, 1) }, kind);
    if (width >= 24) sign(x + 12, y + 12, SIGNS[kind]);
  }
}

// Outlines the cells of the label that is picked: a line around all of them or, if they are too small for that, a ring.
function drawOutline(frame, layer, at) {
  const seen = picked === null ? [] : seenIn(frame, cellsNow(picked));
  if (seen.length === 0) return;
  const { left, right, low, high, x, y } = boxOf(seen), id = `beside-${at}`, lines = ["outline halo", "outline"];
  if (Math.max(right - left, high - low) < LEAST_OUTLINED) {
    return layer.append(...lines.map((name) => svg("circle", { cx: x, cy: y, r: LEAST_OUTLINED, class: name })));
  }
  // (what lies beside the squares is seen: so of their borders those that two of them share are not)
  const d = seen.map(({ place: { x, y, width, height } }) => `M${x} ${y}h${width}v${height}h${-width}z`).join("");
  const all = { x: left - 20, y: low - 20, width: right - left + 40, height: high - low + 40 };
  const mask = svg("mask", { id, maskUnits: "userSpaceOnUse", ...all }, svg("rect", { ...all, fill: "#fff" }), svg("path", { d, fill: "#000" }));
  layer.append(mask, ...lines.map((name) => svg("path", { d, class: name, mask: `url(#${id})` })));
}

// Draws what lies over the squares.
function drawOver() {
  const layers = frames.map((frame, at) => {
    const { x, y, pixels, isOfCube } = frame;
    const layer = svg("svg", { x, y, width: pixels, height: pixels, overflow: isOfCube ? "visible" : "hidden" });
    drawMarks(frame, layer);
    drawOutline(frame, layer, at);
    return layer;
  });
  const cellCount = cells.filter(({ isSeen }, at) => isSeen && held[at].size > 0).length;
  byId("marks").replaceChildren(...layers);
  drawNumbers();
  byId("picture").setAttribute("aria-label", `${nameOf(look)}: ${many(cellCount, "cell")} under ${many(extents.size, "label")}`);
}

// The line of a label in the legend.
function lineOf(label) {
  const { most } = extents.get(label), swatch = html("span", { class: "swatch", style: `background: ${shade([label, most])}` });
  const chosen = button(named(label) + (most > 1 ? ` ×${most}` : ""), () => pick(label), { tabindex: -1 });
  chosen.prepend(swatch);
  if (label === picked) chosen.setAttribute("aria-current", "true");
  return html("li", {}, chosen);
}

// Measures a label, and writes its line anew if that is another, or takes it away if the label isn't in the picture.
function tellLabel(label) {
  const before = extents.get(label)?.most;
  measure(label);
  if (extents.get(label)?.most === before) return;
  legend.get(label)?.remove();
  legend.delete(label);
  if (!extents.has(label)) return;
  const after = [...legend.keys()].reduce((least, one) => (one > label ? Math.min(one, least) : least), Infinity);
  legend.set(label, lineOf(label));
  byId("legend").insertBefore(legend.get(label), legend.get(after) ?? null);
}

function setFrames() {
  const one = partOf(look), room = byId("view").parentNode.clientWidth, pixels = one ? Math.min(room, ALONE) : Math.floor(room / 4);
  const face = ([column, row], at) => ({ face: at, i: 0, j: 0, side: FACE, x: pixels * column, y: pixels * row, pixels, isOfCube: true });
  frames = one ? [{ ...one, x: 0, y: 0, pixels }] : data.stairs.map(face);
  return one ? [pixels, pixels] : [4 * pixels, 3 * pixels];
}

function drawFrame({ x, y, pixels, face, isOfCube }) {
  const border = svg("rect", { x, y, width: pixels, height: pixels, class: "border" });
  return isOfCube ? [border, svg("text", { x: x + 7, y: y + pixels - 8 }, `face ${face}`)] : [border];
}

function contextOf([wide, high]) {
  const canvas = byId("squares"), fine = Math.ceil(devicePixelRatio);
  [canvas.width, canvas.height] = [wide * fine, high * fine];
  canvas.getContext("2d").scale(fine, fine);
  return canvas.getContext("2d");
}

// Draws all of what is looked at, as wide as there is room, and the legend of its labels.
function drawPicture() {
  const size = setFrames(), [wide, high] = size, context = contextOf(size), style = getComputedStyle(document.documentElement);
  [paper, ground] = ["--paper", "--face"].map((name) => style.getPropertyValue(name).trim());
  shades.clear();
  byId("picture").setAttribute("viewBox", `0 0 ${wide} ${high}`);
  byId("view").style.maxWidth = `${wide}px`;
  for (const frame of frames) drawSquares(context, frame);
  for (const cell of cells) cell.isSeen = frames.some((frame) => placeOf(frame, cell));
  byId("faces").replaceChildren(...frames.flatMap(drawFrame));
  for (const map of [extents, legend, numberNodes]) map.clear();
  for (const label of [...cellsOf.keys()].sort((one, other) => one - other)) measure(label);
  for (const label of extents.keys()) legend.set(label, lineOf(label));
  byId("legend").replaceChildren(...legend.values());
  byId("numbers").replaceChildren();
  drawOver();
}

// Draws what changed, if the same is looked at as before.
function drawChange(changed) {
  const context = byId("squares").getContext("2d");
  for (const frame of frames) {
    const places = [...changed.cells].map((at) => placeOf(frame, cells[at])).filter((place) => place), region = new Region(frame);
    for (const place of places) region.add(place);
    if (places.length > 0) drawSquares(context, frame, region);
  }
  changed.labels.forEach(tellLabel);
  drawOver();
}
