// Draws the squares of cells on a canvas, since stripes of SVG for each mixture of labels would be very many elements: all squares of a frame,
// or what a change touches. A frame is a part of a face and where in the picture it is drawn. Lengths are pixels of the picture: a square that
// is smaller than LEAST is drawn as a dot of that width, and each row of pixels crosses the stripe of a label in STRIPE of them.
const LEAST = 4, STRIPE = 8, BORDER = 0.5;
const shades = new Map();
let paper = "#ffffff", ground = "#ffffff";

// Where a square lies in a frame, in whole pixels and cut off a little outside of it, or null if it shares nothing with it. The dots of a frame
// lie in rows and columns, so that small squares close together are one dot.
function placeOf(frame, { face, i, j, side }) {
  if (face !== frame.face) return null;
  const { pixels } = frame, scale = pixels / frame.side, left = (i - frame.i) * scale, right = (i + side - frame.i) * scale;
  const top = pixels - (j + side - frame.j) * scale, low = pixels - (j - frame.j) * scale;
  if (right <= 0 || low <= 0 || left >= pixels || top >= pixels) return null;
  const isDot = side * scale < LEAST;
  if (isDot) return { x: dotAt((left + right) / 2, pixels), y: dotAt((top + low) / 2, pixels), width: LEAST, height: LEAST, isDot };
  const x = cut(left, pixels), y = cut(top, pixels);
  return { x, y, width: cut(right, pixels) - x, height: cut(low, pixels) - y, isDot };
}
function dotAt(middle, pixels) { return Math.floor(Math.min(Math.max(middle, 0), pixels - 1) / LEAST) * LEAST; }
function cut(at, pixels) { return Math.min(Math.max(Math.round(at), -20), pixels + 20); }

// A part of a frame, made of dots.
class Region {
  constructor({ pixels }) {
    this.pixels = pixels;
    this.across = Math.ceil(pixels / LEAST);
    this.dots = new Uint8Array(this.across ** 2);
  }

  // For each row that a place shares with the frame its dots there.
  *rowsOf({ x, y, width, height }) {
    const within = (at) => Math.min(Math.max(at, 0), this.across), low = within(Math.ceil((y + height) / LEAST));
    const left = within(Math.floor(x / LEAST)), right = within(Math.ceil((x + width) / LEAST));
    for (let row = within(Math.floor(y / LEAST)); row < low; row++) {
      yield this.dots.subarray(row * this.across + left, row * this.across + right);
    }
  }

  whole() {
    this.dots.fill(1);
    return this;
  }

  add(place) { for (const dots of this.rowsOf(place)) dots.fill(1); }

  touches(place) {
    for (const dots of this.rowsOf(place)) if (dots.includes(1)) return true;
    return false;
  }

  // The path around it: a rectangle for each run of dots in a row.
  trace(context) {
    for (let from = this.dots.indexOf(1), to; from >= 0; from = this.dots.indexOf(1, to)) {
      const row = Math.floor(from / this.across), next = this.dots.indexOf(0, from);
      to = Math.min(next < 0 ? Infinity : next, (row + 1) * this.across);
      const x = from % this.across * LEAST, y = row * LEAST;
      context.rect(x, y, Math.min((to - from) * LEAST, this.pixels - x), Math.min(LEAST, this.pixels - y));
    }
  }
}

// The squares that are seen in a frame, or in a region of it, with their cells: the coarse ones first, and of each dot the last one.
function squaresIn(frame, region) {
  const squares = [], dots = new Map();
  for (const at of onFaces[frame.face]) {
    const place = held[at].size > 0 ? placeOf(frame, cells[at]) : null;
    if (!place || region && !region.touches(place)) continue;
    if (place.isDot) dots.set(place.y * frame.pixels + place.x, { at, place }); else squares.push({ at, place });
  }
  return [...squares, ...dots.values()];
}

// The colour of a label: mixed with that of the paper, and stronger the more copies there are.
function shade([label, count]) {
  const colour = label % data.colours.length, share = 100 - Math.floor(data.pale[0] / count), key = 100 * colour + share;
  if (!shades.has(key)) {
    const [some, rest] = [data.colours[colour], paper.slice(1)].map((hex) => [0, 2, 4].map((at) => parseInt(hex.slice(at, at + 2), 16)));
    const mixed = rest.map((channel, at) => channel + Math.floor((some[at] - channel) * share / 100));
    shades.set(key, `#${mixed.map((channel) => channel.toString(16).padStart(2, "0")).join("")}`);
  }
  return shades.get(key);
}

// What a square under some labels is filled with: one colour, or slanted stripes, of which a dot has the one at its middle.
function fillOf(context, laid, { x, y, width, height, isDot }) {
  const from = x + y, long = width + height, stripe = (at) => shade(laid.at(at % laid.length));
  if (laid.length === 1) return shade(laid[0]);
  if (isDot) return stripe(Math.floor((from + LEAST) / STRIPE));
  const gradient = context.createLinearGradient(x, y, x + long / 2, y + long / 2);
  const share = (at) => Math.min(Math.max((at * STRIPE - from) / long, 0), 1);
  for (let at = Math.floor(from / STRIPE); at * STRIPE < from + long; at++) {
    for (const end of [at, at + 1]) gradient.addColorStop(share(end), stripe(at));
  }
  return gradient;
}

// Draws the squares of a frame on its ground, or only those that touch a region of it, and only there. Returns how many.
function drawSquares(context, frame, region) {
  const { x, y, pixels } = frame, found = squaresIn(frame, region);
  const fill = (colour, { x, y, width, height }, inset) => {
    context.fillStyle = colour;
    context.fillRect(x + inset, y + inset, width - 2 * inset, height - 2 * inset);
  };
  context.save();
  context.translate(x, y);
  context.beginPath();
  (region ?? new Region(frame).whole()).trace(context);
  context.clip();
  fill(ground, { x: 0, y: 0, width: pixels, height: pixels }, 0);
  for (const { at, place } of found) {
    if (!place.isDot) fill(paper, place, 0);
    fill(fillOf(context, laidOver(at), place), place, place.isDot ? 0 : BORDER);
  }
  context.restore();
  return found.length;
}

// The last cell that is drawn at a point of a frame.
function cellAt(frame, x, y) {
  const isOn = (place) => place && x >= place.x && x < place.x + place.width && y >= place.y && y < place.y + place.height;
  return onFaces[frame.face].findLast((at) => held[at].size > 0 && isOn(placeOf(frame, cells[at])));
}
