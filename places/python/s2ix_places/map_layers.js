// The zones on the map: a layer of Leaflet for each version of a zone, shown and hidden as steps come and go, and marks of a step's change.
const COLOURS = ["#3f7fbf", "#d9822b", "#5a9e3c", "#b3548f", "#8a6d3b", "#7561b8", "#2f9c95", "#c05746", "#a3a13a", "#5e7a99", "#e0779b",
  "#4f6d2f"];
const ADDED = "#00703c", REMOVED = "#b3001b", PICKED = "#111111";
// Zones whose boxes are this near, in parts of their size, should have different colours.
const NEAR = 0.1;
// If a step changes more zones than this, only their outlines are marked, so many in a layer.
const MOST_STRIPED = 100, OUTLINED_AT_ONCE = 20;
const { held, steps } = historyOf(data);
let step = 0;

// Steps as lists of [zone, version before, version after], and which version of each zone is held; -1 is none.
function historyOf({ zones, steps }) {
  const listed = steps.map(({ entries, ...words }) => {
    const rows = [];
    for (let at = 0; at < entries.length; at += 3) rows.push(entries.slice(at, at + 3));
    return { ...words, entries: rows };
  });
  return { held: zones.map(() => -1), steps: listed };
}

// A colour for each zone, from west to east: the one that is rarest among the zones before it that lie near.
function coloursOf() {
  const boxes = data.zones.map(() => null), placed = [], chosen = [];
  for (const { zone, box } of versions) boxes[zone] ??= box;
  const order = boxes.map((box, zone) => zone).sort((one, other) => boxes[one].west - boxes[other].west);
  const widest = boxes.reduce((most, { west, east }) => Math.max(most, east - west), 0);
  order.forEach((zone, turn) => {
    const { west, east, south, north } = boxes[zone], margin = NEAR * Math.max(east - west, north - south), uses = COLOURS.map(() => 0);
    for (let at = placed.length - 1; at >= 0 && placed[at].west > west - margin - widest; at--) {
      const box = placed[at], isBeside = box.west < east + margin && box.east > west - margin;
      if (isBeside && box.south < north + margin && box.north > south - margin) uses[chosen[order[at]]] += 1;
    }
    const least = Math.min(...uses);
    chosen[zone] = COLOURS.map((_, at) => (turn + at) % COLOURS.length).find((at) => uses[at] === least);
    placed.push(boxes[zone]);
  });
  return chosen.map((at) => COLOURS[at]);
}
const colours = coloursOf();

// Stripes to fill with, from bottom to top or from top to bottom.
function stripes(colour, rises) {
  const tile = document.createElement("canvas"), context = tile.getContext("2d");
  tile.width = tile.height = 8;
  context.strokeStyle = colour;
  context.lineWidth = 2;
  for (const by of [-8, 0, 8]) {
    context.moveTo(by, rises ? 8 : 0);
    context.lineTo(by + 8, rises ? 0 : 8);
  }
  context.stroke();
  return context.createPattern(tile, "repeat");
}

// A canvas whose shapes may leave out what another of its shapes covers.
const Marks = L.Canvas.extend({
  _updatePoly(layer, closed) {
    const draw = () => L.Canvas.prototype._updatePoly.call(this, layer, closed), { without } = layer.options;
    if (!without || !this._drawing) return draw();
    const context = this._ctx, { min, max } = this._bounds;
    context.save();
    context.beginPath();
    context.rect(min.x, min.y, max.x - min.x, max.y - min.y);
    for (const part of without._parts) {
      part.forEach(({ x, y }, at) => (at === 0 ? context.moveTo(x, y) : context.lineTo(x, y)));
      context.closePath();
    }
    context.clip("evenodd");
    draw();
    context.restore();
  },
});

const map = L.map("map", {
  attributionControl: false, keyboard: false, zoomSnap: 0.25, maxBoundsViscosity: 1, minZoom: 1, maxZoom: 22,
  maxBounds: [[-89, seam - 180], [89, seam + 540]], fadeAnimation: false,
});
for (const [name, height] of [["land", 210], ["zones", 400], ["marks", 450], ["names", 500]]) {
  map.createPane(name).style.zIndex = height;
  map.getPane(name).style.pointerEvents = "none";
}
const zoneCanvas = L.canvas({ pane: "zones", padding: 0.1 }), markCanvas = new Marks({ pane: "marks", padding: 0.1 });
const asPlaces = (polygons) => polygons.map((rings) => rings.map((ring) => ring.map(([longitude, latitude]) => [latitude, longitude])));

// The layer of a version, made when it is first shown.
function layerOf(number) {
  const version = versions[number], colour = colours[version.zone];
  version.layer ??= L.polygon(asPlaces(version.lines), { renderer: zoneCanvas, interactive: false, color: colour, weight: 1,
    opacity: 1, fillColor: colour, fillOpacity: 0.36 });
  return version.layer;
}

// What the step that is shown changes.
function entriesNow() { return step > 0 ? steps[step - 1].entries : []; }

// Goes to a step, and shows and hides what differs.
function holdStep(given) {
  const before = held.slice();
  for (; step < given; step++) for (const [zone, , after] of steps[step].entries) held[zone] = after;
  for (; step > given; step--) for (const [zone, earlier] of steps[step - 1].entries) held[zone] = earlier;
  before.forEach((number, zone) => {
    if (number === held[zone]) return;
    if (number >= 0) layerOf(number).remove();
    if (held[zone] >= 0) layerOf(held[zone]).addTo(map);
  });
}

const added = stripes(ADDED, true), removed = stripes(REMOVED, false);
const OUTLINES = {
  added: { color: ADDED, weight: 2.5 }, removed: { color: REMOVED, weight: 2.5, dashArray: "7 5" },
  same: { color: ADDED, weight: 2.5, dashArray: "2 5" },
};
let marks = [], outline = null;

// A shape over the zones, from the places of a version's layer.
function mark(places, options) {
  const layer = L.polygon(places, { renderer: markCanvas, interactive: false, fill: false, ...options });
  marks.push(layer.addTo(map));
  return layer;
}

// Marks what the step added and took away: with outlines and stripes or, if that is much, with outlines alone.
function markChange() {
  for (const layer of marks) layer.remove();
  marks = [];
  const entries = entriesNow(), placesOf = (number) => layerOf(number).getLatLngs();
  if (entries.length > MOST_STRIPED) return outlineAll(entries, placesOf);
  for (const [, before, after] of entries) {
    if (before >= 0 && after >= 0 && isSameShape(before, after)) {
      mark(placesOf(after), OUTLINES.same);
      continue;
    }
    const earlier = before >= 0 && mark(placesOf(before), OUTLINES.removed), later = after >= 0 && mark(placesOf(after), OUTLINES.added);
    const fill = { stroke: false, fill: true, fillOpacity: 0.8 };
    if (earlier) mark(placesOf(before), { ...fill, fillColor: removed, without: later });
    if (later) mark(placesOf(after), { ...fill, fillColor: added, without: earlier });
  }
}

// Outlines of many zones, some of them in each layer.
function outlineAll(entries, placesOf) {
  for (const [at, options] of [[1, OUTLINES.removed], [2, OUTLINES.added]]) {
    const numbers = entries.map((entry) => entry[at]).filter((number) => number >= 0);
    for (let from = 0; from < numbers.length; from += OUTLINED_AT_ONCE) {
      mark(numbers.slice(from, from + OUTLINED_AT_ONCE).flatMap(placesOf), { ...options, weight: 1.5 });
    }
  }
}

// Whether two versions differ only in their properties.
function isSameShape(one, other) { return JSON.stringify(versions[one].lines) === JSON.stringify(versions[other].lines); }

// Draws a thick line around a version, or takes it away.
function outlineOf(number) {
  outline?.remove();
  outline = null;
  if (number < 0) return;
  const options = { renderer: markCanvas, interactive: false, fill: false, color: PICKED, weight: 4 };
  outline = L.polygon(layerOf(number).getLatLngs(), options).addTo(map);
}

// The versions that are held at a place, those of smaller boxes first.
function versionsAt({ lat, lng }) {
  const sizeOf = (number) => (({ west, east, south, north }) => (east - west) * (north - south))(versions[number].box);
  return held.filter((number) => number >= 0 && isWithin(versions[number], lng, lat)).sort((one, other) => sizeOf(one) - sizeOf(other));
}

// The box around some versions, for the map to show; the whole map, if there are none.
function boundsOf(numbers) {
  const bounds = L.latLngBounds([]);
  for (const number of numbers) {
    const { south, west, north, east } = versions[number].box;
    bounds.extend([Math.max(south, -85), west]).extend([Math.min(north, 85), east]);
  }
  return bounds.isValid() ? bounds : L.latLngBounds([-60, seam], [75, seam + 360]);
}

function showAll(numbers) { map.fitBounds(boundsOf(numbers), { padding: [24, 24], maxZoom: 17, animate: false }); }
