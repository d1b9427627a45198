// What lies beneath the zones: tiles or countries, and a grid of degrees with numbers at its edges.
// The steps that the grid may have, in degrees.
const GRID_STEPS = [30, 15, ...[10, 1, 0.1, 0.01, 1e-3, 1e-4, 1e-5].flatMap((unit) => [unit, unit / 2, unit / 5])];
const LAND = { interactive: false, color: "#b9b29f", weight: 1, fillColor: "#f7f4ec", fillOpacity: 1 };
// Grid lines are at least so many pixels apart.
const GRID_PIXELS = 110, MOST_SOUTH = 85.0511, MOST_COAST_ZOOM = 8;
const groundCanvas = L.canvas({ pane: "land", padding: 0.2 });
const grid = L.layerGroup().addTo(map), gridNumbers = document.createElement("div");
gridNumbers.id = "degrees";
gridNumbers.setAttribute("aria-hidden", "true");
byId("map").append(gridNumbers);

// Countries are drawn as far as their coarse corners are no wrong picture, beyond that plain ground.
function drawLand() {
  const land = [], rings = data.coasts.map((numbers) => ringOf(numbers, 100));
  for (const by of [-360, 0, 360]) for (const ring of rings) {
    const { west, east } = boxOf(ring);
    if (east + by > seam - 180 && west + by < seam + 540) land.push([ring.map(([x, y]) => [y, x + by])]);
  }
  const layer = L.polygon(land, { ...LAND, renderer: groundCanvas });
  const show = () => {
    const isCoarse = map.getZoom() > MOST_COAST_ZOOM;
    byId("map").classList.toggle("plain", isCoarse);
    if (isCoarse === map.hasLayer(layer)) (isCoarse ? layer.remove() : layer.addTo(map).bringToBack());
  };
  show();
  map.on("zoomend", show);
}

// A degree in words, with as many digits as the grid's step has.
function inDegrees(value, digits, [more, less]) {
  const size = Math.abs(value).toFixed(digits);
  return `${size}°${Number(size) === 0 ? "" : value > 0 ? more : less}`;
}

// The finest step of the grid whose lines are far enough apart.
function gridStep() {
  const { lat, lng } = map.getCenter(), here = map.project([lat, lng]);
  const wide = map.project([lat, lng + 1e-3]).x - here.x, pixels = wide * 1000;
  return GRID_STEPS.filter((each) => each * pixels >= GRID_PIXELS).pop() ?? GRID_STEPS[0];
}

function drawGrid() {
  const bounds = map.getBounds().pad(0.2), by = gridStep(), digits = Math.max(0, Math.round(-Math.log10(by) + 0.49));
  const south = Math.max(bounds.getSouth(), -MOST_SOUTH), north = Math.min(bounds.getNorth(), MOST_SOUTH), lines = [], numbers = [];
  const number = (words, style) => {
    const label = document.createElement("span");
    label.textContent = words;
    Object.assign(label.style, style);
    numbers.push(label);
  };
  for (let at = Math.ceil(bounds.getWest() / by); at * by <= bounds.getEast(); at++) {
    lines.push([[south, at * by], [north, at * by]]);
    const { x } = map.latLngToContainerPoint([0, at * by]);
    number(inDegrees(at * by - 360 * Math.floor((at * by + 180) / 360), digits, "EW"), { left: `${x + 3}px`, bottom: "2px" });
  }
  for (let at = Math.ceil(south / by); at * by <= north; at++) {
    lines.push([[at * by, bounds.getWest()], [at * by, bounds.getEast()]]);
    const { y } = map.latLngToContainerPoint([at * by, 0]);
    number(inDegrees(at * by, digits, "NS"), { right: "4px", top: `${y - 16}px` });
  }
  grid.clearLayers();
  L.polyline(lines, { renderer: groundCanvas, interactive: false, color: "#2f4858", weight: 1, opacity: 0.22 }).addTo(grid);
  gridNumbers.replaceChildren(...numbers);
}

function drawGround() {
  if (data.tiles) L.tileLayer(data.tiles, { maxZoom: 22, maxNativeZoom: 19 }).addTo(map);
  if (data.coasts.length > 0) drawLand();
  else byId("map").classList.add("plain");
  drawGrid();
  map.on("moveend resize", drawGrid);
  map.on("move", () => { gridNumbers.replaceChildren(); });
  if (data.attribution) {
    const credit = document.createElement("p");
    credit.id = "credit";
    credit.textContent = data.attribution;
    byId("view").append(credit);
  }
}
