// The names of zones on the map, as many as have room: those of changed zones first, then those of large ones. No two lie over one another.
const MOST_NAMES = 150, NAME_HEIGHT = 16, LETTER = 7, LONGEST = 24;

// A name as short as a map can have it.
function shortened(words) { return words.length > LONGEST ? `${words.slice(0, LONGEST - 1)}…` : words; }

function drawNames() {
  const size = map.getSize(), taken = [], names = [], changed = new Set(entriesNow().map(([zone]) => zone));
  const isChanged = ({ number }) => changed.size <= MOST_STRIPED && changed.has(versions[number].zone);
  const boxes = held.filter((number) => number >= 0).map((number) => {
    const { west, east, south, north } = versions[number].box;
    const from = map.latLngToContainerPoint([north, west]), to = map.latLngToContainerPoint([south, east]);
    return { number, from, to, wide: to.x - from.x, high: to.y - from.y };
  }).filter(({ from, to }) => from.x < size.x && to.x > 0 && from.y < size.y && to.y > 0);
  boxes.sort((one, other) => isChanged(other) - isChanged(one) || other.wide * other.high - one.wide * one.high);
  for (const { number, wide, high } of boxes) {
    const version = versions[number], words = shortened(version.name), room = words.length * LETTER;
    if (names.length >= MOST_NAMES) break;
    if (wide < room * 0.8 || high < NAME_HEIGHT) continue;
    const { latitude, longitude } = version.middle ??= middleOf(version), { x, y } = map.latLngToContainerPoint([latitude, longitude]);
    const isFree = taken.every(([left, top, width]) => Math.abs(x - left) > (room + width) / 2 + 4 || Math.abs(y - top) > NAME_HEIGHT + 2);
    if (!isFree || x < -room || y < 0 || x > size.x + room || y > size.y) continue;
    taken.push([x, y, room]);
    names.push(nameAt(words, map.containerPointToLayerPoint([x, y])));
  }
  map.getPane("names").replaceChildren(...names);
}

function nameAt(words, { x, y }) {
  const label = document.createElement("bdi");
  label.className = "zone-name leaflet-zoom-hide";
  label.textContent = words;
  L.DomUtil.setPosition(label, L.point(Math.round(x), Math.round(y)));
  return label;
}
