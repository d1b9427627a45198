// Shapes on the sphere: the corners of each version of a zone, its lines as the map draws them, and whether a place lies within.
const RADIAN = Math.PI / 180;
// Edges are drawn as so many pieces that they lie within so many degrees of the shortest line (about half a metre); at most this many.
const BEND = 5e-6, MOST_PIECES = 256;
const byId = (id) => document.getElementById(id), data = JSON.parse(byId("data").textContent);

// A ring of corners [longitude, latitude] from a first corner and differences, in parts of a degree.
function ringOf(numbers, units) {
  const ring = [];
  for (let at = 0, x = 0, y = 0; at < numbers.length; at += 2) ring.push([(x += numbers[at]) / units, (y += numbers[at + 1]) / units]);
  return ring;
}

// A longitude that is the same as another one, but for whole turns, and nearest to a third.
function near(longitude, other) { return longitude - 360 * Math.round((longitude - other) / 360); }

// The same ring with longitudes that run on over the date line. A corner on a pole becomes two, at the longitudes beside it.
function unrolled(ring) {
  const isPole = ([, latitude]) => Math.abs(latitude) === 90;
  const start = ring.findIndex((corner, at) => isPole(corner) && !isPole(ring[(at + 1) % ring.length])) + 1;
  const line = [];
  let last = null, pole = null;
  for (const [longitude, latitude] of [...ring.slice(start), ...ring.slice(0, start)]) {
    if (isPole([longitude, latitude])) {
      if (pole === null) line.push([last ?? longitude, latitude]);
      pole = latitude;
      continue;
    }
    const turned = last === null ? longitude : near(longitude, last);
    if (pole !== null) line.push([turned, pole]);
    line.push([turned, latitude]);
    [last, pole] = [turned, null];
  }
  if (pole !== null) return [...line, [line[0][0], pole]];
  const winds = Math.round((near(line[0][0], last) - line[0][0]) / 360);
  return winds === 0 ? line : aroundPole(winds > 0 ? line : line.reverse());
}

// A ring that runs east around the sphere, cut at the date line, and on along the pole on its smaller side.
function aroundPole(line) {
  const next = (at) => at + 1 < line.length ? line[at + 1] : [line[0][0] + 360, line[0][1]];
  const turns = (longitude) => Math.floor((longitude + 180) / 360);
  const at = line.findIndex(([longitude], at) => turns(next(at)[0]) > turns(longitude)), cut = turns(next(at)[0]) * 360 - 180;
  const height = heightAt(cut, line[at], next(at));
  const mean = line.reduce((sum, [x, y], at) => sum + (next(at)[0] - x) * Math.sin((y + next(at)[1]) / 2 * RADIAN), 0);
  const after = line.slice(at + 1).map(([x, y]) => [x - cut - 180, y]), before = line.slice(0, at + 1).map(([x, y]) => [x - cut + 180, y]);
  const pole = mean >= 0 ? 90 : -90;
  return [[-180, height], ...after, ...before, [180, height], [180, pole], [-180, pole]];
}

// The latitude of the shortest line between two corners at a longitude between theirs.
function heightAt(longitude, [x, y], [next, up]) {
  if (Math.abs(y) === 90 && y === up) return y;
  const wide = (next - x) * RADIAN, part = (longitude - x) * RADIAN;
  const slope = (Math.tan(y * RADIAN) * Math.sin(wide - part) + Math.tan(up * RADIAN) * Math.sin(part)) / Math.sin(wide);
  return Math.atan(slope) / RADIAN;
}

// A ring with corners between those of long edges, so that straight pieces follow the shortest lines.
function bent(ring) {
  const line = [];
  ring.forEach((corner, at) => {
    const next = ring[(at + 1) % ring.length], wide = next[0] - corner[0];
    line.push(corner);
    if (Math.abs(wide) < 0.05 || Math.abs(wide) >= 180 || Math.abs(corner[1]) === 90 || Math.abs(next[1]) === 90) return;
    const off = Math.abs(heightAt(corner[0] + wide / 2, corner, next) - (corner[1] + next[1]) / 2);
    const pieces = Math.min(Math.ceil(Math.sqrt(off / BEND)), MOST_PIECES);
    for (let piece = 1; piece < pieces; piece++) {
      const longitude = corner[0] + wide * piece / pieces;
      line.push([longitude, heightAt(longitude, corner, next)]);
    }
  });
  return line;
}

// Whether a ring crosses the meridian from a place to the north pole an odd number of times. A corner on the meridian counts as east of it.
function crossesAbove(ring, longitude, latitude) {
  const { west, east } = ring.box ??= boxOf(ring);
  let odd = false;
  for (let x = longitude + 360 * Math.ceil((west - longitude) / 360); x <= east; x += 360) {
    for (let at = 0, before = ring.length - 1; at < ring.length; before = at++) {
      const one = ring[before], other = ring[at];
      if ((one[0] < x) !== (other[0] < x) && heightAt(x, one, other) > latitude) odd = !odd;
    }
  }
  return odd;
}

// The box around a ring, or around boxes.
function boxOf(ring) {
  let [[west, south]] = ring, [east, north] = [west, south];
  for (const [x, y] of ring) {
    if (x < west) west = x;
    if (x > east) east = x;
    if (y < south) south = y;
    if (y > north) north = y;
  }
  return { west, east, south, north };
}
function boxAround(boxes) { return boxOf(boxes.flatMap(({ west, east, south, north }) => [[west, south], [east, north]])); }

// Whether a version of a zone has a place: within the first ring of a polygon, and in none of its holes.
function isWithin(version, longitude, latitude) {
  const { south, north } = version.box;
  if (latitude < south - BEND || latitude > north + BEND) return false;
  return version.rings.some((rings) => rings.filter((ring) => crossesAbove(ring, longitude, latitude)).length % 2 === 1);
}

// Where the map is cut: in the middle of the widest gap between the zones' longitudes, or at the date line.
function seamOf(versions) {
  const spans = versions.flatMap(({ rings }) => rings.map((each) => {
    const { west, east } = boxOf(each[0]), from = west - 360 * Math.floor((west + 180) / 360);
    return [from, from + east - west];
  })).sort(([one], [other]) => one - other);
  let reach = spans.reduce((most, [, east]) => Math.max(most, east), -Infinity) - 360, widest = 0, seam = -180;
  for (const [west, east] of spans) {
    if (west - reach > widest) [widest, seam] = [west - reach, (west + reach) / 2];
    reach = Math.max(reach, east);
  }
  return seam;
}

// Moves each polygon to the right of the seam.
function movedTo(seam, polygons) {
  return polygons.map((rings) => {
    const { west } = boxOf(rings[0]), start = west - 360 * Math.floor((west - seam) / 360);
    return rings.map((ring) => {
      // (a hole that touches the outer ring may begin a little before it)
      const by = 360 * Math.ceil((start - boxOf(ring).west) / 360 - 1e-9);
      return by === 0 ? ring : ring.map(([x, y]) => [x + by, y]);
    });
  });
}

// A place within a version where its name can stand: the middle of its widest part, along some parallels.
function middleOf(version) {
  let best = { wide: -1 };
  for (const lines of version.lines) {
    const { south, north } = boxOf(lines[0]);
    for (const part of [0.5, 0.4, 0.6, 0.3, 0.7]) {
      const latitude = south + (north - south) * part, ends = [];
      for (const line of lines) line.forEach(([x, y], at) => {
        const [next, up] = line[(at + 1) % line.length];
        if ((y < latitude) !== (up < latitude)) ends.push(x + (latitude - y) / (up - y) * (next - x));
      });
      ends.sort((one, other) => one - other);
      for (let at = 1; at < ends.length; at += 2) {
        const wide = ends[at] - ends[at - 1];
        if (wide > best.wide * 1.1) best = { wide, latitude, longitude: (ends[at] + ends[at - 1]) / 2 };
      }
    }
  }
  return best;
}

const versions = data.versions.map(([zone, name, properties, polygons]) => ({
  zone, name: name || data.zones[zone], properties, rings: polygons.map((rings) => rings.map((ring) => unrolled(ringOf(ring, data.units)))),
}));
const seam = seamOf(versions);
for (const version of versions) {
  version.rings = movedTo(seam, version.rings);
  version.lines = version.rings.map((rings) => rings.map(bent));
  version.box = boxAround(version.lines.map(([outer]) => boxOf(outer)));
}
