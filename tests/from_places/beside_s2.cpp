// Coverings, points and outlines, beside S2's own polygons and cells.
#include <algorithm>
#include <cmath>
#include <set>

#include "checks.h"
#include "s2/s2cell.h"
#include "s2/s2cell_id.h"
#include "s2/s2cell_union.h"
#include "s2/s2latlng.h"
#include "s2/s2polygon.h"

namespace {

S2Point PointOf(double latitude, double longitude) { return S2LatLng::FromDegrees(latitude, longitude).ToPoint(); }

std::unique_ptr<S2Polygon> Polygon(const std::vector<Corners>& rings) {
  std::vector<std::unique_ptr<S2Loop>> loops;
  for (const Corners& ring : rings) {
    std::vector<S2Point> points;
    for (const Corner& corner : ring) points.push_back(PointOf(corner.second, corner.first));
    loops.push_back(std::make_unique<S2Loop>(points));
    loops.back()->Normalize();
  }
  auto polygon = std::make_unique<S2Polygon>();
  polygon->InitNested(std::move(loops));
  return polygon;
}

// A shape of stars with holes, beside S2's polygon of the same.
struct Pair {
  Shape shape;
  std::unique_ptr<S2Polygon> polygon;
  double longitude, latitude, reach;
};

Pair Stars(Random* random, int corners) {
  const double reach = std::exp(random->Between(std::log(0.001), std::log(10)));
  const double longitude = random->Between(-160, 160), latitude = random->Between(-70, 70);
  std::vector<Corners> rings = {Star(random, longitude, latitude, reach, corners)};
  if (random->Below(2)) rings.push_back(Star(random, longitude, latitude, reach * 0.3, corners));
  Given given;
  for (const Corners& ring : rings) given.Ring(ring);
  return {Sound(given, "a star"), Polygon(rings), longitude, latitude, reach};
}

bool Covers(const std::vector<uint64_t>& cells, S2CellId leaf) {
  const auto after = std::lower_bound(cells.begin(), cells.end(), leaf.id());
  return (after != cells.end() && S2CellId(*after).contains(leaf)) || (after != cells.begin() && S2CellId(*(after - 1)).contains(leaf));
}

bool AreLevels(const std::vector<uint64_t>& cells, int min_level, int max_level) {
  return std::all_of(cells.begin(), cells.end(), [=](uint64_t id) {
    const S2CellId cell(id);
    return cell.is_valid() && cell.level() >= min_level && cell.level() <= max_level;
  });
}

void CheckCoverings(Random* random, const Pair& pair) {
  const uint32_t max_cells = static_cast<uint32_t>(8 + random->Below(100));
  const std::vector<uint64_t> outer = Cells(s2ix_shape_cover, pair.shape.get(), max_cells, 0, 30);
  const std::vector<uint64_t> inner = Cells(s2ix_shape_cover_inside, pair.shape.get(), max_cells, 0, 30);
  Check(outer.size() <= max_cells && inner.size() <= max_cells && !inner.empty(), "no more cells than asked for");
  Check(std::is_sorted(outer.begin(), outer.end()) && std::is_sorted(inner.begin(), inner.end()), "cells rise");
  size_t missed = 0, beyond = 0;
  for (int at = 0; at < 2000; at++) {
    const double latitude = pair.latitude + pair.reach * random->Between(-1, 1), longitude = pair.longitude +
        pair.reach * random->Between(-1, 1);
    const S2Point point = PointOf(latitude, longitude);
    const bool is_inside = pair.polygon->Contains(point);
    missed += is_inside && !Covers(outer, S2CellId(point));
    beyond += !is_inside && Covers(inner, S2CellId(point));
  }
  for (uint64_t id : inner) {
    const S2Cell cell{S2CellId(id)};
    beyond += !pair.polygon->Contains(cell);
    for (int corner = 0; corner < 4; corner++) beyond += !pair.polygon->Contains(cell.GetVertex(corner));
  }
  for (int loop = 0; loop < pair.polygon->num_loops(); loop++) {
    for (const S2Point& corner : pair.polygon->loop(loop)->vertices_span()) missed += !Covers(outer, S2CellId(corner));
  }
  Check(missed == 0, "the outer covering misses " + std::to_string(missed) + " points inside");
  Check(beyond == 0, "the inner covering has " + std::to_string(beyond) + " points or cells outside");
}

// Which cells of an outer covering, and of their children, lie within a shape, beside S2's polygon and points of these cells.
void CheckWithin(Random* random, const Pair& pair) {
  std::vector<uint64_t> cells = Cells(s2ix_shape_cover, pair.shape.get(), 20, 0, 28);
  for (size_t at = 0, outer = cells.size(); at < outer; at++) {
    cells.push_back(S2CellId(cells[at]).child(static_cast<int>(random->Below(4))).id());
  }
  const auto inside = std::make_unique<bool[]>(cells.size());
  size_t wrong = 9;
  Check(s2ix_shape_has_each(pair.shape.get(), cells.data(), cells.size(), inside.get(), &wrong) == S2IX_PLACES_DONE && wrong == 0,
        "cells are looked at");
  size_t unlike = 0, outside = 0;
  for (size_t at = 0; at < cells.size(); at++) {
    const S2CellId cell(cells[at]);
    unlike += inside[at] != pair.polygon->Contains(S2Cell(cell));
    for (int point = 0; inside[at] && point < 20; point++) {
      const S2CellId leaf = cell.child_begin(S2CellId::kMaxLevel).advance(static_cast<int64_t>(random->Below(cell.lsb())));
      outside += !pair.polygon->Contains(leaf.ToPoint());
    }
  }
  Check(unlike == 0, std::to_string(unlike) + " cells lie otherwise within a shape than S2 says");
  Check(outside == 0, std::to_string(outside) + " points of cells within a shape are outside");
}

void CheckLevels() {
  const Shape box = Sound(Given().Ring(Box(8, 47, 9, 48)), "a box to cover");
  for (uint32_t level : {5u, 8u, 11u}) {
    Check(AreLevels(Cells(s2ix_shape_cover, box.get(), 8, level, level), level, level), "an outer covering of one level");
    Check(AreLevels(Cells(s2ix_shape_cover_inside, box.get(), 8, level, level), level, level), "an inner covering of one level");
    Check(AreLevels(Cells(s2ix_shape_cover, box.get(), 20, 4, level), 4, level), "an outer covering between levels");
  }
  const Shape sliver = Sound(Given().Ring({{0, 0}, {90, 0}, {90, 1e-9}}), "a sliver");
  Check(Cells(s2ix_shape_cover_inside, sliver.get(), 50, 0, 30).empty(), "a sliver has no inner cells, and that is soon found");
  Check(Cells(s2ix_shape_cover, sliver.get(), 50, 0, 30).size() <= 50, "a sliver is covered");
  const Shape line = Sound(Given().Ring({{0, 0}, {1, 0}, {2, 0}}), "a line");
  Check(Cells(s2ix_shape_cover_inside, line.get(), 50, 0, 30).empty(), "a line has no inner cells");
}

// Points on the edges of neighbours, in their corners, and as near to them as doubles are.
void CheckNeighbours() {
  Random random(7);
  std::vector<Shape> shapes;
  const double sides[] = {10.1, 13.7, 14.3, 20.9}, heights[] = {45.2, 46.6, 48.1, 50.3};
  for (int row = 0; row < 3; row++) {
    for (int column = 0; column < 3; column++) {
      shapes.push_back(Sound(Given().Ring(Box(sides[column], heights[row], sides[column + 1], heights[row + 1])), "a neighbour"));
    }
  }
  std::vector<const s2ix_shape*> given;
  for (const Shape& shape : shapes) given.push_back(shape.get());
  std::vector<double> latitudes, longitudes;
  for (int at = 0; at < 10'000; at++) {
    // (the east and west sides are meridians, so points of their longitudes lie on the edges but for rounding; the corners lie exactly
    // there)
    const size_t side = 1 + random.Below(2);
    double latitude = random.Below(10) ? random.Between(45.5, 50) : heights[1 + random.Below(2)], longitude = sides[side];
    for (size_t steps = random.Below(4); steps > 0; steps--) longitude = std::nextafter(longitude, random.Below(2) ? 90 : 0);
    latitudes.push_back(latitude);
    longitudes.push_back(longitude);
  }
  std::vector<size_t> ends(latitudes.size());
  std::vector<uint32_t> found(2 * latitudes.size());
  size_t number;
  const uint32_t status = s2ix_shapes_at_each(given.data(), given.size(), latitudes.data(), longitudes.data(), latitudes.size(),
      ends.data(),
                                              found.data(), found.size(), &number);
  size_t wrong = 0;
  for (size_t at = 0; at < ends.size(); at++) wrong += ends[at] != at + 1;
  Check(status == S2IX_PLACES_DONE && wrong == 0, std::to_string(wrong) + " points at the rims of neighbours are not in exactly one");
}

void CheckPoints() {
  Random random(11);
  std::vector<Pair> pairs;
  for (int at = 0; at < 10; at++) pairs.push_back(Stars(&random, at < 9 ? 12 : 3000));
  std::vector<const s2ix_shape*> shapes;
  for (const Pair& pair : pairs) shapes.push_back(pair.shape.get());
  std::vector<double> latitudes, longitudes;
  for (int at = 0; at < 100'000; at++) {
    const Pair& pair = pairs[random.Below(pairs.size())];
    latitudes.push_back(pair.latitude + pair.reach * random.Between(-1, 1));
    longitudes.push_back(pair.longitude + pair.reach * random.Between(-1, 1));
  }
  std::vector<size_t> ends(latitudes.size());
  std::vector<uint32_t> found(shapes.size() * latitudes.size());
  size_t number;
  Check(s2ix_shapes_at_each(shapes.data(), shapes.size(), latitudes.data(), longitudes.data(), latitudes.size(), ends.data(), found.data(),
                            found.size(), &number) == S2IX_PLACES_DONE, "100,000 points are answered");
  size_t wrong = 0;
  std::vector<uint32_t> points_of, shapes_of;
  for (size_t at = 0, item = 0; at < ends.size(); at++) {
    const S2Point point = PointOf(latitudes[at], longitudes[at]);
    std::vector<uint32_t> wanted;
    for (size_t shape = 0; shape < pairs.size(); shape++) {
      if (pairs[shape].polygon->Contains(point)) wanted.push_back(static_cast<uint32_t>(shape));
    }
    wrong += !std::equal(wanted.begin(), wanted.end(), found.begin() + item, found.begin() + ends[at]);
    item = ends[at];
    points_of.push_back(static_cast<uint32_t>(at));
    shapes_of.push_back(static_cast<uint32_t>(random.Below(shapes.size())));
  }
  Check(wrong == 0 && number > 20'000, std::to_string(wrong) + " of 100,000 points have other answers than S2's polygons");

  const auto inside = std::make_unique<bool[]>(points_of.size());
  Check(s2ix_shapes_hold_each(shapes.data(), shapes.size(), latitudes.data(), longitudes.data(), latitudes.size(), points_of.data(),
                              shapes_of.data(), points_of.size(), inside.get(), &number) == S2IX_PLACES_DONE && number == 0,
                                  "pairs are answered");
  wrong = 0;
  for (size_t at = 0; at < points_of.size(); at++) {
    const auto begin = found.begin() + (at == 0 ? 0 : ends[at - 1]), end = found.begin() + ends[at];
    wrong += inside[at] != std::binary_search(begin, end, shapes_of[at]);
  }
  Check(wrong == 0, std::to_string(wrong) + " of 100,000 pairs have other answers than the lists");
}

// An outline of cells beside the union itself, at the middles and corners of cells in it and near it.
void CheckOutline(Random* random, const std::vector<uint64_t>& cells, const std::string& what) {
  Outline outline;
  Check(outline.OfCells(cells) == S2IX_PLACES_DONE, what + " has an outline");
  const Read read = ReadShape(outline.given());
  Check(read.status == S2IX_PLACES_DONE, what + " has an outline that is a shape: " + FaultName(read.fault));
  if (!read.shape) return;
  std::vector<S2CellId> ids;
  for (uint64_t cell : cells) ids.push_back(S2CellId(cell));
  const S2CellUnion joined(ids);
  size_t wrong = 0;
  for (int at = 0; at < 200; at++) {
    S2CellId near = ids[random->Below(ids.size())];
    if (random->Below(2) && near.level() > 0) near = near.parent(near.level() - 1);
    S2CellId neighbours[4];
    near.GetEdgeNeighbors(neighbours);
    for (S2CellId cell : {near, neighbours[0], neighbours[1], neighbours[2], neighbours[3]}) {
      const S2CellId leaf = cell.child_begin(S2CellId::kMaxLevel).advance(static_cast<int64_t>(random->Below(cell.lsb())));
      const S2LatLng place = leaf.ToLatLng();
      wrong += Has(read.shape.get(), place.lat().degrees(), place.lng().degrees()) != joined.Contains(leaf);
    }
  }
  Check(wrong == 0, what + ": " + std::to_string(wrong) + " of 1,000 leaves lie on the other side of its outline");
}

void CheckOutlines() {
  Random random(13);
  for (int at = 0; at < 60; at++) {
    std::vector<uint64_t> cells;
    const S2CellId start = S2CellId(PointOf(random.Between(-90, 90), random.Between(-180, 180))).parent(static_cast<int>(2 +
        random.Below(20)));
    for (size_t left = 1 + random.Below(40); left > 0; left--) {
      const int level = std::min(30, start.level() + static_cast<int>(random.Below(6)));
      cells.push_back(start.child_begin(30).advance(static_cast<int64_t>(random.Below(start.lsb()))).parent(level).id());
    }
    CheckOutline(&random, cells, "a union of cells");
  }
  Random stars(17);
  for (int at = 0; at < 10; at++) {
    const Pair pair = Stars(&stars, 30);
    CheckOutline(&stars, Cells(s2ix_shape_cover, pair.shape.get(), 60, 0, 30), "an outer covering");
  }
  const Shape line = Sound(Given().Ring(Box(170, -20, -170, -10)), "over the date line");
  CheckOutline(&stars, Cells(s2ix_shape_cover, line.get(), 30, 0, 30), "a covering over the date line");
  CheckOutline(&stars, {S2CellId::FromFace(2).id()}, "a face");
  std::vector<uint64_t> around;
  S2CellId parent = S2CellId::FromFace(0).child(2);
  for (S2CellId cell = parent.child_begin(4); cell != parent.child_end(4); cell = cell.next()) around.push_back(cell.id());
  around.erase(around.begin() + 7);
  Outline outline;
  Check(outline.OfCells(around) == S2IX_PLACES_DONE && outline.room.rings == 2 && outline.room.polygons == 1, "a missing cell is a hole");
  outline = {};
  Check(outline.OfCells({S2CellId::FromFace(0).child(0).id()}) == S2IX_PLACES_DONE && outline.room.corners == 5, "a cell has four corners");
  outline = {};
  Check(outline.OfCells({}) == S2IX_PLACES_DONE && outline.room.polygons == 0, "no cells have no polygon");
  std::vector<uint64_t> faces;
  for (int face = 0; face < 6; face++) faces.push_back(S2CellId::FromFace(face).id());
  outline = {};
  Check(outline.OfCells(faces) == S2IX_PLACES_WHOLE && outline.room.rings == 0, "the whole sphere has no outline");
  faces.pop_back();
  Check(outline.OfCells(faces) == S2IX_PLACES_DONE && outline.room.polygons == 1, "five faces have an outline");
}

}  // namespace

void CoversShapes() {
  Random random(5);
  for (int at = 0; at < 60; at++) {
    const Pair pair = Stars(&random, 3 + static_cast<int>(random.Below(40)));
    CheckCoverings(&random, pair);
    CheckWithin(&random, pair);
  }
  CheckLevels();
}

void FindsPoints() {
  CheckNeighbours();
  CheckPoints();
}

void DrawsOutlines() { CheckOutlines(); }
