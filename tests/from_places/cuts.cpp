// Outlines cut along longitude 180: each edge lies on the map, rings turn as they should, and what is read again is the same shape.
#include <algorithm>
#include <cmath>

#include "checks.h"
#include "s2/s2cell_id.h"
#include "s2/s2cell_union.h"
#include "s2/s2latlng.h"

namespace {

struct Cut : Outline {
  uint32_t CutOf(const s2ix_shape* shape) {
    return Fill([&](s2ix_rings_room* into) { return s2ix_shape_outline_cut(shape, into); });
  }
  uint32_t CutOfCells(const std::vector<uint64_t>& cells) {
    size_t wrong;
    return Fill([&](s2ix_rings_room* into) { return s2ix_cells_outline_cut(cells.data(), cells.size(), into, &wrong); });
  }
};

// No edge goes over the date line, but for those along a pole.
void CheckOnMap(const Outline& cut, const std::string& what) {
  size_t wrong = 0;
  for (size_t ring = 0; ring < cut.ring_ends.size(); ring++) {
    const size_t begin = ring == 0 ? 0 : cut.ring_ends[ring - 1], end = cut.ring_ends[ring];
    wrong += end - begin < 4 || cut.latitudes[begin] != cut.latitudes[end - 1] || cut.longitudes[begin] != cut.longitudes[end - 1];
    for (size_t at = begin; at + 1 < end; at++) {
      const bool is_along_pole = std::abs(cut.latitudes[at]) == 90 && cut.latitudes[at] == cut.latitudes[at + 1];
      wrong += !is_along_pole && std::abs(cut.longitudes[at] - cut.longitudes[at + 1]) > 180;
      wrong += std::abs(cut.longitudes[at]) > 180 || std::abs(cut.latitudes[at]) > 90;
    }
  }
  Check(wrong == 0, what + ": " + std::to_string(wrong) + " edges are not on the map");
}

// Two shapes at points everywhere, and near the seam and the poles.
void CheckAlike(Random* random, const s2ix_shape* one, const s2ix_shape* other, const std::string& what) {
  size_t unlike = 0;
  std::vector<double> latitudes, longitudes;
  for (int at = 0; at < 400; at++) {
    latitudes.push_back(at % 4 == 0 ? (random->Below(2) ? 1 : -1) * random->Between(80, 90) : random->Between(-90, 90));
    longitudes.push_back(at % 2 ? std::remainder(180 + random->Between(-20, 20), 360) : random->Between(-180, 180));
  }
  const s2ix_shape* shapes[] = {one, other};
  std::vector<size_t> ends(latitudes.size());
  std::vector<uint32_t> found(2 * latitudes.size());
  size_t number;
  const uint32_t status = s2ix_shapes_at_each(shapes, 2, latitudes.data(), longitudes.data(), latitudes.size(), ends.data(), found.data(),
                                              found.size(), &number);
  for (size_t at = 0; at < ends.size(); at++) unlike += (ends[at] - (at == 0 ? 0 : ends[at - 1])) == 1;
  // (a corner on the seam lies there but for rounding, so a point very near to an edge may change its side; none of these is so near)
  Check(status == S2IX_PLACES_DONE && unlike == 0, what + ": " + std::to_string(unlike) + " points are in one alone");
}

size_t CheckCut(Random* random, const s2ix_shape* shape, const std::string& what) {
  Cut cut;
  Check(cut.CutOf(shape) == S2IX_PLACES_DONE, what + " is cut");
  CheckOnMap(cut, what);
  const Read read = ReadShape(cut.given());
  Check(read.status == S2IX_PLACES_DONE, what + " is cut into what is a shape: " + FaultName(read.fault));
  if (read.shape) CheckAlike(random, shape, read.shape.get(), what);
  return cut.room.polygons;
}

// A star around a pole, and in turn with corners on the seam.
Corners Polar(Random* random, int corners, double from, double to) {
  Corners star;
  for (int at = 0; at < corners; at++) star.push_back({-180 + 360.0 * at / corners, random->Between(from, to)});
  return star;
}

void CutsStars() {
  Random random(31);
  size_t cut = 0;
  for (int at = 0; at < 300; at++) {
    const double reach = std::exp(random.Between(std::log(0.01), std::log(50))), latitude = random.Between(-30, 30);
    const int corners = static_cast<int>(3 + random.Below(20));
    Given given;
    given.Ring(Star(&random, 180 + random.Between(-1, 1) * reach, latitude, reach, corners));
    if (random.Below(2)) {
      given = Given().Ring(Star(&random, 180, latitude, reach, 16)).Ring(Star(&random, 180 + random.Between(-0.3, 0.3) * reach, latitude,
          reach * 0.2, 5));
    }
    const Read read = ReadShape(given);
    if (read.shape) cut += CheckCut(&random, read.shape.get(), "a star") > 1;
  }
  Check(cut > 150, "most stars are cut: " + std::to_string(cut));
}

void CutsAtPoles() {
  Random random(37);
  for (int at = 0; at < 100; at++) {
    const double sign = random.Below(2) ? 1 : -1;
    Corners outer = Polar(&random, static_cast<int>(3 + random.Below(20)), 20, 60), inner = Polar(&random, 12, 70, 80);
    for (Corners* ring : {&outer, &inner}) {
      for (Corner& corner : *ring) corner.second *= sign;
    }
    Given given = Given().Ring(outer);
    if (random.Below(2)) given.Ring(inner);
    const Read read = ReadShape(given);
    if (read.shape) CheckCut(&random, read.shape.get(), "a star around a pole");
  }
  const Shape wedge = Sound(Given().Ring({{10, 60}, {50, 60}, {0, 90}}), "a wedge");
  Check(CheckCut(&random, wedge.get(), "a wedge") == 1, "a wedge is one polygon");
  const Shape across = Sound(Given().Ring({{170, 60}, {-150, 60}, {0, 90}}), "a wedge over the date line");
  Check(CheckCut(&random, across.get(), "a wedge over the date line") == 2, "a wedge over the date line is two polygons");
  const Shape over = Sound(Given().Ring({{10, 80}, {100, 80}, {-170, 80}}), "an edge over a pole");
  CheckCut(&random, over.get(), "an edge over a pole");
  const Shape half = Sound(Given().Ring({{-180, 0}, {-90, 0}, {0, 0}, {90, 0}}), "half the sphere");
  CheckCut(&random, half.get(), "half the sphere");
}

void CutsAlongTheSeam() {
  Random random(41);
  const auto cut = [&](const Given& given, size_t polygons, const std::string& what) {
    const size_t number = CheckCut(&random, Sound(given, what).get(), what);
    Check(number == polygons, what + ": " + std::to_string(number) + " polygons");
  };
  cut(Given().Ring(Box(10, 40, 20, 50)).Ring(Box(13, 43, 17, 47)), 1, "far from the seam");
  cut(Given().Ring(Box(170, -20, -170, -10)), 2, "a box over the seam");
  cut(Given().Ring(Box(170, -20, 180, -10)), 1, "a box on one side");
  cut(Given().Ring(Box(-180, -20, -170, -10)), 1, "a box on the other side");
  cut(Given().Ring(Box(170, -20, -170, -10)).Ring(Box(175, -17, -175, -13)), 2, "a hole over the seam");
  cut(Given().Ring(Box(170, -20, -170, -10)).Ring(Box(175, -17, 180, -13)), 2, "a hole on one side");
  cut(Given().Ring(Box(170, -20, -170, -10)).Ring({{175, -17}, {180, -15}, {175, -13}}), 2, "a hole that touches the seam");
  cut(Given().Ring(Box(170, -20, -170, -10)).Ring(Box(172, -17, 174, -13)), 2, "a hole in one half");
  cut(Given().Ring({{170, 0}, {180, 5}, {170, 10}}).Next().Ring({{-170, 0}, {-170, 10}, {180, 5}}), 2, "two that touch on the seam");
  cut(Given().Ring({{170, 0}, {-175, 1}, {175, 2}, {-175, 3}, {175, 4}, {-170, 5}, {-170, 9}, {170, 9}}), 4,
      "a ring that goes over it often");
}

// Unions of cells near the seam and the poles: their leaves are on the same side as before.
void CutsCells() {
  Random random(43);
  for (int at = 0; at < 60; at++) {
    std::vector<uint64_t> cells;
    const double latitude = at % 3 ? random.Between(-40, 40) : random.Between(84, 90);
    const int level = static_cast<int>(2 + random.Below(15));
    const S2CellId near = S2CellId(S2LatLng::FromDegrees(latitude, 180)).parent(level);
    for (size_t left = 1 + random.Below(30); left > 0; left--) {
      std::vector<S2CellId> around;
      near.AppendAllNeighbors(level, &around);
      cells.push_back(around[random.Below(around.size())].id());
    }
    Cut cut;
    Outline whole;
    Check(cut.CutOfCells(cells) == S2IX_PLACES_DONE && whole.OfCells(cells) == S2IX_PLACES_DONE, "cells are cut");
    CheckOnMap(cut, "cells");
    const Read one = ReadShape(whole.given()), other = ReadShape(cut.given());
    Check(one.shape && other.shape, "cells are shapes: " + FaultName(one.fault) + ", " + FaultName(other.fault));
    if (one.shape && other.shape) CheckAlike(&random, one.shape.get(), other.shape.get(), "cells");
  }
  std::vector<uint64_t> faces;
  for (int face = 0; face < 5; face++) faces.push_back(S2CellId::FromFace(face).id());
  Cut five;
  Check(five.CutOfCells(faces) == S2IX_PLACES_DONE && five.room.polygons == 1, "five faces are one polygon");
  CheckOnMap(five, "five faces");
  faces.erase(faces.begin());
  Cut around;
  Check(around.CutOfCells(faces) == S2IX_PLACES_DONE && around.room.polygons >= 1, "four faces");
  CheckOnMap(around, "four faces");
  const std::vector<uint64_t> most = {S2CellId::FromFace(1).id(), S2CellId::FromFace(2).id(), S2CellId::FromFace(3).id(),
                                      S2CellId::FromFace(4).id(), S2CellId::FromFace(5).id()};
  Cut map;
  Check(map.CutOfCells(most) == S2IX_PLACES_DONE && map.room.polygons == 1 && map.room.rings == 2,
      "all but a face are the map with a hole");
  CheckOnMap(map, "all but a face");
}

}  // namespace

void CutsOutlines() {
  CutsStars();
  CutsAtPoles();
  CutsAlongTheSeam();
  CutsCells();
}
