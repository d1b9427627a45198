// How shapes are read: sound ones in all forms, each fault with its ring, and faults that are mended.
#include <algorithm>
#include <cmath>
#include <limits>

#include "checks.h"

namespace {

// Two shapes that are to have the same points of a grid, and of a belt around the date line.
void CheckAlike(const s2ix_shape* one, const s2ix_shape* other, const std::string& what) {
  std::vector<double> latitudes, longitudes;
  for (double latitude = -89.5; latitude < 90; latitude += 3.7) {
    for (double longitude = -180; longitude <= 180; longitude += 4.9) latitudes.push_back(latitude), longitudes.push_back(longitude);
    for (double longitude : {179.999, -179.999, 180.0, -180.0}) latitudes.push_back(latitude), longitudes.push_back(longitude);
  }
  std::vector<size_t> ends(latitudes.size());
  std::vector<uint32_t> found(2 * latitudes.size());
  const s2ix_shape* shapes[] = {one, other};
  size_t number = 0;
  const uint32_t status = s2ix_shapes_at_each(shapes, 2, latitudes.data(), longitudes.data(), latitudes.size(), ends.data(), found.data(),
                                              found.size(), &number);
  Check(status == S2IX_PLACES_DONE && number > 0, what + ": points are found");
  size_t unlike = 0;
  for (size_t at = 0; at < ends.size(); at++) unlike += (ends[at] - (at == 0 ? 0 : ends[at - 1])) == 1;
  Check(unlike == 0, what + ": " + std::to_string(unlike) + " points are in one alone");
}

size_t PolygonsOf(const s2ix_shape* shape, size_t rings, const std::string& what) {
  Outline outline;
  Check(outline.Of(shape) == S2IX_PLACES_DONE && outline.room.rings == rings, what + ": " + std::to_string(outline.room.rings) + " rings");
  return outline.room.polygons;
}

void ReadsHoles() {
  const Corners outer = Box(10, 40, 20, 50), inner = Box(13, 43, 17, 47);
  for (int form = 0; form < 4; form++) {
    Corners ring = outer, hole = inner;
    if (form & 1) std::reverse(ring.begin(), ring.end());
    if (form & 2) std::reverse(hole.begin(), hole.end());
    const Shape shape = Sound(Given().Ring(ring).Ring(hole), "a hole in either direction");
    Check(Has(shape.get(), 42, 12) && !Has(shape.get(), 45, 15) && !Has(shape.get(), 45, 21), "a hole is left out");
    Check(PolygonsOf(shape.get(), 2, "a hole") == 1, "a polygon with a hole is one");
  }
  const Shape island = Sound(Given().Ring(outer).Ring(inner).Next().Ring(Box(14, 44, 16, 46)).Next().Ring(Box(30, 40, 31, 41)),
      "an island");
  Check(Has(island.get(), 45, 15) && !Has(island.get(), 43.5, 13.5) && Has(island.get(), 40.5, 30.5), "an island in a hole is inside");
  Check(PolygonsOf(island.get(), 4, "an island") == 3, "an island is a polygon");
  Sound(Given().Ring(outer).Ring({{10, 40}, {15, 43}, {14, 46}}), "a hole that touches the outer ring");
  Sound(Given().Ring(Box(0, 0, 1, 1)).Next().Ring(Box(1, 1, 2, 2)), "two polygons that touch in a corner");
}

void ReadsOverTheDateLine() {
  const Shape whole = Sound(Given().Ring({{170, -20}, {180, -22}, {-170, -20}, {-170, -10}, {-180, -9}, {170, -10}}), "over the date line");
  Check(Has(whole.get(), -15, 180) && Has(whole.get(), -15, -180) && Has(whole.get(), -15, -175) && !Has(whole.get(), -15, 0),
      "it is small");
  const Corners east = {{170, -20}, {180, -22}, {180, -9}, {170, -10}}, west = {{-180, -22}, {-170, -20}, {-170, -10}, {-180, -9}};
  const Shape cut = Sound(Given().Ring(east).Next().Ring(west), "cut at the date line");
  CheckAlike(whole.get(), cut.get(), "cut at the date line");
  Check(PolygonsOf(cut.get(), 1, "cut at the date line") == 1, "both halves become one");
  const Corners finer = {{-180, -22}, {-170, -20}, {-170, -10}, {-180, -9}, {-180, -12}, {-180, -17.3}};
  const Corners turned = {{180, -9}, {180, -11}, {180, -22}, {170, -20}, {170, -10}};
  const Shape other = Sound(Given().Ring(turned).Next().Ring(finer), "cut with other corners on either side");
  CheckAlike(whole.get(), other.get(), "cut with other corners on either side");
  Check(PolygonsOf(other.get(), 1, "cut with other corners") == 1, "no corner on the seam keeps them apart");
  const Corners low = {{-180, -16}, {-170, -16}, {-170, -10}, {-180, -10}};
  const Shape part = Sound(Given().Ring(Box(170, -20, 180, -10)).Next().Ring(low), "a seam that is met in part");
  Check(Has(part.get(), -12, 180) && Has(part.get(), -12, 179) && Has(part.get(), -12, -179) && !Has(part.get(), -18, -179), "met in part");
  Sound(Given().Ring(Box(170, -20, 180, -10)), "one side alone");
  Sound(Given().Ring(Box(-180, -20, -170, -10)), "the other side alone");
}

Corners Circle(double latitude, double step) {
  Corners corners;
  for (double longitude = -180; longitude < 180; longitude += step) corners.push_back({longitude, latitude});
  return corners;
}

// A ring from longitude -180 to 180 along a latitude, and back along another.
Corners CutBelt(double south, double north, double step) {
  Corners corners;
  for (double longitude = -180; longitude <= 180; longitude += step) corners.push_back({longitude, south});
  for (double longitude = 180; longitude >= -180; longitude -= step) corners.push_back({longitude, north});
  return corners;
}

void ReadsAroundPoles() {
  for (double pole : {-90.0, 90.0}) {
    const double rim = pole / 90 * 70;
    const Shape whole = Sound(Given().Ring(Circle(rim, 10)), "around a pole");
    Check(Has(whole.get(), pole, 0) && Has(whole.get(), pole, 77) && Has(whole.get(), rim * 1.1, 180) && !Has(whole.get(), 0, 0), "a pole");
    const Shape cut = Sound(Given().Ring(CutBelt(std::min(rim, pole), std::max(rim, pole), 10)), "cut at a pole");
    CheckAlike(whole.get(), cut.get(), "cut at a pole");
    Check(PolygonsOf(cut.get(), 1, "cut at a pole") == 1, "no seam is left at a pole");
    Corners few = Circle(rim, 10);
    few.push_back({180, rim});
    few.push_back({180, pole});
    few.push_back({-180, pole});
    const Shape narrow = Sound(Given().Ring(few), "cut at a pole with two corners there");
    CheckAlike(whole.get(), narrow.get(), "cut at a pole with two corners there");
    const std::vector<uint64_t> cells = Cells(s2ix_shape_cover, cut.get(), 50, 0, 30);
    Check(cells.size() <= 50, "a shape at a pole has no more cells than asked for");
  }
  const Shape belt = Sound(Given().Ring(CutBelt(60, 80, 10)), "a belt around a pole");
  const Shape ring = Sound(Given().Ring(Circle(60, 10)).Ring(Circle(80, 10)), "a hole around a pole");
  CheckAlike(belt.get(), ring.get(), "a belt around a pole");
  Check(PolygonsOf(belt.get(), 2, "a belt") == 1 && !Has(belt.get(), 90, 0) && Has(belt.get(), 70, 180), "a belt leaves the pole out");
  const Shape north = Sound(Given().Ring(CutBelt(0, 90, 30)), "half the sphere");
  Check(Has(north.get(), 45, 10) && !Has(north.get(), -45, 10), "half the sphere is on the left");
  Corners other = Circle(0, 30);
  std::reverse(other.begin(), other.end());
  const Shape south = Sound(Given().Ring(other), "the other half");
  Check(!Has(south.get(), 45, 10) && Has(south.get(), -45, 10), "the other half is on the left too");
  const Shape large = Sound(Given().Ring(CutBelt(-60, 90, 10)), "more than half of the sphere");
  Check(Has(large.get(), -80, 0) && !Has(large.get(), 0, 0), "the smaller side is inside");
}

void CheckFault(const Given& given, const s2ix_fault& wanted, const std::string& what) {
  const Read read = ReadShape(given);
  const s2ix_fault& fault = read.fault;
  const std::vector<s2ix_fault> all = FaultsOf(given);
  const bool is_same = AreEqual(fault, wanted) && !all.empty() && AreEqual(all.front(), wanted);
  Check(read.status == S2IX_PLACES_FAULTY && !read.shape && is_same, what + ": status " + std::to_string(read.status) + ", " +
      FaultName(fault));
}

// What must be mended, and tells the first fault all the same.
Shape Mended(const Given& given, uint32_t kind, const std::string& what) {
  Read read = ReadShape(given, true);
  Check(read.status == S2IX_PLACES_DONE && read.shape && read.fault.kind == kind, what + ": status " + std::to_string(read.status) +
      ", " + FaultName(read.fault));
  return std::move(read.shape);
}

const Corners kBowTie = {{0, 0}, {10, 10}, {10, 0}, {0, 10}};

}  // namespace

void ReadsShapes() {
  const Shape box = Sound(Given().Ring(Box(10, 40, 20, 50)), "a box");
  Check(Has(box.get(), 45, 15) && !Has(box.get(), 45, 25), "a box");
  Outline outline;
  Check(outline.Of(box.get()) == S2IX_PLACES_DONE && outline.room.corners == 5 && outline.room.polygons == 1, "a box has an outline");
  CheckAlike(box.get(), Sound(outline.given(), "a box again").get(), "a box again");
  ReadsHoles();
  ReadsOverTheDateLine();
  ReadsAroundPoles();
}

void FindsFaults() {
  const double nan = std::numeric_limits<double>::quiet_NaN(), infinity = std::numeric_limits<double>::infinity();
  const Corners box = Box(0, 0, 10, 10), far = Box(20, 0, 30, 10);
  CheckFault(Given().Ring(far).Next().Ring({{0, 0}, {nan, 1}, {1, 1}}), {S2IX_FAULT_NOT_FINITE, 1, 1, 1, 1}, "a NaN");
  CheckFault(Given().Ring({{0, 0}, {1, 0}, {1, -infinity}}), {S2IX_FAULT_NOT_FINITE, 0, 2, 0, 2}, "an infinity");
  CheckFault(Given().Ring({{0, 0}, {1, 100}, {1, 1}}), {S2IX_FAULT_LATITUDE, 0, 1, 0, 1}, "a latitude of 100");
  CheckFault(Given().Ring({{0, 0}, {1, 0}, {190, 1}}), {S2IX_FAULT_LONGITUDE, 0, 2, 0, 2}, "a longitude of 190");
  CheckFault(Given().Ring(far).Ring(Box(22, 2, 24, 4)).Next().Raw(box), {S2IX_FAULT_OPEN, 2, 3, 2, 3}, "an open ring");
  CheckFault(Given().Raw({}), {S2IX_FAULT_TOO_FEW, 0, 0, 0, 0}, "a ring without corners");
  CheckFault(Given().Raw({{1, 1}}), {S2IX_FAULT_TOO_FEW, 0, 0, 0, 0}, "one corner");
  CheckFault(Given().Ring(far).Ring({{22, 2}, {23, 3}}), {S2IX_FAULT_TOO_FEW, 1, 2, 1, 2}, "two corners");
  CheckFault(Given().Ring({{0, 0}, {10, 0}, {10, 0}, {10, 10}}), {S2IX_FAULT_REPEATED, 0, 1, 0, 2}, "a corner twice");
  CheckFault(Given().Ring({{0, 0}, {10, 0}, {5, 5}, {10, 10}, {0, 10}, {5, 5}}), {S2IX_FAULT_REPEATED, 0, 2, 0, 5},
      "a ring that touches itself");
  CheckFault(Given().Ring({{180, 0}, {180, 5}, {170, 5}, {180, 0}}), {S2IX_FAULT_REPEATED, 0, 0, 0, 3},
      "a corner twice on one side of the seam");
  CheckFault(Given().Ring({{0, 0}, {180, 0}, {90, 45}}), {S2IX_FAULT_OPPOSITE, 0, 0, 0, 0}, "opposite corners");
  CheckFault(Given().Ring(Box(-180, -90, 180, 90)), {S2IX_FAULT_OPPOSITE, 0, 1, 0, 1}, "the whole earth as a box");
  CheckFault(Given().Ring(kBowTie), {S2IX_FAULT_CROSSING, 0, 0, 0, 2}, "a bow tie");
  CheckFault(Given().Ring(far).Next().Ring(kBowTie), {S2IX_FAULT_CROSSING, 1, 0, 1, 2}, "a bow tie in the second polygon");
  CheckFault(Given().Ring(box).Next().Ring(far).Next().Ring(Box(5, 5, 15, 15)), {S2IX_FAULT_CROSSING, 0, 1, 2, 0},
      "two polygons that cross");
  CheckFault(Given().Ring(box).Ring(Box(5, 5, 15, 8)), {S2IX_FAULT_CROSSING, 0, 1, 1, 0}, "a hole that leaves its polygon");
  CheckFault(Given().Ring({{0, 0}, {4, 0}, {4, 4}, {0, 4}}).Next().Ring({{4, 0}, {8, 2}, {4, 4}, {2, 2}}), {S2IX_FAULT_CROSSING, 0, 1, 1,
      0},
             "two polygons that cross in corners");
  CheckFault(Given().Ring(box).Next().Ring({{10, 0}, {20, 0}, {20, 10}, {10, 10}}), {S2IX_FAULT_SHARED, 0, 1, 1, 3},
      "two polygons with an edge");
  CheckFault(Given().Ring(box).Ring(box), {S2IX_FAULT_SHARED, 0, 0, 1, 0}, "a hole that is its polygon");
  CheckFault(Given().Ring(box).Ring(far), {S2IX_FAULT_OUTSIDE, 1, 0, 1, 0}, "a hole outside");
  CheckFault(Given().Ring(box).Ring(Box(1, 1, 9, 9)).Ring(Box(2, 2, 3, 3)), {S2IX_FAULT_WITHIN, 1, 0, 2, 0}, "a hole in a hole");
  CheckFault(Given().Ring(box).Next().Ring(Box(2, 2, 3, 3)), {S2IX_FAULT_WITHIN, 0, 0, 1, 0}, "a polygon in a polygon");
  CheckFault(Given(), {S2IX_FAULT_EMPTY, 0, 0, 0, 0}, "no polygon");
  CheckFault(Given().Ring(box).Next(), {S2IX_FAULT_EMPTY, 1, 0, 1, 0}, "a polygon without rings");
  CheckFault(Given().Ring({{180, 0}, {180, 5}, {180, 9}}), {S2IX_FAULT_EMPTY, 0, 0, 0, 0}, "a ring along the seam");
  CheckFault(Given().Ring({{-180, 90}, {0, 90}, {180, 90}}), {S2IX_FAULT_TOO_FEW, 0, 2, 0, 2}, "a ring at a pole");
}

void ListsAllFaults() {
  const auto list = [](const Given& given, const std::vector<s2ix_fault>& wanted, const std::string& what) {
    const std::vector<s2ix_fault> faults = FaultsOf(given);
    bool is_same = faults.size() == wanted.size();
    for (size_t at = 0; is_same && at < wanted.size(); at++) is_same = AreEqual(faults[at], wanted[at]);
    std::string told;
    for (const s2ix_fault& fault : faults) told += ", " + FaultName(fault);
    Check(is_same, what + told);
  };
  const double nan = std::numeric_limits<double>::quiet_NaN();
  const Corners far = Box(40, 0, 50, 10);
  list(Given().Ring(far), {}, "a box has no faults");
  list(Given().Ring({{0, nan}, {0, 95}, {190, 1}}).Next().Raw(far).Next().Ring({{60, 0}, {70, 0}, {70, 0}, {70, 9}}).Next().Ring(kBowTie),
       {{S2IX_FAULT_NOT_FINITE, 0, 0, 0, 0}, {S2IX_FAULT_LATITUDE, 0, 1, 0, 1}, {S2IX_FAULT_LONGITUDE, 0, 2, 0, 2},
        {S2IX_FAULT_NOT_FINITE, 0, 3, 0, 3}, {S2IX_FAULT_OPEN, 1, 3, 1, 3}, {S2IX_FAULT_REPEATED, 2, 1, 2, 2},
        {S2IX_FAULT_CROSSING, 3, 0, 3, 2}}, "faults of four rings");
  list(Given().Ring(Box(0, 0, 10, 10)).Ring(far).Next().Ring(Box(2, 2, 3, 3)),
       {{S2IX_FAULT_WITHIN, 0, 0, 2, 0}, {S2IX_FAULT_OUTSIDE, 1, 0, 1, 0}}, "a hole outside and a polygon within");
  list(Given().Ring(kBowTie).Next().Ring({{20, 0}, {30, 10}, {30, 0}, {20, 10}}).Next().Ring(far).Next().Ring(far),
       {{S2IX_FAULT_SHARED, 2, 0, 3, 0}, {S2IX_FAULT_SHARED, 2, 1, 3, 1}, {S2IX_FAULT_SHARED, 2, 2, 3, 2}, {S2IX_FAULT_SHARED, 2, 3, 3, 3},
        {S2IX_FAULT_CROSSING, 0, 0, 0, 2}, {S2IX_FAULT_CROSSING, 1, 0, 1, 2}}, "two bow ties and a box twice");
  list(Given().Ring({{180, 0}, {180, 5}, {180, 9}}), {{S2IX_FAULT_EMPTY, 0, 0, 0, 0}}, "a ring along the seam");
  const s2ix_rings rings = Given().rings();
  size_t number = 9;
  Check(s2ix_rings_faults(&rings, nullptr, 0, nullptr) == S2IX_PLACES_NO_POINTER, "nowhere to put how many there are");
  Check(s2ix_rings_faults(nullptr, nullptr, 0, &number) == S2IX_PLACES_NO_POINTER, "no rings");
  Corners comb;
  for (int tooth = 0; tooth < 120; tooth++) comb.push_back({tooth * 0.1, 0}), comb.push_back({tooth * 0.1 + 0.05, 10});
  for (int tooth = 120; tooth > 0; tooth--) comb.push_back({15, tooth * 0.08}), comb.push_back({-1, tooth * 0.08 - 0.04});
  Check(FaultsOf(Given().Ring(comb)).size() > 1000 && FaultsOf(Given().Ring(comb)).size() <= 10'000, "10,000 faults at most");
}

void MendsFaults() {
  const Shape tie = Mended(Given().Ring(kBowTie), S2IX_FAULT_CROSSING, "a bow tie");
  Check(Has(tie.get(), 5, 1) && Has(tie.get(), 5, 9) && !Has(tie.get(), 1, 5) && !Has(tie.get(), 9, 5), "a bow tie has both its ends");
  Check(PolygonsOf(tie.get(), 2, "a bow tie") == 2, "a bow tie becomes two triangles");
  Outline outline;
  Check(outline.Of(tie.get()) == S2IX_PLACES_DONE, "a mended bow tie has an outline");
  const Shape box = Sound(Given().Ring(Box(0, 0, 10, 10)), "a box");
  const auto alike = [&](const Given& given, uint32_t kind, const std::string& what) {
    CheckAlike(box.get(), Mended(given, kind, what).get(), what);
  };
  alike(Given().Ring(Box(0, 0, 10, 10)), S2IX_FAULT_NONE, "a sound box");
  alike(Given().Raw(Box(0, 0, 10, 10)), S2IX_FAULT_OPEN, "an open box");
  alike(Given().Ring({{0, 0}, {0, 0}, {10, 0}, {10, 0}, {10, 10}, {0, 10}}), S2IX_FAULT_REPEATED, "repeated corners");
  alike(Given().Ring({{0, 0}, {10, 0}, {20, 0}, {10, 0}, {10, 10}, {0, 10}}), S2IX_FAULT_REPEATED, "a spike");
  alike(Given().Ring(Box(360, 0, 370, 10)), S2IX_FAULT_LONGITUDE, "longitudes once around");
  alike(Given().Ring(Box(0, 0, 10, 10)).Next().Ring(Box(0, 0, 10, 10)), S2IX_FAULT_SHARED, "a box twice");
  alike(Given().Ring(Box(0, 0, 10, 10)).Ring(Box(20, 0, 30, 10)), S2IX_FAULT_OUTSIDE, "a hole outside");
  alike(Given().Ring(Box(0, 0, 10, 10)).Ring({{2, 2}, {3, 3}}), S2IX_FAULT_TOO_FEW, "a hole of two corners");
  alike(Given().Ring(Box(0, 0, 10, 10)).Next().Ring({{2, 2}, {3, 3}}), S2IX_FAULT_TOO_FEW, "a polygon of two corners");
  alike(Given().Ring(Box(0, 0, 10, 10)).Next().Ring(Box(2, 2, 3, 3)), S2IX_FAULT_WITHIN, "a polygon in a polygon");
  const Shape joined = Mended(Given().Ring(Box(0, 0, 10, 10)).Next().Ring(Box(5, 5, 15, 15)), S2IX_FAULT_CROSSING, "two boxes");
  Check(Has(joined.get(), 1, 1) && Has(joined.get(), 7, 7) && Has(joined.get(), 12, 12) && !Has(joined.get(), 12, 2),
      "two boxes become one");
  Check(PolygonsOf(joined.get(), 1, "two boxes") == 1, "two boxes become one polygon");
  const Shape bitten = Mended(Given().Ring(Box(0, 0, 10, 10)).Ring(Box(5, 2, 15, 8)), S2IX_FAULT_CROSSING,
      "a hole that leaves its polygon");
  Check(Has(bitten.get(), 5, 2) && !Has(bitten.get(), 5, 7) && !Has(bitten.get(), 5, 12),
      "a hole that leaves its polygon takes nothing outside");
  const Shape over = Mended(Given().Ring(Box(170, 0, 190, 10)), S2IX_FAULT_LONGITUDE, "longitudes past the date line");
  Check(Has(over.get(), 5, 180) && Has(over.get(), 5, -175) && !Has(over.get(), 5, 0), "longitudes past the date line");
  const Shape halves = Mended(Given().Raw(Box(170, 0, 180, 10)).Next().Ring(Box(-180, 0, -170, 10)), S2IX_FAULT_OPEN, "an open half");
  CheckAlike(over.get(), halves.get(), "an open half");
  Check(PolygonsOf(halves.get(), 1, "an open half") == 1, "mended halves become one");

  const double nan = std::numeric_limits<double>::quiet_NaN();
  const auto refused = [](const Given& given, uint32_t kind, const std::string& what) {
    const Read read = ReadShape(given, true);
    Check(read.status == S2IX_PLACES_FAULTY && !read.shape && read.fault.kind == kind, what + " is not mended: " + FaultName(read.fault));
  };
  refused(Given().Ring({{0, 0}, {nan, 1}, {1, 1}}), S2IX_FAULT_NOT_FINITE, "a NaN");
  refused(Given().Raw(kBowTie).Next().Ring({{0, 0}, {1, 100}, {1, 1}}), S2IX_FAULT_LATITUDE, "a latitude of 100 after another fault");
  refused(Given().Ring({{0, 0}, {180, 0}, {90, 45}}), S2IX_FAULT_OPPOSITE, "an edge between opposite corners");
  refused(Given().Ring({{0, 0}, {1, 1}}), S2IX_FAULT_TOO_FEW, "nothing but two corners");
  refused(Given(), S2IX_FAULT_EMPTY, "nothing");
}
