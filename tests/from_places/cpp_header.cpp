// The header for C++: each type and each exception.
#include "checks.h"
#include "s2ix_places.hpp"

namespace {

namespace places_cpp = s2ix_places;

places_cpp::Rings Square(double south, double west, double side) {
  const double east = west + side > 180 ? west + side - 360 : west + side;
  places_cpp::Rings rings;
  rings.corner(south, west).corner(south, east).corner(south + side, east).corner(south + side, west).corner(south, west);
  return rings.end_ring().end_polygon();
}

template <typename Thrown, typename Call>
void Throws(Call call, const std::string& what) {
  bool is_thrown = false;
  try {
    call();
  } catch (const Thrown&) {
    is_thrown = true;
  }
  Check(is_thrown, what + " throws");
}

void UsesShapes() {
  const places_cpp::Shape square(Square(0, 175, 10));
  Check(square.outline().polygon_ends.size() == 1, "a square has an outline");
  Check(square.outline(places_cpp::Seam::kCut).polygon_ends.size() == 2, "a square over the date line has two parts");
  const std::vector<uint64_t> cells = square.cover({8, 0, 30});
  Check(!cells.empty() && cells.size() <= 8 && !square.cover_inside().empty(), "a square has cells");
  Check(!places_cpp::outline(cells).ring_ends.empty() && !places_cpp::outline(cells, places_cpp::Seam::kCut).ring_ends.empty(),
      "cells too");
  Check(places_cpp::version() == S2IX_PLACES_VERSION, "the version");
}

void UsesSets() {
  places_cpp::ShapeSet set;
  set.put(4, places_cpp::Shape(Square(0, 0, 10)));
  const places_cpp::Shape other(Square(5, 5, 10));
  set.put_all({2, 9}, {&other, &other});
  set.remove(9);
  Check(set.numbers() == std::vector<uint32_t>{2, 4} && set.at(7, 7) == std::vector<uint32_t>{2, 4} && set.at(50, 50).empty(), "a set");
  const places_cpp::Lists lists = set.at_each({1, 7}, {1, 7});
  Check(lists.ends == std::vector<size_t>{1, 3} && lists.found == std::vector<uint32_t>{4, 2, 4}, "lists");
  Check(set.hold_each({1, 7}, {1, 7}, {0, 1}, {2, 2}) == std::vector<uint8_t>{0, 1}, "pairs");
  Throws<places_cpp::NoPoint>([&] { set.at(95, 0); }, "a latitude of 95");
  Throws<places_cpp::NoShape>([&] { set.hold_each({1}, {1}, {0}, {77}); }, "a number without a shape");
  Throws<places_cpp::NoLimits>([] { places_cpp::ShapeSet none(0); }, "a set of no cells");
  Throws<std::invalid_argument>([&] { set.at_each({1, 2}, {1}); }, "lists of other lengths");
}

void Throws() {
  places_cpp::Rings tie;
  tie.corner(0, 0).corner(10, 10).corner(0, 10).corner(10, 0).corner(0, 0).end_ring().end_polygon();
  Check(tie.faults().size() == 1 && Square(0, 0, 1).faults().empty(), "faults are listed");
  Throws<places_cpp::Faulty>([&] { places_cpp::Shape shape(tie); }, "a bow tie");
  s2ix_fault fault;
  Check(!places_cpp::Shape::mended(tie, &fault).cover().empty() && fault.kind == S2IX_FAULT_CROSSING, "a mended bow tie");
  tie.ring_ends.push_back(99);
  Throws<places_cpp::NoRings>([&] { places_cpp::Shape shape(tie); }, "an end beyond the corners");
  const places_cpp::Shape square(Square(0, 0, 10));
  Throws<places_cpp::NoLimits>([&] { square.cover({0, 0, 30}); }, "no cells");
  Throws<places_cpp::TooFine>([&] { square.cover({8, 30, 30}); }, "leaves");
  Throws<places_cpp::NoCell>([] { places_cpp::outline({7, 8}); }, "no cell");
  std::vector<uint64_t> faces;
  for (uint64_t face = 0; face < 6; face++) faces.push_back((2 * face + 1) << 60);
  Throws<places_cpp::Whole>([&] { places_cpp::outline(faces); }, "the whole sphere");
}

}  // namespace

void UsesTheCppHeader() {
  UsesShapes();
  UsesSets();
  Throws();
}
