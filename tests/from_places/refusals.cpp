// Bad input: pointers, counts, limits, points, cells and buffers that are wrong.
#include <cmath>
#include <limits>

#include "checks.h"

namespace {

constexpr size_t kHuge = std::numeric_limits<size_t>::max();

void RefusesRings() {
  const Given sound = Given().Ring(Box(0, 0, 10, 10)).Next().Ring(Box(20, 0, 30, 10));
  const auto refuse = [](s2ix_rings rings, uint32_t wanted, const std::string& what) {
    s2ix_shape* shape = nullptr;
    s2ix_fault fault;
    for (bool mend : {false, true}) {
      const uint32_t status = s2ix_shape_read(&rings, mend, &shape, &fault);
      Check(status == wanted && shape == nullptr, what + ": status " + std::to_string(status));
    }
  };
  const auto with = [&](auto change) {
    s2ix_rings rings = sound.rings();
    change(rings);
    return rings;
  };
  refuse(with([](s2ix_rings& rings) { rings.latitudes = nullptr; }), S2IX_PLACES_NO_POINTER, "no latitudes");
  refuse(with([](s2ix_rings& rings) { rings.longitudes = nullptr; }), S2IX_PLACES_NO_POINTER, "no longitudes");
  refuse(with([](s2ix_rings& rings) { rings.ring_ends = nullptr; }), S2IX_PLACES_NO_POINTER, "no ends of rings");
  refuse(with([](s2ix_rings& rings) { rings.polygon_ends = nullptr; }), S2IX_PLACES_NO_POINTER, "no ends of polygons");
  refuse(with([](s2ix_rings& rings) { rings.corners--; }), S2IX_PLACES_NO_RINGS, "fewer corners than the ends say");
  refuse(with([](s2ix_rings& rings) { rings.rings--; }), S2IX_PLACES_NO_RINGS, "fewer rings than the ends say");
  refuse(with([](s2ix_rings& rings) { rings.polygons = 0; }), S2IX_PLACES_NO_RINGS, "rings of no polygon");
  refuse(with([](s2ix_rings& rings) { rings.corners = kHuge; }), S2IX_PLACES_TOO_LARGE, "too many corners");
  refuse(with([](s2ix_rings& rings) { rings.rings = kHuge; }), S2IX_PLACES_TOO_LARGE, "too many rings");
  refuse(with([](s2ix_rings& rings) { rings.polygons = kHuge; }), S2IX_PLACES_TOO_LARGE, "too many polygons");
  const size_t falling[] = {10, 5}, beyond[] = {5, kHuge};
  refuse(with([&](s2ix_rings& rings) { rings.ring_ends = falling; }), S2IX_PLACES_NO_RINGS, "ends that fall");
  refuse(with([&](s2ix_rings& rings) { rings.ring_ends = beyond; }), S2IX_PLACES_NO_RINGS, "an end beyond the corners");
  refuse({nullptr, nullptr, 0, nullptr, 0, nullptr, 0}, S2IX_PLACES_FAULTY, "nothing at all");
  s2ix_shape* shape = nullptr;
  s2ix_fault fault;
  const s2ix_rings rings = sound.rings();
  Check(s2ix_shape_read(nullptr, false, &shape, &fault) == S2IX_PLACES_NO_POINTER, "no rings");
  Check(s2ix_shape_read(&rings, false, nullptr, &fault) == S2IX_PLACES_NO_POINTER, "nowhere to put the shape");
  Check(s2ix_shape_read(&rings, false, &shape, nullptr) == S2IX_PLACES_NO_POINTER, "nowhere to put the fault");
  s2ix_shape_free(nullptr);
}

void RefusesCoverings() {
  const Shape box = Sound(Given().Ring(Box(0, 0, 10, 10)), "a box");
  uint64_t cells[3] = {1, 2, 3};
  size_t number = 9;
  for (auto call : {s2ix_shape_cover, s2ix_shape_cover_inside}) {
    const auto refuse = [&](uint32_t most, uint32_t from, uint32_t to, uint32_t wanted, const std::string& what) {
      number = 9;
      Check(call(box.get(), most, from, to, cells, 3, &number) == wanted && number == 0, what);
    };
    refuse(0, 0, 30, S2IX_PLACES_NO_LIMITS, "no cells");
    refuse(1'000'001, 0, 30, S2IX_PLACES_NO_LIMITS, "too many cells");
    refuse(8, 5, 4, S2IX_PLACES_NO_LIMITS, "levels that fall");
    refuse(8, 0, 31, S2IX_PLACES_NO_LIMITS, "level 31");
    refuse(8, 4'000'000'000, 4'000'000'000, S2IX_PLACES_NO_LIMITS, "a huge level");
    Check(call(nullptr, 8, 0, 30, cells, 3, &number) == S2IX_PLACES_NO_POINTER, "no shape to cover");
    Check(call(box.get(), 8, 0, 30, nullptr, 3, &number) == S2IX_PLACES_NO_POINTER, "no cells");
    Check(call(box.get(), 8, 0, 30, cells, 3, nullptr) == S2IX_PLACES_NO_POINTER, "no number");
    Check(call(box.get(), 50, 0, 30, cells, 3, &number) == S2IX_PLACES_NO_ROOM && number > 3 && cells[0] == 1, "too little room for cells");
  }
  Check(s2ix_shape_cover(box.get(), 8, 30, 30, cells, 3, &number) == S2IX_PLACES_TOO_FINE && number == 0, "a box in leaves");
  const Shape thin = Sound(Given().Ring({{0, 0}, {90, 0}, {90, 1e-9}}), "a sliver");
  Check(s2ix_shape_cover(thin.get(), 8, 30, 30, cells, 3, &number) == S2IX_PLACES_TOO_FINE, "a sliver in leaves");
}

void RefusesCells() {
  const Shape box = Sound(Given().Ring(Box(0, 0, 10, 10)), "a box");
  const uint64_t face = 0x1000000000000000, cells[] = {face, 0};
  bool inside[] = {true, true};
  size_t wrong = 9;
  Check(s2ix_shape_has_each(box.get(), cells, 2, inside, &wrong) == S2IX_PLACES_NO_CELL && wrong == 1 && inside[0], "a number of no cell");
  Check(s2ix_shape_has_each(box.get(), cells, 1, inside, &wrong) == S2IX_PLACES_DONE && wrong == 0 && !inside[0], "a face isn't in a box");
  Check(s2ix_shape_has_each(box.get(), nullptr, 0, nullptr, &wrong) == S2IX_PLACES_DONE, "no cells are asked for");
  Check(s2ix_shape_has_each(nullptr, cells, 1, inside, &wrong) == S2IX_PLACES_NO_POINTER, "no shape");
  Check(s2ix_shape_has_each(box.get(), nullptr, 1, inside, &wrong) == S2IX_PLACES_NO_POINTER, "no cells");
  Check(s2ix_shape_has_each(box.get(), cells, 1, nullptr, &wrong) == S2IX_PLACES_NO_POINTER, "nowhere for the answers");
  Check(s2ix_shape_has_each(box.get(), cells, 1, inside, nullptr) == S2IX_PLACES_NO_POINTER, "nowhere for the wrong one");
}

void RefusesPoints() {
  const Shape box = Sound(Given().Ring(Box(0, 0, 10, 10)), "a box");
  const s2ix_shape* shapes[] = {box.get(), box.get()};
  const s2ix_shape* missing[] = {box.get(), nullptr};
  const double nan = std::numeric_limits<double>::quiet_NaN();
  const double latitudes[] = {5, 6, 7}, longitudes[] = {5, 6, 70};
  size_t ends[3], number = 9;
  uint32_t found[8];
  Check(s2ix_shapes_at_each(shapes, 2, latitudes, longitudes, 3, ends, found, 8, &number) == S2IX_PLACES_DONE && number == 4 &&
      ends[2] == 4 &&
            found[0] == 0 && found[1] == 1, "a repeated shape comes twice");
  Check(s2ix_shapes_at_each(shapes, 2, latitudes, longitudes, 3, ends, found, 3, &number) == S2IX_PLACES_NO_ROOM && number == 4,
      "too little room");
  Check(s2ix_shapes_at_each(shapes, 2, latitudes, longitudes, 3, ends, nullptr, 0, &number) == S2IX_PLACES_NO_ROOM && number == 4,
      "no room");
  Check(s2ix_shapes_at_each(nullptr, 0, latitudes, longitudes, 3, ends, nullptr, 0, &number) == S2IX_PLACES_DONE && ends[2] == 0,
      "no shapes");
  Check(s2ix_shapes_at_each(shapes, 2, nullptr, nullptr, 0, nullptr, nullptr, 0, &number) == S2IX_PLACES_DONE && number == 0, "no points");
  Check(s2ix_shapes_at_each(missing, 2, latitudes, longitudes, 3, ends, found, 8, &number) == S2IX_PLACES_NO_POINTER, "a missing shape");
  Check(s2ix_shapes_at_each(shapes, kHuge, latitudes, longitudes, 3, ends, found, 8, &number) == S2IX_PLACES_TOO_LARGE, "too many shapes");
  Check(s2ix_shapes_at_each(nullptr, 2, latitudes, longitudes, 3, ends, found, 8, &number) == S2IX_PLACES_NO_POINTER,
      "no pointer to shapes");
  Check(s2ix_shapes_at_each(shapes, 2, nullptr, longitudes, 3, ends, found, 8, &number) == S2IX_PLACES_NO_POINTER, "no latitudes");
  Check(s2ix_shapes_at_each(shapes, 2, latitudes, longitudes, 3, nullptr, found, 8, &number) == S2IX_PLACES_NO_POINTER, "no ends");
  for (double wrong : {nan, 90.0000001, -1e300, HUGE_VAL}) {
    const double bad[] = {5, 6, wrong};
    Check(s2ix_shapes_at_each(shapes, 2, bad, longitudes, 3, ends, found, 8, &number) == S2IX_PLACES_NO_POINT && number == 2,
        "no latitude");
  }
  const double around[] = {5, 181, 5};
  Check(s2ix_shapes_at_each(shapes, 2, latitudes, around, 3, ends, found, 8, &number) == S2IX_PLACES_NO_POINT && number == 1,
      "no longitude");

  const uint32_t points_of[] = {0, 2, 3}, shapes_of[] = {1, 0, 0}, beyond[] = {0, 2, 0};
  bool inside[3] = {false, true, true};
  Check(s2ix_shapes_hold_each(shapes, 2, latitudes, longitudes, 3, points_of, shapes_of, 2, inside, &number) == S2IX_PLACES_DONE &&
      inside[0] &&
            !inside[1] && inside[2], "two pairs");
  Check(s2ix_shapes_hold_each(shapes, 2, latitudes, longitudes, 3, points_of, shapes_of, 3, inside, &number) == S2IX_PLACES_NO_SHAPE &&
      number == 2,
        "a pair without a point");
  Check(s2ix_shapes_hold_each(shapes, 2, latitudes, longitudes, 3, shapes_of, beyond, 3, inside, &number) == S2IX_PLACES_NO_SHAPE &&
      number == 1,
        "a pair without a shape");
  Check(s2ix_shapes_hold_each(shapes, 2, latitudes, around, 3, points_of, shapes_of, 3, inside, &number) == S2IX_PLACES_NO_POINT &&
      number == 1,
        "a wrong point comes before a wrong pair");
  Check(s2ix_shapes_hold_each(shapes, 2, latitudes, longitudes, 3, nullptr, shapes_of, 2, inside, &number) == S2IX_PLACES_NO_POINTER,
      "no pairs");
}

void RefusesOutlines() {
  const Shape box = Sound(Given().Ring(Box(0, 0, 10, 10)), "a box");
  double latitudes[5] = {7}, longitudes[5];
  size_t rings[1], polygons[1], wrong = 9;
  s2ix_rings_room room = {latitudes, longitudes, 4, 0, rings, 1, 0, polygons, 1, 0};
  Check(s2ix_shape_outline(box.get(), &room) == S2IX_PLACES_NO_ROOM && room.corners == 5 && latitudes[0] == 7,
      "too little room for corners");
  room.corner_room = 5;
  room.ring_room = 0;
  Check(s2ix_shape_outline(box.get(), &room) == S2IX_PLACES_NO_ROOM && room.rings == 1 && latitudes[0] == 7, "too little room for rings");
  room.ring_room = 1;
  Check(s2ix_shape_outline(box.get(), &room) == S2IX_PLACES_DONE && rings[0] == 5 && polygons[0] == 1, "room enough");
  Check(latitudes[0] == latitudes[4] && longitudes[0] == longitudes[4], "a ring is closed");
  Check(s2ix_shape_outline(nullptr, &room) == S2IX_PLACES_NO_POINTER, "no shape");
  Check(s2ix_shape_outline(box.get(), nullptr) == S2IX_PLACES_NO_POINTER, "no outline");
  for (uint64_t number : {uint64_t{0}, uint64_t{2}, uint64_t{0xffffffffffffffff}, uint64_t{0xd000000000000000}}) {
    const uint64_t cells[] = {0x1000000000000000, number};
    Check(s2ix_cells_outline(cells, 2, &room, &wrong) == S2IX_PLACES_NO_CELL && wrong == 1 && room.corners == 0,
        "a number that is no cell's");
  }
  const uint64_t cell = 0x1000000000000000;
  Check(s2ix_cells_outline(&cell, kHuge, &room, &wrong) == S2IX_PLACES_TOO_LARGE, "too many cells");
  Check(s2ix_cells_outline(nullptr, 1, &room, &wrong) == S2IX_PLACES_NO_POINTER, "no cells");
  Check(s2ix_cells_outline(nullptr, 0, &room, &wrong) == S2IX_PLACES_DONE && room.polygons == 0, "none of them");
  Check(s2ix_cells_outline(&cell, 1, &room, nullptr) == S2IX_PLACES_NO_POINTER, "nowhere for the wrong one");
}

void TellsInWords() {
  uint8_t text[128];
  size_t number = 0;
  for (auto call : {s2ix_places_status_text, s2ix_fault_text}) {
    for (uint32_t code = 0; code < 80; code++) Check(call(code, text, sizeof text, &number) == S2IX_PLACES_DONE && number > 0,
        "words of a code");
    Check(call(4'000'000'000, text, sizeof text, &number) == S2IX_PLACES_DONE, "words of no code");
    Check(call(0, text, 3, &number) == S2IX_PLACES_NO_ROOM && number > 3, "too little room for words");
    Check(call(0, nullptr, 3, &number) == S2IX_PLACES_NO_POINTER, "no text");
  }
}

}  // namespace

void RefusesWhatIsWrong() {
  RefusesRings();
  RefusesCoverings();
  RefusesCells();
  RefusesPoints();
  RefusesOutlines();
  TellsInWords();
}
