// What the tests of the library of places share: counted checks, rings that are easy to write, and calls with buffers of their own.
#ifndef TESTS_FROM_PLACES_CHECKS_H
#define TESTS_FROM_PLACES_CHECKS_H

#include <cmath>
#include <cstdint>
#include <cstdio>
#include <memory>
#include <random>
#include <string>
#include <utility>
#include <vector>

#include "s2ix_places.h"

inline size_t passed = 0, failed = 0;

inline void Check(bool is_right, const std::string& what) {
  (is_right ? passed : failed)++;
  if (!is_right) std::printf("places: %s\n", what.c_str());
}

// A longitude and a latitude, as GeoJSON has them.
using Corner = std::pair<double, double>;
using Corners = std::vector<Corner>;

// Polygons that are given to the library. Rings are written without the last corner, unless they are Raw.
struct Given {
  std::vector<double> latitudes, longitudes;
  std::vector<size_t> ring_ends, polygon_ends;

  Given& Raw(const Corners& corners) {
    for (const Corner& corner : corners) {
      longitudes.push_back(corner.first);
      latitudes.push_back(corner.second);
    }
    ring_ends.push_back(latitudes.size());
    if (polygon_ends.empty()) polygon_ends.push_back(0);
    polygon_ends.back() = ring_ends.size();
    return *this;
  }
  Given& Ring(Corners corners) {
    corners.push_back(corners.front());
    return Raw(corners);
  }
  // The rings that follow are another polygon's.
  Given& Next() {
    polygon_ends.push_back(ring_ends.size());
    return *this;
  }
  s2ix_rings rings() const {
    return {latitudes.data(), longitudes.data(),    latitudes.size(),    ring_ends.data(),
            ring_ends.size(), polygon_ends.data(), polygon_ends.size()};
  }
};

struct Freed {
  void operator()(s2ix_shape* shape) const { s2ix_shape_free(shape); }
};
using Shape = std::unique_ptr<s2ix_shape, Freed>;

struct Read {
  uint32_t status;
  s2ix_fault fault;
  Shape shape;
};

inline Read ReadShape(const Given& given, bool mend = false) {
  s2ix_shape* shape = nullptr;
  Read read;
  const s2ix_rings rings = given.rings();
  read.status = s2ix_shape_read(&rings, mend, &shape, &read.fault);
  read.shape.reset(shape);
  return read;
}

inline std::string FaultName(const s2ix_fault& fault) {
  return "fault " + std::to_string(fault.kind) + " at ring " + std::to_string(fault.ring) + " corner " + std::to_string(fault.corner) +
         " and ring " + std::to_string(fault.other_ring) + " corner " + std::to_string(fault.other_corner);
}

inline std::vector<s2ix_fault> FaultsOf(const Given& given) {
  const s2ix_rings rings = given.rings();
  size_t number = 0;
  uint32_t status = s2ix_rings_faults(&rings, nullptr, 0, &number);
  std::vector<s2ix_fault> faults(number);
  if (status == S2IX_PLACES_NO_ROOM) status = s2ix_rings_faults(&rings, faults.data(), number, &number);
  Check(status == S2IX_PLACES_DONE && number == faults.size(), "faults are listed");
  return faults;
}

inline bool AreEqual(const s2ix_fault& a, const s2ix_fault& b) {
  return a.kind == b.kind && a.ring == b.ring && a.corner == b.corner && a.other_ring == b.other_ring && a.other_corner == b.other_corner;
}

// A shape that must be sound.
inline Shape Sound(const Given& given, const std::string& what) {
  Read read = ReadShape(given);
  Check(read.status == S2IX_PLACES_DONE && read.fault.kind == S2IX_FAULT_NONE && read.shape, what + ": " + FaultName(read.fault));
  return std::move(read.shape);
}

inline bool Has(const s2ix_shape* shape, double latitude, double longitude) {
  size_t end = 0, number = 0;
  uint32_t found = 0;
  const uint32_t status = s2ix_shapes_at_each(&shape, 1, &latitude, &longitude, 1, &end, &found, 1, &number);
  Check(status == S2IX_PLACES_DONE && end == number && number <= 1, "a point is looked for in one shape");
  return number == 1;
}

// An outline with its own buffers.
struct Outline {
  std::vector<double> latitudes, longitudes;
  std::vector<size_t> ring_ends, polygon_ends;
  s2ix_rings_room room{};

  template <typename Call>
  uint32_t Fill(Call call) {
    uint32_t status = call(&room);
    if (status != S2IX_PLACES_NO_ROOM) return status;
    latitudes.resize(room.corners);
    longitudes.resize(room.corners);
    ring_ends.resize(room.rings);
    polygon_ends.resize(room.polygons);
    room = {latitudes.data(), longitudes.data(),    latitudes.size(),    0, ring_ends.data(),
            ring_ends.size(), 0, polygon_ends.data(), polygon_ends.size(), 0};
    return call(&room);
  }
  uint32_t Of(const s2ix_shape* shape) {
    return Fill([&](s2ix_rings_room* into) { return s2ix_shape_outline(shape, into); });
  }
  uint32_t OfCells(const std::vector<uint64_t>& cells) {
    size_t wrong;
    return Fill([&](s2ix_rings_room* into) { return s2ix_cells_outline(cells.data(), cells.size(), into, &wrong); });
  }
  Given given() const {
    Given given;
    given.latitudes = latitudes;
    given.longitudes = longitudes;
    given.ring_ends = ring_ends;
    given.polygon_ends = polygon_ends;
    return given;
  }
};

template <typename Call>
std::vector<uint64_t> Cells(Call call, const s2ix_shape* shape, uint32_t max_cells, uint32_t min_level, uint32_t max_level) {
  size_t number = 0;
  uint32_t status = call(shape, max_cells, min_level, max_level, nullptr, 0, &number);
  std::vector<uint64_t> cells(number);
  if (status == S2IX_PLACES_NO_ROOM) status = call(shape, max_cells, min_level, max_level, cells.data(), cells.size(), &number);
  Check(status == S2IX_PLACES_DONE && number == cells.size(), "a shape is covered");
  return cells;
}

inline Corners Box(double west, double south, double east, double north) {
  return {{west, south}, {east, south}, {east, north}, {west, north}};
}

// Numbers from a seed, equal in each run.
class Random {
 public:
  explicit Random(uint64_t seed) : engine_(seed) {}
  double Between(double low, double high) { return low + (high - low) * (engine_() >> 11) * 0x1p-53; }
  size_t Below(size_t limit) { return engine_() % limit; }

 private:
  std::mt19937_64 engine_;
};

// A ring around a place whose corners are at random distances, with no two edges that cross. It may go over the date line.
inline Corners Star(Random* random, double longitude, double latitude, double reach, int corners) {
  Corners star;
  for (int at = 0; at < corners; at++) {
    const double angle = 2 * M_PI * at / corners, away = reach * random->Between(0.5, 1);
    star.push_back({std::remainder(longitude + away * std::cos(angle), 360), latitude + away * std::sin(angle)});
  }
  return star;
}

// The groups of checks.
void ReadsShapes();
void FindsFaults();
void MendsFaults();
void CoversShapes();
void FindsPoints();
void DrawsOutlines();
void ListsAllFaults();
void AnswersFromSets();
void RefusesSets();
void CutsOutlines();
void UsesTheCppHeader();
void RefusesWhatIsWrong();
void SurvivesMutants(size_t mutants);

#endif
