// Places for C++17: the calls of s2ix_places.h with types that free themselves, and exceptions. It needs libs2ix_places, and no S2.
//
// A call that is refused throws std::bad_alloc if memory is refused, else an Error named as its status is. Nothing has changed then.
// As in s2ix_places.h, latitudes go before longitudes, both in degrees, and threads may share a const Shape, and any ShapeSet.
#ifndef S2IX_PLACES_HPP
#define S2IX_PLACES_HPP

#include <cstddef>
#include <cstdint>
#include <memory>
#include <new>
#include <stdexcept>
#include <string>
#include <utility>
#include <vector>

#include "s2ix_places.h"

namespace s2ix_places {

namespace calls {

// The words that a call writes into a buffer.
template <typename Call>
std::string text(Call call) {
  uint8_t bytes[128];
  size_t number = 0;
  return call(bytes, sizeof bytes, &number) == S2IX_PLACES_DONE ? std::string(bytes, bytes + number) : std::string();
}

inline std::string status_text(uint32_t status) {
  return text([status](uint8_t* bytes, size_t room, size_t* number) { return s2ix_places_status_text(status, bytes, room, number); });
}

}  // namespace calls

// The version of the library that runs; S2IX_PLACES_VERSION is the header's.
inline std::string version() { return calls::text(s2ix_places_version); }

// What a kind of fault means, in words.
inline std::string fault_text(uint32_t kind) {
  return calls::text([kind](uint8_t* bytes, size_t room, size_t* number) { return s2ix_fault_text(kind, bytes, room, number); });
}

// A call was refused. `status` is of enum s2ix_places_status.
class Error : public std::runtime_error {
 public:
  explicit Error(uint32_t status) : Error(status, calls::status_text(status)) {}
  uint32_t status() const { return status_; }

 protected:
  Error(uint32_t status, const std::string& words) : std::runtime_error(words), status_(status) {}

 private:
  uint32_t status_;
};

// A ring is wrong: `fault` says which, and how.
class Faulty : public Error {
 public:
  explicit Faulty(const s2ix_fault& fault)
      : Error(S2IX_PLACES_FAULTY, "ring " + std::to_string(fault.ring) + ", corner " + std::to_string(fault.corner) + ": " +
                                      fault_text(fault.kind)),
        fault_(fault) {}
  const s2ix_fault& fault() const { return fault_; }

 private:
  s2ix_fault fault_;
};

// One of many items is wrong, at a place counted from 0.
class WrongItem : public Error {
 public:
  WrongItem(uint32_t status, size_t place) : Error(status, calls::status_text(status) + ", at " + std::to_string(place)), place_(place) {}
  size_t place() const { return place_; }

 private:
  size_t place_;
};

// A number is no cell's; a point is out of its range; a pair names what isn't there.
struct NoCell : WrongItem { using WrongItem::WrongItem; };
struct NoPoint : WrongItem { using WrongItem::WrongItem; };
struct NoShape : WrongItem { using WrongItem::WrongItem; };

// Limits are out of their ranges; ends of rings don't fit; there is too much; a covering would be too fine; the whole sphere has no
// outline.
struct NoLimits : Error { using Error::Error; };
struct NoRings : Error { using Error::Error; };
struct TooLarge : Error { using Error::Error; };
struct TooFine : Error { using Error::Error; };
struct Whole : Error { using Error::Error; };

namespace calls {

// Throws what a status stands for. The place is that of a wrong item.
inline void require(uint32_t status, size_t place = 0) {
  switch (status) {
    case S2IX_PLACES_DONE: return;
    case S2IX_PLACES_OUT_OF_MEMORY: throw std::bad_alloc();
    case S2IX_PLACES_NO_CELL: throw NoCell(status, place);
    case S2IX_PLACES_NO_POINT: throw NoPoint(status, place);
    case S2IX_PLACES_NO_SHAPE: throw NoShape(status, place);
    case S2IX_PLACES_NO_LIMITS: throw NoLimits(status);
    case S2IX_PLACES_NO_RINGS: throw NoRings(status);
    case S2IX_PLACES_TOO_LARGE: throw TooLarge(status);
    case S2IX_PLACES_TOO_FINE: throw TooFine(status);
    case S2IX_PLACES_WHOLE: throw Whole(status);
    default: throw Error(status);
  }
}

// The list of a call, which is asked again while there is too little room.
template <typename Item, typename Call>
std::vector<Item> list(Call call, size_t room = 0) {
  std::vector<Item> items(room);
  for (;;) {
    size_t number = 0;
    const uint32_t status = call(items.data(), items.size(), &number);
    if (status != S2IX_PLACES_NO_ROOM) require(status, number);
    items.resize(number);
    if (status == S2IX_PLACES_DONE) return items;
  }
}

inline void require_equal(size_t one, size_t other) {
  if (one != other) throw std::invalid_argument("two lists that belong together have other lengths");
}

}  // namespace calls

// Polygons in degrees, in the form of s2ix_rings: add corners, then end the ring, and after the last ring of a polygon end the polygon.
struct Rings {
  std::vector<double> latitudes, longitudes;
  std::vector<size_t> ring_ends, polygon_ends;

  Rings& corner(double latitude, double longitude) {
    latitudes.push_back(latitude);
    longitudes.push_back(longitude);
    return *this;
  }
  Rings& end_ring() {
    ring_ends.push_back(latitudes.size());
    return *this;
  }
  Rings& end_polygon() {
    polygon_ends.push_back(ring_ends.size());
    return *this;
  }

  // The same for a call of s2ix_places.h, while this lives unchanged.
  s2ix_rings view() const {
    calls::require_equal(latitudes.size(), longitudes.size());
    return {latitudes.data(),  longitudes.data(),   latitudes.size(),    ring_ends.data(),
            ring_ends.size(), polygon_ends.data(), polygon_ends.size()};
  }

  // All faults; none if the rings make a shape without mending. NoRings, TooLarge.
  std::vector<s2ix_fault> faults() const {
    const s2ix_rings rings = view();
    return calls::list<s2ix_fault>([&](s2ix_fault* into, size_t room, size_t* number) {
      return s2ix_rings_faults(&rings, into, room, number);
    });
  }

  // Fills a new one by a call that writes an outline.
  template <typename Call>
  static Rings from(Call call) {
    Rings rings;
    s2ix_rings_room room{};
    uint32_t status = call(&room);
    if (status == S2IX_PLACES_NO_ROOM) {
      rings.latitudes.resize(room.corners);
      rings.longitudes.resize(room.corners);
      rings.ring_ends.resize(room.rings);
      rings.polygon_ends.resize(room.polygons);
      room = {rings.latitudes.data(), rings.longitudes.data(), room.corners, 0, rings.ring_ends.data(), room.rings, 0,
              rings.polygon_ends.data(), room.polygons, 0};
      status = call(&room);
    }
    calls::require(status);
    return rings;
  }
};

// How finely a shape is covered. NoLimits says that one is out of its range.
struct Limits {
  uint32_t max_cells = 50;
  uint32_t min_level = 0;
  uint32_t max_level = 30;
};

// Whether an outline is cut along longitude 180, as RFC 7946 wants it, or is whole and may go over it.
enum class Seam { kWhole, kCut };

// A polygon on the sphere, or several that don't overlap. It never changes. Copies share it.
class Shape {
 public:
  // Reads polygons. Faulty, NoRings, TooLarge.
  explicit Shape(const Rings& rings) { Read(rings, false, nullptr); }

  // Reads polygons and mends their faults where that can be done; *fault is the first fault, or of kind S2IX_FAULT_NONE. The same errors.
  static Shape mended(const Rings& rings, s2ix_fault* fault = nullptr) {
    Shape shape;
    shape.Read(rings, true, fault);
    return shape;
  }

  // The outer covering: rising cells that have all of the shape. NoLimits, TooFine.
  std::vector<uint64_t> cover(const Limits& limits = {}) const { return Cover(s2ix_shape_cover, limits); }

  // The inner covering: rising cells that lie in the shape. NoLimits.
  std::vector<uint64_t> cover_inside(const Limits& limits = {}) const { return Cover(s2ix_shape_cover_inside, limits); }

  // Its polygons. Whole.
  Rings outline(Seam seam = Seam::kWhole) const {
    const auto call = seam == Seam::kCut ? s2ix_shape_outline_cut : s2ix_shape_outline;
    return Rings::from([&](s2ix_rings_room* room) { return call(get(), room); });
  }

  // For calls of s2ix_places.h.
  const s2ix_shape* get() const { return shape_.get(); }

 private:
  Shape() = default;

  void Read(const Rings& rings, bool mend, s2ix_fault* first) {
    const s2ix_rings view = rings.view();
    s2ix_shape* shape = nullptr;
    s2ix_fault fault;
    const uint32_t status = s2ix_shape_read(&view, mend, &shape, &fault);
    if (status == S2IX_PLACES_FAULTY) throw Faulty(fault);
    calls::require(status);
    shape_.reset(shape, s2ix_shape_free);
    if (first != nullptr) *first = fault;
  }

  template <typename Call>
  std::vector<uint64_t> Cover(Call call, const Limits& limits) const {
    const auto cover = [&](uint64_t* cells, size_t room, size_t* number) {
      return call(get(), limits.max_cells, limits.min_level, limits.max_level, cells, room, number);
    };
    return calls::list<uint64_t>(cover, limits.max_cells <= 1'000'000 ? limits.max_cells : 0);
  }

  std::shared_ptr<const s2ix_shape> shape_;
};

// The outline of a union of cells. NoCell, TooLarge, Whole.
inline Rings outline(const std::vector<uint64_t>& cells, Seam seam = Seam::kWhole) {
  const auto call = seam == Seam::kCut ? s2ix_cells_outline_cut : s2ix_cells_outline;
  return Rings::from([&](s2ix_rings_room* room) {
    size_t wrong = 0;
    const uint32_t status = call(cells.data(), cells.size(), room, &wrong);
    if (status == S2IX_PLACES_NO_CELL) throw NoCell(status, wrong);
    return status;
  });
}

// For each point, a list: that of point k is `found` from ends[k - 1] (from 0 for the first) up to ends[k].
struct Lists {
  std::vector<size_t> ends;
  std::vector<uint32_t> found;
};

// Shapes under numbers, which tells exactly what lies where. It can be moved.
class ShapeSet {
 public:
  // A set of no shapes, which cuts each that it takes into about so many cells (1 to 100,000). NoLimits.
  explicit ShapeSet(uint32_t cells = 50) {
    s2ix_shape_set* set = nullptr;
    calls::require(s2ix_shape_set_new(cells, &set));
    set_.reset(set);
  }

  // Puts a shape under a number, in place of one that is there.
  void put(uint32_t number, const Shape& shape) {
    const s2ix_shape* one = shape.get();
    calls::require(s2ix_shape_set_put(set_.get(), &number, &one, 1));
  }

  // Takes away the shape under a number; nothing happens if there is none.
  void remove(uint32_t number) {
    const s2ix_shape* none = nullptr;
    calls::require(s2ix_shape_set_put(set_.get(), &number, &none, 1));
  }

  // Puts shapes under numbers, at once; a null pointer takes away what is there.
  void put_all(const std::vector<uint32_t>& numbers, const std::vector<const Shape*>& shapes) {
    calls::require_equal(numbers.size(), shapes.size());
    std::vector<const s2ix_shape*> all;
    for (const Shape* shape : shapes) all.push_back(shape == nullptr ? nullptr : shape->get());
    calls::require(s2ix_shape_set_put(set_.get(), numbers.data(), all.data(), all.size()));
  }

  // The numbers that have shapes, rising.
  std::vector<uint32_t> numbers() const {
    return calls::list<uint32_t>([&](uint32_t* into, size_t room, size_t* number) {
      return s2ix_shape_set_numbers(set_.get(), into, room, number);
    });
  }

  // The numbers of the shapes at each point, rising. NoPoint.
  Lists at_each(const std::vector<double>& latitudes, const std::vector<double>& longitudes) const {
    calls::require_equal(latitudes.size(), longitudes.size());
    Lists lists;
    lists.ends.resize(latitudes.size());
    const auto call = [&](uint32_t* found, size_t room, size_t* number) {
      return s2ix_shape_set_at_each(set_.get(), latitudes.data(), longitudes.data(), latitudes.size(), lists.ends.data(), found, room,
                                    number);
    };
    lists.found = calls::list<uint32_t>(call, 2 * latitudes.size());
    return lists;
  }

  // The numbers of the shapes at a point, rising. NoPoint.
  std::vector<uint32_t> at(double latitude, double longitude) const { return at_each({latitude}, {longitude}).found; }

  // Whether the point points_of[k] lies in the shape under numbers_of[k], for each k: 1 or 0. NoPoint, NoShape.
  std::vector<uint8_t> hold_each(const std::vector<double>& latitudes, const std::vector<double>& longitudes,
                                 const std::vector<uint32_t>& points_of, const std::vector<uint32_t>& numbers_of) const {
    calls::require_equal(latitudes.size(), longitudes.size());
    calls::require_equal(points_of.size(), numbers_of.size());
    const std::unique_ptr<bool[]> inside(new bool[points_of.size()]);
    size_t wrong = 0;
    const uint32_t status =
        s2ix_shape_set_hold_each(set_.get(), latitudes.data(), longitudes.data(), latitudes.size(), points_of.data(), numbers_of.data(),
                                 points_of.size(), inside.get(), &wrong);
    calls::require(status, wrong);
    return std::vector<uint8_t>(inside.get(), inside.get() + points_of.size());
  }

 private:
  struct Freed {
    void operator()(s2ix_shape_set* set) const { s2ix_shape_set_free(set); }
  };
  std::unique_ptr<s2ix_shape_set, Freed> set_;
};

}  // namespace s2ix_places

#endif
