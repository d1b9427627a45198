// What the files of this library share: a shape, points on the sphere, and the guard of the C interface.
#ifndef S2IX_PLACES_SHAPE_H
#define S2IX_PLACES_SHAPE_H

#include <cstdint>
#include <new>
#include <optional>
#include <stdexcept>
#include <vector>

#include "s2/s2point.h"
#include "s2/s2polygon.h"
#include "s2ix_places.h"

struct s2ix_shape {
  S2Polygon polygon;

  // S2 would end the program for an unsound polygon, so it is told not to look.
  s2ix_shape() { polygon.set_s2debug_override(S2Debug::DISABLE); }
};

namespace places {

// The most corners of a shape, and the most cells of a covering or an outline.
constexpr size_t kMostCorners = 5'000'000;
constexpr size_t kMostCells = 1'000'000;

// The point of a latitude and longitude in their ranges. All longitudes of a pole are one point, and so are longitudes 180 and -180, on
// which points lie
// exactly in one plane. Else it is S2's point, but for numbers so near to 0 that S2's products of them would vanish.
S2Point PointAt(double latitude, double longitude);

// Whether two doubles are a latitude and a longitude in their ranges.
bool IsPlace(double latitude, double longitude);

// The place of the first that is out of range among many, if there is one.
std::optional<size_t> FirstWrong(const double* latitudes, const double* longitudes, size_t points);

// The points of many places; none if one is out of range, and then *wrong is the place of the first.
std::optional<std::vector<S2Point>> PointsAt(const double* latitudes, const double* longitudes, size_t points, size_t* wrong);

// Whether a pointer to some items must not be used.
inline bool IsMissing(const void* pointer, size_t items) { return pointer == nullptr && items > 0; }

// Runs the body of a call of the C interface, and turns exceptions into statuses.
template <typename Body>
uint32_t Guarded(Body body) {
  try {
    return body();
  } catch (const std::bad_alloc&) {
    return S2IX_PLACES_OUT_OF_MEMORY;
  } catch (const std::length_error&) {
    return S2IX_PLACES_OUT_OF_MEMORY;
  } catch (...) {
    return S2IX_PLACES_FAILED;
  }
}

}  // namespace places

#endif
