// Points on the sphere, and which shapes they lie in.
#include <algorithm>
#include <cmath>
#include <limits>
#include <memory>
#include <vector>

#include "s2/mutable_s2shape_index.h"
#include "s2/s2contains_point_query.h"
#include "s2/s2latlng.h"
#include "lists.h"
#include "shape.h"

namespace places {
namespace {

// Up to so many points, looking at each shape is cheaper than making an index of all.
constexpr size_t kFewPoints = 64;

// Degrees nearer to 0 than any atom count as 0, so that S2's products of three coordinates never vanish.
double Plain(double degrees) { return std::abs(degrees) < 1e-30 ? 0 : degrees; }

uint32_t CheckShapes(const s2ix_shape* const* shapes, size_t len) {
  if (len > std::numeric_limits<uint32_t>::max()) return S2IX_PLACES_TOO_LARGE;
  const bool all_there = std::none_of(shapes, shapes + len, [](const s2ix_shape* shape) { return shape == nullptr; });
  return all_there ? S2IX_PLACES_DONE : S2IX_PLACES_NO_POINTER;
}

void LookAtEach(const s2ix_shape* const* shapes, size_t len, const std::vector<S2Point>& points, Lists* lists) {
  for (const S2Point& point : points) {
    for (size_t at = 0; at < len; at++) {
      if (shapes[at]->polygon.Contains(point)) lists->Add(static_cast<uint32_t>(at));
    }
    lists->End();
  }
}

void LookInIndex(const s2ix_shape* const* shapes, size_t len, const std::vector<S2Point>& points, Lists* lists) {
  MutableS2ShapeIndex index;
  for (size_t at = 0; at < len; at++) index.Add(std::make_unique<S2Polygon::Shape>(&shapes[at]->polygon));
  auto query = MakeS2ContainsPointQuery(&index);
  std::vector<uint32_t> found;
  for (const S2Point& point : points) {
    found.clear();
    query.VisitContainingShapes(point, [&found](S2Shape* shape) {
      found.push_back(static_cast<uint32_t>(shape->id()));
      return true;
    });
    std::sort(found.begin(), found.end());
    for (uint32_t shape : found) lists->Add(shape);
    lists->End();
  }
}

}  // namespace

std::optional<size_t> FirstWrong(const double* latitudes, const double* longitudes, size_t points) {
  for (size_t at = 0; at < points; at++) {
    if (!IsPlace(latitudes[at], longitudes[at])) return at;
  }
  return std::nullopt;
}

bool IsPlace(double latitude, double longitude) { return std::abs(latitude) <= 90 && std::abs(longitude) <= 180; }

S2Point PointAt(double latitude, double longitude) {
  if (std::abs(latitude) == 90) return S2Point(0, 0, std::copysign(1, latitude));
  if (std::abs(longitude) == 180) {
    const double angle = S1Angle::Degrees(Plain(latitude)).radians();
    return S2Point(-std::cos(angle), 0, std::sin(angle));
  }
  return S2LatLng::FromDegrees(Plain(latitude), Plain(longitude)).ToPoint();
}

std::optional<std::vector<S2Point>> PointsAt(const double* latitudes, const double* longitudes, size_t points, size_t* wrong) {
  if (const auto first = FirstWrong(latitudes, longitudes, points)) {
    *wrong = *first;
    return std::nullopt;
  }
  std::vector<S2Point> at;
  at.reserve(points);
  for (size_t k = 0; k < points; k++) at.push_back(PointAt(latitudes[k], longitudes[k]));
  return at;
}

}  // namespace places

uint32_t s2ix_shapes_at_each(const s2ix_shape* const* shapes, size_t len, const double* latitudes, const double* longitudes, size_t points,
                             size_t* ends, uint32_t* found, size_t room, size_t* number) {
  using namespace places;
  if (IsMissing(shapes, len) || IsMissing(latitudes, points) || IsMissing(longitudes, points) || IsMissing(ends, points) ||
      IsMissing(found, room) || number == nullptr) {
    return S2IX_PLACES_NO_POINTER;
  }
  *number = 0;
  return Guarded([&]() -> uint32_t {
    if (const uint32_t refused = CheckShapes(shapes, len)) return refused;
    const auto at = PointsAt(latitudes, longitudes, points, number);
    if (!at) return S2IX_PLACES_NO_POINT;
    Lists lists(ends, found, room);
    (points <= kFewPoints ? LookAtEach : LookInIndex)(shapes, len, *at, &lists);
    *number = lists.number();
    return lists.status();
  });
}

uint32_t s2ix_shapes_hold_each(const s2ix_shape* const* shapes, size_t len, const double* latitudes, const double* longitudes,
    size_t points,
                               const uint32_t* points_of, const uint32_t* shapes_of, size_t pairs, bool* inside, size_t* wrong) {
  using namespace places;
  if (IsMissing(shapes, len) || IsMissing(latitudes, points) || IsMissing(longitudes, points) || IsMissing(points_of, pairs) ||
      IsMissing(shapes_of, pairs) || IsMissing(inside, pairs) || wrong == nullptr) {
    return S2IX_PLACES_NO_POINTER;
  }
  *wrong = 0;
  return Guarded([&]() -> uint32_t {
    if (const uint32_t refused = CheckShapes(shapes, len)) return refused;
    const auto at = PointsAt(latitudes, longitudes, points, wrong);
    if (!at) return S2IX_PLACES_NO_POINT;
    for (size_t k = 0; k < pairs; k++) {
      if (points_of[k] >= points || shapes_of[k] >= len) {
        *wrong = k;
        return S2IX_PLACES_NO_SHAPE;
      }
    }
    for (size_t k = 0; k < pairs; k++) inside[k] = shapes[shapes_of[k]]->polygon.Contains((*at)[points_of[k]]);
    return S2IX_PLACES_DONE;
  });
}
