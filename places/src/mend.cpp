// Polygons of rings with faults.
#include <cmath>
#include <deque>
#include <memory>
#include <utility>

#include "rings.h"
#include "s2/s2boolean_operation.h"
#include "s2/s2builder.h"
#include "s2/s2builderutil_s2polygon_layer.h"
#include "s2/s2builderutil_snap_functions.h"
#include "s2/s2edge_crossings.h"

namespace places {
namespace {

using s2builderutil::S2PolygonLayer;
using Polygon = std::unique_ptr<S2Polygon>;

Polygon NoPolygon() {
  auto polygon = std::make_unique<S2Polygon>();
  polygon->set_s2debug_override(S2Debug::DISABLE);
  return polygon;
}

std::unique_ptr<S2PolygonLayer> LayerTo(S2Polygon* polygon, S2Builder::EdgeType type) {
  S2PolygonLayer::Options options(type);
  options.set_validate(true);
  return std::make_unique<S2PolygonLayer>(polygon, options);
}

// Mends polygons, and keeps the fault that can't be mended.
class Mender {
 public:
  explicit Mender(const s2ix_rings& given) : given_(given) {}

  const s2ix_fault& fault() const { return fault_; }

  // What lies in the outer ring and in no hole, for each polygon, joined; none after a fault.
  Polygon All() {
    std::deque<Polygon> parts;
    for (size_t polygon = 0; polygon < given_.polygons; polygon++) {
      const size_t begin = Begin(given_.polygon_ends, polygon), end = given_.polygon_ends[polygon];
      if (begin == end) continue;
      Polygon outer = InRing(begin), holes = InSomeRing(begin + 1, end);
      if (fault_.kind) return nullptr;
      parts.push_back(holes->is_empty() ? std::move(outer) : Combined(S2BooleanOperation::OpType::DIFFERENCE, *outer, *holes));
    }
    return Joined(std::move(parts));
  }

 private:
  void Refuse(uint32_t kind, size_t ring, size_t corner) {
    if (!fault_.kind) fault_ = {kind, ring, corner, ring, corner};
  }

  // What lies in a ring an odd number of times.
  Polygon InRing(size_t ring) {
    Polygon polygon = NoPolygon();
    const std::vector<S2Point> points = PointsOf(ring);
    if (fault_.kind || points.size() < 3) return polygon;
    S2Builder::Options options;
    options.set_split_crossing_edges(true);
    S2Builder builder(options);
    builder.StartLayer(LayerTo(polygon.get(), S2Builder::EdgeType::UNDIRECTED));
    for (size_t at = 0; at < points.size(); at++) {
      const S2Point& to = points[at + 1 < points.size() ? at + 1 : 0];
      if (AreOpposite(points[at], to)) {
        Refuse(S2IX_FAULT_OPPOSITE, ring, at);
        return polygon;
      }
      builder.AddEdge(points[at], to);
    }
    builder.AddIsFullPolygonPredicate(S2Builder::IsFullPolygon(false));
    S2Error error;
    if (!builder.Build(&error)) Refuse(S2IX_FAULT_UNSOUND, ring, 0);
    return polygon;
  }

  Polygon InSomeRing(size_t begin, size_t end) {
    std::deque<Polygon> parts;
    for (size_t ring = begin; ring < end; ring++) parts.push_back(InRing(ring));
    return Joined(std::move(parts));
  }

  // The points of a ring without those that repeat the one before.
  std::vector<S2Point> PointsOf(size_t ring) {
    std::vector<S2Point> points;
    const Degrees degrees = DegreesOf(given_, ring);
    for (size_t at = 0; at < degrees.corners; at++) {
      const double latitude = degrees.latitudes[at], longitude = std::remainder(degrees.longitudes[at], 360.0);
      if (!IsPlace(latitude, longitude)) {
        Refuse(std::isfinite(latitude) && std::isfinite(longitude) ? S2IX_FAULT_LATITUDE : S2IX_FAULT_NOT_FINITE, ring, at);
        return points;
      }
      const S2Point point = PointAt(latitude, longitude);
      if (points.empty() || points.back() != point) points.push_back(point);
    }
    while (points.size() > 1 && points.back() == points.front()) points.pop_back();
    return points;
  }

  // Joins parts two by two, so that each corner is looked at a few times only.
  Polygon Joined(std::deque<Polygon> parts) {
    while (parts.size() > 1 && !fault_.kind) {
      Polygon joined = Combined(S2BooleanOperation::OpType::UNION, *parts[0], *parts[1]);
      parts.pop_front();
      parts.pop_front();
      parts.push_back(std::move(joined));
    }
    return parts.empty() ? NoPolygon() : std::move(parts.front());
  }

  Polygon Combined(S2BooleanOperation::OpType type, const S2Polygon& one, const S2Polygon& other) {
    Polygon result = NoPolygon();
    const S2BooleanOperation::Options options{s2builderutil::IdentitySnapFunction(S2::kIntersectionMergeRadius)};
    S2BooleanOperation operation(type, LayerTo(result.get(), S2Builder::EdgeType::DIRECTED), options);
    S2Error error;
    if (!operation.Build(one.index(), other.index(), &error)) Refuse(S2IX_FAULT_UNSOUND, 0, 0);
    return result;
  }

  const s2ix_rings& given_;
  s2ix_fault fault_ = kNoFault;
};

}  // namespace

bool Mend(const s2ix_rings& given, S2Polygon* polygon, s2ix_fault* fault) {
  Mender mender(given);
  const Polygon mended = mender.All();
  if (mender.fault().kind) {
    *fault = mender.fault();
    return false;
  }
  if (mended->is_empty()) return false;
  polygon->Copy(*mended);
  return true;
}

}  // namespace places
