// Outlines: the polygons of a shape, and of a union of cells, as rings of degrees, whole or cut along longitude 180.
#include <algorithm>
#include <cmath>
#include <limits>
#include <memory>
#include <vector>

#include "cut.h"
#include "ring_writer.h"
#include "s2/s2builder.h"
#include "s2/s2builderutil_s2polygon_layer.h"
#include "s2/s2builderutil_snap_functions.h"
#include "s2/s2cell.h"
#include "s2/s2cell_union.h"
#include "s2/s2edge_distances.h"
#include "s2/s2latlng.h"
#include "s2/s2metrics.h"
#include "shape.h"

namespace places {
namespace {

using s2builderutil::IdentitySnapFunction;
using s2builderutil::S2PolygonLayer;

bool IsMissingRoom(const s2ix_rings_room* outline) {
  return outline == nullptr || IsMissing(outline->latitudes, outline->corner_room) ||
         IsMissing(outline->longitudes, outline->corner_room) || IsMissing(outline->ring_ends, outline->ring_room) ||
         IsMissing(outline->polygon_ends, outline->polygon_room);
}

// Joins cells that cover neither nothing nor the whole sphere. Corners of a small cell lie on the edges of a larger neighbour but for
// rounding, so edges snap to corners nearer than half the width of the smallest leaf.
bool Join(const S2CellUnion& cells, S2Polygon* joined) {
  const S1Angle near = S1Angle::Radians(0.5 * S2::kMinWidth.GetValue(S2CellId::kMaxLevel));
  S2Builder builder{S2Builder::Options(IdentitySnapFunction(near))};
  S2PolygonLayer::Options options;
  options.set_validate(true);
  builder.StartLayer(std::make_unique<S2PolygonLayer>(joined, options));
  for (S2CellId cell : cells) builder.AddLoop(S2Loop(S2Cell(cell)));
  builder.AddIsFullPolygonPredicate(S2Builder::IsFullPolygon(false));
  S2Error error;
  return builder.Build(&error);
}

bool IsWhole(const S2CellUnion& cells) {
  for (int face = 0; face < S2CellId::kNumFaces; face++) {
    if (!cells.Contains(S2CellId::FromFace(face))) return false;
  }
  return true;
}

std::vector<S2Point> PointsOf(const S2Loop& loop) {
  std::vector<S2Point> points;
  for (int at = 0; at < loop.num_vertices(); at++) points.push_back(loop.oriented_vertex(at));
  return points;
}

Corner CornerAt(const S2Point& point) {
  const S2LatLng place(point);
  return {place.lat().degrees(), place.lng().degrees()};
}

uint32_t WriteWhole(const S2Polygon& polygon, s2ix_rings_room* outline) {
  RingWriter writer;
  const auto add = [&](int loop) {
    std::vector<Corner> ring;
    for (const S2Point& point : PointsOf(*polygon.loop(loop))) ring.push_back(CornerAt(point));
    writer.Add(ring);
  };
  for (int shell = 0; shell < polygon.num_loops(); shell++) {
    if (polygon.loop(shell)->is_hole()) continue;
    add(shell);
    const int depth = polygon.loop(shell)->depth();
    for (int hole = shell + 1; hole <= polygon.GetLastDescendant(shell); hole++) {
      if (polygon.loop(hole)->depth() == depth + 1) add(hole);
    }
    writer.EndPolygon();
  }
  return writer.Write(outline);
}

// The polygons of a map that a polygon on the sphere becomes.
class Map {
 public:
  explicit Map(const S2Polygon& polygon) : polygon_(polygon), shell_of_(polygon.num_loops(), -1) {
    std::vector<Chain> chains;
    for (int loop = 0; loop < polygon.num_loops(); loop++) AddLoop(loop, &chains);
    const bool is_around = chains.empty() && polygon.Contains(kPole);
    std::vector<std::vector<Corner>> joined_holes;
    for (auto& ring : JoinAtRim(chains)) {
      if (TwiceAreaOnMap(ring) > 0) {
        shells_.push_back({std::move(ring), {}});
      } else {
        joined_holes.push_back(std::move(ring));
      }
    }
    if (is_around) shells_.push_back({RimOfMap(), {}});
    for (auto& [loop, ring] : holes_) AddHole(ShellOf(loop), std::move(ring));
    for (auto& ring : joined_holes) {
      Shell* shell = SmallestAround(PointAt(ring[0]), PointAt(ring[1]));
      AddHole(shell, std::move(ring));
    }
  }

  uint32_t Write(s2ix_rings_room* outline) const {
    RingWriter writer;
    for (const Shell& shell : shells_) {
      writer.Add(shell.ring);
      for (const auto& hole : shell.holes) writer.Add(hole);
      writer.EndPolygon();
    }
    return writer.Write(outline);
  }

 private:
  const S2Point kPole = S2Point(0, 0, 1);

  struct Shell {
    std::vector<Corner> ring;
    std::vector<std::vector<Corner>> holes;
  };

  // A ring that isn't cut is a hole of the map if it has all of the map's rim on its left.
  void AddLoop(int loop, std::vector<Chain>* chains) {
    CutRing cut = CutAtSeam(PointsOf(*polygon_.loop(loop)));
    chains->insert(chains->end(), cut.chains.begin(), cut.chains.end());
    if (cut.whole.empty()) return;
    if (polygon_.loop(loop)->is_hole() != polygon_.loop(loop)->Contains(kPole)) {
      holes_.emplace_back(loop, std::move(cut.whole));
    } else {
      shell_of_[loop] = static_cast<int>(shells_.size());
      shells_.push_back({std::move(cut.whole), {}});
    }
  }

  static void AddHole(Shell* shell, std::vector<Corner> ring) {
    if (shell != nullptr) shell->holes.push_back(std::move(ring));
  }

  static S2Point PointAt(const Corner& corner) { return places::PointAt(corner.latitude, corner.longitude); }

  // The shell of a hole: that of the loop around it, or else the smallest that has it.
  Shell* ShellOf(int hole) {
    const int parent = polygon_.GetParent(hole);
    if (parent >= 0 && shell_of_[parent] >= 0) return &shells_[shell_of_[parent]];
    return SmallestAround(polygon_.loop(hole)->vertex(0), polygon_.loop(hole)->vertex(1));
  }

  // The smallest shell around an edge.
  Shell* SmallestAround(const S2Point& from, const S2Point& to) {
    const Corner place = CornerAt(S2::Interpolate(from, to, 0.5));
    Shell* smallest = nullptr;
    double least = std::numeric_limits<double>::infinity();
    for (Shell& shell : shells_) {
      const double area = std::abs(TwiceAreaOnMap(shell.ring));
      if (area >= least || !IsInRing(shell.ring, place)) continue;
      smallest = &shell;
      least = area;
    }
    return smallest;
  }

  // Twice the area of a ring on the map; below 0 if it turns right.
  static double TwiceAreaOnMap(const std::vector<Corner>& ring) {
    double twice = 0;
    for (size_t at = 0; at < ring.size(); at++) {
      const Corner &from = ring[at], &to = ring[at + 1 < ring.size() ? at + 1 : 0];
      twice += from.longitude * to.latitude - to.longitude * from.latitude;
    }
    return twice;
  }

  const S2Polygon& polygon_;
  std::vector<int> shell_of_;  // the places of the shells of loops that aren't cut
  std::vector<Shell> shells_;
  std::vector<std::pair<int, std::vector<Corner>>> holes_;
};

uint32_t WriteCut(const S2Polygon& polygon, s2ix_rings_room* outline) { return Map(polygon).Write(outline); }

using WriteCall = uint32_t(const S2Polygon&, s2ix_rings_room*);

uint32_t ShapeOutline(const s2ix_shape* shape, s2ix_rings_room* outline, WriteCall write) {
  if (shape == nullptr || IsMissingRoom(outline)) return S2IX_PLACES_NO_POINTER;
  outline->corners = outline->rings = outline->polygons = 0;
  if (shape->polygon.is_full()) return S2IX_PLACES_WHOLE;
  return Guarded([&] { return write(shape->polygon, outline); });
}

uint32_t CellsOutline(const uint64_t* cells, size_t len, s2ix_rings_room* outline, size_t* wrong, WriteCall write) {
  if (IsMissing(cells, len) || IsMissingRoom(outline) || wrong == nullptr) return S2IX_PLACES_NO_POINTER;
  outline->corners = outline->rings = outline->polygons = 0;
  *wrong = 0;
  if (len > kMostCells) return S2IX_PLACES_TOO_LARGE;
  return Guarded([&]() -> uint32_t {
    std::vector<S2CellId> ids;
    for (size_t at = 0; at < len; at++) {
      ids.emplace_back(cells[at]);
      if (!ids.back().is_valid()) {
        *wrong = at;
        return S2IX_PLACES_NO_CELL;
      }
    }
    const S2CellUnion joined(std::move(ids));
    if (IsWhole(joined)) return S2IX_PLACES_WHOLE;
    s2ix_shape shape;
    if (!Join(joined, &shape.polygon)) return S2IX_PLACES_FAILED;
    return write(shape.polygon, outline);
  });
}

}  // namespace
}  // namespace places

uint32_t s2ix_shape_outline(const s2ix_shape* shape, s2ix_rings_room* outline) {
  return places::ShapeOutline(shape, outline, places::WriteWhole);
}

uint32_t s2ix_shape_outline_cut(const s2ix_shape* shape, s2ix_rings_room* outline) {
  return places::ShapeOutline(shape, outline, places::WriteCut);
}

uint32_t s2ix_cells_outline(const uint64_t* cells, size_t len, s2ix_rings_room* outline, size_t* wrong) {
  return places::CellsOutline(cells, len, outline, wrong, places::WriteWhole);
}

uint32_t s2ix_cells_outline_cut(const uint64_t* cells, size_t len, s2ix_rings_room* outline, size_t* wrong) {
  return places::CellsOutline(cells, len, outline, wrong, places::WriteCut);
}
