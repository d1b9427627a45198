// The coverings of a shape by S2's coverer.
#include <algorithm>
#include <vector>

#include "s2/s2cell_id.h"
#include "s2/s2loop_measures.h"
#include "s2/s2metrics.h"
#include "s2/s2region_coverer.h"
#include "shape.h"

namespace places {
namespace {

double RimOf(const S2Polygon& polygon) {
  double rim = 0;
  for (int k = 0; k < polygon.num_loops(); k++) rim += S2::GetPerimeter(polygon.loop(k)->vertices_span()).radians();
  return rim;
}

// Whether cells of a level are so small that a shape surely wants more than the most of them: by its area, and along its rim.
bool IsTooFine(const S2Polygon& polygon, int level) {
  const double most = static_cast<double>(kMostCells);
  return polygon.GetArea() > most * S2::kMaxArea.GetValue(level) || RimOf(polygon) > most * S2::kMaxDiag.GetValue(level);
}

// The finest level at which an inner covering looks: S2 would else look at each leaf of the rim of a shape that is thinner than a leaf.
int FinestInside(const S2Polygon& polygon, uint32_t max_cells) {
  const double most = std::max(4096.0, 64.0 * max_cells);
  return S2::kAvgEdge.GetLevelForMinValue(RimOf(polygon) / most);
}

S2RegionCoverer Coverer(uint32_t max_cells, int min_level, int max_level) {
  S2RegionCoverer::Options options;
  options.set_max_cells(static_cast<int>(max_cells));
  options.set_min_level(min_level);
  options.set_max_level(max_level);
  return S2RegionCoverer(options);
}

uint32_t WriteCells(const std::vector<S2CellId>& found, uint64_t* cells, size_t room, size_t* number) {
  *number = found.size();
  if (found.size() > room) return S2IX_PLACES_NO_ROOM;
  std::transform(found.begin(), found.end(), cells, [](S2CellId cell) { return cell.id(); });
  return S2IX_PLACES_DONE;
}

// Runs a covering call once its limits and pointers are looked at.
template <typename Cover>
uint32_t Covered(const s2ix_shape* shape, uint32_t max_cells, uint32_t min_level, uint32_t max_level, uint64_t* cells, size_t room,
                 size_t* number, Cover cover) {
  if (shape == nullptr || IsMissing(cells, room) || number == nullptr) return S2IX_PLACES_NO_POINTER;
  *number = 0;
  return Guarded([&]() -> uint32_t {
    if (max_cells < 1 || max_cells > kMostCells || min_level > max_level || max_level > S2CellId::kMaxLevel) return S2IX_PLACES_NO_LIMITS;
    std::vector<S2CellId> found;
    const uint32_t refused = cover(shape->polygon, static_cast<int>(min_level), static_cast<int>(max_level), &found);
    return refused ? refused : WriteCells(found, cells, room, number);
  });
}

}  // namespace
}  // namespace places

uint32_t s2ix_shape_cover(const s2ix_shape* shape, uint32_t max_cells, uint32_t min_level, uint32_t max_level, uint64_t* cells, size_t room,
                          size_t* number) {
  using namespace places;
  const auto cover = [max_cells](const S2Polygon& polygon, int from, int to, std::vector<S2CellId>* found) -> uint32_t {
    if (IsTooFine(polygon, from)) return S2IX_PLACES_TOO_FINE;
    Coverer(max_cells, from, to).GetCovering(polygon, found);
    return found->size() > kMostCells ? S2IX_PLACES_TOO_FINE : S2IX_PLACES_DONE;
  };
  return Covered(shape, max_cells, min_level, max_level, cells, room, number, cover);
}

uint32_t s2ix_shape_cover_inside(const s2ix_shape* shape, uint32_t max_cells, uint32_t min_level, uint32_t max_level, uint64_t* cells,
                                 size_t room, size_t* number) {
  using namespace places;
  const auto cover = [max_cells](const S2Polygon& polygon, int from, int to, std::vector<S2CellId>* found) -> uint32_t {
    const int finest = std::min(to, FinestInside(polygon, max_cells));
    if (finest < from) return S2IX_PLACES_DONE;
    Coverer(max_cells, from, finest).GetInteriorCovering(polygon, found);
    if (found->size() > max_cells) found->resize(max_cells);
    return S2IX_PLACES_DONE;
  };
  return Covered(shape, max_cells, min_level, max_level, cells, room, number, cover);
}
