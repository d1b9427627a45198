// Which cells lie within a shape.
#include <vector>

#include "s2/s2cell.h"
#include "s2/s2cell_id.h"
#include "shape.h"

uint32_t s2ix_shape_has_each(const s2ix_shape* shape, const uint64_t* cells, size_t len, bool* inside, size_t* wrong) {
  using namespace places;
  if (shape == nullptr || IsMissing(cells, len) || IsMissing(inside, len) || wrong == nullptr) return S2IX_PLACES_NO_POINTER;
  *wrong = 0;
  return Guarded([&]() -> uint32_t {
    for (size_t k = 0; k < len; k++) {
      if (!S2CellId(cells[k]).is_valid()) {
        *wrong = k;
        return S2IX_PLACES_NO_CELL;
      }
    }
    for (size_t k = 0; k < len; k++) inside[k] = shape->polygon.Contains(S2Cell(S2CellId(cells[k])));
    return S2IX_PLACES_DONE;
  });
}
