// A shape cut into cells, so that a point is tested against few edges.
#ifndef S2IX_PLACES_SHAPE_CELLS_H
#define S2IX_PLACES_SHAPE_CELLS_H

#include <cstdint>
#include <vector>

#include "s2/r2.h"
#include "s2/s2cell_id.h"
#include "s2/s2padded_cell.h"
#include "s2/s2point.h"
#include "s2/s2polygon.h"

namespace places {

// What a shape has in a cell: all of the cell, or the edges in it and whether its centre is inside.
class Part {
 public:
  // Whether a point in the cell lies in the shape. S2Polygon::Contains says the same.
  bool Contains(const S2Point& point) const { return edges_ == 0 ? has_centre_ : ContainsAtRim(point); }

  // The number of the shape.
  uint32_t number() const { return number_; }

 private:
  friend class ShapeCells;

  bool ContainsAtRim(const S2Point& point) const;

  S2Point centre_;
  const S2Point* points_ = nullptr;  // edge k goes from point k to the next, or from point list_[k] if there is a list
  const uint32_t* list_ = nullptr;
  uint32_t number_ = 0;
  uint32_t edges_ : 31;
  uint32_t has_centre_ : 1;
};

// The cells of a shape, rising: inner ones, which lie in it, and those at its rim. No two overlap.
class ShapeCells {
 public:
  // Cuts the rim into about so many cells, and finer where more than a few edges are in one.
  ShapeCells(uint32_t number, const S2Polygon& polygon, uint32_t rim_cells);
  ShapeCells(const ShapeCells&) = delete;

  // The part of the cell that has a leaf, or null.
  const Part* Find(S2CellId leaf) const;

  // Calls `visit` with each cell and its part.
  template <typename Visit>
  void VisitAll(Visit visit) const {
    for (size_t at = 0; at < ids_.size(); at++) visit(S2CellId(ids_[at]), &parts_[places_[at]]);
  }

 private:
  // An edge on a face of the cube: its ends there, and the level beyond which it is longer than a cell.
  struct Clipped {
    uint32_t edge;
    int level;
    R2Point from, to;
  };

  void AddPoints(const S2Polygon& polygon);
  double Rim() const;
  std::vector<Clipped> OnFace(int face) const;
  void CutFace(const S2Polygon& polygon, int face);
  void AddAround(const S2Polygon& polygon, S2CellId whole, S2CellId inner, bool before);
  void Cut(const S2PaddedCell& cell, const std::vector<Clipped>& edges, const S2Point& centre, bool has_centre);
  bool IsFine(const S2PaddedCell& cell, const std::vector<Clipped>& edges) const;
  void AddInner(S2CellId cell);
  void AddRim(S2CellId cell, const std::vector<Clipped>& edges, const S2Point& centre, bool has_centre);
  void PointToEdges();
  const S2Point& from(uint32_t edge) const { return points_[edge]; }
  const S2Point& to(uint32_t edge) const { return points_[edge + 1]; }

  uint32_t number_;
  int rim_level_;
  std::vector<uint64_t> ids_;
  std::vector<uint32_t> places_;  // those of the parts of the cells
  std::vector<Part> parts_;       // that of all inner cells first
  std::vector<uint32_t> edges_;   // the places of the points from which the edges of the parts start
  std::vector<S2Point> points_;   // ring after ring, the first point of each again at its end
  std::vector<uint32_t> rings_;   // the places of the last points
};

}  // namespace places

#endif
