// How a shape is cut into cells, and how they answer.
#include "shape_cells.h"

#include <algorithm>
#include <cmath>

#include "s2/s2edge_clipping.h"
#include "s2/s2edge_crosser.h"
#include "s2/s2edge_crossings.h"
#include "s2/s2metrics.h"
#include "s2/s2predicates.h"

namespace places {
namespace {

// A cell with more edges than these is cut again, if they aren't longer than it.
constexpr size_t kFewEdges = 5;

// More than S2's errors when it clips an edge to a face and looks for it in a rectangle.
double Padding() { return 2 * (S2::kFaceClipErrorUVDist + S2::kIntersectsRectErrorUVDist); }

int LevelOf(double length) { return S2::kAvgEdge.GetClosestLevel(std::max(length, 1e-12)); }

// Whether two edges cross, if their ends are on these sides of the first edge, or 0 if that isn't sure. S2 decides what rounding leaves
// open.
bool AreCrossing(const S2Point& a, const S2Point& b, const S2Point& c, const S2Point& d, int c_side, int d_side) {
  if (c_side != 0 && d_side != 0) {
    const Vector3_d across = c.CrossProd(d);
    const int a_side = s2pred::TriageSign(c, d, a, across), b_side = s2pred::TriageSign(c, d, b, across);
    if (a_side != 0 && b_side != 0) return a_side == d_side && b_side == c_side;
  }
  return S2::EdgeOrVertexCrossing(a, b, c, d);
}

}  // namespace

bool Part::ContainsAtRim(const S2Point& point) const {
  const Vector3_d across = centre_.CrossProd(point);
  const auto side = [&](const S2Point& at) { return s2pred::TriageSign(centre_, point, at, across); };
  bool is_inside = has_centre_;
  const S2Point* last = nullptr;
  int from_side = 0;
  for (uint32_t at = 0; at < edges_; at++) {
    const S2Point* from = points_ + (list_ == nullptr ? at : list_[at]);
    if (from != last) from_side = side(*from);
    last = from + 1;
    const int to_side = side(*last);
    if (from_side != to_side || from_side == 0) is_inside ^= AreCrossing(centre_, point, *from, *last, from_side, to_side);
    from_side = to_side;
  }
  return is_inside;
}

ShapeCells::ShapeCells(uint32_t number, const S2Polygon& polygon, uint32_t rim_cells) : number_(number) {
  AddPoints(polygon);
  rim_level_ = LevelOf(Rim() / rim_cells);
  parts_.emplace_back();
  parts_.back().number_ = number;
  parts_.back().edges_ = 0;
  parts_.back().has_centre_ = true;
  for (int face = 0; face < S2CellId::kNumFaces; face++) CutFace(polygon, face);
  PointToEdges();
}

const Part* ShapeCells::Find(S2CellId leaf) const {
  // (if any cell has the leaf, it is the first whose number isn't below the leaf's, or the one before it)
  size_t at = std::lower_bound(ids_.begin(), ids_.end(), leaf.id()) - ids_.begin();
  if (at == ids_.size() || !S2CellId(ids_[at]).contains(leaf)) {
    if (at == 0 || !S2CellId(ids_[at - 1]).contains(leaf)) return nullptr;
    at--;
  }
  return &parts_[places_[at]];
}

double ShapeCells::Rim() const {
  double rim = 0;
  uint32_t begin = 0;
  for (uint32_t end : rings_) {
    for (uint32_t edge = begin; edge < end; edge++) rim += from(edge).Angle(to(edge));
    begin = end + 1;
  }
  return rim;
}

void ShapeCells::AddPoints(const S2Polygon& polygon) {
  for (int at = 0; at < polygon.num_loops(); at++) {
    const S2Loop& loop = *polygon.loop(at);
    if (loop.is_empty_or_full()) continue;
    points_.insert(points_.end(), loop.vertices_span().begin(), loop.vertices_span().end());
    points_.push_back(loop.vertex(0));
    rings_.push_back(static_cast<uint32_t>(points_.size() - 1));
  }
}

std::vector<ShapeCells::Clipped> ShapeCells::OnFace(int face) const {
  std::vector<Clipped> clipped;
  for (uint32_t edge = 0, ring = 0; edge < points_.size(); edge++) {
    if (edge == rings_[ring]) {
      ring++;
      continue;
    }
    R2Point a, b;
    if (!S2::ClipToPaddedFace(from(edge), to(edge), face, Padding(), &a, &b)) continue;
    clipped.push_back({edge, LevelOf(from(edge).Angle(to(edge))), a, b});
  }
  return clipped;
}

void ShapeCells::CutFace(const S2Polygon& polygon, int face) {
  const std::vector<Clipped> edges = OnFace(face);
  const S2CellId whole = S2CellId::FromFace(face);
  if (edges.empty()) {
    if (polygon.Contains(whole.ToPoint())) AddInner(whole);
    return;
  }
  R2Rect bound = R2Rect::Empty();
  for (const Clipped& edge : edges) bound = bound.Union(R2Rect::FromPointPair(edge.from, edge.to));
  const S2CellId inner = S2PaddedCell(whole, Padding()).ShrinkToFit(bound);
  AddAround(polygon, whole, inner, true);
  Cut(S2PaddedCell(inner, Padding()), edges, inner.ToPoint(), polygon.Contains(inner.ToPoint()));
  AddAround(polygon, whole, inner, false);
}

// Adds the cells of a whole face before or after the only one with edges, if they are inside: one of them tells for all.
void ShapeCells::AddAround(const S2Polygon& polygon, S2CellId whole, S2CellId inner, bool before) {
  if (whole == inner) return;
  const S2CellId other = whole.child(whole.child(0).contains(inner) ? 1 : 0);
  if (!polygon.Contains(other.ToPoint())) return;
  std::vector<S2CellId> around;
  for (int level = 1; level <= inner.level(); level++) {
    for (S2CellId cell = inner.parent(level - 1).child_begin(); cell != inner.parent(level - 1).child_end(); cell = cell.next()) {
      if (!cell.contains(inner) && (cell < inner) == before) around.push_back(cell);
    }
  }
  std::sort(around.begin(), around.end());
  for (S2CellId cell : around) AddInner(cell);
}

bool ShapeCells::IsFine(const S2PaddedCell& cell, const std::vector<Clipped>& edges) const {
  if (cell.level() == S2CellId::kMaxLevel) return true;
  if (cell.level() < rim_level_) return false;
  const auto is_short = [&cell](const Clipped& edge) { return edge.level > cell.level(); };
  return static_cast<size_t>(std::count_if(edges.begin(), edges.end(), is_short)) <= kFewEdges;
}

void ShapeCells::Cut(const S2PaddedCell& cell, const std::vector<Clipped>& edges, const S2Point& centre, bool has_centre) {
  if (edges.empty()) {
    if (has_centre) AddInner(cell.id());
    return;
  }
  if (IsFine(cell, edges)) return AddRim(cell.id(), edges, centre, has_centre);
  std::vector<Clipped> within;
  for (int position = 0; position < 4; position++) {
    int i, j;
    cell.GetChildIJ(position, &i, &j);
    const S2PaddedCell child(cell, i, j);
    const S2Point child_centre = child.id().ToPoint();
    S2EdgeCrosser crosser(&centre, &child_centre);
    bool has_child_centre = has_centre;
    within.clear();
    for (const Clipped& edge : edges) {
      has_child_centre ^= crosser.EdgeOrVertexCrossing(&from(edge.edge), &to(edge.edge));
      if (S2::IntersectsRect(edge.from, edge.to, child.bound())) within.push_back(edge);
    }
    Cut(child, within, child_centre, has_child_centre);
  }
}

void ShapeCells::AddInner(S2CellId cell) {
  ids_.push_back(cell.id());
  places_.push_back(0);
}

void ShapeCells::AddRim(S2CellId cell, const std::vector<Clipped>& edges, const S2Point& centre, bool has_centre) {
  ids_.push_back(cell.id());
  places_.push_back(static_cast<uint32_t>(parts_.size()));
  parts_.emplace_back();
  Part& part = parts_.back();
  part.centre_ = centre;
  part.number_ = number_;
  part.edges_ = static_cast<uint32_t>(edges.size());
  part.has_centre_ = has_centre;
  for (const Clipped& edge : edges) edges_.push_back(edge.edge);
}

// Has the parts point to their edges, once these stay where they are. Edges that follow each other need no list.
void ShapeCells::PointToEdges() {
  parts_.shrink_to_fit();
  const uint32_t* edges = edges_.data();
  for (Part& part : parts_) {
    if (part.edges_ == 0) continue;
    const uint32_t number = part.edges_;
    const bool is_run = edges[number - 1] - edges[0] + 1 == number;
    part.points_ = points_.data() + (is_run ? edges[0] : 0);
    part.list_ = is_run ? nullptr : edges;
    edges += number;
  }
}

}  // namespace places
