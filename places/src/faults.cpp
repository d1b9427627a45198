// What rings enclose together, and the faults that they have with each other.
#include <algorithm>
#include <functional>
#include <memory>
#include <tuple>
#include <utility>

#include "rings.h"
#include "s2/mutable_s2shape_index.h"
#include "s2/s2builder.h"
#include "s2/s2builderutil_s2polygon_layer.h"
#include "s2/s2edge_vector_shape.h"
#include "s2/s2loop.h"
#include "s2/s2shapeutil_visit_crossing_edge_pairs.h"
#include "s2/s2wedge_relations.h"

namespace places {
namespace {

// So many pairs are looked at for faults: a ring may have one for each two of its edges.
constexpr size_t kMostPairs = 10'000;
// So many rings are compared one by one.
constexpr size_t kMostRings = 2'000;

// An edge of a ring, by the point that it starts from.
struct Edge {
  const Ring* ring;
  size_t at;

  const S2Point& from() const { return ring->points[at]; }
  const S2Point& to() const { return ring->points[ring->after(at)]; }
  const S2Point& before() const { return ring->points[at == 0 ? ring->points.size() - 1 : at - 1]; }
  // Where the edge, or the corner that it starts from, is in degrees.
  std::pair<size_t, size_t> place() const { return {ring->number, ring->edge_corner(at)}; }
  std::pair<size_t, size_t> corner_place() const { return {ring->number, ring->corners[at]}; }
  bool is_on_seam() const { return (IsOnSeam(from()) || IsPole(from())) && (IsOnSeam(to()) || IsPole(to())); }
};

std::vector<Edge> EdgesOf(const std::vector<Ring>& rings) {
  std::vector<Edge> edges;
  for (const Ring& ring : rings) {
    for (size_t at = 0; at < ring.points.size(); at++) edges.push_back({&ring, at});
  }
  return edges;
}

// Faults that are found in any order, and told by ring and corner.
class Pairs {
 public:
  void Add(uint32_t kind, std::pair<size_t, size_t> one, std::pair<size_t, size_t> other) {
    if (other < one) std::swap(one, other);
    found_.push_back({kind, one.first, one.second, other.first, other.second});
  }

  // Tells each once.
  void TellAll(Faults* faults) {
    const auto order = [](const s2ix_fault& fault) {
      return std::make_tuple(fault.ring, fault.corner, fault.other_ring, fault.other_corner, fault.kind);
    };
    const auto is_before = [order](const s2ix_fault& a, const s2ix_fault& b) { return order(a) < order(b); };
    std::sort(found_.begin(), found_.end(), is_before);
    const auto is_same = [order](const s2ix_fault& a, const s2ix_fault& b) { return order(a) == order(b); };
    found_.erase(std::unique(found_.begin(), found_.end(), is_same), found_.end());
    for (const s2ix_fault& fault : found_) faults->Tell(fault);
  }

 private:
  std::vector<s2ix_fault> found_;
};

// Calls `visit` with each two edges that have the same key. Other edges may have it too.
void VisitPairs(const std::vector<Edge>& edges, const std::function<size_t(const Edge&)>& key,
                const std::function<void(const Edge&, const Edge&)>& visit) {
  std::vector<std::pair<size_t, size_t>> keyed;
  for (size_t at = 0; at < edges.size(); at++) keyed.emplace_back(key(edges[at]), at);
  std::sort(keyed.begin(), keyed.end());
  size_t visited = 0;
  for (size_t begin = 0; begin < keyed.size(); begin++) {
    for (size_t next = begin + 1; next < keyed.size() && keyed[next].first == keyed[begin].first && visited < kMostPairs; next++) {
      visit(edges[keyed[begin].second], edges[keyed[next].second]);
      visited++;
    }
  }
}

bool AreSame(const Edge& a, const Edge& b) { return a.from() == b.from() && a.to() == b.to(); }
bool AreReversed(const Edge& a, const Edge& b) { return a.from() == b.to() && a.to() == b.from(); }

void FindEdgeCrossings(const std::vector<Edge>& edges, Faults* faults) {
  Pairs pairs;
  std::vector<std::pair<S2Point, S2Point>> ends;
  for (const Edge& edge : edges) ends.emplace_back(edge.from(), edge.to());
  MutableS2ShapeIndex index;
  index.Add(std::make_unique<S2EdgeVectorShape>(std::move(ends)));
  size_t visited = 0;
  const auto visit = [&](const s2shapeutil::ShapeEdge& a, const s2shapeutil::ShapeEdge& b, bool) {
    pairs.Add(S2IX_FAULT_CROSSING, edges[a.id().edge_id].place(), edges[b.id().edge_id].place());
    return ++visited < kMostPairs;
  };
  s2shapeutil::VisitCrossingEdgePairs(index, s2shapeutil::CrossingType::INTERIOR, visit);
  pairs.TellAll(faults);
}

// Rings that go from one side of each other to the other at a corner.
void FindCornerCrossings(const std::vector<Edge>& edges, Faults* faults) {
  Pairs pairs;
  const auto visit = [&pairs](const Edge& a, const Edge& b) {
    if (a.from() != b.from()) return;
    const auto overlap = [&a](const S2Point& b0, const S2Point& b2) {
      return S2::GetWedgeRelation(a.before(), a.from(), a.to(), b0, b2) == S2::WEDGE_PROPERLY_OVERLAPS;
    };
    if (overlap(b.before(), b.to()) && overlap(b.to(), b.before())) pairs.Add(S2IX_FAULT_CROSSING, a.corner_place(), b.corner_place());
  };
  VisitPairs(edges, [](const Edge& edge) { return S2PointHash()(edge.from()); }, visit);
  pairs.TellAll(faults);
}

// The inner sides of rings that don't cross.
class Nesting {
 public:
  explicit Nesting(const std::vector<Ring>& rings) : rings_(rings) {
    for (const Ring& ring : rings) {
      std::vector<S2Point> points = ring.points;
      if (ring.is_hole) std::reverse(points.begin(), points.end());
      auto loop = std::make_unique<S2Loop>();
      loop->set_s2debug_override(S2Debug::DISABLE);
      loop->Init(points);
      loops_.push_back(std::move(loop));
    }
  }

  void Find(Pairs* pairs) const {
    for (size_t inner = 0; inner < rings_.size(); inner++) rings_[inner].is_hole ? FindForHole(inner, pairs) : FindForOuter(inner, pairs);
  }

 private:
  bool Has(size_t outer, size_t inner) const { return loops_[outer]->ContainsNested(*loops_[inner]); }

  void FindForHole(size_t hole, Pairs* pairs) const {
    const std::pair<size_t, size_t> place = {rings_[hole].number, 0};
    for (size_t other = 0; other < rings_.size(); other++) {
      if (rings_[other].polygon != rings_[hole].polygon || other == hole) continue;
      const std::pair<size_t, size_t> other_place = {rings_[other].number, 0};
      if (!rings_[other].is_hole && !Has(other, hole)) pairs->Add(S2IX_FAULT_OUTSIDE, place, place);
      if (rings_[other].is_hole && Has(other, hole)) pairs->Add(S2IX_FAULT_WITHIN, place, other_place);
    }
  }

  void FindForOuter(size_t inner, Pairs* pairs) const {
    for (size_t outer = 0; outer < rings_.size(); outer++) {
      if (rings_[outer].is_hole || outer == inner || !Has(outer, inner) || IsInHole(outer, inner)) continue;
      pairs->Add(S2IX_FAULT_WITHIN, {rings_[inner].number, 0}, {rings_[outer].number, 0});
    }
  }

  // Whether a ring lies in a hole of the polygon of an outer ring, whose holes follow it.
  bool IsInHole(size_t outer, size_t inner) const {
    for (size_t hole = outer + 1; hole < rings_.size() && rings_[hole].is_hole; hole++) {
      if (Has(hole, inner)) return true;
    }
    return false;
  }

  const std::vector<Ring>& rings_;
  std::vector<std::unique_ptr<S2Loop>> loops_;
};

}  // namespace

void FindShared(const std::vector<Ring>& rings, Faults* faults) {
  Pairs pairs;
  const auto visit = [&pairs](const Edge& a, const Edge& b) {
    const bool cancels = AreReversed(a, b) && a.is_on_seam();
    if (AreSame(a, b) || (AreReversed(a, b) && !cancels)) pairs.Add(S2IX_FAULT_SHARED, a.place(), b.place());
  };
  VisitPairs(EdgesOf(rings), [](const Edge& edge) { return S2PointHash()(edge.from()) + S2PointHash()(edge.to()); }, visit);
  pairs.TellAll(faults);
}

bool Assemble(const std::vector<Ring>& rings, S2Polygon* polygon) {
  S2Builder builder{S2Builder::Options()};
  s2builderutil::S2PolygonLayer::Options options;
  options.set_validate(true);
  builder.StartLayer(std::make_unique<s2builderutil::S2PolygonLayer>(polygon, options));
  for (const Ring& ring : rings) {
    for (size_t at = 0; at < ring.points.size(); at++) builder.AddEdge(ring.points[at], ring.points[ring.after(at)]);
  }
  builder.AddIsFullPolygonPredicate(S2Builder::IsFullPolygon(false));
  S2Error error;
  return builder.Build(&error);
}

void FindCrossings(const std::vector<Ring>& rings, Faults* faults) {
  const std::vector<Edge> edges = EdgesOf(rings);
  FindEdgeCrossings(edges, faults);
  FindCornerCrossings(edges, faults);
}

void FindNesting(const std::vector<Ring>& rings, Faults* faults) {
  if (rings.size() > kMostRings) return;
  Pairs pairs;
  Nesting(rings).Find(&pairs);
  pairs.TellAll(faults);
}

void ReadSound(const s2ix_rings& given, bool all, S2Polygon* polygon, Faults* faults) {
  const auto is_over = [all, faults] { return !all && !faults->all().empty(); };
  const std::vector<bool> faulty = FindRingFaults(given, faults);
  if (is_over()) return;
  const std::vector<Ring> rings = RingsOf(given, faulty, faults);
  if (is_over()) return;
  FindShared(rings, faults);
  if (is_over()) return;
  if (faults->all().empty() && Assemble(rings, polygon)) {
    if (polygon->is_empty()) faults->Tell({S2IX_FAULT_EMPTY, 0, 0, 0, 0});
    return;
  }
  FindCrossings(rings, faults);
  if (faults->all().empty()) FindNesting(rings, faults);
  if (faults->all().empty()) faults->Tell({S2IX_FAULT_UNSOUND, 0, 0, 0, 0});
}

}  // namespace places
