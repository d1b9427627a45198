// Rings by themselves: their form, their faults, and their way on the sphere.
#include "rings.h"

#include <algorithm>
#include <cmath>
#include <tuple>

#include "s2/s2loop_measures.h"

namespace places {
namespace {

s2ix_fault FaultAt(uint32_t kind, size_t ring, size_t corner) { return {kind, ring, corner, ring, corner}; }

bool AreEnds(const size_t* ends, size_t len, size_t count) {
  return std::is_sorted(ends, ends + len) && (len == 0 ? 0 : ends[len - 1]) == count;
}

uint32_t NumberFault(double latitude, double longitude) {
  if (!std::isfinite(latitude) || !std::isfinite(longitude)) return S2IX_FAULT_NOT_FINITE;
  if (std::abs(latitude) > 90) return S2IX_FAULT_LATITUDE;
  return std::abs(longitude) > 180 ? S2IX_FAULT_LONGITUDE : S2IX_FAULT_NONE;
}

// A place and the corner at it. Where a ring may be cut, corners with other longitudes are other places.
using Placed = std::tuple<double, double, double, double, size_t>;

std::vector<Placed> PlacesOf(const Degrees& ring) {
  std::vector<Placed> places;
  for (size_t at = 0; at + 1 < ring.corners; at++) {
    const S2Point point = PointAt(ring.latitudes[at], ring.longitudes[at]);
    const double cut = IsOnSeam(point) || IsPole(point) ? ring.longitudes[at] : 0;
    places.emplace_back(point.x(), point.y(), point.z(), cut, at);
  }
  std::sort(places.begin(), places.end());
  return places;
}

bool AreSamePlace(const Placed& a, const Placed& b) {
  return std::get<0>(a) == std::get<0>(b) && std::get<1>(a) == std::get<1>(b) && std::get<2>(a) == std::get<2>(b) &&
         std::get<3>(a) == std::get<3>(b);
}

// Tells of each corner that is at the place of an earlier one.
void FindRepeated(const Degrees& ring, size_t number, Faults* faults) {
  std::vector<s2ix_fault> found;
  const std::vector<Placed> places = PlacesOf(ring);
  for (size_t at = 1, first = 0; at < places.size(); at++) {
    if (!AreSamePlace(places[first], places[at])) {
      first = at;
      continue;
    }
    found.push_back({S2IX_FAULT_REPEATED, number, std::get<4>(places[first]), number, std::get<4>(places[at])});
  }
  const auto is_before = [](const s2ix_fault& a, const s2ix_fault& b) { return a.other_corner < b.other_corner; };
  std::sort(found.begin(), found.end(), is_before);
  for (const s2ix_fault& fault : found) faults->Tell(fault);
}

void FindOpposite(const Degrees& ring, size_t number, Faults* faults) {
  for (size_t at = 0; at + 1 < ring.corners; at++) {
    const S2Point from = PointAt(ring.latitudes[at], ring.longitudes[at]);
    if (AreOpposite(from, PointAt(ring.latitudes[at + 1], ring.longitudes[at + 1]))) {
      faults->Tell(FaultAt(S2IX_FAULT_OPPOSITE, number, at));
    }
  }
}

// Tells the faults of a ring; false if there are some.
bool FindFaultsOf(const Degrees& ring, size_t number, Faults* faults) {
  const size_t before = faults->all().size();
  for (size_t at = 0; at < ring.corners; at++) {
    const uint32_t kind = NumberFault(ring.latitudes[at], ring.longitudes[at]);
    if (kind) faults->Tell(FaultAt(kind, number, at));
  }
  // (what is left needs corners that have places)
  if (faults->all().size() > before || faults->is_full()) return false;
  if (ring.corners == 0) {
    faults->Tell(FaultAt(S2IX_FAULT_TOO_FEW, number, 0));
    return false;
  }
  const size_t last = ring.corners - 1;
  if (PointAt(ring.latitudes[0], ring.longitudes[0]) != PointAt(ring.latitudes[last], ring.longitudes[last])) {
    faults->Tell(FaultAt(S2IX_FAULT_OPEN, number, last));
  } else if (last < 3) {
    faults->Tell(FaultAt(S2IX_FAULT_TOO_FEW, number, last));
  }
  if (last < 3) return false;
  FindRepeated(ring, number, faults);
  FindOpposite(ring, number, faults);
  return faults->all().size() == before;
}

bool IsSeamEdge(const S2Point& a, const S2Point& b) { return (IsOnSeam(a) && (IsOnSeam(b) || IsPole(b))) || (IsPole(a) && IsOnSeam(b)); }

// The corners on the seam of all rings, from south to north, each once.
std::vector<S2Point> SeamOf(const s2ix_rings& given) {
  std::vector<S2Point> seam;
  for (size_t at = 0; at < given.corners; at++) {
    if (std::abs(given.longitudes[at]) != 180 || !IsPlace(given.latitudes[at], given.longitudes[at])) continue;
    const S2Point point = PointAt(given.latitudes[at], given.longitudes[at]);
    if (IsOnSeam(point)) seam.push_back(point);
  }
  const auto is_south = [](const S2Point& a, const S2Point& b) { return a.z() < b.z(); };
  std::sort(seam.begin(), seam.end(), is_south);
  seam.erase(std::unique(seam.begin(), seam.end()), seam.end());
  return seam;
}

// Puts rings on the sphere, one after the other.
class Way {
 public:
  explicit Way(std::vector<S2Point> seam) : seam_(std::move(seam)), splits_left_(2 * seam_.size() + 2) {}

  // Sets the points and corners of a ring; false if edges along the seam overlap too often.
  bool Set(const Degrees& degrees, Ring* ring) {
    for (size_t at = 0; at + 1 < degrees.corners; at++) {
      if (!Add(PointAt(degrees.latitudes[at], degrees.longitudes[at]), at, ring)) return false;
    }
    if (!ring->points.empty() && !Split(ring->points.back(), ring->points.front(), ring->corners.back(), ring)) return false;
    while (ring->points.size() > 1 && ring->points.back() == ring->points.front()) {
      ring->points.pop_back();
      ring->corners.pop_back();
    }
    return true;
  }

 private:
  bool Add(const S2Point& point, size_t corner, Ring* ring) {
    if (!ring->points.empty() && ring->points.back() == point) {
      ring->corners.back() = corner;
      return true;
    }
    if (!ring->points.empty() && !Split(ring->points.back(), point, ring->corners.back(), ring)) return false;
    ring->points.push_back(point);
    ring->corners.push_back(corner);
    return true;
  }

  // Adds the corners on the seam between two points on it.
  bool Split(S2Point from, S2Point to, size_t corner, Ring* ring) {
    if (!IsSeamEdge(from, to)) return true;
    const auto is_south = [](const S2Point& a, const S2Point& b) { return a.z() < b.z(); };
    const bool is_north = from.z() < to.z();
    auto begin = std::upper_bound(seam_.begin(), seam_.end(), is_north ? from : to, is_south);
    auto end = std::lower_bound(seam_.begin(), seam_.end(), is_north ? to : from, is_south);
    if (begin >= end) return true;
    const size_t between = end - begin;
    if (between > splits_left_) return false;
    splits_left_ -= between;
    ring->corners.insert(ring->corners.end(), between, corner);
    const size_t old = ring->points.size();
    ring->points.insert(ring->points.end(), begin, end);
    if (!is_north) std::reverse(ring->points.begin() + old, ring->points.end());
    return true;
  }

  std::vector<S2Point> seam_;
  // Each piece of the seam may have an edge on either side.
  size_t splits_left_;
};

void Direct(Ring* ring) {
  ring->is_reversed = S2::IsNormalized(ring->points) == ring->is_hole;
  if (!ring->is_reversed) return;
  std::reverse(ring->points.begin(), ring->points.end());
  std::reverse(ring->corners.begin(), ring->corners.end());
}

}  // namespace

Degrees DegreesOf(const s2ix_rings& given, size_t ring) {
  const size_t begin = Begin(given.ring_ends, ring);
  return {given.latitudes + begin, given.longitudes + begin, given.ring_ends[ring] - begin};
}

bool IsOnSeam(const S2Point& point) { return point.y() == 0 && point.x() < 0; }

bool IsPole(const S2Point& point) { return point.x() == 0 && point.y() == 0; }

bool AreOpposite(const S2Point& a, const S2Point& b) { return (a + b).Norm() < 1e-9; }

bool IsMissingRings(const s2ix_rings& given) {
  return IsMissing(given.latitudes, given.corners) || IsMissing(given.longitudes, given.corners) || IsMissing(given.ring_ends,
      given.rings) ||
         IsMissing(given.polygon_ends, given.polygons);
}

uint32_t CheckForm(const s2ix_rings& given) {
  if (given.corners > kMostCorners || given.rings > kMostCorners || given.polygons > kMostCorners) return S2IX_PLACES_TOO_LARGE;
  const bool fits = AreEnds(given.ring_ends, given.rings, given.corners) && AreEnds(given.polygon_ends, given.polygons, given.rings);
  return fits ? S2IX_PLACES_DONE : S2IX_PLACES_NO_RINGS;
}

std::vector<bool> FindRingFaults(const s2ix_rings& given, Faults* faults) {
  std::vector<bool> faulty(given.rings);
  if (given.polygons == 0) faults->Tell(FaultAt(S2IX_FAULT_EMPTY, 0, 0));
  for (size_t polygon = 0; polygon < given.polygons && !faults->is_full(); polygon++) {
    const size_t begin = Begin(given.polygon_ends, polygon);
    if (begin == given.polygon_ends[polygon]) faults->Tell(FaultAt(S2IX_FAULT_EMPTY, begin, 0));
    for (size_t ring = begin; ring < given.polygon_ends[polygon] && !faults->is_full(); ring++) {
      faulty[ring] = !FindFaultsOf(DegreesOf(given, ring), ring, faults);
    }
  }
  return faulty;
}

std::vector<Ring> RingsOf(const s2ix_rings& given, const std::vector<bool>& faulty, Faults* faults) {
  std::vector<Ring> rings;
  Way way(SeamOf(given));
  for (size_t polygon = 0; polygon < given.polygons; polygon++) {
    const size_t begin = Begin(given.polygon_ends, polygon);
    for (size_t number = begin; number < given.polygon_ends[polygon]; number++) {
      if (faulty[number]) continue;
      Ring ring{{}, {}, number, polygon, number > begin, false};
      const bool is_set = way.Set(DegreesOf(given, number), &ring);
      if (!is_set || ring.points.size() < 3) {
        const size_t corner = ring.corners.empty() ? 0 : ring.corners.back();
        faults->Tell(FaultAt(is_set ? S2IX_FAULT_TOO_FEW : S2IX_FAULT_SHARED, number, corner));
        continue;
      }
      Direct(&ring);
      rings.push_back(std::move(ring));
    }
  }
  return rings;
}

}  // namespace places
