// How rings are cut along longitude 180 and at the poles, and joined along the rim of the map. The rim is the rectangle of all longitudes
// and latitudes, from its south-eastern corner up, along the north to the west, down, and back along the south. A polygon has it on its
// right.
#include "cut.h"

#include <cmath>
#include <map>
#include <utility>

#include "rings.h"
#include "s2/s2latlng.h"
#include "s2/s2predicates.h"

namespace places {
namespace {

constexpr double kDegrees = 180 / M_PI;

int SignOf(double number) { return (number > 0) - (number < 0); }

// On which side of the seam an edge is at one of its ends: 1 in the east, -1 in the west. An edge along the seam has its polygon there.
int SideAt(const S2Point& end, const S2Point& other, bool is_north) {
  if (end.y() != 0) return SignOf(end.y());
  if (other.y() != 0) return SignOf(other.y());
  return is_north ? 1 : -1;
}

// A corner of an edge, seen from the edge: the seam has the longitude of its side, and a pole that of the other end.
Corner CornerOf(const S2Point& point, const S2Point& other, int side) {
  const S2LatLng place(point);
  if (IsOnSeam(point)) return {place.lat().degrees(), 180.0 * side};
  if (!IsPole(point)) return {place.lat().degrees(), place.lng().degrees()};
  const double longitude = IsOnSeam(other) ? 180.0 * side : S2LatLng(other).lng().degrees();
  return {90.0 * SignOf(point.z()), longitude};
}

// Where an edge goes over the seam or a pole between its ends.
bool FindCrossing(const S2Point& a, const S2Point& b, S2Point* at) {
  if (a.y() * b.y() >= 0 && SignOf(a.y()) * SignOf(b.y()) >= 0) return false;
  const double x = a.x() * std::abs(b.y()) + b.x() * std::abs(a.y()), z = a.z() * std::abs(b.y()) + b.z() * std::abs(a.y());
  if (x > 0 || (x == 0 && z == 0)) return false;
  *at = S2Point(x, 0, z).Normalize();
  return true;
}

// Goes along a ring and cuts it.
class Cutter {
 public:
  CutRing Cut(const std::vector<S2Point>& ring) {
    const size_t points = ring.size();
    for (size_t at = 0; at < points; at++) AddPoint(ring[at == 0 ? points - 1 : at - 1], ring[at], ring[at + 1 < points ? at + 1 : 0]);
    if (cut_.chains.empty()) return {std::move(now_.corners), {}};
    Chain& first = cut_.chains.front();
    // (the ring began within its first chain, whose begin is the last chain's)
    now_.corners.insert(now_.corners.end(), first.corners.begin(), first.corners.end());
    first.corners = std::move(now_.corners);
    first.begin = now_.begin;
    first.after_begin = now_.after_begin;
    return std::move(cut_);
  }

 private:
  void AddPoint(const S2Point& before, const S2Point& point, const S2Point& after) {
    const int from = SideAt(point, before, point.z() > before.z()), to = SideAt(point, after, after.z() > point.z());
    now_.corners.push_back(CornerOf(point, before, from));
    if (IsPole(point) || (IsOnSeam(point) && from != to)) {
      EndChain(before, point);
      BeginChain(point, after, CornerOf(point, after, to));
    }
    S2Point crossing;
    if (!FindCrossing(point, after, &crossing)) return;
    now_.corners.push_back(CornerOf(crossing, point, SignOf(point.y())));
    EndChain(point, crossing);
    BeginChain(crossing, after, CornerOf(crossing, after, SignOf(after.y())));
  }

  void EndChain(const S2Point& before, const S2Point& point) {
    now_.before_end = before;
    now_.end = point;
    cut_.chains.push_back(std::move(now_));
    now_ = {};
  }

  void BeginChain(const S2Point& point, const S2Point& after, const Corner& corner) {
    now_.begin = point;
    now_.after_begin = after;
    now_.corners.push_back(corner);
  }

  Chain now_;
  CutRing cut_;
};

// How far along the rim a corner on it is: its east side is from 0 to 1, the north up to 2, the west up to 3 and the south up to 4.
double PlaceOnRim(const Corner& corner) {
  if (corner.longitude == 180) return (corner.latitude + 90) / 180;
  if (corner.longitude == -180) return 2 + (90 - corner.latitude) / 180;
  return corner.latitude > 0 ? 1 + (180 - corner.longitude) / 360 : 3 + (corner.longitude + 180) / 360;
}

// An end of a chain.
struct End {
  double place;
  int rank;  // at one place, an edge along the rim behind comes first, and one along the rim ahead comes last
  S2Point point, inner;
  size_t chain;
  bool is_arrival;

  End(const Corner& corner, const S2Point& point, const S2Point& inner, size_t chain, bool is_arrival)
      : place(PlaceOnRim(corner)), rank(0), point(point), inner(inner), chain(chain), is_arrival(is_arrival) {
    if (!IsOnSeam(point) || inner.y() != 0) return;
    rank = (inner.z() > point.z()) == (corner.longitude == 180) ? 1 : -1;
  }

  bool operator<(const End& other) const {
    if (place != other.place || rank != other.rank) return std::make_pair(place, rank) < std::make_pair(other.place, other.rank);
    return rank == 0 && point == other.point && s2pred::Sign(point, inner, other.inner) < 0;
  }
};

// For each chain, the place in `ends` of the chain's own end, and of the beginning that follows on the rim.
std::vector<std::pair<size_t, size_t>> Follow(const std::vector<End>& ends, size_t chains) {
  std::vector<std::pair<size_t, size_t>> follow(chains);
  std::vector<size_t> open;
  std::vector<bool> taken(ends.size());
  for (size_t at = 0; at < 2 * ends.size(); at++) {
    const size_t place = at % ends.size();
    if (taken[place]) continue;
    if (ends[place].is_arrival) {
      if (at < ends.size()) open.push_back(place);
    } else if (!open.empty()) {
      follow[ends[open.back()].chain] = {open.back(), place};
      taken[place] = true;
      open.pop_back();
    }
  }
  return follow;
}

std::vector<End> EndsOf(const std::vector<Chain>& chains) {
  std::vector<End> ends;
  for (size_t at = 0; at < chains.size(); at++) {
    const Chain& chain = chains[at];
    ends.emplace_back(chain.corners.front(), chain.begin, chain.after_begin, at, false);
    ends.emplace_back(chain.corners.back(), chain.end, chain.before_end, at, true);
  }
  std::sort(ends.begin(), ends.end());
  return ends;
}

void AddRim(double from, double to, std::vector<Corner>* ring) {
  for (int side = static_cast<int>(std::floor(from)) + 1; side < to; side++) ring->push_back(RimOfMap()[side % 4]);
}

// Adds the rings that a ring consists of: it may go through a corner more than once.
void AddSimple(const std::vector<Corner>& ring, std::vector<std::vector<Corner>>* rings) {
  std::vector<Corner> open;
  std::map<std::pair<double, double>, size_t> places;
  const auto add = [&](size_t first) {
    if (open.size() - first > 2) rings->emplace_back(open.begin() + first, open.end());
    for (size_t at = first; at < open.size(); at++) places.erase({open[at].latitude, open[at].longitude});
    open.resize(first);
  };
  for (const Corner& corner : ring) {
    const auto seen = places.find({corner.latitude, corner.longitude});
    if (seen != places.end()) add(seen->second);
    places[{corner.latitude, corner.longitude}] = open.size();
    open.push_back(corner);
  }
  add(0);
}

// The latitude at which an edge on the map goes over a longitude between its ends.
double LatitudeAt(const Corner& from, const Corner& to, double longitude) {
  if (from.latitude == to.latitude && std::abs(from.latitude) == 90) return from.latitude;
  const S2Point a = PointAt(from.latitude, from.longitude), b = PointAt(to.latitude, to.longitude);
  const S2Point across = a.CrossProd(b);
  const double angle = longitude / kDegrees;
  return std::atan(-(across.x() * std::cos(angle) + across.y() * std::sin(angle)) / across.z()) * kDegrees;
}

}  // namespace

CutRing CutAtSeam(const std::vector<S2Point>& ring) { return Cutter().Cut(ring); }

std::vector<Corner> RimOfMap() { return {{-90, 180}, {90, 180}, {90, -180}, {-90, -180}}; }

std::vector<std::vector<Corner>> JoinAtRim(const std::vector<Chain>& chains) {
  const std::vector<End> ends = EndsOf(chains);
  const std::vector<std::pair<size_t, size_t>> follow = Follow(ends, chains.size());
  std::vector<std::vector<Corner>> rings;
  std::vector<bool> used(chains.size());
  for (size_t first = 0; first < chains.size(); first++) {
    std::vector<Corner> ring;
    for (size_t at = first; !used[at];) {
      used[at] = true;
      ring.insert(ring.end(), chains[at].corners.begin(), chains[at].corners.end());
      const auto [end, next] = follow[at];
      AddRim(ends[end].place, ends[next].place + (next < end ? 4 : 0), &ring);
      at = ends[next].chain;
    }
    AddSimple(ring, &rings);
  }
  return rings;
}

bool IsInRing(const std::vector<Corner>& ring, const Corner& place) {
  bool is_inside = false;
  for (size_t at = 0; at < ring.size(); at++) {
    const Corner &from = ring[at], &to = ring[at + 1 < ring.size() ? at + 1 : 0];
    if ((from.longitude <= place.longitude) == (to.longitude <= place.longitude)) continue;
    is_inside ^= LatitudeAt(from, to, place.longitude) > place.latitude;
  }
  return is_inside;
}

}  // namespace places
