// Polygons cut along longitude 180, as a flat map has them.
#ifndef S2IX_PLACES_CUT_H
#define S2IX_PLACES_CUT_H

#include <vector>

#include "ring_writer.h"
#include "s2/s2point.h"

namespace places {

// A piece of a ring from the rim of the map to the rim.
struct Chain {
  std::vector<Corner> corners;
  S2Point begin, after_begin, before_end, end;
};

// A ring that isn't cut, or the chains that are left of it.
struct CutRing {
  std::vector<Corner> whole;
  std::vector<Chain> chains;
};

// Cuts a ring, which has its polygon on the left.
CutRing CutAtSeam(const std::vector<S2Point>& ring);

// Joins the chains of all rings of a polygon along the rim of the map, which they then have on their right. A ring that comes to itself
// again at a corner is given as several, of which those that turn right are holes.
std::vector<std::vector<Corner>> JoinAtRim(const std::vector<Chain>& chains);

// The rim of the map itself.
std::vector<Corner> RimOfMap();

// Whether a place is in a ring on the map that doesn't go through it.
bool IsInRing(const std::vector<Corner>& ring, const Corner& place);

}  // namespace places

#endif
