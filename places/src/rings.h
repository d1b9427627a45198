// The rings that a shape is read from: what is wrong with them, and what they enclose.
#ifndef S2IX_PLACES_RINGS_H
#define S2IX_PLACES_RINGS_H

#include <vector>

#include "shape.h"

namespace places {

// A ring on the sphere, directed so that its polygon is on the left.
struct Ring {
  std::vector<S2Point> points;  // no two neighbours are equal, and the last isn't the first
  std::vector<size_t> corners;  // the corner in degrees at which each point is, or from which its edge starts
  size_t number;                // counted over all polygons
  size_t polygon;
  bool is_hole;
  bool is_reversed;

  size_t after(size_t at) const { return at + 1 < points.size() ? at + 1 : 0; }
  // The corner in degrees from which the edge after a point starts.
  size_t edge_corner(size_t at) const { return corners[is_reversed ? after(at) : at]; }
};

// A ring in degrees, with its last corner.
struct Degrees {
  const double* latitudes;
  const double* longitudes;
  size_t corners;
};

constexpr s2ix_fault kNoFault = {S2IX_FAULT_NONE, 0, 0, 0, 0};

inline size_t Begin(const size_t* ends, size_t at) { return at == 0 ? 0 : ends[at - 1]; }
Degrees DegreesOf(const s2ix_rings& given, size_t ring);

bool IsOnSeam(const S2Point& point);
bool IsPole(const S2Point& point);
// Whether the shortest line from a point to another is undefined, or nearly so.
bool AreOpposite(const S2Point& a, const S2Point& b);

// Whether a pointer of rings must not be used.
bool IsMissingRings(const s2ix_rings& given);

// The status if the counts and ends of rings don't fit, else S2IX_PLACES_DONE.
uint32_t CheckForm(const s2ix_rings& given);

// Faults in the order in which they are told, up to so many.
class Faults {
 public:
  explicit Faults(size_t most) : most_(most) {}

  void Tell(const s2ix_fault& fault) {
    if (!is_full()) all_.push_back(fault);
  }
  bool is_full() const { return all_.size() >= most_; }
  const std::vector<s2ix_fault>& all() const { return all_; }

 private:
  size_t most_;
  std::vector<s2ix_fault> all_;
};

// Tells the faults of each ring by itself, but for edges that cross. It says which rings have one.
std::vector<bool> FindRingFaults(const s2ix_rings& given, Faults* faults);

// The rings on the sphere, but for those that are faulty. Edges along the seam are split at each corner on it, so that those that meet from
// both sides are equal. It tells of rings whose edges overlap there so often that they can't be sound, or that have too few corners then,
// and leaves them out.
std::vector<Ring> RingsOf(const s2ix_rings& given, const std::vector<bool>& faulty, Faults* faults);

// Tells the edges that are equal, but for two on the seam in opposite directions.
void FindShared(const std::vector<Ring>& rings, Faults* faults);

// Makes the polygon that is left of all rings; false if there is none.
bool Assemble(const std::vector<Ring>& rings, S2Polygon* polygon);

// Tells the edges that cross, and the rings that do in corners.
void FindCrossings(const std::vector<Ring>& rings, Faults* faults);

// Tells the rings that lie within each other, or outside, and must not.
void FindNesting(const std::vector<Ring>& rings, Faults* faults);

// Makes the polygon of rings without faults; else it tells those up to the first kind that there is, or all if that is asked for.
void ReadSound(const s2ix_rings& given, bool all, S2Polygon* polygon, Faults* faults);

// Makes a polygon of rings with faults. If a fault can't be mended, it is set, and the result is false.
bool Mend(const s2ix_rings& given, S2Polygon* polygon, s2ix_fault* fault);

}  // namespace places

#endif
