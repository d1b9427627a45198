// Polygons in degrees, on their way into the caller's buffers.
#ifndef S2IX_PLACES_RING_WRITER_H
#define S2IX_PLACES_RING_WRITER_H

#include <algorithm>
#include <vector>

#include "s2ix_places.h"

namespace places {

// A corner in degrees.
struct Corner {
  double latitude, longitude;

  bool operator==(const Corner& other) const { return latitude == other.latitude && longitude == other.longitude; }
};

// Rings, of which each is given without the last corner, and written with it.
class RingWriter {
 public:
  void Add(const std::vector<Corner>& ring) {
    for (const Corner& corner : ring) Add(corner);
    Add(ring.front());
    ring_ends_.push_back(latitudes_.size());
  }
  void EndPolygon() { polygon_ends_.push_back(ring_ends_.size()); }

  uint32_t Write(s2ix_rings_room* outline) const {
    outline->corners = latitudes_.size();
    outline->rings = ring_ends_.size();
    outline->polygons = polygon_ends_.size();
    if (outline->corners > outline->corner_room || outline->rings > outline->ring_room || outline->polygons > outline->polygon_room) {
      return S2IX_PLACES_NO_ROOM;
    }
    std::copy(latitudes_.begin(), latitudes_.end(), outline->latitudes);
    std::copy(longitudes_.begin(), longitudes_.end(), outline->longitudes);
    std::copy(ring_ends_.begin(), ring_ends_.end(), outline->ring_ends);
    std::copy(polygon_ends_.begin(), polygon_ends_.end(), outline->polygon_ends);
    return S2IX_PLACES_DONE;
  }

 private:
  void Add(const Corner& corner) {
    latitudes_.push_back(corner.latitude);
    longitudes_.push_back(corner.longitude);
  }

  std::vector<double> latitudes_, longitudes_;
  std::vector<size_t> ring_ends_, polygon_ends_;
};

}  // namespace places

#endif
