// Writes the leaves that S2 finds for points: reads pairs of doubles, a latitude and a longitude in degrees, and writes 64-bit ids.
#include <cstdint>
#include <cstdio>

#include "s2/s2cell_id.h"
#include "s2/s2latlng.h"

int main() {
  double degrees[2];
  while (std::fread(degrees, sizeof degrees, 1, stdin) == 1) {
    const std::uint64_t leaf = S2CellId(S2LatLng::FromDegrees(degrees[0], degrees[1])).id();
    std::fwrite(&leaf, sizeof leaf, 1, stdout);
  }
}
