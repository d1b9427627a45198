// Writes the day in tokens: reads day.degrees from standard input and prints day.script. A line of day.degrees may end with a place in
// degrees, and that becomes tokens, by Debian's S2:
//
//     disc LAT LNG METRES          the cells of S2's region coverer over a disc
//     polygon LAT LNG LAT LNG ..   the same over a polygon, its corners in either order
//     point LAT LNG                the leaf of a point
//
// A polygon is one ring of three corners or more, and the inside is the smaller side. The ring closes by itself: the first corner isn't
// repeated at its end, no two corners are at one place, and no two edges cross. Latitudes are -90 to 90, longitudes -180 to 180. A disc
// or a polygon reaches at most 200,000 metres from its middle. If a place is anything else, nothing is printed, standard error names the
// line, and the status is 2.
//
// All other lines stay, but for those that begin with ##. To make the script again:
//
//     apt-get install g++ libs2-dev
//     g++ -std=c++17 cover.cpp -o /tmp/cover -Wl,--copy-dt-needed-entries -ls2 && /tmp/cover <day.degrees >day.script
#include <cstdlib>
#include <iostream>
#include <memory>
#include <sstream>
#include <stdexcept>
#include <string>
#include <utility>
#include <vector>

#include "s2/s2cap.h"
#include "s2/s2cell_id.h"
#include "s2/s2debug.h"
#include "s2/s2earth.h"
#include "s2/s2error.h"
#include "s2/s2latlng.h"
#include "s2/s2loop.h"
#include "s2/s2polygon.h"
#include "s2/s2region_coverer.h"

namespace {

// Why a place is refused.
using NoPlace = std::invalid_argument;

// A cell of level 13 is about a kilometre wide, one of level 16 about 150 metres.
S2CellUnion Covering(const S2Region& region) {
  if (S2Earth::ToMeters(region.GetCapBound().GetRadius()) > 200'000) throw NoPlace("it reaches more than 200,000 metres from its middle");
  S2RegionCoverer::Options options;
  options.set_min_level(13);
  options.set_max_level(16);
  options.set_max_cells(18);
  return S2RegionCoverer(options).GetCovering(region);
}

S2Point PointAt(double latitude, double longitude) {
  const S2LatLng place = S2LatLng::FromDegrees(latitude, longitude);
  if (!place.is_valid()) throw NoPlace("a latitude is -90 to 90, and a longitude -180 to 180");
  return place.ToPoint();
}

S2CellUnion Disc(const std::vector<double>& numbers) {
  if (numbers.size() != 3 || numbers[2] < 0) throw NoPlace("a disc has a latitude, a longitude and metres from 0");
  S1Angle radius = S2Earth::ToAngle(util::units::Meters(numbers.at(2)));
  return Covering(S2Cap(PointAt(numbers.at(0), numbers.at(1)), radius));
}

S2CellUnion Polygon(const std::vector<double>& numbers) {
  if (numbers.size() % 2 != 0) throw NoPlace("a polygon has a latitude and a longitude for each corner");
  std::vector<S2Point> corners;
  for (size_t at = 0; at + 1 < numbers.size(); at += 2) corners.push_back(PointAt(numbers[at], numbers[at + 1]));
  if (corners.size() > 1 && corners.front() == corners.back()) throw NoPlace("a ring closes by itself: leave its last corner out");
  if (corners.size() < 3) throw NoPlace("a polygon has three corners or more");
  auto loop = std::make_unique<S2Loop>();
  // (S2 ends the program if it finds the fault itself)
  loop->set_s2debug_override(S2Debug::DISABLE);
  loop->Init(corners);
  S2Error error;
  if (loop->FindValidationError(&error)) throw NoPlace("the ring crosses or meets itself: " + error.text());
  loop->Normalize();
  return Covering(S2Polygon(std::move(loop)));
}

S2CellUnion Cells(const std::string& shape, const std::vector<double>& numbers) {
  if (shape == "disc") return Disc(numbers);
  if (shape == "polygon") return Polygon(numbers);
  if (numbers.size() != 2) throw NoPlace("a point has a latitude and a longitude");
  return S2CellUnion({S2CellId(PointAt(numbers[0], numbers[1]))});
}

// The line with the tokens of its place in the place's stead.
std::string InTokens(const std::string& line) {
  std::istringstream fields(line);
  std::string field, written;
  while (fields >> field) {
    if (field == "disc" || field == "polygon" || field == "point") {
      std::vector<double> numbers;
      for (double number; fields >> number;) numbers.push_back(number);
      if (!fields.eof()) throw NoPlace("a place has only numbers after its name");
      for (S2CellId cell : Cells(field, numbers)) written += " " + cell.ToToken();
    } else {
      written += (written.empty() ? "" : " ") + field;
    }
  }
  return written;
}

}  // namespace

int main() {
  std::string script = "## Made of day.degrees by cover.cpp.\n";
  size_t number = 0;
  for (std::string line; std::getline(std::cin, line);) {
    number++;
    if (line.rfind("##", 0) == 0) continue;
    try {
      script += (line.rfind("#", 0) == 0 ? line : InTokens(line)) + "\n";
    } catch (const NoPlace& fault) {
      std::cerr << "cover: line " << number << ": " << fault.what() << "\n";
      return 2;
    }
  }
  std::cout << script;
  return std::cout.flush() ? EXIT_SUCCESS : EXIT_FAILURE;
}
