// A day of a delivery service: zones are laid, a courier is asked about, and one zone is withdrawn by its change. The next day goes on from
// the first one's dump and journal. It prints courier.txt.
//
//     c++ -std=c++17 courier.cpp $(pkg-config --cflags --libs s2ix) -o courier && ./courier
#include <iostream>

#include "s2ix.hpp"

namespace {

enum : std::uint32_t { kCentre = 1, kStation = 2, kClosedRoads = 3 };
constexpr std::uint64_t kRoad = 0x4786596c4f000000, kCourier = 0x4786596c4f1d6f9b;

void Show(const char* question, const std::vector<s2ix::Row>& rows) {
  std::cout << question << '\n';
  for (const s2ix::Row& row : rows) std::cout << "  " << s2ix::cell::to_token(row.cell) << " zone " << row.label << ", " << row.count << '\n';
}

}  // namespace

int main() {
  const std::vector<std::uint64_t> centre = {0x4786590000000000, 0x4786570000000000, 0x47865f0000000000};
  const std::vector<std::uint64_t> station = {0x4786596c00000000, 0x4786596400000000};
  s2ix::Index zones;
  // Each edit is a change: these are the first to the fourth.
  std::cout << "the centre has " << zones.add_union(centre, kCentre) << " cells\n";
  std::cout << "the station has " << zones.add_union(station, kStation) << " cells\n";
  std::cout << "roads are closed in " << zones.add(kRoad, kClosedRoads) << " cell\n";
  std::cout << "the station is counted twice: " << zones.add(station[0], kStation) << " pair\n";

  Show("where is the courier?", zones.at(kCourier));
  std::cout << "zones near the station:";
  for (std::uint32_t label : zones.labels(station)) std::cout << ' ' << label;
  std::cout << "\nthe roads are open again: " << zones.revert(3) << " pair changed\n";
  Show("where is the courier now?", zones.at(kCourier));

  try {
    zones.remove(kRoad, kClosedRoads);
  } catch (const s2ix::Error& error) {
    if (error.status() == S2IX_NOT_HELD) std::cout << "a second time is refused: none is held\n";
  }
  std::cout << "the last change is undone: " << zones.undo() << " pair is back\n";
  std::cout << "the station's region:";
  for (std::uint64_t cell : zones.region(kStation)) std::cout << ' ' << s2ix::cell::to_token(cell);
  // At night a program keeps both texts in a file.
  const std::string dump = zones.dump(), journal = zones.journal();
  std::cout << '\n' << dump << journal;

  s2ix::Index again = s2ix::Index::resume(dump, journal);
  std::cout << "the next day " << again.done_count() << " changes can be taken back\n";
  std::cout << "the roads of the day before are open: " << again.revert(3) << " pair changed\n";
  Show("where is the courier?", again.at(kCourier));
}
