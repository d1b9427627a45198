// Shapes: how they are read and freed, and what statuses and faults mean in words.
#include <algorithm>
#include <memory>
#include <string_view>

#include "rings.h"

namespace places {
namespace {

// So many faults are told at most.
constexpr size_t kMostFaults = 10'000;

uint32_t Write(std::string_view words, uint8_t* text, size_t room, size_t* number) {
  if (IsMissing(text, room) || number == nullptr) return S2IX_PLACES_NO_POINTER;
  *number = words.size();
  if (words.size() > room) return S2IX_PLACES_NO_ROOM;
  std::copy(words.begin(), words.end(), text);
  return S2IX_PLACES_DONE;
}

std::string_view StatusWords(uint32_t status) {
  switch (status) {
    case S2IX_PLACES_DONE: return "done";
    case S2IX_PLACES_OUT_OF_MEMORY: return "out of memory";
    case S2IX_PLACES_NO_CELL: return "no such cell";
    case S2IX_PLACES_NO_LIMITS: return "limits out of range";
    case S2IX_PLACES_NO_ROOM: return "the buffer is too short";
    case S2IX_PLACES_FAULTY: return "a ring is wrong";
    case S2IX_PLACES_NO_RINGS: return "ends of rings or polygons fall, or don't meet their counts";
    case S2IX_PLACES_NO_POINTER: return "a pointer is NULL";
    case S2IX_PLACES_TOO_LARGE: return "too many corners, shapes or cells";
    case S2IX_PLACES_NO_POINT: return "no such place: a latitude is -90 to 90, a longitude -180 to 180";
    case S2IX_PLACES_NO_SHAPE: return "a pair names no point or no shape";
    case S2IX_PLACES_TOO_FINE: return "the covering would have more than 1,000,000 cells";
    case S2IX_PLACES_WHOLE: return "the whole sphere has no outline";
    case S2IX_PLACES_FAILED: return "S2 failed";
    default: return "no such status";
  }
}

std::string_view FaultWords(uint32_t kind) {
  switch (kind) {
    case S2IX_FAULT_NONE: return "no fault";
    case S2IX_FAULT_NOT_FINITE: return "a latitude or longitude is no finite number";
    case S2IX_FAULT_LATITUDE: return "a latitude is beyond 90 degrees: are latitude and longitude swapped?";
    case S2IX_FAULT_LONGITUDE: return "a longitude is beyond 180 degrees";
    case S2IX_FAULT_OPEN: return "the ring is open: its last corner doesn't repeat its first";
    case S2IX_FAULT_TOO_FEW: return "the ring has fewer than three corners";
    case S2IX_FAULT_REPEATED: return "two corners of the ring are at one place";
    case S2IX_FAULT_OPPOSITE: return "an edge joins opposite points of the sphere";
    case S2IX_FAULT_CROSSING: return "two edges cross";
    case S2IX_FAULT_SHARED: return "two edges are the same";
    case S2IX_FAULT_OUTSIDE: return "a hole isn't within its polygon's outer ring";
    case S2IX_FAULT_WITHIN: return "the ring lies within another polygon or hole";
    case S2IX_FAULT_EMPTY: return "nothing is inside";
    case S2IX_FAULT_UNSOUND: return "S2 refuses the polygon";
    default: return "no such fault";
  }
}

}  // namespace
}  // namespace places

uint32_t s2ix_places_status_text(uint32_t status, uint8_t* text, size_t room, size_t* number) {
  return places::Write(places::StatusWords(status), text, room, number);
}

uint32_t s2ix_fault_text(uint32_t kind, uint8_t* text, size_t room, size_t* number) {
  return places::Write(places::FaultWords(kind), text, room, number);
}

uint32_t s2ix_places_version(uint8_t* text, size_t room, size_t* number) {
  return places::Write(S2IX_PLACES_VERSION, text, room, number);
}

uint32_t s2ix_shape_read(const s2ix_rings* rings, bool mend, s2ix_shape** shape, s2ix_fault* fault) {
  using namespace places;
  if (rings == nullptr || IsMissingRings(*rings) || shape == nullptr || fault == nullptr) return S2IX_PLACES_NO_POINTER;
  *shape = nullptr;
  *fault = kNoFault;
  return Guarded([&]() -> uint32_t {
    if (const uint32_t refused = CheckForm(*rings)) return refused;
    auto read = std::make_unique<s2ix_shape>();
    Faults first(1);
    ReadSound(*rings, false, &read->polygon, &first);
    if (!first.all().empty()) *fault = first.all().front();
    if (fault->kind && !(mend && Mend(*rings, &read->polygon, fault))) return S2IX_PLACES_FAULTY;
    *shape = read.release();
    return S2IX_PLACES_DONE;
  });
}

uint32_t s2ix_rings_faults(const s2ix_rings* rings, s2ix_fault* faults, size_t room, size_t* number) {
  using namespace places;
  if (rings == nullptr || IsMissingRings(*rings) || IsMissing(faults, room) || number == nullptr) return S2IX_PLACES_NO_POINTER;
  *number = 0;
  return Guarded([&]() -> uint32_t {
    if (const uint32_t refused = CheckForm(*rings)) return refused;
    s2ix_shape read;
    Faults found(kMostFaults);
    ReadSound(*rings, true, &read.polygon, &found);
    *number = found.all().size();
    if (*number > room) return S2IX_PLACES_NO_ROOM;
    std::copy(found.all().begin(), found.all().end(), faults);
    return S2IX_PLACES_DONE;
  });
}

void s2ix_shape_free(s2ix_shape* shape) { delete shape; }
