// Mutants of sound rings, and rings that any bytes spell: each is read or its fault told, and a shape answers each call.
#include <algorithm>
#include <cmath>
#include <cstdlib>
#include <cstring>
#include <limits>
#include <numeric>

#include "checks.h"

namespace {

double Mutant(Random* random, double number) {
  switch (random->Below(12)) {
    case 0: return std::numeric_limits<double>::quiet_NaN();
    case 1: return random->Below(2) ? HUGE_VAL : -HUGE_VAL;
    case 2: return 5e-324;
    case 3: return -2.2e-308;
    case 4: return random->Between(-1, 1) * 1e308;
    case 5: return random->Below(2) ? 90 : -90;
    case 6: return random->Below(2) ? 180 : -180;
    case 7: return std::nextafter(number, 0);
    case 8: return -number;
    case 9: return 0;
    case 10: return number + random->Between(-1e-13, 1e-13);
    default: return random->Between(-200, 200);
  }
}

void Mutate(Random* random, Given* given) {
  const size_t corners = given->latitudes.size(), at = random->Below(corners), other = random->Below(corners);
  switch (random->Below(6)) {
    case 0: given->latitudes[at] = Mutant(random, given->latitudes[at]); break;
    case 1: given->longitudes[at] = Mutant(random, given->longitudes[at]); break;
    case 2: std::swap(given->latitudes[at], given->longitudes[at]); break;
    case 3: given->latitudes[at] = given->latitudes[other], given->longitudes[at] = given->longitudes[other]; break;
    case 4: std::swap(given->latitudes[at], given->latitudes[other]), std::swap(given->longitudes[at], given->longitudes[other]); break;
    default: given->longitudes[at] = 180 * (random->Below(2) ? 1 : -1); break;
  }
  // (a ring that stays closed comes further)
  for (size_t ring = 0; ring < given->ring_ends.size() && random->Below(4); ring++) {
    const size_t first = ring == 0 ? 0 : given->ring_ends[ring - 1], last = given->ring_ends[ring] - 1;
    given->latitudes[last] = given->latitudes[first];
    given->longitudes[last] = given->longitudes[first];
  }
}

std::vector<Given> Seeds() {
  Corners ring, belt;
  for (int at = 0; at < 12; at++) ring.push_back({30 * at - 180, 70 + at % 3});
  for (int at = -180; at <= 180; at += 45) belt.push_back({at, -60});
  belt.push_back({180, -90});
  belt.push_back({-180, -90});
  return {Given().Ring(Box(10, 40, 20, 50)).Ring(Box(13, 43, 17, 47)).Next().Ring(Box(30, 40, 31, 41)),
          Given().Ring({{170, -20}, {180, -20}, {180, -10}, {170, -10}}).Next().Ring({{-180, -20}, {-170, -20}, {-170, -10}, {-180, -10}}),
          Given().Ring(ring), Given().Ring(belt), Given().Ring({{0, 0}, {1e-9, 0}, {1e-9, 1e-9}, {0, 1e-9}}),
          Given().Ring({{0, 0}, {10, 10}, {10, 0}, {0, 10}})};
}

// Uses a shape that was read from a mutant in each call.
void Use(const s2ix_shape* shape) {
  Outline outline;
  const uint32_t status = outline.Of(shape);
  Check(status == S2IX_PLACES_DONE || status == S2IX_PLACES_WHOLE, "a mutant has an outline");
  Cells(s2ix_shape_cover, shape, 8, 0, 30);
  Cells(s2ix_shape_cover_inside, shape, 4, 0, 12);
  Has(shape, 45, 15);
  Outline cut;
  Check(cut.Fill([shape](s2ix_rings_room* into) { return s2ix_shape_outline_cut(shape, into); }) == status, "a mutant's outline is cut");
  s2ix_shape_set* set = nullptr;
  const uint32_t number = 1;
  const double latitudes[] = {45, 75, -15}, longitudes[] = {15, 15, 175};
  size_t ends[3], len = 0;
  uint32_t found[3];
  Check(s2ix_shape_set_new(9, &set) == S2IX_PLACES_DONE && s2ix_shape_set_put(set, &number, &shape, 1) == S2IX_PLACES_DONE &&
            s2ix_shape_set_at_each(set, latitudes, longitudes, 3, ends, found, 3, &len) == S2IX_PLACES_DONE, "a mutant is in a set");
  for (size_t at = 0; at < 3; at++) {
    Check(Has(shape, latitudes[at], longitudes[at]) == (ends[at] > (at == 0 ? 0 : ends[at - 1])), "a set answers as its mutant");
  }
  s2ix_shape_set_free(set);
}

enum Outcome { kSound, kMended, kRefused };

// Reads rings in each way, and uses the shape if that is asked for.
Outcome Try(const Given& given, bool is_used) {
  const Read plain = ReadShape(given), other = ReadShape(given, true);
  const bool is_sound = plain.status == S2IX_PLACES_DONE, is_mended = other.status == S2IX_PLACES_DONE;
  const bool is_refused = plain.status == S2IX_PLACES_FAULTY && plain.fault.kind > 0 && (is_mended || other.status == S2IX_PLACES_FAULTY);
  const bool is_told = is_sound ? plain.fault.kind == 0 && is_mended && other.fault.kind == 0 : is_refused;
  Check(is_told && (plain.shape != nullptr) == is_sound && (other.shape != nullptr) == is_mended, "a mutant is read or its fault told");
  const std::vector<s2ix_fault> faults = FaultsOf(given);
  Check(faults.empty() == is_sound && (is_sound || AreEqual(faults.front(), plain.fault)), "all faults of a mutant, the first first");
  if (is_used && is_mended) Use(is_sound ? plain.shape.get() : other.shape.get());
  return is_sound ? kSound : is_mended ? kMended : kRefused;
}

// Bytes that spell rings: each of them is a step, which may take bytes after it.
class Spelled {
 public:
  Spelled(const uint8_t* bytes, size_t len) : at_(bytes), end_(bytes + len) {}

  Given All() {
    Given given;
    while (at_ < end_) Step(&given);
    if (!ring_.empty()) given.Ring(ring_);
    return given;
  }

 private:
  // Degrees at which something is special.
  static constexpr double kSpecial[] = {0,   -0.0, 90,  -90, 180,     -180,  45,  -45,  135,  -135, 89.99999999999999, 1e-15,
                                        60, 30,   -60, -30, 179.999, 1e-300, 91, -181, 360, HUGE_VAL, NAN, 5e-324};

  uint8_t Byte() { return at_ < end_ ? *at_++ : 0; }

  double Double() {
    uint8_t bytes[8];
    for (uint8_t& byte : bytes) byte = Byte();
    double number;
    std::memcpy(&number, bytes, sizeof number);
    return number;
  }

  double Special() { return kSpecial[Byte() % std::size(kSpecial)]; }

  double Small() { return static_cast<int8_t>(Byte()) / 8.0; }

  void Step(Given* given) {
    switch (Byte() % 8) {
      case 0: Close(given, true); break;
      case 1: Close(given, false); break;
      case 2:
        Close(given, true);
        given->Next();
        break;
      case 3: Add(Special(), Special()); break;
      case 4: Add(Special(), Small()); break;
      case 5: Add(Small(), Small()); break;
      case 6: Add(Double(), Double()); break;
      default: Near(std::pow(10, -(Byte() % 18))); break;
    }
  }

  void Close(Given* given, bool is_closed) {
    if (is_closed && !ring_.empty()) ring_.push_back(ring_.front());
    given->Raw(ring_);
    ring_.clear();
  }

  void Add(double longitude, double latitude) { ring_.emplace_back(longitude, latitude); }

  // A corner near the last but a few.
  void Near(double step) {
    if (ring_.empty()) return Add(0, 0);
    const Corner near = ring_[ring_.size() - 1 - Byte() % std::min<size_t>(ring_.size(), 4)];
    Add(near.first + step * Small(), near.second + step * Small());
  }

  const uint8_t* at_;
  const uint8_t* end_;
  Corners ring_;
};

// Bytes that spell rings of a few corners, most of them in a plain way.
std::vector<uint8_t> RandomBytes(Random* random) {
  std::vector<uint8_t> bytes;
  for (size_t rings = 1 + random->Below(2); rings > 0; rings--) {
    for (size_t corners = 3 + random->Below(4); corners > 0; corners--) {
      bytes.push_back(static_cast<uint8_t>(random->Below(6) ? 5 : random->Below(256)));
      for (int number = 0; number < 2; number++) bytes.push_back(static_cast<uint8_t>(random->Below(256)));
    }
    bytes.push_back(static_cast<uint8_t>(random->Below(4)));
  }
  return bytes;
}

void TellOutcomes(const size_t (&outcomes)[3], size_t least, const std::string& what) {
  const bool is_each = std::all_of(std::begin(outcomes), std::end(outcomes), [least](size_t many) { return many >= least; });
  Check(is_each, what + " are sound, mended and refused: " + std::to_string(outcomes[kSound]) + ", " + std::to_string(outcomes[kMended]) +
                     ", " + std::to_string(outcomes[kRefused]));
}

}  // namespace

void SurvivesMutants(size_t mutants) {
  Random random(19);
  const std::vector<Given> seeds = Seeds();
  size_t outcomes[3] = {}, spelled[3] = {};
  for (size_t at = 0; at < mutants; at++) {
    Given given = seeds[random.Below(seeds.size())];
    for (size_t left = 1 + random.Below(4); left > 0; left--) Mutate(&random, &given);
    outcomes[Try(given, at % 4 == 0)]++;
    const std::vector<uint8_t> bytes = RandomBytes(&random);
    spelled[Try(Spelled(bytes.data(), bytes.size()).All(), at % 4 == 1)]++;
  }
  TellOutcomes(outcomes, mutants / 20, "mutants");
  TellOutcomes(spelled, mutants / 100, "spelled rings");
}

// What libFuzzer calls with bytes of its choice.
extern "C" int LLVMFuzzerTestOneInput(const uint8_t* bytes, size_t len) {
  // (to use a shape takes most of the time)
  const bool is_used = std::accumulate(bytes, bytes + len, 0u) % 4 == 0;
  Try(Spelled(bytes, len).All(), is_used);
  if (failed > 0) std::abort();
  return 0;
}
