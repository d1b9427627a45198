#include "turns.h"

#include <malloc.h>
#include <time.h>
#include <valgrind/callgrind.h>

#include <algorithm>
#include <cstdio>
#include <cstdlib>

namespace {

constexpr size_t kFewestTurns = 5;
constexpr size_t kMostTurns = 2000;

size_t AllocatedBytes() {
  struct mallinfo2 info = mallinfo2();
  return info.uordblks + info.hblkhd;
}

// The nanoseconds that the processor was at work for this thread: whatever else the machine does is left out.
double Nanoseconds() {
  timespec at;
  clock_gettime(CLOCK_THREAD_CPUTIME_ID, &at);
  return static_cast<double>(at.tv_sec) * 1e9 + static_cast<double>(at.tv_nsec);
}

// A list of answers with those of each target in rising order: the two sides give them in orders of their own.
std::vector<std::vector<uint64_t>> InOrder(Slice<uint64_t> list, size_t width) {
  std::vector<std::vector<uint64_t>> all;
  for (size_t k = 0; k < list.count;) {
    size_t number = list.at[k++];
    std::vector<std::vector<uint64_t>> answers;
    for (size_t n = 0; n < number; ++n, k += width) answers.emplace_back(list.at + k, list.at + k + width);
    std::sort(answers.begin(), answers.end());
    all.push_back({number});
    all.insert(all.end(), answers.begin(), answers.end());
  }
  return all;
}

template <typename T>
bool AreSame(Slice<T> one, const std::vector<T>& other) {
  return one.count == other.size() && std::equal(other.begin(), other.end(), one.at);
}

// Whether the labels over each point are the same: there are as many, and they have the same sum. The two sides give them in orders of their
// own.
bool HaveSameLabels(const Shown& shown, const Answers& s2) {
  if (!AreSame(shown.ends, s2.ends)) return false;
  size_t start = 0;
  for (size_t end : s2.ends) {
    uint64_t difference = 0;
    for (; start < end; ++start) difference += uint64_t{shown.labels.at[start]} - s2.labels[start];
    if (difference != 0) return false;
  }
  return true;
}

bool IsAtOnce(uint32_t order) { return order == kPointsUnsorted || order == kPointsRising; }

[[noreturn]] void Differ(const std::string& name) {
  std::fprintf(stderr, "bench: S2 and ours answer differently: %s\n", name.c_str());
  std::exit(1);
}

}  // namespace

Turns::Turns(const Scene& scene, double seconds, bool counts_instructions, bool has_ids)
    : seconds_(seconds), counts_instructions_(counts_instructions), before_(AllocatedBytes()), s2_(scene) {
  s2_bytes_ = AllocatedBytes() - before_;
  AddFigures(scene, has_ids);
  before_ = AllocatedBytes();
}

void Turns::AddFigures(const Scene& scene, bool has_ids) {
  size_t pairs = scene.pair_cells.size(), points = scene.leaves.size(), few = scene.few.size() / kFewCells,
         many = scene.many.size() / kManyCells, shapes = scene.shapes.size() / kShapeCells, cells = scene.mixed.size(),
         at_once = scene.points.size();
  figures_ = {{"nothing", kNothing, 1, 0},
              {"adds and build", kBuild, pairs, 0},
              {"build of a table", kTables, pairs, 0},
              {"load of a dump", kLoad, pairs, 0},
              {"edit with a query", kEdit, 2 * scene.edited_cells.size(), 0},
              {"point, chain_at", kPointChain, points, 2},
              {"point, visit", kPointVisit, points, 2},
              {"points at once, unsorted", kPointsUnsorted, at_once, 2},
              {"points at once, rising", kPointsRising, at_once, 2},
              {"8 cells, visit", kFewVisit, few, 2},
              {"8 cells, labels", kFewLabels, few, 1},
              {"8 cells apart, visit", kFewApartVisit, few, 2},
              {"8 cells apart, labels", kFewApartLabels, few, 1},
              {"500 cells, visit", kManyVisit, many, 2},
              {"500 cells, labels", kManyLabels, many, 1},
              {"500 cells apart, visit", kManyApartVisit, many, 2},
              {"500 cells apart, labels", kManyApartLabels, many, 1}};
  if (!has_ids) return;
  std::vector<Figure> more = {{"token, read", kTokenRead, cells, 0},
                              {"token, print", kTokenPrint, cells, 0},
                              {"path, print", kPathPrint, cells, 0},
                              {"to face-i-j", kToFaceIj, cells, 0},
                              {"from face-i-j", kFromFaceIj, cells, 0},
                              {"next", kNext, cells, 0},
                              {"contains", kContains, cells - 1, 0},
                              {"edge neighbours, mixed", kNeighborsMixed, cells, 0},
                              {"edge neighbours, leaf", kNeighborsLeaf, cells, 0},
                              {"edge neighbours, rim", kNeighborsRim, cells, 0},
                              {"union", kUnion, shapes / 2, 1},
                              {"intersection", kIntersection, shapes / 2, 1},
                              {"difference", kDifference, shapes / 2, 1},
                              {"normalise", kNormalise, shapes, 1}};
  figures_.insert(figures_.end(), more.begin(), more.end());
}

bool Turns::Counts() const { return counts_instructions_ && !IsListing(); }

void Turns::Stop() {
  stopped_ = Nanoseconds();
  if (asked_ < 2 || !Counts()) return;
  std::string name = "ours\t" + figures_[at_].name;
  CALLGRIND_DUMP_STATS_AT(name.c_str());
  CALLGRIND_STOP_INSTRUMENTATION;
}

uint32_t Turns::Next(const Shown& shown) {
  ++asked_;
  if (asked_ == 1) {
    ours_bytes_ = AllocatedBytes() - before_;
    s2_.Prepare();
    return kNothing;
  }
  if (asked_ > 2) Finish(shown);
  return Begin();
}

// A figure's first turn lists its answers, if there is a list of them.
bool Turns::IsListing() const { return turns_ == 0 && figures_[at_].width > 0; }

bool Turns::IsOver() const {
  if (counts_instructions_) return turns_ == (figures_[at_].width > 0 ? 2 : 1);
  return turns_ == kMostTurns || (turns_ > kFewestTurns && spent_ > seconds_);
}

uint32_t Turns::Begin() {
  if (IsOver()) {
    ++at_;
    turns_ = 0;
    spent_ = 0;
  }
  if (at_ == figures_.size()) return kEnd;
  Figure& figure = figures_[at_];
  uint32_t order = IsListing() ? kListed + figure.order : figure.order;
  if (Counts()) CALLGRIND_START_INSTRUMENTATION;
  double start = Nanoseconds();
  s2_.CarryOut(order);
  double took = Nanoseconds() - start;
  std::string name = "S2\t" + figure.name;
  if (Counts()) CALLGRIND_DUMP_STATS_AT(name.c_str());
  if (!IsListing()) figure.s2 = figure.s2 == 0 ? took : std::min(figure.s2, took);
  spent_ += took / 1e9;
  started_ = Nanoseconds();
  return order;
}

void Turns::Finish(const Shown& shown) {
  Figure& figure = figures_[at_];
  double took = stopped_ - started_;
  if (!IsListing()) figure.ours = figure.ours == 0 ? took : std::min(figure.ours, took);
  spent_ += took / 1e9;
  Compare(shown);
  ++turns_;
}

void Turns::Compare(const Shown& shown) const {
  const Figure& figure = figures_[at_];
  const Answers& s2 = s2_.answers();
  if (IsListing()) {
    if (InOrder(shown.list, figure.width) != InOrder({s2.list.data(), s2.list.size()}, figure.width)) Differ(figure.name);
    return;
  }
  // (slots are left alone by orders of the index, so that comparing them does not take the caches from the next turn)
  bool has_slots = figure.order >= kTokenRead && figure.order < kUnion;
  bool same = shown.value == s2.value;
  if (has_slots) same = same && AreSame(shown.slots, s2.slots) && AreSame(shown.fours, s2.fours) && AreSame(shown.texts, s2.texts);
  if (IsAtOnce(figure.order)) same = same && HaveSameLabels(shown, s2);
  if (!same) Differ(figure.name);
}
