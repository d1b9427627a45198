// A bench of one size as callers meet it: doors PAIRS SECONDS time|instructions. The same program runs over S2's own S2CellIndex and over ours,
// by clients/cpp/s2ix.hpp, and the calls of s2ix.h beneath are measured beside S2 too. A line for each figure: its name, how many operations an
// order of it has, and the nanoseconds of the processor that ours and S2 took for an order, the least of many turns. With instructions callgrind
// counts one turn of each.
#include <time.h>
#include <valgrind/callgrind.h>

#include <algorithm>
#include <cstdio>
#include <cstdlib>
#include <cstring>
#include <functional>
#include <numeric>
#include <string>
#include <utility>
#include <vector>

#include "absl/container/flat_hash_set.h"
#include "asked.h"
#include "orders.h"
#include "s2/s2cell_id.h"
#include "s2/s2cell_index.h"
#include "s2/s2cell_union.h"
#include "scene.h"

// (after S2's headers, as s2ix.hpp says)
#include <s2ix.hpp>

namespace {

using Ours = s2ix::BasicS2CellIndex<S2CellId>;
using Unions = std::vector<S2CellUnion>;
using Numbers = std::vector<std::vector<uint64_t>>;

constexpr size_t kFewestTurns = 7;
// A target of a hundred cells is the first of one of many cells.
constexpr size_t kHundred = 100;

double Nanoseconds() {
  timespec at;
  clock_gettime(CLOCK_THREAD_CPUTIME_ID, &at);
  return static_cast<double>(at.tv_sec) * 1e9 + static_cast<double>(at.tv_nsec);
}

Unions UnionsOf(const std::vector<uint64_t>& numbers, size_t step, size_t size) {
  Unions unions;
  for (size_t k = 0; k + size <= numbers.size(); k += step) {
    std::vector<S2CellId> cells;
    for (size_t n = k; n < k + size; ++n) cells.emplace_back(numbers[n]);
    unions.emplace_back(std::move(cells));
  }
  return unions;
}

template <class Index>
uint64_t Visited(const Index& index, const Unions& targets) {
  uint64_t sum = 0;
  for (const S2CellUnion& target : targets) {
    index.VisitIntersectingCells(target, [&](S2CellId cell, int label) {
      sum += Worth(cell, label);
      return true;
    });
  }
  return sum;
}

template <class Index>
uint64_t Labels(const Index& index, const Unions& targets) {
  uint64_t sum = 0;
  for (const S2CellUnion& target : targets) {
    for (int label : index.GetIntersectingLabels(target)) sum += static_cast<uint64_t>(label);
  }
  return sum;
}

// The same into a set of the caller.
template <class Index>
uint64_t LabelsInto(const Index& index, const Unions& targets) {
  uint64_t sum = 0;
  absl::flat_hash_set<int> labels;
  for (const S2CellUnion& target : targets) {
    index.GetIntersectingLabels(target, &labels);
    for (int label : labels) sum += static_cast<uint64_t>(label);
  }
  return sum;
}

template <class Index>
uint64_t Ranges(const Index& index) {
  uint64_t sum = 0;
  typename Index::RangeIterator range(&index);
  for (range.Begin(); !range.done(); range.Next()) sum += range.start_id().id() + range.is_empty();
  return sum;
}

template <class Index>
uint64_t Cells(const Index& index) {
  uint64_t sum = 0;
  for (typename Index::CellIterator cells(&index); !cells.done(); cells.Next()) sum += Worth(cells.cell_id(), cells.label());
  return sum;
}

// What is measured: an order of each side, which gives a sum.
struct Door {
  std::string name;
  size_t count;
  std::function<uint64_t()> ours, s2;
  double least_ours = 0, least_s2 = 0;
};

[[noreturn]] void Differ(const std::string& name) {
  std::fprintf(stderr, "bench: S2 and ours answer differently: %s\n", name.c_str());
  std::exit(1);
}

// The nanoseconds of an order.
double Took(const std::function<uint64_t()>& order, uint64_t& sum) {
  const double start = Nanoseconds();
  sum = order();
  return Nanoseconds() - start;
}

void Measure(Door& door, double seconds) {
  double spent = 0;
  for (size_t turn = 0; turn < kFewestTurns || spent < seconds * 1e9; ++turn) {
    uint64_t theirs = 0, sum = 0;
    const double s2 = Took(door.s2, theirs), ours = Took(door.ours, sum);
    if (sum != theirs) Differ(door.name);
    door.least_ours = turn == 0 ? ours : std::min(door.least_ours, ours);
    door.least_s2 = turn == 0 ? s2 : std::min(door.least_s2, s2);
    spent += s2 + ours;
  }
}

void Count(const std::string& name, const std::function<uint64_t()>& order) {
  CALLGRIND_START_INSTRUMENTATION;
  order();
  CALLGRIND_DUMP_STATS_AT(name.c_str());
  CALLGRIND_STOP_INSTRUMENTATION;
}

// The numbers of the cells of some targets.
Numbers NumbersOf(const Unions& targets) {
  Numbers numbers;
  for (const S2CellUnion& target : targets) {
    numbers.emplace_back();
    for (S2CellId cell : target) numbers.back().push_back(cell.id());
  }
  return numbers;
}

// Both sides over the pairs of a scene, and what they are asked.
class Sides {
 public:
  explicit Sides(const Scene& scene)
      : leaves_(UnionsOf(scene.leaves, 1, 1)),
        few_(UnionsOf(scene.few, kFewCells, kFewCells)),
        hundred_(UnionsOf(scene.many, kManyCells, kHundred)),
        points_(scene.leaves.begin(), scene.leaves.end()),
        pairs_(scene.pair_cells.size()),
        rows_(pairs_),
        labels_(pairs_) {
    Fill(ours_, scene);
    Fill(s2_, scene);
    handle_ = ours_.index().handle();
  }

  // The doors point here.
  std::vector<Door> Doors() {
    return {
        {"nothing", 1, [] { return 0; }, [] { return 0; }},
        Ask("VisitIntersectingCells, a leaf", leaves_.size(), [this](auto& index) { return Visited(index, leaves_); }),
        Ask("VisitIntersectingCells, 8 cells", few_.size(), [this](auto& index) { return Visited(index, few_); }),
        Ask("VisitIntersectingCells, 100 cells", hundred_.size(), [this](auto& index) { return Visited(index, hundred_); }),
        Ask("GetIntersectingLabels, 8 cells", few_.size(), [this](auto& index) { return Labels(index, few_); }),
        Ask("GetIntersectingLabels, 100 cells", hundred_.size(), [this](auto& index) { return Labels(index, hundred_); }),
        Ask("GetIntersectingLabels into absl's set, 8 cells", few_.size(), [this](auto& index) { return LabelsInto(index, few_); }),
        Ask("GetIntersectingLabels into absl's set, 100 cells", hundred_.size(), [this](auto& index) { return LabelsInto(index, hundred_); }),
        Ask("RangeIterator and ContentsIterator, a point", points_.size(), [this](auto& index) { return Points(index, points_); }),
        Ask("all by RangeIterator, a range", ours_.index().range_count(), [](auto& index) { return Ranges(index); }),
        Ask("all by CellIterator, a pair", pairs_, [](auto& index) { return Cells(index); }),
        Call("from C, s2ix_at", leaves_, At, [this] { return Visited(s2_, leaves_); }),
        Call("from C, s2ix_meet_from, 8 cells", few_, MeetFrom, [this] { return Visited(s2_, few_); }),
        Call("from C, s2ix_meet_from, 100 cells", hundred_, MeetFrom, [this] { return Visited(s2_, hundred_); }),
        Call("from C, s2ix_labels, 8 cells", few_, LabelsOf, [this] { return Labels(s2_, few_); }),
        Call("from C, s2ix_labels, 100 cells", hundred_, LabelsOf, [this] { return Labels(s2_, hundred_); }),
        Call("from C, s2ix_find and s2ix_contents, a point", leaves_, Contents, [this] { return Points(s2_, points_); }),
        {"from C, all by s2ix_ranges, a range", ours_.index().range_count(), [this] { return RangesFromC(); }, [this] { return Ranges(s2_); }},
        {"from C, all by s2ix_pairs, a pair", pairs_, [this] { return PairsFromC(); }, [this] { return Cells(s2_); }},
    };
  }

 private:
  using Target = std::vector<uint64_t>;

  // What calls of s2ix.h find for a target, as a sum; 0 if one is refused.
  uint64_t SumOf(uint32_t status, size_t number) const {
    uint64_t sum = 0;
    for (size_t k = 0; k < number && status == S2IX_DONE; ++k) sum += rows_[k].cell + rows_[k].label;
    return sum;
  }
  static uint64_t At(Sides& at, const Target& cells) {
    size_t number = 0;
    const uint32_t status = s2ix_at(at.handle_, cells[0], at.rows_.data(), at.rows_.size(), &number);
    return at.SumOf(status, number);
  }
  static uint64_t MeetFrom(Sides& at, const Target& cells) {
    size_t number = 0;
    const uint32_t status = s2ix_meet_from(at.handle_, cells.data(), cells.size(), 0, at.rows_.data(), at.rows_.size(), &number);
    return at.SumOf(status, number);
  }
  static uint64_t LabelsOf(Sides& at, const Target& cells) {
    size_t number = 0;
    if (s2ix_labels(at.handle_, cells.data(), cells.size(), at.labels_.data(), at.labels_.size(), &number) != S2IX_DONE) return 0;
    return std::accumulate(at.labels_.begin(), at.labels_.begin() + static_cast<ptrdiff_t>(number), uint64_t{0});
  }
  static uint64_t Contents(Sides& at, const Target& cells) {
    size_t place = 0, number = 0;
    uint64_t start = 0, limit = 0;
    uint32_t status = s2ix_find(at.handle_, cells[0], &place, &start, &limit);
    if (status == S2IX_DONE) status = s2ix_contents(at.handle_, place, 0, at.rows_.data(), at.rows_.size(), &number);
    return at.SumOf(status, number);
  }
  uint64_t RangesFromC() {
    s2ix_leaf_range ranges[512] = {};
    uint64_t sum = 0;
    size_t number = 0;
    for (size_t from = 0; s2ix_ranges(handle_, from, ranges, 512, &number) == S2IX_DONE && number > 0; from += number) {
      for (size_t k = 0; k < number; ++k) sum += ranges[k].start + ranges[k].is_empty;
    }
    return sum;
  }
  uint64_t PairsFromC() {
    constexpr size_t page = 1024;
    uint64_t sum = 0;
    size_t number = 0;
    for (size_t from = 0; s2ix_pairs(handle_, from, rows_.data(), std::min(page, rows_.size()), &number) == S2IX_DONE && number > 0; from += number) {
      for (size_t k = 0; k < number; ++k) sum += rows_[k].count * Worth(S2CellId(rows_[k].cell), static_cast<int>(rows_[k].label));
    }
    return sum;
  }

  // The same program over both.
  template <class Program>
  Door Ask(const char* name, size_t count, Program program) {
    return {name, count, [this, program] { return program(std::as_const(ours_)); }, [this, program] { return program(std::as_const(s2_)); }};
  }

  // Calls of s2ix.h for each target, beside what S2 does.
  Door Call(const char* name, const Unions& targets, decltype(MeetFrom)* call, std::function<uint64_t()> s2) {
    return {name, targets.size(),
            [this, call, numbers = NumbersOf(targets)] {
              uint64_t sum = 0;
              for (const Target& target : numbers) sum += call(*this, target);
              return sum;
            },
            std::move(s2)};
  }

  Ours ours_;
  S2CellIndex s2_;
  Unions leaves_, few_, hundred_;
  std::vector<S2CellId> points_;
  size_t pairs_;
  std::vector<s2ix_row> rows_;
  std::vector<uint32_t> labels_;
  s2ix_handle* handle_;
};

}  // namespace

int main(int count, char** words) {
  if (count != 4) {
    std::fprintf(stderr, "usage: doors PAIRS SECONDS time|instructions\n");
    return 2;
  }
  Sides sides(MakeScene(std::strtoul(words[1], nullptr, 10)));
  const double seconds = std::strtod(words[2], nullptr);
  std::vector<Door> doors = sides.Doors();
  // (the first door is what an order costs that does nothing)
  const Door& nothing = doors[0];
  for (Door& door : doors) {
    if (std::strcmp(words[3], "instructions") == 0) {
      if (door.ours() != door.s2()) Differ(door.name);
      Count("ours\t" + door.name, door.ours);
      Count("S2\t" + door.name, door.s2);
    } else {
      Measure(door, seconds);
    }
    std::printf("%s\t%zu\t%.1f\t%.1f\n", door.name.c_str(), door.count, door.least_ours - nothing.least_ours,
                door.least_s2 - nothing.least_s2);
    std::fflush(stdout);
  }
  return 0;
}
