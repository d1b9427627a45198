// A bench of threads that ask one index: threads PAIRS SECONDS. The same program runs over S2's own S2CellIndex and over ours, by
// clients/cpp/s2ix.hpp. Then ours is asked by a call of its own, also while one more thread edits it each 10 ms. A line for each figure: its
// name, the number of threads that ask, and how many points they ask in a second of the clock and in one of a processor, the most of many short
// runs, which take that many seconds together.
#include <time.h>

#include <algorithm>
#include <atomic>
#include <chrono>
#include <cstdio>
#include <cstdlib>
#include <functional>
#include <string>
#include <thread>
#include <utility>
#include <vector>

#include "asked.h"
#include "s2/s2cell_id.h"
#include "s2/s2cell_index.h"
#include "scene.h"

// (after S2's headers, as s2ix.hpp says)
#include <s2ix.hpp>

namespace {

using Ours = s2ix::BasicS2CellIndex<S2CellId>;
using Leaves = std::vector<S2CellId>;
using Clock = std::chrono::steady_clock;

constexpr size_t kFewestRuns = 5;
constexpr std::chrono::milliseconds kRun(50);
constexpr size_t kLeavesOfPart = 200;
constexpr uint32_t kOwnLabel = 2000000000;
constexpr std::chrono::milliseconds kPause(10);

// Leaves that are asked one after the other, and the sum of what S2 finds over them.
struct Part {
  Leaves leaves;
  uint64_t sum;
};

std::vector<Part> PartsOf(const Scene& scene, const S2CellIndex& s2) {
  std::vector<Part> parts;
  for (size_t k = 0; k + kLeavesOfPart <= scene.leaves.size(); k += kLeavesOfPart) {
    const Leaves leaves(scene.leaves.begin() + static_cast<ptrdiff_t>(k), scene.leaves.begin() + static_cast<ptrdiff_t>(k + kLeavesOfPart));
    parts.push_back({leaves, Points(s2, leaves)});
  }
  return parts;
}

// The sum of the pairs over some leaves, each by a call of an Index.
uint64_t PointsByAt(const s2ix::Index& index, const Leaves& leaves) {
  thread_local std::vector<s2ix::Row> rows;
  uint64_t sum = 0;
  for (S2CellId leaf : leaves) {
    index.at(leaf, rows);
    for (const s2ix::Row& row : rows) sum += row.count * Worth(S2CellId(row.cell), static_cast<int>(row.label));
  }
  return sum;
}

using Asking = std::function<uint64_t(const Leaves&)>;

// The seconds that the processor was at work for this thread.
double OfProcessor() {
  timespec at;
  clock_gettime(CLOCK_THREAD_CPUTIME_ID, &at);
  return static_cast<double>(at.tv_sec) + static_cast<double>(at.tv_nsec) / 1e9;
}

// The points in a second of the clock, and in one of a processor.
struct Rates {
  double clock = 0, processor = 0;
};

// Asks part after part until it is over.
Rates Ask(const Asking& asking, const std::vector<Part>& parts, size_t first, const std::atomic<bool>& is_over) {
  size_t asked = 0;
  const double of_processor = OfProcessor();
  const auto start = Clock::now();
  for (size_t at = first; !is_over; at = (at + 1) % parts.size(), asked += kLeavesOfPart) {
    if (asking(parts[at].leaves) == parts[at].sum) continue;
    std::fprintf(stderr, "bench: a thread found other pairs than S2\n");
    std::exit(1);
  }
  const double points = static_cast<double>(asked);
  return {points / std::chrono::duration<double>(Clock::now() - start).count(), points / (OfProcessor() - of_processor)};
}

// What so many threads ask together in one run, and on average in a second of a processor.
Rates Run(const Asking& asking, const std::vector<Part>& parts, size_t count) {
  std::atomic<size_t> waiting{count + 1};
  std::vector<Rates> rates(count);
  std::atomic<bool> is_over{false};
  std::vector<std::thread> threads;
  const auto wait = [&] {
    for (--waiting; waiting > 0;) std::this_thread::yield();
  };
  for (size_t k = 0; k < count; ++k) {
    threads.emplace_back([&, k] {
      wait();
      rates[k] = Ask(asking, parts, k * parts.size() / count, is_over);
    });
  }
  wait();
  std::this_thread::sleep_for(kRun);
  is_over = true;
  for (std::thread& thread : threads) thread.join();
  Rates all;
  for (const Rates& one : rates) all = {all.clock + one.clock, all.processor + one.processor / static_cast<double>(count)};
  return all;
}

void Measure(const std::string& name, const Asking& asking, const std::vector<Part>& parts, double seconds) {
  for (size_t count : {1, 2, 4}) {
    Rates most;
    const auto end = Clock::now() + std::chrono::duration<double>(seconds);
    for (size_t run = 0; run < kFewestRuns || Clock::now() < end; ++run) {
      const Rates rates = Run(asking, parts, count);
      most = {std::max(most.clock, rates.clock), std::max(most.processor, rates.processor)};
    }
    std::printf("%s\t%zu\t%.0f\t%.0f\n", name.c_str(), count, most.clock, most.processor);
    std::fflush(stdout);
  }
}

// Adds a pair and takes it away, in turns, in one town after another, as long as this lives. No leaf that is asked lies in the pair's cell.
class Editor {
 public:
  Editor(Ours& ours, const Scene& scene) : ours_(ours.index()), asked_(scene.leaves), cells_(scene.edited_cells) {
    std::sort(asked_.begin(), asked_.end());
    thread_ = std::thread([this] { Edit(); });
  }
  ~Editor() {
    is_over_ = true;
    thread_.join();
  }

 private:
  void Edit() {
    for (size_t at = 0; !is_over_; at = (at + 1) % cells_.size()) {
      const uint64_t leaf = NotAsked(S2CellId(cells_[at]).range_min());
      ours_.add(leaf, kOwnLabel);
      std::this_thread::sleep_for(kPause);
      ours_.remove(leaf, kOwnLabel);
      std::this_thread::sleep_for(kPause);
    }
    ours_.forget();
  }

  uint64_t NotAsked(S2CellId leaf) const {
    while (std::binary_search(asked_.begin(), asked_.end(), leaf.id())) leaf = leaf.next();
    return leaf.id();
  }

  s2ix::Index& ours_;
  std::vector<uint64_t> asked_;
  const std::vector<uint64_t>& cells_;
  std::atomic<bool> is_over_{false};
  std::thread thread_;
};

}  // namespace

int main(int count, char** words) {
  if (count != 3) {
    std::fprintf(stderr, "usage: threads PAIRS SECONDS\n");
    return 2;
  }
  Scene scene = MakeScene(std::strtoul(words[1], nullptr, 10));
  // (so that there is room for the editor's pair)
  scene.pair_cells.resize(std::min<size_t>(scene.pair_cells.size(), s2ix::Limits().pairs - 1));
  const double seconds = std::strtod(words[2], nullptr);
  S2CellIndex s2;
  Fill(s2, scene);
  Ours ours;
  Fill(ours, scene);
  const std::vector<Part> parts = PartsOf(scene, s2);
  const auto by_at = [&](const Leaves& leaves) { return PointsByAt(std::as_const(ours).index(), leaves); };
  Measure("S2, iterators", [&](const Leaves& leaves) { return Points(s2, leaves); }, parts, seconds);
  Measure("ours, iterators", [&](const Leaves& leaves) { return Points(std::as_const(ours), leaves); }, parts, seconds);
  Measure("ours, Index::at", by_at, parts, seconds);
  const Editor editor(ours, scene);
  Measure("ours, Index::at, edited each 10 ms", by_at, parts, seconds);
  return 0;
}
