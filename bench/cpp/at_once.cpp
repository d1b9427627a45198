// A bench of many points by one call of the library for C: at_once FOLDER, which has a dump and points, as texts writes them. A line for each
// figure: its name, and the nanoseconds of a point by the clock, the best of some runs. Then how many labels were found, and their sum.
#include <s2ix.h>

#include <algorithm>
#include <chrono>
#include <cstdio>
#include <cstdlib>
#include <fstream>
#include <iterator>
#include <limits>
#include <memory>
#include <numeric>
#include <string>
#include <thread>
#include <utility>
#include <vector>

#include "orders.h"

namespace {

constexpr size_t kRuns = 9;
constexpr uint32_t kMostPairs = 1000000, kMostCopies = 1000000, kMostChanges = 1;

double Nanoseconds() {
  return std::chrono::duration<double, std::nano>(std::chrono::steady_clock::now().time_since_epoch()).count();
}

void Expect(uint32_t status, const char* call) {
  if (status == S2IX_DONE) return;
  std::fprintf(stderr, "bench: %s: status %u\n", call, status);
  std::exit(1);
}

std::vector<char> Read(const std::string& path) {
  std::ifstream file(path, std::ios::binary);
  if (!file) Expect(S2IX_NO_DUMP, path.c_str());
  return {std::istreambuf_iterator<char>(file), {}};
}

std::vector<uint64_t> ReadPoints(const std::string& path) {
  const std::vector<char> bytes = Read(path);
  std::vector<uint64_t> points(bytes.size() / sizeof(uint64_t));
  std::copy_n(bytes.data(), points.size() * sizeof(uint64_t), reinterpret_cast<char*>(points.data()));
  return points;
}

// Some of the points, a copy of the store to ask for them, and room for what it answers.
class Share {
 public:
  Share(s2ix_handle* store, const uint64_t* points, size_t count) : points_(points), ends_(count), labels_(kLabelsOfPoint * count) {
    Expect(s2ix_copy(store, &copy_), "copy");
  }
  ~Share() { s2ix_close(&copy_); }
  Share(const Share&) = delete;
  Share& operator=(const Share&) = delete;

  void Ask() {
    size_t answered = 0;
    Expect(s2ix_labels_at_each(&copy_, points_, ends_.size(), ends_.data(), ends_.size(), labels_.data(), labels_.size(), &answered),
           "labels_at_each");
  }

  // How many labels were found.
  size_t Count() const { return ends_.empty() ? 0 : ends_.back(); }

  uint64_t Sum() const { return std::accumulate(labels_.begin(), labels_.begin() + static_cast<ptrdiff_t>(Count()), uint64_t{0}); }

 private:
  s2ix_handle copy_{nullptr, false};
  const uint64_t* points_;
  std::vector<size_t> ends_;
  std::vector<uint32_t> labels_;
};

// The nanoseconds in which each share is asked for by a thread of its own; this thread is one of them.
double Ask(const std::vector<std::unique_ptr<Share>>& shares) {
  double start = Nanoseconds();
  std::vector<std::thread> others;
  for (size_t k = 1; k < shares.size(); ++k) others.emplace_back(&Share::Ask, shares[k].get());
  shares[0]->Ask();
  for (std::thread& other : others) other.join();
  return Nanoseconds() - start;
}

// Prints what a point takes if the points are shared among so many threads; how many labels were found, and their sum.
std::pair<size_t, uint64_t> Measure(s2ix_handle* store, const std::vector<uint64_t>& points, size_t threads) {
  std::vector<std::unique_ptr<Share>> shares;
  for (size_t k = 0; k < threads; ++k) {
    size_t start = points.size() * k / threads, end = points.size() * (k + 1) / threads;
    shares.push_back(std::make_unique<Share>(store, points.data() + start, end - start));
  }
  double least = std::numeric_limits<double>::infinity();
  for (size_t run = 0; run < kRuns; ++run) least = std::min(least, Ask(shares));
  std::printf("C, %zu\t%.2f\n", threads, least / static_cast<double>(points.size()));
  std::pair<size_t, uint64_t> found;
  for (const auto& share : shares) found = {found.first + share->Count(), found.second + share->Sum()};
  return found;
}

}  // namespace

int main(int count, char** words) {
  if (count != 2) {
    std::fprintf(stderr, "usage: at_once FOLDER\n");
    return 2;
  }
  const std::string folder = words[1];
  const std::vector<char> dump = Read(folder + "/dump");
  const std::vector<uint64_t> points = ReadPoints(folder + "/points");
  s2ix_handle store{nullptr, false};
  size_t line = 0;
  Expect(s2ix_load(&store, reinterpret_cast<const uint8_t*>(dump.data()), dump.size(), kMostPairs, kMostCopies, kMostChanges, &line), "load");
  auto one = Measure(&store, points, 1), four = Measure(&store, points, 4);
  s2ix_close(&store);
  if (one != four) {
    std::fprintf(stderr, "bench: four threads found other labels than one\n");
    return 1;
  }
  std::printf("found\t%zu\t%llu\n", one.first, static_cast<unsigned long long>(one.second));
  return 0;
}
