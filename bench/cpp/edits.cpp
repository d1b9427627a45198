// A bench of what S2 doesn't have, over the library for C, and once through the header for C++: edits PAIRS CHANGES. A line for each figure: its
// name, and the nanoseconds of the processor for one operation, the median of many and the most, or a mean alone. After CHANGES random edits
// points are asked again.
#include <s2ix.h>
#include <time.h>

#include <algorithm>
#include <array>
#include <atomic>
#include <chrono>
#include <cstdio>
#include <cstdlib>
#include <functional>
#include <memory>
#include <mutex>
#include <random>
#include <string>
#include <thread>
#include <utility>
#include <vector>

#include "s2/s2cell_id.h"
#include "scene.h"

// (after S2's headers, as s2ix.hpp says)
#include <s2ix.hpp>

namespace {

constexpr uint32_t kMostPairs = 1000000, kMostCopies = 1000000, kMostChanges = 100000;
// So many pairs fewer than a store may hold leave room for those that are added.
constexpr size_t kRoom = 1000;
constexpr size_t kTurns = 200;
// What is written between copies, so that little of a store is left in the caches that a processor has for itself.
constexpr size_t kBytesOfCaches = size_t{64} << 20;
constexpr uint32_t kOwnLabel = 2000000000;

double Nanoseconds() {
  timespec at;
  clock_gettime(CLOCK_THREAD_CPUTIME_ID, &at);
  return static_cast<double>(at.tv_sec) * 1e9 + static_cast<double>(at.tv_nsec);
}

void PrintMean(const std::string& name, double mean) {
  std::printf("%s\t%.1f\n", name.c_str(), mean);
  std::fflush(stdout);
}

void Expect(uint32_t status, const char* call) {
  if (status == S2IX_DONE) return;
  std::fprintf(stderr, "bench: %s: status %u\n", call, status);
  std::exit(1);
}

// Many durations of one operation.
class Timed {
 public:
  void Run(const std::function<void()>& call) {
    double start = Nanoseconds();
    call();
    took_.push_back(Nanoseconds() - start);
  }

  void Join(const Timed& other) { took_.insert(took_.end(), other.took_.begin(), other.took_.end()); }

  void Print(const std::string& name) {
    std::sort(took_.begin(), took_.end());
    std::printf("%s\t%.1f\t%.1f\n", name.c_str(), took_[took_.size() / 2], took_.back());
    std::fflush(stdout);
  }

 private:
  std::vector<double> took_;
};

// A store of the library for C.
class Store {
 public:
  Store() { Expect(s2ix_open(&handle_, kMostPairs, kMostCopies, kMostChanges), "open"); }
  ~Store() { s2ix_close(&handle_); }
  Store(const Store&) = delete;
  Store& operator=(const Store&) = delete;

  s2ix_handle* get() { return &handle_; }

  void Add(uint64_t cell, uint32_t label) { Expect(s2ix_add(&handle_, cell, label, 1, &number_), "add"); }
  void Remove(uint64_t cell, uint32_t label) { Expect(s2ix_remove(&handle_, cell, label, 1, &number_), "remove"); }
  void Undo() { Expect(s2ix_undo(&handle_, &number_), "undo"); }
  void Redo() { Expect(s2ix_redo(&handle_, &number_), "redo"); }
  void Forget() { Expect(s2ix_forget(&handle_), "forget"); }

  void AddAll(const std::vector<s2ix_row>& rows) { Expect(s2ix_add_all(&handle_, rows.data(), rows.size(), &number_), "add_all"); }

  // The text that a call gives.
  std::string Text(decltype(s2ix_dump)* call) {
    uint8_t none;
    if (call(&handle_, &none, 0, &number_) != S2IX_NO_ROOM) Expect(S2IX_NO_ROOM, "text");
    std::string text(number_, '\0');
    Expect(call(&handle_, reinterpret_cast<uint8_t*>(text.data()), text.size(), &number_), "text");
    return text;
  }

  // What points take, each, over some leaves.
  double Points(const std::vector<uint64_t>& leaves) {
    std::vector<s2ix_row> rows(1000000);
    double start = Nanoseconds();
    for (uint64_t leaf : leaves) Expect(s2ix_at(&handle_, leaf, rows.data(), rows.size(), &number_), "at");
    return (Nanoseconds() - start) / static_cast<double>(leaves.size());
  }

  size_t number_ = 0;

 private:
  s2ix_handle handle_{nullptr, false};
};

std::vector<s2ix_row> RowsOf(const Scene& scene) {
  std::vector<s2ix_row> rows;
  for (size_t k = 0; k < scene.pair_cells.size(); ++k) rows.push_back({scene.pair_cells[k], scene.pair_labels[k], 1});
  return rows;
}

// Each pair once, so that a removal takes it away.
void MakeSingle(std::vector<s2ix_row>& rows) {
  auto key = [](const s2ix_row& row) { return std::pair(row.cell, row.label); };
  std::sort(rows.begin(), rows.end(), [&](const s2ix_row& a, const s2ix_row& b) { return key(a) < key(b); });
  rows.erase(std::unique(rows.begin(), rows.end(), [&](const s2ix_row& a, const s2ix_row& b) { return key(a) == key(b); }), rows.end());
}

// Pairs of a store, taken away and put back in turns.
void TimeEdits(Store& store, const std::vector<s2ix_row>& rows, const std::string& name) {
  std::mt19937_64 random(7);
  Timed edits;
  for (size_t k = 0; k < kTurns / 2; ++k) {
    const s2ix_row& row = rows[random() % rows.size()];
    edits.Run([&] { store.Remove(row.cell, row.label); });
    edits.Run([&] { store.Add(row.cell, row.label); });
  }
  store.Forget();
  edits.Print(name);
}

void TimeGrowth(const std::vector<s2ix_row>& rows) {
  Store store;
  double start = Nanoseconds();
  for (size_t k = 0; k < rows.size(); ++k) {
    store.Add(rows[k].cell, rows[k].label);
    if (k % kMostChanges == kMostChanges - 1) store.Forget();
  }
  double mean = (Nanoseconds() - start) / static_cast<double>(rows.size());
  PrintMean("an add of a store that grows from nothing", mean);
}

// Edits of a label with 50 cells in one town, each undone at last.
void TimeRegions(Store& store, const Scene& scene) {
  std::vector<uint64_t> cells(scene.many.begin(), scene.many.begin() + 50);
  Timed unions, relabels, grows, drops, undos, redos;
  for (size_t k = 0; k < kTurns / 4; ++k) {
    unions.Run([&] { Expect(s2ix_add_union(store.get(), cells.data(), cells.size(), kOwnLabel, &store.number_), "add_union"); });
    relabels.Run([&] { Expect(s2ix_relabel(store.get(), kOwnLabel, kOwnLabel + 1, &store.number_), "relabel"); });
    grows.Run([&] { Expect(s2ix_grow(store.get(), kOwnLabel + 1, 14, &store.number_), "grow"); });
    undos.Run([&] { store.Undo(); });
    redos.Run([&] { store.Redo(); });
    drops.Run([&] { Expect(s2ix_drop_label(store.get(), kOwnLabel + 1, &store.number_), "drop"); });
    store.Forget();
  }
  unions.Print("addunion of 50 cells");
  relabels.Print("relabel of these");
  grows.Print("grow of these");
  undos.Print("undo of that");
  redos.Print("redo of that");
  drops.Print("drop of that label");
}

// A zone of 50 cells in one town that is drawn anew there, half of it where it was: one change for each time.
void TimeRedraws(const std::vector<s2ix_row>& rows, const Scene& scene) {
  s2ix::Index zones;
  zones.add_all(rows);
  auto shape = [&](size_t first) { return std::vector<uint64_t>(scene.many.begin() + first, scene.many.begin() + first + 50); };
  const std::array<std::vector<uint64_t>, 2> shapes = {shape(0), shape(25)};
  zones.set_label(kOwnLabel, shapes[1]);
  Timed redraws;
  for (size_t k = 0; k < kTurns / 4; ++k) redraws.Run([&] { zones.set_label(kOwnLabel, shapes[k % 2]); });
  redraws.Print("set_label of C++, with 50 cells there");
}

// Copies of a store after edits in many places, when other memory has come into the caches.
void TimeColdCopies(Store& store, const std::vector<s2ix_row>& rows) {
  std::mt19937_64 random(23);
  std::vector<uint64_t> other(kBytesOfCaches / sizeof(uint64_t));
  Timed copies;
  for (size_t k = 0; k < kTurns / 4; ++k) {
    for (size_t n = 0; n < 25; ++n) {
      const s2ix_row& row = rows[random() % rows.size()];
      store.Remove(row.cell, row.label);
      store.Add(row.cell, row.label);
    }
    for (uint64_t& number : other) number += k;
    Store copy;
    copies.Run([&] { Expect(s2ix_copy(store.get(), copy.get()), "copy"); });
  }
  store.Forget();
  copies.Print("a copy after 50 edits, cold");
}

void TimeCopies(Store& store, const std::vector<s2ix_row>& rows) {
  std::mt19937_64 random(11);
  Timed copies, edits;
  for (size_t k = 0; k < kTurns / 4; ++k) {
    const s2ix_row& row = rows[random() % rows.size()];
    Store copy;
    copies.Run([&] { Expect(s2ix_copy(store.get(), copy.get()), "copy"); });
    edits.Run([&] { copy.Remove(row.cell, row.label); });
  }
  copies.Print("a copy");
  edits.Print("the first edit of a copy");
  TimeColdCopies(store, rows);
}

// A reader's copy of a store, which an editor replaces.
struct Slot {
  std::mutex guard;
  std::unique_ptr<Store> next;
};

// Points on three threads, each over a copy of its own that comes anew ten times a second, while a fourth thread edits a hundred times a second.
void TimeReaders(Store& store, const std::vector<s2ix_row>& rows, const std::vector<uint64_t>& leaves) {
  std::array<Slot, 3> slots;
  std::array<Timed, 3> points;
  std::atomic<bool> is_over{false};
  auto read = [&](size_t k) {
    std::unique_ptr<Store> own;
    std::vector<s2ix_row> out(100000);
    for (size_t n = k; !is_over; ++n) {
      {
        std::lock_guard<std::mutex> held(slots[k].guard);
        if (slots[k].next) own = std::move(slots[k].next);
      }
      if (!own) continue;
      points[k].Run([&] { Expect(s2ix_at(own->get(), leaves[n % leaves.size()], out.data(), out.size(), &own->number_), "at"); });
    }
  };
  std::vector<std::thread> threads;
  for (size_t k = 0; k < slots.size(); ++k) threads.emplace_back(read, k);
  Timed edits;
  for (size_t k = 0; k < 100; ++k) {
    if (k % 10 == 0) {
      for (Slot& slot : slots) {
        auto copy = std::make_unique<Store>();
        Expect(s2ix_copy(store.get(), copy->get()), "copy");
        std::lock_guard<std::mutex> held(slot.guard);
        slot.next = std::move(copy);
      }
    }
    const s2ix_row& row = rows[(k / 2 * 7919) % rows.size()];
    edits.Run([&] { k % 2 == 0 ? store.Remove(row.cell, row.label) : store.Add(row.cell, row.label); });
    std::this_thread::sleep_for(std::chrono::milliseconds(10));
  }
  is_over = true;
  for (std::thread& thread : threads) thread.join();
  store.Forget();
  for (size_t k = 1; k < points.size(); ++k) points[0].Join(points[k]);
  points[0].Print("a point on one of three threads, over copies");
  edits.Print("an edit meanwhile, 100 a second");
}

// Points before so many random edits, and after them.
void TimeChanges(Store& store, const std::vector<s2ix_row>& rows, const std::vector<uint64_t>& leaves, size_t changes) {
  PrintMean("a point", store.Points(leaves));
  std::mt19937_64 random(17);
  for (size_t k = 0; k < changes; k += 2) {
    const s2ix_row& row = rows[random() % rows.size()];
    store.Remove(row.cell, row.label);
    store.Add(row.cell, row.label);
    if (k % kMostChanges == kMostChanges - 2) store.Forget();
  }
  store.Forget();
  PrintMean("a point after " + std::to_string(changes) + " edits", store.Points(leaves));
}

// A dump, and the journal of as many changes after it as a store may have: replayed, and resumed with their undo. Then the last changes are
// joined, two by two.
void TimeJournals(Store& store, const std::vector<s2ix_row>& rows) {
  const std::string dump = store.Text(s2ix_dump);
  std::mt19937_64 random(19);
  for (size_t k = 0; k < kMostChanges; k += 2) {
    const s2ix_row& row = rows[random() % rows.size()];
    store.Remove(row.cell, row.label);
    store.Add(row.cell, row.label);
  }
  const std::string journal = store.Text(s2ix_journal);
  auto bytes = [](const std::string& text) { return reinterpret_cast<const uint8_t*>(text.data()); };
  auto time = [&](const std::string& name, decltype(s2ix_replay)* call) {
    Store led;
    size_t place = 0, entry = 0;
    double start = Nanoseconds();
    Expect(call(led.get(), bytes(dump), dump.size(), bytes(journal), journal.size(), kMostPairs, kMostCopies, kMostChanges, &place, &entry), "journal");
    PrintMean(name, (Nanoseconds() - start) / kMostChanges);
  };
  time("a dump and 100,000 changes replayed, a change", s2ix_replay);
  time("the same resumed, a change", s2ix_resume);
  Timed joins;
  for (size_t k = 0; k < kTurns / 4; ++k) joins.Run([&] { Expect(s2ix_join(store.get(), 2, &store.number_), "join"); });
  store.Forget();
  joins.Print("a join of two changes");
}

// Pairs that an index in parts may find hard.
void TimeHardPlaces(size_t pairs) {
  std::mt19937_64 random(13);
  auto within = [&](S2CellId cell, int level) { return S2CellId(cell.range_min().id() + 2 * (random() % cell.lsb())).parent(level).id(); };
  S2CellId town = S2CellId::FromFace(1).child_begin(9);
  auto time = [&](const std::string& name, std::vector<s2ix_row> rows) {
    MakeSingle(rows);
    Store store;
    store.AddAll(rows);
    store.Forget();
    TimeEdits(store, rows, name);
  };
  std::vector<s2ix_row> rows;
  for (uint32_t k = 0; k < pairs; ++k) rows.push_back({within(town, 11 + static_cast<int>(random() % 10)), k % 100000, 1});
  time("an edit if all pairs are in one town", rows);
  rows.push_back({S2CellId::FromFace(1).id(), 1, 1});
  time("an edit if one label is over the whole face too", rows);
  rows.resize(pairs - std::min<size_t>(pairs / 2, 100000));
  for (uint32_t k = 0; rows.size() < pairs; ++k) rows.push_back({town.id(), k, 1});
  time("an edit if half of them, at most 100,000, are labels of that town's cell", rows);
}

}  // namespace

int main(int count, char** words) {
  if (count < 3) {
    std::fprintf(stderr, "usage: edits PAIRS CHANGES\n");
    return 2;
  }
  Scene scene = MakeScene(std::strtoul(words[1], nullptr, 10));
  std::vector<s2ix_row> rows = RowsOf(scene);
  TimeGrowth(rows);
  MakeSingle(rows);
  rows.resize(std::min(rows.size(), kMostPairs - kRoom));
  Store store;
  store.AddAll(rows);
  store.Forget();
  TimeEdits(store, rows, "an edit");
  TimeRegions(store, scene);
  TimeRedraws(rows, scene);
  TimeCopies(store, rows);
  TimeReaders(store, rows, scene.leaves);
  TimeChanges(store, rows, scene.leaves, std::strtoul(words[2], nullptr, 10));
  TimeJournals(store, rows);
  TimeHardPlaces(rows.size());
  return 0;
}
