// Shares one index among threads, which query it by a const reference and must get the answers that one thread gets: while nobody edits it,
// while another thread edits it, and as an S2CellIndex whose adds are not built yet. It ends with 'N passed, M failed', after a line for each
// wrong answer.
#include "checks.hpp"
#include "s2ix.hpp"

#include <atomic>
#include <functional>
#include <iostream>
#include <memory>
#include <string>
#include <thread>

namespace {

constexpr std::uint64_t kFirst = 0x0400000000000000, kSecond = 0x0c00000000000000, kFace = 0x1000000000000000, kOther = 0x3000000000000000;
constexpr int kThreads = 8, kRounds = 4000, kLabels = 1500;

using Target = std::vector<std::uint64_t>;

// Whether a list has the pairs of a cell with one label, then another.
bool IsPair(const std::vector<s2ix::Row>& rows, std::uint64_t cell, std::uint32_t label) {
  return rows.size() == 2 && rows[0].cell == cell && rows[0].label == label && rows[0].count == label && rows[1].cell == kFace;
}

// The rounds of queries so far, of all threads.
std::atomic<int> rounds;

// How many of some queries are answered otherwise than they should be, or throw. (No copy() is among them: the library, which has no
// instrumentation, counts the users of what copies share by atomics that the sanitizer of threads doesn't see.)
int WrongQueries(const s2ix::Index& index) {
  int wrong = 0;
  std::vector<s2ix::Row> rows;
  for (int round = 0; round < kRounds; round++, rounds++) {
    try {
      index.at(kFirst + 1, rows);
      wrong += !IsPair(rows, kFirst, 1);
      index.at(kSecond + 1, rows);
      wrong += !IsPair(rows, kSecond, 2);
      wrong += index.labels({kSecond}) != std::vector<std::uint32_t>{2, 3};
      wrong += index.labels_at_each({kFirst + 1, kSecond + 1}).labels != std::vector<std::uint32_t>{1, 3, 2, 3};
      wrong += index.meet_each({{kFirst, kSecond}, {kSecond}}).ends != std::vector<std::size_t>{3, 5};
      wrong += index.meet({kFace}).size() != 3 || index.of_label(2).size() != 1 || index.held_labels().size() < 3;
      wrong += index.count(kFirst, 1) != 1 || !index.is_open() || index.find(kSecond + 1).limit != 0x1000000000000001;
    } catch (const std::exception&) {
      wrong++;
    }
  }
  return wrong;
}

// Runs some work on several threads, which begin together.
void AtOnce(const std::function<void()>& work) {
  std::atomic<int> waiting{kThreads};
  const auto begin = [&] {
    for (waiting--; waiting > 0;) std::this_thread::yield();
    work();
  };
  std::vector<std::thread> threads;
  for (int k = 0; k < kThreads; k++) threads.emplace_back(begin);
  for (std::thread& thread : threads) thread.join();
}

s2ix::Index Zones() {
  s2ix::Index index;
  index.add_all({{kFirst, 1, 1}, {kSecond, 2, 2}, {kFace, 3, 1}});
  return index;
}

void Queried() {
  const s2ix::Index index = Zones();
  AtOnce([&] { EXPECT(WrongQueries(index) == 0); });
  EXPECT(index.len() == 3);
}

void QueriedWhileEdited() {
  s2ix::Index index = Zones();
  std::atomic<bool> ended{false};
  std::thread editor([&] {
    for (std::uint32_t label = 4; !ended; label++) {
      // (a lock may go to the same thread again and again, so it waits for a round of queries)
      for (const int before = rounds; rounds == before && !ended;) std::this_thread::yield();
      EXPECT(index.add(kOther, label) == 1);
      if (label % 3 != 0) EXPECT(index.undo() == 1);
      if (label % 1000 == 0) index.forget();
    }
  });
  AtOnce([&] { EXPECT(WrongQueries(index) == 0); });
  ended = true;
  editor.join();
  EXPECT(index.at(kFirst + 1).size() == 2);
}

// Each thread's adds are there in the end.
void EditedAtOnce() {
  s2ix::Index index;
  std::atomic<std::uint32_t> next{0};
  AtOnce([&] {
    const std::uint32_t first = next++ * 100;
    for (std::uint32_t label = first; label < first + 100; label++) EXPECT(index.add(kFirst, label) == 1);
  });
  EXPECT(index.len() == 100 * kThreads && index.done_count() == 100 * kThreads);
}

// The first query of any thread builds what was added, and each has iterators of its own.
void QueriedAsInS2() {
  for (int turn = 0; turn < 50; turn++) {
    s2ix::S2CellIndex filled;
    for (int label = 0; label < kLabels; label++) filled.Add(kFirst, label);
    const s2ix::S2CellIndex index = std::move(filled);
    AtOnce([&] {
      int visited = 0;
      EXPECT(index.VisitIntersectingCells(Target{kFace}, [&](std::uint64_t, int) { return ++visited <= kLabels; }));
      EXPECT(visited == kLabels && index.num_cells() == kLabels && index.GetIntersectingLabels(Target{kFirst}).size() == kLabels);
      s2ix::S2CellIndex::NonEmptyRangeIterator range(&index);
      range.Begin();
      s2ix::S2CellIndex::ContentsIterator contents(&index);
      contents.StartUnion(range);
      for (visited = 0; !contents.done(); contents.Next()) visited++;
      EXPECT(visited == kLabels && range.start_id() == 1 && !range.Prev());
      visited = 0;
      EXPECT(index.VisitIntersectingCells(Target{kFirst + 1}, [&](std::uint64_t, int label) {
        return label % 500 != 0 || index.GetIntersectingLabels(Target{kSecond}).empty() ? ++visited > 0 : false;
      }));
      for (s2ix::S2CellIndex::CellIterator cells(&index); !cells.done(); cells.Next()) visited--;
      range.Seek(kSecond + 1);
      EXPECT(visited == 0 && range.is_empty());
    });
    EXPECT(index.index().done_count() == 1);
  }
}

// Asks by iterators of S2's names for what lies over a leaf of the second zone, and goes along all ranges, while another thread edits and so
// moves the places of both. Returns how many answers are wrong.
int WrongIterators(const s2ix::S2CellIndex& index) {
  int wrong = 0;
  s2ix::S2CellIndex::RangeIterator range(&index);
  s2ix::S2CellIndex::ContentsIterator kept(&index);
  for (int round = 0; round < kRounds; round++, rounds++) {
    range.Seek(kSecond + 1);
    s2ix::S2CellIndex::ContentsIterator contents(&index);
    contents.StartUnion(range);
    int over = 0;
    for (; !contents.done(); contents.Next()) over += contents.cell_id() == kSecond || contents.cell_id() == kFace ? 1 : 100;
    // (one that is kept may leave out what it gave before, if no edit came between)
    int given = 0;
    kept.StartUnion(range);
    for (; !kept.done(); kept.Next()) given += kept.cell_id() == kSecond || kept.cell_id() == kFace ? 1 : 100;
    wrong += over != 2 || (given != 0 && given != 2);
    try {
      range.Begin();
      for (std::uint64_t start = 1; !range.done(); start = range.limit_id(), range.Next()) {
        wrong += range.start_id() != start || range.limit_id() <= start;
        contents.StartUnion(range);
      }
    } catch (const s2ix::StaleIterator&) {
      // (an edit came between)
    }
  }
  return wrong;
}

void IteratedWhileEdited() {
  s2ix::S2CellIndex index;
  index.Add(kSecond, 1);
  index.Add(kFace, 2);
  index.Build();
  std::atomic<bool> ended{false};
  std::thread editor([&] {
    for (std::uint64_t turn = 0; !ended; turn++) {
      for (const int before = rounds; rounds == before && !ended;) std::this_thread::yield();
      EXPECT(index.index().add(kFirst + 1 + 2 * (turn % 50), 3) == 1);
      if (turn % 3 != 0) EXPECT(index.index().undo() == 1);
      if (turn % 100 == 99) index.index().drop_label(3), index.index().forget();
    }
  });
  AtOnce([&] { EXPECT(WrongIterators(index) == 0); });
  ended = true;
  editor.join();
}

// An index is queried while the process has one thread, then by a visitor that starts threads, and when they have ended.
void QueriedBeforeAndAfter() {
  s2ix::S2CellIndex index;
  for (int label = 0; label < kLabels; label++) index.Add(kFirst, label);
  EXPECT(index.num_cells() == kLabels);
  int visited = 0;
  EXPECT(index.VisitIntersectingCells(Target{kFirst}, [&](std::uint64_t, int) {
    if (visited++ == 0) AtOnce([&] { EXPECT(index.GetIntersectingLabels(Target{kFace}).size() == kLabels); });
    return true;
  }));
  EXPECT(visited == kLabels && index.index().drop_label(1) == 1 && index.num_cells() == kLabels - 1);
}

// Threads see what was put last, and nothing older than they have seen. What was put before is freed when nobody has it.
void Shown() {
  s2ix::detail::Shown<int> shown;
  EXPECT(shown.get() == nullptr);
  std::weak_ptr<const int> first;
  std::atomic<int> last{0};
  std::thread writer([&] {
    for (int number = 1; number <= 1000; number++) {
      auto next = std::make_shared<const int>(number);
      if (number == 1) first = next;
      shown.put(std::move(next));
      last = number;
      std::this_thread::yield();
    }
  });
  AtOnce([&] {
    int wrong = 0;
    for (int seen = 0; seen < 1000;) {
      const int before = last;
      const std::shared_ptr<const int> now = shown.get();
      wrong += before > 0 && (now == nullptr || *now < before || *now < seen);
      if (now != nullptr) seen = *now;
    }
    EXPECT(wrong == 0);
  });
  writer.join();
  EXPECT(*shown.get() == 1000 && first.expired());
  const std::shared_ptr<const int> kept = shown.get();
  shown.put(nullptr);
  EXPECT(*kept == 1000 && shown.get() == nullptr);
}

}  // namespace

int main() {
  Shown();
  QueriedBeforeAndAfter();
  Queried();
  QueriedWhileEdited();
  EditedAtOnce();
  QueriedAsInS2();
  IteratedWhileEdited();
  return EndOfChecks();
}
