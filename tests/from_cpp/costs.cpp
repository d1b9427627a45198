// What each form of a list costs: how often the library is asked for it, how much memory it takes, and how much of a vector's memory is touched.
// It is linked with -Wl,--wrap=CALL for each call that is counted, and ends with 'N passed, M failed', after a line for each wrong cost.
#include "checks.hpp"
#include "s2ix.hpp"

#include <sys/resource.h>

#include <cstdlib>
#include <iostream>
#include <list>
#include <set>

namespace {

// How often the library was asked for lists, and how many bytes a program took by new.
int asked;
std::size_t taken;

}  // namespace

void* operator new(std::size_t size) {
  taken += size;
  if (void* block = std::malloc(size)) return block;
  throw std::bad_alloc();
}
void operator delete(void* block) noexcept { std::free(block); }
void operator delete(void* block, std::size_t) noexcept { std::free(block); }

using Handle = ::s2ix_handle*;
using Rows = ::s2ix_row*;
using Given = const std::uint64_t*;
using Size = std::size_t;
using Number = std::size_t*;

// A call that is counted: its parameters, and their names alone.
#define COUNTED(name, parameters, names)              \
  extern "C" std::uint32_t __real_##name parameters;  \
  extern "C" std::uint32_t __wrap_##name parameters { \
    asked++;                                          \
    return __real_##name names;                       \
  }

COUNTED(s2ix_at, (Handle handle, std::uint64_t leaf, Rows rows, Size room, Number number), (handle, leaf, rows, room, number))
COUNTED(s2ix_meet, (Handle handle, Given cells, Size len, Rows rows, Size room, Number number), (handle, cells, len, rows, room, number))
COUNTED(s2ix_meet_from, (Handle handle, Given cells, Size len, Size from, Rows rows, Size room, Number number),
        (handle, cells, len, from, rows, room, number))
COUNTED(s2ix_labels, (Handle handle, Given cells, Size len, std::uint32_t* labels, Size room, Number number),
        (handle, cells, len, labels, room, number))
COUNTED(s2ix_at_each, (Handle handle, Given leaves, Size len, Number ends, Size ends_room, Rows rows, Size room, Number answered),
        (handle, leaves, len, ends, ends_room, rows, room, answered))
COUNTED(s2ix_labels_at_each,
        (Handle handle, Given leaves, Size len, Number ends, Size ends_room, std::uint32_t* labels, Size room, Number answered),
        (handle, leaves, len, ends, ends_room, labels, room, answered))
COUNTED(s2ix_meet_each,
        (Handle handle, Given cells, Size cell_count, const Size* bounds, Size len, Number ends, Size ends_room, Rows rows, Size room, Number answered),
        (handle, cells, cell_count, bounds, len, ends, ends_room, rows, room, answered))
COUNTED(s2ix_labels_each,
        (Handle handle, Given cells, Size cell_count, const Size* bounds, Size len, Number ends, Size ends_room, std::uint32_t* labels, Size room,
         Number answered),
        (handle, cells, cell_count, bounds, len, ends, ends_room, labels, room, answered))
COUNTED(s2ix_region, (Handle handle, std::uint32_t label, std::uint64_t* cells, Size room, Number number), (handle, label, cells, room, number))
COUNTED(s2ix_of_label, (Handle handle, std::uint32_t label, Rows rows, Size room, Number number), (handle, label, rows, room, number))
COUNTED(s2ix_pairs, (Handle handle, Size from, Rows rows, Size room, Number number), (handle, from, rows, room, number))
COUNTED(s2ix_contents, (Handle handle, Size place, std::uint64_t from, Rows rows, Size room, Number number),
        (handle, place, from, rows, room, number))
COUNTED(s2ix_find, (Handle handle, std::uint64_t leaf, Number place, std::uint64_t* start, std::uint64_t* limit), (handle, leaf, place, start, limit))
COUNTED(s2ix_range, (Handle handle, Size place, std::uint64_t* start, std::uint64_t* limit, bool* is_empty),
        (handle, place, start, limit, is_empty))
COUNTED(s2ix_ranges, (Handle handle, Size from, ::s2ix_leaf_range* ranges, Size room, Number number), (handle, from, ranges, room, number))
COUNTED(s2ix_dump, (Handle handle, std::uint8_t* text, Size room, Number number), (handle, text, room, number))
COUNTED(s2ix_export, (Handle handle, std::uint8_t* text, Size room, Number number), (handle, text, room, number))
COUNTED(s2ix_journal, (Handle handle, std::uint8_t* text, Size room, Number number), (handle, text, room, number))
COUNTED(s2ix_union_normalise, (Given cells, Size len, std::uint64_t* out, Size room, Number number), (cells, len, out, room, number))

namespace {

constexpr std::uint64_t kFirst = 0x0400000000000000, kLeaf = 0x0400000000000001, kFace = 0x1000000000000000, kOther = 0x3000000000000000;
constexpr std::size_t kMany = 20000;

// A class of ids, as S2's, which are packed.
struct [[gnu::packed]] SomeId {
  explicit SomeId(std::uint64_t raw) : raw_(raw) {}
  std::uint64_t id() const { return raw_; }

 private:
  std::uint64_t raw_;
};

// How often a call asks the library, and how many bytes it takes.
struct Cost {
  int asked;
  std::size_t taken;
};

template <class Call>
Cost CostOf(Call call) {
  asked = 0;
  taken = 0;
  call();
  return {asked, taken};
}

// How many pages of memory a call is the first to touch.
template <class Call>
long PagesOf(Call call) {
  ::rusage before{}, after{};
  getrusage(RUSAGE_SELF, &before);
  call();
  getrusage(RUSAGE_SELF, &after);
  return after.ru_minflt - before.ru_minflt;
}

// Two pairs over a leaf, 40 over another, and many elsewhere: every 20th of these has label 1, each other a label of its own.
s2ix::Index Zones() {
  std::vector<s2ix::Row> rows = {{kFirst, 1, 1}, {kFirst, 2, 1}};
  for (std::uint32_t label = 0; label < 40; label++) rows.push_back({0x0c00000000000000, label, 1});
  for (std::uint32_t k = 0; k < kMany; k++) rows.push_back({kOther + 1 + 2 * std::uint64_t{k}, k % 20 == 0 ? 1 : 100 + k, 1});
  s2ix::Index index;
  index.add_all(rows);
  return index;
}

// A form that puts a list into a vector with much room writes only to the room that the list takes.
void LeavesRoomUntouched() {
  const s2ix::Index index = Zones();
  std::vector<s2ix::Row> rows;
  std::vector<std::uint32_t> labels;
  std::vector<std::uint64_t> cells;
  rows.reserve(std::size_t{1} << 22);
  labels.reserve(std::size_t{1} << 24);
  cells.reserve(std::size_t{1} << 23);
  EXPECT(PagesOf([&] { index.at(kLeaf, rows); }) < 64 && rows.size() == 2);
  EXPECT(PagesOf([&] { index.meet({kFirst}, rows); }) < 64 && rows.size() == 2);
  EXPECT(PagesOf([&] { index.contents(0, 0, rows); }) < 64 && rows.size() == 2);
  EXPECT(PagesOf([&] { index.labels({kFirst}, labels); }) < 64 && labels.size() == 2);
  EXPECT(PagesOf([&] { index.region(2, cells); }) < 64 && cells.size() == 2);
  EXPECT(PagesOf([&] { index.of_label(2, rows); }) < 64 && rows.size() == 2);
}

// If the vector held as many items, or the list has few, the library is asked once, and takes no memory.
void AsksOnce() {
  const s2ix::Index index = Zones();
  std::vector<s2ix::Row> rows;
  index.meet({kFace, kOther}, rows);
  EXPECT(rows.size() == 42 + kMany);
  Cost cost = CostOf([&] { index.meet({kFace, kOther}, rows); });
  EXPECT(cost.asked == 1 && cost.taken == 0 && rows.size() == 42 + kMany);
  cost = CostOf([&] { index.at(kLeaf, rows); });
  EXPECT(cost.asked == 1 && cost.taken == 0 && rows.size() == 2);
  cost = CostOf([&] { index.at(kLeaf, rows); });
  EXPECT(cost.asked == 1 && cost.taken == 0 && rows.size() == 2);
  cost = CostOf([&] { EXPECT(index.at(kLeaf).size() == 2); });
  EXPECT(cost.asked == 1 && cost.taken <= 256);
  cost = CostOf([&] { EXPECT(index.at(0x0c00000000000001).size() == 40); });
  EXPECT(cost.asked == 2 && cost.taken <= 256 + 40 * sizeof(s2ix::Row));
  cost = CostOf([&] { EXPECT(index.meet({kFace}).size() == 42); });
  EXPECT(cost.asked == 1 && cost.taken <= 1024);
  cost = CostOf([&] { EXPECT(index.labels({kFirst}).size() == 2); });
  EXPECT(cost.asked == 1 && cost.taken <= 1024);
  // (all pairs are read for a label's, so some memory is taken for them too, and given back)
  cost = CostOf([&] { rows = index.of_label(1); });
  EXPECT(cost.asked == 1 && rows.size() == 2 + kMany / 20 && rows.capacity() <= 2 * rows.size());
  cost = CostOf([&] { rows = index.of_label(2); });
  EXPECT(cost.asked == 1 && rows.size() == 2 && rows.capacity() == 2 && cost.taken <= 2 * kMany);
  cost = CostOf([&] { EXPECT(index.region(1).size() == 2 + kMany / 20); });
  EXPECT(cost.asked == 1);
}

// set_label has a union made normal, and asks once for what the label has: if that is short, or at most twice what it gets, or all there is.
void SetsOnce() {
  s2ix::Index index = Zones();
  std::vector<std::uint64_t> cells, others;
  for (std::uint64_t k = 0; k < kMany; k++) (k % 2 == 0 ? cells : others).push_back(kFace + 1 + 2 * k);
  EXPECT(CostOf([&] { EXPECT(index.set_label(1, {kOther}) == 3 + kMany / 20); }).asked == 2);
  EXPECT(CostOf([&] { EXPECT(index.set_label(5, cells) == 1 + kMany / 2); }).asked == 2);
  EXPECT(CostOf([&] { EXPECT(index.set_label(5, others) == kMany); }).asked == 2);
  EXPECT(CostOf([&] { EXPECT(index.set_label(5, {kFirst}) == 1 + kMany / 2); }).asked == 3);
  s2ix::Index alone;
  alone.add_union(cells, 5);
  EXPECT(CostOf([&] { EXPECT(alone.set_label(5, others) == kMany); }).asked == 2);
  EXPECT(alone.of_label(5).size() == kMany / 2);
}

// What is known of a list beforehand is used: the library makes it once.
void AsksOnceForWhatIsKnown() {
  s2ix::Index index = Zones();
  std::vector<s2ix::Row> rows;
  Cost cost = CostOf([&] { rows = index.pairs(0, std::numeric_limits<std::size_t>::max()); });
  EXPECT(cost.asked == 1 && cost.taken == (42 + kMany) * sizeof(s2ix::Row) && rows.size() == 42 + kMany);
  cost = CostOf([&] { rows = index.pairs(40 + kMany, 1000000); });
  EXPECT(cost.asked == 1 && cost.taken == 2 * sizeof(s2ix::Row) && rows.size() == 2);
  cost = CostOf([&] { rows = index.meet_from({kFace, kOther}, 0, 1000000); });
  EXPECT(cost.asked == 1 && cost.taken == (42 + kMany) * sizeof(s2ix::Row) && rows.size() == 42 + kMany);
  EXPECT(CostOf([&] { EXPECT(!index.dump().empty()); }).asked == 1);
  EXPECT(CostOf([&] { EXPECT(!index.export_json().empty()); }).asked == 1);
  index.forget();
  for (std::uint32_t label = 200; label < 240; label++) index.add(kFace, label);
  EXPECT(CostOf([&] { EXPECT(!index.journal().empty()); }).asked == 1);
  std::vector<std::uint64_t> leaves;
  for (std::uint64_t k = 0; k < 4096; k++) leaves.push_back(1 + 2 * k);
  cost = CostOf([&] { leaves = s2ix::cell_union::normalise(leaves); });
  EXPECT(cost.asked == 1 && leaves.size() == 1 && leaves.capacity() < 64);
  const std::vector<std::uint64_t> target = {kFirst};
  EXPECT(CostOf([&] { index.meet(target, rows); }).taken == 0);
  // (neither numbers in braces nor Cells are copied for a call)
  const s2ix::Cells kept = {target[0], kLeaf};
  EXPECT(CostOf([&] { index.meet(kept, rows); }).taken == 0);
  EXPECT(CostOf([&] { index.meet({target[0], kLeaf}, rows); }).taken == 0 && rows.size() == 42);
}

// Many leaves or targets are asked for at once: by one call if the lists held as many items, or if there are at most two for each. Neither
// leaves nor cells in one row are copied.
void AsksOnceForEach() {
  const s2ix::Index index = Zones();
  const std::vector<std::uint64_t> leaves(1000, kLeaf), others(100, 0x0c00000000000001), cells(1000, kFirst);
  std::vector<std::size_t> bounds;
  for (std::size_t k = 0; k <= 1000; k++) bounds.push_back(k);
  const s2ix::Targets targets(cells.data(), cells.size(), bounds.data(), bounds.size());
  s2ix::RowsOfEach rows;
  s2ix::LabelsOfEach labels;
  Cost cost = CostOf([&] { rows = index.at_each(leaves); });
  EXPECT(cost.asked == 1 && cost.taken == 1000 * sizeof(std::size_t) + 2000 * sizeof(s2ix::Row) && rows.rows.size() == 2000);
  cost = CostOf([&] { labels = index.labels_at_each(leaves); });
  EXPECT(cost.asked == 1 && cost.taken == 1000 * sizeof(std::size_t) + 2000 * sizeof(std::uint32_t) && labels.labels.size() == 2000);
  cost = CostOf([&] { index.meet_each(targets, rows); });
  EXPECT(cost.asked == 1 && cost.taken == 0 && rows.rows.size() == 2000);
  cost = CostOf([&] { index.labels_each(targets, labels); });
  EXPECT(cost.asked == 1 && cost.taken == 0 && labels.labels.size() == 2000);
  cost = CostOf([&] { index.at_each(others, rows); });
  EXPECT(cost.asked == 2 && rows.rows.size() == 4000);
  cost = CostOf([&] { index.at_each(others, rows); });
  EXPECT(cost.asked == 1 && cost.taken == 0 && rows.rows.size() == 4000);
  EXPECT(CostOf([&] { EXPECT(index.at_each(others).rows.capacity() <= 8000); }).asked == 2);
  rows.rows.reserve(std::size_t{1} << 22);
  EXPECT(PagesOf([&] { index.at_each({kLeaf}, rows); }) < 64 && rows.rows.size() == 2);
}

// A query of S2's names asks once, and takes no memory from the second time on; the iterators ask once for what they go to, or for a page.
void AsksOnceAsInS2() {
  s2ix::S2CellIndex index;
  for (int label = 0; label < 1000; label++) index.Add(kFirst, label);
  for (std::uint64_t k = 0; k < kMany; k++) index.Add(kOther + 1 + 2 * k, 1);
  index.Build();
  const std::vector<std::uint64_t> leaf = {kLeaf};
  const std::list<std::uint64_t> target(16, kFirst);
  std::set<int> labels;
  int visited = 0;
  const s2ix::S2CellIndex::CellVisitor visitor = [&](std::uint64_t, int) { return ++visited > 0; };
  // (cells that have nothing but their numbers are not copied, nor is a visitor put elsewhere)
  const std::vector<SomeId> ids(100, SomeId(kLeaf));
  const auto visit = [&, many = std::vector<int>()](std::uint64_t, int) { return ++visited > 0; };
  for (const int taken : {1, 0}) {
    EXPECT((CostOf([&] { index.VisitIntersectingCells(leaf, visitor); }).taken > 0) == (taken > 0));
    const Cost cost = CostOf([&] { index.VisitIntersectingCells(target, visitor); });
    EXPECT(cost.asked == 1 && cost.taken == 0 && visited == 2000);
    EXPECT(CostOf([&] { index.VisitIntersectingCells(ids, visit); }).taken == 0 && visited == 3000);
    visited = 0;
    index.GetIntersectingLabels(target, &labels);
  }
  EXPECT(CostOf([&] { index.VisitIntersectingCells(leaf, visitor); }).asked == 1 && visited == 1000);
  // (a visit within another has room of its own)
  Cost cost = CostOf([&] {
    index.VisitIntersectingCells(leaf, [&](std::uint64_t, int) { return index.VisitIntersectingCells(target, visitor) && ++visited == 0; });
  });
  EXPECT(cost.asked == 2 && cost.taken > 0 && cost.taken <= 2048 * sizeof(s2ix::Row));
  cost = CostOf([&] { index.GetIntersectingLabels(target, &labels); });
  EXPECT(cost.asked == 1 && labels.size() == 1000);
  // (an iterator beside another has room of its own too)
  for (const std::size_t rooms : {2, 1, 1}) {
    cost = CostOf([&] {
      s2ix::S2CellIndex::RangeIterator range(&index);
      range.Seek(kOther + 1);
      s2ix::S2CellIndex::ContentsIterator contents(&index), second(&index);
      contents.StartUnion(range);
      EXPECT(asked == 1 && (taken == 0) == (rooms == 1));
      second.StartUnion(range);
      EXPECT(!contents.done() && !second.done());
    });
    EXPECT(cost.asked == 2 && cost.taken == rooms * 64 * sizeof(s2ix::Row));
  }
  cost = CostOf([&] {
    s2ix::S2CellIndex::RangeIterator range(&index);
    range.Seek(kOther + 1);
    EXPECT(range.start_id() == kOther + 1 && range.limit_id() == kOther + 3 && !range.is_empty() && range.Prev() && range.Advance(1));
    s2ix::S2CellIndex::ContentsIterator contents(&index);
    contents.StartUnion(range);
    EXPECT(!contents.done());
  });
  EXPECT(cost.asked == 5 && cost.taken == 0);
  // (each leaf is a range, and pages of these grow to 512)
  cost = CostOf([&] {
    s2ix::S2CellIndex::RangeIterator range(&index);
    for (range.Begin(); !range.done(); range.Next()) visited++;
  });
  EXPECT(cost.asked <= static_cast<int>(kMany) / 512 + 12 && cost.taken <= 2048 * sizeof(::s2ix_leaf_range));
  cost = CostOf([&] {
    for (s2ix::S2CellIndex::CellIterator cells(&index); !cells.done(); cells.Next()) visited++;
  });
  EXPECT(cost.asked == (1000 + kMany) / 1024 + 1 && cost.taken <= 1200 * sizeof(s2ix::Row));
}

}  // namespace

int main() {
  AsksOnceAsInS2();
  LeavesRoomUntouched();
  AsksOnce();
  SetsOnce();
  AsksOnceForWhatIsKnown();
  AsksOnceForEach();
  return EndOfChecks();
}
