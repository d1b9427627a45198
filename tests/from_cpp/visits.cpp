// Asks an S2CellIndex for more than the room that lies ready for an answer, within other queries, from visitors that throw, and as a thread
// ends. It ends with 'N passed, M failed', after a line for each wrong answer.
#include "checks.hpp"
#include "s2ix.hpp"

#include <algorithm>
#include <functional>
#include <iostream>
#include <iterator>
#include <list>
#include <random>
#include <set>
#include <sstream>
#include <string>
#include <thread>

namespace {

using Index = s2ix::S2CellIndex;
using Cell = std::uint64_t;
using Target = std::vector<Cell>;
using Pairs = std::vector<std::pair<Cell, int>>;

// A leaf with its parent of level 1, the face around both, a leaf on another face, and a number that is no cell's.
constexpr Cell kLeaf = 0x0400000000000001, kFirst = 0x0400000000000000, kFace = 0x1000000000000000, kOther = 0x3000000000000001, kNoCell = 6;

// A class of ids, as S2's.
struct SomeId {
  explicit SomeId(Cell raw = 0) : raw_(raw) {}
  Cell id() const { return raw_; }

 private:
  Cell raw_;
};

// A class of ids that may lie anywhere, as S2's.
struct [[gnu::packed]] PackedId {
  PackedId() = default;
  explicit PackedId(Cell raw) : raw_(raw) {}
  Cell id() const { return raw_; }

 private:
  Cell raw_ = kLeaf;
};

Pairs Visited(const Index& index, const Target& target) {
  Pairs pairs;
  EXPECT(index.VisitIntersectingCells(target, [&](Cell cell, int label) { return pairs.emplace_back(cell, label), true; }));
  return pairs;
}

// What a list of rows gives to a visit.
Pairs CopiesOf(const std::vector<s2ix::Row>& rows) {
  Pairs pairs;
  for (const s2ix::Row& row : rows) pairs.insert(pairs.end(), row.count, {row.cell, static_cast<int>(row.label)});
  return pairs;
}

// So many labels, in turns at the face, at the cell in it, and at the leaf; each seventh has two copies.
Index Zones(int labels) {
  Index index;
  for (int label = 0; label < labels; label++) {
    const Cell cells[] = {kFace, kFirst, kLeaf};
    for (int copy = 0; copy < (label % 7 == 0 ? 2 : 1); copy++) index.Add(cells[label % 3], label);
  }
  index.Build();
  return index;
}

// A leaf is visited as any target is: in the same order, and to the same end.
void LeavesAsTargets() {
  for (int labels : {0, 1, 256, 900, 1600, 6000}) {
    const Index index = Zones(labels);
    const Pairs pairs = Visited(index, {kLeaf});
    EXPECT(pairs == CopiesOf(index.index().meet({kLeaf})) && pairs == CopiesOf(index.index().at(kLeaf)) && pairs == Visited(index, {kLeaf, kLeaf}));
    EXPECT(Visited(index, {kOther}).empty() && Visited(index, {}).empty());
    for (std::size_t most : {std::size_t{1}, pairs.size() / 2, pairs.size()}) {
      std::size_t visited = 0;
      if (most == 0 || pairs.empty()) continue;
      EXPECT(!index.VisitIntersectingCells(Target{kLeaf}, [&](Cell, int) { return ++visited < most; }) && visited == most);
    }
  }
  const Index index = Zones(3);
  for (const Cell wrong : {kNoCell, Cell{0xd000000000000001}, Cell{0}}) {
    try {
      index.VisitIntersectingCells(Target{wrong}, [](Cell, int) { return true; });
      EXPECT(false);
    } catch (const s2ix::Error& error) {
      EXPECT(error.status() == S2IX_NO_CELL && error.value() == wrong && error.place() == std::size_t{0});
    }
  }
}

// Each pair shares a leaf with some ids of the first cell.
template <class Ids>
void AllMeet(const Index& index, const Ids& ids) {
  int visited = 0;
  EXPECT(index.VisitIntersectingCells(ids, [&](Cell, int) { return ++visited > 0; }) && visited == index.num_cells());
  EXPECT(index.GetIntersectingLabels(ids).size() == 30);
}

// Ids that lie as numbers do are used where they are; of others few lie in the call, and many in a vector. The answers are the same.
void TargetsOfIds() {
  const Index index = Zones(30);
  for (std::size_t many : {1, 15, 16, 17, 40}) {
    AllMeet(index, std::vector<SomeId>(many, SomeId(kFirst)));
    AllMeet(index, std::vector<PackedId>(many, PackedId(kFirst)));
    AllMeet(index, std::list<PackedId>(many, PackedId(kFirst)));
  }
  struct [[gnu::packed]] Apart {
    char before = 0;
    PackedId few[3] = {PackedId(kFirst)}, many[17] = {PackedId(kFirst)};
  } apart;
  AllMeet(index, apart.few);
  AllMeet(index, apart.many);
}

// A set that only what the header needs is known of.
struct OwnSet {
  void clear() { labels.clear(); }
  void insert(int label) { labels.insert(label); }
  std::set<int> labels;
};

void ManyLabels() {
  for (int labels : {0, 1, 1024, 1025, 20000}) {
    const Index index = Zones(labels);
    std::set<int> wanted;
    for (int label = 0; label < labels; label++) wanted.insert(label);
    std::set<int> ordered = {-5};
    OwnSet own{{-5}};
    std::unordered_set<int> hashed = {-5};
    index.GetIntersectingLabels(Target{kFace}, &ordered);
    index.GetIntersectingLabels(Target{kFace}, &own);
    index.GetIntersectingLabels(Target{kFace}, &hashed);
    EXPECT(ordered == wanted && own.labels == wanted && hashed == std::unordered_set<int>(wanted.begin(), wanted.end()));
    EXPECT(index.GetIntersectingLabels(Target{kOther}).empty() && index.GetIntersectingLabels(Target{kFace}) == hashed);
  }
}

// The set of labels that is returned: it is read and changed as S2's is, it rises, and other sets are made of it.
void SetOfLabels() {
  const Index index = Zones(3);
  const auto labels = index.GetIntersectingLabels(Target{kFace});
  EXPECT(std::vector<int>(labels.begin(), labels.end()) == (std::vector<int>{0, 1, 2}));
  EXPECT(labels.size() == 3 && !labels.empty() && labels.contains(2) && !labels.contains(3) && !labels.contains(-1));
  EXPECT(labels.count(0) == 1 && labels.count(3) == 0 && *labels.find(1) == 1 && labels.find(3) == labels.end());
  const std::unordered_set<int> hashed = index.GetIntersectingLabels(Target{kFace});
  const std::set<int> ordered = labels;
  const std::unordered_set<int> made(labels);
  EXPECT(made == hashed);
  EXPECT((hashed == labels && labels == ordered && labels == labels && labels == Index::LabelSet{2, 0, 1, 0}));
  EXPECT((!(labels == std::set<int>{0, 1}) && !(labels == std::set<int>{0, 1, 3}) && labels != Index::LabelSet{}));

  EXPECT((labels != std::set<int>{0, 1} && std::unordered_set<int>{3} != labels && !(labels != ordered) && !(hashed != labels)));

  Index::LabelSet changed = labels;
  EXPECT(!changed.insert(1).second && *changed.insert(-4).first == -4 && changed.insert(9).second);
  EXPECT((changed.erase(0) == 1 && changed.erase(0) == 0 && changed == Index::LabelSet{-4, 1, 2, 9} && labels.size() == 3));
  changed.clear();
  EXPECT(changed.empty() && changed == Index::LabelSet());
}

// Some of the calls that change a set of labels, in any order, as they change a std::set.
void SetsAsStandardOnes() {
  std::mt19937 chance(7);
  Index::LabelSet labels;
  std::set<int> wanted;
  for (int turn = 0; turn < 4000; turn++) {
    const int label = static_cast<int>(chance() % 50);
    const auto place = static_cast<std::ptrdiff_t>(chance() % (labels.size() + 1));
    const auto at = labels.begin() + place;
    const auto other = std::next(wanted.begin(), place);
    const std::list<int> more = {label, label + 7, label - 7, label};
    switch (chance() % 10) {
      case 0: EXPECT(labels.insert(label).second == wanted.insert(label).second); break;
      case 1: EXPECT(*labels.insert(at, label) == *wanted.insert(other, label)); break;
      case 2: EXPECT(*labels.emplace_hint(at, label) == *wanted.emplace_hint(other, label)); break;
      case 3: EXPECT(labels.emplace(label).second == wanted.emplace(label).second); break;
      case 4: labels.insert(more.begin(), more.end()), wanted.insert(more.begin(), more.end()); break;
      case 5: labels.insert({label, 60}), wanted.insert({label, 60}); break;
      case 6: labels.erase(at, labels.end()), wanted.erase(other, wanted.end()); break;
      case 7: EXPECT(labels.erase(label) == wanted.erase(label)); break;
      default:
        if (at != labels.end()) EXPECT((labels.erase(at) == labels.end()) == (wanted.erase(other) == wanted.end()));
    }
    EXPECT(labels == wanted && std::equal(labels.begin(), labels.end(), wanted.begin(), wanted.end()) && labels.contains(label) == wanted.count(label));
    EXPECT(std::distance(labels.begin(), labels.lower_bound(label)) == std::distance(wanted.begin(), wanted.lower_bound(label)));
    EXPECT(std::distance(labels.begin(), labels.upper_bound(label)) == std::distance(wanted.begin(), wanted.upper_bound(label)));
    EXPECT(static_cast<std::size_t>(std::distance(labels.equal_range(label).first, labels.equal_range(label).second)) == labels.count(label));
  }
}

// A set of labels goes where programs for S2 put S2's set, and comes from there.
void SetsOfLabelsElsewhere() {
  const Index index = Zones(3);
  std::set<int> ordered = {7};
  std::unordered_set<int> hashed = {7};
  std::vector<int> list = {7};
  ordered = index.GetIntersectingLabels(Target{kFace});
  hashed = index.GetIntersectingLabels(Target{kFace});
  list = index.GetIntersectingLabels(Target{kFace});
  EXPECT((ordered == std::set<int>{0, 1, 2} && hashed == std::unordered_set<int>{0, 1, 2} && list == std::vector<int>{0, 1, 2}));
  Index::LabelSet labels;
  labels = {5, 1};
  labels.reserve(10);
  std::set_union(ordered.begin(), ordered.end(), list.begin(), list.end(), std::inserter(labels, labels.end()));
  EXPECT((labels == Index::LabelSet{0, 1, 2, 5} && std::vector<int>(labels.rbegin(), labels.rend()) == std::vector<int>{5, 2, 1, 0}));
  std::istringstream words("9 3 9");
  labels.insert(std::istream_iterator<int>(words), std::istream_iterator<int>());
  EXPECT(labels == (std::set<int>{0, 1, 2, 3, 5, 9}) && Index::LabelSet(hashed.begin(), hashed.end()) == ordered);
  Index::LabelSet others = {8};
  swap(labels, others);
  others.swap(labels);
  EXPECT(*others.cbegin() == 8 && std::next(others.cbegin()) == others.cend() && labels.size() == 6);
  // (S2's set returns nothing from this, so its programs go on before they erase)
  for (auto at = labels.begin(); at != labels.end();) {
    if (*at % 3 == 0) labels.erase(at++);
    else ++at;
  }
  EXPECT((labels == std::set<int>{1, 2, 5} && labels.insert(0).second && labels.insert(2).first == std::next(labels.begin(), 2)));
  others = std::move(labels);
  EXPECT(labels.empty() && others.size() == 4 && labels.insert(4).second && labels.size() == 1);
  labels.erase(labels.begin());
  labels.erase(labels.begin(), labels.end());
  EXPECT(labels.empty() && labels == Index::LabelSet() && (labels.insert({3, 1}), labels.size() == 2));
  const Index::LabelSet moved(std::move(labels));
  EXPECT(labels.empty() && labels.begin() == labels.end() && moved.contains(3));
}

// (what copies a page may throw)
static_assert(!std::is_nothrow_copy_assignable_v<Index::CellIterator> && !std::is_nothrow_copy_assignable_v<Index::RangeIterator>);
static_assert(std::is_nothrow_move_assignable_v<Index::CellIterator> && std::is_nothrow_move_assignable_v<Index::RangeIterator>);

// Iterators are copied with the page that they read, and go on apart.
void CopiedIterators() {
  const Index index = Zones(3000);
  Index::CellIterator cells(&index);
  for (int k = 0; k < 1500; k++) cells.Next();
  Index::CellIterator copied = cells;
  const auto rest = [](Index::CellIterator from) {
    std::vector<std::pair<Cell, int>> given;
    for (; !from.done(); from.Next()) given.emplace_back(from.cell_id(), from.label());
    return given;
  };
  const auto given = rest(cells);
  EXPECT(given.size() + 1500 == static_cast<std::size_t>(index.num_cells()) && rest(copied) == given);
  for (int k = 0; k < 700; k++) cells.Next();
  EXPECT(rest(copied) == given && rest(cells).size() + 700 == given.size());
  copied = cells;
  EXPECT(rest(copied) == rest(cells));

  Index::RangeIterator range(&index);
  range.Begin();
  for (int k = 0; k < 3; k++) range.Next();
  Index::RangeIterator other = range;
  const auto starts = [](Index::RangeIterator from) {
    std::vector<Cell> found;
    for (; !from.done(); from.Next()) found.push_back(from.start_id());
    return found;
  };
  const auto found = starts(range);
  range.Next();
  EXPECT(starts(other) == found && starts(range).size() + 1 == found.size());
}

// An iterator that was moved from is done, and is used again as a new one.
void MovedIterators() {
  const Index index = Zones(3000);
  Index::CellIterator cells(&index);
  for (int k = 0; k < 1500; k++) cells.Next();
  const int label = cells.label();
  Index::CellIterator other_cells(std::move(cells));
  EXPECT(cells.done() && !other_cells.done() && other_cells.label() == label);
  cells = std::move(other_cells);
  EXPECT(other_cells.done() && !cells.done() && cells.label() == label);
  other_cells = cells;
  const Index::CellIterator copy_of_none = Index::CellIterator(std::move(cells));
  cells = other_cells;
  EXPECT(!copy_of_none.done() && other_cells.label() == label && cells.label() == label);

  Index::RangeIterator range(&index), other_range(&index);
  for (range.Begin(); range.start_id() < kLeaf;) range.Next();
  range.Next();
  const Cell start = range.start_id();
  for (int turn = 0; turn < 2; turn++) {
    other_range = std::move(range);
    EXPECT(range.done() && range.is_empty() && !range.Prev() && !range.Advance(0) && range.start_id() == range.limit_id());
    range.Next();
    Index::ContentsIterator none(&index);
    none.StartUnion(range);
    EXPECT(range.done() && none.done() && !other_range.done() && other_range.start_id() == start);
    range = Index::RangeIterator(std::move(other_range));
    EXPECT(other_range.done() && range.start_id() == start && !range.is_empty());
    Index::RangeIterator& same = range;
    range = std::move(same);
    EXPECT(range.start_id() == start);
  }
  other_range.Seek(kLeaf);
  EXPECT(other_range.start_id() == kLeaf && other_range.Prev());

  for (const Cell cell : {kLeaf, kOther}) {
    range.Seek(cell);
    Index::ContentsIterator contents(&index);
    contents.StartUnion(range);
    const bool is_empty = contents.done();
    Index::ContentsIterator other(std::move(contents));
    EXPECT(contents.done() && other.done() == is_empty);
    contents.StartUnion(range);
    EXPECT(contents.done() == is_empty && (is_empty || contents.labelled_cell() == other.labelled_cell()));
    contents = std::move(other);
    EXPECT(other.done() && contents.done() == is_empty);
    std::size_t given = 0;
    for (; !contents.done(); contents.Next()) given++;
    EXPECT(given == Visited(index, {cell}).size());
    contents = other;
    EXPECT(contents.done());
  }
}

// Whether a call is refused because the ranges have moved.
template <class Call>
bool IsStale(Call call) {
  try {
    call();
  } catch (const s2ix::Error& error) {
    return error.status() == S2IX_NO_RANGE && dynamic_cast<const s2ix::StaleIterator*>(&error) != nullptr &&
           std::string(error.what()).find("moved") != std::string::npos;
  }
  return false;
}

// What is left of a ContentsIterator.
Pairs Rest(Index::ContentsIterator& contents) {
  Pairs pairs;
  for (; !contents.done(); contents.Next()) pairs.emplace_back(contents.cell_id(), contents.label());
  return pairs;
}

// The ways in which an index changes: after each, iterators that were positioned before say so, and what they know stays.
void StaleIterators() {
  using Change = void (*)(Index&);
  const Change changes[] = {
      [](Index& index) { index.Add(kOther, 5), index.Build(); },
      [](Index& index) { index.index().drop_label(0); },
      [](Index& index) { index.index().undo(); },
      [](Index& index) { index.index().add(kLeaf, 7); },
      [](Index& index) { index.Clear(); },
      [](Index& index) { index = Zones(40); },
  };
  Index index = Zones(30);
  for (const Change change : changes) {
    Index::RangeIterator range(&index), sought(&index), unsought(&index);
    Index::NonEmptyRangeIterator full(&index);
    Index::ContentsIterator contents(&index), given(&index);
    unsought.Seek(kLeaf);
    sought.Seek(kLeaf);
    const Cell start = sought.start_id();
    full.Seek(kLeaf);
    range.Begin();
    const bool has_next = range.limit_id() != 0xc000000000000001;
    range.Next();
    given.StartUnion(full);
    const Pairs before = Visited(index, {start});
    change(index);
    EXPECT(IsStale([&] { range.Next(); }) == has_next && IsStale([&] { range.Prev(); }) && IsStale([&] { sought.Advance(0); }));
    EXPECT(IsStale([&] { (void)sought.is_empty(); }) && IsStale([&] { full.Prev(); }) && IsStale([&] { full.Next(); }));
    EXPECT(IsStale([&] { contents.StartUnion(sought); }) && contents.done() && IsStale([&] { contents.StartUnion(full); }));
    EXPECT(sought.start_id() == start && full.start_id() == start && !full.is_empty() && Rest(given) == before);
    // (a range that wasn't looked for yet is that of now, and an iterator that is positioned anew goes on)
    const Pairs now = Visited(index, {kLeaf});
    contents.StartUnion(unsought);
    EXPECT(Rest(contents) == now && unsought.is_empty() == now.empty());
    given.StartUnion(unsought);
    EXPECT(Rest(given) == now);
    range.Seek(kLeaf);
    contents.StartUnion(range);
    EXPECT(contents.done() && range.is_empty() == now.empty() && (range.Next(), true));
    contents.Clear();
    contents.StartUnion(unsought);
    EXPECT(Rest(contents) == now);
    if (index.num_cells() == 0) index = Zones(30);
  }
  Index::RangeIterator range(&index);
  range.Begin();
  range.Next();
  try {
    index.index().drop_label(1000);
    EXPECT(false);
  } catch (const s2ix::Error&) {
    // (an edit that is refused moves nothing)
    EXPECT(range.Prev() && !range.is_empty());
  }
  index.index().close();
  Index::ContentsIterator contents(&index);
  int closed = 0;
  const std::function<void()> calls[] = {[&] { range.Next(); }, [&] { range.Seek(kLeaf); }, [&] { contents.StartUnion(range); }};
  for (const auto& call : calls) {
    try {
      call();
    } catch (const s2ix::Error& error) {
      closed += error.status() == S2IX_CLOSED;
    }
  }
  EXPECT(closed == 3 && !range.done() && contents.done());
}

// A visit in a visit in a visit, each of several pages: none sees the rows of another.
void VisitsInVisits() {
  const Index index = Zones(1500);
  const Pairs over = Visited(index, {kLeaf}), under = Visited(index, {kFace});
  std::size_t outer = 0, whole = 0;
  EXPECT(index.VisitIntersectingCells(Target{kFace}, [&](Cell cell, int label) {
    EXPECT(under[outer++] == std::make_pair(cell, label));
    if (outer % 250 != 1) return true;
    std::size_t inner = 0;
    index.VisitIntersectingCells(Target{kLeaf}, [&](Cell inner_cell, int inner_label) {
      EXPECT(over[inner++] == std::make_pair(inner_cell, inner_label));
      if (inner % 300 != 1) return true;
      EXPECT(Visited(index, {kFirst}) == under && index.GetIntersectingLabels(Target{kFirst}).size() == 1500);
      return true;
    });
    whole += inner == over.size();
    return true;
  }));
  EXPECT(outer == under.size() && whole == (outer + 249) / 250);
}

// A visitor's exception ends the visit and goes on; then the index can be changed and visited again.
void VisitorsThatThrow() {
  Index index = Zones(1500);
  for (int most : {1, 1024, 1025, 1600}) {
    int visited = 0;
    const auto visit = [&](const Target& target) {
      index.VisitIntersectingCells(target, [&](Cell, int) -> bool { return ++visited < most ? true : throw most; });
    };
    for (const Cell cell : {kLeaf, kFace}) {
      visited = 0;
      try {
        visit({cell});
        EXPECT(false);
      } catch (int thrown) {
        EXPECT(thrown == most && visited == most);
      }
    }
    EXPECT(index.index().add(kOther, 5) == 1 && Visited(index, {kOther}).size() == 1 && index.index().undo() == 1);
    EXPECT(Visited(index, {kFace}).size() == 1715);
  }
}

// A CellIterator gives what was held when it was made, page after page, and so does a copy of it.
void CellsAsTheyWere() {
  for (int labels : {0, 1, 1023, 1024, 1025, 5000}) {
    Index index = Zones(labels);
    std::multiset<std::pair<Cell, int>> wanted, given, copied;
    for (const auto& pair : Visited(index, {kFace})) wanted.insert(pair);
    Index::CellIterator cells(&index);
    if (labels > 2) index.index().drop_label(2);
    index.Add(kOther, 1);
    index.Build();
    for (std::size_t k = 0; k < wanted.size() / 2; k++, cells.Next()) given.insert({cells.cell_id(), cells.label()});
    copied = given;
    for (Index::CellIterator copy = cells; !copy.done(); copy.Next()) copied.insert({copy.cell_id(), copy.label()});
    index.Clear();
    for (; !cells.done(); cells.Next()) given.insert({cells.cell_id(), cells.label()});
    EXPECT(given == wanted && copied == wanted);
  }
}

// Contents that don't lie in the iterator itself, and copies of it; and whether pairs lie over a range that was sought.
void ContentsOfSoughtRanges() {
  for (int labels : {1, 15, 16, 17, 64, 100, 1000}) {
    const Index index = Zones(labels);
    Index::RangeIterator range(&index), other(&index);
    range.Seek(kLeaf);
    other.Seek(kOther);
    Index::ContentsIterator contents(&index);
    contents.StartUnion(other);
    EXPECT(contents.done() && other.is_empty() && !range.is_empty() && !range.is_empty());
    contents.StartUnion(range);
    Pairs given, copied;
    const Index::ContentsIterator start = contents;
    for (; !contents.done(); contents.Next()) given.emplace_back(contents.cell_id(), contents.label());
    for (Index::ContentsIterator copy = start; !copy.done(); copy.Next()) copied.emplace_back(copy.cell_id(), copy.label());
    EXPECT(given == CopiesOf(index.index().at(kLeaf)) && copied == given);
    contents.StartUnion(range);
    EXPECT(contents.done());
    contents.Clear();
    contents.StartUnion(range);
    EXPECT(!contents.done() && contents.cell_id() == given[0].first);
  }
}

// The pairs over a leaf, by iterators.
Pairs Sought(const Index& index) {
  Index::RangeIterator range(&index);
  range.Seek(kLeaf);
  Index::ContentsIterator contents(&index);
  contents.StartUnion(range);
  return Rest(contents);
}

// Queries once more while the objects of its thread are destroyed.
struct Last {
  const Index* index = nullptr;
  std::size_t* visited = nullptr;

  ~Last() {
    if (index != nullptr) *visited = Visited(*index, {kFace}).size() + index->GetIntersectingLabels(Target{kFace}).size() + Sought(*index).size();
  }
};

thread_local Last last;

void AsAThreadEnds() {
  const Index index = Zones(70);
  std::size_t visited = 0;
  std::thread([&] {
    last.index = &index;
    last.visited = &visited;
    EXPECT(Visited(index, {kFace}).size() == 80 && index.GetIntersectingLabels(Target{kFace}).size() == 70 && Sought(index).size() == 80);
  }).join();
  EXPECT(visited == 230);
}

// An iterator goes on, and ends, on another thread than it was made on.
void OnAnotherThread() {
  const Index index = Zones(70);
  Index::RangeIterator range(&index);
  range.Seek(kLeaf);
  for (int turn = 0; turn < 2; turn++) {
    Index::ContentsIterator contents(&index);
    contents.StartUnion(range);
    std::thread([contents = std::move(contents), &index]() mutable {
      EXPECT(Rest(contents) == Visited(index, {kLeaf}));
      Index::ContentsIterator last(std::move(contents));
      EXPECT(contents.done() && last.done());
    }).join();
    EXPECT(Sought(index).size() == 80);
  }
}

}  // namespace

int main() {
  LeavesAsTargets();
  TargetsOfIds();
  ManyLabels();
  SetOfLabels();
  SetsAsStandardOnes();
  SetsOfLabelsElsewhere();
  CopiedIterators();
  MovedIterators();
  StaleIterators();
  VisitsInVisits();
  VisitorsThatThrow();
  CellsAsTheyWere();
  ContentsOfSoughtRanges();
  AsAThreadEnds();
  OnAnotherThread();
  return EndOfChecks();
}
