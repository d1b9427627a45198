// Goes along the ranges of an S2CellIndex by its iterators, beside a plain model, and beside S2's own class if its headers are there. It ends
// with 'N passed, M failed', after a line for each wrong answer.
#include "checks.hpp"
#include "s2ix.hpp"

#include <algorithm>
#include <iostream>
#include <map>
#include <random>
#include <set>
#include <sstream>

#ifdef WITH_S2
#include <s2/s2cell_index.h>
#endif

namespace {

using Cell = std::uint64_t;
using Pair = std::pair<Cell, int>;
using Pairs = std::multiset<Pair>;

constexpr Cell kEnd = 0xc000000000000001;

Cell FirstLeaf(Cell cell) { return cell - (cell & -cell) + 1; }
Cell EndOf(Cell cell) { return std::min(cell + (cell & -cell) + 1, kEnd); }
int LevelOf(Cell cell) { return 30 - __builtin_ctzll(cell) / 2; }

// The plain model: a range starts at the first leaf of all, and where a cell begins or ends.
struct Model {
  explicit Model(const Pairs& its_pairs) : pairs(its_pairs) {
    std::set<Cell> bounds = {1, kEnd};
    for (const Pair& pair : pairs) bounds.insert({FirstLeaf(pair.first), EndOf(pair.first)});
    starts.assign(bounds.begin(), bounds.end());
  }

  std::size_t count() const { return starts.size() - 1; }

  // The pairs over the range at a place; of these only the ones that don't lie over the range at `told`, if there is one.
  Pairs Over(std::size_t place, std::ptrdiff_t told = -1) const {
    Pairs over;
    for (const Pair& pair : pairs) {
      const bool was_told = told >= 0 && FirstLeaf(pair.first) <= starts[told] && starts[told] < EndOf(pair.first);
      if (FirstLeaf(pair.first) <= starts[place] && starts[place] < EndOf(pair.first) && !was_told) over.insert(pair);
    }
    return over;
  }

  Pairs pairs;
  std::vector<Cell> starts;
};

// Some pairs in a corner of the sphere, many of them over one another, some of them twice.
Pairs SomePairs(std::mt19937_64& chance, std::size_t many) {
  Pairs pairs;
  while (pairs.size() < many) {
    const int level = static_cast<int>(chance() % 31);
    const Cell face = chance() % 4 == 0 ? chance() % 6 : 1, step = Cell{1} << (2 * (30 - level));
    Cell leaves = (chance() & chance() & chance()) >> 4;
    if (chance() % 3 == 0) leaves &= 0xff;
    const Cell cell = (((face << 60 | (leaves & ((Cell{1} << 60) - 1))) / step) * 2 + 1) * step;
    const Pair pair(cell, static_cast<int>(chance() % 3));
    for (Cell copy = chance() % 5 == 0 ? 2 : 1; copy > 0; copy--) pairs.insert(pair);
  }
  return pairs;
}

// A class of ids, as S2's.
struct SomeId {
  explicit SomeId(Cell raw = 0) : raw_(raw) {}
  Cell id() const { return raw_; }
  bool operator==(const SomeId& other) const { return raw_ == other.raw_; }
  bool operator!=(const SomeId& other) const { return raw_ != other.raw_; }
  bool operator<(const SomeId& other) const { return raw_ < other.raw_; }

 private:
  Cell raw_;
};

Cell RawOf(Cell id) { return id; }
template <class Id>
Cell RawOf(const Id& id) {
  return id.id();
}

// What is left of a ContentsIterator.
template <class Iterator>
Pairs Rest(Iterator& contents) {
  Pairs pairs;
  for (; !contents.done(); contents.Next()) pairs.insert({RawOf(contents.cell_id()), contents.label()});
  return pairs;
}

template <class Id>
using IndexOf = s2ix::BasicS2CellIndex<Id>;

template <class Index, class Id>
void Fill(Index& index, const Pairs& pairs) {
  for (const Pair& pair : pairs) index.Add(Id(pair.first), pair.second);
  index.Build();
}

template <class Iterator>
bool StandsAt(const Iterator& range, const Model& model, std::size_t place) {
  if (place == model.count()) return range.done() && range.is_empty() && RawOf(range.start_id()) == kEnd;
  return !range.done() && RawOf(range.start_id()) == model.starts[place] && RawOf(range.limit_id()) == model.starts[place + 1] &&
         range.is_empty() == model.Over(place).empty();
}

// All ranges, forwards and back, by leaps and by leaves.
template <class Id>
void AlongRanges(const IndexOf<Id>& index, const Model& model, std::mt19937_64& chance) {
  typename IndexOf<Id>::RangeIterator range(&index);
  std::size_t place = 0;
  for (range.Begin(); !range.done(); range.Next()) EXPECT(StandsAt(range, model, place++));
  EXPECT(place == model.count() && StandsAt(range, model, place));
  while (range.Prev()) EXPECT(StandsAt(range, model, --place));
  EXPECT(place == 0 && StandsAt(range, model, 0) && !range.Prev());
  for (int turn = 0; turn < 20; turn++) {
    const std::size_t step = chance() % (model.count() + 1);
    const bool within = place + step < model.count();
    EXPECT(range.Advance(static_cast<int>(step)) == within);
    if (within) place += step;
    EXPECT(StandsAt(range, model, place) && !range.Advance(-1));
    place = chance() % model.count();
    const Cell width = model.starts[place + 1] - model.starts[place];
    range.Seek(Id(model.starts[place] + 2 * (chance() % (width / 2))));
    EXPECT(StandsAt(range, model, place));
  }
  range.Finish();
  EXPECT(StandsAt(range, model, model.count()) && !range.Advance(0));
  REFUSED(S2IX_NO_CELL, range.Seek(Id(0x1000000000000000)));
  EXPECT(StandsAt(range, model, model.count()));
}

template <class Id>
void AlongFullRanges(const IndexOf<Id>& index, const Model& model, std::mt19937_64& chance) {
  std::vector<std::size_t> full;
  for (std::size_t place = 0; place < model.count(); place++) {
    if (!model.Over(place).empty()) full.push_back(place);
  }
  typename IndexOf<Id>::NonEmptyRangeIterator range(&index);
  std::size_t turn = 0;
  for (range.Begin(); !range.done(); range.Next()) EXPECT(StandsAt(range, model, full[turn++]));
  EXPECT(turn == full.size() && StandsAt(range, model, model.count()));
  while (range.Prev()) EXPECT(StandsAt(range, model, full[--turn]));
  EXPECT(turn == 0 && StandsAt(range, model, full.empty() ? model.count() : full[0]));
  for (int seek = 0; seek < 20; seek++) {
    const std::size_t place = chance() % model.count();
    range.Seek(Id(model.starts[place]));
    const auto next = std::lower_bound(full.begin(), full.end(), place);
    EXPECT(StandsAt(range, model, next == full.end() ? model.count() : *next));
  }
}

// Contents in order, each pair once; then ranges in any order, some of which are left before their end.
template <class Id>
void AlongContents(const IndexOf<Id>& index, const Model& model, std::mt19937_64& chance) {
  typename IndexOf<Id>::RangeIterator range(&index);
  typename IndexOf<Id>::ContentsIterator contents(&index);
  EXPECT(contents.done());
  Pairs all;
  std::ptrdiff_t told = -1;
  for (range.Begin(); !range.done(); range.Next(), told++) {
    contents.StartUnion(range);
    const Pairs fresh = Rest(contents);
    EXPECT(fresh == model.Over(static_cast<std::size_t>(told + 1), told));
    all.insert(fresh.begin(), fresh.end());
  }
  EXPECT(all == model.pairs);
  contents.StartUnion(range);
  EXPECT(contents.done());
  typename IndexOf<Id>::ContentsIterator other;
  other.Init(&index);
  std::size_t last = 0;
  told = -1;
  for (int turn = 0; turn < 60; turn++) {
    const std::size_t place = turn % 3 == 0 ? chance() % model.count() : std::min(last + chance() % 3, model.count() - 1);
    if (chance() % 10 == 0) other.Clear(), told = -1, last = 0;
    if (place < last) told = -1;
    if (chance() % 2 == 0) {
      // (a leaf of the range, which is looked for by StartUnion)
      range.Seek(Id(model.starts[place] + 2 * (chance() % ((model.starts[place + 1] - model.starts[place]) / 2))));
    } else {
      range.Begin();
      EXPECT(range.Advance(static_cast<int>(place)));
    }
    other.StartUnion(range);
    const Pairs wanted = model.Over(place, told);
    EXPECT(other.done() == wanted.empty());
    last = place;
    if (chance() % 4 == 0 && !wanted.empty()) {
      EXPECT(wanted.count({RawOf(other.labelled_cell().cell_id), other.label()}) > 0);
      continue;
    }
    EXPECT(Rest(other) == wanted);
    if (!wanted.empty()) told = static_cast<std::ptrdiff_t>(place);
  }
}

// The calls of Index on ranges, and pages of a visit.
void ByPlace(const s2ix::Index& index, const Model& model, std::mt19937_64& chance) {
  EXPECT(index.range_count() == model.count());
  for (std::size_t place = 0; place < model.count(); place++) {
    const s2ix::Range range = index.range(place);
    EXPECT(range.place == place && range.start == model.starts[place] && range.limit == model.starts[place + 1]);
    EXPECT(index.is_empty(place) == model.Over(place).empty());
    std::vector<s2ix::Row> rows = index.contents(place);
    EXPECT(std::is_sorted(rows.begin(), rows.end(), [](const s2ix::Row& one, const s2ix::Row& next) {
      return std::make_pair(-LevelOf(one.cell), one.label) < std::make_pair(-LevelOf(next.cell), next.label);
    }));
    const std::vector<s2ix::Row> at = index.at(range.start);
    EXPECT(rows.size() == at.size() && std::equal(rows.begin(), rows.end(), at.begin(), [](const s2ix::Row& one, const s2ix::Row& other) {
      return one.cell == other.cell && one.label == other.label && one.count == other.count;
    }));
  }
  REFUSED(S2IX_NO_RANGE, index.range(model.count()));
  REFUSED(S2IX_NO_RANGE, index.is_empty(model.count()));
  std::vector<s2ix::Row> rows(3);
  REFUSED(S2IX_NO_RANGE, index.contents(model.count(), 0, rows));
  EXPECT(rows.empty());
  const std::vector<Cell> target = {0x3000000000000000, 0x1000000000000000};
  const std::vector<s2ix::Row> met = index.meet(target);
  for (int turn = 0; turn < 10; turn++) {
    const std::size_t from = chance() % (met.size() + 2), most = chance() % (met.size() + 2);
    const std::vector<s2ix::Row> page = index.meet_from(target, from, most);
    EXPECT(page.size() == (from > met.size() ? 0 : std::min(most, met.size() - from)));
    for (std::size_t k = 0; k < page.size(); k++) EXPECT(page[k].cell == met[from + k].cell && page[k].label == met[from + k].label);
  }
}

#ifdef WITH_S2
// Steps of all iterators at once, of ours and of S2's; `pairs` are those that both hold.
void BesideS2(const Pairs& pairs, std::mt19937_64& chance) {
  IndexOf<S2CellId> ours;
  S2CellIndex theirs;
  Fill<IndexOf<S2CellId>, S2CellId>(ours, pairs);
  Fill<S2CellIndex, S2CellId>(theirs, pairs);
  EXPECT(ours.num_cells() == theirs.num_cells());
  IndexOf<S2CellId>::RangeIterator our_range(&ours);
  S2CellIndex::RangeIterator their_range(&theirs);
  IndexOf<S2CellId>::NonEmptyRangeIterator our_full(&ours);
  S2CellIndex::NonEmptyRangeIterator their_full(&theirs);
  IndexOf<S2CellId>::ContentsIterator our_contents(&ours);
  S2CellIndex::ContentsIterator their_contents(&theirs);
  const auto both = [&](auto step) {
    step(our_range, their_range);
    EXPECT(our_range.done() == their_range.done() && our_range.start_id() == their_range.start_id() && our_range.is_empty() == their_range.is_empty());
    step(our_full, their_full);
    EXPECT(our_full.done() == their_full.done() && our_full.start_id() == their_full.start_id() && our_full.is_empty() == their_full.is_empty());
    if (!our_range.done()) EXPECT(our_range.limit_id() == their_range.limit_id());
  };
  both([](auto& our, auto& their) { our.Begin(), their.Begin(); });
  for (int turn = 0; turn < 400; turn++) {
    const Cell drawn = chance();
    const auto pair = std::next(pairs.begin(), static_cast<std::ptrdiff_t>(drawn % pairs.size()));
    const S2CellId leaf = S2CellId(pair->first).range_min();
    switch (drawn >> 32 & 7) {
      case 0: both([&](auto& our, auto& their) { our.Seek(leaf), their.Seek(leaf); }); break;
      case 1: both([](auto& our, auto& their) { EXPECT(our.Prev() == their.Prev()); }); break;
      case 2: if (drawn % 9 == 0) both([](auto& our, auto& their) { our.Finish(), their.Finish(); }); break;
      case 3: if (drawn % 9 == 0) our_contents.Clear(), their_contents.Clear(); break;
      case 4:
        if (!our_range.done()) EXPECT(our_range.Advance(static_cast<int>(drawn % 5)) == their_range.Advance(static_cast<int>(drawn % 5)));
        break;
      default:
        both([](auto& our, auto& their) { if (!our.done()) our.Next(), their.Next(); });
    }
    if (drawn % 2 == 0) our_contents.StartUnion(our_range), their_contents.StartUnion(their_range);
    if (drawn % 2 != 0) our_contents.StartUnion(our_full), their_contents.StartUnion(their_full);
    EXPECT(our_contents.done() == their_contents.done());
    if (drawn % 5 != 0) EXPECT(Rest(our_contents) == Rest(their_contents));
  }
  const S2CellUnion target({S2CellId(pairs.begin()->first), S2CellId(pairs.rbegin()->first)});
  Pairs our_visit, their_visit;
  ours.VisitIntersectingCells(target, [&](S2CellId cell, int label) { return our_visit.insert({cell.id(), label}), true; });
  theirs.VisitIntersectingCells(target, [&](S2CellId cell, int label) { return their_visit.insert({cell.id(), label}), true; });
  EXPECT(our_visit == their_visit);
  // (what programs do with S2's set of labels)
  absl::flat_hash_set<int> labels = ours.GetIntersectingLabels(target), into = {-1};
  EXPECT(labels == theirs.GetIntersectingLabels(target) && ours.GetIntersectingLabels(target) == theirs.GetIntersectingLabels(target));
  ours.GetIntersectingLabels(target, &into);
  EXPECT(into == labels && theirs.GetIntersectingLabels(target) == ours.GetIntersectingLabels(target));
  labels = ours.GetIntersectingLabels(S2CellUnion());
  EXPECT(labels.empty() && !into.empty() && (into = ours.GetIntersectingLabels(S2CellUnion()), into == labels));
  const IndexOf<S2CellId>::CellVisitor visitor = [&](S2CellId cell, int label) { return our_visit.erase({cell.id(), label}), true; };
  EXPECT(ours.VisitIntersectingCells(target, visitor) && our_visit.empty());
  Pairs met;
  for (const s2ix::Row& row : ours.index().meet(target)) {
    for (std::uint32_t copy = 0; copy < row.count; copy++) met.insert({row.cell, static_cast<int>(row.label)});
  }
  EXPECT(met == their_visit);
  s2ix::Index index;
  EXPECT(index.add(target[0], 1) == 1 && index.add_union(target, 2) == target.size() && index.count(target[0], 2) == 1);
  EXPECT(index.meet(target.cell_ids()).size() == 1 + target.size() && index.labels({target[0]}) == index.labels(target));
  std::ostringstream our_text, their_text;
  our_text << IndexOf<S2CellId>::LabelledCell(target[0], 7) << IndexOf<S2CellId>::LabelledCell();
  their_text << S2CellIndex::LabelledCell(target[0], 7) << S2CellIndex::LabelledCell();
  EXPECT(our_text.str() == their_text.str());
}
#endif

template <class Id>
void Compared(const Pairs& pairs, std::mt19937_64& chance) {
  const Model model(pairs);
  IndexOf<Id> index;
  Fill<IndexOf<Id>, Id>(index, pairs);
  AlongRanges<Id>(index, model, chance);
  AlongFullRanges<Id>(index, model, chance);
  AlongContents<Id>(index, model, chance);
  ByPlace(index.index(), model, chance);
}

// A visit of more pairs than one page has, which is stopped at each length, and not.
void VisitedInPages() {
  IndexOf<Cell> index;
  for (int label = 0; label < 1500; label++) index.Add(0x3000000000000000, label);
  for (int most : {0, 1, 255, 256, 257, 1279, 1280, 1281, 1499, 1500, 2000}) {
    int visited = 0;
    const bool whole = index.VisitIntersectingCells(std::vector<Cell>{0x3000000000000000}, [&](Cell, int label) {
      EXPECT(label == visited);
      return ++visited < most;
    });
    EXPECT(whole == (most > 1500) && visited == std::min(std::max(most, 1), 1500));
  }
}

// Iterators before they are positioned, and what an edit does to one.
void Unpositioned() {
  IndexOf<Cell> index;
  IndexOf<Cell>::RangeIterator range(&index);
  EXPECT(range.done() && range.is_empty() && range.start_id() == kEnd && !range.Prev());
  range.Next();
  EXPECT(range.done() && !range.Advance(0) && range.done());
  range.Begin();
  index.Add(0x1000000000000000, 4);
  range.Begin();
  EXPECT(range.is_empty());
  index.Build();
  range.Begin();
  EXPECT(range.start_id() == 1 && range.limit_id() == 0x2000000000000001 && !range.is_empty());
  IndexOf<Cell>::ContentsIterator contents(&index);
  contents.StartUnion(range);
  EXPECT(contents.labelled_cell() == IndexOf<Cell>::LabelledCell(0x1000000000000000, 4));
  index.Clear();
  EXPECT(contents.cell_id() == 0x1000000000000000 && contents.label() == 4);
}

}  // namespace

int main() {
  std::mt19937_64 chance(44);
  for (std::size_t many : {0, 1, 2, 5, 20, 60}) {
    for (int turn = 0; turn < 4; turn++) {
      const Pairs pairs = SomePairs(chance, many);
      Compared<Cell>(pairs, chance);
      Compared<SomeId>(pairs, chance);
#ifdef WITH_S2
      if (!pairs.empty()) BesideS2(pairs, chance);
#endif
    }
  }
  VisitedInPages();
  Unpositioned();
  return EndOfChecks();
}
