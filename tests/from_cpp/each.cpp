// Asks for many leaves and targets at once, beside single calls, and with -DWITH_S2 beside S2's own class. It ends with 'N passed, M failed',
// after a line for each wrong answer.
#include "checks.hpp"
#include "s2ix.hpp"

#include <algorithm>
#include <iostream>
#include <list>
#include <random>
#include <set>
#include <sstream>

#ifdef WITH_S2
#include <s2/s2cell_index.h>
#include <s2/s2cell_union.h>
#endif

namespace {

using Cell = std::uint64_t;
using List = std::vector<Cell>;
using Labels = std::vector<std::uint32_t>;

// Two neighbours on face 0, the face, a leaf below the first, a leaf elsewhere, and a number that is no cell's.
constexpr Cell kFirst = 0x0400000000000000, kSecond = 0x0c00000000000000, kFace = 0x1000000000000000, kLeaf = 0x0400000000000001;
constexpr Cell kOther = 0x3000000000000001, kNoCell = 6;

template <class Found>
bool AreRows(const Found& found, const std::vector<s2ix::Row>& wanted) {
  return found.size() == wanted.size() && std::equal(found.begin(), found.end(), wanted.begin(), [](const s2ix::Row& one, const s2ix::Row& other) {
           return one.cell == other.cell && one.label == other.label && one.count == other.count;
         });
}

template <class Found>
bool AreLabels(const Found& found, const Labels& wanted) {
  return std::equal(found.begin(), found.end(), wanted.begin(), wanted.end());
}

// What a call throws.
template <class Call>
s2ix::Error Thrown(Call call) {
  try {
    call();
  } catch (const s2ix::Error& error) {
    return error;
  }
  return s2ix::Error(S2IX_DONE);
}

// Whether a call is refused for a number at a place, and says so.
template <class Call>
bool Names(std::uint32_t status, Cell value, std::size_t place, Call call) {
  const s2ix::Error error = Thrown(call);
  std::ostringstream words;
  words << "s2ix: " << s2ix::status_text(status) << ": ";
  if (status == S2IX_NO_CELL) words << std::hex << "0x";
  words << value << std::dec << " at place " << place;
  return error.status() == status && error.value() == value && error.place() == place && error.what() == words.str();
}

// A cell of any level, often near others.
Cell SomeCell(std::mt19937_64& chance) {
  const Cell step = Cell{1} << (2 * (chance() % 31)), face = chance() % 4 == 0 ? chance() % 6 : 1;
  return (((face << 60 | ((chance() & chance() & chance()) >> 4)) / step) * 2 + 1) * step;
}

s2ix::Index SomeIndex(std::mt19937_64& chance, std::size_t many) {
  s2ix::Index index;
  for (std::size_t k = 0; k < many; k++) index.add(SomeCell(chance), static_cast<std::uint32_t>(chance() % 5), 1 + chance() % 3);
  return index;
}

List SomeLeaves(std::mt19937_64& chance, const s2ix::Index& index, std::size_t many) {
  const std::vector<s2ix::Row> rows = index.pairs(0, 1000);
  List leaves;
  for (std::size_t k = 0; k < many; k++) {
    const Cell cell = rows.empty() || chance() % 4 == 0 ? SomeCell(chance) : rows[chance() % rows.size()].cell;
    leaves.push_back(chance() % 2 == 0 ? s2ix::cell::range_min(cell) : s2ix::cell::range_max(cell));
    if (chance() % 8 == 0) leaves.push_back(leaves.front());
  }
  return leaves;
}

std::vector<List> SomeTargets(std::mt19937_64& chance, std::size_t many) {
  std::vector<List> targets(many);
  for (List& target : targets) {
    for (std::size_t k = chance() % 5; k > 0; k--) target.push_back(SomeCell(chance));
  }
  return targets;
}

// Each answer is that of the single call.
void BesideSingleCalls(std::mt19937_64& chance, std::size_t pairs, std::size_t many) {
  const s2ix::Index index = SomeIndex(chance, pairs);
  const List leaves = SomeLeaves(chance, index, many);
  const s2ix::RowsOfEach over = index.at_each(leaves);
  const s2ix::LabelsOfEach labels_over = index.labels_at_each(leaves);
  EXPECT(over.size() == leaves.size() && labels_over.size() == leaves.size() && over.ends == labels_over.ends);
  EXPECT(over.rows.size() == (leaves.empty() ? 0 : over.ends.back()) && labels_over.labels.size() == over.rows.size());
  for (std::size_t k = 0; k < leaves.size(); k++) {
    const std::vector<s2ix::Row> rows = index.at(leaves[k]);
    Labels labels;
    for (const s2ix::Row& row : rows) labels.push_back(row.label);
    EXPECT(AreRows(over[k], rows) && AreLabels(labels_over[k], labels));
  }
  const std::vector<List> targets = SomeTargets(chance, many);
  const s2ix::RowsOfEach met = index.meet_each(targets);
  const s2ix::LabelsOfEach labels_met = index.labels_each(targets);
  EXPECT(met.size() == targets.size() && labels_met.size() == targets.size());
  for (std::size_t k = 0; k < targets.size(); k++) {
    EXPECT(AreRows(met[k], index.meet(targets[k])) && AreLabels(labels_met[k], index.labels(targets[k])));
  }
}

// So many leaves in no order, under one pair or two each, that the library sorts them. The lists held nothing, or as much.
void WithManyLeaves(std::mt19937_64& chance) {
  s2ix::Index index;
  std::vector<s2ix::Row> rows = {{kFace, 9000, 1}};
  const std::uint64_t leaves_apart = std::uint64_t{1} << 33;
  for (std::uint32_t k = 0; k < 3000; k++) rows.push_back({k * leaves_apart + leaves_apart / 2, k % 70, 1});
  index.add_all(rows);
  List leaves;
  for (int k = 0; k < 30000; k++) leaves.push_back((chance() % (4000 * leaves_apart)) | 1);
  s2ix::RowsOfEach found;
  s2ix::LabelsOfEach labels;
  for (int turn = 0; turn < 2; turn++) {
    index.at_each(leaves, found);
    index.labels_at_each(leaves, labels);
    bool holds = found.size() == leaves.size() && labels.ends == found.ends && labels.labels.size() == found.rows.size();
    for (std::size_t k = 0; holds && k < leaves.size(); k++) {
      holds = AreRows(found[k], index.at(leaves[k])) && labels[k].size() == found[k].size() && *labels[k].begin() == found[k][0].label;
    }
    EXPECT(holds);
  }
}

// Leaves and targets with more pairs than there is room for at first, among others with few or none. The lists held nothing, or much.
void WithManyPairs() {
  s2ix::Index index;
  std::vector<s2ix::Row> rows;
  for (std::uint32_t label = 0; label < 3000; label++) rows.push_back({kFirst, label, 1});
  rows.push_back({kFace, 9000, 2});
  index.add_all(rows);
  s2ix::RowsOfEach found;
  s2ix::LabelsOfEach labels;
  for (const List& leaves : {List{kLeaf}, List{kOther, kSecond + 1, kLeaf}, List(1000, kSecond + 1), List{kLeaf, kSecond + 1, kLeaf, kOther}, List(300, kLeaf)}) {
    std::vector<List> targets;
    for (const Cell leaf : leaves) targets.push_back({leaf, kOther});
    index.at_each(leaves, found);
    index.labels_at_each(leaves, labels);
    EXPECT(found.size() == leaves.size() && labels.ends == found.ends);
    bool holds = true;
    for (std::size_t k = 0; k < leaves.size(); k++) holds = holds && AreRows(found[k], index.at(leaves[k])) && labels[k].size() == found[k].size();
    EXPECT(holds);
    index.meet_each(targets, found);
    index.labels_each(targets, labels);
    holds = found.size() == targets.size() && labels.ends == found.ends;
    for (std::size_t k = 0; k < leaves.size(); k++) holds = holds && AreRows(found[k], index.meet(targets[k])) && AreLabels(labels[k], index.labels(targets[k]));
    EXPECT(holds);
    // (targets of no cells before, so that a later call begins at the first cell)
    targets.insert(targets.begin(), 5, List());
    EXPECT(index.meet_each(targets).rows.size() == found.rows.size() && index.meet_each(targets)[4].empty());
  }
}

// A class of ids, as S2's.
struct SomeId {
  Cell id() const { return raw; }
  bool operator<(const SomeId& other) const { return raw < other.raw; }
  Cell raw;
};

// Leaves and targets in each form.
void InEachForm() {
  s2ix::Index index;
  index.add_all({{kFirst, 9, 1}, {kFace, 3, 1}});
  const List leaves = {kLeaf, kOther, kSecond + 1};
  const std::vector<std::size_t> ends = {2, 2, 3};
  EXPECT(index.at_each(leaves).ends == ends && index.at_each({kLeaf, kOther, kSecond + 1}).ends == ends);
  EXPECT(index.at_each({leaves.data(), leaves.size()}).ends == ends && index.at_each(s2ix::Cells(leaves)).ends == ends);
  EXPECT(index.at_each(std::list<SomeId>{{kLeaf}, {kOther}, {kSecond + 1}}).ends == ends);
  const s2ix::LabelsOfEach labels = index.labels_at_each(leaves);
  EXPECT(labels.labels == (Labels{9, 3, 3}) && labels[0].size() == 2 && labels[0][1] == 3 && labels[1].empty() && labels[2][0] == 3);
  std::uint32_t sum = 0;
  for (const std::uint32_t label : labels[0]) sum += label;
  EXPECT(sum == 12 && index.at_each(leaves)[0][0].cell == kFirst);
  EXPECT(index.at_each({}).size() == 0 && index.labels_at_each(List()).labels.empty());
  EXPECT(index.meet_each({}).size() == 0 && index.labels_each(std::vector<List>()).labels.empty() && index.meet_each(s2ix::Targets()).ends.empty());

  const List one = {kSecond, kFirst}, none;
  EXPECT(index.meet_each({{kSecond, kFirst}, {}, {kSecond}}).ends == ends && index.meet_each({one, none, {kSecond}}).ends == ends);
  EXPECT(index.meet_each(std::vector<List>{one, none, {kSecond}}).ends == ends);
  EXPECT(index.meet_each(std::list<std::set<SomeId>>{{{kSecond}, {kFirst}}, {}, {{kSecond}}}).ends == ends);
  EXPECT(index.meet_each(std::vector<s2ix::Cells>{one, none, {kSecond}}).ends == ends);
  const List row = {kSecond, kFirst, kSecond, kOther};
  const std::vector<std::size_t> bounds = {0, 2, 2, 3};
  EXPECT(index.meet_each({row.data(), row.size(), bounds.data(), bounds.size()}).ends == ends);
  const s2ix::Targets columns(row.data(), row.size(), bounds.data(), bounds.size()), copied = columns, own = std::vector<List>{one, none, {kSecond}}, kept = own;
  EXPECT(columns.cells() == row.data() && copied.bounds() == bounds.data() && own.size() == 3 && *own.bounds() == 0 && own.bounds()[3] == 3 && kept.cell_count() == 3 && kept.cells() != own.cells());
  EXPECT(index.meet_each(copied).ends == ends && index.meet_each(kept).ends == ends);
  EXPECT((index.labels_each(columns).labels == Labels{3, 9, 3}) && index.labels_each(columns).ends == ends);
  EXPECT(index.meet_each({nullptr, 0, nullptr, 0}).size() == 0 && index.meet_each({nullptr, 0, bounds.data(), 1}).size() == 0);
  const s2ix::Targets last(row.data(), row.size(), bounds.data() + 2, 2), empty = std::vector<List>();
  EXPECT(last.size() == 1 && index.labels_each(last).labels == (Labels{3}) && empty.size() == 0 && index.meet_each(empty).size() == 0);
  static_assert(!std::is_constructible_v<s2ix::Targets, std::string> && !std::is_constructible_v<s2ix::Targets, List>);
}

// What is refused, with its place, and that the lists are then empty.
void Refused() {
  s2ix::Index index;
  index.add(kFirst, 9);
  s2ix::RowsOfEach rows = index.at_each({kLeaf});
  s2ix::LabelsOfEach labels = index.labels_at_each({kLeaf});
  for (const Cell wrong : {kNoCell, kFirst, Cell{2}, ~Cell{0}}) {
    for (std::size_t place : {0, 1, 700}) {
      List leaves(place, kLeaf);
      leaves.insert(leaves.end(), {wrong, kLeaf, 8});
      EXPECT(Names(S2IX_NO_CELL, wrong, place, [&] { index.at_each(leaves, rows); }) && rows.ends.empty() && rows.rows.empty());
      EXPECT(Names(S2IX_NO_CELL, wrong, place, [&] { index.labels_at_each(leaves, labels); }) && labels.ends.empty() && labels.labels.empty());
      rows = index.at_each({kLeaf});
      labels = index.labels_at_each({kLeaf});
    }
  }
  const std::vector<List> targets = {{kFirst}, {}, {kFace, kNoCell, 8}, {8}};
  EXPECT(Names(S2IX_NO_CELL, kNoCell, 2, [&] { index.meet_each(targets, rows); }) && rows.ends.empty() && rows.rows.empty());
  EXPECT(Names(S2IX_NO_CELL, kNoCell, 2, [&] { index.labels_each(targets, labels); }) && labels.ends.empty() && labels.labels.empty());
  const List row = {kFirst, kSecond, kFace};
  for (const auto& [bounds, place] : {std::pair<std::vector<std::size_t>, std::size_t>{{0, 1, 4, 2}, 1}, {{0, 2, 1}, 1}, {{0, 4}, 0}, {{3, 2, 3}, 0}, {{4, 4}, 0},
                                      {{0, 3, ~std::size_t{0}}, 1}, {{1, 2, 3, 0, 9}, 2}}) {
    const s2ix::Targets wrong(row.data(), row.size(), bounds.data(), bounds.size());
    EXPECT(Names(S2IX_NO_SPAN, bounds[place + 1], place, [&] { (void)index.meet_each(wrong); }));
    EXPECT(Names(S2IX_NO_SPAN, bounds[place + 1], place, [&] { (void)index.labels_each(wrong); }));
  }
  index.close();
  const std::vector<List> targets_of_none;
  for (const s2ix::Error& error : {Thrown([&] { (void)index.at_each({kLeaf}); }), Thrown([&] { (void)index.labels_at_each({}); }),
                                   Thrown([&] { (void)index.meet_each({{kFirst}}); }), Thrown([&] { (void)index.labels_each({}); }),
                                   Thrown([&] { (void)index.meet_each({nullptr, 0, nullptr, 0}); }), Thrown([&] { (void)index.labels_each(targets_of_none); })}) {
    EXPECT(error.status() == S2IX_CLOSED && !error.value() && !error.place());
  }
}

// A target that is refused after a call that had too little room: its place is counted from the first target.
void RefusedLater() {
  s2ix::Index index;
  std::vector<s2ix::Row> many;
  for (std::uint32_t label = 0; label < 300; label++) many.push_back({kFirst, label, 1});
  index.add_all(many);
  std::vector<List> targets(50, List{kFirst, kSecond});
  targets.push_back({kSecond, kNoCell});
  EXPECT(Names(S2IX_NO_CELL, kNoCell, 50, [&] { (void)index.meet_each(targets); }));
  const List row(60, kFirst);
  std::vector<std::size_t> bounds;
  for (std::size_t k = 0; k <= 50; k++) bounds.push_back(k);
  for (const std::size_t wrong : {std::size_t{49}, std::size_t{0}, std::size_t{61}}) {
    bounds.resize(51);
    bounds.push_back(wrong);
    EXPECT(Names(S2IX_NO_SPAN, wrong, 50, [&] { (void)index.labels_each({row.data(), row.size(), bounds.data(), bounds.size()}); }));
  }
  List leaves(50, kLeaf);
  leaves.push_back(kNoCell);
  EXPECT(Names(S2IX_NO_CELL, kNoCell, 50, [&] { (void)index.at_each(leaves); }));
}

#ifdef WITH_S2
// Each answer has the pairs and labels that S2 gives for a leaf or a union: S2 gives a pair once for each copy.
void BesideS2(std::mt19937_64& chance, std::size_t pairs, std::size_t many) {
  const s2ix::Index index = SomeIndex(chance, pairs);
  S2CellIndex theirs;
  for (const s2ix::Row& row : index.pairs(0, 1000)) {
    for (std::uint32_t copy = 0; copy < row.count; copy++) theirs.Add(S2CellId(row.cell), static_cast<int>(row.label));
  }
  theirs.Build();
  std::vector<S2CellUnion> unions;
  std::vector<S2CellId> leaves;
  for (const Cell leaf : SomeLeaves(chance, index, many)) leaves.push_back(S2CellId(leaf));
  for (const List& target : SomeTargets(chance, many)) {
    std::vector<S2CellId> ids(target.size());
    std::transform(target.begin(), target.end(), ids.begin(), [](Cell cell) { return S2CellId(cell); });
    unions.push_back(S2CellUnion(ids));
  }
  const auto is_as_theirs = [&](const S2CellUnion& target, s2ix::Items<s2ix::Row> rows, s2ix::Items<std::uint32_t> labels) {
    std::multiset<std::pair<Cell, int>> our_pairs, their_pairs;
    for (const s2ix::Row& row : rows) {
      for (std::uint32_t copy = 0; copy < row.count; copy++) our_pairs.insert({row.cell, static_cast<int>(row.label)});
    }
    std::set<int> their_labels;
    theirs.VisitIntersectingCells(target, [&](S2CellId cell, int label) {
      their_labels.insert(label);
      return their_pairs.insert({cell.id(), label}), true;
    });
    return our_pairs == their_pairs && std::set<int>(labels.begin(), labels.end()) == their_labels;
  };
  const s2ix::RowsOfEach over = index.at_each(leaves), met = index.meet_each(unions);
  const s2ix::LabelsOfEach labels_over = index.labels_at_each(leaves), labels_met = index.labels_each(unions);
  for (std::size_t k = 0; k < leaves.size(); k++) EXPECT(is_as_theirs(S2CellUnion({leaves[k]}), over[k], labels_over[k]));
  for (std::size_t k = 0; k < unions.size(); k++) {
    EXPECT(is_as_theirs(unions[k], met[k], labels_met[k]) && std::is_sorted(labels_met[k].begin(), labels_met[k].end()));
  }
}
#endif

}  // namespace

int main() {
  std::mt19937_64 chance(45);
  for (const std::size_t pairs : {0, 1, 5, 60, 400}) {
    for (const std::size_t many : {0, 1, 3, 40, 500}) {
      BesideSingleCalls(chance, pairs, many);
#ifdef WITH_S2
      BesideS2(chance, pairs, many);
#endif
    }
  }
  WithManyLeaves(chance);
  WithManyPairs();
  InEachForm();
  Refused();
  RefusedLater();
  return EndOfChecks();
}
