// Changes that are given entry by entry, rows that are removed at once, labels that get other cells or those that they had, changes that
// can't be taken back, and what follows from two indexes or from a change on. It ends with 'N passed, M failed', after a line for each wrong answer.
#include "checks.hpp"
#include "s2ix.hpp"

#include <iostream>

namespace {

#define REFUSED_AT(why, where, call) EXPECT(IsAt(why, where, Thrown([&] { (void)(call); })))

// What a call throws.
template <class Call>
s2ix::Error Thrown(Call call) {
  try {
    call();
  } catch (const s2ix::Error& error) {
    return error;
  }
  return s2ix::Error(S2IX_DONE);
}

// Whether an error is of an item at a place, of which no number is wrong by itself, and says so.
bool IsAt(std::uint32_t status, std::size_t place, const s2ix::Error& error) {
  return error.status() == status && error.place() == place && !error.value() && error.change() == 0 && error.entry() == 0 &&
         error.what() == "s2ix: " + s2ix::status_text(status) + " at place " + std::to_string(place);
}

// Two neighbours on face 0, the face, a leaf below the first, and numbers that are no cell's and no label's.
constexpr std::uint64_t kFirst = 0x0400000000000000, kSecond = 0x0c00000000000000, kFace = 0x1000000000000000, kLeaf = 0x0400000000000001;
constexpr std::uint64_t kThird = 0x1400000000000000, kFourth = 0x1c00000000000000, kNoCell = 6;
constexpr std::uint32_t kNoLabel = 2147483648;
using Cells = std::vector<std::uint64_t>;

bool IsEntry(const s2ix::Entry& entry, std::uint64_t cell, std::uint32_t label, std::uint32_t before, std::uint32_t after) {
  return entry.cell == cell && entry.label == label && entry.before == before && entry.after == after;
}

bool AreSame(const std::vector<s2ix::Entry>& first, const std::vector<s2ix::Entry>& second) {
  return std::equal(first.begin(), first.end(), second.begin(), second.end(), [](const s2ix::Entry& one, const s2ix::Entry& other) {
    return IsEntry(one, other.cell, other.label, other.before, other.after);
  });
}

// All that an index shows.
std::string Shown(const s2ix::Index& index) { return index.dump() + index.journal() + std::to_string(index.undone_count()); }

// The rows of a label, and those of all others, as texts.
std::string DumpOf(const s2ix::Index& index, std::uint32_t label, bool is_wanted = true) {
  std::string text;
  for (const s2ix::Row& row : index.pairs(0, index.len())) {
    if ((row.label == label) != is_wanted) continue;
    text += s2ix::cell::to_token(row.cell) + " " + std::to_string(row.label) + " " + std::to_string(row.count) + "\n";
  }
  return text;
}
std::string DumpWithout(const s2ix::Index& index, std::uint32_t label) { return DumpOf(index, label, false); }

void SetsLabels() {
  s2ix::Index index(s2ix::Limits{3, 9, 3});
  index.add_all({{kFirst, 1, 3}, {kFace, 1, 1}, {kFirst, 2, 1}});
  index.remove(kFirst, 2);
  index.undo();
  const std::string dump = index.dump(), shown = Shown(index);
  REFUSED(S2IX_NO_LABEL, index.set_label(kNoLabel, {kNoCell}));
  REFUSED(S2IX_NO_CELL, index.set_label(1, {kFirst, kNoCell}));
  REFUSED(S2IX_NO_SUCH_LABEL, index.set_label(3, {}));
  REFUSED(S2IX_NO_CHANGE, index.set_label(2, {kFirst, kFirst}));
  REFUSED(S2IX_TOO_MANY_PAIRS, index.set_label(1, {kFirst, kSecond, kThird}));
  EXPECT(Shown(index) == shown);
  EXPECT(index.set_label(1, {kFirst}) == 2 && index.count(kFirst, 1) == 1 && index.len() == 2 && index.done_count() == 2);
  EXPECT(index.undo() == 2 && index.dump() == dump);
  EXPECT(index.set_label(1, {kLeaf, kSecond, kSecond}) == 4 && index.region(1) == (Cells{kLeaf, kSecond}));
  EXPECT(index.set_label(1, {kFourth, kSecond, kThird, kFirst}) == 3 && index.count(kFace, 1) == 1);
  REFUSED(S2IX_JOURNAL_FULL, index.set_label(1, {kFirst}));
  REFUSED(S2IX_JOURNAL_FULL, index.set_label(1, {kFace}));
  REFUSED(S2IX_JOURNAL_FULL, index.set_label(1, {}));
  index.forget();
  EXPECT(index.set_label(1, {}) == 1 && index.region(1).empty() && index.undo() == 1 && index.count(kFace, 1) == 1);
  index.clear();
  s2ix::Index many;
  Cells leaves;
  for (std::uint64_t k = 0; k < 500; k++) leaves.push_back(kLeaf + 16 * k);
  EXPECT(many.set_label(4, leaves) == 500 && many.region(4) == leaves && many.done_count() == 1);
  leaves.erase(leaves.begin() + 100, leaves.begin() + 400);
  EXPECT(many.set_label(4, leaves) == 300 && many.region(4) == leaves && many.undo() == 300 && many.len() == 500);
}

void RestoresLabels() {
  s2ix::Index index(s2ix::Limits{4, 9, 6});
  index.add_all({{kFirst, 1, 3}, {kFace, 1, 1}, {kFirst, 2, 1}});
  index.set_label(1, {kSecond});
  index.add_all({{kFirst, 1, 1}, {kFirst, 2, 1}});
  index.add(kThird, 1);
  index.undo();
  const std::string shown = Shown(index);
  REFUSED(S2IX_NO_LABEL, index.restore(kNoLabel, 9));
  REFUSED(S2IX_NO_SUCH_CHANGE, index.restore(1, 0));
  REFUSED(S2IX_NO_SUCH_CHANGE, index.restore(1, 4));
  REFUSED(S2IX_NO_SUCH_CHANGE, index.restore(1, 4294967295));
  REFUSED(S2IX_NO_CHANGE, index.restore(7, 1));
  EXPECT(Shown(index) == shown);
  EXPECT(index.restore(1, 2) == 3 && index.count(kFirst, 1) == 3 && index.count(kFace, 1) == 1 && index.count(kSecond, 1) == 0);
  EXPECT(index.count(kFirst, 2) == 2 && index.done_count() == 4 && index.undone_count() == 0);
  // (it had nothing before the first change, and has now what it had before the third but for its own change)
  REFUSED(S2IX_NO_CHANGE, index.restore(1, 2));
  EXPECT(index.restore(1, 1) == 2 && index.region(1).empty() && index.restore(1, 4) == 2 && index.region(1) == (Cells{kFirst, kSecond}));
  EXPECT(index.undo() == 2 && index.undo() == 2 && index.undo() == 3 && index.count(kSecond, 1) == 1);
  index.redo();
  index.add(kFace, 5);
  index.add(kFace, 5);
  REFUSED(S2IX_JOURNAL_FULL, index.restore(1, 0));
  REFUSED(S2IX_JOURNAL_FULL, index.restore(7, 1));
  REFUSED(S2IX_NO_LABEL, index.restore(kNoLabel, 1));
  index.forget();
  REFUSED(S2IX_NO_SUCH_CHANGE, index.restore(1, 1));
}

// What a label had before each of many changes is what it gets. The limits of what a store holds are those of an edit.
void RestoresAnyMoment() {
  s2ix::Index index;
  std::vector<s2ix::Index> moments;
  std::uint64_t chance = 7;
  const auto below = [&](std::uint64_t end) { return (chance = chance * 6364136223846793005 + 1442695040888963407) / 4294967296 % end; };
  for (int step = 0; step < 400; step++) {
    const std::uint64_t cell = kLeaf + 2 * below(40);
    const auto label = static_cast<std::uint32_t>(below(4));
    moments.push_back(index.copy());
    if (below(3) > 0 || index.count(cell, label) == 0) {
      index.add(cell, label, static_cast<std::uint32_t>(1 + below(3)));
    } else if (below(2) > 0) {
      index.remove(cell, label);
    } else {
      index.set_label(label, {cell, cell + 2});
    }
  }
  for (std::uint32_t moment = 1; moment <= moments.size(); moment += 3) {
    const auto label = static_cast<std::uint32_t>(below(4));
    const std::string wanted = DumpOf(moments[moment - 1], label), others = DumpWithout(index, label);
    const bool differs = DumpOf(index, label) != wanted;
    REFUSED(differs ? S2IX_DONE : S2IX_NO_CHANGE, index.restore(label, moment));
    EXPECT(DumpOf(index, label) == wanted && DumpWithout(index, label) == others);
    if (differs) index.undo();
  }
  s2ix::Index full(s2ix::Limits{2, 9, 9});
  full.add_union({kFirst, kSecond}, 1);
  full.set_label(1, {kThird});
  full.add(kThird, 2);
  REFUSED(S2IX_TOO_MANY_PAIRS, full.restore(1, 2));
  EXPECT(full.done_count() == 3 && full.restore(2, 3) == 1 && full.restore(1, 2) == 3);
}

// Whether a change can't be taken back for a pair, of which some copies are held, and says which later change took others.
bool IsTaken(s2ix::Index& index, std::uint32_t change, std::uint64_t cell, std::uint32_t label, std::uint32_t held, std::size_t later) {
  const s2ix::Error error = Thrown([&] { index.revert(change); });
  const std::string words = ": change " + std::to_string(later) + " took copies of " + s2ix::cell::to_token(cell) + " under " +
                            std::to_string(label) + " that change " + std::to_string(change) + " had added";
  return error.status() == S2IX_BELOW_ZERO && error.pair() && error.pair()->cell == cell && error.pair()->label == label &&
         error.pair()->count == held && error.change() == change && error.later() == later && !error.value() && !error.place() &&
         error.entry() == 0 && error.what() == "s2ix: " + s2ix::status_text(S2IX_BELOW_ZERO) + words;
}

void TellsWhatTook() {
  s2ix::Index index;
  index.add_all({{kFirst, 7, 2}, {kSecond, 5, 3}, {kSecond, 7, 3}, {kFace, 1, 1}});
  index.remove(kSecond, 7, 2);
  index.add(kSecond, 7, 2);
  index.remove(kSecond, 7);
  index.remove(kSecond, 7);
  index.remove(kFace, 1);
  index.add(kFirst, 3);
  const std::string shown = Shown(index);
  EXPECT(IsTaken(index, 1, kSecond, 7, 1, 4) && Shown(index) == shown);
  index.add(kSecond, 7, 2);
  EXPECT(IsTaken(index, 1, kFace, 1, 0, 6));
  index.add(kFace, 1);
  EXPECT(index.revert(1) == 4 && index.len() == 1);
  EXPECT(IsTaken(index, 1, kFirst, 7, 0, 10));
  EXPECT(IsTaken(index, 3, kSecond, 7, 0, 10));
  // (a change that took copies gives them back, whatever is held)
  EXPECT(index.revert(2) == 1 && index.count(kSecond, 7) == 2);
  const s2ix::Error other = Thrown([&] { index.revert(99); });
  EXPECT(other.status() == S2IX_NO_SUCH_CHANGE && !other.pair() && other.change() == 0 && other.later() == 0);
  s2ix::Index many;
  for (std::uint64_t k = 0; k < 300; k++) many.add_all({{kLeaf + 2 * k, 1, 1}, {kLeaf + 2 * k, 2, 1}});
  many.join(300);
  for (std::uint64_t k = 299; k > 0; k--) many.remove(kLeaf + 2 * k, 2);
  EXPECT(IsTaken(many, 1, kLeaf + 2, 2, 0, 300));
}

void Recorded() {
  s2ix::Index index(s2ix::Limits{3, 9, 2});
  const std::vector<s2ix::Entry> entries = {{kFirst, 9, 0, 2}, {kSecond, 9, 0, 1}, {kFace, 3, 0, 1}};
  EXPECT(index.record(entries) == 3 && AreSame(index.change(1), entries) && index.done_count() == 1 && index.undo() == 3);
  const std::string shown = Shown(index);
  const s2ix::Entry first = entries[0];
  REFUSED(S2IX_NO_CHANGE, index.record({}));
  REFUSED(S2IX_NO_CHANGE, index.record(nullptr, 0));
  const s2ix::Error no_cell = Thrown([&] { index.record({first, {kNoCell, 9, 0, 1}, {kNoCell, 9, 0, 1}}); });
  EXPECT(no_cell.status() == S2IX_NO_CELL && no_cell.value() == kNoCell && no_cell.place() == 1);
  const s2ix::Error no_label = Thrown([&] { index.record({{kFirst, kNoLabel, 0, 1}}); });
  EXPECT(no_label.status() == S2IX_NO_LABEL && no_label.value() == kNoLabel && no_label.place() == 0);
  REFUSED_AT(S2IX_UNSORTED, 1, index.record({entries[1], first}));
  REFUSED_AT(S2IX_UNSORTED, 2, index.record({first, entries[1], entries[1]}));
  REFUSED_AT(S2IX_NO_DIFFERENCE, 1, index.record({first, {kSecond, 9, 1, 1}, {kFace, 9, 1, 2}}));
  REFUSED_AT(S2IX_MISMATCH, 1, index.record({first, {kSecond, 9, 1, 2}}));
  REFUSED(S2IX_TOO_MANY_COPIES, index.record({{kFirst, 9, 0, 10}}));
  REFUSED(S2IX_TOO_MANY_PAIRS, index.record({{kFirst, 1, 0, 1}, {kFirst, 2, 0, 1}, {kFirst, 3, 0, 1}, {kFirst, 4, 0, 1}}));
  EXPECT(Shown(index) == shown);
  EXPECT(index.record(entries.data(), 1) == 1 && index.undone_count() == 0 && index.len() == 1);
  index.add(kFirst, 9);
  REFUSED(S2IX_JOURNAL_FULL, index.record({}));
}

void RemovedAtOnce() {
  s2ix::Index index(s2ix::Limits{9, 9, 3});
  index.add_all({{kFirst, 9, 3}, {kSecond, 9, 1}});
  EXPECT(index.remove_all({{kSecond, 9, 1}, {kFirst, 9, 1}, {kFirst, 9, 1}, {kFace, 1, 0}}) == 2 && index.len() == 1 && index.count(kFirst, 9) == 1);
  EXPECT(index.undo() == 2);
  const std::string shown = Shown(index);
  REFUSED(S2IX_NO_CHANGE, index.remove_all({}));
  const s2ix::Error no_cell = Thrown([&] { index.remove_all({{kFirst, 9, 1}, {kNoCell, 9, 1}}); });
  EXPECT(no_cell.status() == S2IX_NO_CELL && no_cell.value() == kNoCell && no_cell.place() == 1);
  const s2ix::Error no_label = Thrown([&] { index.remove_all({{kFirst, 9, 9}, {kFirst, kNoLabel, 1}}); });
  EXPECT(no_label.status() == S2IX_NO_LABEL && no_label.value() == kNoLabel && no_label.place() == 1);
  REFUSED_AT(S2IX_NOT_HELD, 2, index.remove_all({{kFirst, 9, 2}, {kSecond, 9, 1}, {kFirst, 9, 2}, {kSecond, 9, 1}}));
  REFUSED_AT(S2IX_NOT_HELD, 0, index.remove_all({{kSecond, 3, 1}}));
  EXPECT(Shown(index) == shown);
  const std::vector<s2ix::Row> rows = index.meet({kFace});
  EXPECT(index.remove_all(rows.data(), 1) == 1 && index.len() == 1 && index.remove_all(index.meet({kFace})) == 1 && index.len() == 0);
  REFUSED(S2IX_JOURNAL_FULL, index.remove_all({}));
}

void JournalsFromAChange() {
  s2ix::Index index, follower;
  for (std::uint32_t label = 0; label < 40; label++) {
    index.add_all({{kFirst, label, 1}, {kSecond, label, 2}});
    if (label % 3 == 0) continue;
    follower.apply(index.journal_from(static_cast<std::uint32_t>(follower.done_count()) + 1));
    EXPECT(Shown(follower) == Shown(index));
  }
  EXPECT(index.journal_from(1) == index.journal() && index.journal_from(41) == "s2ix-journal 2\nend 0\n");
  EXPECT(index.journal_from(40) == "s2ix-journal 2\nchange 2\n04 39 0 1\n0c 39 0 2\nend 1\n");
  for (std::uint32_t change : {0u, 42u, 4294967295u}) REFUSED(S2IX_NO_SUCH_CHANGE, index.journal_from(change));
}

void Differs() {
  s2ix::Index index, other;
  index.add_all({{kFirst, 9, 2}, {kSecond, 9, 1}});
  other.add_all({{kFirst, 9, 1}, {kSecond, 9, 1}, {kFirst, 3, 7}});
  const std::vector<s2ix::Entry> entries = index.difference(other);
  EXPECT(entries.size() == 2 && IsEntry(entries[0], kFirst, 3, 0, 7) && IsEntry(entries[1], kFirst, 9, 2, 1));
  EXPECT(index.record(entries) == 2 && index.dump() == other.dump() && index.done_count() == 2);
  EXPECT(index.difference(other).empty() && index.difference(index).empty());
  other.close();
  REFUSED(S2IX_CLOSED, index.difference(other));
  REFUSED(S2IX_CLOSED, other.difference(index));
}

void HoldsLabels() {
  s2ix::Index index;
  EXPECT(index.held_labels().empty());
  index.add_all({{kFirst, 9, 4294967295}, {kSecond, 9, 4294967295}, {kFirst, 0, 1}});
  std::vector<s2ix::HeldLabel> labels(7);
  index.held_labels(labels);
  EXPECT(labels.size() == 2 && labels[0].label == 0 && labels[0].pairs == 1 && labels[0].copies == 1);
  EXPECT(labels[1].label == 9 && labels[1].pairs == 2 && labels[1].copies == 8589934590);
  for (std::uint32_t label = 10; label < 300; label++) index.add(kFace, label);
  EXPECT(index.held_labels().size() == 292 && index.held_labels().back().label == 299);
}

void Closed() {
  s2ix::Index index;
  index.close();
  std::vector<s2ix::HeldLabel> labels(3);
  REFUSED(S2IX_CLOSED, index.set_label(1, {kFirst}));
  REFUSED(S2IX_CLOSED, index.set_label(1, {}));
  REFUSED(S2IX_CLOSED, index.restore(1, 1));
  REFUSED(S2IX_CLOSED, index.record({{kFirst, 1, 0, 1}}));
  REFUSED(S2IX_CLOSED, index.remove_all({{kFirst, 1, 1}}));
  REFUSED(S2IX_CLOSED, index.journal_from(1));
  REFUSED(S2IX_CLOSED, index.held_labels(labels));
  EXPECT(labels.empty());
}

}  // namespace

int main() {
  SetsLabels();
  RestoresLabels();
  RestoresAnyMoment();
  TellsWhatTook();
  Recorded();
  RemovedAtOnce();
  JournalsFromAChange();
  Differs();
  HoldsLabels();
  Closed();
  return EndOfChecks();
}
