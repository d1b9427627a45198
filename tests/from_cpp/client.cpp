// Calls each method of s2ix.hpp with its exceptions, and ends with 'N passed, M failed', after a line for each wrong answer.
#include "checks.hpp"
#include "s2ix.hpp"

#include <iostream>
#include <list>
#include <set>
#include <sstream>

namespace {

// Two neighbours on face 0, the face, a leaf below the first, and numbers that are no cell's and no label's.
constexpr std::uint64_t kFirst = 0x0400000000000000, kSecond = 0x0c00000000000000, kFace = 0x1000000000000000, kLeaf = 0x0400000000000001;
constexpr std::uint64_t kNoCell = 6;
constexpr std::uint32_t kNoLabel = 2147483648;

bool IsRow(const s2ix::Row& row, std::uint64_t cell, std::uint32_t label, std::uint32_t count) {
  return row.cell == cell && row.label == label && row.count == count;
}

void Opened() {
  REFUSED(S2IX_NO_LIMITS, s2ix::Index(s2ix::Limits{0, 1, 1}));
  REFUSED(S2IX_NO_LIMITS, s2ix::Index(s2ix::Limits{1, 0, 1}));
  REFUSED(S2IX_NO_LIMITS, s2ix::Index(s2ix::Limits{1, 1, 100001}));
  s2ix::Index widest;
  EXPECT(widest.is_open() && widest.len() == 0 && widest.handle()->is_open);
  EXPECT(widest.add(kFirst, 2147483647, 4294967295) == 1);
  EXPECT(widest.copies() == 4294967295);
}

void Moved() {
  s2ix::Index first;
  first.add(kFirst, 1);
  s2ix::Index second(std::move(first));
  EXPECT(!first.is_open() && second.is_open() && second.len() == 1);
  s2ix::Index third;
  third = std::move(second);
  EXPECT(!second.is_open() && third.len() == 1);
  s2ix::Index& itself = third;
  third = std::move(itself);
  EXPECT(third.len() == 1);
  static_assert(!std::is_copy_constructible_v<s2ix::Index> && !std::is_copy_assignable_v<s2ix::Index>);
  third.close();
  third.close();
  EXPECT(!third.is_open());
  third = s2ix::Index();
  EXPECT(third.is_open() && third.len() == 0);
  // (a call of s2ix.h closes it too, and what is moved from it then)
  s2ix_close(third.handle());
  EXPECT(!third.is_open());
  first = std::move(third);
  const s2ix::Index fourth(std::move(first));
  EXPECT(!first.is_open() && !third.is_open() && !fourth.is_open());
}

void Closed() {
  s2ix::Index index;
  index.close();
  std::vector<s2ix::Row> rows(3);
  REFUSED(S2IX_CLOSED, index.add(kFirst, 1));
  REFUSED(S2IX_CLOSED, index.add_all({{kFirst, 1, 1}}));
  REFUSED(S2IX_CLOSED, index.remove(kFirst, 1));
  REFUSED(S2IX_CLOSED, index.add_union({kFirst}, 1));
  REFUSED(S2IX_CLOSED, index.drop_label(1));
  REFUSED(S2IX_CLOSED, index.relabel(1, 2));
  REFUSED(S2IX_CLOSED, index.grow(1, 2));
  REFUSED(S2IX_CLOSED, index.normalise_label(1));
  REFUSED(S2IX_CLOSED, index.revert(1));
  REFUSED(S2IX_CLOSED, index.undo());
  REFUSED(S2IX_CLOSED, index.redo());
  REFUSED(S2IX_CLOSED, index.forget());
  REFUSED(S2IX_CLOSED, index.forget_older(1));
  REFUSED(S2IX_CLOSED, index.apply("s2ix-journal 2\nend 0\n"));
  REFUSED(S2IX_CLOSED, index.join(0));
  REFUSED(S2IX_CLOSED, index.group([] {}));
  REFUSED(S2IX_CLOSED, index.clear());
  REFUSED(S2IX_CLOSED, index.at(kLeaf));
  REFUSED(S2IX_CLOSED, index.at(kLeaf, rows));
  EXPECT(rows.empty());
  REFUSED(S2IX_CLOSED, index.meet({kFace}));
  REFUSED(S2IX_CLOSED, index.labels({kFace}));
  REFUSED(S2IX_CLOSED, index.region(1));
  REFUSED(S2IX_CLOSED, index.of_label(1));
  REFUSED(S2IX_CLOSED, index.pairs(0, 2));
  REFUSED(S2IX_CLOSED, index.count(kFirst, 1));
  REFUSED(S2IX_CLOSED, index.len());
  REFUSED(S2IX_CLOSED, index.copies());
  REFUSED(S2IX_CLOSED, index.done_count());
  REFUSED(S2IX_CLOSED, index.undone_count());
  REFUSED(S2IX_CLOSED, index.faces_rebuilt());
  REFUSED(S2IX_CLOSED, index.range_count());
  REFUSED(S2IX_CLOSED, index.copy());
  REFUSED(S2IX_CLOSED, index.dump());
  REFUSED(S2IX_CLOSED, index.find(kLeaf));
  REFUSED(S2IX_CLOSED, index.range(0));
  REFUSED(S2IX_CLOSED, index.is_empty(0));
  REFUSED(S2IX_CLOSED, index.contents(0));
  REFUSED(S2IX_CLOSED, index.next_full(0));
  REFUSED(S2IX_CLOSED, index.previous_full(1));
  REFUSED(S2IX_CLOSED, index.meet_from({kFace}, 0, 1));
  REFUSED(S2IX_CLOSED, index.journal());
  REFUSED(S2IX_CLOSED, index.export_json());
  REFUSED(S2IX_CLOSED, index.line("undo"));
  REFUSED(S2IX_CLOSED, index.change(1));
}

void Edited() {
  s2ix::Index index(s2ix::Limits{4, 5, 4});
  REFUSED(S2IX_NO_CELL, index.add(kNoCell, 1));
  REFUSED(S2IX_NO_LABEL, index.add(kFirst, kNoLabel));
  REFUSED(S2IX_NO_CHANGE, index.add(kFirst, 1, 0));
  REFUSED(S2IX_TOO_MANY_COPIES, index.add(kFirst, 1, 6));
  EXPECT(index.add(kFirst, 1, 2) == 1 && index.count(kFirst, 1) == 2);
  REFUSED(S2IX_NOT_HELD, index.remove(kFirst, 1, 3));
  EXPECT(index.remove(kFirst, 1) == 1 && index.count(kFirst, 1) == 1 && index.count(kLeaf, 1) == 0);
  REFUSED(S2IX_NO_CELL, index.count(kNoCell, 1));
  EXPECT(index.add_union({kSecond, kFirst, kSecond}, 2) == 2 && index.len() == 3 && index.copies() == 3);
  REFUSED(S2IX_NO_CHANGE, index.add_union({}, 2));
  REFUSED(S2IX_NO_CELL, index.add_union({kFirst, kNoCell}, 2));
  EXPECT(index.done_count() == 3 && index.undone_count() == 0 && index.faces_rebuilt() == 1);
  EXPECT(index.revert(3) == 2 && index.len() == 1);
  REFUSED(S2IX_JOURNAL_FULL, index.revert(1));
  EXPECT(index.undo() == 2 && index.undone_count() == 1 && index.redo() == 2);
  REFUSED(S2IX_NOTHING_TO_REDO, index.redo());
  index.forget();
  REFUSED(S2IX_NOTHING_TO_UNDO, index.undo());
  REFUSED(S2IX_NO_SUCH_CHANGE, index.revert(1));
  EXPECT(index.relabel(1, 7) == 2 && index.count(kFirst, 7) == 1);
  REFUSED(S2IX_NO_SUCH_LABEL, index.relabel(1, 7));
  EXPECT(index.drop_label(7) == 1 && index.len() == 0);
  REFUSED(S2IX_NO_SUCH_LABEL, index.drop_label(7));
  EXPECT(index.undo() == 1 && index.undo() == 2 && index.count(kFirst, 1) == 1);
  REFUSED(S2IX_TOO_MANY_PAIRS, index.add_union({0x3400000000000000, 0x5400000000000000, 0x7400000000000000, 0x9400000000000000}, 8));
  index.clear();
  EXPECT(index.len() == 0 && index.done_count() == 0 && index.undone_count() == 0);
  REFUSED(S2IX_TOO_MANY_COPIES, index.add(kFirst, 1, 6));
}

// The place of the row that an add of rows is refused for.
std::size_t WrongRow(s2ix::Index& index, const std::vector<s2ix::Row>& rows) {
  try {
    index.add_all(rows);
  } catch (const s2ix::Error& error) {
    return error.place().value_or(rows.size());
  }
  return rows.size();
}

void AddedAtOnce() {
  s2ix::Index index(s2ix::Limits{2, 5, 2});
  const std::vector<s2ix::Row> rows = {{kSecond, 7, 1}, {kFirst, 1, 2}, {kLeaf, 1, 0}, {kFirst, 1, 1}};
  EXPECT(index.add_all(rows) == 2 && index.len() == 2 && index.count(kFirst, 1) == 3 && index.done_count() == 1);
  REFUSED(S2IX_TOO_MANY_COPIES, index.add_all(rows));
  REFUSED(S2IX_TOO_MANY_PAIRS, index.add_all({{kFirst, 1, 1}, {kFirst, 2, 1}}));
  REFUSED(S2IX_NO_CELL, index.add_all({{kFirst, 1, 1}, {kNoCell, 1, 1}}));
  REFUSED(S2IX_NO_LABEL, index.add_all({{kFirst, 1, 1}, {kFirst, kNoLabel, 1}}));
  REFUSED(S2IX_NO_CHANGE, index.add_all({}));
  EXPECT(WrongRow(index, {{kFirst, 1, 1}, {kFirst, 1, 1}, {kFirst, kNoLabel, 1}, {kNoCell, 1, 1}}) == 2);
  EXPECT(index.copies() == 4 && index.undo() == 2 && index.len() == 0 && index.redo() == 2);
  EXPECT(index.add_all(rows.data(), 1) == 1 && index.count(kSecond, 7) == 2);
  REFUSED(S2IX_JOURNAL_FULL, index.add_all({}));
}

void ChangedByTheirLabels() {
  s2ix::Index index;
  for (std::uint64_t child : {0x0100000000000000, 0x0300000000000000, 0x0500000000000000, 0x0700000000000000}) index.add(child, 3, 2);
  EXPECT(index.normalise_label(3) == 5 && index.count(kFirst, 3) == 1 && index.len() == 1);
  REFUSED(S2IX_NO_CHANGE, index.normalise_label(3));
  REFUSED(S2IX_NO_SUCH_LABEL, index.normalise_label(4));
  EXPECT(index.grow(3, 1) > 0);
  REFUSED(S2IX_TOO_FINE, index.grow(3, 31));
  REFUSED(S2IX_NO_LABEL, index.grow(kNoLabel, 1));
  index.undo();
  REFUSED(S2IX_BELOW_ZERO, index.revert(1));
}

void Asked() {
  s2ix::Index index;
  index.add(kFirst, 9, 2);
  index.add(kFace, 3);
  index.add(kSecond, 1);
  std::vector<s2ix::Row> rows = index.at(kLeaf);
  EXPECT(rows.size() == 2 && IsRow(rows[0], kFirst, 9, 2) && IsRow(rows[1], kFace, 3, 1));
  REFUSED(S2IX_NO_CELL, index.at(kFirst));
  REFUSED(S2IX_NO_CELL, index.at(kLeaf + 1, rows));
  EXPECT(rows.empty());
  rows = index.meet({kSecond, kFirst});
  EXPECT(rows.size() == 3 && IsRow(rows[0], kFirst, 9, 2) && IsRow(rows[1], kFace, 3, 1) && IsRow(rows[2], kSecond, 1, 1));
  EXPECT(index.meet({}).empty() && index.labels(std::vector<std::uint64_t>()).empty() && index.meet(s2ix::Cells(nullptr, 0)).empty());
  REFUSED(S2IX_NO_CELL, index.meet({kFirst, kNoCell}));
  EXPECT((index.labels({kFace}) == std::vector<std::uint32_t>{1, 3, 9}));
  REFUSED(S2IX_NO_CELL, index.labels({kNoCell}));
  EXPECT((index.region(9) == std::vector<std::uint64_t>{kFirst}) && index.region(2).empty());
  REFUSED(S2IX_NO_LABEL, index.region(kNoLabel));
  rows = index.of_label(9);
  EXPECT(rows.size() == 1 && IsRow(rows[0], kFirst, 9, 2) && index.of_label(2).empty());
  REFUSED(S2IX_NO_LABEL, index.of_label(kNoLabel));
  EXPECT(index.find(kLeaf).start <= kLeaf && kLeaf < index.find(kLeaf).limit && index.find(kLeaf).place < index.range_count());
  REFUSED(S2IX_NO_CELL, index.find(kNoCell));
  EXPECT(index.next_full(0) == 0 && index.previous_full(99) == 2 && index.is_empty(3) && index.contents(2, 3).empty());
  REFUSED(S2IX_NO_RANGE, index.next_full(3));
  REFUSED(S2IX_NO_RANGE, index.previous_full(0));
  REFUSED(S2IX_NO_RANGE, index.contents(4));
  REFUSED(S2IX_NO_CELL, index.meet_from({kNoCell}, 0, 1));
  rows = index.pairs(1, 1);
  EXPECT(rows.size() == 1 && index.pairs(0, 16).size() == index.len() && index.pairs(index.len(), 2).empty());
  EXPECT(index.range_count() >= 3);
  s2ix::Index copy = index.copy();
  copy.add(kLeaf, 5);
  EXPECT(copy.len() == 4 && index.len() == 3 && copy.done_count() == 1);
}

// Lists that are longer than the first room, in a new vector and in one that had less, as much and more.
void AskedForMany() {
  s2ix::Index index;
  std::vector<s2ix::Row> rows;
  std::vector<std::uint32_t> labels;
  for (std::uint32_t label = 0; label < 40; label++) {
    index.add(kFirst, label);
    index.at(kLeaf, rows);
    index.labels({kFirst}, labels);
    EXPECT(rows.size() == label + 1 && rows.back().label == label && labels.size() == label + 1 && labels.back() == label);
    EXPECT(index.at(kLeaf).size() == label + 1);
  }
  std::vector<std::uint64_t> cells(100);
  index.region(1, cells);
  EXPECT(cells == std::vector<std::uint64_t>{kFirst});
}

// What a call throws.
template <class Call>
s2ix::Error Thrown(Call call) {
  try {
    call();
  } catch (const s2ix::Error& error) {
    return error;
  }
  return s2ix::Error(S2IX_DONE);
}

void ChangedAndReplayed() {
  s2ix::Index index;
  index.add(kFirst, 9, 2);
  const std::string dump = index.dump();
  EXPECT(index.export_json() == "{\"pairs\":[[\"04\",9,2]],\"version\":1}");
  index.forget();
  index.add_union({kSecond, kFirst}, 9);
  const std::string journal = index.journal(), after = index.dump();
  const std::vector<s2ix::Entry> entries = index.change(1);
  EXPECT(entries.size() == 2 && entries[0].cell == kFirst && entries[0].before == 2 && entries[0].after == 3);
  EXPECT(entries[1].cell == kSecond && entries[1].label == 9 && entries[1].before == 0 && entries[1].after == 1);
  REFUSED(S2IX_NO_SUCH_CHANGE, index.change(0));
  REFUSED(S2IX_NO_SUCH_CHANGE, index.change(2));
  EXPECT(s2ix::Index::replay(dump, journal).dump() == after && s2ix::Index::rewind(after, journal).dump() == dump);
  EXPECT(s2ix::Index::replay(dump, journal).done_count() == 0);
  const s2ix::Error mismatch = Thrown([&] { (void)s2ix::Index::replay(after, journal); });
  EXPECT(mismatch.status() == S2IX_MISMATCH && mismatch.change() == 1 && mismatch.entry() == 1 && mismatch.line() == 0);
  const s2ix::Error no_journal = Thrown([&] { (void)s2ix::Index::rewind(dump, dump); });
  EXPECT(no_journal.status() == S2IX_NO_JOURNAL && no_journal.line() == 1 && no_journal.change() == 0);
  const s2ix::Error copies = Thrown([&] { (void)s2ix::Index::replay(dump, "s2ix-journal 2\nchange 1\n0c 9 0 1\nend 1\n", s2ix::Limits{1, 5, 5}); });
  EXPECT(copies.status() == S2IX_TOO_MANY_PAIRS && copies.change() == 1 && copies.entry() == 0);
  REFUSED(S2IX_NO_DUMP, s2ix::Index::replay("", journal));
  REFUSED(S2IX_NO_LIMITS, s2ix::Index::rewind(dump, journal, s2ix::Limits{0, 1, 1}));
}

void ResumedAndApplied() {
  s2ix::Index index;
  index.add_union({kSecond, kFirst}, 9);
  const std::string start = index.dump();
  index.forget();
  index.add(kFirst, 9, 2);
  index.add(kFace, 3);
  const std::string dump = index.dump(), journal = index.journal();
  s2ix::Index again = s2ix::Index::resume(dump, journal);
  EXPECT(again.dump() == dump && again.journal() == journal && again.revert(1) == 1 && again.undo() == 1);
  EXPECT(again.undo() == 1 && again.undo() == 1 && again.dump() == start);
  const s2ix::Error mismatch = Thrown([&] { (void)s2ix::Index::resume(start, journal); });
  EXPECT(mismatch.status() == S2IX_MISMATCH && mismatch.change() == 2 && mismatch.entry() == 1);
  const s2ix::Error many = Thrown([&] { (void)s2ix::Index::resume(dump, journal, s2ix::Limits{9, 9, 1}); });
  EXPECT(many.status() == S2IX_NO_JOURNAL && many.line() == 4);
  REFUSED(S2IX_NO_LIMITS, s2ix::Index::resume(dump, journal, s2ix::Limits{9, 9, 0}));

  s2ix::Index follower = s2ix::Index::load(start, s2ix::Limits{3, 3, 3});
  EXPECT(follower.apply(journal) == 2 && follower.dump() == dump && follower.journal() == journal);
  EXPECT(follower.apply("s2ix-journal 2\nend 0\n") == 0 && follower.done_count() == 2);
  const s2ix::Error full = Thrown([&] { follower.apply(journal); });
  EXPECT(full.status() == S2IX_JOURNAL_FULL && full.change() == 0);
  follower.forget_older(1);
  EXPECT(follower.done_count() == 1 && follower.dump() == dump);
  const s2ix::Error twice = Thrown([&] { follower.apply(journal); });
  EXPECT(twice.status() == S2IX_MISMATCH && twice.change() == 1 && twice.entry() == 1);
  const s2ix::Error no_journal = Thrown([&] { follower.apply(dump); });
  EXPECT(no_journal.status() == S2IX_NO_JOURNAL && no_journal.line() == 1);
  EXPECT(follower.undo() == 1 && follower.undone_count() == 1);
  REFUSED(S2IX_NOTHING_TO_UNDO, follower.undo());
}

// Whether a call is refused as a mistake of the program.
template <class Call>
bool IsMistake(Call call) {
  try {
    call();
  } catch (const std::logic_error&) {
    return true;
  }
  return false;
}

void Grouped() {
  s2ix::Index index;
  index.add(kFace, 3);
  EXPECT(index.join(0) == 0 && index.join(1) == 1);
  REFUSED(S2IX_TOO_FEW_CHANGES, index.join(2));
  EXPECT(index.group([&] {
    index.add(kFirst, 9, 2);
    index.add(kSecond, 9);
    index.remove(kSecond, 9);
    index.add(kLeaf, 8);
  }) == 2);
  EXPECT(index.done_count() == 2 && index.change(2).size() == 2);
  const std::string dump = index.dump(), journal = index.journal();
  EXPECT(index.undo() == 2 && index.copies() == 1 && index.redo() == 2);

  // All is undone if it throws, whatever it throws, or if an edit in it is refused.
  REFUSED(S2IX_NOT_HELD, index.group([&] {
    index.add(kSecond, 4);
    index.remove(kFirst, 9, 3);
  }));
  EXPECT(index.dump() == dump && index.journal() == journal);
  bool is_thrown = false;
  try {
    index.group([&] {
      index.add(kSecond, 4);
      index.group([&] { index.add(kSecond, 5); });
      throw 7;
    });
  } catch (int seven) {
    is_thrown = seven == 7;
  }
  EXPECT(is_thrown && index.dump() == dump && index.journal() == journal);

  // Nothing of it is left if the counts are what they were. Within it no earlier change is undone, joined or dropped.
  EXPECT(index.group([&] {
    index.add(kSecond, 4);
    EXPECT(index.undo() == 1);
    REFUSED(S2IX_NOTHING_TO_UNDO, index.undo());
    EXPECT(index.redo() == 1);
    REFUSED(S2IX_TOO_FEW_CHANGES, index.join(2));
    EXPECT(IsMistake([&] { index.forget(); }) && IsMistake([&] { index.forget_older(1); }) && IsMistake([&] { index.clear(); }));
    EXPECT(IsMistake([&] { index.line("undo"); }) && IsMistake([&] { index.line(" forget"); }));
    EXPECT(index.line("# undo").empty() && index.line(" #forget").empty() && index.line("undo 1") == "no BadArguments\n");
    EXPECT(index.line("remove 0c 4") == "ok 1\n");
  }) == 0);
  EXPECT(index.group([] {}) == 0 && index.dump() == dump && index.journal() == journal);
  EXPECT(index.line("undo") == "ok 2\n" && index.line("forget") == "ok 0\n");
}

// Whether a call is refused for a number, at a place or at none, and says so.
template <class Call>
bool Names(std::uint32_t status, std::uint64_t value, std::optional<std::size_t> place, Call call) {
  const s2ix::Error error = Thrown(call);
  std::ostringstream words;
  words << "s2ix: " << s2ix::status_text(status) << ": ";
  if (status == S2IX_NO_CELL) words << std::hex << "0x";
  words << value << std::dec;
  if (place) words << " at place " << *place;
  return error.status() == status && error.value() == value && error.place() == place && error.what() == words.str();
}

void NamesWhatIsWrong() {
  namespace cell = s2ix::cell;
  namespace cell_union = s2ix::cell_union;
  s2ix::Index index;
  index.add(kFirst, 1);
  const std::vector<std::uint64_t> wrong = {kFirst, kFace, kNoCell, 10};
  const std::vector<s2ix::Row> no_cells = {{kFirst, 1, 1}, {kNoCell, 1, 1}}, no_labels = {{kFirst, 1, 1}, {kFirst, 1, 1}, {kFirst, kNoLabel, 1}};
  EXPECT(Names(S2IX_NO_CELL, kNoCell, {}, [&] { index.add(kNoCell, 1); }));
  EXPECT(Names(S2IX_NO_LABEL, kNoLabel, {}, [&] { index.add(kFirst, kNoLabel); }));
  EXPECT(Names(S2IX_NO_CELL, kNoCell, {}, [&] { index.remove(kNoCell, 1); }));
  EXPECT(Names(S2IX_NO_CELL, kNoCell, 1, [&] { index.add_all(no_cells); }));
  EXPECT(Names(S2IX_NO_LABEL, kNoLabel, 2, [&] { index.add_all(no_labels); }));
  EXPECT(Names(S2IX_NO_CELL, kNoCell, 2, [&] { index.add_union(wrong, 1); }));
  EXPECT(Names(S2IX_NO_LABEL, kNoLabel, {}, [&] { index.add_union({kFirst}, kNoLabel); }));
  EXPECT(Names(S2IX_NO_LABEL, kNoLabel, {}, [&] { index.drop_label(kNoLabel); }));
  EXPECT(Names(S2IX_NO_LABEL, kNoLabel, {}, [&] { index.set_label(kNoLabel, wrong); }));
  EXPECT(Names(S2IX_NO_CELL, kNoCell, 2, [&] { index.set_label(1, wrong); }));
  EXPECT(Names(S2IX_NO_LABEL, kNoLabel, {}, [&] { index.relabel(1, kNoLabel); }));
  EXPECT(Names(S2IX_NO_LABEL, kNoLabel, {}, [&] { index.grow(kNoLabel, 1); }));
  EXPECT(Names(S2IX_NO_LABEL, kNoLabel, {}, [&] { index.normalise_label(kNoLabel); }));
  EXPECT(Names(S2IX_NO_CELL, kFirst, {}, [&] { (void)index.at(kFirst); }));
  EXPECT(Names(S2IX_NO_CELL, kNoCell, 2, [&] { (void)index.meet(wrong); }));
  EXPECT(Names(S2IX_NO_CELL, kNoCell, 2, [&] { (void)index.meet_from(wrong, 0, 9); }));
  EXPECT(Names(S2IX_NO_CELL, kNoCell, 0, [&] { (void)index.labels({kNoCell, 10}); }));
  EXPECT(Names(S2IX_NO_LABEL, kNoLabel, {}, [&] { (void)index.region(kNoLabel); }));
  EXPECT(Names(S2IX_NO_LABEL, kNoLabel, {}, [&] { (void)index.of_label(kNoLabel); }));
  EXPECT(Names(S2IX_NO_CELL, kNoCell, {}, [&] { (void)index.count(kNoCell, 1); }));
  EXPECT(Names(S2IX_NO_LABEL, kNoLabel, {}, [&] { (void)index.count(kFirst, kNoLabel); }));
  EXPECT(Names(S2IX_NO_CELL, kFace, {}, [&] { (void)index.find(kFace); }));
  EXPECT(Names(S2IX_NO_CELL, kNoCell, {}, [&] { (void)cell::path(kNoCell); }));
  EXPECT(Names(S2IX_NO_CELL, kNoCell, {}, [&] { (void)cell::common_level(kFirst, kNoCell); }));
  EXPECT(Names(S2IX_NO_CELL, kNoCell, {}, [&] { (void)cell::border(kNoCell, 0); }));
  EXPECT(Names(S2IX_NO_CELL, kNoCell, 2, [&] { (void)cell_union::normalise(wrong); }));
  EXPECT(Names(S2IX_NO_CELL, kNoCell, 3, [&] { (void)cell_union::union_of({kFirst}, wrong); }));
  EXPECT(Names(S2IX_NO_CELL, kNoCell, 2, [&] { (void)cell_union::intersection(wrong, {kNoCell}); }));
  EXPECT(Names(S2IX_NO_CELL, 10, 0, [&] { (void)cell_union::difference({10}, wrong); }));
  EXPECT(Names(S2IX_NO_CELL, kNoCell, 2, [&] { (void)cell_union::contains(wrong, kFirst); }));
  EXPECT(Names(S2IX_NO_CELL, kNoCell, {}, [&] { (void)cell_union::intersects({kFirst}, kNoCell); }));
  EXPECT(Names(S2IX_NO_CELL, kNoCell, 2, [&] { (void)cell_union::leaf_count(wrong); }));
  // (no number is wrong by itself)
  for (const s2ix::Error& error :
       {Thrown([&] { (void)cell::parent(kFace, 1); }), Thrown([&] { (void)cell::common_level(kFace, 0x3000000000000000); }),
        Thrown([&] { (void)cell::from_token("x"); }), Thrown([&] { index.remove(kFirst, 1, 9); })}) {
    EXPECT(!error.value() && !error.place() && error.what() == "s2ix: " + s2ix::status_text(error.status()));
  }
}

void Lines() {
  s2ix::Index index;
  EXPECT(index.line("add 04 7 2") == "ok 1\n" && index.count(kFirst, 7) == 2);
  EXPECT(index.line("at 0400000000000001") == "04:7:2\nend 1\n" && index.line("dump") == index.dump());
  EXPECT(index.line("fly") == "no BadCommand\n" && index.line("remove 04 7 3") == "no NotHeld\n");
  EXPECT(index.line("").empty() && index.line({}).empty() && index.line("# undo").empty() && index.done_count() == 1);
  EXPECT(index.line("undo") == "ok 1\n" && index.line("undo") == "no NothingToUndo\n" && index.undone_count() == 1);
  for (std::uint32_t label = 0; label < 30; label++) index.add(kFirst, label);
  EXPECT(index.line("dump") == index.dump() && index.line("journal") == index.journal());
}

void WrittenAndRead() {
  s2ix::Index index;
  for (std::uint32_t label = 0; label < 30; label++) index.add(kFirst, label, label + 1);
  const std::string dump = index.dump();
  EXPECT(dump.substr(0, 14) == "s2ix 2\n04 0 1\n" && s2ix::Index::load(dump).dump() == dump);
  EXPECT(s2ix::Index().dump() == "s2ix 2\nend 0 0\n");
  EXPECT(s2ix::Index().journal() == "s2ix-journal 2\nend 0\n");
  REFUSED(S2IX_NO_LIMITS, s2ix::Index::load(dump, s2ix::Limits{0, 1, 1}));
  REFUSED(S2IX_NO_DUMP, s2ix::Index::load(dump, s2ix::Limits{1, 100, 1}));
  REFUSED(S2IX_NO_DUMP, s2ix::Index::load({}));
  try {
    (void)s2ix::Index::load("s2ix 2\n04 0 0\n");
    EXPECT(false);
  } catch (const s2ix::Error& error) {
    EXPECT(error.line() == 2 && std::string(error.what()) == "s2ix: " + s2ix::status_text(S2IX_NO_DUMP) + ": line 2");
  }
  EXPECT(s2ix::status_text(S2IX_DONE) == "done" && !s2ix::status_text(77).empty());
  EXPECT(s2ix::version() == S2IX_VERSION);
}

void Cells() {
  namespace cell = s2ix::cell;
  EXPECT(cell::is_valid(kFirst) && !cell::is_valid(kNoCell) && cell::is_leaf(kLeaf) && !cell::is_leaf(kFirst));
  EXPECT(cell::contains(kFace, kFirst) && !cell::contains(kFirst, kFace) && cell::intersects(kFirst, kFace) && !cell::intersects(kFirst, kSecond));
  EXPECT(cell::from_token("0C") == kSecond && cell::from_token("0400000000000001") == kLeaf);
  for (const char* text : {"", "0", "x", "04000000000000010"}) REFUSED(S2IX_NO_CELL, cell::from_token(text));
  REFUSED(S2IX_NO_CELL, cell::from_token({}));
  EXPECT(cell::to_token(kFirst) == "04" && cell::to_token(kLeaf) == "0400000000000001");
  EXPECT(cell::path(kFace) == "0/" && cell::path(kSecond) == "0/1" && cell::path(kLeaf).size() == 32);
  EXPECT(cell::parent(kLeaf, 0) == kFace && cell::child(kFace, 1) == kSecond && cell::level(kFirst) == 1 && cell::face(kFirst) == 0);
  REFUSED(S2IX_NO_CELL, cell::parent(kFace, 1));
  REFUSED(S2IX_NO_CELL, cell::child(kLeaf, 0));
  EXPECT(cell::range_min(kFirst) == 1 && cell::range_max(kFirst) == 0x07ffffffffffffff);
  EXPECT(cell::common_level(kFirst, kSecond) == 0 && cell::next(kFirst) == kSecond);
  REFUSED(S2IX_NO_CELL, cell::common_level(kFirst, 0x3000000000000000));
  for (std::uint64_t neighbor : cell::edge_neighbors(kFace)) EXPECT(cell::level(neighbor) == 0 && neighbor != kFace);
  EXPECT(cell::border(kFace, 0).size() == 4 && cell::border(kFace, 3).size() == 32);
  REFUSED(S2IX_COARSER, cell::border(kFirst, 0));
  REFUSED(S2IX_TOO_FINE, cell::border(kFirst, 10));
  const cell::Square square = cell::to_face_ij(kSecond);
  EXPECT(square.level == 1 && square.face == 0 && cell::from_face_ij(0, square.i, square.j, 1) == kSecond);
  REFUSED(S2IX_NO_CELL, cell::from_face_ij(6, 0, 0, 1));
  REFUSED(S2IX_NO_CELL, cell::path(kNoCell));
  REFUSED(S2IX_NO_CELL, cell::to_token(kNoCell));
  REFUSED(S2IX_NO_CELL, cell::level(kNoCell));
  REFUSED(S2IX_NO_CELL, cell::face(kNoCell));
  REFUSED(S2IX_NO_CELL, cell::range_min(kNoCell));
  REFUSED(S2IX_NO_CELL, cell::range_max(kNoCell));
  REFUSED(S2IX_NO_CELL, cell::next(kNoCell));
  REFUSED(S2IX_NO_CELL, cell::edge_neighbors(kNoCell));
  REFUSED(S2IX_NO_CELL, cell::border(kNoCell, 0));
  REFUSED(S2IX_NO_CELL, cell::to_face_ij(kNoCell));
}

void Unions() {
  using List = std::vector<std::uint64_t>;
  namespace cell_union = s2ix::cell_union;
  EXPECT((cell_union::normalise({kFirst, kFace, kLeaf}) == List{kFace}) && cell_union::normalise({}).empty());
  EXPECT((cell_union::from_leaves(1, 0x0800000000000001) == List{kFirst}) && cell_union::from_leaves(1, 1).empty());
  EXPECT(cell_union::from_leaves(3, 0xbfffffffffffffff).size() > 100);
  REFUSED(S2IX_NO_SPAN, cell_union::from_leaves(2, 5));
  EXPECT((cell_union::union_of({kSecond}, {kFirst}) == List{kFirst, kSecond}));
  EXPECT((cell_union::intersection({kFace}, {kFirst}) == List{kFirst}));
  EXPECT((cell_union::difference({kFirst, kSecond}, {kFirst}) == List{kSecond}));
  EXPECT(cell_union::contains({kFace}, kFirst) && !cell_union::contains({kFirst}, kFace));
  EXPECT(cell_union::intersects({kFirst}, kFace) && !cell_union::intersects({kFirst}, kSecond));
  EXPECT(cell_union::leaf_count({kLeaf, kLeaf}) == 1 && cell_union::leaf_count({}) == 0);
  REFUSED(S2IX_NO_CELL, cell_union::normalise({kNoCell}));
  REFUSED(S2IX_NO_CELL, cell_union::union_of({kNoCell}, {}));
  REFUSED(S2IX_NO_CELL, cell_union::intersection({}, {kNoCell}));
  REFUSED(S2IX_NO_CELL, cell_union::difference({kNoCell}, {}));
  REFUSED(S2IX_NO_CELL, cell_union::contains({kFirst}, kNoCell));
  REFUSED(S2IX_NO_CELL, cell_union::intersects({kNoCell}, kFirst));
  REFUSED(S2IX_NO_CELL, cell_union::leaf_count({kNoCell}));
}

// A class of ids, as S2's.
struct SomeId {
  explicit SomeId(std::uint64_t raw = 0) : raw_(raw) {}
  std::uint64_t id() const { return raw_; }
  bool operator==(const SomeId& other) const { return raw_ == other.raw_; }
  bool operator!=(const SomeId& other) const { return raw_ != other.raw_; }
  bool operator<(const SomeId& other) const { return raw_ < other.raw_; }

 private:
  std::uint64_t raw_;
};

// A class of unions, as S2's.
class SomeUnion {
 public:
  explicit SomeUnion(std::vector<SomeId> ids) : ids_(std::move(ids)) {}
  std::vector<SomeId>::const_iterator begin() const { return ids_.begin(); }
  std::vector<SomeId>::const_iterator end() const { return ids_.end(); }

 private:
  std::vector<SomeId> ids_;
};

// Cells by what has id(), alone and in any range, and by numbers in any range.
void TakesWhatHasId() {
  const SomeId first(kFirst), second(kSecond);
  const std::vector<SomeId> ids = {second, first};
  const SomeUnion both(ids);
  s2ix::Index index;
  EXPECT(index.add(first, 1, 2) == 1 && index.remove(first, 1) == 1 && index.count(first, 1) == 1);
  EXPECT(index.add_union(both, 2) == 2 && index.add_union(ids, 2) == 2 && index.count(kSecond, 2) == 2);
  EXPECT(index.at(SomeId(kLeaf)).size() == 2 && index.find(SomeId(kLeaf)).place == 0);
  EXPECT(index.meet(both).size() == 3 && index.meet(ids).size() == 3);
  EXPECT(index.meet({first, second}).size() == 3 && index.meet({second}).size() == 1);
  EXPECT((index.labels(both) == std::vector<std::uint32_t>{1, 2}) && index.meet_from(both, 1, 9).size() == 2);
  EXPECT(index.meet(std::set<std::uint64_t>{kFirst}).size() == 2 && index.meet(std::list<SomeId>{second}).size() == 1);
  EXPECT(index.meet(std::array<std::uint64_t, 2>{kSecond, kFirst}).size() == 3 && index.meet(s2ix::cell_union::normalise(both)).size() == 3);
  EXPECT((s2ix::cell_union::normalise(both) == std::vector<std::uint64_t>{kFirst, kSecond}) && s2ix::cell_union::contains(both, kFirst));
  const s2ix::Cells kept = std::vector<std::uint64_t>{kSecond}, copied = kept;
  EXPECT(index.meet(kept).size() == 1 && index.meet(copied).size() == 1 && s2ix::Cells(both).size() == 2 && s2ix::Cells().size() == 0);
  static_assert(!std::is_constructible_v<s2ix::Cells, std::string> && !std::is_constructible_v<s2ix::Cells, std::vector<int>>);
  static_assert(!std::is_constructible_v<s2ix::Cell, std::string> && !std::is_convertible_v<std::vector<SomeId>, s2ix::Cell>);
}

s2ix::Cells MadeOf(std::uint64_t first, std::uint64_t second) { return {first, second}; }

// In braces a call takes numbers, ids, or a pointer with a length. Cells that are kept have their own copy.
void KeepsCells() {
  const std::uint64_t numbers[] = {kSecond, kFirst, kFace};
  s2ix::Index index;
  EXPECT(index.add_union({kFirst, kSecond}, 1) == 2 && index.add_union({numbers, 2}, 2) == 2);
  EXPECT(index.meet({}).empty() && index.meet({numbers, 0}).empty() && index.meet({numbers[0]}).size() == 2);
  EXPECT(index.meet({numbers, 1}).size() == 2 && index.meet({kFirst, SomeId(kSecond)}).size() == 4);
  const s2ix::Cells returned = MadeOf(numbers[0], numbers[1]), kept = {numbers[2], numbers[0] + 1};
  const s2ix::Cells of_ids = {SomeId(numbers[1]), numbers[0]};
  EXPECT(returned.size() == 2 && returned.data()[0] == kSecond && returned.data()[1] == kFirst);
  EXPECT(kept.size() == 2 && kept.data()[0] == kFace && kept.data()[1] == kSecond + 1);
  EXPECT(of_ids.size() == 2 && of_ids.data()[0] == kFirst && of_ids.data()[1] == kSecond);
  EXPECT(index.meet(returned).size() == 4 && index.meet(kept).size() == 4 && index.meet(of_ids).size() == 4);
  EXPECT(index.meet(MadeOf(numbers[0], numbers[0])).size() == 2 && s2ix::cell_union::union_of(kept, {numbers[1]}).size() == 1);
  const std::initializer_list<std::uint64_t> list = {numbers[0], numbers[1]};
  const std::vector<std::uint64_t> vector = list;
  const s2ix::Cells of_list = list, of_vector = vector;
  EXPECT(of_list.size() == 2 && of_list.data() != list.begin() && index.meet(list).size() == 4);
  EXPECT(of_vector.size() == 2 && of_vector.data() != vector.data() && index.meet(of_vector).size() == 4);
}

std::uint64_t RawOf(std::uint64_t id) { return id; }
std::uint64_t RawOf(const SomeId& id) { return id.id(); }

// S2's names over one kind of ids.
template <class Id>
void NamedAsInS2() {
  using S2Index = s2ix::BasicS2CellIndex<Id>;
  using Label = typename S2Index::Label;
  const std::vector<Id> both = {Id(kSecond), Id(kFirst)};
  S2Index index(s2ix::Limits{100, 10, 2});
  index.Add(Id(kFirst), 4);
  index.Add(Id(kFirst), 4);
  index.Add(both, 7);
  index.Add(std::vector<Id>(), 8);
  index.Build();
  index.Build();
  EXPECT(index.num_cells() == 4 && index.index().len() == 3 && index.index().done_count() == 1);
  REFUSED(S2IX_NO_LABEL, index.Add(Id(kFirst), -1));
  REFUSED(S2IX_NO_CELL, index.Add(Id(kNoCell), 1));
  const std::vector<Id> wrong = {Id(kFirst), Id(kNoCell)};
  EXPECT(Names(S2IX_NO_LABEL, 4294967295, {}, [&] { index.Add(Id(kFirst), -1); }));
  EXPECT(Names(S2IX_NO_CELL, kNoCell, {}, [&] { index.Add(Id(kNoCell), 1); }));
  EXPECT(Names(S2IX_NO_CELL, kNoCell, 1, [&] { index.Add(wrong, 1); }));
  EXPECT(Names(S2IX_NO_CELL, kNoCell, 1, [&] { (void)index.GetIntersectingLabels(wrong); }));
  EXPECT(Names(S2IX_NO_CELL, kNoCell, 1, [&] { index.VisitIntersectingCells(wrong, [](Id, Label) { return true; }); }));

  std::multiset<std::pair<std::uint64_t, Label>> given;
  for (typename S2Index::CellIterator cells(&index); !cells.done(); cells.Next()) {
    EXPECT(cells.labelled_cell() == typename S2Index::LabelledCell(cells.cell_id(), cells.label()));
    given.insert({RawOf(cells.cell_id()), cells.label()});
  }
  EXPECT((given == std::multiset<std::pair<std::uint64_t, Label>>{{kFirst, 4}, {kFirst, 4}, {kFirst, 7}, {kSecond, 7}}));

  std::vector<Label> visited;
  EXPECT(index.VisitIntersectingCells(both, [&](Id, Label label) { return visited.push_back(label), true; }));
  EXPECT((visited == std::vector<Label>{4, 4, 7, 7}));
  visited.clear();
  EXPECT(!index.VisitIntersectingCells(both, [&](Id, Label label) { return visited.push_back(label), visited.size() < 2; }));
  EXPECT((visited == std::vector<Label>{4, 4}));
  EXPECT(index.VisitIntersectingCells(std::vector<Id>(), [](Id, Label) { return false; }));

  EXPECT((index.GetIntersectingLabels(std::vector<Id>{Id(kSecond)}) == std::unordered_set<Label>{7}));
  std::set<Label> labels = {55};
  index.GetIntersectingLabels(both, &labels);
  EXPECT((labels == std::set<Label>{4, 7}));

  EXPECT(index.index().undo() == 3 && index.num_cells() == 0 && index.index().redo() == 3);
  index.Add(Id(kLeaf), 5);
  EXPECT(index.num_cells() == 5 && index.index().done_count() == 2);
  index.Add(Id(kLeaf), 6);
  REFUSED(S2IX_JOURNAL_FULL, index.Build());
  REFUSED(S2IX_JOURNAL_FULL, index.num_cells());
  index.Forget();
  EXPECT(index.num_cells() == 6 && index.index().done_count() == 1 && index.index().undo() == 1);
  for (int copy = 0; copy < 11; copy++) index.Add(Id(kLeaf), 6);
  REFUSED(S2IX_TOO_MANY_COPIES, index.index());
  index.Clear();
  EXPECT(index.num_cells() == 0 && typename S2Index::CellIterator(&index).done());
  const typename S2Index::LabelledCell less(Id(kFirst), 2), more(Id(kFirst), 3);
  EXPECT(less < more && !(more < less) && !(less == more) && typename S2Index::LabelledCell().label == -1);
  std::ostringstream printed;
  printed << typename S2Index::LabelledCell(Id(kSecond), 7) << typename S2Index::LabelledCell();
  EXPECT(printed.str() == "(0/1, 7)(Invalid: 0000000000000000, -1)");
  index.Add(both, 3);
  S2Index moved = std::move(index), assigned;
  EXPECT(moved.num_cells() == 2 && !index.index().is_open());
  moved.Add(Id(kLeaf), 3);
  assigned = std::move(moved);
  EXPECT(assigned.num_cells() == 3 && assigned.index().done_count() == 2);
  moved.Clear();
  moved.Add(Id(kLeaf), 3);
  EXPECT(moved.num_cells() == 1);
}

// Whether each call that changes an index is refused as a mistake.
bool RefusesEdits(s2ix::Index& index) {
  return IsMistake([&] { index.add(kSecond, 1); }) && IsMistake([&] { index.add_all({{kSecond, 1, 1}}); }) &&
         IsMistake([&] { index.remove(kFirst, 1); }) && IsMistake([&] { index.add_union({kSecond}, 1); }) &&
         IsMistake([&] { index.drop_label(1); }) && IsMistake([&] { index.set_label(1, {kSecond}); }) && IsMistake([&] { index.relabel(1, 2); }) && IsMistake([&] { index.grow(1, 1); }) &&
         IsMistake([&] { index.restore(1, 1); }) &&
         IsMistake([&] { index.normalise_label(1); }) && IsMistake([&] { index.revert(1); }) && IsMistake([&] { index.undo(); }) &&
         IsMistake([&] { index.redo(); }) && IsMistake([&] { index.forget(); }) && IsMistake([&] { index.clear(); }) &&
         IsMistake([&] { index.line("undo"); }) && IsMistake([&] { index.apply("s2ix-journal 2\nend 0\n"); }) &&
         IsMistake([&] { index.remove_all({{kFirst, 1, 1}}); }) && IsMistake([&] { index.record({{kSecond, 1, 0, 1}}); }) &&
         IsMistake([&] { index.join(1); }) && IsMistake([&] { index.group([] {}); }) && IsMistake([&] { index.forget_older(1); });
}

// A visitor, here of three pages, may query and visit the index, but not change it. When the visit has ended, all may.
template <class Id>
void NotChangedByVisitors() {
  using S2Index = s2ix::BasicS2CellIndex<Id>;
  using Label = typename S2Index::Label;
  constexpr Label kLabels = 2000;
  const std::vector<Id> target = {Id(kFace)};
  S2Index index;
  s2ix::Index& beneath = index.index();
  for (Label label = 0; label < kLabels; label++) index.Add(Id(kFirst), label);
  Label visited = 0;
  EXPECT(index.VisitIntersectingCells(target, [&](Id, Label label) {
    EXPECT(label == visited++);
    if (label % 250 != 0) return true;
    EXPECT(RefusesEdits(beneath) && IsMistake([&] { index.Add(Id(kSecond), 1); }) && IsMistake([&] { index.Add(target, 1); }));
    EXPECT(IsMistake([&] { index.Clear(); }) && IsMistake([&] { index.Forget(); }));
    index.Build();
    EXPECT(index.num_cells() == kLabels && index.GetIntersectingLabels(target).size() == kLabels && beneath.done_count() == 1);
    EXPECT(!index.VisitIntersectingCells(target, [](Id, Label) { return false; }) && RefusesEdits(index.index()));
    return true;
  }));
  EXPECT(visited == kLabels && beneath.undo() == kLabels && beneath.redo() == kLabels);
  EXPECT(IsMistake([&] { index.VisitIntersectingCells(target, [&](Id, Label) { return beneath.undo() > 0; }); }));
  EXPECT(beneath.undo() == kLabels && index.num_cells() == 0);
  index.Add(Id(kSecond), 1);
  EXPECT(index.num_cells() == 1 && beneath.line("undo") == "ok 1\n");
  index.Forget();
  index.Clear();
}

}  // namespace

int main() {
  Opened();
  Moved();
  Closed();
  Edited();
  AddedAtOnce();
  ChangedByTheirLabels();
  Asked();
  AskedForMany();
  Lines();
  WrittenAndRead();
  ChangedAndReplayed();
  ResumedAndApplied();
  Grouped();
  NamesWhatIsWrong();
  TakesWhatHasId();
  KeepsCells();
  Cells();
  Unions();
  NamedAsInS2<std::uint64_t>();
  NamedAsInS2<SomeId>();
  NotChangedByVisitors<std::uint64_t>();
  NotChangedByVisitors<SomeId>();
  return EndOfChecks();
}
