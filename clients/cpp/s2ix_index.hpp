// An S2 cell index that can be edited, for C++17: the class Index. Include s2ix.hpp, which says more.
#ifndef S2IX_INDEX_HPP
#define S2IX_INDEX_HPP

#include "s2ix_cells.hpp"
#include "s2ix_changes.hpp"
#include "s2ix_each.hpp"
#include "s2ix_handle.hpp"
#include "s2ix_room.hpp"

#include <algorithm>
#include <cstddef>
#include <cstdint>
#include <limits>
#include <optional>
#include <stdexcept>
#include <string>
#include <string_view>
#include <utility>
#include <vector>

namespace s2ix {

// What a store may hold. Limits{} has the widest limits.
struct Limits {
  std::uint32_t pairs = 1000000;                                    // distinct pairs, 1 to 1,000,000
  std::uint32_t copies = std::numeric_limits<std::uint32_t>::max();  // copies of each, 1 and up
  std::uint32_t changes = 100000;                                   // changes that can be undone, 1 to 100,000
};

// A range of leaves over which the same pairs lie: its place, counted from 0, its first leaf, and the first leaf number after it.
struct Range {
  std::size_t place;
  std::uint64_t start;
  std::uint64_t limit;
};

template <class Id>
class BasicS2CellIndex;

// A store of pairs of cells and labels. It can be moved, and copied only by copy(); once moved from or closed, it refuses each call with
// S2IX_CLOSED.
//
// Threads may share an Index, and a const Index& as any const object of C++. Edits take turns. Any number of threads ask side by side, while
// edits go on: each answer is that of one state: that after the last edit that had returned when the thread asked, or a later one. For this a
// thread that has waited for others gets a copy of what is held, which shares memory with it. Each edit makes the copy old, and the thread gets
// a new one once it has waited again. An index has a copy for each such thread, but at most 16 or, on more than 8 processors, fewer than four
// for each processor. A thread that asks alone has none. What is asked of the changes takes turns with edits: done_count, undone_count, change,
// journal, journal_from and faces_rebuilt. Only handle() takes no lock. No call may run while the Index is moved or destroyed.
class Index {
 public:
  // An index of no pairs. S2IX_NO_LIMITS.
  explicit Index(Limits limits = Limits()) {
    detail::check(s2ix_open(handle_.unlocked(), limits.pairs, limits.copies, limits.changes));
  }

  // The index that starts from a dump's pairs. S2IX_NO_LIMITS; S2IX_NO_DUMP, with the first line that has a fault. O(n) for n bytes.
  [[nodiscard]] static Index load(std::string_view dump, Limits limits = Limits()) {
    Index index{Closed()};
    std::size_t line = 0;
    const std::uint32_t status =
        s2ix_load(index.handle_.unlocked(), detail::bytes(dump), dump.size(), limits.pairs, limits.copies, limits.changes, &line);
    detail::check(status, [&](std::uint32_t) {
      Where where;
      where.line = line;
      return where;
    });
    return index;
  }

  // The index that starts from a dump's pairs after a journal's changes, with nothing to undo or redo. The first thing that is wrong
  // decides: S2IX_NO_DUMP or S2IX_NO_JOURNAL, with the first line that has a fault; S2IX_MISMATCH, S2IX_TOO_MANY_COPIES or
  // S2IX_TOO_MANY_PAIRS, with the change. S2IX_NO_LIMITS. O(n + m log n) for n bytes and m entries.
  [[nodiscard]] static Index replay(std::string_view dump, std::string_view journal, Limits limits = Limits()) {
    return led(s2ix_replay, dump, journal, limits);
  }

  // The same before the journal's changes: they are taken back, the last one first.
  [[nodiscard]] static Index rewind(std::string_view dump, std::string_view journal, Limits limits = Limits()) {
    return led(s2ix_rewind, dump, journal, limits);
  }

  // The index that a dump and a journal were written of: it starts from the dump's pairs, and the journal's changes, the last of which led
  // there, can be undone. Nothing can be redone. All else is as in rewind.
  [[nodiscard]] static Index resume(std::string_view dump, std::string_view journal, Limits limits = Limits()) {
    return led(s2ix_resume, dump, journal, limits);
  }

  Index(Index&&) noexcept = default;
  Index& operator=(Index&&) noexcept = default;
  Index(const Index&) = delete;
  Index& operator=(const Index&) = delete;
  ~Index() = default;

  // An index that starts from what this one holds, with nothing to undo or redo. The two share memory, and may be used side by side on
  // different threads. O(1); the first edit, undo, redo or apply of one of them then takes O(p) more, for the p parts of some hundred pairs
  // that a store is kept in. S2IX_CLOSED.
  [[nodiscard]] Index copy() const {
    Index index{Closed()};
    detail::check(handle_.ask([&](::s2ix_handle* handle) { return s2ix_copy(handle, index.handle_.unlocked()); }));
    return index;
  }

  // Closes the index and frees all that its store had; a closed one stays closed. O(n).
  void close() noexcept { handle_.close(); }

  [[nodiscard]] bool is_open() const noexcept { return handle_.is_open(); }

  // The handle, to pass to calls of s2ix.h. Neither this nor those take the lock: no other call on the index may run meanwhile. Nothing
  // tells the index what they change, so from now on its own calls take turns.
  [[nodiscard]] ::s2ix_handle* handle() noexcept { return handle_.handed_out(); }

  // Edits: each is one change, which can be undone, and returns how many pairs changed their counts. Besides the statuses named, each may
  // throw with S2IX_CLOSED, S2IX_JOURNAL_FULL, S2IX_NO_CHANGE, S2IX_TOO_MANY_COPIES or S2IX_TOO_MANY_PAIRS. A store is kept in
  // parts of some hundred pairs: the time grows with the number of parts, and with the pairs of those that change.

  // Adds copies to the count of a cell under a label. S2IX_NO_CELL, S2IX_NO_LABEL.
  std::size_t add(Cell cell, std::uint32_t label, std::uint32_t copies = 1) {
    return edit([&](::s2ix_handle* handle, std::size_t* to) { return s2ix_add(handle, cell.number(), label, copies, to); },
                [&](std::uint32_t status) { return detail::wrong_pair(status, cell.number(), label); });
  }

  // Adds the count of each row to that of its cell under its label, as one change: rows in any order, repeated or not. Each row keeps its
  // cell: unlike add_union, the call normalises nothing. All are added, or none. O(m log m) for m rows, besides the time of an
  // edit. S2IX_NO_CELL, S2IX_NO_LABEL, with the first row that is wrong.
  std::size_t add_all(const Row* rows, std::size_t size) { return edit_by(s2ix_add_all, rows, size); }
  std::size_t add_all(const std::vector<Row>& rows) { return add_all(rows.data(), rows.size()); }

  // Takes copies from the count of a cell under a label. S2IX_NO_CELL, S2IX_NO_LABEL, S2IX_NOT_HELD.
  std::size_t remove(Cell cell, std::uint32_t label, std::uint32_t copies = 1) {
    return edit([&](::s2ix_handle* handle, std::size_t* to) { return s2ix_remove(handle, cell.number(), label, copies, to); },
                [&](std::uint32_t status) { return detail::wrong_pair(status, cell.number(), label); });
  }

  // Takes the count of each row from that of its cell under its label, as one change: rows in any order, and repeated ones add up. All are
  // taken, or none. O(m log m) for m rows, besides the time of an edit, and O(log m) times that for S2IX_NOT_HELD. S2IX_NO_CELL,
  // S2IX_NO_LABEL, with the first row that is wrong; S2IX_NOT_HELD, with the place of the first row that takes more copies than the rows
  // before it leave.
  std::size_t remove_all(const Row* rows, std::size_t size) { return edit_by(s2ix_remove_all, rows, size); }
  std::size_t remove_all(const std::vector<Row>& rows) { return remove_all(rows.data(), rows.size()); }

  // Adds one copy under a label for each cell of the normal form of a union: four siblings become their parent, and a cell within another is
  // left out; add_all adds cells as they are. S2IX_NO_CELL, S2IX_NO_LABEL.
  std::size_t add_union(const detail::Given& cells, std::uint32_t label) {
    return edit([&](::s2ix_handle* handle, std::size_t* to) { return s2ix_add_union(handle, cells.data(), cells.size(), label, to); },
                [&](std::uint32_t status) {
                  return status == S2IX_NO_LABEL ? detail::wrong_label(status, {label}) : detail::wrong_in(status, cells);
                });
  }

  // Takes away all copies of a label's pairs. S2IX_NO_LABEL, S2IX_NO_SUCH_LABEL.
  std::size_t drop_label(std::uint32_t label) {
    return edit([&](::s2ix_handle* handle, std::size_t* to) { return s2ix_drop_label(handle, label, to); },
                [&](std::uint32_t status) { return detail::wrong_label(status, {label}); });
  }

  // Makes one copy of each cell of the normal form of a union all that a label has. So it drops what the label has elsewhere, and a pair of
  // several copies keeps one. Without cells it is drop_label. It costs what drop_label and add_union do. S2IX_NO_LABEL, S2IX_NO_CELL;
  // S2IX_NO_SUCH_LABEL without cells.
  std::size_t set_label(std::uint32_t label, const detail::Given& cells) {
    if (label > detail::highest_label) detail::refuse(S2IX_NO_LABEL, detail::wrong_label(S2IX_NO_LABEL, {label}));
    const std::vector<std::uint64_t> wanted = cell_union::normalise(cells);
    if (wanted.empty()) return drop_label(label);
    return edit([&](::s2ix_handle* handle, std::size_t* to) {
      std::vector<Row> held;
      const std::uint32_t status = fill_of(handle, label, held, s2ix_of_label, 2 * wanted.size());
      if (status != S2IX_DONE) return status;
      return detail::record(handle, detail::led_to(held, label, wanted), to);
    });
  }

  // Moves all copies of one label to another, cell by cell. S2IX_NO_LABEL, S2IX_NO_SUCH_LABEL.
  std::size_t relabel(std::uint32_t source, std::uint32_t target) {
    return edit([&](::s2ix_handle* handle, std::size_t* to) { return s2ix_relabel(handle, source, target, to); },
                [&](std::uint32_t status) { return detail::wrong_label(status, {source, target}); });
  }

  // Adds one copy under a label for each cell of a level just outside the label: it overlaps no cell of the label, but shares an edge with a
  // cell of the level that overlaps one. S2IX_NO_LABEL, S2IX_NO_SUCH_LABEL, S2IX_TOO_FINE.
  std::size_t grow(std::uint32_t label, std::uint8_t level) {
    return edit([&](::s2ix_handle* handle, std::size_t* to) { return s2ix_grow(handle, label, level, to); },
                [&](std::uint32_t status) { return detail::wrong_label(status, {label}); });
  }

  // Replaces a label's pairs by one copy at each cell of the label's region. S2IX_NO_LABEL, S2IX_NO_SUCH_LABEL.
  std::size_t normalise_label(std::uint32_t label) {
    return edit([&](::s2ix_handle* handle, std::size_t* to) { return s2ix_normalise_label(handle, label, to); },
                [&](std::uint32_t status) { return detail::wrong_label(status, {label}); });
  }

  // Takes back the change with a number, counted from 1 among those that can be undone, and leaves those that followed it.
  // S2IX_NO_SUCH_CHANGE; S2IX_BELOW_ZERO, with the first pair whose count would be below 0, and the later change that took its copies. It
  // takes O(m) for m entries of the later changes to find that one.
  std::size_t revert(std::uint32_t change) {
    Where below_zero;
    return edit(
        [&](::s2ix_handle* handle, std::size_t* to) {
          const std::uint32_t status = s2ix_revert(handle, change, to);
          if (status == S2IX_BELOW_ZERO) below_zero = detail::below_zero(handle, change);
          return status;
        },
        [&](std::uint32_t) { return below_zero; });
  }

  // Gives a label the cells and counts that it had before the change with a number, as in revert, whatever came later. O(m log m) for m
  // entries of that change and of the later ones, besides the time of an edit. S2IX_NO_LABEL, S2IX_NO_SUCH_CHANGE.
  std::size_t restore(std::uint32_t label, std::uint32_t before) {
    if (label > detail::highest_label) detail::refuse(S2IX_NO_LABEL, detail::wrong_label(S2IX_NO_LABEL, {label}));
    return edit([&](::s2ix_handle* handle, std::size_t* to) {
      // (a change of no entries is refused for what each edit is refused for first)
      const std::uint32_t refused = detail::record(handle, {}, to);
      if (refused != S2IX_NO_CHANGE) return refused;
      std::vector<Entry> since;
      const std::uint32_t status = detail::read_from(handle, label, before, since);
      return status == S2IX_DONE ? detail::record(handle, detail::led_back(std::move(since)), to) : status;
    });
  }

  // Does a change that is given by its entries, as change() and difference() list them: by rising cell, then label. All are done, or none.
  // O(m) for m entries, besides the time of an edit. With the place of the first entry that is wrong: S2IX_NO_CELL, S2IX_NO_LABEL;
  // S2IX_UNSORTED, it is not above the one before it; S2IX_NO_DIFFERENCE, its two counts are equal; S2IX_MISMATCH, its count before is not
  // the one that is held.
  std::size_t record(const Entry* entries, std::size_t size) { return edit_by(s2ix_record, entries, size); }
  std::size_t record(const std::vector<Entry>& entries) { return record(entries.data(), entries.size()); }

  // Does the changes of a journal, which another index did from the same pairs on: all, or none. Each can be undone by itself. Returns
  // how many pairs have another count than before. S2IX_CLOSED; S2IX_NO_JOURNAL, with the first line that has a fault; S2IX_JOURNAL_FULL; and
  // with the change S2IX_MISMATCH, S2IX_TOO_MANY_COPIES, S2IX_TOO_MANY_PAIRS. O(b + m log n) for b bytes and m entries, besides the time of
  // an edit.
  std::size_t apply(std::string_view journal) {
    std::size_t given = 0, place = 0, entry = 0;
    const std::uint32_t status = handle_.edit([&](::s2ix_handle* handle) {
      return s2ix_apply(handle, detail::bytes(journal), journal.size(), &given, &place, &entry);
    });
    detail::check(status, [&](std::uint32_t why) { return where(why, place, entry); });
    return given;
  }

  // Makes one change of all that a function does to the index, and returns how many pairs that change has: 0 if it is none. If the function
  // throws, or the changes can't become one, all that it did is undone and the exception goes on; then it could be redone. In it undo()
  // takes back no earlier change, and what would drop changes throws std::logic_error: forget(), forget_older(), clear(), and a line that
  // undoes or forgets. Groups may lie within groups. What other threads do meanwhile is in the group too. Until its end each edit in it
  // counts as a change, so a full journal may refuse it. If memory is wanted to undo, std::bad_alloc is thrown in place of the exception, and
  // the first edits may be left. It costs what join() does.
  template <class Do>
  std::size_t group(Do edits) {
    const Grouped grouped(*this);
    try {
      edits();
      return join(done_count() - grouped.first());
    } catch (...) {
      while (done_count() > grouped.first()) undo();
      throw;
    }
  }

  // Makes one change of the last ones that can be undone, so many of them, and returns how many pairs it has; if their counts are what they
  // were before, the changes are gone. What is held stays, and so does what can be redone. O(m log k) for m entries in k changes.
  // S2IX_CLOSED, S2IX_TOO_FEW_CHANGES.
  std::size_t join(std::size_t last) {
    return edit([&](::s2ix_handle* handle, std::size_t* to) {
      return is_in_group(handle, last) ? s2ix_join(handle, last, to) : std::uint32_t{S2IX_TOO_FEW_CHANGES};
    });
  }

  // Takes the last change back, and returns how many pairs it had. S2IX_CLOSED, S2IX_NOTHING_TO_UNDO.
  std::size_t undo() {
    return edit([&](::s2ix_handle* handle, std::size_t* to) {
      return is_in_group(handle, 1) ? s2ix_undo(handle, to) : std::uint32_t{S2IX_NOTHING_TO_UNDO};
    });
  }

  // Does the change that was undone last again, and returns how many pairs it had. S2IX_CLOSED, S2IX_NOTHING_TO_REDO.
  std::size_t redo() { return edit(s2ix_redo); }

  // Keeps what is held and drops all changes: nothing is left to undo or redo. S2IX_CLOSED.
  void forget() { detail::check(drop(s2ix_forget)); }

  // Drops all changes that can be undone but the newest, at most so many: a full journal gets room. What is held stays, and so does what
  // can be redone. S2IX_CLOSED.
  void forget_older(std::size_t newest) {
    detail::check(drop([&](::s2ix_handle* handle) { return s2ix_forget_older(handle, newest); }));
  }

  // Drops all pairs and all changes, and keeps the limits: nothing is left to undo or redo. O(n). S2IX_CLOSED.
  void clear() { detail::check(drop(s2ix_clear)); }

  // Lists. Each call has two forms. One puts the list into a vector of the caller and uses its memory again; if it throws, the vector is
  // empty. The other returns a new vector. The cost is that of the list, whatever the capacity of the vector. The library
  // makes a list once if the vector held as many items, or if the list is short: at most 16 rows, 64 rows of meet, 256 labels, and for region
  // and of_label a sixteenth of all pairs held. It makes any other list twice. So keep a vector for each kind of call.

  // The pairs whose cells contain a leaf, the innermost cell first, the labels of one cell rising. O(log n + k) for k pairs. S2IX_CLOSED,
  // S2IX_NO_CELL.
  void at(Cell leaf, std::vector<Row>& rows) const {
    list(rows,
         [&](::s2ix_handle* handle, Row* to, std::size_t room, std::size_t* number) {
           return s2ix_at(handle, leaf.number(), to, room, number);
         },
         [&](std::uint32_t status) { return detail::wrong_leaf(status, leaf.number()); });
  }
  [[nodiscard]] std::vector<Row> at(Cell leaf) const {
    std::vector<Row> rows;
    at(leaf, rows);
    return rows;
  }

  // The pairs that share a leaf with a union of cells: each once, by first shared leaf, then falling level, then rising label.
  // O(k + r + t log n) for k pairs over r ranges and t cells. S2IX_CLOSED, S2IX_NO_CELL.
  void meet(const detail::Given& cells, std::vector<Row>& rows) const {
    list(rows,
         [&](::s2ix_handle* handle, Row* to, std::size_t room, std::size_t* number) {
           return s2ix_meet(handle, cells.data(), cells.size(), to, room, number);
         },
         [&](std::uint32_t status) { return detail::wrong_in(status, cells); }, 64);
  }
  [[nodiscard]] std::vector<Row> meet(const detail::Given& cells) const {
    std::vector<Row> rows;
    meet(cells, rows);
    return rows;
  }

  // A page of that list: its pairs from the place `from` on, counted from 0, at most `most`; fewer only if the list ends there. The call
  // goes along the list from its start up to the last pair that it returns. So it costs what meet would if the list ended there. It takes
  // memory for `most` pairs, or for all that are held if these are fewer. An edit may move the places. S2IX_CLOSED, S2IX_NO_CELL.
  [[nodiscard]] std::vector<Row> meet_from(const detail::Given& cells, std::size_t from, std::size_t most) const {
    return page(from, most,
                [&](::s2ix_handle* handle, Row* to, std::size_t room, std::size_t* number) {
                  return s2ix_meet_from(handle, cells.data(), cells.size(), from, to, room, number);
                },
                [&](std::uint32_t status) { return detail::wrong_in(status, cells); });
  }

  // The labels of the pairs that meet gives: each once, rising. S2IX_CLOSED, S2IX_NO_CELL.
  void labels(const detail::Given& cells, std::vector<std::uint32_t>& labels) const {
    list(labels,
         [&](::s2ix_handle* handle, std::uint32_t* to, std::size_t room, std::size_t* number) {
           return s2ix_labels(handle, cells.data(), cells.size(), to, room, number);
         },
         [&](std::uint32_t status) { return detail::wrong_in(status, cells); }, 256);
  }
  [[nodiscard]] std::vector<std::uint32_t> labels(const detail::Given& cells) const {
    std::vector<std::uint32_t> found;
    labels(cells, found);
    return found;
  }

  // Many leaves or targets at once: what at, meet and labels give for each, one after the other. No other call on the index comes between.
  // The library is asked once if the list held as many items, or if there are at most two for each; else mostly twice. If a leaf or a target
  // is refused, so are all, and both lists are empty.

  // The pairs over each of some leaves, which come in any order, repeated or not; it is quickest if they rise. O(m log n + k) for m leaves and
  // k pairs. S2IX_CLOSED; S2IX_NO_CELL, with the place of the first number that is no leaf's.
  void at_each(const detail::Given& leaves, RowsOfEach& found) const { over_each(s2ix_at_each, leaves, found.ends, found.rows); }
  [[nodiscard]] RowsOfEach at_each(const detail::Given& leaves) const {
    RowsOfEach found;
    at_each(leaves, found);
    detail::trim(found.rows);
    return found;
  }

  // Their labels alone: a label is repeated if a leaf lies in several cells of it.
  void labels_at_each(const detail::Given& leaves, LabelsOfEach& found) const {
    over_each(s2ix_labels_at_each, leaves, found.ends, found.labels);
  }
  [[nodiscard]] LabelsOfEach labels_at_each(const detail::Given& leaves) const {
    LabelsOfEach found;
    labels_at_each(leaves, found);
    detail::trim(found.labels);
    return found;
  }

  // The pairs that meet each of some targets. It costs what meet does for each. S2IX_CLOSED; with the place of the first target that is
  // refused, S2IX_NO_CELL, and S2IX_NO_SPAN if its bound is below the one before, or above the number of cells.
  void meet_each(const Targets& targets, RowsOfEach& found) const { met_by_each(s2ix_meet_each, targets, found.ends, found.rows); }
  [[nodiscard]] RowsOfEach meet_each(const Targets& targets) const {
    RowsOfEach found;
    meet_each(targets, found);
    detail::trim(found.rows);
    return found;
  }

  // Their labels: for each target each once, rising.
  void labels_each(const Targets& targets, LabelsOfEach& found) const { met_by_each(s2ix_labels_each, targets, found.ends, found.labels); }
  [[nodiscard]] LabelsOfEach labels_each(const Targets& targets) const {
    LabelsOfEach found;
    labels_each(targets, found);
    detail::trim(found.labels);
    return found;
  }

  // The region of a label: the normal union of its cells, rising. It takes what of_label does, and O(m log m) for m pairs. S2IX_CLOSED,
  // S2IX_NO_LABEL.
  void region(std::uint32_t label, std::vector<std::uint64_t>& cells) const {
    list_of(label, cells, s2ix_region);
  }
  [[nodiscard]] std::vector<std::uint64_t> region(std::uint32_t label) const {
    std::vector<std::uint64_t> cells;
    region(label, cells);
    detail::trim(cells);
    return cells;
  }

  // The pairs of a label, by rising cell. O(p + k) for p parts of a few hundred pairs and the k pairs of those that may have the label, mostly
  // those that have it, and at worst all. S2IX_CLOSED, S2IX_NO_LABEL.
  void of_label(std::uint32_t label, std::vector<Row>& rows) const {
    list_of(label, rows, s2ix_of_label);
  }
  [[nodiscard]] std::vector<Row> of_label(std::uint32_t label) const {
    std::vector<Row> rows;
    of_label(label, rows);
    detail::trim(rows);
    return rows;
  }

  // The labels that are held, rising, each with how many pairs have it and the sum of their counts. O(n log n). S2IX_CLOSED.
  void held_labels(std::vector<HeldLabel>& labels) const { list(labels, s2ix_held_labels); }
  [[nodiscard]] std::vector<HeldLabel> held_labels() const {
    std::vector<HeldLabel> labels;
    held_labels(labels);
    return labels;
  }

  // At most `most` pairs from a place on, counted from 0, in rising order of cell, then label. O(k log n) for k pairs. S2IX_CLOSED.
  [[nodiscard]] std::vector<Row> pairs(std::size_t from, std::size_t most) const {
    return page(from, most, [&](::s2ix_handle* handle, Row* to, std::size_t room, std::size_t* number) {
      return s2ix_pairs(handle, from, to, room, number);
    });
  }

  // How many copies of a cell are held under a label: 0 if the pair is not held. O(log n). S2IX_CLOSED, S2IX_NO_CELL, S2IX_NO_LABEL.
  [[nodiscard]] std::uint32_t count(Cell cell, std::uint32_t label) const {
    return answer<std::uint32_t>([&](::s2ix_handle* handle, std::uint32_t* to) { return s2ix_count(handle, cell.number(), label, to); },
                                 [&](std::uint32_t status) { return detail::wrong_pair(status, cell.number(), label); });
  }

  // How many pairs are held. O(1). S2IX_CLOSED.
  [[nodiscard]] std::size_t len() const { return number(s2ix_len); }

  // The sum of the counts. O(n). S2IX_CLOSED.
  [[nodiscard]] std::uint64_t copies() const { return answer<std::uint64_t>(s2ix_copies); }

  // How many changes can be undone, and how many redone. O(1). S2IX_CLOSED.
  [[nodiscard]] std::size_t done_count() const { return number<Of::changes>(s2ix_done_count); }
  [[nodiscard]] std::size_t undone_count() const { return number<Of::changes>(s2ix_undone_count); }

  // The entries of the change with a number, counted from 1 among those that can be undone: by rising cell, then label. O(k) for k entries.
  // S2IX_CLOSED, S2IX_NO_SUCH_CHANGE.
  [[nodiscard]] std::vector<Entry> change(std::uint32_t number) const {
    std::vector<Entry> entries;
    list<Of::changes>(entries, [&](::s2ix_handle* handle, Entry* to, std::size_t room, std::size_t* many) {
      return s2ix_change(handle, number, to, room, many);
    });
    return entries;
  }

  // The entries that lead from what this index holds to what another does: the pairs whose counts differ, by rising cell, then label. record()
  // of them gives this one the other's pairs, by one change. O(n + m) for the pairs of both. S2IX_CLOSED.
  [[nodiscard]] std::vector<Entry> difference(const Index& other) const {
    // (a copy, so that no call takes two locks)
    Index after = other.copy();
    std::vector<Entry> entries;
    list(entries, [&](::s2ix_handle* handle, Entry* to, std::size_t room, std::size_t* number) {
      return s2ix_difference(handle, after.handle_.unlocked(), to, room, number);
    });
    return entries;
  }

  // On how many faces, 0 to 6, the last accepted edit (record too), undo, redo or apply changed pairs; 0 before the first of these. O(1).
  // S2IX_CLOSED.
  [[nodiscard]] std::size_t faces_rebuilt() const { return number<Of::changes>(s2ix_faces_rebuilt); }

  // How many ranges of leaves there are over which the same pairs lie: at least 1. O(1). S2IX_CLOSED.
  [[nodiscard]] std::size_t range_count() const { return number(s2ix_range_count); }

  // The range that has a leaf. O(log n). S2IX_CLOSED, S2IX_NO_CELL.
  [[nodiscard]] Range find(Cell leaf) const {
    return answer<Range>(
        [&](::s2ix_handle* handle, Range* to) { return s2ix_find(handle, leaf.number(), &to->place, &to->start, &to->limit); },
        [&](std::uint32_t status) { return detail::wrong_leaf(status, leaf.number()); });
  }

  // The range at a place, counted from 0. An edit may move the places. O(log n). S2IX_CLOSED, S2IX_NO_RANGE.
  [[nodiscard]] Range range(std::size_t place) const {
    return answer<Range>([&](::s2ix_handle* handle, Range* to) {
      bool is_empty = false;
      to->place = place;
      return s2ix_range(handle, place, &to->start, &to->limit, &is_empty);
    });
  }

  // Whether no pair lies over the range at a place. O(log n). S2IX_CLOSED, S2IX_NO_RANGE.
  [[nodiscard]] bool is_empty(std::size_t place) const {
    return answer<bool>([&](::s2ix_handle* handle, bool* is_empty) {
      Range range{};
      return s2ix_range(handle, place, &range.start, &range.limit, is_empty);
    });
  }

  // Of the pairs over the range at a place, those whose cells begin at the leaf number `from` or later, the innermost cell first, the labels
  // of one cell rising. If `from` is 0, these are all of them. If `from` is the limit of an earlier range, these are the pairs that don't
  // also lie over the earlier range. O(log n + k) for k pairs. S2IX_CLOSED, S2IX_NO_RANGE.
  void contents(std::size_t place, std::uint64_t from, std::vector<Row>& rows) const {
    list(rows, [&](::s2ix_handle* handle, Row* to, std::size_t room, std::size_t* number) {
      return s2ix_contents(handle, place, from, to, room, number);
    });
  }
  [[nodiscard]] std::vector<Row> contents(std::size_t place, std::uint64_t from = 0) const {
    std::vector<Row> rows;
    contents(place, from, rows);
    return rows;
  }

  // The place of a range that has a pair over it: the first from the place `from` on, or the last before the place `before`. O(log n).
  // S2IX_CLOSED, S2IX_NO_RANGE.
  [[nodiscard]] std::size_t next_full(std::size_t from) const {
    return number([&](::s2ix_handle* handle, std::size_t* to) { return s2ix_next_full(handle, from, to); });
  }
  [[nodiscard]] std::size_t previous_full(std::size_t before) const {
    return number([&](::s2ix_handle* handle, std::size_t* to) { return s2ix_previous_full(handle, before, to); });
  }

  // The dump of what is held (FORMATS.md). O(n). S2IX_CLOSED.
  [[nodiscard]] std::string dump() const { return text(s2ix_dump, s2ix_len, 32); }

  // The journal of the changes that can be undone, the oldest first (FORMATS.md). O(n) for n entries. S2IX_CLOSED.
  [[nodiscard]] std::string journal() const { return text<Of::changes>(s2ix_journal, s2ix_done_count, 64); }

  // The journal of the changes that can be undone from the one with a number on, as in revert: what an index needs for apply that has done
  // those before it. If the number is one more than that of the last, it is the journal of no changes. O(n) for n entries. S2IX_CLOSED,
  // S2IX_NO_SUCH_CHANGE.
  [[nodiscard]] std::string journal_from(std::uint32_t change) const {
    return text<Of::changes>(
        [&](::s2ix_handle* handle, std::uint8_t* bytes, std::size_t room, std::size_t* number) {
          return s2ix_journal_from(handle, change, bytes, room, number);
        },
        [&](::s2ix_handle* handle, std::size_t* many) {
          const std::uint32_t status = s2ix_done_count(handle, many);
          *many -= std::min<std::size_t>(*many, change == 0 ? 0 : change - 1);
          return status;
        },
        64);
  }

  // The export of what is held: one line of compact JSON, without a line feed (FORMATS.md). O(n). S2IX_CLOSED.
  [[nodiscard]] std::string export_json() const { return text(s2ix_export, s2ix_len, 32); }

  // Carries out one line of a script, given without its line feed, and returns its answer (FORMATS.md): `ok N`, `no NAME`, or the lines
  // of a query, each with its line feed; nothing for a blank line or a comment. A refused line throws nothing. It costs what the line's own
  // call does. S2IX_CLOSED.
  std::string line(std::string_view line) {
    std::string answer;
    // (the first call has room for the answer of any edit, so that only a long answer needs a second call)
    const std::uint32_t status = handle_.edit([&](::s2ix_handle* handle) {
      if (group_ && detail::drops_changes(line)) check_no_group();
      return detail::fill(answer, [&](char* bytes, std::size_t room, std::size_t* number) {
        return s2ix_line(handle, detail::bytes(line), line.size(), reinterpret_cast<std::uint8_t*>(bytes), room, number);
      });
    });
    detail::check(status);
    return answer;
  }

 private:
  template <class Id>
  friend class BasicS2CellIndex;

  struct Closed {};
  explicit Index(Closed) noexcept {}

  // The index that a call of two texts opens.
  static Index led(decltype(s2ix_replay)* call, std::string_view dump, std::string_view journal, Limits limits) {
    Index index{Closed()};
    std::size_t place = 0, entry = 0;
    const std::uint32_t status = call(index.handle_.unlocked(), detail::bytes(dump), dump.size(), detail::bytes(journal), journal.size(), limits.pairs,
                                      limits.copies, limits.changes, &place, &entry);
    detail::check(status, [&](std::uint32_t why) { return where(why, place, entry); });
    return index;
  }

  // Where a text is refused: at a line, or at a change and its entry.
  static Where where(std::uint32_t why, std::size_t place, std::size_t entry) {
    Where where;
    (why == S2IX_NO_DUMP || why == S2IX_NO_JOURNAL ? where.line : where.change) = place;
    where.entry = entry;
    return where;
  }

  // A group, which lasts as long as this lives: how many changes could be undone when it began.
  class Grouped {
   public:
    // (under the lock, since calls on other threads read which group there is)
    explicit Grouped(Index& index) : index_(index) {
      detail::check(index.handle_.with([&](::s2ix_handle* handle) {
        const std::uint32_t status = s2ix_done_count(handle, &first_);
        if (status == S2IX_DONE) around_ = std::exchange(index.group_, first_);
        return status;
      }));
    }
    Grouped(const Grouped&) = delete;
    Grouped& operator=(const Grouped&) = delete;
    ~Grouped() {
      index_.handle_.with([&](::s2ix_handle*) { index_.group_ = around_; });
    }

    [[nodiscard]] std::size_t first() const noexcept { return first_; }

   private:
    Index& index_;
    std::size_t first_ = 0;
    std::optional<std::size_t> around_;
  };

  // Whether the last changes, so many, belong to the group, if there is one.
  bool is_in_group(::s2ix_handle* handle, std::size_t last) const {
    std::size_t done = 0;
    return !group_ || s2ix_done_count(handle, &done) != S2IX_DONE || (*group_ <= done && last <= done - *group_);
  }

  // Throws in a group.
  void check_no_group() const {
    if (group_) throw std::logic_error("s2ix: an index drops no changes in a group");
  }

  // Makes a call that drops changes.
  template <class Call>
  std::uint32_t drop(Call call) {
    return handle_.edit([&](::s2ix_handle* handle) {
      check_no_group();
      return call(handle);
    });
  }

  // What a call reads: what is held, or the changes too, which only the store itself has.
  enum class Of { held, changes };

  template <Of of = Of::held, class Call>
  auto ask(Call call) const {
    if constexpr (of == Of::held) {
      return handle_.ask(call);
    } else {
      return handle_.with(call);
    }
  }

  // What a call writes to the pointer it is given. `wrong` says of which number a refusal speaks.
  template <class Answer, Of of = Of::held, class Call, class Wrong = detail::NoneWrong>
  Answer answer(Call call, Wrong wrong = Wrong()) const {
    Answer given{};
    detail::check(ask<of>([&](::s2ix_handle* handle) { return call(handle, &given); }), wrong);
    return given;
  }

  template <Of of = Of::held, class Call, class Wrong = detail::NoneWrong>
  std::size_t number(Call call, Wrong wrong = Wrong()) const {
    return answer<std::size_t, of>(call, wrong);
  }

  // The number that an edit writes.
  template <class Call, class Wrong = detail::NoneWrong>
  std::size_t edit(Call call, Wrong wrong = Wrong()) {
    std::size_t given = 0;
    detail::check(handle_.edit([&](::s2ix_handle* handle) { return call(handle, &given); }), wrong);
    return given;
  }

  // The number that an edit by a list writes.
  template <class Item>
  std::size_t edit_by(std::uint32_t (*call)(::s2ix_handle*, const Item*, std::size_t, std::size_t*), const Item* items, std::size_t size) {
    static constexpr Item none{};
    std::size_t place = 0;
    const std::uint32_t status =
        handle_.edit([&](::s2ix_handle* handle) { return call(handle, size == 0 ? &none : items, size, &place); });
    detail::check(status, [&](std::uint32_t why) { return detail::wrong_item(why, items, place); });
    return place;
  }

  // Puts the list of a call in place of what `items` held. The first call has at least that much room.
  template <Of of = Of::held, class Items, class Call, class Wrong = detail::NoneWrong>
  void list(Items& items, Call call, Wrong wrong = Wrong(), std::size_t least_room = 0) const {
    const std::uint32_t status = ask<of>([&](::s2ix_handle* handle) {
      return detail::fill(
          items, [&](auto* to, std::size_t room, std::size_t* number) { return call(handle, to, room, number); }, least_room);
    });
    detail::check(status, wrong);
  }

  // The same for a label's items.
  template <class Items, class Call>
  void list_of(std::uint32_t label, Items& items, Call call) const {
    const std::uint32_t status = handle_.ask([&](::s2ix_handle* handle) { return fill_of(handle, label, items, call); });
    detail::check(status, [&](std::uint32_t why) { return detail::wrong_label(why, {label}); });
  }

  // The same by a handle. The call reads all pairs for the items, so room for some of these costs little more. A label has no more items
  // than there are pairs, and may be likely to have so many.
  template <class Items, class Call>
  static std::uint32_t fill_of(::s2ix_handle* handle, std::uint32_t label, Items& items, Call call, std::size_t likely = 0) {
    std::size_t pairs = 0;
    s2ix_len(handle, &pairs);
    return detail::fill(
        items, [&](auto* to, std::size_t room, std::size_t* number) { return call(handle, label, to, room, number); },
        std::min(pairs, std::max(pairs / 16, likely)));
  }

  // Puts what a call finds for many leaves, or for many targets, in place of what the lists held.
  template <class Item, class Call>
  void over_each(Call call, const Cells& leaves, std::vector<std::size_t>& ends, std::vector<Item>& items) const {
    std::size_t place = 0;
    const std::uint32_t status =
        handle_.ask([&](::s2ix_handle* handle) { return detail::fill_over<Item>(handle, call, leaves, ends, items, place); });
    detail::check(status, [&](std::uint32_t why) { return detail::wrong_at(why, leaves, place); });
  }
  template <class Item, class Call>
  void met_by_each(Call call, const Targets& targets, std::vector<std::size_t>& ends, std::vector<Item>& items) const {
    std::size_t place = 0;
    const std::uint32_t status =
        handle_.ask([&](::s2ix_handle* handle) { return detail::fill_met<Item>(handle, call, targets, ends, items, place); });
    detail::check(status, [&](std::uint32_t why) { return detail::wrong_target(why, targets, place); });
  }

  // Puts the first page of what meet gives in a visit into some room, and returns how many pairs that is: less than `room` only if the list ends
  // there.
  static std::size_t put_first_met(const detail::Handle::Visit& visit, const detail::Given& cells, Row* rows, std::size_t room) {
    if (!cells.is_one_leaf()) return put_met(visit, cells, 0, rows, room);
    // (a leaf has a quicker call, which puts the same pairs in the same order)
    std::size_t number = 0;
    const std::uint32_t status = visit.ask([&](::s2ix_handle* handle) { return s2ix_at(handle, cells.first(), rows, room, &number); });
    return status == S2IX_DONE ? number : put_met(visit, cells, 0, rows, room);
  }

  // The same for the page from a place on.
  [[gnu::noinline]] static std::size_t put_met(const detail::Handle::Visit& visit, const detail::Given& cells, std::size_t from, Row* rows,
                                               std::size_t room) {
    std::size_t number = 0;
    const std::uint32_t status = visit.ask(
        [&](::s2ix_handle* handle) { return s2ix_meet_from(handle, cells.data(), cells.size(), from, rows, room, &number); });
    detail::check(status, [&](std::uint32_t why) { return detail::wrong_in(why, cells); });
    return number;
  }

  // Puts what labels gives into a page, and returns how many labels that is.
  std::size_t put_labels(const detail::Given& cells, detail::Page<std::uint32_t>& page) const {
    std::size_t number = 0;
    const std::uint32_t status = handle_.ask([&](::s2ix_handle* handle) {
      const auto call = [&] { return s2ix_labels(handle, cells.data(), cells.size(), page.data(), page.size(), &number); };
      const std::uint32_t found = call();
      if (found != S2IX_NO_ROOM) return found;
      page.grow(number);
      return call();
    });
    detail::check(status, [&](std::uint32_t why) { return detail::wrong_in(why, cells); });
    return number;
  }

  // The pairs that a call puts from a place on: at most `most`, and at most as many as are held after the place.
  template <class Call, class Wrong = detail::NoneWrong>
  std::vector<Row> page(std::size_t from, std::size_t most, Call call, Wrong wrong = Wrong()) const {
    std::vector<Row> rows;
    const std::uint32_t status = handle_.ask([&](::s2ix_handle* handle) {
      std::size_t number = 0;
      s2ix_len(handle, &number);
      const std::size_t room = std::min(most, number - std::min(from, number));
      rows.resize(room == 0 ? 1 : room);
      const std::uint32_t answered = call(handle, rows.data(), room, &number);
      rows.resize(answered == S2IX_DONE ? number : 0);
      return answered;
    });
    detail::check(status, wrong);
    return rows;
  }

  // The text of a call. The first call has room for `bytes_each` bytes for each item that `counter` counts.
  template <Of of = Of::held, class Call, class Counter>
  std::string text(Call call, Counter counter, std::size_t bytes_each) const {
    std::string text;
    const std::uint32_t status = ask<of>([&](::s2ix_handle* handle) {
      std::size_t many = 0;
      counter(handle, &many);
      return detail::fill(
          text,
          [&](char* bytes, std::size_t room, std::size_t* number) {
            return call(handle, reinterpret_cast<std::uint8_t*>(bytes), room, number);
          },
          bytes_each * many);
    });
    detail::check(status);
    detail::trim(text);
    return text;
  }

  detail::Handle handle_;
  // How many changes could be undone when the group began, if there is one.
  std::optional<std::size_t> group_;
};

}  // namespace s2ix

#endif
