// S2's own class of cells and labels, S2CellIndex, over an Index that can be edited. Include s2ix.hpp, which says more.
#ifndef S2IX_CELL_INDEX_HPP
#define S2IX_CELL_INDEX_HPP

#include "s2ix_index.hpp"
#include "s2ix_label_set.hpp"
#include "s2ix_room.hpp"

#include <algorithm>
#include <atomic>
#include <cinttypes>
#include <cstddef>
#include <cstdint>
#include <cstdio>
#include <functional>
#include <iterator>
#include <limits>
#include <memory>
#include <mutex>
#include <ostream>
#include <string>
#include <type_traits>
#include <unordered_set>
#include <utility>
#include <vector>

namespace s2ix {

namespace detail {

// A cell as S2 prints it.
inline std::string printed(Cell cell) {
  if (cell::is_valid(cell.number())) return cell::path(cell.number());
  char text[32] = {};
  std::snprintf(text, sizeof text, "Invalid: %016" PRIx64, cell.number());
  return text;
}

// Whether a set can be told how many items it will hold.
template <class Set, class = void>
struct HasReserve : std::false_type {};
template <class Set>
struct HasReserve<Set, std::void_t<decltype(std::declval<Set&>().reserve(std::size_t{}))>> : std::true_type {};

// Goes to the next copy of a row, counted from 0, and returns true; if that was the last one, goes back to the first and returns false.
inline bool next_copy(const Row& row, std::uint32_t& copy) noexcept {
  // (most rows are one copy)
  if (row.count == 1) return false;
  if (++copy < row.count) return true;
  copy = 0;
  return false;
}

// What is answered, besides the statuses of s2ix.h, if the ranges have moved since an iterator was positioned.
inline constexpr std::uint32_t ranges_moved = 0xffffffff;

}  // namespace detail

// An iterator of an S2CellIndex can't go on, because an edit has moved the ranges since it was positioned: position it anew. It has the status
// S2IX_NO_RANGE.
class StaleIterator : public Error {
 public:
  StaleIterator() : Error(S2IX_NO_RANGE, "s2ix: an edit has moved the ranges since the iterator was positioned: position it anew") {}
};

namespace detail {

// Whether the ranges are as they were in an earlier state, as a status.
inline std::uint32_t unmoved(const ::s2ix_handle* handle, std::uint64_t state, std::uint64_t earlier) {
  if (!handle->is_open) return S2IX_CLOSED;
  return state == earlier ? std::uint32_t{S2IX_DONE} : ranges_moved;
}

// Throws if the ranges have moved.
inline void check_stale(std::uint32_t status) {
  if (status == ranges_moved) throw StaleIterator();
}

}  // namespace detail

// S2's own class over an Index: the same names, arguments and meanings. What differs from S2:
//
//   S2                                            here
//   Build() comes once, between adds and queries  any number of times: it makes one change of the adds since the last Build()
//   no query before Build()                       queries, index() and a CellIterator build first; other iterators don't
//   several threads may query at once             they may too, each with iterators of its own, also while another edits through index().
//                                                 Build() first, if they use RangeIterators. No other call may run beside an Add(), a
//                                                 Clear() or a move
//   Clear()                                       drops the changes too: nothing is left to undo
//   any number of pairs                           limits: at most 1,000,000 distinct pairs; Build() throws above them
//   an invalid cell, a label below 0: undefined   Add and the queries throw Error
//   Add(cells, label) adds each cell of a union   each of its normal form, as of a union that S2 has normalised
//   a pair added n times is kept n times          is kept once with a count; visits and iterators give it n times, as S2 does
//   a visit comes in no stated order              by first shared leaf, then falling level, then rising label
//   a CellIterator reads the index                gives the pairs as they were when it was made, by rising cell, then label
//   no Add while a visit runs                     a visitor's adds and edits throw std::logic_error
//   no iterator is used after Build() or Clear()  these and each call that changes what index() holds or its changes move the ranges. Then a
//                                                 RangeIterator keeps what it has read, and throws StaleIterator if it has to read more:
//                                                 position it anew. A ContentsIterator keeps the pairs that StartUnion read, and may give
//                                                 them again after the edit; StartUnion throws StaleIterator if the range has moved and may
//                                                 have pairs. Of edits by index().handle() they learn nothing
//   a moved iterator leaves a copy behind         leaves one that is done
//   a RangeIterator is unpositioned at first      is done at first, and its Prev() returns false
//   Next() and limit_id() when done: undefined    Next() stays, and limit_id() returns the end of all leaves
//   Seek() to what is no leaf: undefined          throws Error, and the iterator stays
//   Advance(n) takes n below 0                    returns false, and the iterator stays
//   a ContentsIterator states no order            gives the innermost cell first, the labels of one cell rising
//   GetIntersectingLabels gives absl's set        a LabelSet, which rises and has its calls, or any set that is passed
//
// A thread that visits, asks for labels or goes along ranges and their pairs keeps up to 96 kB of room for its next query, until it ends.
//
// index().undo() takes back one Build(). If a limit would be passed or the journal is full (S2IX_JOURNAL_FULL), Build() and queries throw:
// the index stays as it was, and the adds wait for the next Build(). Forget() makes room in the journal. Only Clear() drops adds; only
// Clear() and Forget() drop changes.
//
// An Id is a std::uint64_t, or a class such as S2CellId that is constructed from one and returns it from id(). A union is any range of Ids. So
// BasicS2CellIndex<S2CellId> takes S2's own S2CellId and S2CellUnion.
template <class Id>
class BasicS2CellIndex {
 public:
  using Label = std::int32_t;

  struct LabelledCell {
    Id cell_id{};
    Label label = -1;

    LabelledCell() = default;
    LabelledCell(Id cell, Label its_label) : cell_id(cell), label(its_label) {}

    bool operator==(const LabelledCell& other) const { return cell_id == other.cell_id && label == other.label; }
    bool operator<(const LabelledCell& other) const { return cell_id != other.cell_id ? cell_id < other.cell_id : label < other.label; }

    // As S2 prints one: (0/32, 7).
    friend std::ostream& operator<<(std::ostream& out, const LabelledCell& pair) {
      return out << '(' << detail::printed(pair.cell_id) << ", " << pair.label << ')';
    }
  };

  BasicS2CellIndex() = default;
  explicit BasicS2CellIndex(Limits limits) : limits_(limits), index_(limits) {}
  BasicS2CellIndex(BasicS2CellIndex&& other) noexcept
      : limits_(other.limits_), added_(std::move(other.added_)), has_added_(other.has_added_.exchange(false)), index_(std::move(other.index_)) {}
  BasicS2CellIndex& operator=(BasicS2CellIndex&& other) noexcept {
    if (this != &other) {
      limits_ = other.limits_;
      added_ = std::exchange(other.added_, {});
      has_added_ = other.has_added_.exchange(false);
      index_ = std::move(other.index_);
    }
    return *this;
  }

  // The index beneath, for edits, undo and all else that S2 lacks. It first builds what was added, as Build() does. During a visit it
  // refuses edits: see VisitIntersectingCells.
  [[nodiscard]] Index& index() { return built(); }
  [[nodiscard]] const Index& index() const { return built(); }

  // How many pairs were added, repeated ones included. O(n).
  [[nodiscard]] int num_cells() const { return static_cast<int>(std::min<std::uint64_t>(built().copies(), std::numeric_limits<int>::max())); }

  // Adds a pair, or one more copy of it. O(1).
  void Add(Id cell_id, Label label) {
    const std::uint64_t cell = raw(cell_id);
    index_.handle_.check_unvisited();
    check_label(label);
    if (!cell::is_valid(cell)) detail::refuse(S2IX_NO_CELL, detail::wrong_cell(S2IX_NO_CELL, {cell}));
    added_.push_back(Row{cell, static_cast<std::uint32_t>(label), 1});
    has_added_ = true;
  }

  // Adds a pair for each cell of a union. O(n log n) for n cells.
  template <class Union, class = decltype(std::begin(std::declval<const Union&>()))>
  void Add(const Union& cell_ids, Label label) {
    index_.handle_.check_unvisited();
    check_label(label);
    const std::vector<std::uint64_t> cells = cell_union::normalise(cell_ids);
    added_.insert(added_.end(), cells.size(), Row{0, static_cast<std::uint32_t>(label), 1});
    std::transform(cells.begin(), cells.end(), added_.end() - static_cast<std::ptrdiff_t>(cells.size()),
                   [&](std::uint64_t cell) { return Row{cell, static_cast<std::uint32_t>(label), 1}; });
    has_added_ = true;
  }

  // Makes one change of what was added since the last time, if anything was.
  void Build() { built(); }

  // Drops all pairs and all changes, and what was added but not built.
  void Clear() {
    index_.handle_.check_unvisited();
    index_ = Index(limits_);
    added_.clear();
    has_added_ = false;
  }

  // Keeps the pairs, and what was added but not built, and drops all changes: nothing is left to undo, and the next Build() has room.
  void Forget() { index_.forget(); }

  // A function that gets each pair of a visit. It returns false to end the visit.
  using CellVisitor = std::function<bool(Id cell_id, Label label)>;

  // Visits the pairs that share a leaf with a union, each copy of each, until the visitor returns false. Returns false if it did, else true.
  // The visitor may query the index, or visit it again, but not change it. Until the visit ends, Add, Clear and Forget throw
  // std::logic_error and change nothing, and so does each edit, undo, redo, forget, clear and line through index(), on any thread.
  template <class Union>
  bool VisitIntersectingCells(const Union& target, const CellVisitor& visitor) const {
    return visit_met(target, visitor);
  }

  // The same, quicker, for any other function: a copy of it is called.
  template <class Union, class Visitor, class = std::enable_if_t<std::is_invocable_r_v<bool, Visitor&, Id, Label>>>
  bool VisitIntersectingCells(const Union& target, Visitor visitor) const {
    return visit_met(target, visitor);
  }

  // A set of labels, in rising order, of which any set can be made.
  using LabelSet = s2ix::LabelSet;

  // The labels of those pairs.
  template <class Union>
  LabelSet GetIntersectingLabels(const Union& target) const {
    LabelSet labels;
    with_labels(target, [&](const std::uint32_t* first, std::size_t number) { labels.assign_rising(first, number); });
    return labels;
  }

  // Puts the labels of those pairs in place of what a set held.
  template <class Union, class Set>
  void GetIntersectingLabels(const Union& target, Set* labels) const {
    labels->clear();
    with_labels(target, [&](const std::uint32_t* first, std::size_t number) {
      if constexpr (detail::HasReserve<Set>::value) labels->reserve(number);
      for (std::uint32_t label : Items<std::uint32_t>(first, first + number)) labels->insert(static_cast<Label>(label));
    });
  }

  // Gives all pairs, each copy of each, by rising cell, then label. It reads them page by page: more than one page from a copy of the index,
  // which shares memory with it.
  class CellIterator {
   public:
    explicit CellIterator(const BasicS2CellIndex* index) : pages_(first_page(index->built())) {}

    Id cell_id() const { return Id(pages_->cell); }
    Label label() const { return static_cast<Label>(pages_->label); }
    LabelledCell labelled_cell() const { return LabelledCell(cell_id(), label()); }

    // Whether all pairs have been given, or it was moved from. If so, call no other method.
    bool done() const { return pages_.is_at_end(); }

    void Next() {
      if (detail::next_copy(*pages_, copy_)) return;
      pages_.next();
      if (pages_.is_at_end()) pages_.turn_to(next_page(pages_.made()));
    }

   private:
    static constexpr std::size_t most = 1024;

    // A page of pairs, how many there are in it, and the place of its first one.
    struct Page {
      std::vector<Row> items;
      std::size_t size = 0, from = 0;
      // What all pages are read from, if there are several.
      std::shared_ptr<detail::Handle> rest;

      std::uint32_t read(::s2ix_handle* handle) { return s2ix_pairs(handle, from, items.data(), items.size(), &size); }
    };

    [[gnu::noinline]] static Page* first_page(const Index& beneath) {
      auto page = std::make_unique<Page>();
      detail::check(beneath.handle_.ask([&](::s2ix_handle* handle) {
        std::size_t held = 0;
        std::uint32_t status = s2ix_len(handle, &held);
        if (status != S2IX_DONE || held == 0) return status;
        page->items.resize(std::min(held, most));
        status = page->read(handle);
        if (status != S2IX_DONE || held <= most) return status;
        // (the other pages are read from a copy, which no edit changes)
        page->rest = std::make_shared<detail::Handle>();
        return s2ix_copy(handle, page->rest->unlocked());
      }));
      return page.release();
    }

    // Reads the page after one in its place, and returns how many pairs there are in it.
    [[gnu::noinline]] static std::size_t next_page(Page* page) {
      if (page->rest == nullptr || page->size < most) return 0;
      page->from += page->size;
      detail::check(page->rest->with([&](::s2ix_handle* handle) { return page->read(handle); }));
      return page->size;
    }

    detail::Pages<Page> pages_;
    std::uint32_t copy_ = 0;
  };

  class ContentsIterator;

  // Goes along the ranges of leaves over which the same pairs lie. They follow one another, from the first leaf of face 0 to the last of
  // face 5. Position it by Begin, Seek or Finish. If the ranges have moved since, a call that has to read them throws StaleIterator, and the
  // iterator stays. One that was moved from is as a new one.
  class RangeIterator {
   public:
    explicit RangeIterator(const BasicS2CellIndex* index) : index_(index) {}
    RangeIterator(const RangeIterator& other) = default;
    RangeIterator(RangeIterator&& other) noexcept
        : pages_(std::move(other.pages_)),
          index_(other.index_),
          at_(std::exchange(other.at_, At())),
          goes_on_(std::exchange(other.goes_on_, false)),
          page_(other.page_) {}
    RangeIterator& operator=(const RangeIterator& other) { return *this = RangeIterator(other); }
    RangeIterator& operator=(RangeIterator&& other) noexcept {
      pages_ = std::move(other.pages_);
      index_ = other.index_;
      at_ = std::exchange(other.at_, At());
      goes_on_ = std::exchange(other.goes_on_, false);
      page_ = other.page_;
      return *this;
    }
    ~RangeIterator() = default;

    // The first leaf of the range; the end of all leaves, 0xc000000000000001, if the iterator is done.
    Id start_id() const { return Id(found_at().start); }

    // The leaf with which the next range begins; the end of all leaves after the last one.
    Id limit_id() const { return Id(found_at().limit); }

    // Whether the iterator stands after the last range.
    bool done() const { return at_.start == detail::end_of_leaves; }

    // Whether no pair lies over the range; true if the iterator is done.
    bool is_empty() const {
      if (at_.known != Known::all) {
        const At& at = found_at();
        at_ = read_at(index_, at.place, at.state).at;
      }
      return at_.is_empty;
    }

    void Begin() { go([](::s2ix_handle*, std::uint64_t, std::size_t*) { return std::uint32_t{S2IX_DONE}; }); }

    // Goes after the last range.
    void Finish() { go([](::s2ix_handle*, std::uint64_t, std::size_t*) { return std::uint32_t{S2IX_NO_RANGE}; }); }

    void Next() {
      if (pages_.done()) {
        if (done()) return;
        if (goes_on_) read_page();
        if (pages_.done()) return go_on();
      }
      at_.place++;
      at_.start = pages_->start;
      at_.limit = pages_->limit;
      at_.is_empty = pages_->is_empty;
      pages_.next();
    }

    // Goes to the range before and returns true; returns false at the first range, and stays.
    bool Prev() {
      const At& at = found_at();
      return at.place > 0 && stand_if(read_at(index_, at.place - 1, at.state));
    }

    // Goes to the range that has a leaf. The range is looked for only when more than its pairs is asked for, among the ranges of that moment.
    void Seek(Id target) {
      const std::uint64_t leaf = raw(target);
      if (!index_->index_.is_open()) detail::check(S2IX_CLOSED);
      if (!detail::is_leaf(leaf)) detail::refuse(S2IX_NO_CELL, detail::wrong_leaf(S2IX_NO_CELL, leaf));
      at_.start = leaf;
      at_.known = Known::leaf;
      leave_pages();
    }

    // Goes n ranges on and returns true, if there is a range; else it returns false and stays.
    bool Advance(int n) {
      if (n < 0 || done()) return false;
      const At& at = found_at();
      return stand_if(read_at(index_, at.place + static_cast<std::size_t>(n), at.state));
    }

   protected:
    // Goes to the range whose place a call finds, or after the last one if there is none. The call gets the state that it reads.
    template <class Find, class Wrong = detail::NoneWrong>
    void go(Find find, Wrong wrong = Wrong()) {
      stand(read(index_, find, wrong).at);
      at_.known = Known::all;
    }

    // Goes there and returns true, if there is one; else it returns false and stays.
    template <class Find>
    bool go_if(Find find) {
      return stand_if(read(index_, find));
    }

    // What is known of where it stands: a leaf of the range; or place, start and limit too; or all.
    enum class Known : unsigned char { leaf, range, all };

    // Where it stands: at a range in a state, or after the last one, or at a leaf that was sought.
    struct At {
      std::size_t place = 0;
      std::uint64_t state = 0;
      std::uint64_t start = detail::end_of_leaves, limit = detail::end_of_leaves;
      bool is_empty = true;
      Known known = Known::all;

      [[nodiscard]] bool is_known_empty() const { return known == Known::all && is_empty; }
    };

    // Where it stands, with the range.
    const At& found_at() const {
      if (at_.known == Known::leaf) at_ = found(index_, at_.start);
      return at_;
    }

   private:
    friend class ContentsIterator;

    struct Found {
      At at;
      bool is_there = true;
    };

    // The range whose place a call finds, or what stands after the last one if there is none.
    template <class Find, class Wrong = detail::NoneWrong>
    static Found read(const BasicS2CellIndex* index, Find find, Wrong wrong = Wrong()) {
      Found found;
      At& at = found.at;
      const std::uint32_t answered = index->index_.handle_.ask_in_state([&](::s2ix_handle* handle, std::uint64_t state) {
        at.state = state;
        std::uint32_t status = find(handle, state, &at.place);
        if (status == S2IX_DONE) status = s2ix_range(handle, at.place, &at.start, &at.limit, &at.is_empty);
        if (status != S2IX_NO_RANGE) return status;
        found.is_there = false;
        at = At();
        at.state = state;
        return s2ix_range_count(handle, &at.place);
      });
      detail::check_stale(answered);
      detail::check(answered, wrong);
      return found;
    }

    // The range at a place of a state, or what stands after the last one.
    [[gnu::noinline]] static Found read_at(const BasicS2CellIndex* index, std::size_t its_place, std::uint64_t its_state) {
      return read(index, [=](::s2ix_handle* handle, std::uint64_t state, std::size_t* place) {
        *place = its_place;
        return detail::unmoved(handle, state, its_state);
      });
    }

    // The range that has a leaf; whether pairs lie over it is not asked.
    [[gnu::noinline]] static At found(const BasicS2CellIndex* index, std::uint64_t leaf) {
      At at;
      detail::check(index->index_.handle_.ask_in_state([&](::s2ix_handle* handle, std::uint64_t state) {
        at.state = state;
        return s2ix_find(handle, leaf, &at.place, &at.start, &at.limit);
      }));
      at.known = Known::range;
      return at;
    }

    void stand(const At& at) {
      at_ = at;
      leave_pages();
    }

    bool stand_if(const Found& found) {
      if (found.is_there) stand(found.at);
      return found.is_there;
    }

    void leave_pages() {
      pages_.clear();
      goes_on_ = false;
    }

    // Goes to the next range, or after the last one.
    void go_on() {
      const At& at = found_at();
      stand(read_at(index_, at.place + 1, at.state).at);
      at_.known = Known::all;
      goes_on_ = !done();
      page_ = first_page;
    }

    // Reads a page of the ranges after the one at which it stands. The next page is twice as long, up to the longest.
    [[gnu::always_inline]] void read_page() {
      pages_.fill_page(page_, [this](::s2ix_leaf_range* to, std::size_t room) { return put_page(index_, at_.place + 1, at_.state, to, room); });
      page_ = std::min(2 * page_, longest_page);
    }

    // Puts the ranges from a place of a state on into some room, and returns how many that is.
    [[gnu::noinline]] static std::size_t put_page(const BasicS2CellIndex* index, std::size_t from, std::uint64_t state, ::s2ix_leaf_range* to,
                                                  std::size_t room) {
      std::size_t number = 0;
      const std::uint32_t status = index->index_.handle_.ask_in_state([&](::s2ix_handle* handle, std::uint64_t now) {
        const std::uint32_t unmoved = detail::unmoved(handle, now, state);
        return unmoved == S2IX_DONE ? s2ix_ranges(handle, from, to, room, &number) : unmoved;
      });
      detail::check_stale(status);
      detail::check(status);
      return number;
    }

    // (a page takes a search, and many walks are short)
    static constexpr std::size_t first_page = 4, longest_page = 512;

    // (first, so that nothing is assigned if memory for a copy of it is refused)
    detail::Found<::s2ix_leaf_range, 16, longest_page> pages_;
    const BasicS2CellIndex* index_;
    // (what is known grows when more is asked for)
    mutable At at_;
    // Whether it has gone on by Next, so that the ranges after it are read in pages, and how long the next page is.
    bool goes_on_ = false;
    std::size_t page_ = first_page;
  };

  // Goes along the ranges over which some pair lies.
  class NonEmptyRangeIterator : public RangeIterator {
   public:
    explicit NonEmptyRangeIterator(const BasicS2CellIndex* index) : RangeIterator(index) {}

    void Begin() {
      this->go([](::s2ix_handle* handle, std::uint64_t, std::size_t* place) { return s2ix_next_full(handle, 0, place); });
    }

    // (of two ranges side by side, a pair lies over one at least)
    void Next() {
      RangeIterator::Next();
      if (this->is_empty()) RangeIterator::Next();
    }

    // Goes to the last such range before and returns true; returns false if there is none, and stays.
    bool Prev() {
      return this->go_if([at = this->found_at()](::s2ix_handle* handle, std::uint64_t state, std::size_t* place) {
        const std::uint32_t unmoved = detail::unmoved(handle, state, at.state);
        return unmoved == S2IX_DONE ? s2ix_previous_full(handle, at.place, place) : unmoved;
      });
    }

    // Goes to the range that has a leaf, or to the next such range after it, or after the last one.
    void Seek(Id target) {
      const std::uint64_t leaf = raw(target);
      this->go(
          [leaf](::s2ix_handle* handle, std::uint64_t, std::size_t* place) {
            std::uint64_t start = 0, limit = 0;
            const std::uint32_t status = s2ix_find(handle, leaf, place, &start, &limit);
            return status == S2IX_DONE ? s2ix_next_full(handle, *place, place) : status;
          },
          [leaf](std::uint32_t why) { return detail::wrong_leaf(why, leaf); });
    }
  };

  // Gives the pairs over ranges, each copy of each. If the ranges come in rising order, it gives no pair twice: after all pairs of a range
  // were given, later ranges leave them out, until an edit moves the ranges. One that was moved from is as after Clear.
  class ContentsIterator {
   public:
    ContentsIterator() = default;  // call Init before all else
    explicit ContentsIterator(const BasicS2CellIndex* index) { Init(index); }
    ContentsIterator(const ContentsIterator&) = default;
    ContentsIterator(ContentsIterator&& other) noexcept
        : rows_(std::move(other.rows_)), index_(other.index_), copy_(other.copy_), told_(std::exchange(other.told_, Told())) {}
    ContentsIterator& operator=(const ContentsIterator&) = default;
    ContentsIterator& operator=(ContentsIterator&& other) noexcept {
      rows_ = std::move(other.rows_);
      index_ = other.index_;
      copy_ = other.copy_;
      told_ = std::exchange(other.told_, Told());
      return *this;
    }
    ~ContentsIterator() = default;

    void Init(const BasicS2CellIndex* index) {
      index_ = index;
      Clear();
    }

    // Forgets which ranges were visited.
    void Clear() {
      rows_.clear();
      told_ = Told();
    }

    // Goes to the range's first pair that was not given yet. If the range lies before the last one, all its pairs are given. Throws
    // StaleIterator if the ranges have moved since the range was found, and pairs may lie over it; then it is done, as after Clear.
    void StartUnion(const RangeIterator& range) {
      const Told told = told_;
      const bool has_given_all = done();
      Clear();
      copy_ = 0;
      if (range.at_.known == RangeIterator::Known::leaf && !told.has_range()) return start_at(range.at_.start);
      start_at(range.at_, told, has_given_all);
    }

    Id cell_id() const { return Id(rows_->cell); }
    Label label() const { return static_cast<Label>(rows_->label); }
    LabelledCell labelled_cell() const { return LabelledCell(cell_id(), label()); }

    // Whether all pairs of the range have been given. If so, call neither Next nor what reads a pair.
    bool done() const { return rows_.done(); }

    void Next() {
      if (!detail::next_copy(*rows_, copy_)) rows_.next();
    }

   private:
    using At = typename RangeIterator::At;

    // What was given, of a state.
    struct Told {
      std::uint64_t state = 0;
      // Pairs whose cells begin before `from` were given over an earlier range. The last range begins and ends with these leaves.
      std::uint64_t from = 0, start = 0, limit = 0;
      // A leaf of the last range, if that was the first and no more is known of it.
      std::uint64_t leaf = 0;

      [[nodiscard]] bool has_range() const { return (limit | leaf) != 0; }

      // Goes to the range at which an iterator stands. `has_given_all` says whether all pairs of the last one were given.
      void go_to(const At& at, bool has_given_all) {
        if (at.state != state) *this = Told();
        if (has_given_all) from = limit;
        if (at.start < start) from = 0;
        start = at.start;
        limit = at.limit;
        leaf = 0;
        state = at.state;
      }
    };

    // Reads all pairs over a leaf.
    void start_at(std::uint64_t leaf) {
      detail::check(index_->index_.handle_.ask_in_state([&](::s2ix_handle* handle, std::uint64_t state) {
        told_.state = state;
        return rows_.fill([&](Row* to, std::size_t room, std::size_t* number) { return s2ix_at(handle, leaf, to, room, number); });
      }));
      told_.leaf = leaf;
    }

    // Reads the pairs over the range at which an iterator stands, but those that were told before.
    [[gnu::noinline]] void start_at(At at, Told told, bool has_given_all) {
      if (told.leaf != 0 || !at.is_known_empty()) {
        const std::uint32_t status = index_->index_.handle_.ask_in_state(
            [&](::s2ix_handle* handle, std::uint64_t state) { return read(handle, state, at, told, has_given_all); });
        // (a place may be gone only if an edit through handle() moved the ranges)
        detail::check_stale(status == S2IX_NO_RANGE ? detail::ranges_moved : status);
        detail::check(status);
      } else {
        told.go_to(at, has_given_all);
      }
      told_ = told;
    }

    // Finds what isn't known yet of where an iterator stands and of the last range, and reads.
    std::uint32_t read(::s2ix_handle* handle, std::uint64_t state, At& at, Told& told, bool has_given_all) {
      std::size_t place = 0;
      if (told.leaf != 0 && told.state == state) s2ix_find(handle, told.leaf, &place, &told.start, &told.limit);
      if (at.known == RangeIterator::Known::leaf) {
        const std::uint32_t status = s2ix_find(handle, at.start, &at.place, &at.start, &at.limit);
        if (status != S2IX_DONE) return status;
        at.state = state;
      }
      told.go_to(at, has_given_all);
      if (at.is_known_empty()) return S2IX_DONE;
      const std::uint32_t unmoved = detail::unmoved(handle, state, at.state);
      if (unmoved != S2IX_DONE) return unmoved;
      return rows_.fill([&](Row* to, std::size_t room, std::size_t* number) { return s2ix_contents(handle, at.place, told.from, to, room, number); });
    }

    // (a point has few pairs)
    detail::Found<Row, 64, 256> rows_;
    const BasicS2CellIndex* index_ = nullptr;
    std::uint32_t copy_ = 0;
    Told told_;
  };

 private:
  static std::uint64_t raw(const Id& id) { return Cell(id).number(); }

  static void check_label(Label label) {
    if (label < 0) detail::refuse(S2IX_NO_LABEL, detail::wrong_label(S2IX_NO_LABEL, {static_cast<std::uint32_t>(label)}));
  }

  // Calls a visitor with the pairs that share a leaf with a union.
  template <class Union, class Visitor>
  bool visit_met(const Union& target, Visitor& visitor) const {
    const detail::Given cells(target);
    const detail::Handle::Visit visit(built().handle_);
    // (in pages that grow, so that a visit which ends early reads little of a long list)
    detail::Page<Row> page;
    std::size_t from = 0, most = page.least;
    std::size_t number = Index::put_first_met(visit, cells, page.data(), most);
    while (true) {
      std::uint32_t copy = 0;
      for (const Row *row = page.data(), *end = row + number; row != end;) {
        if (!visitor(Id(row->cell), static_cast<Label>(row->label))) return false;
        if (!detail::next_copy(*row, copy)) ++row;
      }
      if (number < most) return true;
      from += most;
      most *= 4;
      page.grow(most);
      number = Index::put_met(visit, cells, from, page.data(), most);
    }
  }

  // Calls a function with the labels of the pairs that share a leaf with a union, which rise.
  template <class Union, class Use>
  void with_labels(const Union& target, Use use) const {
    const Index& beneath = built();
    const detail::Given cells(target);
    detail::Page<std::uint32_t> page;
    const std::size_t number = beneath.put_labels(cells, page);
    use(page.data(), number);
  }

  // The index with all that was added. If the library refuses the adds, the index is as it was, and they wait for the next Build().
  Index& built() const {
    if (has_added_.load(std::memory_order_acquire)) build();
    return index_;
  }

  [[gnu::noinline]] void build() const {
    const std::lock_guard<std::mutex> held(building_);
    if (!added_.empty()) {
      index_.add_all(added_);
      added_.clear();
    }
    has_added_.store(false, std::memory_order_release);
  }

  Limits limits_;
  // (a query builds what was added before it, and other queries wait meanwhile)
  mutable std::mutex building_;
  mutable std::vector<Row> added_;
  mutable std::atomic<bool> has_added_{false};
  mutable Index index_;
};

using S2CellIndex = BasicS2CellIndex<std::uint64_t>;

}  // namespace s2ix

#endif
