// What an index finds for many leaves or targets at once, for C++17: the targets, and the answers. Include s2ix.hpp, which says more.
#ifndef S2IX_EACH_HPP
#define S2IX_EACH_HPP

#include "s2ix_cells.hpp"

#include <algorithm>
#include <cstddef>
#include <cstdint>
#include <initializer_list>
#include <iterator>
#include <new>
#include <type_traits>
#include <utility>
#include <vector>

namespace s2ix {

// Neighbouring items of a list. It points there, so use it only while the list lives and isn't changed.
template <class Item>
class Items {
 public:
  Items(const Item* begin, const Item* end) noexcept : begin_(begin), end_(end) {}

  [[nodiscard]] const Item* begin() const noexcept { return begin_; }
  [[nodiscard]] const Item* end() const noexcept { return end_; }
  [[nodiscard]] std::size_t size() const noexcept { return static_cast<std::size_t>(end_ - begin_); }
  [[nodiscard]] bool empty() const noexcept { return begin_ == end_; }
  [[nodiscard]] const Item& operator[](std::size_t place) const noexcept { return begin_[place]; }

 private:
  const Item* begin_;
  const Item* end_;
};

namespace detail {

// The items of the leaf or target at a place, if `ends` says how many there are up to and with each.
template <class Item>
Items<Item> items_at(const std::vector<std::size_t>& ends, const std::vector<Item>& items, std::size_t place) noexcept {
  return {items.data() + (place == 0 ? 0 : ends[place - 1]), items.data() + ends[place]};
}

}  // namespace detail

// The rows of many leaves or targets, one after the other, and how many there are up to and with each. The rows of the one at a place are
// found[place], as in: for (const s2ix::Row& row : found[place]).
struct RowsOfEach {
  std::vector<std::size_t> ends;
  std::vector<Row> rows;

  // How many leaves or targets there are.
  [[nodiscard]] std::size_t size() const noexcept { return ends.size(); }
  [[nodiscard]] Items<Row> operator[](std::size_t place) const noexcept { return detail::items_at(ends, rows, place); }
};

// The same with labels in place of rows.
struct LabelsOfEach {
  std::vector<std::size_t> ends;
  std::vector<std::uint32_t> labels;

  [[nodiscard]] std::size_t size() const noexcept { return ends.size(); }
  [[nodiscard]] Items<std::uint32_t> operator[](std::size_t place) const noexcept { return detail::items_at(ends, labels, place); }
};

namespace detail {

// Whether a type is a range of what Cells are made of, as a vector of vectors or of S2CellUnions.
template <class Targets, class = void>
struct HasTargets : std::false_type {};
template <class Targets>
struct HasTargets<Targets, std::void_t<decltype(std::begin(std::declval<const Targets&>()) != std::end(std::declval<const Targets&>()))>> {
  static constexpr bool value = std::is_convertible_v<decltype(*std::begin(std::declval<const Targets&>())), Cells>;
};

}  // namespace detail

// Some targets of the caller, each a union of cells: a list in braces, as {{first, second}, {third}}, or any range of unions, as a vector of
// vectors or of S2CellUnions. Calls take these too. The cells of all are copied into one row. Cells that lie in one row are not copied: they
// are given with bounds.
class Targets {
 public:
  Targets() noexcept = default;
  // Target k has the cells from bounds[k] on and before bounds[k + 1], so there is a bound more than there are targets; with no bound there is
  // no target. Cells after the last bound belong to no target. The cells and the bounds must live, and stay as they are, as long as the Targets.
  Targets(const std::uint64_t* cells, std::size_t cell_count, const std::size_t* bounds, std::size_t bound_count) noexcept
      : cells_(cell_count == 0 ? &no_cell : cells),
        cell_count_(cell_count),
        bounds_(bound_count == 0 ? &no_bound : bounds),
        size_(bound_count == 0 ? 0 : bound_count - 1) {}
  Targets(std::initializer_list<detail::Given> targets) { copy(targets); }
  template <class Unions, class = std::enable_if_t<detail::HasTargets<Unions>::value>>
  Targets(const Unions& targets) {
    copy(targets);
  }

  // Never null pointers, even for no cells and no targets.
  [[nodiscard]] const std::uint64_t* cells() const noexcept { return own_cells_.empty() ? cells_ : own_cells_.data(); }
  [[nodiscard]] std::size_t cell_count() const noexcept { return own_cells_.empty() ? cell_count_ : own_cells_.size(); }
  // One more than there are targets.
  [[nodiscard]] const std::size_t* bounds() const noexcept { return own_bounds_.empty() ? bounds_ : own_bounds_.data(); }
  // How many targets there are.
  [[nodiscard]] std::size_t size() const noexcept { return own_bounds_.empty() ? size_ : own_bounds_.size() - 1; }

 private:
  static constexpr std::uint64_t no_cell = 0;
  static constexpr std::size_t no_bound = 0;

  template <class Unions>
  void copy(const Unions& targets) {
    own_bounds_.reserve(1 + static_cast<std::size_t>(std::distance(std::begin(targets), std::end(targets))));
    own_bounds_.push_back(0);
    for (const auto& target : targets) {
      add(target);
      own_bounds_.push_back(own_cells_.size());
    }
  }
  void add(const Cells& target) { own_cells_.insert(own_cells_.end(), target.data(), target.data() + target.size()); }
  template <class Union, class = std::enable_if_t<detail::HasCells<Union>::value>>
  void add(const Union& target) {
    for (const auto& cell : target) own_cells_.push_back(Cell(cell).number());
  }

  std::vector<std::uint64_t> own_cells_;
  std::vector<std::size_t> own_bounds_;
  const std::uint64_t* cells_ = &no_cell;
  std::size_t cell_count_ = 0;
  const std::size_t* bounds_ = &no_bound;
  std::size_t size_ = 0;
};

namespace detail {

// The number that a call took for a leaf, and its place.
[[nodiscard]] inline Where wrong_at(std::uint32_t status, const Cells& leaves, std::size_t place) noexcept {
  Where where;
  if (status != S2IX_NO_CELL) return where;
  where.value = leaves.data()[place];
  where.place = place;
  return where;
}

// The place of a target, with its number that is no cell's, or with the bound that is wrong.
[[nodiscard]] inline Where wrong_target(std::uint32_t status, const Targets& targets, std::size_t place) {
  Where where;
  // (only a target that there is has bounds to look at)
  if (status != S2IX_NO_CELL && status != S2IX_NO_SPAN) return where;
  const std::size_t start = targets.bounds()[place], end = targets.bounds()[place + 1];
  if (status == S2IX_NO_CELL) {
    where = wrong_in(status, Cells(targets.cells() + start, end - start));
  } else {
    where.value = end;
  }
  where.place = place;
  return where;
}

// Puts what some calls find for `size` leaves or targets into two lists, which it makes longer, and returns the status of the last call. `place`
// is then that of the first leaf or target which is not answered. Each call answers those from `place` on that it has room for.
template <class Item, class Call>
std::uint32_t fill_from(std::size_t& place, std::size_t size, std::vector<std::size_t>& ends, std::vector<Item>& items, Call call) {
  std::size_t used = 0;
  while (true) {
    std::size_t answered = 0;
    const std::uint32_t status = call(place, ends.data() + place, size - place, items.data() + used, items.size() - used, &answered);
    // (a call counts from its own first list)
    if (used != 0) {
      for (std::size_t k = 0; k < answered; k++) ends[place + k] += used;
    }
    place += answered;
    used = place == 0 ? 0 : ends[place - 1];
    if (status == S2IX_DONE) items.resize(used);
    if (status != S2IX_NO_ROOM) return status;
    // (an eighth more than as many each as there are so far. If there was no room for the next one, it may have many)
    const double each = place == 0 ? 0 : 1.125 * static_cast<double>(used) / static_cast<double>(place);
    const std::size_t wanted = used + static_cast<std::size_t>(each * static_cast<double>(size - place));
    items.resize(std::max(wanted, answered == 0 ? 4 * items.size() : items.size() + items.size() / 2));
  }
}

// The same in place of what the lists held. They are empty if a call is refused, or if there is no memory for them. The first call has room for
// as many items as the list held, or for two each, if that is more.
template <class Item, class Call>
std::uint32_t fill_each(std::size_t size, std::vector<std::size_t>& ends, std::vector<Item>& items, std::size_t& place, Call call) {
  const std::size_t room = std::max(2 * size, 256 / sizeof(Item));
  std::uint32_t status = S2IX_OUT_OF_MEMORY;
  try {
    // (so that resize moves no old items)
    if (items.capacity() < room) items.clear();
    if (items.size() < room) items.resize(room);
    // (no call is given a null pointer)
    ends.resize(std::max<std::size_t>(size, 1));
    status = fill_from(place, size, ends, items, call);
  } catch (const std::bad_alloc&) {
  }
  ends.resize(status == S2IX_DONE ? size : 0);
  if (status != S2IX_DONE) items.clear();
  return status;
}

// The same for leaves by a call of s2ix.h.
template <class Item>
std::uint32_t fill_over(::s2ix_handle* handle,
                        std::uint32_t (*call)(::s2ix_handle*, const std::uint64_t*, std::size_t, std::size_t*, std::size_t, Item*, std::size_t,
                                              std::size_t*),
                        const Cells& leaves, std::vector<std::size_t>& ends, std::vector<Item>& items, std::size_t& place) {
  return fill_each(leaves.size(), ends, items, place,
                   [&](std::size_t from, std::size_t* to_ends, std::size_t many, Item* to, std::size_t room, std::size_t* answered) {
                     return call(handle, leaves.data() + from, many, to_ends, many, to, room, answered);
                   });
}

// The same for targets.
template <class Item>
std::uint32_t fill_met(::s2ix_handle* handle,
                       std::uint32_t (*call)(::s2ix_handle*, const std::uint64_t*, std::size_t, const std::size_t*, std::size_t, std::size_t*,
                                             std::size_t, Item*, std::size_t, std::size_t*),
                       const Targets& targets, std::vector<std::size_t>& ends, std::vector<Item>& items, std::size_t& place) {
  return fill_each(targets.size(), ends, items, place,
                   [&](std::size_t from, std::size_t* to_ends, std::size_t many, Item* to, std::size_t room, std::size_t* answered) {
                     return call(handle, targets.cells(), targets.cell_count(), targets.bounds() + from, many + 1, to_ends, many, to, room, answered);
                   });
}

}  // namespace detail

}  // namespace s2ix

#endif
