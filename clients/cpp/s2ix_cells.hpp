// Cells and unions of cells for C++17, and the errors of all calls. Include s2ix.hpp, which says more.
#ifndef S2IX_CELLS_HPP
#define S2IX_CELLS_HPP

#include "s2ix.h"

#include <algorithm>
#include <array>
#include <cinttypes>
#include <cstddef>
#include <cstdint>
#include <cstdio>
#include <cstring>
#include <initializer_list>
#include <iterator>
#include <memory>
#include <new>
#include <optional>
#include <stdexcept>
#include <string>
#include <string_view>
#include <type_traits>
#include <utility>
#include <vector>

namespace s2ix {

// A pair of a cell and a label that a store holds, with its count: row.cell, row.label, row.count.
using Row = ::s2ix_row;

// A pair in a change: entry.cell, entry.label, and its counts entry.before and entry.after. 0 is the count of a pair that is not held.
using Entry = ::s2ix_entry;

// A label that a store holds: held.label, how many pairs have it, held.pairs, and the sum of their counts, held.copies.
using HeldLabel = ::s2ix_held_label;

// What a status says, in words.
[[nodiscard]] inline std::string status_text(std::uint32_t status) {
  std::uint8_t bytes[128] = {};
  std::size_t number = 0;
  const bool has_room = s2ix_status_text(status, bytes, sizeof bytes, &number) == S2IX_DONE;
  return std::string(bytes, bytes + (has_room ? number : 0));
}

// The version of the library that runs; S2IX_VERSION is the header's.
[[nodiscard]] inline std::string version() {
  std::uint8_t bytes[64] = {};
  std::size_t number = 0;
  const bool has_room = s2ix_version(bytes, sizeof bytes, &number) == S2IX_DONE;
  return std::string(bytes, bytes + (has_room ? number : 0));
}

// What a refusal says besides its status. The methods of Error with these names explain each.
struct Where {
  std::size_t line = 0;
  std::size_t change = 0;
  std::size_t entry = 0;
  std::optional<std::uint64_t> value = {};
  std::optional<std::size_t> place = {};
  std::optional<Row> pair = {};
  std::size_t later = 0;
};

// Why a call was refused. It left the store as it was.
class Error : public std::runtime_error {
 public:
  explicit Error(std::uint32_t status, const Where& where = Where())
      : std::runtime_error(text(status, where)), status_(status), where_(where) {}

  // The status that s2ix.h has for the reason, as S2IX_NOT_HELD.
  [[nodiscard]] std::uint32_t status() const noexcept { return status_; }

  // The first line of a dump or a journal that has a fault, from 1; 0 if the call was refused for another reason.
  [[nodiscard]] std::size_t line() const noexcept { return where_.line; }

  // The number of the change of a journal that is refused, or for S2IX_BELOW_ZERO of the change that can't be taken back; and of the first entry
  // of a journal's change whose count is not the one held. Both count from 1; 0 means none.
  [[nodiscard]] std::size_t change() const noexcept { return where_.change; }
  [[nodiscard]] std::size_t entry() const noexcept { return where_.entry; }

  // The number that is no cell's or no leaf's, for S2IX_NO_CELL, or no label's, for S2IX_NO_LABEL; the bound of a target, for S2IX_NO_SPAN.
  // None if no number is wrong by itself, as when a cell has no parent of a level.
  [[nodiscard]] std::optional<std::uint64_t> value() const noexcept { return where_.value; }

  // The place of that number among the cells, rows or entries of the call, counted from 0; if several are wrong, the place of the first. If a
  // call takes two lists, the places count on through the second. remove_all and record tell it for other statuses too; meet_each and
  // labels_each tell the place of the target. None if no item of a list is refused.
  [[nodiscard]] std::optional<std::size_t> place() const noexcept { return where_.place; }

  // For S2IX_BELOW_ZERO of revert, the first pair whose count would be below 0, with the count that is held, and the number of the later change
  // that took its copies. Else none, and 0.
  [[nodiscard]] std::optional<Row> pair() const noexcept { return where_.pair; }
  [[nodiscard]] std::size_t later() const noexcept { return where_.later; }

 protected:
  // (what a status says is not enough)
  Error(std::uint32_t status, const char* words) : std::runtime_error(words), status_(status) {}

 private:
  static std::string text(std::uint32_t status, const Where& where) {
    std::string words = "s2ix: " + status_text(status);
    if (where.pair) return words + ": " + taken(*where.pair, where);
    if (where.line != 0) words += ": line " + std::to_string(where.line);
    if (where.change != 0) words += ": change " + std::to_string(where.change);
    if (where.entry != 0) words += ", entry " + std::to_string(where.entry);
    if (where.value) {
      char number[24] = {};
      std::snprintf(number, sizeof number, status == S2IX_NO_CELL ? "%#" PRIx64 : "%" PRIu64, *where.value);
      words += std::string(": ") + number;
    }
    if (where.place) words += " at place " + std::to_string(*where.place);
    return words;
  }

  static std::string taken(const Row& pair, const Where& where) {
    std::uint8_t token[16] = {};
    std::size_t number = 0;
    s2ix_cell_to_token(pair.cell, token, &number);
    return "change " + std::to_string(where.later) + " took copies of " + std::string(token, token + number) + " under " +
           std::to_string(pair.label) + " that change " + std::to_string(where.change) + " had added";
  }

  std::uint32_t status_;
  Where where_;
};

namespace detail {

// Whether a type has id(), as S2CellId has.
template <class Item, class = void>
struct HasId : std::false_type {};
template <class Item>
struct HasId<Item, std::enable_if_t<std::is_convertible_v<decltype(std::declval<const Item&>().id()), std::uint64_t>>> : std::true_type {};

// Whether a type is a range of cells: of numbers of 64 bits, or of what has id().
template <class Items, class = void>
struct HasCells : std::false_type {};
template <class Items>
struct HasCells<Items, std::void_t<decltype(std::begin(std::declval<const Items&>()) != std::end(std::declval<const Items&>()))>> {
  using Item = std::decay_t<decltype(*std::begin(std::declval<const Items&>()))>;
  static constexpr bool value = HasId<Item>::value || (std::is_unsigned_v<Item> && sizeof(Item) == sizeof(std::uint64_t));
};

// Whether the cells of a range lie side by side as numbers do, as in a vector of S2CellIds. It is told by the range's iterator.
template <class Iterator>
struct LieAsNumbers {
  using Item = std::decay_t<decltype(*std::declval<Iterator>())>;
  static constexpr bool value = (std::is_pointer_v<Iterator> || std::is_same_v<Iterator, typename std::vector<Item>::const_iterator>) &&
                                std::is_standard_layout_v<Item> && std::has_unique_object_representations_v<Item> &&
                                sizeof(Item) == sizeof(std::uint64_t);
};

}  // namespace detail

// A cell of the caller: its number, or what returns it from id(), as S2CellId does.
class Cell {
 public:
  constexpr Cell(std::uint64_t number) noexcept : number_(number) {}
  template <class Id, class = std::enable_if_t<detail::HasId<Id>::value>>
  constexpr Cell(const Id& id) : number_(id.id()) {}

  [[nodiscard]] constexpr std::uint64_t number() const noexcept { return number_; }

 private:
  std::uint64_t number_;
};

// Some cells of the caller, in any order and repeated or not: a list in braces, a pointer with a length, or any range of numbers or of what
// has id(), as a vector or an S2CellUnion. Calls take all of these too. Numbers at a pointer aren't copied: they must live, and stay as
// they are, as long as the Cells. Of all else a Cells has its own copy; but a call copies no numbers in braces or in a vector.
class Cells {
 public:
  Cells() noexcept = default;
  Cells(const std::uint64_t* data, std::size_t size) noexcept : data_(size == 0 ? &none : data), size_(size) {}
  Cells(std::vector<std::uint64_t>&& cells) noexcept : own_(std::move(cells)) {}
  Cells(std::initializer_list<Cell> cells) { copy(cells); }
  template <class Items, class = std::enable_if_t<detail::HasCells<Items>::value>>
  Cells(const Items& cells) {
    copy(cells);
  }

  // Never a null pointer, even for no cells.
  [[nodiscard]] const std::uint64_t* data() const noexcept { return own_.empty() ? data_ : own_.data(); }
  [[nodiscard]] std::size_t size() const noexcept { return own_.empty() ? size_ : own_.size(); }

 protected:
  template <class Items>
  void copy(const Items& cells) {
    own_.reserve(static_cast<std::size_t>(std::distance(std::begin(cells), std::end(cells))));
    for (const auto& cell : cells) own_.push_back(Cell(cell).number());
  }

  // Refers to numbers that live as long as this.
  void refer_to(const std::uint64_t* data, std::size_t size) noexcept {
    data_ = data;
    size_ = size;
  }
  [[nodiscard]] const std::uint64_t* referred() const noexcept { return data_; }
  [[nodiscard]] std::size_t referred_size() const noexcept { return size_; }

 private:
  static constexpr std::uint64_t none = 0;

  std::vector<std::uint64_t> own_;
  const std::uint64_t* data_ = &none;
  std::size_t size_ = 0;
};

namespace detail {

// The first number of a leaf behind the last face.
inline constexpr std::uint64_t end_of_leaves = 0xc000000000000001;

// Whether a number is a leaf's.
[[nodiscard]] constexpr bool is_leaf(std::uint64_t number) noexcept { return number % 2 != 0 && number < end_of_leaves; }

// The Cells that a call takes. It has no copy of numbers in braces, in a vector or in other Cells, since these live as long as the call, nor of
// cells in a vector that have nothing but their number, as S2CellIds. So it is for parameters alone. Few cells of another range lie in it,
// and want no memory.
class Given : public Cells {
 public:
  Given() noexcept = default;
  Given(const std::uint64_t* data, std::size_t size) noexcept : Cells(data, size) {}
  Given(const Cells& cells) noexcept : Cells(cells.data(), cells.size()) {}
  Given(const std::vector<std::uint64_t>& cells) noexcept : Cells(cells.data(), cells.size()) {}
  Given(std::initializer_list<std::uint64_t> cells) noexcept : Cells(cells.begin(), cells.size()) {}
  Given(std::initializer_list<Cell> cells) { copy_or_hold(cells, cells.size()); }
  template <class Items, class = std::enable_if_t<HasCells<Items>::value>>
  Given(const Items& cells) {
    const auto first = std::begin(cells);
    const auto size = static_cast<std::size_t>(std::distance(first, std::end(cells)));
    if constexpr (LieAsNumbers<std::decay_t<decltype(first)>>::value) {
      if (size > 0 && are_numbers(std::addressof(*first), size)) {
        const void* const numbers = std::addressof(*first);
        refer_to(static_cast<const std::uint64_t*>(numbers), size);
        return;
      }
    }
    copy_or_hold(cells, size);
  }
  Given(const Given&) = delete;
  Given& operator=(const Given&) = delete;

  // Never a null pointer, even for no cells.
  [[nodiscard]] const std::uint64_t* data() const noexcept { return referred(); }
  [[nodiscard]] std::size_t size() const noexcept { return referred_size(); }

  // The first of them, if there is one. (It may be no std::uint64_t of the caller.)
  [[nodiscard]] std::uint64_t first() const noexcept {
    std::uint64_t number = 0;
    std::memcpy(&number, data(), sizeof number);
    return number;
  }

  // Whether it is one leaf alone.
  [[nodiscard]] bool is_one_leaf() const noexcept { return size() == 1 && is_leaf(first()); }

 private:
  static constexpr std::size_t few = 16;

  // Has numbers of its own. It refers to these too, so that data() and size() are short.
  template <class Items>
  [[gnu::noinline]] void copy_or_hold(const Items& cells, std::size_t size) {
    if (size > few) {
      copy(cells);
      refer_to(Cells::data(), Cells::size());
    } else {
      std::transform(std::begin(cells), std::end(cells), few_, [](const auto& cell) { return Cell(cell).number(); });
      refer_to(few_, size);
    }
  }

  // Whether the cells lie where numbers may, and each has the bytes of its number. (S2CellIds are packed: alone they might lie anywhere, and a
  // vector's are aligned. The compiler sees that they have the bytes, and leaves the loop out.)
  template <class Item>
  [[nodiscard]] static bool are_numbers(const Item* cells, std::size_t size) {
    if (reinterpret_cast<std::uintptr_t>(cells) % alignof(std::uint64_t) != 0) return false;
    for (std::size_t k = 0; k < size; k++) {
      std::uint64_t number = 0;
      std::memcpy(&number, static_cast<const void*>(cells + k), sizeof number);
      if (number != Cell(cells[k]).number()) return false;
    }
    return true;
  }

  std::uint64_t few_[few];
};

// The bytes of a text: never a null pointer, even for none.
inline const std::uint8_t* bytes(std::string_view text) noexcept {
  return reinterpret_cast<const std::uint8_t*>(text.empty() ? "" : text.data());
}

// Which number a refused call speaks of: none.
struct NoneWrong {
  [[nodiscard]] Where operator()(std::uint32_t) const noexcept { return {}; }
};

// The first of some numbers that is no cell's; they weren't in a list.
[[nodiscard]] inline Where wrong_cell(std::uint32_t status, std::initializer_list<std::uint64_t> cells) {
  Where where;
  if (status != S2IX_NO_CELL) return where;
  const auto wrong = std::find_if_not(cells.begin(), cells.end(), s2ix_cell_is_valid);
  if (wrong != cells.end()) where.value = *wrong;
  return where;
}

// The number that a call took for a leaf.
[[nodiscard]] inline Where wrong_leaf(std::uint32_t status, std::uint64_t leaf) noexcept {
  Where where;
  if (status == S2IX_NO_CELL) where.value = leaf;
  return where;
}

inline constexpr std::uint32_t highest_label = 2147483647;

// The first of some numbers that is no label's.
[[nodiscard]] inline Where wrong_label(std::uint32_t status, std::initializer_list<std::uint32_t> labels) {
  Where where;
  if (status != S2IX_NO_LABEL) return where;
  const auto wrong = std::find_if(labels.begin(), labels.end(), [](std::uint32_t label) { return label > highest_label; });
  if (wrong != labels.end()) where.value = *wrong;
  return where;
}

// The place of the row or entry that the status speaks of, if it speaks of one, with the cell or label that is wrong.
template <class Item>
[[nodiscard]] Where wrong_item(std::uint32_t status, const Item* items, std::size_t place) {
  Where where;
  switch (status) {
    case S2IX_NO_CELL:
      where.value = items[place].cell;
      break;
    case S2IX_NO_LABEL:
      where.value = items[place].label;
      break;
    case S2IX_NOT_HELD:
    case S2IX_UNSORTED:
    case S2IX_NO_DIFFERENCE:
    case S2IX_MISMATCH:
      break;
    default:
      return where;
  }
  where.place = place;
  return where;
}

// The cell or the label, whichever the status speaks of.
[[nodiscard]] inline Where wrong_pair(std::uint32_t status, std::uint64_t cell, std::uint32_t label) {
  return status == S2IX_NO_LABEL ? wrong_label(status, {label}) : wrong_cell(status, {cell});
}

// The first number of a list that is no cell's, or if there is none, the first of a second list, and its place.
[[nodiscard]] inline Where wrong_in(std::uint32_t status, const Cells& first, const Cells& second = Cells()) {
  Where where;
  if (status != S2IX_NO_CELL) return where;
  std::size_t place = 0;
  for (const Cells* cells : {&first, &second}) {
    const std::uint64_t* const end = cells->data() + cells->size();
    const std::uint64_t* const wrong = std::find_if_not(cells->data(), end, s2ix_cell_is_valid);
    place += static_cast<std::size_t>(wrong - cells->data());
    if (wrong == end) continue;
    where.value = *wrong;
    where.place = place;
    break;
  }
  return where;
}

// The first number of a list that is no cell's, and its place, or if there is none, a single cell that is none.
[[nodiscard]] inline Where wrong_in_or(std::uint32_t status, const Cells& cells, std::uint64_t cell) {
  const Where where = wrong_in(status, cells);
  return where.value ? where : wrong_cell(status, {cell});
}

[[noreturn]] inline void refuse(std::uint32_t status, const Where& where) {
  if (status == S2IX_OUT_OF_MEMORY) throw std::bad_alloc();
  throw Error(status, where);
}

// Throws if a call was refused; only then `wrong` is asked which number the status speaks of.
template <class Wrong = NoneWrong>
void check(std::uint32_t status, Wrong wrong = Wrong()) {
  if (status != S2IX_DONE) refuse(status, wrong(status));
}

// What a call writes to the pointer it is given, if it is not refused.
template <class Answer, class Call, class Wrong = NoneWrong>
Answer answer(Call call, Wrong wrong = Wrong()) {
  Answer given{};
  check(call(&given), wrong);
  return given;
}

// The same of a call on one cell.
template <class Answer, class Call>
Answer answer_of(std::uint64_t cell, Call call) {
  return answer<Answer>(call, [&](std::uint32_t status) { return wrong_cell(status, {cell}); });
}

// Puts a list in place of what `items` held, and returns the status of the call. If the call is refused, `items` is empty. The first call has
// room for as many items as `items` held, or for `room` if that is more; if the list is longer, a second call has room for all. A call takes
// only initialised room. So `items` doesn't grow to its capacity, which would write to all of it: this costs what the list does.
template <class Items, class Call>
std::uint32_t fill(Items& items, Call call, std::size_t room = 0) {
  room = std::max(room, 256 / sizeof(typename Items::value_type));
  if (items.capacity() < room) items.clear();
  if (items.size() < room) items.resize(room);
  std::size_t number = 0;
  std::uint32_t status = call(items.data(), items.size(), &number);
  if (status == S2IX_NO_ROOM) {
    items.clear();
    items.resize(number);
    status = call(items.data(), items.size(), &number);
  }
  items.resize(status == S2IX_DONE ? number : 0);
  return status;
}

// Frees the room that a list doesn't need, if that is much.
template <class Items>
void trim(Items& items) {
  if (items.capacity() * sizeof(typename Items::value_type) > 1024 && items.capacity() / 2 > items.size()) items.shrink_to_fit();
}

// A new list, as a call puts it.
template <class Items, class Call, class Wrong>
Items filled(Call call, Wrong wrong, std::size_t room = 0) {
  Items items;
  check(fill(items, call, room), wrong);
  trim(items);
  return items;
}

// The new union that a call makes of two.
inline std::vector<std::uint64_t> of_two(decltype(s2ix_union_union)* call, const Cells& first, const Cells& second) {
  return filled<std::vector<std::uint64_t>>(
      [&](std::uint64_t* to, std::size_t room, std::size_t* number) {
        return call(first.data(), first.size(), second.data(), second.size(), to, room, number);
      },
      [&](std::uint32_t status) { return wrong_in(status, first, second); }, first.size() + second.size());
}

}  // namespace detail

// Single cells. Each call takes O(1), if nothing else is said. If a number is no cell's, a call that returns a bool returns false, and each
// other call throws with S2IX_NO_CELL. A call also throws for the reasons that are named.
namespace cell {

// A cell as a square of the grid of its level on its face: square.i, square.j, square.face, square.level, square.orientation.
using Square = ::s2ix_square;

// Whether a number is a cell's.
[[nodiscard]] inline bool is_valid(std::uint64_t cell) noexcept { return s2ix_cell_is_valid(cell); }

// Whether a cell is of level 30.
[[nodiscard]] inline bool is_leaf(std::uint64_t cell) noexcept { return s2ix_cell_is_leaf(cell); }

// Whether each leaf of the other cell is one of the cell's.
[[nodiscard]] inline bool contains(std::uint64_t cell, std::uint64_t other) noexcept { return s2ix_cell_contains(cell, other); }

// Whether two cells share a leaf: then one contains the other.
[[nodiscard]] inline bool intersects(std::uint64_t cell, std::uint64_t other) noexcept { return s2ix_cell_intersects(cell, other); }

// The cell that a text spells: 1 to 16 hexadecimal digits of either case; those missing on the right are zeros.
[[nodiscard]] inline std::uint64_t from_token(std::string_view token) {
  return detail::answer<std::uint64_t>([&](std::uint64_t* cell) { return s2ix_cell_from_token(detail::bytes(token), token.size(), cell); });
}

// A cell's token, of 1 to 16 digits.
[[nodiscard]] inline std::string to_token(std::uint64_t cell) {
  std::uint8_t text[16] = {};
  const std::size_t length = detail::answer_of<std::size_t>(cell, [&](std::size_t* to) { return s2ix_cell_to_token(cell, text, to); });
  return std::string(text, text + length);
}

// A cell's path for people, as 0/32: the face, a slash, and the child positions from level 1 down.
[[nodiscard]] inline std::string path(std::uint64_t cell) {
  std::uint8_t text[32] = {};
  const std::size_t length = detail::answer_of<std::size_t>(cell, [&](std::size_t* to) { return s2ix_cell_path(cell, text, to); });
  return std::string(text, text + length);
}

// The cell of a level that a cell lies in, itself at its own level. S2IX_NO_CELL, for a finer level too.
[[nodiscard]] inline std::uint64_t parent(std::uint64_t cell, std::uint8_t level) {
  return detail::answer_of<std::uint64_t>(cell, [&](std::uint64_t* to) { return s2ix_cell_parent(cell, level, to); });
}

// The child at a position, 0 to 3 along the curve. S2IX_NO_CELL, for a leaf and for another position too.
[[nodiscard]] inline std::uint64_t child(std::uint64_t cell, std::uint8_t position) {
  return detail::answer_of<std::uint64_t>(cell, [&](std::uint64_t* to) { return s2ix_cell_child(cell, position, to); });
}

// The level, 0 for a whole face to 30 for a leaf.
[[nodiscard]] inline std::uint8_t level(std::uint64_t cell) {
  return detail::answer_of<std::uint8_t>(cell, [&](std::uint8_t* to) { return s2ix_cell_level(cell, to); });
}

// The face, 0 to 5.
[[nodiscard]] inline std::uint8_t face(std::uint64_t cell) {
  return detail::answer_of<std::uint8_t>(cell, [&](std::uint8_t* to) { return s2ix_cell_face(cell, to); });
}

// The cell's first leaf along the curve, and its last.
[[nodiscard]] inline std::uint64_t range_min(std::uint64_t cell) {
  return detail::answer_of<std::uint64_t>(cell, [&](std::uint64_t* to) { return s2ix_cell_range_min(cell, to); });
}
[[nodiscard]] inline std::uint64_t range_max(std::uint64_t cell) {
  return detail::answer_of<std::uint64_t>(cell, [&](std::uint64_t* to) { return s2ix_cell_range_max(cell, to); });
}

// The level of the smallest cell that contains both. S2IX_NO_CELL, for cells of two faces too.
[[nodiscard]] inline std::uint8_t common_level(std::uint64_t cell, std::uint64_t other) {
  return detail::answer<std::uint8_t>([&](std::uint8_t* to) { return s2ix_cell_common_level(cell, other, to); },
                                      [&](std::uint32_t status) { return detail::wrong_cell(status, {cell, other}); });
}

// The next cell of its level along the curve; the first of face 0 comes after the last of face 5.
[[nodiscard]] inline std::uint64_t next(std::uint64_t cell) {
  return detail::answer_of<std::uint64_t>(cell, [&](std::uint64_t* to) { return s2ix_cell_next(cell, to); });
}

// The four cells of its level that share an edge with a cell: down, right, up, left.
[[nodiscard]] inline std::array<std::uint64_t, 4> edge_neighbors(std::uint64_t cell) {
  return detail::answer_of<std::array<std::uint64_t, 4>>(cell, [&](auto* to) { return s2ix_cell_edge_neighbors(cell, to->data()); });
}

// The cells of a level outside a cell that share an edge with a cell of that level inside it: each once, rising, at most 1024.
// O(n log n) for n cells. S2IX_COARSER, S2IX_TOO_FINE.
[[nodiscard]] inline std::vector<std::uint64_t> border(std::uint64_t cell, std::uint8_t level) {
  return detail::filled<std::vector<std::uint64_t>>(
      [&](std::uint64_t* to, std::size_t room, std::size_t* number) { return s2ix_cell_border(cell, level, to, room, number); },
      [&](std::uint32_t status) { return detail::wrong_cell(status, {cell}); });
}

// The square of a cell.
[[nodiscard]] inline Square to_face_ij(std::uint64_t cell) {
  return detail::answer_of<Square>(cell, [&](Square* to) { return s2ix_cell_to_face_ij(cell, to); });
}

// The cell of a square. S2IX_NO_CELL, for a face above 5, a level above 30, or a column or row of 2^level or more.
[[nodiscard]] inline std::uint64_t from_face_ij(std::uint8_t face, std::uint32_t i, std::uint32_t j, std::uint8_t level) {
  return detail::answer<std::uint64_t>([&](std::uint64_t* to) { return s2ix_cell_from_face_ij(face, i, j, level, to); });
}

}  // namespace cell

// Unions of cells: sets of leaves. A list that a call returns is normal: it rises, no cell lies within another, and no four are all the
// children of one. Each call first normalises its lists, in O(n log n) for n cells, and throws with S2IX_NO_CELL if a number is no cell's.
namespace cell_union {

// The normal list of the same leaves: never longer than the list.
[[nodiscard]] inline std::vector<std::uint64_t> normalise(const detail::Given& cells) {
  return detail::filled<std::vector<std::uint64_t>>(
      [&](std::uint64_t* to, std::size_t room, std::size_t* number) {
        return s2ix_union_normalise(cells.data(), cells.size(), to, room, number);
      },
      [&](std::uint32_t status) { return detail::wrong_in(status, cells); }, cells.size());
}

// The leaves with numbers from `start` to below `limit`: at most 184 cells. Bounds are odd; equal ones give no cells. S2IX_NO_SPAN.
[[nodiscard]] inline std::vector<std::uint64_t> from_leaves(std::uint64_t start, std::uint64_t limit) {
  return detail::filled<std::vector<std::uint64_t>>(
      [&](std::uint64_t* to, std::size_t room, std::size_t* number) { return s2ix_union_from_leaves(start, limit, to, room, number); },
      detail::NoneWrong(), 184);
}

// The leaves of either union.
[[nodiscard]] inline std::vector<std::uint64_t> union_of(const detail::Given& first, const detail::Given& second) {
  return detail::of_two(s2ix_union_union, first, second);
}

// The leaves of both unions.
[[nodiscard]] inline std::vector<std::uint64_t> intersection(const detail::Given& first, const detail::Given& second) {
  return detail::of_two(s2ix_union_intersection, first, second);
}

// The leaves of the first union without those of the second.
[[nodiscard]] inline std::vector<std::uint64_t> difference(const detail::Given& first, const detail::Given& second) {
  return detail::of_two(s2ix_union_difference, first, second);
}

// Whether each leaf of a cell is one of the union's.
[[nodiscard]] inline bool contains(const detail::Given& cells, std::uint64_t cell) {
  return detail::answer<bool>([&](bool* to) { return s2ix_union_contains(cells.data(), cells.size(), cell, to); },
                              [&](std::uint32_t status) { return detail::wrong_in_or(status, cells, cell); });
}

// Whether some leaf of a cell is one of the union's.
[[nodiscard]] inline bool intersects(const detail::Given& cells, std::uint64_t cell) {
  return detail::answer<bool>([&](bool* to) { return s2ix_union_intersects(cells.data(), cells.size(), cell, to); },
                              [&](std::uint32_t status) { return detail::wrong_in_or(status, cells, cell); });
}

// How many leaves the union has.
[[nodiscard]] inline std::uint64_t leaf_count(const detail::Given& cells) {
  return detail::answer<std::uint64_t>([&](std::uint64_t* to) { return s2ix_union_leaf_count(cells.data(), cells.size(), to); },
                                       [&](std::uint32_t status) { return detail::wrong_in(status, cells); });
}

}  // namespace cell_union

}  // namespace s2ix

#endif
