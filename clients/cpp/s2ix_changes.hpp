// What the changes of an index did to a label or to a pair, for C++17: what leads a label elsewhere or back, and what took copies away.
// Include s2ix.hpp, which says more.
#ifndef S2IX_CHANGES_HPP
#define S2IX_CHANGES_HPP

#include "s2ix_cells.hpp"

#include <algorithm>
#include <cstddef>
#include <cstdint>
#include <iterator>
#include <string_view>
#include <tuple>
#include <vector>

namespace s2ix {

namespace detail {

// Does a change that is given by its entries.
inline std::uint32_t record(::s2ix_handle* handle, const std::vector<Entry>& entries, std::size_t* number) {
  static constexpr Entry none{};
  return s2ix_record(handle, entries.empty() ? &none : entries.data(), entries.size(), number);
}

// Whether a line of a script takes changes back, or drops them.
inline bool drops_changes(std::string_view line) {
  std::uint8_t kind = S2IX_LINE_NOTHING;
  check(s2ix_line_kind(bytes(line), line.size(), &kind));
  return kind == S2IX_LINE_UNDO || kind == S2IX_LINE_FORGET;
}

// Puts the entries of the change with a number in place of what a list held.
inline std::uint32_t read_change(::s2ix_handle* handle, std::uint32_t number, std::vector<Entry>& entries) {
  return fill(entries, [&](Entry* to, std::size_t room, std::size_t* many) { return s2ix_change(handle, number, to, room, many); });
}

// The entries that lead from the pairs of a label to one copy of each of some cells, both by rising cell.
inline std::vector<Entry> led_to(const std::vector<Row>& held, std::uint32_t label, const std::vector<std::uint64_t>& cells) {
  std::vector<Entry> entries;
  auto row = held.begin();
  for (const std::uint64_t cell : cells) {
    for (; row != held.end() && row->cell < cell; ++row) entries.push_back({row->cell, label, row->count, 0});
    const std::uint32_t before = row != held.end() && row->cell == cell ? (row++)->count : 0;
    if (before != 1) entries.push_back({cell, label, before, 1});
  }
  for (; row != held.end(); ++row) entries.push_back({row->cell, label, row->count, 0});
  return entries;
}

// Puts all entries of a label, in the change with a number and in those after it, at the end of a list: the oldest change first.
inline std::uint32_t read_from(::s2ix_handle* handle, std::uint32_t label, std::uint32_t first, std::vector<Entry>& entries) {
  std::size_t done = 0;
  s2ix_done_count(handle, &done);
  if (first == 0 || first > done) return S2IX_NO_SUCH_CHANGE;
  std::vector<Entry> change;
  for (std::uint32_t number = first; number <= done; number++) {
    const std::uint32_t status = read_change(handle, number, change);
    if (status != S2IX_DONE) return status;
    std::copy_if(change.begin(), change.end(), std::back_inserter(entries), [&](const Entry& entry) { return entry.label == label; });
  }
  return S2IX_DONE;
}

// The entries that lead a label back to what it had before the first of some changes, if these are all its entries since, the oldest first.
inline std::vector<Entry> led_back(std::vector<Entry> since) {
  std::stable_sort(since.begin(), since.end(), [](const Entry& one, const Entry& other) { return one.cell < other.cell; });
  std::vector<Entry> entries;
  for (auto first = since.begin(); first != since.end();) {
    const auto end = std::find_if(first, since.end(), [&](const Entry& entry) { return entry.cell != first->cell; });
    const std::uint32_t held = std::prev(end)->after;
    if (held != first->before) entries.push_back({first->cell, first->label, held, first->before});
    first = end;
  }
  return entries;
}

// The number of the last change after which a pair had fewer copies than some. It had as many after an earlier one, and has fewer now.
inline std::uint32_t taken_by(::s2ix_handle* handle, const Row& pair, std::uint32_t copies) {
  std::size_t done = 0;
  s2ix_done_count(handle, &done);
  std::vector<Entry> change;
  for (auto number = static_cast<std::uint32_t>(done); number > 0; number--) {
    check(read_change(handle, number, change));
    const auto entry = std::lower_bound(change.begin(), change.end(), pair, [](const Entry& one, const Row& other) {
      return std::tie(one.cell, one.label) < std::tie(other.cell, other.label);
    });
    const bool has_pair = entry != change.end() && entry->cell == pair.cell && entry->label == pair.label;
    if (has_pair && entry->before >= copies) return number;
  }
  return 0;
}

// Why the change with a number can't be taken back, if a count would be below 0: the first such pair, and the later change that took it.
inline Where below_zero(::s2ix_handle* handle, std::uint32_t change) {
  std::vector<Entry> entries;
  check(read_change(handle, change, entries));
  Where where;
  for (const Entry& entry : entries) {
    std::uint32_t held = 0;
    s2ix_count(handle, entry.cell, entry.label, &held);
    if (entry.after < entry.before || held >= entry.after - entry.before) continue;
    where.change = change;
    where.pair = Row{entry.cell, entry.label, held};
    where.later = taken_by(handle, *where.pair, entry.after - entry.before);
    break;
  }
  return where;
}

}  // namespace detail

}  // namespace s2ix

#endif
