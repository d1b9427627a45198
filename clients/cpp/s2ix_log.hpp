// The log of a file: its steps, and which of them are asked for, for C++17. Include s2ix_durable.hpp, which says more.
#ifndef S2IX_LOG_HPP
#define S2IX_LOG_HPP

#include "s2ix_book.hpp"
#include "s2ix_cells.hpp"
#include "s2ix_course.hpp"

#include <algorithm>
#include <chrono>
#include <cstddef>
#include <cstdint>
#include <limits>
#include <optional>
#include <string>
#include <vector>

namespace s2ix {

// A step of the log of a file: who did what, and when.
struct Logged {
  // No other step of the file ever has this id.
  std::int64_t id = 0;
  // By the writer's clock, but never before the step before.
  std::chrono::time_point<std::chrono::system_clock, std::chrono::microseconds> time;
  std::optional<std::string> who, note;
  // What was called, as "add" or "undo".
  std::string kind;
  // The step that it takes back, brings again, or is about in another way.
  std::optional<std::int64_t> of_step;
  // Whether it made a change that was undone later and not brought again.
  bool is_undone = false;
};

// Which steps of a log are asked for: all, unless more is said.
struct Asked {
  // Those that changed a count of this label.
  std::optional<std::uint32_t> label = {};
  // Those that changed a count of this cell, of one within it, or of one that contains it.
  std::optional<std::uint64_t> cell = {};
  // Those that this person made.
  std::optional<std::string> who = {};
  // Those with ids from the first one on, and below the limit.
  std::int64_t first = 0, limit = std::numeric_limits<std::int64_t>::max();
  // Those that were made from a time on, and before another one.
  std::optional<std::chrono::system_clock::time_point> since = {}, before = {};
  // At most so many.
  std::size_t most = std::numeric_limits<std::size_t>::max();
  // Whether the newest come first.
  bool is_newest_first = false;
};

namespace detail {

// A cell as the table of cells has it.
inline std::int64_t signed_number(std::uint64_t cell) noexcept { return static_cast<std::int64_t>(cell); }

// A time in microseconds since 1970, rounded down.
inline std::int64_t micros(std::chrono::system_clock::time_point time) {
  return std::chrono::floor<std::chrono::microseconds>(time.time_since_epoch()).count();
}

// The first step that was made at a time or after it, of those from a first one on.
inline std::int64_t from_time(const Book& book, std::chrono::system_clock::time_point time, std::int64_t begin, std::int64_t last) {
  return book.at_time(micros(time) - 1, begin, last) + 1;
}

// A part of a log in which steps are looked for: tables, what holds there, the column of the ids, and from which id on, up to below which
// other one. What is listed under a label or cells has parameters for these.
struct Part {
  std::string tables, where, id;
  bool is_listed;
  std::int64_t first, limit;
};

// The first of the parameters for the cells that contain the one asked for.
inline constexpr int parents = 9;

// The question that finds the steps that are listed under the cell asked for, those within it and those that contain it.
inline std::string steps_of_cells(const Asked& asked) {
  std::string words = "SELECT step FROM s2ix_cell WHERE cell BETWEEN ?6 AND ?7";
  const int level = cell::level(*asked.cell);
  for (int above = 0; above < level; above++) words += " UNION SELECT step FROM s2ix_cell WHERE cell = ?" + std::to_string(parents + above);
  return words;
}

// Gives its parameters to a question of such steps.
inline void bind_cells(const Asked& asked, Statement& rows) {
  rows.bind(6, signed_number(cell::range_min(*asked.cell)));
  rows.bind(7, signed_number(cell::range_max(*asked.cell)));
  const std::uint8_t level = cell::level(*asked.cell);
  for (std::uint8_t above = 0; above < level; above++) rows.bind(parents + above, signed_number(cell::parent(*asked.cell, above)));
}

// Where the steps are that are listed under the label and the cells that are asked for. With a label there is a row without a step for each
// that is gone.
inline Part listed_part(const Asked& asked, std::int64_t first, std::int64_t limit) {
  const std::string id = asked.label ? "label.step" : "step.id";
  std::string where = "1";
  if (asked.label) where += " AND label.label = ?5";
  if (asked.cell) where += " AND " + id + " IN (" + steps_of_cells(asked) + ")";
  // (a label has its steps in their order, so few of them are read for few)
  const char* const tables = asked.label ? "s2ix_label AS label LEFT JOIN s2ix_step AS step ON step.id = label.step" : "s2ix_step AS step";
  return {tables, where, id, true, first, limit};
}

// Throws if a step is gone that is listed under the cells that are asked for.
inline void expect_steps_of_cells(const Book& book, const Asked& asked, const Part& part) {
  const std::string words = "SELECT min(listed.step) FROM (" + steps_of_cells(asked) +
                            ") AS listed WHERE listed.step >= ?1 AND listed.step < ?2 AND "
                            "NOT EXISTS (SELECT 1 FROM s2ix_step AS step WHERE step.id = listed.step)";
  Statement row(book.connection(), words.c_str());
  row.bind(1, part.first);
  row.bind(2, part.limit);
  bind_cells(asked, row);
  if (row.next() && !row.is_null(0)) book.spoilt("it is listed under a cell, but it is gone", row.integer(0));
}

// Whether a step changed counts of the label and the cells that are asked for.
inline bool has_changed(const Asked& asked, const std::vector<Entry>& entries) {
  const auto is_of_label = [&](const Entry& entry) { return entry.label == *asked.label; };
  const auto is_of_cell = [&](const Entry& entry) { return cell::intersects(entry.cell, *asked.cell); };
  return (!asked.label || std::any_of(entries.begin(), entries.end(), is_of_label)) &&
         (!asked.cell || std::any_of(entries.begin(), entries.end(), is_of_cell));
}

// Where the steps are that aren't listed yet, and changed counts of the label and the cells that are asked for: those few are looked
// through.
inline Part unlisted_part(const Book& book, const Asked& asked, std::int64_t first, std::int64_t limit) {
  std::string ids;
  Statement rows(book.connection(), "SELECT id, kind, change FROM s2ix_step WHERE id >= ? AND id < ? AND change IS NOT NULL");
  rows.bind(1, first);
  rows.bind(2, limit);
  while (rows.next()) {
    Step step;
    step.id = rows.integer(0);
    if (!rows.is_text(1) || !rows.is_text(2)) book.spoilt("it has no text", step.id);
    step.kind = rows.text(1);
    step.change = rows.text(2);
    if (has_changed(asked, entries_of(book, step))) ids += (ids.empty() ? "" : ", ") + std::to_string(step.id);
  }
  return {"s2ix_step AS step", "step.id IN (" + ids + ")", "step.id", false, first, limit};
}

// Throws unless a step that is listed under the label and the cells that are asked for has changed counts of them. A step without a change
// may have a note about a label.
inline void expect_changed(const Book& book, const Asked& asked, const Step& step) {
  const bool is_note = !step.change && !asked.cell;
  if (!is_note && !has_changed(asked, entries_of(book, step))) {
    book.spoilt("it is listed under a label or cell that it has not changed", step.id);
  }
}

// The parts of the log in which the steps are that are asked for, the oldest first, from an id on and below another one.
inline std::vector<Part> parts_of(const Book& book, const Asked& asked, std::int64_t first, std::int64_t limit) {
  if (!asked.label && !asked.cell) return {{"s2ix_step AS step", "1", "step.id", false, first, limit}};
  const std::int64_t next = book.state().listed + 1;
  return {listed_part(asked, first, std::min(limit, next)), unlisted_part(book, asked, std::max(first, next), limit)};
}

// The question that finds the steps of a part.
inline std::string question_of(const Asked& asked, const Part& part) {
  std::string where = part.where;
  // (whose a step was that is gone is not known)
  if (asked.who) where += part.is_listed && asked.label ? " AND (step.who = ?8 OR step.id IS NULL)" : " AND step.who = ?8";
  return "SELECT step.id, step.time, step.who, step.note, step.kind, step.of_step, step.change, step.seal, "
         "(SELECT seal FROM s2ix_step AS other WHERE other.id < step.id ORDER BY other.id DESC LIMIT 1), "
         "(SELECT kind = 'undo' FROM s2ix_step AS move WHERE move.of_step = step.id AND move.kind IN ('undo', 'redo') AND move.id < ?3 "
         "ORDER BY move.id DESC LIMIT 1), " +
         part.id + " FROM " + part.tables + " WHERE " + where + " AND " + part.id + " >= ?1 AND " + part.id + " < ?2 ORDER BY " + part.id +
         (asked.is_newest_first ? " DESC LIMIT ?4" : " LIMIT ?4");
}

// Puts the steps of a part behind others, up to as many as are asked for. `end` is the id after the last step that is held.
inline void put_part(const Book& book, const Asked& asked, const Part& part, std::int64_t end, std::vector<Logged>& found) {
  if (part.is_listed && !asked.label) expect_steps_of_cells(book, asked, part);
  Statement rows(book.connection(), question_of(asked, part).c_str());
  rows.bind(1, part.first);
  rows.bind(2, part.limit);
  rows.bind(3, end);
  rows.bind(4, static_cast<std::int64_t>(std::min<std::size_t>(asked.most - found.size(), std::numeric_limits<std::int64_t>::max())));
  if (part.is_listed && asked.label) rows.bind(5, std::int64_t{*asked.label});
  if (part.is_listed && asked.cell) bind_cells(asked, rows);
  if (asked.who) rows.bind(8, *asked.who);
  const std::int64_t begin = book.first();
  while (rows.next()) {
    if (rows.is_null(0)) book.spoilt("it is listed under a label, but it is gone", rows.integer(10));
    const bool is_first = rows.is_null(8) || rows.integer(0) == begin + 1;
    const Step step = book.step_at(rows, is_first ? book.seal_before(begin + 1) : static_cast<std::uint32_t>(rows.integer(8)));
    if (part.is_listed) expect_changed(book, asked, step);
    const std::chrono::microseconds since(step.time);
    found.push_back({step.id, decltype(Logged::time)(since), step.who, step.note, step.kind, step.of_step, rows.integer(9) != 0});
  }
}

// The steps that are asked for, up to a last one.
inline std::vector<Logged> listed(const Book& book, const Asked& asked, std::int64_t last) {
  const std::int64_t begin = book.first(), end = last + 1;
  const std::int64_t since = asked.since ? from_time(book, *asked.since, begin, last) : asked.first;
  const std::int64_t before = asked.before ? from_time(book, *asked.before, begin, last) : asked.limit;
  std::vector<Part> parts = parts_of(book, asked, std::max({asked.first, since, begin + 1}), std::min({asked.limit, before, end}));
  if (asked.is_newest_first) std::reverse(parts.begin(), parts.end());
  std::vector<Logged> found;
  for (const Part& part : parts) put_part(book, asked, part, end, found);
  return found;
}

}  // namespace detail

}  // namespace s2ix

#endif
