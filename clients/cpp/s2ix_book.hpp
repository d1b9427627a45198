// The tables in which a file keeps an index and the log of its steps, read and checked by their seals, for C++17. DURABLE.md describes
// them. Include s2ix_durable.hpp, which says more.
#ifndef S2IX_BOOK_HPP
#define S2IX_BOOK_HPP

#include "s2ix_index.hpp"
#include "s2ix_seal.hpp"
#include "s2ix_sqlite.hpp"

#include <cstddef>
#include <cstdint>
#include <limits>
#include <optional>
#include <string>
#include <string_view>
#include <utility>

namespace s2ix {

// A later version of s2ix wrote the file, in a form that this header doesn't read.
class LaterForm : public FileError {
 public:
  LaterForm(const std::string& path, std::int64_t form, std::int64_t known)
      : FileError(path, "a later version of s2ix wrote the file: it is of form " + std::to_string(form) + ", and this version reads form " +
                            std::to_string(known)),
        form_(form) {}

  // The form of its tables.
  [[nodiscard]] std::int64_t form() const noexcept { return form_; }

 private:
  std::int64_t form_;
};

namespace detail {

// The row of s2ix_state.
struct State {
  // (none has this version)
  std::int64_t version = -1;
  std::int64_t last = 0;
  std::uint32_t tip = 0, saved = 0;
  // The last step whose labels and cells are listed, and the sum of the numbers of the rows that list them.
  std::int64_t listed = 0, listed_sum = 0;
  Limits limits;
};

// A row of s2ix_step. Its time is in microseconds since 1970.
struct Step {
  std::int64_t id = 0, time = 0;
  std::optional<std::string> who, note;
  std::string kind;
  std::optional<std::int64_t> of_step;
  std::optional<std::string> change;
  std::uint32_t seal = 0;
};

// A row of s2ix_saved, without the steps that can be undone and redone.
struct Saved {
  std::int64_t step = 0;
  std::uint32_t tip = 0;
  std::string dump;
  std::uint32_t seal = 0;
};

// What a connection finds in the tables of a file. Make each call in a Reading.
class Book {
 public:
  static constexpr std::int64_t mark = 0x53324958, form = 2;

  explicit Book(const Connection& connection) noexcept : connection_(connection) {}

  [[nodiscard]] const Connection& connection() const noexcept { return connection_; }

  // Throws unless the tables are those of an index in today's form, before anything is asked of them.
  void check_form() const {
    if (number("PRAGMA application_id") != mark) spoilt("it is no file of an index");
    const std::int64_t found = number("PRAGMA user_version");
    if (found > form) throw LaterForm(connection_.path(), found, form);
    if (found < form) {
      throw FileError(connection_.path(), "s2ix 1.1 wrote the file: open it once by Durable of the Python package, which takes it over");
    }
    Statement tables(connection_,
                     "SELECT type, name, tbl_name, sql FROM sqlite_master WHERE lower(substr(name, 1, 5)) = 's2ix_' OR "
                     "lower(substr(tbl_name, 1, 5)) = 's2ix_' ORDER BY name");
    for (const Made& made : all_made) {
      if (!tables.next() || !made.is_at(tables)) spoilt("its tables are not those of an index");
    }
    if (tables.next()) spoilt("its tables are not those of an index");
  }

  // The state of the file.
  [[nodiscard]] State state() const {
    Statement row(connection_,
                  "SELECT version, last, tip, saved, listed, listed_sum, pairs, copies, changes, seal FROM s2ix_state LIMIT 2");
    constexpr int last = 9;
    bool is_whole = row.next();
    Seal seal;
    for (int column = 0; is_whole && column <= last; column++) {
      is_whole = row.is_integer(column);
      if (is_whole && column < last) seal.add(row.integer(column));
    }
    if (!is_whole || row.integer(last) != seal.sum()) spoilt("its state is not as it was written");
    const State found{row.integer(0), row.integer(1), narrow(row.integer(2)), narrow(row.integer(3)), row.integer(4), row.integer(5),
                      Limits{narrow(row.integer(6)), narrow(row.integer(7)), narrow(row.integer(8))}};
    if (row.next()) spoilt("it has several states");
    return found;
  }

  // Throws unless the labels and cells are listed as a state has it; but a large file isn't looked through. O(k) for all k rows that list
  // them.
  void check_lists(const State& state) const {
    constexpr std::int64_t few_pages = 4096;
    if (number("PRAGMA page_count") > few_pages) return;
    Statement row(connection_,
                  "SELECT (SELECT coalesce(sum((abs(label % 65521) + 1) * (step % 65521 + 1)), 0) FROM s2ix_label) + "
                  "(SELECT coalesce(sum((abs(cell % 65521) + 1) * (step % 65521 + 1)), 0) FROM s2ix_cell)");
    // (SQL takes 2.5 for 2 here, but then the sum is no integer)
    const bool is_whole = row.next() && row.is_integer(0) && row.integer(0) == state.listed_sum;
    if (!is_whole) spoilt("its labels or cells are listed in another way");
  }

  // The step of the oldest saved state, after which the log goes on.
  [[nodiscard]] std::int64_t first() const { return number("SELECT coalesce(min(step), -1) FROM s2ix_saved"); }

  // The last saved state that is at most that after a step, if there is one.
  [[nodiscard]] std::optional<Saved> saved(std::int64_t most) const {
    Statement row(connection_, "SELECT step, tip, standing, undone, changes, dump, seal FROM s2ix_saved WHERE step <= ? ORDER BY step DESC LIMIT 1");
    row.bind(1, most);
    if (!row.next()) return {};
    const bool is_whole = row.is_integer(1) && row.is_text(2) && row.is_text(3) && row.is_integer(4) && row.is_text(5) && row.is_integer(6);
    Seal seal;
    if (is_whole) {
      seal.add(row.integer(0)).add(row.integer(1)).add(row.text(2)).add(row.text(3)).add(row.integer(4)).add(row.text(5));
    }
    if (!is_whole || row.integer(6) != seal.sum()) spoilt("a saved state is not as it was written");
    return Saved{row.integer(0), narrow(row.integer(1)), std::string(row.text(5)), seal.sum()};
  }

  // Calls `take` with each step after one, up to another, and returns the seal of the last of them. That of the first goes on from `tip`.
  template <class Take>
  std::uint32_t each_step(std::int64_t after, std::uint32_t tip, std::int64_t last, Take take) const {
    Statement rows(connection_,
                   "SELECT id, time, who, note, kind, of_step, change, seal FROM s2ix_step WHERE id > ? AND id <= ? ORDER BY id");
    rows.bind(1, after);
    rows.bind(2, last);
    while (rows.next()) {
      const Step step = step_at(rows, tip);
      tip = step.seal;
      take(step);
    }
    return tip;
  }

  // Throws unless the steps behind an id go on from a seal, that of the last step up to there: if its number was left out, they do; if its
  // row is gone, they don't.
  void expect_none_gone(std::int64_t id, std::uint32_t tip) const {
    Statement row(connection_, "SELECT id, time, who, note, kind, of_step, change, seal FROM s2ix_step WHERE id > ? ORDER BY id LIMIT 1");
    row.bind(1, id);
    if (row.next()) {
      static_cast<void>(step_at(row, tip));
    } else if (tip != state().tip) {
      spoilt("its steps are those of another state");
    }
  }

  // The step with an id, if the log has it.
  [[nodiscard]] std::optional<Step> step(std::int64_t id) const {
    Statement row(connection_, "SELECT id, time, who, note, kind, of_step, change, seal FROM s2ix_step WHERE id = ?");
    row.bind(1, id);
    if (!row.next()) return {};
    return step_at(row, seal_before(id));
  }

  // The step at which a statement of its columns stands. Its seal goes on from another.
  [[nodiscard]] Step step_at(const Statement& row, std::uint32_t before) const {
    Step step;
    step.id = row.integer(0);
    Seal seal(before);
    const bool is_whole = row.is_integer(0) && row.is_integer(1) && row.is_text(4) && row.is_integer(7);
    if (!is_whole) spoilt("it has no time, kind or seal", step.id);
    step.time = row.integer(1);
    seal.add(step.id).add(step.time);
    step.who = text_at(row, 2, step.id, seal);
    step.note = text_at(row, 3, step.id, seal);
    step.kind = *text_at(row, 4, step.id, seal);
    if (row.is_integer(5)) {
      step.of_step = row.integer(5);
      seal.add(*step.of_step);
    } else {
      // (what is no integer has another seal than it should)
      seal.add_none();
    }
    step.change = text_at(row, 6, step.id, seal);
    step.seal = seal.sum();
    if (row.integer(7) != step.seal) spoilt("it is not as it was written", step.id);
    return step;
  }

  // The seal that a step goes on from.
  [[nodiscard]] std::uint32_t seal_before(std::int64_t id) const {
    Statement row(connection_, "SELECT id, seal FROM s2ix_step WHERE id < ? ORDER BY id DESC LIMIT 1");
    row.bind(1, id);
    const std::int64_t begin = first();
    if (row.next() && row.integer(0) > begin) return narrow(row.integer(1));
    const std::optional<Saved> start = saved(begin);
    if (!start) spoilt("it has no saved state");
    return start->tip;
  }

  // The last step that was made at a time, in microseconds since 1970, or before it: one of those from `low` to `last`. It halves the log,
  // whose times never fall.
  [[nodiscard]] std::int64_t at_time(std::int64_t time, std::int64_t low, std::int64_t last) const {
    while (low < last) {
      const std::int64_t middle = low + (last - low + 1) / 2;
      Statement row(connection_, "SELECT id, time FROM s2ix_step WHERE id >= ? ORDER BY id LIMIT 1");
      row.bind(1, middle);
      const bool is_later = !row.next() || row.integer(1) > time;
      (is_later ? last : low) = is_later ? middle - 1 : row.integer(0);
    }
    return low;
  }

  [[noreturn]] void spoilt(const std::string& why, std::int64_t row = 0) const { throw Spoilt(connection_.path(), why, row); }

 private:
  // What sqlite_master has of a table or an index of SQL.
  struct Made {
    const char* type;
    const char* name;
    const char* table;
    const char* words;

    [[nodiscard]] bool is_at(const Statement& row) const {
      return is_text(row, 0, type) && is_text(row, 1, name) && is_text(row, 2, table) && is_text(row, 3, words);
    }
    [[nodiscard]] static bool is_text(const Statement& row, int column, std::string_view text) {
      return row.is_text(column) && row.text(column) == text;
    }
  };

  static constexpr Made all_made[] = {
      {"table", "s2ix_cell", "s2ix_cell", "CREATE TABLE s2ix_cell (cell INTEGER, step INTEGER, PRIMARY KEY (cell, step)) WITHOUT ROWID"},
      {"table", "s2ix_label", "s2ix_label",
       "CREATE TABLE s2ix_label (label INTEGER, step INTEGER, PRIMARY KEY (label, step)) WITHOUT ROWID"},
      {"index", "s2ix_of", "s2ix_step", "CREATE INDEX s2ix_of ON s2ix_step (of_step) WHERE of_step IS NOT NULL"},
      {"table", "s2ix_saved", "s2ix_saved",
       "CREATE TABLE s2ix_saved (step INTEGER PRIMARY KEY, tip INTEGER, standing TEXT, undone TEXT, changes INTEGER, dump TEXT, "
       "seal INTEGER)"},
      {"table", "s2ix_state", "s2ix_state",
       "CREATE TABLE s2ix_state (version INTEGER, last INTEGER, tip INTEGER, saved INTEGER, listed INTEGER, listed_sum INTEGER, "
       "pairs INTEGER, copies INTEGER, changes INTEGER, seal INTEGER)"},
      {"table", "s2ix_step", "s2ix_step",
       "CREATE TABLE s2ix_step (id INTEGER PRIMARY KEY, time INTEGER, who TEXT, note TEXT, kind TEXT, of_step INTEGER, change TEXT, "
       "seal INTEGER)"},
      {"index", "s2ix_who", "s2ix_step", "CREATE INDEX s2ix_who ON s2ix_step (who) WHERE who IS NOT NULL"},
  };

  // The number that a question has for an answer.
  [[nodiscard]] std::int64_t number(const char* question) const {
    Statement row(connection_, question);
    return row.next() ? row.integer(0) : 0;
  }

  // A number of 32 bits; what is wider is spoilt.
  [[nodiscard]] std::uint32_t narrow(std::int64_t value) const {
    if (value < 0 || value > std::numeric_limits<std::uint32_t>::max()) spoilt("a number is too wide");
    return static_cast<std::uint32_t>(value);
  }

  // A text of a step or none, which goes into its seal.
  [[nodiscard]] std::optional<std::string> text_at(const Statement& row, int column, std::int64_t id, Seal& seal) const {
    if (row.is_null(column)) {
      seal.add_none();
      return {};
    }
    if (!row.is_text(column)) spoilt("it has no text", id);
    const std::string_view text = row.text(column);
    seal.add(text);
    return std::string(text);
  }

  const Connection& connection_;
};

}  // namespace detail

}  // namespace s2ix

#endif
