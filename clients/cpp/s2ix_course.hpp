// How the steps of a log lead an index from one moment to another, for C++17. Include s2ix_durable.hpp, which says more.
#ifndef S2IX_COURSE_HPP
#define S2IX_COURSE_HPP

#include "s2ix_book.hpp"
#include "s2ix_index.hpp"

#include <algorithm>
#include <charconv>
#include <cstddef>
#include <cstdint>
#include <string_view>
#include <system_error>
#include <tuple>
#include <vector>

namespace s2ix {

namespace detail {

// An index as it was after a step, with the seal of that step.
struct Moment {
  std::int64_t step;
  std::uint32_t tip;
  Index index;
};

// Reads the change of a step, which is a text, word by word. What is no change is spoilt.
class ChangeReader {
 public:
  ChangeReader(const Book& book, const Step& step) : book_(book), id_(step.id), rest_(*step.change) {}

  [[nodiscard]] std::vector<Entry> entries() {
    if (word(' ') != "change") spoilt();
    const std::uint32_t many = number('\n');
    std::vector<Entry> entries;
    // (no line is shorter than eight bytes)
    entries.reserve(std::min<std::size_t>(many, rest_.size() / 8));
    for (std::uint32_t k = 0; k < many; k++) {
      const std::uint64_t cell = token();
      const std::uint32_t label = number(' '), before = number(' '), after = number('\n');
      entries.push_back({cell, label, before, after});
    }
    if (!rest_.empty()) spoilt();
    return entries;
  }

 private:
  // The bytes up to another one, which is left out.
  std::string_view word(char end) {
    const std::size_t size = rest_.find(end);
    if (size == rest_.npos) spoilt();
    const std::string_view found = rest_.substr(0, size);
    rest_.remove_prefix(size + 1);
    return found;
  }

  std::uint32_t number(char end) {
    const std::string_view digits = word(end);
    std::uint32_t value = 0;
    const auto [read, error] = std::from_chars(digits.data(), digits.data() + digits.size(), value);
    if (error != std::errc() || read != digits.data() + digits.size()) spoilt();
    return value;
  }

  std::uint64_t token() {
    const std::string_view text = word(' ');
    std::uint64_t cell = 0;
    if (s2ix_cell_from_token(bytes(text), text.size(), &cell) != S2IX_DONE) spoilt();
    return cell;
  }

  [[noreturn]] void spoilt() const { book_.spoilt("its change is none", id_); }

  const Book& book_;
  std::int64_t id_;
  std::string_view rest_;
};

// What a step changed, by rising cell, then label.
inline std::vector<Entry> entries_of(const Book& book, const Step& step) {
  // (a join has what its changes did together, when they did it)
  return step.change && step.kind != "join" ? ChangeReader(book, step).entries() : std::vector<Entry>();
}

// Steps on their way into an index, by one change of all that they do together.
class Course {
 public:
  explicit Course(const Book& book) noexcept : book_(book) {}

  // Takes the next step.
  void take(const Step& step) {
    for (const Entry& entry : entries_of(book_, step)) taken_.push_back({entry, step.id});
  }

  // Carries out what was taken. The index has nothing to undo, before and after.
  void carry_out(Index& index) {
    const std::vector<Taken> net = together();
    if (net.empty()) return;
    std::vector<Entry> entries;
    entries.reserve(net.size());
    for (const Taken& each : net) entries.push_back(each.entry);
    try {
      index.record(entries);
    } catch (const Error& error) {
      book_.spoilt(status_text(error.status()), error.place() ? net[*error.place()].step : net.back().step);
    }
    index.forget();
  }

 private:
  // An entry, and the step that it is of.
  struct Taken {
    Entry entry;
    std::int64_t step;

    [[nodiscard]] bool is_of_pair(const Entry& other) const { return entry.cell == other.cell && entry.label == other.label; }
  };

  // One entry for each pair that has another count after all steps than before, by rising cell, then label.
  std::vector<Taken> together() {
    std::stable_sort(taken_.begin(), taken_.end(), [](const Taken& one, const Taken& other) {
      return std::tie(one.entry.cell, one.entry.label) < std::tie(other.entry.cell, other.entry.label);
    });
    std::vector<Taken> net;
    for (auto first = taken_.cbegin(); first != taken_.cend();) {
      Taken whole = *first;
      for (++first; first != taken_.cend() && first->is_of_pair(whole.entry); ++first) {
        if (first->entry.before != whole.entry.after) book_.spoilt("it has another count than there was", first->step);
        whole.entry.after = first->entry.after;
      }
      if (whole.entry.before != whole.entry.after) net.push_back(whole);
    }
    taken_.clear();
    return net;
  }

  const Book& book_;
  std::vector<Taken> taken_;
};

// Leads a moment on to a later step. If the steps are spoilt, the moment is as it was.
inline void lead_on(const Book& book, Moment& moment, std::int64_t last) {
  Course course(book);
  std::int64_t id = moment.step;
  const std::uint32_t tip = book.each_step(moment.step, moment.tip, last, [&](const Step& step) {
    id = step.id;
    course.take(step);
  });
  if (id != last) book.expect_none_gone(last, tip);
  course.carry_out(moment.index);
  moment.step = last;
  moment.tip = tip;
}

// The moment after a step, from a saved state before it.
inline Moment moment_after(const Book& book, const Saved& saved, const Limits& limits, std::int64_t last) {
  try {
    Moment moment{saved.step, saved.tip, Index::load(saved.dump, limits)};
    lead_on(book, moment, last);
    return moment;
  } catch (const Error& error) {
    book.spoilt(error.what());
  }
}

}  // namespace detail

}  // namespace s2ix

#endif
