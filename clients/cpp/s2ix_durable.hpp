// An index in a file, which s2ix.Durable of Python writes, for programs in C++17 that read it: headers over s2ix.hpp, which need SQLite's
// own library too, as in
//
//   c++ -std=c++17 app.cpp $(pkg-config --cflags --libs s2ix sqlite3)
//
// DURABLE.md, which describes the file, lies in docs of the repository, and in share/doc/s2ix where ./install put this file.
#ifndef S2IX_DURABLE_HPP
#define S2IX_DURABLE_HPP

#include "s2ix.hpp"
#include "s2ix_book.hpp"
#include "s2ix_course.hpp"
#include "s2ix_log.hpp"
#include "s2ix_sqlite.hpp"

#include <chrono>
#include <cstddef>
#include <cstdint>
#include <limits>
#include <memory>
#include <mutex>
#include <optional>
#include <string>
#include <thread>
#include <type_traits>
#include <utility>
#include <vector>

namespace s2ix {

// An index in a file, which is read and followed while another process writes it.
//
//   s2ix::Durable zones("zones.db");
//   zones->labels({cell});      // what an Index answers
//   if (zones.refresh()) ..     // steps were made since
//
// Threads may share it: they ask index() side by side, and what it returned stays as it was; calls that read the file take turns. Only
// refresh() changes what is held, from one whole step to another. Nothing is written to the file; in its folder SQLite makes its shared
// memory, zones.db-shm. A forked child opens a Durable of its own.
//
// Each call that reads the file may throw FileError, and so Spoilt or LaterForm, whose words begin with the path, and std::bad_alloc; then
// what is held is as before. If another file comes to the path, refresh() throws FileError, and what is held can still be asked.
class Durable {
 public:
  // Opens the index in a file. It waits up to `timeout` for a file that isn't there yet; and so does each call while the writer keeps it
  // from reading, which is seldom. Throws LaterForm if a later version wrote the file, Spoilt if it is none of an index, or not as it was
  // written, and else FileError. O(n + m log m) for n pairs and m entries of the steps since the last saved state; and O(k) for all k rows
  // that list labels and cells, if the file has at most 4,096 pages.
  explicit Durable(std::string path, std::chrono::milliseconds timeout = std::chrono::seconds(5)) : path_(std::move(path)) {
    const auto until = std::chrono::steady_clock::now() + timeout;
    const bool is_fixed = wait_for_file(until).is_fixed();
    connection_.emplace(path_, *place_, is_fixed, timeout);
    while (!read_unless_locked(until)) std::this_thread::sleep_for(pause);
  }
  Durable(const Durable&) = delete;
  Durable& operator=(const Durable&) = delete;
  ~Durable() = default;

  // The path, as it was given.
  [[nodiscard]] const std::string& path() const noexcept { return path_; }

  // Brings what is held up to what the file holds now, and returns whether steps were made since. O(m log m) for m entries of these steps,
  // besides the time of an edit and of a copy(); or what opening costs, if the log was made shorter beyond what is held.
  bool refresh() {
    const std::lock_guard<std::mutex> turn(turn_);
    const std::int64_t before = held_.step;
    read();
    return held_.step != before;
  }

  // What is held: an index with nothing to undo, which stays as it is after refresh() too. Ask it for several answers of one moment. Any
  // number of threads may ask side by side. O(1).
  [[nodiscard]] std::shared_ptr<const Index> index() const { return shown_.get(); }

  // For one answer, as in zones->at(leaf).
  [[nodiscard]] std::shared_ptr<const Index> operator->() const { return index(); }

  // The id of the last step that is held; 0 before the first.
  [[nodiscard]] std::int64_t last() const {
    const std::lock_guard<std::mutex> turn(turn_);
    return held_.step;
  }

  // The limits that the writer gave.
  [[nodiscard]] Limits limits() const {
    const std::lock_guard<std::mutex> turn(turn_);
    return held_.state.limits;
  }

  // The steps that are asked for, of those that are held: the oldest first, unless more is said. The seal of each is checked, and whether it
  // changed the label and the cell. By a label or a person, O(log n) for each of n steps that is returned, and by a label O(m) for its m
  // entries; by a cell, for each that changed it. Throws Error with S2IX_NO_CELL if it is none.
  [[nodiscard]] std::vector<Logged> log(const Asked& asked = Asked()) const {
    const std::lock_guard<std::mutex> turn(turn_);
    return in_file([&](const detail::Book& book) { return detail::listed(book, asked, held_.step); });
  }

  // What a step changed, by rising cell, then label; nothing for a step that changed no count. Throws NoSuchStep.
  [[nodiscard]] std::vector<Entry> entries(std::int64_t step) const {
    const std::lock_guard<std::mutex> turn(turn_);
    return in_file([&](const detail::Book& book) {
      const std::optional<detail::Step> found = step <= held_.step ? book.step(step) : std::nullopt;
      if (!found) throw NoSuchStep(path_, step);
      return detail::entries_of(book, *found);
    });
  }

  // An index of what was held after a step, or with 0 before the first one; it has nothing to undo. O(n + m log m) for n pairs and m
  // entries of the steps since the last saved state before it. Throws NoSuchStep; the log may have been made shorter.
  [[nodiscard]] Index as_of(std::int64_t step) const {
    const std::lock_guard<std::mutex> turn(turn_);
    return in_file([&](const detail::Book& book) { return moment_after(book, step); });
  }

  // The same after the last step that was made at a time or before it.
  [[nodiscard]] Index as_of(std::chrono::system_clock::time_point time) const {
    const std::lock_guard<std::mutex> turn(turn_);
    return in_file([&](const detail::Book& book) {
      const std::int64_t begin = book.first(), step = book.at_time(detail::micros(time), begin, held_.step);
      // (what was held before the first step is known only if no step is gone)
      if (step == begin && begin != 0) throw NoSuchStep(path_, step);
      return moment_after(book, step);
    });
  }

 private:
  static constexpr std::chrono::milliseconds pause{5};

  // The state of the file that was read last, and its last step, with its seal.
  struct Held {
    detail::State state;
    std::int64_t step = 0;
    std::uint32_t tip = 0;
  };

  // Waits until a file is there that has bytes.
  const detail::Place& wait_for_file(std::chrono::steady_clock::time_point until) {
    while (true) {
      place_.emplace(path_);
      // (the log first: another process may be making the file)
      const std::uint64_t log = place_->log_size(), size = place_->size();
      if (size > 1) return *place_;
      if (size == 1) throw Spoilt(path_, "it is one byte");
      if (log > 0) throw Spoilt(path_, "it is gone or empty, but its log is there, " + place_->log());
      if (std::chrono::steady_clock::now() >= until) throw FileError(path_, "no file is there, or an empty one", SQLITE_CANTOPEN);
      std::this_thread::sleep_for(pause);
    }
  }

  // Reads the file for the first time; returns false if another process has it locked, and may give it free in time.
  bool read_unless_locked(std::chrono::steady_clock::time_point until) {
    try {
      read();
      return true;
    } catch (const FileError& error) {
      const int code = error.code() & 0xff;
      const bool is_locked = code == SQLITE_BUSY || code == SQLITE_LOCKED || code == SQLITE_PROTOCOL;
      if (!is_locked || std::chrono::steady_clock::now() >= until) throw;
      return false;
    }
  }

  // Makes a call with what is found in the file, which stays as it is meanwhile.
  template <class Call>
  std::invoke_result_t<Call, const detail::Book&> in_file(Call call) const {
    connection_->check_process();
    const detail::Book book(*connection_);
    const detail::Reading reading(*connection_);
    book.check_form();
    const std::string fault = place_->fault();
    if (!fault.empty()) throw FileError(path_, fault);
    return call(book);
  }

  // Brings what is held up to the file.
  void read() {
    in_file([&](const detail::Book& book) {
      const detail::State state = book.state();
      if (state.version == held_.state.version) return;
      if (index() == nullptr) book.check_lists(state);
      std::optional<detail::Moment> next = led_on(book, state);
      if (!next) next = started(book, state);
      if (next->tip != state.tip) book.spoilt("its steps are those of another state");
      if (index() == nullptr || next->step != held_.step) shown_.put(std::make_shared<const Index>(std::move(next->index)));
      held_ = {state, next->step, next->tip};
    });
  }

  // What a file holds in a state.
  static detail::Moment started(const detail::Book& book, const detail::State& state) {
    const std::optional<detail::Saved> saved = book.saved(state.last);
    if (!saved || saved->seal != state.saved) book.spoilt("its saved state is that of another state");
    return detail::moment_after(book, *saved, state.limits, state.last);
  }

  // What is held, with the steps that were made since; none if they may be gone.
  std::optional<detail::Moment> led_on(const detail::Book& book, const detail::State& state) const {
    const std::shared_ptr<const Index> now = index();
    if (now == nullptr || book.first() > held_.step) return {};
    detail::Moment moment{held_.step, held_.tip, now->copy()};
    detail::lead_on(book, moment, state.last);
    return moment;
  }

  Index moment_after(const detail::Book& book, std::int64_t step) const {
    const std::optional<detail::Saved> saved = step <= held_.step ? book.saved(step) : std::nullopt;
    if (!saved) throw NoSuchStep(path_, step);
    return detail::moment_after(book, *saved, held_.state.limits, step).index;
  }

  std::string path_;
  // (calls take turns on the connection, and on what is held)
  mutable std::mutex turn_;
  mutable std::optional<detail::Place> place_;
  std::optional<detail::Connection> connection_;
  Held held_;
  detail::Shown<Index> shown_;
};

}  // namespace s2ix

#endif
