// A file of SQLite that is open to be read, and what is raised of it, for C++17. Include s2ix_durable.hpp, which says more.
#ifndef S2IX_SQLITE_HPP
#define S2IX_SQLITE_HPP

#include <sqlite3.h>

#include <sys/stat.h>
#include <sys/statvfs.h>
#include <unistd.h>

#include <chrono>
#include <cstddef>
#include <cstdint>
#include <cstdlib>
#include <memory>
#include <new>
#include <optional>
#include <stdexcept>
#include <string>
#include <string_view>
#include <utility>

namespace s2ix {

// Why a file of an index can't be opened or read. The words begin with its path.
class FileError : public std::runtime_error {
 public:
  FileError(const std::string& path, const std::string& why, int code = SQLITE_OK)
      : std::runtime_error(path + ": " + why), path_(path), code_(code) {}

  // The path, as it was given.
  [[nodiscard]] const std::string& path() const noexcept { return path_; }

  // SQLite's extended result code, as SQLITE_BUSY or SQLITE_IOERR_READ; SQLITE_OK if SQLite has not refused anything.
  [[nodiscard]] int code() const noexcept { return code_; }

 private:
  std::string path_;
  int code_;
};

// The file is none of an index, or not as it was written.
class Spoilt : public FileError {
 public:
  Spoilt(const std::string& path, const std::string& why, std::int64_t row = 0, int code = SQLITE_OK)
      : FileError(path, "the file is spoilt: " + (row == 0 ? "its start" : "step " + std::to_string(row)) + ": " + why, code), row_(row) {}

  // The id of the first step that is wrong, or 0 if what the steps start from is.
  [[nodiscard]] std::int64_t row() const noexcept { return row_; }

 private:
  std::int64_t row_;
};

// The log of the file has no step with an id: it never had, or it was made shorter.
class NoSuchStep : public FileError {
 public:
  NoSuchStep(const std::string& path, std::int64_t step) : FileError(path, "the log has no step " + std::to_string(step)), step_(step) {}

  [[nodiscard]] std::int64_t step() const noexcept { return step_; }

 private:
  std::int64_t step_;
};

namespace detail {

// A path, and which file is there, with which log and shared memory of SQLite's beside it.
class Place {
 public:
  explicit Place(const std::string& path) : given_(absolute(path)), real_(without_links(given_)) {}

  // The path without links.
  [[nodiscard]] const std::string& real() const noexcept { return real_; }
  [[nodiscard]] std::string log() const { return real_ + "-wal"; }

  // How many bytes the file and its log have; 0 if there is none.
  [[nodiscard]] std::uint64_t size() const { return size_of(real_); }
  [[nodiscard]] std::uint64_t log_size() const { return size_of(log()); }

  // Whether nobody can write to the file, nor has left a log.
  [[nodiscard]] bool is_fixed() const {
    struct ::statvfs system {};
    return ::statvfs(real_.c_str(), &system) == 0 && (system.f_flag & ST_RDONLY) != 0 && log_size() == 0;
  }

  // What differs from which file was there, and what beside it, when this was asked for the first time; or nothing.
  [[nodiscard]] std::string fault() {
    const Seen now = look();
    if (!has_seen_) seen_ = now;
    has_seen_ = true;
    if (now.file != seen_.file) return now.file ? "another file is at its path: open it again" : "no file is at its path any more";
    if (is_other(seen_.log, now.log)) return "its log " + log() + " was replaced or deleted: open it in another process";
    if (is_other(seen_.memory, now.memory)) return "its shared memory " + memory() + " was replaced or deleted: open it in another process";
    seen_ = now;
    return {};
  }

 private:
  // What tells a file from another one at its path.
  using Identity = std::optional<std::pair<::dev_t, ::ino_t>>;
  struct Seen {
    Identity file, log, memory;
  };

  [[nodiscard]] std::string memory() const { return real_ + "-shm"; }
  [[nodiscard]] Seen look() const { return {identity(given_), identity(log()), identity(memory())}; }

  // (log and memory come with the first who reads or writes)
  static bool is_other(const Identity& was, const Identity& is) { return was && was != is; }

  static Identity identity(const std::string& path) {
    struct ::stat found {};
    return ::stat(path.c_str(), &found) == 0 ? Identity({found.st_dev, found.st_ino}) : Identity();
  }

  static std::uint64_t size_of(const std::string& path) {
    struct ::stat found {};
    return ::stat(path.c_str(), &found) == 0 ? static_cast<std::uint64_t>(found.st_size) : 0;
  }

  // A path that means the same when the process has gone to another folder.
  static std::string absolute(const std::string& path) {
    return !path.empty() && path.front() == '/' ? path : without_links(".") + "/" + path;
  }

  // (if there is no file yet, the path as it is)
  static std::string without_links(const std::string& path) {
    const std::unique_ptr<char, decltype(&std::free)> found(::realpath(path.c_str(), nullptr), &std::free);
    return found ? std::string(found.get()) : path;
  }

  std::string given_, real_;
  bool has_seen_ = false;
  Seen seen_;
};

class Statement;

// A connection to a file that only reads, which one thread uses at a time.
class Connection {
 public:
  // `path` is how the file is named in errors. A fixed file is one that nobody can write to.
  Connection(const std::string& path, const Place& place, bool is_fixed, std::chrono::milliseconds timeout)
      : path_(path), process_(::getpid()) {
    const std::string name = "file://" + quoted(place.real()) + (is_fixed ? "?mode=ro&immutable=1" : "?mode=ro");
    const int code = sqlite3_open_v2(name.c_str(), &connection_, SQLITE_OPEN_READONLY | SQLITE_OPEN_URI, nullptr);
    if (code != SQLITE_OK) {
      // (SQLite makes a connection in vain too, which has the words)
      const std::string why = connection_ == nullptr ? sqlite3_errstr(code) : sqlite3_errmsg(connection_);
      sqlite3_close(std::exchange(connection_, nullptr));
      refuse(code, why);
    }
    sqlite3_extended_result_codes(connection_, 1);
    sqlite3_busy_timeout(connection_, static_cast<int>(timeout.count()));
  }
  Connection(const Connection&) = delete;
  Connection& operator=(const Connection&) = delete;
  // (in a forked child SQLite would take its parent's locks for its own)
  ~Connection() {
    if (process_ == ::getpid()) sqlite3_close(connection_);
  }

  [[nodiscard]] const std::string& path() const noexcept { return path_; }

  // Throws in a forked child.
  void check_process() const {
    if (process_ != ::getpid()) throw FileError(path_, "a forked child can't use the file of its parent");
  }

  // Throws what a result code says, unless it is SQLITE_OK.
  void check(int code) const {
    if (code != SQLITE_OK) refuse(code, sqlite3_errmsg(connection_));
  }

 private:
  friend class Statement;

  [[noreturn]] void refuse(int code, const std::string& why) const {
    switch (code & 0xff) {
      case SQLITE_NOMEM:
        throw std::bad_alloc();
      case SQLITE_CORRUPT:
      case SQLITE_NOTADB:
        throw Spoilt(path_, why, 0, code);
      default:
        throw FileError(path_, why, code);
    }
  }

  // A path within the name that SQLite opens.
  static std::string quoted(const std::string& path) {
    std::string text;
    for (const char byte : path) {
      if (byte == '%' || byte == '?' || byte == '#') {
        text += byte == '%' ? "%25" : byte == '?' ? "%3f" : "%23";
      } else {
        text += byte;
      }
    }
    return text;
  }

  std::string path_;
  ::pid_t process_;
  ::sqlite3* connection_ = nullptr;
};

// A statement of SQL, and the row that it stands at.
class Statement {
 public:
  Statement(const Connection& connection, const char* words) : connection_(connection) {
    connection.check(sqlite3_prepare_v2(connection.connection_, words, -1, &statement_, nullptr));
  }
  Statement(const Statement&) = delete;
  Statement& operator=(const Statement&) = delete;
  ~Statement() { sqlite3_finalize(statement_); }

  // Gives values to the statement's parameters, counted from 1.
  void bind(int place, std::int64_t value) { connection_.check(sqlite3_bind_int64(statement_, place, value)); }
  void bind(int place, std::string_view text) {
    connection_.check(sqlite3_bind_text64(statement_, place, text.data(), text.size(), SQLITE_TRANSIENT, SQLITE_UTF8));
  }

  // Goes to the next row, and returns whether there is one.
  bool next() {
    const int code = sqlite3_step(statement_);
    if (code != SQLITE_ROW && code != SQLITE_DONE) connection_.check(code);
    return code == SQLITE_ROW;
  }

  // Columns of the row, counted from 0.
  [[nodiscard]] int width() const { return sqlite3_column_count(statement_); }
  [[nodiscard]] bool is_integer(int column) const { return sqlite3_column_type(statement_, column) == SQLITE_INTEGER; }
  [[nodiscard]] bool is_text(int column) const { return sqlite3_column_type(statement_, column) == SQLITE_TEXT; }
  [[nodiscard]] bool is_null(int column) const { return sqlite3_column_type(statement_, column) == SQLITE_NULL; }
  [[nodiscard]] std::int64_t integer(int column) const { return sqlite3_column_int64(statement_, column); }
  // (it lasts until the next row)
  [[nodiscard]] std::string_view text(int column) const {
    const unsigned char* const bytes = sqlite3_column_text(statement_, column);
    if (bytes == nullptr) throw std::bad_alloc();
    return {reinterpret_cast<const char*>(bytes), static_cast<std::size_t>(sqlite3_column_bytes(statement_, column))};
  }

 private:
  const Connection& connection_;
  ::sqlite3_stmt* statement_ = nullptr;
};

// A transaction that reads, which lasts as long as this lives: all that is read in it was there at one moment.
class Reading {
 public:
  explicit Reading(const Connection& connection) : connection_(connection) { run("BEGIN"); }
  Reading(const Reading&) = delete;
  Reading& operator=(const Reading&) = delete;
  ~Reading() {
    try {
      run("ROLLBACK");
    } catch (...) {
      // (SQLite ended it itself)
    }
  }

 private:
  void run(const char* words) const { Statement(connection_, words).next(); }

  const Connection& connection_;
};

}  // namespace detail

}  // namespace s2ix

#endif
