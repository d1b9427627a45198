// The handle of an Index, which threads may share, for C++17. Include s2ix.hpp, which says more.
#ifndef S2IX_HANDLE_HPP
#define S2IX_HANDLE_HPP

#include "s2ix.h"
#include "s2ix_slots.hpp"

#include <algorithm>
#include <atomic>
#include <chrono>
#include <cstddef>
#include <cstdint>
#include <mutex>
#include <new>
#include <stdexcept>
#include <thread>
#include <utility>

#if __has_include(<sys/single_threaded.h>)
#include <sys/single_threaded.h>
#define S2IX_ONLY_THREAD __builtin_expect(__libc_single_threaded != 0, true)
#else
#define S2IX_ONLY_THREAD false
#endif

namespace s2ix {

namespace detail {

// A mutex that tells whether a thread waits for it.
class Turns {
 public:
  void lock() {
    if (mutex_.try_lock()) return;
    waiting_++;
    // (most turns are shorter than it takes to sleep and to be woken)
    int yields = 0;
    while (yields < most_yields && !mutex_.try_lock()) {
      std::this_thread::yield();
      yields++;
    }
    if (yields == most_yields) mutex_.lock();
    waiting_--;
  }
  [[nodiscard]] bool try_lock() { return mutex_.try_lock(); }
  void unlock() { mutex_.unlock(); }

  [[nodiscard]] bool is_awaited() const noexcept { return waiting_.load(std::memory_order_relaxed) > 0; }

 private:
  static constexpr int most_yields = 50;

  std::mutex mutex_;
  std::atomic<std::ptrdiff_t> waiting_{0};
};

// A turn, which lasts as long as this lives. While the process has one thread, the mutex stays as it is.
class Lock {
 public:
  explicit Lock(Turns& turns) : turns_(S2IX_ONLY_THREAD ? nullptr : &turns) {
    if (turns_ != nullptr) turns_->lock();
  }
  Lock(const Lock&) = delete;
  Lock& operator=(const Lock&) = delete;
  ~Lock() {
    if (turns_ != nullptr) turns_->unlock();
  }

 private:
  Turns* turns_;
};

// A copy of a store, which one call at a time asks.
class Reader {
 public:
  Reader() noexcept = default;
  Reader(const Reader&) = delete;
  Reader& operator=(const Reader&) = delete;
  ~Reader() { s2ix_close(&copy_); }

  [[nodiscard]] ::s2ix_handle* copy() noexcept { return &copy_; }

  // The state of the store that the copy shows.
  [[nodiscard]] std::uint64_t state() const noexcept { return state_; }
  [[nodiscard]] bool shows(std::uint64_t state) const noexcept { return state_ == state; }

  // Makes a copy of a store in a state, unless memory is refused.
  void follow(::s2ix_handle* store, std::uint64_t state) noexcept {
    drop();
    if (s2ix_copy(store, &copy_) == S2IX_DONE) state_ = state;
  }

  // Frees the copy.
  void drop() noexcept {
    s2ix_close(&copy_);
    state_ = none;
  }

  // How much time calls have lost by waiting for a store in a state, with this time.
  std::chrono::nanoseconds lost(std::uint64_t state, std::chrono::nanoseconds time) noexcept {
    if (lost_in_ != state) lost_ = {};
    lost_in_ = state;
    return lost_ += time;
  }

 private:
  // (a state is even)
  static constexpr std::uint64_t none = 1;

  ::s2ix_handle copy_{};
  std::uint64_t state_ = none;
  std::chrono::nanoseconds lost_{};
  std::uint64_t lost_in_ = none;
};

// A handle of a store, with copies for threads that ask it side by side. Edits take turns, and so does what is asked of the changes, since no
// copy has these. Any other question goes to the thread's own copy if that shows what is held, and else to the store in turn. A thread gets a
// copy once it has waited for others, or they for it, as long as that delays the next edit: so a thread that asks alone never has one. Move a
// handle only while no call runs.
class Handle {
 public:
  Handle() noexcept = default;
  Handle(Handle&& other) noexcept : handle_(other.taken_out()) { is_closed_ = !handle_.is_open; }
  Handle& operator=(Handle&& other) noexcept {
    if (this != &other) {
      ::s2ix_handle before = std::exchange(handle_, other.taken_out());
      is_closed_ = !handle_.is_open;
      s2ix_close(&before);
      delete readers_.exchange(nullptr);
      state_ += 2;
    }
    return *this;
  }
  ~Handle() {
    delete readers_.load(std::memory_order_relaxed);
    s2ix_close(&handle_);
  }

  // Makes a call that reads what is held.
  template <class Call>
  auto ask(Call call) const {
    const Asked asked(*this);
    return call(asked.handle());
  }

  // The same for a call that wants to know in which state that is. Each edit leads to another one.
  template <class Call>
  auto ask_in_state(Call call) const {
    const Asked asked(*this);
    return call(asked.handle(), asked.state());
  }

  // Makes a call with the store itself, while no other has it.
  template <class Call>
  auto with(Call call) const {
    const Lock held(turns_);
    return call(&handle_);
  }

  // The same for a call that may change the store, and returns a status. It is refused during a visit.
  template <class Call>
  std::uint32_t edit(Call call) {
    const Lock held(turns_);
    Next next(state_);
    check_unvisited();
    next.move();
    const std::uint32_t status = call(&handle_);
    if (status != S2IX_DONE) {
      next.stay();
    } else if (next.is_far()) {
      drop_copies();
    }
    return status;
  }

  // Closes the store, during a visit too.
  void close() noexcept {
    const Lock held(turns_);
    Next next(state_);
    next.move();
    s2ix_close(&handle_);
    is_closed_ = true;
    drop_copies();
  }

  // Whether there is a store. O(1). It waits for its turn only if the handle was handed out, since then others may close the store by it.
  [[nodiscard]] bool is_open() const noexcept {
    if (has_readers_) return !is_closed_.load(std::memory_order_acquire);
    return ask([](::s2ix_handle* handle) { return handle->is_open; });
  }

  // Throws during a visit.
  void check_unvisited() const {
    const Slots<Reader>* readers = readers_.load(std::memory_order_acquire);
    if (visits_ > 0 || (readers != nullptr && readers->is_visited())) {
      throw std::logic_error("s2ix: an index can't change while it is visited");
    }
  }

  // A visit of the store by several calls, which lasts as long as this lives. All see one state.
  class Visit {
   public:
    explicit Visit(const Handle& handle) noexcept : handle_(handle) {
      if (S2IX_ONLY_THREAD) {
        handle.add_visits_alone(1);
      } else {
        own_ = handle.begin_visit();
      }
    }
    Visit(const Visit&) = delete;
    Visit& operator=(const Visit&) = delete;
    ~Visit() {
      if (S2IX_ONLY_THREAD && own_ == nullptr) {
        handle_.add_visits_alone(-1);
      } else {
        handle_.end_visit(own_);
      }
    }

    // Makes a call that reads what is held.
    template <class Call>
    auto ask(Call call) const {
      const AskedInVisit asked(handle_, own_);
      return call(asked.handle());
    }

   private:
    const Handle& handle_;
    Slot<Reader>* own_ = nullptr;
  };

  // The handle itself, without the lock: no other call may run meanwhile, and none has run before.
  ::s2ix_handle* unlocked() noexcept { return &handle_; }

  // The same for a caller who may keep it and edit by it: since nothing tells when, threads get no copies from now on.
  ::s2ix_handle* handed_out() noexcept {
    delete readers_.exchange(nullptr);
    has_readers_ = false;
    return &handle_;
  }

 private:
  // What is asked, as long as this lives: the thread's own copy if that shows what is held, and else the store itself in turn.
  class Asked {
   public:
    explicit Asked(const Handle& handle) : handle_(handle), is_shared_(!S2IX_ONLY_THREAD) {
      if (is_shared_) own_ = handle.own_or_turn();
    }
    Asked(const Asked&) = delete;
    Asked& operator=(const Asked&) = delete;
    [[gnu::always_inline]] ~Asked() {
      if (is_shared_) handle_.give_back(own_);
    }

    [[nodiscard]] ::s2ix_handle* handle() const noexcept { return own_ == nullptr ? &handle_.handle_ : own_->item.copy(); }
    [[nodiscard]] std::uint64_t state() const noexcept { return own_ == nullptr ? handle_.shown() : own_->item.state(); }

   private:
    const Handle& handle_;
    const bool is_shared_;
    Slot<Reader>* own_ = nullptr;
  };

  // The same in a visit: its own copy, unless the store was closed meanwhile.
  class AskedInVisit {
   public:
    AskedInVisit(const Handle& handle, Slot<Reader>* own) : handle_(handle) {
      // (the state moves only if the store is closed)
      if (own != nullptr && own->item.shows(handle.shown())) {
        own_ = own;
      } else if (!S2IX_ONLY_THREAD) {
        handle.take_turn();
        has_turn_ = true;
      }
    }
    AskedInVisit(const AskedInVisit&) = delete;
    AskedInVisit& operator=(const AskedInVisit&) = delete;
    ~AskedInVisit() {
      if (has_turn_) handle_.turns_.unlock();
    }

    [[nodiscard]] ::s2ix_handle* handle() const noexcept { return own_ == nullptr ? &handle_.handle_ : own_->item.copy(); }

   private:
    const Handle& handle_;
    Slot<Reader>* own_ = nullptr;
    bool has_turn_ = false;
  };

  // The state that an edit leads to. While this lives, state_ is odd.
  class Next {
   public:
    explicit Next(std::atomic<std::uint64_t>& state) noexcept : state_(state), last_(state.load(std::memory_order_relaxed)) {
      state_.store(last_ + 1);
    }
    Next(const Next&) = delete;
    Next& operator=(const Next&) = delete;
    ~Next() { state_.store(next_); }

    void move() noexcept { next_ = last_ + 2; }
    void stay() noexcept { next_ = last_; }

    // Whether copies of earlier states, which waste memory, are freed now: at one state in 64.
    [[nodiscard]] bool is_far() const noexcept { return next_ % 128 == 0; }

   private:
    std::atomic<std::uint64_t>& state_;
    const std::uint64_t last_;
    std::uint64_t next_ = last_;
  };

  // The state that is held: while an edit runs, the one before it.
  [[nodiscard]] std::uint64_t shown() const noexcept { return state_.load() & ~std::uint64_t{1}; }

  // The thread's reader, if its copy shows what is held.
  Taken<Reader> own_reader(Use use) const noexcept {
    Slots<Reader>* readers = readers_.load(std::memory_order_acquire);
    if (readers == nullptr) return {};
    Taken<Reader> own = readers->take(use);
    if (!own) return {};
    const std::uint64_t state = state_.load();
    if (own->item.shows(state)) return own;
    if (!own->item.shows(state & ~std::uint64_t{1})) {
      own->item.drop();
    } else if (use != Use::visited) {
      return own;
    }
    // (an edit that runs may not have seen the visit begin; an edit that begins later sees it)
    return {};
  }

  // (What follows are calls, so that what one thread alone does is short.)

  // Waits for the store itself, to ask it.
  [[gnu::noinline]] void take_turn() const {
    const bool is_free = turns_.try_lock();
    if (!is_free || turns_.is_awaited()) share(is_free);
  }

  // The slot of the thread's reader, if its copy shows what is held; else none, and the thread has the store itself. Give back either.
  [[gnu::noinline]] Slot<Reader>* own_or_turn() const {
    Slot<Reader>* const own = own_reader(Use::asked).release();
    if (own == nullptr) take_turn();
    return own;
  }
  [[gnu::noinline]] void give_back(Slot<Reader>* own) const noexcept {
    own == nullptr ? turns_.unlock() : GiveBack()(own);
  }

  // Begins a visit by the slot of the thread's reader, if its copy shows what is held, or else by none. End either.
  [[gnu::noinline]] Slot<Reader>* begin_visit() const noexcept {
    Slot<Reader>* const own = own_reader(Use::visited).release();
    if (own == nullptr) visits_++;
    return own;
  }
  [[gnu::noinline]] void end_visit(Slot<Reader>* own) const noexcept {
    own == nullptr ? static_cast<void>(visits_--) : GiveBack()(own);
  }

  // Counts a visit while the process has one thread.
  void add_visits_alone(std::ptrdiff_t visits) const noexcept {
    visits_.store(visits_.load(std::memory_order_relaxed) + visits, std::memory_order_relaxed);
  }

  // Waits for the lock if the thread doesn't have it yet. Threads have lost time, so there may be a copy for what this one asks next.
  void share(bool is_locked) const {
    const std::uint64_t state = state_.load();
    std::chrono::nanoseconds lost = time_of_question;
    if (!is_locked) {
      const auto start = std::chrono::steady_clock::now();
      turns_.lock();
      lost = std::max(lost, std::chrono::nanoseconds(std::chrono::steady_clock::now() - start));
    }
    // (after an edit there may be more, and then few questions would go to a copy)
    if (!has_readers_ || state != state_.load(std::memory_order_relaxed)) return;
    Slots<Reader>* readers = readers_or_none();
    if (readers == nullptr) return;
    const Taken<Reader> own = readers->take(Use::asked);
    if (own && !own->item.shows(state) && own->item.lost(state, lost) >= delay_by_copy()) own->item.follow(&handle_, state);
  }

  // The readers, which are made if there are none, unless memory is refused.
  Slots<Reader>* readers_or_none() const noexcept {
    if (readers_.load(std::memory_order_relaxed) == nullptr) {
      try {
        readers_.store(new Slots<Reader>, std::memory_order_release);
      } catch (const std::bad_alloc&) {
      }
    }
    return readers_.load(std::memory_order_relaxed);
  }

  // Roughly how long a question takes for which others wait, and by how much a copy delays the next edit: by some 40 ns for each of the store's
  // parts, of 300 pairs or so.
  static constexpr std::chrono::nanoseconds time_of_question{1000};
  std::chrono::nanoseconds delay_by_copy() const noexcept {
    std::size_t pairs = 0;
    s2ix_len(&handle_, &pairs);
    return std::chrono::nanoseconds(pairs / 8);
  }

  // Frees the copies of earlier states, but those that are asked.
  void drop_copies() noexcept {
    Slots<Reader>* readers = readers_.load(std::memory_order_relaxed);
    if (readers != nullptr) readers->with_free([](Reader& reader) { reader.drop(); });
  }

  // The handle, which leaves this one closed.
  ::s2ix_handle taken_out() noexcept {
    delete readers_.exchange(nullptr);
    is_closed_ = true;
    return std::exchange(handle_, ::s2ix_handle{});
  }

  // Each edit moves the state by 2 before it returns.
  std::atomic<std::uint64_t> state_{0};
  mutable std::atomic<Slots<Reader>*> readers_{nullptr};
  bool has_readers_ = true;
  // (before a store is opened it says nothing)
  std::atomic<bool> is_closed_{false};
  // (what each question reads lies apart from what some write)
  [[maybe_unused]] char written_is_apart_[apart] = {};
  mutable Turns turns_;
  // The visits that ask the store itself.
  mutable std::atomic<std::ptrdiff_t> visits_{0};
  // (a query changes no store, but it takes the store out of the handle and puts it back)
  mutable ::s2ix_handle handle_{};
  [[maybe_unused]] char next_is_apart_[apart] = {};
};

}  // namespace detail

}  // namespace s2ix

#undef S2IX_ONLY_THREAD

#endif
