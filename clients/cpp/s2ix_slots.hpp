// Things that threads take side by side, so that none waits for another, for C++17. Include s2ix.hpp, which says more.
#ifndef S2IX_SLOTS_HPP
#define S2IX_SLOTS_HPP

#include <atomic>
#include <cstddef>
#include <cstdint>
#include <memory>
#include <mutex>
#include <new>
#include <thread>

namespace s2ix {

namespace detail {

// How many bytes apart two fields lie if threads write to one while others read the other: two lines of the cache, since processors fetch
// them in pairs.
inline constexpr std::size_t apart = 128;

// The number of the calling thread, from 1: threads are numbered as they ask for it first.
inline std::size_t thread_number() noexcept {
  static std::atomic<std::size_t> numbered{0};
  static thread_local std::size_t number = 0;
  if (number == 0) number = 1 + numbered.fetch_add(1, std::memory_order_relaxed);
  return number;
}

// What a slot is taken for.
enum class Use : unsigned char { none, asked, visited };

// An item that one call at a time takes.
template <class Item>
struct Slot {
  std::atomic<Use> use{Use::none};
  Item item{};
  char next_is_apart[apart] = {};
};

// Gives a slot back.
struct GiveBack {
  template <class Item>
  void operator()(Slot<Item>* slot) const noexcept {
    slot->use.store(Use::none, std::memory_order_release);
  }
};

// A slot that the call has, or none. It is given back when this ends.
template <class Item>
using Taken = std::unique_ptr<Slot<Item>, GiveBack>;

// Slots for the threads of a process: each thread has one of its own, which another has too if there are many threads. No call waits.
template <class Item>
class Slots {
 public:
  Slots() : size_(size_for(std::thread::hardware_concurrency())), slots_(new Slot<Item>[size_]) {}

  // The thread's own slot, or one of the next if a call has that; none if calls have these too.
  [[nodiscard]] Taken<Item> take(Use use) noexcept {
    const std::size_t own = thread_number();
    for (std::size_t place = own; place < own + tried; place++) {
      if (Taken<Item> slot = taken(slots_[place & (size_ - 1)], use)) return slot;
    }
    return {};
  }

  // Makes a call with each item that no other call has.
  template <class Call>
  void with_free(Call call) noexcept {
    for (std::size_t place = 0; place < size_; place++) {
      if (const Taken<Item> slot = taken(slots_[place], Use::asked)) call(slot->item);
    }
  }

  // Whether a slot is taken for a visit.
  [[nodiscard]] bool is_visited() const noexcept {
    for (std::size_t place = 0; place < size_; place++) {
      if (slots_[place].use.load() == Use::visited) return true;
    }
    return false;
  }

 private:
  // How many slots a call tries: its own may be taken by a visit in which it is made, and the next one by a thread that stands still.
  static constexpr std::size_t tried = 4;

  // Twice as many as run at once, so that a few threads that come and go get slots of their own; and a power of 2.
  static constexpr std::size_t size_for(std::size_t processors) noexcept {
    std::size_t size = 16;
    while (size < 2 * processors) size *= 2;
    return size;
  }

  // (in one order with the states of a store that edits write)
  static Taken<Item> taken(Slot<Item>& slot, Use use) noexcept {
    Use free = Use::none;
    if (slot.use.load(std::memory_order_relaxed) != free || !slot.use.compare_exchange_strong(free, use)) return {};
    return Taken<Item>(&slot);
  }

  const std::size_t size_;
  const std::unique_ptr<Slot<Item>[]> slots_;
};

// What is shown to threads, until something new is put in its place. Threads that get it side by side count its users apart.
template <class Object>
class Shown {
 public:
  // What was put last; a null pointer if nothing was.
  [[nodiscard]] std::shared_ptr<const Object> get() const {
    const Taken<Share> own = shares_.take(Use::asked);
    if (own && own->item.number == number_.load()) return own->item.object;
    const std::lock_guard<std::mutex> held(mutex_);
    if (own) own->item = Share{number_, counted_apart(object_)};
    return own ? own->item.object : object_;
  }

  void put(std::shared_ptr<const Object> next) {
    {
      const std::lock_guard<std::mutex> held(mutex_);
      object_.swap(next);
      number_++;
    }
    shares_.with_free([](Share& share) { share = Share(); });
  }

 private:
  // The object as the thread got it, and how many had been put.
  struct Share {
    std::uint64_t number = 0;
    std::shared_ptr<const Object> object;
  };

  // The same object with a count of its own, which is one user of the other; the other itself if memory is refused.
  static std::shared_ptr<const Object> counted_apart(const std::shared_ptr<const Object>& object) noexcept {
    try {
      return {object.get(), [object](const Object*) noexcept {}};
    } catch (const std::bad_alloc&) {
      return object;
    }
  }

  mutable Slots<Share> shares_;
  std::atomic<std::uint64_t> number_{0};
  char written_is_apart_[apart] = {};
  mutable std::mutex mutex_;
  std::shared_ptr<const Object> object_;
};

}  // namespace detail

}  // namespace s2ix

#endif
