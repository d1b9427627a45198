// The room in which queries put what they find, and in which iterators go along it, for C++17. Include s2ix.hpp, which says more.
#ifndef S2IX_ROOM_HPP
#define S2IX_ROOM_HPP

#include "s2ix.h"

#include <algorithm>
#include <cstddef>
#include <cstdint>
#include <utility>
#include <vector>

namespace s2ix {

namespace detail {

// Room that a thread keeps for what its next query finds, until the thread ends: the library wants initialised room, and so it is initialised
// once. A query has it as long as it runs; another query meanwhile, as within a visit, has room of its own. At most `most` items are kept, so
// that one long answer doesn't hold memory for good.
template <class Item, std::size_t most>
class Room {
 public:
  Room() noexcept = default;
  Room(Room&& other) noexcept { swap(other); }
  Room& operator=(Room&& other) noexcept {
    Room taken(std::move(other));
    swap(taken);
    return *this;
  }
  // (short, so that the compiler inlines it even where exceptions pass: then no call gets a pointer to an iterator, which can stay in registers)
  ~Room() {
    if (items_ != nullptr) give_back_by_call(items_, size_);
  }

  [[nodiscard]] Item* data() const noexcept { return items_; }
  [[nodiscard]] std::size_t size() const noexcept { return size_; }

  // Takes what the thread keeps, or else makes room for `least` items. Call it only if this has no room yet.
  void take(std::size_t least) {
    Kept& here = kept();
    size_ = here.size;
    items_ = std::exchange(here.items, nullptr);
    if (items_ == nullptr) renew(least);
  }

  // Gives it back.
  void end() noexcept { give_back(std::exchange(items_, nullptr), size_); }

  // Has room for so many items. What it held is lost.
  void renew(std::size_t size) {
    delete[] std::exchange(items_, nullptr);
    size_ = 0;
    items_ = made(size);
    size_ = size;
  }

 private:
  // What a thread keeps. It has no destructor, so that a destructor which asks later still finds it.
  struct Kept {
    Item* items;
    std::size_t size, most_kept;
  };
  // (room may be given back on another thread than it was made on, and a thread keeps none that it wouldn't free)
  struct End {
    End() { kept().most_kept = most; }
    ~End() {
      delete[] std::exchange(kept().items, nullptr);
      kept().most_kept = 0;
    }
  };

  static Kept& kept() noexcept {
    static thread_local Kept kept{nullptr, 0, 0};
    return kept;
  }

  [[gnu::noinline]] static Item* made(std::size_t size) {
    static thread_local const End end{};
    (void)&end;
    return new Item[size]();
  }

  static void give_back(Item* items, std::size_t size) noexcept {
    Kept& here = kept();
    if (here.items == nullptr && size <= here.most_kept) {
      here.items = items;
      here.size = size;
    } else {
      delete[] items;
    }
  }
  [[gnu::noinline]] static void give_back_by_call(Item* items, std::size_t size) noexcept { give_back(items, size); }

  void swap(Room& other) noexcept {
    std::swap(items_, other.items_);
    std::swap(size_, other.size_);
  }

  Item* items_ = nullptr;
  std::size_t size_ = 0;
};

// Room in which a visit, or a query for labels, puts what it finds.
template <class Item>
class Page {
 public:
  // How much room there is at first.
  static constexpr std::size_t least = 1024;

  Page() { room_.take(least); }
  Page(const Page&) = delete;
  Page& operator=(const Page&) = delete;
  ~Page() { room_.end(); }

  [[nodiscard]] Item* data() const noexcept { return room_.data(); }
  [[nodiscard]] std::size_t size() const noexcept { return room_.size(); }

  // Has room for so many items at least. If there was less, what it held is lost.
  void grow(std::size_t size) {
    if (size > room_.size()) room_.renew(size);
  }

 private:
  Room<Item, 4 * least> room_;
};

// Items that an iterator has read into room of its thread, and goes along. There is room for `least` at first. What was moved from has none.
template <class Item, std::size_t least, std::size_t most>
class Found {
 public:
  Found() noexcept = default;
  Found(const Found& other) {
    const auto left = static_cast<std::size_t>(other.end_ - other.at_);
    if (left == 0) return;
    room_.renew(std::max(left, least));
    std::copy(other.at_, other.end_, room_.data());
    go_along(left);
  }
  Found(Found&& other) noexcept { swap(other); }
  // (not one that takes its object by value: what copies its owner would be noexcept, though the copy may throw)
  Found& operator=(const Found& other) { return *this = Found(other); }
  Found& operator=(Found&& other) noexcept {
    Found taken(std::move(other));
    swap(taken);
    return *this;
  }
  ~Found() = default;

  // Whether it has gone along all items; if not, the item at which it stands.
  [[nodiscard]] bool done() const noexcept { return at_ == end_; }
  [[nodiscard]] const Item* operator->() const noexcept { return at_; }
  [[nodiscard]] const Item& operator*() const noexcept { return *at_; }
  void next() noexcept { ++at_; }

  // Leaves out what is left.
  void clear() noexcept { at_ = end_; }

  // Puts the list of a call in place of the items, and returns the status of the call. If it is refused, there are no items.
  template <class Call>
  std::uint32_t fill(Call call) {
    make_room(0);
    std::size_t number = 0;
    std::uint32_t status = call(room_.data(), room_.size(), &number);
    if (status == S2IX_NO_ROOM) {
      make_room(number);
      status = call(room_.data(), room_.size(), &number);
    }
    if (status == S2IX_DONE) go_along(number);
    return status;
  }

  // Puts at most so many items in place of those that are there. The call returns how many it has put.
  template <class Call>
  void fill_page(std::size_t size, Call call) {
    make_room(size);
    go_along(call(room_.data(), size));
  }

 private:
  // Has room for so many items, and for `least`. There are no items then.
  void make_room(std::size_t size) {
    clear();
    if (room_.data() == nullptr) room_.take(least);
    if (room_.size() >= size) return;
    at_ = end_ = nullptr;
    room_.renew(size);
  }

  void go_along(std::size_t number) noexcept {
    at_ = room_.data();
    end_ = at_ + number;
  }

  void swap(Found& other) noexcept {
    std::swap(room_, other.room_);
    std::swap(at_, other.at_);
    std::swap(end_, other.end_);
  }

  Room<Item, most> room_;
  const Item* at_ = nullptr;
  const Item* end_ = nullptr;
};

// Items that an iterator goes along, page by page. A page lies apart from the iterator and is copied with it; what was moved from has no items.
// (No call that isn't inlined gets a pointer to the iterator, so the compiler can keep one in registers.)
template <class Page>
class Pages {
 public:
  using Item = typename decltype(Page::items)::value_type;

  Pages() noexcept = default;
  explicit Pages(Page* page) noexcept : page_(page) { turn_to(page->size); }
  Pages(Pages&& other) noexcept { swap(other); }
  Pages(const Pages& other) : page_(other.page_ == nullptr ? nullptr : new Page(*other.page_)) {
    if (other.is_at_end()) return;
    at_ = page_->items.data() + (other.at_ - other.page_->items.data());
    end_ = at_ + (other.end_ - other.at_);
  }
  // (not one that takes its object by value: what copies its owner would be noexcept, though the copy may throw)
  Pages& operator=(const Pages& other) { return *this = Pages(other); }
  Pages& operator=(Pages&& other) noexcept {
    Pages taken(std::move(other));
    swap(taken);
    return *this;
  }
  ~Pages() {
    if (page_ != nullptr) free(page_);
  }

  // The page, which is made if there is none.
  [[nodiscard]] Page* made() {
    if (page_ == nullptr) page_ = new Page();
    return page_;
  }

  // Whether it has gone along all items of the page; if not, the item at which it stands.
  [[nodiscard]] bool is_at_end() const noexcept { return at_ == end_; }
  [[nodiscard]] const Item* operator->() const noexcept { return at_; }
  [[nodiscard]] const Item& operator*() const noexcept { return *at_; }
  void next() noexcept { ++at_; }

  // Goes to the first of the items that were put into the page, so many.
  void turn_to(std::size_t size) noexcept {
    at_ = page_->items.data();
    end_ = at_ + size;
  }

 private:
  [[gnu::noinline]] static void free(Page* page) noexcept { delete page; }

  void swap(Pages& other) noexcept {
    std::swap(page_, other.page_);
    std::swap(at_, other.at_);
    std::swap(end_, other.end_);
  }

  Page* page_ = nullptr;
  const Item* at_ = nullptr;
  const Item* end_ = nullptr;
};

}  // namespace detail

}  // namespace s2ix

#endif
