// A set of labels in rising order, for C++17: what S2's GetIntersectingLabels returns here. Include s2ix.hpp, which says more.
#ifndef S2IX_LABEL_SET_HPP
#define S2IX_LABEL_SET_HPP

#include <algorithm>
#include <cstddef>
#include <cstdint>
#include <initializer_list>
#include <iterator>
#include <type_traits>
#include <utility>
#include <vector>

namespace s2ix {

template <class Id>
class BasicS2CellIndex;

// A set of labels, in rising order. It is one list, since the labels come rising, and hashing them would take time. It has the calls that
// std::set and absl::flat_hash_set share, but for merge, extract, max_size and get_allocator. Any set or vector of labels can be made of it, as
// by `std::unordered_set<Label> labels = index.GetIntersectingLabels(target)`. Iterators to labels above those that are erased, and to the end,
// stay right, so that a loop may erase by `labels.erase(at++)`. Any other change makes iterators wrong.
class LabelSet {
 public:
  using Label = std::int32_t;
  using key_type = Label;
  using value_type = Label;
  using size_type = std::size_t;
  using difference_type = std::ptrdiff_t;
  using reference = const Label&;
  using const_reference = const Label&;
  using const_iterator = std::vector<Label>::const_iterator;
  using iterator = const_iterator;
  using const_reverse_iterator = std::vector<Label>::const_reverse_iterator;
  using reverse_iterator = const_reverse_iterator;

  LabelSet() = default;
  LabelSet(const LabelSet&) = default;
  LabelSet(LabelSet&& other) noexcept { swap(other); }
  LabelSet& operator=(const LabelSet&) = default;
  LabelSet& operator=(LabelSet&& other) noexcept {
    LabelSet taken(std::move(other));
    swap(taken);
    return *this;
  }
  ~LabelSet() = default;
  LabelSet(std::initializer_list<Label> labels) { insert(labels); }
  template <class Iterator, class = typename std::iterator_traits<Iterator>::iterator_category>
  LabelSet(Iterator first, Iterator last) {
    insert(first, last);
  }
  LabelSet& operator=(std::initializer_list<Label> labels) { return *this = LabelSet(labels); }

  [[nodiscard]] const_iterator begin() const noexcept { return labels_.begin() + erased_; }
  [[nodiscard]] const_iterator end() const noexcept { return labels_.end(); }
  [[nodiscard]] const_iterator cbegin() const noexcept { return begin(); }
  [[nodiscard]] const_iterator cend() const noexcept { return end(); }
  [[nodiscard]] const_reverse_iterator rbegin() const noexcept { return const_reverse_iterator(end()); }
  [[nodiscard]] const_reverse_iterator rend() const noexcept { return const_reverse_iterator(begin()); }
  [[nodiscard]] size_type size() const noexcept { return static_cast<size_type>(end() - begin()); }
  [[nodiscard]] bool empty() const noexcept { return begin() == end(); }

  // Each takes O(log n).
  [[nodiscard]] const_iterator find(Label label) const {
    const const_iterator at = lower_bound(label);
    return is_at(at, label) ? at : end();
  }
  [[nodiscard]] bool contains(Label label) const { return is_at(lower_bound(label), label); }
  [[nodiscard]] size_type count(Label label) const { return contains(label) ? 1 : 0; }
  [[nodiscard]] const_iterator lower_bound(Label label) const { return std::lower_bound(begin(), end(), label); }
  [[nodiscard]] const_iterator upper_bound(Label label) const { return std::upper_bound(begin(), end(), label); }
  [[nodiscard]] std::pair<const_iterator, const_iterator> equal_range(Label label) const { return std::equal_range(begin(), end(), label); }

  // Each takes O(n); O(1) for a label above all others.
  std::pair<iterator, bool> insert(Label label) {
    const const_iterator at = empty() || *(end() - 1) < label ? end() : lower_bound(label);
    if (is_at(at, label)) return {at, false};
    return {labels_.insert(at, label), true};
  }
  // (the place is found without the hint)
  iterator insert(const_iterator, Label label) { return insert(label).first; }
  template <class Given>
  std::pair<iterator, bool> emplace(Given&& label) {
    return insert(Label(std::forward<Given>(label)));
  }
  template <class Given>
  iterator emplace_hint(const_iterator, Given&& label) {
    return emplace(std::forward<Given>(label)).first;
  }

  // O(n + m log m) for m labels. If it throws, the set is as it was.
  template <class Iterator, class = typename std::iterator_traits<Iterator>::iterator_category>
  void insert(Iterator first, Iterator last) {
    std::vector<Label> more(first, last);
    std::sort(more.begin(), more.end());
    more.erase(std::unique(more.begin(), more.end()), more.end());
    if (!empty()) {
      std::vector<Label> all;
      all.reserve(size() + more.size());
      std::set_union(begin(), end(), more.begin(), more.end(), std::back_inserter(all));
      more.swap(all);
    }
    labels_.swap(more);
    erased_ = 0;
  }
  void insert(std::initializer_list<Label> labels) { insert(labels.begin(), labels.end()); }

  // Each takes O(n). What comes after what was erased is returned.
  size_type erase(Label label) {
    const const_iterator at = find(label);
    if (at == end()) return 0;
    erase(at);
    return 1;
  }
  iterator erase(const_iterator at) { return erase(at, at + 1); }
  iterator erase(const_iterator first, const_iterator last) {
    // (the labels below move up, so that those above stay where they are)
    std::move_backward(labels_.begin() + erased_, labels_.begin() + (first - labels_.begin()), labels_.begin() + (last - labels_.begin()));
    erased_ += last - first;
    return last;
  }

  void clear() noexcept {
    labels_.clear();
    erased_ = 0;
  }
  void reserve(size_type size) { labels_.reserve(size); }
  void swap(LabelSet& other) noexcept {
    labels_.swap(other.labels_);
    std::swap(erased_, other.erased_);
  }
  friend void swap(LabelSet& one, LabelSet& other) noexcept { one.swap(other); }

  template <class Set,
            class = std::enable_if_t<std::is_same_v<typename Set::value_type, Label> && std::is_constructible_v<Set, const_iterator, const_iterator>>>
  operator Set() const {
    return Set(begin(), end());
  }

  friend bool operator==(const LabelSet& one, const LabelSet& other) {
    return std::equal(one.begin(), one.end(), other.begin(), other.end());
  }
  friend bool operator!=(const LabelSet& one, const LabelSet& other) { return !(one == other); }
  template <class Set, class = decltype(std::declval<const Set&>().count(Label{}))>
  friend bool operator==(const LabelSet& labels, const Set& set) {
    return labels.size() == set.size() && std::all_of(labels.begin(), labels.end(), [&](Label label) { return set.count(label) > 0; });
  }
  template <class Set, class = decltype(std::declval<const Set&>().count(Label{}))>
  friend bool operator==(const Set& set, const LabelSet& labels) {
    return labels == set;
  }
  template <class Set, class = decltype(std::declval<const Set&>().count(Label{}))>
  friend bool operator!=(const LabelSet& labels, const Set& set) {
    return !(labels == set);
  }
  template <class Set, class = decltype(std::declval<const Set&>().count(Label{}))>
  friend bool operator!=(const Set& set, const LabelSet& labels) {
    return !(labels == set);
  }

 private:
  template <class Id>
  friend class BasicS2CellIndex;

  [[nodiscard]] bool is_at(const_iterator at, Label label) const { return at != end() && *at == label; }

  // Puts labels that rise in place of all.
  void assign_rising(const std::uint32_t* first, std::size_t number) {
    // (the same numbers with a sign: all of them at once)
    const auto* labels = reinterpret_cast<const Label*>(first);
    labels_.assign(labels, labels + number);
    erased_ = 0;
  }

  // (so many at the front are no labels of the set any more)
  std::vector<Label> labels_;
  difference_type erased_ = 0;
};

}  // namespace s2ix

#endif
