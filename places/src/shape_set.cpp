// Sets of shapes: shapes under numbers, and which of them points lie in.
#include <algorithm>
#include <memory>
#include <mutex>
#include <shared_mutex>
#include <unordered_map>
#include <utility>
#include <vector>

#include "cell_tree.h"
#include "lists.h"
#include "shape.h"
#include "shape_cells.h"

namespace places {

constexpr uint32_t kMostRimCells = 100'000;

using Member = std::unique_ptr<const ShapeCells>;

// What becomes of a number: a member, or none. It is told once a number is new to the set, and once the member's cells are in the tree.
struct Change {
  uint32_t number;
  Member member;
  bool is_new = false;
  bool is_added = false;
};

// The last change of each number.
static std::vector<Change> ChangesOf(const uint32_t* numbers, const s2ix_shape* const* shapes, size_t len, uint32_t rim_cells) {
  std::unordered_map<uint32_t, size_t> last;
  for (size_t at = 0; at < len; at++) last[numbers[at]] = at;
  std::vector<Change> changes;
  changes.reserve(last.size());
  for (size_t at = 0; at < len; at++) {
    if (last[numbers[at]] != at) continue;
    changes.push_back({numbers[at], nullptr});
    if (shapes[at] != nullptr) changes.back().member = std::make_unique<const ShapeCells>(numbers[at], shapes[at]->polygon, rim_cells);
  }
  return changes;
}

// Members by their numbers, and their cells in a tree. Whoever asks holds the mutex.
class ShapeSet {
 public:
  explicit ShapeSet(uint32_t rim_cells) : rim_cells_(rim_cells) {}

  std::shared_mutex& mutex() const { return mutex_; }

  // Puts shapes under numbers, or takes those under them away: all or, after an exception, none. It takes the mutex by itself.
  void Put(const uint32_t* numbers, const s2ix_shape* const* shapes, size_t len) {
    std::vector<Change> changes = ChangesOf(numbers, shapes, len, rim_cells_);
    const std::unique_lock lock(mutex_);
    try {
      for (Change& change : changes) Prepare(&change);
    } catch (...) {
      for (const Change& change : changes) Withdraw(change);
      throw;
    }
    for (Change& change : changes) Finish(&change);
  }

  std::vector<uint32_t> Numbers() const {
    std::vector<uint32_t> numbers;
    numbers.reserve(members_.size());
    for (const auto& entry : members_) numbers.push_back(entry.first);
    std::sort(numbers.begin(), numbers.end());
    return numbers;
  }

  // Sets the numbers of all shapes at a point, rising.
  void FindAt(const S2Point& point, std::vector<uint32_t>* found) const {
    found->clear();
    tree_.VisitAt(S2CellId(point), [&](const Part& part) {
      if (part.Contains(point)) found->push_back(part.number());
    });
    if (found->size() > 1) std::sort(found->begin(), found->end());
  }

  // The cells of the shape under a number, or null.
  const ShapeCells* CellsOf(uint32_t number) const {
    const auto found = members_.find(number);
    return found == members_.end() ? nullptr : found->second.get();
  }

 private:
  // Puts the cells of a new member into the tree, beside those of a member that it is to replace.
  void Prepare(Change* change) {
    if (!change->member) return;
    change->is_new = members_.try_emplace(change->number, nullptr).second;
    change->is_added = true;
    change->member->VisitAll([this](S2CellId cell, const Part* part) { tree_.Add(cell, part); });
  }

  // Takes back what Prepare has done, if it was called.
  void Withdraw(const Change& change) {
    if (change.is_added) RemoveCells(*change.member);
    if (change.is_new) members_.erase(change.number);
  }

  // Frees what the number had, and puts the new member there.
  void Finish(Change* change) {
    const auto found = members_.find(change->number);
    if (found == members_.end()) return;
    if (found->second) RemoveCells(*found->second);
    if (change->member) {
      found->second = std::move(change->member);
    } else {
      members_.erase(found);
    }
  }

  void RemoveCells(const ShapeCells& member) {
    member.VisitAll([this](S2CellId cell, const Part* part) { tree_.Remove(cell, part); });
  }

  const uint32_t rim_cells_;
  mutable std::shared_mutex mutex_;
  std::unordered_map<uint32_t, Member> members_;
  CellTree<Part> tree_;
};

namespace {

// The cells of the shape of each pair; else it tells of the first wrong pair or point.
uint32_t CellsOfPairs(const ShapeSet& set, const double* latitudes, const double* longitudes, size_t points, const uint32_t* points_of,
                      const uint32_t* numbers_of, size_t pairs, std::vector<const ShapeCells*>* cells, size_t* wrong) {
  cells->reserve(pairs);
  for (size_t at = 0; at < pairs; at++) {
    const bool is_same = at > 0 && numbers_of[at] == numbers_of[at - 1];
    cells->push_back(is_same ? cells->back() : set.CellsOf(numbers_of[at]));
    const size_t point = points_of[at];
    if (point >= points || cells->back() == nullptr) {
      *wrong = at;
      return S2IX_PLACES_NO_SHAPE;
    }
    if (!IsPlace(latitudes[point], longitudes[point])) {
      *wrong = point;
      return S2IX_PLACES_NO_POINT;
    }
  }
  return S2IX_PLACES_DONE;
}

}  // namespace
}  // namespace places

struct s2ix_shape_set {
  places::ShapeSet set;
};

uint32_t s2ix_shape_set_new(uint32_t cells, s2ix_shape_set** set) {
  using namespace places;
  if (set == nullptr) return S2IX_PLACES_NO_POINTER;
  *set = nullptr;
  if (cells < 1 || cells > kMostRimCells) return S2IX_PLACES_NO_LIMITS;
  return Guarded([&]() -> uint32_t {
    *set = new s2ix_shape_set{ShapeSet(cells)};
    return S2IX_PLACES_DONE;
  });
}

void s2ix_shape_set_free(s2ix_shape_set* set) { delete set; }

uint32_t s2ix_shape_set_put(s2ix_shape_set* set, const uint32_t* numbers, const s2ix_shape* const* shapes, size_t len) {
  using namespace places;
  if (set == nullptr || IsMissing(numbers, len) || IsMissing(shapes, len)) return S2IX_PLACES_NO_POINTER;
  return Guarded([&]() -> uint32_t {
    set->set.Put(numbers, shapes, len);
    return S2IX_PLACES_DONE;
  });
}

uint32_t s2ix_shape_set_numbers(const s2ix_shape_set* set, uint32_t* numbers, size_t room, size_t* number) {
  using namespace places;
  if (set == nullptr || IsMissing(numbers, room) || number == nullptr) return S2IX_PLACES_NO_POINTER;
  *number = 0;
  return Guarded([&]() -> uint32_t {
    const std::shared_lock lock(set->set.mutex());
    const std::vector<uint32_t> all = set->set.Numbers();
    *number = all.size();
    if (all.size() > room) return S2IX_PLACES_NO_ROOM;
    std::copy(all.begin(), all.end(), numbers);
    return S2IX_PLACES_DONE;
  });
}

uint32_t s2ix_shape_set_at_each(const s2ix_shape_set* set, const double* latitudes, const double* longitudes, size_t points, size_t* ends,
                                uint32_t* found, size_t room, size_t* number) {
  using namespace places;
  if (set == nullptr || IsMissing(latitudes, points) || IsMissing(longitudes, points) || IsMissing(ends, points) ||
      IsMissing(found, room) || number == nullptr) {
    return S2IX_PLACES_NO_POINTER;
  }
  *number = 0;
  return Guarded([&]() -> uint32_t {
    if (const auto wrong = FirstWrong(latitudes, longitudes, points)) {
      *number = *wrong;
      return S2IX_PLACES_NO_POINT;
    }
    const std::shared_lock lock(set->set.mutex());
    Lists lists(ends, found, room);
    std::vector<uint32_t> at_point;
    for (size_t at = 0; at < points; at++) {
      set->set.FindAt(PointAt(latitudes[at], longitudes[at]), &at_point);
      for (uint32_t shape : at_point) lists.Add(shape);
      lists.End();
    }
    *number = lists.number();
    return lists.status();
  });
}

uint32_t s2ix_shape_set_hold_each(const s2ix_shape_set* set, const double* latitudes, const double* longitudes, size_t points,
                                  const uint32_t* points_of, const uint32_t* numbers_of, size_t pairs, bool* inside, size_t* wrong) {
  using namespace places;
  if (set == nullptr || IsMissing(latitudes, points) || IsMissing(longitudes, points) || IsMissing(points_of, pairs) ||
      IsMissing(numbers_of, pairs) || IsMissing(inside, pairs) || wrong == nullptr) {
    return S2IX_PLACES_NO_POINTER;
  }
  *wrong = 0;
  return Guarded([&]() -> uint32_t {
    const std::shared_lock lock(set->set.mutex());
    std::vector<const ShapeCells*> cells;
    const uint32_t refused = CellsOfPairs(set->set, latitudes, longitudes, points, points_of, numbers_of, pairs, &cells, wrong);
    if (refused) return refused;
    S2Point point;
    S2CellId leaf;
    for (size_t at = 0; at < pairs; at++) {
      if (at == 0 || points_of[at] != points_of[at - 1]) {
        point = PointAt(latitudes[points_of[at]], longitudes[points_of[at]]);
        leaf = S2CellId(point);
      }
      const Part* part = cells[at]->Find(leaf);
      inside[at] = part != nullptr && part->Contains(point);
    }
    return S2IX_PLACES_DONE;
  });
}
