// Lists of shapes, one for each point, in the caller's buffers.
#ifndef S2IX_PLACES_LISTS_H
#define S2IX_PLACES_LISTS_H

#include <cstddef>
#include <cstdint>

#include "s2ix_places.h"

namespace places {

// Puts the lists of shapes, and counts also what has no room.
class Lists {
 public:
  Lists(size_t* ends, uint32_t* found, size_t room) : ends_(ends), found_(found), room_(room) {}

  void Add(uint32_t shape) {
    if (number_ < room_) found_[number_] = shape;
    number_++;
  }
  void End() { *ends_++ = number_; }
  size_t number() const { return number_; }
  uint32_t status() const { return number_ <= room_ ? S2IX_PLACES_DONE : S2IX_PLACES_NO_ROOM; }

 private:
  size_t* ends_;
  uint32_t* found_;
  size_t room_;
  size_t number_ = 0;
};

}  // namespace places

#endif
