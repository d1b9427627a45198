// What a side of the bench answers.
#ifndef BENCH_ANSWERS_H_
#define BENCH_ANSWERS_H_

#include <array>
#include <cstddef>
#include <cstdint>
#include <vector>

using Four = std::array<uint64_t, 4>;
using Text = std::array<uint8_t, 32>;

// A sum, and the answers of single cells: a slot for each cell, one of four numbers, and one of a text.
struct Answers {
  uint64_t value = 0;
  std::vector<uint64_t> slots;
  std::vector<Four> fours;
  std::vector<Text> texts;
  // For each target how many answers there are, and then these.
  std::vector<uint64_t> list;
  // The labels over each of some points, those of one point behind those of another, and how many there are up to and with each point.
  // There is room for more labels.
  std::vector<size_t> ends;
  std::vector<uint32_t> labels;
};

template <typename T>
struct Slice {
  const T* at;
  size_t count;
};

// The same where it lies in memory of ours.
struct Shown {
  uint64_t value;
  Slice<uint64_t> slots;
  Slice<Four> fours;
  Slice<Text> texts;
  Slice<uint64_t> list;
  Slice<size_t> ends;
  Slice<uint32_t> labels;
};

#endif
