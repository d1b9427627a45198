// The index as a session: ours/src/session.rt.in. A slice is a pointer and a length.
#ifndef BENCH_OURS_H_
#define BENCH_OURS_H_

#include <cstddef>
#include <cstdint>

#include "answers.h"

extern "C" {

// Gives the next order, and is shown what the last one answered: a sum, slots, slots of four, texts, a list, and labels with the ends of
// those of each point. The bench defines it, and ours calls it by this name, since the toolchain gives no contract to an export that takes a function pointer.
uint32_t bench_next(uint64_t value, const uint64_t* slots, size_t slot_count, const Four* fours, size_t four_count, const Text* texts,
                    size_t text_count, const uint64_t* list, size_t list_count, const size_t* ends, size_t end_count,
                    const uint32_t* labels, size_t label_count);

// Keeps a store of pairs, and carries orders out until kEnd. Whether all went well.
bool ours_session(const uint64_t* pair_cells, size_t pair_cell_count, const uint32_t* pair_labels, size_t pair_label_count,
                  const uint64_t* edited_cells, size_t edited_cell_count, const uint32_t* edited_labels,
                  size_t edited_label_count, const uint8_t* text, size_t text_count, const uint64_t* leaves,
                  size_t leaf_count, const uint64_t* few, size_t few_count, const uint64_t* many, size_t many_count,
                  const uint64_t* few_apart, size_t few_apart_count, const uint64_t* many_apart, size_t many_apart_count,
                  const uint64_t* shapes, size_t shape_count, const uint64_t* mixed, size_t mixed_count,
                  const uint64_t* rim, size_t rim_count, const uint64_t* points, size_t point_count,
                  const uint64_t* rising, size_t rising_count);
}

#endif
