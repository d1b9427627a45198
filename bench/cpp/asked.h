// What the programs of the bench ask of S2's own S2CellIndex and of ours, which has the same names.
#ifndef BENCH_ASKED_H_
#define BENCH_ASKED_H_

#include <cstddef>
#include <cstdint>

#include "s2/s2cell_id.h"
#include "scene.h"

template <class Index>
void Fill(Index& index, const Scene& scene) {
  for (size_t k = 0; k < scene.pair_cells.size(); ++k) index.Add(S2CellId(scene.pair_cells[k]), static_cast<int>(scene.pair_labels[k]));
  index.Build();
}

// What a pair adds to a sum.
inline uint64_t Worth(S2CellId cell, int label) { return cell.id() + static_cast<uint64_t>(label); }

// The sum of the pairs over some leaves, each by new iterators.
template <class Index, class Leaves>
uint64_t Points(const Index& index, const Leaves& leaves) {
  uint64_t sum = 0;
  for (S2CellId leaf : leaves) {
    typename Index::RangeIterator range(&index);
    range.Seek(leaf);
    typename Index::ContentsIterator contents(&index);
    for (contents.StartUnion(range); !contents.done(); contents.Next()) sum += Worth(contents.cell_id(), contents.label());
  }
  return sum;
}

#endif
