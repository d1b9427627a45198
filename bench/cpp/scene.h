// What both sides work on: delivery zones, and what is asked of them. The same numbers for the same size, on each machine.
#ifndef BENCH_SCENE_H_
#define BENCH_SCENE_H_

#include <cstddef>
#include <cstdint>
#include <string>
#include <vector>

struct Scene {
  // The pairs, each once, in the order in which shops come.
  std::vector<uint64_t> pair_cells;
  std::vector<uint32_t> pair_labels;
  // Some of them, to edit.
  std::vector<uint64_t> edited_cells;
  std::vector<uint32_t> edited_labels;
  // The dump of the pairs.
  std::string dump;
  // Points as leaves; targets of kFewCells and of kManyCells cells, one behind the other, in one town each or far apart; shapes of
  // kShapeCells cells, two after two over one region.
  std::vector<uint64_t> leaves, few, many, few_apart, many_apart, shapes;
  // Cells of all levels, many of which contain the one behind them, and cells at the rims of faces.
  std::vector<uint64_t> mixed, rim;
  // Leaves that are asked for all at once, in no order, and the same as they rise.
  std::vector<uint64_t> points, rising;
};

// A scene of so many pairs.
Scene MakeScene(size_t pairs);

#endif
