// Writes what S2 finds over leaves: reads how many pairs and how many leaves there are, the cells of the pairs, their labels, and the leaves.
// It writes after each leaf how many pairs there are so far, then the cells of all these, and then their labels.
#include <cstddef>
#include <cstdint>
#include <cstdio>
#include <vector>

#include "s2/s2cell_id.h"
#include "s2/s2cell_index.h"

// So many numbers of standard input.
template <typename Number>
std::vector<Number> Read(std::size_t count) {
  std::vector<Number> numbers(count);
  if (std::fread(numbers.data(), sizeof(Number), count, stdin) != count) numbers.clear();
  return numbers;
}

template <typename Number>
void Write(const std::vector<Number>& numbers) {
  std::fwrite(numbers.data(), sizeof(Number), numbers.size(), stdout);
}

int main() {
  const auto counts = Read<std::uint64_t>(2);
  if (counts.empty()) return 1;
  const auto cells = Read<std::uint64_t>(counts[0]);
  const auto labels = Read<std::uint32_t>(counts[0]);
  const auto leaves = Read<std::uint64_t>(counts[1]);
  S2CellIndex index;
  for (std::size_t k = 0; k < cells.size(); ++k) index.Add(S2CellId(cells[k]), static_cast<int>(labels[k]));
  index.Build();
  std::vector<std::uint64_t> ends, found;
  std::vector<std::uint32_t> found_labels;
  S2CellIndex::RangeIterator range(&index);
  for (std::uint64_t leaf : leaves) {
    range.Seek(S2CellId(leaf));
    S2CellIndex::ContentsIterator contents(&index);
    for (contents.StartUnion(range); !contents.done(); contents.Next()) {
      found.push_back(contents.cell_id().id());
      found_labels.push_back(static_cast<std::uint32_t>(contents.label()));
    }
    ends.push_back(found.size());
  }
  Write(ends);
  Write(found);
  Write(found_labels);
}
