// Writes the dump of a scene, scripts over it and the numbers of points to be asked at once into a folder: texts PAIRS FOLDER.
#include <cstdio>
#include <cstdlib>
#include <fstream>
#include <string>
#include <vector>

#include "orders.h"
#include "s2/s2cell_id.h"
#include "scene.h"

namespace {

void Write(const std::string& path, const std::string& text) { std::ofstream(path, std::ios::binary) << text; }

// A line for each target of so many cells: the word and the cells' tokens.
std::string Script(const std::string& word, const std::vector<uint64_t>& cells, size_t size) {
  std::string text;
  for (size_t k = 0; k < cells.size(); ++k) {
    if (k % size == 0) text += word;
    text += ' ' + S2CellId(cells[k]).ToToken();
    if (k % size == size - 1) text += '\n';
  }
  return text;
}

}  // namespace

int main(int count, char** words) {
  if (count != 3) {
    std::fprintf(stderr, "usage: texts PAIRS FOLDER\n");
    return 2;
  }
  Scene scene = MakeScene(std::strtoul(words[1], nullptr, 10));
  std::string folder = words[2];
  Write(folder + "/dump", scene.dump);
  Write(folder + "/load", "");
  Write(folder + "/at", Script("at", scene.leaves, 1));
  Write(folder + "/meet 8", Script("meet", scene.few, kFewCells));
  Write(folder + "/labels 8", Script("labels", scene.few, kFewCells));
  Write(folder + "/meet 8 apart", Script("meet", scene.few_apart, kFewCells));
  Write(folder + "/labels 8 apart", Script("labels", scene.few_apart, kFewCells));
  Write(folder + "/meet 500", Script("meet", scene.many, kManyCells));
  Write(folder + "/meet 500 apart", Script("meet", scene.many_apart, kManyCells));
  Write(folder + "/points", {reinterpret_cast<const char*>(scene.points.data()), scene.points.size() * sizeof(uint64_t)});
  return 0;
}
