// The instructions `at`, `meet` and `labels` over S2: script DUMP < SCRIPT answers as `s2ix run --load DUMP` does, but for the order within
// an answer. It tests nothing: the dump and the script are as they should be.
#include <cstdio>
#include <cstdlib>
#include <cstring>
#include <fstream>
#include <iostream>
#include <string>
#include <utility>
#include <vector>

#include "read_dump.h"
#include "s2/s2cell_id.h"
#include "s2/s2cell_index.h"
#include "s2/s2cell_union.h"

namespace {

constexpr size_t kPiece = 1 << 16;

// Gathers answers, and puts them piece by piece.
class Output {
 public:
  ~Output() { Put(); }

  void AddPair(S2CellId cell, S2CellIndex::Label label) {
    text_ += cell.ToToken();
    text_ += ':';
    text_ += std::to_string(label);
    text_ += ":1\n";
    if (text_.size() > kPiece) Put();
  }

  void AddLabel(S2CellIndex::Label label) {
    text_ += std::to_string(label);
    text_ += '\n';
  }

  void AddEnd(size_t number) {
    text_ += "end ";
    text_ += std::to_string(number);
    text_ += '\n';
    if (text_.size() > kPiece) Put();
  }

 private:
  void Put() {
    std::fwrite(text_.data(), 1, text_.size(), stdout);
    text_.clear();
  }

  std::string text_;
};

// A file whole, by one read.
std::string TextOf(const char* path) {
  std::ifstream file(path, std::ios::binary | std::ios::ate);
  std::string text(static_cast<size_t>(file.tellg()), '\0');
  file.seekg(0);
  file.read(text.data(), static_cast<std::streamsize>(text.size()));
  return text;
}

std::vector<S2CellId> CellsOf(const char* fields) {
  std::vector<S2CellId> cells;
  while (*fields == ' ') {
    size_t length = std::strcspn(++fields, " ");
    cells.push_back(S2CellId::FromToken({fields, length}));
    fields += length;
  }
  return cells;
}

void AnswerAt(const S2CellIndex& index, S2CellId leaf, Output& output) {
  S2CellIndex::RangeIterator range(&index);
  range.Seek(leaf);
  S2CellIndex::ContentsIterator contents(&index);
  size_t number = 0;
  for (contents.StartUnion(range); !contents.done(); contents.Next(), ++number) output.AddPair(contents.cell_id(), contents.label());
  output.AddEnd(number);
}

void AnswerMeet(const S2CellIndex& index, const S2CellUnion& target, Output& output) {
  size_t number = 0;
  index.VisitIntersectingCells(target, [&](S2CellId cell, S2CellIndex::Label label) {
    output.AddPair(cell, label);
    ++number;
    return true;
  });
  output.AddEnd(number);
}

void AnswerLabels(const S2CellIndex& index, const S2CellUnion& target, Output& output) {
  auto labels = index.GetIntersectingLabels(target);
  for (S2CellIndex::Label label : labels) output.AddLabel(label);
  output.AddEnd(labels.size());
}

void Answer(const S2CellIndex& index, const std::string& line, Output& output) {
  size_t space = line.find(' ');
  std::vector<S2CellId> cells = CellsOf(line.c_str() + space);
  if (line.compare(0, space, "at") == 0) {
    AnswerAt(index, cells[0], output);
  } else if (line.compare(0, space, "meet") == 0) {
    AnswerMeet(index, S2CellUnion(std::move(cells)), output);
  } else {
    AnswerLabels(index, S2CellUnion(std::move(cells)), output);
  }
}

}  // namespace

int main(int count, char** words) {
  if (count != 2) {
    std::fprintf(stderr, "usage: script DUMP < SCRIPT\n");
    return 2;
  }
  std::ios::sync_with_stdio(false);
  S2CellIndex index;
  ReadDump(TextOf(words[1]), index);
  Output output;
  std::string line;
  while (std::getline(std::cin, line)) Answer(index, line, output);
  return 0;
}
