#include "s2_side.h"

#include <algorithm>
#include <cstdlib>
#include <cstring>
#include <utility>

#include "read_dump.h"

namespace {

using Pairs = std::vector<S2CellIndex::LabelledCell>;

std::vector<S2CellId> CellsOf(const uint64_t* numbers, size_t count) {
  std::vector<S2CellId> cells;
  for (size_t k = 0; k < count; ++k) cells.emplace_back(numbers[k]);
  return cells;
}

std::vector<S2CellId> CellsOf(const std::vector<uint64_t>& numbers) { return CellsOf(numbers.data(), numbers.size()); }

Pairs PairsOf(const std::vector<uint64_t>& cells, const std::vector<uint32_t>& labels) {
  Pairs pairs;
  for (size_t k = 0; k < cells.size(); ++k) pairs.emplace_back(S2CellId(cells[k]), static_cast<int>(labels[k]));
  return pairs;
}

std::vector<std::vector<S2CellId>> PartsOf(const std::vector<uint64_t>& numbers, size_t size) {
  std::vector<std::vector<S2CellId>> parts;
  for (size_t k = 0; k < numbers.size(); k += size) {
    parts.push_back(CellsOf(numbers.data() + k, std::min(size, numbers.size() - k)));
  }
  return parts;
}

std::vector<S2CellUnion> UnionsOf(const std::vector<uint64_t>& numbers, size_t size) {
  std::vector<S2CellUnion> unions;
  for (auto& part : PartsOf(numbers, size)) unions.emplace_back(std::move(part));
  return unions;
}

// Makes an index that of some pairs, without one of them if that is named. An index that is used again keeps its room.
void Fill(S2CellIndex& index, const Pairs& pairs, const S2CellIndex::LabelledCell* without = nullptr) {
  index.Clear();
  for (const auto& pair : pairs) {
    if (without == nullptr || !(pair == *without)) index.Add(pair.cell_id, pair.label);
  }
  index.Build();
}

std::unique_ptr<S2CellIndex> Built(const Pairs& pairs) {
  auto index = std::make_unique<S2CellIndex>();
  for (const auto& pair : pairs) index->Add(pair.cell_id, pair.label);
  index->Build();
  return index;
}

std::unique_ptr<S2CellIndex> Loaded(const std::string& dump) {
  auto index = std::make_unique<S2CellIndex>();
  ReadDump(dump, *index);
  return index;
}

// What a pair adds to a sum.
uint64_t Worth(S2CellId cell, S2CellIndex::Label label) { return cell.id() + static_cast<uint64_t>(label); }

// S2's way to what lies over one leaf.
uint64_t ChainSum(const S2CellIndex& index, S2CellId leaf) {
  S2CellIndex::RangeIterator range(&index);
  range.Seek(leaf);
  uint64_t sum = 0;
  S2CellIndex::ContentsIterator contents(&index);
  for (contents.StartUnion(range); !contents.done(); contents.Next()) sum += Worth(contents.cell_id(), contents.label());
  return sum;
}

}  // namespace

S2Side::S2Side(const Scene& scene) : scene_(scene), index_(Built(PairsOf(scene.pair_cells, scene.pair_labels))) {}

void S2Side::Prepare() {
  pairs_ = PairsOf(scene_.pair_cells, scene_.pair_labels);
  edited_ = PairsOf(scene_.edited_cells, scene_.edited_labels);
  points_ = UnionsOf(scene_.leaves, 1);
  few_ = UnionsOf(scene_.few, kFewCells);
  many_ = UnionsOf(scene_.many, kManyCells);
  few_apart_ = UnionsOf(scene_.few_apart, kFewCells);
  many_apart_ = UnionsOf(scene_.many_apart, kManyCells);
  shapes_ = UnionsOf(scene_.shapes, kShapeCells);
  shape_cells_ = PartsOf(scene_.shapes, kShapeCells);
  leaves_ = CellsOf(scene_.leaves);
  mixed_ = CellsOf(scene_.mixed);
  rim_ = CellsOf(scene_.rim);
  unsorted_ = CellsOf(scene_.points);
  rising_ = CellsOf(scene_.rising);
  for (S2CellId cell : mixed_) {
    tokens_.push_back(cell.ToToken());
    int level = cell.level(), i, j;
    int face = cell.ToFaceIJOrientation(&i, &j, nullptr);
    squares_.push_back({face, i >> (30 - level), j >> (30 - level), level});
  }
  answers_.slots.resize(mixed_.size());
  answers_.fours.resize(mixed_.size());
  answers_.texts.resize(mixed_.size());
  answers_.ends.resize(unsorted_.size());
  answers_.labels.resize(kLabelsOfPoint * unsorted_.size());
}

void S2Side::CarryOut(uint32_t order) {
  answers_.value = 0;
  if (order >= kListed) {
    answers_.list.clear();
    List(order - kListed);
  } else if (order >= kUnion) {
    answers_.value = OverUnions(order);
  } else if (order >= kTokenRead) {
    answers_.value = OverIds(order);
  } else {
    answers_.value = OverIndex(order);
  }
}

uint64_t S2Side::OverIndex(uint32_t order) {
  switch (order) {
    case kBuild:
    case kTables: return Built(pairs_)->num_cells();
    case kLoad: return Loaded(scene_.dump)->num_cells();
    case kEdit: return EditEach();
    case kPointChain: return ChainSums();
    case kPointVisit: return VisitSums(points_);
    case kFewVisit: return VisitSums(few_);
    case kFewLabels: return LabelSums(few_);
    case kManyVisit: return VisitSums(many_);
    case kManyLabels: return LabelSums(many_);
    case kFewApartVisit: return VisitSums(few_apart_);
    case kFewApartLabels: return LabelSums(few_apart_);
    case kManyApartVisit: return VisitSums(many_apart_);
    case kManyApartLabels: return LabelSums(many_apart_);
    case kPointsUnsorted: return LabelUnsorted();
    case kPointsRising: return LabelRising();
    default: return 0;
  }
}

// S2 has no edits: one index is cleared and built again without the pair, and then with it.
uint64_t S2Side::EditEach() const {
  uint64_t sum = 0;
  S2CellIndex index;
  for (const auto& edited : edited_) {
    S2CellId leaf = edited.cell_id.range_min();
    Fill(index, pairs_, &edited);
    sum += ChainSum(index, leaf);
    Fill(index, pairs_);
    sum += ChainSum(index, leaf);
  }
  return sum;
}

uint64_t S2Side::ChainSums() const {
  uint64_t sum = 0;
  for (S2CellId leaf : leaves_) sum += ChainSum(*index_, leaf);
  return sum;
}

uint64_t S2Side::VisitSums(const std::vector<S2CellUnion>& targets) const {
  uint64_t sum = 0;
  for (const auto& target : targets) {
    index_->VisitIntersectingCells(target, [&sum](S2CellId cell, S2CellIndex::Label label) {
      sum += Worth(cell, label);
      return true;
    });
  }
  return sum;
}

uint64_t S2Side::LabelSums(const std::vector<S2CellUnion>& targets) const {
  uint64_t sum = 0;
  for (const auto& target : targets) {
    for (S2CellIndex::Label label : index_->GetIntersectingLabels(target)) sum += static_cast<uint64_t>(label);
  }
  return sum;
}

// Points in no order: each is looked for anew.
uint64_t S2Side::LabelUnsorted() {
  size_t end = 0;
  for (size_t k = 0; k < unsorted_.size(); ++k) {
    S2CellIndex::RangeIterator range(index_.get());
    range.Seek(unsorted_[k]);
    S2CellIndex::ContentsIterator contents(index_.get());
    for (contents.StartUnion(range); !contents.done(); contents.Next()) answers_.labels.at(end++) = contents.label();
    answers_.ends[k] = end;
  }
  return end;
}

// Points that rise: the iterators are kept, and the next range is tried before one is looked for.
uint64_t S2Side::LabelRising() {
  size_t end = 0;
  S2CellIndex::RangeIterator range(index_.get());
  S2CellIndex::ContentsIterator contents(index_.get());
  range.Begin();
  for (size_t k = 0; k < rising_.size(); ++k) {
    if (rising_[k] >= range.limit_id()) {
      range.Next();
      if (rising_[k] >= range.limit_id()) range.Seek(rising_[k]);
    }
    // (else what was given for the point before would be left out)
    contents.Clear();
    for (contents.StartUnion(range); !contents.done(); contents.Next()) answers_.labels.at(end++) = contents.label();
    answers_.ends[k] = end;
  }
  return end;
}

uint64_t S2Side::OverIds(uint32_t order) {
  switch (order) {
    case kTokenRead: ReadTokens(); break;
    case kTokenPrint: return PrintTokens();
    case kPathPrint: return PrintPaths();
    case kToFaceIj: Squares(); break;
    case kFromFaceIj: CellsOfSquares(); break;
    case kNext:
      for (size_t k = 0; k < mixed_.size(); ++k) answers_.slots[k] = mixed_[k].next_wrap().id();
      break;
    case kContains:
      for (size_t k = 0; k + 1 < mixed_.size(); ++k) answers_.slots[k] = mixed_[k].contains(mixed_[k + 1]);
      break;
    case kNeighborsMixed: Neighbors(mixed_); break;
    case kNeighborsLeaf: Neighbors(leaves_); break;
    case kNeighborsRim: Neighbors(rim_); break;
  }
  return 0;
}

void S2Side::ReadTokens() {
  for (size_t k = 0; k < tokens_.size(); ++k) {
    answers_.slots[k] = S2CellId::FromToken(tokens_[k]).id();
  }
}

uint64_t S2Side::PrintTokens() {
  uint64_t sum = 0;
  for (size_t k = 0; k < mixed_.size(); ++k) {
    std::string token = mixed_[k].ToToken();
    std::memcpy(answers_.texts[k].data(), token.data(), token.size());
    sum += token.size();
  }
  return sum;
}

uint64_t S2Side::PrintPaths() {
  uint64_t sum = 0;
  for (size_t k = 0; k < mixed_.size(); ++k) {
    std::string path = mixed_[k].ToString();
    std::memcpy(answers_.texts[k].data(), path.data(), path.size());
    sum += path.size();
  }
  return sum;
}

void S2Side::Squares() {
  for (size_t k = 0; k < mixed_.size(); ++k) {
    int i, j, orientation, below = 30 - mixed_[k].level();
    int face = mixed_[k].ToFaceIJOrientation(&i, &j, &orientation);
    answers_.fours[k] = {static_cast<uint64_t>(face), static_cast<uint64_t>(i >> below), static_cast<uint64_t>(j >> below),
                         static_cast<uint64_t>(orientation)};
  }
}

void S2Side::CellsOfSquares() {
  for (size_t k = 0; k < squares_.size(); ++k) {
    const Square& square = squares_[k];
    int below = 30 - square.level;
    answers_.slots[k] = S2CellId::FromFaceIJ(square.face, square.i << below, square.j << below).parent(square.level).id();
  }
}

void S2Side::Neighbors(const std::vector<S2CellId>& cells) {
  size_t number = std::min(cells.size(), answers_.fours.size());
  for (size_t k = 0; k < number; ++k) {
    S2CellId neighbors[4];
    cells[k].GetEdgeNeighbors(neighbors);
    answers_.fours[k] = {neighbors[0].id(), neighbors[1].id(), neighbors[2].id(), neighbors[3].id()};
  }
}

uint64_t S2Side::OverUnions(uint32_t order) const {
  uint64_t sum = 0;
  if (order == kNormalise) {
    for (const auto& cells : shape_cells_) sum += S2CellUnion(cells).size();
    return sum;
  }
  for (size_t k = 0; k + 1 < shapes_.size(); k += 2) {
    const S2CellUnion &first = shapes_[k], &second = shapes_[k + 1];
    S2CellUnion made = order == kIntersection ? first.Intersection(second)
                       : order == kDifference ? first.Difference(second)
                                              : first.Union(second);
    sum += made.size();
  }
  return sum;
}

void S2Side::List(uint32_t order) {
  switch (order) {
    case kPointChain: return ListChains(leaves_, leaves_.size());
    case kPointsUnsorted: return ListChains(unsorted_, kListedPoints);
    case kPointsRising: return ListChains(rising_, kListedPoints);
    case kPointVisit: return ListMet(points_);
    case kFewVisit: return ListMet(few_);
    case kFewLabels: return ListLabels(few_);
    case kManyVisit: return ListMet(many_);
    case kManyLabels: return ListLabels(many_);
    case kFewApartVisit: return ListMet(few_apart_);
    case kFewApartLabels: return ListLabels(few_apart_);
    case kManyApartVisit: return ListMet(many_apart_);
    case kManyApartLabels: return ListLabels(many_apart_);
  }
  size_t step = order == kNormalise ? 1 : 2;
  for (size_t k = 0; k + step <= shapes_.size(); k += step) {
    S2CellUnion made = order == kNormalise      ? shapes_[k]
                       : order == kIntersection ? shapes_[k].Intersection(shapes_[k + 1])
                       : order == kDifference   ? shapes_[k].Difference(shapes_[k + 1])
                                                : shapes_[k].Union(shapes_[k + 1]);
    answers_.list.push_back(made.size());
    for (S2CellId cell : made) answers_.list.push_back(cell.id());
  }
}

void S2Side::ListChains(const std::vector<S2CellId>& leaves, size_t most) {
  for (size_t k = 0; k < std::min(most, leaves.size()); ++k) {
    size_t head = answers_.list.size();
    answers_.list.push_back(0);
    S2CellIndex::RangeIterator range(index_.get());
    range.Seek(leaves[k]);
    S2CellIndex::ContentsIterator contents(index_.get());
    for (contents.StartUnion(range); !contents.done(); contents.Next()) {
      ++answers_.list[head];
      answers_.list.push_back(contents.cell_id().id());
      answers_.list.push_back(contents.label());
    }
  }
}

void S2Side::ListMet(const std::vector<S2CellUnion>& targets) {
  for (const auto& target : targets) {
    size_t head = answers_.list.size();
    answers_.list.push_back(0);
    index_->VisitIntersectingCells(target, [&](S2CellId cell, S2CellIndex::Label label) {
      ++answers_.list[head];
      answers_.list.push_back(cell.id());
      answers_.list.push_back(label);
      return true;
    });
  }
}

void S2Side::ListLabels(const std::vector<S2CellUnion>& targets) {
  for (const auto& target : targets) {
    auto labels = index_->GetIntersectingLabels(target);
    answers_.list.push_back(labels.size());
    for (S2CellIndex::Label label : labels) answers_.list.push_back(label);
  }
}
