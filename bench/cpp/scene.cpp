#include "scene.h"

#include <algorithm>
#include <random>
#include <utility>

#include "orders.h"
#include "s2/s2cell_id.h"

namespace {

constexpr size_t kPoints = 20000;
constexpr size_t kPointsAtOnce = 1000000;
constexpr size_t kFewTargets = 4000;
constexpr size_t kManyTargets = 100;
constexpr size_t kShapes = 20;
constexpr size_t kSingleCells = 4096;
// A town is a cell of this level, in which shops lie.
constexpr int kTownLevel = 9;
constexpr size_t kPairsOfTown = 1000;
constexpr size_t kFewestTowns = 12;

class Random {
 public:
  uint64_t Below(uint64_t end) { return engine_() % end; }

  int Between(int least, int most) { return least + static_cast<int>(Below(most - least + 1)); }

  S2CellId Leaf() { return S2CellId(Below(uint64_t{6} << 60) * 2 + 1); }

  // A cell of a level within a cell.
  S2CellId Within(S2CellId cell, int level) {
    return S2CellId(cell.range_min().id() + 2 * Below(cell.lsb())).parent(level);
  }

 private:
  std::mt19937_64 engine_{43};
};

void AddPair(Scene& scene, S2CellId cell, uint32_t label) {
  scene.pair_cells.push_back(cell.id());
  scene.pair_labels.push_back(label);
}

void AddCellAndNeighbors(Scene& scene, S2CellId cell, uint32_t label) {
  S2CellId neighbors[4];
  cell.GetEdgeNeighbors(neighbors);
  AddPair(scene, cell, label);
  for (S2CellId neighbor : neighbors) AddPair(scene, neighbor, label);
}

// Each shop delivers to three zones, one within the other: its cell of level 15 with the four beside it, that of level 13 with the four
// beside it, and that of level 11.
void AddPairs(Scene& scene, Random& random, size_t pairs, const std::vector<S2CellId>& towns) {
  for (uint32_t label = 0; scene.pair_cells.size() < pairs; ++label) {
    S2CellId shop = random.Within(towns[label % towns.size()], 30);
    AddCellAndNeighbors(scene, shop.parent(15), label);
    AddCellAndNeighbors(scene, shop.parent(13), label);
    AddPair(scene, shop.parent(11), label);
  }
  scene.pair_cells.resize(pairs);
  scene.pair_labels.resize(pairs);
}

void AddEdited(Scene& scene, Random& random) {
  size_t pairs = scene.pair_cells.size();
  size_t edited = pairs <= 1000 ? 32 : pairs <= 10000 ? 16 : pairs <= 100000 ? 4 : 2;
  for (size_t k = 0; k < edited; ++k) {
    size_t place = random.Below(pairs);
    scene.edited_cells.push_back(scene.pair_cells[place]);
    scene.edited_labels.push_back(scene.pair_labels[place]);
  }
}

void AddDump(Scene& scene) {
  std::vector<std::pair<uint64_t, uint32_t>> pairs;
  for (size_t k = 0; k < scene.pair_cells.size(); ++k) pairs.emplace_back(scene.pair_cells[k], scene.pair_labels[k]);
  std::sort(pairs.begin(), pairs.end());
  scene.dump = "s2ix 2\n";
  for (const auto& pair : pairs) scene.dump += S2CellId(pair.first).ToToken() + " " + std::to_string(pair.second) + " 1\n";
  std::string number = std::to_string(pairs.size());
  scene.dump += "end " + number + " " + number + "\n";
}

// So many cells of levels from `least` to `most` within a cell.
void AddCells(std::vector<uint64_t>& cells, Random& random, S2CellId within, size_t number, int least, int most) {
  for (size_t k = 0; k < number; ++k) cells.push_back(random.Within(within, random.Between(least, most)).id());
}

S2CellId AnyZone(const Scene& scene, Random& random) {
  return S2CellId(scene.pair_cells[random.Below(scene.pair_cells.size())]);
}

void AddTargets(Scene& scene, Random& random, const std::vector<S2CellId>& towns) {
  for (size_t k = 0; k < kPoints; ++k) scene.leaves.push_back(random.Within(AnyZone(scene, random), 30).id());
  for (size_t k = 0; k < kFewTargets; ++k) {
    AddCells(scene.few, random, AnyZone(scene, random).parent(11), kFewCells, 12, 16);
    for (size_t n = 0; n < kFewCells; ++n) AddCells(scene.few_apart, random, AnyZone(scene, random), 1, 15, 18);
  }
  for (size_t k = 0; k < kManyTargets; ++k) {
    AddCells(scene.many, random, towns[random.Below(towns.size())], kManyCells, 13, 18);
    for (size_t n = 0; n < kManyCells; ++n) AddCells(scene.many_apart, random, AnyZone(scene, random), 1, 15, 18);
  }
  for (size_t k = 0; k < kShapes; k += 2) {
    AddCells(scene.shapes, random, random.Leaf().parent(8), 2 * kShapeCells, 12, 16);
  }
}

void AddSingleCells(Scene& scene, Random& random) {
  while (scene.mixed.size() < kSingleCells) {
    S2CellId outer = random.Leaf().parent(random.Between(0, 30));
    scene.mixed.push_back(outer.id());
    scene.mixed.push_back(random.Within(outer, random.Between(outer.level(), 30)).id());
  }
  while (scene.rim.size() < kSingleCells) {
    int along = static_cast<int>(random.Below(S2CellId::kMaxSize));
    int side = random.Below(2) ? 0 : S2CellId::kMaxSize - 1;
    bool is_column = random.Below(2);
    int face = static_cast<int>(random.Below(6));
    S2CellId leaf = is_column ? S2CellId::FromFaceIJ(face, side, along) : S2CellId::FromFaceIJ(face, along, side);
    scene.rim.push_back(leaf.parent(random.Between(1, 30)).id());
  }
}

void AddPointsAtOnce(Scene& scene, Random& random) {
  for (size_t k = 0; k < kPointsAtOnce; ++k) scene.points.push_back(random.Within(AnyZone(scene, random), 30).id());
  scene.rising = scene.points;
  std::sort(scene.rising.begin(), scene.rising.end());
}

}  // namespace

Scene MakeScene(size_t pairs) {
  Scene scene;
  Random random;
  std::vector<S2CellId> towns;
  while (towns.size() < std::max(kFewestTowns, pairs / kPairsOfTown)) {
    // (town after town goes to another face)
    S2CellId face = S2CellId::FromFace(static_cast<int>(towns.size() % 6));
    towns.push_back(random.Within(face, kTownLevel));
  }
  AddPairs(scene, random, pairs, towns);
  AddEdited(scene, random);
  AddDump(scene);
  AddTargets(scene, random, towns);
  AddSingleCells(scene, random);
  AddPointsAtOnce(scene, random);
  return scene;
}
