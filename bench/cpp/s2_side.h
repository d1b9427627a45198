// S2's own classes, carrying out the orders of a session.
#ifndef BENCH_S2_SIDE_H_
#define BENCH_S2_SIDE_H_

#include <memory>
#include <string>
#include <vector>

#include "answers.h"
#include "orders.h"
#include "s2/s2cell_id.h"
#include "s2/s2cell_index.h"
#include "s2/s2cell_union.h"
#include "scene.h"

class S2Side {
 public:
  // Builds the index of the scene's pairs, and no more.
  explicit S2Side(const Scene& scene);

  // Makes the lists that orders go over.
  void Prepare();

  // Carries an order out; what it answers is in `answers`.
  void CarryOut(uint32_t order);

  const Answers& answers() const { return answers_; }

 private:
  struct Square {
    int face, i, j, level;
  };

  uint64_t OverIndex(uint32_t order);
  uint64_t OverIds(uint32_t order);
  uint64_t OverUnions(uint32_t order) const;
  void List(uint32_t order);

  uint64_t EditEach() const;
  uint64_t ChainSums() const;
  uint64_t VisitSums(const std::vector<S2CellUnion>& targets) const;
  uint64_t LabelSums(const std::vector<S2CellUnion>& targets) const;
  uint64_t LabelUnsorted();
  uint64_t LabelRising();
  uint64_t PrintTokens();
  uint64_t PrintPaths();
  void ReadTokens();
  void Squares();
  void CellsOfSquares();
  void Neighbors(const std::vector<S2CellId>& cells);
  void ListChains(const std::vector<S2CellId>& leaves, size_t most);
  void ListMet(const std::vector<S2CellUnion>& targets);
  void ListLabels(const std::vector<S2CellUnion>& targets);

  const Scene& scene_;
  std::unique_ptr<S2CellIndex> index_;
  std::vector<S2CellIndex::LabelledCell> pairs_, edited_;
  std::vector<S2CellUnion> points_, few_, many_, few_apart_, many_apart_, shapes_;
  std::vector<std::vector<S2CellId>> shape_cells_;
  std::vector<S2CellId> leaves_, mixed_, rim_, unsorted_, rising_;
  std::vector<std::string> tokens_;
  std::vector<Square> squares_;
  Answers answers_;
};

#endif
