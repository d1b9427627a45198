// What a session may be ordered: the numbers are those of ours/src/orders.rt.in.
#ifndef BENCH_ORDERS_H_
#define BENCH_ORDERS_H_

#include <cstddef>
#include <cstdint>

enum Order : uint32_t {
  kEnd = 0,
  kNothing = 1,

  kBuild = 10,
  kLoad = 11,
  kEdit = 12,
  kPointChain = 13,
  kPointVisit = 14,
  kFewVisit = 15,
  kFewLabels = 16,
  kManyVisit = 17,
  kManyLabels = 18,
  kTables = 19,
  kFewApartVisit = 20,
  kFewApartLabels = 21,
  kManyApartVisit = 22,
  kManyApartLabels = 23,
  kPointsUnsorted = 24,
  kPointsRising = 25,

  kTokenRead = 30,
  kTokenPrint = 31,
  kPathPrint = 32,
  kToFaceIj = 33,
  kFromFaceIj = 34,
  kNext = 35,
  kContains = 36,
  kNeighborsMixed = 37,
  kNeighborsLeaf = 38,
  kNeighborsRim = 39,

  kUnion = 50,
  kIntersection = 51,
  kDifference = 52,
  kNormalise = 53,

  // An order of the index or of unions, and this: all that it answers, as a list.
  kListed = 100,
};

// How many cells a target of few cells is given by, one of many, and a shape.
constexpr size_t kFewCells = 8;
constexpr size_t kManyCells = 500;
constexpr size_t kShapeCells = 1000;
// Points at once have room for so many labels each on average; the pairs over so many of them are listed.
constexpr size_t kLabelsOfPoint = 16;
constexpr size_t kListedPoints = 20000;

#endif
