// Turns: for each figure S2 and ours do the same, one behind the other, many times.
#ifndef BENCH_TURNS_H_
#define BENCH_TURNS_H_

#include <cstdint>
#include <string>
#include <vector>

#include "ours.h"
#include "s2_side.h"
#include "scene.h"

// What is measured, and the least time that either side took for an order, in nanoseconds of the processor.
struct Figure {
  std::string name;
  uint32_t order;
  // How many operations an order of it has.
  size_t count;
  // How many numbers an answer has in a list of answers; 0 if there is no list of it, and then `value` and the slots are compared alone.
  size_t width;
  double ours = 0, s2 = 0;
};

class Turns {
 public:
  // Turns of at least so many seconds for each figure, or one turn each in which callgrind counts instructions.
  Turns(const Scene& scene, double seconds, bool counts_instructions, bool has_ids);

  // Ends ours' turn.
  void Stop();

  // Gives the next order, behind S2's turn, and compares what the last one answered. When it is asked first, ours has made its store, and
  // doesn't look at the answer; then ours has made its lists.
  uint32_t Next(const Shown& shown);

  const std::vector<Figure>& figures() const { return figures_; }

  // The bytes that the store has, and the index of S2.
  size_t ours_bytes() const { return ours_bytes_; }
  size_t s2_bytes() const { return s2_bytes_; }

 private:
  void AddFigures(const Scene& scene, bool has_ids);
  void Finish(const Shown& shown);
  uint32_t Begin();
  bool IsOver() const;
  bool IsListing() const;
  bool Counts() const;
  void Compare(const Shown& shown) const;

  std::vector<Figure> figures_;
  double seconds_;
  bool counts_instructions_;
  size_t before_, s2_bytes_, ours_bytes_ = 0;
  S2Side s2_;
  // How often `Next` was asked.
  size_t asked_ = 0;
  // The figure that is measured, how many turns it has had, and the seconds that they took.
  size_t at_ = 0, turns_ = 0;
  double spent_ = 0;
  double started_ = 0, stopped_ = 0;
};

#endif
