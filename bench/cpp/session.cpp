// A bench of one size: session PAIRS SECONDS time|instructions [ids]. A line for each figure: its name, how many operations an order has,
// and the nanoseconds of the processor that ours and S2 took for an order, the least of many; then the bytes that either has.
#include <cstdio>
#include <cstdlib>
#include <cstring>

#include "ours.h"
#include "scene.h"
#include "turns.h"

namespace {

Turns* turns = nullptr;

bool HoldSession(const Scene& scene) {
  return ours_session(scene.pair_cells.data(), scene.pair_cells.size(), scene.pair_labels.data(), scene.pair_labels.size(),
                      scene.edited_cells.data(), scene.edited_cells.size(), scene.edited_labels.data(), scene.edited_labels.size(),
                      reinterpret_cast<const uint8_t*>(scene.dump.data()), scene.dump.size(), scene.leaves.data(),
                      scene.leaves.size(), scene.few.data(), scene.few.size(), scene.many.data(), scene.many.size(),
                      scene.few_apart.data(), scene.few_apart.size(), scene.many_apart.data(), scene.many_apart.size(),
                      scene.shapes.data(), scene.shapes.size(), scene.mixed.data(), scene.mixed.size(), scene.rim.data(),
                      scene.rim.size(), scene.points.data(), scene.points.size(), scene.rising.data(), scene.rising.size());
}

}  // namespace

uint32_t bench_next(uint64_t value, const uint64_t* slots, size_t slot_count, const Four* fours, size_t four_count, const Text* texts,
                    size_t text_count, const uint64_t* list, size_t list_count, const size_t* ends, size_t end_count,
                    const uint32_t* labels, size_t label_count) {
  turns->Stop();
  return turns->Next({value,
                      {slots, slot_count},
                      {fours, four_count},
                      {texts, text_count},
                      {list, list_count},
                      {ends, end_count},
                      {labels, label_count}});
}

int main(int count, char** words) {
  if (count < 4) {
    std::fprintf(stderr, "usage: session PAIRS SECONDS time|instructions [ids]\n");
    return 2;
  }
  Scene scene = MakeScene(std::strtoul(words[1], nullptr, 10));
  Turns all(scene, std::strtod(words[2], nullptr), std::strcmp(words[3], "instructions") == 0, count > 4);
  turns = &all;
  if (!HoldSession(scene)) {
    std::fprintf(stderr, "bench: ours ended with a fault\n");
    return 1;
  }
  // (the first figure is what an order costs that does nothing)
  const Figure& nothing = all.figures()[0];
  for (const Figure& figure : all.figures()) {
    std::printf("%s\t%zu\t%.1f\t%.1f\n", figure.name.c_str(), figure.count, figure.ours - nothing.ours, figure.s2 - nothing.s2);
  }
  std::printf("bytes a pair\t%zu\t%zu\t%zu\n", scene.pair_cells.size(), all.ours_bytes(), all.s2_bytes());
  return 0;
}
