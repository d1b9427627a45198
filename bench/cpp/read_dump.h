// A dump read into S2's index.
#ifndef BENCH_READ_DUMP_H_
#define BENCH_READ_DUMP_H_

#include <string>

#include "s2/s2cell_index.h"

// Adds the pairs of a dump to an index and builds it. The dump's lines are taken as they should be: nothing is tested.
void ReadDump(const std::string& dump, S2CellIndex& index);

#endif
