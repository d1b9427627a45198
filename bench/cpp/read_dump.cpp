#include "read_dump.h"

#include <cstdlib>
#include <cstring>

void ReadDump(const std::string& dump, S2CellIndex& index) {
  const char* line = std::strchr(dump.c_str(), '\n') + 1;
  while (std::strncmp(line, "end", 3) != 0) {
    const char* space = std::strchr(line, ' ');
    char* behind;
    long label = std::strtol(space + 1, &behind, 10);
    long copies = std::strtol(behind, &behind, 10);
    S2CellId cell = S2CellId::FromToken({line, static_cast<size_t>(space - line)});
    for (long k = 0; k < copies; ++k) index.Add(cell, static_cast<int>(label));
    line = behind + 1;
  }
  index.Build();
}
