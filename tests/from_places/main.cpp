// Runs all checks of the library of places, with 20,000 mutants or as many as the word says. The last line is 'N passed, M failed'.
#include <cstdlib>

#include "checks.h"

int main(int words, char** word) {
  std::setvbuf(stdout, nullptr, _IOLBF, 0);
  ReadsShapes();
  FindsFaults();
  ListsAllFaults();
  MendsFaults();
  CoversShapes();
  FindsPoints();
  AnswersFromSets();
  DrawsOutlines();
  CutsOutlines();
  UsesTheCppHeader();
  RefusesWhatIsWrong();
  RefusesSets();
  SurvivesMutants(words > 1 ? std::strtoul(word[1], nullptr, 10) : 20'000);
  std::printf("%zu passed, %zu failed\n", passed, failed);
  return failed > 0;
}
