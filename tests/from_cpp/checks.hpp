// What the tests of the clients share: they compare answers, on any thread, and count those that are right and those that are wrong.
#ifndef S2IX_TESTS_FROM_CPP_CHECKS_HPP
#define S2IX_TESTS_FROM_CPP_CHECKS_HPP

#include "s2ix.hpp"

#include <atomic>
#include <cstring>
#include <iostream>
#include <string>

inline std::atomic<int> passed, failed;

// Counts what should hold. If it doesn't, prints the file and the line.
inline void Expect(const char* file, int line, bool holds) {
  (holds ? passed : failed)++;
  if (holds) return;
  const char* slash = std::strrchr(file, '/');
  std::cout << std::string(slash ? slash + 1 : file) + ":" + std::to_string(line) + ": this doesn't hold\n";
}

// The status with which a call throws; 0 if it doesn't.
template <class Call>
std::uint32_t StatusOf(Call call) {
  try {
    call();
  } catch (const s2ix::Error& error) {
    return error.status();
  }
  return S2IX_DONE;
}

#define EXPECT(holds) Expect(__FILE__, __LINE__, holds)
#define REFUSED(status, call) EXPECT(StatusOf([&] { (void)(call); }) == (status))

// Prints 'N passed, M failed', and returns the status to exit with.
inline int EndOfChecks() {
  std::cout << passed << " passed, " << failed << " failed\n";
  return failed == 0 ? 0 : 1;
}

#endif
