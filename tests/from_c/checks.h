/* What the tests of single calls share: they compare answers, on any thread, and a program counts those that are wrong. */
#ifndef CHECKS_H
#define CHECKS_H

#include <stdint.h>

/* Compares two numbers. If they differ, it prints the file and the line, and counts a fault. */
#define EXPECT(found, wanted) expect(__FILE__, __LINE__, (uint64_t)(found), (uint64_t)(wanted))
void expect(const char *file, int line, uint64_t found, uint64_t wanted);

/* Counts a fault that a test has printed itself. */
void count_fault(void);

/* How many faults have been counted. */
int fault_count(void);

/* The tests of each file. */
void check_cells(void);
void check_ranges(void);
void check_lists(void);
void check_each(void);
void check_steps(void);
void check_histories(void);
void check_threads(void);
void check_readers(void);
void check_layout(void);
void check_freed(void);

#endif
