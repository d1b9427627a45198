/* How answers are compared, and wrong ones are told and counted. */
#include "checks.h"

#include <inttypes.h>
#include <stdatomic.h>
#include <stdio.h>
#include <string.h>

static atomic_int faults;

void count_fault(void) { faults++; }

int fault_count(void) { return faults; }

void expect(const char *file, int line, uint64_t found, uint64_t wanted) {
    if (found != wanted) {
        const char *slash = strrchr(file, '/');
        printf("%s:%d: 0x%" PRIx64 " in place of 0x%" PRIx64 "\n", slash ? slash + 1 : file, line, found, wanted);
        count_fault();
    }
}
