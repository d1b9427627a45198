/* Loaded before a program: of its next calls that write, grow, map or flush a file, the one of a number fails, or none for 0. `calls` counts
   them. A failed write or growth is told as a full disk, the others as a broken one. */
#define _GNU_SOURCE
#include <errno.h>
#include <stddef.h>
#include <sys/mman.h>
#include <sys/syscall.h>
#include <sys/types.h>
#include <unistd.h>

int failing, calls;

static int fails(int why) {
  calls += 1;
  if (failing == 0 || calls != failing) return 0;
  errno = why;
  return 1;
}

static ssize_t put(int file, const void *bytes, size_t size, off_t place) {
  if (fails(ENOSPC)) return -1;
  return syscall(SYS_pwrite64, file, bytes, size, place);
}

ssize_t pwrite(int file, const void *bytes, size_t size, off_t place) { return put(file, bytes, size, place); }
ssize_t pwrite64(int file, const void *bytes, size_t size, off64_t place) { return put(file, bytes, size, place); }

static int cut(int file, off_t size) { return fails(ENOSPC) ? -1 : (int)syscall(SYS_ftruncate, file, size); }

int ftruncate(int file, off_t size) { return cut(file, size); }
int ftruncate64(int file, off64_t size) { return cut(file, size); }

static void *map(void *at, size_t size, int access, int flags, int file, off_t place) {
  if (file >= 0 && fails(ENOMEM)) return MAP_FAILED;
  return (void *)syscall(SYS_mmap, at, size, access, flags, file, place);
}

void *mmap(void *at, size_t size, int access, int flags, int file, off_t place) { return map(at, size, access, flags, file, place); }
void *mmap64(void *at, size_t size, int access, int flags, int file, off64_t place) { return map(at, size, access, flags, file, place); }

int fsync(int file) { return fails(EIO) ? -1 : (int)syscall(SYS_fsync, file); }
int fdatasync(int file) { return fails(EIO) ? -1 : (int)syscall(SYS_fdatasync, file); }
