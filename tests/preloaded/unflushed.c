/* Loaded before a program: so many of its next calls of fsync or fdatasync fail. */
#define _GNU_SOURCE
#include <errno.h>
#include <sys/syscall.h>
#include <unistd.h>

int failing;

static int flush(long call, int file) {
  if (failing > 0) {
    failing -= 1;
    errno = EIO;
    return -1;
  }
  return (int)syscall(call, file);
}

int fsync(int file) { return flush(SYS_fsync, file); }

int fdatasync(int file) { return flush(SYS_fdatasync, file); }
