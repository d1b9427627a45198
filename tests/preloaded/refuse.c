/* Loaded before the program under test: refuses one growth of memory, or has one call of a device fail, come short or be
   interrupted, and counts them all. The environment says which: REFUSE_GROWTH is the number of the growth that is refused, from 1;
   REFUSE_CALL is read or write, REFUSE_AT the number of that call, and REFUSE_HOW is fail, interrupt or short; at 0 for REFUSE_AT
   each call comes short, to REFUSE_LENGTH bytes, or to one. Where REFUSE_HOW is random, each read comes short to some length of at most
   REFUSE_LENGTH; where it is line, each read of a file ends behind a line feed, where there is one. What was counted is written to the
   file that REFUSE_COUNTS names, as "growths reads writes". */
#define _GNU_SOURCE
#include <errno.h>
#include <stdio.h>
#include <stdlib.h>
#include <string.h>
#include <sys/syscall.h>
#include <unistd.h>

extern void *__libc_malloc(size_t size);
extern void *__libc_realloc(void *old, size_t size);

static unsigned long growths, reads, writes;
static unsigned long refused_growth, refused_at, refused_length;
static char refused_call, refused_how;

static unsigned long number_in(const char *name) {
  const char *text = getenv(name);
  return text ? strtoul(text, NULL, 10) : 0;
}

__attribute__((constructor)) static void begin(void) {
  const char *call = getenv("REFUSE_CALL"), *how = getenv("REFUSE_HOW");
  refused_growth = number_in("REFUSE_GROWTH");
  refused_at = number_in("REFUSE_AT");
  refused_length = number_in("REFUSE_LENGTH");
  refused_call = call ? call[0] : 0;
  refused_how = how ? how[0] : 0;
  growths = 0;
}

__attribute__((destructor)) static void end(void) {
  const char *path = getenv("REFUSE_COUNTS");
  unsigned long counted[3] = {growths, reads, writes};
  refused_growth = 0;
  FILE *file = path ? fopen(path, "w") : NULL;
  if (file) {
    fprintf(file, "%lu %lu %lu\n", counted[0], counted[1], counted[2]);
    fclose(file);
  }
}

void *malloc(size_t size) {
  growths += 1;
  if (growths == refused_growth) {
    errno = ENOMEM;
    return NULL;
  }
  return __libc_malloc(size);
}

void *realloc(void *old, size_t size) {
  growths += 1;
  if (growths == refused_growth) {
    errno = ENOMEM;
    return NULL;
  }
  return __libc_realloc(old, size);
}

/* What is left of a call of so many bytes: -1 where it fails. */
static ssize_t granted(char call, unsigned long number, size_t size) {
  if (refused_call != call || (refused_at != 0 && refused_at != number)) {
    return (ssize_t)size;
  }
  if (refused_how == 'l') {
    return (ssize_t)size;
  }
  if (refused_how == 's' || refused_how == 'r') {
    size_t most = refused_length > 0 ? refused_length : 1;
    most = refused_how == 'r' ? 1 + (size_t)random() % most : most;
    return (ssize_t)(size < most ? size : most);
  }
  errno = refused_how == 'i' ? EINTR : EIO;
  return -1;
}

ssize_t read(int file, void *bytes, size_t size) {
  reads += 1;
  ssize_t left = granted('r', reads, size);
  if (left < 0) {
    return left;
  }
  ssize_t came = syscall(SYS_read, file, bytes, (size_t)left);
  const char *feed = refused_how == 'l' && came > 0 ? memchr(bytes, '\n', (size_t)came) : NULL;
  if (feed) {
    ssize_t line = feed - (const char *)bytes + 1;
    lseek(file, line - came, SEEK_CUR);
    return line;
  }
  return came;
}

ssize_t write(int file, const void *bytes, size_t size) {
  if (file != STDOUT_FILENO) {
    return syscall(SYS_write, file, bytes, size);
  }
  writes += 1;
  ssize_t left = granted('w', writes, size);
  return left < 0 ? left : syscall(SYS_write, file, bytes, (size_t)left);
}

ssize_t __write(int file, const void *bytes, size_t size) { return write(file, bytes, size); }
