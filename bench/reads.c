// A library to load before a program: it lets the program's reads be short, be interrupted, or fail, and counts its reads and writes.
// bench/reads.py builds and uses it. Each of these is a number in the environment, and 0 if it is missing:
//
// AT_MOST         how many bytes a read gives at most; 0 for as many as are asked for
// INTERRUPTED_AT  the number of the one read that a signal interrupts; the first is 1
// BEFORE_EACH     how many interrupted reads come before each one that isn't
// FAILED_AT       the number of the read that fails, and each after it
// ERROR           its error, as errno holds it
// COUNTS          the file descriptor to which, when the program ends, the numbers of its reads and writes are written
#define _GNU_SOURCE
#include <errno.h>
#include <stddef.h>
#include <stdio.h>
#include <stdlib.h>
#include <sys/syscall.h>
#include <sys/uio.h>
#include <unistd.h>

static long reads, writes, passed;

static long number_in(const char *name) {
  const char *digits = getenv(name);
  return digits ? atol(digits) : 0;
}

// The numbers of the environment don't change while a program runs.
static long at_most, interrupted_at, before_each, failed_at, error_of;

__attribute__((constructor)) static void begin(void) {
  at_most = number_in("AT_MOST");
  interrupted_at = number_in("INTERRUPTED_AT");
  before_each = number_in("BEFORE_EACH");
  failed_at = number_in("FAILED_AT");
  error_of = number_in("ERROR");
}

__attribute__((destructor)) static void tell(void) {
  int to = (int)number_in("COUNTS");
  char text[64];
  if (to > 0) {
    int size = snprintf(text, sizeof text, "%ld %ld\n", reads, writes);
    syscall(SYS_write, to, text, (size_t)size);
  }
}

static ssize_t fails(long error) {
  errno = (int)error;
  return -1;
}

ssize_t read(int file, void *buffer, size_t room) {
  ++reads;
  if (failed_at > 0 && reads >= failed_at) {
    return fails(error_of);
  }
  if (reads == interrupted_at) {
    return fails(EINTR);
  }
  if (passed < before_each) {
    ++passed;
    return fails(EINTR);
  }
  passed = 0;
  return syscall(SYS_read, file, buffer, at_most > 0 && room > (size_t)at_most ? (size_t)at_most : room);
}

ssize_t write(int file, const void *bytes, size_t count) {
  ++writes;
  return syscall(SYS_write, file, bytes, count);
}

ssize_t writev(int file, const struct iovec *parts, int count) {
  ++writes;
  return syscall(SYS_writev, file, parts, count);
}
