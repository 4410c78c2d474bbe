// A library to load before a program: it refuses one allocation, the one whose number is in REFUSED, and then writes a byte to the
// file descriptor whose number is in SAYS. The first allocation is 1, and 0 refuses none. bench/refusing.py builds and uses it.
#include <stddef.h>
#include <stdlib.h>
#include <unistd.h>

// The C library's own calls behind malloc and realloc.
void *__libc_malloc(size_t size);
void *__libc_realloc(void *block, size_t size);

static long left = -1;

static long number_in(const char *name) {
  const char *digits = getenv(name);
  return digits ? atol(digits) : 0;
}

static int is_refused(void) {
  if (left < 0) {
    left = number_in("REFUSED");
  }
  return left > 0 && --left == 0 && write((int)number_in("SAYS"), "!", 1) == 1;
}

void *malloc(size_t size) {
  return is_refused() ? NULL : __libc_malloc(size);
}

void *realloc(void *block, size_t size) {
  return is_refused() ? NULL : __libc_realloc(block, size);
}
