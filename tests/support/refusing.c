/* Refuses one request for memory of the program that it is loaded into: the one whose number REFUSED says, counted
   from 1. The file that REFUSED_AT names is there once it is refused. (Of glibc, by LD_PRELOAD.) */
#include <fcntl.h>
#include <stdatomic.h>
#include <stdlib.h>
#include <unistd.h>

extern void *__libc_malloc(size_t size);
extern void *__libc_realloc(void *block, size_t size);

static atomic_long requests;
static long refused;
static const char *tells;

__attribute__((constructor)) static void begin(void) {
  const char *number = getenv("REFUSED");
  tells = getenv("REFUSED_AT");
  refused = number ? atol(number) : 0;
}

// Whether this request for memory has to fail. Counts it.
static int is_refused(void) {
  if (!refused || atomic_fetch_add(&requests, 1) + 1 != refused)
    return 0;
  if (tells) {
    int file = open(tells, O_WRONLY | O_CREAT, 0600);
    if (file >= 0)
      close(file);
  }
  return 1;
}

void *malloc(size_t size) { return is_refused() ? NULL : __libc_malloc(size); }

void *realloc(void *block, size_t size) { return is_refused() ? NULL : __libc_realloc(block, size); }
