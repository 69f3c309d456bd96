/* Fails one call of send or of recv of the program that it is loaded into. FAILED is the call's name, FAILED_AT its number,
   counted from 1 over the calls of that name, and FAILED_BY the error, a number of errno. No byte is sent or taken by a call
   that fails. (Of glibc, by LD_PRELOAD.) */
#define _GNU_SOURCE
#include <dlfcn.h>
#include <errno.h>
#include <stdatomic.h>
#include <stdlib.h>
#include <string.h>
#include <sys/socket.h>

typedef ssize_t (*sending)(int, const void *, size_t, int);
typedef ssize_t (*receiving)(int, void *, size_t, int);

static atomic_long calls;
static sending real_send;
static receiving real_recv;
static const char *name = "";
static long due;
static int error;

__attribute__((constructor)) static void begin(void) {
  const char *number = getenv("FAILED_AT"), *by = getenv("FAILED_BY");
  real_send = (sending)dlsym(RTLD_NEXT, "send");
  real_recv = (receiving)dlsym(RTLD_NEXT, "recv");
  if (getenv("FAILED"))
    name = getenv("FAILED");
  due = number ? atol(number) : 0;
  error = by ? atoi(by) : 0;
}

// Whether this call is the one that has to fail.
static int fails(const char *call) {
  if (strcmp(call, name) != 0 || atomic_fetch_add(&calls, 1) + 1 != due)
    return 0;
  errno = error;
  return 1;
}

// The call of the system, or an error.
ssize_t send(int file, const void *bytes, size_t size, int flags) {
  return fails("send") ? -1 : real_send(file, bytes, size, flags);
}

// The call of the system, or an error.
ssize_t recv(int file, void *bytes, size_t size, int flags) {
  return fails("recv") ? -1 : real_recv(file, bytes, size, flags);
}
