/* Gives the program that it is loaded into one byte by each read of standard input. The file that READ_AT names has in the end
   how many bytes it gave so. (Of glibc, by LD_PRELOAD.) */
#define _GNU_SOURCE
#include <dlfcn.h>
#include <stdio.h>
#include <stdlib.h>
#include <unistd.h>

typedef ssize_t (*reading)(int, void *, size_t);

static reading real_read;
static long given;

// Writes how many bytes were read so far to the file that READ_AT names.
static void write_count(void) {
  const char *path = getenv("READ_AT");
  FILE *file = path ? fopen(path, "w") : NULL;
  if (file) {
    fprintf(file, "%ld", given);
    fclose(file);
  }
}

// Reads one byte at most from the standard input.
ssize_t read(int file, void *bytes, size_t size) {
  if (!real_read)
    real_read = (reading)dlsym(RTLD_NEXT, "read");
  if (file != STDIN_FILENO)
    return real_read(file, bytes, size);
  ssize_t taken = real_read(file, bytes, size > 1 ? 1 : size);
  if (taken > 0)
    given += taken;
  else
    write_count();
  return taken;
}
