// Lets one allocation of a program fail: that with the number FAIL_AT, counted from 1. Their number is written to the file
// COUNT_IN where the program ends.
#define _GNU_SOURCE
#include <dlfcn.h>
#include <errno.h>
#include <stdio.h>
#include <stdlib.h>

static long fail_at = -1, count = 0;

static int fails(void) {
  if (fail_at < 0) {
    const char *text = getenv("FAIL_AT");
    fail_at = text ? atol(text) : 0;
  }
  return ++count == fail_at;
}

void *malloc(size_t size) {
  static void *(*real)(size_t);
  if (!real) real = dlsym(RTLD_NEXT, "malloc");
  if (fails()) {
    errno = ENOMEM;
    return NULL;
  }
  return real(size);
}

void *realloc(void *block, size_t size) {
  static void *(*real)(void *, size_t);
  if (!real) real = dlsym(RTLD_NEXT, "realloc");
  if (fails()) {
    errno = ENOMEM;
    return NULL;
  }
  return real(block, size);
}

__attribute__((destructor)) static void tell(void) {
  const char *path = getenv("COUNT_IN");
  long all = count;
  FILE *file = path ? fopen(path, "w") : NULL;
  if (!file) return;
  fprintf(file, "%ld\n", all);
  fclose(file);
}
