/* For bin/starve: refuses one growth of memory, the one whose number is in STARVE, and prints the number of growths at the end. */
#define _GNU_SOURCE
#include <dlfcn.h>
#include <errno.h>
#include <stdatomic.h>
#include <stdio.h>
#include <stdlib.h>
#include <sys/syscall.h>
#include <unistd.h>

static atomic_long growths;
static long refused;

__attribute__((constructor)) static void begin(void) {
  const char *word = getenv("STARVE");
  refused = word ? atol(word) : 0;
}

static void tell(void) {
  char line[64];
  int length = snprintf(line, sizeof line, "growths %ld\n", atomic_load(&growths));
  if (write(2, line, length) < 0) abort();
}

__attribute__((destructor)) static void end(void) { tell(); }

void _exit(int status) {
  tell();
  syscall(SYS_exit_group, status);
  __builtin_unreachable();
}

static int is_refused(void) {
  if (atomic_fetch_add(&growths, 1) + 1 != refused) return 0;
  errno = ENOMEM;
  return 1;
}

void *malloc(size_t size) {
  static void *(*next)(size_t);
  if (!next) next = dlsym(RTLD_NEXT, "malloc");
  return is_refused() ? NULL : next(size);
}

void *realloc(void *old, size_t size) {
  static void *(*next)(void *, size_t);
  if (!next) next = dlsym(RTLD_NEXT, "realloc");
  return is_refused() ? NULL : next(old, size);
}

void *aligned_alloc(size_t alignment, size_t size) {
  static void *(*next)(size_t, size_t);
  if (!next) next = dlsym(RTLD_NEXT, "aligned_alloc");
  return is_refused() ? NULL : next(alignment, size);
}

int posix_memalign(void **place, size_t alignment, size_t size) {
  static int (*next)(void **, size_t, size_t);
  if (!next) next = dlsym(RTLD_NEXT, "posix_memalign");
  return is_refused() ? ENOMEM : next(place, alignment, size);
}
