/* Refuses one growth of memory to the program that it is loaded before: the one whose number stands in REFUSE. It says so. For `.ci/refusals`. */
#include <errno.h>
#include <stddef.h>
#include <stdlib.h>
#include <unistd.h>

extern void *__libc_malloc(size_t size);
extern void *__libc_calloc(size_t count, size_t size);
extern void *__libc_realloc(void *old, size_t size);
extern void *__libc_memalign(size_t alignment, size_t size);

static long made, refused = -1;

static int is_refused(void) {
  if (refused < 0) {
    const char *number = getenv("REFUSE");
    refused = number ? atol(number) : 0;
  }
  if (++made != refused) return 0;
  if (write(2, "refused\n", 8) < 0) abort();
  return 1;
}

void *malloc(size_t size) { return is_refused() ? NULL : __libc_malloc(size); }

void *calloc(size_t count, size_t size) { return is_refused() ? NULL : __libc_calloc(count, size); }

void *realloc(void *old, size_t size) { return is_refused() ? NULL : __libc_realloc(old, size); }

void *aligned_alloc(size_t alignment, size_t size) {
  return is_refused() ? NULL : __libc_memalign(alignment, size);
}

int posix_memalign(void **place, size_t alignment, size_t size) {
  void *got = is_refused() ? NULL : __libc_memalign(alignment, size);
  if (!got) return ENOMEM;
  *place = got;
  return 0;
}
