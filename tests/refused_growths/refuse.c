// Preloaded, refuses one growth of memory: the one that REFUSE_GROWTH numbers, counted from 1. It
// makes the file REFUSE_MARK then, so that who started the program knows that this growth was asked
// for. What the loader takes before the program begins is not counted.
#include <errno.h>
#include <fcntl.h>
#include <stdatomic.h>
#include <stddef.h>
#include <stdlib.h>
#include <unistd.h>

extern void *__libc_malloc(size_t);
extern void *__libc_calloc(size_t, size_t);
extern void *__libc_realloc(void *, size_t);
extern void *__libc_memalign(size_t, size_t);

static long refused;
static const char *mark;
static atomic_long growths;

__attribute__((constructor)) static void begin(void) {
  const char *number = getenv("REFUSE_GROWTH");
  mark = getenv("REFUSE_MARK");
  refused = number && mark ? atol(number) : 0;
}

// Counts a growth, and tells whether it is the one to refuse.
static int is_refused(void) {
  if (refused == 0 || atomic_fetch_add(&growths, 1) + 1 != refused) return 0;
  int file = open(mark, O_CREAT | O_WRONLY | O_CLOEXEC, 0600);
  if (file >= 0) close(file);
  errno = ENOMEM;
  return 1;
}

void *malloc(size_t size) { return is_refused() ? NULL : __libc_malloc(size); }

void *calloc(size_t count, size_t size) { return is_refused() ? NULL : __libc_calloc(count, size); }

void *realloc(void *old, size_t size) { return is_refused() ? NULL : __libc_realloc(old, size); }

void *aligned_alloc(size_t align, size_t size) {
  return is_refused() ? NULL : __libc_memalign(align, size);
}

int posix_memalign(void **place, size_t align, size_t size) {
  void *made = is_refused() ? NULL : __libc_memalign(align, size);
  if (!made) return ENOMEM;
  *place = made;
  return 0;
}
