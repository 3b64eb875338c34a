// Preloaded, refuses each growth of memory of a page or more to the first two threads that ask for one, beside the
// first thread of the program.
#define _GNU_SOURCE
#include <errno.h>
#include <stdatomic.h>
#include <stddef.h>
#include <stdlib.h>
#include <sys/syscall.h>
#include <unistd.h>

extern void *__libc_malloc(size_t);
extern void *__libc_calloc(size_t, size_t);
extern void *__libc_realloc(void *, size_t);
extern void *__libc_memalign(size_t, size_t);

static atomic_int threads;
static __thread int number;

static int is_refused(size_t size) {
  if (size < 4096 || syscall(SYS_gettid) == getpid()) return 0;
  if (!number) number = atomic_fetch_add(&threads, 1) + 1;
  if (number > 2) return 0;
  errno = ENOMEM;
  return 1;
}

void *malloc(size_t size) { return is_refused(size) ? NULL : __libc_malloc(size); }

void *calloc(size_t count, size_t size) {
  return is_refused(count * size) ? NULL : __libc_calloc(count, size);
}

void *realloc(void *old, size_t size) { return is_refused(size) ? NULL : __libc_realloc(old, size); }

void *aligned_alloc(size_t align, size_t size) {
  return is_refused(size) ? NULL : __libc_memalign(align, size);
}

int posix_memalign(void **place, size_t align, size_t size) {
  void *made = is_refused(size) ? NULL : __libc_memalign(align, size);
  if (!made) return ENOMEM;
  *place = made;
  return 0;
}
