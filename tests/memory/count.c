/* Stands before the allocator, preloaded or linked in, and counts the bytes that are asked for. The counts
 * lie in the file COUNT, if it is named. */
#define _GNU_SOURCE
#include "count.h"
#include <fcntl.h>
#include <malloc.h>
#include <stdlib.h>
#include <sys/mman.h>
#include <unistd.h>

extern void *__libc_malloc(size_t);
extern void *__libc_calloc(size_t, size_t);
extern void *__libc_realloc(void *, size_t);
extern void *__libc_memalign(size_t, size_t);
extern void __libc_free(void *);

static memory_counts own;
memory_counts *counted = &own;

__attribute__((constructor)) static void begin(void) {
    const char *path = getenv("COUNT");
    int file = path ? open(path, O_CREAT | O_RDWR | O_CLOEXEC, 0600) : -1;
    if (file < 0 || ftruncate(file, sizeof own)) return;
    void *place = mmap(NULL, sizeof own, PROT_READ | PROT_WRITE, MAP_SHARED, file, 0);
    if (place != MAP_FAILED) counted = place;
    close(file);
}

static void raise_to(_Atomic int64_t *most, int64_t now) {
    int64_t old = *most;
    while (old < now && !atomic_compare_exchange_weak(most, &old, now)) {}
}

static void asked(size_t size) { raise_to(&counted->greatest, (int64_t)size); }

static void *given(void *place) {
    int64_t more = (int64_t)malloc_usable_size(place);
    raise_to(&counted->peak, atomic_fetch_add(&counted->held, more) + more);
    return place;
}

static void taken_back(size_t size) { atomic_fetch_sub(&counted->held, (int64_t)size); }

void *malloc(size_t size) {
    asked(size);
    return given(__libc_malloc(size));
}

void *calloc(size_t count, size_t size) {
    asked(count * size);
    return given(__libc_calloc(count, size));
}

void *aligned_alloc(size_t align, size_t size) {
    asked(size);
    return given(__libc_memalign(align, size));
}

int posix_memalign(void **place, size_t align, size_t size) {
    *place = aligned_alloc(align, size);
    return *place ? 0 : 12;
}

void free(void *place) {
    taken_back(malloc_usable_size(place));
    __libc_free(place);
}

void *realloc(void *old, size_t size) {
    size_t before = malloc_usable_size(old);
    asked(size);
    void *place = __libc_realloc(old, size);
    if (place) taken_back(before);
    return given(place);
}
