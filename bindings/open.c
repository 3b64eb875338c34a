/* The levels of a folder, for awari.h. Compile it in, or copy it. */
#if !defined _POSIX_C_SOURCE || _POSIX_C_SOURCE + 0 < 200809L
#undef _POSIX_C_SOURCE
#define _POSIX_C_SOURCE 200809L
#endif
#include "awari.h"
#include <errno.h>
#include <fcntl.h>
#ifndef AWARI_PORTABLE
#include <pthread.h>
#endif
#include <stdio.h>
#include <string.h>
#include <sys/mman.h>
#include <sys/stat.h>
#include <unistd.h>

/* The answer, with the level and the fault within. */
static uint8_t refuse(uint8_t answer, uint8_t level, uint8_t inner, awari_fault *fault) {
    memset(fault, 0, sizeof *fault);
    fault->level = level;
    fault->inner = inner;
    return answer;
}

/* Maps one file; an empty one has no bytes to map. */
static uint8_t map_file(int descriptor, uint8_t level, awari_file *file, awari_fault *fault) {
    struct stat state;
    if (fstat(descriptor, &state) || !S_ISREG(state.st_mode)) return refuse(AWARI_OPEN, level, 0, fault);
    file->bytes = (const uint8_t *)"";
    file->len = (size_t)state.st_size;
    if (file->len == 0) return AWARI_OK;
    void *bytes = mmap(NULL, file->len, PROT_READ, MAP_PRIVATE, descriptor, 0);
    if (bytes == MAP_FAILED) return refuse(AWARI_FILE, level, AWARI_READ, fault);
    file->bytes = (const uint8_t *)bytes;
    return AWARI_OK;
}

uint8_t awari_map(const char *folder, unsigned most, awari_files *files, awari_fault *fault) {
    awari_fault unasked;
    if (!fault) fault = &unasked;
    files->count = 0;
    int place = open(folder, O_RDONLY | O_DIRECTORY | O_CLOEXEC);
    if (place < 0) return refuse(AWARI_OPEN, 0, 0, fault);
    uint8_t answer = AWARI_OK;
    for (unsigned level = 0; level <= most && level <= 24 && !answer; level++) {
        char name[24];
        snprintf(name, sizeof name, "level_%02u.awdb", level);
        int descriptor = openat(place, name, O_RDONLY | O_NONBLOCK | O_CLOEXEC);
        if (descriptor < 0) {
            if (errno != ENOENT || level == 0) answer = refuse(AWARI_OPEN, (uint8_t)level, 0, fault);
            break;
        }
        answer = map_file(descriptor, (uint8_t)level, &files->level[level], fault);
        close(descriptor);
        if (!answer) files->count++;
    }
    close(place);
    if (answer) awari_unmap(files);
    return answer;
}

void awari_unmap(awari_files *files) {
    for (size_t i = 0; i < files->count; i++)
        if (files->level[i].len) munmap((void *)files->level[i].bytes, files->level[i].len);
    files->count = 0;
}

/* The most threads, and the first level that is verified by more than one. */
enum { MOST_THREADS = 64, FIRST_SHARED = 5 };

#ifdef AWARI_PORTABLE
/* Each handle of the portable library has a memory of its own, so a level is verified by one thread. */
static uint8_t add_level(awari_handle *handle, const awari_file *file, unsigned threads, awari_fault *fault) {
    (void)threads;
    return awari_add_level(handle, file->bytes, file->len, fault);
}
#else
/* The parts of a level, which threads take in turn. */
typedef struct {
    pthread_mutex_t lock;
    uint32_t next;
} awari_parts;

typedef struct {
    awari_handle handle;
    awari_parts *parts;
    pthread_t thread;
} awari_helper;

static void look_at_parts(awari_handle *handle, awari_parts *parts) {
    uint32_t part;
    do {
        pthread_mutex_lock(&parts->lock);
        part = parts->next++;
        pthread_mutex_unlock(&parts->lock);
    } while (part < AWARI_PARTS && !awari_look(handle, part));
}

static void *help(void *given) {
    awari_helper *self = (awari_helper *)given;
    look_at_parts(&self->handle, self->parts);
    return NULL;
}

/* Starts as many helpers, or fewer if the system refuses one: how many. */
static unsigned start_helpers(awari_handle *handle, awari_parts *parts, awari_helper *helpers, unsigned count) {
    for (unsigned i = 0; i < count; i++) {
        helpers[i].parts = parts;
        if (awari_share(handle, &helpers[i].handle) || pthread_create(&helpers[i].thread, NULL, help, &helpers[i])) {
            awari_close(&helpers[i].handle);
            return i;
        }
    }
    return count;
}

/* Has threads look at the level that was read, of which this is one. What they leave out, awari_accept looks at. */
static void look_by(awari_handle *handle, unsigned threads) {
    awari_parts parts = {PTHREAD_MUTEX_INITIALIZER, 0};
    awari_helper helpers[MOST_THREADS];
    memset(helpers, 0, sizeof helpers);
    unsigned started = start_helpers(handle, &parts, helpers, threads - 1);
    look_at_parts(handle, &parts);
    for (unsigned i = 0; i < started; i++) {
        pthread_join(helpers[i].thread, NULL);
        awari_join(&helpers[i].handle, handle);
        awari_close(&helpers[i].handle);
    }
    pthread_mutex_destroy(&parts.lock);
}

/* Puts the next level on, verified by this many threads. */
static uint8_t add_level(awari_handle *handle, const awari_file *file, unsigned threads, awari_fault *fault) {
    if (threads < 2) return awari_add_level(handle, file->bytes, file->len, fault);
    uint8_t answer = awari_read_level(handle, file->bytes, file->len, fault);
    if (answer) return answer;
    look_by(handle, threads);
    return awari_accept(handle, fault);
}
#endif

uint8_t awari_open_by(const char *folder, unsigned most, unsigned threads, awari_handle *handle, awari_fault *fault) {
    awari_fault unasked;
    awari_files files;
    if (!fault) fault = &unasked;
    if (threads > MOST_THREADS) threads = MOST_THREADS;
    uint8_t answer = awari_map(folder, most, &files, fault);
    for (size_t i = 0; i < files.count && !answer; i++)
        answer = add_level(handle, &files.level[i], i < FIRST_SHARED ? 1 : threads, fault);
    if (answer) awari_close(handle);
    awari_unmap(&files);
    return answer;
}

uint8_t awari_open(const char *folder, unsigned most, awari_handle *handle, awari_fault *fault) {
    return awari_open_by(folder, most, 1, handle, fault);
}
