/* Four threads verify levels, and eight ask them at once: each by a handle of its own, and all in the same mapped files.
 * threads FOLDER */
#define _POSIX_C_SOURCE 200809L
#include "awari.h"
#include <pthread.h>
#include <string.h>

enum { THREADS = 8, BOARDS = 20000 };

static int levels;
static awari_files files;

typedef struct {
    awari_handle handle;
    uint64_t sum;
    int wrong;
} asker;

/* The next board of a row that is the same for each thread, of the highest level. */
static void next(uint64_t *seed, uint8_t pits[12]) {
    memset(pits, 0, 12);
    for (int stone = 1; stone < levels; stone++) {
        *seed ^= *seed << 13, *seed ^= *seed >> 7, *seed ^= *seed << 17;
        pits[*seed % 12]++;
    }
}

static int are_same(const awari_move moves[6], const awari_move others[6]) {
    for (int pit = 0; pit < 6; pit++)
        if (moves[pit].legal != others[pit].legal || moves[pit].captures != others[pit].captures ||
            moves[pit].value != others[pit].value || moves[pit].distance != others[pit].distance)
            return 0;
    return 1;
}

/* Adds up what many boards are worth, which is the same for each thread. */
static void *ask(void *given) {
    asker *self = (asker *)given;
    uint64_t seed = 88172645463325252u;
    for (int i = 0; i < BOARDS && !self->wrong; i++) {
        uint8_t pits[12], line[64];
        awari_entry entry, filed;
        awari_move moves[6], others[6];
        size_t long_as;
        int8_t value;
        next(&seed, pits);
        self->wrong = awari_probe(&self->handle, pits, &entry) || awari_probe_moves(&self->handle, pits, moves) ||
                      awari_probe_value(&self->handle, pits, &value) ||
                      awari_line(&self->handle, pits, line, sizeof line, &long_as) ||
                      awari_probe_file(files.level[levels - 1].bytes, files.level[levels - 1].len, pits, &filed) ||
                      awari_probe_moves_files(files.level, files.count, pits, others) || value != entry.value ||
                      filed.value != entry.value || filed.plan != entry.plan || filed.distance != entry.distance ||
                      !are_same(moves, others);
        self->sum = self->sum * 31 + (uint64_t)value * 7 + entry.distance + long_as;
    }
    return NULL;
}

int main(int argc, char **argv) {
    awari_handle first = AWARI_CLOSED;
    static asker askers[THREADS];
    pthread_t threads[THREADS];
    int wrong = argc != 2 || awari_open_by(argv[1], 24, 4, &first, NULL) || awari_map(argv[1], 24, &files, NULL);
    levels = awari_levels(&first);
    for (int i = 0; i < THREADS; i++) wrong |= awari_share(&first, &askers[i].handle) != 0;
    awari_close(&first); /* the others keep the levels */
    if (wrong) return 1;
    for (int i = 0; i < THREADS; i++)
        if (pthread_create(&threads[i], NULL, ask, &askers[i])) return 1;
    for (int i = 0; i < THREADS; i++) {
        pthread_join(threads[i], NULL);
        awari_close(&askers[i].handle);
        wrong |= askers[i].wrong || askers[i].sum != askers[0].sum;
    }
    awari_unmap(&files);
    return wrong;
}
