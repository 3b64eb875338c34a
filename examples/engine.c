/* A search that asks the levels at its leaves: engine FOLDER BOARD PLIES. Once ./install has put the library there:
 *
 *     cc -O2 -o engine engine.c $(pkg-config --variable=opener awari) $(pkg-config --cflags --libs awari)
 *
 * It prints what the mover gains if both sides play as well as this search sees, and the pit to play. Eight
 * threads search. The levels are in mapped files, in which all threads may look up at once. A board that has a
 * level is not searched further, since its value is known.
 */
#include "awari.h"
#include <pthread.h>
#include <stdatomic.h>
#include <stdio.h>
#include <stdlib.h>
#include <string.h>

enum { UNKNOWN = 99, THREADS = 8 };

static awari_files files;

/* What is known of a board without playing on: its value if it has a level, or what an end brings. */
static int known(const uint8_t pits[12]) {
    awari_entry entry;
    unsigned stones = 0;
    for (int pit = 0; pit < 12; pit++) stones += pits[pit];
    if (stones < files.count && !awari_probe_file(files.level[stones].bytes, files.level[stones].len, pits, &entry))
        return entry.value;
    if (awari_legal(pits)) return UNKNOWN;
    /* Each side keeps the stones of its own pits. */
    int gain = 0;
    for (int pit = 0; pit < 12; pit++) gain += pit < 6 ? pits[pit] : -pits[pit];
    return gain;
}

/* What the mover gains within this many plies, if that is more than `least` and less than `most`; stones that
 * are still in play then count for nobody. */
static int search(const uint8_t pits[12], int plies, int least, int most) {
    int found = known(pits);
    if (found != UNKNOWN) return found;
    if (plies == 0) return 0;
    uint8_t legal = awari_legal(pits);
    for (uint8_t pit = 0; pit < 6; pit++) {
        uint8_t after[12], captures;
        if (!(legal >> pit & 1) || awari_play(pits, pit, after, &captures)) continue;
        int gain = captures - search(after, plies - 1, captures - most, captures - least);
        if (gain > least) least = gain;
        if (least >= most) break;
    }
    return least;
}

/* A board that is one or two plies away. `before` is what the first mover has gained on the way there. */
typedef struct {
    uint8_t pits[12], first_pit;
    int before, side, plies, gain;
} task;

static task tasks[36];
static int count;
static atomic_int next;

static void add(const uint8_t pits[12], uint8_t first_pit, int before, int side, int plies) {
    task *own = &tasks[count++];
    memcpy(own->pits, pits, 12);
    own->first_pit = first_pit;
    own->before = before;
    own->side = side;
    own->plies = plies;
}

/* A task for each reply to each legal pit, or for the pit itself if the play ends there or is known. */
static void divide(const uint8_t pits[12], int plies) {
    for (uint8_t pit = 0; pit < 6; pit++) {
        uint8_t after[12], replied[12], captures, taken;
        if (awari_play(pits, pit, after, &captures)) continue;
        if (plies < 2 || known(after) != UNKNOWN) {
            add(after, pit, captures, -1, plies - 1);
            continue;
        }
        for (uint8_t reply = 0; reply < 6; reply++)
            if (!awari_play(after, reply, replied, &taken)) add(replied, pit, captures - taken, 1, plies - 2);
    }
}

/* Searches one task after the other, until none is left. */
static void *work(void *unused) {
    for (int own; (own = atomic_fetch_add(&next, 1)) < count;)
        tasks[own].gain = tasks[own].before + tasks[own].side * search(tasks[own].pits, tasks[own].plies, -48, 48);
    return unused;
}

int main(int argc, char **argv) {
    uint8_t pits[12];
    awari_fault fault;
    if (argc != 4) return 2;
    uint8_t answer = awari_parse(argv[2], strlen(argv[2]), pits);
    if (!answer) answer = awari_map(argv[1], 24, &files, &fault);
    if (answer) {
        fprintf(stderr, "refused %d: %s\n", answer, awari_text(answer));
        return 1;
    }
    int plies = atoi(argv[3]);
    if (known(pits) != UNKNOWN || plies < 1) {
        printf("gain %d\n", search(pits, 0, -48, 48));
        awari_unmap(&files);
        return 0;
    }
    divide(pits, plies);
    pthread_t threads[THREADS];
    for (int i = 0; i < THREADS; i++)
        if (pthread_create(&threads[i], NULL, work, NULL)) return 1;
    for (int i = 0; i < THREADS; i++) pthread_join(threads[i], NULL);
    /* The opponent plays the best reply to each pit, and the mover the best pit. */
    int gains[6] = {UNKNOWN, UNKNOWN, UNKNOWN, UNKNOWN, UNKNOWN, UNKNOWN}, best = -1;
    for (int i = 0; i < count; i++)
        if (tasks[i].gain < gains[tasks[i].first_pit]) gains[tasks[i].first_pit] = tasks[i].gain;
    for (int pit = 0; pit < 6; pit++)
        if (gains[pit] != UNKNOWN && (best < 0 || gains[pit] > gains[best])) best = pit;
    printf("gain %d pit %d\n", gains[best], best);
    awari_unmap(&files);
    return 0;
}
