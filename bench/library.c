/* library FOLDER: how long the library for C takes to open the levels of a folder, and to answer for boards of
 * the highest one. The next board hangs on the answer before, but for those that are asked for together. */
#define _POSIX_C_SOURCE 200809L
#include "awari.h"
#include <stdio.h>
#include <stdlib.h>
#include <time.h>

enum { BOARDS = 1 << 18, ROUNDS = 16 };

static uint8_t boards[BOARDS][12];
static awari_entry entries[BOARDS];

static double seconds(clockid_t clock) {
    struct timespec t;
    clock_gettime(clock, &t);
    return t.tv_sec + t.tv_nsec * 1e-9;
}

int main(int argc, char **argv) {
    awari_handle handle = AWARI_CLOSED;
    if (argc != 2) return 2;
    double t = seconds(CLOCK_PROCESS_CPUTIME_ID);
    if (awari_open(argv[1], 24, &handle, NULL)) return 1;
    int stones = awari_levels(&handle) - 1;
    printf("open to level %d: %.3f s of processor time\n", stones, seconds(CLOCK_PROCESS_CPUTIME_ID) - t);
    srand(1);
    for (int i = 0; i < BOARDS; i++)
        for (int stone = 0; stone < stones; stone++) boards[i][rand() % 12]++;
    unsigned at = 0;
    t = seconds(CLOCK_MONOTONIC);
    for (int i = 0; i < BOARDS * ROUNDS; i++) {
        awari_entry entry;
        if (awari_probe(&handle, boards[at], &entry)) return 1;
        at = (at + 1 + entry.distance % 4) % BOARDS;
    }
    printf("awari_probe: %.0f ns each\n", (seconds(CLOCK_MONOTONIC) - t) * 1e9 / BOARDS / ROUNDS);
    t = seconds(CLOCK_MONOTONIC);
    for (int i = 0; i < BOARDS * ROUNDS / 4; i++) {
        awari_move moves[6];
        if (awari_probe_moves(&handle, boards[at], moves)) return 1;
        at = (at + 1 + moves[5].captures) % BOARDS;
    }
    printf("awari_probe_moves: %.0f ns each\n", (seconds(CLOCK_MONOTONIC) - t) * 4e9 / BOARDS / ROUNDS);
    t = seconds(CLOCK_MONOTONIC);
    for (int i = 0; i < BOARDS * ROUNDS; i++) {
        int8_t value;
        if (awari_probe_value(&handle, boards[at], &value)) return 1;
        at = (at + 1 + (unsigned)value % 4) % BOARDS;
    }
    printf("awari_probe_value: %.0f ns each\n", (seconds(CLOCK_MONOTONIC) - t) * 1e9 / BOARDS / ROUNDS);
    t = seconds(CLOCK_MONOTONIC);
    for (int i = 0; i < ROUNDS; i++) {
        size_t told;
        if (awari_probe_many(&handle, boards[0], BOARDS, entries, BOARDS, &told)) return 1;
    }
    printf("awari_probe_many: %.0f ns a board\n", (seconds(CLOCK_MONOTONIC) - t) * 1e9 / BOARDS / ROUNDS);
    awari_close(&handle);
    return 0;
}
