/* probe FOLDER BOARD: prints what `awari moves FOLDER BOARD` prints. */
#include "awari.h"
#include <stdio.h>
#include <string.h>

static int refused(uint8_t answer, const awari_fault *fault) {
    printf("refused %d: %s\n", answer, awari_text(answer));
    if (answer >= AWARI_BELOW && answer != AWARI_MEMORY) printf("level %d\n", fault->level);
    if (fault->inner) printf("for %d: %s\n", fault->inner, awari_text(fault->inner));
    if (fault->rule) printf("rank %u rule V%d\n", fault->rank, fault->rule);
    return 1;
}

/* Prints each legal pit with what it is worth. */
static void print_moves(const awari_entry *entry, const awari_move moves[6]) {
    for (int pit = 0; pit < 6; pit++)
        if (moves[pit].legal)
            printf("pit %d captures %d value %d distance %u%s\n", pit, moves[pit].captures, moves[pit].value,
                   moves[pit].distance, pit == entry->plan ? " plan" : "");
    if (entry->plan == AWARI_NO_PLAN) printf("ended %d\n", entry->value);
}

int main(int argc, char **argv) {
    awari_handle handle = AWARI_CLOSED;
    awari_fault fault = {0, 0, 0, 0};
    awari_entry entry;
    awari_move moves[6];
    uint8_t pits[12];
    if (argc != 3) return 2;
    uint8_t answer = awari_parse(argv[2], strlen(argv[2]), pits);
    if (answer) return refused(answer, &fault);
    unsigned stones = 0;
    for (int pit = 0; pit < 12; pit++) stones += pits[pit];
    answer = awari_open(argv[1], stones, &handle, &fault);
    if (!answer) answer = awari_probe(&handle, pits, &entry);
    if (!answer) answer = awari_probe_moves(&handle, pits, moves);
    awari_close(&handle);
    if (answer) return refused(answer, &fault);
    print_moves(&entry, moves);
    return 0;
}
