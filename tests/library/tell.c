/* tell FOLDER: reads boards, one a line, and prints what `probe BOARD` of `awari serve` prints, or `refused N`.
 * Each board is asked by every call that can tell something of it. If two differ, it says so and ends with 1. */
#define _POSIX_C_SOURCE 200809L
#include "awari.h"
#include <stdio.h>
#include <stdlib.h>
#include <string.h>

static awari_handle handle = AWARI_CLOSED;
static awari_files files;

static void expect(int is_so, const char *what, const char *board) {
    if (is_so) return;
    printf("%s differs: %s\n", what, board);
    exit(1);
}

static void print_json(const char *board, const awari_entry *entry, const awari_move moves[6]) {
    const char *mark = "";
    printf("{\"board\":\"%s\",\"value\":%d,\"plan\":", board, entry->value);
    if (entry->plan == AWARI_NO_PLAN)
        printf("null");
    else
        printf("%d", entry->plan);
    printf(",\"distance\":%u,\"moves\":[", entry->distance);
    for (int pit = 0; pit < 6; pit++) {
        if (!moves[pit].legal) continue;
        printf("%s{\"pit\":%d,\"captures\":%d,\"value\":%d,\"distance\":%u,\"plan\":%s}", mark, pit, moves[pit].captures,
               moves[pit].value, moves[pit].distance, pit == entry->plan ? "true" : "false");
        mark = ",";
    }
    printf("]}\n");
}

/* The rules, by each pit: as the worths of the moves have it. */
static void try_rules(const char *board, const uint8_t pits[12], const awari_move moves[6]) {
    uint8_t bits = awari_legal(pits);
    for (uint8_t pit = 0; pit < 6; pit++) {
        uint8_t after[12], captures = 0, left;
        uint32_t rank;
        awari_entry entry;
        uint8_t answer = awari_play(pits, pit, after, &captures);
        expect(moves[pit].legal == ((bits >> pit) & 1), "awari_legal", board);
        expect(moves[pit].legal == (answer == AWARI_OK), "awari_play", board);
        if (answer) continue;
        expect(captures == moves[pit].captures, "a capture", board);
        expect(!awari_rank(after, &left, &rank) && left < files.count, "the board after", board);
        expect(!awari_probe_file(files.level[left].bytes, files.level[left].len, after, &entry), "its file", board);
        expect(captures - entry.value == moves[pit].value, "the value of a move", board);
    }
}

/* The line follows the plans, and comes to the value. */
static void try_line(const char *board, const uint8_t pits[12], const awari_entry *entry) {
    static uint8_t line[4096];
    uint8_t now[12];
    size_t moves, fewer;
    int gained = 0, side = 1;
    awari_entry at = *entry;
    expect(!awari_line(&handle, pits, line, sizeof line, &moves) && moves <= sizeof line, "awari_line", board);
    memcpy(now, pits, 12);
    for (size_t i = 0; i < moves; i++, side = -side) {
        uint8_t after[12], captures;
        expect(line[i] == at.plan && !awari_play(now, line[i], after, &captures), "a move of the line", board);
        gained += side * captures;
        memcpy(now, after, 12);
        expect(!awari_probe(&handle, now, &at), "a board of the line", board);
    }
    if (at.plan == AWARI_NO_PLAN) gained += side * at.value;
    expect(gained == entry->value, "the outcome of the line", board);
    uint8_t last = moves ? line[moves - 1] : 0;
    expect(!awari_line(&handle, pits, line, moves ? moves - 1 : 0, &fewer) && fewer == moves, "a line without room", board);
    expect(!moves || line[moves - 1] == last, "what lies behind the room", board);
}

static void try_rank(const char *board, const uint8_t pits[12], unsigned stones) {
    uint8_t level, again[12];
    uint32_t rank;
    expect(!awari_rank(pits, &level, &rank) && level == stones && rank < awari_size(level), "awari_rank", board);
    expect(!awari_board(level, rank, again) && !memcmp(again, pits, 12), "awari_board", board);
    expect(awari_board(level, awari_size(level) + rank, again) == AWARI_NO_RANK, "no rank", board);
}

/* Tells one board. */
static void tell(const char *board) {
    uint8_t pits[12], line[1];
    awari_entry entry, filed, one;
    awari_move moves[6], others[6];
    int8_t value;
    size_t told;
    uint8_t answer = awari_parse(board, strlen(board), pits);
    if (!answer) answer = awari_probe(&handle, pits, &entry);
    if (answer) {
        if (answer == AWARI_NOT_YET) {
            expect(awari_probe_value(&handle, pits, &value) == answer, "the answer for a value", board);
            expect(awari_probe_moves(&handle, pits, moves) == answer, "the answer for moves", board);
            expect(awari_probe_moves_files(files.level, files.count, pits, moves) == answer, "that of files", board);
            expect(awari_line(&handle, pits, line, 0, &told) == answer, "that for a line", board);
        }
        printf("refused %d\n", answer);
        return;
    }
    unsigned stones = 0;
    for (int pit = 0; pit < 12; pit++) stones += pits[pit];
    expect(!awari_probe_moves(&handle, pits, moves), "awari_probe_moves", board);
    expect(!awari_probe_value(&handle, pits, &value) && value == entry.value, "awari_probe_value", board);
    expect(!awari_probe_file(files.level[stones].bytes, files.level[stones].len, pits, &filed), "awari_probe_file", board);
    expect(filed.value == entry.value && filed.plan == entry.plan && filed.distance == entry.distance, "a file", board);
    expect(!awari_probe_moves_files(files.level, files.count, pits, others), "awari_probe_moves_files", board);
    for (int pit = 0; pit < 6; pit++)
        expect(moves[pit].legal == others[pit].legal && moves[pit].captures == others[pit].captures &&
                   moves[pit].value == others[pit].value && moves[pit].distance == others[pit].distance,
               "a move by files", board);
    expect(!awari_probe_many(&handle, pits, 1, &one, 1, &told) && told == 1 && one.value == entry.value &&
               one.plan == entry.plan && one.distance == entry.distance,
           "awari_probe_many", board);
    try_rank(board, pits, stones);
    try_rules(board, pits, moves);
    try_line(board, pits, &entry);
    print_json(board, &entry, moves);
}

int main(int argc, char **argv) {
    char line[256];
    if (argc != 2 || awari_open(argv[1], 24, &handle, NULL) || awari_map(argv[1], 24, &files, NULL)) return 2;
    while (fgets(line, sizeof line, stdin)) {
        line[strcspn(line, "\n")] = 0;
        tell(line);
    }
    awari_unmap(&files);
    awari_close(&handle);
    return 0;
}
