/* edges FOLDER ROOM: what the library answers of two boards of one stone, and at the edges of what it takes.
 * FOLDER has levels 0 to 2 at least, and ROOM is an empty folder. It prints each line that is not so. */
#define _POSIX_C_SOURCE 200809L
#include "awari.h"
#include <fcntl.h>
#include <stdio.h>
#include <stdlib.h>
#include <string.h>
#include <sys/stat.h>
#include <unistd.h>

/* A call that waits for ever ends the test. */
enum { PATIENCE = 300 };

static int wrong = 0;
#define EXPECT(what) ((what) ? (void)0 : (void)(wrong = 1, printf("line %d: %s\n", __LINE__, #what)))

static awari_files files;
static const uint8_t none[12] = {0}, one[12] = {1, 0, 0, 0, 0, 0, 0, 0, 0, 0, 0, 0};
/* its stone goes over, and the mover loses it */
static const uint8_t last[12] = {0, 0, 0, 0, 0, 1, 0, 0, 0, 0, 0, 0};
static const uint8_t stones_25[12] = {25}, stones_48[12] = {48}, stones_49[12] = {49};

static int is_closed(const awari_handle *handle) {
    static const awari_handle closed = AWARI_CLOSED;
    return handle->open == closed.open;
}

static void try_sentences(void) {
    const char *other = awari_text(255);
    for (int answer = 0; answer < 256; answer++) {
        awari_sentence sentence;
        awari_text_of((uint8_t)answer, &sentence);
        EXPECT(strlen(sentence.text) + 1 == sentence.size && sentence.size > 10);
    }
    for (int answer = AWARI_TRUNCATED; answer <= AWARI_READ; answer++) EXPECT(strcmp(awari_text((uint8_t)answer), other));
    EXPECT(strcmp(awari_text(AWARI_NO_RANK), other) && strcmp(awari_text(AWARI_OK), other));
    EXPECT(!strcmp(awari_text(AWARI_TOO_MANY), "A board has at most 48 stones"));
    EXPECT(awari_version() == AWARI_VERSION);
    EXPECT(strlen(awari_source_id()) == 64 && strspn(awari_source_id(), "0123456789abcdef") == 64);
}

static void try_boards(void) {
    uint8_t pits[12], after[12] = {9}, level = 9, captures = 9;
    uint32_t rank = 9;
    EXPECT(awari_parse("", 0, pits) == AWARI_SHAPE);
    EXPECT(awari_parse("1,2,3", 5, pits) == AWARI_SHAPE);
    EXPECT(awari_parse("01,0,0,0,0,0/0,0,0,0,0,0", 24, pits) == AWARI_NUMBER);
    EXPECT(awari_parse("49,0,0,0,0,0/0,0,0,0,0,0", 24, pits) == AWARI_TOO_MANY);
    EXPECT(awari_parse("48,0,0,0,0,0/0,0,0,0,0,0", 24, pits) == AWARI_OK && !memcmp(pits, stones_48, 12));
    EXPECT(awari_size(0) == 1 && awari_size(24) == 417225900 && awari_size(25) == 0 && awari_size(255) == 0);
    EXPECT(awari_highest() == 24);
    EXPECT(awari_rank(stones_25, &level, &rank) == AWARI_NOT_YET && level == 9 && rank == 9);
    EXPECT(awari_rank(stones_49, &level, &rank) == AWARI_TOO_MANY && level == 9 && rank == 9);
    EXPECT(awari_rank(one, &level, &rank) == AWARI_OK && level == 1 && rank == 11);
    EXPECT(awari_board(25, 0, after) == AWARI_NOT_YET && awari_board(1, 12, after) == AWARI_NO_RANK && after[0] == 9);
    EXPECT(awari_board(24, 417225899, after) == AWARI_OK && after[0] == 24);
    EXPECT(awari_legal(stones_49) == 0 && awari_legal(stones_48) == 1 && awari_legal(none) == 0);
    EXPECT(awari_play(stones_49, 0, after, &captures) == AWARI_TOO_MANY && captures == 9);
    EXPECT(awari_play(one, 6, after, &captures) == AWARI_NO_PIT && awari_play(none, 0, after, &captures) == AWARI_ENDED);
    EXPECT(awari_play(stones_48, 1, after, &captures) == AWARI_EMPTY_PIT && captures == 9);
}

static int is_entry(awari_entry entry, int value, int plan, uint32_t distance) {
    return entry.value == value && entry.plan == plan && entry.distance == distance;
}

/* What there is to say of `last`, whose one move captures nothing. */
static int are_last_moves(const awari_move moves[6]) {
    for (int pit = 0; pit < 5; pit++)
        if (moves[pit].legal || moves[pit].captures || moves[pit].value || moves[pit].distance) return 0;
    return moves[5].legal && moves[5].captures == 0 && moves[5].value == -1 && moves[5].distance == 1;
}

/* Two boards, by each call. */
static void try_told(const char *folder) {
    awari_handle handle = AWARI_CLOSED;
    awari_entry entry, entries[3] = {{9, 9, 9}, {9, 9, 9}, {9, 9, 9}};
    awari_move moves[6];
    int8_t value = 9;
    uint8_t pits[12], after[12], captures = 9, level = 9, line[3] = {9, 9, 9}, boards[3][12];
    uint32_t rank = 9;
    size_t told = 9;
    EXPECT(awari_parse("0,0,0,0,0,1/0,0,0,0,0,0", 23, pits) == AWARI_OK && !memcmp(pits, last, 12));
    EXPECT(awari_rank(last, &level, &rank) == AWARI_OK && level == 1 && rank == 6);
    EXPECT(awari_board(1, 11, pits) == AWARI_OK && !memcmp(pits, one, 12) && awari_size(1) == 12);
    EXPECT(awari_legal(last) == 32 && awari_legal(one) == 0);
    EXPECT(awari_play(last, 5, after, &captures) == AWARI_OK && !memcmp(after, one, 12) && captures == 0);
    EXPECT(awari_play(last, 0, after, &captures) == AWARI_EMPTY_PIT);
    EXPECT(awari_open(folder, 1, &handle, NULL) == AWARI_OK);
    EXPECT(awari_probe(&handle, last, &entry) == AWARI_OK && is_entry(entry, -1, 5, 1));
    EXPECT(awari_probe_value(&handle, last, &value) == AWARI_OK && value == -1);
    EXPECT(awari_probe_moves(&handle, last, moves) == AWARI_OK && are_last_moves(moves));
    EXPECT(awari_line(&handle, last, line, 3, &told) == AWARI_OK && told == 1 && line[0] == 5 && line[1] == 9);
    memcpy(boards[0], last, 12), memcpy(boards[1], one, 12), memcpy(boards[2], last, 12);
    EXPECT(awari_probe_many(&handle, boards[0], 3, entries, 2, &told) == AWARI_OK && told == 2);
    EXPECT(is_entry(entries[0], -1, 5, 1) && is_entry(entries[1], 1, AWARI_NO_PLAN, 0) && entries[2].plan == 9);
    awari_close(&handle);
    EXPECT(awari_probe(&handle, last, &entry) == AWARI_NOT_YET);
    EXPECT(awari_probe_file(files.level[1].bytes, files.level[1].len, last, &entry) == AWARI_OK && is_entry(entry, -1, 5, 1));
    memset(moves, 9, sizeof moves);
    EXPECT(awari_probe_moves_files(files.level, 2, last, moves) == AWARI_OK && are_last_moves(moves));
}

/* A closed handle, which stays one. */
static void try_closed(void) {
    awari_handle handle = AWARI_CLOSED, other = AWARI_CLOSED;
    awari_entry entry;
    awari_move moves[6];
    awari_fault fault;
    size_t told = 9;
    int8_t value;
    uint8_t line[4];
    EXPECT(awari_levels(&handle) == 0 && awari_probe(&handle, none, &entry) == AWARI_NOT_YET);
    EXPECT(awari_probe_value(&handle, none, &value) == AWARI_NOT_YET);
    EXPECT(awari_probe_moves(&handle, none, moves) == AWARI_NOT_YET);
    EXPECT(awari_line(&handle, none, line, 4, &told) == AWARI_NOT_YET && told == 9);
    EXPECT(awari_probe_many(&handle, none, 1, &entry, 1, &told) == AWARI_NOT_YET && told == 0);
    EXPECT(awari_probe_many(&handle, none, 0, &entry, 1, &told) == AWARI_OK && told == 0);
    EXPECT(awari_share(&handle, &other) == AWARI_OK && is_closed(&other));
    EXPECT(awari_share(&handle, &handle) == AWARI_OK && is_closed(&handle));
    /* no memory is held after these, so the handles are let go */
    EXPECT(awari_add_level(&handle, (const uint8_t *)"AWDB", 4, &fault) == AWARI_FILE && is_closed(&handle));
    EXPECT(fault.level == 0 && fault.inner == AWARI_TRUNCATED && fault.rule == 0);
    EXPECT(awari_add_level(&handle, files.level[1].bytes, files.level[1].len, &fault) == AWARI_BELOW && is_closed(&handle));
}

static void try_levels(const char *folder) {
    awari_handle handle = AWARI_CLOSED, other = AWARI_CLOSED;
    awari_entry entry, entries[4] = {{9, 9, 9}, {9, 9, 9}, {9, 9, 9}, {9, 9, 9}};
    awari_fault fault;
    uint8_t boards[3][12];
    size_t told;
    EXPECT(awari_open(folder, 1, &handle, NULL) == AWARI_OK && awari_levels(&handle) == 2);
    EXPECT(awari_share(&handle, &handle) == AWARI_OK && awari_levels(&handle) == 2);
    EXPECT(awari_share(&handle, &other) == AWARI_OK && awari_share(&handle, &other) == AWARI_OK);
    EXPECT(awari_add_level(&other, files.level[2].bytes, files.level[2].len, &fault) == AWARI_OK);
    EXPECT(awari_levels(&handle) == 2 && awari_levels(&other) == 3);
    EXPECT(awari_add_level(&other, files.level[2].bytes, files.level[2].len, &fault) != AWARI_OK && fault.level == 3);
    EXPECT(awari_levels(&other) == 3);
    EXPECT(awari_probe(&handle, stones_49, &entry) == AWARI_TOO_MANY);
    EXPECT(awari_probe(&handle, stones_25, &entry) == AWARI_NOT_YET);
    memcpy(boards[0], one, 12), memcpy(boards[1], none, 12), memcpy(boards[2], stones_49, 12);
    EXPECT(awari_probe_many(&handle, boards[0], 3, entries, 4, &told) == AWARI_TOO_MANY && told == 2);
    EXPECT(entries[1].plan == AWARI_NO_PLAN && entries[2].plan == 9);
    EXPECT(awari_probe_many(&handle, boards[0], 3, entries, 1, &told) == AWARI_OK && told == 1);
    awari_close(&handle);
    EXPECT(awari_share(&handle, &other) == AWARI_OK && awari_levels(&other) == 0); /* gives back what it had */
    awari_close(&other);
    awari_close(&other);
}

/* Levels 0 and 1, built in slices, with a question after each. Their files are those of the folder. */
static void try_built(void) {
    awari_handle handle = AWARI_CLOSED, other = AWARI_CLOSED;
    awari_draft draft = {9, 9, true};
    awari_level_counts counts = {9, 9, 9, 9};
    uint8_t file[156] = {9}, line[2] = {9, 9};
    size_t moves = 9;
    EXPECT(awari_file_len(0) == 90 && awari_file_len(1) == sizeof file);
    EXPECT(awari_spread(&handle, 1, &draft) == AWARI_NOT_YET && draft.gain == 9 && is_closed(&handle));
    EXPECT(awari_finish(&handle, file, 90) == AWARI_NOT_YET && file[0] == 9 && is_closed(&handle));
    EXPECT(awari_counts(&handle, 0, &counts) == AWARI_NOT_YET && counts.limit == 9);
    EXPECT(awari_longest_line(&handle, none, line, 2, &moves) == AWARI_NOT_YET && moves == 9);
    for (uint8_t level = 0; level < 2; level++) {
        size_t len = awari_file_len(level);
        EXPECT(awari_begin(&handle) == AWARI_OK && awari_levels(&handle) == level);
        EXPECT(awari_share(&handle, &other) == AWARI_OK && awari_levels(&other) == level);
        EXPECT(awari_spread(&other, 1, &draft) == AWARI_NOT_YET);
        do EXPECT(awari_spread(&handle, 1, &draft) == AWARI_OK && awari_levels(&handle) == level);
        while (!draft.settled);
        EXPECT(awari_finish(&handle, file, len - 1) == AWARI_WRITE && awari_levels(&handle) == level);
        EXPECT(awari_finish(&handle, file, len) == AWARI_OK && awari_levels(&handle) == level + 1);
        EXPECT(len == files.level[level].len && !memcmp(file, files.level[level].bytes, len));
        EXPECT(awari_finish(&handle, file, len) == AWARI_NOT_YET && awari_counts(&handle, level, &counts) == AWARI_OK);
    }
    EXPECT(counts.won == 5 && counts.even == 0 && counts.lost == 7 && counts.limit == 1);
    EXPECT(awari_counts(&handle, 2, &counts) == AWARI_NOT_YET && awari_counts(&handle, 255, &counts) == AWARI_NOT_YET);
    EXPECT(awari_longest_line(&handle, last, line, 2, &moves) == AWARI_OK && moves == 1 && line[0] == 5 && line[1] == 9);
    EXPECT(awari_longest_line(&handle, stones_49, line, 2, &moves) == AWARI_TOO_MANY && moves == 1);
    EXPECT(awari_begin(&handle) == AWARI_OK); /* which closing gives up */
    awari_close(&handle);
    awari_close(&other);
}

#ifndef AWARI_PORTABLE
/* Levels 0 to 2, read and then verified in parts by two handles. Some parts are left out, and some looked at twice. */
static void try_parts(void) {
    awari_handle handle = AWARI_CLOSED, other = AWARI_CLOSED;
    awari_fault fault;
    EXPECT(awari_look(&handle, 0) == AWARI_NOT_YET && awari_accept(&handle, &fault) == AWARI_NOT_YET && is_closed(&handle));
    EXPECT(awari_join(&handle, &other) == AWARI_NOT_YET && awari_join(&handle, &handle) == AWARI_OK);
    for (uint8_t level = 0; level < 3; level++) {
        const awari_file *file = &files.level[level];
        EXPECT(awari_read_level(&handle, file->bytes, file->len, &fault) == AWARI_OK && awari_levels(&handle) == level);
        EXPECT(awari_share(&handle, &other) == AWARI_OK && awari_levels(&other) == level);
        for (uint32_t part = level; part < AWARI_PARTS; part += 1 + level)
            EXPECT(awari_look(part % 3 ? &handle : &other, part) == AWARI_OK);
        EXPECT(awari_look(&handle, 800) == AWARI_OK && awari_look(&other, 800) == AWARI_OK);
        EXPECT(awari_look(&handle, AWARI_PARTS) == AWARI_NO_RANK && awari_look(&handle, UINT32_MAX) == AWARI_NO_RANK);
        EXPECT(awari_join(&other, &handle) == AWARI_OK && awari_join(&other, &handle) == AWARI_OK);
        EXPECT(awari_accept(&handle, &fault) == AWARI_OK && awari_levels(&handle) == level + 1);
        EXPECT(awari_accept(&handle, &fault) == AWARI_NOT_YET && awari_look(&handle, 0) == AWARI_NOT_YET);
        EXPECT(awari_join(&other, &handle) == AWARI_NOT_YET && awari_levels(&other) == level);
        EXPECT(awari_accept(&other, &fault) == AWARI_OK && awari_levels(&other) == level + 1);
    }
    awari_close(&other);
    awari_close(&handle);
}

/* What is read and refused, or given up. */
static void try_unread(void) {
    awari_handle handle = AWARI_CLOSED, other = AWARI_CLOSED;
    awari_fault fault;
    uint8_t copy[156];
    EXPECT(awari_read_level(&handle, (const uint8_t *)"AWDB", 4, &fault) == AWARI_FILE && is_closed(&handle));
    EXPECT(fault.level == 0 && fault.inner == AWARI_TRUNCATED);
    EXPECT(awari_read_level(&handle, files.level[1].bytes, files.level[1].len, &fault) == AWARI_BELOW && is_closed(&handle));
    EXPECT(awari_add_level(&handle, files.level[0].bytes, files.level[0].len, &fault) == AWARI_OK);
    EXPECT(awari_read_level(&handle, files.level[1].bytes, files.level[1].len, &fault) == AWARI_OK);
    EXPECT(awari_read_level(&other, files.level[0].bytes, files.level[0].len, &fault) == AWARI_OK && awari_levels(&other) == 0);
    EXPECT(awari_join(&other, &handle) == AWARI_NOT_YET && awari_join(&handle, &other) == AWARI_NOT_YET);
    EXPECT(awari_add_level(&handle, files.level[0].bytes, files.level[0].len, &fault) == AWARI_BELOW);
    EXPECT(awari_look(&handle, 0) == AWARI_OK); /* what was read is there still */
    EXPECT(awari_add_level(&handle, files.level[1].bytes, files.level[1].len, &fault) == AWARI_OK);
    EXPECT(awari_look(&handle, 0) == AWARI_NOT_YET && awari_levels(&handle) == 2);
    EXPECT(awari_accept(&other, &fault) == AWARI_OK && awari_levels(&other) == 1);
    memcpy(copy, files.level[1].bytes, sizeof copy);
    copy[sizeof copy - 1] ^= 1;
    EXPECT(awari_read_level(&other, copy, sizeof copy, &fault) == AWARI_OK);
    for (uint32_t part = 0; part < AWARI_PARTS; part++) EXPECT(awari_look(&other, part) == AWARI_OK);
    EXPECT(awari_accept(&other, &fault) == AWARI_FILE && fault.level == 1 && fault.inner == AWARI_DIGEST);
    EXPECT(awari_levels(&other) == 1 && awari_accept(&other, &fault) == AWARI_NOT_YET);
    EXPECT(awari_read_level(&other, files.level[1].bytes, files.level[1].len, &fault) == AWARI_OK);
    awari_close(&other); /* which gives up what was read */
    awari_close(&handle);
}
#endif

static void try_mapped(void) {
    static const awari_file empty = {(const uint8_t *)"", 0};
    awari_file cut[3], more[30]; /* more than there are levels */
    awari_entry entry = {9, 9, 9};
    awari_move moves[6];
    uint8_t below[32] = {0}, digest[32];
    memset(moves, 9, sizeof moves);
    EXPECT(awari_probe_file(files.level[1].bytes, files.level[1].len, none, &entry) == AWARI_WRONG_LEVEL);
    EXPECT(awari_probe_file(files.level[0].bytes, files.level[0].len, one, &entry) == AWARI_WRONG_LEVEL);
    EXPECT(awari_probe_file(files.level[1].bytes, files.level[1].len - 1, one, &entry) == AWARI_TRUNCATED);
    EXPECT(awari_probe_file(files.level[1].bytes, files.level[1].len + 1, one, &entry) == AWARI_TRAILING);
    EXPECT(awari_probe_file(files.level[1].bytes, files.level[1].len, stones_25, &entry) == AWARI_NOT_YET);
    EXPECT(awari_probe_file(files.level[1].bytes, files.level[1].len, stones_49, &entry) == AWARI_TOO_MANY);
    EXPECT(entry.plan == 9 && awari_probe_file(files.level[1].bytes, files.level[1].len, one, &entry) == AWARI_OK);
    memcpy(cut, files.level, sizeof cut);
    EXPECT(awari_probe_moves_files(cut, 1, one, moves) == AWARI_NOT_YET);
    EXPECT(awari_probe_moves_files(cut, 2, stones_25, moves) == AWARI_NOT_YET);
    EXPECT(awari_probe_moves_files(cut, 2, stones_49, moves) == AWARI_TOO_MANY);
    cut[0].len--;
    EXPECT(awari_probe_moves_files(cut, 2, one, moves) == AWARI_TRUNCATED && moves[0].captures == 9);
    cut[0] = files.level[1];
    EXPECT(awari_probe_moves_files(cut, 2, one, moves) == AWARI_WRONG_LEVEL && moves[0].captures == 9);
    EXPECT(awari_probe_moves_files(files.level, 2, one, moves) == AWARI_OK && moves[1].captures == 0);
    for (size_t i = 0; i < 30; i++) more[i] = i < 2 ? files.level[i] : empty;
    EXPECT(awari_probe_moves_files(more, 30, last, moves) == AWARI_OK && are_last_moves(moves));
    EXPECT(awari_probe_moves_files(more, 30, stones_25, moves) == AWARI_NOT_YET);
    for (size_t level = 0; level < files.count; level++) {
        EXPECT(awari_check_file(files.level[level].bytes, files.level[level].len, below, digest) == AWARI_OK);
        EXPECT(!memcmp(digest, files.level[level].bytes + files.level[level].len - 32, 32));
        below[0] ^= 1;
        EXPECT(awari_check_file(files.level[level].bytes, files.level[level].len, below, digest) == AWARI_BELOW);
        memcpy(below, digest, 32);
    }
    EXPECT(awari_check_file(files.level[1].bytes, files.level[1].len - 1, below, digest) == AWARI_TRUNCATED);
    EXPECT(awari_check_file(files.level[1].bytes + 1, files.level[1].len - 1, below, digest) == AWARI_MAGIC);
}

/* Writes a file of a folder. */
static void put(const char *room, const char *name, const void *bytes, size_t len) {
    char path[4096];
    snprintf(path, sizeof path, "%s/%s", room, name);
    FILE *file = fopen(path, "wb");
    if (!file || fwrite(bytes, 1, len, file) != len || fclose(file)) exit(2);
}

static void try_folders(const char *room) {
    awari_handle handle = AWARI_CLOSED;
    awari_files some;
    awari_fault fault;
    char path[4096];
    snprintf(path, sizeof path, "%s/nowhere", room);
    EXPECT(awari_open(path, 24, &handle, &fault) == AWARI_OPEN && fault.level == 0 && is_closed(&handle));
    EXPECT(awari_map(path, 24, &some, NULL) == AWARI_OPEN && some.count == 0);
    fault.level = fault.inner = 9;
    EXPECT(awari_open(room, 24, &handle, &fault) == AWARI_OPEN && fault.level == 0 && fault.inner == 0 && is_closed(&handle));
    EXPECT(awari_map(room, 24, &some, NULL) == AWARI_OPEN && some.count == 0);
    put(room, "level_00.awdb", files.level[0].bytes, files.level[0].len);
    put(room, "level_01.awdb", "", 0);
    EXPECT(awari_map(room, 24, &some, &fault) == AWARI_OK && some.count == 2);
    awari_entry entry;
    EXPECT(awari_probe_file(some.level[1].bytes, some.level[1].len, one, &entry) == AWARI_TRUNCATED);
    awari_unmap(&some);
    EXPECT(awari_open(room, 24, &handle, &fault) == AWARI_FILE && fault.level == 1 && fault.inner == AWARI_TRUNCATED);
    EXPECT(is_closed(&handle) && awari_open(room, 0, &handle, &fault) == AWARI_OK && awari_levels(&handle) == 1);
    awari_close(&handle);
    snprintf(path, sizeof path, "%s/level_01.awdb", room);
    if (remove(path) || mkdir(path, 0700)) exit(2);
    EXPECT(awari_open(room, 24, &handle, &fault) == AWARI_OPEN && fault.level == 1 && fault.inner == 0);
    EXPECT(awari_map(room, 24, &some, NULL) == AWARI_OPEN && some.count == 0);
    if (remove(path) || symlink(path, path)) exit(2); /* a file that does not open is not one that is not there */
    EXPECT(awari_open(room, 24, &handle, &fault) == AWARI_OPEN && fault.level == 1 && is_closed(&handle));
    if (remove(path) || mkfifo(path, 0600)) exit(2);
    EXPECT(awari_open(room, 24, &handle, NULL) == AWARI_OPEN && is_closed(&handle));
    if (remove(path)) exit(2);
}

/* How many descriptors are open. */
static int opened(void) {
    int count = 0;
    for (int descriptor = 0; descriptor < 256; descriptor++) count += fcntl(descriptor, F_GETFD) != -1;
    return count;
}

/* How many files of levels are mapped. */
static int mapped(void) {
    char line[4096];
    int count = 0;
    FILE *maps = fopen("/proc/self/maps", "r");
    while (maps && fgets(line, sizeof line, maps)) count += strstr(line, ".awdb") != NULL;
    if (maps) fclose(maps);
    return count;
}

/* Files are mapped once each, and nothing of them is left open or mapped. */
static void try_given_back(const char *folder) {
    awari_handle handle = AWARI_CLOSED;
    awari_files some;
    int before = opened(), own = mapped();
    EXPECT(awari_map(folder, 2, &some, NULL) == AWARI_OK && opened() == before && mapped() == own + 3);
    awari_unmap(&some);
    EXPECT(mapped() == own && some.count == 0);
    EXPECT(awari_open(folder, 2, &handle, NULL) == AWARI_OK && opened() == before && mapped() == own);
    awari_close(&handle);
}

int main(int argc, char **argv) {
    alarm(PATIENCE);
    if (argc != 3 || awari_map(argv[1], 24, &files, NULL) || files.count < 3) return 2;
    try_sentences();
    try_boards();
    try_told(argv[1]);
    try_closed();
    try_levels(argv[1]);
    try_built();
#ifndef AWARI_PORTABLE
    try_parts();
    try_unread();
#endif
    try_mapped();
    int before = opened(), own = mapped();
    try_folders(argv[2]);
    EXPECT(opened() == before && mapped() == own);
    try_given_back(argv[1]);
    awari_unmap(&files);
    EXPECT(mapped() == 0);
    return wrong;
}
