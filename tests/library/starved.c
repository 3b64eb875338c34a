/* starved FOLDER: each growth of memory is refused in its turn, in each call that takes any. Such a call answers
 * 84, and changes nothing. The other calls ask for none. Then the mapping of each file is refused, and what open.c
 * asks the system for is looked at. Link with --wrap=malloc, realloc, mmap, open and openat. */
#define _POSIX_C_SOURCE 200809L
#include "awari.h"
#include <fcntl.h>
#include <stdio.h>
#include <string.h>
#include <sys/mman.h>

void *__real_malloc(size_t size);
void *__real_realloc(void *block, size_t size);
void *__real_mmap(void *at, size_t len, int rights, int flags, int descriptor, off_t from);
int __real_open(const char *path, int flags);
int __real_openat(int folder, const char *path, int flags);

static int wrong = 0;
#define EXPECT(what) ((what) ? (void)0 : (void)(wrong = 1, printf("line %d: %s\n", __LINE__, #what)))

/* How many more are given before one is refused; below 0 none is. */
static int given = -1, mapped = -1;

static int is_refused(void) { return given >= 0 && given-- == 0; }
void *__wrap_malloc(size_t size) { return is_refused() ? NULL : __real_malloc(size); }
void *__wrap_realloc(void *block, size_t size) { return is_refused() ? NULL : __real_realloc(block, size); }

/* Some file systems share no mapping. */
void *__wrap_mmap(void *at, size_t len, int rights, int flags, int descriptor, off_t from) {
    EXPECT(rights == PROT_READ && flags == MAP_PRIVATE && descriptor >= 0 && from == 0);
    return mapped >= 0 && mapped-- == 0 ? MAP_FAILED : __real_mmap(at, len, rights, flags, descriptor, from);
}

/* Another thread may start a program meanwhile, which has to have no part in it. */
int __wrap_open(const char *path, int flags) {
    EXPECT(flags & O_CLOEXEC);
    return __real_open(path, flags);
}
int __wrap_openat(int folder, const char *path, int flags) {
    EXPECT(flags & O_CLOEXEC);
    return __real_openat(folder, path, flags);
}

static awari_files files;
static const uint8_t board[12] = {1, 0, 0, 0, 0, 0, 0, 1, 0, 0, 0, 0};

static uint8_t add(awari_handle *handle, size_t level, awari_fault *fault) {
    return awari_add_level(handle, files.level[level].bytes, files.level[level].len, fault);
}

static uint8_t opened(awari_handle *handle, size_t levels) {
    awari_fault fault;
    for (size_t level = 0; level < levels; level++)
        if (add(handle, level, &fault)) return 1;
    return awari_levels(handle) != levels;
}

/* Whether the call that came was refused memory. No further one is. */
static int was_refused(void) {
    int refused = given < 0;
    given = -1;
    return refused;
}

/* Builds all of the level that was begun. */
static uint8_t spread(awari_handle *handle) {
    awari_draft draft = {0, 0, false};
    uint8_t answer = AWARI_OK;
    while (!answer && !draft.settled) answer = awari_spread(handle, 9, &draft);
    return answer;
}

/* The calls that build level 3, or level 0 in a closed handle, and a line, with the growth after `count` refused.
 * What was built is lost then, and the levels stay. */
static int starve_building(int count, awari_handle *handle, awari_handle *closed) {
    uint8_t file[2268], line[8], answer;
    size_t moves = 99;
    int any = 0, refused;
    given = count, answer = awari_longest_line(handle, board, line, sizeof line, &moves), any |= refused = was_refused();
    EXPECT(answer == (refused ? AWARI_MEMORY : AWARI_OK) && (moves == 99) == refused && awari_levels(handle) == 3);
    given = count, answer = awari_begin(closed), any |= refused = was_refused();
    EXPECT(answer == (refused ? AWARI_MEMORY_OF_LEVEL : AWARI_OK) && awari_levels(closed) == 0);
    given = count, answer = awari_begin(handle), any |= refused = was_refused();
    EXPECT(answer == (refused ? AWARI_MEMORY_OF_LEVEL : AWARI_OK));
    EXPECT(!awari_begin(handle));
    given = count, answer = spread(handle), any |= refused = was_refused();
    EXPECT(answer == (refused ? AWARI_MEMORY_OF_LEVEL : AWARI_OK));
    EXPECT(!awari_begin(handle) && !spread(handle));
    given = count, answer = awari_finish(handle, file, sizeof file), any |= refused = was_refused();
    EXPECT(answer == (refused ? AWARI_MEMORY_OF_LEVEL : AWARI_OK) && awari_levels(handle) == (refused ? 3 : 4));
    return any;
}

/* Each call with the growth after `count` refused; 0 once no call takes so many. */
static int starve(int count) {
    awari_handle handle = AWARI_CLOSED, other = AWARI_CLOSED;
    awari_fault fault;
    uint8_t below[32] = {0}, digest[32], line[8], answer;
    size_t moves = 99;
    int any = 0, refused;
    given = count, answer = add(&handle, 0, &fault), any |= refused = was_refused();
    EXPECT(answer == (refused ? AWARI_MEMORY : AWARI_OK) && handle.open == !refused && (!refused || fault.level == 0));
    awari_close(&handle);
    EXPECT(!opened(&handle, 2));
    given = count, answer = add(&handle, 2, &fault), any |= refused = was_refused();
    EXPECT(answer == (refused ? AWARI_MEMORY : AWARI_OK) && awari_levels(&handle) == (refused ? 2 : 3));
    awari_close(&handle);
    EXPECT(!opened(&handle, 3) && !opened(&other, 1));
    given = count, answer = awari_share(&handle, &other), any |= refused = was_refused();
    EXPECT(answer == (refused ? AWARI_MEMORY : AWARI_OK) && other.open == !refused && awari_levels(&handle) == 3);
    given = count, answer = awari_line(&handle, board, line, sizeof line, &moves), any |= refused = was_refused();
    EXPECT(answer == (refused ? AWARI_MEMORY : AWARI_OK) && (moves == 99) == refused && awari_levels(&handle) == 3);
    given = count, answer = awari_check_file(files.level[0].bytes, files.level[0].len, below, digest);
    any |= refused = was_refused();
    EXPECT(answer == (refused ? AWARI_MEMORY : AWARI_OK));
    awari_close(&other);
    any |= starve_building(count, &handle, &other);
    awari_close(&handle);
    awari_close(&other);
    return any;
}

/* What takes no memory, of a board that the levels have, and of those that they refuse. */
static void look_up(awari_handle *handle, const uint8_t pits[12], unsigned stones) {
    awari_entry entry;
    awari_move moves[6];
    awari_level_counts counts;
    int8_t value;
    size_t told;
    uint8_t due = stones > 48 ? AWARI_TOO_MANY : stones > 2 ? AWARI_NOT_YET : AWARI_OK;
    const awari_file *file = &files.level[stones > 2 ? 0 : stones];
    given = 0;
    EXPECT(awari_probe(handle, pits, &entry) == due && awari_probe_value(handle, pits, &value) == due);
    EXPECT(awari_probe_moves(handle, pits, moves) == due && awari_probe_many(handle, pits, 1, &entry, 1, &told) == due);
    EXPECT(awari_probe_file(file->bytes, file->len, pits, &entry) == due);
    EXPECT(awari_probe_file(file->bytes, file->len - 1, pits, &entry) != AWARI_OK);
    EXPECT(awari_probe_moves_files(files.level, files.count, pits, moves) == due);
    EXPECT(awari_counts(handle, (uint8_t)stones, &counts) == (stones > 2 ? AWARI_NOT_YET : AWARI_OK));
    EXPECT(given == 0);
    given = -1;
}

static void look_all_up(void) {
    static const uint8_t none[12] = {0}, stones_25[12] = {25}, stones_49[12] = {49};
    awari_handle handle = AWARI_CLOSED;
    EXPECT(!opened(&handle, 3));
    look_up(&handle, none, 0);
    look_up(&handle, board, 2);
    look_up(&handle, stones_25, 25);
    look_up(&handle, stones_49, 49);
    awari_close(&handle);
}

/* A mapping that is refused is told, and the files before it are given back. */
static void map_none(const char *folder) {
    for (int count = 0; count < 3; count++) {
        awari_files some;
        awari_fault fault = {9, 9, 9, 9};
        awari_handle handle = AWARI_CLOSED;
        mapped = count;
        EXPECT(awari_map(folder, 2, &some, &fault) == AWARI_FILE && some.count == 0);
        EXPECT(fault.level == count && fault.inner == AWARI_READ && fault.rule == 0 && fault.rank == 0);
        mapped = count;
        EXPECT(awari_open(folder, 2, &handle, NULL) == AWARI_FILE && !handle.open);
    }
    mapped = -1;
}

int main(int argc, char **argv) {
    int count = 0;
    if (argc != 2 || awari_map(argv[1], 2, &files, NULL) || files.count != 3) return 2;
    while (starve(count)) count++;
    EXPECT(count > 1);
    look_all_up();
    map_none(argv[1]);
    awari_unmap(&files);
    return wrong;
}
