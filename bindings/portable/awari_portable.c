/* The library of awari.h for any C compiler: the module bindings/awari.wasm as C, which is module.c, and the calls of
 * awari.h over it.
 *
 *     cc -O2 -c -Ibindings bindings/portable/awari_portable.c
 *
 * Each handle has a memory of its own, of at most 4 GB, so that calls on two handles never meet. What a call is given
 * is copied in, and what it tells is copied out. So `awari_share` copies the levels. The bytes of mapped files stay
 * where they are: of them the entries that are asked for are read.
 *
 * A call without a handle borrows an instance from a list, which a lock guards for a moment. There are as many as
 * calls were ever made at once, of 1.2 MB each. With -DAWARI_ONE_THREAD there is no lock. */
#include "awari.h"
#include "machine.h"

#ifdef __GNUC__
#pragma GCC diagnostic ignored "-Wunused-function"
#pragma GCC diagnostic push
#pragma GCC diagnostic ignored "-Wunused-label"
#pragma GCC diagnostic ignored "-Wunused-parameter"
#endif
#include "module.c"
#ifdef __GNUC__
#pragma GCC diagnostic pop
#endif

#if defined AWARI_ONE_THREAD
#define LOCK() ((void)0)
#define UNLOCK() ((void)0)
#elif defined _WIN32
#define WIN32_LEAN_AND_MEAN
#include <windows.h>
static SRWLOCK lock = SRWLOCK_INIT;
#define LOCK() AcquireSRWLockExclusive(&lock)
#define UNLOCK() ReleaseSRWLockExclusive(&lock)
#else
#include <pthread.h>
static pthread_mutex_t lock = PTHREAD_MUTEX_INITIALIZER;
#define LOCK() pthread_mutex_lock(&lock)
#define UNLOCK() pthread_mutex_unlock(&lock)
#endif

/* Where things lie in the room that an instance has for them. Of the two handles one is closed. */
enum {
    AT_SECOND = 16,
    AT_PITS = 32,
    AT_AFTER = 48,
    AT_OUT = 64,
    AT_BELOW = 128,
    AT_TEXT = 192,
    AT_LINE = 256,
    AT_BOARDS = 1280,
    AT_ENTRIES = 2048,
    ROOM_BYTES = 2560
};
/* how many bytes of a text, moves of a line, and boards are copied at once */
enum { TEXT_BYTES = 64, LINE_MOVES = 1024, SOME_BOARDS = 64 };
enum { HEADER_BYTES = 52, ENTRY_BYTES = 6, DIGEST_BYTES = 32 };

/* ---- instances of the module */

struct levels {
    M module;
    u64 room, handle;
    struct levels *next; /* of the list */
};

static bool start(struct levels *it) {
    init_globals(&it->module);
    if (grow_memory(&it->module, FIRST_PAGES) == 0xffffffffu) return false;
    init_memories(&it->module);
    it->room = it->handle = w2c_page_alloc(&it->module, ROOM_BYTES);
    memory_fill(&it->module, (u32)it->room, 0, ROOM_BYTES);
    return true;
}

static void drop(struct levels *it) {
    free(it->module.data);
    free(it);
}

static struct levels *new_levels(void) {
    struct levels *it = (struct levels *)calloc(1, sizeof *it);
    if (!it || start(it)) return it;
    drop(it);
    return NULL;
}

/* The first of the list takes no memory, and is always there. */
static u8 first_memory[FIRST_PAGES * PAGE];
static struct levels first, *spare;

static struct levels *borrow(void) {
    struct levels *it = NULL;
    while (!it) {
        LOCK();
        if (!first.room) {
            first.module.data = first_memory;
            first.module.room = sizeof first_memory;
            first.module.is_fixed = true;
            if (!start(&first)) abort();
            spare = &first;
        }
        it = spare;
        if (it) spare = it->next;
        UNLOCK();
        if (!it) it = new_levels();
    }
    return it;
}

static void give_back(struct levels *it) {
    LOCK();
    it->next = spare;
    spare = it;
    UNLOCK();
}

/* The instance of a handle, or one without levels. */
static struct levels *levels_of(const awari_handle *handle) {
    return handle->open ? (struct levels *)handle->at : borrow();
}

/* The answer, once the instance is left. */
static uint8_t leave(const awari_handle *handle, struct levels *it, u32 answer) {
    if (!handle->open) give_back(it);
    return (uint8_t)answer;
}

/* Opens a handle that is closed. */
static struct levels *opened(awari_handle *handle) {
    if (!handle->open) {
        handle->at = new_levels();
        handle->open = handle->at != NULL;
    }
    return (struct levels *)handle->at;
}

static u8 *place(const struct levels *it, u32 what, u32 count) { return bytes_at(&it->module, it->room + what, count); }

static u64 lay(const struct levels *it, u32 where, const void *bytes, u32 count) {
    memcpy(place(it, where, count), bytes, count);
    return it->room + where;
}

/* ---- what the module tells */

static awari_entry entry_at(const u8 *from) {
    awari_entry entry;
    entry.value = (int8_t)from[0];
    entry.plan = from[1];
    entry.distance = (uint32_t)read_number(from + 4, 4);
    return entry;
}

static void tell_moves(const u8 *from, awari_move out[6]) {
    for (int pit = 0; pit < 6; pit++, from += 8) {
        out[pit].legal = from[0] != 0;
        out[pit].captures = from[1];
        out[pit].value = (int16_t)read_number(from + 2, 2);
        out[pit].distance = (uint32_t)read_number(from + 4, 4);
    }
}

/* ---- boards and the rules */

uint32_t awari_version(void) {
    struct levels *it = borrow();
    uint32_t version = w2c_awari_version(&it->module);
    give_back(it);
    return version;
}

/* Tells a text that an instance has lent. The first one has the same text at the same place, and stays. */
static void tell_text(struct levels *it, awari_sentence *text) {
    text->text = (const char *)first_memory + read_number(place(it, AT_OUT, 8), 8);
    text->size = (size_t)read_number(place(it, AT_OUT + 8, 8), 8);
    give_back(it);
}

void awari_source_text(awari_sentence *id) {
    struct levels *it = borrow();
    w2c_awari_source_text(&it->module, it->room + AT_OUT);
    tell_text(it, id);
}

void awari_text_of(uint8_t answer, awari_sentence *sentence) {
    struct levels *it = borrow();
    w2c_awari_text_of(&it->module, answer, it->room + AT_OUT);
    tell_text(it, sentence);
}

/* Copies a text, and of a field of it three bytes at most: with more it is no number either. No more fields are
 * copied than show that there are too many. */
static u32 copy_text(u8 to[TEXT_BYTES], const char *text, size_t len) {
    u32 count = 0, fields = 0, field = 0;
    for (size_t i = 0; i < len && fields <= 12; i++) {
        bool parts = text[i] == ',' || text[i] == '/';
        field = parts ? 0 : field + 1;
        fields += parts;
        if (field <= 3) to[count++] = (u8)text[i];
    }
    return count;
}

uint8_t awari_parse(const char *text, size_t len, uint8_t pits[12]) {
    struct levels *it = borrow();
    u32 count = copy_text(place(it, AT_TEXT, TEXT_BYTES), text, len);
    u32 answer = w2c_awari_parse(&it->module, it->room + AT_TEXT, count, it->room + AT_OUT);
    if (!answer) memcpy(pits, place(it, AT_OUT, 12), 12);
    give_back(it);
    return (uint8_t)answer;
}

uint8_t awari_legal(const uint8_t pits[12]) {
    struct levels *it = borrow();
    u32 legal = w2c_awari_legal(&it->module, lay(it, AT_PITS, pits, 12));
    give_back(it);
    return (uint8_t)legal;
}

uint8_t awari_play(const uint8_t pits[12], uint8_t pit, uint8_t out[12], uint8_t *captures) {
    struct levels *it = borrow();
    u32 answer = w2c_awari_play(&it->module, lay(it, AT_PITS, pits, 12), pit, it->room + AT_OUT, it->room + AT_OUT + 12);
    if (!answer) {
        memcpy(out, place(it, AT_OUT, 12), 12);
        *captures = *place(it, AT_OUT + 12, 1);
    }
    give_back(it);
    return (uint8_t)answer;
}

uint32_t awari_size(uint8_t level) {
    struct levels *it = borrow();
    uint32_t size = w2c_awari_size(&it->module, level);
    give_back(it);
    return size;
}

uint8_t awari_rank(const uint8_t pits[12], uint8_t *level, uint32_t *rank) {
    struct levels *it = borrow();
    u32 answer = w2c_awari_rank(&it->module, lay(it, AT_PITS, pits, 12), it->room + AT_OUT, it->room + AT_OUT + 4);
    if (!answer) {
        *level = *place(it, AT_OUT, 1);
        *rank = (uint32_t)read_number(place(it, AT_OUT + 4, 4), 4);
    }
    give_back(it);
    return (uint8_t)answer;
}

uint8_t awari_board(uint8_t level, uint32_t rank, uint8_t pits[12]) {
    struct levels *it = borrow();
    u32 answer = w2c_awari_board(&it->module, level, rank, it->room + AT_OUT);
    if (!answer) memcpy(pits, place(it, AT_OUT, 12), 12);
    give_back(it);
    return (uint8_t)answer;
}

/* ---- levels */

static uint8_t tell_fault(const struct levels *it, u32 answer, awari_fault *fault) {
    const u8 *from = place(it, AT_OUT, 8);
    if (!answer) return AWARI_OK;
    fault->level = from[0];
    fault->inner = from[1];
    fault->rule = from[2];
    fault->rank = (uint32_t)read_number(from + 4, 4);
    return (uint8_t)answer;
}

uint8_t awari_add_level(awari_handle *handle, const uint8_t *bytes, size_t len, awari_fault *fault) {
    bool was = handle->open;
    struct levels *it = opened(handle);
    u64 at = it ? w2c_page_alloc(&it->module, len) : 0;
    uint8_t answer = AWARI_MEMORY;
    if (at) {
        memcpy(bytes_at(&it->module, at, len), bytes, len);
        answer = tell_fault(it, w2c_awari_add_level(&it->module, it->handle, at, len, it->room + AT_OUT), fault);
        w2c_page_free(&it->module, at);
    } else
        memset(fault, 0, sizeof *fault);
    if (answer && !was) awari_close(handle);
    return answer;
}

uint8_t awari_levels(awari_handle *handle) {
    struct levels *it = levels_of(handle);
    return leave(handle, it, w2c_awari_levels(&it->module, it->handle));
}

uint8_t awari_probe(awari_handle *handle, const uint8_t pits[12], awari_entry *out) {
    struct levels *it = levels_of(handle);
    u32 answer = w2c_awari_probe(&it->module, it->handle, lay(it, AT_PITS, pits, 12), it->room + AT_OUT);
    if (!answer) *out = entry_at(place(it, AT_OUT, 8));
    return leave(handle, it, answer);
}

uint8_t awari_probe_value(awari_handle *handle, const uint8_t pits[12], int8_t *value) {
    struct levels *it = levels_of(handle);
    u32 answer = w2c_awari_probe_value(&it->module, it->handle, lay(it, AT_PITS, pits, 12), it->room + AT_OUT);
    if (!answer) *value = (int8_t)*place(it, AT_OUT, 1);
    return leave(handle, it, answer);
}

uint8_t awari_probe_moves(awari_handle *handle, const uint8_t pits[12], awari_move out[6]) {
    struct levels *it = levels_of(handle);
    u32 answer = w2c_awari_probe_moves(&it->module, it->handle, lay(it, AT_PITS, pits, 12), it->room + AT_OUT);
    if (!answer) tell_moves(place(it, AT_OUT, 48), out);
    return leave(handle, it, answer);
}

/* At most SOME_BOARDS of many boards, with room for as many entries; how many are told is added. */
static u32 probe_some(struct levels *it, const uint8_t *boards, u32 count, awari_entry *out, u32 room, size_t *told) {
    u64 from = lay(it, AT_BOARDS, boards, 12 * count);
    u32 answer = w2c_awari_probe_many(&it->module, it->handle, from, count, it->room + AT_ENTRIES, room, it->room + AT_OUT);
    u32 some = (u32)read_number(place(it, AT_OUT, 8), 8);
    for (u32 i = 0; i < some; i++) out[i] = entry_at(place(it, AT_ENTRIES + 8 * i, 8));
    *told += some;
    return answer;
}

uint8_t awari_probe_many(awari_handle *handle, const uint8_t *boards, size_t count, awari_entry *out, size_t room,
                         size_t *told) {
    struct levels *it = levels_of(handle);
    u32 answer = AWARI_OK;
    *told = 0;
    for (size_t at = 0; at < count && !answer; at += SOME_BOARDS) {
        size_t some = count - at < SOME_BOARDS ? count - at : SOME_BOARDS, left = room - *told;
        answer = probe_some(it, boards + 12 * at, (u32)some, out + *told, (u32)(left < some ? left : some), told);
    }
    return leave(handle, it, answer);
}

typedef u32 line_call(M *, u64, u64, u64, u64, u64);

/* Where the moves of a line go, and how many they are. */
struct line {
    uint8_t *out;
    size_t room, *moves;
};

/* A line with more moves than are copied at once, which it has room for. */
static u32 tell_long(struct levels *it, line_call *call, u64 room, uint8_t *out) {
    u64 at = w2c_page_alloc(&it->module, room);
    if (!at) return AWARI_MEMORY;
    u32 answer = call(&it->module, it->handle, it->room + AT_PITS, at, room, it->room + AT_OUT);
    if (!answer) memcpy(out, bytes_at(&it->module, at, room), (size_t)room);
    w2c_page_free(&it->module, at);
    return answer;
}

static uint8_t tell_line(awari_handle *handle, line_call *call, const uint8_t pits[12], struct line line) {
    struct levels *it = levels_of(handle);
    u64 some = line.room < LINE_MOVES ? line.room : LINE_MOVES;
    u32 answer = call(&it->module, it->handle, lay(it, AT_PITS, pits, 12), it->room + AT_LINE, some, it->room + AT_OUT);
    if (answer) return leave(handle, it, answer);
    u64 moves = read_number(place(it, AT_OUT, 8), 8), told = moves < line.room ? moves : line.room;
    if (told > some)
        answer = tell_long(it, call, told, line.out);
    else
        memcpy(line.out, place(it, AT_LINE, LINE_MOVES), (size_t)told);
    if (!answer) *line.moves = (size_t)moves;
    return leave(handle, it, answer);
}

uint8_t awari_line(awari_handle *handle, const uint8_t pits[12], uint8_t *out, size_t room, size_t *moves) {
    struct line line = {out, room, moves};
    return tell_line(handle, w2c_awari_line, pits, line);
}

uint8_t awari_longest_line(awari_handle *handle, const uint8_t pits[12], uint8_t *out, size_t room, size_t *moves) {
    struct line line = {out, room, moves};
    return tell_line(handle, w2c_awari_longest_line, pits, line);
}

uint8_t awari_counts(awari_handle *handle, uint8_t level, awari_level_counts *out) {
    struct levels *it = levels_of(handle);
    u32 answer = w2c_awari_counts(&it->module, it->handle, level, it->room + AT_OUT);
    if (!answer) {
        out->won = (uint32_t)read_number(place(it, AT_OUT, 4), 4);
        out->even = (uint32_t)read_number(place(it, AT_OUT + 4, 4), 4);
        out->lost = (uint32_t)read_number(place(it, AT_OUT + 8, 4), 4);
        out->limit = (uint32_t)read_number(place(it, AT_OUT + 12, 4), 4);
    }
    return leave(handle, it, answer);
}

/* Lets the other of the two handles of an instance have its levels, and closes the one that had them. So a level
 * that was begun is given up. */
static bool keep_levels(struct levels *it) {
    u64 other = it->handle == it->room + AT_SECOND ? it->room : it->room + AT_SECOND;
    bool shares = !w2c_awari_share_with(&it->module, it->handle, other);
    w2c_awari_close(&it->module, it->handle);
    it->handle = other;
    return shares;
}

static struct levels *copied(const struct levels *from) {
    struct levels *it = (struct levels *)malloc(sizeof *it);
    if (!it) return NULL;
    *it = *from;
    it->module.room = it->module.size;
    it->module.data = (u8 *)malloc((size_t)it->module.size);
    if (it->module.data) memcpy(it->module.data, from->module.data, (size_t)it->module.size);
    if (it->module.data && keep_levels(it)) return it;
    drop(it);
    return NULL;
}

uint8_t awari_share_with(awari_handle *from, awari_handle *to) {
    awari_close(to);
    if (!awari_levels(from)) return AWARI_OK;
    to->at = copied((const struct levels *)from->at);
    to->open = to->at != NULL;
    return to->open ? (uint8_t)AWARI_OK : (uint8_t)AWARI_MEMORY;
}

void awari_close(awari_handle *handle) {
    if (handle->open) drop((struct levels *)handle->at);
    handle->at = NULL;
    handle->open = false;
}

/* ---- the next level */

uint8_t awari_begin(awari_handle *handle) {
    bool was = handle->open;
    struct levels *it = opened(handle);
    u32 answer = it ? w2c_awari_begin(&it->module, it->handle) : (u32)AWARI_MEMORY_OF_LEVEL;
    if (answer && !was) awari_close(handle);
    return (uint8_t)answer;
}

uint8_t awari_spread(awari_handle *handle, size_t boards, awari_draft *out) {
    struct levels *it = levels_of(handle);
    u32 answer = w2c_awari_spread(&it->module, it->handle, boards, it->room + AT_OUT);
    if (!answer) {
        out->boards = read_number(place(it, AT_OUT, 8), 8);
        out->gain = *place(it, AT_OUT + 8, 1);
        out->settled = *place(it, AT_OUT + 9, 1) != 0;
    }
    return leave(handle, it, answer);
}

/* Finishes a level whose gains are all closed, by a copy of its file. */
static u32 finish(struct levels *it, uint8_t *file, size_t len) {
    u64 at = w2c_page_alloc(&it->module, len);
    if (!at) {
        keep_levels(it);
        return AWARI_MEMORY_OF_LEVEL;
    }
    u32 answer = w2c_awari_finish(&it->module, it->handle, at, len);
    if (!answer) memcpy(file, bytes_at(&it->module, at, len), len);
    w2c_page_free(&it->module, at);
    return answer;
}

uint8_t awari_finish(awari_handle *handle, uint8_t *file, size_t len) {
    struct levels *it = levels_of(handle);
    uint8_t level = (uint8_t)w2c_awari_levels(&it->module, it->handle);
    /* of no length it is refused, and no memory is taken */
    u32 answer = w2c_awari_finish(&it->module, it->handle, it->room + AT_OUT, 0);
    if (answer == AWARI_WRITE && len == awari_file_len(level)) answer = finish(it, file, len);
    return leave(handle, it, answer);
}

/* ---- the bytes of files */

/* What a file of so many bytes answers for a level: 0 if it is as long as that level's. */
static u32 judge_length(struct levels *it, size_t len, u8 level) {
    if (len == HEADER_BYTES + ENTRY_BYTES * (u64)w2c_awari_size(&it->module, level) + DIGEST_BYTES) return AWARI_OK;
    /* nothing is read then, so any place does */
    w2c_awari_board(&it->module, level, 0, it->room + AT_OUT);
    return w2c_awari_probe_file(&it->module, it->room, len, it->room + AT_OUT, it->room + AT_OUT + 16);
}

static awari_entry entry_of(const uint8_t *bytes, u64 rank) {
    const uint8_t *from = bytes + HEADER_BYTES + ENTRY_BYTES * (size_t)rank;
    awari_entry entry;
    entry.value = (int8_t)from[0];
    entry.plan = from[1];
    entry.distance = (uint32_t)from[2] << 24 | (uint32_t)from[3] << 16 | (uint32_t)from[4] << 8 | from[5];
    return entry;
}

/* The level and the rank of a board that lies in the instance. */
static u32 find(struct levels *it, u32 board, u8 *level, u32 *rank) {
    u32 answer = w2c_awari_rank(&it->module, it->room + board, it->room + AT_OUT, it->room + AT_OUT + 4);
    *level = *place(it, AT_OUT, 1);
    *rank = (u32)read_number(place(it, AT_OUT + 4, 4), 4);
    return answer;
}

uint8_t awari_probe_file(const uint8_t *bytes, size_t len, const uint8_t pits[12], awari_entry *out) {
    struct levels *it = borrow();
    u8 level;
    u32 rank, answer;
    lay(it, AT_PITS, pits, 12);
    answer = find(it, AT_PITS, &level, &rank);
    if (!answer) answer = judge_length(it, len, level);
    if (!answer) *out = entry_of(bytes, rank);
    give_back(it);
    return (uint8_t)answer;
}

/* What a pit of the board is worth by files that are as long as they should be. */
static awari_move worth_of(struct levels *it, const awari_file *files, u8 pit) {
    awari_move move = {false, 0, 0, 0};
    u8 level;
    u32 rank;
    u64 captures = it->room + AT_TEXT;
    if (w2c_awari_play(&it->module, it->room + AT_PITS, pit, it->room + AT_AFTER, captures)) return move;
    find(it, AT_AFTER, &level, &rank);
    awari_entry entry = entry_of(files[level].bytes, rank);
    move.legal = true;
    move.captures = *place(it, AT_TEXT, 1);
    move.value = (int16_t)(move.captures - entry.value);
    /* A capture takes one ply, and a quiet move one more than what comes. Of no gain there is no distance. */
    if (move.value) move.distance = move.captures ? 1 : entry.distance == UINT32_MAX ? UINT32_MAX : entry.distance + 1;
    return move;
}

uint8_t awari_probe_moves_files(const awari_file *files, size_t count, const uint8_t pits[12], awari_move out[6]) {
    struct levels *it = borrow();
    u8 level;
    u32 rank, answer;
    lay(it, AT_PITS, pits, 12);
    answer = find(it, AT_PITS, &level, &rank);
    if (!answer && level >= count) answer = AWARI_NOT_YET;
    for (u8 below = 0; !answer && below <= level; below++) answer = judge_length(it, files[below].len, below);
    for (u8 pit = 0; !answer && pit < 6; pit++) out[pit] = worth_of(it, files, pit);
    give_back(it);
    return (uint8_t)answer;
}

uint8_t awari_check_file(const uint8_t *bytes, size_t len, const uint8_t below[32], uint8_t digest[32]) {
    struct levels *it = new_levels();
    u64 at = it ? w2c_page_alloc(&it->module, len) : 0;
    u32 answer = AWARI_MEMORY;
    if (at) {
        memcpy(bytes_at(&it->module, at, len), bytes, len);
        answer = w2c_awari_check_file(&it->module, at, len, lay(it, AT_BELOW, below, 32), it->room + AT_OUT);
        if (!answer) memcpy(digest, place(it, AT_OUT, 32), 32);
    }
    if (it) drop(it);
    return (uint8_t)answer;
}
