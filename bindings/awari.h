/* Awari's endgame levels in a program. Link with libawari.a or libawari.so, which `bindings/make` builds, or on any
 * machine with bindings/portable. This header is for C99 and C++11, and later.
 *
 * What an engine calls: awari_open once, awari_share for each thread, awari_probe_value in the search,
 * awari_probe_moves at the root, and awari_close. The module for pages has all calls but those under "Folders"
 * and under "in parts".
 *
 * A call answers AWARI_OK, which is 0, or why it refuses. After a refusal nothing has changed but what is
 * said here. A board is the stones of its twelve pits, the mover's six first. A pit is 0 to 5.
 *
 * What is proved holds if the caller keeps this:
 * - A pointer points to what its type says, and one with a length to as many of them. None may be NULL but
 *   where it is said. Nobody writes there during the call. What is written to is apart from all else that
 *   the call is given.
 * - A handle begins as AWARI_CLOSED. The caller never reads, writes, copies or moves it.
 *
 * Threads: nothing is global, and no call of the library waits, reads a file or starts a thread. Calls may run at once if
 * no two of them have the same handle. Not even two look-ups may, since each takes the levels out of the
 * handle and puts them back. `awari_share` makes a handle for each thread, and copies no level (but in
 * bindings/portable it does); such handles may be used at once, and closed in any order. In mapped files any number
 * of threads may look up at once, without a handle.
 *
 * A mapped file that is cut off meanwhile ends the process by SIGBUS. `awari build` never cuts one off: it puts a
 * new file in the place of the old one.
 *
 * Memory comes from `malloc` and goes back to `free`. No call is for a signal handler.
 */
#ifndef AWARI_H
#define AWARI_H
#include <stdbool.h>
#include <stddef.h>
#include <stdint.h>
#ifdef __cplusplus
extern "C" {
#endif

/* The version of this header: 0.1.0 is 000100. */
#define AWARI_VERSION 100

/* The version of the library that is linked. */
uint32_t awari_version(void);

/* A text, with a zero byte behind it. It is never freed. */
typedef struct {
    const char *text;
    size_t size; /* with the zero byte */
} awari_sentence;

/* Lends the digest of the sources that the library was made of, in hexadecimal, as release/MANIFEST has it. */
void awari_source_text(awari_sentence *id);

static inline const char *awari_source_id(void) {
    awari_sentence id;
    awari_source_text(&id);
    return id.text;
}

/* ---- Answers; docs/FORMATS.md says when each comes */

enum {
    AWARI_OK = 0,
    AWARI_SHAPE = 1,
    AWARI_NUMBER = 2,
    AWARI_TOO_MANY = 3, /* more than 48 stones */
    AWARI_NO_PIT = 4,
    AWARI_EMPTY_PIT = 5,
    AWARI_MUST_FEED = 6,
    AWARI_ENDED = 7,
    AWARI_WRONG_LEVEL = 20,
    AWARI_WRONG_SIZE = 21,
    AWARI_REFUSED = 22, /* a board breaks a rule */
    AWARI_TOO_HIGH = 51, /* all levels are there */
    AWARI_MEMORY_OF_LEVEL = 53,
    AWARI_NOT_YET = 59, /* the board's level is not there */
    AWARI_TRUNCATED = 60,
    AWARI_MAGIC = 61,
    AWARI_VERSION_UNKNOWN = 62,
    AWARI_LEVEL_OUT_OF_RANGE = 63,
    AWARI_COUNT = 64,
    AWARI_ENTRY_FORM = 65,
    AWARI_DIGEST = 66,
    AWARI_TRAILING = 67,
    AWARI_READ = 68,
    AWARI_WRITE = 70,
    AWARI_BELOW = 80,
    AWARI_FILE = 81,
    AWARI_OPEN = 82,
    AWARI_VERIFY = 83,
    AWARI_MEMORY = 84,
    AWARI_OLD = 86,
    AWARI_NO_RANK = 93
};

/* Lends the sentence for a person that belongs to a number. Every number has one. */
void awari_text_of(uint8_t answer, awari_sentence *sentence);

static inline const char *awari_text(uint8_t answer) {
    awari_sentence sentence;
    awari_text_of(answer, &sentence);
    return sentence.text;
}

/* ---- Boards and the rules, with no level */

/* Reads a board, as "0,0,0,0,0,12/4,0,0,0,0,0": 0, 1, 2 or 3. */
uint8_t awari_parse(const char *text, size_t len, uint8_t pits[12]);

/* The pits that can be played, bit 0 for pit 0; none of a board of more than 48 stones. */
uint8_t awari_legal(const uint8_t pits[12]);

/* Plays a pit: 0, 3, or 4 to 7. The board that is left is as the other player sees it. */
uint8_t awari_play(const uint8_t pits[12], uint8_t pit, uint8_t out[12], uint8_t *captures);

/* How many boards a level has, 0 if it is above 24. */
uint32_t awari_size(uint8_t level);

/* The highest level that this library knows, which is 24. */
static inline uint8_t awari_highest(void) {
    uint8_t level = 0;
    while (awari_size((uint8_t)(level + 1))) level++;
    return level;
}

/* The level of a board, which is its stones, and its rank there: 0, 3, or 59 for more than 24 stones. */
uint8_t awari_rank(const uint8_t pits[12], uint8_t *level, uint32_t *rank);

/* The board of a rank: 0, 59 if the level is above 24, or 93 if it has fewer boards. */
uint8_t awari_board(uint8_t level, uint32_t rank, uint8_t pits[12]);

/* ---- Levels in memory, each verified before it is kept: what they say is the truth */

typedef struct {
    void *at;
    bool open;
} awari_handle;
#define AWARI_CLOSED {NULL, false}

/* What the levels say of a board. */
typedef struct {
    int8_t value;      /* what the mover can still gain, in stones */
    uint8_t plan;      /* the pit to play; AWARI_NO_PLAN if the play has ended */
    uint32_t distance; /* the plies within which a capture or the end comes; 0 if the value is 0 */
} awari_entry;
#define AWARI_NO_PLAN 255

/* What they say of a pit. */
typedef struct {
    bool legal;        /* if not, the rest is 0 */
    uint8_t captures;  /* stones */
    int16_t value;     /* what the mover gains by it, in stones */
    uint32_t distance; /* as above, by this move; if more than 32 bits hold, the greatest number */
} awari_move;

/* What is wrong with a file, beside the answer. */
typedef struct {
    uint8_t level; /* that it was to be of; with 84 it is 0 */
    uint8_t inner; /* with 81: 60 to 68; with 83: 20 to 22; else 0 */
    uint8_t rule;  /* with 22: 1 to 7, for V1 to V7; else 0 */
    uint32_t rank; /* with 22: of the board that breaks it; else 0 */
} awari_fault;

/* Puts the next level on, level 0 first, if these bytes are its file and it is right. Else 80, 81, 83, 84
 * or 86, with more in `fault`; a closed handle is still closed then. It takes three bytes a board. The
 * caller's bytes are free afterwards. A level that was begun or read is given up. */
uint8_t awari_add_level(awari_handle *handle, const uint8_t *bytes, size_t len, awari_fault *fault);

/* How many levels there are. */
uint8_t awari_levels(awari_handle *handle);

/* What the levels say of a board: 0, 3, or 59 if there is no such level. Takes no memory. */
uint8_t awari_probe(awari_handle *handle, const uint8_t pits[12], awari_entry *out);

/* The value alone, which is less to read: 0, 3 or 59. Takes no memory. */
uint8_t awari_probe_value(awari_handle *handle, const uint8_t pits[12], int8_t *value);

/* What each pit is worth: 0, 3 or 59. Takes no memory. */
uint8_t awari_probe_moves(awari_handle *handle, const uint8_t pits[12], awari_move out[6]);

/* What they say of many boards, twelve bytes each, in order: 0, or what awari_probe answers for the first
 * that is refused. `told` is how many are told: those before that one, and `room` at most. Takes no
 * memory. */
uint8_t awari_probe_many(awari_handle *handle, const uint8_t *boards, size_t count, awari_entry *out, size_t room,
                         size_t *told);

/* The play by the plans of both sides, to its first outcome, which is the board's value: 0, 3, 59 or 84.
 * `moves` is how many moves it has. Of these, `room` at most are written. Takes a byte a move, for the time
 * of the call. */
uint8_t awari_line(awari_handle *handle, const uint8_t pits[12], uint8_t *out, size_t room, size_t *moves);

/* The play in which the side that gains goes by its plans, and the other holds out as long as it can: as many
 * moves as the distance. It answers, writes and takes memory as awari_line does. */
uint8_t awari_longest_line(awari_handle *handle, const uint8_t pits[12], uint8_t *out, size_t room, size_t *moves);

/* What the boards of a level are for the mover. */
typedef struct {
    uint32_t won, even, lost; /* how many boards */
    uint32_t limit;           /* the greatest distance */
} awari_level_counts;

/* What the boards of a level come to: 0, or 59 if it is not there. Takes no memory. */
uint8_t awari_counts(awari_handle *handle, uint8_t level, awari_level_counts *out);

/* Lets `to` have the levels of `from` too; no level is copied: 0, or 84 and `to` is closed. What `to` had
 * before is given back. A level that was begun stays with `from`. The two are apart. */
uint8_t awari_share_with(awari_handle *from, awari_handle *to);

/* The same, and nothing if the two are one. */
static inline uint8_t awari_share(awari_handle *from, awari_handle *to) {
    return from == to ? (uint8_t)AWARI_OK : awari_share_with(from, to);
}

/* Gives the levels back, if no other handle has them, and a level that was begun or read. The handle is closed then, and
 * may be used anew. */
void awari_close(awari_handle *handle);

/* ---- The next level's file, read, and then verified in parts, by as many threads as the caller has. Each has a
 * handle by awari_share, looks at some parts, and its handle is joined to the first; that one accepts the level.
 * Whatever they leave out is looked at then. awari_open_by does all this. */

enum { AWARI_PARTS = 1601 };

/* Reads the next level's file, in place of one that was read: 0, or 80, 81, 84 or 86 as awari_add_level. Nothing is
 * verified yet, and no board of it is answered. It takes three bytes a board. The caller's bytes are free afterwards.
 * awari_share lets the other handle have it too, and what was looked at of it. */
uint8_t awari_read_level(awari_handle *handle, const uint8_t *bytes, size_t len, awari_fault *fault);

/* Looks at a part, from 0 on, in any order and as often as one likes: 0, 59 if no file was read, or 93 if there are
 * fewer parts. Part 0 is the file's digest. Takes no memory. */
uint8_t awari_look(awari_handle *handle, uint32_t part);

/* Lets `to` know what `from` has looked at: 0, or 59 if not both have read a file of the same digest. The two are
 * apart, and have it by awari_share, one of the other or both of a third. Takes no memory. */
uint8_t awari_join_with(awari_handle *from, awari_handle *to);

/* The same, and nothing if the two are one. */
static inline uint8_t awari_join(awari_handle *from, awari_handle *to) {
    return from == to ? (uint8_t)AWARI_OK : awari_join_with(from, to);
}

/* Puts the level on that was read, if it is right. Else 81, 83 or 84, with more in `fault`, or 59 if none was read. Then
 * none is read, in each case; a level that was begun is given up with 0. While another handle has it too, it takes
 * three bytes a board more. */
uint8_t awari_accept(awari_handle *handle, awari_fault *fault);

/* ---- The next level, built a slice at a time: it is right, and has the lowest plans. Meanwhile the others answer */

/* How far it is. */
typedef struct {
    uint64_t boards; /* how many are settled and were spread */
    uint8_t gain;    /* that is open; one more than the level if none was opened yet */
    bool settled;    /* whether all gains are closed */
} awari_draft;

/* Begins the next level, level 0 first, in place of one that was begun: 0, 51, or 53 if memory runs out. It takes
 * nine bytes a board. */
uint8_t awari_begin(awari_handle *handle);

/* Builds a slice: spreads about this many boards of one distance, or opens the next gain: 0, 59 if no level was
 * begun, or 53, and the level is lost. A slice of 100,000 takes some 20 milliseconds. */
uint8_t awari_spread(awari_handle *handle, size_t boards, awari_draft *out);

/* How many bytes the file of a level has. */
static inline size_t awari_file_len(uint8_t level) { return 84 + 6 * (size_t)awari_size(level); }

/* Puts the level that was begun on, and writes its file: 0; 59 if none was begun or not all its gains are closed;
 * 70 if `len` is another length; or 53, and the level is lost. It takes three bytes a board, and a copy of the
 * file for the time of the call. */
uint8_t awari_finish(awari_handle *handle, uint8_t *file, size_t len);

/* The next level in one call, during which the others don't answer: 0, 51, 53 or 70. */
static inline uint8_t awari_build_next(awari_handle *handle, uint8_t *file, size_t len) {
    awari_draft draft = {0, 0, false};
    uint8_t answer = awari_begin(handle);
    while (!answer && !draft.settled) answer = awari_spread(handle, 100000, &draft);
    return answer ? answer : awari_finish(handle, file, len);
}

/* ---- The bytes of files, where they lie, as mapped: what they say is the truth if they were verified */

typedef struct {
    const uint8_t *bytes; /* not NULL, even if `len` is 0 */
    size_t len;
} awari_file;

/* What the file of the board's level says of it: 0, 3, 59 (more than 24 stones), 20 (as long as another
 * level's file), or 60 or 67 (shorter or longer than it should be). Takes no memory. */
uint8_t awari_probe_file(const uint8_t *bytes, size_t len, const uint8_t pits[12], awari_entry *out);

/* What each pit is worth by the files of levels 0, 1 and so on, `count` of them: 0, 3, 59 (more than 24
 * stones, or no such file), or 20, 60 or 67 of the first file up to the board's level that is not as long as
 * it should be. Takes no memory. */
uint8_t awari_probe_moves_files(const awari_file *files, size_t count, const uint8_t pits[12], awari_move out[6]);

/* Whether these bytes are a level's file over the one that ends in `below`, 32 zeros for level 0: 0, with
 * the digest in which they end, or 60 to 67, 80, 84 or 86. Form, digest and chain are judged, not the
 * entries. So levels are as right as those of whoever publishes the last digest. It takes three bytes a
 * board, for the time of the call. */
uint8_t awari_check_file(const uint8_t *bytes, size_t len, const uint8_t below[32], uint8_t digest[32]);

/* ---- Folders. These four are not in the library, but in open.c beside this header, for POSIX systems.
 * `fault` may be NULL here. */

typedef struct {
    awari_file level[25];
    size_t count;
} awari_files;

/* Opens the levels of a folder with at most `most` stones, up to the first whose file is not there, into a
 * closed handle: 0, or as awari_add_level and awari_map refuse, and the handle is closed then. It maps the
 * files meanwhile. */
uint8_t awari_open(const char *folder, unsigned most, awari_handle *handle, awari_fault *fault);

/* The same by this many threads, of which the caller's is one: 0 counts as 1, and more than 64 as 64. If a thread can't
 * be started, the others do its work. In bindings/portable it is always one. */
uint8_t awari_open_by(const char *folder, unsigned most, unsigned threads, awari_handle *handle, awari_fault *fault);

/* Maps the files of these levels: 0, 82 (the folder, or a file, does not open or is none; that of level 0 is not
 * there), or 81 with 68 (a file is not mapped), and none is mapped then. It verifies nothing. */
uint8_t awari_map(const char *folder, unsigned most, awari_files *files, awari_fault *fault);

/* Gives the mapped files back. */
void awari_unmap(awari_files *files);

#ifdef __cplusplus
}
#define AWARI_IS(what) static_assert(what, #what)
#elif defined __STDC_VERSION__ && __STDC_VERSION__ >= 201112L
#define AWARI_IS(what) _Static_assert(what, #what)
#else
#define AWARI_IS(what) extern char awari_is[(what) ? 1 : -1]
#endif
/* The library has the same structs. With pointers of 32 bits there is the one of bindings/portable alone. */
#if UINTPTR_MAX > 0xffffffff
AWARI_IS(sizeof(awari_handle) == 16 && offsetof(awari_handle, open) == 8);
AWARI_IS(sizeof(awari_file) == 16 && sizeof(awari_sentence) == 16);
AWARI_IS(sizeof(awari_draft) == 16 && offsetof(awari_draft, gain) == 8 && offsetof(awari_draft, settled) == 9);
#endif
AWARI_IS(sizeof(awari_entry) == 8 && offsetof(awari_entry, plan) == 1 && offsetof(awari_entry, distance) == 4);
AWARI_IS(sizeof(awari_move) == 8 && offsetof(awari_move, captures) == 1 && offsetof(awari_move, value) == 2);
AWARI_IS(offsetof(awari_move, distance) == 4);
AWARI_IS(sizeof(awari_fault) == 8 && offsetof(awari_fault, inner) == 1 && offsetof(awari_fault, rule) == 2);
AWARI_IS(offsetof(awari_fault, rank) == 4);
AWARI_IS(sizeof(awari_level_counts) == 16 && offsetof(awari_level_counts, limit) == 12);
#undef AWARI_IS
#endif
