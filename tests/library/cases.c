/* cases ROWS ROOM: asks each row of cases.rows, whose folders are in ROOM. A board is asked by its word and by its
 * pits, by each call that tells of it. It prints each row whose answer is another one, and then how many passed
 * and how many failed. */
#define _POSIX_C_SOURCE 200809L
#include "awari.h"
#include <ctype.h>
#include <stdarg.h>
#include <stdio.h>
#include <stdlib.h>
#include <string.h>
#include <unistd.h>

/* A call that waits for ever ends the test. */
enum { ROOM = 4096, PATIENCE = 300 };

static awari_handle handle = AWARI_CLOSED;
static awari_files files;
static bool is_verified, is_mapped;
static const char *room;
/* the folder that is open */
static char place[64];
/* what this row is told, and the words of it */
static char told[ROOM], *word[4];
static int words;

static void say(const char *format, ...) {
    size_t end = strlen(told);
    va_list values;
    va_start(values, format);
    vsnprintf(told + end, sizeof told - end, format, values);
    va_end(values);
}

/* Whether this is a refusal, which is said then. A level stands with those of a file. */
static bool refused(uint8_t answer, const awari_fault *fault) {
    if (!answer) return false;
    say("%d", answer);
    if (fault && answer >= AWARI_BELOW && answer != AWARI_MEMORY) say(" level %d", fault->level);
    if (fault && fault->inner) say(": %d", fault->inner);
    if (fault && fault->rule) say(" rank %u rule V%d", fault->rank, fault->rule);
    return true;
}

/* Says so if two calls differ in what they tell. */
static void agree(bool are_same, const char *what) {
    if (!are_same) say(" but %s differs", what);
}

/* ---- folders */

/* A fault in which something stands already. */
static awari_fault any_fault(void) {
    awari_fault fault;
    memset(&fault, 9, sizeof fault);
    return fault;
}

static uint8_t open_levels(const char *path, unsigned most, awari_handle *to) {
    awari_handle again = AWARI_CLOSED;
    awari_fault fault = any_fault();
    uint8_t answer = awari_open(path, most, to, &fault);
    agree(awari_open(path, most, &again, NULL) == answer, "a fault of NULL");
    awari_close(&again);
    if (!refused(answer, &fault)) say("%d", awari_levels(to));
    return answer;
}

static uint8_t map_files(const char *path, unsigned most) {
    awari_files again;
    awari_fault fault = any_fault();
    uint8_t answer = awari_map(path, most, &files, &fault);
    agree(awari_map(path, most, &again, NULL) == answer, "a fault of NULL");
    awari_unmap(&again);
    if (!refused(answer, &fault)) say("%zu", files.count);
    return answer;
}

static void close_place(void) {
    awari_close(&handle);
    if (is_mapped) awari_unmap(&files);
    is_verified = is_mapped = false;
    *place = 0;
}

/* Opens the folder of a row in both ways. Two have the levels of another folder. */
static void open_place(const char *name) {
    char path[ROOM];
    bool is_shared = !strcmp(name, "shared"), is_closed = !strcmp(name, "closed");
    if (!strcmp(name, place)) return;
    close_place();
    snprintf(place, sizeof place, "%s", name);
    snprintf(path, sizeof path, "%s/%s", room, is_shared || is_closed ? "levels" : name);
    awari_handle own = AWARI_CLOSED;
    is_verified = !open_levels(path, 24, is_shared ? &own : &handle);
    is_mapped = !map_files(path, 24);
    if (is_shared) agree(!awari_share(&own, &handle), "a share");
    awari_close(&own);
    if (is_closed) awari_close(&handle), awari_unmap(&files);
    told[0] = 0;
}

static void tell_check(void) {
    uint8_t below[32] = {0}, digest[32];
    if (!files.count) refused(AWARI_NOT_YET, NULL);
    for (size_t level = 0; level < files.count; level++) {
        awari_fault fault = {(uint8_t)level, 0, 0, 0};
        const awari_file *file = &files.level[level];
        uint8_t answer = awari_check_file(file->bytes, file->len, below, digest);
        bool is_form = answer >= AWARI_TRUNCATED && answer <= AWARI_TRAILING;
        if (is_form) fault.inner = answer, answer = AWARI_FILE;
        if (refused(answer, &fault)) return;
        agree(!memcmp(digest, file->bytes + file->len - 32, 32), "the digest");
        memcpy(below, digest, 32);
    }
    if (files.count) say("right");
}

/* ---- boards */

/* Reads the board of a row. If it is none by its word alone, it says why; of too many stones it has the pits. */
static bool read_board(uint8_t pits[12], unsigned *stones) {
    const char *text = strcmp(word[2], "''") ? word[2] : "";
    uint8_t answer = awari_parse(text, strlen(text), pits);
    *stones = 0;
    if (answer != AWARI_TOO_MANY && refused(answer, NULL)) return false;
    for (int pit = 0; pit < 12; pit++, text++) {
        pits[pit] = (uint8_t)strtoul(text, (char **)&text, 10);
        *stones += pits[pit];
    }
    if (answer) agree(*stones > 48, "its word");
    return true;
}

/* What the file of so many stones answers, if there is one. */
static uint8_t probe_file(const uint8_t pits[12], unsigned stones, awari_entry *entry) {
    static const awari_file none = {(const uint8_t *)"", 0};
    if (stones <= 24 && stones >= files.count) return AWARI_NOT_YET;
    const awari_file *file = stones <= 24 ? &files.level[stones] : &none;
    return awari_probe_file(file->bytes, file->len, pits, entry);
}

static bool are_same(awari_entry one, awari_entry other) {
    return one.value == other.value && one.plan == other.plan && one.distance == other.distance;
}

static void tell_entry(void) {
    awari_entry entry = {9, 9, 9}, filed = {9, 9, 9}, many = {9, 9, 9};
    uint8_t pits[12], answer = 0;
    int8_t value = 9;
    unsigned stones;
    size_t count;
    if (!read_board(pits, &stones)) return;
    if (is_mapped) answer = probe_file(pits, stones, &filed);
    if (is_verified) {
        if (is_mapped) agree(awari_probe(&handle, pits, &entry) == answer, "a file's answer");
        answer = awari_probe(&handle, pits, &entry);
        agree(awari_probe_value(&handle, pits, &value) == answer && value == entry.value, "the value alone");
        agree(awari_probe_many(&handle, pits, 1, &many, 1, &count) == answer && are_same(many, entry), "one of many");
        agree(count == !answer && (!is_mapped || are_same(filed, entry)), "a file");
    } else
        entry = filed;
    if (refused(answer, NULL)) return;
    say("%d ", entry.value);
    say(entry.plan == AWARI_NO_PLAN ? "-" : "%d", entry.plan);
    say(" %u", entry.distance);
}

static bool are_alike(const awari_move *one, const awari_move *other) {
    return one->legal == other->legal && one->captures == other->captures && one->value == other->value &&
           one->distance == other->distance;
}

static void tell_moves(void) {
    awari_move moves[6], filed[6];
    uint8_t pits[12], answer = 0;
    unsigned stones;
    if (!read_board(pits, &stones)) return;
    memset(filed, 0, sizeof filed), memset(moves, 0, sizeof moves);
    if (is_mapped) answer = awari_probe_moves_files(files.level, files.count, pits, filed);
    if (is_verified) {
        if (is_mapped) agree(awari_probe_moves(&handle, pits, moves) == answer, "the files' answer");
        answer = awari_probe_moves(&handle, pits, moves);
    }
    if (refused(answer, NULL)) return;
    const char *mark = "";
    const awari_move *first = is_verified ? moves : filed, *other = is_mapped ? filed : moves;
    for (int pit = 0; pit < 6; pit++) {
        const awari_move *one = &first[pit];
        agree(are_alike(one, &other[pit]), "a file");
        if (!one->legal) continue;
        say("%s%d %d %d %u", mark, pit, one->captures, one->value, one->distance);
        mark = "; ";
    }
    if (!*mark) say("none");
}

static void tell_pits(const uint8_t *pits, size_t count) {
    for (size_t i = 0; i < count; i++) say(i ? " %d" : "%d", pits[i]);
    if (!count) say("none");
}

static void tell_line(void) {
    uint8_t pits[12], line[ROOM];
    unsigned stones;
    size_t moves;
    awari_entry entry;
    if (!read_board(pits, &stones) || refused(awari_line(&handle, pits, line, sizeof line, &moves), NULL)) return;
    tell_pits(line, moves);
    agree(!awari_probe(&handle, pits, &entry), "the entry");
    say(" outcome %d", entry.value);
}

static void tell_longest(void) {
    uint8_t pits[12], line[ROOM];
    unsigned stones;
    size_t moves;
    awari_entry entry;
    if (!read_board(pits, &stones)) return;
    if (refused(awari_longest_line(&handle, pits, line, sizeof line, &moves), NULL)) return;
    tell_pits(line, moves);
    agree(!awari_probe(&handle, pits, &entry) && entry.distance == moves, "the distance");
}

/* ---- levels */

static void tell_counts(void) {
    awari_level_counts counts;
    uint8_t level = (uint8_t)atoi(word[2]);
    if (refused(awari_counts(&handle, level, &counts), NULL)) return;
    say("%u %u %u %u", counts.won, counts.even, counts.lost, counts.limit);
    agree(counts.won + counts.even + counts.lost == awari_size(level), "the size");
}

/* Builds the next level in a handle of its own, by small slices, and says the digest of its file. */
static void tell_build(void) {
    awari_handle own = AWARI_CLOSED;
    awari_draft draft = {0, 0, false};
    uint8_t digest[32], answer = awari_share(&handle, &own), level = awari_levels(&own);
    size_t len = awari_file_len(level);
    uint8_t *file = (uint8_t *)malloc(len);
    if (!answer) answer = file ? awari_begin(&own) : (uint8_t)AWARI_MEMORY_OF_LEVEL;
    while (!answer && !draft.settled) answer = awari_spread(&own, 1000, &draft);
    if (!answer) answer = awari_finish(&own, file, len);
    if (!refused(answer, NULL)) {
        say("%d ", level);
        for (size_t i = len - 32; i < len; i++) say("%02x", file[i]);
        agree(!awari_check_file(file, len, file + 20, digest), "a check of the file");
        agree(awari_levels(&own) == level + 1 && awari_levels(&handle) == level, "the number of levels");
    }
    free(file);
    awari_close(&own);
}

static void tell_board(const uint8_t pits[12]) {
    for (int pit = 0; pit < 12; pit++) say(pit == 0 ? "%d" : pit == 6 ? "/%d" : ",%d", pits[pit]);
}

/* ---- the rules, and ranks */

static void tell_play(void) {
    uint8_t pits[12], after[12], captures;
    unsigned stones;
    if (!read_board(pits, &stones) || refused(awari_play(pits, (uint8_t)atoi(word[3]), after, &captures), NULL)) return;
    tell_board(after);
    say(" %d", captures);
}

static void tell_legal(void) {
    uint8_t pits[12], found[6], bits;
    unsigned stones;
    size_t count = 0;
    if (!read_board(pits, &stones)) return;
    bits = awari_legal(pits);
    for (uint8_t pit = 0; pit < 8; pit++)
        if (bits >> pit & 1) found[count++] = pit;
    tell_pits(found, count);
}

static void tell_rank(void) {
    uint8_t pits[12], level;
    uint32_t rank;
    unsigned stones;
    if (read_board(pits, &stones) && !refused(awari_rank(pits, &level, &rank), NULL)) say("%d %u", level, rank);
}

static void tell_ranked(void) {
    uint8_t pits[12];
    if (!refused(awari_board((uint8_t)atoi(word[2]), (uint32_t)strtoul(word[3], NULL, 10), pits), NULL)) tell_board(pits);
}

static void tell_size(void) { say("%u", awari_size((uint8_t)atoi(word[2]))); }
static void tell_sentence(void) { say("%s", awari_text((uint8_t)atoi(word[2]))); }

/* ---- rows */

static unsigned most(void) { return words > 2 ? (unsigned)atoi(word[2]) : 24; }

static void tell_open(void) {
    char path[ROOM];
    awari_handle own = AWARI_CLOSED;
    snprintf(path, sizeof path, "%s/%s", room, word[0]);
    open_levels(path, most(), &own);
    awari_close(&own);
}

static void tell_map(void) {
    char path[ROOM];
    snprintf(path, sizeof path, "%s/%s", room, word[0]);
    close_place();
    map_files(path, most());
    awari_unmap(&files);
}

/* what a call asks */
enum { NONE, EITHER, VERIFIED };

static const struct {
    const char *name;
    int asks;
    void (*tell)(void);
} calls[] = {
    {"open", NONE, tell_open},           {"map", NONE, tell_map},           {"check", EITHER, tell_check},
    {"entry", EITHER, tell_entry},       {"moves", EITHER, tell_moves},     {"line", VERIFIED, tell_line},
    {"longest", VERIFIED, tell_longest}, {"counts", VERIFIED, tell_counts}, {"build", VERIFIED, tell_build},
    {"play", NONE, tell_play},           {"legal", NONE, tell_legal},       {"rank", NONE, tell_rank},
    {"board", NONE, tell_ranked},        {"size", NONE, tell_size},         {"sentence", NONE, tell_sentence},
};

/* Takes the names out of an answer that has numbers: C has none. */
static void drop_names(char *answer) {
    char *to = answer;
    if (!isdigit((unsigned char)*answer)) return;
    for (char *from = answer; *from; from++) {
        bool is_name = from[0] == ' ' && isupper((unsigned char)from[1]) && islower((unsigned char)from[2]);
        while (is_name && isalpha((unsigned char)from[1])) from++;
        if (!is_name) *to++ = *from;
    }
    *to = 0;
}

static void split(char *asked) {
    words = 0;
    for (char *next = strtok(asked, " "); next && words < 4; next = strtok(NULL, " ")) word[words++] = next;
}

/* Asks a row: 0 if its answer is right, 1 if not, and 2 if C has no such call. */
static int ask(const char *row) {
    char asked[ROOM], *answer;
    snprintf(asked, sizeof asked, "%s", row);
    answer = strstr(asked, " = ");
    *answer = 0, answer += 3;
    drop_names(answer);
    split(asked);
    size_t call = 0, count = sizeof calls / sizeof calls[0];
    while (call < count && strcmp(calls[call].name, word[1])) call++;
    if (call == count || !strcmp(answer, "TypeError")) return 2;
    if (calls[call].asks != NONE) open_place(word[0]);
    if (calls[call].asks == VERIFIED && !is_verified) return 2;
    told[0] = 0;
    calls[call].tell();
    if (!strcmp(told, answer)) return 0;
    printf("%s: told %s\n", row, told);
    return 1;
}

int main(int argc, char **argv) {
    char row[ROOM];
    int found[3] = {0, 0, 0};
    if (argc != 3) return 2;
    alarm(PATIENCE);
    FILE *rows = fopen(argv[1], "r");
    room = argv[2];
    while (rows && fgets(row, sizeof row, rows)) {
        row[strcspn(row, "\n")] = 0;
        if (*row && *row != '#') found[ask(row)]++;
    }
    if (rows) fclose(rows);
    close_place();
    printf("%d passed, %d failed\n", found[0], found[1]);
    return found[1] || !found[0];
}
