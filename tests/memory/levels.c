/* Puts the levels of a folder on a handle, shares them, and reads the head of a file of level 24. A line for
 * each: what it is, and how much more is held since, the most that was held meanwhile, and the greatest block
 * that was asked for.
 * levels FOLDER */
#include "awari.h"
#include "count.h"
#include <stdio.h>
#include <string.h>

enum { SHARES = 100, FIRST_ENTRIES = 680, ENTRY = 6, HEADER = 52 };

static int64_t before;

static void begin(void) {
    before = counted->held;
    counted->peak = before;
    counted->greatest = 0;
}

static void tell(const char *what, unsigned number, uint8_t answer) {
    printf("%s %u answer %u held %lld peak %lld greatest %lld\n", what, number, answer,
           (long long)(counted->held - before), (long long)(counted->peak - before), (long long)counted->greatest);
}

/* The header of level 24, whose magic, version and sizes are right, over zeros. */
static void head(uint8_t bytes[HEADER]) {
    uint32_t size = awari_size(24);
    memset(bytes, 0, HEADER);
    memcpy(bytes, "AWDB\0\2\30", 7);
    for (int i = 0; i < 4; i++) bytes[12 + i] = (uint8_t)(size >> (24 - 8 * i));
}

/* Checks the head of the file with so many right entries, and a wrong one behind them if `wrong` says so. */
static void check(unsigned entries, int wrong) {
    static uint8_t bytes[HEADER + (FIRST_ENTRIES + 1) * ENTRY];
    uint8_t below[32] = {0}, digest[32];
    size_t len = HEADER + entries * ENTRY;
    memset(bytes, 0, sizeof bytes);
    head(bytes);
    for (unsigned i = 0; i < entries; i++) bytes[HEADER + i * ENTRY + 1] = AWARI_NO_PLAN;
    if (wrong) bytes[len + 1] = 6, len += ENTRY;
    begin();
    uint8_t answer = awari_check_file(bytes, len, below, digest);
    tell(wrong ? "wrong" : "head", entries, answer);
}

int main(int argc, char **argv) {
    awari_handle levels = AWARI_CLOSED;
    static awari_handle others[SHARES];
    static awari_files files;
    awari_fault fault;
    if (argc != 2 || awari_map(argv[1], 24, &files, NULL)) return 1;
    setvbuf(stdout, NULL, _IONBF, 0);
    for (unsigned i = 0; i < files.count; i++) {
        begin();
        tell("level", i, awari_add_level(&levels, files.level[i].bytes, files.level[i].len, &fault));
    }
    begin();
    uint8_t answer = 0;
    for (int i = 0; i < SHARES; i++) answer |= awari_share(&levels, &others[i]);
    tell("share", SHARES, answer);
    for (int i = 0; i < SHARES; i++) awari_close(&others[i]);
    check(0, 0);
    check(FIRST_ENTRIES - 1, 0);
    check(FIRST_ENTRIES - 1, 1);
    begin();
    awari_close(&levels);
    tell("close", 0, 0);
    awari_unmap(&files);
    return 0;
}
