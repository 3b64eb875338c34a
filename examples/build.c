/* The levels of a folder, built in a program: build FOLDER TOP. Once ./install has put the library there:
 *
 *     cc -O2 -o build build.c $(pkg-config --cflags --libs awari)
 *
 * It writes the files of levels 0 to TOP as `awari build TOP --folder FOLDER` does.
 */
#include "awari.h"
#include <stdio.h>
#include <stdlib.h>

/* Builds the next level, and writes its file. */
static uint8_t build(awari_handle *levels, const char *folder) {
    uint8_t level = awari_levels(levels);
    size_t len = awari_file_len(level);
    uint8_t *bytes = malloc(len);
    uint8_t answer = bytes ? awari_build_next(levels, bytes, len) : (uint8_t)AWARI_MEMORY_OF_LEVEL;
    if (!answer) {
        char path[4096];
        snprintf(path, sizeof path, "%s/level_%02d.awdb", folder, level);
        FILE *file = fopen(path, "wb");
        if (!file || fwrite(bytes, 1, len, file) != len || fclose(file)) answer = AWARI_WRITE;
    }
    free(bytes);
    return answer;
}

int main(int argc, char **argv) {
    awari_handle levels = AWARI_CLOSED;
    uint8_t answer = AWARI_OK;
    if (argc != 3) return 2;
    while (!answer && awari_levels(&levels) <= atoi(argv[2])) answer = build(&levels, argv[1]);
    if (answer) printf("refused %d: %s\n", answer, awari_text(answer));
    awari_close(&levels);
    return answer != AWARI_OK;
}
