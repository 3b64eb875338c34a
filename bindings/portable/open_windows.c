/* The levels of a folder on Windows, for awari.h; elsewhere open.c does so. Compile it in, or copy it. A folder's name
 * is of the system's own code page. */
#include "awari.h"
#include <stdio.h>
#include <string.h>
#define WIN32_LEAN_AND_MEAN
#include <windows.h>

/* The answer, with the level and the fault within. */
static uint8_t refuse(uint8_t answer, unsigned level, uint8_t inner, awari_fault *fault) {
    memset(fault, 0, sizeof *fault);
    fault->level = (uint8_t)level;
    fault->inner = inner;
    return answer;
}

/* Maps one file; an empty one has no bytes to map. */
static uint8_t map_file(HANDLE opened, unsigned level, awari_file *file, awari_fault *fault) {
    LARGE_INTEGER size;
    if (GetFileType(opened) != FILE_TYPE_DISK || !GetFileSizeEx(opened, &size)) return refuse(AWARI_OPEN, level, 0, fault);
    file->bytes = (const uint8_t *)"";
    file->len = (size_t)size.QuadPart;
    if (file->len == 0) return AWARI_OK;
    HANDLE mapping = CreateFileMappingA(opened, NULL, PAGE_READONLY, 0, 0, NULL);
    const void *bytes = mapping ? MapViewOfFile(mapping, FILE_MAP_READ, 0, 0, 0) : NULL;
    if (mapping) CloseHandle(mapping);
    if (!bytes) return refuse(AWARI_FILE, level, AWARI_READ, fault);
    file->bytes = (const uint8_t *)bytes;
    return AWARI_OK;
}

/* Whether a name is in the folder, or may be: only "not found" says no. */
static bool is_there(void) { return GetLastError() != ERROR_FILE_NOT_FOUND; }

uint8_t awari_map(const char *folder, unsigned most, awari_files *files, awari_fault *fault) {
    awari_fault unasked;
    uint8_t answer = AWARI_OK;
    if (!fault) fault = &unasked;
    files->count = 0;
    DWORD kind = GetFileAttributesA(folder);
    if (kind == INVALID_FILE_ATTRIBUTES || !(kind & FILE_ATTRIBUTE_DIRECTORY)) return refuse(AWARI_OPEN, 0, 0, fault);
    for (unsigned level = 0; level <= most && level <= 24 && !answer; level++) {
        char path[4096];
        int length = snprintf(path, sizeof path, "%s/level_%02u.awdb", folder, level);
        if (length < 0 || length >= (int)sizeof path) return refuse(AWARI_OPEN, 0, 0, fault);
        HANDLE opened = CreateFileA(path, GENERIC_READ, FILE_SHARE_READ | FILE_SHARE_DELETE, NULL, OPEN_EXISTING, 0, NULL);
        if (opened == INVALID_HANDLE_VALUE) {
            if (is_there() || level == 0) answer = refuse(AWARI_OPEN, level, 0, fault);
            break;
        }
        answer = map_file(opened, level, &files->level[level], fault);
        CloseHandle(opened);
        if (!answer) files->count++;
    }
    if (answer) awari_unmap(files);
    return answer;
}

void awari_unmap(awari_files *files) {
    for (size_t i = 0; i < files->count; i++)
        if (files->level[i].len) UnmapViewOfFile(files->level[i].bytes);
    files->count = 0;
}

/* One thread verifies: each handle of the portable library has a memory of its own. */
uint8_t awari_open_by(const char *folder, unsigned most, unsigned threads, awari_handle *handle, awari_fault *fault) {
    (void)threads;
    return awari_open(folder, most, handle, fault);
}

uint8_t awari_open(const char *folder, unsigned most, awari_handle *handle, awari_fault *fault) {
    awari_fault unasked;
    awari_files files;
    if (!fault) fault = &unasked;
    uint8_t answer = awari_map(folder, most, &files, fault);
    for (size_t i = 0; i < files.count && !answer; i++)
        answer = awari_add_level(handle, files.level[i].bytes, files.level[i].len, fault);
    if (answer) awari_close(handle);
    awari_unmap(&files);
    return answer;
}
