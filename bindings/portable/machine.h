/* What module.c stands on: the memory of an instance of the module, and the steps of WebAssembly that C lacks. Memory
 * is as the module has it, the lowest byte of a number first, on any machine.
 *
 * No signal is caught, and no addresses are reserved: each access asks whether it lies in the memory, and ends the
 * program if not. That would be a fault of what made the module C, since the calls are proved to keep to their
 * memory. With -DAWARI_UNCHECKED nothing is asked, as in the library for x86-64 Linux; that is faster. */
#include <stdbool.h>
#include <stdint.h>
#include <stdlib.h>
#include <string.h>

typedef uint8_t u8;
typedef int8_t s8;
typedef uint16_t u16;
typedef int16_t s16;
typedef uint32_t u32;
typedef int32_t s32;
typedef uint64_t u64;
typedef int64_t s64;

/* An instance of the module. */
typedef struct {
    u8 *data;
    u64 size, room; /* of the memory, and of what was taken for it */
    u64 g0;         /* its stack goes down from here */
    u32 pages;
    bool is_fixed; /* whether its memory can't grow */
} M;

enum { PAGE = 65536, MOST_PAGES = 65535 };

#ifdef __GNUC__
#define IS_RARE(what) __builtin_expect(!!(what), 0)
#else
#define IS_RARE(what) (what)
#endif
#if defined _WIN32 || (defined __BYTE_ORDER__ && __BYTE_ORDER__ == __ORDER_LITTLE_ENDIAN__)
#define IS_LITTLE 1
#else
#define IS_LITTLE 0
#endif

/* ---- memory */

/* Where so many bytes lie. */
static inline u8 *bytes_at(const M *m, u64 at, u64 count) {
#ifndef AWARI_UNCHECKED
    if (IS_RARE(at + count > m->size)) abort();
#endif
    (void)count;
    return m->data + (size_t)at;
}

static inline u64 read_number(const u8 *from, unsigned bytes) {
    u64 number = 0;
    if (IS_LITTLE)
        memcpy(&number, from, bytes);
    else
        for (unsigned i = 0; i < bytes; i++) number |= (u64)from[i] << (8 * i);
    return number;
}

static inline void write_number(u8 *to, u64 number, unsigned bytes) {
    if (IS_LITTLE)
        memcpy(to, &number, bytes);
    else
        for (unsigned i = 0; i < bytes; i++) to[i] = (u8)(number >> (8 * i));
}

#define LOAD(name, kind, gives)                                                              \
    static inline gives name(const M *m, u32 at, u32 on) {                                   \
        return (gives)(kind)read_number(bytes_at(m, (u64)at + on, sizeof(kind)), sizeof(kind)); \
    }
#define STORE(name, kind, takes)                                                             \
    static inline void name(const M *m, u32 at, u32 on, takes number) {                      \
        write_number(bytes_at(m, (u64)at + on, sizeof(kind)), (u64)number, sizeof(kind));    \
    }
LOAD(i32_load, u32, u32)
LOAD(i32_load8_u, u8, u32)
LOAD(i32_load8_s, s8, u32)
LOAD(i32_load16_u, u16, u32)
LOAD(i32_load16_s, s16, u32)
LOAD(i64_load, u64, u64)
LOAD(i64_load8_u, u8, u64)
LOAD(i64_load8_s, s8, u64)
LOAD(i64_load16_u, u16, u64)
LOAD(i64_load16_s, s16, u64)
LOAD(i64_load32_u, u32, u64)
LOAD(i64_load32_s, s32, u64)
STORE(i32_store, u32, u32)
STORE(i32_store8, u8, u32)
STORE(i32_store16, u16, u32)
STORE(i64_store, u64, u64)
STORE(i64_store8, u8, u64)
STORE(i64_store16, u16, u64)
STORE(i64_store32, u32, u64)

static inline void memory_fill(const M *m, u32 to, u32 byte, u32 count) {
    memset(bytes_at(m, to, count), (int)(u8)byte, count);
}

static inline void memory_copy(const M *m, u32 to, u32 from, u32 count) {
    memmove(bytes_at(m, to, count), bytes_at(m, from, count), count);
}

static inline void lay_data(const M *m, u32 to, const u8 *from, u32 count) { memcpy(bytes_at(m, to, count), from, count); }

/* Sees that there is room for so many bytes. Once it grows, more is taken than is asked for, so that few steps copy
 * it; if the system refuses that, just so much. */
static bool has_room(M *m, u64 size) {
    u64 more = m->room ? size + size / 8 : size;
    u8 *data = NULL;
    if (size <= m->room) return true;
    if (m->is_fixed || size > SIZE_MAX / 2) return false;
    if (more <= SIZE_MAX / 2) data = (u8 *)realloc(m->data, (size_t)more);
    if (!data && more != size) more = size, data = (u8 *)realloc(m->data, (size_t)more);
    if (!data) return false;
    m->data = data;
    m->room = more;
    return true;
}

/* As memory.grow: the pages before, or -1. */
static u32 grow_memory(M *m, u32 pages) {
    u32 before = m->pages;
    u64 size = ((u64)before + pages) * PAGE;
    if (pages > MOST_PAGES - before || !has_room(m, size)) return 0xffffffffu;
    memset(m->data + (size_t)m->size, 0, (size_t)(size - m->size));
    m->pages += pages;
    m->size = size;
    return before;
}

/* ---- numbers */

#define UNREACHABLE abort()
#define DIV_U(x, y) (IS_RARE((y) == 0) ? (abort(), 0) : (x) / (y))
#define REM_U(x, y) (IS_RARE((y) == 0) ? (abort(), 0) : (x) % (y))
#define I32_ROTL(x, y) (((x) << ((y)&31)) | ((x) >> ((32 - ((y)&31)) & 31)))
#define I32_ROTR(x, y) (((x) >> ((y)&31)) | ((x) << ((32 - ((y)&31)) & 31)))
#define I64_ROTL(x, y) (((x) << ((y)&63)) | ((x) >> ((64 - ((y)&63)) & 63)))
#define I64_ROTR(x, y) (((x) >> ((y)&63)) | ((x) << ((64 - ((y)&63)) & 63)))

#ifdef __GNUC__
#define I32_CTZ(x) ((x) ? (u32)__builtin_ctz(x) : 32u)
#define I64_CTZ(x) ((x) ? (u64)__builtin_ctzll(x) : 64u)
#define I32_CLZ(x) ((x) ? (u32)__builtin_clz(x) : 32u)
#define I64_CLZ(x) ((x) ? (u64)__builtin_clzll(x) : 64u)
#else
/* The zeros below the lowest one of so many bits, or above the highest. */
static inline u32 zeros_below(u64 x, u32 bits) {
    u32 zeros = 0;
    while (zeros < bits && !(x >> zeros & 1)) zeros++;
    return zeros;
}
static inline u32 zeros_above(u64 x, u32 bits) {
    u32 zeros = 0;
    while (zeros < bits && !(x >> (bits - 1 - zeros) & 1)) zeros++;
    return zeros;
}
#define I32_CTZ(x) zeros_below(x, 32)
#define I64_CTZ(x) ((u64)zeros_below(x, 64))
#define I32_CLZ(x) zeros_above(x, 32)
#define I64_CLZ(x) ((u64)zeros_above(x, 64))
#endif
