/* What is counted of the memory that a program asks for. */
#include <stdatomic.h>
#include <stdint.h>

typedef struct {
    _Atomic int64_t held;     /* bytes */
    _Atomic int64_t peak;     /* the most that were held at once */
    _Atomic int64_t greatest; /* the greatest block that was asked for, given or not */
} memory_counts;

extern memory_counts *counted;
