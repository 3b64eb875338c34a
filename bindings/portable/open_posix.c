/* The levels of a folder on POSIX systems, for awari.h and the portable library. Compile it in, or copy it with open.c. */
#ifndef AWARI_PORTABLE
#define AWARI_PORTABLE
#endif
#include "../open.c"
