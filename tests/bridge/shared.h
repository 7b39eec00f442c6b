/*
 * The memory that a caller and the emulated library share: one call at a time. The words of each lent buffer stand between guard
 * words, so that a store past a buffer's end shows.
 */
#ifndef SHARED_H
#define SHARED_H

#include <stdint.h>

enum { LENT = 8, NUMBERS = 3, ROOM = 1 << 20 };
enum which { READ, WRITE, WRITES, PACK, DECODE, FRAGMENT, OPEN, FEED, CLOSE };

struct lent {
    uint64_t at, length;
};

struct call {
    uint64_t which;
    struct lent lent[LENT];
    uint32_t numbers[NUMBERS];
    uint64_t answer;
    uint32_t words[ROOM];
};

#endif
