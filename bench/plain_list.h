/* A list's commands, and its judging: shared by the plain reader and the plain writes of a list. */
#ifndef PLAIN_LIST_H
#define PLAIN_LIST_H

#include "plain.h"

struct command {
    uint32_t id, mask, count, step, words;
};

static inline struct command command_of(uint32_t header) {
    struct command c = {header & 0xFFFF, header >> 16 & 15, header >> 20 & 255, header >> 31, 0};
    c.words = (c.count + 3) & ~UINT32_C(1);
    return c;
}

static inline int meets(uint32_t first, uint32_t last, uint32_t from, uint32_t to) { return (first <= to) & (last >= from); }

/* Whether a write with this mask to an id of first..last can be at fault; no branch, since which test decides changes all the time. */
static inline int can_fail(uint32_t first, uint32_t last, uint32_t mask) {
    int port = meets(first, last, 0xE8, 0xEF) | meets(first, last, 0x1C8, 0x1CF);
    return (last > 0x2FF) | meets(first, last, 0x23C, 0x23D) | ((mask != 15) & port);
}

/* The first fault of a command that has one. */
static inline uint32_t fault_of(struct command c) {
    for (;; c.id++) {
        uint32_t number = plain_fault(c.id, c.mask);
        if (number) return number;
    }
}

/* The refusal of a list by its length, 0 where it is a legal one. */
static inline uint64_t refused_length(size_t length) {
    if (length > PICA_LIST_LENGTH_MOST) return plain_refused(PICA_LIST_TOO_LONG, 0);
    return length % 4 ? plain_refused(PICA_ILLEGAL_LENGTH, 0) : 0;
}

/* How many writes of a command belong to an expansion: with mask 0 none does; no branch. */
static inline uint32_t writes_of(struct command c) { return c.mask ? c.count + 1 : 0; }

/* The number of writes, or the refusal. Every command has an even number of words, so that two at least are left for the next one. */
static inline uint64_t judge(const uint32_t *list, size_t length) {
    const uint32_t *at = list;
    size_t writes = 0;
    uint64_t number = refused_length(length);
    if (number) return number;
    for (size_t left = length; left > 0;) {
        struct command c = command_of(at[1]);
        if (left < c.words) return plain_refused(PICA_WORDS_MISSING, (uint32_t)(at - list));
        if (can_fail(c.id, c.id + c.step * c.count, c.mask)) return plain_refused(fault_of(c), (uint32_t)(at - list));
        writes += writes_of(c);
        at += c.words;
        left -= c.words;
    }
    return writes;
}

#endif
