/* The plain packer: the fewest words from each write to the end, from the last write back; then the list is laid out. */
#include "plain.h"

/* The words of a command that carries this many writes. */
static inline uint32_t words_of(uint32_t writes) { return (writes + 2) & ~UINT32_C(1); }

/* The first write at fault, where there is one. */
static uint64_t refused(const uint32_t *ids, const uint32_t *masks) {
    for (uint32_t k = 0;; k++) {
        uint32_t number = masks[k] > 15 ? PICA_MASK_ABOVE_15 : plain_fault(ids[k], masks[k]);
        if (number) return plain_refused(number, k);
    }
}

/* Whether a write is at fault, or has a mask below the least one. All tests of all writes are joined without a branch, so that the loop may
   go by several writes at once. */
static inline int any_fails(const uint32_t *restrict ids, const uint32_t *restrict masks, size_t count, uint32_t least) {
    uint32_t fails = 0;
    for (size_t k = 0; k < count; k++) {
        uint32_t eight = ids[k] & ~UINT32_C(7), port = (eight == 0xE8) | (eight == 0x1C8);
        fails |= (masks[k] - least > 15 - least) | (ids[k] > 0x2FF) | ((ids[k] | 1) == 0x23D) | (port & (masks[k] != 15));
    }
    return fails != 0;
}

/* The writes that are left when those with mask 0 are dropped, and how many: what is dropped stands where the next one goes; no branch. */
static uint32_t keep(const uint32_t *restrict ids, const uint32_t *restrict masks, const uint32_t *restrict values, uint32_t count,
                     uint32_t *restrict to_ids, uint32_t *restrict to_masks, uint32_t *restrict to_values) {
    uint32_t kept = 0;
    for (uint32_t k = 0; k < count; k++) {
        to_ids[kept] = ids[k];
        to_masks[kept] = masks[k];
        to_values[kept] = values[k];
        kept += masks[k] != 0;
    }
    return kept;
}

/* How a write goes with the next one: their ids are equal, rise, or neither; a difference of masks is neither. */
enum { EQUAL = 0, RISING = 1, APART = 2 };

static void find_links(const uint32_t *restrict ids, const uint32_t *restrict masks, size_t count, uint8_t *restrict links) {
    if (count == 0) return;
    for (size_t k = 0; k < count - 1; k++) {
        uint32_t by = ids[k + 1] - ids[k];
        links[k] = ((by > 1) | (masks[k] != masks[k + 1])) ? APART : (uint8_t)by;
    }
    links[count - 1] = APART;
}

/*
 * Sets take[k] to the writes of the command that begins with write k, and answers the words of the whole list. Only two lengths need a
 * look: the longest that a command can carry, and one less. A cut further forward leaves two commands that could be one, or of which the
 * first could take two more writes from the second at the same cost. Where both cost the same, the longer one has the more writes; so one
 * less is of use only where it saves the padding word: after an even number of writes, where the next command takes the last of them in at
 * no cost.
 *
 * As long as a run isn't longer than a command, all its writes reach to the same end, so that what counts there stays in registers. A run
 * of one or of two costs two words more than what follows its first write: a second write goes in the padding's place, or it is cut off.
 */
static uint32_t plan(const uint8_t *restrict links, size_t count, uint16_t *restrict take) {
    uint16_t costs[PICA_RUN_LENGTH_MOST];
    uint32_t next = 0, after = 0;                     /* the costs from the next write on, and from the one after it */
    /* of the run that begins here: its writes, the cost after it, whether it may end one earlier */
    uint32_t kind = APART, run = 0, end = 0, cut = 0;
    for (size_t k = count; k-- > 0;) {
        uint32_t link = links[k], joins = link != APART, goes_on = joins & (link == kind);
        run = 1 + (goes_on ? run : joins);
        end = goes_on ? end : after;
        cut = goes_on ? cut : next == after;
        kind = link;
        uint32_t most = run, shorter = ~run & cut & 1, cost = goes_on ? end + words_of(run) - 2 * shorter : next + 2;
        if (run > 256) {
            most = 256;
            shorter = costs[k + 255] < costs[k + 256] + 2;
            cost = shorter ? costs[k + 255] + 256u : costs[k + 256] + 258u;
        }
        take[k] = (uint16_t)(most - shorter);
        costs[k] = (uint16_t)cost;
        after = next;
        next = cost;
    }
    return next;
}

static void lay_out(const uint32_t *restrict ids, const uint32_t *restrict masks, const uint32_t *restrict values, uint32_t count,
                    const uint8_t *restrict links, const uint16_t *restrict take, uint32_t *restrict space, uint32_t words) {
    uint32_t k = 0, at = 0;
    while (k < count) {
        uint32_t writes = take[k], step = (links[k] == RISING) & (writes > 1), *to = space + at;
        to[0] = values[k];
        to[1] = ids[k] | masks[k] << 16 | (writes - 1) << 20 | step << 31;
        /* a short one without a loop: the next command overwrites what is too much */
        if (writes <= 3 && k + 3 <= count && at + 4 <= words) {
            to[2] = values[k + 1];
            to[3] = writes == 3 ? values[k + 2] : 0;
        } else {
            for (size_t j = 1; j < writes; j++) to[j + 1] = values[k + j];
            if (writes % 2 == 0) to[writes + 1] = 0;
        }
        k += writes;
        at += words_of(writes);
    }
}

/* Of a run with mask 0 in it the other writes are first copied together. The pair stands behind a list whose words are no multiple of 4. */
uint64_t plain_pack(const uint32_t *ids, size_t ids_length, const uint32_t *masks, size_t masks_length, const uint32_t *values,
                    size_t values_length, uint32_t *space, size_t space_length) {
    uint32_t kept_ids[PICA_RUN_LENGTH_MOST], kept_masks[PICA_RUN_LENGTH_MOST], kept_values[PICA_RUN_LENGTH_MOST];
    uint8_t links[PICA_RUN_LENGTH_MOST];
    uint16_t take[PICA_RUN_LENGTH_MOST];
    if (ids_length != masks_length || ids_length != values_length) return plain_refused(PICA_LENGTHS_DIFFER, 0);
    if (ids_length > PICA_RUN_LENGTH_MOST) return plain_refused(PICA_TOO_MANY_WRITES, 0);
    uint32_t count = (uint32_t)ids_length;
    if (any_fails(ids, masks, count, 1)) {
        if (any_fails(ids, masks, count, 0)) return refused(ids, masks);
        count = keep(ids, masks, values, count, kept_ids, kept_masks, kept_values);
        ids = kept_ids, masks = kept_masks, values = kept_values;
    }
    find_links(ids, masks, count, links);
    uint32_t words = plan(links, count, take), filled = (words + 3) & ~UINT32_C(3);
    if (filled > space_length) return plain_refused(PICA_NO_ROOM, filled);
    lay_out(ids, masks, values, count, links, take, space, words);
    if (words < filled) space[words] = space[words + 1] = 0;
    return filled;
}
