/* The plain writes of a list: one pass that judges it, one that puts its writes. */
#include "plain_list.h"

/* Where the writes go. The buffers are lent apart, so that the loops may go by several words at once. */
struct places {
    uint32_t *restrict ids, *restrict masks, *restrict values;
};

static inline void put_some(struct places p, size_t to, uint32_t id, uint32_t step, uint32_t mask, const uint32_t *restrict from,
                            size_t count) {
    uint32_t *restrict ids = p.ids + to, *restrict masks = p.masks + to, *restrict values = p.values + to;
    for (size_t k = 0; k < count; k++) {
        ids[k] = id + step * (uint32_t)k;
        masks[k] = mask;
        values[k] = from[k];
    }
}

/*
 * The extra parameters. Few of them go by four, without a loop that counts to the last: what is put beyond it the next commands put
 * right, where four more writes are to come, which also have the words that are looked at too early.
 */
static inline void put_extra(struct places p, size_t to, struct command c, const uint32_t *restrict from, size_t writes) {
    enum { AT_ONCE = 4, FEW = 16 };
    size_t next = to + c.count;
    uint32_t id = c.id + c.step;
    if (c.count <= FEW && next + AT_ONCE <= writes) {
        for (; to < next; to += AT_ONCE, from += AT_ONCE, id += c.step * AT_ONCE) put_some(p, to, id, c.step, c.mask, from, AT_ONCE);
    } else if (c.step) {
        put_some(p, to, id, 1, c.mask, from, c.count);
    } else {
        put_some(p, to, id, 0, c.mask, from, c.count);
    }
}

/* What was judged is put without another look. A command's first value stands before its header, the others after it. */
static void put(struct places p, const uint32_t *restrict at, size_t writes) {
    for (size_t to = 0; to < writes;) {
        struct command c = command_of(at[1]);
        if (c.mask) {
            p.ids[to] = c.id;
            p.masks[to] = c.mask;
            p.values[to] = at[0];
            put_extra(p, to + 1, c, at + 2, writes);
            to += c.count + 1;
        }
        at += c.words;
    }
}

uint64_t plain_writes(const uint32_t *list, size_t list_length, uint32_t *ids, size_t ids_length, uint32_t *masks, size_t masks_length,
                      uint32_t *values, size_t values_length) {
    if (ids_length != masks_length || ids_length != values_length) return plain_refused(PICA_LENGTHS_DIFFER, 0);
    uint64_t answer = judge(list, list_length);
    if (pica_number(answer)) return answer;
    if (pica_value(answer) > ids_length) return plain_refused(PICA_TOO_FEW_PLACES, pica_value(answer));
    put((struct places){ids, masks, values}, list, pica_value(answer));
    return answer;
}
