/* How what was judged is applied: shared by the plain reader and the plain pieces. What puts writes answers how many made a difference. */
#ifndef PLAIN_APPLY_H
#define PLAIN_APPLY_H

#include "plain_list.h"

extern const uint32_t plain_held[PICA_CELLS_LENGTH]; /* the bits that each register holds */

/* The buffers are lent apart, so that loops may go by several words at once. */

static inline uint32_t low_24(uint32_t entry, uint32_t value) { return (entry & 0xFF000000) | (value & 0xFFFFFF); }

static inline uint32_t least(uint32_t a, uint32_t b) { return a < b ? a : b; }

/* Entries from *index on, which returns to 0 after size - 1. */
static inline void upload(uint32_t *restrict entries, uint32_t size, uint32_t *index, const uint32_t *restrict values, uint32_t count) {
    while (count > 0) {
        uint32_t part = least(count, size - *index), *restrict to = &entries[*index];
        for (size_t k = 0; k < part; k++) to[k] = low_24(to[k], values[k]);
        *index = (*index + part) & (size - 1);
        values += part;
        count -= part;
    }
}

/* The index is in a register, and stored at the end. */
static inline void upload_fog(uint32_t *restrict cells, uint32_t *restrict fog, const uint32_t *restrict values, uint32_t count) {
    uint32_t index = cells[0xE6] & 0x7F;
    upload(fog, 128, &index, values, count);
    cells[0xE6] = (cells[0xE6] & ~UINT32_C(0x7F)) | index;
}

static inline void upload_light(uint32_t *restrict cells, uint32_t *restrict light, const uint32_t *restrict values, uint32_t count) {
    uint32_t at = cells[0x1C5], table = at >> 8 & 31, index = at & 0xFF;
    if (table < 24 && table != 2 && table != 7)
        upload(light + 256 * table, 256, &index, values, count);
    else
        index = (index + count) & 0xFF;
    cells[0x1C5] = (at & ~UINT32_C(0xFF)) | index;
}

/* A byte of ones for each bit of the mask. */
static inline uint32_t spread(uint32_t mask) { return (mask * 0x204081 & 0x1010101) * 0xFF; }

static inline uint32_t put_cell(uint32_t *cell, uint32_t bits, uint32_t value) {
    uint32_t other = (*cell ^ value) & bits;
    *cell ^= other;
    return other != 0;
}

/* Ids that rise from `id` on, no port's data among them. */
static inline uint32_t put_cells(uint32_t *restrict cells, uint32_t id, uint32_t bytes, const uint32_t *restrict values, uint32_t count) {
    const uint32_t *bits = &plain_held[id];
    uint32_t *restrict to = &cells[id], made = 0;
    for (size_t k = 0; k < count; k++) made += put_cell(&to[k], bits[k] & bytes, values[k]);
    return made;
}

static inline uint32_t differ(uint32_t a, uint32_t b, uint32_t bits) { return ((a ^ b) & bits) != 0; }

/* Values to one register: each is compared with the one before it, and the last one stays. */
static inline uint32_t put_values(uint32_t *cell, uint32_t bits, const uint32_t *restrict values, uint32_t count) {
    uint32_t made = differ(*cell, values[0], bits);
    if (bits)
        for (size_t k = 1; k < count; k++) made += differ(values[k - 1], values[k], bits);
    put_cell(cell, bits, values[count - 1]);
    return made;
}

/* The same of a command. How many they are, from two to four, decides no branch: the last one stands for those that aren't there. */
static inline uint32_t put_equal(uint32_t *cell, uint32_t bits, const uint32_t *restrict at, uint32_t count) {
    if (count == 0) return put_cell(cell, bits, at[0]);
    uint32_t last = count + 1, third = at[least(3, last)], fourth = at[least(4, last)];
    uint32_t made = differ(*cell, at[0], bits) + differ(at[0], at[2], bits) + differ(at[2], third, bits) + differ(third, fourth, bits);
    if (count > 3 && bits)
        for (size_t k = 5; k <= last; k++) made += differ(at[k - 1], at[k], bits);
    put_cell(cell, bits, at[last]);
    return made;
}

static inline int is_fog(uint32_t id) { return id - 0xE8 < 8; }
static inline int is_light(uint32_t id) { return id - 0x1C8 < 8; }

static inline int is_port(uint32_t id) { return is_fog(id) | is_light(id); }

/* Its index moves with each value, so that each makes a difference. */
static inline uint32_t put_port(uint32_t *restrict cells, uint32_t *restrict fog, uint32_t *restrict light, uint32_t id,
                                const uint32_t *restrict values, uint32_t count) {
    if (is_fog(id))
        upload_fog(cells, fog, values, count);
    else
        upload_light(cells, light, values, count);
    return count;
}

/* Rising ids, piece by piece where they meet a port's data. */
static inline uint32_t put_rising(uint32_t *restrict cells, uint32_t *restrict fog, uint32_t *restrict light, uint32_t id, uint32_t bytes,
                                  const uint32_t *restrict values, uint32_t count) {
    uint32_t made = 0;
    while (count > 0) {
        uint32_t next = id < 0xE8 ? 0xE8 : id < 0xF0 ? 0xF0 : id < 0x1C8 ? 0x1C8 : id < 0x1D0 ? 0x1D0 : 0x300;
        uint32_t part = least(count, next - id);
        if (is_port(id))
            made += put_port(cells, fog, light, id, values, part);
        else
            made += put_cells(cells, id, bytes, values, part);
        id += part;
        values += part;
        count -= part;
    }
    return made;
}

/* A command of up to four values to rising ids, none of four a port's data. How many they are decides no branch: no bit of the others
   changes. */
static inline uint32_t put_few(uint32_t *restrict cells, uint32_t id, uint32_t bytes, const uint32_t *restrict at, uint32_t count) {
    const uint32_t *bits = &plain_held[id];
    uint32_t *restrict to = &cells[id], last = count + (count > 0), made = put_cell(&to[0], bits[0] & bytes, at[0]);
    made += put_cell(&to[1], bits[1] & (count > 0 ? bytes : 0), at[least(2, last)]);
    made += put_cell(&to[2], bits[2] & (count > 1 ? bytes : 0), at[least(3, last)]);
    made += put_cell(&to[3], bits[3] & (count > 2 ? bytes : 0), at[least(4, last)]);
    return made;
}

/* A command whose words are all here. Its first value stands before its header, the others after it. With mask 0 no bit can change,
   and no branch asks for it. */
static inline uint32_t apply_command(uint32_t *restrict cells, uint32_t *restrict fog, uint32_t *restrict light, struct command c,
                                     const uint32_t *restrict at) {
    uint32_t bytes = spread(c.mask), made;
    if (is_port(c.id)) {
        made = put_port(cells, fog, light, c.id, at, 1);
        if (c.step) return made + put_rising(cells, fog, light, c.id + 1, bytes, at + 2, c.count);
        return made + put_port(cells, fog, light, c.id, at + 2, c.count);
    }
    uint32_t bits = plain_held[c.id] & bytes;
    if (c.step) {
        /* no port's data begins among the next three */
        if (c.count <= 3 && c.id < 0x2FD && !is_port(c.id + 3)) return put_few(cells, c.id, bytes, at, c.count);
        made = put_cell(&cells[c.id], bits, at[0]);
        return made + put_rising(cells, fog, light, c.id + 1, bytes, at + 2, c.count);
    }
    return put_equal(&cells[c.id], bits, at, c.count);
}

#endif
