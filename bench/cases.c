/* Random cases, many of them near the edges of the rules. */
#include "bench.h"

/* The three lengths of a state; in one case of 64 one of them is shorter than it has to be, and still true. */
void lengths(size_t to[3]) {
    to[0] = PICA_CELLS_LENGTH;
    to[1] = PICA_FOG_LENGTH;
    to[2] = PICA_LIGHT_LENGTH;
    if (below(64) == 0) to[below(3)] -= 1 + below(8);
}

uint32_t edge_id(void) {
    static const uint16_t edges[] = {0x23B, 0x23C, 0x23D, 0x23E, 0x2FE, 0x2FF, 0x300, 0x1C4, 0x1D0, 0x3F, 0xF0, 0xFFFF};
    switch (below(40)) {
    case 0: return edges[below(12)];
    case 1: return below(0x10000);
    case 2: case 3: case 4: return 0xE4 + below(12);
    case 5: case 6: case 7: return 0x1C4 + below(12);
    case 8: case 9: case 10: case 11: return below(0x300);
    default: return held_id();
    }
}

uint32_t edge_mask(uint32_t id) {
    int port = (id >= 0xE0 && id < 0xF0) || (id >= 0x1C0 && id < 0x1D0);
    return below(port ? 32 : 2) ? 15 : below(16);
}

static int is_data(uint32_t id) { return (id >= 0xE8 && id < 0xF0) || (id >= 0x1C8 && id < 0x1D0); }

/* Rising ids that end near the edge of a range: before, at or beyond it. */
static void over_the_edge(struct list *list) {
    static const uint16_t edges[] = {0xE8, 0xF0, 0x1C8, 0x1D0, 0x23C, 0x23E, 0x300};
    uint32_t writes = below(4) ? 1 + below(12) : 1 + below(256), last = edges[below(16) ? below(4) : 4 + below(3)] + below(4) - 2;
    command(list, last < writes ? 0 : last + 1 - writes, below(16) ? 15 : below(16), writes, 1);
}

/* A command with mask 0, short or long: most often its ids are no port's data, which would refuse it. */
static void idle(struct list *list) {
    uint32_t id = below(32) ? below(0xA0) : edge_id(), writes = below(8) ? 1 + below(6) : 1 + below(64);
    command(list, id, 0, writes, below(2));
}

/* Two words that change a length which is no multiple of 4 to one: the pair of zeros, or a command with any mask. */
static void fill_up(struct list *list) {
    command(list, below(2) ? below(0xA0) : held_id(), below(2) ? 0 : 15, 1, 0);
    if (below(2)) list->words[list->length - 2] = list->words[list->length - 1] = 0;
}

/* Commands with mask 0 stand in half of the lists, anywhere. Seven lengths of eight are legal; some lists are cut then. */
void random_list(struct list *list) {
    uint32_t commands = below(20), idles = below(2) ? 1 + below(8) : 0;
    list->length = 0;
    while (commands-- > 0) {
        uint32_t id = edge_id(), writes = below(is_data(id) ? 2 : 16) ? 1 + below(6) : 1 + below(256);
        size_t at = list->length;
        if (idles && below(idles) == 0)
            idle(list);
        else if (below(8))
            command(list, id, edge_mask(id), writes, below(2));
        else
            over_the_edge(list);
        list->words[at + 1] |= below(8) << 28; /* any unused bits are accepted */
    }
    if (list->length % 4 && below(8)) fill_up(list);
    uint32_t cut = below(16) ? 0 : below(4) ? 4 * (1 + below(3)) : 1 + below(7);
    list->length -= cut < list->length ? cut : 0;
    if (below(600) == 0) list->length = PICA_LIST_LENGTH_MOST - 4 + below(9); /* whatever stands there */
}

int has_mask_0(const struct list *list) {
    for (size_t at = 0; at + 1 < list->length; at += ((list->words[at + 1] >> 20 & 255) + 3) & ~UINT32_C(1))
        if ((list->words[at + 1] >> 16 & 15) == 0) return 1;
    return 0;
}

/* In three lists of four, all values or about half of them become what the cells hold, or the value before it in a command to one id; in
   one of these some then differ by a bit. Such writes often store what is there. */
void restate(struct list *list, const uint32_t *cells) {
    enum { ALL, HALF, HALF_BUT_BITS, NONE } which = below(4);
    for (size_t at = 0; which != NONE && at + 1 < list->length;) {
        uint32_t header = list->words[at + 1], id = header & 0xFFFF, count = header >> 20 & 255, step = header >> 31, again = below(3);
        for (uint32_t k = 0; k <= count; k++) {
            size_t word = at + k + (k > 0), before = k > 1 ? word - 1 : at;
            if (word >= list->length || id + step * k > 0x2FF) return;
            if (which == ALL || below(2)) list->words[word] = again && k > 0 && !step ? list->words[before] : cells[id + step * k];
            if (which == HALF_BUT_BITS && below(8) == 0) list->words[word] ^= UINT32_C(1) << below(32);
        }
        at += (count + 3) & ~UINT32_C(1);
    }
}

/* Mostly short; the long ones have stretches beyond the 256 writes that a command can carry. Half of them have mask 0 in them: all writes,
   or one of 2 to 64. */
void random_run(struct run *run) {
    uint32_t id = edge_id() % 0x240, mask = 15, turn = below(16) ? 4 : 400;
    run->length = below(64) ? below(64) : below(8) ? below(2000) : PICA_RUN_LENGTH_MOST - 1 + below(3);
    uint32_t rises = below(2), idles = below(2) ? 0 : 1 << below(7);
    for (size_t k = 0; k < run->length; k++) {
        if (below(turn) == 0) rises = below(2);
        if (below(turn) == 0) id = below(8) ? 0x41 + below(6) : edge_id();
        if (below(4 * turn) == 0) mask = below(16) ? below(2) ? 15 : 3 : below(20);
        if ((id >= 0xE0 && id < 0xF0) || (id >= 0x1C0 && id < 0x1D0)) mask = 15;
        if (id > 0x238) id = 0x120;
        run->ids[k] = id;
        run->masks[k] = idles && !is_data(id) && below(idles) == 0 ? 0 : mask;
        run->values[k] = any();
        id += rises;
    }
    if (below(16) == 0 && run->length > 0) { /* one write that is at fault, or nearly */
        uint32_t k = below((uint32_t)run->length);
        run->ids[k] = below(2) ? 0x23B + below(4) : edge_id();
        run->masks[k] = below(2) ? 15 : below(2) ? 0 : below(20);
    }
}

/* Any register with codes. */
static uint32_t coded_id(void) {
    static const uint16_t bases[] = {0xC0, 0xC8, 0xD0, 0xD8, 0xF0, 0xF8}, parts[] = {0, 1, 2, 4};
    static const uint16_t others[] = {0xE0, 0x100, 0x101, 0x116, 0x117};
    return below(2) ? bases[below(6)] + parts[below(4)] : others[below(5)];
}

/* Some stages become idle, or idle but for one bit of the codes that make it so. */
static void idle_stages(uint32_t *cells) {
    static const uint8_t parts[] = {0, 1, 2, 4}, alphas[] = {16, 12, 16, 16};
    for (uint32_t b = 0xC0; b <= 0xF8; b += 8) {
        if (b == 0xE0 || b == 0xE8 || below(2)) continue;
        idle_stage(&cells[b]);
        uint32_t k = below(4);
        if (below(4) == 0) cells[b + parts[k]] ^= UINT32_C(1) << (below(4) + below(2) * alphas[k]);
    }
}

/* Mostly a state that can be drawn with, often with idle stages; else some registers or one depth are random, or a single bit of them. */
void random_state(struct state *s, uint32_t given[PICA_GIVEN_LENGTH]) {
    valid_cells(s->cells);
    if (below(2)) s->cells[0x107] |= 0x1F00; /* without it few fragments write a whole colour */
    if (below(2)) idle_stages(s->cells);
    if (below(3) == 0)
        for (uint32_t k = below(3); k < 3; k++) {
            uint32_t id = coded_id();
            s->cells[id] = below(2) ? any() : s->cells[id] ^ UINT32_C(1) << below(32);
        }
    valid_given(given, s->cells);
    if (below(16) == 0) given[below(2) ? PICA_GIVEN_INCOMING_DEPTH : PICA_GIVEN_STORED_DEPTH] = any() >> below(17);
}
