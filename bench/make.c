#include "bench.h"

#define FIRST UINT64_C(0x9E3779B97F4A7C15)

static uint64_t x = FIRST;

void begin(void) { x = FIRST; }

uint32_t any(void) {
    x ^= x >> 12;
    x ^= x << 25;
    x ^= x >> 27;
    return (uint32_t)(x * UINT64_C(0x2545F4914F6CDD1D) >> 32);
}

uint32_t below(uint32_t limit) { return (uint32_t)((uint64_t)any() * limit >> 32); }

void fill(uint32_t *words, size_t length) {
    for (size_t k = 0; k < length; k++) words[k] = any();
}

/* Any held register but those of the ports, whose index cells are set where a table is written. */
uint32_t held_id(void) {
    static const uint16_t bases[6] = {0xC0, 0xC8, 0xD0, 0xD8, 0xF0, 0xF8};
    static const uint16_t others[] = {0x40,  0x41,  0x42,  0x43,  0x44,  0x47,  0x48,  0x49,  0x4A,  0x4B,  0x4D,  0x4E,
                                      0x65,  0x66,  0x67,  0x68,  0x6D,  0xE0,  0xE1,  0xFD,  0x100, 0x101, 0x102, 0x103,
                                      0x104, 0x105, 0x106, 0x107, 0x112, 0x113, 0x114, 0x115, 0x116, 0x117};
    uint32_t k = below(64);
    return k < 30 ? bases[k / 5] + k % 5u : others[k - 30];
}

/* A command with random parameters is put at the list's end. */
void command(struct list *list, uint32_t id, uint32_t mask, uint32_t writes, uint32_t step) {
    uint32_t words = (writes + 2) & ~UINT32_C(1), *at = &list->words[list->length];
    fill(at, words);
    at[1] = id | mask << 16 | (writes - 1) << 20 | step << 31;
    list->length += words;
}

/* One of the codes whose bit in the set is 1. */
static uint32_t one_of(uint32_t set) {
    uint32_t code;
    do code = below(16);
    while (!(set >> code & 1));
    return code;
}

static void valid_stage(uint32_t *r) {
    enum { SOURCES = 0xE07F, OPERANDS = 0x333F, MODES = 0x3FF, ALPHA_MODES = 0x33F };
    r[0] = any() & 0xF000F000;
    r[1] = any() & 0xFFFFF000;
    for (int k = 0; k < 3; k++) {
        r[0] |= one_of(SOURCES) << 4 * k | one_of(SOURCES) << (16 + 4 * k);
        r[1] |= one_of(OPERANDS) << 4 * k;
    }
    uint32_t rgb = one_of(MODES);
    r[2] = (any() & 0xFFF0FFF0) | rgb | one_of(rgb == 7 ? MODES : ALPHA_MODES) << 16;
    r[3] = any();
    r[4] = (any() & 0xFFFCFFFC) | below(3) | below(3) << 16;
}

/* A valid stage becomes one that hands on what it sees as Previous; the operands that it doesn't use stay as they are. */
void idle_stage(uint32_t *r) {
    r[0] |= 0xF000F;
    r[1] &= ~UINT32_C(0x700F);
    r[2] &= ~UINT32_C(0xF000F);
    r[4] &= ~UINT32_C(0x30003);
}

/* A state that a fragment can be drawn with; all else in it is random, the bits that no register holds too. */
void valid_cells(uint32_t *cells) {
    fill(cells, PICA_CELLS_LENGTH);
    for (uint32_t b = 0xC0; b <= 0xF8; b += 8)
        if (b != 0xE0 && b != 0xE8) valid_stage(&cells[b]);
    cells[0xE0] &= ~UINT32_C(7);
    cells[0x100] &= ~UINT32_C(0x3000103);
    cells[0x101] &= 0x7777FFFF;
    cells[0x116] = (any() & ~UINT32_C(3)) | (below(4) ? 3 : below(2) * 2);
    cells[0x117] = (any() & ~UINT32_C(0x70003)) | 2;
}

/* All three tests are made, and each of them fails some of the fragments. */
void mixed_tests(uint32_t *cells) {
    cells[0x102] = 3;
    cells[0x104] = 0x2061;     /* alpha greater than 20h */
    cells[0x105] = 0x0301FF31; /* the low two bits of the stencil are not 1 */
    cells[0x106] = 0x643;
    cells[0x107] = 0x1F51; /* depth at most the stored one */
    cells[0x113] = 15;
    cells[0x115] = 3;
    cells[0x116] = 3;
}

/* Depths that the state's format allows; often equal, so that every comparison has both answers. */
void valid_given(uint32_t given[PICA_GIVEN_LENGTH], const uint32_t *cells) {
    uint32_t depths = cells[0x116] & 3 ? 0x1000000 : 0x10000;
    fill(given, PICA_GIVEN_LENGTH);
    given[PICA_GIVEN_INCOMING_DEPTH] = below(depths);
    given[PICA_GIVEN_STORED_DEPTH] = below(4) ? below(depths) : given[PICA_GIVEN_INCOMING_DEPTH];
}
