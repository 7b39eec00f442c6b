#include "plain_codes.h"

/* A set of codes is one bit for each code. */
static inline int among(uint32_t set, uint32_t word, int first, int width) { return set >> plain_bits(word, first, width) & 1; }

static int source_lacks(uint32_t r) {
    enum { UNNAMED = 0x1F80 };
    return among(UNNAMED, r, 0, 4) | among(UNNAMED, r, 4, 4) | among(UNNAMED, r, 8, 4) | among(UNNAMED, r, 16, 4) |
           among(UNNAMED, r, 20, 4) | among(UNNAMED, r, 24, 4);
}

static int operand_lacks(uint32_t r) {
    enum { UNNAMED = 0xFFFF & ~0x333F };
    return among(UNNAMED, r, 0, 4) | among(UNNAMED, r, 4, 4) | among(UNNAMED, r, 8, 4);
}

static int combiner_lacks(uint32_t r) {
    uint32_t rgb = plain_bits(r, 0, 4), alpha = plain_bits(r, 16, 4);
    return rgb > 9 || alpha > 9 || ((alpha == 6 || alpha == 7) && rgb != 7);
}

static int scale_lacks(uint32_t r) { return plain_bits(r, 0, 2) == 3 || plain_bits(r, 16, 2) == 3; }

/* The lowest id of the stage whose source register is b. */
static uint32_t stage_lacks(const uint32_t *cells, uint32_t b) {
    if (source_lacks(cells[b])) return b;
    if (operand_lacks(cells[b + 1])) return b + 1;
    if (combiner_lacks(cells[b + 2])) return b + 2;
    if (scale_lacks(cells[b + 4])) return b + 4;
    return 0;
}

static uint32_t frame_lacks(const uint32_t *cells) {
    enum { BLEND = 0x8000, SIZES = 0xA, FORMATS = 0xE2 };
    uint32_t f = cells[0x101];
    if (plain_bits(cells[0x100], 0, 2) == 2) return 0x100;
    if (among(BLEND, f, 16, 4) | among(BLEND, f, 20, 4) | among(BLEND, f, 24, 4) | among(BLEND, f, 28, 4)) return 0x101;
    if (plain_bits(cells[0x116], 0, 2) == 1) return 0x116;
    if (among(SIZES, cells[0x117], 0, 2) | among(FORMATS, cells[0x117], 16, 3)) return 0x117;
    return 0;
}

uint32_t plain_unnamed(const uint32_t *cells) {
    enum { FOG_MODES = 0x5E };
    uint32_t id;
    for (uint32_t b = 0xC0; b <= 0xD8; b += 8)
        if ((id = stage_lacks(cells, b))) return id;
    if (among(FOG_MODES, cells[0xE0], 0, 3)) return 0xE0;
    for (uint32_t b = 0xF0; b <= 0xF8; b += 8)
        if ((id = stage_lacks(cells, b))) return id;
    return frame_lacks(cells);
}
