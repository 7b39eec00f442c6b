/* The plain fragment: six stages of colour, the three tests, and what is stored. Only the registers that are used are read. */
#include "plain_codes.h"

static inline uint32_t byte_of(uint32_t word, int k) { return word >> 8 * k & 255; }

static inline uint32_t least(uint32_t a, uint32_t b) { return a < b ? a : b; }

/* THE COMBINER */

struct rgb {
    uint32_t r, g, b;
};

static inline uint32_t modulated(uint32_t a, uint32_t b, uint32_t c) { return (void)c, a * b / 255; }
static inline uint32_t added(uint32_t a, uint32_t b, uint32_t c) { return (void)c, least(a + b, 255); }
static inline uint32_t added_signed(uint32_t a, uint32_t b, uint32_t c) { return (void)c, a + b < 128 ? 0 : least(a + b - 128, 255); }
static inline uint32_t interpolated(uint32_t a, uint32_t b, uint32_t c) { return (a * c + b * (255 - c)) / 255; }
static inline uint32_t subtracted(uint32_t a, uint32_t b, uint32_t c) { return (void)c, a > b ? a - b : 0; }
static inline uint32_t multiplied_added(uint32_t a, uint32_t b, uint32_t c) { return least(a * b / 255 + c, 255); }
static inline uint32_t added_multiplied(uint32_t a, uint32_t b, uint32_t c) { return least(a + b, 255) * c / 255; }

static inline uint32_t dot3(struct rgb a, struct rgb b) {
    int32_t sum = (2 * (int32_t)a.r - 255) * (2 * (int32_t)b.r - 255) + (2 * (int32_t)a.g - 255) * (2 * (int32_t)b.g - 255) +
                  (2 * (int32_t)a.b - 255) * (2 * (int32_t)b.b - 255);
    return sum < 0 ? 0 : least((uint32_t)sum / 255, 255);
}

#define EACH(of) (struct rgb){of(a.r, b.r, c.r), of(a.g, b.g, c.g), of(a.b, b.b, c.b)}

/* One choice for the three channels. */
static inline struct rgb mixed_rgb(uint32_t mode, struct rgb a, struct rgb b, struct rgb c) {
    uint32_t dot;
    switch (mode) {
    case 0: return a;
    case 1: return EACH(modulated);
    case 2: return EACH(added);
    case 3: return EACH(added_signed);
    case 4: return EACH(interpolated);
    case 5: return EACH(subtracted);
    case 8: return EACH(multiplied_added);
    case 9: return EACH(added_multiplied);
    default: dot = dot3(a, b); return (struct rgb){dot, dot, dot};
    }
}

static inline uint32_t mixed_alpha(uint32_t mode, uint32_t a, uint32_t b, uint32_t c) {
    switch (mode) {
    case 0: return a;
    case 1: return modulated(a, b, c);
    case 2: return added(a, b, c);
    case 3: return added_signed(a, b, c);
    case 4: return interpolated(a, b, c);
    case 5: return subtracted(a, b, c);
    case 8: return multiplied_added(a, b, c);
    default: return added_multiplied(a, b, c);
    }
}

/* Where an RGB operand's channels stand in its colour: the three in their places, or one of them three times. */
#define PLACES(r, g, b) (r | g << 8 | b << 16)

/* An odd code is one minus what the even code before it names. */
static inline struct rgb rgb_operand(uint32_t code, uint32_t colour) {
    static const uint32_t places[8] = {PLACES(0, 8, 16), PLACES(24, 24, 24), PLACES(0, 0, 0), 0, PLACES(8, 8, 8), 0, PLACES(16, 16, 16), 0};
    uint32_t at = places[code >> 1], x = colour ^ -(code & 1);
    return (struct rgb){x >> (at & 31) & 255, x >> (at >> 8 & 31) & 255, x >> (at >> 16 & 31) & 255};
}

static inline uint32_t alpha_operand(uint32_t code, uint32_t colour) {
    return (colour ^ -(code & 1)) >> ((8 * (code >> 1) + 24) & 31) & 255;
}

/* A stage that hands on what it sees as Previous is passed over. */
static inline int is_idle(const uint32_t *r) { return ((~r[0] & 0xF000F) | (r[1] & 0x700F) | (r[2] & 0xF000F) | (r[4] & 0x30003)) == 0; }

static inline uint32_t scaled(uint32_t x, uint32_t by) { return least(x << by, 255); }

/* One stage on its five registers; colours by source code. */
static inline uint32_t stage(const uint32_t *r, const uint32_t *colours) {
    uint32_t rgb_mode = plain_bits(r[2], 0, 4), alpha_mode = plain_bits(r[2], 16, 4), alpha;
    struct rgb o[3], x;
    for (int k = 0; k < 3; k++) o[k] = rgb_operand(plain_bits(r[1], 4 * k, 4), colours[plain_bits(r[0], 4 * k, 4)]);
    x = mixed_rgb(rgb_mode, o[0], o[1], o[2]);
    if (rgb_mode == 7) {
        alpha = x.r;
    } else {
        uint32_t a[3];
        for (int k = 0; k < 3; k++) a[k] = alpha_operand(plain_bits(r[1], 12 + 4 * k, 3), colours[plain_bits(r[0], 16 + 4 * k, 4)]);
        alpha = mixed_alpha(alpha_mode, a[0], a[1], a[2]);
    }
    if ((r[4] & 0x30003) == 0) return x.r | x.g << 8 | x.b << 16 | alpha << 24;
    uint32_t by = plain_bits(r[4], 0, 2), alpha_by = plain_bits(r[4], 16, 2);
    return scaled(x.r, by) | scaled(x.g, by) << 8 | scaled(x.b, by) << 16 | scaled(alpha, alpha_by) << 24;
}

static uint32_t combine(const uint32_t *cells, const uint32_t *given) {
    static const uint16_t bases[6] = {0xC0, 0xC8, 0xD0, 0xD8, 0xF0, 0xF8};
    uint32_t colours[16], buffer = cells[0xFD], previous = 0;
    for (int k = 0; k < 7; k++) colours[k] = given[k];
    /* each stage has branches of its own, and so the processor's guesses go by that stage's past */
#pragma GCC unroll 6
    for (int k = 0; k < 6; k++) {
        const uint32_t *r = &cells[bases[k]];
        uint32_t seen = previous;
        if (!is_idle(r)) {
            colours[13] = buffer;
            colours[14] = r[3];
            colours[15] = previous;
            previous = stage(r, colours);
        }
        if (k >= 1 && k <= 4) {
            uint32_t from = (cells[0xE0] >> (7 + k) & 1 ? 0xFFFFFF : 0) | (cells[0xE0] >> (11 + k) & 1 ? 0xFF000000 : 0);
            buffer ^= (buffer ^ seen) & from;
        }
    }
    return previous;
}

/* THE TESTS */

static int passes(uint32_t code, uint32_t a, uint32_t b) {
    switch (code) {
    case 0: return 0;
    case 1: return 1;
    case 2: return a == b;
    case 3: return a != b;
    case 4: return a < b;
    case 5: return a <= b;
    case 6: return a > b;
    default: return a >= b;
    }
}

static uint32_t stencil_by(uint32_t op, uint32_t stored, uint32_t reference) {
    switch (op) {
    case 0: return stored;
    case 1: return 0;
    case 2: return reference;
    case 3: return least(stored + 1, 255);
    case 4: return stored ? stored - 1 : 0;
    case 5: return stored ^ 255;
    case 6: return (stored + 1) & 255;
    default: return (stored - 1) & 255;
    }
}

/* s is the combiner's result, d the stored colour; every operation works bit by bit, so that a whole colour goes at once. */
static uint32_t logic(uint32_t op, uint32_t s, uint32_t d) {
    switch (op) {
    case 0: return 0;
    case 1: return s & d;
    case 2: return s & ~d;
    case 3: return s;
    case 4: return 0xFFFFFFFF;
    case 5: return ~s;
    case 6: return d;
    case 7: return ~d;
    case 8: return ~(s & d);
    case 9: return s | d;
    case 10: return ~(s | d);
    case 11: return s ^ d;
    case 12: return ~(s ^ d);
    case 13: return ~s & d;
    case 14: return s | ~d;
    default: return ~s | d;
    }
}

/* Bytes of ones for the channels that 107 allows. */
static uint32_t channels(uint32_t r) { return (plain_bits(r, 8, 4) * 0x204081 & 0x1010101) * 0xFF; }

/* THE FRAGMENT */

/* The refusal of a state that one was seen to be due for, 0 where it was not. */
static uint64_t state_refused(const uint32_t *cells) {
    uint32_t id = plain_unnamed(cells);
    if (id) return plain_refused(PICA_CODE_WITHOUT_NAME, id);
    if (cells[0xE0] & 7) return plain_refused(PICA_NOT_BUILT, 0xE0);
    if (cells[0x100] & 0x3000103) return plain_refused(PICA_NOT_BUILT, 0x100);
    if ((cells[0x117] & 0x70003) != 2) return plain_refused(PICA_NOT_BUILT, 0x117);
    return 0;
}

/* Not 0 where a code has no name or something isn't built; which comes first is looked for only then. */
static inline uint64_t some_refused(const uint32_t *cells) {
    return plain_some_lack(cells) | (cells[0xE0] & 7) | (cells[0x100] & 0x3000103) | ((cells[0x117] & 0x70003) ^ 2) |
           ((cells[0x116] & 3) == 1);
}

/* The verdict; the stencil is changed in place. */
static uint32_t judge(const uint32_t *cells, uint32_t alpha, const uint32_t *given, uint32_t *stencil) {
    uint32_t a = cells[0x104], s = cells[0x105], d = cells[0x107], op, verdict, old = *stencil;
    if ((a & 1) && !passes(plain_bits(a, 4, 3), alpha, byte_of(a, 1))) return PICA_ALPHA_FAILURE;
    int stencils = (s & 1) && plain_bits(cells[0x116], 0, 2) == 3;
    if (stencils && !passes(plain_bits(s, 4, 3), byte_of(s, 2) & byte_of(s, 3), old & byte_of(s, 3))) {
        verdict = PICA_STENCIL_FAILURE;
        op = plain_bits(cells[0x106], 0, 3);
    } else if ((d & 1) && !passes(plain_bits(d, 4, 3), given[PICA_GIVEN_INCOMING_DEPTH], given[PICA_GIVEN_STORED_DEPTH])) {
        verdict = PICA_DEPTH_FAILURE;
        op = plain_bits(cells[0x106], 4, 3);
    } else {
        verdict = PICA_PASS;
        op = plain_bits(cells[0x106], 8, 3);
    }
    if (stencils && (cells[0x115] & 1)) *stencil = (old & ~byte_of(s, 1)) | (stencil_by(op, old, byte_of(s, 2)) & byte_of(s, 1));
    return verdict;
}

uint64_t plain_fragment(const uint32_t *cells, size_t cells_length, const uint32_t *fog, size_t fog_length, const uint32_t *light,
                        size_t light_length, const uint32_t given[PICA_GIVEN_LENGTH], uint32_t stored[PICA_STORED_LENGTH]) {
    (void)fog, (void)light;
    if (!plain_is_sized(cells_length, fog_length, light_length)) return plain_refused(PICA_BUFFER_LENGTH, 0);
    if (some_refused(cells)) return state_refused(cells);
    uint32_t largest = (cells[0x116] & 3) == 0 ? 65535 : 16777215;
    if (given[PICA_GIVEN_INCOMING_DEPTH] > largest) return plain_refused(PICA_DEPTH_ABOVE_LARGEST, 0);
    if (given[PICA_GIVEN_STORED_DEPTH] > largest) return plain_refused(PICA_DEPTH_ABOVE_LARGEST, 1);

    uint32_t result = combine(cells, given), colour = given[PICA_GIVEN_STORED_COLOUR], stencil = given[PICA_GIVEN_STORED_STENCIL] & 255,
             depth = given[PICA_GIVEN_STORED_DEPTH];
    uint32_t verdict = judge(cells, result >> 24, given, &stencil);
    if (verdict == PICA_PASS) {
        uint32_t allowed = cells[0x113] & 15 ? channels(cells[0x107]) : 0;
        colour = (colour & ~allowed) | (logic(cells[0x102] & 15, result, colour) & allowed);
        if ((cells[0x107] & 0x1001) == 0x1001 && (cells[0x115] & 2)) depth = given[PICA_GIVEN_INCOMING_DEPTH];
    }
    stored[PICA_STORED_COLOUR] = colour;
    stored[PICA_STORED_STENCIL] = stencil;
    stored[PICA_STORED_DEPTH] = depth;
    return verdict;
}
