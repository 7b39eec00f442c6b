/* The codes without a name, for the plain decoder and the plain fragment. */
#ifndef PLAIN_CODES_H
#define PLAIN_CODES_H

#include "plain.h"

uint32_t plain_unnamed(const uint32_t *cells); /* the lowest id of a register that holds one, 0 for none */

/* The bits of a word from `first`, `width` of them. */
static inline uint32_t plain_bits(uint32_t word, int first, int width) { return word >> first & ((UINT32_C(1) << width) - 1); }

/* A register of two stages, eight ids apart, in one word, so that both are tested at once; a mask for the one is for both. */
static inline uint64_t plain_both(const uint32_t *r) { return r[0] | (uint64_t)r[8] << 32; }
#define PLAIN_BOTH(mask) (UINT64_C(mask) << 32 | UINT64_C(mask))

/* Not 0 where one of the two stages holds a code without a name. All codes of a register are tested at once, each in its own bits. */
static inline uint64_t plain_stages_lack(const uint32_t *r) {
    uint64_t source = plain_both(r), operand = plain_both(r + 1), mode = plain_both(r + 2), scale = plain_both(r + 4);
    uint64_t b1 = source >> 1, b2 = source >> 2, b3 = source >> 3;
    uint64_t sources = b3 ^ (b2 & ((source & b1) | (b3 & (source | b1))));     /* 7 to C */
    uint64_t operands = operand & (operand >> 1 | operand >> 2);               /* 6, 7, A, B, E, F: in bit 1 */
    uint64_t modes = mode & (mode << 1 | mode << 2);                           /* above 9: in bit 3 */
    uint64_t dots = mode & mode << 1 & ~(mode >> 1), dot_rgba = dots & mode << 2; /* 6 and 7, and 7: in bit 2 */
    return (sources & PLAIN_BOTH(0x1110111)) | (operands & PLAIN_BOTH(0x222)) | (modes & PLAIN_BOTH(0x80008)) |
           (dots & ~(dot_rgba << 16) & PLAIN_BOTH(0x40000)) | (scale & scale >> 1 & PLAIN_BOTH(0x10001));
}

/* Not 0 where a stage or one of the blend functions holds a code without a name. */
static inline uint64_t plain_some_lack(const uint32_t *cells) {
    uint32_t f = cells[0x101];
    return plain_stages_lack(&cells[0xC0]) | plain_stages_lack(&cells[0xD0]) | plain_stages_lack(&cells[0xF0]) |
           (f & f >> 1 & f >> 2 & f >> 3 & 0x11110000);
}

#endif
