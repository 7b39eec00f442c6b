/* The plain decoder: a line for each register, straight from its cell to its fields. */
#include "plain_codes.h"

#define FIELD(id, first, width) *to++ = plain_bits(cells[id], first, width)
#define WHOLE(id) *to++ = cells[id]
#define BYTES(id) FIELD(id, 0, 8), FIELD(id, 8, 8), FIELD(id, 16, 8), *to++ = cells[id] >> 24
#define SIGNED(id, first) *to++ = (plain_bits(cells[id], first, 10) ^ 0x200) - 0x200
#define NIBBLES(id, first) FIELD(id, first, 4), FIELD(id, first + 4, 4), FIELD(id, first + 8, 4)
#define STAGE(b)                                                                                                                           \
    NIBBLES(b, 0), NIBBLES(b, 16), NIBBLES(b + 1, 0), FIELD(b + 1, 12, 3), FIELD(b + 1, 16, 3), FIELD(b + 1, 20, 3), FIELD(b + 2, 0, 4),   \
        FIELD(b + 2, 16, 4), BYTES(b + 3), FIELD(b + 4, 0, 2), FIELD(b + 4, 16, 2)

static inline uint32_t *viewport_to(const uint32_t *restrict cells, uint32_t *restrict to) {
    FIELD(0x40, 0, 2), FIELD(0x41, 0, 24), WHOLE(0x42), FIELD(0x43, 0, 24), WHOLE(0x44);
    FIELD(0x47, 0, 1), FIELD(0x48, 0, 24), FIELD(0x49, 0, 24), FIELD(0x4A, 0, 24), FIELD(0x4B, 0, 24), FIELD(0x4D, 0, 24),
    FIELD(0x4E, 0, 24);
    FIELD(0x65, 0, 2), FIELD(0x66, 0, 10), FIELD(0x66, 16, 10), FIELD(0x67, 0, 10), FIELD(0x67, 16, 10);
    SIGNED(0x68, 0), SIGNED(0x68, 16), FIELD(0x6D, 0, 1);
    return to;
}

static inline uint32_t *stages_to(const uint32_t *restrict cells, uint32_t *restrict to) {
    STAGE(0xC0), STAGE(0xC8), STAGE(0xD0), STAGE(0xD8);
    FIELD(0xE0, 0, 3), FIELD(0xE0, 3, 1);
    for (int bit = 8; bit <= 16; bit++) FIELD(0xE0, bit, 1);
    FIELD(0xE0, 24, 2), FIELD(0xE1, 0, 8), FIELD(0xE1, 8, 8), FIELD(0xE1, 16, 8), FIELD(0xE6, 0, 7);
    STAGE(0xF0), STAGE(0xF8), BYTES(0xFD);
    return to;
}

static inline void frame_to(const uint32_t *restrict cells, uint32_t *restrict to) {
    FIELD(0x100, 0, 2), FIELD(0x100, 8, 1), FIELD(0x100, 24, 1), FIELD(0x100, 25, 1);
    FIELD(0x101, 0, 3), FIELD(0x101, 8, 3), NIBBLES(0x101, 16), FIELD(0x101, 28, 4), FIELD(0x102, 0, 4), BYTES(0x103);
    FIELD(0x104, 0, 1), FIELD(0x104, 4, 3), FIELD(0x104, 8, 8), FIELD(0x105, 0, 1), FIELD(0x105, 4, 3), FIELD(0x105, 8, 8),
    FIELD(0x105, 16, 8);
    FIELD(0x105, 24, 8), FIELD(0x106, 0, 3), FIELD(0x106, 4, 3), FIELD(0x106, 8, 3), FIELD(0x107, 0, 1), FIELD(0x107, 4, 3);
    for (int bit = 8; bit <= 12; bit++) FIELD(0x107, bit, 1);
    FIELD(0x112, 0, 4), FIELD(0x113, 0, 4), FIELD(0x114, 0, 1), FIELD(0x114, 1, 1), FIELD(0x115, 0, 1), FIELD(0x115, 1, 1),
    FIELD(0x116, 0, 2);
    FIELD(0x117, 0, 2), FIELD(0x117, 16, 3), FIELD(0x1C5, 0, 8), FIELD(0x1C5, 8, 5);
}

/* Not 0 where a code has no name; which one is looked for only then. */
static inline uint64_t some_refused(const uint32_t *cells) {
    enum { FOG_MODES = 0x5E, SIZES = 0xA, FORMATS = 0xE2 }; /* a bit for each code without a name */
    return plain_some_lack(cells) | (FOG_MODES >> (cells[0xE0] & 7) & 1) | ((cells[0x100] & 3) == 2) | ((cells[0x116] & 3) == 1) |
           (SIZES >> (cells[0x117] & 3) & 1) | (FORMATS >> plain_bits(cells[0x117], 16, 3) & 1);
}

uint64_t plain_decode(const uint32_t *cells, size_t cells_length, const uint32_t *fog, size_t fog_length, const uint32_t *light,
                      size_t light_length, uint32_t fields[PICA_FIELDS_LENGTH]) {
    (void)fog, (void)light;
    if (!plain_is_sized(cells_length, fog_length, light_length)) return plain_refused(PICA_BUFFER_LENGTH, 0);
    if (some_refused(cells)) return plain_refused(PICA_CODE_WITHOUT_NAME, plain_unnamed(cells));
    frame_to(cells, stages_to(cells, viewport_to(cells, fields)));
    return 0;
}
