/* The plain reader: one pass that judges the list, one that applies it. */
#include "plain_apply.h"

#define STAGE(b) [b] = 0xFFF0FFF, [b + 1] = 0x777FFF, [b + 2] = 0xF000F, [b + 3] = 0xFFFFFFFF, [b + 4] = 0x30003

/* The bits that each register holds; no bit for a register that isn't held. */
const uint32_t plain_held[PICA_CELLS_LENGTH] = {
    [0x40] = 3,
    [0x41] = 0xFFFFFF, [0x42] = 0xFFFFFFFF, [0x43] = 0xFFFFFF, [0x44] = 0xFFFFFFFF,
    [0x47] = 1, [0x48] = 0xFFFFFF, [0x49] = 0xFFFFFF, [0x4A] = 0xFFFFFF, [0x4B] = 0xFFFFFF,
    [0x4D] = 0xFFFFFF, [0x4E] = 0xFFFFFF,
    [0x65] = 3, [0x66] = 0x3FF03FF, [0x67] = 0x3FF03FF, [0x68] = 0x3FF03FF, [0x6D] = 1,
    STAGE(0xC0), STAGE(0xC8), STAGE(0xD0), STAGE(0xD8), STAGE(0xF0), STAGE(0xF8),
    [0xE0] = 0x301FF0F, [0xE1] = 0xFFFFFF, [0xE6] = 0x7F, [0xFD] = 0xFFFFFFFF,
    [0x100] = 0x3000103, [0x101] = 0xFFFF0707, [0x102] = 0xF, [0x103] = 0xFFFFFFFF,
    [0x104] = 0xFF71, [0x105] = 0xFFFFFF71, [0x106] = 0x777, [0x107] = 0x1F71,
    [0x112] = 0xF, [0x113] = 0xF, [0x114] = 3, [0x115] = 3, [0x116] = 3, [0x117] = 0x70003,
    [0x1C5] = 0x1FFF,
};

static uint32_t apply(uint32_t *restrict cells, uint32_t *restrict fog, uint32_t *restrict light, const uint32_t *restrict at,
                      const uint32_t *end) {
    uint32_t made = 0;
    while (at < end) {
        struct command c = command_of(at[1]);
        made += apply_command(cells, fog, light, c, at);
        at += c.words;
    }
    return made;
}

uint64_t plain_read(uint32_t *cells, size_t cells_length, uint32_t *fog, size_t fog_length, uint32_t *light, size_t light_length,
                    const uint32_t *list, size_t list_length, uint32_t differences[1]) {
    if (!plain_is_sized(cells_length, fog_length, light_length)) return plain_refused(PICA_BUFFER_LENGTH, 0);
    uint64_t answer = judge(list, list_length);
    if (pica_number(answer) == 0) differences[0] = apply(cells, fog, light, list, list + list_length);
    return answer;
}

uint64_t plain_write(uint32_t *cells, size_t cells_length, uint32_t *fog, size_t fog_length, uint32_t *light, size_t light_length,
                     uint32_t id, uint32_t mask, uint32_t value) {
    if (!plain_is_sized(cells_length, fog_length, light_length)) return plain_refused(PICA_BUFFER_LENGTH, 0);
    if (mask > 15) return plain_refused(PICA_MASK_ABOVE_15, 0);
    uint32_t number = plain_fault(id, mask);
    if (number) return plain_refused(number, 0);
    if (is_port(id)) return put_port(cells, fog, light, id, &value, 1);
    return put_cell(&cells[id], plain_held[id] & spread(mask), value);
}
