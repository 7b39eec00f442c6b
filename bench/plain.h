/* A plain C version of pica.h's functions, with the same answers, to measure the proved ones against. */
#ifndef PLAIN_H
#define PLAIN_H

#include "pica.h"

uint64_t plain_read(uint32_t *cells, size_t cells_length, uint32_t *fog, size_t fog_length, uint32_t *light, size_t light_length,
                    const uint32_t *list, size_t list_length, uint32_t differences[1]);
uint64_t plain_open(const uint32_t *cells, size_t cells_length, const uint32_t *fog, size_t fog_length, const uint32_t *light,
                    size_t light_length, uint32_t *spare_cells, size_t spare_cells_length, uint32_t *spare_fog, size_t spare_fog_length,
                    uint32_t *spare_light, size_t spare_light_length, uint32_t reader[PICA_READER]);
uint64_t plain_feed(uint32_t *cells, size_t cells_length, uint32_t *fog, size_t fog_length, uint32_t *light, size_t light_length,
                    uint32_t reader[PICA_READER], const uint32_t *part, size_t part_length);
uint64_t plain_close(uint32_t *cells, size_t cells_length, uint32_t *fog, size_t fog_length, uint32_t *light, size_t light_length,
                     uint32_t *spare_cells, size_t spare_cells_length, uint32_t *spare_fog, size_t spare_fog_length,
                     uint32_t *spare_light, size_t spare_light_length, uint32_t reader[PICA_READER], uint32_t differences[1]);
uint64_t plain_write(uint32_t *cells, size_t cells_length, uint32_t *fog, size_t fog_length, uint32_t *light, size_t light_length,
                     uint32_t id, uint32_t mask, uint32_t value);
uint64_t plain_writes(const uint32_t *list, size_t list_length, uint32_t *ids, size_t ids_length, uint32_t *masks, size_t masks_length,
                      uint32_t *values, size_t values_length);
uint64_t plain_pack(const uint32_t *ids, size_t ids_length, const uint32_t *masks, size_t masks_length, const uint32_t *values,
                    size_t values_length, uint32_t *space, size_t space_length);
uint64_t plain_decode(const uint32_t *cells, size_t cells_length, const uint32_t *fog, size_t fog_length, const uint32_t *light,
                      size_t light_length, uint32_t fields[PICA_FIELDS_LENGTH]);
uint64_t plain_fragment(const uint32_t *cells, size_t cells_length, const uint32_t *fog, size_t fog_length, const uint32_t *light,
                        size_t light_length, const uint32_t given[PICA_GIVEN_LENGTH], uint32_t stored[PICA_STORED_LENGTH]);

/* Shared by the parts of the plain version. */
static inline uint64_t plain_refused(uint32_t number, uint32_t place) { return (uint64_t)number << 32 | place; }

static inline int plain_is_sized(size_t cells, size_t fog, size_t light) {
    return cells == PICA_CELLS_LENGTH && fog == PICA_FOG_LENGTH && light == PICA_LIGHT_LENGTH;
}

/* The number of the fault of a write, 0 where it is allowed. */
static inline uint32_t plain_fault(uint32_t id, uint32_t mask) {
    if (id > 0x2FF) return PICA_ID_ABOVE_2FF;
    if (id == 0x23C || id == 0x23D) return PICA_JUMP_REGISTER;
    if ((id - 0xE8 < 8 || id - 0x1C8 < 8) && mask != 15) return PICA_PORT_MASK;
    return 0;
}

#endif
