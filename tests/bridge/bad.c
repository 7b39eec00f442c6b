/* Stand-ins for the library that misbehave in one way each (BAD), 0 in none: the bridge has to tell. */
#include "pica.h"

#define UNUSED(x) (void)(x)
#define STATE_UNUSED UNUSED(cells), UNUSED(n), UNUSED(fog), UNUSED(m), UNUSED(light), UNUSED(k)

uint64_t pica_read(uint32_t *cells, size_t n, uint32_t *fog, size_t m, uint32_t *light, size_t k, const uint32_t *list, size_t length,
                   uint32_t differences[1]) {
    STATE_UNUSED, UNUSED(list), UNUSED(length);
    if (BAD == 1) cells[n] = 1;
    if (BAD == 2) *(cells - 1) = 1;
    if (BAD == 3) *(uint32_t *)list ^= 1;
    if (BAD == 7) differences[1] = 1;
    return 0;
}

uint64_t pica_write(uint32_t *cells, size_t n, uint32_t *fog, size_t m, uint32_t *light, size_t k, uint32_t id, uint32_t mask,
                    uint32_t value) {
    STATE_UNUSED, UNUSED(id), UNUSED(mask), UNUSED(value);
    return 0;
}

uint64_t pica_writes(const uint32_t *list, size_t length, uint32_t *ids, size_t n, uint32_t *masks, size_t m, uint32_t *values, size_t k) {
    UNUSED(list), UNUSED(length), UNUSED(ids), UNUSED(n), UNUSED(masks), UNUSED(m), UNUSED(values), UNUSED(k);
    if (BAD == 5) values[k] = 1;
    if (BAD == 6) *(uint32_t *)list ^= 1;
    return 0;
}

uint64_t pica_pack(const uint32_t *cells, size_t n, const uint32_t *fog, size_t m, const uint32_t *light, size_t k, uint32_t *space,
                   size_t room) {
    STATE_UNUSED, UNUSED(space), UNUSED(room);
    return 0;
}

uint64_t pica_decode(const uint32_t *cells, size_t n, const uint32_t *fog, size_t m, const uint32_t *light, size_t k,
                     uint32_t fields[PICA_FIELDS_LENGTH]) {
    STATE_UNUSED;
    if (BAD == 4) fields[PICA_FIELDS_LENGTH] = 1;
    return 0;
}

uint64_t pica_fragment(const uint32_t *cells, size_t n, const uint32_t *fog, size_t m, const uint32_t *light, size_t k,
                       const uint32_t given[PICA_GIVEN_LENGTH], uint32_t stored[PICA_STORED_LENGTH]) {
    STATE_UNUSED, UNUSED(given), UNUSED(stored);
    return 0;
}

#define SPARE_UNUSED UNUSED(spare_cells), UNUSED(sn), UNUSED(spare_fog), UNUSED(sm), UNUSED(spare_light), UNUSED(sk), UNUSED(reader)

uint64_t pica_open(const uint32_t *cells, size_t n, const uint32_t *fog, size_t m, const uint32_t *light, size_t k, uint32_t *spare_cells,
                   size_t sn, uint32_t *spare_fog, size_t sm, uint32_t *spare_light, size_t sk, uint32_t reader[PICA_READER]) {
    STATE_UNUSED, SPARE_UNUSED;
    return 0;
}

uint64_t pica_feed(uint32_t *cells, size_t n, uint32_t *fog, size_t m, uint32_t *light, size_t k, uint32_t reader[PICA_READER],
                   const uint32_t *part, size_t length) {
    STATE_UNUSED, UNUSED(reader), UNUSED(part), UNUSED(length);
    return 0;
}

uint64_t pica_close(uint32_t *cells, size_t n, uint32_t *fog, size_t m, uint32_t *light, size_t k, uint32_t *spare_cells, size_t sn,
                    uint32_t *spare_fog, size_t sm, uint32_t *spare_light, size_t sk, uint32_t reader[PICA_READER],
                    uint32_t differences[1]) {
    STATE_UNUSED, SPARE_UNUSED, UNUSED(differences);
    return 0;
}
