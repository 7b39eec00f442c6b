/* The plain pieces: whole commands at once where they are here, stretches of a command's extra parameters too, and else word by word. */
#include "plain_apply.h"

/* The reader's words, in their order. */
struct progress {
    uint32_t come, place, begun, first, id, mask, step, left, pad, writes, fault, differences;
};

static inline struct progress progress_of(const uint32_t *r) {
    return (struct progress){r[0], r[1], r[2], r[3], r[4], r[5], r[6], r[7], r[8], r[9], r[10], r[11]};
}

static inline void put_progress(uint32_t *r, struct progress p) {
    r[0] = p.come, r[1] = p.place, r[2] = p.begun, r[3] = p.first, r[4] = p.id, r[5] = p.mask;
    r[6] = p.step, r[7] = p.left, r[8] = p.pad, r[9] = p.writes, r[10] = p.fault, r[11] = p.differences;
}

/* A state takes what counts of another. */
static void take(uint32_t *restrict cells, uint32_t *restrict fog, uint32_t *restrict light, const uint32_t *restrict from_cells,
                 const uint32_t *restrict from_fog, const uint32_t *restrict from_light) {
    for (size_t k = 0; k < PICA_CELLS_LENGTH; k++) put_cell(&cells[k], plain_held[k], from_cells[k]);
    for (size_t k = 0; k < PICA_FOG_LENGTH; k++) fog[k] = low_24(fog[k], from_fog[k]);
    for (size_t k = 0; k < PICA_LIGHT_LENGTH; k++) light[k] = low_24(light[k], from_light[k]);
}

/* Commands whose words are all here, up to one that can be at fault. What a reader keeps of the last of them is put together at the end. */
static inline const uint32_t *whole_commands(struct progress *p, uint32_t *restrict cells, uint32_t *restrict fog,
                                             uint32_t *restrict light, const uint32_t *restrict part, const uint32_t *end) {
    const uint32_t *at = part, *last = part;
    uint32_t writes = p->writes, made = p->differences;
    while (end - at >= 2) {
        struct command c = command_of(at[1]);
        if (end - at < (ptrdiff_t)c.words || can_fail(c.id, c.id + c.step * c.count, c.mask)) break;
        made += apply_command(cells, fog, light, c, at);
        writes += writes_of(c);
        last = at;
        at += c.words;
    }
    if (at == part) return at;
    struct command c = command_of(last[1]);
    p->place = p->come + (uint32_t)(last - part);
    p->first = last[0];
    p->id = c.id + c.step * c.count;
    p->mask = c.mask;
    p->step = c.step;
    p->come += (uint32_t)(at - part);
    p->writes = writes;
    p->differences = made;
    return at;
}

/* A write that may be at fault. */
static inline void put_sound(struct progress *p, uint32_t *restrict cells, uint32_t *restrict fog, uint32_t *restrict light,
                             uint32_t value) {
    if (p->fault == 0) p->fault = plain_fault(p->id, p->mask);
    if (p->fault) return;
    if (is_port(p->id))
        p->differences += put_port(cells, fog, light, p->id, &value, 1);
    else
        p->differences += put_cell(&cells[p->id], plain_held[p->id] & spread(p->mask & 15), value);
}

/* Extra parameters: all that are here if none of them can be at fault, else one. */
static inline const uint32_t *extras(struct progress *p, uint32_t *restrict cells, uint32_t *restrict fog, uint32_t *restrict light,
                                     const uint32_t *restrict at, const uint32_t *end) {
    uint32_t count = least(p->left, (uint32_t)(end - at)), id = p->id + p->step, last = id + p->step * (count - 1);
    if (p->fault || p->step > 1 || p->id > 0xFFFF || can_fail(id, last, p->mask)) {
        count = 1;
        p->id = id;
        put_sound(p, cells, fog, light, at[0]);
    } else {
        uint32_t bytes = spread(p->mask & 15);
        p->id = last;
        if (p->step)
            p->differences += put_rising(cells, fog, light, id, bytes, at, count);
        else if (is_port(id))
            p->differences += put_port(cells, fog, light, id, at, count);
        else
            p->differences += put_values(&cells[id], plain_held[id] & bytes, at, count);
    }
    p->come += count;
    p->left -= count;
    return at + count;
}

static inline void header(struct progress *p, uint32_t *restrict cells, uint32_t *restrict fog, uint32_t *restrict light, uint32_t word) {
    struct command c = command_of(word);
    p->begun = 0;
    p->id = c.id;
    p->mask = c.mask;
    p->step = c.step;
    p->left = c.count;
    p->pad = c.count & 1;
    p->writes += writes_of(c);
    p->come++;
    put_sound(p, cells, fog, light, p->first);
}

/* The words up to `end`, which none of the 65,536 is beyond. */
static inline void go_on(struct progress *p, uint32_t *restrict cells, uint32_t *restrict fog, uint32_t *restrict light,
                         const uint32_t *restrict at, const uint32_t *end) {
    while (at < end) {
        if (p->left) {
            at = extras(p, cells, fog, light, at, end);
        } else if (p->pad) {
            p->pad--, p->come++, at++;
        } else if (p->begun) {
            header(p, cells, fog, light, *at++);
        } else if (p->fault) {
            p->come += (uint32_t)(end - at);
            return;
        } else {
            at = whole_commands(p, cells, fog, light, at, end);
            if (at < end) p->place = p->come++, p->begun = 1, p->first = *at++;
        }
    }
}

uint64_t plain_open(const uint32_t *cells, size_t cells_length, const uint32_t *fog, size_t fog_length, const uint32_t *light,
                    size_t light_length, uint32_t *spare_cells, size_t spare_cells_length, uint32_t *spare_fog, size_t spare_fog_length,
                    uint32_t *spare_light, size_t spare_light_length, uint32_t reader[PICA_READER]) {
    if (!plain_is_sized(cells_length, fog_length, light_length)) return plain_refused(PICA_BUFFER_LENGTH, 0);
    if (!plain_is_sized(spare_cells_length, spare_fog_length, spare_light_length)) return plain_refused(PICA_BUFFER_LENGTH, 0);
    take(spare_cells, spare_fog, spare_light, cells, fog, light);
    put_progress(reader, (struct progress){0});
    return 0;
}

uint64_t plain_feed(uint32_t *cells, size_t cells_length, uint32_t *fog, size_t fog_length, uint32_t *light, size_t light_length,
                    uint32_t reader[PICA_READER], const uint32_t *part, size_t part_length) {
    if (!plain_is_sized(cells_length, fog_length, light_length)) return plain_refused(PICA_BUFFER_LENGTH, 0);
    struct progress p = progress_of(reader);
    size_t room = p.come < PICA_LIST_LENGTH_MOST ? PICA_LIST_LENGTH_MOST - p.come : 0, taken = part_length < room ? part_length : room;
    go_on(&p, cells, fog, light, part, part + taken);
    if (taken < part_length || p.come > PICA_LIST_LENGTH_MOST) p.come = PICA_LIST_LENGTH_MOST + 1;
    put_progress(reader, p);
    return p.come;
}

static uint64_t verdict(struct progress p) {
    uint64_t number = refused_length(p.come);
    if (number) return number;
    if (p.left | p.pad | p.begun) return plain_refused(PICA_WORDS_MISSING, p.place);
    if (p.fault) return plain_refused(p.fault == 3 || p.fault == 4 ? p.fault : PICA_PORT_MASK, p.place);
    return p.writes;
}

uint64_t plain_close(uint32_t *cells, size_t cells_length, uint32_t *fog, size_t fog_length, uint32_t *light, size_t light_length,
                     uint32_t *spare_cells, size_t spare_cells_length, uint32_t *spare_fog, size_t spare_fog_length,
                     uint32_t *spare_light, size_t spare_light_length, uint32_t reader[PICA_READER], uint32_t differences[1]) {
    if (!plain_is_sized(cells_length, fog_length, light_length)) return plain_refused(PICA_BUFFER_LENGTH, 0);
    if (!plain_is_sized(spare_cells_length, spare_fog_length, spare_light_length)) return plain_refused(PICA_BUFFER_LENGTH, 0);
    struct progress p = progress_of(reader);
    uint64_t answer = verdict(p);
    if (pica_number(answer)) {
        take(spare_cells, spare_fog, spare_light, cells, fog, light);
    } else {
        take(cells, fog, light, spare_cells, spare_fog, spare_light);
        differences[0] = p.differences;
    }
    put_progress(reader, (struct progress){0});
    return answer;
}
