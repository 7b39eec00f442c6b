#include <string.h>

#include "bench.h"

/* LISTS: each is filled up to `words` words; the longest command has 258. */

static size_t left(const struct list *list, size_t words) { return words - list->length; }

/* A list's last commands: one word pair each, so that it has the length asked for. */
static void pad(struct list *list, size_t words) {
    while (left(list, words) >= 2) command(list, held_id(), 15, 1, 0);
}

void short_held(struct list *list, size_t words) {
    list->length = 0;
    while (left(list, words) >= 6) {
        uint32_t mask = below(2) ? 15 : below(16), writes = 1 + below(4);
        /* a stage's registers are the longest stretch of held ids that every start has */
        uint32_t step = below(2), id = step ? 0xC0 + 8 * below(4) : held_id();
        command(list, id, mask, writes, step);
    }
    pad(list, words);
}

/* The port's index is set, then a whole table goes in one command. */
static void upload(struct list *list, uint32_t index_id, uint32_t index, uint32_t data_id, uint32_t entries) {
    list->words[list->length] = index;
    list->words[list->length + 1] = index_id | 0xF0000;
    list->length += 2;
    command(list, data_id, 15, entries, 0);
}

void light_uploads(struct list *list, size_t words) {
    list->length = 0;
    for (uint32_t table = 0; left(list, words) >= 260; table = (table + 1) % 24) upload(list, 0x1C5, table << 8, 0x1C8, 256);
    pad(list, words);
}

void fog_uploads(struct list *list, size_t words) {
    list->length = 0;
    while (left(list, words) >= 132) upload(list, 0xE6, 0, 0xE8, 128);
    pad(list, words);
}

void long_unheld(struct list *list, size_t words) {
    list->length = 0;
    while (left(list, words) >= 194) command(list, 0x240, 15, 191, 1);
    pad(list, words);
}

/* Parameter 0 and header 0: a command that fills a list. */
static void pair(struct list *list) {
    list->words[list->length] = list->words[list->length + 1] = 0;
    list->length += 2;
}

/* As many writes as the words allow, to one id, and a pair. */
void one_command(struct list *list, size_t words) {
    list->length = 0;
    command(list, 0x2C1, 15, (uint32_t)words - 4, 0);
    pair(list);
}

/* A whole command of values to one register, then to another. */
void one_held(struct list *list, size_t words) {
    list->length = 0;
    while (left(list, words) >= 258) command(list, held_id(), 15, 256, 0);
    pad(list, words);
}

void one_unheld(struct list *list, size_t words) {
    list->length = 0;
    while (left(list, words) >= 258) command(list, 0x2C1, 15, 256, 0);
    pad(list, words);
}

/* Held registers, others and the fog's port, whose index stands two ids before its data. */
void long_mixed(struct list *list, size_t words) {
    list->length = 0;
    while (left(list, words) >= 258) command(list, 0x40, 15, 256, 1);
    pad(list, words);
}

/* One object of a captured frame: its shader's constants, its attributes, now and then a table, its stages and tests, and its drawing. */
static void object(struct list *list) {
    command(list, 0x2C0, 15, 1, 0);
    command(list, 0x2C1, 15, 4 * (1 + below(16)), 0);
    command(list, 0x200, 15, 3 + below(24), 1);
    command(list, 0x80, 15, 1 + below(14), 1);
    command(list, 0x40, 15, 5, 1);
    for (uint32_t b = 0xC0; b <= 0xD8; b += 8)
        if (below(2)) command(list, b, 15, 5, 1);
    command(list, 0xE0, below(2) ? 2 : 5, 1, 0);
    if (below(8) == 0) upload(list, 0x1C5, below(24) << 8, 0x1C8, 256);
    if (below(8) == 0) upload(list, 0xE6, 0, 0xE8, 128);
    command(list, 0x100, 15, 8, 1);
    command(list, 0x112, 15, 6, 1);
    command(list, 0x11C, 15, 3, 1);
    command(list, 0x107, 1 + below(3), 1, 0);
    command(list, 0x22E, 15, 1, 0);
    command(list, 0x110, 15, 2, 1);
}

void capture(struct list *list, size_t words) {
    enum { LONGEST_OBJECT = 640 };
    list->length = 0;
    while (left(list, words) >= LONGEST_OBJECT) object(list);
    pad(list, words);
}

/* The same, with a pair after each fourth command. */
void filled_capture(struct list *list, size_t words) {
    static struct list whole;
    uint32_t number = 0, count;
    capture(&whole, words);
    list->length = 0;
    for (size_t at = 0; at < whole.length; at += count) {
        count = ((whole.words[at + 1] >> 20 & 255) + 3) & ~UINT32_C(1);
        if (left(list, words) < count + 2) break;
        memcpy(&list->words[list->length], &whole.words[at], count * sizeof whole.words[0]);
        list->length += count;
        if (++number % 4 == 0) pair(list);
    }
    pad(list, words);
}

/* The whole list is judged before its last command is found to be a jump. */
void refused_at_last(struct list *list, size_t words) {
    capture(list, words - 2);
    command(list, 0x23C, 15, 1, 0);
}

/* RUNS */

static void write_of(struct run *run, size_t k, uint32_t id, uint32_t mask) {
    run->ids[k] = id;
    run->masks[k] = mask;
    run->values[k] = any();
}

/* Half of them with mask F. */
void held_writes(struct run *run, size_t writes) {
    run->length = writes;
    for (size_t k = 0; k < writes; k++) write_of(run, k, held_id(), below(2) ? 15 : below(16));
}

/* Few ids next to each other, so that runs of equal and of rising ids are common, short and compete. */
void few_ids(struct run *run, size_t writes) {
    uint32_t id = 0x41;
    run->length = writes;
    for (size_t k = 0; k < writes; k++) {
        uint32_t how = below(8);
        id = how < 4 ? 0x41 + (id - 0x41 + 1) % 8 : how < 6 ? id : 0x41 + below(8);
        write_of(run, k, id, below(16) ? 15 : 3);
    }
}

/* The same, but each eighth write has mask 0. */
void eighth_idle(struct run *run, size_t writes) {
    few_ids(run, writes);
    for (size_t k = 7; k < writes; k += 8) run->masks[k] = 0;
}

void rising_ids(struct run *run, size_t writes) {
    run->length = writes;
    for (size_t k = 0; k < writes; k++) write_of(run, k, 0x240 + (uint32_t)(k % 0xC0), 15);
}

void equal_ids(struct run *run, size_t writes) {
    run->length = writes;
    for (size_t k = 0; k < writes; k++) write_of(run, k, 0x41, 15);
}

/* No id is that of the write before it, nor the next one. */
void apart_ids(struct run *run, size_t writes) {
    uint32_t id = 0x40;
    run->length = writes;
    for (size_t k = 0; k < writes; k++) {
        id = 0x40 + (id - 0x40 + 2 + below(0x7E)) % 0x80;
        write_of(run, k, id, 15);
    }
}

/* STATES */

/* A texture times the primary colour, then halfway to the constant by the secondary colour's alpha; four stages hand that on. */
void two_at_work(uint32_t *cells) {
    static const uint32_t first[5] = {0x00300030, 0, 0x00010001, 0, 0}, second[5] = {0x02EF02EF, 0x00000200, 0x00040004, 0x80FF4020, 0};
    valid_cells(cells);
    mixed_tests(cells);
    for (int k = 0; k < 5; k++) {
        cells[0xC0 + k] = first[k];
        cells[0xC8 + k] = second[k];
    }
    idle_stage(&cells[0xD0]);
    idle_stage(&cells[0xD8]);
    idle_stage(&cells[0xF0]);
    idle_stage(&cells[0xF8]);
}

void six_at_work(uint32_t *cells) {
    valid_cells(cells);
    mixed_tests(cells);
}

static const uint32_t stages[6] = {0xC0, 0xC8, 0xD0, 0xD8, 0xF0, 0xF8};

/* Stage 0 hands on the primary colour, and the others hand on that. */
void one_replaces(uint32_t *cells) {
    six_at_work(cells);
    for (int k = 0; k < 6; k++) idle_stage(&cells[stages[k]]);
    cells[stages[0]] &= ~UINT32_C(0xF000F);
}

/* All six by one mode, on random sources and operands. */
static void six_of(uint32_t *cells, uint32_t rgb, uint32_t alpha) {
    six_at_work(cells);
    for (int k = 0; k < 6; k++) {
        uint32_t *modes = &cells[stages[k] + 2];
        *modes = (*modes & 0xFFF0FFF0) | rgb | alpha << 16;
    }
}

void six_add(uint32_t *cells) { six_of(cells, 2, 2); }
void six_modulate(uint32_t *cells) { six_of(cells, 1, 1); }
void six_interpolate(uint32_t *cells) { six_of(cells, 4, 4); }
void six_dot3(uint32_t *cells) { six_of(cells, 7, 0); } /* alpha's own mode isn't read */
void six_multiply_add(uint32_t *cells) { six_of(cells, 8, 8); }
void six_add_multiply(uint32_t *cells) { six_of(cells, 9, 9); }
