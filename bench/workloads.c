/* The workloads: what each hands in, and a round of its calls. */
#include <string.h>

#include "bench.h"

const struct library ours = {pica_read, pica_open, pica_feed, pica_close, pica_write, pica_writes, pica_pack, pica_decode, pica_fragment};
const struct library plain = {plain_read,   plain_open, plain_feed,   plain_close,   plain_write,
                              plain_writes, plain_pack, plain_decode, plain_fragment};

#define READING(what, make, words, lists, number) {"read, a word: " what, READ, words, lists, make, NULL, NULL, number, 0}
#define FED(what, make, words, lists, number, part) {"feed, a word: " what, FEED, words, lists, make, NULL, NULL, number, part}
#define FEEDING(what, make, words, lists, number)                                                                                       \
    FED(what ", whole", make, words, lists, number, words), FED(what ", by 4,096", make, words, lists, number, 4096),                     \
    FED(what ", by 64", make, words, lists, number, 64), FED(what ", by 1", make, 8192, 1, number, 1)
#define LISTING(what, make, words, lists, number) {"writes, a word: " what, WRITES, words, lists, make, NULL, NULL, number, 0}
#define PACKING(what, make, writes, runs) {"pack, a write: " what, PACK, writes, runs, NULL, make, NULL, 0, 0}
#define DRAWING(what, make, each) {"fragment: " what, FRAGMENT, each, CALLS / each, NULL, NULL, make, 0, 0}

/* Where chance decides, a round is long: a short one is learned by heart by the processor. */
const struct workload workloads[] = {
    READING("short held commands", short_held, 32768, 2, 0),
    READING("light tables, 256 writes a command", light_uploads, 8192, 1, 0),
    READING("fog tables, 128 writes a command", fog_uploads, 8192, 1, 0),
    READING("long commands, rising, not held", long_unheld, 8192, 1, 0),
    READING("long commands, rising, 40 to 13F", long_mixed, 8192, 1, 0),
    READING("one held id, 256 values a command", one_held, 8256, 1, 0),
    READING("one id, not held, 256 values a command", one_unheld, 8256, 1, 0),
    READING("like a capture", capture, 32768, 2, 0),
    READING("like a capture, filled", filled_capture, 32768, 2, 0),
    READING("like a capture, refused at the end", refused_at_last, 32768, 2, PICA_JUMP_REGISTER),
    READING("list of 64 words", short_held, 64, 1024, 0),
    READING("list of 4 words", short_held, 4, 4096, 0),
    FEEDING("short held commands", short_held, 32768, 2, 0),
    FEEDING("light tables", light_uploads, 8192, 1, 0),
    FEEDING("fog tables", fog_uploads, 8192, 1, 0),
    FEEDING("rising, not held", long_unheld, 8192, 1, 0),
    FEEDING("rising, 40 to 13F", long_mixed, 8192, 1, 0),
    FEEDING("one held id", one_held, 8256, 1, 0),
    FEEDING("one id, not held", one_unheld, 8256, 1, 0),
    FEEDING("like a capture", capture, 32768, 2, 0),
    FED("like a capture, filled, whole", filled_capture, 32768, 2, 0, 32768),
    FEEDING("refused at the end", refused_at_last, 32768, 2, PICA_JUMP_REGISTER),
    FED("list of 64 words, whole", short_held, 64, 1024, 0, 64),
    FED("list of 4 words, whole", short_held, 4, 4096, 0, 4),
    {"open", OPEN, 1, 64, NULL, NULL, NULL, 0, 0},
    {"close", CLOSE, 1, 64, NULL, NULL, NULL, 0, 0},
    {"write: held registers", WRITE, 4096, 4, NULL, held_writes, NULL, 0, 0},
    LISTING("like a capture", capture, 8192, 8, 0),
    LISTING("like a capture, filled", filled_capture, 8192, 8, 0),
    LISTING("like a capture, refused at the end", refused_at_last, 8192, 8, PICA_JUMP_REGISTER),
    LISTING("like a capture, the longest list", capture, 65536, 1, 0),
    LISTING("short held commands", short_held, 8192, 8, 0),
    LISTING("long commands, rising, not held", long_unheld, 8192, 1, 0),
    LISTING("one command of 256 writes", one_command, 260, 64, 0),
    LISTING("list of 4 words", short_held, 4, 4096, 0),
    PACKING("4,096 writes to few ids", few_ids, 4096, 4),
    PACKING("4,096 writes, an eighth with mask 0", eighth_idle, 4096, 4),
    PACKING("4,096 writes, rising", rising_ids, 4096, 1),
    PACKING("4,096 writes to one id", equal_ids, 4096, 1),
    PACKING("4,096 writes, no two go together", apart_ids, 4096, 1),
    PACKING("64 writes to few ids", few_ids, 64, 256),
    PACKING("4 writes to few ids", few_ids, 4, 2048),
    DRAWING("two stages at work, one state", two_at_work, CALLS),
    DRAWING("six random stages, one state for 64", six_at_work, 64),
    DRAWING("six random stages, many states", six_at_work, 1),
    DRAWING("one stage, replace", one_replaces, 64),
    DRAWING("six stages, add", six_add, 64),
    DRAWING("six stages, modulate", six_modulate, 64),
    DRAWING("six stages, interpolate", six_interpolate, 64),
    DRAWING("six stages, dot3", six_dot3, 64),
    DRAWING("six stages, multiply and add", six_multiply_add, 64),
    DRAWING("six stages, add and multiply", six_add_multiply, 64),
    {"decode: valid states", DECODE, 1, CALLS, NULL, NULL, six_at_work, 0, 0},
};
const size_t workload_count = sizeof workloads / sizeof workloads[0];

/* What is handed in, the same to both: lists one after another, runs one after another, and few states, which stay near the processor. */
enum { STATES = 256 };
static struct list list;
static struct { uint32_t ids[4 * PICA_RUN_LENGTH_MOST], masks[4 * PICA_RUN_LENGTH_MOST], values[4 * PICA_RUN_LENGTH_MOST]; } writes;
static uint32_t cells[STATES][PICA_CELLS_LENGTH], given[CALLS][PICA_GIVEN_LENGTH];
static uint8_t state_of[CALLS];
static uint32_t fog[PICA_FOG_LENGTH], light[PICA_LIGHT_LENGTH];

static void make_lists(const struct workload *w) {
    static struct list part;
    for (size_t k = 0; k < w->times; k++) {
        w->list(&part, w->each);
        memcpy(&list.words[k * w->each], part.words, w->each * sizeof part.words[0]);
    }
}

static void make_runs(const struct workload *w) {
    static struct run part;
    for (size_t k = 0; k < w->times; k++) {
        w->run(&part, w->each);
        memcpy(&writes.ids[k * w->each], part.ids, w->each * sizeof part.ids[0]);
        memcpy(&writes.masks[k * w->each], part.masks, w->each * sizeof part.masks[0]);
        memcpy(&writes.values[k * w->each], part.values, w->each * sizeof part.values[0]);
    }
}

static void make_states(const struct workload *w) {
    for (size_t k = 0; k < STATES; k++) w->drawn(cells[k]);
    for (size_t k = 0; k < CALLS; k++) {
        state_of[k] = k % w->each ? state_of[k - 1] : (uint8_t)below(STATES);
        valid_given(given[k], cells[state_of[k]]);
    }
}

size_t prepared(const struct workload *w) {
    begin();
    if (w->list) make_lists(w);
    if (w->run) make_runs(w);
    if (w->drawn) make_states(w);
    return w->each * w->times;
}

/* The parts of one list, without the opening and the close. */
static uint64_t feed_all(const struct library *l, struct side *s, const uint32_t *words, size_t n, size_t part) {
    uint64_t answer = 0;
    memset(s->reader, 0, sizeof s->reader);
    for (size_t at = 0; at < n; at += part) answer = l->feed(LENT(&s->state), s->reader, words + at, n - at < part ? n - at : part);
    return answer;
}

static void one_round(const struct workload *w, const struct library *l, struct side *s) {
    size_t n = w->each;
    switch (w->call) {
    case READ:
        for (size_t k = 0; k < w->times; k++)
            s->answers[k % CALLS] = l->read(LENT(&s->state), &list.words[k * n], n, &s->differences[k % CALLS]);
        break;
    case OPEN:
        for (size_t k = 0; k < w->times; k++) s->answers[k] = l->open(LENT(&s->state), LENT(&s->spare), s->reader);
        break;
    case FEED:
        for (size_t k = 0; k < w->times; k++) s->answers[k % CALLS] = feed_all(l, s, &list.words[k * n], n, w->part);
        break;
    case CLOSE:
        for (size_t k = 0; k < w->times; k++)
            s->answers[k] = l->close(LENT(&s->state), LENT(&s->spare), s->reader, &s->differences[k]);
        break;
    case WRITE:
        for (size_t k = 0; k < n * w->times; k++)
            s->answers[k % CALLS] = l->write(LENT(&s->state), writes.ids[k], writes.masks[k], writes.values[k]);
        break;
    case WRITES:
        for (size_t k = 0; k < w->times; k++)
            s->answers[k % CALLS] = l->writes(&list.words[k * n], n, s->ids, n, s->masks, n, s->values, n);
        break;
    case PACK:
        for (size_t k = 0; k < w->times; k++)
            s->answers[k % CALLS] =
                l->pack(&writes.ids[k * n], n, &writes.masks[k * n], n, &writes.values[k * n], n, s->space, SPACE);
        break;
    case DECODE:
        for (size_t k = 0; k < CALLS; k++)
            s->answers[k] = l->decode(cells[state_of[k]], PICA_CELLS_LENGTH, fog, PICA_FOG_LENGTH, light, PICA_LIGHT_LENGTH, s->fields);
        break;
    case FRAGMENT:
        for (size_t k = 0; k < CALLS; k++)
            s->answers[k] =
                l->fragment(cells[state_of[k]], PICA_CELLS_LENGTH, fog, PICA_FOG_LENGTH, light, PICA_LIGHT_LENGTH, given[k], s->stored[k]);
        break;
    }
}

void work(const struct workload *w, const struct library *l, struct side *s, unsigned times) {
    for (; times > 0; times--) one_round(w, l, s);
}
