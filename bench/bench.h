/* Shared by the parts of the benchmark. */
#ifndef BENCH_H
#define BENCH_H

#include "plain.h"

struct state {
    uint32_t cells[PICA_CELLS_LENGTH], fog[PICA_FOG_LENGTH], light[PICA_LIGHT_LENGTH];
};

#define LENT(s) (s)->cells, PICA_CELLS_LENGTH, (s)->fog, PICA_FOG_LENGTH, (s)->light, PICA_LIGHT_LENGTH

/* The proved library and the plain version are called through the same table, so that the way of calling costs both the same. */
struct library {
    uint64_t (*read)(uint32_t *, size_t, uint32_t *, size_t, uint32_t *, size_t, const uint32_t *, size_t, uint32_t *);
    uint64_t (*open)(const uint32_t *, size_t, const uint32_t *, size_t, const uint32_t *, size_t, uint32_t *, size_t, uint32_t *, size_t,
                     uint32_t *, size_t, uint32_t *);
    uint64_t (*feed)(uint32_t *, size_t, uint32_t *, size_t, uint32_t *, size_t, uint32_t *, const uint32_t *, size_t);
    uint64_t (*close)(uint32_t *, size_t, uint32_t *, size_t, uint32_t *, size_t, uint32_t *, size_t, uint32_t *, size_t, uint32_t *,
                      size_t, uint32_t *, uint32_t *);
    uint64_t (*write)(uint32_t *, size_t, uint32_t *, size_t, uint32_t *, size_t, uint32_t, uint32_t, uint32_t);
    uint64_t (*writes)(const uint32_t *, size_t, uint32_t *, size_t, uint32_t *, size_t, uint32_t *, size_t);
    uint64_t (*pack)(const uint32_t *, size_t, const uint32_t *, size_t, const uint32_t *, size_t, uint32_t *, size_t);
    uint64_t (*decode)(const uint32_t *, size_t, const uint32_t *, size_t, const uint32_t *, size_t, uint32_t *);
    uint64_t (*fragment)(const uint32_t *, size_t, const uint32_t *, size_t, const uint32_t *, size_t, const uint32_t *, uint32_t *);
};

extern const struct library ours, plain;

/* Room for four words too many, and for one write. */
enum { LONGEST = PICA_LIST_LENGTH_MOST + 4 };

struct list {
    size_t length;
    uint32_t words[LONGEST];
};

struct run {
    size_t length;
    uint32_t ids[PICA_RUN_LENGTH_MOST + 1], masks[PICA_RUN_LENGTH_MOST + 1], values[PICA_RUN_LENGTH_MOST + 1];
};

/* make.c: numbers that look random and are the same in every run, and what is built from them. */
void begin(void); /* from the first number again */
uint32_t any(void);
uint32_t below(uint32_t limit);
uint32_t held_id(void);
void fill(uint32_t *words, size_t length);
void command(struct list *list, uint32_t id, uint32_t mask, uint32_t writes, uint32_t step);
void idle_stage(uint32_t *registers);
void valid_cells(uint32_t *cells);
void mixed_tests(uint32_t *cells);
void valid_given(uint32_t given[PICA_GIVEN_LENGTH], const uint32_t *cells);

/* work.c: the workloads. */
void short_held(struct list *list, size_t words);
void light_uploads(struct list *list, size_t words);
void fog_uploads(struct list *list, size_t words);
void long_unheld(struct list *list, size_t words);
void one_command(struct list *list, size_t words);
void one_held(struct list *list, size_t words);
void one_unheld(struct list *list, size_t words);
void long_mixed(struct list *list, size_t words);
void capture(struct list *list, size_t words);
void filled_capture(struct list *list, size_t words);
void refused_at_last(struct list *list, size_t words);
void held_writes(struct run *run, size_t writes);
void few_ids(struct run *run, size_t writes);
void eighth_idle(struct run *run, size_t writes);
void rising_ids(struct run *run, size_t writes);
void equal_ids(struct run *run, size_t writes);
void apart_ids(struct run *run, size_t writes);
void two_at_work(uint32_t *cells);
void six_at_work(uint32_t *cells);
void one_replaces(uint32_t *cells);
void six_add(uint32_t *cells);
void six_modulate(uint32_t *cells);
void six_interpolate(uint32_t *cells);
void six_dot3(uint32_t *cells);
void six_multiply_add(uint32_t *cells);
void six_add_multiply(uint32_t *cells);

/* workloads.c: what is measured. Both versions are handed the same, and each leaves what it leaves in a side of its own. */
enum { CALLS = 4096 }; /* of a round, where a call is a decoding or a fragment */
enum { SPACE = 2 * PICA_RUN_LENGTH_MOST + 2 }; /* for any list: two words a write, and two */

struct side {
    struct state state, spare;
    uint32_t reader[PICA_READER];
    uint32_t space[SPACE];
    uint32_t ids[PICA_LIST_LENGTH_MOST], masks[PICA_LIST_LENGTH_MOST], values[PICA_LIST_LENGTH_MOST];
    uint32_t fields[PICA_FIELDS_LENGTH];
    uint32_t stored[CALLS][PICA_STORED_LENGTH];
    uint64_t answers[CALLS]; /* of the last calls */
    uint32_t differences[CALLS];
};

enum call { READ, OPEN, FEED, CLOSE, WRITE, WRITES, PACK, DECODE, FRAGMENT };

struct workload {
    const char *what;
    enum call call;
    size_t each, times; /* the words of a list, the writes of a run, or the calls for which a state stays; and how often in a round */
    void (*list)(struct list *, size_t); /* of a reading, whole or in pieces, or of a list's writes */
    void (*run)(struct run *, size_t);   /* of a packing or of single writes */
    void (*drawn)(uint32_t *);           /* of a decoding or a fragment: makes the cells of a state */
    uint32_t number;                     /* the refusal that the calls, or the reading of the list, must give, 0 for none */
    size_t part;                         /* the words of a part, where a list is fed */
};

extern const struct workload workloads[];
extern const size_t workload_count;

/* Makes what the workload hands in, and answers how many words, writes, states or fragments make a round. */
size_t prepared(const struct workload *w);
void work(const struct workload *w, const struct library *l, struct side *s, unsigned times);

/* cases.c: random lists, runs and states. */
void lengths(size_t to[3]);
uint32_t edge_id(void);
uint32_t edge_mask(uint32_t id);
void random_list(struct list *list);
int has_mask_0(const struct list *list);
void restate(struct list *list, const uint32_t *cells);
void random_run(struct run *run);
void random_state(struct state *s, uint32_t given[PICA_GIVEN_LENGTH]);

/* compare.c: how many random cases both answered alike; 0 where one differed, which is then shown. */
unsigned compare_random(void);

#endif
