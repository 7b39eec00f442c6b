/* The random cases, put to both libraries: they must give the same answer and leave the same in every buffer. */
#include <stdio.h>
#include <string.h>

#include "bench.h"

enum { READS = 40000, PIECES = 40000, WRITES_ALONE = 20000, LISTS = 30000, PACKS = 30000, STATES = 30000 };

/* Words beside the differences, which no call may touch. */
struct counted { uint32_t before, differences[1], after; };
static struct whole { struct state state; struct counted counted; } left_by_ours, left_by_plain;
static struct in_pieces { struct state live, spare; uint32_t reader[PICA_READER]; struct counted counted; } fed_by_ours, fed_by_plain;

/* How often each call was answered with each number, so that no rule goes untried unnoticed. */
static const char *const names[] = {"read", "open", "feed", "close", "write", "writes", "pack", "decode", "fragment"};
enum { CALLS_MADE = 9, NUMBERS = 23 };
static unsigned met[CALLS_MADE][NUMBERS];
/* Of the calls that tell of differences: how often no write made one, some did, and all. */
static unsigned differing[CALLS_MADE][3];
/* Of the lists and runs that were answered: how many have mask 0 in them. */
static unsigned with_mask_0[CALLS_MADE];

static int alike(enum call call, unsigned which, uint64_t a, uint64_t b, const void *x, const void *y, size_t size) {
    if (a == b && memcmp(x, y, size) == 0) {
        met[call][pica_number(a)]++;
        return 1;
    }
    printf("%s case %u differs: ours %u, %u; the other %u, %u%s\n", names[call], which, (unsigned)pica_number(a), (unsigned)pica_value(a),
           (unsigned)pica_number(b), (unsigned)pica_value(b), memcmp(x, y, size) ? "; the buffers too" : "");
    return 0;
}

static void count_differences(enum call call, uint64_t writes, uint32_t differences) {
    if (pica_number(writes) == 0 && writes > 0) differing[call][differences == 0 ? 0 : differences < writes ? 1 : 2]++;
}

static void count_mask_0(enum call call, uint64_t answer, int has) { with_mask_0[call] += pica_number(answer) == 0 && has; }

/* Every number that a call can answer with was met at least ten times, and a third of the calls were answered; each kind of differences was
   met in one of 100, and mask 0 in a quarter of the lists and runs that were answered, but not in all. */
static int all_met(void) {
    static const uint32_t numbers[CALLS_MADE] = {0x807F, 0x41, 0x41, 0x807F, 0x279, 0x4080BF, 0x7B9, 0x2041, 0x7041}; /* a bit for each */
    for (int call = 0; call < CALLS_MADE; call++) {
        unsigned all = 0;
        for (int k = 0; k < NUMBERS; k++) all += met[call][k];
        for (int k = 0; k < NUMBERS; k++)
            if ((numbers[call] >> k & 1) && met[call][k] < (k == 0 ? all / 3 : 10)) {
                printf("%s: number %d was met in %u random cases only\n", names[call], k, met[call][k]);
                return 0;
            }
        for (int k = 0; k < 3; k++)
            if ((call == READ || call == CLOSE || (call == WRITE && k != 1)) && differing[call][k] < all / 100) {
                printf("%s: differences by %s of the writes were met in %u random cases only\n", names[call],
                       k == 0 ? "none" : k == 1 ? "some" : "all", differing[call][k]);
                return 0;
            }
        unsigned answered = met[call][0], few = answered / 4, idle = with_mask_0[call];
        if ((call == READ || call == CLOSE || call == WRITES || call == PACK) && (idle < few || answered - idle < few)) {
            printf("%s: mask 0 was met in %u of %u answered random cases\n", names[call], idle, answered);
            return 0;
        }
    }
    return 1;
}

static void new_states(void) {
    fill((uint32_t *)&left_by_ours, sizeof left_by_ours / sizeof(uint32_t));
    left_by_plain = left_by_ours;
}

/* A state, lent with these lengths. */
#define LENT_AS(s, n) (s).cells, (n)[0], (s).fog, (n)[1], (s).light, (n)[2]

static int compare_reads(void) {
    static struct list list;
    struct whole *a = &left_by_ours, *b = &left_by_plain;
    size_t n[3];
    for (unsigned k = 0; k < READS; k++) {
        if (k % 64 == 0) new_states();
        random_list(&list);
        restate(&list, a->state.cells);
        lengths(n);
        a->counted.differences[0] = b->counted.differences[0] = any();
        uint64_t x = ours.read(LENT_AS(a->state, n), list.words, list.length, a->counted.differences);
        uint64_t y = plain.read(LENT_AS(b->state, n), list.words, list.length, b->counted.differences);
        if (!alike(READ, k, x, y, a, b, sizeof *a)) return 0;
        count_differences(READ, y, b->counted.differences[0]);
        count_mask_0(READ, y, has_mask_0(&list));
    }
    return 1;
}

static int feed_both(unsigned which, const uint32_t *part, size_t length) {
    struct in_pieces *a = &fed_by_ours, *b = &fed_by_plain;
    size_t n[3];
    lengths(n);
    uint64_t x = ours.feed(LENT_AS(a->spare, n), a->reader, part, length), y = plain.feed(LENT_AS(b->spare, n), b->reader, part, length);
    return alike(FEED, which, x, y, a->reader, b->reader, sizeof a->reader); /* the states are compared at the close */
}

/* Opened, or the reader as the last close left it, or any words; fed by parts of any length; closed. Wrong lengths come at any call. */
static int compare_one_in_pieces(unsigned which, const struct list *list) {
    struct in_pieces *a = &fed_by_ours, *b = &fed_by_plain;
    size_t n[3], m[3], longest = below(2) ? 1 + below(4) : 1 + below((uint32_t)list->length + 1);
    lengths(n), lengths(m);
    if (below(8)) {
        uint64_t x = ours.open(LENT_AS(a->live, n), LENT_AS(a->spare, m), a->reader);
        uint64_t y = plain.open(LENT_AS(b->live, n), LENT_AS(b->spare, m), b->reader);
        if (!alike(OPEN, which, x, y, a, b, sizeof *a)) return 0;
    } else if (below(8) == 0) {
        for (int k = 0; k < PICA_READER; k++) a->reader[k] = b->reader[k] = below(2) ? below(4) : any() >> below(32);
    }
    for (size_t at = 0, part; at < list->length; at += part) {
        part = below((uint32_t)longest + 1);
        if (part > list->length - at) part = list->length - at;
        if (!feed_both(which, list->words + at, part)) return 0;
    }
    lengths(n), lengths(m);
    a->counted.differences[0] = b->counted.differences[0] = any();
    uint64_t x = ours.close(LENT_AS(a->live, n), LENT_AS(a->spare, m), a->reader, a->counted.differences);
    uint64_t y = plain.close(LENT_AS(b->live, n), LENT_AS(b->spare, m), b->reader, b->counted.differences);
    count_differences(CLOSE, y, b->counted.differences[0]);
    count_mask_0(CLOSE, y, has_mask_0(list));
    return alike(CLOSE, which, x, y, a, b, sizeof *a);
}

static int compare_pieces(void) {
    static struct list list;
    for (unsigned k = 0; k < PIECES; k++) {
        if (k % 64 == 0) {
            fill((uint32_t *)&fed_by_ours, sizeof fed_by_ours / sizeof(uint32_t));
            fed_by_plain = fed_by_ours;
        }
        random_list(&list);
        restate(&list, fed_by_ours.live.cells);
        if (!compare_one_in_pieces(k, &list)) return 0;
    }
    return 1;
}

static int compare_writes(void) {
    struct whole *a = &left_by_ours, *b = &left_by_plain;
    size_t n[3];
    new_states();
    for (unsigned k = 0; k < WRITES_ALONE; k++) {
        uint32_t id = below(64) ? edge_id() : any(), mask = below(16) ? edge_mask(id) : below(2) ? below(20) : any(), value = any();
        if (id <= 0x2FF && below(2)) value = a->state.cells[id] ^ below(2) << below(32);
        lengths(n);
        uint64_t x = ours.write(LENT_AS(a->state, n), id, mask, value), y = plain.write(LENT_AS(b->state, n), id, mask, value);
        if (!alike(WRITE, k, x, y, a, b, sizeof *a)) return 0;
        if (pica_number(y) == 0) differing[WRITE][y ? 2 : 0]++;
    }
    return 1;
}

/* Room for a list's writes, exact, more, or less; three buffers in a row, with words between them that no call may touch. */
static int compare_lists(void) {
    enum { BETWEEN = 4 };
    static struct list list;
    static uint32_t left[2][3 * (LONGEST + BETWEEN)];
    fill(left[0], sizeof left[0] / sizeof left[0][0]);
    memcpy(left[1], left[0], sizeof left[0]);
    for (unsigned k = 0; k < LISTS; k++) {
        random_list(&list);
        uint64_t asked = plain.writes(list.words, list.length, NULL, 0, NULL, 0, NULL, 0);
        size_t needed = pica_number(asked) == PICA_TOO_FEW_PLACES ? pica_value(asked) : list.length, room = needed;
        if (below(2)) room = below(4) ? list.length : below((uint32_t)needed + 1);
        size_t n[3] = {room, room, room}, second = room + BETWEEN, third = 2 * second;
        if (below(64) == 0 && room > 0) n[below(3)]--;
        uint64_t x = ours.writes(list.words, list.length, left[0], n[0], left[0] + second, n[1], left[0] + third, n[2]);
        uint64_t y = plain.writes(list.words, list.length, left[1], n[0], left[1] + second, n[1], left[1] + third, n[2]);
        if (!alike(WRITES, k, x, y, left[0], left[1], (third + second) * sizeof left[0][0])) return 0;
        count_mask_0(WRITES, y, has_mask_0(&list));
    }
    return 1;
}

static int run_has_mask_0(const struct run *run) {
    for (size_t k = 0; k < run->length; k++)
        if (run->masks[k] == 0) return 1;
    return 0;
}

/* Room for a run's list: two words a write and two, or more; exact, one word less or two; or any. */
static size_t room_for(const struct run *run) {
    size_t n = run->length, most = 2 * n + 2;
    uint64_t asked = plain.pack(run->ids, n, run->masks, n, run->values, n, NULL, 0);
    uint32_t needed = pica_number(asked) == PICA_NO_ROOM ? pica_value(asked) : 0, less = below(3);
    switch (below(8)) {
    case 0: case 1: return needed < less ? 0 : needed - less;
    case 2: return below((uint32_t)most + 1);
    default: return most + below(8);
    }
}

static int compare_packs(void) {
    enum { LENT_SPACE = SPACE + 16 };
    static struct run run;
    static uint32_t spaces[2][LENT_SPACE];
    fill(spaces[0], LENT_SPACE);
    memcpy(spaces[1], spaces[0], sizeof spaces[0]);
    for (unsigned k = 0; k < PACKS; k++) {
        random_run(&run);
        size_t n[3] = {run.length, run.length, run.length}, room = room_for(&run);
        if (below(64) == 0 && run.length > 0) n[below(3)]--;
        uint64_t x = ours.pack(run.ids, n[0], run.masks, n[1], run.values, n[2], spaces[0], room);
        uint64_t y = plain.pack(run.ids, n[0], run.masks, n[1], run.values, n[2], spaces[1], room);
        if (!alike(PACK, k, x, y, spaces[0], spaces[1], sizeof spaces[0])) return 0;
        count_mask_0(PACK, y, run_has_mask_0(&run));
    }
    return 1;
}

static int compare_states(void) {
    uint32_t given[PICA_GIVEN_LENGTH], fields[2][PICA_FIELDS_LENGTH] = {{0}}, stored[2][PICA_STORED_LENGTH] = {{0}};
    size_t n[3];
    struct state *s = &left_by_ours.state;
    for (unsigned k = 0; k < STATES; k++) {
        random_state(s, given);
        lengths(n);
        uint64_t x = ours.decode(s->cells, n[0], s->fog, n[1], s->light, n[2], fields[0]);
        uint64_t y = plain.decode(s->cells, n[0], s->fog, n[1], s->light, n[2], fields[1]);
        if (!alike(DECODE, k, x, y, fields[0], fields[1], sizeof fields[0])) return 0;
        x = ours.fragment(s->cells, n[0], s->fog, n[1], s->light, n[2], given, stored[0]);
        y = plain.fragment(s->cells, n[0], s->fog, n[1], s->light, n[2], given, stored[1]);
        if (!alike(FRAGMENT, k, x, y, stored[0], stored[1], sizeof stored[0])) return 0;
    }
    return 1;
}

unsigned compare_random(void) {
    if (!compare_reads() || !compare_pieces() || !compare_writes() || !compare_lists()) return 0;
    if (!compare_packs() || !compare_states() || !all_met()) return 0;
    return READS + PIECES + WRITES_ALONE + LISTS + PACKS + STATES;
}
