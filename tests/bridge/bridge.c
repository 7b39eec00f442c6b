/*
 * The C functions of the library on a machine that is not x86-64: each call is handed to an emulated program that links the real
 * library. For the tests alone. Each thread has an emulated program of its own, which ends with it. What is lent is copied there
 * and back; a word that changes where none may, beside a buffer or in one that is only read, ends the process.
 */
#define _GNU_SOURCE
#include <fcntl.h>
#include <stdio.h>
#include <stdlib.h>
#include <string.h>
#include <sys/mman.h>
#include <unistd.h>

#include "pica.h"
#include "shared.h"

enum { GUARD = 16 };
static const uint32_t GUARD_WORD = 0xA5C35A3C;

struct buffer {
    uint32_t *words;
    size_t length;
    int changes;
};

static __thread struct call *shared;
static __thread int to, from;

static void fail(const char *what) {
    fprintf(stderr, "bridge: %s\n", what);
    abort();
}

static void serve(int memory, int in, int out) {
    const char *emulator = getenv("PICA_EMULATOR"), *program = getenv("PICA_SERVED");
    dup2(in, 0);
    dup2(out, 1);
    if (dup2(memory, 3) == 3 && emulator && program) execl(emulator, emulator, program, (char *)0);
    _exit(127);
}

static void start(void) {
    int memory = memfd_create("call", 0), there[2], back[2];
    if (memory < 0 || ftruncate(memory, sizeof *shared) || pipe2(there, O_CLOEXEC) || pipe2(back, O_CLOEXEC)) fail("no memory to share");
    shared = mmap(NULL, sizeof *shared, PROT_READ | PROT_WRITE, MAP_SHARED, memory, 0);
    if (shared == MAP_FAILED) fail("no memory to share");
    if (fork() == 0) serve(memory, there[0], back[1]);
    close(memory);
    close(there[0]);
    close(back[1]);
    to = there[1];
    from = back[0];
}

static size_t lay(size_t at, const struct buffer *b, struct lent *l) {
    if (b->length > ROOM || at + b->length + 2 * GUARD > ROOM) fail("more words than it has room for");
    for (size_t k = 0; k < GUARD; k++) shared->words[at + k] = shared->words[at + GUARD + b->length + k] = GUARD_WORD;
    if (b->length) memcpy(shared->words + at + GUARD, b->words, b->length * sizeof(uint32_t));
    *l = (struct lent){at + GUARD, b->length};
    return at + GUARD + b->length;
}

static void take(const struct buffer *b, const struct lent *l) {
    const uint32_t *words = shared->words + l->at;
    for (size_t k = 1; k <= GUARD; k++)
        if (*(words - k) != GUARD_WORD || words[l->length + k - 1] != GUARD_WORD) fail("a word beside a lent buffer has changed");
    if (b->length == 0) return;
    if (b->changes)
        memcpy(b->words, words, b->length * sizeof(uint32_t));
    else if (memcmp(b->words, words, b->length * sizeof(uint32_t)))
        fail("a word of a buffer that is only read has changed");
}

static uint64_t call(enum which which, const struct buffer b[LENT], const uint32_t numbers[NUMBERS]) {
    char byte = 0;
    size_t at = 0;
    if (!shared) start();
    shared->which = which;
    for (int k = 0; k < LENT; k++) at = lay(at, &b[k], &shared->lent[k]);
    if (numbers) memcpy(shared->numbers, numbers, sizeof shared->numbers);
    if (write(to, &byte, 1) != 1 || read(from, &byte, 1) != 1) fail("the emulated program has ended");
    for (int k = 0; k < LENT; k++) take(&b[k], &shared->lent[k]);
    return shared->answer;
}

#define STATE(changes) {(uint32_t *)cells, n, changes}, {(uint32_t *)fog, m, changes}, {(uint32_t *)light, k, changes}

uint64_t pica_read(uint32_t *cells, size_t n, uint32_t *fog, size_t m, uint32_t *light, size_t k, const uint32_t *list, size_t length,
                   uint32_t differences[1]) {
    return call(READ, (struct buffer[LENT]){STATE(1), {(uint32_t *)list, length, 0}, {differences, 1, 1}}, NULL);
}

uint64_t pica_write(uint32_t *cells, size_t n, uint32_t *fog, size_t m, uint32_t *light, size_t k, uint32_t id, uint32_t mask,
                    uint32_t value) {
    return call(WRITE, (struct buffer[LENT]){STATE(1)}, (uint32_t[NUMBERS]){id, mask, value});
}

uint64_t pica_writes(const uint32_t *list, size_t length, uint32_t *ids, size_t n, uint32_t *masks, size_t m, uint32_t *values, size_t k) {
    return call(WRITES, (struct buffer[LENT]){{(uint32_t *)list, length, 0}, {ids, n, 1}, {masks, m, 1}, {values, k, 1}}, NULL);
}

uint64_t pica_pack(const uint32_t *ids, size_t n, const uint32_t *masks, size_t m, const uint32_t *values, size_t k, uint32_t *space,
                   size_t room) {
    struct buffer run[LENT] = {{(uint32_t *)ids, n, 0}, {(uint32_t *)masks, m, 0}, {(uint32_t *)values, k, 0}, {space, room, 1}};
    return call(PACK, run, NULL);
}

uint64_t pica_decode(const uint32_t *cells, size_t n, const uint32_t *fog, size_t m, const uint32_t *light, size_t k,
                     uint32_t fields[PICA_FIELDS_LENGTH]) {
    return call(DECODE, (struct buffer[LENT]){STATE(0), {fields, PICA_FIELDS_LENGTH, 1}}, NULL);
}

uint64_t pica_fragment(const uint32_t *cells, size_t n, const uint32_t *fog, size_t m, const uint32_t *light, size_t k,
                       const uint32_t given[PICA_GIVEN_LENGTH], uint32_t stored[PICA_STORED_LENGTH]) {
    struct buffer lent[LENT] = {STATE(0), {(uint32_t *)given, PICA_GIVEN_LENGTH, 0}, {stored, PICA_STORED_LENGTH, 1}};
    return call(FRAGMENT, lent, NULL);
}

#define SPARE {spare_cells, sn, 1}, {spare_fog, sm, 1}, {spare_light, sk, 1}

uint64_t pica_open(const uint32_t *cells, size_t n, const uint32_t *fog, size_t m, const uint32_t *light, size_t k, uint32_t *spare_cells,
                   size_t sn, uint32_t *spare_fog, size_t sm, uint32_t *spare_light, size_t sk, uint32_t reader[PICA_READER]) {
    return call(OPEN, (struct buffer[LENT]){STATE(0), SPARE, {reader, PICA_READER, 1}}, NULL);
}

uint64_t pica_feed(uint32_t *cells, size_t n, uint32_t *fog, size_t m, uint32_t *light, size_t k, uint32_t reader[PICA_READER],
                   const uint32_t *part, size_t length) {
    return call(FEED, (struct buffer[LENT]){STATE(1), {reader, PICA_READER, 1}, {(uint32_t *)part, length, 0}}, NULL);
}

uint64_t pica_close(uint32_t *cells, size_t n, uint32_t *fog, size_t m, uint32_t *light, size_t k, uint32_t *spare_cells, size_t sn,
                    uint32_t *spare_fog, size_t sm, uint32_t *spare_light, size_t sk, uint32_t reader[PICA_READER],
                    uint32_t differences[1]) {
    return call(CLOSE, (struct buffer[LENT]){STATE(1), SPARE, {reader, PICA_READER, 1}, {differences, 1, 1}}, NULL);
}
