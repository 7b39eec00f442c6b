/*
 * The program that links the real library, for x86-64, and runs under an emulator: for each byte on standard input it makes the
 * call that stands in the shared memory, and says so by a byte on standard output. It has no C library, so that a cross compiler
 * alone builds it.
 */
#include <stddef.h>

#include "pica.h"
#include "shared.h"

enum { SYS_READ = 0, SYS_WRITE = 1, SYS_MMAP = 9, SYS_EXIT = 60, SHARED_FILE = 3 };

static long ask(long number, long a, long b, long c, long d, long e, long f) {
    register long r10 __asm__("r10") = d;
    register long r8 __asm__("r8") = e;
    register long r9 __asm__("r9") = f;
    long answer;
    __asm__ volatile("syscall" : "=a"(answer) : "a"(number), "D"(a), "S"(b), "d"(c), "r"(r10), "r"(r8), "r"(r9) : "rcx", "r11", "memory");
    return answer;
}

/* The library's own need of a C library. */
void *memset(void *to, int byte, size_t n) {
    volatile unsigned char *t = to;
    while (n-- > 0) *t++ = (unsigned char)byte;
    return to;
}

void *memcpy(void *restrict to, const void *restrict from, size_t n) {
    volatile unsigned char *t = to;
    const unsigned char *f = from;
    while (n-- > 0) *t++ = *f++;
    return to;
}

/* Three buffers, of a state or of a run; for the writes of a list the list and two of them. */
#define STATE w[0], l[0].length, w[1], l[1].length, w[2], l[2].length
#define SPARE w[3], l[3].length, w[4], l[4].length, w[5], l[5].length

static uint64_t answer(struct call *c) {
    const struct lent *l = c->lent;
    uint32_t *w[LENT];
    /* null for an empty buffer, as the header allows: the library must not look there */
    for (int k = 0; k < LENT; k++) w[k] = l[k].length ? c->words + l[k].at : NULL;
    switch (c->which) {
    case READ: return pica_read(STATE, w[3], l[3].length, w[4]);
    case WRITE: return pica_write(STATE, c->numbers[0], c->numbers[1], c->numbers[2]);
    case WRITES: return pica_writes(STATE, w[3], l[3].length);
    case PACK: return pica_pack(STATE, w[3], l[3].length);
    case DECODE: return pica_decode(STATE, w[3]);
    case FRAGMENT: return pica_fragment(STATE, w[3], w[4]);
    case OPEN: return pica_open(STATE, SPARE, w[6]);
    case FEED: return pica_feed(STATE, w[3], w[4], l[4].length);
    default: return pica_close(STATE, SPARE, w[6], w[7]);
    }
}

__attribute__((force_align_arg_pointer, noreturn)) void _start(void) {
    struct call *c = (struct call *)ask(SYS_MMAP, 0, sizeof *c, 3, 1, SHARED_FILE, 0);
    char byte;
    while (ask(SYS_READ, 0, (long)&byte, 1, 0, 0, 0) == 1) {
        c->answer = answer(c);
        ask(SYS_WRITE, 1, (long)&byte, 1, 0, 0, 0);
    }
    for (;;) ask(SYS_EXIT, 0, 0, 0, 0, 0, 0);
}
