/*
 * Measures the proved library against the plain C version. For each workload both must first give the same answer and leave the same in
 * every buffer; then short bursts of the one and the other take turns. What else runs on the machine meets both bursts of a pair, so that
 * each pair gives a ratio, and the median of these counts: neither a burst that was interrupted nor one that was lucky moves it.
 */
#include <stdio.h>
#include <stdlib.h>
#include <string.h>
#include <time.h>

#include "bench.h"

#ifdef BEFORE /* another build of the library stands in the plain version's place */
static const char other[] = "before", other_ns[] = "before ns";
#else
static const char other[] = "plain C", other_ns[] = "plain ns";
#endif

enum { PAIRS = 1001, BURST_NS = 150000 }; /* odd, so that the median is one of them */

/* Both begin a page, so that neither is better placed. */
static struct side by_ours __attribute__((aligned(4096))), by_plain __attribute__((aligned(4096))), by_read __attribute__((aligned(4096)));

static double now(void) {
    struct timespec t;
    clock_gettime(CLOCK_MONOTONIC, &t);
    return t.tv_sec * 1e9 + t.tv_nsec;
}

static double burst(const struct workload *w, const struct library *l, struct side *s, unsigned times) {
    double from = now();
    work(w, l, s, times);
    return now() - from;
}

/* Both are always run equally often, so that even a state that goes on changing must be the same. */
static void must_agree(const char *what) {
    if (memcmp(&by_ours, &by_plain, sizeof by_ours) == 0) return;
    printf("%s: the answers or the buffers differ\n", what);
    exit(1);
}

/* A workload that is refused, but for the one that has to be, would measure next to nothing. */
static void must_answer(const struct workload *w, const struct side *s, uint32_t number) {
    for (size_t k = 0; k < CALLS && k < (w->call == WRITE || w->drawn ? CALLS : w->times); k++) {
        if (pica_number(s->answers[k]) == number) continue;
        printf("%s: refusal %u\n", w->what, (unsigned)pica_number(s->answers[k]));
        exit(1);
    }
}

/* What is fed is also read at once, by the proved library: where the list is accepted, both leave the same state. */
static void must_read_alike(const struct workload *w, const struct workload *whole) {
    work(whole, &ours, &by_read, 1);
    must_answer(whole, &by_read, w->number);
    if (w->number != 0 || memcmp(&by_ours.state, &by_read.state, sizeof by_read.state) == 0) return;
    printf("%s: the state is not what reading leaves\n", w->what);
    exit(1);
}

/* How many rounds make a burst. */
static unsigned calibrated(const struct workload *w) {
    unsigned times = 1;
    while (times < 1u << 24 && burst(w, &plain, &by_plain, times) < BURST_NS) times *= 2;
    return times;
}

static int by_size(const void *a, const void *b) {
    double x = *(const double *)a, y = *(const double *)b;
    return (x > y) - (x < y);
}

static double median(double *of) {
    qsort(of, PAIRS, sizeof *of, by_size);
    return of[PAIRS / 2];
}

static double greatest;
static char greatest_name[64];

/* Both begin alike; a reader that is closed is a fresh one. */
static void set_out(const struct workload *w) {
    memset(&by_ours, 0xA5, sizeof by_ours);
    memset(by_ours.reader, 0, sizeof by_ours.reader);
    by_read = by_plain = by_ours;
    work(w, &ours, &by_ours, 1);
    work(w, &plain, &by_plain, 1);
    must_agree(w->what);
    must_answer(w, &by_ours, w->call == FEED ? 0 : w->number);
}

static void measure(const struct workload *w) {
    static double a[PAIRS], b[PAIRS], ratios[PAIRS], by_reading[PAIRS];
    struct workload whole = *w;
    size_t units = prepared(w);
    unsigned times = calibrated(w);
    set_out(w);
    whole.call = READ;
    if (w->call == FEED) must_read_alike(w, &whole);
    for (int k = 0; k < PAIRS; k++) {
        a[k] = burst(w, &ours, &by_ours, times);
        b[k] = burst(w, &plain, &by_plain, times);
        ratios[k] = a[k] / b[k];
        if (w->call == FEED) by_reading[k] = a[k] / burst(&whole, &ours, &by_read, times);
    }
    must_agree(w->what);
    double all = (double)times * units, ratio = median(ratios);
    printf("%-56s %9.2f %9.2f %7.2f", w->what, median(a) / all, median(b) / all, ratio);
    if (w->call == FEED) printf(" %7.2f", median(by_reading));
    printf("\n");
    fflush(stdout);
    if (ratio > greatest) {
        greatest = ratio;
        snprintf(greatest_name, sizeof greatest_name, "%s", w->what);
    }
}

int main(int count, char **words) {
    const char *only = count > 1 ? words[1] : "";
    unsigned cases = compare_random();
    if (cases == 0) return 1;
    printf("benchmark: %u random cases: the same answers and buffers as %s\n", cases, other);
    if (strcmp(only, "--compare") == 0) return 0;
    printf("%-56s %9s %9s %7s %7s\n", "what", "ours ns", other_ns, "ratio", "by read");
    for (size_t k = 0; k < workload_count; k++)
        if (strstr(workloads[k].what, only)) measure(&workloads[k]);
    if (greatest == 0) {
        fprintf(stderr, "no workload's name contains %s\n", only);
        return 1;
    }
    printf("greatest ratio %.2f (%s)\n", greatest, greatest_name);
    return 0;
}
