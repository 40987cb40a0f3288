/*
 * Compares the soft values that the library makes of bit patterns of floats with the reference's,
 * each pattern once as a real part and once as an imaginary one.
 *
 *   compare_floats [one in [hostile]]
 *
 * One in 1, which is usual, is all 2^32 patterns. Else it is one in so many, best an odd number,
 * and all that are near an edge. With hostile the library's calls, and not the reference, run in
 * each of the float modes of float_modes.h.
 *
 * There are as many threads as cores. How far they are is told on standard error.
 */
#define _POSIX_C_SOURCE 200809L /* clock_gettime, isatty, nanosleep, sysconf */
#include "float_check.h"
#include "float_modes.h"
#include "float_sweep.h"

#include <inttypes.h>
#include <pthread.h>
#include <signal.h>
#include <stdatomic.h>
#include <stdio.h>
#include <stdlib.h>
#include <string.h>
#include <time.h>
#include <unistd.h>

/* So near to an edge all patterns are tried, usually and in each hostile mode. */
enum { USUAL_REACH = 1024, HOSTILE_REACH = 64 };

/* The same sweep in each mode. A thread takes a batch of its blocks at a time. */
enum { BATCH = 256 };
static struct sweep sweep;
static size_t first_mode = USUAL_MODE, modes = 1;
static uint64_t blocks, taken;                           /* in all modes together */
static pthread_mutex_t lock = PTHREAD_MUTEX_INITIALIZER; /* of taken, and of what is drawn */
static atomic_uint_fast64_t done;                        /* blocks */
static atomic_size_t ended;                              /* threads */

/* Each has memory of its own. */
static struct worker {
    pthread_t thread;
    struct float_memory memory;
} *workers;
static size_t threads;

/* ---- threads */

/* Takes a batch, and places the slices anew for it; the number of its first block. */
static uint64_t take(struct worker *w)
{
    pthread_mutex_lock(&lock);
    uint64_t first = taken;
    taken += BATCH;
    float_memory_place(&w->memory);
    pthread_mutex_unlock(&lock);
    return first;
}

static void try_block(struct worker *w, uint64_t block)
{
    uint32_t patterns[BLOCK] = {0};
    size_t mode = first_mode + (size_t)(block / sweep.blocks);
    size_t counted = sweep_block(&sweep, block % sweep.blocks, patterns);
    float_check(&w->memory, mode, patterns, counted, (size_t)(block % BLOCK));
}

static void *work(void *argument)
{
    struct worker *w = argument;
    for (uint64_t first; (first = take(w)) < blocks;) {
        uint64_t end = first + BATCH < blocks ? first + BATCH : blocks;
        for (uint64_t block = first; block < end; block++)
            try_block(w, block);
        atomic_fetch_add(&done, end - first);
    }
    atomic_fetch_add(&ended, 1);
    return NULL;
}

static void start(void)
{
    workers = calloc(threads, sizeof *workers);
    for (size_t i = 0; i < threads; i++) {
        if (workers != NULL)
            float_memory_open(&workers[i].memory);
        if (workers == NULL || pthread_create(&workers[i].thread, NULL, work, &workers[i]) != 0) {
            fprintf(stderr, "compare_floats: thread %zu cannot be started\n", i + 1);
            exit(2);
        }
    }
}

/* An access outside a room. */
static void on_fault(int number)
{
    static const char message[] = "compare_floats: FAILED: memory outside the slices was touched\n";
    (void)number;
    _Exit(write(STDOUT_FILENO, message, sizeof message - 1) > 0 ? 1 : 2);
}

/* ---- how far it is, on standard error */

static double now(void)
{
    struct timespec time;
    clock_gettime(CLOCK_MONOTONIC, &time);
    return (double)time.tv_sec + (double)time.tv_nsec / 1e9;
}

/* Where standard error is no terminal, a line for every tenth, but none in the first seconds. */
enum { QUIET_SECONDS = 5 };

static void watch(double began)
{
    const struct timespec pause = {0, 50000000};
    int terminal = isatty(STDERR_FILENO), tenth = 0;
    for (; atomic_load(&ended) < threads; nanosleep(&pause, NULL)) {
        int percent = (int)(100 * atomic_load(&done) / blocks);
        double seconds = now() - began;
        if (terminal)
            fprintf(stderr, "\rcompare_floats: %d %%, %.0f s ", percent, seconds);
        else if (percent / 10 > tenth && seconds > QUIET_SECONDS)
            fprintf(stderr, "compare_floats: %d %%, %.0f s\n", percent, seconds);
        tenth = percent / 10;
    }
    if (terminal)
        fprintf(stderr, "\r%60s\r", "");
}

/* ---- the report */

static struct float_seen sum_of(size_t part)
{
    struct float_seen all = {0};
    for (size_t i = 0; i < threads; i++) {
        const struct float_seen *seen = &workers[i].memory.seen[part];
        all.sums.count += seen->sums.count;
        all.sums.sum += seen->sums.sum;
        all.sums.squares += seen->sums.squares;
        all.not_zero += seen->not_zero;
        all.gaps += seen->gaps;
    }
    return all;
}

/* 1 if a part has seen the patterns of the sweep in each mode. Of all patterns those above 1/128 up
 * to infinity give another value than 0, and those above infinity are gaps, by either sign. */
static int is_complete(const struct float_seen *seen, const struct sweep_sums *must)
{
    const uint64_t times = modes, gaps = 0x7fffffff - 0x7f800000, not_zero = 0x7f800000 - 0x3c000000;
    if (seen->sums.count != times * must->count || seen->sums.sum != times * must->sum ||
        seen->sums.squares != times * must->squares)
        return 0;
    return sweep.one_in > 1 || (seen->sums.count == times << 32 && seen->gaps == 2 * times * gaps &&
                                seen->not_zero == 2 * times * not_zero);
}

static int report(const struct float_seen *real, const struct float_seen *imaginary, const struct sweep_sums *must)
{
    printf("compare_floats: ");
    if (sweep.one_in > 1)
        printf("one in %" PRIu32 " patterns and those within %" PRIu32 " of an edge, ", sweep.one_in, sweep.reach);
    if (first_mode != USUAL_MODE)
        printf("in each of %zu float modes, ", modes);
    printf("%" PRIu64 " as real and %" PRIu64 " as imaginary part agree; %" PRIu64 " and %" PRIu64
           " soft values not 0, %" PRIu64 " and %" PRIu64 " gaps; ",
           real->sums.count, imaginary->sums.count, real->not_zero, imaginary->not_zero, real->gaps, imaginary->gaps);
    return is_complete(real, must) && is_complete(imaginary, must);
}

static int run(void)
{
    double began = now();
    start();
    struct sweep_sums must = sweep_must(&sweep);
    watch(began);
    for (size_t i = 0; i < threads; i++)
        pthread_join(workers[i].thread, NULL);
    struct float_seen real = sum_of(0), imaginary = sum_of(1);
    int complete = report(&real, &imaginary, &must);
    printf("%zu threads, %.1f s\n", threads, now() - began);
    if (!complete)
        printf("compare_floats: FAILED: these are not the patterns of the sweep, each once as either part\n");
    return complete ? 0 : 1;
}

int main(int argc, char **argv)
{
    unsigned long one_in = argc > 1 ? strtoul(argv[1], NULL, 10) : 1;
    int hostile = argc == 3 && strcmp(argv[2], "hostile") == 0;
    if (one_in < 1 || one_in > UINT32_MAX || (argc > 2 && !hostile)) {
        fprintf(stderr, "usage: compare_floats [one in [hostile]]\n");
        return 2;
    }
    if (hostile && float_modes() == 0) {
        printf("compare_floats: left out, no other float modes of this machine are known here\n");
        return 0;
    }
    if (hostile) {
        first_mode = USUAL_MODE + 1;
        modes = float_modes();
    }
    sweep_open(&sweep, (uint32_t)one_in, hostile ? HOSTILE_REACH : USUAL_REACH);
    blocks = modes * sweep.blocks;
    signal(SIGSEGV, on_fault);
    signal(SIGBUS, on_fault);
    long cores = sysconf(_SC_NPROCESSORS_ONLN);
    threads = cores < 1 ? 1 : (size_t)cores;
    return run();
}
