/*
 * A tool by which boxes are compared: it serves the test loads of a code by 1, 2, .. threads and
 * prints for each number of threads the blocks a second and a checksum of all that came of the
 * blocks. The checksum is the same on every box and for every number of threads, whatever the
 * machine's byte order and the C library are. Whatever is wrong is told in one line on standard
 * error, and the status is then 1.
 *
 * A block is a test load that is read, decoded and extracted; block i has the frame number i and
 * goes on from the state that the block before it gave. The clock runs only while the threads are
 * at work, not while blocks are made or judged.
 *
 * Build, from the repository's top, after `make target/staticlib/libcaldurrex.a`:
 *
 *   cc -std=c11 -O2 -pthread -Iinclude examples/run_load.c examples/load_round.c examples/load_threads.c \
 *       examples/settings.c target/staticlib/libcaldurrex.a
 */
#define _POSIX_C_SOURCE 200809L /* isatty, sysconf */
#include "load_round.h"
#include "load_threads.h"
#include "settings.h"

#include <errno.h>
#include <inttypes.h>
#include <signal.h>
#include <stdio.h>
#include <string.h>
#include <time.h>
#include <unistd.h>

enum { USUAL_STATE = 1, USUAL_BLOCKS = 10000, USUAL_LIST = 4, THE_BOX = 900 };
enum { CODE, STATE, BLOCKS, THREADS, LIST, SETTINGS };

static struct setting settings[SETTINGS] = {
    [CODE] = {.name = "code", .due = "conv64, conv256, conv1024, polar64, polar256 or polar1024"},
    [STATE] = {.name = "state", .due = "a state from 1 to 4294967295"},
    [BLOCKS] = {.name = "blocks", .due = "a number of blocks from 1 to 4294967295"},
    [THREADS] = {.name = "threads", .due = "a number of threads from 1 to 64, for runs by 1 to that many"},
    [LIST] = {.name = "list", .due = "a list size from 1 to 32"},
};

static int show_usage(void)
{
    fputs("usage: run_load code=NAME [SETTING..], for the speed of this box by these settings, in any order:\n", stderr);
    settings_print();
    fprintf(stderr,
            "Where they are not given, state is %d, blocks is %d, threads is the number of cores, and list is %d. A\n"
            "code has as many positions as its name says, half of them frozen; conv stands for the convolutional\n"
            "transform, polar for Arikan's. Boxes with the same settings, whatever their number of threads, must\n"
            "print the same checksum. For example:\n"
            "  run_load code=conv256 blocks=4000 list=8\n", USUAL_STATE, USUAL_BLOCKS, USUAL_LIST);
    return 1;
}

/* ---- codes */

static unsigned weight(size_t i)
{
    unsigned ones = 0;
    for (; i > 0; i /= 2)
        ones += i % 2;
    return ones;
}

/* Freezes half of the positions: those of lowest weight, and of equal weight the lowest. */
static void freeze(struct load_code *code)
{
    size_t left = code->n / 2;
    code->k = code->n - left;
    memset(code->map, 0, sizeof code->map);
    for (unsigned w = 0; left > 0; w++)
        for (size_t i = 0; i < code->n && left > 0; i++)
            if (weight(i) == w) {
                code->map[i / 8] |= (uint8_t)(1u << (i % 8));
                left--;
            }
}

static struct load_code take_code(void)
{
    static const struct load_code codes[] = {
        {.name = "conv64", .m = 6},   {.name = "polar64", .m = 6, .arikan = 1},
        {.name = "conv256", .m = 8},  {.name = "polar256", .m = 8, .arikan = 1},
        {.name = "conv1024", .m = 10}, {.name = "polar1024", .m = 10, .arikan = 1},
    };
    const char *name = settings[CODE].given;
    if (name == NULL)
        die("code is not given; give code= and behind it %s", settings[CODE].due);
    for (size_t i = 0; i < sizeof codes / sizeof codes[0]; i++)
        if (strcmp(codes[i].name, name) == 0) {
            struct load_code code = codes[i];
            code.n = (size_t)1 << code.m;
            code.list_size = setting_from(&settings[LIST], 1, 32, USUAL_LIST);
            freeze(&code);
            return code;
        }
    die("there is no code '%.40s'; give %s", name, settings[CODE].due);
}

static uint32_t cores(void)
{
    long online = sysconf(_SC_NPROCESSORS_ONLN);
    return online < 1 ? 1 : online > MOST_THREADS ? MOST_THREADS : (uint32_t)online;
}

/* ---- how far it is, on standard error */

/* Where standard error is no terminal, so many seconds pass between two lines. */
enum { SECONDS_TO_A_LINE = 5 };

static struct {
    const char *code;
    size_t threads;
    unsigned long done, blocks; /* of the rounds before this one; all */
    time_t last;
    int shown; /* a line stands on the terminal */
} progress;

static void watch(size_t taken)
{
    int terminal = isatty(STDERR_FILENO);
    time_t now = time(NULL);
    if (!terminal && now - progress.last < SECONDS_TO_A_LINE)
        return;
    progress.last = now;
    progress.shown = terminal;
    fprintf(stderr, "%s%s by %zu thread%s: %lu of %lu blocks%s", terminal ? "\r" : "run_load: ", progress.code,
            progress.threads, progress.threads == 1 ? "" : "s", progress.done + (unsigned long)taken, progress.blocks,
            terminal ? "   " : "\n");
}

/* Nothing stands there when something else is printed. */
static void clear_progress(void)
{
    if (progress.shown)
        fprintf(stderr, "\r%60s\r", "");
    progress.shown = 0;
}

/* ---- runs */

struct result {
    double seconds;
    uint64_t checksum;
    unsigned long given_back;
};

static struct result run(const struct load_code *code, struct load_round *round, uint32_t state, uint32_t blocks,
                         size_t threads)
{
    struct result result = {.checksum = load_checksum};
    struct load_threads *all = threads_open(threads, code);
    progress.threads = threads;
    for (uint32_t done = 0; done < blocks; done += (uint32_t)round->count) {
        progress.done = done;
        state = round_make(round, state, done, blocks - done < round->room ? blocks - done : round->room);
        result.seconds += threads_serve(all, round, watch);
        clear_progress();
        result.checksum = round_judge(round, result.checksum, &result.given_back);
        threads_judge(all);
    }
    threads_close(all);
    return result;
}

static void print_row(const struct result *result, uint32_t blocks, size_t threads)
{
    double a_second = blocks / (result->seconds > 1e-9 ? result->seconds : 1e-9);
    printf("%7zu %16.0f %9.0f %8d  %016" PRIx64 "\n", threads, a_second, a_second / (double)threads, THE_BOX,
           result->checksum);
}

/* A pipe that nobody reads is an output that cannot be written. */
static void flush(void)
{
    if (fflush(stdout) != 0 || ferror(stdout))
        die("standard output cannot be written (%s); give it a place that takes the table", strerror(errno));
}

/* For 1, 2, .. threads the same blocks, which must come to the same. */
static void run_all(const struct load_code *code, uint32_t state, uint32_t blocks, size_t most_threads)
{
    struct load_round round;
    struct result first = {0};
    round_open(&round, code);
    printf("threads  blocks a second  a thread  the box  checksum\n");
    for (size_t threads = 1; threads <= most_threads; threads++) {
        struct result result = run(code, &round, state, blocks, threads);
        if (threads == 1)
            first = result;
        print_row(&result, blocks, threads);
        flush();
        if (result.checksum != first.checksum)
            die("the checksum is another with %zu threads than with 1; " LOAD_FAULTY, threads);
    }
    round_close(&round);
    printf("The box's figure is %d blocks a second a core, at n = 256 with list size 8.\n", THE_BOX);
    printf("%lu of %lu blocks gave the payload back.\n", first.given_back, (unsigned long)blocks);
    flush();
}

int main(int argc, char **argv)
{
    settings_open("run_load", settings, SETTINGS);
    if (settings_help(argc, argv))
        return show_usage();
    settings_collect(argc, argv);
    struct load_code code = take_code();
    uint32_t state = setting_from(&settings[STATE], 1, UINT32_MAX, USUAL_STATE);
    uint32_t blocks = setting_from(&settings[BLOCKS], 1, UINT32_MAX, USUAL_BLOCKS);
    uint32_t threads = setting_from(&settings[THREADS], 1, MOST_THREADS, cores());
    progress.code = code.name;
    progress.blocks = blocks;
    progress.last = time(NULL);
    signal(SIGPIPE, SIG_IGN);
    printf("%s: n = %zu, half of it frozen, %s transform, list size %lu; %lu blocks from state %lu\n", code.name,
           code.n, code.arikan ? "Arikan's" : "the convolutional", (unsigned long)code.list_size,
           (unsigned long)blocks, (unsigned long)state);
    flush();
    run_all(&code, state, blocks, threads);
    return 0;
}
