#define _POSIX_C_SOURCE 200809L /* clock_gettime */
#include "load_threads.h"

#include "settings.h"

#include <pthread.h>
#include <stdatomic.h>
#include <stdlib.h>
#include <string.h>
#include <time.h>

/* Nanoseconds from one look at a round under way to the next. */
enum { WATCH_NANOSECONDS = 250000000, A_SECOND = 1000000000 };

struct worker {
    struct load_threads *all;
    pthread_t thread;
    struct load_tables tables;
    unsigned long served;
};

/* A thread takes blocks one by one until the round has no more. */
struct load_threads {
    pthread_mutex_t lock; /* of what follows, but for taken */
    pthread_cond_t begins, ended;
    unsigned long rounds; /* that have begun */
    size_t at_work;       /* threads that have not ended the round */
    int over;
    struct load_round *round;
    atomic_size_t taken;
    size_t count;
    struct worker workers[MOST_THREADS];
};

/* ---- a thread */

/* 1 once the round of this number has begun, 0 if there is none any more. */
static int wait_for(struct load_threads *t, unsigned long number)
{
    pthread_mutex_lock(&t->lock);
    while (t->rounds < number && !t->over)
        pthread_cond_wait(&t->begins, &t->lock);
    int begun = !t->over;
    pthread_mutex_unlock(&t->lock);
    return begun;
}

static void *work(void *argument)
{
    struct worker *w = argument;
    struct load_threads *t = w->all;
    for (unsigned long number = 1; wait_for(t, number); number++) {
        for (size_t i; (i = atomic_fetch_add(&t->taken, 1)) < t->round->count; w->served++)
            block_serve(t->round, &t->round->blocks[i], &w->tables);
        pthread_mutex_lock(&t->lock);
        if (--t->at_work == 0)
            pthread_cond_signal(&t->ended);
        pthread_mutex_unlock(&t->lock);
    }
    return NULL;
}

/* ---- all of them */

struct load_threads *threads_open(size_t count, const struct load_code *code)
{
    struct load_threads *t = calloc(1, sizeof *t);
    if (t == NULL || pthread_mutex_init(&t->lock, NULL) != 0 || pthread_cond_init(&t->begins, NULL) != 0 ||
        pthread_cond_init(&t->ended, NULL) != 0)
        die("there is no memory for threads; give fewer");
    t->count = count;
    for (size_t i = 0; i < count; i++) {
        struct worker *w = &t->workers[i];
        w->all = t;
        tables_open(&w->tables, code);
        int error = pthread_create(&w->thread, NULL, work, w);
        if (error != 0)
            die("thread %zu cannot be started (%s); give threads=%zu", i + 1, strerror(error), i > 0 ? i : 1);
    }
    return t;
}

void threads_close(struct load_threads *t)
{
    pthread_mutex_lock(&t->lock);
    t->over = 1;
    pthread_cond_broadcast(&t->begins);
    pthread_mutex_unlock(&t->lock);
    for (size_t i = 0; i < t->count; i++) {
        pthread_join(t->workers[i].thread, NULL);
        tables_close(&t->workers[i].tables);
    }
    pthread_cond_destroy(&t->ended);
    pthread_cond_destroy(&t->begins);
    pthread_mutex_destroy(&t->lock);
    free(t);
}

/* ---- a round */

static struct timespec now(clockid_t clock)
{
    struct timespec time;
    clock_gettime(clock, &time);
    return time;
}

/* Waits until all threads have ended the round. The lock is held, but not while watch is called. */
static void watch_round(struct load_threads *t, void (*watch)(size_t taken))
{
    while (t->at_work > 0) {
        struct timespec until = now(CLOCK_REALTIME);
        until.tv_sec += (until.tv_nsec + WATCH_NANOSECONDS) / A_SECOND;
        until.tv_nsec = (until.tv_nsec + WATCH_NANOSECONDS) % A_SECOND;
        if (pthread_cond_timedwait(&t->ended, &t->lock, &until) == 0)
            continue;
        size_t taken = atomic_load(&t->taken);
        pthread_mutex_unlock(&t->lock);
        watch(taken < t->round->count ? taken : t->round->count);
        pthread_mutex_lock(&t->lock);
    }
}

double threads_serve(struct load_threads *t, struct load_round *r, void (*watch)(size_t taken))
{
    pthread_mutex_lock(&t->lock);
    t->round = r;
    t->at_work = t->count;
    atomic_store(&t->taken, 0);
    struct timespec from = now(CLOCK_MONOTONIC);
    t->rounds++;
    pthread_cond_broadcast(&t->begins);
    watch_round(t, watch);
    struct timespec to = now(CLOCK_MONOTONIC);
    pthread_mutex_unlock(&t->lock);
    return (double)(to.tv_sec - from.tv_sec) + (double)(to.tv_nsec - from.tv_nsec) / A_SECOND;
}

void threads_judge(const struct load_threads *t)
{
    for (size_t i = 0; i < t->count; i++)
        if (t->workers[i].served > 0 && !tables_are_clear(&t->workers[i].tables))
            die("thread %zu: its tables are not all 0 after a round, which they are proved to be; " LOAD_FAULTY, i + 1);
}
