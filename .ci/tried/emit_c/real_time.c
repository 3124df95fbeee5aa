/* A user of a diagram in real time. What depends on the diagram is written in place of the comments of one word. */

#define _POSIX_C_SOURCE 200809L

#include "it_posix.h"

#include <pthread.h>
#include <signal.h>
#include <stdio.h>
#include <stdlib.h>
#include <string.h>
#include <time.h>

enum { MOST_ROWS = 100000, MOST_OVERRUNS = 100000 };

typedef struct { unsigned task, instance; unsigned long long tick; } told;
typedef struct { unsigned instance; long long outs[8]; } row;

static told overruns[MOST_OVERRUNS];
static unsigned overrun_count;
static row *rows[32];
static unsigned row_counts[32];
static unsigned long long drawn;
static unsigned long long spins;
static atomic_uint raises[16];
static atomic_uint raises_in_time[16];
static unsigned long long least_last_tick; /* a time before which the last tick is not */
static atomic_bool may_raise;

void it_overrun(uint32_t task, uint32_t instance, uint64_t tick)
{
    const told it = {task, instance, tick};
    overruns[overrun_count++] = it;
}

static unsigned long long next_of(unsigned long long *state)
{
    *state = *state * 6364136223846793005ULL + 1442695040888963407ULL;
    return *state >> 33;
}

static unsigned long long used(void)
{
    struct timespec now;
    clock_gettime(CLOCK_THREAD_CPUTIME_ID, &now);
    return (unsigned long long)now.tv_sec * 1000000000ULL + (unsigned long long)now.tv_nsec;
}

/* Takes the processor for a part of the cost, and now and then for more than the period. */
static void work(unsigned instance, unsigned task, unsigned long long cost, unsigned long long period)
{
    unsigned long long state = instance * 40503ULL + task + spins;
    const unsigned long long drawn_part = next_of(&state);
    const unsigned long long length = drawn_part % 97 == 0 ? period + period / 2 : cost * (drawn_part % 64) / 100;
    const unsigned long long end = used() + length;
    while (used() < end) {
        continue;
    }
}

static void keep(unsigned task, unsigned instance, unsigned count, const int64_t *outs)
{
    row *own = &rows[task][row_counts[task]++];
    own->instance = instance;
    for (unsigned at = 0; at < count; at++) {
        own->outs[at] = outs[at];
    }
}

static unsigned long long monotonic_now(void)
{
    struct timespec now;
    clock_gettime(CLOCK_MONOTONIC, &now);
    return (unsigned long long)now.tv_sec * 1000000000ULL + (unsigned long long)now.tv_nsec;
}

/* Counts an event that was raised; one that was raised before the last tick occurs in the run. */
static void count_raise(unsigned event)
{
    atomic_fetch_add(&raises_in_time[event], monotonic_now() < least_last_tick);
    atomic_fetch_add(&raises[event], 1);
}

/* INPUTS */
/* ROWS */
static void raise_all(void)
{
    if (atomic_load(&may_raise)) {
/* RAISES */
    }
}

static void on_signal(int number)
{
    (void)number;
    raise_all();
}

static void on_stop(int number)
{
    (void)number;
    it_stop();
}

static void *raise_often(void *unused)
{
    unsigned long long state = drawn + 7;
    (void)unused;
    while (atomic_load(&may_raise)) {
        const struct timespec length = {0, (long)(next_of(&state) % 16) * 1000000};
        nanosleep(&length, NULL);
        raise_all();
    }
    return NULL;
}

static void *forbid_raises(void *given)
{
    const unsigned long long length = *(unsigned long long *)given;
    const struct timespec rest = {(time_t)(length / 1000000000ULL), (long)(length % 1000000000ULL)};
    nanosleep(&rest, NULL);
    atomic_store(&may_raise, false);
    return NULL;
}

int main(int count, char **words)
{
    const unsigned long long ticks = strtoull(words[1], NULL, 10);
    static unsigned long long raising;
    raising = strtoull(words[4], NULL, 10);
    pthread_t raiser, forbidder;
    struct sigaction action;
    (void)count;
    drawn = strtoull(words[3], NULL, 10);
    spins = drawn;
    for (unsigned task = 0; task < 32; task++) {
        rows[task] = calloc(MOST_ROWS / 8, sizeof(row));
    }
    memset(&action, 0, sizeof action);
    action.sa_handler = on_signal;
    sigaction(SIGUSR1, &action, NULL);
    action.sa_handler = on_stop;
    sigaction(SIGTERM, &action, NULL);
    least_last_tick = monotonic_now() + strtoull(words[5], NULL, 10);
    atomic_store(&may_raise, true);
    pthread_create(&raiser, NULL, raise_often, NULL);
    pthread_create(&forbidder, NULL, forbid_raises, &raising);
    pthread_detach(forbidder);
    const dbp_posix_end end = it_run(ticks);
    atomic_store(&may_raise, false);
    pthread_join(raiser, NULL);
    if (end != DBP_RAN || !it_write_log(words[2])) {
        return 1;
    }
    for (unsigned at = 0; at < overrun_count; at++) {
        printf("overrun %u %u %llu\n", overruns[at].task, overruns[at].instance, overruns[at].tick);
    }
    for (unsigned event = 0; event < 16; event++) {
        printf("raised %u %u %u\n", event, atomic_load(&raises_in_time[event]), atomic_load(&raises[event]));
    }
    for (unsigned task = 0; task < 32; task++) {
        for (unsigned at = 0; at < row_counts[task]; at++) {
            printf("row %u %u", task, rows[task][at].instance);
            for (unsigned out = 0; out < 8; out++) {
                printf(" %lld", rows[task][at].outs[out]);
            }
            printf("\n");
        }
    }
    return 0;
}
