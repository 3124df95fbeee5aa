/* Written by tools/emit_c of dbp: it writes this file anew at each call. */

#define _POSIX_C_SOURCE 200809L

#include "dbp_trace.h"

#include <errno.h>
#include <pthread.h>
#include <sched.h>
#include <semaphore.h>
#include <stdio.h>
#include <stdlib.h>
#include <string.h>
#include <time.h>

enum { DONE = 0, WRONG_WORDS = 2, WRITE_FAILED = 5, NO_THREAD = 6, TOO_MANY = 70 };

#define MOST_PARTIES (DBP_MOST_TASKS + 1)
#define MOST_TURNS 400         /* in which a party yields before it sleeps, by the number of parties */
#define MOST_YIELDS 400        /* of a party with a seed, before it sleeps for a time */
#define SHORTEST_SLEEP 20000   /* in nanoseconds */
#define LONGEST_SLEEP 500000
#define LINE_ROOM 512          /* bytes of the longest line, with room to spare */

static const dbp_trace *the;

/* The time of the release that is under way, which is the releaser's alone. */
static uint32_t now;

/* Whether the releaser has made its last step, and whether a task has had too many instances. */
static atomic_bool has_finished;
static atomic_bool has_too_many;

/* What the words say. */
static FILE *record;
static bool is_drawn;
static uint64_t seed;

/* A party: the releaser has the number 0, a task one more than its own. `awaited` is one more than the number of the party
 * for whose step it sleeps, or 0. */
typedef struct {
    uint32_t number;
    uint32_t idle;   /* how many steps in a row found that the other one's is missing */
    uint32_t other;
    bool has_said;   /* that it waits */
    uint64_t drawn;
    long sleep;
    atomic_uint awaited;
    sem_t bell;
} dbp_party;

static dbp_party parties[MOST_PARTIES];

static uint32_t party_count(void)
{
    return 1 + (uint32_t)the->diagram->task_count;
}

static void begin_parties(void)
{
    for (uint32_t number = 0; number < party_count(); number++) {
        parties[number].number = number;
        parties[number].drawn = seed + ((uint64_t)number << 32);
        parties[number].sleep = SHORTEST_SLEEP;
        sem_init(&parties[number].bell, 0, 0);
    }
}

/* The next word of SplitMix64. */
static uint64_t draw(dbp_party *party)
{
    party->drawn += UINT64_C(0x9E3779B97F4A7C15);
    uint64_t word = party->drawn;
    word = (word ^ (word >> 30)) * UINT64_C(0xBF58476D1CE4E5B9);
    word = (word ^ (word >> 27)) * UINT64_C(0x94D049BB133111EB);
    return word ^ (word >> 31);
}

static void yield_if_drawn(dbp_party *party)
{
    if (is_drawn && draw(party) % 4 == 0) {
        sched_yield();
    }
}

/* How a party waits. With a seed it yields, and sleeps for some time: then only the shared words order its steps after
 * those of others. Else it yields some times, but not with a record, in which each look is a line; then it says for whose
 * step it waits, looks once more, and sleeps until it is rung for. */

static void yield_or_sleep(dbp_party *party)
{
    if (party->idle <= (record == NULL ? MOST_YIELDS : 2)) {
        sched_yield();
        return;
    }
    const struct timespec length = {0, party->sleep};
    nanosleep(&length, NULL);
    party->sleep = party->sleep >= LONGEST_SLEEP / 2 ? LONGEST_SLEEP : 2 * party->sleep;
}

static void sleep_until_rung(dbp_party *party)
{
    while (sem_wait(&party->bell) != 0) {
        continue;
    }
}

/* Ends what a party has done to wait. If another one has just rung for it, the bell is taken. */
static void go_on(dbp_party *party)
{
    if (party->has_said && atomic_exchange(&party->awaited, 0) == 0) {
        sleep_until_rung(party);
    }
    party->has_said = false;
    party->idle = 0;
    party->sleep = SHORTEST_SLEEP;
}

/* What a party does after an idle step. `other` is the party for whose step it waits. */
static void wait_for(dbp_party *party, uint32_t other)
{
    const uint32_t turns = record == NULL ? MOST_TURNS / party_count() : 0;
    if (party->idle > 0 && party->other != other) {
        go_on(party);
    }
    party->other = other;
    party->idle++;
    if (is_drawn) {
        yield_or_sleep(party);
    } else if (party->idle <= turns) {
        sched_yield();
    } else if (party->idle == turns + 1) {
        party->has_said = true;
        atomic_store(&party->awaited, other + 1);
    } else {
        sleep_until_rung(party);
        party->has_said = false;
        party->idle = 0;
    }
}

/* Rings for a party that sleeps for a step of another one, which has made that step. */
static void ring(uint32_t number, uint32_t other)
{
    unsigned expected = other + 1;
    if (atomic_load(&parties[number].awaited) == expected
        && atomic_compare_exchange_strong(&parties[number].awaited, &expected, 0)) {
        sem_post(&parties[number].bell);
    }
}

/* Rings for those who may wait for what the task has done. */
static void ring_after(uint32_t task)
{
    const dbp_task *own = &the->diagram->tasks[task];
    for (uint32_t place = 0; place < own->leaving_count; place++) {
        ring(1 + (uint32_t)the->diagram->links[own->leaving[place]].reader, 1 + task);
    }
    ring(0, 1 + task);
}

/* Rings for those of the tasks that wait for the releaser. */
static void ring_tasks(uint32_t tasks)
{
    for (uint32_t task = 0; task < the->diagram->task_count; task++) {
        if ((tasks >> task) % 2 != 0) {
            ring(1 + task, 0);
        }
    }
}

/* The record. A step and its place in the record are made under one lock. */

static pthread_mutex_t lock = PTHREAD_MUTEX_INITIALIZER;

static const char *name_of(uint32_t task)
{
    return the->tasks[task].name;
}

static void write_claim(uint32_t link)
{
    const dbp_link ends = the->diagram->links[link];
    fprintf(record, "claim %s ", name_of(ends.reader));
    if (ends.delay > 1) {
        fprintf(record, "pre %u ", (unsigned)ends.delay);
    } else if (ends.delay == 1) {
        fprintf(record, "pre ");
    }
    fprintf(record, "%s\n", name_of(ends.writer));
}

static void write_releaser_step(dbp_step step)
{
    if (step.kind == DBP_SEEN) {
        fprintf(record, "seen %s -> %llu\n", name_of(step.task), (unsigned long long)step.word);
    } else if (step.kind == DBP_AIM) {
        fprintf(record, "aim %s %u\n", name_of(step.task), (unsigned)step.about);
    } else if (step.kind == DBP_CLAIM) {
        write_claim(step.about);
    } else {
        fprintf(record, "open %s\n", name_of(step.task));
    }
}

static long long value_of(uint64_t word)
{
    return word <= INT64_MAX ? (long long)word : -1 - (long long)(UINT64_MAX - word);
}

static void write_load(dbp_step step)
{
    const char *task = name_of(step.task);
    if (step.kind == DBP_START) {
        fprintf(record, "start %s -> %s\n", task, step.must_wait ? "closed" : "started");
    } else if (step.kind == DBP_HEAR) {
        const unsigned long long slot = step.word & UINT32_MAX, number = step.word >> 32;
        fprintf(record, "hear %s -> slot %llu number %llu\n", task, slot, number);
    } else if (step.kind == DBP_LOOK) {
        const char *read = the->tasks[step.task].reads[step.about];
        fprintf(record, "look %s %s -> %s\n", task, read, step.must_wait ? "notyet" : "ready");
    } else {
        fprintf(record, "take %s %s -> %lld\n", task, the->tasks[step.task].reads[step.about], value_of(step.word));
    }
}

static void write_store(dbp_step step)
{
    const char *task = name_of(step.task);
    if (step.kind == DBP_SHUT) {
        fprintf(record, "shut %s\n", task);
    } else if (step.kind == DBP_PUT) {
        fprintf(record, "put %s %s\n", task, the->tasks[step.task].outs[step.about]);
    } else {
        fprintf(record, "%s %s\n", step.kind == DBP_DONE ? "done" : "end", task);
    }
}

static void write_step(dbp_step step)
{
    if (step.kind == DBP_NO_STEP) {
        return;
    }
    if (step.kind <= DBP_OPEN_GATE) {
        write_releaser_step(step);
    } else if (step.kind <= DBP_TAKE) {
        write_load(step);
    } else {
        write_store(step);
    }
}

static dbp_step make(dbp_step (*step)(void), dbp_party *party)
{
    yield_if_drawn(party);
    if (record == NULL) {
        return step();
    }
    pthread_mutex_lock(&lock);
    const dbp_step made = step();
    write_step(made);
    pthread_mutex_unlock(&lock);
    return made;
}

/* The parties. With a record or a seed they go step by step, else by the calls that a system makes. */

static bool is_by_steps(void)
{
    return record != NULL || is_drawn;
}

/* The party for whose step a task waits: the releaser at a closed gate, the writer at a row that isn't there. */
static uint32_t missing_party(dbp_step step)
{
    const dbp_task *own = &the->diagram->tasks[step.task];
    uint32_t turn = 0;
    while (step.kind == DBP_LOOK && own->reads[turn].read != step.about) {
        turn++;
    }
    return step.kind == DBP_LOOK ? 1 + (uint32_t)own->reads[turn].writer : 0;
}

static void *run_task(void *given)
{
    dbp_party *party = given;
    const dbp_trace_task *task = &the->tasks[party->number - 1];
    dbp_step step = {DBP_NO_STEP, false, 0, 0, 0};
    while (!(step.kind == DBP_START && step.must_wait && atomic_load(&has_finished))) {
        step = is_by_steps() ? make(task->step, party) : task->instance();
        if (step.must_wait) {
            wait_for(party, missing_party(step));
        } else {
            go_on(party);
        }
        if (step.kind == DBP_DONE || step.kind == DBP_END) {
            ring_after(step.task);
        }
    }
    return NULL;
}

static void release_by_steps(dbp_party *party)
{
    dbp_step step;
    do {
        step = make(the->release_step, party);
        if (step.must_wait) {
            wait_for(party, 1 + (uint32_t)step.task);
        } else {
            go_on(party);
        }
        if (step.kind == DBP_OPEN_GATE) {
            ring(1 + (uint32_t)step.task, 0);
        }
    } while (step.kind != DBP_NO_STEP);
}

static dbp_released release_at_once(uint32_t tasks, dbp_party *party)
{
    dbp_released released = the->release(tasks);
    while (released.outcome == DBP_LATE) {
        wait_for(party, 1 + (uint32_t)released.task);
        released = the->release(tasks);
    }
    go_on(party);
    ring_tasks(released.tasks);
    return released;
}

static bool release_batch(uint32_t number, dbp_party *party)
{
    now = the->batches[number].time;
    const uint32_t tasks = dbp_tasks_at(the->diagram, now) | the->batches[number].tasks;
    const dbp_released released = is_by_steps() ? the->begin_release(tasks) : release_at_once(tasks, party);
    the->occurred[number] = released.tasks;
    if (is_by_steps()) {
        release_by_steps(party);
    }
    return released.outcome == DBP_RELEASED;
}

static void see_all_ended(dbp_party *party)
{
    dbp_step step;
    do {
        step = make(the->see_unended, party);
        if (step.must_wait) {
            wait_for(party, 1 + (uint32_t)step.task);
        } else {
            go_on(party);
        }
    } while (step.kind != DBP_NO_STEP);
}

static void run_releaser(void)
{
    for (uint32_t number = 0; number < the->batch_count; number++) {
        if (!release_batch(number, &parties[0])) {
            atomic_store(&has_too_many, true);
        }
    }
    see_all_ended(&parties[0]);
}

/* Without all its threads nothing runs; those that there are find no release. */
static int run_threads(void)
{
    pthread_t threads[DBP_MOST_TASKS];
    uint32_t count = 0;
    int fault = 0;
    while (fault == 0 && count < the->diagram->task_count) {
        fault = pthread_create(&threads[count], NULL, run_task, &parties[1 + count]);
        count += fault == 0;
    }
    if (fault == 0) {
        run_releaser();
    }
    atomic_store(&has_finished, true);
    ring_tasks(UINT32_MAX);
    for (uint32_t task = 0; task < count; task++) {
        pthread_join(threads[task], NULL);
    }
    return fault == 0 ? DONE : NO_THREAD;
}

/* What the diagram's file calls. */

int64_t dbp_trace_value(uint32_t input)
{
    const dbp_trace_input *own = &the->inputs[input];
    uint32_t low = 0, high = own->sample_count;
    while (low < high) {
        const uint32_t middle = low + (high - low) / 2;
        if (own->samples[middle].time <= now) {
            low = middle + 1;
        } else {
            high = middle;
        }
    }
    return low == 0 ? own->first : own->samples[low - 1].value;
}

void dbp_trace_keep(uint32_t task, uint32_t instance, const int64_t *outs)
{
    const dbp_trace_task *own = &the->tasks[task];
    const size_t ports = the->diagram->tasks[task].ports;
    if (instance == 0 || instance > own->most) {
        atomic_store(&has_too_many, true);
        return;
    }
    memcpy(&own->rows[(instance - 1) * ports], outs, ports * sizeof *outs);
}

/* The lines. */

typedef struct {
    char bytes[1 << 16];
    size_t count;
} dbp_lines;

static void add_text(dbp_lines *lines, const char *text)
{
    const size_t count = strlen(text);
    memcpy(&lines->bytes[lines->count], text, count);
    lines->count += count;
}

static void add_number(dbp_lines *lines, int64_t value)
{
    char digits[21];
    size_t at = sizeof digits;
    uint64_t rest = value < 0 ? (uint64_t)(-(value + 1)) + 1 : (uint64_t)value;
    digits[--at] = '\0';
    do {
        digits[--at] = (char)('0' + (char)(rest % 10));
        rest /= 10;
    } while (rest > 0);
    if (value < 0) {
        add_text(lines, "-");
    }
    add_text(lines, &digits[at]);
}

static void add_line(dbp_lines *lines, uint32_t time, uint32_t task, uint32_t instance)
{
    const size_t ports = the->diagram->tasks[task].ports;
    add_number(lines, time);
    add_text(lines, ",");
    add_text(lines, name_of(task));
    add_text(lines, ",");
    add_number(lines, instance);
    for (size_t port = 0; port < ports; port++) {
        add_text(lines, ",");
        add_number(lines, the->tasks[task].rows[(instance - 1) * ports + port]);
    }
    add_text(lines, "\n");
}

static bool flush(dbp_lines *lines)
{
    const bool is_written = fwrite(lines->bytes, 1, lines->count, stdout) == lines->count;
    lines->count = 0;
    return is_written;
}

/* Writes the lines of a batch's tasks, in the order of their declaration. */
static bool write_batch(dbp_lines *lines, uint32_t number, uint32_t *instances)
{
    bool is_written = true;
    for (uint32_t task = 0; is_written && task < the->diagram->task_count; task++) {
        if ((the->occurred[number] >> task) % 2 != 0) {
            instances[task]++;
            add_line(lines, the->batches[number].time, task, instances[task]);
            is_written = lines->count + LINE_ROOM <= sizeof lines->bytes || flush(lines);
        }
    }
    return is_written;
}

static int write_lines(void)
{
    static dbp_lines lines;
    uint32_t instances[DBP_MOST_TASKS] = {0};
    bool is_written = true;
    for (uint32_t number = 0; is_written && number < the->batch_count; number++) {
        is_written = write_batch(&lines, number, instances);
    }
    return is_written && flush(&lines) && fflush(stdout) == 0 ? DONE : WRITE_FAILED;
}

/* The words of a call. */

static bool read_seed(const char *word)
{
    char *end = NULL;
    errno = 0;
    seed = strtoull(word, &end, 10);
    is_drawn = word[0] >= '0' && word[0] <= '9' && *end == '\0' && errno == 0;
    return is_drawn;
}

static int read_words(int count, char **words)
{
    for (int at = 1; at < count; at += 2) {
        const bool has_more = at + 1 < count;
        if (has_more && strcmp(words[at], "--record") == 0 && record == NULL) {
            record = fopen(words[at + 1], "w");
            if (record == NULL) {
                perror(words[at + 1]);
                return WRITE_FAILED;
            }
        } else if (!has_more || strcmp(words[at], "--seed") != 0 || !read_seed(words[at + 1])) {
            fprintf(stderr, "usage: %s [--record FILE] [--seed N]\n", words[0]);
            return WRONG_WORDS;
        }
    }
    return DONE;
}

static int close_record(void)
{
    if (record == NULL) {
        return DONE;
    }
    const bool has_failed = ferror(record) != 0;
    return fclose(record) == 0 && !has_failed ? DONE : WRITE_FAILED;
}

int dbp_trace_run(const dbp_trace *trace, int count, char **words)
{
    the = trace;
    int status = read_words(count, words);
    if (status == DONE) {
        the->begin();
        begin_parties();
        status = run_threads();
    }
    if (close_record() != DONE && status == DONE) {
        status = WRITE_FAILED;
    }
    if (status == DONE && atomic_load(&has_too_many)) {
        status = TOO_MANY;
    }
    return status == DONE ? write_lines() : status;
}
