/* Written by tools/emit_c of dbp: it writes this file anew at each call. */

#define _GNU_SOURCE

#include "dbp_posix.h"

#include <errno.h>
#include <inttypes.h>
#include <pthread.h>
#include <sched.h>
#include <semaphore.h>
#include <stdio.h>
#include <stdlib.h>
#include <string.h>
#include <sys/mman.h>
#include <sys/syscall.h>
#include <time.h>
#include <unistd.h>

#define STACK_BYTES (256 * 1024)
#define NANOSECONDS UINT64_C(1000000000)
#define RUNNING UINT64_C(0)
#define MOST_INPUTS 16
#define FILE_ROOM 4096

/* An instance that is logged: its tick, when it was released and when it ended in nanoseconds from tick 0 on, and whether
 * its release met the instance before it unfinished. Its outs are in an array beside. */
typedef struct {
    uint64_t tick;
    uint64_t released;
    uint64_t ended;
    bool has_met;
} dbp_logged;

/* An input's new value, or an event with the number of the column after those of the inputs. */
typedef struct {
    uint64_t tick;
    int64_t value;
    uint32_t column;
} dbp_sample_logged;

/* A task's thread. `state` says where its last instance is: RUNNING; ended, with twice its end; or still running when its
 * next release met it, with twice that release and 1. So who comes first, the end or the release, is decided once, and the
 * times agree with it. `awaited` is one more than the number of the task for whose row it sleeps, or 0. */
typedef struct {
    pthread_t thread;
    sem_t release_bell;
    sem_t row_bell;
    atomic_uint awaited;
    _Atomic uint64_t state;
    uint32_t instances;  /* that have been released; the releaser's own */
    uint32_t ended;      /* the task's own */
    dbp_logged *logged;
    int64_t *outs;
} dbp_party;

static const dbp_posix *the;
static dbp_party parties[DBP_MOST_TASKS];
static pthread_t releaser_thread;
static sem_t releaser_bell;
static sem_t start_bell;
static atomic_bool must_stop;
static atomic_bool has_finished;
static uint64_t tick_count;
static uint64_t ticks_run;
static uint64_t start_time;
static dbp_posix_end end_of_run;
static cpu_set_t allowed;
static bool has_right;

static dbp_sample_logged *samples;
static size_t sample_count;
static int64_t last_values[MOST_INPUTS];
static bool has_value[MOST_INPUTS];

static void wait_on(sem_t *bell)
{
    int fault;
    do {
        fault = sem_wait(bell);
    } while (fault != 0);
}

static uint64_t nanoseconds_now(void)
{
    struct timespec now;
    clock_gettime(CLOCK_MONOTONIC, &now);
    return (uint64_t)now.tv_sec * NANOSECONDS + (uint64_t)now.tv_nsec;
}

static void sleep_until(uint64_t time)
{
    const struct timespec until = {(time_t)(time / NANOSECONDS), (long)(time % NANOSECONDS)};
    int fault;
    do {
        fault = clock_nanosleep(CLOCK_MONOTONIC, TIMER_ABSTIME, &until, NULL);
    } while (fault == EINTR);
}

static bool is_in(uint32_t tasks, uint32_t task)
{
    return (tasks >> task) % 2 != 0;
}

/* How threads are served. */

static void say(const char *text, const char *reason)
{
    fprintf(stderr, "%s: %s%s%s\n", the->name, text, reason == NULL ? "" : ": ", reason == NULL ? "" : reason);
}

/* What the call sched_setattr of Linux takes. */
typedef struct {
    uint32_t size;
    uint32_t policy;
    uint64_t flags;
    int32_t nice;
    uint32_t priority;
    uint64_t runtime;
    uint64_t deadline;
    uint64_t period;
} dbp_attributes;

#define DEADLINE_POLICY 6

/* Serves the calling thread as its task says; returns 0, or why the system doesn't. */
static int serve_by(const dbp_posix_task *own)
{
    if (own->runtime == 0) {
        const struct sched_param parameters = {.sched_priority = own->priority};
        return pthread_setschedparam(pthread_self(), SCHED_FIFO, &parameters);
    }
    const dbp_attributes attributes = {sizeof attributes, DEADLINE_POLICY, 0, 0, 0, own->runtime, own->deadline, own->period};
    return syscall(SYS_sched_setattr, 0, &attributes, 0) == 0 ? 0 : errno;
}

/* Binds the calling thread to its processor, counted among those that the program may use. */
static void bind_to_cpu(const dbp_posix_task *own)
{
    size_t cpu = 0;
    for (uint32_t left = own->cpu; cpu < CPU_SETSIZE && (!CPU_ISSET(cpu, &allowed) || left > 0); cpu++) {
        left -= CPU_ISSET(cpu, &allowed) ? 1 : 0;
    }
    cpu_set_t one;
    CPU_ZERO(&one);
    if (cpu < CPU_SETSIZE) {
        CPU_SET(cpu, &one);
    }
    const int fault = cpu < CPU_SETSIZE ? pthread_setaffinity_np(pthread_self(), sizeof one, &one) : EINVAL;
    if (fault != 0) {
        say("a task isn't bound to its processor", own->name);
    }
}

/* Gives the calling thread its name, up to 15 letters. */
static void take_name(const char *name)
{
    char start[16] = {0};
    strncpy(start, name, sizeof start - 1);
    pthread_setname_np(pthread_self(), start);
}

/* SCHED_DEADLINE allows no thread that is bound. */
static void take_place(const dbp_posix_task *own)
{
    take_name(own->name);
    if (own->runtime == 0) {
        bind_to_cpu(own);
    }
    const int fault = has_right ? serve_by(own) : 0;
    if (fault != 0) {
        say(own->name, strerror(fault));
    }
}

/* Whether the system lets a thread be served so; if not, the run is that of an ordinary user. */
static void *try_right(void *unused)
{
    (void)unused;
    const int fault = serve_by(&the->releaser);
    has_right = fault == 0;
    if (fault == EPERM) {
        say("no right to real-time priorities: it runs as an ordinary user", NULL);
    } else if (fault != 0) {
        say("no real-time priorities: it runs as an ordinary user", strerror(fault));
    }
    return NULL;
}

/* The log. */

static void log_sample(uint64_t tick, uint32_t column, int64_t value)
{
    const dbp_sample_logged sample = {tick, value, column};
    samples[sample_count] = sample;
    sample_count++;
}

static void log_inputs(uint64_t tick)
{
    for (uint32_t input = 0; the->names != NULL && input < the->input_count; input++) {
        const int64_t value = the->sampled(input);
        if (!has_value[input] || value != last_values[input]) {
            log_sample(tick, input, value);
            last_values[input] = value;
            has_value[input] = true;
        }
    }
}

static uint64_t most_instances(uint32_t task)
{
    const dbp_task *own = &the->diagram->tasks[task];
    if (own->period == 0) {
        return tick_count;
    }
    return tick_count <= own->offset ? 0 : 1 + (tick_count - 1 - own->offset) / own->period;
}

/* Room for so many items a time, of so many bytes. */
static void *room_for(uint64_t times, size_t items, size_t bytes)
{
    const size_t each = items * bytes;
    return each == 0 || times < SIZE_MAX / each ? calloc((size_t)times * items + 1, bytes) : NULL;
}

/* Makes room for the log of all ticks. */
static bool begin_log(void)
{
    samples = room_for(tick_count, (size_t)the->input_count + the->event_count, sizeof *samples);
    bool has_room = samples != NULL;
    sample_count = 0;
    memset(has_value, 0, sizeof has_value);
    for (uint32_t task = 0; task < the->diagram->task_count; task++) {
        const uint64_t most = most_instances(task);
        parties[task].logged = room_for(most, 1, sizeof *parties[task].logged);
        parties[task].outs = room_for(most, the->diagram->tasks[task].ports, sizeof *parties[task].outs);
        has_room = has_room && parties[task].logged != NULL && parties[task].outs != NULL;
    }
    return has_room;
}

static void forget_log(void)
{
    free(samples);
    samples = NULL;
    for (uint32_t task = 0; task < DBP_MOST_TASKS; task++) {
        free(parties[task].logged);
        free(parties[task].outs);
        parties[task].logged = NULL;
        parties[task].outs = NULL;
    }
}

/* A task. */

/* Rings for those who sleep for a row that the task has just completed. */
static void ring_readers(uint32_t task)
{
    const dbp_task *own = &the->diagram->tasks[task];
    for (uint32_t place = 0; place < own->leaving_count; place++) {
        dbp_party *reader = &parties[the->diagram->links[own->leaving[place]].reader];
        unsigned expected = task + 1;
        if (atomic_load(&reader->awaited) == expected && atomic_compare_exchange_strong(&reader->awaited, &expected, 0)) {
            sem_post(&reader->row_bell);
        }
    }
}

static uint32_t writer_of(dbp_step step)
{
    const dbp_read *read = the->diagram->tasks[step.task].reads;
    while (read->read != step.about) {
        read++;
    }
    return read->writer;
}

/* Says for whose row the task waits, looks once more, and sleeps until it is rung for unless the row is there now. */
static dbp_step look_again(uint32_t task, uint32_t writer)
{
    dbp_party *own = &parties[task];
    atomic_store(&own->awaited, writer + 1);
    const dbp_step step = the->tasks[task].step();
    if (step.must_wait || atomic_exchange(&own->awaited, 0) == 0) {
        wait_on(&own->row_bell);
    }
    return step;
}

static int64_t value_of(uint64_t word)
{
    return word <= INT64_MAX ? (int64_t)word : -1 - (int64_t)(UINT64_MAX - word);
}

static void log_out(uint32_t task, dbp_step step)
{
    const size_t ports = the->diagram->tasks[task].ports;
    parties[task].outs[parties[task].ended * ports + step.about] = value_of(step.word);
}

/* Makes the steps of an instance. */
static void run_instance(uint32_t task)
{
    dbp_step step;
    do {
        step = the->tasks[task].step();
        while (step.must_wait) {
            step = look_again(task, writer_of(step));
        }
        if (step.kind == DBP_PUT && the->names != NULL) {
            log_out(task, step);
        } else if (step.kind == DBP_DONE) {
            ring_readers(task);
        }
    } while (step.kind != DBP_END);
}

/* Says that the instance has ended. If a release has met it before, its end is after that, and the releaser is rung for. */
static void tell_end(uint32_t task)
{
    dbp_party *own = &parties[task];
    uint64_t met = RUNNING, ended = nanoseconds_now();
    const bool has_ended_first = atomic_compare_exchange_strong(&own->state, &met, 2 * ended);
    if (!has_ended_first) {
        ended = nanoseconds_now();
        ended = ended > met / 2 ? ended : met / 2 + 1;
    }
    if (the->names != NULL) {
        own->logged[own->ended].ended = ended - start_time;
    }
    own->ended++;
    if (!has_ended_first) {
        sem_post(&releaser_bell);
    }
}

static void *run_task(void *given)
{
    const uint32_t task = (uint32_t)((dbp_party *)given - parties);
    take_place(&the->tasks[task]);
    sem_post(&start_bell);
    wait_on(&parties[task].release_bell);
    while (!atomic_load(&has_finished)) {
        run_instance(task);
        tell_end(task);
        wait_on(&parties[task].release_bell);
    }
    return NULL;
}

/* The releaser. */

/* Whether a release meets the task's last instance unfinished. The time of the release is before its end then, else not. */
static bool meets_unfinished(uint32_t task, uint64_t *time)
{
    uint64_t expected = RUNNING;
    *time = nanoseconds_now();
    if (atomic_compare_exchange_strong(&parties[task].state, &expected, 2 * *time + 1)) {
        return true;
    }
    *time = nanoseconds_now();
    return false;
}

static void log_release(uint32_t task, uint64_t tick, uint64_t time, bool has_met)
{
    dbp_party *own = &parties[task];
    if (the->names != NULL) {
        dbp_logged *logged = &own->logged[own->instances];
        logged->tick = tick;
        logged->released = time - start_time;
        logged->has_met = has_met;
    }
    own->instances++;
}

/* Looks at the last instance of each of the tasks, tells those that a release meets unfinished, and returns their number. */
static uint32_t look_for_overruns(uint32_t tasks, uint64_t tick)
{
    uint32_t count = 0;
    for (uint32_t task = 0; task < the->diagram->task_count; task++) {
        if (is_in(tasks, task)) {
            uint64_t time;
            const bool has_met = meets_unfinished(task, &time);
            log_release(task, tick, time, has_met);
            if (has_met) {
                the->overrun(task, parties[task].instances, tick);
                count++;
            }
        }
    }
    return count;
}

static void ring_tasks(uint32_t tasks)
{
    for (uint32_t task = 0; task < the->diagram->task_count; task++) {
        if (is_in(tasks, task)) {
            atomic_store(&parties[task].state, RUNNING);
            sem_post(&parties[task].release_bell);
        }
    }
}

/* Releases the tasks; those whose last instance hasn't ended are waited for. Returns whether there was a number for each. */
static bool release(uint32_t tasks, uint64_t tick)
{
    const dbp_released begun = the->begin_release(tasks);
    bool is_releasing = true;
    if (begun.outcome != DBP_RELEASED) {
        return false;
    }
    log_inputs(tick);
    for (uint32_t left = look_for_overruns(begun.tasks, tick); left > 0; left--) {
        wait_on(&releaser_bell);
    }
    while (is_releasing) {
        is_releasing = the->release_step().kind != DBP_NO_STEP;
    }
    ring_tasks(begun.tasks);
    return true;
}

/* Takes one occurrence of each event that was raised, and returns the tasks on these. */
static uint32_t tasks_on_raised(uint64_t tick)
{
    uint32_t tasks = 0;
    for (uint32_t event = 0; event < the->event_count; event++) {
        if (atomic_load(&the->raised[event]) > 0) {
            atomic_fetch_sub(&the->raised[event], 1);
            tasks |= the->on_events[event];
            if (the->names != NULL) {
                log_sample(tick, the->input_count + event, 1);
            }
        }
    }
    return tasks;
}

/* Each tick comes at its time, or as soon as all before it are done: none is passed over. */
static void run_ticks(void)
{
    bool has_numbers = true;
    uint64_t tick = 0;
    sleep_until(start_time);
    while (has_numbers && tick < tick_count && !atomic_load(&must_stop)) {
        const uint32_t tasks = dbp_tasks_at(the->diagram, tick) | tasks_on_raised(tick);
        has_numbers = tasks == 0 || release(tasks, tick);
        tick++;
        sleep_until(start_time + tick * the->tick);
    }
    ticks_run = has_numbers ? tick : tick - 1;
    end_of_run = has_numbers ? DBP_RAN : DBP_ALL_SPENT;
}

static void wait_for_all(void)
{
    uint64_t time;
    for (uint32_t task = 0; task < the->diagram->task_count; task++) {
        if (meets_unfinished(task, &time)) {
            wait_on(&releaser_bell);
        }
    }
}

static void *run_releaser(void *unused)
{
    (void)unused;
    take_place(&the->releaser);
    sem_post(&start_bell);
    wait_on(&releaser_bell);
    run_ticks();
    wait_for_all();
    return NULL;
}

/* The run. */

static void begin_parties(void)
{
    sem_init(&releaser_bell, 0, 0);
    sem_init(&start_bell, 0, 0);
    for (uint32_t task = 0; task < the->diagram->task_count; task++) {
        dbp_party *own = &parties[task];
        sem_init(&own->release_bell, 0, 0);
        sem_init(&own->row_bell, 0, 0);
        atomic_store(&own->awaited, 0);
        atomic_store(&own->state, 2);
        own->instances = 0;
        own->ended = 0;
    }
}

static int begin_thread(pthread_t *thread, void *(*run)(void *), void *given)
{
    pthread_attr_t attributes;
    int fault = pthread_attr_init(&attributes);
    if (fault == 0) {
        pthread_attr_setstacksize(&attributes, STACK_BYTES);
        fault = pthread_create(thread, &attributes, run, given);
        pthread_attr_destroy(&attributes);
    }
    return fault;
}

/* Ends the threads of so many tasks, which find no release. */
static void end_tasks(uint32_t count)
{
    atomic_store(&has_finished, true);
    for (uint32_t task = 0; task < count; task++) {
        sem_post(&parties[task].release_bell);
        pthread_join(parties[task].thread, NULL);
    }
}

static void lock_memory(void)
{
    if (mlockall(MCL_CURRENT | MCL_FUTURE) != 0) {
        say("memory isn't locked", strerror(errno));
        munlockall();
    }
}

/* Begins all threads, and then the ticks, one tick from now. */
static bool run_threads(void)
{
    uint32_t count = 0;
    bool is_begun = true;
    while (is_begun && count < the->diagram->task_count) {
        is_begun = begin_thread(&parties[count].thread, run_task, &parties[count]) == 0;
        count += is_begun;
    }
    is_begun = is_begun && begin_thread(&releaser_thread, run_releaser, NULL) == 0;
    if (is_begun) {
        for (uint32_t left = count + 1; left > 0; left--) {
            wait_on(&start_bell);
        }
        lock_memory();
        start_time = nanoseconds_now() + the->tick;
        sem_post(&releaser_bell);
        pthread_join(releaser_thread, NULL);
    }
    end_tasks(count);
    munlockall();
    return is_begun;
}

dbp_posix_end dbp_posix_run(const dbp_posix *posix, uint64_t ticks)
{
    pthread_t trying;
    the = posix;
    tick_count = ticks;
    ticks_run = 0;
    atomic_store(&must_stop, false);
    atomic_store(&has_finished, false);
    the->begin();
    begin_parties();
    forget_log();
    sched_getaffinity(0, sizeof allowed, &allowed);
    if ((the->names != NULL && !begin_log()) || begin_thread(&trying, try_right, NULL) != 0) {
        return DBP_NO_MEMORY;
    }
    pthread_join(trying, NULL);
    return run_threads() ? end_of_run : DBP_NO_MEMORY;
}

void dbp_posix_stop(void)
{
    atomic_store(&must_stop, true);
}

/* The files of the log. */

static FILE *opened(const char *name, const char *ending)
{
    char file[FILE_ROOM];
    const int length = snprintf(file, sizeof file, "%s%s", name, ending);
    return length > 0 && (size_t)length < sizeof file ? fopen(file, "w") : NULL;
}

static bool closed(FILE *sink)
{
    const bool has_failed = ferror(sink) != 0;
    return fclose(sink) == 0 && !has_failed;
}

static void write_texts(FILE *sink, const char *const *texts)
{
    for (; *texts != NULL; texts++) {
        fputs(*texts, sink);
    }
}

/* Writes the row of the trace that begins with a sample, and returns the number of the sample after it. */
static size_t write_trace_row(FILE *sink, size_t first)
{
    const uint64_t tick = samples[first].tick;
    size_t next = first;
    fprintf(sink, "%" PRIu64, tick);
    for (uint32_t column = 0; column < the->input_count + the->event_count; column++) {
        size_t at = first;
        while (at < sample_count && samples[at].tick == tick && samples[at].column != column) {
            at++;
        }
        fputs(",", sink);
        if (at < sample_count && samples[at].tick == tick) {
            fprintf(sink, "%" PRId64, samples[at].value);
            next++;
        }
    }
    fputs("\n", sink);
    return next;
}

static void write_trace(FILE *sink)
{
    fputs("trace\ntime", sink);
    for (uint32_t input = 0; input < the->input_count; input++) {
        fprintf(sink, ",%s", the->names->inputs[input]);
    }
    for (uint32_t event = 0; event < the->event_count; event++) {
        fprintf(sink, ",%s", the->names->events[event]);
    }
    fputs("\n", sink);
    for (size_t sample = 0; sample < sample_count && samples[sample].tick < ticks_run;) {
        sample = write_trace_row(sink, sample);
    }
}

/* The document of the run: with `until` where it got, and with what it sampled and released as its trace. */
static bool write_document(const char *name)
{
    FILE *sink = opened(name, ".dbp");
    if (sink == NULL) {
        return false;
    }
    write_texts(sink, the->names->head);
    fprintf(sink, "until %" PRIu64 "\n", ticks_run);
    write_texts(sink, the->names->rest);
    write_trace(sink);
    fputs("done\n", sink);
    return closed(sink);
}

static void write_row(FILE *sink, uint32_t task, uint32_t instance)
{
    const size_t ports = the->diagram->tasks[task].ports;
    fprintf(sink, "%" PRIu64 ",%s,%" PRIu32, parties[task].logged[instance].tick, the->tasks[task].name, instance + 1);
    for (size_t port = 0; port < ports; port++) {
        fprintf(sink, ",%" PRId64, parties[task].outs[instance * ports + port]);
    }
    fputs("\n", sink);
}

static void write_time(FILE *sink, uint32_t task, uint32_t instance)
{
    const dbp_logged *own = &parties[task].logged[instance];
    fprintf(sink, "%" PRIu64 ",%s,%" PRIu32, own->tick, the->tasks[task].name, instance + 1);
    fprintf(sink, ",%" PRIu64 ",%" PRIu64 ",%d\n", own->released, own->ended, own->has_met);
}

/* The task of the next line: of those that are left the one of the least tick, the first in the order of declaration. */
static uint32_t next_task(const uint32_t *written)
{
    const uint32_t count = the->diagram->task_count;
    uint32_t found = count;
    for (uint32_t task = 0; task < count; task++) {
        const bool is_left = written[task] < parties[task].ended;
        if (is_left && (found == count || parties[task].logged[written[task]].tick
                                              < parties[found].logged[written[found]].tick)) {
            found = task;
        }
    }
    return found;
}

typedef void dbp_line_writer(FILE *sink, uint32_t task, uint32_t instance);

/* Writes a line for each instance, in the order of `dbp mean`. */
static bool write_instances(const char *name, const char *ending, const char *header, dbp_line_writer *write_line)
{
    uint32_t written[DBP_MOST_TASKS] = {0};
    FILE *sink = opened(name, ending);
    if (sink == NULL) {
        return false;
    }
    fputs(header, sink);
    for (uint32_t task = next_task(written); task < the->diagram->task_count; task = next_task(written)) {
        write_line(sink, task, written[task]);
        written[task]++;
    }
    return closed(sink);
}

bool dbp_posix_write_log(const char *name)
{
    const char *header = "tick,task,instance,released,ended,overrun\n";
    return samples != NULL && write_document(name) && write_instances(name, ".rows", "", write_row)
           && write_instances(name, ".times", header, write_time);
}
