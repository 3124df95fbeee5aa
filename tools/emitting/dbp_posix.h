/* Written by tools/emit_c of dbp: it writes this file anew at each call. */

/* Runs the tasks of a diagram in real time on a POSIX system: a thread for each task, and one for the releaser above them. */

#ifndef DBP_POSIX_H
#define DBP_POSIX_H

#include "dbp_protocol.h"

#ifdef __cplusplus
extern "C" {
#else

/* A task: its name, its step, the processor that it is bound to, and how it is served. */
typedef struct {
    const char *name;
    dbp_step (*step)(void);
    uint8_t cpu;         /* of the processors that the program may use, by their numbers */
    uint8_t priority;    /* by SCHED_FIFO */
    uint64_t runtime;    /* by SCHED_DEADLINE, in nanoseconds; 0 for SCHED_FIFO */
    uint64_t deadline;
    uint64_t period;
} dbp_posix_task;

/* What a log has besides: the names, and the document's text before `until` and after it, up to its trace. */
typedef struct {
    const char *const *inputs;
    const char *const *events;
    const char *const *head;
    const char *const *rest;
} dbp_posix_names;

/* A diagram. `raised` counts for each event how often it was raised and isn't released yet. */
typedef struct {
    const char *name;
    const dbp_diagram *diagram;
    const dbp_posix_task *tasks;
    dbp_posix_task releaser;
    uint64_t tick;  /* in nanoseconds */
    uint32_t input_count;
    uint32_t event_count;
    const uint32_t *on_events;
    atomic_uint *raised;
    const dbp_posix_names *names;  /* NULL without a log */
    void (*begin)(void);
    dbp_released (*begin_release)(uint32_t tasks);
    dbp_step (*release_step)(void);
    int64_t (*sampled)(uint32_t input);
    void (*overrun)(uint32_t task, uint32_t instance, uint64_t tick);
} dbp_posix;

#endif

/* How a run ends. */
typedef enum {
    DBP_RAN = 0,
    DBP_NO_MEMORY = 6,  /* nothing ran: there is no memory for the log, or no thread */
    DBP_ALL_SPENT = 70  /* a task has had its last instance */
} dbp_posix_end;

#ifdef __cplusplus
}
#else

/* Runs the ticks from 0 to the one before `ticks`, or before the one at which it is to stop. One run at a time. */
dbp_posix_end dbp_posix_run(const dbp_posix *posix, uint64_t ticks);

/* Stops the run before the next tick. It may be called from any thread, and from a signal handler. */
void dbp_posix_stop(void);

/* Writes what the last run has logged: NAME.dbp, NAME.rows and NAME.times. Returns whether all is written. */
bool dbp_posix_write_log(const char *name);

#endif

#endif
