/* Written by tools/emit_c of dbp: it writes this file anew at each call. */

/* Runs the tasks of a diagram in threads, by the document's own trace, and prints the lines of `dbp mean`. */

#ifndef DBP_TRACE_H
#define DBP_TRACE_H

#include "dbp_protocol.h"

/* A value that an input has from a time on. */
typedef struct {
    uint32_t time;
    int64_t value;
} dbp_sample;

typedef struct {
    int64_t first;
    uint32_t sample_count;
    const dbp_sample *samples;
} dbp_trace_input;

/* A time at which a clock of a task ticks, with the tasks on events that occur then. */
typedef struct {
    uint32_t time;
    uint32_t tasks;
} dbp_batch;

/* A task: its names, room for the rows of its instances, and its calls. */
typedef struct {
    const char *name;
    const char *const *reads;
    const char *const *outs;
    uint32_t most;
    int64_t *rows;
    dbp_step (*step)(void);
    dbp_step (*instance)(void);
} dbp_trace_task;

/* A diagram with its trace. `occurred` has room for the tasks of each batch that occurred. */
typedef struct {
    const dbp_diagram *diagram;
    const dbp_trace_task *tasks;
    const dbp_trace_input *inputs;
    uint32_t batch_count;
    const dbp_batch *batches;
    uint32_t *occurred;
    void (*begin)(void);
    dbp_released (*release)(uint32_t tasks);
    dbp_released (*begin_release)(uint32_t tasks);
    dbp_step (*release_step)(void);
    dbp_step (*see_unended)(void);
} dbp_trace;

/* Runs the trace as the words of a call of the program say, and returns the program's exit status: 0; 2 if the words are
 * wrong; 5 if the lines or the record can't be written; 6 if a thread can't be made; 70 if a task has more instances
 * than the trace says. */
int dbp_trace_run(const dbp_trace *trace, int count, char **words);

/* Returns the input's value at the time of the release that is under way. */
int64_t dbp_trace_value(uint32_t input);

/* Keeps the row of an instance. */
void dbp_trace_keep(uint32_t task, uint32_t instance, const int64_t *outs);

#endif
