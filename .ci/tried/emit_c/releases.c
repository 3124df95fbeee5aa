/* Releases of tasks that are late, off, or asked for while another release is under way, on one thread. Prints what comes
 * of each, and the rows. */

#include "it.h"

#include <stdio.h>

static int64_t gauge = 1;
static int64_t lit = 1;

int64_t it_input_gauge(void)
{
    return gauge;
}

int64_t it_input_lit(void)
{
    return lit;
}

void it_fast_row(uint32_t instance, int64_t y)
{
    printf("fast %u: %lld\n", (unsigned)instance, (long long)y);
}

void it_slow_row(uint32_t instance, int64_t z)
{
    printf("slow %u: %lld\n", (unsigned)instance, (long long)z);
}

static void release(uint32_t tasks)
{
    static const char *const outcomes[] = {"released", "late", "spent", "under way"};
    const dbp_released released = it_release(tasks);
    printf("%s, task %u of 0x%x\n", outcomes[released.outcome], (unsigned)released.task, (unsigned)released.tasks);
}

static void tell(const char *what, dbp_step step)
{
    printf("%s: kind %d%s\n", what, (int)step.kind, step.must_wait ? ", must wait" : "");
}

int main(void)
{
    const uint32_t both = it_set_fast | it_set_slow;
    it_begin();
    tell("fast without a release", it_fast());
    tell("no release", it_release_step());
    release(0);
    release(it_tasks_at(4));
    tell("slow before fast", it_slow());
    gauge = 2;
    release(it_set_fast);
    gauge = 3;
    release(it_set_fast);
    release(both);
    release(it_set_slow);
    tell("fast", it_fast());
    release(it_set_fast);
    tell("slow", it_slow());
    tell("fast", it_fast());
    lit = 0;
    release(both);
    tell("slow is off", it_slow());
    tell("fast", it_fast());
    tell("unended fast", it_see_unended());
    tell("unended slow", it_see_unended());
    tell("unended", it_see_unended());
    it_begin();
    lit = 1;
    release(it_tasks_at(3));
    tell("fast, begun again", it_fast());
    return 0;
}
