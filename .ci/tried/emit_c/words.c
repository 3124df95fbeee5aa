/* Runs the tasks of words.dbp on one thread, step by step, those ranked below before those above. Prints the words before the
 * first step, and then each step with all words after it; an order or a value is one, though it may be two of 32 bits. */

#include "it.c"

#include <stdio.h>

void it_sensor_row(uint32_t instance, int64_t position, int64_t speed)
{
    (void)instance, (void)position, (void)speed;
}

void it_control_row(uint32_t instance, int64_t command)
{
    (void)instance, (void)command;
}

void it_slow_row(uint32_t instance, int64_t y)
{
    (void)instance, (void)y;
}

/* Prints so many plain words, orders or values from an address on, and returns the address after them. */
static uint32_t tell_words(uint32_t address, uint32_t count, uint32_t halves)
{
    for (; count > 0; count--) {
        uint64_t word = it_words[address++];
        for (uint32_t half = 1; half < halves; half++) {
            word |= (uint64_t)it_words[address++] << 32;
        }
        printf(" %llu", (unsigned long long)word);
    }
    return address;
}

static void tell_slots(const dbp_task *task)
{
    uint32_t address = task->first_slot;
    for (uint32_t slot = 0; slot < task->slots; slot++) {
        address = tell_words(address, 1, 1);
        address = tell_words(address, task->ports, DBP_WORDS_OF_VALUE);
    }
}

static void tell(dbp_step step)
{
    printf("%d %u %u:", (int)step.kind, (unsigned)step.task, (unsigned)step.about);
    uint32_t address = tell_words(0, 1, 1);
    for (uint32_t task = 0; task < it_diagram.task_count; task++) {
        address = tell_words(address, 2, 1);
        address = tell_words(address, 1, DBP_WORDS_OF_VALUE);
    }
    tell_words(address, it_diagram.link_count, DBP_WORDS_OF_VALUE);
    for (uint32_t task = 0; task < it_diagram.task_count; task++) {
        tell_slots(&it_tasks[task]);
    }
    printf("\n");
}

static dbp_step told(dbp_step step)
{
    tell(step);
    return step;
}

/* Some steps of each task, up to one that must wait. */
static void go_on(void)
{
    static dbp_step (*const steps[])(void) = {it_slow_step, it_control_step, it_sensor_step};
    for (size_t task = 0; task < 3; task++) {
        for (int count = 0; count < 5; count++) {
            if (told(steps[task]()).must_wait) {
                break;
            }
        }
    }
}

int main(void)
{
    const dbp_step none = {DBP_NO_STEP, false, 0, 0, 0};
    it_begin();
    tell(none);
    for (uint64_t tick = 0; tick < 16; tick++) {
        it_begin_release(it_tasks_at(tick));
        for (dbp_step step = told(it_release_step()); step.kind != DBP_NO_STEP; step = told(it_release_step())) {
            if (step.must_wait) {
                go_on();
            }
        }
    }
    while (told(it_see_unended()).kind != DBP_NO_STEP) {
        go_on();
    }
    return 0;
}
