/* Runs the tasks of last_instances.dbp on one thread, from a state in which so many instances of each task have ended that
 * `fast` has LEFT more, up to the last one that it may have. Prints a line for each instance, with its number less those
 * that have ended before, and then what comes of two more releases. */

#include "it.c"

#include <stdio.h>
#include <string.h>

#define LEFT 20
#define BEFORE (DBP_LAST_INSTANCE - LEFT)

static uint32_t now;

int64_t it_input_lit(void)
{
    return now < 8 || now >= 16;
}

void it_fast_row(uint32_t instance, int64_t x, int64_t y)
{
    printf("%u,fast,%u,%lld,%lld\n", (unsigned)now, (unsigned)(instance - BEFORE), (long long)x, (long long)y);
}

void it_slow_row(uint32_t instance, int64_t z)
{
    printf("%u,slow,%u,%lld\n", (unsigned)now, (unsigned)(instance - BEFORE), (long long)z);
}

void it_some_row(uint32_t instance, int64_t w)
{
    printf("%u,some,%u,%lld\n", (unsigned)now, (unsigned)(instance - BEFORE), (long long)w);
}

static dbp_plain_word *word(uint32_t task, uint32_t slot)
{
    const dbp_task *own = &it_tasks[task];
    return (dbp_plain_word *)&it_words[own->first_slot + slot * (1 + DBP_WORDS_OF_VALUE * own->ports)];
}

static void fill_value(dbp_plain_word *words, int64_t value)
{
    for (uint32_t half = 0; half < DBP_WORDS_OF_VALUE; half++) {
        words[half] = (dbp_plain_word)((uint64_t)value >> (32 * half));
    }
}

/* The kept slots hold the rows before the last one, which have the first values here. */
static void fill(uint32_t task)
{
    const dbp_task *own = &it_tasks[task];
    for (uint32_t slot = 0; slot <= own->kept; slot++) {
        word(task, slot)[0] = (dbp_plain_word)BEFORE + 1 - slot;
        for (uint32_t port = 0; port < own->ports; port++) {
            fill_value(&word(task, slot)[1 + DBP_WORDS_OF_VALUE * port], own->first[port]);
        }
        if (slot > 0) {
            it_entries[task].kept[slot - 1] = (uint8_t)slot;
        }
    }
}

static void begin_late(void)
{
    for (uint32_t task = 0; task < 3; task++) {
        dbp_plain_word *words = (dbp_plain_word *)&it_words[1 + (2 + DBP_WORDS_OF_VALUE) * task];
        words[0] = words[1] = BEFORE;
        it_entries[task].known = it_entries[task].aimed = BEFORE;
        it_parts[task].ended = BEFORE;
        fill(task);
    }
}

static void tell(dbp_released released)
{
    static const char *const outcomes[] = {"released", "late", "spent", "under way"};
    printf("%s %u\n", outcomes[released.outcome], (unsigned)released.task);
}

int main(void)
{
    static dbp_word kept[sizeof it_words / sizeof *it_words];
    it_begin();
    begin_late();
    for (now = 0; now < 40; now++) {
        const dbp_released released = it_release(it_tasks_at(now));
        if (released.outcome != DBP_RELEASED) {
            tell(released);
        }
        it_fast();
        it_slow();
        it_some();
    }
    memcpy(kept, it_words, sizeof kept);
    tell(it_release(it_set_fast | it_set_slow));
    tell(it_release(it_set_fast));
    printf("%s\n", memcmp(kept, it_words, sizeof kept) == 0 ? "same words" : "other words");
    tell(it_release(it_set_slow));
    it_slow();
    return 0;
}
