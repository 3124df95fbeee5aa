/* Claims the writer's slot for instances with numbers near powers of 2, and lets the reader hear the order and look. It must
 * wait for each stamp but that of this instance, and so for those of instances with which the number shares its low bits. */

#include "it.c"

#include <stdio.h>

void it_writer_row(uint32_t instance, int64_t y)
{
    (void)instance, (void)y;
}

void it_reader_row(uint32_t instance, int64_t z)
{
    (void)instance, (void)z;
}

/* Whether the reader waits if the writer's slot has this stamp, and its order this number. */
static bool waits(uint32_t number, uint64_t stamp)
{
    it_begin();
    it_entries[0].aimed = number;
    it_entries[0].current = 1;
    dbp_claim(&it_system, 0);
    it_parts[1].place = DBP_AT_HEAR;
    it_parts[1].at = 0;
    dbp_hear(&it_system, 1);
    dbp_hear(&it_system, 1);
    it_words[it_tasks[0].first_slot + 1 + DBP_WORDS_OF_VALUE] = (dbp_plain_word)stamp;
    return dbp_look(&it_system, 1).must_wait;
}

static bool is_right(uint32_t number)
{
    const uint64_t stamp = (uint64_t)number + 1;
    bool is_so = !waits(number, stamp) && waits(number, 0) && waits(number, stamp - 1);
    for (uint32_t bits = 1; bits < 32; bits++) {
        is_so = is_so && waits(number, stamp ^ (UINT64_C(1) << bits));
    }
    return is_so;
}

int main(void)
{
    for (uint32_t bits = 1; bits <= 32; bits++) {
        for (uint32_t before = 0; before < 4; before++) {
            const uint32_t number = (uint32_t)((UINT64_C(1) << bits) - before - 1) % DBP_LAST_INSTANCE + 1;
            if (!is_right(number)) {
                printf("a wrong order of %u\n", (unsigned)number);
                return 0;
            }
        }
    }
    printf("right orders\n");
    return 0;
}
