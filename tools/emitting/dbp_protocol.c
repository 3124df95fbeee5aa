/* Written by tools/emit_c of dbp: it writes this file anew at each call. */

#include "dbp_protocol.h"

#define HALF 32 /* bits: of an order the low half is its slot, and the high one its number */
#define WORDS_OF_TASK (2 + DBP_WORDS_OF_VALUE) /* its gate, its ended number and its aim */
#define MOST_SLOTS 192 /* of a task, rounded up: a slot for each link, one more, and the longest delay */

/* The shared words. Each access to one is a call of these two functions. */

static uint64_t load(const dbp_system *it, uint32_t address)
{
    return atomic_load_explicit(&it->words[address], memory_order_seq_cst);
}

static void store(const dbp_system *it, uint32_t address, uint64_t value)
{
    atomic_store_explicit(&it->words[address], (dbp_plain_word)value, memory_order_seq_cst);
}

/* An order or a value: nobody stores its second half while another party may load the first one. */

static uint64_t load_whole(const dbp_system *it, uint32_t address)
{
    const uint64_t low = load(it, address);
    return DBP_WORDS_OF_VALUE == 1 ? low : low | load(it, address + 1) << HALF;
}

static void store_whole(const dbp_system *it, uint32_t address, uint64_t value)
{
    store(it, address, value);
    if (DBP_WORDS_OF_VALUE == 2) {
        store(it, address + 1, value >> HALF);
    }
}

/* The addresses of the shared words. Word 0 is none of them. */

static uint32_t gate_of(uint32_t task)
{
    return 1 + WORDS_OF_TASK * task;
}

static uint32_t ended_of(uint32_t task)
{
    return 2 + WORDS_OF_TASK * task;
}

static uint32_t aim_of(uint32_t task)
{
    return 3 + WORDS_OF_TASK * task;
}

static uint32_t claim_of(const dbp_system *it, uint32_t link)
{
    return 1 + WORDS_OF_TASK * it->diagram->task_count + DBP_WORDS_OF_VALUE * link;
}

static uint32_t stamp_of(const dbp_system *it, uint32_t task, uint32_t slot)
{
    const dbp_task *own = &it->diagram->tasks[task];
    return own->first_slot + slot * (1 + DBP_WORDS_OF_VALUE * own->ports);
}

static uint32_t word_of(const dbp_system *it, uint32_t task, uint32_t slot, uint32_t port)
{
    return stamp_of(it, task, slot) + 1 + DBP_WORDS_OF_VALUE * port;
}

/* What the words hold. */

static uint64_t word_of_order(dbp_order order)
{
    return order.slot + ((uint64_t)order.number << HALF);
}

static dbp_order order_of_word(uint64_t word)
{
    const dbp_order order = {(uint32_t)(word & UINT32_MAX), (uint32_t)(word >> HALF)};
    return order;
}

static int64_t value_of_word(uint64_t word)
{
    return word <= INT64_MAX ? (int64_t)word : -1 - (int64_t)(UINT64_MAX - word);
}

static dbp_step step_of(dbp_kind kind, uint32_t task, uint32_t about, uint64_t word)
{
    const dbp_step step = {kind, false, (uint8_t)task, (uint8_t)about, word};
    return step;
}

static const dbp_step no_step = {DBP_NO_STEP, false, 0, 0, 0};

/* Before the first step. */

static void fill_first_slot(const dbp_system *it, uint32_t task)
{
    const dbp_task *own = &it->diagram->tasks[task];
    store(it, stamp_of(it, task, 0), 1);
    for (uint32_t port = 0; port < own->ports; port++) {
        store_whole(it, word_of(it, task, 0, port), (uint64_t)own->first[port]);
    }
}

static void begin_task(const dbp_system *it, uint32_t task)
{
    const dbp_entry entry = {0};
    it->releaser->entries[task] = entry;
    it->parts[task].ended = 0;
    it->parts[task].place = DBP_AT_START;
    it->parts[task].at = 0;
    fill_first_slot(it, task);
}

void dbp_begin(const dbp_system *it)
{
    const dbp_claimed none = {0, 0};
    for (uint32_t address = 0; address < it->diagram->word_count; address++) {
        store(it, address, 0);
    }
    for (uint32_t link = 0; link < it->diagram->link_count; link++) {
        it->releaser->claims[link] = none;
    }
    for (uint32_t task = 0; task < it->diagram->task_count; task++) {
        begin_task(it, task);
    }
    it->releaser->pass = DBP_NO_RELEASE;
}

/* The steps of the releaser. */

dbp_step dbp_seen(const dbp_system *it, uint32_t task)
{
    dbp_entry *entry = &it->releaser->entries[task];
    dbp_step step = step_of(DBP_SEEN, task, 0, load(it, ended_of(task)));
    entry->known = (uint32_t)step.word;
    step.must_wait = entry->known < entry->aimed;
    return step;
}

/* The slot becomes current, and the one that was current the first kept one; the last kept one is dropped. */
static void move_slots(dbp_entry *entry, uint32_t kept, uint32_t slot)
{
    for (uint32_t place = kept; place > 1; place--) {
        entry->kept[place - 1] = entry->kept[place - 2];
    }
    if (kept > 0) {
        entry->kept[0] = entry->current;
    }
    entry->current = (uint8_t)slot;
}

dbp_step dbp_aim(const dbp_system *it, uint32_t task, uint32_t slot)
{
    dbp_entry *entry = &it->releaser->entries[task];
    entry->aimed++;
    move_slots(entry, it->diagram->tasks[task].kept, slot);
    const dbp_order order = {slot, entry->aimed};
    const dbp_step step = step_of(DBP_AIM, task, slot, word_of_order(order));
    store_whole(it, aim_of(task), step.word);
    return step;
}

dbp_step dbp_claim(const dbp_system *it, uint32_t link)
{
    const dbp_link ends = it->diagram->links[link];
    const dbp_entry *writer = &it->releaser->entries[ends.writer];
    const uint8_t slot = ends.delay == 0 ? writer->current : writer->kept[ends.delay - 1];
    const dbp_claimed claim = {it->releaser->entries[ends.reader].aimed, slot};
    const dbp_order order = {slot, writer->aimed > ends.delay ? writer->aimed - ends.delay : 0};
    const dbp_step step = step_of(DBP_CLAIM, ends.reader, link, word_of_order(order));
    it->releaser->claims[link] = claim;
    store_whole(it, claim_of(it, link), step.word);
    return step;
}

dbp_step dbp_open_gate(const dbp_system *it, uint32_t task)
{
    const dbp_step step = step_of(DBP_OPEN_GATE, task, 0, it->releaser->entries[task].aimed);
    store(it, gate_of(task), step.word);
    return step;
}

/* The slot of an aim. */

static void mark(uint64_t *marks, uint32_t slot)
{
    marks[slot / 64] |= UINT64_C(1) << (slot % 64);
}

static void mark_claimed(const dbp_system *it, uint32_t task, uint64_t *marks)
{
    const dbp_task *own = &it->diagram->tasks[task];
    for (uint32_t place = 0; place < own->leaving_count; place++) {
        const uint32_t link = own->leaving[place];
        const dbp_claimed claim = it->releaser->claims[link];
        if (it->releaser->entries[it->diagram->links[link].reader].known < claim.instance) {
            mark(marks, claim.slot);
        }
    }
}

/* The slots that stay kept after an aim: the current one becomes the first of them, and the last one is dropped. */
static void mark_kept(const dbp_system *it, uint32_t task, uint64_t *marks)
{
    const dbp_entry *entry = &it->releaser->entries[task];
    const uint32_t kept = it->diagram->tasks[task].kept;
    if (kept > 0) {
        mark(marks, entry->current);
    }
    for (uint32_t place = 1; place < kept; place++) {
        mark(marks, entry->kept[place - 1]);
    }
}

/* The least slot that no claim needs, of an instance that isn't known to have ended, and that doesn't stay kept. */
static uint32_t free_slot(const dbp_system *it, uint32_t task)
{
    uint64_t marks[MOST_SLOTS / 64] = {0};
    mark_claimed(it, task, marks);
    mark_kept(it, task, marks);
    uint32_t slot = 0;
    while (slot + 1 < it->diagram->tasks[task].slots && (marks[slot / 64] >> (slot % 64)) % 2 != 0) {
        slot++;
    }
    return slot;
}

/* The releaser's next step. */

/* Whether the release has a step at its place in the pass. */
static bool has_step(const dbp_system *it)
{
    const dbp_releaser *own = it->releaser;
    if (own->pass == DBP_SEEING) {
        return own->entries[own->task].known < own->entries[own->task].aimed;
    }
    return own->pass != DBP_CLAIMING || own->link < it->diagram->tasks[own->task].link_count;
}

/* Goes on to the next task of the release, or else to the next pass. */
static void go_on(const dbp_system *it)
{
    dbp_releaser *own = it->releaser;
    own->link = 0;
    do {
        own->task++;
    } while (own->task < it->diagram->task_count && (own->tasks >> own->task) % 2 == 0);
    if (own->task == it->diagram->task_count) {
        own->pass = own->pass == DBP_OPENING ? DBP_NO_RELEASE : (dbp_pass)(own->pass + 1);
        own->task = 0;
    }
}

/* Goes on to a place of the release that has a step, or else to its end. */
static void find_step(const dbp_system *it)
{
    const dbp_releaser *own = it->releaser;
    while (own->pass != DBP_NO_RELEASE && ((own->tasks >> own->task) % 2 == 0 || !has_step(it))) {
        go_on(it);
    }
}

static dbp_released released(dbp_outcome outcome, uint32_t task, uint32_t tasks)
{
    const dbp_released answer = {outcome, (uint8_t)task, tasks};
    return answer;
}

/* The first of the tasks that has had its last instance, or else their number. */
static uint32_t first_spent(const dbp_system *it, uint32_t tasks)
{
    uint32_t task = 0;
    while (task < it->diagram->task_count
           && ((tasks >> task) % 2 == 0 || it->releaser->entries[task].aimed != DBP_LAST_INSTANCE)) {
        task++;
    }
    return task;
}

uint32_t dbp_tasks_at(const dbp_diagram *diagram, uint64_t tick)
{
    uint32_t tasks = 0;
    for (uint32_t task = 0; task < diagram->task_count; task++) {
        const dbp_task *own = &diagram->tasks[task];
        if (own->period > 0 && tick >= own->offset && (tick - own->offset) % own->period == 0) {
            tasks |= UINT32_C(1) << task;
        }
    }
    return tasks;
}

/* Those of the tasks whose conditions hold. */
static uint32_t occurring(const dbp_system *it, uint32_t asked)
{
    uint32_t tasks = 0;
    for (uint32_t task = 0; task < it->diagram->task_count; task++) {
        const uint8_t condition = it->diagram->tasks[task].condition;
        if (condition == DBP_ALWAYS || it->releaser->inputs[condition] != 0) {
            tasks |= asked & (UINT32_C(1) << task);
        }
    }
    return tasks;
}

bool dbp_is_releasing(const dbp_system *it)
{
    return it->releaser->pass != DBP_NO_RELEASE;
}

dbp_released dbp_begin_release(const dbp_system *it, uint32_t tasks)
{
    dbp_releaser *own = it->releaser;
    if (dbp_is_releasing(it)) {
        return released(own->asked == tasks ? DBP_RELEASED : DBP_UNDER_WAY, 0, own->tasks);
    }
    own->asked = tasks;
    own->tasks = occurring(it, tasks);
    const uint32_t spent = first_spent(it, own->tasks);
    if (spent < it->diagram->task_count) {
        return released(DBP_SPENT, spent, own->tasks);
    }
    own->pass = DBP_SEEING;
    own->task = 0;
    own->link = 0;
    find_step(it);
    return released(DBP_RELEASED, 0, own->tasks);
}

/* Makes the step at the place of the release. */
static dbp_step step_at_place(const dbp_system *it)
{
    const dbp_releaser *own = it->releaser;
    switch (own->pass) {
    case DBP_SEEING:
        return dbp_seen(it, own->task);
    case DBP_AIMING:
        return dbp_aim(it, own->task, free_slot(it, own->task));
    case DBP_CLAIMING:
        return dbp_claim(it, it->diagram->tasks[own->task].links[own->link]);
    case DBP_OPENING:
        return dbp_open_gate(it, own->task);
    case DBP_NO_RELEASE:
        break;
    }
    return no_step;
}

/* Gives the task's next instance the values of its inputs. It is aimed and its gate is closed, so the task is idle. */
static void sense(const dbp_system *it, uint32_t task)
{
    const dbp_task *own = &it->diagram->tasks[task];
    for (uint32_t place = 0; place < own->sense_count; place++) {
        it->parts[task].sensed[place] = it->releaser->inputs[own->senses[place]];
    }
}

dbp_step dbp_release_step(const dbp_system *it)
{
    const dbp_step step = step_at_place(it);
    if (step.kind == DBP_CLAIM) {
        it->releaser->link++;
    } else if (step.kind == DBP_AIM) {
        sense(it, step.task);
        go_on(it);
    } else if (step.kind == DBP_OPEN_GATE) {
        go_on(it);
    }
    find_step(it);
    return step;
}

dbp_released dbp_release(const dbp_system *it)
{
    while (dbp_is_releasing(it)) {
        const dbp_step step = dbp_release_step(it);
        if (step.must_wait) {
            return released(DBP_LATE, step.task, it->releaser->tasks);
        }
    }
    return released(DBP_RELEASED, 0, it->releaser->tasks);
}

dbp_step dbp_see_unended(const dbp_system *it)
{
    for (uint32_t task = 0; task < it->diagram->task_count; task++) {
        if (it->releaser->entries[task].known < it->releaser->entries[task].aimed) {
            return dbp_seen(it, task);
        }
    }
    return no_step;
}

/* The steps of a task. */

/* Leaves the task at this place, or at the next one if none of that kind is left. */
static void move_to(dbp_part *part, dbp_place place, uint32_t at, uint32_t count, dbp_place next)
{
    part->place = at < count ? place : next;
    part->at = at < count ? at : 0;
}

static dbp_place place_of_reads(const dbp_task *own)
{
    return own->read_count > 0 ? DBP_AT_LOOK : DBP_AT_SHUT;
}

dbp_step dbp_start(const dbp_system *it, uint32_t task)
{
    dbp_part *part = &it->parts[task];
    dbp_step step = step_of(DBP_START, task, 0, load(it, gate_of(task)));
    step.must_wait = step.word != (uint64_t)part->ended + 1;
    if (!step.must_wait) {
        part->place = DBP_AT_HEAR;
        part->at = 0;
    }
    return step;
}

dbp_step dbp_hear(const dbp_system *it, uint32_t task)
{
    dbp_part *part = &it->parts[task];
    const dbp_task *own = &it->diagram->tasks[task];
    const uint32_t address = part->at == 0 ? aim_of(task) : claim_of(it, own->links[part->at - 1]);
    const dbp_step step = step_of(DBP_HEAR, task, 0, load_whole(it, address));
    part->heard[part->at] = order_of_word(step.word);
    move_to(part, DBP_AT_HEAR, part->at + 1, 1 + (uint32_t)own->link_count, place_of_reads(own));
    return step;
}

dbp_step dbp_look(const dbp_system *it, uint32_t task)
{
    dbp_part *part = &it->parts[task];
    const dbp_read *read = &it->diagram->tasks[task].reads[part->at];
    const dbp_order order = part->heard[read->order];
    dbp_step step = step_of(DBP_LOOK, task, read->read, load(it, stamp_of(it, read->writer, order.slot)));
    step.must_wait = step.word != (uint64_t)order.number + 1;
    if (!step.must_wait) {
        part->place = DBP_AT_TAKE;
    }
    return step;
}

dbp_step dbp_take(const dbp_system *it, uint32_t task)
{
    dbp_part *part = &it->parts[task];
    const dbp_task *own = &it->diagram->tasks[task];
    const dbp_read *read = &own->reads[part->at];
    const uint32_t address = word_of(it, read->writer, part->heard[read->order].slot, read->port);
    const dbp_step step = step_of(DBP_TAKE, task, read->read, load_whole(it, address));
    part->taken[read->read] = value_of_word(step.word);
    move_to(part, DBP_AT_LOOK, part->at + 1, own->read_count, DBP_AT_SHUT);
    return step;
}

dbp_step dbp_shut(const dbp_system *it, uint32_t task)
{
    dbp_part *part = &it->parts[task];
    const dbp_step step = step_of(DBP_SHUT, task, 0, 0);
    store(it, stamp_of(it, task, part->heard[0].slot), step.word);
    part->place = DBP_AT_PUT;
    part->at = 0;
    return step;
}

dbp_step dbp_put(const dbp_system *it, uint32_t task)
{
    dbp_part *part = &it->parts[task];
    const dbp_step step = step_of(DBP_PUT, task, part->at, (uint64_t)part->outs[part->at]);
    store_whole(it, word_of(it, task, part->heard[0].slot, part->at), step.word);
    move_to(part, DBP_AT_PUT, part->at + 1, it->diagram->tasks[task].ports, DBP_AT_DONE);
    return step;
}

dbp_step dbp_done(const dbp_system *it, uint32_t task)
{
    dbp_part *part = &it->parts[task];
    const dbp_step step = step_of(DBP_DONE, task, 0, (uint64_t)part->ended + 2);
    store(it, stamp_of(it, task, part->heard[0].slot), step.word);
    part->place = DBP_AT_END;
    return step;
}

dbp_step dbp_end(const dbp_system *it, uint32_t task)
{
    dbp_part *part = &it->parts[task];
    const dbp_step step = step_of(DBP_END, task, 0, (uint64_t)part->ended + 1);
    store(it, ended_of(task), step.word);
    part->ended++;
    part->place = DBP_AT_START;
    return step;
}

dbp_step dbp_task_step(const dbp_system *it, uint32_t task)
{
    switch (it->parts[task].place) {
    case DBP_AT_START:
        return dbp_start(it, task);
    case DBP_AT_HEAR:
        return dbp_hear(it, task);
    case DBP_AT_LOOK:
        return dbp_look(it, task);
    case DBP_AT_TAKE:
        return dbp_take(it, task);
    case DBP_AT_SHUT:
        return dbp_shut(it, task);
    case DBP_AT_PUT:
        return dbp_put(it, task);
    case DBP_AT_DONE:
        return dbp_done(it, task);
    case DBP_AT_END:
        return dbp_end(it, task);
    }
    return no_step;
}

/* The operators. */

int64_t dbp_add(int64_t a, int64_t b)
{
    if (b > 0 && a > INT64_MAX - b) {
        return INT64_MAX;
    }
    if (b < 0 && a < INT64_MIN - b) {
        return INT64_MIN;
    }
    return a + b;
}

int64_t dbp_sub(int64_t a, int64_t b)
{
    if (b < 0 && a > INT64_MAX + b) {
        return INT64_MAX;
    }
    if (b > 0 && a < INT64_MIN + b) {
        return INT64_MIN;
    }
    return a - b;
}

int64_t dbp_neg(int64_t a)
{
    return a == INT64_MIN ? INT64_MAX : -a;
}

static uint64_t magnitude_of(int64_t value)
{
    return value < 0 ? (uint64_t)(-(value + 1)) + 1 : (uint64_t)value;
}

static bool is_short(int64_t value)
{
    return value >= INT32_MIN && value <= INT32_MAX;
}

int64_t dbp_mul(int64_t a, int64_t b)
{
    if (is_short(a) && is_short(b)) {
        return a * b;
    }
    const bool is_negative = (a < 0) != (b < 0);
    const uint64_t size = magnitude_of(a), times = magnitude_of(b);
    const uint64_t most = (uint64_t)INT64_MAX + is_negative;
    if (times != 0 && size > most / times) {
        return is_negative ? INT64_MIN : INT64_MAX;
    }
    return value_of_word(is_negative ? 0 - size * times : size * times);
}

int64_t dbp_div(int64_t a, int64_t b)
{
    if (b == 0) {
        return 0;
    }
    return b == -1 ? dbp_neg(a) : a / b;
}

int64_t dbp_rem(int64_t a, int64_t b)
{
    return b == 0 || b == -1 ? 0 : a % b;
}

int64_t dbp_min(int64_t a, int64_t b)
{
    return a < b ? a : b;
}

int64_t dbp_max(int64_t a, int64_t b)
{
    return a > b ? a : b;
}

int64_t dbp_equal(int64_t a, int64_t b)
{
    return a == b;
}

int64_t dbp_unequal(int64_t a, int64_t b)
{
    return a != b;
}

int64_t dbp_less(int64_t a, int64_t b)
{
    return a < b;
}

int64_t dbp_at_most(int64_t a, int64_t b)
{
    return a <= b;
}

int64_t dbp_greater(int64_t a, int64_t b)
{
    return a > b;
}

int64_t dbp_at_least(int64_t a, int64_t b)
{
    return a >= b;
}

int64_t dbp_and(int64_t a, int64_t b)
{
    return a != 0 && b != 0;
}

int64_t dbp_or(int64_t a, int64_t b)
{
    return a != 0 || b != 0;
}

int64_t dbp_not(int64_t a)
{
    return a == 0;
}

int64_t dbp_choose(int64_t condition, int64_t a, int64_t b)
{
    return condition != 0 ? a : b;
}
