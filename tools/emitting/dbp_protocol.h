/* Written by tools/emit_c of dbp: it writes this file anew at each call. */

/* The Dynamic Buffering Protocol in C11, for every diagram: its steps, and the operators of its language.
 *
 * Parties share words: the releaser, and each task. A step of a party loads or stores one of these words (with 32 bits, an
 * order or a value of two), once and in sequentially consistent order; all else that it uses is the party's own. So parties
 * may be preempted between any two steps, or run at the same time. The tables of a diagram, and what a system calls, are in
 * a file of the diagram. */

#ifndef DBP_PROTOCOL_H
#define DBP_PROTOCOL_H

#include <stdbool.h>
#include <stddef.h>
#include <stdint.h>

/* How many bits a shared word has. With 32 an order and a value are two words each, the low half first: an order changes
 * only while the gate of its reader is closed, a value only while the stamp before it says that its slot is being filled. */
#ifndef DBP_WORD_BITS
#define DBP_WORD_BITS 64
#endif

#if DBP_WORD_BITS == 64
typedef uint64_t dbp_plain_word;
#define DBP_WORDS_OF_VALUE UINT32_C(1)
#define DBP_LAST_INSTANCE UINT32_MAX /* no task has an instance after that of this number */
#else
typedef uint32_t dbp_plain_word;
#define DBP_WORDS_OF_VALUE UINT32_C(2)
#define DBP_LAST_INSTANCE (UINT32_MAX - 1) /* the stamp of an instance is one more than its number */
#endif

/* C++ calls what is here, and doesn't touch shared words. */
#ifdef __cplusplus
extern "C" {
typedef struct dbp_word dbp_word;
#else
#include <stdatomic.h>
_Static_assert(DBP_WORD_BITS == 32 || ATOMIC_LLONG_LOCK_FREE == 2, "a load or a store of 64 bits needs a lock here");
_Static_assert(ATOMIC_INT_LOCK_FREE == 2 && ATOMIC_LONG_LOCK_FREE == 2, "a load or a store of 32 bits needs a lock here");
typedef _Atomic dbp_plain_word dbp_word;
#endif

#define DBP_MOST_TASKS UINT32_C(32)
#define DBP_MOST_DELAY 8
#define DBP_ALWAYS UINT8_MAX /* in place of the input by which a task occurs */

/* A link carries the outs of its writer to its reader, over a delay in instances of the writer; 0 is without delay. */
typedef struct {
    uint8_t writer;
    uint8_t reader;
    uint8_t delay;
} dbp_link;

/* A read: its number among those of its task, which of the orders that the task hears has its slot, and what it reads. */
typedef struct {
    uint8_t read;
    uint8_t order;
    uint8_t writer;
    uint8_t port;
} dbp_read;

/* A task as the steps see it. */
typedef struct {
    uint32_t period;         /* 0 if it occurs at the times of an event */
    uint32_t offset;
    uint8_t condition;       /* the input that isn't 0 when the task occurs, or DBP_ALWAYS */
    uint16_t first_slot;     /* the address of the stamp of its slot 0; the values of a slot stand after its stamp */
    uint8_t ports;           /* how many outs it has */
    uint8_t slots;           /* how many slots it has */
    uint8_t kept;            /* the longest delay of the links that leave it */
    uint8_t link_count;      /* the links into it, by their numbers */
    uint8_t leaving_count;   /* the links that leave it */
    uint8_t read_count;      /* its reads in the order of their turns */
    uint8_t sense_count;     /* its senses, each by its input */
    const uint8_t *links;
    const uint8_t *leaving;
    const dbp_read *reads;
    const uint8_t *senses;
    const int64_t *first;    /* the first value of each out */
} dbp_task;

typedef struct {
    uint8_t task_count;
    uint8_t link_count;
    uint16_t word_count;
    const dbp_task *tasks;
    const dbp_link *links;
} dbp_diagram;

/* What the releaser knows of a task: how many of its instances have ended, the last one that was aimed, the slot that
 * this one fills, and the slots of the instances before it, the latest first. */
typedef struct {
    uint32_t known;
    uint32_t aimed;
    uint8_t current;
    uint8_t kept[DBP_MOST_DELAY];
} dbp_entry;

/* The last claim over a link: for which instance of the reader, and which slot. */
typedef struct {
    uint32_t instance;
    uint8_t slot;
} dbp_claimed;

/* What the releaser does in a release, in this order: it sees all its tasks, aims them, claims the links into them, and
 * opens their gates. */
typedef enum { DBP_NO_RELEASE, DBP_SEEING, DBP_AIMING, DBP_CLAIMING, DBP_OPENING } dbp_pass;

typedef struct {
    dbp_entry *entries;     /* by task */
    dbp_claimed *claims;    /* by link */
    const int64_t *inputs;  /* their values at the release */
    dbp_pass pass;
    uint32_t asked;         /* the tasks that the release was asked for */
    uint32_t tasks;         /* those of them that occur */
    uint32_t task;          /* the place in the pass: a task, and in the pass of claims one of the links into it */
    uint32_t link;
} dbp_releaser;

/* Where a task is: what its next step is. */
typedef enum {
    DBP_AT_START,
    DBP_AT_HEAR,
    DBP_AT_LOOK,
    DBP_AT_TAKE,
    DBP_AT_SHUT,
    DBP_AT_PUT,
    DBP_AT_DONE,
    DBP_AT_END
} dbp_place;

/* A slot, and the number of the instance whose outs it is to hold. */
typedef struct {
    uint32_t slot;
    uint32_t number;
} dbp_order;

/* A task's part: how many instances have ended, its place, and what its instance has heard, sensed, taken and computed.
 * The releaser stores what is sensed after the aim of an instance and before it opens the gate: the task is idle then. */
typedef struct {
    uint32_t ended;
    dbp_place place;
    uint32_t at;           /* of several hears, looks, takes or puts the one that comes next */
    dbp_order *heard;      /* its own order, then that of each link into it */
    int64_t *sensed;       /* by sense */
    int64_t *taken;        /* by read */
    const int64_t *outs;   /* by port */
} dbp_part;

/* The parties of a diagram, and the words that they share. */
typedef struct {
    const dbp_diagram *diagram;
    dbp_word *words;
    dbp_releaser *releaser;
    dbp_part *parts;  /* by task */
} dbp_system;

/* The kinds of steps; DBP_NO_STEP says that there is none to make. */
typedef enum {
    DBP_NO_STEP,
    DBP_SEEN,
    DBP_AIM,
    DBP_CLAIM,
    DBP_OPEN_GATE,
    DBP_START,
    DBP_HEAR,
    DBP_LOOK,
    DBP_TAKE,
    DBP_SHUT,
    DBP_PUT,
    DBP_DONE,
    DBP_END
} dbp_kind;

/* A step that was made. */
typedef struct {
    dbp_kind kind;
    bool must_wait;  /* another party's step is missing: the gate is closed, the row isn't there, the task hasn't ended */
    uint8_t task;    /* that steps, or for which the releaser steps */
    uint8_t about;   /* the slot of an aim, the link of a claim, the read of a look or take, the port of a put */
    uint64_t word;   /* that was loaded or stored */
} dbp_step;

/* What came of a release. */
typedef enum {
    DBP_RELEASED,   /* its tasks are released */
    DBP_LATE,       /* none is released yet: the last instance of a task hasn't ended */
    DBP_SPENT,      /* none is released: a task has had its last instance */
    DBP_UNDER_WAY   /* nothing was done: a release of other tasks is under way */
} dbp_outcome;

typedef struct {
    dbp_outcome outcome;
    uint8_t task;    /* the task that is late or spent */
    uint32_t tasks;  /* the tasks that the release has */
} dbp_released;

/* Gives each word and each part its value before the first step. */
void dbp_begin(const dbp_system *it);

/* The steps of the releaser. */
dbp_step dbp_seen(const dbp_system *it, uint32_t task);
dbp_step dbp_aim(const dbp_system *it, uint32_t task, uint32_t slot);
dbp_step dbp_claim(const dbp_system *it, uint32_t link);
dbp_step dbp_open_gate(const dbp_system *it, uint32_t task);

/* The steps of a task. */
dbp_step dbp_start(const dbp_system *it, uint32_t task);
dbp_step dbp_hear(const dbp_system *it, uint32_t task);
dbp_step dbp_look(const dbp_system *it, uint32_t task);
dbp_step dbp_take(const dbp_system *it, uint32_t task);
dbp_step dbp_shut(const dbp_system *it, uint32_t task);
dbp_step dbp_put(const dbp_system *it, uint32_t task);
dbp_step dbp_done(const dbp_system *it, uint32_t task);
dbp_step dbp_end(const dbp_system *it, uint32_t task);

/* The tasks with a period that occur at the tick, whatever their conditions say. */
uint32_t dbp_tasks_at(const dbp_diagram *diagram, uint64_t tick);

/* Whether a release is under way: it is begun, and has steps left. */
bool dbp_is_releasing(const dbp_system *it);

/* Begins a release of those of these tasks whose conditions hold, by the inputs; if one of them is spent, it doesn't. It
 * makes no step. A release of the same tasks that is under way stays as it is. */
dbp_released dbp_begin_release(const dbp_system *it, uint32_t tasks);

/* Makes the next step of the release that is under way; DBP_NO_STEP if none is. */
dbp_step dbp_release_step(const dbp_system *it);

/* Makes the steps of the release that is under way, up to its end or to a task whose last instance hasn't ended. */
dbp_released dbp_release(const dbp_system *it);

/* Sees the first task whose last instance isn't known to have ended; DBP_NO_STEP if there is none. */
dbp_step dbp_see_unended(const dbp_system *it);

/* Makes the task's next step. */
dbp_step dbp_task_step(const dbp_system *it, uint32_t task);

/* The operators. What doesn't fit into 64 bits becomes the nearest number that does; what isn't 0 is true, and a truth is 1
 * or 0. A division is truncated towards zero, what it leaves has the sign of a, and both are 0 if b is 0. */
int64_t dbp_add(int64_t a, int64_t b);
int64_t dbp_sub(int64_t a, int64_t b);
int64_t dbp_neg(int64_t a);
int64_t dbp_mul(int64_t a, int64_t b);
int64_t dbp_div(int64_t a, int64_t b);
int64_t dbp_rem(int64_t a, int64_t b);
int64_t dbp_min(int64_t a, int64_t b);
int64_t dbp_max(int64_t a, int64_t b);
int64_t dbp_equal(int64_t a, int64_t b);
int64_t dbp_unequal(int64_t a, int64_t b);
int64_t dbp_less(int64_t a, int64_t b);
int64_t dbp_at_most(int64_t a, int64_t b);
int64_t dbp_greater(int64_t a, int64_t b);
int64_t dbp_at_least(int64_t a, int64_t b);
int64_t dbp_and(int64_t a, int64_t b);
int64_t dbp_or(int64_t a, int64_t b);
int64_t dbp_not(int64_t a);
int64_t dbp_choose(int64_t condition, int64_t a, int64_t b);

#ifdef __cplusplus
}
#endif

#endif
