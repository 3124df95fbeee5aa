/* Runs a document's own trace on a Cortex-M3 without an operating system: the timer's interrupt is the releaser, and each task
 * is the handler of an interrupt of its own, which its release pends. The priorities of the interrupts are the ranks, and the
 * timer's is above them. It has the calls of dbp_trace.h, and prints the lines of `dbp mean` to the serial line, then how
 * many releases were late and how many interrupts of the timer came into a task. For mps2-an385 of QEMU. */

#include "dbp_trace.h"

#define SYSTICK_CONTROL (*(volatile uint32_t *)0xE000E010)
#define SYSTICK_RELOAD (*(volatile uint32_t *)0xE000E014)
#define SYSTICK_VALUE (*(volatile uint32_t *)0xE000E018)
#define NVIC_ENABLE (*(volatile uint32_t *)0xE000E100)
#define NVIC_PEND (*(volatile uint32_t *)0xE000E200)
#define NVIC_PRIORITIES ((volatile uint8_t *)0xE000E400)
#define INTERRUPT_STATE (*(volatile uint32_t *)0xE000ED04)
#define SYSTICK_PRIORITY (*(volatile uint8_t *)0xE000ED23)
#define SERIAL_DATA (*(volatile uint32_t *)0x40004000)
#define SERIAL_STATE (*(volatile uint32_t *)0x40004004)
#define SERIAL_CONTROL (*(volatile uint32_t *)0x40004008)
#define SERIAL_DIVISOR (*(volatile uint32_t *)0x40004010)

#define FIRST_INTERRUPT 16      /* the number of exceptions of the processor itself */
#define RETURNS_TO_BASE 0x800U  /* no other exception is active */
#define MOST_SPINS 64

int main(int count, char **words);

static const dbp_trace *the;
static const uint8_t ranks[] = RANKS;
static uint32_t tick, next_batch, now, late_count, preempted_count;
static uint32_t drawn[DBP_MOST_TASKS];
static volatile bool is_released;

static void put_letter(char letter)
{
    while (SERIAL_STATE % 2 != 0) {
        continue;
    }
    SERIAL_DATA = (uint32_t)letter;
}

static void put_text(const char *text)
{
    for (; *text != '\0'; text++) {
        put_letter(*text);
    }
}

static void put_number(int64_t value)
{
    char digits[20];
    uint32_t count = 0;
    uint64_t rest = value < 0 ? (uint64_t)(-(value + 1)) + 1 : (uint64_t)value;
    do {
        digits[count++] = (char)('0' + (char)(rest % 10));
        rest /= 10;
    } while (rest > 0);
    if (value < 0) {
        put_letter('-');
    }
    while (count > 0) {
        put_letter(digits[--count]);
    }
}

/* A time between steps that changes, so that the timer's interrupt comes at all places. */
static void spin(uint32_t task)
{
    drawn[task] = drawn[task] * 1664525U + 1013904223U;
    for (volatile uint32_t left = (drawn[task] >> 16) % MOST_SPINS; left > 0; left--) {
        continue;
    }
}

/* The handler of a task's interrupt. */
static void on_task(void)
{
    uint32_t number;
    __asm volatile("mrs %0, ipsr" : "=r"(number));
    const uint32_t task = number - FIRST_INTERRUPT;
    dbp_step step;
    do {
        step = the->tasks[task].step();
        spin(task);
    } while (!step.must_wait && step.kind != DBP_END);
}

/* The timer's handler: a release that is late is made at one of the next interrupts, and no tick is passed over. */
static void on_timer(void)
{
    preempted_count += (INTERRUPT_STATE & RETURNS_TO_BASE) == 0;
    if (is_released) {
        return;
    }
    if (tick == the->batches[next_batch].time) {
        now = tick;
        const dbp_released released = the->release(dbp_tasks_at(the->diagram, tick) | the->batches[next_batch].tasks);
        if (released.outcome == DBP_LATE) {
            late_count++;
            return;
        }
        the->occurred[next_batch] = released.tasks;
        NVIC_PEND = released.tasks;
        next_batch++;
        is_released = next_batch == the->batch_count;
    }
    tick++;
}

int64_t dbp_trace_value(uint32_t input)
{
    const dbp_trace_input *own = &the->inputs[input];
    int64_t value = own->first;
    for (uint32_t at = 0; at < own->sample_count && own->samples[at].time <= now; at++) {
        value = own->samples[at].value;
    }
    return value;
}

void dbp_trace_keep(uint32_t task, uint32_t instance, const int64_t *outs)
{
    const uint32_t ports = the->diagram->tasks[task].ports;
    for (uint32_t port = 0; port < ports; port++) {
        the->tasks[task].rows[(instance - 1) * ports + port] = outs[port];
    }
}

static void put_line(uint32_t time, uint32_t task, uint32_t instance)
{
    const uint32_t ports = the->diagram->tasks[task].ports;
    put_number(time);
    put_text(",");
    put_text(the->tasks[task].name);
    put_text(",");
    put_number(instance);
    for (uint32_t port = 0; port < ports; port++) {
        put_text(",");
        put_number(the->tasks[task].rows[(instance - 1) * ports + port]);
    }
    put_text("\n");
}

static void put_lines(void)
{
    static uint32_t instances[DBP_MOST_TASKS];
    for (uint32_t batch = 0; batch < the->batch_count; batch++) {
        for (uint32_t task = 0; task < the->diagram->task_count; task++) {
            if ((the->occurred[batch] >> task) % 2 != 0) {
                put_line(the->batches[batch].time, task, ++instances[task]);
            }
        }
    }
    put_text("late ");
    put_number(late_count);
    put_text(" preempted ");
    put_number(preempted_count);
    put_text("\n");
}

/* The program's own part has the lowest priority: once all is released, it goes on when no task's interrupt is left. */
int dbp_trace_run(const dbp_trace *trace, int count, char **words)
{
    (void)count, (void)words;
    the = trace;
    the->begin();
    is_released = the->batch_count == 0;
    for (uint32_t task = 0; task < the->diagram->task_count; task++) {
        NVIC_PRIORITIES[task] = (uint8_t)((1U + ranks[task]) << 5);
        NVIC_ENABLE = UINT32_C(1) << task;
    }
    SYSTICK_PRIORITY = TIMER_PRIORITY;
    SYSTICK_RELOAD = RELOAD;
    SYSTICK_VALUE = 0;
    SYSTICK_CONTROL = 7;
    while (!is_released) {
        __asm volatile("wfi");
    }
    SYSTICK_CONTROL = 0;
    SERIAL_DIVISOR = 16;
    SERIAL_CONTROL = 1;
    put_lines();
    return 0;
}

/* The end of the program, as QEMU takes it. */
static void leave(void)
{
    __asm volatile("mov r0, #0x18\n ldr r1, =0x20026\n bkpt 0xAB");
    for (;;) {
        continue;
    }
}

static void on_fault(void)
{
    SERIAL_CONTROL = 1;
    put_text("a fault\n");
    leave();
}

static void on_reset(void)
{
    (void)main(0, NULL);
    leave();
}

extern uint32_t end_of_stack;

#define FOUR(handler) handler, handler, handler, handler
#define SIXTEEN(handler) FOUR(handler), FOUR(handler), FOUR(handler), FOUR(handler)

typedef void (*handler)(void);

__attribute__((section(".vectors"), used)) static const struct {
    uint32_t *stack;
    handler of_processor[15];
    handler of_tasks[32];
} vectors = {
    &end_of_stack,
    {on_reset, FOUR(on_fault), FOUR(on_fault), FOUR(on_fault), on_fault, on_timer},
    {SIXTEEN(on_task), SIXTEEN(on_task)},
};
