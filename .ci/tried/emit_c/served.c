/* What serves threads, in place of the system's: it tells what was asked for. */

#define _GNU_SOURCE
#include <pthread.h>
#include <stdarg.h>
#include <stdint.h>
#include <stdio.h>
#include <string.h>

int __wrap_pthread_setschedparam(pthread_t thread, int policy, const struct sched_param *parameters);
int __wrap_pthread_setaffinity_np(pthread_t thread, size_t size, const cpu_set_t *set);
long __wrap_syscall(long number, ...);

static void tell(const char *text)
{
    char name[32] = "";
    pthread_getname_np(pthread_self(), name, sizeof name);
    fprintf(stderr, "served %s: %s\n", name, text);
}

int __wrap_pthread_setschedparam(pthread_t thread, int policy, const struct sched_param *parameters)
{
    char text[64];
    (void)thread;
    snprintf(text, sizeof text, "%d %d", policy, parameters->sched_priority);
    tell(text);
    return 0;
}

int __wrap_pthread_setaffinity_np(pthread_t thread, size_t size, const cpu_set_t *set)
{
    char text[64];
    (void)thread, (void)size;
    snprintf(text, sizeof text, "bound to %d", CPU_COUNT(set));
    tell(text);
    return 0;
}

long __wrap_syscall(long number, ...)
{
    struct { uint32_t size, policy; uint64_t flags; int32_t nice; uint32_t priority; uint64_t times[3]; } given;
    char text[128];
    va_list list;
    va_start(list, number);
    (void)va_arg(list, int);
    memcpy(&given, va_arg(list, void *), sizeof given);
    va_end(list);
    snprintf(text, sizeof text, "%u %llu %llu %llu", given.policy, (unsigned long long)given.times[0],
             (unsigned long long)given.times[1], (unsigned long long)given.times[2]);
    tell(text);
    return 0;
}
