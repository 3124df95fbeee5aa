/* The motor of motor.dbp: a plant that is computed each millisecond, what the tasks ask for and give, and a run of two seconds
 * in real time in which the emergency switch is pressed after 1.5 seconds. */

#define _POSIX_C_SOURCE 200809L

#include "motor_posix.h"

#include <pthread.h>
#include <stdio.h>
#include <time.h>

#define TICKS 2000
#define PRESSED 1500
#define MILLISECOND 1000000L

/* What the plant and the tasks share: voltage, current and place. */
static atomic_int volt;
static atomic_int ampere;
static atomic_int angle;
static atomic_bool has_ended;
static unsigned overruns;

int64_t motor_input_ampere(void)
{
    return atomic_load(&ampere);
}

int64_t motor_input_angle(void)
{
    return atomic_load(&angle);
}

int64_t motor_input_target(void)
{
    return 4000;
}

void motor_current_row(uint32_t instance, int64_t millivolts)
{
    (void)instance;
    atomic_store(&volt, (int)millivolts);
}

void motor_brake_row(uint32_t instance, int64_t stopped)
{
    (void)instance, (void)stopped;
}

void motor_speed_row(uint32_t instance, int64_t milliamperes, int64_t turned)
{
    (void)instance, (void)milliamperes, (void)turned;
}

void motor_position_row(uint32_t instance, int64_t speed)
{
    (void)instance, (void)speed;
}

void motor_overrun(uint32_t task, uint32_t instance, uint64_t tick)
{
    (void)task, (void)instance, (void)tick;
    overruns++;
}

/* The motor: 2 ohms, 4 millihenries, and a rotor that slows down by itself. Turns and seconds. */
static void *turn(void *unused)
{
    const struct timespec length = {0, MILLISECOND};
    double current = 0, speed = 0, place = 0;
    (void)unused;
    for (unsigned tick = 0; !atomic_load(&has_ended); tick++) {
        current += (atomic_load(&volt) / 1000.0 - 2 * current - 1.5 * speed) / 4;
        speed += (12 * current - 4 * speed) / 1000;
        place += speed / 1000;
        atomic_store(&ampere, (int)(1000 * current));
        atomic_store(&angle, (int)(1000 * place));
        if (tick == PRESSED) {
            motor_raise_stop();
        }
        nanosleep(&length, NULL);
    }
    return NULL;
}

int main(int count, char **words)
{
    pthread_t plant;
    if (count != 2 || pthread_create(&plant, NULL, turn, NULL) != 0) {
        fprintf(stderr, "usage: motor LOG\n");
        return 2;
    }
    const dbp_posix_end end = motor_run(TICKS);
    atomic_store(&has_ended, true);
    pthread_join(plant, NULL);
    printf("the motor is at %d of 4000, with %u overruns\n", atomic_load(&angle), overruns);
    return end == DBP_RAN && motor_write_log(words[1]) ? 0 : 1;
}
