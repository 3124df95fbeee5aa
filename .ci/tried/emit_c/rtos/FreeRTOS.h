/* What docs/DEPLOYING.md uses of FreeRTOS, so that its C is compiled without that. */

#include <stdint.h>

typedef uint32_t TickType_t;
typedef long BaseType_t;
typedef unsigned long UBaseType_t;

#define pdFALSE ((BaseType_t)0)
#define portMAX_DELAY ((TickType_t)0xFFFFFFFFU)
#define configUSE_PREEMPTION 1
