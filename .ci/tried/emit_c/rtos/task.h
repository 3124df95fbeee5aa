/* The calls of FreeRTOS that docs/DEPLOYING.md uses. */

typedef struct tskTaskControlBlock *TaskHandle_t;

BaseType_t xTaskCreate(void (*code)(void *), const char *name, uint16_t depth, void *given, UBaseType_t priority, TaskHandle_t *made);
TickType_t xTaskGetTickCount(void);
BaseType_t xTaskDelayUntil(TickType_t *previous, TickType_t increment);
void vTaskDelay(TickType_t ticks);
uint32_t ulTaskNotifyTake(BaseType_t clear, TickType_t ticks);
BaseType_t xTaskNotifyGive(TaskHandle_t task);
