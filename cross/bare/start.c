/*
 * What a bare Cortex-M needs before the C library's own start: the table that the processor takes its first stack
 * pointer and its handlers from. The program's data is loaded to where it belongs, so that nothing has to be copied.
 */
#include <stdint.h>

extern uint32_t stack_top[];
extern void _start(void);

/* Requests to the host (semihosting). */
enum { WRITE_TEXT = 0x04, EXIT = 0x18, RUN_TIME_ERROR = 0x20023 };

static void ask_host(uint32_t what, uint32_t value)
{
    register uint32_t r0 __asm("r0") = what;
    register uint32_t r1 __asm("r1") = value;
    __asm volatile("bkpt 0xAB" : "+r"(r0) : "r"(r1) : "memory");
}

/* Access to a place that is not there, or on an alignment that the processor does not take; an unknown instruction. */
static void fault(void)
{
    ask_host(WRITE_TEXT, (uint32_t) "the processor met a fault\n");
    for (;;)
        ask_host(EXIT, RUN_TIME_ERROR);
}

static void reset(void)
{
#ifdef __ARM_FP
    /* Coprocessors 10 and 11, the floating point unit, are the program's. */
    *(volatile uint32_t *)0xE000ED88 |= 0xFu << 20;
#endif
    _start();
}

union entry {
    uint32_t *stack;
    void (*handler)(void);
};

/* The stack's top, reset, NMI, hard fault, and the faults that Cortex-M3 and later tell apart. */
__attribute__((section(".vectors"), used)) static const union entry vectors[] = {
    {.stack = stack_top}, {.handler = reset}, {.handler = fault}, {.handler = fault},
    {.handler = fault},   {.handler = fault}, {.handler = fault},
};
