/* What runs before the driver on a Cortex-M in the emulator: FPU on, data copied, then the C library's own start. */
#include <stdint.h>

extern uint32_t data_begins, data_ends, data_loaded;
extern void _start(void);
extern void stack_begins(void); /* an address among addresses of functions: C knows no other table */

/* Bit 24 is flush-to-zero, bits 22 and 23 the rounding: all 0 is what the decoder needs. A control sets bit 24. */
#ifndef FPSCR
#define FPSCR 0
#endif

void reset(void) {
#ifdef __ARM_FP
    *(volatile uint32_t *)0xE000ED88 |= 0xFu << 20; /* CPACR: full access to the FPU */
    *(volatile uint32_t *)0xE000EF3C = FPSCR;       /* FPDSCR: what an interrupt begins with */
    __asm volatile("dsb\n isb\n vmsr fpscr, %0" : : "r"(FPSCR));
#endif
    for (uint32_t *to = &data_begins, *from = &data_loaded; to < &data_ends;)
        *to++ = *from++;
    _start();
}

/* A fault is told to the emulator, which prints the words and ends: SYS_WRITE0, then SYS_EXIT with a run-time error. */
static void told(uint32_t operation, const void *argument) {
    register uint32_t r0 __asm("r0") = operation;
    register const void *r1 __asm("r1") = argument;
    __asm volatile("bkpt 0xAB" : "+r"(r0) : "r"(r1) : "memory");
}

static void fault(void) {
    told(0x04, "FAULT\n");
    told(0x18, (const void *)0x20023);
    for (;;) {
    }
}

__attribute__((section(".vectors"), used)) static void (*const vectors[16])(void) = {
    stack_begins, reset, fault, fault, fault, fault, fault, 0, 0, 0, 0, fault, fault, 0, fault, fault,
};
