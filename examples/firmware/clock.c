/*
 * clock.c: the time since the board's start, by the processor's SysTick.
 */
#include "clock.h"

#include "board.h"

/* SysTick: control, the value that it counts down from, the value now. */
#define SYST_CSR BOARD_REGISTER(0xE000E010u)
#define SYST_RVR BOARD_REGISTER(0xE000E014u)
#define SYST_CVR BOARD_REGISTER(0xE000E018u)

/* Whether its interrupt is still to come: a bit of the register ICSR. */
#define SYST_PENDING (BOARD_REGISTER(0xE000ED04u) & (1u << 26))

#define COUNTS_PER_US (BOARD_HZ / 1000000u)
#define RELOAD        (BOARD_HZ / 1000u - 1)

static volatile uint32_t passed; /* milliseconds, modulo 2^32 */

void clock_start(void)
{
    SYST_RVR = RELOAD;
    SYST_CVR = 0;
    SYST_CSR = 7; /* counts the processor's clock, with an interrupt */
}

void clock_millisecond(void)
{
    passed++;
}

int clock_passed(void)
{
    static uint32_t told;

    if (told == passed)
        return 0;
    told++;
    return 1;
}

uint64_t clock_us(void)
{
    static uint32_t last;
    static uint64_t ms;
    uint32_t now, count;

    do {
        now = passed;
        count = SYST_CVR;
    } while (SYST_PENDING || now != passed); /* in this order: the interrupt may come between the two */
    ms += now - last;
    last = now;
    return ms * 1000 + (RELOAD - count) / COUNTS_PER_US;
}
