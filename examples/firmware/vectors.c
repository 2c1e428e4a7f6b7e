/*
 * vectors.c: what the processor starts with, and where its interrupts go.
 */
#include "board.h"
#include "clock.h"
#include "main.h"
#include "sx1262_simulated.h"

/* Where the linker script has put .data, in flash and in RAM, .bss, and the end of the stack, which is no function. */
extern uint32_t data_in_flash[], data_start[], data_end[], bss_start[], bss_end[];
void stack_end(void);
void reset(void);

volatile uint32_t board_interrupts;

/* The first code that runs: gives the variables their first values, and calls main. */
void reset(void)
{
    const uint32_t *from = data_in_flash;
    uint32_t *to;

    for (to = data_start; to < data_end; to++)
        *to = *from++;
    for (to = bss_start; to < bss_end; to++)
        *to = 0;
    main();
}

/* A fault of the processor starts the board anew: the register AIRCR, with its key. */
static void restart(void)
{
    BOARD_REGISTER(0xE000ED0Cu) = 0x05FA0004u;
    for (;;)
        ;
}

static void millisecond(void)
{
    board_interrupts++;
    clock_millisecond();
}

static void host_received(void)
{
    board_interrupts++;
    uart_received(&host);
}

static void host_sent(void)
{
    board_interrupts++;
    uart_sent(&host);
}

static void air_received(void)
{
    board_interrupts++;
    uart_received(&air);
}

static void air_sent(void)
{
    board_interrupts++;
    uart_sent(&air);
}

/* The table that the processor looks up: the stack, the exceptions 1 to 15, then the interrupts from 0 on. */
__attribute__((section(".vectors"), used)) static void (*const vectors[])(void) = {
    stack_end,
    reset,
    [2] = restart,
    [3] = restart,
    [4] = restart,
    [5] = restart,
    [6] = restart,
    [11] = restart,
    [12] = restart,
    [14] = restart,
    [15] = millisecond,
    [16 + BOARD_UART0_RECEIVED] = host_received,
    [16 + BOARD_UART0_SENT] = host_sent,
    [16 + BOARD_UART1_RECEIVED] = air_received,
    [16 + BOARD_UART1_SENT] = air_sent,
};

void board_enable(unsigned interrupt)
{
    BOARD_REGISTER(0xE000E100u) = 1u << interrupt; /* NVIC_ISER0 */
}

void board_sleep(uint32_t seen)
{
    board_mask();
    if (board_interrupts == seen)
        __asm__ volatile("wfi" ::: "memory"); /* a masked interrupt ends it too */
    board_unmask();
}
