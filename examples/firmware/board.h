/*
 * board.h: the processor and its board. This one is QEMU's mps2-an386, a Cortex-M4 at 25 MHz. What is
 * named here, vectors.c, uart.c and mps2.ld are what another board changes.
 */
#ifndef FIRMWARE_BOARD_H
#define FIRMWARE_BOARD_H

#include <stdint.h>

/* The processor's clock, which SysTick counts. */
#define BOARD_HZ 25000000u

/* The registers of the two UARTs, and their interrupts: received, and sent. */
#define BOARD_UART0 0x40004000u
#define BOARD_UART1 0x40005000u
#define BOARD_UART0_RECEIVED 0
#define BOARD_UART0_SENT     1
#define BOARD_UART1_RECEIVED 2
#define BOARD_UART1_SENT     3

/* The register of 32 bits at an address. */
#define BOARD_REGISTER(address) (*(volatile uint32_t *)(address))

/* How many interrupts there were, modulo 2^32. Each handler counts itself. */
extern volatile uint32_t board_interrupts;

/* Lets an interrupt in, by its number. */
void board_enable(unsigned interrupt);

/* No interrupt comes between these two. */
static inline void board_mask(void)
{
    __asm__ volatile("cpsid i" ::: "memory");
}

static inline void board_unmask(void)
{
    __asm__ volatile("cpsie i" ::: "memory");
}

/* Sleeps until an interrupt comes, unless one came since board_interrupts was `seen`. */
void board_sleep(uint32_t seen);

#endif
