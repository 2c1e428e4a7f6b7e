/*
 * clock.h: the time since the board's start.
 */
#ifndef FIRMWARE_CLOCK_H
#define FIRMWARE_CLOCK_H

#include <stdint.h>

/* Starts the clock: an interrupt in each millisecond. */
void clock_start(void);

/* That interrupt. */
void clock_millisecond(void);

/* Whether a millisecond has passed that was not told yet. It is told once. */
int clock_passed(void);

/* Microseconds since the start. Not for interrupts. */
uint64_t clock_us(void);

#endif
