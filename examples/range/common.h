/*
 * common.h: what all files of the range share. Its measures, and a few small functions.
 */
#ifndef RANGE_COMMON_H
#define RANGE_COMMON_H

#include <stdint.h>

#define ANGLES    360  /* one row of the table for each degree */
#define SHOTS     6    /* packets for each row; its level is their mean */
#define SHOTS_MAX 4096 /* all packets of a run, those measured again included */

/* Ends the run: the simulation itself is wrong, or the host waits for what does not come. */
void give_up(const char *why);

/* The quotient, rounded to the nearest whole number. The divisor is positive. */
long long rounded(long long dividend, long long divisor);

/* The number in two bytes of a payload, low byte first. */
unsigned u16_at(const uint8_t *bytes);

/* The same, of four bytes. */
uint32_t u32_at(const uint8_t *bytes);

#endif
