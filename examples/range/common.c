/*
 * common.c: the small functions that all files of the range share.
 * Nothing here knows of a dongle, of the air or of the host.
 */
#include "common.h"

#include <stdio.h>
#include <stdlib.h>

void give_up(const char *why)
{
    fprintf(stderr, "range: %s\n", why);
    exit(EXIT_FAILURE);
}

long long rounded(long long dividend, long long divisor)
{
    return (dividend < 0 ? dividend - divisor / 2 : dividend + divisor / 2) / divisor;
}

unsigned u16_at(const uint8_t *bytes)
{
    return bytes[0] | (unsigned)bytes[1] << 8;
}

uint32_t u32_at(const uint8_t *bytes)
{
    return u16_at(bytes) | (uint32_t)u16_at(bytes + 2) << 16;
}
