/*
 * airtime.h: how long a packet is on air, in microseconds; at most what 32 bits hold.
 */
#ifndef FIRMWARE_AIRTIME_H
#define FIRMWARE_AIRTIME_H

#include "sx1262.h"

uint32_t airtime_lora_us(const struct sx1262_lora_modulation *m, const struct sx1262_lora_packet *p);
uint32_t airtime_gfsk_us(const struct sx1262_gfsk_modulation *m, const struct sx1262_gfsk_packet *p);

#endif
