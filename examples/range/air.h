/*
 * air.h: the antenna on the turntable, and the air between it and the mast.
 */
#ifndef RANGE_AIR_H
#define RANGE_AIR_H

#include "common.h"

#include <stddef.h>
#include <stdint.h>

#define LEVEL_NOISE 3 /* a level is wrong by up to so many tenths of dB */
#define SNR_NOISE   2 /* and an snr by so many more */

/* What a radio was set up for: P 10.1, and LDRO. */
struct setup {
    uint32_t freq_hz;
    int sf, bw, cr, preamble, power_dbm, implicit, crc, ldro;
};

/* A packet that went over the air, and how it arrives at the mast. */
struct carried {
    int azimuth; /* where the turntable stood */
    int16_t rssi, snr;
    uint8_t packet[4];
    int received; /* the mast's radio received it, and told its board */
};

/* The air, and what stands in it. */
struct air {
    uint64_t now_us;       /* the time */
    uint32_t seed;         /* of the noise */
    int azimuth;           /* where the turntable stands */
    int here;              /* how many packets went out from there */
    int busy;              /* somebody else is on the channel */
    struct carried *ended; /* the packet that ends in this millisecond, if any */
    struct setup sender;   /* and how its radio was set up */
    struct carried carried[SHOTS_MAX]; /* all packets, for the check at the end */
    size_t count;
};

/* The level that arrives at the mast, without noise: the pattern that is put in. Tenths of dBm. */
int air_level(int azimuth, int power_dbm);

/* The snr that goes with a level, without noise. Tenths of dB. */
int air_snr(int level);

/* Carries a packet that has been sent to its end. */
void air_carry(struct air *air, const struct setup *sender, const uint8_t *packet, size_t len);

#endif
