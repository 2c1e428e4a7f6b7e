/*
 * air.c: the antenna on the turntable, and the air between it and the mast.
 * The pattern that the host is to find is the table below. The host has no way to look at it.
 */
#include "air.h"

#include <string.h>

#define PATH     1080  /* between the two antennas, the mast's own gain included: tenths of dB */
#define FLOOR    -1170 /* the noise that the mast's radio hears: tenths of dBm */
#define SNR_MOST 120   /* LoRa radios tell no higher snr: tenths of dB */

/* A made-up panel antenna: gain in tenths of dBi, every 5 degrees. */
static const int16_t antenna[ANGLES / 5] = {
     139,  138,  125,  102,   67,   20,  -35,  -60,  -32,  -22,  -47, -104,
    -138,  -89,  -75, -108, -177, -184, -136, -122, -153, -205, -199, -157,
    -144, -172, -212, -192, -144, -131, -161, -192, -136, -116, -160, -157,
     -99, -105, -146, -127, -145, -198, -170, -125, -120, -159, -207, -181,
    -142, -138, -171, -210, -175, -122, -108, -140, -188, -131,  -71,  -56,
     -89, -125,  -64,  -19,   -8,  -31,  -62,  -24,   30,   74,  107,  129,
};

/* The antenna's gain at an azimuth: a smooth (Catmull-Rom) curve through the table, in whole numbers. */
static int gain(int azimuth)
{
    int at = azimuth / 5 + ANGLES / 5, k = azimuth % 5;
    int a = antenna[(at - 1) % (ANGLES / 5)], b = antenna[at % (ANGLES / 5)];
    int c = antenna[(at + 1) % (ANGLES / 5)], d = antenna[(at + 2) % (ANGLES / 5)];

    return (int)rounded(250 * b + 25 * k * (c - a) + 5 * k * k * (2 * a - 5 * b + 4 * c - d) +
                            k * k * k * (3 * b - a - 3 * c + d), 250);
}

/* A number from -most to most, from the seed (xorshift). */
static int noise(struct air *air, int most)
{
    air->seed ^= air->seed << 13;
    air->seed ^= air->seed >> 17;
    air->seed ^= air->seed << 5;
    return (int)(air->seed % (2 * (unsigned)most + 1)) - most;
}

int air_level(int azimuth, int power_dbm)
{
    return 10 * power_dbm + gain(azimuth) - PATH;
}

int air_snr(int level)
{
    return level - FLOOR > SNR_MOST ? SNR_MOST : level - FLOOR;
}

void air_carry(struct air *air, const struct setup *sender, const uint8_t *packet, size_t len)
{
    struct carried *c = &air->carried[air->count];
    int level = air_level(air->azimuth, sender->power_dbm) + noise(air, LEVEL_NOISE);

    if (air->count++ == SHOTS_MAX || len != sizeof c->packet)
        give_up("not a packet of this range");
    c->azimuth = air->azimuth;
    c->rssi = (int16_t)level;
    c->snr = (int16_t)(air_snr(level) + noise(air, SNR_NOISE));
    memcpy(c->packet, packet, len);
    air->sender = *sender;
    air->ended = c;
    air->here++;
}
