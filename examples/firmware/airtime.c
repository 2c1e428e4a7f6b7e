/*
 * airtime.c: how long a packet is on air.
 */
#include "airtime.h"

/* Hz, by the chip's code. */
static const uint32_t bandwidths[] = {7810, 15630, 31250, 62500, 125000, 250000, 500000, 0, 10420, 20830, 41670};

static uint32_t at_most_32_bits(uint64_t us)
{
    return us > UINT32_MAX ? UINT32_MAX : (uint32_t)us;
}

/* The formula of Semtech's data sheets for SF 7 to 12. With SF 5 and 6 a chip differs from it by a few symbols. */
uint32_t airtime_lora_us(const struct sx1262_lora_modulation *m, const struct sx1262_lora_packet *p)
{
    int bits = 8 * p->len - 4 * m->sf + 28 + (p->crc ? 16 : 0) - (p->implicit ? 20 : 0);
    int group = 4 * (m->ldro ? m->sf - 2 : m->sf);
    uint32_t symbols = bits > 0 ? (uint32_t)((bits + group - 1) / group * (m->cr + 4)) : 0;
    uint64_t quarters = 4 * (p->preamble_len + 8 + symbols) + 17;

    return at_most_32_bits((quarters << m->sf) * 250000 / bandwidths[m->bw]);
}

/* Preamble, sync word, a byte of length, the packet and a CRC of two bytes. */
uint32_t airtime_gfsk_us(const struct sx1262_gfsk_modulation *m, const struct sx1262_gfsk_packet *p)
{
    uint64_t bits = p->preamble_len + 8u * (p->sync_word_len + 1u + p->len + 2u);

    return m->bitrate_bps == 0 ? UINT32_MAX : at_most_32_bits(bits * 1000000 / m->bitrate_bps);
}
