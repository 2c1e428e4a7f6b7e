/*
 * radio.c: a dongle's radio chip, simulated. It takes the time that a real one takes, and is alone in
 * knowing the air. A board has the driver of its chip in this place. Nothing here calls the library.
 */
#include "radio.h"

#define SET_UP_MS 15 /* how long the radio takes to be set up */
#define LISTEN_MS 16 /* and to listen for a clear channel, with SF 10 */

/* From now on the radio does this, for so long. */
static void begin(struct radio *r, enum radio_doing doing, uint32_t us)
{
    r->doing = doing;
    r->until_us = r->air->now_us + us;
}

void radio_standby(struct radio *r)
{
    begin(r, IDLE, 0);
}

void radio_set_up(struct radio *r, const uint8_t *parameters, int ldro)
{
    const uint8_t *p = parameters;

    r->setup = (struct setup){.freq_hz = u32_at(p), .sf = p[4], .bw = p[5], .cr = p[6],
                              .preamble = (int)u16_at(p + 7), .power_dbm = (int8_t)p[11],
                              .implicit = p[12], .crc = p[13], .ldro = ldro};
    begin(r, SETTING_UP, SET_UP_MS * 1000);
}

void radio_send(struct radio *r, const uint8_t *packet, size_t len, int listen)
{
    r->packet = packet;
    r->packet_len = len;
    if (listen)
        begin(r, LISTENING, LISTEN_MS * 1000);
    else
        begin(r, SENDING, radio_airtime_us(r));
}

void radio_receive(struct radio *r)
{
    begin(r, RECEIVING, 0);
}

void radio_break(struct radio *r)
{
    begin(r, FAILING, 0);
}

/* For LoRa with 125 kHz: the formula of the radio's data sheet. */
uint32_t radio_airtime_us(const struct radio *r)
{
    const struct setup *s = &r->setup;
    int bits = 8 * (int)r->packet_len - 4 * s->sf + 28 + (s->crc ? 16 : 0) - (s->implicit ? 20 : 0);
    int group = 4 * (s->ldro ? s->sf - 2 : s->sf);
    int symbols = bits > 0 ? (bits + group - 1) / group * (s->cr + 5) : 0;

    return (uint32_t)(4 * (s->preamble + 8 + symbols) + 17) * (1u << s->sf) * 2;
}

/* A radio that receives hears the packet that has just ended, if it was sent as this radio is set up. */
static enum radio_event hear(struct radio *r)
{
    const struct setup *sender = &r->air->sender;

    if (r->air->ended == NULL || sender->freq_hz != r->setup.freq_hz || sender->sf != r->setup.sf ||
        sender->bw != r->setup.bw)
        return RADIO_NOTHING;
    r->air->ended->received = 1;
    r->received = r->air->ended;
    return RADIO_RECEIVED;
}

enum radio_event radio_ms(struct radio *r)
{
    enum radio_doing did = r->doing;

    if (did == RECEIVING)
        return hear(r);
    if (did == IDLE || r->air->now_us < r->until_us)
        return RADIO_NOTHING;
    if (did == LISTENING && !r->air->busy) {
        begin(r, SENDING, radio_airtime_us(r));
        return RADIO_CLEAR;
    }
    r->doing = IDLE;
    if (did == SENDING)
        air_carry(r->air, &r->setup, r->packet, r->packet_len);
    return did == SETTING_UP ? RADIO_SET_UP : did == LISTENING ? RADIO_BUSY :
           did == SENDING ? RADIO_SENT : RADIO_FAILED;
}
