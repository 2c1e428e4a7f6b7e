/*
 * radio.h: a dongle's radio chip, simulated. What a board needs of the driver of a real one.
 */
#ifndef RANGE_RADIO_H
#define RANGE_RADIO_H

#include "air.h"

/* What the radio does. */
enum radio_doing { IDLE, SETTING_UP, LISTENING, SENDING, RECEIVING, FAILING };

/* What the radio has come to. */
enum radio_event {
    RADIO_NOTHING,  /* it goes on */
    RADIO_SET_UP,   /* it is set up */
    RADIO_CLEAR,    /* it has listened: the channel is clear, and it sends */
    RADIO_BUSY,     /* it has listened: the channel is busy, and it does not send */
    RADIO_SENT,     /* it has sent the packet */
    RADIO_RECEIVED, /* it has received a packet, and goes on receiving */
    RADIO_FAILED,   /* it has failed, whatever it did */
};

/* A radio. */
struct radio {
    struct air *air;
    enum radio_doing doing;
    uint64_t until_us; /* when that ends, but for IDLE and RECEIVING */
    struct setup setup;
    const uint8_t *packet; /* what it sends */
    size_t packet_len;
    const struct carried *received; /* what it received last */
};

/* Stands by. */
void radio_standby(struct radio *r);

/* Sets the radio up. The parameters are those of LoRa, as P 10.1 lays them out: it is given no others. */
void radio_set_up(struct radio *r, const uint8_t *parameters, int ldro);

/* Sends a packet, which stays where it is until that has ended; listens for a clear channel first, or not. */
void radio_send(struct radio *r, const uint8_t *packet, size_t len, int listen);

/* Receives without end. */
void radio_receive(struct radio *r);

/* A millisecond has passed: what the radio has come to. */
enum radio_event radio_ms(struct radio *r);

/* How long the packet that it sends is on air. */
uint32_t radio_airtime_us(const struct radio *r);

/* Breaks the radio, whatever it does. A packet on air is cut off. */
void radio_break(struct radio *r);

#endif
