/*
 * radio.h: the radio as the library sees it: its orders, and what comes of them.
 */
#ifndef FIRMWARE_RADIO_H
#define FIRMWARE_RADIO_H

#include "donglora.h"

/* What the radio has come to. */
enum radio_event {
    RADIO_NOTHING,    /* it goes on */
    RADIO_CONFIGURED, /* it is set up */
    RADIO_CLEAR,      /* it has listened, and the channel is clear */
    RADIO_BUSY,       /* it has listened, and the channel is busy */
    RADIO_SENT,       /* it has sent the packet */
    RADIO_RECEIVED,   /* it has received a packet, and goes on receiving */
    RADIO_FAILED,     /* it has failed, whatever it did */
};

/* Starts the radio, once. */
void radio_start(void);

/* The orders, as include/donglora.h has them. */
void radio_standby(void);
void radio_configure(const uint8_t *parameters, int ldro);
void radio_transmit(const uint8_t *packet, uint8_t len, int listen);
void radio_receive(void);

/* After RADIO_CLEAR: sends the packet. */
void radio_send(void);

/*
 * What the radio has come to, told once. Where there is no room for what an event writes, only those are
 * told that write nothing; the others stay until there is.
 */
enum radio_event radio_next(int room);

/* After RADIO_SENT: how long the packet was on air. */
uint32_t radio_airtime_us(void);

/* After RADIO_RECEIVED: the packet, with what was measured. */
struct donglora_packet_status radio_status(void);
const uint8_t *radio_packet(uint8_t *len);

#endif
