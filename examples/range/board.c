/*
 * board.c: a dongle's firmware, whole. This is the file to copy from for a board of your own: it has
 * every call of the library that firmware makes, but for donglora_disconnect (here no cable is pulled).
 * The USB (usb.h) and the radio (radio.h) are simulated. Put the drivers of your chips in their place.
 */
#include "board.h"

/* Does what the answer to an event asks for: sends what was written, and passes the order to the radio. */
static void follow(struct board *b, const struct donglora_answer *answer)
{
    const uint8_t *bytes = b->commands + answer->at;

    usb_put(&b->to_host, b->out, (size_t)answer->written);
    switch (answer->order) {
    case DONGLORA_STANDBY:
        radio_standby(&b->radio);
        break;
    case DONGLORA_CONFIGURE: /* the first byte is the modulation: here it is always LoRa */
        radio_set_up(&b->radio, bytes + 1, (int)answer->ldro);
        break;
    case DONGLORA_TRANSMIT: /* the packet stays where it is until its end is told */
        radio_send(&b->radio, bytes, (size_t)answer->len, (int)answer->listen);
        break;
    case DONGLORA_RECEIVE:
        radio_receive(&b->radio);
        break;
    }
}

/* The radio has received a packet: tells the library, with what was measured. */
static void tell_packet(struct board *b, uint64_t now_us, struct donglora_answer *answer)
{
    const struct carried *c = b->radio.received;
    struct donglora_packet_status status = {.rssi = c->rssi, .snr = c->snr, .timestamp_us = now_us, .crc_valid = 1};

    donglora_packet(b->control, status, c->packet, sizeof c->packet, b->packets, sizeof b->out, answer);
}

/* Tells the library what the radio has come to. A byte that was refused may then be offered again. */
static void tell_radio(struct board *b, enum radio_event event, uint64_t now_us)
{
    struct donglora_answer answer = {0};

    switch (event) {
    case RADIO_NOTHING:
        return;
    case RADIO_SET_UP:
        donglora_configured(b->control, b->commands, b->out, sizeof b->out, &answer);
        break;
    case RADIO_CLEAR:
        donglora_clear(b->control, sizeof b->out, &answer);
        break;
    case RADIO_BUSY:
        donglora_busy(b->control, b->commands, b->out, sizeof b->out, &answer);
        break;
    case RADIO_SENT:
        donglora_sent(b->control, radio_airtime_us(&b->radio), b->commands, b->out, sizeof b->out, &answer);
        break;
    case RADIO_RECEIVED:
        tell_packet(b, now_us, &answer);
        break;
    case RADIO_FAILED:
        donglora_fault(b->control, b->commands, b->out, sizeof b->out, &answer);
        break;
    }
    if (answer.number == DONGLORA_PLACE)
        b->misfits++;
    b->stalled = 0;
    follow(b, &answer);
}

/* Offers the host's bytes one by one. A byte that is refused stays in the pipe. */
static void take_bytes(struct board *b)
{
    struct donglora_answer answer;
    const uint8_t *byte;

    while (!b->stalled && (byte = usb_next(&b->from_host)) != NULL) {
        donglora_byte(b->control, *byte, b->run, b->commands, b->out, sizeof b->out, &answer);
        if (answer.number == DONGLORA_STALL) {
            b->stalled = 1;
            b->stalls++;
            return;
        }
        usb_drop(&b->from_host);
        follow(b, &answer);
    }
}

void board_power_up(struct board *b, struct air *air)
{
    b->radio.air = air;
    donglora_power_up(b->control, b->run, b->commands, b->packets);
}

/* Any other order of the events would do as well. */
void board_ms(struct board *b, uint64_t now_us)
{
    struct donglora_answer answer;

    tell_radio(b, radio_ms(&b->radio), now_us);
    take_bytes(b);
    if (b->to_host.len == 0) { /* the host has taken all, so it can take a packet */
        donglora_request(b->control, b->packets, b->out, sizeof b->out, &answer);
        follow(b, &answer);
    }
    donglora_tick(b->control, sizeof b->out, &answer);
    follow(b, &answer);
}
