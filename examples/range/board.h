/*
 * board.h: a dongle. A board with a USB and a radio, and the library on it.
 */
#ifndef RANGE_BOARD_H
#define RANGE_BOARD_H

#include "donglora.h"
#include "radio.h"
#include "usb.h"

/* A board, with all that it keeps between two turns of its main loop. */
struct board {
    uint64_t control[DONGLORA_CONTROL]; /* these four are the library's: the board keeps and lends them */
    uint8_t run[DONGLORA_RUN];
    uint8_t commands[DONGLORA_COMMANDS];
    uint8_t packets[DONGLORA_PACKETS];
    uint8_t out[DONGLORA_OUT]; /* lent to each event that may write */

    struct usb_pipe from_host, to_host;
    struct radio radio;
    int stalled; /* the host's next byte was refused: it waits for the radio */

    unsigned stalls, misfits; /* bytes refused with STALL, radio outcomes refused with PLACE */
};

/* Starts a board. Its antenna stands in this air. */
void board_power_up(struct board *b, struct air *air);

/* One turn of the board's main loop, in each millisecond. The time is that since its start. */
void board_ms(struct board *b, uint64_t now_us);

#endif
