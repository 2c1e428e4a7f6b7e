/*
 * host.h: the host. It drives both dongles, and has a row for each angle at the end.
 *
 * It includes neither board.h, radio.h nor air.h: so it has two streams of bytes to each dongle, a clock and
 * the motor, and cannot look at anything else.
 */
#ifndef RANGE_HOST_H
#define RANGE_HOST_H

#include "common.h"
#include "donglora.h"
#include "usb.h"

#define ANSWER_MS 2000 /* an answer that has not come by then is missing (P 14.2) */
#define POWER_DBM 14   /* what the turntable sends with */

/* What became of a shot. From LOST on it is measured again. */
enum fate { ASKED, ACCEPTED, TRANSMITTED, LOST, BUSY, CANCELLED, FAULTED, UNREPORTED, FATES };

/* A packet that the host had sent: one TX. Its number is its place in the list, and stands in the packet. */
struct shot {
    int azimuth;
    enum fate fate;
    int heard; /* the mast's RX of it has come, and said: */
    int16_t rssi, snr;
    unsigned dropped;
};

/* What an open command waits for: an OK or an ERR, a TX_DONE, or nothing since its session has ended. */
enum due { ANSWER, REPORT, NOTHING };

/* What the host keeps beside an open command. */
struct line {
    unsigned turn; /* which command to this dongle it is, from 1 on; 0 where none is open here */
    enum due due;
    size_t shot; /* which shot a TX is */
};

/* The host's end of the cable to one dongle. */
struct cable {
    const char *name;
    struct usb_pipe *to, *from;
    uint8_t run[DONGLORA_ENCODED_MAX]; /* the bytes since the last zero, as far as they fit */
    size_t run_len;
    uint32_t ledger[DONGLORA_LEDGER_WORDS];   /* the library's: which tags are open, and of which commands */
    struct line lines[DONGLORA_LEDGER_LINES]; /* the host's own, one for each line of the ledger */
    unsigned turns;                           /* how many commands were sent */
    uint64_t spoke_ms, silent_until_ms;
    int configured, fault;
};

/* A row of the table: so many shots, and the sums of what they gave. */
struct row {
    int count, level_sum, snr_sum;
    int fates[FATES]; /* how many shots met each fate */
};

/* The host. Whoever makes one fills in the first three, and the name and the pipes of each cable. */
struct host {
    void *site;                            /* handed to these two: */
    void (*pass_ms)(void *site);           /* the clock: a millisecond passes */
    void (*turn)(void *site, int azimuth); /* the turntable's motor */
    struct cable table, mast;

    uint64_t ms, report_ms; /* the time, and when the last TX or TX_DONE was */
    int azimuth;
    struct shot shots[SHOTS_MAX];
    size_t count, heard_end, settled; /* shots; up to the last that was heard; whose fate is known for good */
    unsigned losing;                  /* shots found lost since the last that was heard */
    int losing_from, losing_to;       /* where they were */
    struct row rows[ANGLES];
    unsigned accepted, reports[3]; /* TX with an OK; TX_DONE by their result */
    unsigned read, dropped;        /* RX, and the sum of their drop counts */
    unsigned sessions, wrong;      /* sessions that timed out; what the protocol does not allow */
    unsigned unexpected;           /* answers that no open command waited for */
};

/* Tells what befell the sweep: one line of output. */
void host_story(const struct host *h, const char *format, ...);

/* Begins with a dongle: no command is open, and the first tag will be 1. */
void host_begin(struct cable *c);

/* Begins again after the end of a session. Waits for what is still answered; then no command is open. */
void host_connect(struct host *h, struct cable *c);

/* How many commands to a dongle are open. */
size_t host_open(const struct cable *c);

/* Sends a command that has no payload. */
void host_command(struct host *h, struct cable *c, uint8_t type);

/* Sends the SET_CONFIG of this range. */
void host_set_config(struct host *h, struct cable *c);

/* Sends a TX to the turntable: the next shot. */
void host_tx(struct host *h);

/* Turns the table. */
void host_turn(struct host *h, int azimuth);

/* Waits so long, and attends to both dongles in each millisecond. */
void host_rest(struct host *h, int ms);

/* Waits until all commands to a dongle are answered. */
void host_wait_answers(struct host *h, struct cable *c);

/* The level of a row, in tenths of dBm: the mean of its shots. */
int host_level(const struct row *row);

/* The snr of a row, in tenths of dB. */
int host_snr(const struct row *row);

#endif
