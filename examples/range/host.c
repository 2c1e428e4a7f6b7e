/*
 * host.c: the host. It sends commands, reads the answers, and joins what the turntable says (TX_DONE) with
 * what the mast says (RX), shot by shot. The library's ledger gives each command its tag, and tells which
 * command an answer belongs to. The sweep itself is in range.c.
 */
#include "host.h"

#include <stdarg.h>
#include <stdio.h>
#include <string.h>

#define KEEP_MS      500 /* a host that has nothing to say sends a PING (P 14.2) */
#define FREQUENCY_HZ 868100000

/* LoRa, 868.1 MHz, SF 10, 125 kHz, 4/5, preamble 8, sync word 0x1424, 14 dBm, CRC: P 10.1. */
static const uint8_t configuration[] = {
    1, 0xA0, 0x27, 0xBE, 0x33, 10, 7, 0, 8, 0, 0x24, 0x14, POWER_DBM, 0, 1, 0,
};

void host_story(const struct host *h, const char *format, ...)
{
    va_list arguments;

    printf("# %3u.%03u s %3d deg  ", (unsigned)(h->ms / 1000), (unsigned)(h->ms % 1000), h->azimuth);
    va_start(arguments, format);
    vprintf(format, arguments);
    va_end(arguments);
    printf("\n");
}

/* A dongle has said what the protocol does not allow here. The check at the end fails by it. */
static void wrong(struct host *h, const struct cable *c, const char *what)
{
    h->wrong++;
    host_story(h, "WRONG: %s dongle: %s", c->name, what);
}

/* The oldest open command that waits for an answer, or for a report; or NULL. */
static struct line *oldest(struct cable *c, enum due due)
{
    struct line *found = NULL;

    for (struct line *line = c->lines; line < c->lines + DONGLORA_LEDGER_LINES; line++)
        if (line->turn != 0 && line->due == due && (found == NULL || line->turn < found->turn))
            found = line;
    return found;
}

size_t host_open(const struct cable *c)
{
    size_t open = 0;

    for (int i = 0; i < DONGLORA_LEDGER_LINES; i++)
        open += c->lines[i].turn != 0;
    return open;
}

void host_begin(struct cable *c)
{
    donglora_ledger_new(c->ledger);
}

/* A command that was sent after the session's end is still answered. What was open before is not. */
void host_connect(struct host *h, struct cable *c)
{
    host_wait_answers(h, c);
    donglora_ledger_connect(c->ledger);
    memset(c->lines, 0, sizeof c->lines);
}

/* Sends a command with the tag that the ledger gives it. The sweep keeps below the ledger's sixteen lines. */
static void send_command(struct host *h, struct cable *c, uint8_t type, const uint8_t *payload, size_t len)
{
    uint8_t frame[DONGLORA_FRAME_ROOM(DONGLORA_PAYLOAD_MAX)], line;
    uint16_t tag;
    size_t n;

    if (donglora_ledger_open(c->ledger, type, &tag, &line) != DONGLORA_TAKEN)
        give_up("too many commands are open");
    if (donglora_write_command(type, tag, payload, len, frame, sizeof frame, &n) != DONGLORA_TAKEN)
        give_up("the library refuses to write this command");
    c->lines[line] = (struct line){++c->turns, ANSWER, h->count};
    c->spoke_ms = h->ms;
    usb_put(c->to, frame, n);
}

void host_command(struct host *h, struct cable *c, uint8_t type)
{
    send_command(h, c, type, NULL, 0);
}

void host_set_config(struct host *h, struct cable *c)
{
    send_command(h, c, DONGLORA_SET_CONFIG, configuration, sizeof configuration);
}

/* The packet tells which shot it is, and from which azimuth. */
void host_tx(struct host *h)
{
    struct shot shot = {h->azimuth, ASKED, 0, 0, 0, 0};
    unsigned number = (unsigned)h->count, azimuth = (unsigned)h->azimuth;
    uint8_t payload[] = {0, (uint8_t)number, (uint8_t)(number >> 8), (uint8_t)azimuth,
                         (uint8_t)(azimuth >> 8)};

    if (h->count == SHOTS_MAX)
        give_up("too many shots");
    send_command(h, &h->table, DONGLORA_TX, payload, sizeof payload); /* flags 0: listen first */
    h->shots[h->count++] = shot;
    h->report_ms = h->ms;
}

/* Notes the fate of a shot, in its row too. */
static void befall(struct host *h, struct shot *shot, enum fate fate)
{
    shot->fate = fate;
    h->rows[shot->azimuth].fates[fate]++;
}

/* The session has ended: no TX that is open will be reported any more (P 14.2). host_connect frees them. */
static void lose_session(struct host *h, struct cable *c)
{
    int open = 0;

    for (struct line *line; (line = oldest(c, REPORT)) != NULL; open++) {
        befall(h, &h->shots[line->shot], UNREPORTED);
        line->due = NOTHING;
    }
    c->configured = 0;
    h->sessions++;
    host_story(h, "ERR(ENOTCONFIGURED): the session timed out; %d TX without a report, measured again", open);
}

/* What a dongle says of itself has to suit this range: queue, frequencies and power (P 6.2). */
static void read_info(const struct host *h, const struct cable *c, const uint8_t *info)
{
    host_story(h, "%s dongle: protocol %d.%d, ring of %u packets, queue of %u TX", c->name, info[0], info[1],
               u16_at(info + 21), u16_at(info + 23));
    if (info[0] != 1 || u16_at(info + 23) < SHOTS || FREQUENCY_HZ < u32_at(info + 25) ||
        FREQUENCY_HZ > u32_at(info + 29) || POWER_DBM > (int8_t)info[34])
        give_up("this dongle is not for this range");
}

/* Reads the OK to a command. */
static void read_ok(struct host *h, struct cable *c, uint8_t command, size_t shot, const uint8_t *payload)
{
    if (command == DONGLORA_GET_INFO) {
        read_info(h, c, payload);
    } else if (command == DONGLORA_SET_CONFIG) {
        c->configured = payload[0] == 0 && memcmp(payload + 2, configuration, sizeof configuration) == 0;
        if (oldest(c, REPORT) != NULL)
            wrong(h, c, "a SET_CONFIG is done, and a TX before it is not reported");
    } else if (command == DONGLORA_TX) {
        h->shots[shot].fate = ACCEPTED;
        h->accepted++;
    }
}

/* Reads the ERR to a command. */
static void read_err(struct host *h, struct cable *c, uint8_t command, size_t shot, unsigned code)
{
    if (code != DONGLORA_ENOTCONFIGURED) {
        wrong(h, c, "an ERR that this host gave no cause for");
        return;
    }
    if (command == DONGLORA_TX)
        befall(h, &h->shots[shot], UNREPORTED);
    if (c->configured)
        lose_session(h, c);
}

/* Reads the TX_DONE to a TX. */
static void read_tx_done(struct host *h, struct cable *c, size_t shot)
{
    static const enum fate fates[] = {TRANSMITTED, BUSY, CANCELLED};
    uint8_t body[DONGLORA_ENCODED_MAX];
    struct donglora_tx_done done = donglora_read_tx_done(c->run, c->run_len, body, sizeof body);
    enum fate fate = c->fault && done.result == 2 ? FAULTED : fates[done.result];

    befall(h, &h->shots[shot], fate);
    if (fate == FAULTED)
        host_story(h, "ERR(ERADIO): the radio failed; its TX was cancelled, measured again");
    if (fate == BUSY)
        host_story(h, "TX_DONE: the channel was busy; measured again");
    c->fault = 0;
    h->reports[done.result]++;
    h->report_ms = h->ms;
}

/*
 * Reads what fits an open command. The layout of its payload depends on the command. An OK or an ERR has to
 * answer the oldest command that waits for one, and a TX_DONE the oldest TX: so none is left out.
 */
static void read_answer(struct host *h, struct cable *c, const struct donglora_report *report)
{
    uint8_t body[DONGLORA_ENCODED_MAX];
    const uint8_t *payload = body + DONGLORA_PAYLOAD;
    struct donglora_message m = donglora_read_answer(report->command, c->run, c->run_len, body, sizeof body);
    struct line *line = &c->lines[report->line];

    if (m.number != DONGLORA_TAKEN)
        wrong(h, c, "an answer of the wrong form");
    else if (line != oldest(c, m.type == DONGLORA_TX_DONE ? REPORT : ANSWER))
        wrong(h, c, "an answer out of turn");
    else if (m.type == DONGLORA_OK)
        read_ok(h, c, report->command, line->shot, payload);
    else if (m.type == DONGLORA_ERR)
        read_err(h, c, report->command, line->shot, u16_at(payload));
    else
        read_tx_done(h, c, line->shot);
    if (report->closed)
        line->turn = 0;
    else
        line->due = REPORT; /* a TX that has its OK */
}

/* Reads an ERR that answers no command. After that of a radio's failure its TX is reported. */
static void read_alarm(struct host *h, struct cable *c)
{
    uint8_t body[DONGLORA_ENCODED_MAX];
    struct donglora_message m = donglora_read_answer(0, c->run, c->run_len, body, sizeof body);

    if (m.number == DONGLORA_TAKEN && u16_at(body + DONGLORA_PAYLOAD) == DONGLORA_ERADIO)
        c->fault = 1;
    else
        wrong(h, c, "an ERR that this host gave no cause for");
}

/* No open command waits for this: it comes late or twice, or is not for this host. It changes nothing. */
static void leave_aside(struct host *h, const struct cable *c, const struct donglora_message *m)
{
    const char *name = m->type == DONGLORA_OK ? "an OK" : m->type == DONGLORA_ERR ? "an ERR" :
                       m->type == DONGLORA_TX_DONE ? "a TX_DONE" : "a message";

    h->unexpected++;
    host_story(h, "%s dongle: %s with tag %u, which no open command waits for: unexpected; left aside",
               c->name, name, m->tag);
}

/* Reads an RX. The packet tells which shot it was; what the RX says is kept there, for settle. */
static void read_rx(struct host *h, struct cable *c)
{
    uint8_t body[DONGLORA_ENCODED_MAX];
    const uint8_t *packet = body + DONGLORA_RX_PACKET;
    struct donglora_rx rx = donglora_read_rx(c->run, c->run_len, body, sizeof body);
    size_t number = rx.packet_len == 4 ? u16_at(packet) : SHOTS_MAX;

    if (rx.number != DONGLORA_TAKEN || !rx.crc_valid || rx.origin != 0 || number >= h->count ||
        number < h->heard_end || (int)u16_at(packet + 2) != h->shots[number].azimuth) {
        wrong(h, c, "an RX of no shot, of one twice, or out of order");
        return;
    }
    h->shots[number].heard = 1;
    h->shots[number].rssi = rx.rssi;
    h->shots[number].snr = rx.snr;
    h->shots[number].dropped = rx.packets_dropped;
    h->heard_end = number + 1;
    h->read++;
    h->dropped += rx.packets_dropped;
}

/* Reads the run, which a zero has ended. The ledger tells from its type and tag which command it answers. */
static void read_run(struct host *h, struct cable *c)
{
    uint8_t body[DONGLORA_ENCODED_MAX];
    struct donglora_message m = {DONGLORA_LENGTH, 0, 0, 0};
    struct donglora_report report;

    if (c->run_len <= sizeof c->run)
        m = donglora_read_frame(c->run, c->run_len, body, sizeof body);
    if (m.number != DONGLORA_TAKEN) {
        wrong(h, c, "a frame that is damaged");
        return;
    }
    report = donglora_ledger_answer(c->ledger, m.type, m.tag);
    if (report.verdict == DONGLORA_FITS)
        read_answer(h, c, &report);
    else if (report.verdict == DONGLORA_UNEXPECTED)
        leave_aside(h, c, &m);
    else if (m.type == DONGLORA_RX)
        read_rx(h, c);
    else
        read_alarm(h, c);
}

/*
 * Takes the bytes that have come, cuts them at their zeros, and sends a PING where it has been quiet. Where
 * all lines are open the PING waits.
 */
static void attend(struct host *h, struct cable *c)
{
    for (const uint8_t *byte; (byte = usb_next(c->from)) != NULL; usb_drop(c->from)) {
        if (*byte != 0) {
            if (c->run_len < sizeof c->run)
                c->run[c->run_len] = *byte;
            c->run_len++;
            continue;
        }
        if (c->run_len > 0)
            read_run(h, c);
        c->run_len = 0;
    }
    if (h->ms >= c->silent_until_ms && h->ms - c->spoke_ms >= KEEP_MS &&
        host_open(c) < DONGLORA_LEDGER_LINES)
        host_command(h, c, DONGLORA_PING);
}

/* A shot was heard. Its RX tells how many before it were dropped. Its level goes to its row. */
static void settle_heard(struct host *h, const struct shot *shot)
{
    struct row *row = &h->rows[shot->azimuth];

    if (shot->dropped != h->losing)
        wrong(h, &h->mast, "a count of dropped packets that is not that of the shots that did not come");
    if (h->losing > 0)
        host_story(h, "RX: %u packets were dropped by the full ring, all from %d to %d deg; to be measured again",
                   h->losing, h->losing_from, h->losing_to);
    h->losing = 0;
    if (shot->fate == TRANSMITTED) {
        row->count++;
        row->level_sum += shot->rssi;
        row->snr_sum += shot->snr;
    } else if (shot->fate == UNREPORTED) {
        host_story(h, "RX: a packet whose TX has no report; not used");
    } else {
        wrong(h, &h->mast, "an RX of a shot that was not transmitted");
    }
}

/*
 * Joins what the two dongles say, shot by shot, in the order of the TX: a shot that was reported as
 * transmitted and did not come, though a later one did, was lost.
 */
static void settle(struct host *h)
{
    while (h->settled < h->heard_end && h->shots[h->settled].fate > ACCEPTED) {
        struct shot *shot = &h->shots[h->settled++];

        if (shot->heard) {
            settle_heard(h, shot);
        } else if (shot->fate == TRANSMITTED) {
            befall(h, shot, LOST);
            h->losing_from = h->losing++ == 0 ? shot->azimuth : h->losing_from;
            h->losing_to = shot->azimuth;
        }
    }
}

void host_turn(struct host *h, int azimuth)
{
    h->azimuth = azimuth;
    h->turn(h->site, azimuth);
}

void host_rest(struct host *h, int ms)
{
    for (; ms > 0; ms--) {
        h->pass_ms(h->site);
        h->ms++;
        attend(h, &h->table);
        attend(h, &h->mast);
        settle(h);
    }
}

void host_wait_answers(struct host *h, struct cable *c)
{
    for (uint64_t start = h->ms; oldest(c, ANSWER) != NULL; host_rest(h, 1))
        if (h->ms - start > ANSWER_MS)
            give_up("no answer");
}

/* A mean, in tenths. */
static int mean(int sum, int count)
{
    return count == 0 ? 0 : (int)rounded(sum, count);
}

int host_level(const struct row *row)
{
    return mean(row->level_sum, row->count);
}

int host_snr(const struct row *row)
{
    return mean(row->snr_sum, row->count);
}
