/*
 * range: an antenna range, simulated. One dongle stands on a turntable with the antenna and sends,
 * one on a mast receives, and a host drives both and writes the antenna's pattern.
 *
 *   range            prints the faults of a sweep, and then its pattern table
 *   range PLOT.svg   also writes the pattern to that file, as a polar plot
 *
 * Both dongles are the library, called as a board's main loop calls it. The host has their bytes and
 * nothing else. Things go wrong on the way: a SET_CONFIG falls into the sweep, an answer arrives twice,
 * the radio fails, a channel is busy, the mast's ring runs full, a session times out. At the end the table
 * is compared with the pattern that was put in; the last line tells the result, and so does the exit status.
 *
 * Here are the sweep, what goes wrong, and the check. The rest is in the folder range:
 *   board    a dongle: the library and its main loop. Copy from here for a board of your own.
 *   radio    its radio chip, simulated
 *   usb      the bytes between a dongle and the host, simulated
 *   air      the antenna, and the air
 *   host     commands, answers, and how TX_DONE and RX are joined
 *   plot     the table and the plot
 *   common   what all of them share
 */
// Build: cc -std=c99 -Iinclude examples/range.c examples/range/*.c target/staticlib/libdonglora.a -o target/range
#include "range/air.h"
#include "range/board.h"
#include "range/common.h"
#include "range/host.h"
#include "range/plot.h"

#include <stdio.h>
#include <stdlib.h>

/* Where what goes wrong does so, in degrees. */
#define CONFIG_AT 20  /* a SET_CONFIG falls into the sweep, on the flank of the main lobe */
#define TWICE_AT  65  /* the cable from the turntable doubles a TX_DONE */
#define FAULT_AT  115 /* the radio on the turntable fails */
#define HELD_FROM 170 /* the USB of the mast holds bytes back from here */
#define HELD_TO   183 /* until here */
#define SILENT_AT 250 /* the host falls silent towards the turntable */
#define BUSY_AT   325 /* somebody else is on the channel */

#define SILENT_MS 1300 /* how long the host falls silent; 1000 end the session */

/*
 * How many bytes are held back. While any are left the mast gives out no packet, and its ring runs full. The
 * OKs to the host's PINGs come late, but before sixteen PINGs are open.
 */
#define HELD_BYTES 64

/* ---- The sweep: what the host does. It has nothing but the host in its hands. ---- */

/* Has a dongle set up its radio. */
static void configure(struct host *h, struct cable *c)
{
    host_set_config(h, c);
    host_wait_answers(h, c);
    if (!c->configured)
        give_up("a dongle is not configured");
}

/* A SET_CONFIG falls into the sweep while a TX is on air and others wait. The PING behind it stalls. */
static void config_falls_in(struct host *h)
{
    unsigned sent, cancelled;

    host_rest(h, 300);
    sent = h->reports[0];
    cancelled = h->reports[2];
    host_set_config(h, &h->table);
    host_command(h, &h->table, DONGLORA_PING);
    host_wait_answers(h, &h->table);
    host_story(h, "SET_CONFIG: %u TX on air was transmitted, %u that waited were cancelled; measured again",
               h->reports[0] - sent, h->reports[2] - cancelled);
}

/* From here on the host sends the turntable nothing for a while, not even a PING. */
static void fall_silent(struct host *h)
{
    h->table.silent_until_ms = h->ms + SILENT_MS;
    host_story(h, "the host falls silent for %d ms towards the turntable", SILENT_MS);
}

/* Waits until all TX are reported. If no report comes, a command asks whether the session still stands. */
static void wait_reports(struct host *h)
{
    for (int asked = 0; host_open(&h->table) > 0;) {
        host_rest(h, 1);
        if (h->ms - h->report_ms > ANSWER_MS) {
            if (asked++ == 2)
                give_up("the session stands, and a TX is not reported");
            host_command(h, &h->table, DONGLORA_RX_STOP); /* where it stands, this changes nothing */
            h->report_ms = h->ms;
        }
        if (!h->table.configured) {
            host_connect(h, &h->table);
            configure(h, &h->table);
        }
    }
}

/* Turns the table, and sends shots from there until so many are reported as transmitted. */
static void shoot(struct host *h, int azimuth, int wanted)
{
    host_turn(h, azimuth);
    for (int round = 0; wanted > 0; round++) {
        size_t first = h->count;

        host_rest(h, 50 * (round + 1)); /* the table comes to rest; a busy channel gets more time each round */
        for (int i = 0; i < wanted; i++)
            host_tx(h);
        if (azimuth == CONFIG_AT && round == 0)
            config_falls_in(h);
        if (azimuth == SILENT_AT && round == 0)
            fall_silent(h);
        wait_reports(h);
        for (size_t i = first; i < h->count; i++)
            wanted -= h->shots[i].fate == TRANSMITTED;
    }
}

/* The whole job: connect, sweep, measure again what the ring lost, stop. */
static void sweep(struct host *h)
{
    struct cable *cables[] = {&h->table, &h->mast};

    for (int i = 0; i < 2; i++) {
        host_begin(cables[i]);
        host_command(h, cables[i], DONGLORA_GET_INFO);
        host_wait_answers(h, cables[i]);
        configure(h, cables[i]);
    }
    host_command(h, &h->mast, DONGLORA_RX_START);
    host_wait_answers(h, &h->mast);
    for (int azimuth = 0; azimuth < ANGLES; azimuth++)
        shoot(h, azimuth, SHOTS);
    host_rest(h, 200); /* the last RX come */
    for (int azimuth = 0; azimuth < ANGLES; azimuth++)
        if (h->rows[azimuth].count < SHOTS)
            shoot(h, azimuth, SHOTS - h->rows[azimuth].count);
    host_rest(h, 200);
    host_command(h, &h->mast, DONGLORA_RX_STOP);
    host_wait_answers(h, &h->mast);
    host_wait_answers(h, &h->table);
}

/* ---- The range: both dongles, the air, and what goes wrong there ---- */

struct range {
    struct air air;
    struct board table, mast;
    int doubled, faulted, jammed, let_go; /* what went wrong once does not again */
};

/* What goes wrong on the range itself, by where the turntable stands. */
static void range_mishaps(struct range *r)
{
    struct air *air = &r->air;
    struct radio *radio = &r->table.radio;

    /* The report of the third packet arrives twice. */
    if (air->azimuth == TWICE_AT && air->here == 2 && !r->doubled && radio->doing == SENDING &&
        air->now_us >= radio->until_us) {
        r->doubled = 1;
        r->table.to_host.twice = 1;
    }
    /* The third packet fails when half of it is on air. */
    if (air->azimuth == FAULT_AT && air->here == 2 && !r->faulted && radio->doing == SENDING &&
        radio->until_us - air->now_us < radio_airtime_us(radio) / 2) {
        r->faulted = 1;
        radio_break(radio);
    }
    air->busy = air->azimuth == BUSY_AT && air->here == 3 && !r->jammed;
    if (air->busy && radio->doing == LISTENING && air->now_us >= radio->until_us)
        r->jammed = 1;
    r->let_go |= air->azimuth >= HELD_TO;
    r->mast.to_host.held = air->azimuth >= HELD_FROM && !r->let_go ? HELD_BYTES : 0;
}

/* The host's clock: a millisecond passes. The mast comes second: it hears what the turntable has just sent. */
static void range_ms(void *site)
{
    struct range *r = site;

    r->air.now_us += 1000;
    range_mishaps(r);
    board_ms(&r->table, r->air.now_us);
    board_ms(&r->mast, r->air.now_us);
    r->air.ended = NULL;
}

/* The turntable's motor. */
static void range_turn(void *site, int azimuth)
{
    struct range *r = site;

    r->air.azimuth = azimuth;
    r->air.here = 0;
}

/* Both boards start, and the host is given its cables, its clock and its motor. */
static void range_start(struct range *r, struct host *h)
{
    r->air.seed = 20250101;
    board_power_up(&r->table, &r->air);
    board_power_up(&r->mast, &r->air);
    h->site = r;
    h->pass_ms = range_ms;
    h->turn = range_turn;
    h->table = (struct cable){.name = "turntable", .to = &r->table.from_host, .from = &r->table.to_host};
    h->mast = (struct cable){.name = "mast", .to = &r->mast.from_host, .from = &r->mast.to_host};
}

/* ---- The check: what the host wrote, against what was put in ---- */

static unsigned failed;

/* One fact that has to hold; `at` tells where it does not. */
static void check(int holds, const char *what, size_t at)
{
    if (!holds && failed++ < 20)
        printf("range: FAILED: %s (%zu)\n", what, at);
}

/* Whether a level fits the pattern that was put in: a mean is no further off than a single packet can be. */
static int fits(const struct row *row, int azimuth)
{
    return abs(host_level(row) - air_level(azimuth, POWER_DBM)) <= LEVEL_NOISE;
}

/* Each row has all its shots, and the level and the snr that were put in at its angle. */
static void check_rows(const struct host *h)
{
    for (int azimuth = 0; azimuth < ANGLES; azimuth++) {
        const struct row *row = &h->rows[azimuth];
        int snr = air_snr(air_level(azimuth, POWER_DBM));

        check(row->count == SHOTS, "a row has all its shots", (size_t)azimuth);
        check(fits(row, azimuth), "a level is the one put in at its angle", (size_t)azimuth);
        check(abs(host_snr(row) - snr) <= LEVEL_NOISE + SNR_NOISE,
              "an snr is the one put in at its angle", (size_t)azimuth);
    }
}

/* Over how many rows on end the table would fit the pattern too if it were shifted by one step, at the most. */
static int longest_fit(const struct host *h, int shift)
{
    int longest = 0;

    for (int i = 0, on_end = 0; i < 2 * ANGLES; i++) { /* twice round: a stretch may go across 0 */
        on_end = fits(&h->rows[(i + shift + ANGLES) % ANGLES], i % ANGLES) ? on_end + 1 : 0;
        longest = on_end > longest ? on_end : longest;
    }
    return longest;
}

/* Each packet that went over the air, against the host's list of shots. */
static void check_packets(const struct host *h, const struct range *r)
{
    unsigned received = 0, lost = 0, unreported = 0;

    for (size_t i = 0, end = 0; i < r->air.count; i++) {
        const struct carried *c = &r->air.carried[i];
        size_t number = u16_at(c->packet);
        const struct shot *shot = &h->shots[number % SHOTS_MAX];

        check(number >= end && number < h->count, "packets go on air in the order of the TX, none twice", i);
        check(c->azimuth == shot->azimuth, "the turntable stands where the host has it", number);
        check(shot->fate == TRANSMITTED || shot->fate == LOST || shot->fate == UNREPORTED,
              "what went on air is reported so", number);
        check(c->received == shot->heard + (shot->fate == LOST), "what the mast took is read or lost", number);
        check(!shot->heard || (shot->rssi == c->rssi && shot->snr == c->snr), "a level is as heard", number);
        end = number + 1;
        received += (unsigned)c->received;
        lost += shot->fate == LOST;
        unreported += shot->fate == UNREPORTED;
    }
    check(h->reports[0] + unreported == r->air.count, "as many are reported transmitted as were", 0);
    check(h->dropped == received - h->read, "the drop counts make up for what was not read", h->dropped);
    check(h->dropped == lost, "each dropped packet is known by its number", lost);
}

/* Each accepted TX was reported once, or its session ended. All that was to go wrong did. */
static void check_story(const struct host *h, const struct range *r)
{
    unsigned fates[FATES] = {0};

    for (size_t i = 0; i < h->count; i++)
        fates[h->shots[i].fate]++;
    check(h->wrong == 0, "the dongles said nothing wrong", h->wrong);
    check(host_open(&h->table) + host_open(&h->mast) == 0, "no command stays open", host_open(&h->table));
    check((h->table.ledger[0] | h->mast.ledger[0]) >> 16 == 0, "nor does the ledger have one open", 0);
    check(h->accepted == h->count, "each TX was accepted", h->accepted);
    check(h->reports[0] + h->reports[1] + h->reports[2] + fates[UNREPORTED] == h->accepted,
          "each accepted TX is reported once, or its session ended", fates[UNREPORTED]);
    check(r->table.misfits + r->mast.misfits == 0, "radios and library agree", r->table.misfits);
    check(fates[CANCELLED] > 0 && r->table.stalls > 0, "a SET_CONFIG fell in", fates[CANCELLED]);
    check(h->unexpected == 1 && r->doubled, "one answer was unexpected: the doubled one", h->unexpected);
    check(fates[FAULTED] == 1 && fates[BUSY] == 1, "the radio failed, and the channel was busy", fates[BUSY]);
    check(h->dropped > 0, "the ring ran full", h->dropped);
    check(h->sessions == 1 && fates[UNREPORTED] > 0, "a session timed out", h->sessions);
}

/* Checks all, and says so in the last line. */
static int check_all(const struct host *h, const struct range *r)
{
    int ahead = longest_fit(h, 1), behind = longest_fit(h, -1);

    check_rows(h);
    check_packets(h, r);
    check_story(h, r);
    check(ahead < 20 && behind < 20, "a shift by one step would be seen", 0);
    printf("# shifted by one step, this table would fit the pattern over %d rows on end at the most\n",
           ahead > behind ? ahead : behind);
    printf("range: %d angles, %zu TX: %u transmitted, %u busy, %u cancelled, %u without a report; ", ANGLES,
           h->count, h->reports[0], h->reports[1], h->reports[2],
           h->accepted - h->reports[0] - h->reports[1] - h->reports[2]);
    printf("%u lost in the ring and measured again: ", h->dropped);
    if (failed > 0)
        printf("%u checks failed\n", failed);
    else
        printf("all levels at their angles, every loss accounted for\n");
    return failed > 0 ? EXIT_FAILURE : EXIT_SUCCESS;
}

int main(int argc, char **argv)
{
    static struct range range;
    static struct host host;
    int status;

    if (argc > 2 || (argc == 2 && argv[1][0] == '-')) {
        fprintf(stderr, "usage: range [PLOT.svg]\n");
        return 2;
    }
    range_start(&range, &host);
    sweep(&host);
    plot_table(&host);
    if (argc == 2)
        plot_svg(&host, argv[1]);
    status = check_all(&host, &range);
    if (fflush(stdout) != 0) {
        perror("range: standard output");
        return EXIT_FAILURE;
    }
    return status;
}
