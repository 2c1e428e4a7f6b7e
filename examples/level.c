/*
 * level: how a C program reads levels from a DongLoRa dongle, and has a packet sent.
 *
 *   level < FILE         prints each RX and each TX_DONE of what a dongle sent
 *   level --tx TAG HEX   writes a TX frame with that tag (one to four hex digits, not zero), and
 *                        these bytes as its packet (pairs of hex digits)
 *
 * Build: cc -std=c99 -Iinclude examples/level.c target/staticlib/libdonglora.a -o level
 */
#include "donglora.h"

#include <inttypes.h>
#include <stdio.h>
#include <stdlib.h>
#include <string.h>

/* What is kept of the input. Its size is fixed, however long the input is. */
struct input {
    uint8_t run[DONGLORA_ENCODED_MAX]; /* the bytes since the last zero, as far as they fit */
    unsigned long long len;            /* how many bytes there were since the last zero */
    unsigned long long rx, lost, tx_done, other, wrong, damaged;
};

static void print_rx(const struct donglora_rx *rx, const uint8_t *packet)
{
    /* What the device itself sent was not measured: its zeros are no level. Tenths are divided as
       floating numbers, since -5 / 10 is 0 in whole ones. */
    if (rx->origin == 0)
        printf("RX %10.1f %7.1f %12" PRId32, rx->rssi / 10.0, rx->snr / 10.0, rx->freq_err);
    else
        printf("RX %10s %7s %12s", "-", "-", "-");
    printf(" %14" PRIu64 ".%06" PRIu64, rx->timestamp_us / 1000000, rx->timestamp_us % 1000000);
    /* Lost packets are levels that this table lacks. With a bad CRC snr and freq_err may mean nothing. */
    printf(" %5u %5s", (unsigned)rx->packets_dropped, rx->crc_valid ? "good" : "bad");
    for (size_t i = 0; i < rx->packet_len; i++)
        printf(i == 0 ? "  %02X" : "%02X", (unsigned)packet[i]);
    printf("\n");
}

static void print_tx_done(const struct donglora_tx_done *done)
{
    static const char *const results[] = {"transmitted", "channel busy", "cancelled"};

    /* No other result is ever taken, so the index is safe. */
    printf("TX_DONE %04X %s, %" PRIu32 " us on air\n", (unsigned)done->tag, results[done->result], done->airtime_us);
}

/* Reads the run, which a zero has ended. */
static void read_run(struct input *in)
{
    /* Reading asks for as much room as the run has bytes, though the body is shorter. */
    uint8_t body[DONGLORA_ENCODED_MAX];
    struct donglora_rx rx;
    struct donglora_tx_done done;
    uint8_t number;

    if (in->len > sizeof in->run) {
        in->damaged++; /* no frame is that long, and the run was not kept whole */
        return;
    }
    /* Look at the number first. Where it is not TAKEN, all other fields are 0, and so no level. */
    rx = donglora_read_rx(in->run, (size_t)in->len, body, sizeof body);
    number = rx.number;
    if (number == DONGLORA_TAKEN) {
        print_rx(&rx, body + DONGLORA_RX_PACKET);
        in->rx++;
        in->lost += rx.packets_dropped;
    } else if (number == DONGLORA_TYPE) {
        /* A good frame, but no RX. */
        done = donglora_read_tx_done(in->run, (size_t)in->len, body, sizeof body);
        number = done.number;
        if (number == DONGLORA_TAKEN) {
            print_tx_done(&done);
            in->tx_done++;
        }
    }
    if (number == DONGLORA_TYPE)
        in->other++; /* an answer to a command, or a type of a later protocol */
    else if (number == DONGLORA_TAG || number == DONGLORA_FORM)
        in->wrong++; /* it came as it was sent, but the protocol has no such message */
    else if (number != DONGLORA_TAKEN)
        in->damaged++;
}

/* Takes the next byte. A zero ends the run. An empty run is no frame. */
static void take(struct input *in, uint8_t byte)
{
    if (byte != 0) {
        if (in->len < sizeof in->run)
            in->run[in->len] = byte;
        in->len++;
        return;
    }
    if (in->len > 0)
        read_run(in);
    in->len = 0;
}

/* Reads standard input to its end. */
static int print_levels(void)
{
    struct input in = {{0}, 0, 0, 0, 0, 0, 0, 0};
    int byte;

    printf("%13s %7s %12s %21s %5s %5s  packet\n", "level/dBm", "snr/dB", "freq_err/Hz", "time/s", "lost", "crc");
    while ((byte = getchar()) != EOF)
        take(&in, (uint8_t)byte);
    if (ferror(stdin)) {
        perror("level: standard input");
        return EXIT_FAILURE;
    }
    printf("%llu RX, %llu lost, %llu TX_DONE, %llu other, %llu wrong, %llu damaged, tail %llu\n", in.rx, in.lost,
           in.tx_done, in.other, in.wrong, in.damaged, in.len);
    return EXIT_SUCCESS;
}

static int usage(void)
{
    fprintf(stderr, "usage: level < FILE\n       level --tx TAG HEX\n");
    return 2;
}

static int is_hex(const char *text)
{
    return strspn(text, "0123456789ABCDEFabcdef") == strlen(text);
}

/* Writes a TX frame to standard output. */
static int write_tx(const char *tag, const char *packet)
{
    uint8_t payload[DONGLORA_PAYLOAD_MAX] = {0}; /* flags 0: the device listens before it sends */
    uint8_t frame[DONGLORA_FRAME_ROOM(sizeof payload)];
    size_t packet_len = strlen(packet) / 2;
    uint8_t number;
    size_t n;

    if (!is_hex(tag) || strlen(tag) > 4 || !is_hex(packet) || strlen(packet) % 2 != 0 || packet_len >= sizeof payload)
        return usage();
    for (size_t i = 0; i < packet_len; i++) {
        char pair[3] = {packet[2 * i], packet[2 * i + 1], 0};
        payload[1 + i] = (uint8_t)strtoul(pair, NULL, 16);
    }
    /* The library knows what a TX may be. It refuses tag 0, and a packet outside 1 to 255 bytes. */
    number = donglora_write_command(DONGLORA_TX, (uint16_t)strtoul(tag, NULL, 16), payload, 1 + packet_len, frame,
                                    sizeof frame, &n);
    if (number != DONGLORA_TAKEN) {
        fprintf(stderr, "level: this TX is refused with number %u\n", (unsigned)number);
        return EXIT_FAILURE;
    }
    return fwrite(frame, 1, n, stdout) == n ? EXIT_SUCCESS : EXIT_FAILURE;
}

int main(int argc, char **argv)
{
    int status;

    if (argc == 1)
        status = print_levels();
    else if (argc == 4 && strcmp(argv[1], "--tx") == 0)
        status = write_tx(argv[2], argv[3]);
    else
        status = usage();
    if (fflush(stdout) != 0) {
        perror("level: standard output");
        return EXIT_FAILURE;
    }
    return status;
}
