/*
 * capture: how a C program reads and writes DongLoRa frames with libdonglora.a.
 *
 *   capture < FILE        counts the good and the damaged frames of a capture
 *   capture --ping TAG    writes a PING frame with that tag (one to four hex digits, not zero)
 *
 * Build: cc -std=c99 -Iinclude examples/capture.c target/staticlib/libdonglora.a -o capture
 */
#include "donglora.h"

#include <stdio.h>
#include <stdlib.h>
#include <string.h>

/* A body is a type (1 byte), a tag (2), a payload and a check value (2). */
#define BODY_MIN  5
#define TYPE_PING 0x01

/* What is kept of a capture. Its size is fixed, however long the capture is. */
struct capture {
    uint8_t run[DONGLORA_ENCODED_MAX]; /* the bytes since the last zero, as far as they fit */
    unsigned long long len;            /* how many bytes there were since the last zero */
    unsigned long long good;
    unsigned long long damaged;
};

/* Whether the run is a good frame. */
static int is_good(const struct capture *c)
{
    /* Decoding asks for as much room as its source has bytes, though it writes fewer. */
    uint8_t body[DONGLORA_ENCODED_MAX];
    size_t n;

    if (c->len > sizeof c->run)
        return 0; /* no frame is that long, and the run was not kept whole */
    if (donglora_cobs_decode(c->run, (size_t)c->len, body, sizeof body, &n) != DONGLORA_TAKEN)
        return 0; /* no COBS encoding; nothing was written to body and n */
    if (n < BODY_MIN || n > DONGLORA_BODY_MAX)
        return 0; /* the longest runs can decode to 281 bytes, one too many for a body */

    /* The last two bytes are the check value of all before them, low byte first. */
    return donglora_crc16(body, n - 2) == (body[n - 2] | body[n - 1] << 8);
}

/* Takes the next byte of the capture. */
static void take(struct capture *c, uint8_t byte)
{
    if (byte != 0) {
        if (c->len < sizeof c->run)
            c->run[c->len] = byte;
        c->len++;
        return;
    }
    /* A zero ends the run. An empty run is no frame. */
    if (c->len > 0 && is_good(c))
        c->good++;
    else if (c->len > 0)
        c->damaged++;
    c->len = 0;
}

/* Counts the frames that come from standard input. */
static int count_frames(void)
{
    struct capture c = {{0}, 0, 0, 0};
    uint8_t block[4096];
    size_t got;

    while ((got = fread(block, 1, sizeof block, stdin)) > 0)
        for (size_t i = 0; i < got; i++)
            take(&c, block[i]);
    if (ferror(stdin)) {
        perror("capture: standard input");
        return EXIT_FAILURE;
    }
    /* What stands after the last zero is not finished, so it is no frame yet. */
    printf("good %llu\ndamaged %llu\ntail %llu\n", c.good, c.damaged, c.len);
    return EXIT_SUCCESS;
}

/* Writes the PING frame with this tag: build the body, encode it, end it with a zero. */
static int write_ping(uint16_t tag)
{
    /* Numbers go low byte first. A PING has no payload. */
    uint8_t body[BODY_MIN] = {TYPE_PING, (uint8_t)(tag & 0xFF), (uint8_t)(tag >> 8), 0, 0};
    uint8_t frame[DONGLORA_ENCODED_ROOM(sizeof body) + 1]; /* one more for the zero */
    uint16_t check = donglora_crc16(body, 3);
    size_t n;

    body[3] = (uint8_t)(check & 0xFF);
    body[4] = (uint8_t)(check >> 8);

    /* This is not refused: the body is short, and there is room for its longest encoding. */
    if (donglora_cobs_encode(body, sizeof body, frame, sizeof frame - 1, &n) != DONGLORA_TAKEN)
        return EXIT_FAILURE;
    frame[n++] = 0;
    return fwrite(frame, 1, n, stdout) == n ? EXIT_SUCCESS : EXIT_FAILURE;
}

/* Reads one to four hex digits. Commands never have tag zero, so zero says that text is no tag. */
static uint16_t read_tag(const char *text)
{
    size_t len = strlen(text);

    if (len > 4 || strspn(text, "0123456789ABCDEFabcdef") != len)
        return 0;
    return (uint16_t)strtoul(text, NULL, 16);
}

int main(int argc, char **argv)
{
    uint16_t tag = argc == 3 && strcmp(argv[1], "--ping") == 0 ? read_tag(argv[2]) : 0;
    int status;

    if (argc != 1 && tag == 0) {
        fprintf(stderr, "usage: capture < FILE\n       capture --ping TAG\n");
        return 2;
    }
    status = argc == 1 ? count_frames() : write_ping(tag);
    if (fflush(stdout) != 0) {
        perror("capture: standard output");
        return EXIT_FAILURE;
    }
    return status;
}
