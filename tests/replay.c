/*
 * Replays scripts of device events through the C functions, and writes the trace of the answers: from
 * standard input, or from the files that the arguments name, each from power-up on, where - is
 * standard input. docs/USING.md, "A replay of events", has the format. The trace is, byte for byte, that
 * of the proved program replay.
 */
#include "donglora.h"

#include <errno.h>
#include <inttypes.h>
#include <stdio.h>
#include <stdlib.h>
#include <string.h>

/* The longest line that is kept, where blanks after a blank and a comment's text do not count. */
#define LINE 600000
/* A byte takes three characters of its line. */
#define BYTES (LINE / 3)
/* More output than this is not lent: no event tells the difference. */
#define ROOM_MAX 4096

enum kind {
    NOTHING, /* a blank line, or a comment */
    BYTE,
    TICK,
    CLEAR,
    BUSY,
    SENT,
    CONFIGURED,
    FAULT,
    PACKET,
    REQUEST,
    DISCONNECT,
    ROOM,
    BAD
};

/* What a line says. */
struct item {
    enum kind kind;
    uint64_t n;                  /* TICK, ROOM: how many; SENT: the airtime */
    struct donglora_packet_status status; /* PACKET */
    size_t len;                  /* BYTE, PACKET: how many of `bytes` the line has */
};

/* What is left of a line. */
struct text {
    const char *at;
    size_t len;
};

/* The dongle. */
static uint64_t control[DONGLORA_CONTROL];
static uint8_t run[DONGLORA_RUN];
static uint8_t commands[DONGLORA_COMMANDS];
static uint8_t packets[DONGLORA_PACKETS];

/* What is lent to it, and how far the script has come. */
static uint8_t out[ROOM_MAX];
static size_t room;
static uint64_t events;

/* The line, and its bytes. */
static char line[LINE];
static uint8_t bytes[BYTES];

/* ---- A line is read. ---- */

static int is_blank(char c)
{
    return c == ' ' || c == '\t';
}

/* The next word, of length 0 if there is none. It is taken off the text. */
static struct text next(struct text *rest)
{
    struct text word;
    while (rest->len > 0 && is_blank(*rest->at)) {
        rest->at++;
        rest->len--;
    }
    word.at = rest->at;
    word.len = 0;
    while (word.len < rest->len && !is_blank(word.at[word.len]))
        word.len++;
    rest->at += word.len;
    rest->len -= word.len;
    return word;
}

static int is(struct text word, const char *name)
{
    return word.len == strlen(name) && memcmp(word.at, name, word.len) == 0;
}

/* Whether a word is a decimal number up to `most`, which goes to *n. */
static int decimal(struct text word, uint64_t most, uint64_t *n)
{
    size_t i;
    *n = 0;
    for (i = 0; i < word.len; i++) {
        uint64_t digit = (uint64_t)(word.at[i] - '0');
        if (word.at[i] < '0' || word.at[i] > '9')
            return 0;
        if (*n > most / 10 || digit > most - *n * 10)
            return 0;
        *n = *n * 10 + digit;
    }
    return word.len > 0;
}

/* Whether a word is a decimal number from -half to half - 1, which goes to *n. */
static int signed_decimal(struct text word, int64_t half, int64_t *n)
{
    uint64_t size;
    int minus = word.len > 0 && *word.at == '-';
    if (minus) {
        word.at++;
        word.len--;
    }
    if (!decimal(word, (uint64_t)(minus ? half : half - 1), &size))
        return 0;
    *n = minus ? -(int64_t)size : (int64_t)size;
    return 1;
}

/* The value of a hexadecimal digit, in either case, or -1. */
static int nibble(char c)
{
    if (c >= '0' && c <= '9')
        return c - '0';
    if (c >= 'A' && c <= 'F')
        return c - 'A' + 10;
    if (c >= 'a' && c <= 'f')
        return c - 'a' + 10;
    return -1;
}

/* Whether all words are bytes. They go to `bytes`, and their count to *len. */
static int all_bytes(struct text rest, size_t *len)
{
    for (*len = 0; *len < BYTES; ++*len) {
        struct text word = next(&rest);
        int high, low;
        if (word.len == 0)
            return 1;
        if (word.len != 2)
            return 0;
        high = nibble(word.at[0]);
        low = nibble(word.at[1]);
        if (high < 0 || low < 0)
            return 0;
        bytes[*len] = (uint8_t)(high * 16 + low);
    }
    return 0;
}

/* Whether there is one word, a number up to `most`. */
static int one_number(struct text rest, uint64_t most, uint64_t *n)
{
    struct text word = next(&rest);
    return decimal(word, most, n) && next(&rest).len == 0;
}

/* Whether the words are those of a packet. */
static int packet(struct text rest, struct item *item)
{
    int64_t rssi, snr, freq_err;
    uint64_t time, crc;
    if (!signed_decimal(next(&rest), 0x8000, &rssi) || !signed_decimal(next(&rest), 0x8000, &snr)
        || !signed_decimal(next(&rest), 0x80000000, &freq_err) || !decimal(next(&rest), UINT64_MAX, &time)
        || !decimal(next(&rest), 1, &crc))
        return 0;
    item->status.rssi = (int16_t)rssi;
    item->status.snr = (int16_t)snr;
    item->status.freq_err = (int32_t)freq_err;
    item->status.timestamp_us = time;
    item->status.crc_valid = (uint8_t)crc;
    return all_bytes(rest, &item->len);
}

/* Lines of one word. */
static const struct {
    const char *name;
    enum kind kind;
} alone[] = {
    {"clear", CLEAR}, {"busy", BUSY},       {"configured", CONFIGURED},
    {"fault", FAULT}, {"request", REQUEST}, {"disconnect", DISCONNECT},
};

/* What the words after a name make of it: the kind, or BAD. */
static enum kind judge(struct text name, struct text rest, struct item *item)
{
    size_t i;
    if (is(name, "byte"))
        return all_bytes(rest, &item->len) && item->len > 0 ? BYTE : BAD;
    if (is(name, "packet"))
        return packet(rest, item) ? PACKET : BAD;
    if (is(name, "sent"))
        return one_number(rest, UINT32_MAX, &item->n) ? SENT : BAD;
    if (is(name, "room"))
        return one_number(rest, UINT64_MAX, &item->n) ? ROOM : BAD;
    if (is(name, "tick")) {
        struct text more = rest;
        item->n = 1;
        return next(&more).len == 0 || one_number(rest, UINT64_MAX, &item->n) ? TICK : BAD;
    }
    for (i = 0; i < sizeof alone / sizeof alone[0]; i++)
        if (is(name, alone[i].name))
            return next(&rest).len == 0 ? alone[i].kind : BAD;
    return BAD;
}

/* The item that the first len characters of the line are. */
static struct item read_line(size_t len)
{
    struct item item;
    struct text rest, name;
    memset(&item, 0, sizeof item);
    if (len == 0 || line[0] == '#')
        return item;
    rest.at = line;
    rest.len = line[len - 1] == '\r' ? len - 1 : len;
    name = next(&rest);
    if (name.len > 0)
        item.kind = judge(name, rest, &item);
    return item;
}

/* ---- An event is run. ---- */

static void print_hex(const uint8_t *from, uint64_t len)
{
    uint64_t i;
    for (i = 0; i < len; i++)
        printf("%02X", from[i]);
}

/* An order with bytes. The library answers no others than bytes of the memory of commands. */
static void print_order(const char *name, uint64_t flag, const struct donglora_answer *a)
{
    if (flag > 1 || a->at > DONGLORA_COMMANDS || a->len > DONGLORA_COMMANDS - a->at) {
        fprintf(stderr, "replay: event %" PRIu64 " orders what is not there\n", events);
        exit(1);
    }
    printf("%s/%" PRIu64 "/", name, flag);
    print_hex(commands + a->at, a->len);
}

/* Writes the line of an event, unless its answer is plain. */
static void note(const struct donglora_answer *a)
{
    if (a->number == DONGLORA_TAKEN && a->written == 0 && a->order == DONGLORA_NOTHING)
        return;
    if (a->number > DONGLORA_PLACE || a->written > room || a->order > DONGLORA_RECEIVE) {
        fprintf(stderr, "replay: event %" PRIu64 " answers what no event does\n", events);
        exit(1);
    }
    printf("%" PRIu64 " %" PRIu64 " ", events, a->number);
    if (a->order == DONGLORA_CONFIGURE)
        print_order("configure", a->ldro, a);
    else if (a->order == DONGLORA_TRANSMIT)
        print_order("transmit", a->listen, a);
    else if (a->order == DONGLORA_STANDBY)
        printf("standby");
    else
        printf(a->order == DONGLORA_RECEIVE ? "receive" : "none");
    printf(a->written == 0 ? " -" : " ");
    print_hex(out, a->written);
    printf("\n");
}

/* Runs one event of an item; b is the byte of a BYTE. */
static void step(const struct item *item, uint8_t b)
{
    struct donglora_answer a;
    memset(&a, 0xA5, sizeof a); /* each event writes it whole */
    switch (item->kind) {
    case BYTE: donglora_byte(control, b, run, commands, out, room, &a); break;
    case TICK: donglora_tick(control, room, &a); break;
    case CLEAR: donglora_clear(control, room, &a); break;
    case BUSY: donglora_busy(control, commands, out, room, &a); break;
    case SENT: donglora_sent(control, (uint32_t)item->n, commands, out, room, &a); break;
    case CONFIGURED: donglora_configured(control, commands, out, room, &a); break;
    case FAULT: donglora_fault(control, commands, out, room, &a); break;
    case PACKET: donglora_packet(control, item->status, bytes, item->len, packets, room, &a); break;
    case REQUEST: donglora_request(control, packets, out, room, &a); break;
    case DISCONNECT: donglora_disconnect(control, room, &a); break;
    default: return;
    }
    note(&a);
    events++;
}

/* Runs the events of an item. */
static void run_item(const struct item *item)
{
    uint64_t i, times = 1;
    if (item->kind == ROOM)
        room = item->n < ROOM_MAX ? (size_t)item->n : ROOM_MAX;
    if (item->kind == TICK)
        times = item->n;
    if (item->kind == BYTE)
        times = item->len;
    for (i = 0; i < times; i++)
        step(item, item->kind == BYTE ? bytes[i] : 0);
}

/* ---- A script is replayed. ---- */

/* Keeps a character of a line, of which *len are kept. Answers whether the line is too long. */
static int keep(char c, size_t *len)
{
    if (*len == LINE)
        return 1;
    if (*len > 0 && (line[0] == '#' || (is_blank(c) && is_blank(line[*len - 1]))))
        return 0;
    line[(*len)++] = c;
    return 0;
}

/* Replays a script from power-up on. What follows a bad line is read, and not run. */
static void script(FILE *from)
{
    uint64_t lines = 0;
    size_t len = 0;
    int c, is_long = 0, ended = 0;
    donglora_power_up(control, run, commands, packets);
    room = DONGLORA_OUT;
    events = 0;
    do {
        c = getc(from);
        if (ended || (c == EOF && len == 0))
            continue;
        if (c == EOF || c == '\n') {
            struct item item = read_line(len);
            lines++;
            ended = is_long || item.kind == BAD;
            if (ended)
                printf("bad line %" PRIu64 "\n", lines);
            else
                run_item(&item);
            len = 0;
        } else if (keep((char)c, &len)) {
            is_long = 1;
        }
    } while (c != EOF);
    if (ferror(from))
        fprintf(stderr, "replay: read failed\n");
    printf("events %" PRIu64 "\n", events);
}

int main(int argc, char **argv)
{
    int i;
    if (argc < 2)
        script(stdin);
    for (i = 1; i < argc; i++) {
        int is_stdin = strcmp(argv[i], "-") == 0;
        FILE *from = is_stdin ? stdin : fopen(argv[i], "rb");
        if (from == NULL) {
            fprintf(stderr, "%s: %s\n", argv[i], strerror(errno));
            continue;
        }
        script(from);
        if (!is_stdin)
            fclose(from);
    }
    if (fflush(stdout) != 0)
        fprintf(stderr, "replay: write failed\n");
    return 0;
}
