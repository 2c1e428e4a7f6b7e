/*
 * dongle: the loops of the program benchmark (crates/benchmark), through the functions that C programs call.
 *
 * Standard input has a letter, which work, and a decimal number, how many rounds. What it prints is
 * how many bytes the events wrote, and for b how many were in the runs, modulo a million: as benchmark
 * does. It ends with 1 where an event was refused, or where the last order is not the right one.
 *
 *   b: 255 bytes that are not zero, and a disconnect     t: 999 ticks, and a PING
 *   p: a PING                                            x: a TX with 255 bytes, and its sent
 *   k: a packet of 255 bytes is taken                    d: it is taken and delivered
 *   e: each event in a usual case, from a new session to its end; crates/benchmark has no such work
 *
 * bench/board.c takes these functions in, and has a main of its own.
 */
#include "donglora.h"

#include <stdio.h>

/* Bytes are counted modulo this. */
#define MANY 1000000

/* The tag of each command. */
#define TAG 1

/* A dongle, the output that it is lent, and its last answer. */
static uint64_t control[DONGLORA_CONTROL];
static uint8_t run[DONGLORA_RUN];
static uint8_t commands[DONGLORA_COMMANDS];
static uint8_t packets[DONGLORA_PACKETS];
static uint8_t out[DONGLORA_OUT];
static struct donglora_answer answer;

/* How many bytes the events have written, and the numbers of all their answers in one. */
struct count {
    uint64_t written;
    uint64_t numbers;
};

/* A frame, or any other bytes. */
struct bytes {
    uint8_t at[DONGLORA_OUT];
    donglora_size len;
};

/*
 * So many bytes more. They are fewer than MANY, so a subtraction does for the last modulo. The
 * machine code of benchmark does the same for each byte; its loop of ticks counts nothing.
 */
static uint64_t sum(uint64_t written, uint64_t more)
{
    uint64_t n = written % MANY + more;

    return n < MANY ? n : n - MANY;
}

/* One event more. */
static struct count add(struct count c)
{
    c.written = sum(c.written, answer.written);
    c.numbers |= answer.number;
    return c;
}

/* The frame of a command. A refusal leaves it empty. */
static struct bytes frame_of(uint8_t type, const uint8_t *payload, size_t len)
{
    struct bytes frame = {{0}, 0};

    donglora_write_command(type, TAG, payload, len, frame.at, sizeof frame.at, &frame.len);
    return frame;
}

/* Some bytes from the host. */
static struct count feed(struct count c, const struct bytes *bytes)
{
    size_t i;

    for (i = 0; i < bytes->len; i++) {
        donglora_byte(control, bytes->at[i], run, commands, out, sizeof out, &answer);
        c = add(c);
    }
    return c;
}

/* 999 ticks. */
static struct count ticks(struct count c)
{
    size_t i;

    for (i = 0; i < 999; i++) {
        donglora_tick(control, sizeof out, &answer);
        c = add(c);
    }
    return c;
}

/*
 * A disconnect, with the bytes of the run counted before it. Where the control array has their
 * number is not the header's to say: it is crates/packed, link_word.
 */
static struct count leave(struct count c)
{
    uint64_t len = control[1] >> 32 & 0xFFFF;

    donglora_disconnect(control, sizeof out, &answer);
    c.written = sum(c.written, len);
    c.numbers |= answer.number;
    return c;
}

/* A packet is taken. */
static struct count hear(struct count c, const struct bytes *bytes)
{
    const struct donglora_packet_status status = {-820, 95, -125, 4242, 1};

    donglora_packet(control, status, bytes->at, bytes->len, packets, sizeof out, &answer);
    return add(c);
}

/* The dongle is configured, and receives. The SET_CONFIG is that of P C.2.3. */
static struct count receive(struct count c)
{
    static const uint8_t lora[] = {0x01, 0xA0, 0x27, 0xBE, 0x33, 0x07, 0x07, 0x00,
                                   0x08, 0x00, 0x24, 0x14, 0x0E, 0x00, 0x01, 0x00};
    struct bytes frame = frame_of(DONGLORA_SET_CONFIG, lora, sizeof lora);

    c = feed(c, &frame);
    donglora_configured(control, commands, out, sizeof out, &answer);
    frame = frame_of(DONGLORA_RX_START, NULL, 0);
    return feed(add(c), &frame);
}

/* The frame of a TX with these bytes and flags. */
static struct bytes tx_of(uint8_t flags, const struct bytes *bytes)
{
    uint8_t payload[256];
    size_t i;

    payload[0] = flags;
    for (i = 0; i < bytes->len; i++)
        payload[1 + i] = bytes->at[i];
    return frame_of(DONGLORA_TX, payload, 1 + bytes->len);
}

/* A session with all events. Three TX listen first: one is sent, one meets a busy channel, one fails. */
static struct count one_of_each(struct count c, const struct bytes *bytes)
{
    const struct bytes tx = tx_of(0, bytes);

    c = receive(c);
    c = feed(c, &tx);
    donglora_clear(control, sizeof out, &answer);
    c = add(c);
    donglora_sent(control, 1000, commands, out, sizeof out, &answer);
    c = feed(add(c), &tx);
    donglora_busy(control, commands, out, sizeof out, &answer);
    c = feed(add(c), &tx);
    donglora_fault(control, commands, out, sizeof out, &answer);
    c = hear(add(c), bytes);
    donglora_request(control, packets, out, sizeof out, &answer);
    c = add(c);
    donglora_tick(control, sizeof out, &answer);
    c = add(c);
    donglora_disconnect(control, sizeof out, &answer);
    return add(c);
}

/* One round of the work that a letter names: ping and tx are frames, and bytes has 255 bytes. */
static struct count turn(int what, struct count c, const struct bytes *ping,
                         const struct bytes *tx, const struct bytes *bytes)
{
    switch (what) {
    case 'b':
        c = feed(c, bytes);
        return leave(c);
    case 't':
        c = ticks(c);
        return feed(c, ping);
    case 'p':
        return feed(c, ping);
    case 'x':
        c = feed(c, tx);
        donglora_sent(control, 1000, commands, out, sizeof out, &answer);
        return add(c);
    case 'k':
        return hear(c, bytes);
    case 'e':
        return one_of_each(c, bytes);
    default:
        c = hear(c, bytes);
        donglora_request(control, packets, out, sizeof out, &answer);
        return add(c);
    }
}

/* 255 bytes that are not zero. */
static struct bytes all_bytes(void)
{
    struct bytes all = {{0}, 255};
    size_t i;

    for (i = 0; i < all.len; i++)
        all.at[i] = (uint8_t)(i % 251 + 1);
    return all;
}

/* All but b and e have a configured dongle that receives. */
static struct count ready(int what, struct count c)
{
    return what == 'b' || what == 'e' ? c : receive(c);
}

/* The order that the last event of a round gives. */
static uint64_t last_order(int what)
{
    return what == 'x' ? DONGLORA_RECEIVE : what == 'e' ? DONGLORA_STANDBY : DONGLORA_NOTHING;
}

/* The number in decimal digits on standard input, with six of them kept before the last. */
static size_t number(void)
{
    size_t n = 0;
    int b;

    while ((b = getchar()) != EOF)
        if ('0' <= b && b <= '9')
            n = n % MANY * 10 + (size_t)(b - '0');
    return n;
}

int main(void)
{
    struct count c = {0, 0};
    int what = getchar();
    size_t n = number();
    size_t i;
    const struct bytes all = all_bytes();
    const struct bytes ping = frame_of(DONGLORA_PING, NULL, 0);
    const struct bytes tx = tx_of(1, &all);

    donglora_power_up(control, run, commands, packets);
    c = ready(what, c);
    for (i = 0; i < n; i++)
        c = turn(what, c, &ping, &tx, &all);

    printf("%llu\n", (unsigned long long)c.written);
    if (n > 0 && answer.order != last_order(what))
        return 1;
    return c.numbers != DONGLORA_TAKEN;
}
