/*
 * The dongle's functions on control arrays and memories that hold anything: pseudo-random words and
 * bytes, and what events make of them. Each call is checked: it touches only what it is lent, its
 * answer is one that the header names, a refused event changes nothing, and the control array
 * afterwards is as the library itself writes it.
 *
 * Any words stand for a state, and a state has one array that the library writes for it. So a refused
 * event may change an array that the library did not write, once.
 *
 * Each block of memory ends where a page begins that may be neither read nor written, and in the
 * other half of the calls it begins where such a page ends: one byte too far, and the program is
 * killed. On the other side stand bytes that must stay as they are.
 *
 * Usage: garbage [SEED], decimal or 0x and hex.
 */
#define _DEFAULT_SOURCE /* for MAP_ANONYMOUS */
#include "donglora.h"

#include <stdio.h>
#include <stdlib.h>
#include <string.h>
#include <sys/mman.h>
#include <unistd.h>

#define CALLS 1200000
/* The most output that is lent, and the longest packet. */
#define OUT_MAX 300
#define PACKET_MAX 300
/* How many bytes beside a block are looked at after each call, and what they hold. */
#define GUARD 64
#define FILL 0xA5
/* How often each answer must be seen, at least. */
#define LEAST 500

enum event { BYTE, TICK, DISCONNECT, CLEAR, BUSY, SENT, CONFIGURED, FAULT, PACKET, REQUEST, EVENTS };

static const char *const names[EVENTS] = {
    "byte", "tick", "disconnect", "clear", "busy", "sent", "configured", "fault", "packet", "request",
};

/* Pages between two that may not be touched. */
struct pages {
    uint8_t *from;
    size_t len;
};

/* A block of lent memory in its pages. */
struct block {
    struct pages pages;
    uint8_t *at;
    size_t len;
};

static struct block control, run, commands, packets, out, bytes, answer;
static struct block *const blocks[] = {&control, &run, &commands, &packets, &out, &bytes, &answer};
#define BLOCKS (sizeof blocks / sizeof blocks[0])

/* What run, commands and packets held before a call. */
static uint8_t before[DONGLORA_RUN + DONGLORA_COMMANDS + DONGLORA_PACKETS];

/* A frame that is on its way to the dongle. */
static uint8_t frame[DONGLORA_OUT];
static size_t frame_len, frame_at;

/* Which call this is, of which event, and how often each answer was seen. */
static unsigned long call;
static enum event event;
static unsigned long numbers[EVENTS][DONGLORA_PLACE + 1];
static unsigned long orders[DONGLORA_RECEIVE + 1];

/* ---- Pseudo-random numbers: xorshift. ---- */

static uint64_t state;

static uint64_t draw(void)
{
    state ^= state >> 12;
    state ^= state << 25;
    state ^= state >> 27;
    return state * UINT64_C(0x2545F4914F6CDD1D);
}

static size_t below(size_t end)
{
    return (size_t)((draw() >> 32) % end);
}

static void draw_bytes(uint8_t *to, size_t len)
{
    size_t i;
    for (i = 0; i < len; i++)
        to[i] = (uint8_t)(draw() >> 56);
}

/* ---- Memory. ---- */

static void *need(void *got, const char *what)
{
    if (got == MAP_FAILED) {
        perror(what);
        exit(1);
    }
    return got;
}

/* Pages for up to len bytes and a guard. */
static struct pages map(size_t len)
{
    size_t page = (size_t)sysconf(_SC_PAGESIZE);
    struct pages pages;
    uint8_t *all;
    pages.len = (len + GUARD + page - 1) / page * page;
    all = need(mmap(NULL, pages.len + 2 * page, PROT_NONE, MAP_PRIVATE | MAP_ANONYMOUS, -1, 0), "mmap");
    pages.from = all + page;
    if (mprotect(pages.from, pages.len, PROT_READ | PROT_WRITE) != 0)
        need(MAP_FAILED, "mprotect");
    memset(pages.from, FILL, pages.len);
    return pages;
}

/* Puts a block of len bytes at the end of its pages, or at their start. */
static void place(struct block *b, size_t len, int at_end)
{
    b->len = len;
    b->at = at_end ? b->pages.from + b->pages.len - len : b->pages.from;
}

static int is_fill(const uint8_t *from, size_t len)
{
    size_t i;
    for (i = 0; i < len; i++)
        if (from[i] != FILL)
            return 0;
    return 1;
}

/* Whether up to `most` bytes beside a block are as they were: before it, and after it. */
static int is_guarded(const struct block *b, size_t most)
{
    size_t front = (size_t)(b->at - b->pages.from);
    size_t back = b->pages.len - front - b->len;
    size_t n = front < most ? front : most;
    return is_fill(b->at - n, n) && is_fill(b->at + b->len, back < most ? back : most);
}

/* The array that the library writes for the state that these words stand for: that which a refused
 * event leaves. */
static void settle(uint64_t *words)
{
    struct donglora_answer refused;
    donglora_tick(words, 0, &refused);
}

/* ---- Checks. ---- */

static void check(int holds, const char *what)
{
    if (holds)
        return;
    printf("garbage: call %lu, %s: not so: %s\n", call, names[event], what);
    exit(1);
}

#define CHECK(condition) check((condition) ? 1 : 0, #condition)

/* A memory is as it was, unless this event may write to it and was taken. */
static void check_memory(const struct block *b, uint8_t *was, int may_write)
{
    if (may_write)
        memcpy(was, b->at, b->len);
    else
        check(memcmp(was, b->at, b->len) == 0, "a memory is as it was");
}

/* Whether an event can answer a number. */
static int can_answer(enum event e, uint64_t number)
{
    int has_place = e == CLEAR || e == BUSY || e == SENT || e == CONFIGURED || e == PACKET;
    return number <= DONGLORA_ROOM || (number == DONGLORA_STALL && e == BYTE)
           || (number == DONGLORA_PLACE && has_place);
}

/* An answer to an event that was lent `room` bytes of output. */
static void check_answer(const struct donglora_answer *a, size_t room)
{
    int silent = event == TICK || event == DISCONNECT || event == CLEAR || event == PACKET;
    CHECK((a->number == DONGLORA_ROOM) == (room < DONGLORA_OUT));
    CHECK(can_answer(event, a->number));
    CHECK(a->order <= DONGLORA_RECEIVE);
    CHECK(a->written <= DONGLORA_OUT);
    CHECK(a->written == 0 || !silent);
    if (a->number != DONGLORA_TAKEN)
        CHECK(a->written == 0 && a->order == DONGLORA_NOTHING);
    if (a->order == DONGLORA_CONFIGURE || a->order == DONGLORA_TRANSMIT)
        CHECK(a->at <= DONGLORA_COMMANDS && a->len <= DONGLORA_COMMANDS - a->at);
    else
        CHECK(a->at == 0 && a->len == 0);
    CHECK(a->ldro <= (a->order == DONGLORA_CONFIGURE));
    CHECK(a->listen <= (a->order == DONGLORA_TRANSMIT));
    CHECK(is_fill(out.at + a->written, out.len - a->written));
}

/* ---- Calls. ---- */

/* Calls come in thousands of two sorts: in one the memory is disturbed at most calls and each event
 * is as likely as another, in the other the dongle can often do what it is for. */
static int is_calm(void)
{
    return (call >> 12) % 2 == 1;
}

/* Makes a command whose frame goes to the dongle, byte by byte, after a zero. */
static void make_frame(void)
{
    static const uint8_t lora[] = "\x01\xA0\x27\xBE\x33\x07\x07\x00\x08\x00\x24\x14\x0E\x00\x01";
    static const uint8_t fsk[] = "\x02\xA0\x27\xBE\x33\x50\xC3\x00\x00\xA8\x61\x00\x00\x0A\x05\x00\x02\x12\x34";
    uint8_t payload[1 + 255];
    uint8_t type = (uint8_t)(DONGLORA_PING + below(6));
    size_t len = 0;
    if (below(2) == 0)
        type = below(2) == 0 ? DONGLORA_SET_CONFIG : DONGLORA_TX;
    if (type == DONGLORA_TX) {
        len = 2 + below(below(16) == 0 ? 255 : 4);
        draw_bytes(payload, len);
        payload[0] = (uint8_t)below(2);
    } else if (type == DONGLORA_SET_CONFIG && below(2) == 0) {
        len = sizeof lora; /* with the zero that ends the string */
        memcpy(payload, lora, len);
        payload[5] = (uint8_t)(5 + below(8));
    } else if (type == DONGLORA_SET_CONFIG) {
        len = sizeof fsk - 1;
        memcpy(payload, fsk, len);
    }
    frame[0] = 0;
    frame_at = 0;
    check(donglora_write_command(type, (uint16_t)(1 + below(9)), payload, len, frame + 1, sizeof frame - 1, &frame_len)
              == DONGLORA_TAKEN,
          "a command is written");
    frame_len++;
}

/* The next byte for the dongle: of a frame, or, where that has ended, of another or any. */
static uint8_t next_byte(void)
{
    if (frame_at >= frame_len && below(4) != 0)
        make_frame();
    if (frame_at < frame_len)
        return frame[frame_at];
    return below(8) == 0 ? 0 : (uint8_t)draw();
}

/* The next event: any, or often what the last answer leads to, and seldom one between the bytes of a
 * frame. */
static enum event next_event(const struct donglora_answer *last)
{
    if (!is_calm())
        return (enum event)below(EVENTS);
    if (last->order == DONGLORA_TRANSMIT && below(2) == 0)
        return last->listen == 0 ? SENT : below(2) == 0 ? CLEAR : BUSY;
    if (last->order == DONGLORA_CONFIGURE && below(2) == 0)
        return CONFIGURED;
    if (last->number == DONGLORA_STALL && below(2) == 0)
        return below(2) == 0 ? CONFIGURED : SENT;
    return below(frame_at < frame_len ? 16 : 2) != 0 ? BYTE : (enum event)below(EVENTS);
}

/* Puts something else into the control array and the memories. */
static void disturb(void)
{
    uint64_t words[DONGLORA_CONTROL];
    struct block *memory = blocks[1 + below(3)];
    size_t i, from = below(memory->len), word = below(DONGLORA_CONTROL);
    memcpy(words, control.at, sizeof words);
    switch (below(is_calm() ? 2048 : 8)) {
    case 0:
        for (i = 0; i < DONGLORA_CONTROL; i++)
            words[i] = draw();
        break;
    case 1:
    case 2:
        for (i = 0; i < sizeof words; i++)
            ((uint8_t *)words)[i] = (uint8_t)(below(2) == 0 ? below(5) : below(2) == 0 ? 0 : draw());
        break;
    case 3: words[word] ^= UINT64_C(1) << below(64); break;
    case 4: words[word] = draw(); break;
    case 5: draw_bytes(memory->at + from, memory->len - from < 600 ? memory->len - from : 600); break;
    default: return;
    }
    memcpy(control.at, words, sizeof words);
    memcpy(before, run.at, run.len);
    memcpy(before + DONGLORA_RUN, commands.at, commands.len);
    memcpy(before + DONGLORA_RUN + DONGLORA_COMMANDS, packets.at, packets.len);
}

/* Calls the event. An output of no bytes is NULL in half of the calls, and so is an empty packet. */
static void call_event(size_t room)
{
    uint64_t *c = (uint64_t *)(void *)control.at;
    struct donglora_answer *a = (struct donglora_answer *)(void *)answer.at;
    uint8_t *to = room == 0 && below(2) == 0 ? NULL : out.at;
    const uint8_t *from = bytes.len == 0 && below(2) == 0 ? NULL : bytes.at;
    struct donglora_packet_status status;
    switch (event) {
    case BYTE: donglora_byte(c, next_byte(), run.at, commands.at, to, room, a); break;
    case TICK: donglora_tick(c, room, a); break;
    case DISCONNECT: donglora_disconnect(c, room, a); break;
    case CLEAR: donglora_clear(c, room, a); break;
    case BUSY: donglora_busy(c, commands.at, to, room, a); break;
    case SENT: donglora_sent(c, (uint32_t)draw(), commands.at, to, room, a); break;
    case CONFIGURED: donglora_configured(c, commands.at, to, room, a); break;
    case FAULT: donglora_fault(c, commands.at, to, room, a); break;
    case PACKET:
        status.rssi = (int16_t)below(0x8000);
        status.snr = (int16_t)-(int)below(0x8000);
        status.freq_err = (int32_t)below(0x10000);
        status.timestamp_us = draw();
        status.crc_valid = (uint8_t)draw();
        donglora_packet(c, status, from, bytes.len, packets.at, room, a);
        break;
    default: donglora_request(c, packets.at, to, room, a); break;
    }
}

/* One call of an event. */
static void one_call(int at_end)
{
    static struct donglora_answer a;
    uint64_t settled[DONGLORA_CONTROL];
    size_t i, room = below(4) != 0 ? DONGLORA_OUT + below(OUT_MAX - DONGLORA_OUT + 1) : below(OUT_MAX + 1);
    int taken;
    event = next_event(&a);
    disturb();
    memset(out.at, FILL, out.len);
    place(&out, room, at_end);
    memset(bytes.at, FILL, bytes.len);
    place(&bytes, below(PACKET_MAX + 1), at_end);
    draw_bytes(bytes.at, bytes.len);
    draw_bytes(answer.at, answer.len);
    memcpy(settled, control.at, control.len);
    settle(settled);
    call_event(room);

    memcpy(&a, answer.at, sizeof a);
    check_answer(&a, room);
    taken = a.number == DONGLORA_TAKEN;
    if (event == BYTE && taken)
        frame_at++; /* one that is refused is offered again */
    check_memory(&run, before, taken && event == BYTE);
    check_memory(&commands, before + DONGLORA_RUN, taken && event == BYTE);
    check_memory(&packets, before + DONGLORA_RUN + DONGLORA_COMMANDS,
                 taken && (event == PACKET || event == REQUEST));

    if (taken) {
        memcpy(settled, control.at, control.len);
        settle(settled);
    }
    CHECK(memcmp(settled, control.at, control.len) == 0);
    for (i = 0; i < BLOCKS; i++)
        check(is_guarded(blocks[i], GUARD), "the bytes beside a block stay");
    numbers[event][a.number]++;
    orders[a.order]++;
}

/* Some calls from power-up on, with the blocks at the ends of their pages or at the starts. */
static void calls(int at_end)
{
    unsigned long i;
    size_t j;
    for (j = 0; j < BLOCKS; j++)
        memset(blocks[j]->pages.from, FILL, blocks[j]->pages.len);
    place(&control, DONGLORA_CONTROL * sizeof(uint64_t), at_end);
    place(&run, DONGLORA_RUN, at_end);
    place(&commands, DONGLORA_COMMANDS, at_end);
    place(&packets, DONGLORA_PACKETS, at_end);
    place(&out, 0, at_end);
    place(&bytes, 0, at_end);
    place(&answer, sizeof(struct donglora_answer), at_end);
    memset(before, 0, sizeof before);
    donglora_power_up((uint64_t *)(void *)control.at, run.at, commands.at, packets.at);
    check_memory(&run, before, 0);
    check_memory(&commands, before + DONGLORA_RUN, 0);
    check_memory(&packets, before + DONGLORA_RUN + DONGLORA_COMMANDS, 0);
    for (i = 0; i < CALLS / 2; i++, call++)
        one_call(at_end);
    for (j = 0; j < BLOCKS; j++)
        check(is_guarded(blocks[j], blocks[j]->pages.len), "the rest of the pages stays");
}

/* Prints how often something was seen, and answers whether that was hardly ever. */
static int scarce(const char *what, unsigned number, unsigned long seen)
{
    printf("%s %u: %lu\n", what, number, seen);
    return seen < LEAST;
}

int main(int argc, char **argv)
{
    unsigned long totals[DONGLORA_PLACE + 1] = {0};
    unsigned n;
    int e, few = 0;
    state = argc > 1 ? strtoull(argv[1], NULL, 0) : UINT64_C(0x444F4E474C4F5241);
    state = state == 0 ? 1 : state; /* zero would stay zero */
    control.pages = map(DONGLORA_CONTROL * sizeof(uint64_t));
    run.pages = map(DONGLORA_RUN);
    commands.pages = map(DONGLORA_COMMANDS);
    packets.pages = map(DONGLORA_PACKETS);
    out.pages = map(OUT_MAX);
    bytes.pages = map(PACKET_MAX);
    answer.pages = map(sizeof(struct donglora_answer));
    calls(1);
    calls(0);
    for (e = 0; e < EVENTS; e++)
        for (n = 0; n <= DONGLORA_PLACE; n++) {
            totals[n] += numbers[e][n];
            few += can_answer((enum event)e, n) && scarce(names[e], n, numbers[e][n]);
        }
    for (n = 0; n <= DONGLORA_RECEIVE; n++)
        few += scarce("order", n, orders[n]);
    if (few > 0) {
        printf("garbage: %lu calls, but %d answers were hardly seen\n", call, few);
        return 1;
    }
    printf("garbage: %lu calls, 0 failed: TAKEN %lu, ROOM %lu, STALL %lu, PLACE %lu\n", call, totals[0], totals[1],
           totals[2], totals[3]);
    return 0;
}
