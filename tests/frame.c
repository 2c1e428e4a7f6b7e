/*
 * donglora_read_frame, against a model that is written here, and against donglora_read_answer. Frames of any
 * type and tag are read, whole and damaged, into rooms that do and that do not. The number, the fields and
 * each byte of the room must be those of the model, and what stands around it must stay.
 *
 * donglora_read_answer refuses what this refuses, with the same number. What it takes this reads alike, and
 * what it refuses beyond that is a matter of tag, type or form.
 *
 * Usage: frame [RUNS [SEED]]: so many runs of bytes are read; the seed is decimal, or 0x and hex. This file
 * is compiled as C99 and as C++11.
 */
#include "donglora.h"

#include <stdio.h>
#include <stdlib.h>
#include <string.h>

#ifdef __cplusplus
#define LANGUAGE "C++"
#else
#define LANGUAGE "C"
#endif

#define RUNS 300000
#define LEAST 20    /* how often each outcome must be seen, at least */
#define RUN_MAX 300 /* the longest run, and the largest room */
#define GUARD 16
#define FILL 0xA5

/* ---- What is counted: a test that never gets somewhere has not tested it. ---- */

enum outcome {
    LONG_RUN, SHORT_ROOM, NO_ENCODING, SHORT_BODY, LONG_BODY, DAMAGED, TAKEN, COMMAND, ANSWER, OTHER_TYPE,
    TAG_ZERO, SHORTEST, LONGEST, TAKEN_TOO, TAKEN_INFO, TAKEN_CONFIG, BY_TAG, BY_TYPE, BY_FORM, OUTCOMES
};

static const char *const names[OUTCOMES] = {
    "LENGTH, by the run", "SHORT", "STUFF", "LENGTH, under 5 bytes", "LENGTH, over 280 bytes", "CHECK",
    "taken", "a command", "an answer", "a type that is none of the ten", "tag 0", "no payload",
    "a payload of 275 bytes", "donglora_read_answer takes it", "the same, as the OK to GET_INFO",
    "the same, as the OK to SET_CONFIG", "it refuses the tag", "it refuses the type", "it refuses the form",
};

static unsigned long runs, checks, seen[OUTCOMES];

static void check(int holds, const char *condition, int line)
{
    checks++;
    if (!holds) {
        printf("frame.c line %d, run %lu: not so: %s\n", line, runs, condition);
        exit(1);
    }
}

#define CHECK(condition) check((condition) ? 1 : 0, #condition, __LINE__)

/* ---- Pseudo-random numbers: xorshift. ---- */

static uint64_t state;

static uint32_t draw(void)
{
    state ^= state >> 12;
    state ^= state << 25;
    state ^= state >> 27;
    return (uint32_t)((state * UINT64_C(0x2545F4914F6CDD1D)) >> 32);
}

static unsigned below(unsigned end)
{
    return (unsigned)(draw() % end);
}

/* ---- The run that is read, and rooms for a body with guards around them. ---- */

static uint8_t run[RUN_MAX];
static size_t run_len;

struct room {
    uint8_t front[GUARD], body[RUN_MAX], behind[GUARD];
};

static struct room lent, due, other;

/* ---- The model. ---- */

/* The check value, bit by bit. */
static unsigned crc(const uint8_t *bytes, size_t len)
{
    unsigned value = 0xFFFF;

    for (size_t i = 0; i < 8 * len; i++) {
        unsigned bit = bytes[i / 8] >> (7 - i % 8) & 1;

        value = (value << 1 & 0xFFFF) ^ ((value >> 15 ^ bit) != 0 ? 0x1021 : 0);
    }
    return value;
}

/* Decodes the run. Answers how many bytes that gives, or -1 where it is no encoding. */
static int decode(uint8_t *to)
{
    int len = 0;

    if (run_len == 0 || memchr(run, 0, run_len) != NULL)
        return -1;
    for (size_t at = 0; at < run_len;) {
        size_t group = run[at++] - (size_t)1;

        if (group > run_len - at)
            return -1;
        memcpy(to + len, run + at, group);
        at += group;
        len += (int)group;
        if (group < 254 && at < run_len)
            to[len++] = 0;
    }
    return len;
}

/* Whether the run has a body, or why there is none; it is put into `due` where it is taken. */
static enum outcome expect(size_t room, struct donglora_message *m)
{
    uint8_t body[RUN_MAX];
    int len;

    if (run_len > DONGLORA_ENCODED_MAX)
        return LONG_RUN;
    if (room < run_len)
        return SHORT_ROOM;
    len = decode(body);
    if (len < 0)
        return NO_ENCODING;
    if (len < 5 || len > DONGLORA_BODY_MAX)
        return len < 5 ? SHORT_BODY : LONG_BODY;
    if (crc(body, (size_t)len - 2) != body[len - 2] + 256u * body[len - 1])
        return DAMAGED;
    memcpy(due.body, body, (size_t)len);
    m->type = body[0];
    m->tag = (uint16_t)(body[1] + 256u * body[2]);
    m->payload_len = (donglora_size)len - 5;
    return TAKEN;
}

static const uint8_t numbers[] = {DONGLORA_LENGTH, DONGLORA_SHORT, DONGLORA_STUFF, DONGLORA_LENGTH,
                                  DONGLORA_LENGTH, DONGLORA_CHECK, DONGLORA_TAKEN};

/* ---- Readings. ---- */

/* Notes what kind of frame was taken. */
static void note_frame(const struct donglora_message *m)
{
    int command = m->type >= DONGLORA_PING && m->type <= DONGLORA_RX_STOP;
    int answer = m->type == DONGLORA_OK || m->type == DONGLORA_ERR || m->type == DONGLORA_RX ||
                 m->type == DONGLORA_TX_DONE;

    seen[command ? COMMAND : answer ? ANSWER : OTHER_TYPE]++;
    seen[TAG_ZERO] += m->tag == 0;
    seen[SHORTEST] += m->payload_len == 0;
    seen[LONGEST] += m->payload_len == DONGLORA_PAYLOAD_MAX;
}

/* Reads the same run as an answer. */
static void read_too(uint8_t command, size_t room, const struct donglora_message *m)
{
    struct donglora_message a;

    memset(&other, FILL, sizeof other);
    a = donglora_read_answer(command, run, run_len, other.body, room);
    if (m->number != DONGLORA_TAKEN || a.number == DONGLORA_TAKEN) {
        CHECK(a.number == m->number && a.type == m->type && a.tag == m->tag);
        CHECK(a.payload_len == m->payload_len && memcmp(&other, &lent, sizeof other) == 0);
    } else {
        CHECK(a.number == DONGLORA_TAG || a.number == DONGLORA_TYPE || a.number == DONGLORA_FORM);
        seen[a.number == DONGLORA_TAG ? BY_TAG : a.number == DONGLORA_TYPE ? BY_TYPE : BY_FORM]++;
    }
    if (a.number == DONGLORA_TAKEN)
        seen[a.type != DONGLORA_OK || command == 0 ? TAKEN_TOO :
             command == DONGLORA_GET_INFO ? TAKEN_INFO : TAKEN_CONFIG]++;
}

/* Reads the run into so much room, and compares. Where there are no bytes there may be no pointer. */
static struct donglora_message read_run(size_t room)
{
    const uint8_t *from = run_len == 0 && below(2) == 0 ? NULL : run;
    uint8_t copy[RUN_MAX], *to = room == 0 && below(2) == 0 ? NULL : lent.body;
    struct donglora_message m, expected = {0, 0, 0, 0};
    enum outcome outcome;

    runs++;
    memcpy(copy, run, sizeof copy);
    memset(&lent, FILL, sizeof lent);
    memset(&due, FILL, sizeof due);
    m = donglora_read_frame(from, run_len, to, room);
    outcome = expect(room, &expected);
    CHECK(m.number == numbers[outcome]);
    CHECK(m.type == expected.type && m.tag == expected.tag && m.payload_len == expected.payload_len);
    CHECK(memcmp(&due, &lent, sizeof due) == 0 && memcmp(copy, run, sizeof copy) == 0);
    seen[outcome]++;
    if (outcome == TAKEN)
        note_frame(&m);
    read_too(0, room, &m);
    read_too(DONGLORA_GET_INFO, room, &m);
    read_too(DONGLORA_SET_CONFIG, room, &m);
    return m;
}

/* ---- Runs. ---- */

/* Makes the run of a frame. */
static void make(uint8_t type, uint16_t tag, const uint8_t *payload, size_t len)
{
    uint8_t body[DONGLORA_BODY_MAX] = {type, (uint8_t)tag, (uint8_t)(tag >> 8)};
    unsigned sum;
    donglora_size n = 0;

    memcpy(body + 3, payload, len);
    sum = crc(body, 3 + len);
    body[3 + len] = (uint8_t)sum;
    body[4 + len] = (uint8_t)(sum >> 8);
    CHECK(donglora_cobs_encode(body, 5 + len, run, sizeof run, &n) == DONGLORA_TAKEN);
    run_len = (size_t)n;
}

/* Bytes with many zeros, with some, or with none. */
static void draw_bytes(uint8_t *to, size_t len)
{
    unsigned zeros = below(3);

    for (size_t i = 0; i < len; i++)
        to[i] = (uint8_t)(zeros == 0 ? 1 + below(255) : zeros == 1 ? draw() : below(2));
}

/* A frame of any type, with a payload that often suits it. */
static void make_any(void)
{
    static const uint8_t types[] = {1, 2, 3, 4, 5, 6, 0x80, 0x80, 0x80, 0x81, 0x81, 0xC0, 0xC0, 0xC1, 0xC1};
    static const uint8_t config[] = {0, 1, 1, 0xA0, 0x27, 0xBE, 0x33, 7, 7, 0, 8, 0, 0x24, 0x14, 14, 0, 1, 0};
    uint8_t payload[DONGLORA_PAYLOAD_MAX];
    uint8_t type = (uint8_t)(below(4) == 0 ? draw() : types[below(sizeof types)]);
    uint16_t tag = (uint16_t)(below(4) == 0 ? 0 : below(2) == 0 ? 1 + below(9) : draw());
    size_t len = below(2) == 0 ? below(30) : below(4) == 0 ? sizeof payload : below(sizeof payload);

    draw_bytes(payload, sizeof payload);
    if (type == DONGLORA_OK && below(2) == 0) {
        memcpy(payload, config, sizeof config);
        len = sizeof config;
    } else if (type == DONGLORA_RX && below(4) != 0) {
        payload[16] %= 2; /* crc_valid and origin */
        payload[19] %= 2;
        tag = 0;
    } else if (type == DONGLORA_TX_DONE) {
        payload[0] %= 4;
    }
    make(type, tag, payload, len);
}

/* Damages the run: a bit, a byte, its end, or all of it. */
static void damage(void)
{
    size_t at = below((unsigned)run_len);

    switch (below(8)) {
    case 0: run[at] ^= (uint8_t)(1u << below(8)); break;
    case 1: run[at] = (uint8_t)draw(); break;
    case 2: run[at] = 0; break;
    case 3: run_len = at; break;
    case 4: run_len = run_len < RUN_MAX - 8 ? run_len + 1 + below(8) : RUN_MAX; break;
    case 5: run_len = below(RUN_MAX + 1); break;
    case 6:
        memset(run, 1, sizeof run); /* a run of zeros, once decoded */
        run_len = below(2) == 0 ? below(9) : DONGLORA_ENCODED_MAX - 1 + below(3);
        break;
    default:
        run_len = 1 + below(12);
        for (at = 0; at < run_len; at++)
            run[at] = (uint8_t)(1 + below(4));
    }
}

static void read_any(void)
{
    size_t room;

    make_any();
    if (below(3) == 0)
        damage();
    room = below(4) == 0 ? below(RUN_MAX + 1) : below(4) == 0 ? 0 : below(2) == 0 ? RUN_MAX : run_len;
    read_run(room > 0 && below(16) == 0 ? room - 1 : room);
}

/* A frame by its bytes: it has this type, this tag, and so much payload. */
static void reads(const char *bytes, size_t len, uint8_t type, uint16_t tag, size_t payload)
{
    struct donglora_message m;

    memcpy(run, bytes, len);
    run_len = len;
    m = read_run(len);
    CHECK(m.number == DONGLORA_TAKEN && m.type == type && m.tag == tag && m.payload_len == payload);
}

#define READS(bytes, type, tag, payload) reads(bytes, sizeof bytes - 1, type, tag, payload)

/* The OK to GET_INFO of P C.2.2. */
#define OK_INFO                                                                                         \
    "\x03\x80\x02\x02\x01\x01\x02\x01\x02\x02\x02\x03\x02\x01\x01\x01\x01\x01\x06\xE0\x1F\xFF\x03\xFF" \
    "\x02\x40\x02\x10\x05\x80\xD1\xF0\x08\x0F\x70\x38\x39\xF7\x16\x08\xDE\xAD\xBE\xEF\x01\x23\x45\x67" \
    "\x03\xFA\xA4"

/* Frames of 01's sheet and of P: commands, answers, an ERR with tag 0. And two that no other reader takes. */
static void check_known(void)
{
    READS("\x03\x01\x01\x03\x9D\xC8", DONGLORA_PING, 1, 0);
    READS("\x03\x04\x28\x01\x05\x68\x69\x24\x7D", DONGLORA_TX, 0x28, 3);
    READS("\x03\x80\x33\x01\x02\xA7", DONGLORA_OK, 0x33, 0);
    READS("\x03\x81\x28\x02\x03\x03\x53\x7E", DONGLORA_ERR, 0x28, 2);
    READS("\x02\x81\x01\x05\x02\x01\xCE\xEF", DONGLORA_ERR, 0, 2);
    READS("\x03\xC1\x14\x02\x02\x01\x01\x01\x03\x82\xCF", DONGLORA_TX_DONE, 0x14, 5);
    READS(OK_INFO, DONGLORA_OK, 2, 45);
    make(0x7F, 0xFFFF, (const uint8_t *)"", 0);
    CHECK(read_run(RUN_MAX).type == 0x7F);
    make(0, 0, (const uint8_t *)"", 0);
    CHECK(read_run(RUN_MAX).number == DONGLORA_TAKEN);
}

int main(int argc, char **argv)
{
    unsigned long most = argc > 1 ? strtoul(argv[1], NULL, 0) : RUNS;
    int few = 0;

    state = argc > 2 ? strtoull(argv[2], NULL, 0) : UINT64_C(0x444F4E474C4F5241);
    state = state == 0 ? 1 : state; /* zero would stay zero */
    check_known();
    while (runs < most)
        read_any();
    for (int i = 0; i < OUTCOMES; i++) {
        printf("%s: %lu\n", names[i], seen[i]);
        few += seen[i] < LEAST;
    }
    if (few > 0) {
        printf("frame in " LANGUAGE ": %lu runs, but %d outcomes were hardly seen\n", runs, few);
        return 1;
    }
    printf("frame in " LANGUAGE ": %lu checks, 0 failed: %lu runs, %lu frames\n", checks, runs, seen[TAKEN]);
    return 0;
}
