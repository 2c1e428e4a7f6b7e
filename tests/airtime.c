/*
 * The time on air, against another way to it: 02 section 3. Here the symbols of a packet are counted, block by
 * block, until all its bits have room; LDRO is read from a list; and the microseconds are not divided out, but
 * must be the last whole one that is not past the fraction. Known values stand beside it, made with exact
 * fractions by a program in another language.
 *
 * All values that have a time are tried, with every length and with preambles of all sizes, those on both sides
 * of the first that is refused among them; and values that have none, alone and together. A refusal must leave
 * *us, and what stands around it must stay in any case.
 *
 * Usage: airtime [SHARE [SEED]]: of the lengths every SHAREth is tried, and so are fewer random values; the seed
 * is decimal, or 0x and hex. This file is compiled as C99 and as C++11.
 */
#include "donglora.h"

#include <stdio.h>
#include <stdlib.h>

#ifdef __cplusplus
#define LANGUAGE "C++"
#else
#define LANGUAGE "C"
#endif

#define RANDOM 2000000 /* random values, SHARE 1 */
#define LEAST 100      /* how often each outcome must be seen, at least */
#define FILL 0xA5A5A5A5u
#define US_END UINT64_C(4294967296) /* the first time that is too long */

/* ---- What is counted: a test that never gets somewhere has not tested it. ---- */

enum outcome { SHORTEST, OPTIMISED, NEGATIVE, LONGEST, WIDE, BY_SF, BY_BW, BY_CR, BY_HEADER, BY_CRC, BY_LEN, OUTCOMES };

static const char *const names[OUTCOMES] = {
    "no bytes", "LDRO on", "a payload term below zero", "255 bytes", "WIDE", "AIR, by SF", "AIR, by bandwidth",
    "AIR, by coding rate", "AIR, by header", "AIR, by CRC", "AIR, by length",
};

static unsigned long calls, seen[OUTCOMES];

static void check(int holds, const char *condition, const struct donglora_air *a)
{
    if (!holds) {
        printf("airtime.c: SF %u, bw %u, cr %u, header %u, crc %u, preamble %u, %llu bytes: not so: %s\n", a->sf,
               a->bw, a->cr, a->header_mode, a->payload_crc, a->preamble_len, (unsigned long long)a->len,
               condition);
        exit(1);
    }
}

#define CHECK(condition) check((condition) ? 1 : 0, #condition, &a)

/* ---- Pseudo-random numbers: xorshift. ---- */

static uint64_t state;

static uint32_t draw(void)
{
    state ^= state >> 12;
    state ^= state << 25;
    state ^= state >> 27;
    return (uint32_t)((state * UINT64_C(0x2545F4914F6CDD1D)) >> 32);
}

/* ---- The other way. ---- */

static const uint32_t hz[] = {7810, 10420, 15630, 20830, 31250, 41670, 62500, 125000, 250000, 500000};

/* For each bandwidth the first SF with LDRO on; none at 500 kHz. */
static const int optimised[] = {7, 8, 8, 9, 9, 10, 10, 11, 12, 99};

/* The payload's bits that the first eight symbols have no room for. */
static int bits_of(struct donglora_air a)
{
    return 8 * (int)a.len + 28 - 4 * a.sf + (a.payload_crc == 1 ? 16 : 0) - (a.header_mode == 1 ? 20 : 0);
}

/* The time as a fraction: so many parts, of which hz[bw] are a microsecond. A block is cr + 5 symbols. */
static uint64_t parts_of(struct donglora_air a)
{
    int block = 4 * (a.sf >= optimised[a.bw] ? a.sf - 2 : a.sf), bits;
    uint64_t symbols = (uint64_t)a.preamble_len + 8;

    for (bits = bits_of(a); bits > 0; bits -= block)
        symbols += a.cr + 5u;
    return (4 * symbols + 17) * ((uint64_t)1 << a.sf) * 250000;
}

/* Whether a value has no time, and by which field. */
static int outside(struct donglora_air a)
{
    int by[] = {a.sf < 7 || a.sf > 12, a.bw > 9, a.cr > 3, a.header_mode > 1, a.payload_crc > 1, a.len > 255};
    int i, any = 0;

    for (i = 0; i < 6; i++) {
        seen[BY_SF + i] += by[i] ? 1 : 0;
        any |= by[i];
    }
    return any;
}

/* ---- A call. ---- */

static void try_one(struct donglora_air a)
{
    struct {
        uint32_t before, us, after;
    } memory = {FILL, FILL, FILL};
    uint8_t number = donglora_airtime(a, &memory.us);
    uint64_t parts;

    calls++;
    CHECK(memory.before == FILL && memory.after == FILL);
    CHECK(number == DONGLORA_TAKEN || memory.us == FILL);
    if (outside(a)) {
        CHECK(number == DONGLORA_AIR);
        return;
    }
    parts = parts_of(a);
    if (parts >= US_END * hz[a.bw]) {
        CHECK(number == DONGLORA_WIDE);
        seen[WIDE]++;
        return;
    }
    CHECK(number == DONGLORA_TAKEN);
    CHECK((uint64_t)memory.us * hz[a.bw] <= parts && parts < ((uint64_t)memory.us + 1) * hz[a.bw]);
    seen[SHORTEST] += a.len == 0;
    seen[LONGEST] += a.len == 255;
    seen[OPTIMISED] += a.sf >= optimised[a.bw];
    seen[NEGATIVE] += bits_of(a) < 0;
}

/* The last preamble that has a time, and the one after it. A symbol more is 1,000,000 2^SF parts more. */
static void try_widest(struct donglora_air a)
{
    uint64_t end = US_END * hz[a.bw], none, more;

    a.preamble_len = 0;
    none = parts_of(a);
    more = (end - 1 - none) / ((uint64_t)1000000 << a.sf);
    if (none >= end || more >= 0xFFFF)
        return;
    a.preamble_len = (uint16_t)more;
    CHECK(parts_of(a) < end);
    try_one(a);
    a.preamble_len++;
    CHECK(parts_of(a) >= end);
    try_one(a);
}

/* ---- What is tried. ---- */

static struct donglora_air air(unsigned sf, unsigned bw, unsigned cr, unsigned modes, unsigned preamble,
                               donglora_size len)
{
    struct donglora_air a;

    a.sf = (uint8_t)sf;
    a.bw = (uint8_t)bw;
    a.cr = (uint8_t)cr;
    a.header_mode = (uint8_t)(modes / 2);
    a.payload_crc = (uint8_t)(modes % 2);
    a.preamble_len = (uint16_t)preamble;
    a.len = len;
    return a;
}

/* One of the values, with each length, and with preambles from none to the longest. */
static void try_lengths(unsigned sf, unsigned bw, unsigned cr, unsigned modes, unsigned share)
{
    static const unsigned preambles[] = {0, 6, 8, 65535};
    unsigned len, i;

    for (len = 0; len <= 255; len += len + share > 255 && len < 255 ? 255 - len : share) {
        for (i = 0; i < sizeof preambles / sizeof *preambles; i++)
            try_one(air(sf, bw, cr, modes, preambles[i], len));
        try_one(air(sf, bw, cr, modes, draw() % 65536, len));
        try_widest(air(sf, bw, cr, modes, 0, len));
    }
}

static void try_all(unsigned share)
{
    unsigned sf, bw, cr, modes;

    for (sf = 7; sf <= 12; sf++)
        for (bw = 0; bw <= 9; bw++)
            for (cr = 0; cr <= 3; cr++)
                for (modes = 0; modes < 4; modes++)
                    try_lengths(sf, bw, cr, modes, share);
}

/* Each byte in each field of one byte, and lengths up to the largest number that there is. */
static void try_outside(void)
{
    static const donglora_size lengths[] = {256, 257, 511, 65535, 65536, 0x7FFFFFFF, 0x80000000u, 0xFFFFFFFFu,
                                            UINT64_C(0x100000005), UINT64_C(0x8000000000000000), UINT64_MAX};
    unsigned i;

    for (i = 0; i < 256; i++) {
        struct donglora_air a[5];
        unsigned k;

        for (k = 0; k < 5; k++)
            a[k] = air(9, 7, 1, 1, 8, 20);
        a[0].sf = a[1].bw = a[2].cr = a[3].header_mode = a[4].payload_crc = (uint8_t)i;
        for (k = 0; k < 5; k++)
            try_one(a[k]);
    }
    for (i = 0; i < sizeof lengths / sizeof *lengths; i++)
        try_one(air(9, 7, 1, 1, 8, lengths[i]));
}

/* A number up to a bound; now and then any byte. */
static uint8_t mostly(unsigned most)
{
    return (uint8_t)(draw() % 16 == 0 ? draw() % 256 : draw() % (most + 1));
}

static void try_random(unsigned long count)
{
    while (count-- > 0) {
        struct donglora_air a = air(0, 0, 0, 0, draw() % 65536, draw() % 256);

        a.sf = (uint8_t)(draw() % 16 == 0 ? draw() % 256 : 7 + draw() % 6);
        a.bw = mostly(9);
        a.cr = mostly(3);
        a.header_mode = mostly(1);
        a.payload_crc = mostly(1);
        if (draw() % 16 == 0)
            a.len = (donglora_size)draw() << draw() % 33;
        try_one(a);
    }
}

/* ---- Known values: SF, bandwidth, coding rate, header, CRC, preamble, bytes, and the time. ---- */

static const struct {
    struct donglora_air air;
    uint32_t us;
} known[] = {
    {{7, 7, 0, 0, 1, 8, 5}, 30976}, /* 02's two figures; the first is P C.2.4's too */
    {{12, 7, 0, 1, 0, 8, 1}, 663552},
    {{7, 7, 0, 0, 1, 8, 6}, 36096}, /* P C.2.5 prints 33,792 */
    {{10, 7, 0, 0, 1, 8, 4}, 206848},
    {{7, 0, 0, 0, 1, 8, 5}, 577720},
    {{8, 1, 1, 0, 1, 10, 33}, 2315547},
    {{9, 2, 2, 1, 1, 12, 64}, 4921817},
    {{10, 3, 3, 0, 0, 6, 100}, 10729140},
    {{11, 4, 0, 1, 0, 0, 17}, 1785856},
    {{12, 5, 1, 0, 1, 40000, 0}, 3933049580u},
    {{7, 6, 2, 1, 1, 8, 255}, 1088000},
    {{11, 7, 0, 0, 1, 8, 51}, 1314816},
    {{12, 8, 3, 0, 1, 8, 222}, 6230016},
    {{12, 9, 0, 0, 1, 8, 51}, 534528},
    {{7, 9, 0, 0, 0, 0, 0}, 3136},
    {{7, 7, 0, 0, 1, 8, 255}, 399616},
    {{12, 0, 3, 0, 1, 7769, 255}, 4294899871u},
};

static void try_known(void)
{
    size_t i;

    for (i = 0; i < sizeof known / sizeof *known; i++) {
        struct donglora_air a = known[i].air;
        uint32_t us = 0;

        CHECK(donglora_airtime(a, &us) == DONGLORA_TAKEN && us == known[i].us);
        try_one(a);
    }
}

int main(int argc, char **argv)
{
    unsigned share = argc > 1 ? (unsigned)strtoul(argv[1], NULL, 0) : 1;
    int i, few = 0;

    share = share == 0 ? 1 : share;
    state = argc > 2 ? strtoull(argv[2], NULL, 0) : UINT64_C(0x444F4E474C4F5241);
    state = state == 0 ? 1 : state; /* zero would stay zero */
    try_known();
    try_all(share);
    try_outside();
    try_random(RANDOM / share);
    for (i = 0; i < OUTCOMES; i++) {
        printf("%s: %lu\n", names[i], seen[i]);
        few += seen[i] < LEAST;
    }
    if (few > 0) {
        printf("airtime in " LANGUAGE ": %lu calls, but %d outcomes were hardly seen\n", calls, few);
        return 1;
    }
    printf("airtime in " LANGUAGE ": %lu checks, 0 failed\n", calls);
    return 0;
}
