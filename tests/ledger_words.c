/*
 * The ledger's words: each call on words that hold anything, against a model by the header's layout. The
 * words are random, or near those that matter: a counter of 0 or 0xFFFF, all lines open or all but one, tags
 * that stand in several lines or come next, tag 0 in an open line, marks over 1, commands that are none.
 *
 * The model tells all that a call may change. No other bit of the words, of the tag, of the line and of
 * what stands around them may differ. The header does not say what a free line holds: so the word of a
 * line may change when it is freed, and then only.
 *
 * Usage: ledger_words [CALLS [SEED]]; the seed is decimal, or 0x and hex. This file is compiled as C99 and
 * as C++11.
 */
#include "donglora.h"

#include <stdio.h>
#include <stdlib.h>
#include <string.h>

#ifdef __cplusplus
#define LANGUAGE "C++"
#else
#define LANGUAGE "C"
#endif

#define CALLS 2000000
#define LEAST 20 /* how often each outcome must be seen, at least */
#define LINES DONGLORA_LEDGER_LINES
#define GUARD 8

/* ---- What is counted: a test that never gets somewhere has not tested it. ---- */

enum outcome {
    OPENED, PASSED, PASSED_ALL, WRAPPED, COUNTER_ZERO, FULL, FULL_NO_COMMAND, NO_COMMAND,
    OK_CLOSES, OK_ACCEPTS, ERR_CLOSES, ERR_CLOSES_TX, DONE_CLOSES, ODD_MARK, ODD_COMMAND, LOWEST,
    RX_NOBODYS, ERR_NOBODYS, NO_ANSWER, TAG_ZERO, ZERO_OPEN, NOT_OPEN, STALE, OK_AGAIN, ERR_LATE,
    DONE_EARLY, HIDDEN, CONNECTED, OUTCOMES
};

static const char *const names[OUTCOMES] = {
    "opened", "open tags passed over", "15 open tags passed over", "on from 0xFFFF to 1", "a counter of 0",
    "LEDGER", "LEDGER, and no command", "TYPE", "OK closes", "OK to a TX", "ERR closes", "ERR closes a TX",
    "TX_DONE closes", "a mark over 1", "a command that is none", "the lowest of two lines fits", "RX",
    "ERR with tag 0", "a type that is no answer", "OK or TX_DONE with tag 0", "the same, with that tag open",
    "a tag that is nowhere", "a tag of a free line", "OK to an accepted TX", "ERR to an accepted TX",
    "TX_DONE before its OK", "the lowest of two lines does not fit", "a new connection",
};

static unsigned long calls, checks, seen[OUTCOMES];

static void check(int holds, const char *condition, int line)
{
    checks++;
    if (!holds) {
        printf("ledger_words.c line %d, call %lu: not so: %s\n", line, calls, condition);
        exit(1);
    }
}

#define CHECK(condition) check((condition) ? 1 : 0, #condition, __LINE__)

/* ---- Pseudo-random numbers: xorshift. ---- */

static uint64_t state;

static uint32_t draw(void)
{
    state ^= state >> 12;
    state ^= state << 25;
    state ^= state >> 27;
    return (uint32_t)((state * UINT64_C(0x2545F4914F6CDD1D)) >> 32);
}

static unsigned below(unsigned end)
{
    return (unsigned)(draw() % end);
}

static unsigned one_of(const unsigned *numbers, unsigned count)
{
    return numbers[below(count)];
}

#define ONE_OF(numbers) one_of(numbers, sizeof numbers / sizeof numbers[0])

/* ---- Memory: what is lent, and what must stand there after a call. ---- */

struct memory {
    uint32_t front[GUARD], ledger[DONGLORA_LEDGER_WORDS], behind[GUARD];
    uint16_t front_tag[GUARD], tag, behind_tag[GUARD];
    uint8_t front_line[GUARD], line, behind_line[GUARD];
};

static struct memory lent, due;

/* ---- The model: a ledger as the header lays it out. ---- */

struct line {
    unsigned open, tag, command, mark;
};

static struct line lines[LINES];
static unsigned counter;

static void unpack_line(int n, uint32_t word)
{
    lines[n].tag = word % 0x10000;
    lines[n].command = word / 0x10000 % 0x100;
    lines[n].mark = word / 0x1000000;
}

static void unpack(const uint32_t *words)
{
    unsigned open = words[0] / 0x10000;

    counter = words[0] % 0x10000;
    for (int n = 0; n < LINES; n++, open /= 2) {
        lines[n].open = open % 2;
        unpack_line(n, words[1 + n]);
    }
}

static void pack(uint32_t *words)
{
    uint32_t bit = 0x10000;

    words[0] = counter;
    for (int n = 0; n < LINES; n++, bit *= 2) {
        words[0] += lines[n].open * bit;
        words[1 + n] = (uint32_t)(lines[n].mark * 0x1000000u + lines[n].command * 0x10000u + lines[n].tag);
    }
}

/* The lowest line from `from` on that is open, or is free, and has this tag; else LINES. */
static int line_of(int from, unsigned open, unsigned tag)
{
    while (from < LINES && !(lines[from].open == open && lines[from].tag == tag))
        from++;
    return from;
}

static int is_command(unsigned type)
{
    return type >= DONGLORA_PING && type <= DONGLORA_RX_STOP;
}

/* ---- Calls. ---- */

/* Before a call. The tag and the line hold anything. */
static void before(void)
{
    calls++;
    lent.tag = (uint16_t)draw();
    lent.line = (uint8_t)draw();
    memcpy(&due, &lent, sizeof due);
    unpack(lent.ledger);
}

/* After a call: all is as it must be. */
static void compare(void)
{
    pack(due.ledger);
    CHECK(memcmp(&due, &lent, sizeof due) == 0);
}

/* A line is freed: its word may be another now. */
static void free_line(int n)
{
    lines[n].open = 0;
    unpack_line(n, lent.ledger[1 + n]);
}

static void call_new(void)
{
    before();
    donglora_ledger_new(lent.ledger);
    counter = 1;
    for (int n = 0; n < LINES; n++)
        free_line(n);
    compare();
}

static void call_connect(void)
{
    unsigned open = 0;

    before();
    donglora_ledger_connect(lent.ledger);
    for (int n = 0; n < LINES; n++) {
        open += lines[n].open;
        free_line(n);
    }
    seen[CONNECTED] += open > 0;
    compare();
}

/* A command that is opened: its line, and its tag. */
static void expect_opened(int n, uint8_t command)
{
    unsigned tag = counter, passed = 0;

    for (; tag == 0 || line_of(0, 1, tag) < LINES; tag = (tag + 1) % 0x10000)
        passed += tag != 0;
    seen[OPENED]++;
    seen[PASSED] += passed > 0;
    seen[PASSED_ALL] += passed == LINES - 1;
    seen[WRAPPED] += tag < counter;
    seen[COUNTER_ZERO] += counter == 0;
    lines[n].open = 1;
    lines[n].tag = tag;
    lines[n].command = command;
    lines[n].mark = 0;
    /* After the last tag the counter may be 1, or 0, which is passed over. */
    counter = tag == 0xFFFF && lent.ledger[0] % 0x10000 != 0 ? 1 : (tag + 1) % 0x10000;
    due.tag = (uint16_t)tag;
    due.line = (uint8_t)n;
}

static void call_open(uint8_t command)
{
    uint8_t number;
    int n = 0;

    before();
    number = donglora_ledger_open(lent.ledger, command, &lent.tag, &lent.line);
    while (n < LINES && lines[n].open)
        n++;
    if (n == LINES) {
        CHECK(number == DONGLORA_LEDGER);
        seen[is_command(command) ? FULL : FULL_NO_COMMAND]++;
    } else if (!is_command(command)) {
        CHECK(number == DONGLORA_TYPE);
        seen[NO_COMMAND]++;
    } else {
        CHECK(number == DONGLORA_TAKEN);
        expect_opened(n, command);
    }
    compare();
}

/* An answer that fits a line. */
static void expect_fits(int n, uint8_t type, struct donglora_report *report)
{
    struct line *line = &lines[n];
    int is_tx = line->command == DONGLORA_TX;

    seen[ODD_MARK] += line->mark > 1;
    seen[ODD_COMMAND] += !is_command(line->command);
    seen[LOWEST] += line_of(n + 1, 1, line->tag) < LINES;
    report->verdict = DONGLORA_FITS;
    report->command = (uint8_t)line->command;
    report->line = (uint8_t)n;
    if (type == DONGLORA_OK && is_tx) {
        seen[OK_ACCEPTS]++;
        line->mark = 1;
        return;
    }
    seen[type == DONGLORA_OK ? OK_CLOSES : type == DONGLORA_TX_DONE ? DONE_CLOSES :
         is_tx ? ERR_CLOSES_TX : ERR_CLOSES]++;
    report->closed = 1;
    free_line(n);
}

/* An answer, and what it is. */
static void expect_answer(uint8_t type, unsigned tag, struct donglora_report *report)
{
    int n = line_of(0, 1, tag), accepted;

    if (type == DONGLORA_RX || (type == DONGLORA_ERR && tag == 0)) {
        seen[type == DONGLORA_RX ? RX_NOBODYS : ERR_NOBODYS]++;
        report->verdict = DONGLORA_NOBODYS;
        return;
    }
    report->verdict = DONGLORA_UNEXPECTED;
    if (type != DONGLORA_OK && type != DONGLORA_ERR && type != DONGLORA_TX_DONE) {
        seen[NO_ANSWER]++;
        return;
    }
    if (tag == 0 || n == LINES) {
        seen[tag == 0 ? (n < LINES ? ZERO_OPEN : TAG_ZERO) : line_of(0, 0, tag) < LINES ? STALE : NOT_OPEN]++;
        return;
    }
    accepted = lines[n].command == DONGLORA_TX && lines[n].mark == 1;
    if (accepted == (type == DONGLORA_TX_DONE)) {
        expect_fits(n, type, report);
        return;
    }
    seen[HIDDEN] += line_of(n + 1, 1, tag) < LINES;
    seen[type == DONGLORA_TX_DONE ? DONE_EARLY : type == DONGLORA_OK ? OK_AGAIN : ERR_LATE]++;
}

static void call_answer(uint8_t type, uint16_t tag)
{
    struct donglora_report report, expected = {0, 0, 0, 0};

    before();
    report = donglora_ledger_answer(lent.ledger, type, tag);
    expect_answer(type, tag, &expected);
    CHECK(report.verdict == expected.verdict && report.command == expected.command);
    CHECK(report.line == expected.line && report.closed == expected.closed);
    compare();
}

/* ---- Words. ---- */

/* Words near those that matter. */
static void draw_words(void)
{
    static const unsigned counters[] = {0, 1, 2, 0xFFF1, 0xFFF8, 0xFFFE, 0xFFFF};
    static const unsigned commands[] = {0, 1, 2, 3, 4, 4, 4, 4, 5, 6, 7, 0x40, 0x80, 0xC1, 0xFF};
    static const unsigned marks[] = {0, 0, 0, 1, 1, 1, 2, 3, 0x80, 0xFF};
    static const unsigned opens[] = {0, 0xFFFF, 0xFFFF, 0xFFFE, 0x7FFF};
    unsigned open = below(2) == 0 ? draw() : below(3) == 0 ? ~(1u << below(16)) : ONE_OF(opens);
    unsigned scattered = below(3), turn = below(LINES);

    counter = below(2) == 0 ? ONE_OF(counters) : draw() % 0x10000;
    for (int n = 0; n < LINES; n++, open /= 2) {
        /* The tags that come next, each in a line, in some order; or some of them, or any. */
        unsigned ahead = scattered == 0 ? (7 * (unsigned)n + turn) % LINES : below(6);

        lines[n].open = open % 2;
        lines[n].tag = scattered == 2 && below(2) == 0 ? draw() % 0x10000 : (counter + ahead) % 0x10000;
        lines[n].command = ONE_OF(commands);
        lines[n].mark = ONE_OF(marks);
    }
    pack(lent.ledger);
}

/* Some words, and some calls on what they become. */
static void try_words(void)
{
    static const unsigned types[] = {DONGLORA_OK, DONGLORA_OK, DONGLORA_ERR, DONGLORA_ERR, DONGLORA_TX_DONE,
                                     DONGLORA_TX_DONE, DONGLORA_RX, DONGLORA_TX, 0x00, 0x82, 0xC2};

    draw_words();
    if (below(4) == 0)
        for (int n = 0; n < DONGLORA_LEDGER_WORDS; n++)
            lent.ledger[n] = draw();
    for (unsigned n = 1 + below(8); n > 0; n--) {
        unsigned kind = below(64);
        unsigned tag = below(16) == 0 ? draw() : below(8) == 0 ? 0 : lent.ledger[1 + below(LINES)];

        if (kind < 2)
            call_connect();
        else if (kind < 3)
            call_new();
        else if (kind < 20)
            call_open((uint8_t)(below(8) == 0 ? draw() : 1 + below(6)));
        else
            call_answer((uint8_t)(below(32) == 0 ? draw() : ONE_OF(types)), (uint16_t)tag);
    }
}

int main(int argc, char **argv)
{
    unsigned long most = argc > 1 ? strtoul(argv[1], NULL, 0) : CALLS;
    int few = 0;

    state = argc > 2 ? strtoull(argv[2], NULL, 0) : UINT64_C(0x4C45444745523137);
    state = state == 0 ? 1 : state; /* zero would stay zero */
    memset(&lent, 0xA5, sizeof lent);
    while (calls < most)
        try_words();
    for (int i = 0; i < OUTCOMES; i++) {
        printf("%s: %lu\n", names[i], seen[i]);
        few += seen[i] < LEAST;
    }
    if (few > 0) {
        printf("ledger's words in " LANGUAGE ": %lu calls, but %d outcomes were hardly seen\n", calls, few);
        return 1;
    }
    printf("ledger's words in " LANGUAGE ": %lu checks, 0 failed: %lu calls\n", checks, calls);
    return 0;
}
