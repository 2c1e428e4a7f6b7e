/*
 * The ledger of open tags, against an observer. The observer does not look at the words: it sees the calls
 * and what they give, and keeps for each of the 65,535 tags whether a command with it is open. So it knows
 * what each call must give: the number, the tag, the line, the report. It follows lists of calls from a new
 * ledger: short ones, and a long one in which the tags come round again and again, also with all lines open.
 *
 * A refusal, and an answer that is nobody's or unexpected, must leave all words as they were, and a refusal
 * the tag and the line too. What stands around them must stay in any case. What the words hold is the
 * subject of tests/ledger_words.c.
 *
 * Usage: ledger [ROUNDS [SEED]]: in each round there are 200 short lists, and in the long one the tags come
 * round three times; the seed is decimal, or 0x and hex. This file is compiled as C99 and as C++11.
 */
#include "donglora.h"

#include <stddef.h>
#include <stdio.h>
#include <stdlib.h>
#include <string.h>

#ifdef __cplusplus
#define LANGUAGE "C++"
#else
#define LANGUAGE "C"
#endif

#define ROUNDS 6
#define LISTS 200      /* short lists in each round */
#define LIST_CALLS 400 /* and calls in each of them */
#define LINES DONGLORA_LEDGER_LINES
#define LAST 0xFFFF /* the last tag before 1 comes again */
#define LATELY 32   /* so many tags that were closed last are remembered */
#define GUARD 8

/* ---- What is counted: a test that never gets somewhere has not tested it. ---- */

enum outcome {
    OPENED, PASSED, WRAPPED, FULL, FULL_NO_COMMAND, NO_COMMAND,
    OK_CLOSES, OK_ACCEPTS, ERR_CLOSES, ERR_CLOSES_TX, DONE_CLOSES, RX_NOBODYS, RX_WITH_TAG, ERR_NOBODYS,
    OK_AGAIN, ERR_LATE, DONE_EARLY, NOT_OPEN, TAG_ZERO, NO_ANSWER, CONNECTED, OUTCOMES
};

/* Each outcome, and how often it must be seen at least. */
static const struct {
    const char *name;
    unsigned long least;
} outcomes[OUTCOMES] = {
    {"opened", 1000}, {"opened, and open tags passed over", 5}, {"opened, and on from 0xFFFF to 1", 3},
    {"LEDGER", 1000}, {"LEDGER, and no command", 100}, {"TYPE", 100}, {"OK closes", 1000},
    {"OK to a TX", 1000}, {"ERR closes", 1000}, {"ERR closes a TX", 1000}, {"TX_DONE closes", 1000},
    {"RX", 100}, {"RX with a tag", 100}, {"ERR with tag 0", 100}, {"OK to an accepted TX", 100},
    {"ERR to an accepted TX", 100}, {"TX_DONE before its OK", 100}, {"a tag that is not open", 1000},
    {"OK or TX_DONE with tag 0", 100}, {"a type that is no answer", 100}, {"a new connection", 100},
};

static unsigned long calls, checks, seen[OUTCOMES];

static void check(int holds, const char *condition, int line)
{
    checks++;
    if (!holds) {
        printf("ledger.c line %d, call %lu: not so: %s\n", line, calls, condition);
        exit(1);
    }
}

#define CHECK(condition) check((condition) ? 1 : 0, #condition, __LINE__)

/* ---- Pseudo-random numbers: xorshift. ---- */

static uint64_t state;

static uint32_t draw(void)
{
    state ^= state >> 12;
    state ^= state << 25;
    state ^= state >> 27;
    return (uint32_t)((state * UINT64_C(0x2545F4914F6CDD1D)) >> 32);
}

static unsigned below(unsigned end)
{
    return (unsigned)(draw() % end);
}

/* ---- Memory: what is lent, and what it held before a call. ---- */

struct memory {
    uint32_t front[GUARD], ledger[DONGLORA_LEDGER_WORDS], behind[GUARD];
    uint16_t front_tag[GUARD], tag, behind_tag[GUARD];
    uint8_t front_line[GUARD], line, behind_line[GUARD];
};

static struct memory lent, was;

/* Before a call. The tag and the line hold anything. */
static void before(void)
{
    calls++;
    lent.tag = (uint16_t)draw();
    lent.line = (uint8_t)draw();
    memcpy(&was, &lent, sizeof was);
}

/* After a call that changes nothing. */
static void unchanged(void)
{
    CHECK(memcmp(&was, &lent, sizeof was) == 0);
}

/* After a call that may change the words; and the tag and the line, if they were lent too. */
static void guarded(int opens)
{
    memcpy(was.ledger, lent.ledger, sizeof was.ledger);
    if (opens) {
        was.tag = lent.tag;
        was.line = lent.line;
    }
    unchanged();
}

/* ---- The observer, and the calls that it sees. ---- */

enum progress { CLOSED, WAITS, ACCEPTED };

/* What the observer knows of each tag, and which tag each line has; 0 where it is free. */
static struct {
    uint8_t progress, command, line;
} known[LAST + 1];
static uint16_t on_line[LINES];
static unsigned open_lines, closings;
static uint16_t last_tag, lately[LATELY];

static void close_tag(uint16_t tag)
{
    known[tag].progress = CLOSED;
    on_line[known[tag].line] = 0;
    open_lines--;
    lately[closings++ % LATELY] = tag;
}

static void close_all(void)
{
    for (int n = 0; n < LINES; n++)
        if (on_line[n] != 0)
            close_tag(on_line[n]);
}

static void start(void)
{
    for (int n = 0; n < DONGLORA_LEDGER_WORDS; n++)
        lent.ledger[n] = draw();
    before();
    donglora_ledger_new(lent.ledger);
    guarded(0);
    close_all();
    last_tag = 0;
}

static void connect_anew(void)
{
    before();
    donglora_ledger_connect(lent.ledger);
    guarded(0);
    seen[CONNECTED] += open_lines > 0;
    close_all();
}

static int is_command(unsigned type)
{
    return type >= DONGLORA_PING && type <= DONGLORA_RX_STOP;
}

/* Opens a command. Answers how many open tags were passed over. */
static int open_command(uint8_t command)
{
    uint8_t number;
    uint16_t tag = last_tag;
    int line = 0, passed = -1;

    before();
    number = donglora_ledger_open(lent.ledger, command, &lent.tag, &lent.line);
    if (open_lines == LINES || !is_command(command)) {
        CHECK(number == (open_lines == LINES ? DONGLORA_LEDGER : DONGLORA_TYPE));
        unchanged();
        seen[open_lines < LINES ? NO_COMMAND : is_command(command) ? FULL : FULL_NO_COMMAND]++;
        return 0;
    }
    do {
        tag = tag == LAST ? 1 : (uint16_t)(tag + 1);
        passed++;
    } while (known[tag].progress != CLOSED);
    while (on_line[line] != 0)
        line++;
    CHECK(number == DONGLORA_TAKEN);
    CHECK(lent.tag == tag && lent.line == line);
    guarded(1);
    seen[tag < last_tag ? WRAPPED : OPENED]++;
    seen[PASSED] += passed > 0;
    known[tag].progress = WAITS;
    known[tag].command = command;
    known[tag].line = (uint8_t)line;
    on_line[line] = last_tag = tag;
    open_lines++;
    return passed;
}

/* What kind of answer is nobody's or unexpected. The tag 0 is never open. */
static enum outcome kind_of(uint8_t type, uint16_t tag)
{
    if (type == DONGLORA_RX)
        return tag == 0 ? RX_NOBODYS : RX_WITH_TAG;
    if (type != DONGLORA_OK && type != DONGLORA_ERR && type != DONGLORA_TX_DONE)
        return NO_ANSWER;
    if (tag == 0)
        return type == DONGLORA_ERR ? ERR_NOBODYS : TAG_ZERO;
    if (known[tag].progress == CLOSED)
        return NOT_OPEN;
    return type == DONGLORA_TX_DONE ? DONE_EARLY : type == DONGLORA_OK ? OK_AGAIN : ERR_LATE;
}

static void answer(uint8_t type, uint16_t tag)
{
    int progress = known[tag].progress, is_tx = known[tag].command == DONGLORA_TX;
    int nobodys = type == DONGLORA_RX || (type == DONGLORA_ERR && tag == 0);
    struct donglora_report report;

    before();
    report = donglora_ledger_answer(lent.ledger, type, tag);
    if (progress == WAITS && type == DONGLORA_OK && is_tx) {
        CHECK(report.verdict == DONGLORA_FITS && report.closed == 0);
        known[tag].progress = ACCEPTED;
        seen[OK_ACCEPTS]++;
    } else if ((progress == WAITS && (type == DONGLORA_OK || type == DONGLORA_ERR)) ||
               (progress == ACCEPTED && type == DONGLORA_TX_DONE)) {
        CHECK(report.verdict == DONGLORA_FITS && report.closed == 1);
        close_tag(tag);
        seen[type == DONGLORA_OK ? OK_CLOSES : type == DONGLORA_TX_DONE ? DONE_CLOSES :
             is_tx ? ERR_CLOSES_TX : ERR_CLOSES]++;
    } else {
        CHECK(report.verdict == (nobodys ? DONGLORA_NOBODYS : DONGLORA_UNEXPECTED));
        CHECK(report.command == 0 && report.line == 0 && report.closed == 0);
        unchanged();
        seen[kind_of(type, tag)]++;
        return;
    }
    CHECK(report.command == known[tag].command && report.line == known[tag].line);
    guarded(0);
}

/* The answer that closes a command, or leads to that. */
static uint8_t good_type(uint16_t tag)
{
    return known[tag].progress == ACCEPTED ? DONGLORA_TX_DONE : below(8) == 0 ? DONGLORA_ERR : DONGLORA_OK;
}

/* ---- Lists of calls. ---- */

/* An answer: most often to an open command; or with a tag that was closed lately, that comes next, or any. */
static void any_answer(void)
{
    static const uint8_t types[] = {DONGLORA_OK, DONGLORA_ERR, DONGLORA_RX, DONGLORA_TX_DONE};
    uint16_t tag = on_line[below(LINES)];
    unsigned kind = below(16);

    if (kind < 3)
        tag = lately[below(LATELY)];
    else if (kind == 3)
        tag = (uint16_t)(last_tag + 1 + below(3));
    else if (kind == 4)
        tag = (uint16_t)draw();
    kind = below(32);
    answer(kind > 8 ? good_type(tag) : kind > 0 ? types[below(4)] : (uint8_t)draw(), tag);
}

/* So many calls. By turns there are more commands or more answers: the lines fill, and get free again. */
static void any_calls(unsigned n)
{
    for (unsigned eager = 4; n > 0; n--) {
        if (n % 32 == 0)
            eager = 1 + below(7);
        if (below(1000) == 0)
            connect_anew();
        else if (below(8) < eager)
            open_command((uint8_t)(below(32) == 0 ? draw() : below(3) == 0 ? DONGLORA_TX : 1 + below(6)));
        else
            any_answer();
    }
}

/* Opens and closes commands until a tag has been given. Answers how many commands that were. */
static unsigned go_to(uint16_t tag)
{
    unsigned given = 0;

    for (; last_tag != tag; given++) {
        open_command(DONGLORA_PING);
        answer(DONGLORA_OK, last_tag);
    }
    return given;
}

/* Answers one command until it is closed. */
static void answer_one(uint16_t tag)
{
    while (known[tag].progress != CLOSED)
        answer(good_type(tag), tag);
}

/*
 * The tags come round three times. First at random. Then some commands stay open, and at the end so many
 * more that all lines are open across it. Then one line is closed, and all other tags come round on it.
 */
static void go_round(void)
{
    for (unsigned long wraps = seen[WRAPPED]; seen[WRAPPED] == wraps;)
        any_calls(100);
    for (int n = 0; n < LINES; n++)
        answer_one(on_line[n]);
    for (uint16_t part = 1; part <= 4; part++) {
        go_to((uint16_t)(LAST / 5 * part));
        open_command(DONGLORA_TX);
    }
    go_to(LAST - 6);
    for (int n = 4; n < LINES; n++)
        open_command(n % 2 == 0 ? DONGLORA_TX : DONGLORA_SET_CONFIG);
    CHECK(open_lines == LINES && on_line[9] == LAST && on_line[10] == 1 && on_line[15] == 6);
    for (int n = 0; n < LINES; n += 4)
        answer(DONGLORA_OK, on_line[n]);
    open_command(DONGLORA_PING);
    answer_one(6);
    CHECK(go_to(LAST - 6) == LAST - 16); /* all tags from 7 on but the four */
    CHECK(open_command(DONGLORA_RX_START) == 11 && last_tag == 6);
    for (int i = 0; i < 64; i++) { /* full again and again, each time with another tag */
        answer_one(on_line[below(LINES)]);
        open_command(DONGLORA_TX);
        open_command(DONGLORA_TX);
    }
}

/* The header's story, by hand. */
static void check_known(void)
{
    struct donglora_report report;

    CHECK(DONGLORA_LEDGER == 11 && DONGLORA_LEDGER_WORDS == 17 && DONGLORA_LEDGER_LINES == 16);
    CHECK(DONGLORA_UNEXPECTED == 0 && DONGLORA_NOBODYS == 1 && DONGLORA_FITS == 2);
    CHECK(sizeof report == 4 && offsetof(struct donglora_report, verdict) == 0);
    CHECK(offsetof(struct donglora_report, command) == 1 && offsetof(struct donglora_report, line) == 2);
    CHECK(offsetof(struct donglora_report, closed) == 3);
    start();
    open_command(DONGLORA_GET_INFO);
    CHECK(lent.tag == 1 && lent.line == 0);
    open_command(DONGLORA_TX);
    CHECK(lent.tag == 2 && lent.line == 1);
    answer(DONGLORA_OK, 1);
    answer(DONGLORA_OK, 2);
    answer(DONGLORA_OK, 2);
    open_command(DONGLORA_PING);
    CHECK(lent.tag == 3 && lent.line == 0);
    answer(DONGLORA_TX_DONE, 2);
    answer(DONGLORA_TX_DONE, 2);
    connect_anew();
    answer(DONGLORA_OK, 3);
    open_command(DONGLORA_PING);
    CHECK(lent.tag == 4 && lent.line == 0);
}

int main(int argc, char **argv)
{
    unsigned rounds = argc > 1 ? (unsigned)strtoul(argv[1], NULL, 0) : ROUNDS;
    int few = 0;

    state = argc > 2 ? strtoull(argv[2], NULL, 0) : UINT64_C(0x4C45444745523136);
    state = state == 0 ? 1 : state; /* zero would stay zero */
    memset(&lent, 0xA5, sizeof lent);
    check_known();
    for (unsigned i = 0; i < rounds * LISTS; i++) {
        start();
        any_calls(LIST_CALLS);
    }
    start();
    for (unsigned i = 0; i < rounds; i++)
        go_round();
    for (int i = 0; i < OUTCOMES; i++) {
        printf("%s: %lu\n", outcomes[i].name, seen[i]);
        few += seen[i] < outcomes[i].least;
    }
    if (few > 0) {
        printf("ledger in " LANGUAGE ": %lu calls, but %d outcomes were hardly seen\n", calls, few);
        return 1;
    }
    printf("ledger in " LANGUAGE ": %lu checks, 0 failed: %lu calls, %lu commands opened, %lu refused\n",
           checks, calls, seen[OPENED] + seen[WRAPPED],
           seen[FULL] + seen[FULL_NO_COMMAND] + seen[NO_COMMAND]);
    return 0;
}
