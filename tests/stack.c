/*
 * How much stack each function takes on a Cortex-M4, a Cortex-M0+ and RISC-V 32. Before each call the
 * stack below the stack pointer is painted, and after it the deepest word that has lost its paint is looked
 * for. The functions are called in their dearest cases, and the most that each took is printed.
 *
 * What is counted: the bytes below the stack pointer at the call, so all that the function keeps
 * there, and all that the functions keep that it calls, memcpy among them. What a caller passes on the
 * stack stands above, and is not counted: at most 56 bytes, for donglora_packet. No interrupts come, so
 * that each run counts the same.
 *
 * It fails where a function takes more than its bound, and where one was not called.
 */
#include "donglora.h"

#include <stdio.h>
#include <string.h>

/* So many words are painted, with this. */
#define DEPTH 1024
#define PAINT 0xC5A3965Au

enum function {
    POWER_UP,
    BYTE,
    TICK,
    DISCONNECT,
    CLEAR,
    BUSY,
    SENT,
    CONFIGURED,
    FAULT,
    PACKET,
    REQUEST,
    CRC16,
    COBS_ENCODE,
    COBS_DECODE,
    WRITE_COMMAND,
    READ_ANSWER,
    READ_RX,
    READ_TX_DONE,
    READ_FRAME,
    LEDGER_NEW,
    LEDGER_OPEN,
    LEDGER_ANSWER,
    LEDGER_CONNECT,
    AIRTIME,
    FUNCTIONS
};

/* The bytes that a function may take, on a Cortex-M4, a Cortex-M0+ and RISC-V 32. */
#if defined(__riscv)
#define BOUND(m4, m0, rv) (rv)
#elif defined(__ARM_ARCH_6M__)
#define BOUND(m4, m0, rv) (m0)
#else
#define BOUND(m4, m0, rv) (m4)
#endif

/* Each function, the bytes that it may take, and the most that it took in how many calls. */
static struct {
    const char *name;
    size_t bound;
    size_t most;
    unsigned calls;
} functions[FUNCTIONS] = {
    [POWER_UP] = {"donglora_power_up", BOUND(32, 64, 32), 0, 0},
    [BYTE] = {"donglora_byte", BOUND(1088, 1216, 1056), 0, 0},
    [TICK] = {"donglora_tick", BOUND(64, 96, 32), 0, 0},
    [DISCONNECT] = {"donglora_disconnect", BOUND(64, 96, 32), 0, 0},
    [CLEAR] = {"donglora_clear", BOUND(64, 96, 32), 0, 0},
    [BUSY] = {"donglora_busy", BOUND(608, 640, 544), 0, 0},
    [SENT] = {"donglora_sent", BOUND(928, 1120, 864), 0, 0},
    [CONFIGURED] = {"donglora_configured", BOUND(768, 832, 736), 0, 0},
    [FAULT] = {"donglora_fault", BOUND(1248, 1344, 1152), 0, 0},
    [PACKET] = {"donglora_packet", BOUND(128, 224, 128), 0, 0},
    [REQUEST] = {"donglora_request", BOUND(512, 544, 448), 0, 0},
    [CRC16] = {"donglora_crc16", BOUND(32, 32, 32), 0, 0},
    [COBS_ENCODE] = {"donglora_cobs_encode", BOUND(64, 96, 32), 0, 0},
    [COBS_DECODE] = {"donglora_cobs_decode", BOUND(64, 96, 32), 0, 0},
    [WRITE_COMMAND] = {"donglora_write_command", BOUND(448, 480, 384), 0, 0},
    [READ_ANSWER] = {"donglora_read_answer", BOUND(544, 576, 512), 0, 0},
    [READ_RX] = {"donglora_read_rx", BOUND(576, 608, 512), 0, 0},
    [READ_TX_DONE] = {"donglora_read_tx_done", BOUND(544, 576, 512), 0, 0},
    [READ_FRAME] = {"donglora_read_frame", BOUND(448, 480, 384), 0, 0},
    [LEDGER_NEW] = {"donglora_ledger_new", BOUND(32, 64, 32), 0, 0},
    [LEDGER_OPEN] = {"donglora_ledger_open", BOUND(160, 192, 160), 0, 0},
    [LEDGER_ANSWER] = {"donglora_ledger_answer", BOUND(192, 224, 192), 0, 0},
    [LEDGER_CONNECT] = {"donglora_ledger_connect", BOUND(32, 32, 32), 0, 0},
    [AIRTIME] = {"donglora_airtime", BOUND(128, 160, 96), 0, 0},
};

/* The dongle, the output that it is lent, and its last answer. */
static uint64_t control[DONGLORA_CONTROL];
static uint8_t run[DONGLORA_RUN];
static uint8_t commands[DONGLORA_COMMANDS];
static uint8_t packets[DONGLORA_PACKETS];
static uint8_t out[DONGLORA_OUT];
static struct donglora_answer answer;

/* What a host reads and writes. */
static uint8_t frame[DONGLORA_OUT];
static uint8_t body[DONGLORA_ENCODED_MAX];
static donglora_size written;

/* LoRa at SF 12, which has LDRO, and FSK with the longest sync word. */
static const uint8_t lora[] = {1, 0xA0, 0x27, 0xBE, 0x33, 12, 7, 0, 8, 0, 0x24, 0x14, 14, 0, 1, 0};
static const uint8_t fsk[] = {2, 0xA0, 0x27, 0xBE, 0x33, 0x50, 0xC3, 0, 0, 0xA8, 0x61, 0, 0,
                              10, 5, 0, 8, 1, 2, 3, 4, 5, 6, 7, 8};

static int failed;

/* ---- The stack. ---- */

static inline __attribute__((always_inline)) volatile uint32_t *stack_pointer(void)
{
    volatile uint32_t *sp;
#ifdef __riscv
    __asm__ volatile("mv %0, sp" : "=r"(sp));
#else
    __asm__ volatile("mov %0, sp" : "=r"(sp));
#endif
    return sp;
}

/* Paints the words below a stack pointer. It keeps nothing on the stack itself: see check_paint. */
static __attribute__((noinline)) void paint(volatile uint32_t *sp)
{
    volatile uint32_t *at;
    for (at = sp - DEPTH; at < sp; at++)
        *at = PAINT;
}

/* How many bytes below the stack pointer have lost their paint. */
static __attribute__((noinline)) size_t depth(const volatile uint32_t *sp)
{
    const volatile uint32_t *at = sp - DEPTH;
    while (at < sp && *at == PAINT)
        at++;
    return (size_t)(sp - at) * sizeof *at;
}

static void fail(const char *what, const char *why)
{
    printf("%s: %s\n", what, why);
    failed++;
}

static void note(enum function f, size_t bytes)
{
    functions[f].calls++;
    if (functions[f].most < bytes)
        functions[f].most = bytes;
}

/* Runs a call, and notes what it took. */
#define MEASURE(function, call)                 \
    do {                                        \
        paint(stack_pointer());                 \
        call;                                   \
        note(function, depth(stack_pointer())); \
    } while (0)

/* Keeps a word 20 bytes below the stack pointer. */
static __attribute__((naked, noinline)) void push_five(void)
{
#ifdef __riscv
    __asm__ volatile("sw ra, -20(sp)\n ret");
#else
    __asm__ volatile("push {r4-r7, lr}\n pop {r4-r7, pc}");
#endif
}

/* Paint that nobody takes away stays, and a function of a known depth has that depth. */
static void check_paint(void)
{
    size_t nothing, five;
    paint(stack_pointer());
    nothing = depth(stack_pointer());
    paint(stack_pointer());
    push_five();
    five = depth(stack_pointer());
    if (nothing != 0 || five != 20)
        fail("paint", "it does not tell the depth of a call");
}

/* ---- Every call is measured. ---- */

static void power_up(void)
{
    MEASURE(POWER_UP, donglora_power_up(control, run, commands, packets));
}

static void byte(uint8_t b)
{
    MEASURE(BYTE, donglora_byte(control, b, run, commands, out, sizeof out, &answer));
}

static void ticks(unsigned n)
{
    while (n-- > 0)
        MEASURE(TICK, donglora_tick(control, sizeof out, &answer));
}

static void disconnect(void)
{
    MEASURE(DISCONNECT, donglora_disconnect(control, sizeof out, &answer));
}

static void clear(void)
{
    MEASURE(CLEAR, donglora_clear(control, sizeof out, &answer));
}

static void busy(void)
{
    MEASURE(BUSY, donglora_busy(control, commands, out, sizeof out, &answer));
}

static void sent(void)
{
    MEASURE(SENT, donglora_sent(control, 0x12345678, commands, out, sizeof out, &answer));
}

static void configured(void)
{
    MEASURE(CONFIGURED, donglora_configured(control, commands, out, sizeof out, &answer));
}

static void fault(void)
{
    MEASURE(FAULT, donglora_fault(control, commands, out, sizeof out, &answer));
}

static void request(void)
{
    MEASURE(REQUEST, donglora_request(control, packets, out, sizeof out, &answer));
}

/* A packet of len bytes that are all b. */
static void packet(uint8_t b, size_t len)
{
    static uint8_t bytes[300];
    const struct donglora_packet_status status = {-820, 95, -125, UINT64_MAX, 1};
    memset(bytes, b, sizeof bytes);
    MEASURE(PACKET, donglora_packet(control, status, bytes, len, packets, sizeof out, &answer));
}

/* A command, written and sent. */
static void command(uint8_t type, const uint8_t *payload, size_t len)
{
    size_t i;
    uint8_t number;
    MEASURE(WRITE_COMMAND,
            number = donglora_write_command(type, 0x1234, payload, len, frame, sizeof frame, &written));
    if (number != DONGLORA_TAKEN)
        fail("donglora_write_command", "the command is refused");
    for (i = 0; i < written; i++)
        byte(frame[i]);
}

/* A TX with so many bytes that are all b. */
static void tx(uint8_t flags, uint8_t b, size_t len)
{
    uint8_t payload[1 + 255];
    memset(payload, b, sizeof payload);
    payload[0] = flags;
    command(DONGLORA_TX, payload, 1 + len);
}

/* A run of len bytes that are all b, and its zero. */
static void send_run(uint8_t b, size_t len)
{
    while (len-- > 0)
        byte(b);
    byte(0);
}

/* ---- The dearest cases. ---- */

/* The last event must have written, or not, and ordered this: else the case is not the one that is meant. */
static void expect(int writes, uint64_t order, const char *what)
{
    if (answer.number != DONGLORA_TAKEN || (answer.written > 0) != writes || answer.order != order)
        fail(what, "the dongle is not where it should be");
}

/* Configured from power-up on, by LoRa or FSK. */
static void configure(const uint8_t *payload, size_t len)
{
    power_up();
    command(DONGLORA_SET_CONFIG, payload, len);
    expect(0, DONGLORA_CONFIGURE, "SET_CONFIG");
    byte(1); /* it stalls */
    configured();
    expect(1, DONGLORA_NOTHING, "configured");
}

/* What needs no configuration, and damage: any run of 282 bytes, one that is no encoding, and a longer one. */
static void check_host(void)
{
    power_up();
    command(DONGLORA_PING, NULL, 0);
    expect(1, DONGLORA_NOTHING, "PING");
    command(DONGLORA_GET_INFO, NULL, 0);
    expect(1, DONGLORA_NOTHING, "GET_INFO");
    tx(1, 0x55, 255);
    send_run(1, 282);
    expect(1, DONGLORA_NOTHING, "282 bytes");
    send_run(0xFF, 282);
    send_run(2, 283);
    byte(0);
    MEASURE(BYTE, donglora_byte(control, 0, run, commands, out, DONGLORA_OUT - 1, &answer));
    disconnect();
    disconnect();
}

/* A SET_CONFIG, good, refused by the radio, and out of range; and one whose session has ended. */
static void check_config(void)
{
    uint8_t wrong[sizeof lora];
    configure(fsk, sizeof fsk);
    configure(lora, sizeof lora);
    memcpy(wrong, lora, sizeof lora);
    wrong[5] = 13;
    command(DONGLORA_SET_CONFIG, wrong, sizeof wrong);
    command(DONGLORA_RX_START, NULL, 0);
    command(DONGLORA_SET_CONFIG, lora, sizeof lora);
    fault();
    expect(1, DONGLORA_STANDBY, "fault");
    command(DONGLORA_SET_CONFIG, lora, sizeof lora);
    disconnect();
    configured();
    expect(0, DONGLORA_STANDBY, "configured");
    fault();
}

/* TX of 255 bytes: listening, busy, on air, sent and failed, with another that waits and without. */
static void check_tx(void)
{
    int waits;
    for (waits = 0; waits < 2; waits++) {
        configure(lora, sizeof lora);
        command(DONGLORA_RX_START, NULL, 0);
        tx(0, 0x55, 255);
        tx(0, 0x00, waits ? 255 : 1);
        busy();
        expect(1, DONGLORA_TRANSMIT, "busy");
        clear();
        sent();
        expect(1, DONGLORA_RECEIVE, "sent");
        clear();
        sent();
        tx(1, 0x55, waits ? 255 : 1);
        tx(1, 0x55, waits ? 255 : 1);
        fault();
        expect(1, DONGLORA_TRANSMIT, "fault");
        disconnect();
        sent();
        expect(0, DONGLORA_STANDBY, "an orphan is sent");
    }
}

/* 16 TX are open, with the first listening or on air, and a 17th comes. */
static void fill(uint8_t flags)
{
    int i;
    configure(lora, sizeof lora);
    for (i = 0; i < 17; i++)
        tx(flags, 0x55, 255);
    expect(1, DONGLORA_NOTHING, "EBUSY");
}

/* A SET_CONFIG ends them all: at once, after a sent, and after a fault. The session's end drops them. */
static void check_open(void)
{
    fill(0);
    command(DONGLORA_SET_CONFIG, fsk, sizeof fsk);
    expect(1, DONGLORA_CONFIGURE, "16 are cancelled");
    fill(1);
    command(DONGLORA_SET_CONFIG, fsk, sizeof fsk);
    expect(0, DONGLORA_NOTHING, "SET_CONFIG waits");
    sent();
    expect(1, DONGLORA_CONFIGURE, "sent, with a SET_CONFIG");
    fill(1);
    command(DONGLORA_SET_CONFIG, lora, sizeof lora);
    fault();
    expect(1, DONGLORA_CONFIGURE, "fault, with a SET_CONFIG");
    fill(0);
    busy();
    expect(1, DONGLORA_TRANSMIT, "busy, with 15");
    ticks(1000);
    expect(0, DONGLORA_STANDBY, "the session ends");
    fill(1);
    disconnect();
    expect(0, DONGLORA_NOTHING, "the host goes");
}

/* Packets of all lengths, with the ring full; and their delivery. */
static void check_reception(void)
{
    int i;
    configure(lora, sizeof lora);
    packet(0x55, 255); /* the radio does not receive */
    command(DONGLORA_RX_START, NULL, 0);
    for (i = 0; i < 70; i++)
        packet(i % 2 == 0 ? 0x55 : 0, i % 5 == 0 ? 300 : i % 5 == 1 ? 0 : 255);
    request();
    expect(1, DONGLORA_NOTHING, "request");
    MEASURE(REQUEST, donglora_request(control, packets, out, DONGLORA_OUT - 1, &answer));
    command(DONGLORA_RX_STOP, NULL, 0);
    expect(1, DONGLORA_STANDBY, "RX_STOP");
    for (i = 0; i < 64; i++)
        request();
    expect(0, DONGLORA_NOTHING, "no packet is left");
}

/* ---- A host's functions. ---- */

/* Encodes len bytes that are all b, and decodes them again; and reads them, damaged, as messages. */
static void check_codec(uint8_t b, size_t len)
{
    static uint8_t src[DONGLORA_BODY_MAX];
    static struct donglora_message m, any;
    static struct donglora_rx rx;
    static struct donglora_tx_done done;
    uint8_t number;
    memset(src, b, sizeof src);
    MEASURE(CRC16, donglora_crc16(src, len));
    MEASURE(COBS_ENCODE, number = donglora_cobs_encode(src, len, frame, sizeof frame, &written));
    MEASURE(COBS_DECODE, number |= donglora_cobs_decode(frame, written, body, sizeof body, &written));
    if (number != DONGLORA_TAKEN || written != len || memcmp(src, body, len) != 0)
        fail("donglora_cobs_decode", "the bytes do not come back");
    MEASURE(READ_ANSWER, m = donglora_read_answer(0, frame, 282, body, sizeof body));
    MEASURE(READ_RX, rx = donglora_read_rx(frame, 282, body, sizeof body));
    MEASURE(READ_TX_DONE, done = donglora_read_tx_done(frame, 282, body, sizeof body));
    MEASURE(READ_FRAME, any = donglora_read_frame(frame, 282, body, sizeof body));
    if (m.number == DONGLORA_TAKEN || rx.number == DONGLORA_TAKEN || done.number == DONGLORA_TAKEN
        || any.number == DONGLORA_TAKEN)
        fail("donglora_read_answer", "bytes that are no message are taken");
}

/* Reads what the dongle has written last, with all four readers; answers the type that it is. */
static uint8_t read_out(uint8_t asked)
{
    static struct donglora_message m, any;
    static struct donglora_rx rx;
    static struct donglora_tx_done done;
    MEASURE(READ_ANSWER, m = donglora_read_answer(asked, out, answer.written - 1, body, sizeof body));
    MEASURE(READ_RX, rx = donglora_read_rx(out, answer.written - 1, body, sizeof body));
    MEASURE(READ_TX_DONE, done = donglora_read_tx_done(out, answer.written - 1, body, sizeof body));
    MEASURE(READ_FRAME, any = donglora_read_frame(out, answer.written - 1, body, sizeof body));
    if ((rx.number == DONGLORA_TAKEN) != (m.type == DONGLORA_RX)
        || (done.number == DONGLORA_TAKEN) != (m.type == DONGLORA_TX_DONE) || any.type != m.type)
        fail("donglora_read_answer", "the readers differ");
    return m.type;
}

/* Each answer that a dongle gives is read: OK of three kinds, ERR, TX_DONE, and RX of 255 bytes. */
static void check_answers(void)
{
    int wrong = 0;
    power_up();
    command(DONGLORA_GET_INFO, NULL, 0);
    wrong += read_out(DONGLORA_GET_INFO) != DONGLORA_OK;
    command(DONGLORA_RX_START, NULL, 0);
    wrong += read_out(0) != DONGLORA_ERR;
    configure(fsk, sizeof fsk);
    wrong += read_out(DONGLORA_SET_CONFIG) != DONGLORA_OK;
    configure(lora, sizeof lora);
    wrong += read_out(DONGLORA_SET_CONFIG) != DONGLORA_OK;
    tx(1, 0x55, 255);
    wrong += read_out(DONGLORA_TX) != DONGLORA_OK;
    sent();
    wrong += read_out(0) != DONGLORA_TX_DONE;
    command(DONGLORA_RX_START, NULL, 0);
    packet(0, 255);
    request();
    wrong += read_out(0) != DONGLORA_RX;
    packet(0x55, 255);
    request();
    wrong += read_out(0) != DONGLORA_RX;
    if (wrong > 0)
        fail("donglora_read_answer", "an answer is of another type");
}

/* The ledger is filled, and a 17th command refused. The last is answered; then 15 open tags are passed over. */
static void check_ledger(void)
{
    static const uint8_t types[] = {DONGLORA_RX, DONGLORA_OK, DONGLORA_ERR, DONGLORA_TX_DONE, DONGLORA_OK};
    static const uint8_t verdicts[] = {DONGLORA_NOBODYS, DONGLORA_FITS, DONGLORA_UNEXPECTED, DONGLORA_FITS,
                                       DONGLORA_UNEXPECTED};
    static uint32_t ledger[DONGLORA_LEDGER_WORDS];
    static struct donglora_report report;
    static uint16_t tag;
    static uint8_t line;
    uint8_t number;
    int i, wrong = 0;
    MEASURE(LEDGER_NEW, donglora_ledger_new(ledger));
    for (i = 0; i < 17; i++) {
        MEASURE(LEDGER_OPEN, number = donglora_ledger_open(ledger, DONGLORA_TX, &tag, &line));
        wrong += number != (i < 16 ? DONGLORA_TAKEN : DONGLORA_LEDGER);
    }
    for (i = 0; i < 5; i++) {
        MEASURE(LEDGER_ANSWER, report = donglora_ledger_answer(ledger, types[i], 16));
        wrong += report.verdict != verdicts[i];
    }
    ledger[0] -= 16; /* the next tag is looked for from 1 on */
    MEASURE(LEDGER_OPEN, number = donglora_ledger_open(ledger, DONGLORA_TX, &tag, &line));
    wrong += number != DONGLORA_TAKEN || tag != 16 || line != 15;
    MEASURE(LEDGER_CONNECT, donglora_ledger_connect(ledger));
    MEASURE(LEDGER_ANSWER, report = donglora_ledger_answer(ledger, DONGLORA_OK, 16));
    wrong += report.verdict != DONGLORA_UNEXPECTED;
    if (wrong > 0)
        fail("donglora_ledger_open", "the ledger is not where it should be");
}

/* The time on air of the longest packet, with LDRO and without; of one that takes too long, and of a wrong value. */
static void check_airtime(void)
{
    static const struct donglora_air airs[] = {{12, 7, 3, 0, 1, 8, 255}, {7, 7, 3, 0, 1, 8, 255},
                                               {12, 0, 3, 0, 1, 65535, 255}, {13, 7, 3, 0, 1, 8, 255}};
    static const uint8_t numbers[] = {DONGLORA_TAKEN, DONGLORA_TAKEN, DONGLORA_WIDE, DONGLORA_AIR};
    static uint32_t us;
    uint8_t number;
    int i;
    for (i = 0; i < 4; i++) {
        MEASURE(AIRTIME, number = donglora_airtime(airs[i], &us));
        if (number != numbers[i])
            fail("donglora_airtime", "another answer comes");
    }
}

/* Prints the table, and answers which function takes most. */
static int table(void)
{
    int f, largest = 0;
    for (f = 0; f < FUNCTIONS; f++) {
        printf("%s %u\n", functions[f].name, (unsigned)functions[f].most);
        if (functions[f].calls == 0)
            fail(functions[f].name, "it was not called");
        if (functions[f].most > functions[f].bound)
            fail(functions[f].name, "it takes more than its bound");
        if (functions[f].most > functions[largest].most)
            largest = f;
    }
    return largest;
}

int main(void)
{
    int largest;
    check_paint();
    check_host();
    check_config();
    check_tx();
    check_open();
    check_reception();
    check_codec(0x55, DONGLORA_BODY_MAX);
    check_codec(0, DONGLORA_BODY_MAX);
    check_answers();
    check_ledger();
    check_airtime();
    largest = table();
    printf("stack: %d functions, %d failed; the most is %u bytes, by %s\n", FUNCTIONS, failed,
           (unsigned)functions[largest].most, functions[largest].name);
    return failed == 0 ? 0 : 1;
}
