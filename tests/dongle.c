/*
 * The dongle through the header, as a C or C++ program sees it: 01's known values and boundaries, one
 * conversation after the other. This file is compiled as C99 and as C++11.
 */
#include "donglora.h"

#include <stddef.h>
#include <stdio.h>
#include <string.h>

static int checks;
static int failed;

#ifdef __cplusplus
#define LANGUAGE "C++"
#else
#define LANGUAGE "C"
#endif

#define CHECK(condition) check((condition) ? 1 : 0, #condition, __LINE__)

static void check(int holds, const char *condition, int line)
{
    checks++;
    if (!holds) {
        failed++;
        printf("dongle.c line %d: %s\n", line, condition);
    }
}

static uint64_t control[DONGLORA_CONTROL];
static uint8_t run[DONGLORA_RUN];
static uint8_t commands[DONGLORA_COMMANDS];
static uint8_t packets[DONGLORA_PACKETS];
static uint8_t out[DONGLORA_OUT];
static struct donglora_answer answer;

/* LoRa, 868.1 MHz, SF 7, 125 kHz, 4/5, preamble 8, sync word 0x1424, 14 dBm, CRC. */
static const char config[] = "\x01\xA0\x27\xBE\x33\x07\x07\x00\x08\x00\x24\x14\x0E\x00\x01\x00";

#define POWER 12 /* where the power stands in it */

static void power_up(void)
{
    donglora_power_up(control, run, commands, packets);
}

/* Offers bytes until one is refused. The last answer stays. */
static void bytes(const uint8_t *src, size_t len)
{
    for (size_t i = 0; i < len; i++) {
        donglora_byte(control, src[i], run, commands, out, sizeof out, &answer);
        if (answer.number != DONGLORA_TAKEN)
            return;
    }
}

/* Sends a command. */
static void command(uint8_t type, uint16_t tag, const char *payload, size_t len)
{
    uint8_t frame[DONGLORA_FRAME_ROOM(DONGLORA_PAYLOAD_MAX)];
    donglora_size n = 0;

    CHECK(donglora_write_command(type, tag, (const uint8_t *)payload, len, frame, sizeof frame, &n) == DONGLORA_TAKEN);
    bytes(frame, n);
}

/* Whether the last event was taken and wrote these bytes. */
static int wrote(const char *expected, size_t len)
{
    return answer.number == DONGLORA_TAKEN && answer.written == len && memcmp(out, expected, len) == 0;
}

#define WROTE(text) wrote(text, sizeof text - 1)

/* Whether the one frame that was written is an answer of this type and tag, and an ERR of this code. */
static int told(uint8_t type, uint16_t tag, unsigned code)
{
    uint8_t body[DONGLORA_ENCODED_MAX];
    struct donglora_message m = donglora_read_answer(0, out, (size_t)answer.written - 1, body, sizeof body);

    return answer.number == DONGLORA_TAKEN && answer.written > 0 && out[answer.written - 1] == 0 &&
           m.number == DONGLORA_TAKEN && m.type == type && m.tag == tag &&
           (type != DONGLORA_ERR || (body[DONGLORA_PAYLOAD] | body[DONGLORA_PAYLOAD + 1] << 8) == (int)code);
}

/* Whether an event is refused with a number, and changes nothing. */
#define REFUSES(call, expected)                                                                     \
    do {                                                                                            \
        uint64_t before[DONGLORA_CONTROL];                                                          \
        memcpy(before, control, sizeof before);                                                     \
        memset(out, 0xA5, sizeof out);                                                              \
        call;                                                                                       \
        CHECK(answer.number == (expected) && answer.written == 0 && answer.order == DONGLORA_NOTHING); \
        CHECK(memcmp(before, control, sizeof before) == 0 && out[0] == 0xA5 && out[282] == 0xA5);   \
    } while (0)

/* Configured, and at rest. */
static void configured(void)
{
    power_up();
    command(DONGLORA_SET_CONFIG, 1, config, sizeof config - 1);
    donglora_configured(control, commands, out, sizeof out, &answer);
    CHECK(told(DONGLORA_OK, 1, 0));
}

/* The code sees the answer as seven words one after the other. */
static void check_layout(void)
{
    CHECK(sizeof answer == 7 * sizeof(uint64_t));
    CHECK(offsetof(struct donglora_answer, number) == 0 && offsetof(struct donglora_answer, written) == 8);
    CHECK(offsetof(struct donglora_answer, order) == 16 && offsetof(struct donglora_answer, at) == 24);
    CHECK(offsetof(struct donglora_answer, len) == 32 && offsetof(struct donglora_answer, ldro) == 40);
    CHECK(offsetof(struct donglora_answer, listen) == 48);
}

/* 01's sheet: what comes before a SET_CONFIG. */
static void check_unconfigured(void)
{
    power_up();
    bytes((const uint8_t *)"\x03\x01\x01\x03\x9D\xC8\x00", 7);
    CHECK(WROTE("\x03\x80\x01\x03\xF7\xC4\x00") && answer.order == DONGLORA_NOTHING);
    bytes((const uint8_t *)"\x03\x04\x28\x01\x05\x68\x69\x24\x7D\x00", 10);
    CHECK(WROTE("\x03\x81\x28\x02\x03\x03\x53\x7E\x00"));
    bytes((const uint8_t *)"\x05\x00", 2);
    CHECK(told(DONGLORA_ERR, 0, DONGLORA_EFRAME));
    REFUSES(donglora_sent(control, 1, commands, out, sizeof out, &answer), DONGLORA_PLACE);
    REFUSES(donglora_clear(control, sizeof out, &answer), DONGLORA_PLACE);
    REFUSES(donglora_byte(control, 0, run, commands, out, 282, &answer), DONGLORA_ROOM);
    REFUSES(donglora_tick(control, 282, &answer), DONGLORA_ROOM);
}

/* A SET_CONFIG: its order, the stall, its OK; power 22 is taken and 23 is not; a fault undoes it. */
static void check_config(void)
{
    char wrong[sizeof config];

    power_up();
    command(DONGLORA_SET_CONFIG, 1, config, sizeof config - 1);
    CHECK(answer.written == 0 && answer.order == DONGLORA_CONFIGURE && answer.ldro == 0);
    CHECK(answer.len == sizeof config - 1 && memcmp(commands + answer.at, config, sizeof config - 1) == 0);
    REFUSES(donglora_byte(control, 1, run, commands, out, sizeof out, &answer), DONGLORA_STALL);
    donglora_configured(control, commands, out, sizeof out, &answer);
    CHECK(told(DONGLORA_OK, 1, 0) && answer.order == DONGLORA_NOTHING);
    memcpy(wrong, config, sizeof config);
    wrong[POWER] = 23;
    command(DONGLORA_SET_CONFIG, 2, wrong, sizeof wrong - 1);
    CHECK(told(DONGLORA_ERR, 2, DONGLORA_EPARAM));
    wrong[POWER] = 22;
    wrong[5] = 11; /* SF 11 at 125 kHz: LDRO is on */
    command(DONGLORA_SET_CONFIG, 3, wrong, sizeof wrong - 1);
    CHECK(answer.order == DONGLORA_CONFIGURE && answer.ldro == 1);
    donglora_fault(control, commands, out, sizeof out, &answer);
    CHECK(told(DONGLORA_ERR, 3, DONGLORA_ERADIO) && answer.order == DONGLORA_STANDBY);
    command(DONGLORA_RX_START, 4, NULL, 0);
    CHECK(told(DONGLORA_ERR, 4, DONGLORA_ENOTCONFIGURED));
}

/* TX: listening, on air, reported; sixteen are open at a time; a SET_CONFIG among them. */
static void check_tx(void)
{
    configured();
    command(DONGLORA_TX, 0x14, "\x00Hello", 6);
    CHECK(told(DONGLORA_OK, 0x14, 0) && answer.order == DONGLORA_TRANSMIT && answer.listen == 1);
    CHECK(answer.len == 5 && memcmp(commands + answer.at, "Hello", 5) == 0);
    for (uint16_t tag = 0x15; tag < 0x24; tag++) {
        command(DONGLORA_TX, tag, "\x01x", 2);
        CHECK(told(DONGLORA_OK, tag, 0) && answer.order == DONGLORA_NOTHING);
    }
    command(DONGLORA_TX, 0x24, "\x01x", 2);
    CHECK(told(DONGLORA_ERR, 0x24, DONGLORA_EBUSY));
    donglora_clear(control, sizeof out, &answer);
    CHECK(answer.number == DONGLORA_TAKEN && answer.written == 0 && answer.order == DONGLORA_NOTHING);
    donglora_sent(control, 71936, commands, out, sizeof out, &answer);
    CHECK(told(DONGLORA_TX_DONE, 0x14, 0) && answer.order == DONGLORA_TRANSMIT && answer.listen == 0);
    command(DONGLORA_SET_CONFIG, 0x30, config, sizeof config - 1);
    CHECK(answer.written == 0 && answer.order == DONGLORA_NOTHING);
    donglora_sent(control, 1, commands, out, sizeof out, &answer);
    CHECK(answer.number == DONGLORA_TAKEN && answer.order == DONGLORA_CONFIGURE); /* and 15 TX_DONE */
    CHECK(memcmp(out, "\x03\xC1\x15\x01\x02\x01", 6) == 0 && out[answer.written - 1] == 0);
}

/* A cancelled TX, as 01's sheet has it, and one on air when its session ends. */
static void check_ends(void)
{
    configured();
    command(DONGLORA_TX, 0x14, "\x00Hello", 6);
    command(DONGLORA_SET_CONFIG, 0x30, config, sizeof config - 1);
    CHECK(WROTE("\x03\xC1\x14\x02\x02\x01\x01\x01\x03\x82\xCF\x00") && answer.order == DONGLORA_CONFIGURE);
    configured();
    command(DONGLORA_TX, 0x15, "\x01Hello", 6);
    CHECK(answer.order == DONGLORA_TRANSMIT && answer.listen == 0);
    donglora_disconnect(control, sizeof out, &answer);
    CHECK(answer.number == DONGLORA_TAKEN && answer.order == DONGLORA_NOTHING);
    donglora_sent(control, 1, commands, out, sizeof out, &answer);
    CHECK(answer.number == DONGLORA_TAKEN && answer.written == 0 && answer.order == DONGLORA_STANDBY);
}

/* Reception: a ring of 64, of which the 65th packet loses one; 999 ticks leave a session, and 1000 end it. */
static void check_reception(void)
{
    struct donglora_packet_status status = {-820, 50, -3, 123456, 1};
    uint8_t body[DONGLORA_ENCODED_MAX], packet[256] = {0x2A};
    struct donglora_rx rx;

    configured();
    REFUSES(donglora_packet(control, status, packet, 1, packets, sizeof out, &answer), DONGLORA_PLACE);
    command(DONGLORA_RX_START, 2, NULL, 0);
    CHECK(told(DONGLORA_OK, 2, 0) && answer.order == DONGLORA_RECEIVE);
    for (int i = 0; i < 65; i++)
        donglora_packet(control, status, packet, i == 1 ? 256 : 1, packets, sizeof out, &answer);
    donglora_request(control, packets, out, sizeof out, &answer);
    rx = donglora_read_rx(out, (size_t)answer.written - 1, body, sizeof body);
    CHECK(rx.number == DONGLORA_TAKEN && rx.packets_dropped == 1 && rx.rssi == -820 && rx.snr == 50);
    CHECK(rx.freq_err == -3 && rx.timestamp_us == 123456 && rx.origin == 0);
    CHECK(rx.packet_len == 255 && rx.crc_valid == 0 && body[DONGLORA_RX_PACKET] == 0x2A);
    donglora_request(control, packets, out, sizeof out, &answer);
    rx = donglora_read_rx(out, (size_t)answer.written - 1, body, sizeof body);
    CHECK(rx.number == DONGLORA_TAKEN && rx.packets_dropped == 0 && rx.packet_len == 1 && rx.crc_valid == 1);
    for (int i = 0; i < 999; i++)
        donglora_tick(control, sizeof out, &answer);
    CHECK(answer.number == DONGLORA_TAKEN && answer.order == DONGLORA_NOTHING);
    donglora_tick(control, sizeof out, &answer);
    CHECK(answer.number == DONGLORA_TAKEN && answer.order == DONGLORA_STANDBY);
    donglora_request(control, packets, out, sizeof out, &answer);
    CHECK(answer.number == DONGLORA_TAKEN && answer.written == 0);
}

/* Set again while it receives, it receives again; not once that has failed, nor where the host is gone. */
static void check_set_again(void)
{
    configured();
    command(DONGLORA_RX_START, 2, NULL, 0);
    command(DONGLORA_SET_CONFIG, 3, config, sizeof config - 1);
    CHECK(answer.written == 0 && answer.order == DONGLORA_CONFIGURE);
    donglora_configured(control, commands, out, sizeof out, &answer);
    CHECK(told(DONGLORA_OK, 3, 0) && answer.order == DONGLORA_RECEIVE);
    command(DONGLORA_RX_START, 4, NULL, 0);
    CHECK(told(DONGLORA_OK, 4, 0) && answer.order == DONGLORA_NOTHING);
    command(DONGLORA_SET_CONFIG, 5, config, sizeof config - 1);
    donglora_fault(control, commands, out, sizeof out, &answer);
    CHECK(told(DONGLORA_ERR, 5, DONGLORA_ERADIO) && answer.order == DONGLORA_STANDBY);
    command(DONGLORA_SET_CONFIG, 6, config, sizeof config - 1);
    donglora_configured(control, commands, out, sizeof out, &answer);
    CHECK(told(DONGLORA_OK, 6, 0) && answer.order == DONGLORA_NOTHING);
    command(DONGLORA_RX_START, 7, NULL, 0);
    command(DONGLORA_SET_CONFIG, 8, config, sizeof config - 1);
    donglora_disconnect(control, sizeof out, &answer);
    donglora_configured(control, commands, out, sizeof out, &answer);
    CHECK(answer.number == DONGLORA_TAKEN && answer.written == 0 && answer.order == DONGLORA_STANDBY);
}

/* A packet of no bytes may have no pointer. */
static void check_null(void)
{
    struct donglora_packet_status status = {0, 0, 0, 0, 255};
    uint8_t body[DONGLORA_ENCODED_MAX];
    struct donglora_rx rx;

    configured();
    command(DONGLORA_RX_START, 2, NULL, 0);
    donglora_packet(control, status, NULL, 0, packets, sizeof out, &answer);
    CHECK(answer.number == DONGLORA_TAKEN);
    donglora_request(control, packets, out, sizeof out, &answer);
    rx = donglora_read_rx(out, (size_t)answer.written - 1, body, sizeof body);
    CHECK(rx.number == DONGLORA_TAKEN && rx.packet_len == 0 && rx.crc_valid == 1);
}

/* How a frame is read as an answer: its number, type, tag and the length of its payload. */
static void reads(uint8_t asked, const char *frame, size_t len, uint8_t number, uint8_t type, uint16_t tag,
                  size_t payload)
{
    uint8_t body[DONGLORA_ENCODED_MAX];
    struct donglora_message m;

    memset(body, 0xA5, sizeof body);
    m = donglora_read_answer(asked, (const uint8_t *)frame, len, body, sizeof body);
    CHECK(m.number == number && m.type == type && m.tag == tag && m.payload_len == payload);
    CHECK((body[0] == 0xA5) == (number != DONGLORA_TAKEN));
}

#define READS(asked, frame, number, type, tag, payload) \
    reads(asked, frame, sizeof frame - 1, number, type, tag, payload)

/* The OK to a SET_CONFIG with tag 1: its result and owner in their groups, the configuration, the check value. */
#define OK_CONFIG(values, check) \
    "\x03\x80\x01" values "\x01\xA0\x27\xBE\x33\x07\x07\x02\x08\x04\x24\x14\x0E\x02\x01\x03" check

/* Answers of 01's sheet, and what is none. */
static void check_answers(void)
{
    READS(0, "\x03\x80\x01\x03\xF7\xC4", DONGLORA_TAKEN, DONGLORA_OK, 1, 0);
    READS(DONGLORA_PING, "\x03\x80\x33\x01\x02\xA7", DONGLORA_TAKEN, DONGLORA_OK, 0x33, 0);
    READS(DONGLORA_SET_CONFIG, "\x03\x80\x01\x03\xF7\xC4", DONGLORA_FORM, 0, 0, 0);
    READS(DONGLORA_GET_INFO, "\x03\x80\x01\x03\xF7\xC4", DONGLORA_FORM, 0, 0, 0);
    /* Result and owner are 2 at the most. */
    READS(DONGLORA_SET_CONFIG, OK_CONFIG("\x0A\x02\x02", "\xCB\x3B"), DONGLORA_TAKEN, DONGLORA_OK, 1, 18);
    READS(DONGLORA_SET_CONFIG, OK_CONFIG("\x0A\x03\x01", "\xDC\xFA"), DONGLORA_FORM, 0, 0, 0);
    READS(DONGLORA_SET_CONFIG, OK_CONFIG("\x01\x09\x03", "\x6A\xDB"), DONGLORA_FORM, 0, 0, 0);
    READS(0, "\x03\x81\x28\x02\x03\x03\x53\x7E", DONGLORA_TAKEN, DONGLORA_ERR, 0x28, 2);
    READS(0, "\x03\xC1\x14\x02\x02\x01\x01\x01\x03\x82\xCF", DONGLORA_TAKEN, DONGLORA_TX_DONE, 0x14, 5);
    READS(0, "\x03\x01\x01\x03\x9D\xC8", DONGLORA_TYPE, 0, 0, 0);
    READS(0, "\x03\x80\x01\x03\xF7\xC5", DONGLORA_CHECK, 0, 0, 0);
    READS(0, "\x05", DONGLORA_STUFF, 0, 0, 0);
    READS(0, "\x01", DONGLORA_LENGTH, 0, 0, 0);
}

int main(void)
{
    check_layout();
    check_unconfigured();
    check_config();
    check_tx();
    check_ends();
    check_reception();
    check_set_again();
    check_null();
    check_answers();
    printf("dongle in " LANGUAGE ": %d checks, %d failed\n", checks, failed);
    return failed == 0 ? 0 : 1;
}
