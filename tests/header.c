/*
 * Known values, through the header as a C or C++ program sees it. This file is compiled as C99
 * and as C++11.
 */
#include "donglora.h"

#include <stdio.h>
#include <string.h>

static int checks;
static int failed;

#ifdef __cplusplus
#define LANGUAGE "C++"
#else
#define LANGUAGE "C"
#endif

#define CHECK(condition) check((condition) ? 1 : 0, #condition, __LINE__)

static void check(int holds, const char *condition, int line)
{
    checks++;
    if (!holds) {
        failed++;
        printf("header.c line %d: %s\n", line, condition);
    }
}

/* Bodies and their encodings: the frames of 01's sheet, and two of P's examples for COBS. */
struct frame {
    const char *body;
    size_t body_len;
    const char *encoding;
    size_t encoding_len;
};

#define FRAME(body, encoding) {body, sizeof body - 1, encoding, sizeof encoding - 1}

static const struct frame frames[] = {
    /* PING 0001, and its OK */
    FRAME("\x01\x01\x00\x9D\xC8", "\x03\x01\x01\x03\x9D\xC8"),
    FRAME("\x80\x01\x00\xF7\xC4", "\x03\x80\x01\x03\xF7\xC4"),
    /* OK 0033, whose check value has a zero byte */
    FRAME("\x80\x33\x00\x00\xA7", "\x03\x80\x33\x01\x02\xA7"),
    /* TX 0028, and its ERR */
    FRAME("\x04\x28\x00\x00\x68\x69\x24\x7D", "\x03\x04\x28\x01\x05\x68\x69\x24\x7D"),
    FRAME("\x81\x28\x00\x03\x00\x53\x7E", "\x03\x81\x28\x02\x03\x03\x53\x7E"),
    /* ERR 002A */
    FRAME("\x81\x2A\x00\x01\x00\x59\xF5", "\x03\x81\x2A\x02\x01\x03\x59\xF5"),
    /* TX_DONE 0014, cancelled */
    FRAME("\xC1\x14\x00\x02\x00\x00\x00\x00\x82\xCF", "\x03\xC1\x14\x02\x02\x01\x01\x01\x03\x82\xCF"),
    /* PING 0101: no zeros */
    FRAME("\x01\x01\x01\xBC\xD8", "\x06\x01\x01\x01\xBC\xD8"),
    /* RX with many zeros */
    FRAME("\xC0\x00\x00\x00\x00\x00\x00\x00\x00\x00\x00\x00\x01\x00\x00\x00\x00\x00\x00\x01\x00\x00"
          "\x00\x00\x00\x00\xB4\x74",
          "\x02\xC0\x01\x01\x01\x01\x01\x01\x01\x01\x01\x01\x02\x01\x01\x01\x01\x01\x01\x02\x01\x01\x01"
          "\x01\x01\x01\x03\xB4\x74"),
};

static void check_frame(const struct frame *frame)
{
    const uint8_t *body = (const uint8_t *)frame->body;
    const uint8_t *encoding = (const uint8_t *)frame->encoding;
    uint8_t out[DONGLORA_ENCODED_MAX];
    donglora_size n = 0;
    uint16_t sum = (uint16_t)(body[frame->body_len - 2] | body[frame->body_len - 1] << 8);

    CHECK(donglora_crc16(body, frame->body_len - 2) == sum);
    CHECK(donglora_cobs_encode(body, frame->body_len, out, sizeof out, &n) == DONGLORA_TAKEN);
    CHECK(n == frame->encoding_len && memcmp(out, encoding, n) == 0);
    CHECK(donglora_cobs_decode(encoding, frame->encoding_len, out, sizeof out, &n) == DONGLORA_TAKEN);
    CHECK(n == frame->body_len && memcmp(out, body, n) == 0);
}

static void check_constants(void)
{
    CHECK(DONGLORA_TAKEN == 0);
    CHECK(DONGLORA_SHORT == 4);
    CHECK(DONGLORA_STUFF == 5);
    CHECK(DONGLORA_LENGTH == 6);
    CHECK(DONGLORA_CHECK == 7);
    CHECK(DONGLORA_TAG == 8);
    CHECK(DONGLORA_TYPE == 9);
    CHECK(DONGLORA_FORM == 10);
    CHECK(DONGLORA_LEDGER == 11);
    CHECK(DONGLORA_AIR == 12);
    CHECK(DONGLORA_WIDE == 13);
    CHECK(DONGLORA_PING == 0x01);
    CHECK(DONGLORA_GET_INFO == 0x02);
    CHECK(DONGLORA_SET_CONFIG == 0x03);
    CHECK(DONGLORA_TX == 0x04);
    CHECK(DONGLORA_RX_START == 0x05);
    CHECK(DONGLORA_RX_STOP == 0x06);
    CHECK(DONGLORA_BODY_MAX == 280);
    CHECK(DONGLORA_ENCODED_MAX == 282);
    CHECK(DONGLORA_ENCODED_ROOM(0) == 1);
    CHECK(DONGLORA_ENCODED_ROOM(253) == 254);
    CHECK(DONGLORA_ENCODED_ROOM(254) == 256);
    CHECK(DONGLORA_ENCODED_ROOM(DONGLORA_BODY_MAX) == DONGLORA_ENCODED_MAX);
    CHECK(2 * DONGLORA_ENCODED_ROOM(1 + 1) == 6);
    CHECK(DONGLORA_PAYLOAD == 3);
    CHECK(DONGLORA_PAYLOAD_MAX == 275);
    CHECK(DONGLORA_RX_PACKET == 23);
    CHECK(DONGLORA_FRAME_ROOM(0) == 7);
    CHECK(DONGLORA_FRAME_ROOM(248) == 255);
    CHECK(DONGLORA_FRAME_ROOM(249) == 257);
    CHECK(DONGLORA_FRAME_ROOM(DONGLORA_PAYLOAD_MAX) == DONGLORA_ENCODED_MAX + 1);
    CHECK(2 * DONGLORA_FRAME_ROOM(1 + 1) == 18);
}

static void check_crc(void)
{
    CHECK(donglora_crc16((const uint8_t *)"123456789", 9) == 0x29B1);
    CHECK(donglora_crc16((const uint8_t *)"", 0) == 0xFFFF);
    CHECK(donglora_crc16(NULL, 0) == 0xFFFF);
}

static void check_encode(void)
{
    uint8_t src[DONGLORA_BODY_MAX + 1];
    uint8_t dst[DONGLORA_ENCODED_MAX + 1];
    donglora_size n = 7;

    memset(src, 0xAA, sizeof src);
    memset(dst, 0x55, sizeof dst);
    CHECK(donglora_cobs_encode(src, 281, dst, sizeof dst, &n) == DONGLORA_LENGTH);
    CHECK(donglora_cobs_encode(src, 281, NULL, 0, &n) == DONGLORA_LENGTH);
    CHECK(donglora_cobs_encode(src, 280, dst, 281, &n) == DONGLORA_SHORT);
    CHECK(donglora_cobs_encode(src, 254, dst, 255, &n) == DONGLORA_SHORT);
    CHECK(donglora_cobs_encode(NULL, 0, NULL, 0, &n) == DONGLORA_SHORT);
    CHECK(n == 7 && dst[0] == 0x55);

    CHECK(donglora_cobs_encode(NULL, 0, dst, 1, &n) == DONGLORA_TAKEN);
    CHECK(n == 1 && dst[0] == 0x01 && dst[1] == 0x55);
    CHECK(donglora_cobs_encode(src, 253, dst, 254, &n) == DONGLORA_TAKEN);
    CHECK(n == 254 && dst[0] == 0xFE && dst[253] == 0xAA && dst[254] == 0x55);
    CHECK(donglora_cobs_encode(src, 254, dst, 256, &n) == DONGLORA_TAKEN);
    CHECK(n == 256 && dst[0] == 0xFF && dst[254] == 0xAA && dst[255] == 0x01 && dst[256] == 0x55);
    CHECK(donglora_cobs_encode(src, 280, dst, 282, &n) == DONGLORA_TAKEN);
    CHECK(n == 282 && dst[0] == 0xFF && dst[255] == 0x1B && dst[281] == 0xAA && dst[282] == 0x55);
}

static void check_decode(void)
{
    uint8_t src[DONGLORA_ENCODED_MAX + 1];
    uint8_t dst[DONGLORA_ENCODED_MAX + 1];
    donglora_size n = 7;

    memset(src, 0x01, sizeof src);
    memset(dst, 0x55, sizeof dst);
    CHECK(donglora_cobs_decode(src, 283, dst, sizeof dst, &n) == DONGLORA_LENGTH);
    CHECK(donglora_cobs_decode(src, 283, NULL, 0, &n) == DONGLORA_LENGTH);
    CHECK(donglora_cobs_decode(src, 282, dst, 281, &n) == DONGLORA_SHORT);
    CHECK(donglora_cobs_decode((const uint8_t *)"\x05", 1, NULL, 0, &n) == DONGLORA_SHORT);
    CHECK(donglora_cobs_decode((const uint8_t *)"\x05", 1, dst, sizeof dst, &n) == DONGLORA_STUFF);
    CHECK(donglora_cobs_decode((const uint8_t *)"\x00", 1, dst, sizeof dst, &n) == DONGLORA_STUFF);
    CHECK(donglora_cobs_decode((const uint8_t *)"\x02\x00", 2, dst, sizeof dst, &n) == DONGLORA_STUFF);
    CHECK(donglora_cobs_decode((const uint8_t *)"\x02\x07\x03\x08", 4, dst, sizeof dst, &n) == DONGLORA_STUFF);
    CHECK(donglora_cobs_decode(NULL, 0, dst, sizeof dst, &n) == DONGLORA_STUFF);
    CHECK(donglora_cobs_decode(NULL, 0, NULL, 0, &n) == DONGLORA_STUFF);
    CHECK(n == 7 && dst[0] == 0x55);

    CHECK(donglora_cobs_decode(src, 1, dst, 1, &n) == DONGLORA_TAKEN);
    CHECK(n == 0 && dst[0] == 0x55);
    CHECK(donglora_cobs_decode(src, 282, dst, 282, &n) == DONGLORA_TAKEN);
    CHECK(n == 281 && dst[0] == 0x00 && dst[280] == 0x00 && dst[281] == 0x55);

    /* A full group, closed and not closed. */
    src[0] = 0xFF;
    CHECK(donglora_cobs_decode(src, 256, dst, 256, &n) == DONGLORA_TAKEN);
    CHECK(n == 254 && dst[253] == 0x01 && dst[254] == 0x00);
    n = 7;
    CHECK(donglora_cobs_decode(src, 255, dst, 255, &n) == DONGLORA_TAKEN);
    CHECK(n == 254);
    CHECK(donglora_cobs_decode(src, 254, dst, 254, &n) == DONGLORA_STUFF);
}

/* The fields' sizes and signs. */
static void check_fields(void)
{
    struct donglora_rx rx;
    struct donglora_tx_done done;

    CHECK(sizeof rx.number == 1 && sizeof rx.rssi == 2 && sizeof rx.snr == 2 && sizeof rx.freq_err == 4);
    CHECK(sizeof rx.timestamp_us == 8 && sizeof rx.crc_valid == 1 && sizeof rx.packets_dropped == 2);
    CHECK(sizeof rx.origin == 1 && sizeof rx.packet_len == 8);
    CHECK(sizeof done.number == 1 && sizeof done.tag == 2 && sizeof done.result == 1 && sizeof done.airtime_us == 4);

    /* All bits set: -1 in what is signed, the largest in what is not. */
    memset(&rx, 0xFF, sizeof rx);
    memset(&done, 0xFF, sizeof done);
    CHECK(rx.rssi == -1 && rx.snr == -1 && rx.freq_err == -1);
    CHECK(rx.number == 0xFF && rx.timestamp_us == UINT64_MAX && rx.crc_valid == 0xFF);
    CHECK(rx.packets_dropped == 0xFFFF && rx.origin == 0xFF && rx.packet_len == UINT64_MAX);
    CHECK(done.number == 0xFF && done.tag == 0xFFFF && done.result == 0xFF && done.airtime_us == UINT32_MAX);
}

/* Whether all bytes are as they were filled. */
static int is_untouched(const uint8_t *bytes, size_t len)
{
    for (size_t i = 0; i < len; i++)
        if (bytes[i] != 0x55)
            return 0;
    return 1;
}

/* The run of a frame with a right check value. */
static size_t make_run(uint8_t type, uint16_t tag, const void *payload, size_t len, uint8_t *run)
{
    uint8_t body[DONGLORA_BODY_MAX] = {type, (uint8_t)(tag & 0xFF), (uint8_t)(tag >> 8)};
    uint16_t sum;
    donglora_size n = 0;

    if (len > 0)
        memcpy(body + DONGLORA_PAYLOAD, payload, len);
    sum = donglora_crc16(body, len + 3);
    body[len + 3] = (uint8_t)(sum & 0xFF);
    body[len + 4] = (uint8_t)(sum >> 8);
    CHECK(donglora_cobs_encode(body, len + 5, run, DONGLORA_ENCODED_MAX, &n) == DONGLORA_TAKEN);
    return n;
}

static const uint8_t *bytes(const char *text)
{
    return (const uint8_t *)text;
}

/* P's RX frames, without their zeros, and what they say. */
struct heard {
    const char *run;
    size_t run_len;
    int16_t rssi;
    int16_t snr;
    int32_t freq_err;
    uint64_t timestamp_us;
    uint8_t crc_valid;
    uint16_t packets_dropped;
    uint8_t origin;
    size_t packet_len;
    const char *packet;
};

#define RUN(text) text, sizeof text - 1

static const struct heard heards[] = {
    /* C.2.6 */
    {RUN("\x02\xC0\x01\x04\x21\xFD\x5F\x09\x83\xFF\xFF\xFF\x80\xDE\x80\x02\x01\x01\x01\x02\x01\x01"
         "\x01\x07\x01\x02\x03\x04\xB9\x8E"),
     -735, 95, -125, 42000000, 1, 0, 0, 4, "\x01\x02\x03\x04"},
    /* C.4.1 */
    {RUN("\x02\xC0\x01\x04\xCC\xFC\x50\x01\x01\x01\x01\x05\x80\xF0\xFA\x02\x01\x01\x01\x02\x01\x01"
         "\x01\x05\xAA\xBB\x54\xC0"),
     -820, 80, 0, 50000000, 1, 0, 0, 2, "\xAA\xBB"},
    /* C.6.2: the packet may be damaged */
    {RUN("\x02\xC0\x01\x07\xE6\xFB\xB0\xFF\x98\x08\x01\x01\x04\x0E\x27\x07\x01\x01\x01\x01\x01\x01"
         "\x01\x04\x41\x42\xFF\x04\xCC\x04\x3C"),
     -1050, -80, 2200, 120000000, 0, 0, 0, 5, "\x41\x42\xFF\x00\xCC"},
    /* C.6.3: three packets were lost */
    {RUN("\x02\xC0\x01\x04\x26\xFD\x64\x02\x32\x01\x01\x05\xA0\x45\xC7\x07\x01\x01\x01\x03\x01\x03"
         "\x01\x05\x01\x02\xA7\x86"),
     -730, 100, 50, 130500000, 1, 3, 0, 2, "\x01\x02"},
    /* C.7.3: sent by the same device */
    {RUN("\x02\xC0\x01\x01\x01\x01\x01\x01\x01\x01\x01\x01\x04\x95\xBA\x0A\x01\x01\x01\x02\x01\x01"
         "\x0C\x01\x42\x52\x4F\x41\x44\x43\x41\x53\x54\xE0\x01"),
     0, 0, 0, 180000000, 1, 0, 1, 9, "BROADCAST"},
};

static void check_heard(const struct heard *heard)
{
    uint8_t body[DONGLORA_ENCODED_MAX];
    struct donglora_rx rx;

    memset(body, 0x55, sizeof body);
    rx = donglora_read_rx(bytes(heard->run), heard->run_len, body, heard->run_len);
    CHECK(rx.number == DONGLORA_TAKEN);
    CHECK(rx.rssi == heard->rssi);
    CHECK(rx.snr == heard->snr);
    CHECK(rx.freq_err == heard->freq_err);
    CHECK(rx.timestamp_us == heard->timestamp_us);
    CHECK(rx.crc_valid == heard->crc_valid);
    CHECK(rx.packets_dropped == heard->packets_dropped);
    CHECK(rx.origin == heard->origin);
    CHECK(rx.packet_len == heard->packet_len);
    CHECK(memcmp(body + DONGLORA_RX_PACKET, heard->packet, heard->packet_len) == 0);

    /* The body is all there, with its check value, and nothing after it. */
    CHECK(body[0] == 0xC0 && body[1] == 0 && body[2] == 0);
    CHECK(donglora_crc16(body, rx.packet_len + 23) == (body[rx.packet_len + 23] | body[rx.packet_len + 24] << 8));
    CHECK(is_untouched(body + rx.packet_len + 25, sizeof body - rx.packet_len - 25));
    CHECK(donglora_read_tx_done(bytes(heard->run), heard->run_len, body, sizeof body).number == DONGLORA_TYPE);
}

/* P's TX_DONE frames, without their zeros, and what they say. */
struct done {
    const char *run;
    size_t run_len;
    uint16_t tag;
    uint8_t result;
    uint32_t airtime_us;
};

static const struct done dones[] = {
    {RUN("\x03\xC1\x04\x01\x01\x02\x79\x01\x03\xE3\xFA"), 0x0004, 0, 30976}, /* C.2.4 */
    {RUN("\x03\xC1\x14\x02\x02\x01\x01\x01\x03\x82\xCF"), 0x0014, 2, 0},     /* C.4.2 */
    {RUN("\x03\xC1\x15\x02\x02\x01\x01\x01\x03\xE3\x77"), 0x0015, 2, 0},     /* C.4.2 */
    {RUN("\x03\xC1\x32\x02\x01\x01\x01\x01\x03\x83\xEE"), 0x0032, 1, 0},     /* C.5.5 */
};

static void check_done(const struct done *expected)
{
    uint8_t body[DONGLORA_ENCODED_MAX];
    struct donglora_tx_done done;

    memset(body, 0x55, sizeof body);
    done = donglora_read_tx_done(bytes(expected->run), expected->run_len, body, expected->run_len);
    CHECK(done.number == DONGLORA_TAKEN);
    CHECK(done.tag == expected->tag);
    CHECK(done.result == expected->result);
    CHECK(done.airtime_us == expected->airtime_us);
    CHECK(body[0] == 0xC1 && donglora_crc16(body, 8) == (body[8] | body[9] << 8));
    CHECK(is_untouched(body + 10, sizeof body - 10));
    CHECK(donglora_read_rx(bytes(expected->run), expected->run_len, body, sizeof body).number == DONGLORA_TYPE);
}

/* Values that P's examples do not have. */
static void check_extremes(void)
{
    uint8_t run[DONGLORA_ENCODED_MAX];
    uint8_t body[DONGLORA_ENCODED_MAX];
    struct donglora_rx rx;
    struct donglora_tx_done done;
    donglora_size n;

    n = make_run(0xC0, 0,
                 "\x00\x80\xFF\x7F\x00\x00\x00\x80\xFF\xFF\xFF\xFF\xFF\xFF\xFF\xFF\x00\xFF\xFF\x01", 20, run);
    rx = donglora_read_rx(run, n, body, sizeof body);
    CHECK(rx.number == DONGLORA_TAKEN && rx.rssi == INT16_MIN && rx.snr == INT16_MAX && rx.freq_err == INT32_MIN);
    CHECK(rx.timestamp_us == UINT64_MAX && rx.crc_valid == 0 && rx.packets_dropped == 65535);
    CHECK(rx.origin == 1 && rx.packet_len == 0);

    /* A TX_DONE with more bytes than are known today. */
    n = make_run(0xC1, 0xFFFE, "\x01\xFF\xFF\xFF\xFF\x07\x00", 7, run);
    done = donglora_read_tx_done(run, n, body, sizeof body);
    CHECK(done.number == DONGLORA_TAKEN && done.tag == 0xFFFE && done.result == 1 && done.airtime_us == UINT32_MAX);
}

/* A refused reading: both readers give these numbers, all fields are 0, and nothing is written. */
static void check_refused(int line, const uint8_t *run, size_t run_len, size_t room, int rx_number, int done_number)
{
    uint8_t body[DONGLORA_ENCODED_MAX];
    uint8_t *lent = room == 0 ? NULL : body;
    struct donglora_rx rx;
    struct donglora_tx_done done;

    memset(body, 0x55, sizeof body);
    rx = donglora_read_rx(run, run_len, lent, room);
    done = donglora_read_tx_done(run, run_len, lent, room);
    check(rx.number == rx_number, "the number of donglora_read_rx", line);
    check(done.number == done_number, "the number of donglora_read_tx_done", line);
    CHECK(rx.rssi == 0 && rx.snr == 0 && rx.freq_err == 0 && rx.timestamp_us == 0 && rx.crc_valid == 0);
    CHECK(rx.packets_dropped == 0 && rx.origin == 0 && rx.packet_len == 0);
    CHECK(done.tag == 0 && done.result == 0 && done.airtime_us == 0);
    CHECK(is_untouched(body, sizeof body));
}

#define REFUSED(run, run_len, room, rx_number, done_number) \
    check_refused(__LINE__, run, run_len, room, rx_number, done_number)

static void check_refusals(void)
{
    /* 19 bytes, then a check value whose first byte would do for an origin. */
    static const char cut[] = "\x21\xFD\x5F\x00\x83\xFF\xFF\xFF\x80\xDE\x80\x02\x00\x00\x00\x00\x01\x34\x00";
    /* crc_valid 2 */
    static const char two[] = "\x21\xFD\x5F\x00\x83\xFF\xFF\xFF\x80\xDE\x80\x02\x00\x00\x00\x00\x02\x00\x00\x00";
    const struct heard *heard = &heards[0];
    const struct done *done = &dones[0];
    const size_t all = DONGLORA_ENCODED_MAX;
    uint8_t run[DONGLORA_ENCODED_MAX + 1];

    /* The source is too long: that comes before the room. */
    memset(run, 0x01, sizeof run);
    REFUSED(run, 283, all, DONGLORA_LENGTH, DONGLORA_LENGTH);
    REFUSED(run, 283, 0, DONGLORA_LENGTH, DONGLORA_LENGTH);
    /* The room must be the run's length, though the body is shorter. */
    REFUSED(bytes(heard->run), heard->run_len, heard->run_len - 1, DONGLORA_SHORT, DONGLORA_SHORT);
    REFUSED(bytes(done->run), done->run_len, 0, DONGLORA_SHORT, DONGLORA_SHORT);
    REFUSED(run, 282, 281, DONGLORA_SHORT, DONGLORA_SHORT);
    /* No encoding. */
    REFUSED(bytes("\x05"), 1, all, DONGLORA_STUFF, DONGLORA_STUFF);
    REFUSED(bytes(heard->run), heard->run_len - 1, all, DONGLORA_STUFF, DONGLORA_STUFF);
    REFUSED(NULL, 0, all, DONGLORA_STUFF, DONGLORA_STUFF);
    REFUSED(NULL, 0, 0, DONGLORA_STUFF, DONGLORA_STUFF);
    /* Bodies of 0, 4 and 281 bytes. */
    REFUSED(run, 1, all, DONGLORA_LENGTH, DONGLORA_LENGTH);
    REFUSED(run, 5, all, DONGLORA_LENGTH, DONGLORA_LENGTH);
    REFUSED(run, 282, all, DONGLORA_LENGTH, DONGLORA_LENGTH);
    /* A bit that flipped: in the packet, and in the airtime. */
    memcpy(run, heard->run, heard->run_len);
    run[24] ^= 0x40;
    REFUSED(run, heard->run_len, all, DONGLORA_CHECK, DONGLORA_CHECK);
    memcpy(run, done->run, done->run_len);
    run[6] ^= 0x08;
    REFUSED(run, done->run_len, all, DONGLORA_CHECK, DONGLORA_CHECK);
    /* Tags: an RX with one; a TX_DONE, an OK and a PING without. */
    REFUSED(run, make_run(0xC0, 5, two, 20, run), all, DONGLORA_TAG, DONGLORA_TAG);
    REFUSED(run, make_run(0xC1, 0, "\0\0\0\0\0", 5, run), all, DONGLORA_TAG, DONGLORA_TAG);
    REFUSED(run, make_run(0x80, 0, NULL, 0, run), all, DONGLORA_TAG, DONGLORA_TAG);
    REFUSED(run, make_run(DONGLORA_PING, 0, NULL, 0, run), all, DONGLORA_TAG, DONGLORA_TAG);
    /* Types. An ERR and an unknown type need no tag. */
    REFUSED(run, make_run(0x80, 1, NULL, 0, run), all, DONGLORA_TYPE, DONGLORA_TYPE);
    REFUSED(run, make_run(0x81, 0, "\x01\x01", 2, run), all, DONGLORA_TYPE, DONGLORA_TYPE);
    REFUSED(run, make_run(0x07, 0, NULL, 0, run), all, DONGLORA_TYPE, DONGLORA_TYPE);
    /* Forms of an RX: 19 bytes, crc_valid 2, origin 2. */
    REFUSED(run, make_run(0xC0, 0, cut, 19, run), all, DONGLORA_FORM, DONGLORA_TYPE);
    REFUSED(run, make_run(0xC0, 0, two, 20, run), all, DONGLORA_FORM, DONGLORA_TYPE);
    REFUSED(run, make_run(0xC0, 0, "\0\0\0\0\0\0\0\0\0\0\0\0\0\0\0\0\0\0\0\x02", 20, run), all,
            DONGLORA_FORM, DONGLORA_TYPE);
    /* Forms of a TX_DONE: 4 bytes, result 3. */
    REFUSED(run, make_run(0xC1, 1, "\0\0\0\0", 4, run), all, DONGLORA_TYPE, DONGLORA_FORM);
    REFUSED(run, make_run(0xC1, 1, "\x03\0\0\0\0", 5, run), all, DONGLORA_TYPE, DONGLORA_FORM);
}

/* A command that is written: the frame is these bytes, in a room that just does and in a larger one. */
static void check_command(int line, uint8_t type, uint16_t tag, const char *payload, size_t len, const char *frame,
                          size_t frame_len)
{
    uint8_t dst[DONGLORA_FRAME_ROOM(DONGLORA_PAYLOAD_MAX)];
    const size_t rooms[] = {DONGLORA_FRAME_ROOM(len), sizeof dst};

    for (size_t i = 0; i < 2; i++) {
        donglora_size n = 0;
        memset(dst, 0x55, sizeof dst);
        check(donglora_write_command(type, tag, bytes(payload), len, dst, rooms[i], &n) == DONGLORA_TAKEN,
              "the command is taken", line);
        check(n == frame_len && memcmp(dst, frame, frame_len) == 0, "the frame is the expected one", line);
        check(is_untouched(dst + frame_len, sizeof dst - frame_len), "nothing is written after the frame", line);
    }
}

#define COMMAND(type, tag, payload, frame) \
    check_command(__LINE__, type, tag, payload, sizeof payload - 1, frame, sizeof frame - 1)

/* A command that is refused: with this number, and nothing is written. */
static void check_no_command(int line, uint8_t type, uint16_t tag, const void *payload, size_t len, size_t room,
                             int number)
{
    uint8_t dst[DONGLORA_FRAME_ROOM(DONGLORA_PAYLOAD_MAX)];
    donglora_size n = 7;

    memset(dst, 0x55, sizeof dst);
    check(donglora_write_command(type, tag, (const uint8_t *)payload, len, room == 0 ? NULL : dst, room, &n) == number,
          "the number of donglora_write_command", line);
    check(n == 7 && is_untouched(dst, sizeof dst), "a refusal writes nothing", line);
}

#define NO_COMMAND(type, tag, payload, len, room, number) \
    check_no_command(__LINE__, type, tag, payload, len, room, number)

static void check_commands(void)
{
    uint8_t payload[DONGLORA_PAYLOAD_MAX];
    const size_t all = DONGLORA_FRAME_ROOM(DONGLORA_PAYLOAD_MAX);
    uint8_t dst[DONGLORA_FRAME_ROOM(DONGLORA_PAYLOAD_MAX)];
    donglora_size n = 7;

    /* P's frames: C.2.1, C.2.2, C.2.3, C.2.4, C.2.5, C.2.6 and C.8.1. */
    COMMAND(DONGLORA_PING, 0x0001, "", "\x03\x01\x01\x03\x9D\xC8\x00");
    COMMAND(DONGLORA_GET_INFO, 0x0002, "", "\x03\x02\x02\x03\x9E\xC4\x00");
    COMMAND(DONGLORA_SET_CONFIG, 0x0003, "\x01\xA0\x27\xBE\x33\x07\x07\x00\x08\x00\x24\x14\x0E\x00\x01\x00",
            "\x03\x03\x03\x08\x01\xA0\x27\xBE\x33\x07\x07\x02\x08\x04\x24\x14\x0E\x02\x01\x03\xD9\x1F\x00");
    COMMAND(DONGLORA_TX, 0x0004, "\x00Hello", "\x03\x04\x04\x01\x08\x48\x65\x6C\x6C\x6F\x26\x40\x00");
    COMMAND(DONGLORA_TX, 0x0005, "\x01URGENT", "\x03\x04\x05\x0A\x01\x55\x52\x47\x45\x4E\x54\xDB\x1C\x00");
    COMMAND(DONGLORA_RX_START, 0x0006, "", "\x03\x05\x06\x03\xCA\x8D\x00");
    COMMAND(DONGLORA_RX_STOP, 0x0008, "", "\x03\x06\x08\x03\x95\xF7\x00");
    COMMAND(DONGLORA_PING, 0x0101, "", "\x06\x01\x01\x01\xBC\xD8\x00");

    /* C.8.3: 253 bytes without a zero, so a full group and one more. */
    payload[0] = 0x01;
    for (size_t i = 1; i <= 253; i++)
        payload[i] = (uint8_t)i;
    CHECK(donglora_write_command(DONGLORA_TX, 0x0101, payload, 254, dst, DONGLORA_FRAME_ROOM(254), &n) == 0);
    CHECK(n == 262 && dst[0] == 0xFF && memcmp(dst + 1, "\x04\x01\x01\x01\x01\x02\x03", 7) == 0);
    CHECK(dst[254] == 0xFA && memcmp(dst + 255, "\x06\xFB\xFC\xFD\x53\x46\x00", 7) == 0);

    /* NULL for no payload, and for no room. */
    CHECK(donglora_write_command(DONGLORA_PING, 0x0001, NULL, 0, dst, 7, &n) == DONGLORA_TAKEN);
    CHECK(n == 7 && memcmp(dst, "\x03\x01\x01\x03\x9D\xC8\x00", 7) == 0);
    NO_COMMAND(DONGLORA_PING, 1, NULL, 0, 0, DONGLORA_SHORT);

    /* One byte too few: for a short frame, and for one that would have fitted. */
    NO_COMMAND(DONGLORA_PING, 1, NULL, 0, 6, DONGLORA_SHORT);
    memset(payload, 0, sizeof payload);
    NO_COMMAND(DONGLORA_TX, 1, payload, 256, DONGLORA_FRAME_ROOM(256) - 1, DONGLORA_SHORT);
    /* Tags and types. The tag comes first, and goes by the type. */
    NO_COMMAND(DONGLORA_TX, 0, "\x02", 1, all, DONGLORA_TAG);
    NO_COMMAND(0x80, 0, NULL, 0, all, DONGLORA_TAG);
    NO_COMMAND(0xC1, 0, NULL, 0, all, DONGLORA_TAG);
    NO_COMMAND(0xC0, 1, NULL, 0, all, DONGLORA_TAG);
    NO_COMMAND(0xC0, 0, NULL, 0, all, DONGLORA_TYPE);
    NO_COMMAND(0x80, 1, NULL, 0, all, DONGLORA_TYPE);
    NO_COMMAND(0x81, 0, NULL, 0, all, DONGLORA_TYPE);
    NO_COMMAND(0x07, 0, NULL, 0, all, DONGLORA_TYPE);
    NO_COMMAND(0x00, 1, NULL, 0, 0, DONGLORA_TYPE);
    /* Forms come before the room. */
    NO_COMMAND(DONGLORA_PING, 1, payload, 1, 0, DONGLORA_FORM);
    NO_COMMAND(DONGLORA_RX_STOP, 1, payload, 1, all, DONGLORA_FORM);
    NO_COMMAND(DONGLORA_TX, 1, NULL, 0, all, DONGLORA_FORM);
    NO_COMMAND(DONGLORA_TX, 1, payload, 1, all, DONGLORA_FORM);
    NO_COMMAND(DONGLORA_TX, 1, payload, 257, all, DONGLORA_FORM);
    NO_COMMAND(DONGLORA_TX, 1, "\x02\x68\x69", 3, all, DONGLORA_FORM);
    NO_COMMAND(DONGLORA_SET_CONFIG, 1, NULL, 0, all, DONGLORA_FORM);
    NO_COMMAND(DONGLORA_SET_CONFIG, 1, payload, 16, all, DONGLORA_FORM);
    payload[0] = 1;
    NO_COMMAND(DONGLORA_SET_CONFIG, 1, payload, 15, all, DONGLORA_FORM);
    NO_COMMAND(DONGLORA_SET_CONFIG, 1, payload, 17, all, DONGLORA_FORM);
    payload[0] = 2;
    payload[16] = 8;
    CHECK(donglora_write_command(DONGLORA_SET_CONFIG, 1, payload, 25, dst, sizeof dst, &n) == DONGLORA_TAKEN);
    NO_COMMAND(DONGLORA_SET_CONFIG, 1, payload, 16, all, DONGLORA_FORM);
    NO_COMMAND(DONGLORA_SET_CONFIG, 1, payload, 24, all, DONGLORA_FORM);
    payload[16] = 9;
    NO_COMMAND(DONGLORA_SET_CONFIG, 1, payload, 26, all, DONGLORA_FORM);
    payload[0] = 3;
    NO_COMMAND(DONGLORA_SET_CONFIG, 1, payload, 11, all, DONGLORA_FORM);
    payload[0] = 4;
    NO_COMMAND(DONGLORA_SET_CONFIG, 1, payload, 14, all, DONGLORA_FORM);
}

int main(void)
{
    check_constants();
    check_crc();
    for (size_t i = 0; i < sizeof frames / sizeof frames[0]; i++)
        check_frame(&frames[i]);
    check_encode();
    check_decode();
    check_fields();
    for (size_t i = 0; i < sizeof heards / sizeof heards[0]; i++)
        check_heard(&heards[i]);
    for (size_t i = 0; i < sizeof dones / sizeof dones[0]; i++)
        check_done(&dones[i]);
    check_extremes();
    check_refusals();
    check_commands();
    printf("header in " LANGUAGE ": %d checks, %d failed\n", checks, failed);
    return failed == 0 ? 0 : 1;
}
