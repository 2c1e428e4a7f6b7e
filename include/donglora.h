/*
 * donglora.h: DongLoRa for C and C++: frames and messages for a host, and the whole dongle for
 * firmware.
 *
 * Link with libdonglora.a of the target: on x86-64 that of tools/archive, on a microcontroller that of
 * tools/cross. The header is the same for all of them. Every function behind it is proved to do what is
 * said here, for every input: see README.md.
 *
 * The first part is for hosts, and for whatever works on captures. The second, "The dongle", is for
 * a board's main loop.
 *
 * A frame on the wire is an encoded body and one zero byte; a body is a type, a tag, a payload and
 * a check value. To read what a dongle sends: cut it at its zeros and pass each run of bytes that
 * is not empty, without the zero, to the reader of the message that is wanted. To send a command,
 * have its frame written, and send all of it.
 *
 * Rules for all functions:
 *   - A pointer and the size after it name a block of memory. The pointer may be NULL where the
 *     size is 0. `written` is never NULL.
 *   - A destination must not overlap a source, nor `written` either of them.
 *   - A refusal writes nothing: every byte of the destination, and *written, stay as they were.
 *   - On success the bytes of the destination past the written ones stay as they were.
 *   - No function keeps a pointer, allocates memory or has state of its own: all of them may be
 *     called from several threads and from interrupts, so long as no two calls at a time work on
 *     the same memory.
 */
#ifndef DONGLORA_H
#define DONGLORA_H

#include <stddef.h>
#include <stdint.h>

#ifdef __cplusplus
extern "C" {
#endif

/*
 * The size of a block of memory, a number of 64 bits on every target. Where size_t has 64 bits it is
 * size_t. On a smaller processor a size_t may be passed for it; what `written` points to, and what is
 * kept of a length in a struct, is a donglora_size.
 */
#if SIZE_MAX == UINT64_MAX
typedef size_t donglora_size;
#else
typedef uint64_t donglora_size;
#endif

/* The numbers that come back. */
#define DONGLORA_TAKEN  0 /* done */
#define DONGLORA_ROOM   1 /* an event of the dongle: the output is under DONGLORA_OUT bytes */
#define DONGLORA_STALL  2 /* a byte came while a SET_CONFIG waits or runs */
#define DONGLORA_PLACE  3 /* a radio outcome came that doesn't fit what the radio does */
#define DONGLORA_SHORT  4 /* the destination is too small */
#define DONGLORA_STUFF  5 /* the source is no COBS encoding */
#define DONGLORA_LENGTH 6 /* the source is too long, or a body is outside 5 to 280 bytes */
#define DONGLORA_CHECK  7 /* the check value differs */
#define DONGLORA_TAG    8 /* the tag is zero and must not be, or the other way round */
#define DONGLORA_TYPE   9 /* the message is of another type */
#define DONGLORA_FORM  10 /* the payload is not of that message's layout or values */
#define DONGLORA_LEDGER 11 /* all lines of the host's ledger are open */
#define DONGLORA_AIR   12 /* a value that the formula of the time on air is not for */
#define DONGLORA_WIDE  13 /* a time on air that 32 bits do not hold */

/* The message types that a host sends. */
#define DONGLORA_PING       0x01
#define DONGLORA_GET_INFO   0x02
#define DONGLORA_SET_CONFIG 0x03
#define DONGLORA_TX         0x04
#define DONGLORA_RX_START   0x05
#define DONGLORA_RX_STOP    0x06

/* The message types that a dongle sends, and the codes of its ERR. */
#define DONGLORA_OK      0x80
#define DONGLORA_ERR     0x81
#define DONGLORA_RX      0xC0
#define DONGLORA_TX_DONE 0xC1

#define DONGLORA_EPARAM         0x0001 /* a parameter is out of range */
#define DONGLORA_ELENGTH        0x0002 /* a command has a payload of the wrong size */
#define DONGLORA_ENOTCONFIGURED 0x0003 /* there was no SET_CONFIG, or its session has ended */
#define DONGLORA_EMODULATION    0x0004 /* the modulation is neither LoRa nor FSK */
#define DONGLORA_EUNKNOWN_CMD   0x0005 /* the message is no command */
#define DONGLORA_EBUSY          0x0006 /* 16 TX are open */
#define DONGLORA_ERADIO         0x0101 /* the radio has failed; tag 0 where that was no SET_CONFIG */
#define DONGLORA_EFRAME         0x0102 /* a frame came damaged; tag 0 */

/* The longest body, and the longest encoding of one (without the zero that ends a frame). */
#define DONGLORA_BODY_MAX    280
#define DONGLORA_ENCODED_MAX 282

/* The room that encoding n bytes asks for: the most that n bytes can become. */
#define DONGLORA_ENCODED_ROOM(n) ((n) + (n) / 254 + 1)

/*
 * The check value of src: CRC-16 with polynomial 0x1021 and start 0xFFFF, not reflected, with no
 * final xor (CRC-16/CCITT-FALSE). src may have any length. The check value of "123456789" is
 * 0x29B1; that of no bytes is 0xFFFF.
 */
uint16_t donglora_crc16(const uint8_t *src, donglora_size src_len);

/*
 * Encodes src by COBS into dst, so that no byte of it is zero, and stores in *written how many
 * bytes that is. The zero that ends a frame is not added.
 *
 * Answers, the first that applies:
 *   DONGLORA_LENGTH  src_len is over DONGLORA_BODY_MAX
 *   DONGLORA_SHORT   dst_len is under DONGLORA_ENCODED_ROOM(src_len), even where the encoding
 *                    of this source would have fitted
 *   DONGLORA_TAKEN   done
 *
 * A group of 254 bytes at the very end is followed by a closing 01. No bytes become 01.
 */
uint8_t donglora_cobs_encode(const uint8_t *src, donglora_size src_len, uint8_t *dst, donglora_size dst_len,
                             donglora_size *written);

/*
 * Decodes the COBS encoding src into dst, and stores in *written how many bytes that is. src has
 * no zero at its end: pass what stands between two zeros of a capture.
 *
 * Answers, the first that applies:
 *   DONGLORA_LENGTH  src_len is over DONGLORA_ENCODED_MAX
 *   DONGLORA_SHORT   dst_len is under src_len, even where the decoded bytes would have fitted
 *   DONGLORA_STUFF   src is empty, has a zero anywhere, or ends inside a group
 *   DONGLORA_TAKEN   done
 *
 * A group of 254 bytes at the very end is taken with its closing 01 and without it. The single
 * byte 01 becomes no bytes. 282 bytes can become 281, which is too long for a body: whoever reads
 * frames looks at *written.
 */
uint8_t donglora_cobs_decode(const uint8_t *src, donglora_size src_len, uint8_t *dst, donglora_size dst_len,
                             donglora_size *written);

/* Where a payload stands in a body, and the longest payload, which is that of an RX. */
#define DONGLORA_PAYLOAD     3
#define DONGLORA_PAYLOAD_MAX 275

/* The room that a frame with n bytes of payload asks for, its zero included. */
#define DONGLORA_FRAME_ROOM(n) (DONGLORA_ENCODED_ROOM((n) + 5) + 1)

/*
 * Writes the frame of a command to dst, its zero included, and stores in *written how many bytes
 * that is. type is one of DONGLORA_PING to DONGLORA_RX_STOP; the payload's bytes are those of the
 * protocol's tables.
 *
 * Answers, the first that applies:
 *   DONGLORA_TAG    tag is 0 in a command (for other types see below)
 *   DONGLORA_TYPE   type is no command
 *   DONGLORA_FORM   PING, GET_INFO, RX_START or RX_STOP with a payload; SET_CONFIG with a
 *                   modulation other than 1 (LoRa) and 2 (FSK), a wrong size, or a sync word over
 *                   8 bytes; TX with flags over 1 or a packet outside 1 to 255 bytes. Other values
 *                   are for the device to judge.
 *   DONGLORA_SHORT  dst_len is under DONGLORA_FRAME_ROOM(payload_len)
 *   DONGLORA_TAKEN  done
 *
 * A type that is no command has no rule for its tag: it is DONGLORA_TYPE with tag 0 too, but for
 * the types 0x80 and 0xC1 (OK and TX_DONE), where tag 0 is DONGLORA_TAG, and 0xC0 (RX), where any
 * other tag is.
 */
uint8_t donglora_write_command(uint8_t type, uint16_t tag, const uint8_t *payload, donglora_size payload_len,
                               uint8_t *dst, donglora_size dst_len, donglora_size *written);

/*
 * A message, of whatever type. Where number is not DONGLORA_TAKEN the frame was refused, and all
 * other fields are 0.
 */
struct donglora_message {
    uint8_t number;
    uint8_t type;              /* of an answer: DONGLORA_OK, _ERR, _RX or _TX_DONE */
    uint16_t tag;
    donglora_size payload_len; /* the payload is body[DONGLORA_PAYLOAD] and on */
};

/*
 * Reads run, the frame of an answer without its zero, and puts its body, from the type to the check
 * value, at the start of body. command says how the payload of an OK is judged: with
 * DONGLORA_GET_INFO and DONGLORA_SET_CONFIG as the layout of the OK to that command, and with any
 * other number not at all. Which command an OK answers is told by the ledger, below, from the type
 * and the tag that donglora_read_frame finds. An ERR has its code at body[DONGLORA_PAYLOAD], low
 * byte first. The values of an RX and of a TX_DONE have readers of their own, below.
 *
 * number, the first that applies:
 *   DONGLORA_LENGTH  run_len is over DONGLORA_ENCODED_MAX
 *   DONGLORA_SHORT   body_len is under run_len, even where the body would have fitted
 *   DONGLORA_STUFF   run is no COBS encoding
 *   DONGLORA_LENGTH  the body is outside 5 to 280 bytes
 *   DONGLORA_CHECK   the check value differs
 *   DONGLORA_TAG     the tag is 0 in a command, an OK or a TX_DONE; it is not 0 in an RX
 *   DONGLORA_TYPE    the frame is no answer
 *   DONGLORA_FORM    an OK as above; an ERR under 2 bytes; an RX or a TX_DONE that its own reader
 *                    refuses so
 *   DONGLORA_TAKEN   done
 */
struct donglora_message donglora_read_answer(uint8_t command, const uint8_t *run, donglora_size run_len, uint8_t *body,
                                             donglora_size body_len);

/*
 * A received packet: what an RX says. Where number is not DONGLORA_TAKEN the frame was refused, and
 * all other fields are 0. Where origin is 1 the device sent the packet itself, and rssi, snr and
 * freq_err were not measured. Where crc_valid is 0 snr and freq_err may mean nothing.
 */
struct donglora_rx {
    uint8_t number;
    int16_t rssi;             /* tenths of dBm */
    int16_t snr;              /* tenths of dB */
    int32_t freq_err;         /* Hz */
    uint64_t timestamp_us;    /* since the device's start */
    uint8_t crc_valid;        /* 0 where the packet's CRC failed; 1 also where it has none */
    uint16_t packets_dropped; /* since the RX before */
    uint8_t origin;           /* 0 over the air, 1 from the same device */
    donglora_size packet_len; /* the packet is body[DONGLORA_RX_PACKET] and on */
};

/* Where the packet stands in the body of an RX. */
#define DONGLORA_RX_PACKET 23

/*
 * Reads run, the frame of an RX without its zero, and puts its body at the start of body. The
 * numbers are those of donglora_read_answer; DONGLORA_TYPE is any message that is no RX, and
 * DONGLORA_FORM a payload under 20 bytes, or a crc_valid or an origin over 1.
 */
struct donglora_rx donglora_read_rx(const uint8_t *run, donglora_size run_len, uint8_t *body, donglora_size body_len);

/*
 * The end of a transmission: what a TX_DONE says. Where number is not DONGLORA_TAKEN the frame was
 * refused, and all other fields are 0.
 */
struct donglora_tx_done {
    uint8_t number;
    uint16_t tag;        /* of the TX that ended */
    uint8_t result;      /* 0 transmitted, 1 channel busy, 2 cancelled */
    uint32_t airtime_us; /* 0 where nothing was transmitted */
};

/*
 * Reads run, the frame of a TX_DONE without its zero, and puts its body at the start of body. The
 * numbers are those of donglora_read_answer; DONGLORA_TYPE is any message that is no TX_DONE, and
 * DONGLORA_FORM a payload under 5 bytes or a result over 2. Bytes after the known fields are ignored,
 * and are in body too.
 */
struct donglora_tx_done donglora_read_tx_done(const uint8_t *run, donglora_size run_len, uint8_t *body,
                                              donglora_size body_len);

/*
 * What a frame says of itself, of whatever type and tag: reads run, a frame without its zero, and puts
 * its body at the start of body. So a host learns the type and the tag before it knows which command an
 * OK answers; the ledger below tells that, and then donglora_read_answer judges the payload. No payload
 * is judged here, nor a type or a tag; type may be any number.
 *
 * number, the first that applies:
 *   DONGLORA_LENGTH  run_len is over DONGLORA_ENCODED_MAX
 *   DONGLORA_SHORT   body_len is under run_len, even where the body would have fitted
 *   DONGLORA_STUFF   run is no COBS encoding
 *   DONGLORA_LENGTH  the body is outside 5 to 280 bytes
 *   DONGLORA_CHECK   the check value differs
 *   DONGLORA_TAKEN   done
 */
struct donglora_message donglora_read_frame(const uint8_t *run, donglora_size run_len, uint8_t *body,
                                            donglora_size body_len);

/*
 * ---- The ledger of open tags ----
 *
 * A host that has several commands open at a time keeps one ledger for each dongle. It asks the ledger
 * for the tag of each command, and tells it the type and the tag of each answer; the ledger tells which
 * command that answers. Sixteen commands can be open. No two of them have the same tag.
 *
 *  1. Once, before all else: donglora_ledger_new.
 *  2. For each command: donglora_ledger_open gives the tag, with which the frame is written and sent.
 *  3. For each frame that comes: donglora_read_frame, and then donglora_ledger_answer with its type and
 *     tag. Where the verdict is DONGLORA_FITS, its payload is that of the answer to report.command.
 *  4. Where the dongle was unplugged, or its session has ended: donglora_ledger_connect. What was open
 *     gets no answer any more, and one that still comes is unexpected.
 *
 * A ledger is an array of words, which the host keeps between calls and does not change itself. With
 * whatever it is filled, no call reads or writes anything else: word 0 has the number that the next tag is
 * looked for from in its low half, and the open lines in its high half, line n as bit n; word 1 + n has
 * line n, its tag in the low half, its command in the next byte, and 1 in the highest where that is a TX
 * that has its OK.
 */
#define DONGLORA_LEDGER_WORDS 17
#define DONGLORA_LEDGER_LINES 16

/* A ledger with no open command, whose first tag will be 1. */
void donglora_ledger_new(uint32_t ledger[DONGLORA_LEDGER_WORDS]);

/*
 * Opens a command, one of DONGLORA_PING to DONGLORA_RX_STOP, and stores its tag in *tag and its line in
 * *line. The line is the lowest that is free, 0 to 15; until the command is closed no other has it, so it
 * can be the place of what a host keeps about the command. The tags go up by one, and on from 0xFFFF to 1,
 * and pass over those that are open.
 *
 * Answers, the first that applies:
 *   DONGLORA_LEDGER  sixteen commands are open
 *   DONGLORA_TYPE    command is none of the six
 *   DONGLORA_TAKEN   done
 *
 * On a refusal *tag, *line and the ledger stay as they were.
 */
uint8_t donglora_ledger_open(uint32_t ledger[DONGLORA_LEDGER_WORDS], uint8_t command, uint16_t *tag,
                             uint8_t *line);

/* What an answer is to the ledger: the verdict. */
#define DONGLORA_UNEXPECTED 0 /* no open command waits for it: late, doubled, or of another's */
#define DONGLORA_NOBODYS    1 /* it answers no command: an RX, or an ERR with tag 0 */
#define DONGLORA_FITS       2 /* it answers an open command */

/* Where the verdict is not DONGLORA_FITS, the other fields are 0. */
struct donglora_report {
    uint8_t verdict;
    uint8_t command; /* the command that it answers */
    uint8_t line;    /* its line */
    uint8_t closed;  /* 1 where that closes it; 0 at the OK to a TX, which waits for its TX_DONE */
};

/*
 * Takes an answer, by the type and the tag of its frame: the payload does not matter. OK and ERR fit an
 * open command with that tag, and close it; but the OK to a TX leaves it open, and from then on TX_DONE
 * alone fits, and closes it. What is nobody's or unexpected changes nothing.
 */
struct donglora_report donglora_ledger_answer(uint32_t ledger[DONGLORA_LEDGER_WORDS], uint8_t type,
                                              uint16_t tag);

/* A new connection: all lines are free. The tags go on, so a late answer of the old one is unexpected. */
void donglora_ledger_connect(uint32_t ledger[DONGLORA_LEDGER_WORDS]);

/*
 * ---- Time on air ----
 *
 * What the time on air of a LoRa packet depends on: the parameters as a SET_CONFIG has them, and the length of
 * the packet. A struct, since five numbers of one type would change places unnoticed.
 */
struct donglora_air {
    uint8_t sf;            /* spreading factor, 7 to 12 */
    uint8_t bw;            /* bandwidth, 0 (7.81 kHz) to 9 (500 kHz) */
    uint8_t cr;            /* coding rate, 0 (4/5) to 3 (4/8) */
    uint8_t header_mode;   /* 0 explicit, 1 implicit */
    uint8_t payload_crc;   /* 0 without a CRC, 1 with one */
    uint16_t preamble_len; /* in symbols; any */
    donglora_size len;     /* bytes of the packet, 0 to 255 */
};

/*
 * How long a packet is on air, in whole microseconds, stored in *us: by the formula of Semtech's SX1276 data
 * sheet, rounded down. us is not NULL. Low data rate optimisation counts as on where a dongle turns it on, which
 * is where a symbol takes longer than 16 ms. Listening for a clear channel comes on top, and so does what a host
 * and its USB take.
 *
 * Answers, the first that applies:
 *   DONGLORA_AIR    a value is outside what the struct says. A dongle also takes SF 5 and 6, for which the
 *                   formula does not hold.
 *   DONGLORA_WIDE   the time is over 4,294,967,295 us
 *   DONGLORA_TAKEN  done
 *
 * On a refusal *us stays as it was.
 */
uint8_t donglora_airtime(struct donglora_air air, uint32_t *us);

/*
 * ---- The dongle ----
 *
 * A dongle is a control array and three memories, which the firmware keeps between calls and does
 * not change itself, and ten events, one function each. The firmware has the USB, the radio's chip
 * and a clock; the library has the protocol: frames, sessions, the queue of TX, the ring of packets
 * and every answer. How to call it:
 *
 *  1. Once, before all else: donglora_power_up.
 *  2. Whenever something happens, call its function, one call at a time:
 *        a byte has come from the host        donglora_byte
 *        a millisecond has passed             donglora_tick
 *        the host is gone (USB unplugged)     donglora_disconnect
 *        the host can take a packet           donglora_request
 *        the radio has done something         donglora_clear, _busy, _sent, _configured, _fault
 *        the radio has received a packet      donglora_packet
 *     Most are lent an output of at least DONGLORA_OUT bytes. Tick, disconnect, clear and packet
 *     write nothing: pass the size of the output to them, too. Under DONGLORA_OUT bytes any event is
 *     refused with DONGLORA_ROOM.
 *  3. After each call, look at the answer:
 *        number   DONGLORA_TAKEN; or the event was refused, and then the state, the memories and the
 *                 output are as they were.
 *        written  so many bytes at the start of the output are for the host: send them all, in
 *                 order, before the output is lent again.
 *        order    what the radio is to do now; see below.
 *
 * A host that is slow to read holds up only the events that write: the four that write nothing may be
 * called meanwhile, and no millisecond needs to be lost.
 *
 * A byte that is refused with DONGLORA_STALL is not lost if the firmware keeps it: offer it again
 * after the next call that told of the radio. When the host is gone throw it away, with all other
 * bytes from that host that were not offered yet: they would spoil the next host's first frame.
 * DONGLORA_PLACE tells that firmware and library differ about what the radio does, as when a "sent"
 * comes twice, or a packet while the radio was not ordered to receive: such an event is best ignored.
 * DONGLORA_ROOM is a mistake of the caller.
 *
 * Orders, and what the firmware does:
 *   DONGLORA_NOTHING    go on.
 *   DONGLORA_STANDBY    put the radio in standby.
 *   DONGLORA_CONFIGURE  set the radio up. commands[at] and on, len bytes, are the modulation (1 LoRa,
 *                       2 FSK) and its parameters as in SET_CONFIG; ldro is 1 where LoRa's low data
 *                       rate optimisation is to be on. Then call donglora_configured, or
 *                       donglora_fault if the radio refuses. The bytes stay where they are, as they
 *                       are, until then.
 *   DONGLORA_TRANSMIT   send the packet, the len bytes from commands[at] on. Where listen is 1,
 *                       listen for a clear channel first, and call donglora_clear and then send, or
 *                       donglora_busy and don't. When it has been sent call donglora_sent, or
 *                       donglora_fault if that fails. The packet stays where it is, as it is, until
 *                       then.
 *   DONGLORA_RECEIVE    receive without end. For each packet call donglora_packet.
 * An order replaces what the radio was doing, but for a packet on air and a configuration: none
 * comes before its end, which is told by donglora_sent, donglora_configured or donglora_fault even
 * where the session of its host has ended meanwhile. A radio that listened and is ordered elsewhere
 * stops listening. donglora_fault may be called at any time, also with a radio that does nothing.
 *
 * The control array, the memories, the output, the packet's bytes and the answer must not overlap,
 * and no pointer but that to a packet of 0 bytes may be NULL. Whatever the control array and the
 * memories hold, each function reads and writes only the memory that it is lent, and does what its
 * definition says; an array that no function of the library has written is put into the library's
 * own form by the first call, even by a refused one. From donglora_power_up on, a dongle that is
 * called in this way keeps the three demands that docs/ASSURANCE.md explains.
 *
 * examples/firmware is a board's firmware that does all this; examples/range/board.c has the same loop
 * in a simulated range.
 */

/* The numbers of words of the control array, and of bytes of the memories and of the output. */
#define DONGLORA_CONTROL  4
#define DONGLORA_RUN      282
#define DONGLORA_COMMANDS 4403
#define DONGLORA_PACKETS  17664
#define DONGLORA_OUT      283

/* The orders. */
#define DONGLORA_NOTHING   0
#define DONGLORA_STANDBY   1
#define DONGLORA_CONFIGURE 2
#define DONGLORA_TRANSMIT  3
#define DONGLORA_RECEIVE   4

/*
 * The answer to an event. It is written whole by each event, a refused one too: then written is 0
 * and the order is DONGLORA_NOTHING.
 */
struct donglora_answer {
    uint64_t number;  /* DONGLORA_TAKEN, _ROOM, _STALL or _PLACE */
    uint64_t written; /* how many bytes of the output were written */
    uint64_t order;   /* DONGLORA_NOTHING to DONGLORA_RECEIVE */
    uint64_t at;      /* configure, transmit: where its bytes begin in commands, else 0 */
    uint64_t len;     /* configure, transmit: how many they are, else 0 */
    uint64_t ldro;    /* configure: 1 where LDRO is on, else 0 */
    uint64_t listen;  /* transmit: 1 where the radio listens first, else 0 */
};

/* The first state, and memories filled with zero. */
void donglora_power_up(uint64_t control[DONGLORA_CONTROL], uint8_t run[DONGLORA_RUN],
                       uint8_t commands[DONGLORA_COMMANDS], uint8_t packets[DONGLORA_PACKETS]);

/* A byte has come from the host. */
void donglora_byte(uint64_t control[DONGLORA_CONTROL], uint8_t b, uint8_t run[DONGLORA_RUN],
                   uint8_t commands[DONGLORA_COMMANDS], uint8_t *out, donglora_size out_len,
                   struct donglora_answer *answer);

/* A millisecond has passed. The thousandth without a frame from the host ends its session. */
void donglora_tick(uint64_t control[DONGLORA_CONTROL], donglora_size out_len, struct donglora_answer *answer);

/* The host is gone. */
void donglora_disconnect(uint64_t control[DONGLORA_CONTROL], donglora_size out_len, struct donglora_answer *answer);

/* The radio listened, and the channel is clear: the packet goes on air. */
void donglora_clear(uint64_t control[DONGLORA_CONTROL], donglora_size out_len, struct donglora_answer *answer);

/* The radio listened, and the channel is busy: the packet is not sent. */
void donglora_busy(uint64_t control[DONGLORA_CONTROL], const uint8_t commands[DONGLORA_COMMANDS], uint8_t *out,
                   donglora_size out_len, struct donglora_answer *answer);

/* The packet has been sent, and took so many microseconds on air. */
void donglora_sent(uint64_t control[DONGLORA_CONTROL], uint32_t airtime_us, const uint8_t commands[DONGLORA_COMMANDS],
                   uint8_t *out, donglora_size out_len, struct donglora_answer *answer);

/*
 * The radio is set up as the last DONGLORA_CONFIGURE said. The host gets its OK; and where it had
 * turned receiving on, the same answer orders DONGLORA_RECEIVE: the radio receives with what was set.
 * Where the host is gone there is no OK, and the order is DONGLORA_STANDBY.
 */
void donglora_configured(uint64_t control[DONGLORA_CONTROL], const uint8_t commands[DONGLORA_COMMANDS], uint8_t *out,
                         donglora_size out_len, struct donglora_answer *answer);

/*
 * The radio has failed, whatever it did. The host is told by an ERR with DONGLORA_ERADIO; a TX that
 * was with the radio is reported as cancelled. Where it was being set up, it is set up no more, and
 * receiving is off.
 */
void donglora_fault(uint64_t control[DONGLORA_CONTROL], const uint8_t commands[DONGLORA_COMMANDS], uint8_t *out,
                    donglora_size out_len, struct donglora_answer *answer);

/*
 * The status of a received packet. A struct, since rssi and snr are numbers of one type that
 * could change places in a list of arguments.
 */
struct donglora_packet_status {
    int16_t rssi;          /* tenths of dBm */
    int16_t snr;           /* tenths of dB */
    int32_t freq_err;      /* Hz */
    uint64_t timestamp_us; /* since the device's start */
    uint8_t crc_valid;     /* 0 where the packet's CRC failed; else any other number, also without a CRC */
};

/* The radio has received a packet. One over 255 bytes is cut, and counts as one whose CRC failed. */
void donglora_packet(uint64_t control[DONGLORA_CONTROL], struct donglora_packet_status status, const uint8_t *bytes,
                     donglora_size len, uint8_t packets[DONGLORA_PACKETS], donglora_size out_len,
                     struct donglora_answer *answer);

/* The host can take a packet: the oldest that is held is written, as an RX, or nothing. */
void donglora_request(uint64_t control[DONGLORA_CONTROL], uint8_t packets[DONGLORA_PACKETS], uint8_t *out,
                      donglora_size out_len, struct donglora_answer *answer);

#ifdef __cplusplus
}
#endif

#endif
