/*
 * sx1262_simulated.c: a radio chip, simulated. It takes the time that a real one takes, but for long
 * packets: what it reports of them is their time on air, and the host need not wait for all of it.
 */
#include "sx1262_simulated.h"

#include "airtime.h"
#include "board.h"
#include "clock.h"
#include "memory.h"

#define SET_UP_US   15000  /* how long the chip is busy when it is set up */
#define CAD_US      8000   /* and listens */
#define ON_AIR_US   400000 /* and sends, at the most */
#define PACKET_MAX  255
#define HEADER      5      /* of a packet in the air: P len rssi snr crc */
#define SENT_RSSI   80     /* how another board hears this one: -40 dBm */
#define SENT_SNR    40     /* and 10 dB */

enum mode { STANDBY, CAD, TX, RX };

/* The chip, as its registers are. */
static struct {
    enum mode mode;
    uint64_t until_us;      /* CAD, TX: when that ends */
    uint64_t busy_until_us; /* the line BUSY */
    uint16_t irq;
    int errors;
    uint8_t type;
    struct sx1262_lora_modulation lora;
    struct sx1262_lora_packet lora_packet;
    struct sx1262_gfsk_modulation gfsk;
    struct sx1262_gfsk_packet gfsk_packet;
    uint8_t memory[PACKET_MAX];
    struct sx1262_received received;
} chip;

struct uart air;
static int channel_busy;

/* The message in the air of which so many bytes have been taken, and the one that is put there. */
static uint8_t header[HEADER];
static unsigned taken;
static int heard; /* the chip has received since it began */
static uint8_t sent[HEADER + PACKET_MAX];

void sx1262_start(void)
{
    uart_start(&air, BOARD_UART1, BOARD_UART1_RECEIVED, BOARD_UART1_SENT);
}

/* The packet's last byte was taken. */
static void end_packet(void)
{
    if (!heard)
        return;
    chip.received = (struct sx1262_received){.rssi = header[2], .snr = (int8_t)header[3], .len = header[1]};
    chip.irq |= SX1262_RX_DONE | (header[4] == 0 ? SX1262_CRC_ERR : 0);
}

/* Takes a byte of a message. */
static void take_air(uint8_t byte)
{
    if (taken == 0)
        heard = chip.mode == RX;
    if (taken < HEADER)
        header[taken] = byte;
    else if (heard)
        chip.memory[taken - HEADER] = byte;
    taken++;
    if (header[0] == 'P') {
        if (taken < HEADER || taken < HEADER + (unsigned)header[1])
            return;
        end_packet();
    }
    channel_busy = header[0] == 'B' || (channel_busy && header[0] != 'C');
    chip.errors |= header[0] == 'F';
    taken = 0;
}

/* Puts what was sent into the air, unless what was put there before has not gone yet. */
static void put_on_air(void)
{
    uint8_t len = chip.type == SX1262_LORA ? chip.lora_packet.len : chip.gfsk_packet.len;
    const uint8_t head[HEADER] = {'P', len, SENT_RSSI, SENT_SNR, 1};

    if (uart_sending(&air))
        return;
    memcpy(sent, head, HEADER);
    memcpy(sent + HEADER, chip.memory, len);
    uart_send(&air, sent, (size_t)HEADER + len);
}

/* Time goes by: what the chip has come to. A packet that was heard stays until its bits are cleared. */
static void update(void)
{
    int byte;

    while (!(chip.irq & SX1262_RX_DONE) && (byte = uart_next(&air)) >= 0) {
        take_air((uint8_t)byte);
        uart_drop(&air);
    }
    if ((chip.mode != CAD && chip.mode != TX) || clock_us() < chip.until_us)
        return;
    if (chip.mode == CAD) {
        chip.irq |= SX1262_CAD_DONE | (channel_busy ? SX1262_CAD_DETECTED : 0);
    } else {
        chip.irq |= SX1262_TX_DONE;
        put_on_air();
    }
    chip.mode = STANDBY;
}

/* The chip does this from now on. Bits that tell of what it did before stay until they are cleared. */
static void begin(enum mode mode, uint32_t us)
{
    chip.mode = mode;
    chip.until_us = clock_us() + us;
    heard = 0;
}

int sx1262_busy(void)
{
    return clock_us() < chip.busy_until_us;
}

int sx1262_get_device_errors(void)
{
    update();
    return chip.errors;
}

void sx1262_clear_device_errors(void)
{
    chip.errors = 0;
}

void sx1262_set_standby(void)
{
    begin(STANDBY, 0);
}

void sx1262_set_packet_type(uint8_t type)
{
    chip.type = type;
    chip.busy_until_us = clock_us() + SET_UP_US;
}

/* The simulated air has one channel, in which all packets are heard: these change nothing. */
void sx1262_set_rf_frequency(uint32_t freq_hz)
{
    (void)freq_hz;
}

void sx1262_set_tx_params(int8_t power_dbm)
{
    (void)power_dbm;
}

void sx1262_write_register(uint16_t address, const uint8_t *bytes, uint8_t len)
{
    (void)address;
    (void)bytes;
    (void)len;
}

void sx1262_set_lora_modulation_params(const struct sx1262_lora_modulation *m)
{
    chip.lora = *m;
}

void sx1262_set_gfsk_modulation_params(const struct sx1262_gfsk_modulation *m)
{
    chip.gfsk = *m;
}

void sx1262_set_lora_packet_params(const struct sx1262_lora_packet *p)
{
    chip.lora_packet = *p;
}

void sx1262_set_gfsk_packet_params(const struct sx1262_gfsk_packet *p)
{
    chip.gfsk_packet = *p;
}

void sx1262_write_buffer(const uint8_t *bytes, uint8_t len)
{
    memcpy(chip.memory, bytes, len);
}

void sx1262_read_buffer(uint8_t start, uint8_t *bytes, uint8_t len)
{
    memcpy(bytes, chip.memory + start, len);
}

void sx1262_set_cad(void)
{
    begin(CAD, CAD_US);
}

void sx1262_set_tx(void)
{
    uint32_t us = chip.type == SX1262_LORA ? airtime_lora_us(&chip.lora, &chip.lora_packet)
                                           : airtime_gfsk_us(&chip.gfsk, &chip.gfsk_packet);

    begin(TX, us < ON_AIR_US ? us : ON_AIR_US);
}

void sx1262_set_rx(void)
{
    begin(RX, 0);
}

uint16_t sx1262_get_irq_status(void)
{
    update();
    return chip.irq;
}

void sx1262_clear_irq_status(uint16_t bits)
{
    chip.irq &= (uint16_t)~bits;
}

struct sx1262_received sx1262_get_packet_status(void)
{
    return chip.received;
}
