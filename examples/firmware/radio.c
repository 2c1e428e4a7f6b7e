/*
 * radio.c: the library's orders as commands of the chip, and the chip's interrupts as events of the
 * library. This is where a level becomes tenths of dBm.
 */
#include "radio.h"

#include "airtime.h"
#include "clock.h"
#include "sx1262.h"

static enum { IDLE, CONFIGURING, LISTENING, SENDING, RECEIVING } doing;

/* The modulation that the radio is set up for, and what the chip was told of it. */
static uint8_t type;
static struct sx1262_lora_modulation lora;
static struct sx1262_lora_packet lora_packet;
static struct sx1262_gfsk_modulation gfsk;
static struct sx1262_gfsk_packet gfsk_packet;

/* The packet that was received last, and its CRC. */
static struct sx1262_received received;
static uint8_t packet[255];
static uint8_t crc_valid;

/* The chip's codes of the protocol's bandwidths 0 to 9: 7.81, 10.42, 15.63 .. 500 kHz. */
static const uint8_t bandwidths[] = {0x00, 0x08, 0x01, 0x09, 0x02, 0x0A, 0x03, 0x04, 0x05, 0x06};

static uint16_t u16_at(const uint8_t *p)
{
    return (uint16_t)(p[0] | p[1] << 8);
}

static uint32_t u32_at(const uint8_t *p)
{
    return u16_at(p) | (uint32_t)u16_at(p + 2) << 16;
}

void radio_start(void)
{
    sx1262_start();
}

/* Every order begins so: what the chip did has ended, and what it has to tell of that is forgotten. */
void radio_standby(void)
{
    doing = IDLE;
    sx1262_set_standby();
    sx1262_clear_irq_status(SX1262_ALL);
}

/* LoRa's parameters, as P 10.1 lays them out. */
static void configure_lora(const uint8_t *p, int ldro)
{
    const uint8_t sync_word[] = {p[10], p[9]}; /* the chip has the high byte first */

    lora = (struct sx1262_lora_modulation){.sf = p[4], .bw = bandwidths[p[5]], .cr = (uint8_t)(p[6] + 1),
                                           .ldro = (uint8_t)ldro};
    lora_packet = (struct sx1262_lora_packet){.preamble_len = u16_at(p + 7), .implicit = p[12], .crc = p[13],
                                              .iq = p[14]};
    sx1262_set_tx_params((int8_t)p[11]);
    sx1262_set_lora_modulation_params(&lora);
    sx1262_write_register(SX1262_LORA_SYNC_WORD, sync_word, sizeof sync_word);
}

/* FSK's, as P 10.2 does. */
static void configure_gfsk(const uint8_t *p)
{
    gfsk = (struct sx1262_gfsk_modulation){.bitrate_bps = u32_at(p + 4), .freq_dev_hz = u32_at(p + 8), .rx_bw = p[12]};
    gfsk_packet = (struct sx1262_gfsk_packet){.preamble_len = u16_at(p + 13), .sync_word_len = p[15]};
    sx1262_set_gfsk_modulation_params(&gfsk);
    sx1262_write_register(SX1262_GFSK_SYNC_WORD, p + 16, p[15]);
}

/* The first byte is the modulation; the library orders 1 (LoRa) and 2 (FSK) alone, with values that the board has. */
void radio_configure(const uint8_t *parameters, int ldro)
{
    const uint8_t *p = parameters + 1;

    radio_standby();
    doing = CONFIGURING;
    type = parameters[0] == 1 ? SX1262_LORA : SX1262_GFSK;
    sx1262_set_packet_type(type);
    sx1262_set_rf_frequency(u32_at(p));
    if (type == SX1262_LORA)
        configure_lora(p, ldro);
    else
        configure_gfsk(p);
}

/* How long a packet is, for the chip: the one that is sent, or the longest that is received. */
static void set_length(uint8_t len)
{
    lora_packet.len = len;
    gfsk_packet.len = len;
    if (type == SX1262_LORA)
        sx1262_set_lora_packet_params(&lora_packet);
    else
        sx1262_set_gfsk_packet_params(&gfsk_packet);
}

void radio_transmit(const uint8_t *bytes, uint8_t len, int listen)
{
    radio_standby();
    set_length(len);
    sx1262_write_buffer(bytes, len);
    if (!listen) {
        radio_send();
        return;
    }
    doing = LISTENING;
    sx1262_set_cad();
}

void radio_send(void)
{
    doing = SENDING;
    sx1262_set_tx();
}

void radio_receive(void)
{
    radio_standby();
    set_length(sizeof packet);
    doing = RECEIVING;
    sx1262_set_rx();
}

/* Whether the chip has a bit set; then all that it has to tell is taken. */
static int take_irq(uint16_t irq, uint16_t bit)
{
    if (!(irq & bit))
        return 0;
    sx1262_clear_irq_status(irq);
    return 1;
}

/* The chip has listened: a clear channel is told at once, since the packet waits for it. */
static enum radio_event cad_event(uint16_t irq, int room)
{
    if ((irq & SX1262_CAD_DETECTED) && !room)
        return RADIO_NOTHING;
    if (!take_irq(irq, SX1262_CAD_DONE))
        return RADIO_NOTHING;
    doing = IDLE;
    return irq & SX1262_CAD_DETECTED ? RADIO_BUSY : RADIO_CLEAR;
}

static enum radio_event rx_event(uint16_t irq)
{
    if (!take_irq(irq, SX1262_RX_DONE))
        return RADIO_NOTHING;
    received = sx1262_get_packet_status();
    sx1262_read_buffer(received.start, packet, received.len);
    crc_valid = !(irq & SX1262_CRC_ERR);
    return RADIO_RECEIVED;
}

/* The event of what has ended. */
static enum radio_event ended(enum radio_event event)
{
    doing = IDLE;
    return event;
}

enum radio_event radio_next(int room)
{
    if (sx1262_get_device_errors()) {
        if (!room)
            return RADIO_NOTHING;
        sx1262_clear_device_errors();
        radio_standby();
        return RADIO_FAILED;
    }
    switch (doing) {
    case CONFIGURING:
        return room && !sx1262_busy() ? ended(RADIO_CONFIGURED) : RADIO_NOTHING;
    case LISTENING:
        return cad_event(sx1262_get_irq_status(), room);
    case SENDING:
        return room && take_irq(sx1262_get_irq_status(), SX1262_TX_DONE) ? ended(RADIO_SENT) : RADIO_NOTHING;
    case RECEIVING:
        return rx_event(sx1262_get_irq_status());
    default:
        return RADIO_NOTHING;
    }
}

uint32_t radio_airtime_us(void)
{
    return type == SX1262_LORA ? airtime_lora_us(&lora, &lora_packet) : airtime_gfsk_us(&gfsk, &gfsk_packet);
}

/*
 * The chip has half dBm below 0, and quarters of dB for LoRa alone; the protocol has tenths. It does not
 * report the error of the frequency.
 */
struct donglora_packet_status radio_status(void)
{
    return (struct donglora_packet_status){.rssi = (int16_t)(received.rssi * -5),
                                           .snr = (int16_t)(type == SX1262_LORA ? received.snr * 10 / 4 : 0),
                                           .freq_err = 0,
                                           .timestamp_us = clock_us(),
                                           .crc_valid = crc_valid};
}

const uint8_t *radio_packet(uint8_t *len)
{
    *len = received.len;
    return packet;
}
