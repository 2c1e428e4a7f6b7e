/*
 * sx1262.h: what the firmware needs of the radio chip: commands of the SX1262, by their names and with
 * the codes of its data sheet. sx1262_simulated.c stands in for the chip. A driver for a real one has
 * these functions too, each a transfer on the SPI; radio.c stays as it is.
 */
#ifndef FIRMWARE_SX1262_H
#define FIRMWARE_SX1262_H

#include <stdint.h>

/* SetPacketType. */
#define SX1262_GFSK 0x00
#define SX1262_LORA 0x01

/* GetIrqStatus: what has happened since these were cleared. */
#define SX1262_TX_DONE      (1u << 0)
#define SX1262_RX_DONE      (1u << 1)
#define SX1262_CRC_ERR      (1u << 6)
#define SX1262_CAD_DONE     (1u << 7)
#define SX1262_CAD_DETECTED (1u << 8)
#define SX1262_ALL          0xFFFFu

/* WriteRegister: where LoRa's sync word and FSK's stand. */
#define SX1262_LORA_SYNC_WORD 0x0740
#define SX1262_GFSK_SYNC_WORD 0x06C0

/* SetModulationParams. */
struct sx1262_lora_modulation {
    uint8_t sf;   /* 5 to 12 */
    uint8_t bw;   /* the chip's own code, see radio.c */
    uint8_t cr;   /* 1 to 4, for 4/5 to 4/8 */
    uint8_t ldro; /* 1 on, 0 off */
};

struct sx1262_gfsk_modulation {
    uint32_t bitrate_bps;
    uint32_t freq_dev_hz;
    uint8_t rx_bw; /* the chip's own code */
};

/* SetPacketParams. */
struct sx1262_lora_packet {
    uint16_t preamble_len; /* symbols */
    uint8_t implicit;      /* 1 without a header, 0 with one */
    uint8_t len;           /* of a packet that is sent */
    uint8_t crc;           /* 1 with a CRC, 0 without */
    uint8_t iq;            /* 1 inverted, 0 standard */
};

struct sx1262_gfsk_packet {
    uint16_t preamble_len; /* bits */
    uint8_t sync_word_len; /* bytes */
    uint8_t len;           /* of a packet that is sent */
};

/* GetPacketStatus and GetRxBufferStatus: the packet that was received last. */
struct sx1262_received {
    uint8_t rssi; /* half dBm below 0 */
    int8_t snr;   /* quarters of dB; LoRa alone has it */
    uint8_t len;
    uint8_t start; /* where it begins in the chip's memory */
};

/* Starts the chip, once. */
void sx1262_start(void);

/* Whether the chip is at work on a command: its line BUSY. */
int sx1262_busy(void);

/* Whether the chip has failed (GetDeviceErrors), and that it is to forget it (ClearDeviceErrors). */
int sx1262_get_device_errors(void);
void sx1262_clear_device_errors(void);

void sx1262_set_standby(void);
void sx1262_set_packet_type(uint8_t type);
void sx1262_set_rf_frequency(uint32_t freq_hz);
void sx1262_set_tx_params(int8_t power_dbm);
void sx1262_set_lora_modulation_params(const struct sx1262_lora_modulation *m);
void sx1262_set_gfsk_modulation_params(const struct sx1262_gfsk_modulation *m);
void sx1262_set_lora_packet_params(const struct sx1262_lora_packet *p);
void sx1262_set_gfsk_packet_params(const struct sx1262_gfsk_packet *p);
void sx1262_write_register(uint16_t address, const uint8_t *bytes, uint8_t len);
void sx1262_write_buffer(const uint8_t *bytes, uint8_t len);
void sx1262_read_buffer(uint8_t start, uint8_t *bytes, uint8_t len);

/* Each of these begins; what comes of it is in the IRQ status. SetRx is without end. */
void sx1262_set_cad(void);
void sx1262_set_tx(void);
void sx1262_set_rx(void);

uint16_t sx1262_get_irq_status(void);
void sx1262_clear_irq_status(uint16_t bits);
struct sx1262_received sx1262_get_packet_status(void);

#endif
