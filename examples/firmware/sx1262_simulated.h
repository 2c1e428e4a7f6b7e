/*
 * sx1262_simulated.h: the simulated chip's antenna, which is the board's second UART. What goes over it
 * are messages of one letter and what follows; a test, or another board, is at its other end.
 *
 *   P len rssi snr crc byte ..   a packet, heard at its end: its length, rssi and snr as the chip has them
 *                                (half dBm below 0, quarters of dB), crc 0 where its CRC failed, else 1
 *   B, C                         the channel is busy from now on, or clear
 *   F                            the chip fails
 *
 * The chip hears P while it receives, and not otherwise. It says P at the end of each packet that it has
 * sent. With nothing at the other end the channel is clear, and nothing is heard.
 */
#ifndef FIRMWARE_SX1262_SIMULATED_H
#define FIRMWARE_SX1262_SIMULATED_H

#include "uart.h"

extern struct uart air;

#endif
