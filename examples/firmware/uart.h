/*
 * uart.h: a UART of the board, with its bytes received in a ring by interrupt, and sent by interrupt
 * from where they stand.
 */
#ifndef FIRMWARE_UART_H
#define FIRMWARE_UART_H

#include <stddef.h>
#include <stdint.h>

/* A UART. The ring holds up to 255 bytes; its indices wrap by themselves. */
struct uart {
    uint32_t at;                                  /* where its registers stand */
    volatile uint8_t ring[256];
    volatile uint8_t first, end;                  /* the oldest byte, and the first free place */
    const volatile uint8_t *volatile next;        /* what is sent next */
    volatile size_t left;                         /* how many bytes have still to go */
};

/* Starts a UART. Its interrupts are let in by their numbers. */
void uart_start(struct uart *u, uint32_t at, unsigned received, unsigned sent);

/* The oldest byte that was received and not dropped yet, or -1. */
int uart_next(const struct uart *u);

/* Takes that byte away. */
void uart_drop(struct uart *u);

/* Sends bytes, which stay as they are until that has ended. None is being sent. */
void uart_send(struct uart *u, const uint8_t *bytes, size_t len);

/* Whether bytes are still being sent. */
int uart_sending(const struct uart *u);

/* The interrupts: a byte has been received, or has been sent. */
void uart_received(struct uart *u);
void uart_sent(struct uart *u);

#endif
