/*
 * uart.c: the UART of ARM's CMSDK, which QEMU's board has. It holds one byte in each direction.
 */
#include "uart.h"

#include "board.h"

/* Its registers, by their distance from the first. */
#define DATA       0x00
#define STATE      0x04
#define CONTROL    0x08
#define INTERRUPTS 0x0C /* which are pending; a bit that is written as 1 ends one */
#define DIVIDER    0x10

#define STATE_RECEIVED 0x2u
#define CONTROL_ALL    0xFu /* sends and receives, both with an interrupt */
#define CONTROL_RECEIVED_INTERRUPT 0x8u
#define INTERRUPT_SENT     0x1u
#define INTERRUPT_RECEIVED 0x2u

#define BAUD 921600u

static volatile uint32_t *at(const struct uart *u, uint32_t distance)
{
    return &BOARD_REGISTER(u->at + distance);
}

void uart_start(struct uart *u, uint32_t at_address, unsigned received, unsigned sent)
{
    u->at = at_address;
    *at(u, DIVIDER) = BOARD_HZ / BAUD;
    *at(u, CONTROL) = CONTROL_ALL;
    board_enable(received);
    board_enable(sent);
}

/*
 * Puts what was received into the ring. A byte for which there is no place stays in the UART, and the
 * interrupt is off until there is one: QEMU then keeps the other side waiting. A real UART holds one byte
 * and loses the next, so a board that can fall behind by 255 bytes needs a line for flow control here.
 */
static void take(struct uart *u)
{
    while (*at(u, STATE) & STATE_RECEIVED) {
        if ((uint8_t)(u->end + 1) == u->first) {
            *at(u, CONTROL) &= ~CONTROL_RECEIVED_INTERRUPT;
            return;
        }
        u->ring[u->end] = (uint8_t)*at(u, DATA);
        u->end++;
    }
}

void uart_received(struct uart *u)
{
    *at(u, INTERRUPTS) = INTERRUPT_RECEIVED;
    take(u);
}

int uart_next(const struct uart *u)
{
    return u->first == u->end ? -1 : u->ring[u->first];
}

void uart_drop(struct uart *u)
{
    u->first++;
    if (*at(u, CONTROL) & CONTROL_RECEIVED_INTERRUPT)
        return;
    board_mask(); /* the ring was full: what waits in the UART is taken here, as no interrupt tells of it */
    *at(u, CONTROL) |= CONTROL_RECEIVED_INTERRUPT;
    take(u);
    board_unmask();
}

/* Gives the UART the next byte. Its interrupt may come at once, so the rest is in order before. */
static void put(struct uart *u)
{
    uint8_t byte = *u->next;

    u->next++;
    *at(u, DATA) = byte;
}

void uart_send(struct uart *u, const uint8_t *bytes, size_t len)
{
    if (len == 0)
        return;
    u->next = bytes;
    u->left = len;
    put(u);
}

int uart_sending(const struct uart *u)
{
    return u->left > 0;
}

void uart_sent(struct uart *u)
{
    *at(u, INTERRUPTS) = INTERRUPT_SENT;
    if (u->left > 0 && --u->left > 0)
        put(u);
}
