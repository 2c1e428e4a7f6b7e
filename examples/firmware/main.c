/*
 * main.c: the dongle's main loop: the host's bytes, the radio's events and the clock's milliseconds go to
 * the library, one call at a time, and what it answers goes to the host and to the radio. A UART can't
 * tell that the host is gone; on USB donglora_disconnect is called then, and the ring emptied.
 */
#include "main.h"

#include "board.h"
#include "clock.h"
#include "donglora.h"
#include "radio.h"

/* These four are the library's: the firmware keeps and lends them. */
static uint64_t control[DONGLORA_CONTROL];
static uint8_t run[DONGLORA_RUN];
static uint8_t commands[DONGLORA_COMMANDS];
static uint8_t packets[DONGLORA_PACKETS];

/* Lent to each event that may write, once what it wrote before has been sent. */
static uint8_t out[DONGLORA_OUT];

struct uart host;
static int stalled; /* the host's next byte was refused: it waits in the ring for the radio */

/* Does what the answer to an event asks for: sends what was written, and passes the order to the radio. */
static void follow(const struct donglora_answer *answer)
{
    const uint8_t *bytes = commands + (size_t)answer->at;

    uart_send(&host, out, (size_t)answer->written);
    switch ((int)answer->order) {
    case DONGLORA_STANDBY:
        radio_standby();
        break;
    case DONGLORA_CONFIGURE:
        radio_configure(bytes, (int)answer->ldro);
        break;
    case DONGLORA_TRANSMIT: /* the packet stays where it is until its end is told; this chip has a copy */
        radio_transmit(bytes, (uint8_t)answer->len, (int)answer->listen);
        break;
    case DONGLORA_RECEIVE:
        radio_receive();
        break;
    }
}

/* The radio has received a packet: tells the library, with what was measured. */
static void tell_packet(struct donglora_answer *answer)
{
    uint8_t len;
    const uint8_t *packet = radio_packet(&len);

    donglora_packet(control, radio_status(), packet, len, packets, sizeof out, answer);
}

/* Tells the library what the radio has come to. A byte that was refused may then be offered again. */
static void tell_radio(void)
{
    struct donglora_answer answer;

    switch (radio_next(!uart_sending(&host))) {
    case RADIO_CONFIGURED:
        donglora_configured(control, commands, out, sizeof out, &answer);
        break;
    case RADIO_CLEAR:
        donglora_clear(control, sizeof out, &answer);
        radio_send();
        break;
    case RADIO_BUSY:
        donglora_busy(control, commands, out, sizeof out, &answer);
        break;
    case RADIO_SENT:
        donglora_sent(control, radio_airtime_us(), commands, out, sizeof out, &answer);
        break;
    case RADIO_RECEIVED:
        tell_packet(&answer);
        break;
    case RADIO_FAILED:
        donglora_fault(control, commands, out, sizeof out, &answer);
        break;
    default:
        return;
    }
    stalled = 0;
    follow(&answer);
}

/* Offers the host's bytes one by one, until one is refused, or draws an answer that has to be sent first. */
static void take_bytes(void)
{
    struct donglora_answer answer;
    int byte;

    while (!stalled && !uart_sending(&host) && (byte = uart_next(&host)) >= 0) {
        donglora_byte(control, (uint8_t)byte, run, commands, out, sizeof out, &answer);
        if (answer.number == DONGLORA_STALL) {
            stalled = 1;
            return;
        }
        uart_drop(&host);
        follow(&answer);
    }
}

/* The host has taken all, so it can take a packet. */
static void offer_packet(void)
{
    struct donglora_answer answer;

    if (uart_sending(&host))
        return;
    donglora_request(control, packets, out, sizeof out, &answer);
    follow(&answer);
}

/* Tells the library of the milliseconds that have passed. A tick writes nothing, so none is kept back. */
static void tell_time(void)
{
    struct donglora_answer answer;

    while (clock_passed()) {
        donglora_tick(control, sizeof out, &answer);
        follow(&answer);
    }
}

int main(void)
{
    uint32_t seen;

    donglora_power_up(control, run, commands, packets);
    uart_start(&host, BOARD_UART0, BOARD_UART0_RECEIVED, BOARD_UART0_SENT);
    radio_start();
    clock_start();
    for (;;) {
        seen = board_interrupts;
        tell_radio();
        take_bytes();
        offer_packet();
        tell_time();
        board_sleep(seen);
    }
}
