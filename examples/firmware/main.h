/*
 * main.h: the firmware's main loop, and the UART that its host is at.
 */
#ifndef FIRMWARE_MAIN_H
#define FIRMWARE_MAIN_H

#include "uart.h"

extern struct uart host;

int main(void);

#endif
