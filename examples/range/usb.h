/*
 * usb.h: the bytes between the host and a dongle. They are all that goes from one to the other.
 */
#ifndef RANGE_USB_H
#define RANGE_USB_H

#include <stddef.h>
#include <stdint.h>

/*
 * Bytes under way in one direction: what the USB buffers. This one never runs full. A board whose buffer
 * has no room for DONGLORA_OUT bytes calls no event that writes until it has.
 */
struct usb_pipe {
    uint8_t bytes[4096];
    size_t first, len;
    size_t held; /* so many of them stay where they are for now */
    int twice;   /* the bytes that are added next arrive twice */
};

/* Adds bytes at the end. */
void usb_put(struct usb_pipe *p, const uint8_t *bytes, size_t len);

/* The next byte, which stays in the pipe; NULL where there is none. */
const uint8_t *usb_next(const struct usb_pipe *p);

/* Takes the next byte away. */
void usb_drop(struct usb_pipe *p);

#endif
