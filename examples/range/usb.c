/*
 * usb.c: the bytes between the host and a dongle, simulated by a ring of bytes for each direction.
 * A board has the USB driver of its chip in this place.
 */
#include "usb.h"

#include "common.h"

static void add(struct usb_pipe *p, const uint8_t *bytes, size_t len)
{
    if (len > sizeof p->bytes - p->len)
        give_up("a pipe is full");
    for (size_t i = 0; i < len; i++)
        p->bytes[(p->first + p->len++) % sizeof p->bytes] = bytes[i];
}

void usb_put(struct usb_pipe *p, const uint8_t *bytes, size_t len)
{
    add(p, bytes, len);
    if (p->twice && len > 0) {
        add(p, bytes, len);
        p->twice = 0;
    }
}

const uint8_t *usb_next(const struct usb_pipe *p)
{
    return p->len <= p->held ? NULL : &p->bytes[p->first];
}

void usb_drop(struct usb_pipe *p)
{
    p->first = (p->first + 1) % sizeof p->bytes;
    p->len--;
}
