/*
 * The listings of P's appendices A (COBS) and B (CRC), in our own layout. Each statement of P has
 * its counterpart here, so these functions keep what 01 decides otherwise: the decoder copies a
 * zero inside a group, and returns 0 both for an error and for an empty result.
 */
#include <stddef.h>
#include <stdint.h>

size_t p_cobs_encode(const uint8_t *src, size_t src_len, uint8_t *dst)
{
    size_t r = 0;
    size_t w = 1;
    size_t code_idx = 0;
    uint8_t code = 1;

    while (r < src_len) {
        if (src[r] == 0) {
            dst[code_idx] = code;
            code_idx = w++;
            code = 1;
        } else {
            dst[w++] = src[r];
            code++;
            if (code == 0xFF) {
                dst[code_idx] = code;
                code_idx = w++;
                code = 1;
            }
        }
        r++;
    }
    dst[code_idx] = code;
    return w;
}

size_t p_cobs_decode(const uint8_t *src, size_t src_len, uint8_t *dst)
{
    size_t r = 0;
    size_t w = 0;

    while (r < src_len) {
        uint8_t code = src[r++];
        if (code == 0 || r + code - 1 > src_len)
            return 0;
        for (uint8_t i = 1; i < code; i++)
            dst[w++] = src[r++];
        if (code != 0xFF && r < src_len)
            dst[w++] = 0;
    }
    return w;
}

uint16_t p_crc16(const uint8_t *data, size_t len)
{
    uint16_t crc = 0xFFFF;

    for (size_t i = 0; i < len; i++) {
        crc ^= (uint16_t)((uint16_t)data[i] << 8);
        for (int b = 0; b < 8; b++) {
            if (crc & 0x8000)
                crc = (uint16_t)((crc << 1) ^ 0x1021);
            else
                crc = (uint16_t)(crc << 1);
        }
    }
    return crc;
}
