/* Not proved, tested by tests/filedisk.sh: the file disk's numbers, low byte first whatever the machine has, and its checksum. */
#include "filedisk_inside.h"

uint32_t filedisk_checksum(const unsigned char *bytes, size_t count)
{
    uint32_t sum = 0xFFFFFFFFu;
    for (size_t at = 0; at < count; at++) {
        sum ^= bytes[at];
        for (int bit = 0; bit < 8; bit++)
            sum = (sum >> 1) ^ (0xEDB88320u & (0u - (sum & 1u)));
    }
    return ~sum;
}

/* An entry as the machine has it. */
static uint32_t loaded(const unsigned char *at, size_t width)
{
    uint16_t half;
    uint32_t whole;
    if (width == 1)
        return *at;
    if (width == 2) {
        memcpy(&half, at, sizeof half);
        return half;
    }
    memcpy(&whole, at, sizeof whole);
    return whole;
}

static void saved(unsigned char *at, size_t width, uint32_t value)
{
    const uint8_t byte = (uint8_t)value;
    const uint16_t half = (uint16_t)value;
    memcpy(at, width == 1 ? (const void *)&byte : width == 2 ? (const void *)&half : (const void *)&value, width);
}

void filedisk_pack(unsigned char *to, const void *from, size_t width, size_t count)
{
    for (size_t at = 0; at < count; at++)
        filedisk_put(to + at * width, width, loaded((const unsigned char *)from + at * width, width));
}

void filedisk_unpack(void *to, const unsigned char *from, size_t width, size_t count)
{
    for (size_t at = 0; at < count; at++)
        saved((unsigned char *)to + at * width, width, (uint32_t)filedisk_get(from + at * width, width));
}
