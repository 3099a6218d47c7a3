/* Reads an IPv4 header, prints its fields, and writes them again. */
#include "dishkaru.h"

#include <inttypes.h>
#include <stdio.h>
#include <string.h>

#define BITS(kind, size)                                                                           \
    {                                                                                              \
        kind, DISHKARU_BIG, DISHKARU_MSB, DISHKARU_BITS, size                                      \
    }

static const struct dishkaru_field fields[] = {
    BITS(DISHKARU_U8, 4),   BITS(DISHKARU_U8, 4),   BITS(DISHKARU_U8, 6),   BITS(DISHKARU_U8, 2),
    BITS(DISHKARU_U16, 16), BITS(DISHKARU_U16, 16), BITS(DISHKARU_U8, 3),   BITS(DISHKARU_U16, 13),
    BITS(DISHKARU_U8, 8),   BITS(DISHKARU_U8, 8),   BITS(DISHKARU_U16, 16), BITS(DISHKARU_U32, 32),
    BITS(DISHKARU_U32, 32),
};

static const char *const names[] = {
    "version",  "header words", "service",  "congestion", "total bytes", "identification", "flags",
    "fragment", "time to live", "protocol", "checksum",   "source",      "destination",
};

enum { COUNT = sizeof fields / sizeof fields[0] };

int main(void)
{
    /* The header of a DNS query, from 10.0.0.1 to 10.0.0.2. */
    static const uint8_t packet[20] = {0x45, 0x00, 0x00, 0x3C, 0x1C, 0x46, 0x40, 0x00, 0x40, 0x11,
                                       0x0A, 0x69, 0x0A, 0x00, 0x00, 0x01, 0x0A, 0x00, 0x00, 0x02};
    struct dishkaru_value values[COUNT];
    uint8_t again[20];
    uint64_t bits, written;

    uint32_t status = dishkaru_read(fields, COUNT, packet, sizeof packet, values, COUNT, &bits);
    if (status != DISHKARU_OK) {
        fprintf(stderr, "read: %s\n", dishkaru_text(status));
        return 1;
    }
    for (int i = 0; i < COUNT; i++)
        printf("%-15s %" PRIu64 "\n", names[i], values[i].low);
    printf("%" PRIu64 " bits\n", bits);

    status = dishkaru_write(fields, COUNT, values, COUNT, again, sizeof again, &written);
    if (status != DISHKARU_OK) {
        fprintf(stderr, "write: %s\n", dishkaru_text(status));
        return 1;
    }
    return written != sizeof packet || memcmp(packet, again, sizeof packet) != 0;
}
