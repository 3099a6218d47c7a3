#include "udp.h"

#include <stdio.h>

int main(void)
{
    const uint8_t packet[UDP_BYTES] = {0x9C, 0xBB, 0xD1, 0x1F, 0x00, 0x0A, 0xFE, 0x1D};
    struct udp header;

    if (udp_read(packet, sizeof packet, &header) != 0)
        return 1;
    printf("from port %u to port %u\n", (unsigned)header.source, (unsigned)header.destination);
    return 0;
}
