/* A record that `derive` described, from bytes and back. */
#include "sample.h"

#include <stdio.h>

int main(void)
{
    uint8_t bytes[SAMPLE_BYTES] = {0x69, 0xC0, 0xFE};
    struct sample sample = {0, 0, 0};

    if (sample_read(bytes, sizeof bytes, &sample) != 0) {
        return 1;
    }
    sample.value += 1;
    if (sample_write(&sample, bytes, sizeof bytes) != 0) {
        return 1;
    }
    printf("%02x %02x %02x\n", bytes[0], bytes[1], bytes[2]);
    return 0;
}
