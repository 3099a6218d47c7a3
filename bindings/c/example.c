#include "dishkaru.h"

#include <stdio.h>

int main(void)
{
    const struct dishkaru_field fields[4] = {
        {DISHKARU_U8, DISHKARU_BIG, DISHKARU_MSB, DISHKARU_BITS, 4}, /* version */
        {DISHKARU_U8, DISHKARU_BIG, DISHKARU_MSB, DISHKARU_BITS,
         4}, /* length of the header, in words */
        {DISHKARU_U8, DISHKARU_BIG, DISHKARU_MSB, DISHKARU_WHOLE, 0}, /* service */
        {DISHKARU_U16, DISHKARU_BIG, DISHKARU_MSB, DISHKARU_WHOLE,
         0} /* length of the packet, in bytes */
    };
    const uint8_t packet[] = {0x45, 0x00, 0x00, 0x3C};
    struct dishkaru_value values[4];
    uint64_t bits;

    uint32_t status = dishkaru_read(fields, 4, packet, sizeof packet, values, 4, &bits);
    if (status != DISHKARU_OK) {
        fprintf(stderr, "%s\n", dishkaru_text(status));
        return 1;
    }
    printf("version %u, %u bytes\n", (unsigned)values[0].low, (unsigned)values[3].low);
    return 0;
}
