/* How long calls take: none of the fields of an IPv4 header, all thirteen, and 4,096 fields of 32
 * bits. */
#define _POSIX_C_SOURCE 199309L
#include "dishkaru.h"

#include <stdio.h>
#include <time.h>

enum { COUNT = 13, MANY = 4096, ROUNDS = 200000 };

#define BITS(kind, size)                                                                           \
    {                                                                                              \
        kind, DISHKARU_BIG, DISHKARU_MSB, DISHKARU_BITS, size                                      \
    }

static const struct dishkaru_field header[COUNT] = {
    BITS(DISHKARU_U8, 4),   BITS(DISHKARU_U8, 4),   BITS(DISHKARU_U8, 6),   BITS(DISHKARU_U8, 2),
    BITS(DISHKARU_U16, 16), BITS(DISHKARU_U16, 16), BITS(DISHKARU_U8, 3),   BITS(DISHKARU_U16, 13),
    BITS(DISHKARU_U8, 8),   BITS(DISHKARU_U8, 8),   BITS(DISHKARU_U16, 16), BITS(DISHKARU_U32, 32),
    BITS(DISHKARU_U32, 32),
};

static double now(void)
{
    struct timespec t;
    clock_gettime(CLOCK_MONOTONIC, &t);
    return (double)t.tv_sec * 1e9 + (double)t.tv_nsec;
}

static struct dishkaru_field fields[MANY];
static struct dishkaru_value values[MANY];
static uint8_t bytes[4 * MANY];

/* The shortest of ten runs, in nanoseconds a call. */
static double best(int writes, const struct dishkaru_field *list, size_t count, int rounds)
{
    double least = 1e18;
    for (int run = 0; run < 10; run++) {
        uint64_t n;
        double begun = now();
        for (int i = 0; i < rounds; i++)
            if ((writes ? dishkaru_write(list, count, values, count, bytes, sizeof bytes, &n)
                        : dishkaru_read(list, count, bytes, sizeof bytes, values, count, &n)) !=
                DISHKARU_OK)
                return -1;
        double each = (now() - begun) / rounds;
        least = each < least ? each : least;
    }
    return least;
}

int main(void)
{
    for (int i = 0; i < MANY; i++)
        fields[i] =
            (struct dishkaru_field){DISHKARU_U32, DISHKARU_BIG, DISHKARU_MSB, DISHKARU_WHOLE, 0};
    for (int i = 0; i < (int)sizeof bytes; i++)
        bytes[i] = (uint8_t)(7 * i);
    for (int writes = 0; writes < 2; writes++) {
        const char *name = writes ? "write" : "read";
        printf("%s, no field: %.1f ns a call\n", name, best(writes, header, 0, ROUNDS));
        best(0, header, COUNT, 1);
        double call = best(writes, header, COUNT, ROUNDS);
        printf("%s, IPv4 header: %.1f ns a call, %.1f ns a field\n", name, call, call / COUNT);
        best(0, fields, MANY, 1);
        call = best(writes, fields, MANY, ROUNDS / 200);
        printf("%s, 16 KiB of u32: %.0f ns a call, %.1f ns a field\n", name, call, call / MANY);
    }
    return 0;
}
