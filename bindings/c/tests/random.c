/* Calls with random arguments, compared with the layout said once more.
 *
 *     random SEED CALLS
 *
 * Each array ends where memory ends, so that an access past it is a fault, and what is before it is
 * compared after the call. */
#include "layout.h"

#include <stdio.h>
#include <stdlib.h>
#include <string.h>
#include <sys/mman.h>
#include <unistd.h>

enum { FIELDS = 12, BYTES = 64 };

static uint64_t state;

/* The generator splitmix64. */
static uint64_t next(void)
{
    uint64_t z = state += 0x9E3779B97F4A7C15u;
    z = (z ^ z >> 30) * 0xBF58476D1CE4E5B9u;
    z = (z ^ z >> 27) * 0x94D049BB133111EBu;
    return z ^ z >> 31;
}

static unsigned below(unsigned n) { return (unsigned)(next() % n); }

/* The end of a page after which there is no memory. */
static uint8_t *last(void)
{
    size_t page = (size_t)sysconf(_SC_PAGESIZE);
    uint8_t *pages =
        mmap(NULL, 2 * page, PROT_READ | PROT_WRITE, MAP_PRIVATE | MAP_ANONYMOUS, -1, 0);
    if (pages == MAP_FAILED || mprotect(pages + page, page, PROT_NONE) != 0) {
        perror("random: no memory");
        exit(2);
    }
    return pages + page;
}

static struct dishkaru_field random_field(unsigned order)
{
    struct dishkaru_field f = {(uint8_t)below(12), (uint8_t)below(2), (uint8_t)order,
                               (uint8_t)below(3), 0};
    f.size = f.unit == DISHKARU_BYTES ? below(5) : below(20);
    if (below(8) == 0)
        f.size = below(140);
    if (below(200) == 0)
        f.size = (uint32_t)next();
    if (below(300) == 0)
        ((uint8_t *)&f)[below(4)] = (uint8_t)next();
    return f;
}

static struct dishkaru_value random_value(void)
{
    struct dishkaru_value v = {next() >> below(64), 0};
    switch (below(6)) {
    case 0:
        v.high = next() >> below(64);
        break;
    case 1:
        v = (struct dishkaru_value){~v.low, ~(uint64_t)0};
        break;
    default:
        break;
    }
    return v;
}

static void wrong(uint64_t call, const char *what, unsigned got, unsigned wanted)
{
    fprintf(stderr, "random: call %llu: %s: got %u, wanted %u\n", (unsigned long long)call, what,
            got, wanted);
    exit(1);
}

static void same(uint64_t call, const char *what, const void *got, const void *wanted, size_t size)
{
    if (memcmp(got, wanted, size) != 0)
        wrong(call, what, 0, 0);
}

int main(int argc, char **argv)
{
    if (argc != 3) {
        fprintf(stderr, "usage: random SEED CALLS\n");
        return 2;
    }
    state = strtoull(argv[1], NULL, 10);
    uint64_t calls = strtoull(argv[2], NULL, 10), checked = 0, ok = 0;
    struct dishkaru_field *field_end = (void *)last();
    struct dishkaru_value *value_end = (void *)last();
    uint8_t *byte_end = last();

    for (uint64_t call = 0; call < calls; call += 3) {
        size_t count = below(FIELDS + 1), byte_count = below(BYTES + 1);
        size_t value_count = below(50) == 0 ? below(FIELDS + 1) : count;
        struct dishkaru_field *fields = field_end - count;
        struct dishkaru_value *values = value_end - value_count;
        uint8_t *bytes = byte_end - byte_count;
        struct dishkaru_value before[FIELDS], wanted[FIELDS], front_value;
        uint8_t old[BYTES], laid[BYTES];
        uint64_t bits = 77, wanted_bits = 77;

        unsigned mixed = below(4), order = below(2);
        for (size_t i = 0; i < count; i++)
            fields[i] = random_field(mixed == 0 ? below(2) : order);
        for (size_t i = 0; i < byte_count; i++)
            bytes[i] = (uint8_t)next();
        for (size_t i = 0; i < value_count; i++)
            values[i] = random_value();
        memcpy(old, bytes, byte_count);
        memcpy(before, values, value_count * sizeof *values);
        front_value = values[-1];
        uint8_t front = bytes[-1];
        int named = layout_named(fields, count);
        int exact = named && value_count == count && layout_aligned(fields, count);
        uint32_t refusal = !named                 ? DISHKARU_UNNAMED
                           : value_count != count ? DISHKARU_MISCOUNTED
                                                  : DISHKARU_OK;

        /* How many bits. */
        uint32_t status = dishkaru_bits(fields, count, &bits);
        uint32_t expected = named ? layout_bits(fields, count, &wanted_bits) : DISHKARU_UNNAMED;
        if (status != expected || bits != wanted_bits)
            wrong(call, "bits", status, expected);

        /* Numbers are written. */
        bits = wanted_bits = 77;
        status = dishkaru_write(fields, count, values, value_count, bytes, byte_count, &bits);
        same(call, "values that were written", values, before, value_count * sizeof *values);
        if (status > DISHKARU_IO || (refusal != DISHKARU_OK && status != refusal))
            wrong(call, "status of a write", status, refusal);
        if (status != DISHKARU_OK && bits != 77)
            wrong(call, "count after a failed write", (unsigned)bits, 77);
        if (refusal != DISHKARU_OK)
            same(call, "bytes after a refused write", bytes, old, byte_count);
        if (exact) {
            memcpy(laid, old, byte_count);
            expected = layout_write(fields, count, values, laid, byte_count, &wanted_bits);
            if (status != expected || bits != wanted_bits)
                wrong(call, "write", status, expected);
            if (status == DISHKARU_OK)
                same(call, "bytes written", bytes, laid, byte_count);
            checked++;
            ok += status == DISHKARU_OK;
        }

        /* Numbers are read, half of the time from what was written. */
        if (below(2))
            memcpy(bytes, old, byte_count);
        memcpy(laid, bytes, byte_count);
        bits = wanted_bits = 77;
        status = dishkaru_read(fields, count, bytes, byte_count, values, value_count, &bits);
        same(call, "bytes that were read", bytes, laid, byte_count);
        if (status > DISHKARU_IO || (refusal != DISHKARU_OK && status != refusal))
            wrong(call, "status of a read", status, refusal);
        if (status != DISHKARU_OK && bits != 77)
            wrong(call, "count after a failed read", (unsigned)bits, 77);
        if (refusal != DISHKARU_OK)
            same(call, "values after a refused read", values, before, value_count * sizeof *values);
        if (exact) {
            expected = layout_read(fields, count, bytes, byte_count, wanted, &wanted_bits);
            if (status != expected || bits != wanted_bits)
                wrong(call, "read", status, expected);
            if (status == DISHKARU_OK)
                same(call, "values read", values, wanted, count * sizeof *values);
            checked++;
            ok += status == DISHKARU_OK;
        }
        same(call, "value in front", &values[-1], &front_value, sizeof front_value);
        same(call, "byte in front", &bytes[-1], &front, 1);
    }
    printf(
        "random: %llu calls with seed %s, %llu compared in full, %llu of these without an error\n",
        (unsigned long long)calls, argv[1], (unsigned long long)checked, (unsigned long long)ok);
    return checked == 0 || ok == 0;
}
