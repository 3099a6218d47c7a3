#include "layout.h"

__extension__ typedef unsigned __int128 u128;

static const unsigned kind_bits[12] = {8, 16, 32, 64, 128, 64, 8, 16, 32, 64, 128, 64};

static int is_signed(struct dishkaru_field f) { return f.kind >= DISHKARU_I8; }

/* The bits of a field; a number that is too large is cut to 1,000. */
static unsigned width(struct dishkaru_field f)
{
    if (f.unit == DISHKARU_WHOLE)
        return kind_bits[f.kind];
    if (f.unit == DISHKARU_BYTES && f.kind == DISHKARU_U8)
        return 8;
    unsigned size = f.size < 1000 ? f.size : 1000;
    return f.unit == DISHKARU_BYTES ? 8 * size : size;
}

static int is_wide(struct dishkaru_field f) { return width(f) > kind_bits[f.kind]; }

static int is_uneven(struct dishkaru_field f)
{
    return is_signed(f) && f.endian == DISHKARU_BIG && f.order == DISHKARU_LSB && width(f) > 8 &&
           width(f) % 8 != 0;
}

/* What bit i of n bits counts: two to the power of this. The bits are those of groups of eight, the
 * last of which may be short. In big msb they are one binary number. */
static unsigned weight(struct dishkaru_field f, unsigned n, unsigned i)
{
    unsigned group = i / 8, groups = (n + 7) / 8;
    unsigned in_group = group + 1 < groups || n % 8 == 0 ? 8 : n % 8;
    unsigned inside = f.order == DISHKARU_LSB ? i % 8 : in_group - 1 - i % 8;
    if (f.endian == DISHKARU_LITTLE)
        return 8 * group + inside;
    return f.order == DISHKARU_MSB ? n - 1 - i : 8 * (groups - 1 - group) + inside;
}

/* The place of the bit in a byte that is the k-th of all bits. */
static unsigned place(struct dishkaru_field f, uint64_t k)
{
    return f.order == DISHKARU_MSB ? 7 - k % 8 : k % 8;
}

int layout_named(const struct dishkaru_field *fields, size_t count)
{
    for (size_t i = 0; i < count; i++)
        if (fields[i].kind > 11 || fields[i].endian > 1 || fields[i].order > 1 ||
            fields[i].unit > 2)
            return 0;
    return 1;
}

int layout_aligned(const struct dishkaru_field *fields, size_t count)
{
    uint64_t at = 0;
    unsigned order = DISHKARU_MSB;
    for (size_t i = 0; i < count; i++) {
        if (width(fields[i]) == 0)
            continue;
        if (at % 8 != 0 && fields[i].order != order)
            return 0;
        order = fields[i].order;
        at += width(fields[i]);
    }
    return 1;
}

uint32_t layout_bits(const struct dishkaru_field *fields, size_t count, uint64_t *bits)
{
    uint64_t sum = 0;
    for (size_t i = 0; i < count; i++) {
        if (is_wide(fields[i]) || is_uneven(fields[i]))
            return DISHKARU_INVALID_PARAM;
        sum += width(fields[i]);
    }
    *bits = sum;
    return DISHKARU_OK;
}

uint32_t layout_read(const struct dishkaru_field *fields, size_t count, const uint8_t *bytes,
                     size_t byte_count, struct dishkaru_value *values, uint64_t *bits)
{
    uint64_t at = 0;
    for (size_t i = 0; i < count; i++) {
        struct dishkaru_field f = fields[i];
        unsigned n = width(f);
        u128 number = 0;
        if (is_wide(f))
            return DISHKARU_PARSE;
        if (is_uneven(f))
            return DISHKARU_INVALID_PARAM;
        if (at + n > 8 * (uint64_t)byte_count)
            return DISHKARU_INCOMPLETE;
        for (unsigned k = 0; k < n; k++, at++)
            if (bytes[at / 8] >> place(f, at) & 1)
                number |= (u128)1 << weight(f, n, k);
        if (is_signed(f) && n > 0 && n < 128 && number >> (n - 1))
            number |= ~(u128)0 << n;
        values[i].low = (uint64_t)number;
        values[i].high = (uint64_t)(number >> 64);
    }
    *bits = at;
    return DISHKARU_OK;
}

/* Whether the value fits the field: only bits that the field has are set, or, with a sign, all bits
 * from the field's highest one on are the same. */
static int fits(struct dishkaru_field f, u128 value)
{
    unsigned n = width(f);
    if (is_signed(f)) {
        u128 top = n == 0 ? value : value >> (n - 1);
        return top == 0 || (n > 0 && top == ~(u128)0 >> (n - 1));
    }
    for (unsigned k = 0; k < n; k++)
        value &= ~((u128)1 << weight(f, n, k));
    return value == 0;
}

uint32_t layout_write(const struct dishkaru_field *fields, size_t count,
                      const struct dishkaru_value *values, uint8_t *bytes, size_t byte_count,
                      uint64_t *written)
{
    uint64_t at = 0;
    for (size_t i = 0; i < count; i++) {
        struct dishkaru_field f = fields[i];
        unsigned n = width(f);
        u128 value = (u128)values[i].high << 64 | values[i].low;
        if (is_wide(f) || is_uneven(f) || !fits(f, value))
            return DISHKARU_INVALID_PARAM;
        if ((at + n) / 8 > byte_count)
            return DISHKARU_IO;
        for (unsigned k = 0; k < n; k++, at++) {
            if (at / 8 >= byte_count)
                continue;
            if (at % 8 == 0)
                bytes[at / 8] = 0;
            bytes[at / 8] |= (uint8_t)((value >> weight(f, n, k) & 1) << place(f, at));
        }
    }
    if ((at + 7) / 8 > byte_count)
        return DISHKARU_IO;
    *written = (at + 7) / 8;
    return DISHKARU_OK;
}
