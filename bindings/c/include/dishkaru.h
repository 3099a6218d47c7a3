/*
 * Dishkaru: lists of whole-number fields, read from bytes and written as bytes, bit by bit.
 *
 * Link with libdishkaru.a, which `make` in bindings/c builds. The functions are proved; this header
 * is written by hand to fit them, and tested.
 *
 * What every call needs of its caller:
 * - No pointer is null, and each is aligned for its type, even if its count is 0.
 * - The memory that a call writes overlaps no other argument.
 * - While a call runs, nothing else writes its memory, and nothing else reads what it writes.
 *
 * The calls take no memory, keep nothing, and may run in any number of threads at once.
 */
#ifndef DISHKARU_H
#define DISHKARU_H

#include <stddef.h>
#include <stdint.h>

#ifdef __cplusplus
extern "C" {
#endif

/* The type of a whole number. `usize` and `isize` have 64 bits. */
enum dishkaru_kind {
    DISHKARU_U8 = 0,
    DISHKARU_U16 = 1,
    DISHKARU_U32 = 2,
    DISHKARU_U64 = 3,
    DISHKARU_U128 = 4,
    DISHKARU_USIZE = 5,
    DISHKARU_I8 = 6,
    DISHKARU_I16 = 7,
    DISHKARU_I32 = 8,
    DISHKARU_I64 = 9,
    DISHKARU_I128 = 10,
    DISHKARU_ISIZE = 11
};

/* Which byte of a number comes first: the lowest or the highest. */
enum dishkaru_endian { DISHKARU_LITTLE = 0, DISHKARU_BIG = 1 };

/* Which bit of a byte comes first: the highest or the lowest. */
enum dishkaru_order { DISHKARU_MSB = 0, DISHKARU_LSB = 1 };

/* What the size of a field counts. With DISHKARU_WHOLE a field has all bits of its kind, whatever
 * its size is. */
enum dishkaru_unit { DISHKARU_WHOLE = 0, DISHKARU_BITS = 1, DISHKARU_BYTES = 2 };

/* What a call returns. */
enum dishkaru_status {
    /* All went well. */
    DISHKARU_OK = 0,
    /* A field has a kind, an endian, an order or a unit that is not named above. */
    DISHKARU_UNNAMED = 1,
    /* There are not as many values as fields. */
    DISHKARU_MISCOUNTED = 2,
    /* A read met the end of the bytes. */
    DISHKARU_INCOMPLETE = 3,
    /* A read: the size of a field is beyond its kind. */
    DISHKARU_PARSE = 4,
    /* A value is not in the range of its kind or does not fit its field, a size is beyond its
     * kind, or a layout is rejected: that of a signed field, big and lsb, of more than eight bits
     * that are not whole bytes. */
    DISHKARU_INVALID_PARAM = 5,
    /* Not returned by these functions. */
    DISHKARU_ASSERTION = 6,
    /* Not returned by these functions. */
    DISHKARU_ID_VARIANT_NOT_FOUND = 7,
    /* A write met the end of the bytes. */
    DISHKARU_IO = 8
};

/* A field. With all zeros it is a u8; the defaults of the others are little, msb and whole. */
struct dishkaru_field {
    uint8_t kind;   /* an enum dishkaru_kind */
    uint8_t endian; /* an enum dishkaru_endian */
    uint8_t order;  /* an enum dishkaru_order */
    uint8_t unit;   /* an enum dishkaru_unit */
    uint32_t size;  /* in that unit */
};

/* A value of 128 bits. That of a signed kind is in two's complement: -2 has the low half
 * UINT64_MAX - 1 and the high half UINT64_MAX. */
struct dishkaru_value {
    uint64_t low;
    uint64_t high;
};

/*
 * Stores in *bits how many bits the fields take.
 *
 * DISHKARU_UNNAMED: a field has a number that is not named.
 * DISHKARU_INVALID_PARAM: a size is beyond its kind, a layout is rejected, or there are 2 to the
 * power of 64 bits or more. *bits stays as it was after both.
 */
uint32_t dishkaru_bits(const struct dishkaru_field *fields, size_t field_count, uint64_t *bits);

/*
 * Reads one value for each field, from the first bit of the bytes on, and stores in *bits how many
 * bits they took. Bytes after the last field are ignored.
 *
 * DISHKARU_UNNAMED, DISHKARU_MISCOUNTED: nothing changes.
 * DISHKARU_INCOMPLETE, DISHKARU_PARSE, DISHKARU_INVALID_PARAM: for the first field that fails.
 * *bits stays as it was, and the values are unspecified.
 */
uint32_t dishkaru_read(const struct dishkaru_field *fields, size_t field_count,
                       const uint8_t *bytes, size_t byte_count, struct dishkaru_value *values,
                       size_t value_count, uint64_t *bits);

/*
 * Writes one value for each field to the start of the bytes, fills the last byte with zero bits,
 * and stores in *written how many bytes these are. The bytes after them stay as they were.
 *
 * DISHKARU_UNNAMED, DISHKARU_MISCOUNTED: nothing changes.
 * DISHKARU_INVALID_PARAM, DISHKARU_IO: for the first value that fails, or if there are too few
 * bytes. *written stays as it was, and some of the bytes may have been written.
 */
uint32_t dishkaru_write(const struct dishkaru_field *fields, size_t field_count,
                        const struct dishkaru_value *values, size_t value_count, uint8_t *bytes,
                        size_t byte_count, uint64_t *written);

/* A status in words, in English; "unknown status" for a number that is none. */
static inline const char *dishkaru_text(uint32_t status)
{
    switch (status) {
    case DISHKARU_OK:
        return "ok";
    case DISHKARU_UNNAMED:
        return "a field has an unknown kind, endian, order or unit";
    case DISHKARU_MISCOUNTED:
        return "there are not as many values as fields";
    case DISHKARU_INCOMPLETE:
        return "not enough data";
    case DISHKARU_PARSE:
        return "the size of a field is beyond its kind";
    case DISHKARU_INVALID_PARAM:
        return "a value does not fit its field, or the layout of a field is rejected";
    case DISHKARU_ASSERTION:
        return "an assertion failed";
    case DISHKARU_ID_VARIANT_NOT_FOUND:
        return "no variant has this id";
    case DISHKARU_IO:
        return "not enough room";
    default:
        return "unknown status";
    }
}

#ifdef __cplusplus
}
#endif

#endif
