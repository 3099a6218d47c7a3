/*
 * A sample of a sensor.
 *
 * Printed by `derive --header` from `sample.rs`.
 *
 * What every call needs of its caller:
 * - No pointer is null, and each is aligned for its type.
 * - The memory that a call writes overlaps no other argument, and nothing else uses it meanwhile.
 * - A `bool` is 0 or 1.
 *
 * The calls keep nothing, and may run in any number of threads at once. They return 0, or the
 * number of the error, as `enum dishkaru_status` of dishkaru.h names it: 3 if the bytes end, 5 if a
 * value does not fit its field, 6 if a check fails, 8 if there is too little room.
 */
#ifndef SAMPLE_H
#define SAMPLE_H

#include <stdbool.h>
#include <stddef.h>
#include <stdint.h>

#ifdef __cplusplus
extern "C" {
#endif

/*
 * The record `Sample`.
 */
struct sample {
    uint8_t sensor;
    uint8_t state;
    uint16_t value;
};

/* How many bytes a struct sample is read from, and written as. */
#define SAMPLE_BYTES 3

/*
 * Reads *record from the first of the bytes on; those after it are ignored. After an error *record
 * is as it was.
 */
uint32_t sample_read(const uint8_t *bytes, size_t byte_count, struct sample *record);

/*
 * Writes *record to the start of the bytes; those after it stay as they were. After an error some
 * of the bytes may have been written.
 */
uint32_t sample_write(const struct sample *record, uint8_t *bytes, size_t byte_count);

#ifdef __cplusplus
}
#endif

#endif
