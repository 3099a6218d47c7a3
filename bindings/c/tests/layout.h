/* What the library does, said once more, a bit at a time, for lists whose order changes only at
 * byte boundaries. */
#ifndef LAYOUT_H
#define LAYOUT_H

#include "dishkaru.h"

/* Whether each number of each field is named. */
int layout_named(const struct dishkaru_field *fields, size_t count);

/* Whether the order changes only at byte boundaries. */
int layout_aligned(const struct dishkaru_field *fields, size_t count);

/* The same as dishkaru_bits, dishkaru_read and dishkaru_write, for named fields, as many values as
 * fields, and aligned fields. */
uint32_t layout_bits(const struct dishkaru_field *fields, size_t count, uint64_t *bits);
uint32_t layout_read(const struct dishkaru_field *fields, size_t count, const uint8_t *bytes,
                     size_t byte_count, struct dishkaru_value *values, uint64_t *bits);
uint32_t layout_write(const struct dishkaru_field *fields, size_t count,
                      const struct dishkaru_value *values, uint8_t *bytes, size_t byte_count,
                      uint64_t *written);

#endif
