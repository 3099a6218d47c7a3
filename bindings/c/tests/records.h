/*
 * What the tests of records share. TRY writes a value, whose bytes are known from elsewhere, and
 * reads these bytes and writes what was read. It also tries each number of bytes that is too small.
 */
#ifndef RECORDS_H
#define RECORDS_H

#include <stdint.h>
#include <stdio.h>
#include <string.h>

/* Of `enum dishkaru_status`: the bytes end, no field for a value, a check, and too little room. */
enum { ENDS = 3, UNFIT = 5, CHECK = 6, FULL = 8 };

static int wrong;

static void expect(const char *record, int line, const char *what, int holds)
{
    if (!holds) {
        printf("%s in line %d: %s\n", record, line, what);
        wrong = 1;
    }
}

#define EXPECT(record, what, holds) expect(#record, __LINE__, what, holds)

#define TRY(record, size, value, ...)                                                              \
    do {                                                                                           \
        static const uint8_t bytes[size] = {__VA_ARGS__};                                          \
        const struct record wanted = value;                                                        \
        struct record found = {0};                                                                 \
        uint8_t again[size] = {0};                                                                 \
        int written = record##_write(&wanted, again, size) == 0;                                   \
        EXPECT(record, "written", written && memcmp(again, bytes, size) == 0);                     \
        EXPECT(record, "read", record##_read(bytes, size, &found) == 0);                           \
        memset(again, 0, size);                                                                    \
        written = record##_write(&found, again, size) == 0;                                        \
        EXPECT(record, "written back", written && memcmp(again, bytes, size) == 0);                \
        for (size_t few = 0; few < size; few++) {                                                  \
            struct record kept;                                                                    \
            memcpy(&kept, &found, sizeof kept);                                                    \
            EXPECT(record, "bytes that end", record##_read(bytes, few, &kept) == ENDS);            \
            EXPECT(record, "kept", memcmp(&kept, &found, sizeof kept) == 0);                       \
            EXPECT(record, "no room", record##_write(&wanted, again, few) == FULL);                \
        }                                                                                          \
    } while (0)

/* These bytes fail a check, and the record stays as it was. */
#define REFUSED(record, size, ...)                                                                 \
    do {                                                                                           \
        static const uint8_t bytes[size] = {__VA_ARGS__};                                          \
        struct record found, kept;                                                                 \
        memset(&found, 1, sizeof found);                                                           \
        memcpy(&kept, &found, sizeof kept);                                                        \
        EXPECT(record, "refused", record##_read(bytes, size, &found) == CHECK);                    \
        EXPECT(record, "kept", memcmp(&kept, &found, sizeof kept) == 0);                           \
    } while (0)

/* This value is not written. */
#define UNWRITTEN(record, size, status, value)                                                     \
    do {                                                                                           \
        const struct record wanted = value;                                                        \
        uint8_t bytes[size] = {0};                                                                 \
        EXPECT(record, "not written", record##_write(&wanted, bytes, size) == status);             \
    } while (0)

#define OF(...) {__VA_ARGS__}

#endif
