/* What a C program does with the journal's three calls: it checks the 72 bytes of a place, finds the three places of a lock, and
 * converts an old medium. */
#include <inttypes.h>
#include <stdio.h>
#include <string.h>

#include "journal.h"

/* The record of ID 1 with header 9 and one byte of data, hex AB. Integers are big-endian; the CRC-32 is zlib's, of the 68 bytes
 * before it. */
static const uint8_t record[JOURNAL_PLACE_BYTES] = {
    0, 0, 0, 0, 0, 0, 0, 1,   /* ID */
    0, 0, 0, 0,               /* client */
    0, 0, 0, 0,               /* generation */
    0, 0, 0, 0,               /* partition */
    0, 0, 0, 0, 0, 0, 0, 0,   /* sequence */
    0, 0, 0, 9,               /* header */
    0, 0, 0, 1,               /* data length */
    0xAB, 0, 0, 0, 0, 0, 0,   /* data, and zeros up to 28 bytes */
    0, 0, 0, 0, 0, 0, 0,
    0, 0, 0, 0, 0, 0, 0,
    0, 0, 0, 0, 0, 0, 0,
    0, 0, 0, 0,               /* zeros */
    0xFD, 0xCC, 0x9F, 0x71,   /* CRC-32 */
};

/* An old medium of one place, which holds that record; the slots' numbers are 0. What is not named is 0, too. */
static const uint8_t old_medium[JOURNAL_OLD_MEDIUM_BYTES(1)] = {
    [28] = 0x80, 0x70, 0x77, 0xE9,    /* the first slot's CRC-32 */
    [60] = 0x80, 0x70, 0x77, 0xE9,    /* the second slot's */
    [71] = 1,                         /* ID */
    [91] = 9,                         /* header */
    [95] = 1,                         /* data length */
    [96] = 0xAB,                      /* data */
    [124] = 0xA0, 0xEA, 0x33, 0xA8,   /* CRC-32 of the place's 60 bytes before */
};

static void check(const char *what, const uint8_t *bytes, size_t length, uint64_t number)
{
    int valid = journal_place_check(bytes, length, number) == 1;
    printf("%s as place %" PRIu64 ": %s\n", what, number, valid ? "valid" : "not valid");
}

static void print_places(uint64_t lock)
{
    printf("lock %" PRIu64 ": places", lock);
    for (uint64_t j = 0; j < 3; j++)
        printf("%s %" PRIu64, j > 0 ? "," : "", journal_lock_place(lock, j));
    printf("\n");
}

static void convert(const char *what, const uint8_t *old_bytes, size_t old_length)
{
    uint8_t medium[JOURNAL_MEDIUM_BYTES(1)];
    uint64_t given = journal_convert(old_bytes, old_length, medium, sizeof medium);
    if (given != 0) {
        printf("%s: %" PRIu64 " not convertible\n", what, given);
        return;
    }
    int same = memcmp(medium + JOURNAL_SLOTS_BYTES, record, sizeof record) == 0;
    printf("%s: converted, and its place 1 is %s\n", what, same ? "the record" : "another");
}

int main(void)
{
    uint8_t changed[JOURNAL_PLACE_BYTES];
    memcpy(changed, record, sizeof changed);
    changed[36] ^= 1;

    check("the record", record, sizeof record, 1);
    check("the record", record, sizeof record, 2);
    check("the record with a byte changed", changed, sizeof changed, 1);
    check("71 bytes of the record", record, 71, 1);
    print_places(0);
    print_places(1);
    convert("the old medium", old_medium, sizeof old_medium);
    convert("127 bytes of the old medium", old_medium, 127);
    return 0;
}
