/* Compares the three exported calls with reference.c on many inputs. Writes how many, and ends with status 1 if one differs. */
#include <inttypes.h>
#include <stdio.h>
#include <string.h>

#include "conversions.h"
#include "inputs.h"
#include "journal.h"
#include "reference.h"

enum { LONGEST = 80 };

static uint64_t places_compared, places_valid, locks_compared, locks_placed;

/* ---- comparisons */

static void compare_place(const char *what, const uint8_t *bytes, size_t length, uint64_t number)
{
    uint64_t expected = expected_place_check(bytes, length, number);
    uint64_t given = journal_place_check(bytes, length, number);
    places_compared++;
    places_valid += expected;
    if (given != expected && differs())
        printf("%s: length %zu, number %" PRIu64 ": gives %" PRIu64 ", not %" PRIu64 "\n", what, length, number, given, expected);
}

static void compare_lock(uint64_t k, uint64_t j)
{
    uint64_t expected = expected_lock_place(k, j);
    uint64_t given = journal_lock_place(k, j);
    locks_compared++;
    locks_placed += expected < 1024;
    if (given != expected && differs())
        printf("lock %" PRIu64 ", j %" PRIu64 ": gives %" PRIu64 ", not %" PRIu64 "\n", k, j, given, expected);
}

/* ---- places */

/* On both sides of 1 and 1,000, and numbers whose lower bits are those of a place. */
static const uint64_t NUMBERS[] = {
    0, 1, 2, 255, 256, 999, 1000, 1001, 1256, UINT64_C(0x100000001), UINT64_C(1) << 63, UINT64_MAX,
};
enum { NUMBERS_COUNT = sizeof NUMBERS / sizeof NUMBERS[0] };

static void valid_places(void)
{
    uint8_t place[PLACE];
    uint64_t before = places_valid;
    for (uint64_t id = 1; id <= 1000; id++) {
        for (size_t data = 0; data <= MOST_DATA; data++) {
            make_place(place, id, data);
            compare_place("valid", place, PLACE, id);
        }
    }
    require(places_valid - before == 1000 * (MOST_DATA + 1), "every record that is made for a place is valid there");
}

/* What a gate may send is issue's to check: a place with as much data as it has room for is valid, whoever the client is. */
static void clients(void)
{
    static const uint64_t CLIENTS[] = {0, 1, 99, 100, 101, UINT32_MAX};
    enum { COUNT = sizeof CLIENTS / sizeof CLIENTS[0] };
    uint8_t place[PLACE];
    uint64_t before = places_valid;
    for (size_t i = 0; i < COUNT; i++) {
        for (size_t data = 0; data <= MOST_DATA; data++) {
            make_place(place, 258, data);
            put_number(place + 8, 4, CLIENTS[i]);
            seal(place, CHECKED);
            compare_place("client", place, PLACE, 258);
        }
    }
    require(places_valid - before == COUNT * (MOST_DATA + 1), "a client's number does not matter");
}

/* A header of 0 is issue's to decline: a place that holds one is valid, and so is any other. */
static void headers(void)
{
    static const uint64_t HEADERS[] = {0, 1, 9, 256, UINT32_MAX};
    enum { COUNT = sizeof HEADERS / sizeof HEADERS[0] };
    uint8_t place[PLACE];
    uint64_t before = places_valid;
    for (size_t i = 0; i < COUNT; i++) {
        for (size_t data = 0; data <= MOST_DATA; data++) {
            make_place(place, 258, data);
            put_number(place + HEADER_AT, 4, HEADERS[i]);
            seal(place, CHECKED);
            compare_place("header", place, PLACE, 258);
        }
    }
    require(places_valid - before == COUNT * (MOST_DATA + 1), "a stored header does not matter");
}

static void numbers_and_ids(void)
{
    uint8_t place[PLACE];
    for (uint64_t id = 0; id <= 1100; id++) {
        make_place(place, id, id % (MOST_DATA + 1));
        compare_place("number is the ID", place, PLACE, id);
        compare_place("number above the ID", place, PLACE, id + 1);
        compare_place("number below the ID", place, PLACE, id - 1);
    }
    for (size_t i = 0; i < NUMBERS_COUNT; i++) {
        make_place(place, NUMBERS[i], i);
        for (size_t n = 0; n < NUMBERS_COUNT; n++)
            compare_place("ID and number", place, PLACE, NUMBERS[n]);
    }
}

static void lengths(void)
{
    for (uint64_t id = 1; id <= 1000; id += 37) {
        uint8_t bytes[LONGEST];
        random_bytes(bytes, LONGEST);
        make_place(bytes, id, id % (MOST_DATA + 1));
        for (size_t length = 0; length <= LONGEST; length++)
            for (size_t n = 0; n < NUMBERS_COUNT; n++)
                compare_place("length", bytes, length, NUMBERS[n]);
        for (size_t length = 0; length <= LONGEST; length++)
            compare_place("length", bytes, length, id);
    }
}

/* Each byte gets each other value, under the old check and then under a new one. */
static void damaged_bytes(void)
{
    for (size_t data = 0; data <= MOST_DATA; data += 7) {
        uint8_t place[PLACE], damaged[PLACE];
        make_place(place, 258, data);
        for (size_t at = 0; at < PLACE; at++) {
            for (unsigned change = 1; change < 256; change++) {
                memcpy(damaged, place, PLACE);
                damaged[at] = (uint8_t)(damaged[at] ^ change);
                require(expected_place_check(damaged, PLACE, 258) == 0, "a damaged byte is found");
                compare_place("damaged", damaged, PLACE, 258);
                seal(damaged, CHECKED);
                compare_place("damaged, then sealed", damaged, PLACE, 258);
            }
        }
    }
}

static void data_lengths(void)
{
    static const uint64_t fields[] = {
        28, 29, 30, 32, 36, 64, 68, 72, 255, 256, 284, 65536, 0x1000000, 0x1000001C, 0x80000000, 0xFFFFFFFF,
    };
    for (size_t i = 0; i < sizeof fields / sizeof fields[0]; i++) {
        for (size_t data = 0; data <= MOST_DATA; data++) {
            uint8_t place[PLACE];
            make_place(place, 7, data);
            put_number(place + LENGTH_AT, 4, fields[i]);
            seal(place, CHECKED);
            compare_place("data length", place, PLACE, 7);
        }
    }
}

/* One byte that is not zero at each of the 28, for each data length: it is valid within the data only. */
static void tails(void)
{
    for (size_t data = 0; data <= MOST_DATA; data++) {
        for (size_t at = 0; at < MOST_DATA; at++) {
            for (int bit = 0; bit < 8; bit++) {
                uint8_t place[PLACE];
                make_place(place, 1000, data);
                place[DATA_AT + at] = (uint8_t)(1 << bit);
                seal(place, CHECKED);
                compare_place("zeros after the data", place, PLACE, 1000);
            }
        }
    }
}

/* Checks in another order, not inverted, or of other bytes; a wiped place; all ones. */
static void checks(void)
{
    uint8_t place[PLACE];
    for (size_t data = 0; data <= MOST_DATA; data++) {
        make_place(place, 1, data);
        uint64_t crc = get_number(place + CHECKED, 4);
        for (size_t i = 0; i < 4; i++)
            place[CHECKED + i] = (uint8_t)(crc >> 8 * i);
        compare_place("check, lowest byte first", place, PLACE, 1);
        put_number(place + CHECKED, 4, ~crc);
        compare_place("check, not inverted", place, PLACE, 1);
        for (size_t length = 0; length < PLACE; length++) {
            put_number(place + CHECKED, 4, crc32_of(place, length));
            compare_place("check of other bytes", place, PLACE, 1);
        }
    }
    for (size_t n = 0; n < NUMBERS_COUNT; n++) {
        memset(place, 0, PLACE);
        compare_place("wiped", place, PLACE, NUMBERS[n]);
        memset(place, 0xFF, PLACE);
        compare_place("ones", place, PLACE, NUMBERS[n]);
    }
}

/* Each bit of a sequence alone, and sequences of each width up to 64 bits: all are valid. */
static void sequences(void)
{
    uint64_t before = places_valid;
    for (int bit = 0; bit < 64; bit++) {
        const uint64_t sequence[] = {UINT64_C(1) << bit, UINT64_MAX >> bit, random_number() >> bit};
        for (size_t i = 0; i < 3; i++) {
            uint8_t place[PLACE];
            make_place(place, 258, random_number() % (MOST_DATA + 1));
            put_number(place + 20, 8, sequence[i]);
            seal(place, CHECKED);
            compare_place("sequence", place, PLACE, 258);
        }
    }
    require(places_valid - before == 64 * 3, "a sequence's number does not matter");
}

/* One of the four zeros before the check is another byte, and the check fits it. */
static void zeros_before_the_check(void)
{
    uint64_t before = places_valid;
    for (size_t data = 0; data <= MOST_DATA; data++) {
        for (size_t at = DATA_AT + MOST_DATA; at < CHECKED; at++) {
            for (unsigned value = 1; value < 256; value++) {
                uint8_t place[PLACE];
                make_place(place, 1000, data);
                place[at] = (uint8_t)value;
                seal(place, CHECKED);
                compare_place("zeros before the check", place, PLACE, 1000);
            }
        }
    }
    require(places_valid == before, "no place is valid without its four zeros");
}

/* Old places as they are, with eight zeros more, with a new check behind these, and with the old check there. */
static void old_places(void)
{
    uint64_t before = places_valid;
    for (uint64_t id = 1; id <= 1000; id++) {
        uint8_t place[PLACE];
        memset(place, 0, PLACE);
        make_old_place(place, id, id % (MOST_DATA + 1));
        compare_place("old", place, OLD_PLACE, id);
        compare_place("old, with zeros", place, PLACE, id);
        seal(place, CHECKED);
        compare_place("old, with a new check", place, PLACE, id);
        put_number(place + CHECKED, 4, get_number(place + OLD_CHECKED, 4));
        put_number(place + OLD_CHECKED, 4, 0);
        compare_place("old, its check at the end", place, PLACE, id);
    }
    require(places_valid == before, "no old place is valid");
}

/* Random bytes, of which more and more are put right. */
static void random_places(void)
{
    for (int i = 0; i < 20000; i++) {
        uint8_t bytes[LONGEST];
        uint64_t number = random_number() % 1002;
        size_t data = random_number() % 30;
        random_bytes(bytes, LONGEST);
        compare_place("random, of a random length", bytes, random_number() % (LONGEST + 1), number);
        compare_place("random", bytes, PLACE, number);
        put_number(bytes, 8, number);
        compare_place("random, with its ID", bytes, PLACE, number);
        seal(bytes, CHECKED);
        compare_place("random, with its ID and check", bytes, PLACE, number);
        put_number(bytes + LENGTH_AT, 4, data);
        seal(bytes, CHECKED);
        compare_place("random, with ID, length and check", bytes, PLACE, number);
        if (data <= MOST_DATA)
            memset(bytes + DATA_AT + data, 0, CHECKED - DATA_AT - data);
        seal(bytes, CHECKED);
        compare_place("random, with all but the record", bytes, PLACE, number);
    }
}

/* ---- locks */

static const uint64_t INDICES[] = {
    0, 1, 2, 3, 4, 5, 255, 256, 1023, 1024, UINT64_C(0x100000000), UINT64_C(0x100000001), UINT64_C(1) << 63, UINT64_MAX - 1, UINT64_MAX,
};
enum { INDICES_COUNT = sizeof INDICES / sizeof INDICES[0] };

static void lock_at_indices(uint64_t k)
{
    for (size_t i = 0; i < INDICES_COUNT; i++)
        compare_lock(k, INDICES[i]);
}

/* Document 01's examples, then numbers around the powers of 2, the three constants, small and random numbers. */
static void locks(void)
{
    static const uint64_t places_of_1[] = {632, 765, 595};
    for (uint64_t j = 0; j < 3; j++) {
        require(journal_lock_place(1, j) == places_of_1[j], "lock 1 has the places 632, 765, 595");
        require(journal_lock_place(0, j) == 0, "lock 0 has the places 0, 0, 0");
    }
    for (int bit = 0; bit < 64; bit++) {
        uint64_t power = UINT64_C(1) << bit;
        lock_at_indices(power - 1);
        lock_at_indices(power);
        lock_at_indices(power + 1);
        lock_at_indices(0 - power);
    }
    lock_at_indices(UINT64_C(0x9E3779B97F4A7C15));
    lock_at_indices(UINT64_C(0xBF58476D1CE4E5B9));
    lock_at_indices(UINT64_C(0x94D049BB133111EB));
    for (uint64_t k = 0; k < 10000; k++)
        lock_at_indices(k);
    for (int i = 0; i < 50000; i++)
        lock_at_indices(random_number());
    for (int i = 0; i < 50000; i++)
        compare_lock(random_number(), random_number());
}

/* A null pointer with length 0 is no place, whatever the number. */
static void nothing(void)
{
    for (size_t i = 0; i < NUMBERS_COUNT; i++)
        compare_place("null", NULL, 0, NUMBERS[i]);
}

int main(void)
{
    static const uint8_t digits[] = {'1', '2', '3', '4', '5', '6', '7', '8', '9'};
    require(crc32_of(digits, sizeof digits) == 0xCBF43926, "the CRC-32 of 123456789 is CBF43926");
    valid_places();
    clients();
    headers();
    numbers_and_ids();
    lengths();
    nothing();
    damaged_bytes();
    data_lengths();
    tails();
    sequences();
    zeros_before_the_check();
    old_places();
    checks();
    random_places();
    locks();
    printf("place check: %" PRIu64 " compared, %" PRIu64 " of them valid\n", places_compared, places_valid);
    printf("lock places: %" PRIu64 " compared, %" PRIu64 " of them places\n", locks_compared, locks_placed);
    conversions();
    printf("%" PRIu64 " differ\n", differences);
    return differences == 0 && failed_conditions == 0 ? 0 : 1;
}
