#include "conversions.h"

#include <inttypes.h>
#include <stdio.h>
#include <string.h>

#include "inputs.h"
#include "journal.h"
#include "reference.h"

/* Places of a medium: the most that is allowed, the longest one tried, and up to how many each medium is tried in many ways. */
enum { MOST = 1000, LONGEST = 1003, FEW = 20 };

/* Bytes beside what is lent, which nobody may write, and addresses that are tried. */
enum { BESIDE = 80, ADDRESSES = 16 };
enum { OLD_ROOM = SLOTS + OLD_PLACE * LONGEST, ROOM = ADDRESSES + BESIDE + SLOTS + PLACE * LONGEST + BESIDE };

static uint64_t compared, converted;

/* The old medium of the next comparison, what the second slice and the bytes beside it hold before, and what they must hold after. */
static uint8_t old_medium[OLD_ROOM], pattern[ROOM], expected_bytes[ROOM];

/* The second slice of the last comparison, as the call left it. */
static const uint8_t *given_medium;

static size_t old_bytes(size_t places)
{
    return SLOTS + OLD_PLACE * places;
}

static size_t new_bytes(size_t places)
{
    return SLOTS + PLACE * places;
}

static uint8_t *old_place(size_t number)
{
    return old_medium + old_bytes(number - 1);
}

/* ---- comparisons */

/* The call gets the old medium and the second slice at another address each time. Neither the old medium nor a byte beside the second
 * slice changes, and with 27 the second slice does not either. */
static void compare(const char *what, size_t old_length, size_t new_length)
{
    static uint8_t moved[ADDRESSES + OLD_ROOM], lent[ROOM];
    uint8_t *old_moved = moved + compared % ADDRESSES;
    uint8_t *beside = lent + compared / 3 % ADDRESSES;
    size_t around = BESIDE + new_length + BESIDE;
    memcpy(old_moved, old_medium, old_length);
    memcpy(beside, pattern, around);
    memcpy(expected_bytes, pattern, around);
    uint64_t expected = expected_convert(old_medium, old_length, expected_bytes + BESIDE, new_length);
    uint64_t given = journal_convert(old_moved, old_length, beside + BESIDE, new_length);
    given_medium = beside + BESIDE;
    compared++;
    converted += expected == 0;
    int same = memcmp(beside, expected_bytes, around) == 0 && memcmp(old_moved, old_medium, old_length) == 0;
    if ((given != expected || !same) && differs())
        printf("%s: lengths %zu and %zu: gives %" PRIu64 " (%" PRIu64 " expected), %s\n", what, old_length, new_length, given,
               expected, same ? "the bytes expected" : "other bytes");
}

static void compare_medium(const char *what, size_t places)
{
    compare(what, old_bytes(places), new_bytes(places));
}

/* The new medium that the last call wrote has as many valid places as the old one's log, and those only. */
static void read_back(size_t places)
{
    size_t mark = old_mark(old_medium, places);
    for (size_t n = 1; n <= places; n++) {
        uint64_t valid = journal_place_check(given_medium + new_bytes(n - 1), PLACE, n);
        require(valid == (n <= mark), "the new medium's log is the old one's");
    }
}

/* ---- inputs */

static void make_slot(uint8_t *slot)
{
    random_bytes(slot, 24);
    memset(slot + 24, 0, 4);
    seal(slot, SLOT_CHECKED);
}

/* An old medium with valid slots, a log of so many records, and wiped places above. */
static void make_medium(size_t places, size_t mark)
{
    make_slot(old_medium);
    make_slot(old_medium + SLOT);
    memset(old_place(1), 0, OLD_PLACE * places);
    for (size_t n = 1; n <= mark; n++)
        make_old_place(old_place(n), n, random_number() % (MOST_DATA + 1));
}

/* Makes the check behind a byte of the old medium agree again. */
static void seal_around(size_t at)
{
    if (at < SLOTS)
        seal(old_medium + at / SLOT * SLOT, SLOT_CHECKED);
    else
        seal(old_medium + at / OLD_PLACE * OLD_PLACE, OLD_CHECKED);
}

/* ---- media */

/* The record of ID 1, client 258, generation 0, partition 5, sequence 77, header 9 and data ABCD in a place of so many bytes. */
static void put_record(uint8_t *place, size_t bytes, size_t sequence_width, uint64_t check)
{
    memset(place, 0, bytes);
    put_number(place, 8, 1);
    put_number(place + 8, 4, 258);
    put_number(place + 16, 4, 5);
    put_number(place + 20, sequence_width, 77);
    put_number(place + 20 + sequence_width, 4, 9);
    put_number(place + 24 + sequence_width, 4, 4);
    memcpy(place + 28 + sequence_width, "ABCD", 4);
    put_number(place + bytes - 4, 4, check);
}

/* Written by hand, its checks zlib's: a valid slot, an invalid one, a record, bytes that are no place, and a valid place behind. */
static void by_hand(void)
{
    uint8_t expected[SLOTS + PLACE * 3];
    memset(old_medium, 0, SLOT);
    put_number(old_medium, 8, 2);
    put_number(old_medium + SLOT_CHECKED, 4, 0x64B47694);
    memset(old_medium + SLOT, 0xAA, SLOT);
    put_record(old_place(1), OLD_PLACE, 4, 0xCC0131FB);
    memset(old_place(2), 0xBB, OLD_PLACE);
    make_old_place(old_place(3), 3, 28);
    compare_medium("by hand", 3);

    memset(expected, 0, sizeof expected);
    memcpy(expected, old_medium, SLOTS);
    put_record(expected + SLOTS, PLACE, 8, 0xC60E944B);
    require(memcmp(given_medium, expected, sizeof expected) == 0, "a medium is converted to the one written by hand");
}

/* Logs that end at each place, and what may stand above them. */
static void marks(size_t places, size_t mark)
{
    make_medium(places, mark);
    compare_medium("wiped above the log", places);
    read_back(places);
    if (mark == places)
        return;
    random_bytes(old_place(mark + 1), OLD_PLACE * (places - mark));
    compare_medium("torn bytes above the log", places);
    for (size_t n = mark + 2; n <= places; n++)
        make_old_place(old_place(n), n, random_number() % (MOST_DATA + 1));
    compare_medium("valid places behind a torn one", places);
    memset(old_place(mark + 1), 0, OLD_PLACE);
    compare_medium("valid places behind a wiped one", places);
    read_back(places);
    make_old_place(old_place(mark + 1), mark + 2, 1);
    compare_medium("the next ID in a place", places);
    make_old_place(old_place(mark + 1), mark, 1);
    compare_medium("the ID before in a place", places);
    read_back(places);
}

static void all_marks(void)
{
    for (size_t places = 1; places <= FEW; places++)
        for (size_t mark = 0; mark <= places; mark++)
            marks(places, mark);
}

/* A record of each data length, with each of the 28 bytes set, and with each bit of its sequence. */
static void records(void)
{
    for (size_t data = 0; data <= MOST_DATA; data++) {
        for (size_t at = 0; at < MOST_DATA; at++) {
            make_medium(1, 0);
            make_old_place(old_place(1), 1, data);
            compare_medium("data length", 1);
            old_place(1)[OLD_DATA_AT + at] = (uint8_t)(1 << random_number() % 8);
            seal(old_place(1), OLD_CHECKED);
            compare_medium("zeros after the data", 1);
        }
    }
    for (int bit = 0; bit < 32; bit++) {
        make_medium(1, 1);
        put_number(old_place(1) + 20, 4, UINT64_C(1) << bit);
        seal(old_place(1), OLD_CHECKED);
        compare_medium("sequence", 1);
        put_number(old_place(1) + 20, 4, UINT32_MAX >> bit);
        seal(old_place(1), OLD_CHECKED);
        compare_medium("sequence", 1);
        put_number(old_place(1) + OLD_LENGTH_AT, 4, UINT64_C(1) << bit);
        seal(old_place(1), OLD_CHECKED);
        compare_medium("length field", 1);
    }
}

/* Header 0 in one record of a log, and then in all: issue declines it, and what is stored stays. */
static void headers(void)
{
    for (size_t n = 1; n <= FEW; n++) {
        make_medium(FEW, FEW);
        put_number(old_place(n) + OLD_HEADER_AT, 4, 0);
        seal(old_place(n), OLD_CHECKED);
        compare_medium("a header of 0", FEW);
        read_back(FEW);
    }
    for (size_t n = 1; n <= FEW; n++) {
        put_number(old_place(n) + OLD_HEADER_AT, 4, 0);
        seal(old_place(n), OLD_CHECKED);
    }
    compare_medium("headers of 0", FEW);
    read_back(FEW);
}

/* A byte gets another value, under the old check and then under one that fits. */
static void damage(size_t places, size_t at, unsigned change)
{
    uint8_t kept[OLD_PLACE];
    size_t from = at / OLD_PLACE * OLD_PLACE;
    memcpy(kept, old_medium + from, OLD_PLACE);
    old_medium[at] = (uint8_t)(old_medium[at] ^ change);
    compare_medium("damaged", places);
    seal_around(at);
    compare_medium("damaged, then sealed", places);
    memcpy(old_medium + from, kept, OLD_PLACE);
}

static unsigned random_change(void)
{
    return 1 + (unsigned)(random_number() % 255);
}

/* Each byte of each small medium, each other value of each byte of two places, and some bytes of the largest. With one valid slot, it
 * is either one that counts. */
static void damaged(void)
{
    for (size_t places = 1; places <= FEW; places++) {
        make_medium(places, places);
        for (size_t at = 0; at < old_bytes(places); at++)
            damage(places, at, random_change());
    }
    for (size_t bad = 0; bad < SLOTS; bad += SLOT) {
        make_medium(2, 2);
        old_medium[bad] ^= 1;
        for (size_t at = 0; at < old_bytes(2); at++)
            for (unsigned change = 1; change < 256; change++)
                damage(2, at, change);
    }
    make_medium(MOST, MOST);
    for (int i = 0; i < 100; i++)
        damage(MOST, random_number() % old_bytes(MOST), random_change());
}

/* Slots that are invalid, each way in which they can be, beside a valid one and beside each other. */
enum { SLOT_FORMS = 8 };

static void make_slot_form(uint8_t *slot, int form)
{
    make_slot(slot);
    if (form < 4) {
        slot[24 + form] = (uint8_t)(1 + random_number() % 255);
        seal(slot, SLOT_CHECKED);
    }
    if (form == 4)
        put_number(slot + SLOT_CHECKED, 4, crc32_of(slot, 24));
    if (form == 5)
        memset(slot, 0, SLOT);
    if (form == 6)
        random_bytes(slot, SLOT);
}

static void slots(size_t places)
{
    uint64_t before = converted;
    for (int first = 0; first < SLOT_FORMS; first++) {
        for (int second = 0; second < SLOT_FORMS; second++) {
            make_slot_form(old_medium, first);
            make_slot_form(old_medium + SLOT, second);
            compare_medium("slots", places);
        }
    }
    require(converted - before == 2 * SLOT_FORMS - 1, "one valid slot is enough, and needed");
}

static void all_slots(void)
{
    for (size_t places = 1; places <= FEW; places++) {
        make_medium(places, places / 2);
        slots(places);
    }
    make_medium(MOST, 3);
    slots(MOST);
}

/* ---- lengths */

/* All pairs up to three places; then, around each number of places, lengths that are a byte or a place off. */
static void lengths(void)
{
    uint64_t before = converted;
    make_medium(LONGEST, 3);
    for (size_t old_length = 0; old_length <= old_bytes(3); old_length++)
        for (size_t new_length = 0; new_length <= new_bytes(3); new_length++)
            compare("length", old_length, new_length);
    require(converted - before == 3, "three pairs of lengths up to three places are convertible");
    for (size_t places = 1; places < LONGEST; places++) {
        const size_t old_lengths[] = {old_bytes(places - 1), old_bytes(places) - 1, old_bytes(places), old_bytes(places) + 1};
        const size_t new_lengths[] = {new_bytes(places - 1), new_bytes(places) - 1, new_bytes(places), new_bytes(places) + 1,
                                      new_bytes(places + 1), old_bytes(places)};
        for (size_t i = 0; i < 4; i++)
            for (size_t j = 0; j < 6; j++)
                compare("length", old_lengths[i], new_lengths[j]);
    }
}

/* A null pointer with length 0 is no medium, on either side or on both. */
static void nothing(void)
{
    uint8_t lent[SLOTS + PLACE];
    memset(lent, 0xC3, sizeof lent);
    make_medium(1, 1);
    require(journal_convert(NULL, 0, NULL, 0) == 27, "nothing is not convertible");
    require(journal_convert(old_medium, old_bytes(1), NULL, 0) == 27, "a medium is not convertible to nothing");
    require(journal_convert(NULL, 0, lent, sizeof lent) == 27, "nothing is not convertible to a medium");
    for (size_t i = 0; i < sizeof lent; i++)
        require(lent[i] == 0xC3, "the second slice is as it was");
}

/* ---- others */

/* A new medium of eight places has the bytes of an old one of nine; converted once more, it has no record. */
static void twice(void)
{
    make_medium(8, 8);
    compare_medium("once", 8);
    memcpy(old_medium, given_medium, new_bytes(8));
    compare_medium("twice", 9);
    read_back(9);
    require(old_mark(old_medium, 9) == 0, "a new place is no old one");
}

/* Random bytes, of which more and more are put right; then a log in which some bytes are changed. */
static void random_media(void)
{
    for (int i = 0; i < 5000; i++) {
        size_t places = 1 + random_number() % FEW;
        random_bytes(old_medium, old_bytes(places));
        compare_medium("random", places);
        make_slot(old_medium + SLOT * (random_number() % 2));
        compare_medium("random, with a slot", places);
        make_medium(places, random_number() % (places + 1));
        compare_medium("random log", places);
        for (uint64_t left = random_number() % 4; left > 0; left--) {
            size_t at = random_number() % old_bytes(places);
            old_medium[at] = (uint8_t)(old_medium[at] ^ random_change());
            if (random_number() % 2 == 0)
                seal_around(at);
        }
        compare_medium("random log, changed", places);
    }
}

/* Media of many places. */
static void large_media(void)
{
    for (size_t places = MOST; places > MOST - 10; places--)
        marks(places, places);
    for (int i = 0; i < 10; i++)
        marks(MOST, random_number() % MOST);
}

void conversions(void)
{
    random_bytes(pattern, ROOM);
    by_hand();
    all_marks();
    records();
    headers();
    damaged();
    all_slots();
    lengths();
    nothing();
    twice();
    random_media();
    large_media();
    printf("convert: %" PRIu64 " compared, %" PRIu64 " of them convertible\n", compared, converted);
}
