#include "reference.h"

void put_number(uint8_t *bytes, size_t width, uint64_t value)
{
    for (size_t i = width; i > 0; i--) {
        bytes[i - 1] = (uint8_t)(value & 0xFF);
        value >>= 8;
    }
}

uint64_t get_number(const uint8_t *bytes, size_t width)
{
    uint64_t value = 0;
    for (size_t i = 0; i < width; i++)
        value = value << 8 | bytes[i];
    return value;
}

/* The standard's own order: the lowest bit of a byte comes first, the polynomial is not reflected, and the result is. */
uint32_t crc32_of(const uint8_t *bytes, size_t length)
{
    uint32_t remainder = 0xFFFFFFFF;
    for (size_t i = 0; i < length; i++) {
        for (int bit = 0; bit < 8; bit++) {
            uint32_t in = (uint32_t)(bytes[i] >> bit) & 1;
            uint32_t out = remainder >> 31;
            remainder = remainder << 1 ^ (in != out ? 0x04C11DB7 : 0);
        }
    }
    uint32_t crc = 0;
    for (int bit = 0; bit < 32; bit++)
        crc |= (remainder >> bit & 1) << (31 - bit);
    return ~crc;
}

static int zeros(const uint8_t *bytes, uint64_t from, uint64_t to)
{
    for (uint64_t i = from; i < to; i++)
        if (bytes[i] != 0)
            return 0;
    return 1;
}

/* Whether the check behind so many bytes agrees with them. */
static int agrees(const uint8_t *bytes, size_t checked)
{
    return crc32_of(bytes, checked) == get_number(bytes + checked, 4);
}

uint64_t expected_place_check(const uint8_t *bytes, size_t length, uint64_t number)
{
    if (length != 72 || number == 0 || number > 1000)
        return 0;
    if (get_number(bytes, 8) != number)
        return 0;
    uint64_t data = get_number(bytes + 32, 4);
    return data <= 28 && zeros(bytes, 36 + data, 64) && zeros(bytes, 64, 68) && agrees(bytes, 68);
}

/* Products of unsigned 64-bit numbers are taken mod 2^64, and the rest divided by 2^54 is its top ten bits. */
uint64_t expected_lock_place(uint64_t k, uint64_t j)
{
    switch (j) {
    case 0:
        return k * UINT64_C(0x9E3779B97F4A7C15) >> 54;
    case 1:
        return k * UINT64_C(0xBF58476D1CE4E5B9) >> 54;
    case 2:
        return k * UINT64_C(0x94D049BB133111EB) >> 54;
    default:
        return 1024;
    }
}

static int old_place_is_valid(const uint8_t *place, uint64_t number)
{
    if (get_number(place, 8) != number)
        return 0;
    uint64_t data = get_number(place + 28, 4);
    return data <= 28 && zeros(place, 32 + data, 60) && agrees(place, 60);
}

size_t old_mark(const uint8_t *old_medium, size_t places)
{
    size_t mark = 0;
    while (mark < places && old_place_is_valid(old_medium + 64 + 64 * mark, mark + 1))
        mark++;
    return mark;
}

static int slot_is_valid(const uint8_t *slot)
{
    return zeros(slot, 24, 28) && agrees(slot, 28);
}

/* The number of places that both lengths are made for; 0 if there is none. */
static size_t places_of(size_t old_length, size_t new_length)
{
    for (size_t places = 1; places <= 1000; places++)
        if (old_length == 64 + 64 * places && new_length == 64 + 72 * places)
            return places;
    return 0;
}

/* Each field is read as a number and written again, in its new width and at its new offset. */
static void convert_place(const uint8_t *old_place, uint8_t *place)
{
    put_number(place, 8, get_number(old_place, 8));
    put_number(place + 8, 4, get_number(old_place + 8, 4));
    put_number(place + 12, 4, get_number(old_place + 12, 4));
    put_number(place + 16, 4, get_number(old_place + 16, 4));
    put_number(place + 20, 8, get_number(old_place + 20, 4));
    put_number(place + 28, 4, get_number(old_place + 24, 4));
    put_number(place + 32, 4, get_number(old_place + 28, 4));
    for (size_t i = 0; i < 28; i++)
        place[36 + i] = old_place[32 + i];
    put_number(place + 64, 4, 0);
    put_number(place + 68, 4, crc32_of(place, 68));
}

uint64_t expected_convert(const uint8_t *old_medium, size_t old_length, uint8_t *new_medium, size_t new_length)
{
    size_t places = places_of(old_length, new_length);
    if (places == 0 || (!slot_is_valid(old_medium) && !slot_is_valid(old_medium + 32)))
        return 27;
    size_t mark = old_mark(old_medium, places);
    for (size_t i = 0; i < 64; i++)
        new_medium[i] = old_medium[i];
    for (size_t i = 64; i < new_length; i++)
        new_medium[i] = 0;
    for (size_t n = 0; n < mark; n++)
        convert_place(old_medium + 64 + 64 * n, new_medium + 64 + 72 * n);
    return 0;
}
