#include "inputs.h"

#include <stdio.h>
#include <string.h>

#include "reference.h"

uint64_t differences, failed_conditions;

int differs(void)
{
    return differences++ < 20;
}

void require(int condition, const char *what)
{
    if (condition)
        return;
    failed_conditions++;
    printf("does not hold: %s\n", what);
}

/* xorshift64 */
uint64_t random_number(void)
{
    static uint64_t state = UINT64_C(0x0123456789ABCDEF);
    state ^= state << 13;
    state ^= state >> 7;
    state ^= state << 17;
    return state;
}

void random_bytes(uint8_t *bytes, size_t length)
{
    for (size_t i = 0; i < length; i++)
        bytes[i] = (uint8_t)(random_number() >> 32);
}

void seal(uint8_t *bytes, size_t checked)
{
    put_number(bytes + checked, 4, crc32_of(bytes, checked));
}

static void random_data(uint8_t *bytes, size_t length)
{
    for (size_t i = 0; i < length; i++)
        bytes[i] = (uint8_t)(1 + random_number() % 255);
}

void make_place(uint8_t *place, uint64_t id, size_t data)
{
    memset(place, 0, PLACE);
    put_number(place, 8, id);
    random_bytes(place + 8, LENGTH_AT - 8);
    put_number(place + LENGTH_AT, 4, data);
    random_data(place + DATA_AT, data);
    seal(place, CHECKED);
}

void make_old_place(uint8_t *place, uint64_t id, size_t data)
{
    memset(place, 0, OLD_PLACE);
    put_number(place, 8, id);
    random_bytes(place + 8, OLD_LENGTH_AT - 8);
    put_number(place + OLD_LENGTH_AT, 4, data);
    random_data(place + OLD_DATA_AT, data);
    seal(place, OLD_CHECKED);
}
