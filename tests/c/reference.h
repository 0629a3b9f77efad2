/* The exported calls once more, written from documents 01 and 02 alone. */
#ifndef REFERENCE_H
#define REFERENCE_H

#include <stddef.h>
#include <stdint.h>

/* An integer as `width` bytes, big-endian, and back. */
void put_number(uint8_t *bytes, size_t width, uint64_t value);
uint64_t get_number(const uint8_t *bytes, size_t width);

/* CRC-32 of IEEE 802.3. */
uint32_t crc32_of(const uint8_t *bytes, size_t length);

/* How many places of an old medium, from place 1 on, are valid. */
size_t old_mark(const uint8_t *old_medium, size_t places);

/* What the three exported calls are to give, and the last one to leave in the second slice. */
uint64_t expected_place_check(const uint8_t *bytes, size_t length, uint64_t number);
uint64_t expected_lock_place(uint64_t k, uint64_t j);
uint64_t expected_convert(const uint8_t *old_medium, size_t old_length, uint8_t *new_medium, size_t new_length);

#endif
