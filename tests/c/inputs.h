/* What the comparisons of the calls share: random numbers, places made for a number, and the count of what failed. */
#ifndef INPUTS_H
#define INPUTS_H

#include <stddef.h>
#include <stdint.h>

/* Bytes: of a slot and both, of a place and an old one, of what a check stands behind, and of the data at most. */
enum { SLOT = 32, SLOTS = 64, SLOT_CHECKED = 28 };
enum { PLACE = 72, CHECKED = 68, HEADER_AT = 28, LENGTH_AT = 32, DATA_AT = 36, MOST_DATA = 28 };
enum { OLD_PLACE = 64, OLD_CHECKED = 60, OLD_HEADER_AT = 24, OLD_LENGTH_AT = 28, OLD_DATA_AT = 32 };

extern uint64_t differences, failed_conditions;

/* Counts a difference; whether it is among the first, which are shown. */
int differs(void);

/* What must hold of the inputs, of the code that the calls are compared with, and of what the calls give. */
void require(int condition, const char *what);

/* The same numbers in each run. */
uint64_t random_number(void);
void random_bytes(uint8_t *bytes, size_t length);

/* Puts the check of so many bytes behind them. */
void seal(uint8_t *bytes, size_t checked);

/* A place of this ID with so many bytes of data, none of them zero, and any client, generation, partition, sequence, header. */
void make_place(uint8_t *place, uint64_t id, size_t data);
void make_old_place(uint8_t *place, uint64_t id, size_t data);

#endif
