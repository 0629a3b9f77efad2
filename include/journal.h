/* Calls of the journal that a C or C++ program may make directly.
 *
 * Link target/staticlib/libjournal.a, which `tools/archive` writes; it is for x86-64 Linux and needs no library but C's.
 * Only journal_convert writes to memory that it is given, and only to its second slice. No call keeps anything between calls or
 * allocates: all may be called from several threads at once. A call takes up to 9 KiB of stack; where memset is bound at its
 * first use, the dynamic linker takes more for that.
 *
 * A slice is passed as a pointer and then its length in bytes. The pointer may be null if the length is 0, and the bytes need no
 * alignment. Nobody else writes a slice during a call.
 */
#ifndef JOURNAL_H
#define JOURNAL_H

#include <stddef.h>
#include <stdint.h>

#ifdef __cplusplus
extern "C" {
#endif

/* A medium has two slots and then its places, numbered from 1: the bytes of both slots, the bytes of a place, the most places. */
#define JOURNAL_SLOTS_BYTES 64
#define JOURNAL_PLACE_BYTES 72
#define JOURNAL_MOST_PLACES 1000

/* The bytes of a place in an old medium, whose sequence numbers have 32 bits. */
#define JOURNAL_OLD_PLACE_BYTES 64

/* The bytes of a medium of so many places, and of an old one. */
#define JOURNAL_MEDIUM_BYTES(places) (JOURNAL_SLOTS_BYTES + (size_t)JOURNAL_PLACE_BYTES * (places))
#define JOURNAL_OLD_MEDIUM_BYTES(places) (JOURNAL_SLOTS_BYTES + (size_t)JOURNAL_OLD_PLACE_BYTES * (places))

/* What journal_lock_place gives for an index that is no place of a lock: a lock table has the places 0 to 1,023. */
#define JOURNAL_NO_LOCK_PLACE 1024

/* The number that journal_convert gives when it declines. */
#define JOURNAL_NOT_CONVERTIBLE 27

/* Whether `length` bytes from `bytes` on are valid as the place `number`: 1 if they are, else 0.
 *
 * They are if `length` is JOURNAL_PLACE_BYTES, `number` is from 1 to JOURNAL_MOST_PLACES, the record's ID is `number`, its data
 * length is at most 28, zeros follow the data up to the check, and the CRC-32 agrees. Integers are big-endian, and a place has
 *
 *     ID  client  generation  partition  sequence  header  data length  data  zeros  CRC-32 of the 68 bytes before
 *     8   4       4           4          8         4       4            28    4      4
 */
uint64_t journal_place_check(const uint8_t *bytes, size_t length, uint64_t number);

/* Place `j` (0, 1 or 2) of lock `k` in a lock table: 0 to 1,023. JOURNAL_NO_LOCK_PLACE for any other `j`. */
uint64_t journal_lock_place(uint64_t k, uint64_t j);

/* Turns an old medium into a new one in a second slice: gives 0 and fills the whole of it, or gives JOURNAL_NOT_CONVERTIBLE and
 * leaves it as it is. The two slices do not overlap.
 *
 * It declines exactly if the lengths are not JOURNAL_OLD_MEDIUM_BYTES(n) and JOURNAL_MEDIUM_BYTES(n) for one n from 1 to
 * JOURNAL_MOST_PLACES, or if neither slot of the old medium is valid (24 bytes of numbers, 4 zeros, CRC-32 of the 28 bytes before).
 *
 * The new medium has the bytes of both slots as they are. Each record of the old log, which is the run of valid places from place 1,
 * keeps its fields and data; its check is made anew. All other places are zeros. An old place has
 *
 *     ID  client  generation  partition  sequence  header  data length  data  CRC-32 of the 60 bytes before
 *     8   4       4           4          4         4       4            28    4
 *
 * and is valid if its ID is its number, its data length is at most 28, zeros follow the data, and the CRC-32 agrees.
 *
 * Convert while no server works on the medium, and only once: a new medium of 8 x k places, up to 888, has the length of an old one of
 * 9 x k. It is converted as one, and its records are lost. So do not convert a medium whose place 1 journal_place_check finds valid.
 */
uint64_t journal_convert(const uint8_t *old_medium, size_t old_length, uint8_t *new_medium, size_t new_length);

#ifdef __cplusplus
}
#endif

#endif
