/* The jobs `crc` and `marks` of crates/bench with a library's CRC-32: zlib's, or libdeflate's where LIBDEFLATE is defined. Standard
   input has the job's name, a tab and how often it is done; standard output gets the answer that the other programs give. */
#include <inttypes.h>
#include <stdbool.h>
#include <stdint.h>
#include <stdio.h>
#include <string.h>
#ifdef LIBDEFLATE
#include <libdeflate.h>
#else
#include <zlib.h>
#endif

/* A slot: fields and zeros (28), check (4). A place: ID (8), client, generation, partition (4 each), sequence (8), header, data length
   (4 each), data (28), zeros (4), check (4). A medium: two slots, then its places. Integers are big-endian. */
enum { CHECK = 4, SLOT = 32, SLOTS = 2 * SLOT };
enum { PLACE = 72, CLIENT_AT = 8, PARTITION_AT = 16, SEQUENCE_AT = 20, HEADER_AT = 28, LENGTH_AT = 32, DATA_AT = 36 };
enum { DATA = 28, CHECKED = PLACE - CHECK };
enum { REPLICAS = 7, PLACES = 1000, MEDIUM = SLOTS + PLACES * PLACE, MEDIA = REPLICAS * MEDIUM };

/* The bytes whose CRC is taken. */
enum { CRC_BYTES = 65536 };

static uint32_t check_of(const unsigned char *bytes, size_t length) {
#ifdef LIBDEFLATE
  return libdeflate_crc32(0, bytes, length);
#else
  return (uint32_t)crc32(0, bytes, (uInt)length);
#endif
}

static uint64_t get(const unsigned char *bytes, size_t length) {
  uint64_t value = 0;
  for (size_t i = 0; i < length; i++)
    value = value << 8 | bytes[i];
  return value;
}

static void put(unsigned char *bytes, size_t length, uint64_t value) {
  for (size_t i = length; i > 0; i--, value >>= 8)
    bytes[i - 1] = (unsigned char)value;
}

/* Puts the check of a slot or place behind what it checks. */
static void seal(unsigned char *bytes, size_t checked) {
  put(bytes + checked, CHECK, check_of(bytes, checked));
}

/* The media of a fresh cluster: blank slots, wiped places. */
static void start(unsigned char *media) {
  for (unsigned char *medium = media; medium < media + MEDIA; medium += MEDIUM) {
    seal(medium, SLOT - CHECK);
    seal(medium + SLOT, SLOT - CHECK);
  }
}

/* The record of this ID, as twin/src/jobs/stage.rs issues it, into a wiped place: client 100, generation 0, partition 2, sequence 3,
   header 4, data that differ. */
static void put_record(unsigned char *place, uint64_t id) {
  put(place, 8, id);
  put(place + CLIENT_AT, 4, 100);
  put(place + PARTITION_AT, 4, 2);
  put(place + SEQUENCE_AT, 8, 3);
  put(place + HEADER_AT, 4, 4);
  put(place + LENGTH_AT, 4, DATA);
  for (size_t i = 0; i < DATA; i++)
    place[DATA_AT + i] = (unsigned char)(id - 1 + i);
  seal(place, CHECKED);
}

static void fill(unsigned char *media) {
  for (unsigned char *medium = media; medium < media + MEDIA; medium += MEDIUM)
    for (uint64_t id = 1; id <= PLACES; id++)
      put_record(medium + SLOTS + (id - 1) * PLACE, id);
}

static bool all_zero(const unsigned char *bytes, const unsigned char *end) {
  while (bytes < end && *bytes == 0)
    bytes++;
  return bytes == end;
}

/* Zeros follow the data, up to the check. */
static bool is_place(const unsigned char *place, uint64_t number) {
  uint64_t length = get(place + LENGTH_AT, 4);
  return get(place, 8) == number && length <= DATA && all_zero(place + DATA_AT + length, place + CHECKED) &&
         get(place + CHECKED, CHECK) == check_of(place, CHECKED);
}

/* How many places from the first on are valid; the next place is reached by a sum. */
static uint64_t mark(const unsigned char *medium) {
  const unsigned char *place = medium + SLOTS;
  uint64_t number = 1;
  while (number <= PLACES && is_place(place, number)) {
    place += PLACE;
    number++;
  }
  return number - 1;
}

static uint64_t marks(const unsigned char *media) {
  uint64_t sum = 0;
  for (const unsigned char *medium = media; medium < media + MEDIA; medium += MEDIUM)
    sum += mark(medium);
  return sum;
}

static uint64_t crc(const unsigned char *media) {
  return check_of(media, CRC_BYTES);
}

/* The sum over the turns, each of which changes a byte, so that none can be saved. */
static uint64_t total(uint64_t turn(const unsigned char *), unsigned char *media, uint64_t count) {
  uint64_t sum = 0;
  for (uint64_t left = count; left > 0; left--) {
    media[0] = (unsigned char)left;
    sum += turn(media);
  }
  return sum;
}

int main(void) {
  static unsigned char media[MEDIA];
  char job[6];
  uint64_t count;
  if (scanf("%5[a-z]\t%" SCNu64, job, &count) != 2)
    return 1;
  bool scans = strcmp(job, "marks") == 0;
  if (!scans && strcmp(job, "crc") != 0)
    return 1;
  start(media);
  if (scans)
    fill(media);
  printf("%" PRIu64 "\n", total(scans ? marks : crc, media, count));
  return 0;
}
