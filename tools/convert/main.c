/* Turns the file of an old medium into that of a new one, by journal_convert: convert OLD NEW.
 *
 * OLD is only read. NEW must not exist; it is made whole or not at all: all is written to NEW.PID beside it, by the number of the
 * process, and gets the name NEW when it is on the device. A run that is cut short may leave NEW.PID, which nothing needs. The file
 * system must have hard links.
 *
 * A new medium may have the length of an old one, and then the journal does not decline it. An OLD whose place 1 is valid as one of
 * a new medium is taken for converted, and not converted again; a new medium with an empty log cannot be told from an old one, and is.
 *
 * Standard error says what is done, and why if it is not. Ends with status 0 if NEW is made, 2 if the journal declines OLD, 1 for
 * anything else. */
#define _XOPEN_SOURCE 700
#include <errno.h>
#include <fcntl.h>
#include <inttypes.h>
#include <libgen.h>
#include <signal.h>
#include <stdbool.h>
#include <stdio.h>
#include <stdlib.h>
#include <string.h>
#include <sys/stat.h>
#include <unistd.h>

#include "journal.h"

enum { DONE = 0, TROUBLE = 1, DECLINED = 2 };

/* Room for the longest media, and for a byte more of the old one: a file that has it is too long, however long it is. */
enum { MOST_OLD_BYTES = JOURNAL_OLD_MEDIUM_BYTES(JOURNAL_MOST_PLACES) };
static uint8_t old_medium[MOST_OLD_BYTES + 1], new_medium[JOURNAL_MEDIUM_BYTES(JOURNAL_MOST_PLACES)];

/* No line is written while a file is open: where standard error is closed, the file may have its number. */
static int trouble(const char *name, const char *what, int error)
{
    fprintf(stderr, "convert: %s %s: %s\n", name, what, strerror(error));
    return TROUBLE;
}

/* ---- reading */

/* Up to the end of the file, or of the room; how many bytes, or -1. */
static ssize_t read_bytes(int file, uint8_t *bytes, size_t room)
{
    size_t length = 0;
    while (length < room) {
        ssize_t more = read(file, bytes + length, room - length);
        if (more == 0)
            break;
        if (more > 0)
            length += (size_t)more;
        else if (errno != EINTR)
            return -1;
    }
    return (ssize_t)length;
}

static int read_old(const char *name, size_t *length)
{
    int file = open(name, O_RDONLY);
    if (file < 0)
        return trouble(name, "cannot be opened", errno);
    ssize_t bytes = read_bytes(file, old_medium, sizeof old_medium);
    int error = errno;
    close(file);
    if (bytes < 0)
        return trouble(name, "cannot be read", error);
    *length = (size_t)bytes;
    return DONE;
}

/* ---- converting */

static const char *plural(size_t count)
{
    return count == 1 ? "" : "s";
}

/* The most places, at least 1, whose old medium is not longer than this. */
static size_t places_in(size_t length)
{
    if (length < JOURNAL_OLD_MEDIUM_BYTES(1))
        return 1;
    size_t places = (length - JOURNAL_SLOTS_BYTES) / JOURNAL_OLD_PLACE_BYTES;
    return places < JOURNAL_MOST_PLACES ? places : JOURNAL_MOST_PLACES;
}

/* How many places of the new medium are valid, from place 1 on. */
static size_t records_in(size_t places)
{
    size_t records = 0;
    while (records < places && journal_place_check(new_medium + JOURNAL_MEDIUM_BYTES(records), JOURNAL_PLACE_BYTES, records + 1) == 1)
        records++;
    return records;
}

static int declined(const char *name, const char *bytes, bool fits)
{
    fprintf(stderr, "convert: %d not convertible: %s has ", JOURNAL_NOT_CONVERTIBLE, name);
    if (fits)
        fprintf(stderr, "no valid slot\n");
    else
        fprintf(stderr, "%s bytes, which are not %d + %d x N for any N from 1 to %d\n", bytes, JOURNAL_SLOTS_BYTES,
                JOURNAL_OLD_PLACE_BYTES, JOURNAL_MOST_PLACES);
    return DECLINED;
}

/* Whether place 1 is a valid one of a new medium. */
static bool is_new(size_t length)
{
    return length >= JOURNAL_MEDIUM_BYTES(1) && journal_place_check(old_medium + JOURNAL_SLOTS_BYTES, JOURNAL_PLACE_BYTES, 1) == 1;
}

/* Whether the file is convertible is the journal's to say, also where its length fits no number of places: the second slice then is
 * one for as many as there is room for. */
static int convert(const char *name, size_t length, size_t *new_length)
{
    char bytes[40];
    bool longer = length > MOST_OLD_BYTES;
    snprintf(bytes, sizeof bytes, "%s%zu", longer ? "more than " : "", longer ? (size_t)MOST_OLD_BYTES : length);
    size_t places = places_in(length);
    bool fits = length == JOURNAL_OLD_MEDIUM_BYTES(places);
    fprintf(stderr, "convert: read %s: %s bytes", name, bytes);
    if (fits)
        fprintf(stderr, ", %zu place%s", places, plural(places));
    fprintf(stderr, "\n");

    *new_length = JOURNAL_MEDIUM_BYTES(places);
    uint64_t given = journal_convert(old_medium, length, new_medium, *new_length);
    if (given == JOURNAL_NOT_CONVERTIBLE)
        return declined(name, bytes, fits);
    if (given != 0) {
        fprintf(stderr, "convert: journal_convert gives %" PRIu64 ", which no journal does\n", given);
        return TROUBLE;
    }
    if (is_new(length)) {
        fprintf(stderr, "convert: %s has a valid place 1 of %d bytes: it has been converted already\n", name, JOURNAL_PLACE_BYTES);
        return TROUBLE;
    }
    size_t records = records_in(places);
    fprintf(stderr, "convert: kept %zu record%s of %zu place%s\n", records, plural(records), places, plural(places));
    return DONE;
}

/* ---- writing */

static bool write_bytes(int file, const uint8_t *bytes, size_t length)
{
    while (length > 0) {
        ssize_t written = write(file, bytes, length);
        if (written < 0 && errno != EINTR)
            return false;
        if (written > 0) {
            bytes += written;
            length -= (size_t)written;
        }
    }
    return true;
}

/* All is on the device before the file is closed. 0, or the number of what failed. */
static int fill(int file, size_t length)
{
    int error = write_bytes(file, new_medium, length) && fsync(file) == 0 ? 0 : errno;
    if (close(file) != 0 && error == 0)
        error = errno;
    return error;
}

/* A name beside this one that no other process uses, to be freed; or NULL. */
static char *part_name(const char *name)
{
    size_t room = strlen(name) + 24;
    char *part = malloc(room);
    if (part != NULL)
        snprintf(part, room, "%s.%ld", name, (long)getpid());
    return part;
}

static void remove_file(const char *name)
{
    if (unlink(name) != 0)
        trouble(name, "cannot be removed", errno);
}

/* Makes a file that is not there yet, with the whole medium; where that fails, it is removed. */
static int write_part(const char *part, size_t length)
{
    int file = open(part, O_WRONLY | O_CREAT | O_EXCL, 0666);
    if (file < 0)
        return trouble(part, "cannot be made", errno);
    int error = fill(file, length);
    if (error == 0)
        return DONE;
    remove_file(part);
    return trouble(part, "cannot be written", error);
}

/* Gives the part its name, and takes the one that it has. A file that has got the name meanwhile is not replaced. */
static int rename_part(const char *part, const char *name)
{
    int error = link(part, name) == 0 ? 0 : errno;
    remove_file(part);
    if (error == EPERM || error == EOPNOTSUPP || error == ENOSYS)
        return trouble(name, "cannot be made without a hard link", error);
    return error == 0 ? DONE : trouble(name, "cannot be made", error);
}

/* Puts the file's name on the device too, which its folder has; some file systems do so by themselves, and say EINVAL. Where the
 * folder may not be read, the system does so in its own time. */
static int sync_folder(const char *name)
{
    char *copy = strdup(name);
    if (copy == NULL)
        return trouble(name, "cannot be put on the device", errno);
    int folder = open(dirname(copy), O_RDONLY | O_DIRECTORY);
    int unread = folder < 0 ? errno : 0;
    int error = folder < 0 || fsync(folder) == 0 || errno == EINVAL ? 0 : errno;
    if (folder >= 0)
        close(folder);
    free(copy);
    if (unread != 0)
        trouble(name, "is whole, but its name may not be on the device yet", unread);
    return error == 0 ? DONE : trouble(name, "cannot be put on the device", error);
}

static int write_new(const char *name, size_t length)
{
    char *part = part_name(name);
    if (part == NULL)
        return trouble(name, "cannot be made", errno);
    int status = write_part(part, length);
    if (status == DONE)
        status = rename_part(part, name);
    free(part);
    if (status != DONE)
        return status;
    status = sync_folder(name);
    if (status == DONE)
        fprintf(stderr, "convert: wrote %s: %zu bytes\n", name, length);
    else
        remove_file(name);
    return status;
}

/* Whether there is no such file yet. When the file gets its name, the system sees to it once more. */
static int check_name(const char *name)
{
    struct stat there;
    if (lstat(name, &there) == 0)
        return trouble(name, "cannot be made", EEXIST);
    return errno == ENOENT ? DONE : trouble(name, "cannot be made", errno);
}

int main(int count, char **words)
{
    if (count != 3) {
        fprintf(stderr, "convert: usage: convert OLD NEW\n");
        return TROUBLE;
    }
    /* A write that fails is reported, and what it leaves removed; its signal would end the program before. */
    signal(SIGXFSZ, SIG_IGN);
    signal(SIGPIPE, SIG_IGN);
    size_t length = 0, new_length = 0;
    int status = check_name(words[2]);
    if (status == DONE)
        status = read_old(words[1], &length);
    if (status == DONE)
        status = convert(words[1], length, &new_length);
    if (status == DONE)
        status = write_new(words[2], new_length);
    return status;
}
