/* Loaded before the C library, makes one call of the command fail: FAILING_CALL is its name, and FAILING_ERROR the number that it
 * leaves in errno, or 0 for a process that is killed there. Calls on a folder have names of their own. */
#define _GNU_SOURCE
#include <errno.h>
#include <fcntl.h>
#include <signal.h>
#include <stdarg.h>
#include <stdbool.h>
#include <stdlib.h>
#include <string.h>
#include <sys/stat.h>
#include <sys/syscall.h>
#include <unistd.h>

static bool fails(const char *call)
{
    const char *failing = getenv("FAILING_CALL"), *error = getenv("FAILING_ERROR");
    if (failing == NULL || error == NULL || strcmp(call, failing) != 0)
        return false;
    if (atoi(error) == 0)
        raise(SIGKILL);
    errno = atoi(error);
    return true;
}

int open(const char *name, int flags, ...)
{
    va_list more;
    va_start(more, flags);
    mode_t mode = (flags & O_CREAT) != 0 ? va_arg(more, mode_t) : 0;
    va_end(more);
    return fails((flags & O_DIRECTORY) != 0 ? "open_folder" : "open") ? -1 : (int)syscall(SYS_open, name, flags, mode);
}

/* Half of the bytes are written before. */
ssize_t write(int file, const void *bytes, size_t length)
{
    static bool half;
    if (half && fails("write"))
        return -1;
    half = true;
    return syscall(SYS_write, file, bytes, length - length / 2);
}

int fsync(int file)
{
    struct stat there;
    bool folder = fstat(file, &there) == 0 && S_ISDIR(there.st_mode);
    return fails(folder ? "fsync_folder" : "fsync") ? -1 : (int)syscall(SYS_fsync, file);
}

int link(const char *old_name, const char *new_name)
{
    return fails("link") ? -1 : (int)syscall(SYS_link, old_name, new_name);
}

int unlink(const char *name)
{
    return fails("unlink") ? -1 : (int)syscall(SYS_unlink, name);
}
