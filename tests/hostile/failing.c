/* System calls that fail: LD_PRELOAD puts this before the C library of a program.
 *
 *   FAIL_AT=K      the K-th call of open, read, write or close fails, from 1; 0: none does of itself
 *   FAIL_TIMES=N   so do the N - 1 calls behind it
 *   FAIL_WITH=E    with this errno; 0: it answers 0, as a write that takes nothing
 *   MOST=N         no read and no write takes more than N bytes; 0: as many as there are
 *   CALLS=F        the file F gets a line for each call: its name, its file or descriptor, and what it answered
 *
 * A close that fails has closed the descriptor, as on Linux.
 */
#include <errno.h>
#include <fcntl.h>
#include <stdarg.h>
#include <stdio.h>
#include <stdlib.h>
#include <sys/syscall.h>
#include <unistd.h>

static long at, times, with, most, calls;
static int told = -1;

static long number(const char *name, long otherwise)
{
    const char *text = getenv(name);
    return text ? atol(text) : otherwise;
}

__attribute__((constructor)) static void begin(void)
{
    const char *name = getenv("CALLS");
    if (name) {
        int file = syscall(SYS_openat, AT_FDCWD, name, O_WRONLY | O_APPEND, 0);
        told = syscall(SYS_fcntl, file, F_DUPFD, 900);
        syscall(SYS_close, file);
    }
    at = number("FAIL_AT", 0);
    times = number("FAIL_TIMES", 1);
    with = number("FAIL_WITH", EIO);
    most = number("MOST", 0);
}

static int is_failing(void)
{
    calls++;
    return at && calls >= at && calls < at + times;
}

static long failed(void)
{
    errno = with;
    return with ? -1 : 0;
}

static long say(const char *call, const char *what, long descriptor, long answer)
{
    char line[512];
    int kept = errno;
    int length = what ? snprintf(line, sizeof line, "%s %.400s %ld\n", call, what, answer)
                      : snprintf(line, sizeof line, "%s %ld %ld\n", call, descriptor, answer);
    if (told >= 0)
        syscall(SYS_write, told, line, length);
    errno = kept;
    return answer;
}

static size_t piece(size_t length)
{
    return most && length > (size_t)most ? (size_t)most : length;
}

int open(const char *name, int flags, ...)
{
    va_list rest;
    va_start(rest, flags);
    int mode = flags & O_CREAT ? va_arg(rest, int) : 0;
    va_end(rest);
    return say("open", name, 0, is_failing() ? failed() : syscall(SYS_openat, AT_FDCWD, name, flags, mode));
}

ssize_t read(int file, void *into, size_t length)
{
    return say("read", NULL, file, is_failing() ? failed() : syscall(SYS_read, file, into, piece(length)));
}

ssize_t write(int file, const void *from, size_t length)
{
    return say("write", NULL, file, is_failing() ? failed() : syscall(SYS_write, file, from, piece(length)));
}

int close(int file)
{
    int fails = is_failing();
    long answer = syscall(SYS_close, file);
    return say("close", NULL, file, fails ? failed() : answer);
}
