/* Memory that is refused: LD_PRELOAD puts this before the C library of a program.
 *
 *   REFUSE_AT=K     the K-th growth of memory finds none, from 1; 0: each finds some
 *   REFUSE_ON=1     nor does any growth behind it
 *   REFUSE_TOLD=F   the first 16 bytes of the file F say how many growths were asked for, and how many were refused
 *
 * A growth is a call of malloc, calloc or realloc.
 */
#include <errno.h>
#include <fcntl.h>
#include <stdint.h>
#include <stdlib.h>
#include <sys/mman.h>
#include <unistd.h>

extern void *__libc_malloc(size_t), *__libc_calloc(size_t, size_t), *__libc_realloc(void *, size_t);

static uint64_t untold[2], *told = untold;
static uint64_t at, on, ready;

static uint64_t number(const char *name)
{
    const char *text = getenv(name);
    return text ? strtoull(text, NULL, 10) : 0;
}

__attribute__((constructor)) static void begin(void)
{
    const char *name = getenv("REFUSE_TOLD");
    int file = name ? open(name, O_RDWR) : -1;
    void *shared = file < 0 ? MAP_FAILED : mmap(NULL, sizeof untold, PROT_READ | PROT_WRITE, MAP_SHARED, file, 0);
    if (shared != MAP_FAILED)
        told = shared;
    if (file >= 0)
        close(file);
    at = number("REFUSE_AT");
    on = number("REFUSE_ON");
    ready = 1;
}

static int is_refused(void)
{
    if (!ready)
        return 0;
    uint64_t asked = ++told[0];
    if (!at || asked < at || (asked > at && !on))
        return 0;
    told[1]++;
    errno = ENOMEM;
    return 1;
}

void *malloc(size_t size)
{
    return is_refused() ? NULL : __libc_malloc(size);
}

void *calloc(size_t count, size_t size)
{
    return is_refused() ? NULL : __libc_calloc(count, size);
}

void *realloc(void *old, size_t size)
{
    return is_refused() ? NULL : __libc_realloc(old, size);
}
