/* Loaded before the C library, this counts the growths of memory: the calls of malloc, calloc and realloc. It refuses the one
   whose number, counted from 1, the environment variable REFUSED_GROWTH gives, and says `refused` on standard error when it
   does; with no such variable, or 0, it refuses nothing. Where WATCHED_GROWTHS is set, it tells at the end, on standard error,
   how many growths there were from the first write to standard output on, or, where there is none, from the start on, and by how
   many bytes what was in use exceeded, at most, what was in use then: `growths N most M`. */
#include "preload.h"
#include <errno.h>
#include <malloc.h>
#include <stdio.h>

extern void *__libc_malloc(size_t size);
extern void *__libc_calloc(size_t count, size_t size);
extern void *__libc_realloc(void *old, size_t size);
extern void __libc_free(void *old);

/* the calls to come before the one that is refused, and that one; 0 once there is none */
static unsigned long left;

/* the bytes in use now, those at the first write and those at most since then, and the growths since then */
static long in_use;
static long at_first;
static long at_most;
static unsigned long growths;
static int has_begun;

__attribute__((constructor)) static void begin(void)
{
    left = number_in("REFUSED_GROWTH");
}

static int refuses(void)
{
    if (left == 0 || --left != 0)
        return 0;
    tell("refused\n");
    errno = ENOMEM;
    return 1;
}

/* Counts a growth that gave this, where so many bytes were in use before. */
static void *grown(void *new, long before)
{
    growths += 1;
    if (new != NULL)
        in_use += (long)malloc_usable_size(new) - before;
    if (in_use > at_most)
        at_most = in_use;
    return new;
}

void *malloc(size_t size)
{
    return refuses() ? NULL : grown(__libc_malloc(size), 0);
}

void *calloc(size_t count, size_t size)
{
    return refuses() ? NULL : grown(__libc_calloc(count, size), 0);
}

void *realloc(void *old, size_t size)
{
    long before = (long)malloc_usable_size(old);
    return refuses() ? NULL : grown(__libc_realloc(old, size), before);
}

void free(void *old)
{
    in_use -= (long)malloc_usable_size(old);
    __libc_free(old);
}

ssize_t write(int file, const void *bytes, size_t count)
{
    if (file == STDOUT_FILENO && !has_begun) {
        has_begun = 1;
        at_first = at_most = in_use;
        growths = 0;
    }
    return syscall(SYS_write, file, bytes, count);
}

__attribute__((destructor)) static void end(void)
{
    char told[80];
    if (getenv("WATCHED_GROWTHS") == NULL)
        return;
    snprintf(told, sizeof told, "growths %lu most %ld\n", growths, at_most - at_first);
    tell(told);
}
