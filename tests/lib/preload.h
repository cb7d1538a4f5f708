/* What the libraries share that are loaded before the C library. */
#ifndef _GNU_SOURCE
#define _GNU_SOURCE
#endif
#include <stdlib.h>
#include <string.h>
#include <sys/syscall.h>
#include <unistd.h>

/* The number that an environment variable gives; 0 where there is none. */
static unsigned long number_in(const char *name)
{
    const char *text = getenv(name);
    return text == NULL ? 0 : strtoul(text, NULL, 10);
}

/* Tells a text on standard error. */
static void tell(const char *text)
{
    if (syscall(SYS_write, STDERR_FILENO, text, strlen(text)) < 0)
        abort();
}
