/* Lets one allocation of a program fail, the one whose number, from 1, the variable FAILING has. At the program's end it tells on its
   standard error how many there were. */
#include <errno.h>
#include <stdio.h>
#include <stdlib.h>

extern void *__libc_malloc(size_t size);
extern void *__libc_realloc(void *old, size_t size);

static unsigned long count, failing;

__attribute__((constructor)) static void begin(void)
{
    const char *number = getenv("FAILING");
    failing = number ? strtoul(number, NULL, 10) : 0;
}

static int fails(void)
{
    if (++count != failing)
        return 0;
    errno = ENOMEM;
    return 1;
}

void *malloc(size_t size)
{
    return fails() ? NULL : __libc_malloc(size);
}

void *realloc(void *old, size_t size)
{
    return fails() ? NULL : __libc_realloc(old, size);
}

__attribute__((destructor)) static void end(void)
{
    fprintf(stderr, "%lu\n", count);
}
