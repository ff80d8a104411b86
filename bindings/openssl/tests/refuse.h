/* Refuses requests for memory by counting them: the program's malloc is that of libcrypto and of the library too. To be included once. */
#ifndef REFUSE_H
#define REFUSE_H

#include <errno.h>
#include <limits.h>
#include <stdbool.h>
#include <stdlib.h>

#define ALL LONG_MAX

extern void *__libc_malloc(size_t size);
extern void *__libc_calloc(size_t count, size_t size);
extern void *__libc_realloc(void *memory, size_t size);

static long refused, asked; /* the first that is refused; none while it is 0 */
static long in_a_row = 1;   /* how many are refused from that one on */

static bool is_refused(void)
{
    if (refused == 0 || ++asked < refused || asked - refused >= in_a_row)
        return false;
    errno = ENOMEM;
    return true;
}

void *malloc(size_t size)
{
    return is_refused() ? NULL : __libc_malloc(size);
}

void *calloc(size_t count, size_t size)
{
    return is_refused() ? NULL : __libc_calloc(count, size);
}

void *realloc(void *memory, size_t size)
{
    return is_refused() ? NULL : __libc_realloc(memory, size);
}

#endif
