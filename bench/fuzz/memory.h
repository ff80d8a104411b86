/* The memory that the library takes: counted, and refused where it is told to. Linked with --wrap=malloc, realloc and free. */
#ifndef MEMORY_H
#define MEMORY_H

#include <stddef.h>

struct memory {
    size_t asked;   /* requests since the last `watch` */
    size_t refused; /* the number of the one that is refused, or 0 */
    long held;      /* what was taken and not given back since */
};

extern struct memory memory;

/* From now on requests are counted, and the one of this number is refused (0: none). */
void watch(size_t refused);

#endif
