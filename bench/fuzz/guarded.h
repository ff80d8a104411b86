/* Memory that ends where a page begins that may not be touched. */
#ifndef GUARDED_H
#define GUARDED_H

#include <stddef.h>
#include <stdint.h>

/* So many octets of memory at two places, behind and before a page that may not be touched each: what is written by `writable` is read by
 * `readable`, which may not be written. */
struct guarded {
    uint8_t *writable;
    const uint8_t *readable;
    size_t size; /* whole pages */
};

/* At least so many octets. Ends the program where it cannot be made. */
struct guarded make_guarded(size_t octets);

/* A copy of a text that may be read alone, with nothing before it or nothing behind it. It stands until the next one is made. */
const uint8_t *at_the_begin(const struct guarded *memory, const uint8_t *octets, size_t length);
const uint8_t *at_the_end(const struct guarded *memory, const uint8_t *octets, size_t length);

#endif
