/* A plain C checker of DER, which the library's `x509check_check` is measured against and compared with. */
#ifndef CHECKER_H
#define CHECKER_H

#include <stddef.h>
#include <stdint.h>

/* The rules, by the numbers of docs/REFERENCE.md. */
enum checker_rule {
    CHECKER_ACCEPTED = 0,
    CHECKER_TAG_FORM = 1,
    CHECKER_LENGTH_FORM = 2,
    CHECKER_TOO_LONG = 3,
    CHECKER_TRUNCATED = 4,
    CHECKER_TOO_DEEP = 5,
    CHECKER_CONTENT = 6,
    CHECKER_TRAILING = 7
};

/* Whether the octets are the DER encoding of one value: CHECKER_ACCEPTED, or the first rule that is broken, and in `*offset`
 * the place of the value that breaks it. */
enum checker_rule checker_check(const uint8_t *octets, size_t length, size_t *offset);

#endif
