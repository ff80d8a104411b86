/* What the header promises of its calls, held against what they answered. */
#ifndef PROMISES_H
#define PROMISES_H

#include <stdbool.h>
#include <stddef.h>
#include <stdint.h>

#include "x509check.h"

/* What is asked about: certificates, by their numbers, and statements. Of a path the first is the anchor; of a search so many are anchors, and
 * the next one is the target. */
struct asking {
    struct x509check_text certificates[4];
    size_t certificate_count;
    const struct x509check_text *statements;
    size_t statement_count;
    bool is_search;
    size_t anchor_count;
};

/* Each answers the promise that is broken, in words, or a null pointer. */

/* Of whether a text of so many octets is DER. */
const char *broken_of_check(const uint8_t *octets, size_t length, const struct x509check_answer *answer);

/* Of a certificate, where memory was there. */
const char *broken_of_certificate(const uint8_t *octets, size_t length, const struct x509check_certificate *answer);

/* Of the verdict with a text among the certificates, at this index, without a good signature; what reading the text answers is known. */
const char *broken_of_path(size_t index, const struct x509check_certificate *read, const struct x509check_verdict *answer);

/* Of what a search within the limits finds, with a text among the certificates, at this number, and without a good signature. */
const char *broken_of_search(size_t index, const struct x509check_certificate *read, const struct x509check_limits *limits,
                             const struct x509check_finding *answer);

/* Of the verdict on an empty path with a text of so many octets among the statements, at this index. */
const char *broken_of_statement(size_t index, size_t length, const struct x509check_verdict *answer);

/* Of what is asked, where there was room for so many questions. Behind those that were written the array has to be as it was: filled with
 * 0xA5. */
const char *broken_of_questions(const struct asking *asking, const struct x509check_asked *asked,
                                const struct x509check_signature_question *questions, size_t room);

/* Of the fingerprint of a certificate that was read. */
const char *broken_of_fingerprint(const uint8_t *octets, const struct x509check_fields *fields,
                                  const uint8_t fingerprint[X509CHECK_FINGERPRINT_LENGTH]);

bool is_same_answer(const struct x509check_answer *one, const struct x509check_answer *other);
bool is_same_certificate(const struct x509check_certificate *one, const struct x509check_certificate *other);

/* Whether it is that of a call that was refused memory. */
bool is_want_of_memory(const struct x509check_certificate *answer);

#endif
