/* Statements at hand that keep a verdict from being taken for yes: those that nobody could judge, and those that say something else than
 * what the verdict stands on. Not for users: x509check_openssl.h. */
#ifndef X509CHECK_OPENSSL_STATEMENTS_H
#define X509CHECK_OPENSSL_STATEMENTS_H

#include "x509check_openssl.h"

struct x509check_openssl_doubts {
    size_t unjudged_count; /* how many statements nobody could judge that may be by an issuer of the path */
    size_t unjudged;       /* the first of them */
    bool is_revoked;       /* a statement of an issuer of the path revokes a certificate of it, and is no older than what speaks for it */
    size_t revoking;       /* the first such statement */
};

/* What is to be said beside the verdict on a path, X509CHECK_VALID or X509CHECK_UNKNOWN, by the judgements on the questions about it
 * (there may be others). All statements are read once more. If genuine ones revoke certificates of the path, the verdict is asked for once
 * more (if it is X509CHECK_UNKNOWN, once for each such certificate); if one stands against it, once for each of them until it is found. */
enum x509check_openssl_status x509check_openssl_doubt(const struct x509check_query *query, uint32_t verdict,
                                                      const struct x509check_text *statements, size_t statement_count,
                                                      const struct x509check_openssl_judged *judged,
                                                      struct x509check_openssl_doubts *doubts);

/* The same of a path that a search has found. */
enum x509check_openssl_status x509check_openssl_doubt_found(const struct x509check_search *search, const size_t *path,
                                                            const struct x509check_finding *finding,
                                                            const struct x509check_text *statements, size_t statement_count,
                                                            const struct x509check_openssl_judged *judged,
                                                            struct x509check_openssl_doubts *doubts);

/* What x509check_openssl_find answers if no statement stands against it. `path` has room for X509CHECK_PATH_ROOM. */
enum x509check_openssl_status x509check_openssl_find_judged(const struct x509check_search *search, const struct x509check_text *statements,
                                                            size_t statement_count, const struct x509check_openssl_judged *judged,
                                                            struct x509check_finding *finding, size_t *path);

/* All questions about a query, to be freed by x509check_openssl_free. */
enum x509check_openssl_status x509check_openssl_take_questions(const struct x509check_query *query,
                                                               const struct x509check_text *statements, size_t statement_count,
                                                               struct x509check_openssl_judged *taken);

#endif
