/* What a peer showed in a handshake, and what is found about it. Not for users: x509check_openssl.h. */
#ifndef X509CHECK_OPENSSL_PEER_H
#define X509CHECK_OPENSSL_PEER_H

#include "x509check_openssl.h"

/* A certificate that the peer sent, and its DER, which is freed by OPENSSL_free. */
struct x509check_openssl_shown {
    X509 *certificate;
    unsigned char *octets;
};

/* The texts of a search for a path to the peer's certificate. Of the certificates the anchors come first, then the peer's own, then what
 * it sent beside that, then the helpers of the settings. */
struct x509check_openssl_peer {
    const struct x509check_openssl_settings *settings;
    struct x509check_search search;
    struct x509check_openssl_shown *shown; /* the peer's own first */
    size_t shown_count;
    struct x509check_text *bag;
    struct x509check_text *statements; /* those of the settings, then the stapled response if there is one */
    size_t statement_count;
    bool has_response;
};

/* What is wrong, in the words of OpenSSL. */
struct x509check_openssl_ruling {
    int error; /* X509_V_ERR_.., or X509_V_OK */
    int depth;
    size_t certificate;             /* among those of the search: the one at fault */
    const char *words;              /* for a log */
    char name[X509CHECK_NAME_ROOM]; /* of the reason or of the fault, or empty */
};

/* Takes the texts of what the peer sent, its own certificate with it or not. `response` may be null. The answer is X509_V_OK, or
 * X509_V_ERR_CERT_CHAIN_TOO_LONG, X509_V_ERR_OUT_OF_MEM, or X509_V_ERR_APPLICATION_VERIFICATION if there is none; in any case
 * x509check_openssl_drop_peer frees it. */
int x509check_openssl_take_peer(struct x509check_openssl_peer *peer, const struct x509check_openssl_settings *settings, X509 *own,
                                const STACK_OF(X509) *sent, struct x509check_text response);
void x509check_openssl_drop_peer(struct x509check_openssl_peer *peer);

/* The certificate of that number in the search, if the peer sent it; else null. */
X509 *x509check_openssl_sent(const struct x509check_openssl_peer *peer, size_t certificate);

/* The path that was found, the peer's certificate first, as a stack that owns its certificates; null if memory was refused, or OpenSSL
 * does not read one of the anchors or helpers. */
STACK_OF(X509) *x509check_openssl_chain(const struct x509check_openssl_peer *peer, const size_t *path, size_t path_count);

/* Judges and finds, and says what OpenSSL calls that. What the settings accept beside X509CHECK_VALID is accepted, with what is unknown
 * in the words. `path` has room for X509CHECK_PATH_ROOM. */
struct x509check_openssl_ruling x509check_openssl_rule(const struct x509check_openssl_peer *peer,
                                                       struct x509check_openssl_outcome *outcome, size_t *path);

/* Lets no connection of the SSL_CTX carry data whose peer was not accepted, and no session be resumed; false if memory is refused. And
 * whether that is still so. */
bool x509check_openssl_only_checked(SSL_CTX *tls);
bool x509check_openssl_is_guarded(const SSL *ssl);

#endif
