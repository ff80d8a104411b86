/* What an AlgorithmIdentifier and a subjectPublicKeyInfo say: which scheme of signatures, and which key (RFC 3279, 4055, 5480, 5758,
 * 8410). Not for users: x509check_openssl.h. */
#ifndef X509CHECK_OPENSSL_SCHEMES_H
#define X509CHECK_OPENSSL_SCHEMES_H

#include "x509check_openssl.h"

#define X509CHECK_OPENSSL_RSA_BITS_LEAST 512
#define X509CHECK_OPENSSL_RSA_BITS_MOST 16384

/* Of a key, and of the keys that a scheme is for. */
enum x509check_openssl_kind { KIND_RSA = 1, KIND_EC, KIND_ED25519, KIND_ED448 };

struct x509check_openssl_digest {
    uint32_t bit; /* of a policy */
    int nid;
    const char *name;
    unsigned octets;
    unsigned prefix; /* octets before the digest in a DigestInfo (RFC 8017, 9.2, note 1) */
};

/* RSASSA-PSS-params (RFC 4055, 3.1); the trailer field is 1. */
struct x509check_openssl_pss {
    const struct x509check_openssl_digest *digest;
    const struct x509check_openssl_digest *mask; /* of the mask generation function */
    uint64_t salt;                               /* in octets; UINT64_MAX if it is that or more */
};

struct x509check_openssl_scheme {
    enum x509check_openssl_kind kind;
    const struct x509check_openssl_digest *digest; /* of the message; null for EdDSA, which has its own */
    bool is_pss;
    struct x509check_openssl_pss pss;
};

struct x509check_openssl_key {
    enum x509check_openssl_kind kind;
    struct x509check_text octets; /* of subjectPublicKey, in the text that was read */
    unsigned bits;                /* of the modulus of an RSA key */
    uint32_t curve;               /* the bit of a policy; 0 for RSA */
    const char *group;            /* OpenSSL's name of the curve of an EC key */
    bool only_pss;
    bool is_limited; /* a key for RSASSA-PSS alone asks for parameters of its signatures (RFC 4055, 3.3) */
    struct x509check_openssl_pss least;
};

/* Whether the text is one that is served, and which. Errors stay in OpenSSL's queue, a lack of memory among them. */
bool x509check_openssl_read_scheme(struct x509check_text text, struct x509check_openssl_scheme *scheme);
bool x509check_openssl_read_key(struct x509check_text text, struct x509check_openssl_key *key);

/* Whether the signature may be right, by scheme and key: if not, it is wrong whatever the message says. */
bool x509check_openssl_may_be_right(const struct x509check_openssl_scheme *scheme, const struct x509check_openssl_key *key,
                                    struct x509check_text signature);

#endif
