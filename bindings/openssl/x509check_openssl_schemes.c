/* Reads algorithm identifiers and keys. The library says first whether a text is DER; OpenSSL takes it apart by the templates below. */
#include <limits.h>

#include <openssl/asn1t.h>
#include <openssl/bn.h>
#include <openssl/objects.h>
#include <openssl/rsa.h>
#include <openssl/x509.h>

#include "x509check_openssl_schemes.h"

#define LENGTH(array) (sizeof(array) / sizeof *(array))
/* OpenSSL takes no longer exponent beside a long modulus. */
#define EXPONENT_BITS_MOST 64

/* SubjectPublicKeyInfo (RFC 5280, 4.1). X509_PUBKEY would decode the key too. */
typedef struct {
    X509_ALGOR *algorithm;
    ASN1_BIT_STRING *key;
} KEY_INFO;

ASN1_SEQUENCE(KEY_INFO) = {
    ASN1_SIMPLE(KEY_INFO, algorithm, X509_ALGOR),
    ASN1_SIMPLE(KEY_INFO, key, ASN1_BIT_STRING),
} static_ASN1_SEQUENCE_END(KEY_INFO)

/* RSAPublicKey (RFC 8017, A.1.1), and ECDSA-Sig-Value (RFC 3279, 2.2.3). */
typedef struct {
    ASN1_INTEGER *first;
    ASN1_INTEGER *second;
} NUMBERS;

ASN1_SEQUENCE(NUMBERS) = {
    ASN1_SIMPLE(NUMBERS, first, ASN1_INTEGER),
    ASN1_SIMPLE(NUMBERS, second, ASN1_INTEGER),
} static_ASN1_SEQUENCE_END(NUMBERS)

static const struct x509check_openssl_digest digests[] = {
    {X509CHECK_OPENSSL_SHA1, NID_sha1, "SHA1", 20, 15},
    {X509CHECK_OPENSSL_SHA224, NID_sha224, "SHA224", 28, 19},
    {X509CHECK_OPENSSL_SHA256, NID_sha256, "SHA256", 32, 19},
    {X509CHECK_OPENSSL_SHA384, NID_sha384, "SHA384", 48, 19},
    {X509CHECK_OPENSSL_SHA512, NID_sha512, "SHA512", 64, 19},
};

/* Signature algorithms other than RSASSA-PSS. */
static const struct {
    int nid;
    enum x509check_openssl_kind kind;
    int digest; /* NID_undef for EdDSA */
} algorithms[] = {
    {NID_sha1WithRSAEncryption, KIND_RSA, NID_sha1},
    {NID_sha224WithRSAEncryption, KIND_RSA, NID_sha224},
    {NID_sha256WithRSAEncryption, KIND_RSA, NID_sha256},
    {NID_sha384WithRSAEncryption, KIND_RSA, NID_sha384},
    {NID_sha512WithRSAEncryption, KIND_RSA, NID_sha512},
    {NID_ecdsa_with_SHA1, KIND_EC, NID_sha1},
    {NID_ecdsa_with_SHA224, KIND_EC, NID_sha224},
    {NID_ecdsa_with_SHA256, KIND_EC, NID_sha256},
    {NID_ecdsa_with_SHA384, KIND_EC, NID_sha384},
    {NID_ecdsa_with_SHA512, KIND_EC, NID_sha512},
    {NID_ED25519, KIND_ED25519, NID_undef},
    {NID_ED448, KIND_ED448, NID_undef},
};

static const struct {
    uint32_t bit;
    int nid;
    size_t octets; /* of a field element */
} curves[] = {
    {X509CHECK_OPENSSL_P224, NID_secp224r1, 28},
    {X509CHECK_OPENSSL_P256, NID_X9_62_prime256v1, 32},
    {X509CHECK_OPENSSL_P384, NID_secp384r1, 48},
    {X509CHECK_OPENSSL_P521, NID_secp521r1, 66},
    {X509CHECK_OPENSSL_SECP256K1, NID_secp256k1, 32},
    {X509CHECK_OPENSSL_BRAINPOOLP256R1, NID_brainpoolP256r1, 32},
    {X509CHECK_OPENSSL_BRAINPOOLP384R1, NID_brainpoolP384r1, 48},
    {X509CHECK_OPENSSL_BRAINPOOLP512R1, NID_brainpoolP512r1, 64},
};

/* ---- Values. ---- */

/* The value that the text is, in DER, or null. */
static void *value_of(struct x509check_text text, const ASN1_ITEM *item)
{
    const unsigned char *at = text.octets;

    if (text.length > LONG_MAX || x509check_check(text.octets, text.length).fault != 0)
        return NULL;
    return ASN1_item_d2i(NULL, &at, (long)text.length, item);
}

static struct x509check_text text_of(const ASN1_STRING *value)
{
    return (struct x509check_text){ASN1_STRING_get0_data(value), (size_t)ASN1_STRING_length(value)};
}

/* An AlgorithmIdentifier: what it names, and the type of its parameters, V_ASN1_UNDEF if there are none (RFC 5280, 4.1.1.2). */
static int identifier_of(const X509_ALGOR *algorithm, int *type, const void **parameters)
{
    const ASN1_OBJECT *object;

    X509_ALGOR_get0(&object, type, parameters, algorithm);
    return OBJ_obj2nid(object);
}

/* NULL, or nothing: whoever verifies has to take both (RFC 4055, 2.1 and 5). */
static bool is_null_or_absent(int type)
{
    return type == V_ASN1_NULL || type == V_ASN1_UNDEF;
}

/* The number of an INTEGER that is not negative; UINT64_MAX if it is that or more. */
static bool read_unsigned(const ASN1_INTEGER *integer, uint64_t *number)
{
    if (ASN1_STRING_type(integer) == V_ASN1_NEG_INTEGER)
        return false;
    *number = UINT64_MAX;
    return ASN1_STRING_length(integer) > 8 || ASN1_INTEGER_get_uint64(number, integer) == 1;
}

/* ---- Algorithms. ---- */

static const struct x509check_openssl_digest *digest_by(int nid)
{
    for (size_t i = 0; i < LENGTH(digests); i++) {
        if (digests[i].nid == nid)
            return &digests[i];
    }
    return NULL;
}

static const struct x509check_openssl_digest *digest_of(const X509_ALGOR *algorithm)
{
    const void *parameters;
    int type, nid = identifier_of(algorithm, &type, &parameters);

    return is_null_or_absent(type) ? digest_by(nid) : NULL;
}

/* The digest of MGF1, the only mask generation function (RFC 4055, 2.2). */
static const struct x509check_openssl_digest *mask_of(const X509_ALGOR *algorithm)
{
    const struct x509check_openssl_digest *digest = NULL;
    const void *parameters;
    int type, nid = identifier_of(algorithm, &type, &parameters);
    X509_ALGOR *inner;

    if (nid != NID_mgf1 || type != V_ASN1_SEQUENCE)
        return NULL;
    inner = value_of(text_of(parameters), ASN1_ITEM_rptr(X509_ALGOR));
    if (inner != NULL)
        digest = digest_of(inner);
    X509_ALGOR_free(inner);
    return digest;
}

/* The parameters; a member that is absent has its default (RFC 4055, 3.1). */
static bool take_pss(const RSA_PSS_PARAMS *parameters, struct x509check_openssl_pss *pss)
{
    uint64_t trailer = 1;

    pss->digest = parameters->hashAlgorithm == NULL ? digest_by(NID_sha1) : digest_of(parameters->hashAlgorithm);
    pss->mask = parameters->maskGenAlgorithm == NULL ? digest_by(NID_sha1) : mask_of(parameters->maskGenAlgorithm);
    pss->salt = 20;
    if (parameters->saltLength != NULL && !read_unsigned(parameters->saltLength, &pss->salt))
        return false;
    if (parameters->trailerField != NULL && !read_unsigned(parameters->trailerField, &trailer))
        return false;
    return pss->digest != NULL && pss->mask != NULL && trailer == 1;
}

static bool read_pss(int type, const void *parameters, struct x509check_openssl_pss *pss)
{
    RSA_PSS_PARAMS *value = type == V_ASN1_SEQUENCE ? value_of(text_of(parameters), ASN1_ITEM_rptr(RSA_PSS_PARAMS)) : NULL;
    bool is_read = value != NULL && take_pss(value, pss);

    RSA_PSS_PARAMS_free(value);
    return is_read;
}

static bool take_scheme(const X509_ALGOR *algorithm, struct x509check_openssl_scheme *scheme)
{
    const void *parameters;
    int type, nid = identifier_of(algorithm, &type, &parameters);

    if (nid == NID_rsassaPss) {
        scheme->kind = KIND_RSA;
        scheme->is_pss = read_pss(type, parameters, &scheme->pss);
        scheme->digest = scheme->pss.digest;
        return scheme->is_pss;
    }
    for (size_t i = 0; i < LENGTH(algorithms); i++) {
        if (algorithms[i].nid == nid) {
            scheme->kind = algorithms[i].kind;
            scheme->digest = digest_by(algorithms[i].digest);
            /* RFC 5758, 3.2, and RFC 8410, 3: parameters are absent. */
            return scheme->kind == KIND_RSA ? is_null_or_absent(type) : type == V_ASN1_UNDEF;
        }
    }
    return false;
}

bool x509check_openssl_read_scheme(struct x509check_text text, struct x509check_openssl_scheme *scheme)
{
    X509_ALGOR *algorithm = value_of(text, ASN1_ITEM_rptr(X509_ALGOR));
    bool is_read;

    *scheme = (struct x509check_openssl_scheme){0};
    is_read = algorithm != NULL && take_scheme(algorithm, scheme);
    X509_ALGOR_free(algorithm);
    return is_read;
}

/* ---- Keys. ---- */

/* How many bits a number has, and whether it is odd; 0 bits if it is negative, or has more than `most`. */
static unsigned odd_bits(const ASN1_INTEGER *integer, unsigned most)
{
    const unsigned char *octets = ASN1_STRING_get0_data(integer);
    int length = ASN1_STRING_length(integer);
    unsigned bits = 0;

    if (ASN1_STRING_type(integer) == V_ASN1_NEG_INTEGER || length < 1 || (unsigned)length > most / 8 || octets[length - 1] % 2 == 0)
        return 0;
    for (unsigned first = octets[0]; first != 0; first >>= 1)
        bits++;
    return bits + 8 * (unsigned)(length - 1);
}

static bool read_rsa_key(struct x509check_openssl_key *key)
{
    NUMBERS *numbers = value_of(key->octets, ASN1_ITEM_rptr(NUMBERS));
    unsigned exponent_bits = 0;

    key->kind = KIND_RSA;
    if (numbers != NULL) {
        key->bits = odd_bits(numbers->first, X509CHECK_OPENSSL_RSA_BITS_MOST);
        exponent_bits = odd_bits(numbers->second, EXPONENT_BITS_MOST);
    }
    ASN1_item_free((ASN1_VALUE *)numbers, ASN1_ITEM_rptr(NUMBERS));
    /* An odd exponent of two bits or more is at least 3. */
    return key->bits >= X509CHECK_OPENSSL_RSA_BITS_LEAST && exponent_bits >= 2;
}

/* A point, whole or compressed, on a curve with a name (RFC 5480, 2.1.1 and 2.2). */
static bool read_ec_key(int type, const ASN1_OBJECT *name, struct x509check_openssl_key *key)
{
    int nid = type == V_ASN1_OBJECT ? OBJ_obj2nid(name) : NID_undef;

    key->kind = KIND_EC;
    if (nid == NID_undef || key->octets.length == 0)
        return false;
    for (size_t i = 0; i < LENGTH(curves); i++) {
        if (curves[i].nid == nid) {
            key->curve = curves[i].bit;
            key->group = OBJ_nid2sn(nid);
            if (key->octets.octets[0] == 4)
                return key->octets.length == 1 + 2 * curves[i].octets;
            return (key->octets.octets[0] == 2 || key->octets.octets[0] == 3) && key->octets.length == 1 + curves[i].octets;
        }
    }
    return false;
}

static bool take_key(const X509_ALGOR *algorithm, struct x509check_openssl_key *key)
{
    const void *parameters;
    int type, nid = identifier_of(algorithm, &type, &parameters);

    switch (nid) {
    case NID_rsaEncryption:
        return type == V_ASN1_NULL && read_rsa_key(key); /* RFC 3279, 2.3.1 */
    case NID_rsassaPss:
        key->only_pss = true;
        key->is_limited = type != V_ASN1_UNDEF;
        return (!key->is_limited || read_pss(type, parameters, &key->least)) && read_rsa_key(key);
    case NID_X9_62_id_ecPublicKey:
        return read_ec_key(type, parameters, key);
    case NID_ED25519:
        key->kind = KIND_ED25519;
        key->curve = X509CHECK_OPENSSL_ED25519;
        return type == V_ASN1_UNDEF && key->octets.length == 32;
    case NID_ED448:
        key->kind = KIND_ED448;
        key->curve = X509CHECK_OPENSSL_ED448;
        return type == V_ASN1_UNDEF && key->octets.length == 57;
    default:
        return false;
    }
}

/* The octets of the BIT STRING are the last of the text, if it has no unused bits. */
static bool take_key_info(struct x509check_text text, const KEY_INFO *info, struct x509check_openssl_key *key)
{
    size_t length = (size_t)ASN1_STRING_length(info->key);

    if ((info->key->flags & 7) != 0 || length > text.length)
        return false;
    key->octets = (struct x509check_text){text.octets + (text.length - length), length};
    return take_key(info->algorithm, key);
}

bool x509check_openssl_read_key(struct x509check_text text, struct x509check_openssl_key *key)
{
    KEY_INFO *info = value_of(text, ASN1_ITEM_rptr(KEY_INFO));
    bool is_read;

    *key = (struct x509check_openssl_key){0};
    is_read = info != NULL && take_key_info(text, info, key);
    ASN1_item_free((ASN1_VALUE *)info, ASN1_ITEM_rptr(KEY_INFO));
    return is_read;
}

/* ---- Signatures. ---- */

/* Whether a signature of the scheme fits such a modulus (RFC 8017, 9.1.1, step 3, and 9.2, step 3). */
static bool fits(const struct x509check_openssl_scheme *scheme, unsigned bits)
{
    unsigned octets = scheme->digest->octets;

    if (scheme->is_pss)
        return scheme->pss.salt <= bits && (bits + 6) / 8 >= octets + (unsigned)scheme->pss.salt + 2;
    return (bits + 7) / 8 >= scheme->digest->prefix + octets + 11;
}

/* Whether the RSA key may make signatures of the scheme (RFC 4055, 3.3). */
static bool lets(const struct x509check_openssl_key *key, const struct x509check_openssl_scheme *scheme)
{
    if (!scheme->is_pss)
        return !key->only_pss;
    if (!key->is_limited)
        return true;
    return scheme->pss.digest == key->least.digest && scheme->pss.mask == key->least.mask && scheme->pss.salt >= key->least.salt;
}

/* Whether it is an ECDSA-Sig-Value, two numbers above 0. */
static bool is_pair(struct x509check_text signature)
{
    NUMBERS *numbers = value_of(signature, ASN1_ITEM_rptr(NUMBERS));
    uint64_t r = 0, s = 0;
    bool are_positive = numbers != NULL && read_unsigned(numbers->first, &r) && read_unsigned(numbers->second, &s) && r > 0 && s > 0;

    ASN1_item_free((ASN1_VALUE *)numbers, ASN1_ITEM_rptr(NUMBERS));
    return are_positive;
}

bool x509check_openssl_may_be_right(const struct x509check_openssl_scheme *scheme, const struct x509check_openssl_key *key,
                                    struct x509check_text signature)
{
    if (scheme->kind != key->kind)
        return false;
    switch (key->kind) {
    case KIND_RSA:
        return lets(key, scheme) && fits(scheme, key->bits) && signature.length == (key->bits + 7) / 8;
    case KIND_EC:
        return is_pair(signature);
    case KIND_ED25519:
        return signature.length == 64;
    case KIND_ED448:
        return signature.length == 114;
    }
    return false;
}
