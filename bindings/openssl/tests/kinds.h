/* Signatures that are made for a run, one of each kind that is served. */
#ifndef KINDS_H
#define KINDS_H

#include <stdlib.h>
#include <string.h>

#include <openssl/evp.h>
#include <openssl/rsa.h>
#include <openssl/x509.h>

#include "x509check_openssl.h"

#define KINDS (sizeof kinds / sizeof *kinds)

/* By their algorithm identifiers (RFC 4055, 5758, 8410); that of RSASSA-PSS has SHA-256, MGF1 with SHA-256 and a salt of 32 octets. */
static const struct {
    const char *name, *type, *curve, *digest;
    bool is_pss;
    uint8_t length, algorithm[80];
} kinds[] = {
    {"RSA", "RSA", NULL, "SHA256", false, 15, {0x30, 13, 6, 9, 0x2A, 0x86, 0x48, 0x86, 0xF7, 0x0D, 1, 1, 11, 5, 0}},
    {"RSASSA-PSS", "RSA", NULL, "SHA256", true, 67,
     {0x30, 65, 6, 9, 0x2A, 0x86, 0x48, 0x86, 0xF7, 0x0D, 1, 1, 10, 0x30, 52,
      0xA0, 15, 0x30, 13, 6, 9, 0x60, 0x86, 0x48, 1, 0x65, 3, 4, 2, 1, 5, 0,
      0xA1, 28, 0x30, 26, 6, 9, 0x2A, 0x86, 0x48, 0x86, 0xF7, 0x0D, 1, 1, 8, 0x30, 13, 6, 9, 0x60, 0x86, 0x48, 1, 0x65, 3, 4, 2, 1, 5, 0,
      0xA2, 3, 2, 1, 32}},
    {"P-384", "EC", "P-384", "SHA384", false, 12, {0x30, 10, 6, 8, 0x2A, 0x86, 0x48, 0xCE, 0x3D, 4, 3, 3}},
    {"Ed25519", "ED25519", NULL, NULL, false, 7, {0x30, 5, 6, 3, 0x2B, 0x65, 0x70}},
    {"Ed448", "ED448", NULL, NULL, false, 7, {0x30, 5, 6, 3, 0x2B, 0x65, 0x71}},
};

static const uint8_t signed_message[] = "message";

struct made {
    uint8_t info[1024], signature[512];
    size_t info_length, signature_length;
};

static EVP_PKEY *new_key(size_t kind)
{
    if (kinds[kind].curve != NULL)
        return EVP_PKEY_Q_keygen(NULL, NULL, kinds[kind].type, kinds[kind].curve);
    return EVP_PKEY_Q_keygen(NULL, NULL, kinds[kind].type, (size_t)2048);
}

/* Signs with a new key. */
static void make_signature(size_t kind, struct made *made)
{
    EVP_PKEY *key = new_key(kind);
    EVP_MD_CTX *signing = EVP_MD_CTX_new();
    EVP_PKEY_CTX *settings = NULL;
    unsigned char *at = made->info;

    made->info_length = (size_t)i2d_PUBKEY(key, &at);
    made->signature_length = sizeof made->signature;
    if (EVP_DigestSignInit_ex(signing, &settings, kinds[kind].digest, NULL, NULL, key, NULL) != 1
        || (kinds[kind].is_pss && EVP_PKEY_CTX_set_rsa_padding(settings, RSA_PKCS1_PSS_PADDING) != 1)
        || (kinds[kind].is_pss && EVP_PKEY_CTX_set_rsa_pss_saltlen(settings, 32) != 1)
        || EVP_DigestSign(signing, made->signature, &made->signature_length, signed_message, sizeof signed_message) != 1)
        exit(1);
    EVP_MD_CTX_free(signing);
    EVP_PKEY_free(key);
}

static struct x509check_openssl_signature question_about(size_t kind, const struct made *made)
{
    return (struct x509check_openssl_signature){{kinds[kind].algorithm, kinds[kind].length},
                                                {made->info, made->info_length},
                                                {signed_message, sizeof signed_message},
                                                {made->signature, made->signature_length}};
}

#endif
