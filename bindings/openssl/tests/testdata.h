/* The files of bindings/testdata, which is the working folder: a root, an issuer below it, a leaf, and the lists of both authorities. */
#ifndef TESTDATA_H
#define TESTDATA_H

#include <stdio.h>
#include <stdlib.h>

#include "x509check_openssl.h"

#define MOMENT 1796083200 /* 2026-12-01T00:00:00Z */

static inline struct x509check_text text_of(const char *path)
{
    static uint8_t octets[1 << 16], *at = octets;
    FILE *file = fopen(path, "rb");
    struct x509check_text text = {at, 0};

    if (file == NULL) {
        perror(path);
        exit(1);
    }
    text.length = fread(at, 1, (size_t)(octets + sizeof octets - at), file);
    at += text.length;
    fclose(file);
    return text;
}

/* A context of OpenSSL for the leaf, as a server's handshake has one but without an SSL. */
static inline X509_STORE_CTX *context_of(X509 *leaf, STACK_OF(X509) *sent)
{
    X509_STORE_CTX *context = X509_STORE_CTX_new();

    if (context == NULL || X509_STORE_CTX_init(context, NULL, leaf, sent) != 1) {
        perror("X509_STORE_CTX");
        exit(1);
    }
    return context;
}

static inline X509 *certificate_of(struct x509check_text text)
{
    const unsigned char *at = text.octets;

    return d2i_X509(NULL, &at, (long)text.length);
}

#endif
