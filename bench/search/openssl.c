/* Times OpenSSL's X509_verify_cert on bags, signatures included: openssl FILE...
 *
 * A file has the anchors, the target and the others (bags.py). Prints, for each file, its name, what is said of the target, and the least
 * time of a call in microseconds. */
#include <openssl/x509.h>
#include <openssl/x509_vfy.h>
#include <stdio.h>
#include <stdlib.h>
#include <string.h>
#include <time.h>

#define MOMENT 1782864000 /* 2026-07-01T00:00:00Z */

static double now(void) {
    struct timespec t;
    clock_gettime(CLOCK_MONOTONIC, &t);
    return t.tv_sec * 1e6 + t.tv_nsec / 1e3;
}

static int number(FILE *in, size_t *n) {
    unsigned char size[4];
    if (fread(size, 1, 4, in) != 4)
        return 0;
    *n = size[0] | size[1] << 8 | size[2] << 16 | (size_t)size[3] << 24;
    return 1;
}

static STACK_OF(X509) *read_list(FILE *in) {
    static unsigned char text[65536];
    STACK_OF(X509) *all = sk_X509_new_null();
    size_t count, n;
    if (!number(in, &count))
        return NULL;
    for (size_t i = 0; i < count; i++) {
        const unsigned char *p = text;
        X509 *one;
        if (!number(in, &n) || n > sizeof text || fread(text, 1, n, in) != n || !(one = d2i_X509(NULL, &p, n)))
            return NULL;
        sk_X509_push(all, one);
    }
    return all;
}

static double once(X509_STORE *store, X509 *target, STACK_OF(X509) *others, const char **said) {
    X509_STORE_CTX *ctx = X509_STORE_CTX_new();
    double start = now();
    X509_STORE_CTX_init(ctx, store, target, others);
    X509_VERIFY_PARAM_set_depth(X509_STORE_CTX_get0_param(ctx), 100);
    X509_STORE_CTX_set_time(ctx, 0, MOMENT);
    int good = X509_verify_cert(ctx);
    double taken = now() - start;
    *said = good == 1 ? "valid" : X509_verify_cert_error_string(X509_STORE_CTX_get_error(ctx));
    X509_STORE_CTX_free(ctx);
    return taken;
}

int main(int count, char **files) {
    for (int k = 1; k < count; k++) {
        FILE *in = fopen(files[k], "rb");
        STACK_OF(X509) *anchors, *target, *others;
        if (!in || !(anchors = read_list(in)) || !(target = read_list(in)) || !(others = read_list(in))) {
            fprintf(stderr, "%s cannot be read\n", files[k]);
            return 1;
        }
        fclose(in);
        X509_STORE *store = X509_STORE_new();
        for (int i = 0; i < sk_X509_num(anchors); i++)
            X509_STORE_add_cert(store, sk_X509_value(anchors, i));
        const char *said = "";
        double least = 1e12;
        for (int round = 0; round < 20; round++) {
            double taken = once(store, sk_X509_value(target, 0), others, &said);
            least = taken < least ? taken : least;
        }
        printf("%s\t%.0f\t%s\n", strrchr(files[k], '/') + 1, least, said);
    }
    return 0;
}
