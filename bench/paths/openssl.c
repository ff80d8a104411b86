/* Times OpenSSL's X509_verify_cert with the signature check taken out: openssl FILE...
 *
 * The check of signatures and times is replaced by one of the times alone; certificates are read before. Prints, for each file, its name
 * and the least time of a call, in microseconds. */
#include <openssl/x509.h>
#include <openssl/x509_vfy.h>
#include <stdio.h>
#include <stdlib.h>
#include <string.h>
#include <time.h>

#define MOST 80
#define MOMENT 1767225600 /* 2026-01-01T00:00:00Z */

static double now(void) {
    struct timespec t;
    clock_gettime(CLOCK_MONOTONIC, &t);
    return t.tv_sec * 1e6 + t.tv_nsec / 1e3;
}

static int times_alone(X509_STORE_CTX *ctx) {
    STACK_OF(X509) *chain = X509_STORE_CTX_get0_chain(ctx);
    time_t moment = MOMENT;
    for (int i = 0; i < sk_X509_num(chain); i++) {
        X509 *c = sk_X509_value(chain, i);
        if (X509_cmp_time(X509_get0_notBefore(c), &moment) > 0 || X509_cmp_time(X509_get0_notAfter(c), &moment) < 0)
            return 0;
    }
    return 1;
}

static int read_all(const char *file, X509 **all) {
    FILE *in = fopen(file, "rb");
    unsigned char size[4], text[65536];
    int count = 0;
    if (!in)
        return -1;
    while (fread(size, 1, 4, in) == 4) {
        size_t n = size[0] | size[1] << 8 | size[2] << 16 | (size_t)size[3] << 24;
        const unsigned char *p = text;
        if (n > sizeof text || fread(text, 1, n, in) != n || count == MOST || !(all[count] = d2i_X509(NULL, &p, n)))
            return -1;
        count++;
    }
    fclose(in);
    return count;
}

static double once(X509_STORE *store, X509 *target, STACK_OF(X509) *others) {
    X509_STORE_CTX *ctx = X509_STORE_CTX_new();
    double start = now();
    X509_STORE_CTX_init(ctx, store, target, others);
    X509_VERIFY_PARAM_set_depth(X509_STORE_CTX_get0_param(ctx), MOST);
    X509_STORE_CTX_set_time(ctx, 0, MOMENT);
    int good = X509_verify_cert(ctx);
    double taken = now() - start;
    if (good != 1)
        printf("refused: %s\n", X509_verify_cert_error_string(X509_STORE_CTX_get_error(ctx)));
    X509_STORE_CTX_free(ctx);
    return taken;
}

int main(int argc, char **argv) {
    for (int i = 1; i < argc; i++) {
        X509 *all[MOST];
        int count = read_all(argv[i], all);
        if (count < 2) {
            fprintf(stderr, "cannot read %s\n", argv[i]);
            return 1;
        }
        X509_STORE *store = X509_STORE_new();
        STACK_OF(X509) *others = sk_X509_new_null();
        X509_STORE_set_verify(store, times_alone);
        X509_STORE_add_cert(store, all[0]);
        for (int k = 1; k < count - 1; k++)
            sk_X509_push(others, all[k]);
        double least = 1e12;
        for (int k = 0; k < 2000; k++) {
            double taken = once(store, all[count - 1], others);
            if (taken < least)
                least = taken;
        }
        const char *slash = strrchr(argv[i], '/');
        printf("%s %.2f\n", slash ? slash + 1 : argv[i], least);
    }
    return 0;
}
