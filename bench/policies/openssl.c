/* Times OpenSSL's X509_verify_cert on paths whose policies are processed, one of which is required, signatures included: openssl FILE...
 *
 * A file has the anchor and the certificates below it (chains.py). Prints, for each file, its name, the least processor time of a call in microseconds,
 * and what is said of the path. */
#include <openssl/objects.h>
#include <openssl/x509.h>
#include <openssl/x509_vfy.h>
#include <stdio.h>
#include <stdlib.h>
#include <string.h>
#include <time.h>

#define MOMENT 1782864000 /* 2026-07-01T00:00:00Z */
#define ROUNDS 10

static double now(void) {
    struct timespec t;
    clock_gettime(CLOCK_PROCESS_CPUTIME_ID, &t);
    return t.tv_sec * 1e6 + t.tv_nsec / 1e3;
}

/* The next certificate, or none at the end. */
static X509 *next(FILE *in) {
    unsigned char size[4];
    if (fread(size, 1, 4, in) != 4)
        return NULL;
    size_t n = size[0] | size[1] << 8 | size[2] << 16 | (size_t)size[3] << 24;
    unsigned char *text = malloc(n);
    const unsigned char *p = text;
    X509 *one = text && fread(text, 1, n, in) == n ? d2i_X509(NULL, &p, n) : NULL;
    free(text);
    if (!one)
        exit(1);
    return one;
}

static double once(X509_STORE *store, X509 *target, STACK_OF(X509) *others, const char **said) {
    X509_STORE_CTX *ctx = X509_STORE_CTX_new();
    double start = now();
    X509_STORE_CTX_init(ctx, store, target, others);
    X509_VERIFY_PARAM_set_depth(X509_STORE_CTX_get0_param(ctx), 200);
    /* Without this it takes no policy, where RFC 5280, 6.1.1 (c), has one for all. */
    X509_VERIFY_PARAM_add0_policy(X509_STORE_CTX_get0_param(ctx), OBJ_nid2obj(NID_any_policy));
    X509_STORE_CTX_set_time(ctx, 0, MOMENT);
    X509_STORE_CTX_set_flags(ctx, X509_V_FLAG_POLICY_CHECK | X509_V_FLAG_EXPLICIT_POLICY);
    int good = X509_verify_cert(ctx);
    double taken = now() - start;
    *said = good == 1 ? "valid" : X509_verify_cert_error_string(X509_STORE_CTX_get_error(ctx));
    X509_STORE_CTX_free(ctx);
    return taken;
}

int main(int count, char **files) {
    for (int k = 1; k < count; k++) {
        FILE *in = fopen(files[k], "rb");
        if (!in)
            return 1;
        X509_STORE *store = X509_STORE_new();
        STACK_OF(X509) *others = sk_X509_new_null();
        X509_STORE_add_cert(store, next(in));
        for (X509 *one; (one = next(in));)
            sk_X509_push(others, one);
        fclose(in);
        X509 *target = sk_X509_pop(others);
        const char *said = "";
        double least = 1e12;
        for (int round = 0; round < ROUNDS; round++) {
            double taken = once(store, target, others, &said);
            least = taken < least ? taken : least;
        }
        printf("%s\t%.0f\t%s\n", strrchr(files[k], '/') + 1, least, said);
        X509_free(target);
        sk_X509_pop_free(others, X509_free);
        X509_STORE_free(store);
    }
    return 0;
}
