/* Times a verdict on a path of three certificates from octets: validate FOLDER
 *
 * Ours is x509check_validate over the files of the folder. OpenSSL's reads the certificates and both lists, and calls
 * X509_verify_cert with a check of the lists; the checks of signatures are taken out of it, and it is spared the response. Prints the
 * least time of a call of each, in microseconds. */
#include "../../crates/capi/x509check.h"
#include <openssl/x509.h>
#include <openssl/x509_vfy.h>
#include <stdio.h>
#include <stdlib.h>
#include <time.h>

#define MOMENT 1767225600 /* 2026-01-01T00:00:00Z */

static double now(void) {
    struct timespec t;
    clock_gettime(CLOCK_MONOTONIC, &t);
    return t.tv_sec * 1e6 + t.tv_nsec / 1e3;
}

static struct x509check_text read_file(const char *folder, const char *title) {
    char path[4096];
    snprintf(path, sizeof path, "%s/%s", folder, title);
    FILE *in = fopen(path, "rb");
    if (!in || fseek(in, 0, SEEK_END)) {
        perror(path);
        exit(1);
    }
    size_t length = ftell(in);
    rewind(in);
    uint8_t *octets = malloc(length + 1);
    if (!octets || fread(octets, 1, length, in) != length) {
        perror(path);
        exit(1);
    }
    fclose(in);
    return (struct x509check_text){octets, length};
}

static int accept_chain(X509_STORE_CTX *ctx) {
    (void)ctx;
    return 1;
}

static int accept_list(X509_STORE_CTX *ctx, X509_CRL *list) {
    (void)ctx;
    (void)list;
    return 1;
}

static const char *const path_files[] = {"anchor", "authority", "server"};
static const char *const statement_files[] = {"anchor.crl", "authority.crl", "server.ocsp"};
static struct x509check_text certificates[3], statements[3], fingerprints;

static double ours(void) {
    double start = now();
    struct x509check_query query = {.anchor = certificates[0], .path = certificates + 1, .path_count = 2, .moment = MOMENT};
    struct x509check_verdict answer = x509check_validate(&query, statements, 3, fingerprints.octets,
                                                         fingerprints.length / X509CHECK_FINGERPRINT_LENGTH);
    double taken = now() - start;
    if (answer.verdict != X509CHECK_VALID) {
        fprintf(stderr, "ours: verdict %u, certificate %zu, reason %u, text %u, index %zu, fault %u at %zu\n", answer.verdict,
                answer.certificate, answer.reason, answer.refusal.text, answer.refusal.index, answer.refusal.fault, answer.refusal.offset);
        exit(1);
    }
    return taken;
}

static double theirs(void) {
    double start = now();
    X509 *all[3];
    X509_CRL *lists[2];
    for (int i = 0; i < 3; i++) {
        const unsigned char *at = certificates[i].octets;
        all[i] = d2i_X509(NULL, &at, certificates[i].length);
    }
    for (int i = 0; i < 2; i++) {
        const unsigned char *at = statements[i].octets;
        lists[i] = d2i_X509_CRL(NULL, &at, statements[i].length);
    }
    if (!all[0] || !all[1] || !all[2] || !lists[0] || !lists[1]) {
        fprintf(stderr, "OpenSSL cannot read\n");
        exit(1);
    }
    X509_STORE *store = X509_STORE_new();
    STACK_OF(X509) *others = sk_X509_new_null();
    X509_STORE_CTX *ctx = X509_STORE_CTX_new();
    X509_STORE_set_verify(store, accept_chain);
    X509_STORE_set_check_crl(store, accept_list);
    X509_STORE_add_cert(store, all[0]);
    for (int i = 0; i < 2; i++)
        X509_STORE_add_crl(store, lists[i]);
    sk_X509_push(others, all[1]);
    X509_STORE_CTX_init(ctx, store, all[2], others);
    X509_STORE_CTX_set_time(ctx, 0, MOMENT);
    X509_STORE_CTX_set_flags(ctx, X509_V_FLAG_CRL_CHECK | X509_V_FLAG_CRL_CHECK_ALL);
    if (X509_verify_cert(ctx) != 1) {
        fprintf(stderr, "OpenSSL: %s\n", X509_verify_cert_error_string(X509_STORE_CTX_get_error(ctx)));
        exit(1);
    }
    X509_STORE_CTX_free(ctx);
    sk_X509_free(others);
    X509_STORE_free(store);
    for (int i = 0; i < 3; i++)
        X509_free(all[i]);
    for (int i = 0; i < 2; i++)
        X509_CRL_free(lists[i]);
    return now() - start;
}

static double least_of(double (*once)(void)) {
    double least = 1e12, end = now() + 2e6;
    do {
        double taken = once();
        if (taken < least)
            least = taken;
    } while (now() < end);
    return least;
}

int main(int argc, char **argv) {
    if (argc != 2) {
        fprintf(stderr, "validate FOLDER\n");
        return 2;
    }
    for (int i = 0; i < 3; i++) {
        certificates[i] = read_file(argv[1], path_files[i]);
        statements[i] = read_file(argv[1], statement_files[i]);
    }
    fingerprints = read_file(argv[1], "fingerprints");
    double own = least_of(ours), others = least_of(theirs);
    printf("%.1f %.1f\n", own, others);
    return 0;
}
