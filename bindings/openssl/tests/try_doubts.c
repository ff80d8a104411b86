/* Tries what the verdicts of x509check_openssl.h say beside those of the library, in the folder that ../try makes: statements that nobody
 * can judge or that contradict one another, keyUsage, limits, and a mailbox with a zero octet. The status is 1 if an answer is another
 * than expected; its line says which. */
#include <stdarg.h>
#include <stdlib.h>
#include <string.h>
#include <sys/resource.h>
#include <time.h>

#include <openssl/x509v3.h>

#include "testdata.h"

#define EXPECT(holds) expect(holds, #holds, __LINE__)
#define MOST 16

static struct x509check_text root, middle, leaf;
static const uint8_t id_kp[] = {0x2B, 6, 1, 5, 5, 7, 3};
static int failed;

static void expect(bool holds, const char *what, int line)
{
    if (holds)
        return;
    printf("try_doubts.c: line %d: %s\n", line, what);
    failed = 1;
}

/* What is asked about, and what came of it. */
struct asked {
    struct x509check_text target, purpose, statements[MOST];
    size_t count;
    const struct x509check_openssl_policy *policy;
    uint32_t wide;
};

static struct asked about(const char *first, ...)
{
    struct asked asked = {.target = leaf};
    va_list names;

    va_start(names, first);
    for (const char *name = first; name != NULL; name = va_arg(names, const char *))
        asked.statements[asked.count++] = text_of(name);
    va_end(names);
    return asked;
}

static enum x509check_openssl_status validate(const struct asked *asked, struct x509check_verdict *verdict)
{
    struct x509check_text path[] = {middle, asked->target};
    struct x509check_query query = {root, path, 2, (int64_t)time(NULL), asked->purpose, asked->wide};

    return x509check_openssl_validate(&query, asked->statements, asked->count, asked->policy, verdict);
}

static enum x509check_openssl_status find(const struct asked *asked, struct x509check_finding *finding, size_t *path)
{
    struct x509check_search search = {.anchors = &root,
                                      .anchor_count = 1,
                                      .target = asked->target,
                                      .bag = &middle,
                                      .bag_count = 1,
                                      .moment = (int64_t)time(NULL),
                                      .purpose = asked->purpose,
                                      .limits = {X509CHECK_SIGNATURES, X509CHECK_STEPS, X509CHECK_VERDICTS},
                                      .wide = asked->wide};

    return x509check_openssl_find(&search, asked->statements, asked->count, asked->policy, finding, path, 3);
}

/* Whether both calls say this verdict. */
static bool says(struct asked asked, uint32_t verdict)
{
    struct x509check_verdict said;
    struct x509check_finding found;
    size_t path[3];

    return validate(&asked, &said) == X509CHECK_OPENSSL_DONE && said.verdict == verdict
           && find(&asked, &found, path) == X509CHECK_OPENSSL_DONE && found.verdict.verdict == verdict && found.path_count == 3;
}

static bool is_named(const struct x509check_verdict *verdict, size_t statement)
{
    return verdict->verdict == X509CHECK_NOT_FILLED && verdict->refusal.text == X509CHECK_STATEMENTS && verdict->refusal.index == statement
           && verdict->refusal.fault == 0;
}

/* Whether both calls say nothing but that, and name the statement. */
static bool stops(struct asked asked, enum x509check_openssl_status status, size_t statement)
{
    struct x509check_verdict said;
    struct x509check_finding found;
    size_t path[3] = {7, 7, 7};

    return validate(&asked, &said) == status && is_named(&said, statement) && find(&asked, &found, path) == status
           && is_named(&found.verdict, statement) && found.path_count == 0 && path[0] == 7;
}

/* ---- Statements. ---- */

static void try_statements_that_nobody_can_judge(void)
{
    const enum x509check_openssl_status unjudged = X509CHECK_OPENSSL_UNJUDGED;

    EXPECT(says(about("root_list.crl", "middle_list.crl", NULL), X509CHECK_VALID));
    EXPECT(stops(about("root_list.crl", "middle_list.crl", "weak_list.crl", NULL), unjudged, 2));
    EXPECT(stops(about("weak_list.crl", "root_list.crl", "middle_list.crl", NULL), unjudged, 0));
    EXPECT(stops(about("root_list.crl", "middle_list.crl", "weak.ocsp", "weak_list.crl", NULL), unjudged, 2));
    EXPECT(stops(about("root_list.crl", "middle_list.crl", "weak_of_root.ocsp", NULL), unjudged, 2));
    EXPECT(stops(about("root_list.crl", "middle_list.crl", "by_weak_delegate.ocsp", NULL), unjudged, 2));
    EXPECT(stops(about("root_list.crl", "middle_list.crl", "weak_by_delegate.ocsp", NULL), unjudged, 2));
    EXPECT(says(about("root_list.crl", "middle_list.crl", "by_false_delegate.ocsp", NULL), X509CHECK_VALID));
    EXPECT(says(about("root_list.crl", "middle_list.crl", "forged_list.crl", "stranger_list.crl", NULL), X509CHECK_VALID));
    EXPECT(says(about("root_list.crl", "revoking_list.crl", "weak_list.crl", NULL), X509CHECK_REVOKED));
    EXPECT(says(about("root_list.crl", "weak_list.crl", NULL), X509CHECK_UNKNOWN));
}

static void try_contradictions(void)
{
    const enum x509check_openssl_status contradicted = X509CHECK_OPENSSL_CONTRADICTED;
    struct x509check_openssl_policy policy = X509CHECK_OPENSSL_DEFAULT_POLICY;
    struct asked by_sha1 = about("root_list.crl", "middle_list.crl", "weak_list.crl", NULL);

    EXPECT(stops(about("root_list.crl", "middle_list.crl", "revoking_list.crl", NULL), contradicted, 2));
    EXPECT(stops(about("middle_list.crl", "revoking_list.crl", "middle_list.crl", "root_list.crl", NULL), contradicted, 1));
    EXPECT(stops(about("root_list.crl", "root_revoking_list.crl", "middle_list.crl", NULL), contradicted, 1));
    EXPECT(stops(about("root_list.crl", "good.ocsp", "revoked.ocsp", NULL), contradicted, 2));
    EXPECT(stops(about("root_list.crl", "good_and_revoked.ocsp", NULL), contradicted, 1));
    EXPECT(says(about("root_list.crl", "revoked_and_good.ocsp", NULL), X509CHECK_REVOKED));
    /* (the older of the two that revoke stands against nothing) */
    EXPECT(stops(about("root_list.crl", "revoking_list.crl", "later_list.crl", "later_revoking_list.crl", NULL), contradicted, 3));
    EXPECT(says(about("root_list.crl", "revoking_list.crl", "middle_list.crl", NULL), X509CHECK_REVOKED));
    EXPECT(says(about("root_list.crl", "revoking_list.crl", "later_list.crl", NULL), X509CHECK_VALID));
    EXPECT(says(about("root_list.crl", "later_list.crl", "revoking_list.crl", NULL), X509CHECK_VALID));
    EXPECT(says(about("root_list.crl", "revoked.ocsp", "good.ocsp", NULL), X509CHECK_REVOKED));
    policy.digests |= X509CHECK_OPENSSL_SHA1;
    by_sha1.policy = &policy;
    EXPECT(stops(by_sha1, contradicted, 2));
}

/* ---- keyUsage. ---- */

/* Whether a certificate with this file's keyUsage, and no extKeyUsage, is valid for the purposes of these numbers of id-kp alone. */
static bool serves(const char *file, const char *purposes)
{
    static const char all[] = {1, 2, 3, 4, 8, 9};
    struct asked asked = about("root_list.crl", "middle_list.crl", NULL);
    uint8_t purpose[sizeof id_kp + 1];
    bool is_right;

    asked.target = text_of(file);
    is_right = says(asked, X509CHECK_VALID);
    memcpy(purpose, id_kp, sizeof id_kp);
    asked.purpose = (struct x509check_text){purpose, sizeof purpose};
    for (size_t i = 0; i < sizeof all; i++) {
        struct x509check_verdict said;
        struct x509check_finding found;
        size_t path[3];

        purpose[sizeof id_kp] = (uint8_t)all[i];
        asked.wide = i % 2;
        if (strchr(purposes, all[i]) != NULL) {
            is_right = is_right && says(asked, X509CHECK_VALID);
            continue;
        }
        is_right = is_right && validate(&asked, &said) == X509CHECK_OPENSSL_DONE && said.verdict == X509CHECK_INVALID;
        is_right = is_right && said.certificate == 2 && said.reason == 14;
        is_right = is_right && find(&asked, &found, path) == X509CHECK_OPENSSL_DONE && found.verdict.verdict == X509CHECK_NOT_FOUND;
        is_right = is_right && found.path_count == 0;
    }
    purpose[sizeof id_kp] = 17; /* of IPsec: RFC 5280 says nothing of it */
    return is_right && says(asked, X509CHECK_VALID);
}

/* The table of RFC 5280, 4.2.1.12: serverAuth 1, clientAuth 2, codeSigning 3, emailProtection 4, timeStamping 8, OCSPSigning 9. */
static void try_key_usage(void)
{
    EXPECT(serves("digitalSignature.der", "\1\2\3\4\x8\x9"));
    EXPECT(serves("nonRepudiation.der", "\4\x8\x9"));
    EXPECT(serves("keyEncipherment.der", "\1\4"));
    EXPECT(serves("keyAgreement.der", "\1\2\4"));
    EXPECT(serves("keyCertSign.der", ""));
}

/* ---- Limits. ---- */

static long kilobytes(void)
{
    struct rusage usage;

    getrusage(RUSAGE_SELF, &usage);
    return usage.ru_maxrss;
}

/* The leaf is sought below the root, among so many other anchors, and so many copies of another certificate. */
static uint32_t verdict_among(size_t strangers, size_t copies, struct x509check_text other)
{
    size_t count = strangers + copies;
    struct x509check_text *all = calloc(count + 2, sizeof *all), lists[] = {text_of("root_list.crl"), text_of("middle_list.crl")};
    struct x509check_search search = {.anchors = all,
                                      .anchor_count = 1 + strangers,
                                      .target = leaf,
                                      .bag = all + 1 + strangers,
                                      .bag_count = copies + 1,
                                      .moment = (int64_t)time(NULL),
                                      .limits = {X509CHECK_SIGNATURES, X509CHECK_STEPS, X509CHECK_VERDICTS}};
    struct x509check_text stranger = text_of("stranger.der");
    struct x509check_finding found;

    all[0] = root;
    for (size_t i = 1; i <= count; i++)
        all[i] = i <= strangers ? stranger : other;
    all[count + 1] = middle;
    EXPECT(x509check_openssl_find(&search, lists, 2, NULL, &found, NULL, 0) == X509CHECK_OPENSSL_DONE);
    free(all);
    return found.verdict.verdict;
}

/* Whether the questions are too many to be built, if there are so many copies of each: names match without regard to case. */
static bool are_too_many(size_t copies)
{
    struct x509check_text *all = calloc(2 * copies, sizeof *all), shouted = text_of("shouted.der");
    struct x509check_search search = {.anchors = &root,
                                      .anchor_count = 1,
                                      .target = middle,
                                      .bag = all,
                                      .bag_count = 2 * copies,
                                      .limits = {X509CHECK_SIGNATURES, X509CHECK_STEPS, X509CHECK_VERDICTS}};
    struct x509check_openssl_judged judged;
    bool gave_up;

    for (size_t i = 0; i < 2 * copies; i++)
        all[i] = i % 2 == 0 ? root : shouted;
    EXPECT(x509check_openssl_judge_search(&search, NULL, 0, NULL, &judged) == X509CHECK_OPENSSL_DONE);
    gave_up = judged.gave_up;
    x509check_openssl_free(&judged);
    free(all);
    return gave_up;
}

/* (a root issued itself, so that each of its copies is asked about under each) */
static void try_many_certificates(void)
{
    long before = kilobytes();

    EXPECT(verdict_among(0, 1000, root) == X509CHECK_GAVE_UP);
    EXPECT(kilobytes() - before < 20000);
    EXPECT(verdict_among(0, 3000, root) == X509CHECK_GAVE_UP);
    EXPECT(kilobytes() - before < 20000);
    EXPECT(are_too_many(150) && !are_too_many(50));
    EXPECT(verdict_among(150, 15, middle) == X509CHECK_VALID);
    EXPECT(verdict_among(0, 20, root) == X509CHECK_VALID);
    /* (from these no path leads to the leaf by names) */
    EXPECT(verdict_among(0, 3000, text_of("stranger.der")) == X509CHECK_VALID);
}

/* An RSA key with a modulus of so many octets (RFC 8017, A.1.1), and what is said of a signature under it. */
static enum x509check_openssl_judgement judge_long_key(size_t octets, const struct x509check_openssl_policy *policy)
{
    static const uint8_t rsa[] = {0x30, 13, 6, 9, 0x2A, 0x86, 0x48, 0x86, 0xF7, 0x0D, 1, 1, 1, 5, 0};
    static const uint8_t sha256_with_rsa[] = {0x30, 13, 6, 9, 0x2A, 0x86, 0x48, 0x86, 0xF7, 0x0D, 1, 1, 11, 5, 0};
    static uint8_t signature[2048], key[4096];
    size_t inner = 1 + octets, numbers = 4 + inner + 5, bits = 1 + 4 + numbers, all = sizeof rsa + 4 + bits, at = 0;
    enum x509check_openssl_judgement judgement = (enum x509check_openssl_judgement)0;
    struct x509check_openssl_signature asked = {
        {sha256_with_rsa, sizeof sha256_with_rsa}, {key, 4 + all}, {signature, 1}, {signature, octets}};
    const size_t lengths[][2] = {{0x30, all}, {0, 0}, {3, bits}, {0, 0}, {0x30, numbers}, {2, inner}};

    for (size_t i = 0; i < sizeof lengths / sizeof *lengths; i++) {
        if (i == 1) {
            memcpy(key + at, rsa, sizeof rsa);
            at += sizeof rsa;
        } else if (i == 3) {
            key[at++] = 0; /* no unused bits */
        } else {
            key[at++] = (uint8_t)lengths[i][0];
            key[at++] = 0x82;
            key[at++] = (uint8_t)(lengths[i][1] >> 8);
            key[at++] = (uint8_t)lengths[i][1];
        }
    }
    key[at++] = 0;
    memset(key + at, 0xB5, octets);
    memcpy(key + at + octets, "\x02\x03\x01\x00\x01", 5);
    memset(signature, 0x5A, sizeof signature);
    EXPECT(x509check_openssl_judge(&asked, policy, &judgement) == X509CHECK_OPENSSL_DONE);
    return judgement;
}

static void try_long_keys(void)
{
    struct x509check_openssl_policy policy = X509CHECK_OPENSSL_DEFAULT_POLICY;

    EXPECT(judge_long_key(1024, NULL) == X509CHECK_OPENSSL_WRONG);
    EXPECT(judge_long_key(1025, NULL) == X509CHECK_OPENSSL_NOT_SERVED);
    policy.maximum_rsa_bits = 0;
    EXPECT(judge_long_key(1025, &policy) == X509CHECK_OPENSSL_NOT_SERVED);
    policy.maximum_rsa_bits = 16384;
    EXPECT(judge_long_key(2048, &policy) == X509CHECK_OPENSSL_WRONG);
    policy.maximum_rsa_bits = 3072;
    EXPECT(judge_long_key(512, &policy) == X509CHECK_OPENSSL_NOT_SERVED);
    policy.maximum_rsa_bits = 16385;
    EXPECT(x509check_openssl_judge(&(struct x509check_openssl_signature){0}, &policy, &(enum x509check_openssl_judgement){0})
           == X509CHECK_OPENSSL_BAD_POLICY);
}

/* ---- Mailboxes. ---- */

static int error_with_mailbox(const char *mailbox, size_t length)
{
    struct x509check_text lists[] = {text_of("root_list.crl"), text_of("middle_list.crl")};
    struct x509check_openssl_settings settings = {.anchors = &root,
                                                  .anchor_count = 1,
                                                  .statements = lists,
                                                  .statement_count = 2,
                                                  .purpose = {(const uint8_t *)"\x2b\x06\x01\x05\x05\x07\x03\x01", 8}};
    X509 *own = certificate_of(leaf), *issuer = certificate_of(middle);
    STACK_OF(X509) *sent = sk_X509_new_null();
    X509_STORE_CTX *context = context_of(own, sent);
    int error;

    sk_X509_push(sent, issuer);
    X509_VERIFY_PARAM_set1_email(X509_STORE_CTX_get0_param(context), mailbox, length);
    EXPECT((x509check_openssl_verify(context, &settings) == 1) == (X509_STORE_CTX_get_error(context) == X509_V_OK));
    error = X509_STORE_CTX_get_error(context);
    X509_STORE_CTX_free(context);
    sk_X509_pop_free(sent, X509_free);
    X509_free(own);
    return error;
}

/* (OpenSSL itself takes a zero at the end as the end) */
static void try_mailboxes(void)
{
    EXPECT(error_with_mailbox("post@server.example", 0) == X509_V_OK);
    EXPECT(error_with_mailbox("post@server.example\0", 20) == X509_V_OK);
    EXPECT(error_with_mailbox("post@server.example\0.evil.example", 33) == X509_V_ERR_EMAIL_MISMATCH);
    EXPECT(error_with_mailbox("post@other.example", 0) == X509_V_ERR_EMAIL_MISMATCH);
}

int main(void)
{
    root = text_of("root.der"), middle = text_of("middle.der"), leaf = text_of("leaf.der");
    try_many_certificates();
    try_statements_that_nobody_can_judge();
    try_contradictions();
    try_key_usage();
    try_long_keys();
    try_mailboxes();
    return failed;
}
