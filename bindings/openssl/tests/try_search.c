/* Tries the calls of x509check_openssl.h without a handshake, in the folder bindings/testdata: verdicts, what is judged, policies,
 * refusals. The status is 1 if an answer is another than expected; its line says which. */
#include <stdio.h>
#include <string.h>

#include "testdata.h"

#define EXPECT(holds) expect(holds, #holds, __LINE__)

static struct x509check_text root, leaf, statements[2], bag[3];
static int failed;

static void expect(bool holds, const char *what, int line)
{
    if (holds)
        return;
    printf("try_search.c: line %d: %s\n", line, what);
    failed = 1;
}

static struct x509check_search search_of(size_t bag_count)
{
    return (struct x509check_search){.anchors = &root,
                                     .anchor_count = 1,
                                     .target = leaf,
                                     .bag = bag,
                                     .bag_count = bag_count,
                                     .moment = MOMENT,
                                     .limits = {X509CHECK_SIGNATURES, X509CHECK_STEPS, X509CHECK_VERDICTS}};
}

/* As in docs/GUIDE.md. */
static void try_the_page(void)
{
    struct x509check_search search = search_of(1);

    struct x509check_finding found;
    size_t path[X509CHECK_PATH_ROOM];
    enum x509check_openssl_status status = x509check_openssl_find(&search, statements, 2, NULL, &found, path, X509CHECK_PATH_ROOM);
    bool is_valid = status == X509CHECK_OPENSSL_DONE && found.verdict.verdict == X509CHECK_VALID;

    EXPECT(is_valid && found.path_count == 3 && path[0] == 0 && path[1] == 2 && path[2] == 1);
}

static void try_verdicts(void)
{
    const struct x509check_text path[] = {bag[0], leaf};
    struct x509check_query query = {.anchor = root, .path = path, .path_count = 2, .moment = MOMENT};
    struct x509check_search search = search_of(1);
    struct x509check_verdict verdict;
    struct x509check_finding found;

    EXPECT(x509check_openssl_validate(&query, statements, 2, NULL, &verdict) == X509CHECK_OPENSSL_DONE
           && verdict.verdict == X509CHECK_VALID);
    EXPECT(x509check_openssl_validate(&query, NULL, 0, NULL, &verdict) == X509CHECK_OPENSSL_DONE && verdict.verdict == X509CHECK_UNKNOWN);
    query.anchor = leaf;
    EXPECT(x509check_openssl_validate(&query, statements, 2, NULL, &verdict) == X509CHECK_OPENSSL_DONE
           && verdict.verdict == X509CHECK_INVALID);
    EXPECT(x509check_openssl_find(&search, statements, 1, NULL, &found, NULL, 0) == X509CHECK_OPENSSL_DONE
           && found.verdict.verdict == X509CHECK_UNKNOWN && found.verdict.certificate == 2);
    search.bag_count = 0;
    EXPECT(x509check_openssl_find(&search, statements, 2, NULL, &found, NULL, 0) == X509CHECK_OPENSSL_DONE
           && found.verdict.verdict == X509CHECK_NOT_FOUND);
}

/* The certificates of the leaf and its issuer, and the list of each: four signatures, all good, and one fingerprint each. */
static void try_judgements(void)
{
    struct x509check_search search = search_of(3);
    struct x509check_openssl_judged judged;

    bag[1] = bag[2] = bag[0];
    EXPECT(x509check_find_questions(&search, statements, 2, NULL, 0).count > 4);
    EXPECT(x509check_openssl_judge_search(&search, statements, 2, NULL, &judged) == X509CHECK_OPENSSL_DONE);
    EXPECT(judged.count == 4 && judged.good_count == 4 && !judged.gave_up && judged.refusal.fault == 0);
    for (size_t i = 0; i < judged.count; i++) {
        EXPECT(judged.judgements[i] == X509CHECK_OPENSSL_GOOD);
        EXPECT(memcmp(judged.good + 32 * i, judged.questions[i].fingerprint, 32) == 0);
        EXPECT(i == 0 || memcmp(judged.good + 32 * (i - 1), judged.good + 32 * i, 32) < 0);
    }
    x509check_openssl_free(&judged);
    EXPECT(judged.questions == NULL && judged.good == NULL && judged.count == 0);
    x509check_openssl_free(&judged);
    search.limits.signatures = 3;
    EXPECT(x509check_openssl_judge_search(&search, statements, 2, NULL, &judged) == X509CHECK_OPENSSL_DONE);
    EXPECT(judged.gave_up && judged.count == 0 && judged.good_count == 0);
    x509check_openssl_free(&judged);
}

/* The signatures of the files are by ECDSA on P-256 with SHA-256 (openssl x509 -text). */
static void try_policies(void)
{
    struct x509check_openssl_policy policy = X509CHECK_OPENSSL_DEFAULT_POLICY;
    struct x509check_search search = search_of(1);
    struct x509check_openssl_judged judged;
    struct x509check_finding found;

    policy.curves = X509CHECK_OPENSSL_P384;
    EXPECT(x509check_openssl_judge_search(&search, statements, 2, &policy, &judged) == X509CHECK_OPENSSL_DONE);
    EXPECT(judged.count == 4 && judged.good_count == 0 && judged.judgements[3] == X509CHECK_OPENSSL_REFUSED_BY_POLICY);
    x509check_openssl_free(&judged);
    policy.curves = X509CHECK_OPENSSL_P256;
    policy.digests = X509CHECK_OPENSSL_SHA256;
    EXPECT(x509check_openssl_find(&search, statements, 2, &policy, &found, NULL, 0) == X509CHECK_OPENSSL_DONE
           && found.verdict.verdict == X509CHECK_VALID);
    policy.minimum_rsa_bits = 511;
    EXPECT(x509check_openssl_find(&search, statements, 2, &policy, &found, NULL, 0) == X509CHECK_OPENSSL_BAD_POLICY);
    EXPECT(found.verdict.verdict == X509CHECK_NOT_FILLED);
    policy = (struct x509check_openssl_policy){0};
    EXPECT(x509check_openssl_judge_search(&search, statements, 2, &policy, &judged) == X509CHECK_OPENSSL_BAD_POLICY);
    x509check_openssl_free(&judged);
    policy = (struct x509check_openssl_policy){1u << 5, 0, 2048, 0};
    EXPECT(x509check_openssl_judge_search(&search, statements, 2, &policy, &judged) == X509CHECK_OPENSSL_BAD_POLICY);
    x509check_openssl_free(&judged);
}

static void try_refusals(void)
{
    const struct x509check_text bad[] = {statements[0], {(const uint8_t *)"\x30\x00", 2}}, none = {NULL, 0};
    struct x509check_search search = search_of(1);
    struct x509check_openssl_judged judged;
    struct x509check_finding found;
    struct x509check_openssl_signature nothing = {none, none, none, none};
    enum x509check_openssl_judgement judgement;

    EXPECT(x509check_openssl_find(&search, bad, 2, NULL, &found, NULL, 0) == X509CHECK_OPENSSL_DONE);
    EXPECT(found.verdict.verdict == X509CHECK_REFUSED && found.verdict.refusal.text == X509CHECK_STATEMENTS);
    EXPECT(found.verdict.refusal.index == 1 && found.verdict.refusal.fault == 42);
    EXPECT(x509check_openssl_judge_search(&search, bad, 2, NULL, &judged) == X509CHECK_OPENSSL_DONE);
    EXPECT(judged.count == 0 && judged.refusal.text == X509CHECK_STATEMENTS && judged.refusal.index == 1);
    x509check_openssl_free(&judged);
    search.target = none;
    EXPECT(x509check_openssl_find(&search, statements, 2, NULL, &found, NULL, 0) == X509CHECK_OPENSSL_DONE);
    EXPECT(found.verdict.verdict == X509CHECK_REFUSED && found.verdict.refusal.index == 1);
    EXPECT(x509check_openssl_judge(&nothing, NULL, &judgement) == X509CHECK_OPENSSL_DONE && judgement == X509CHECK_OPENSSL_NOT_SERVED);
}

/* ---- The callback, without an SSL. ---- */

static X509_STORE_CTX *context;

/* Whether the callback refuses, and tells OpenSSL so. */
static bool is_refused(struct x509check_openssl_settings *settings, int error, int depth, const X509 *at_fault)
{
    return x509check_openssl_verify(context, settings) == 0 && X509_STORE_CTX_get_error(context) == error
           && X509_STORE_CTX_get_error_depth(context) == depth && X509_STORE_CTX_get_current_cert(context) == at_fault;
}

static bool is_accepted(struct x509check_openssl_settings *settings, X509 *first, X509 *second)
{
    STACK_OF(X509) *chain;

    if (x509check_openssl_verify(context, settings) != 1 || X509_STORE_CTX_get_error(context) != X509_V_OK)
        return false;
    chain = X509_STORE_CTX_get0_chain(context);
    return sk_X509_num(chain) == 3 && sk_X509_value(chain, 0) == first && sk_X509_value(chain, 1) == second;
}

static void try_settings_of_callback(X509 *own, X509 *issuer)
{
    static const uint8_t server[] = {0x2B, 6, 1, 5, 5, 7, 3, 1}, client[] = {0x2B, 6, 1, 5, 5, 7, 3, 2};
    struct x509check_text revoking = text_of("middle2.crl");
    struct x509check_openssl_settings settings = {
        .anchors = &root, .anchor_count = 1, .statements = statements, .statement_count = 2, .moment = MOMENT};

    EXPECT(is_refused(NULL, X509_V_ERR_INVALID_CALL, 0, NULL));
    EXPECT(is_refused(&settings, X509_V_ERR_INVALID_CALL, 0, NULL)); /* no purpose */
    settings.purpose = (struct x509check_text){client, sizeof client};
    EXPECT(is_refused(&settings, X509_V_ERR_INVALID_PURPOSE, 0, own));
    settings.purpose = (struct x509check_text){server, sizeof server};
    EXPECT(is_refused(&settings, X509_V_ERR_INVALID_CALL, 0, own)); /* no name */
    X509_VERIFY_PARAM_set1_host(X509_STORE_CTX_get0_param(context), "www.example", 0);
    EXPECT(is_accepted(&settings, own, issuer));
    settings.anchors = &leaf;
    EXPECT(is_refused(&settings, X509_V_ERR_UNABLE_TO_GET_ISSUER_CERT_LOCALLY, 1, issuer));
    settings.anchors = &root;
    settings.moment = 1;
    EXPECT(is_refused(&settings, X509_V_ERR_CERT_NOT_YET_VALID, 0, own));
    settings.moment = MOMENT;
    settings.statement_count = 1;
    EXPECT(is_refused(&settings, X509_V_ERR_UNABLE_TO_GET_CRL, 0, own));
    settings.accepts_unknown = true;
    EXPECT(is_accepted(&settings, own, issuer));
    settings.statement_count = 2;
    statements[1] = revoking;
    EXPECT(is_refused(&settings, X509_V_ERR_CERT_REVOKED, 0, own));
    settings.anchor_count = 0;
    EXPECT(is_refused(&settings, X509_V_ERR_UNABLE_TO_GET_ISSUER_CERT_LOCALLY, 1, issuer));
}

static void try_callback(void)
{
    X509 *own = certificate_of(leaf), *issuer = certificate_of(bag[0]);
    STACK_OF(X509) *sent = sk_X509_new_null();

    sk_X509_push(sent, own);
    sk_X509_push(sent, issuer);
    context = context_of(own, sent);
    try_settings_of_callback(own, issuer);
    X509_STORE_CTX_free(context);
    context = context_of(NULL, NULL);
    EXPECT(is_refused(&(struct x509check_openssl_settings){.anchors = &root, .anchor_count = 1, .purpose = root, .moment = MOMENT},
                      X509_V_ERR_APPLICATION_VERIFICATION, 0, NULL));
    X509_STORE_CTX_free(context);
    sk_X509_free(sent);
    X509_free(own);
    X509_free(issuer);
}

int main(void)
{
    root = text_of("root.der");
    leaf = text_of("leaf.der");
    bag[0] = text_of("middle.der");
    statements[0] = text_of("root.crl");
    statements[1] = text_of("middle.crl");
    try_the_page();
    try_verdicts();
    try_judgements();
    try_policies();
    try_refusals();
    try_callback();
    return failed;
}
