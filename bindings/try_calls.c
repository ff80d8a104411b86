/* Tries the calls of the library for C where examples/validate_path.c does not reach them, in the folder testdata: null pointers, texts
 * without octets, purposes, long paths, places, extensions and names. The status is 1 if an answer is another than expected; its line says
 * which. */
#include <stdio.h>
#include <stdlib.h>
#include <string.h>

#include "x509check.h"

#define LENGTH(array) (sizeof(array) / sizeof *(array))
#define MOMENT 1796083200 /* 2026-12-01T00:00:00Z */
#define MIDDLE_OF_2025 1749945600 /* 2025-06-15T00:00:00Z */
#define EXPECT(holds) expect(holds, #holds, __LINE__)

static const struct x509check_text nothing = {NULL, 0}, empty = {(const uint8_t *)"", 0};
static struct x509check_text root, middle, leaf, constraints, delegate, root_list, middle_list;
static uint8_t good[8][X509CHECK_FINGERPRINT_LENGTH];
static size_t good_count;
static int failed;

static void expect(int holds, const char *what, int line)
{
    if (holds)
        return;
    printf("bindings: try_calls.c: line %d: %s\n", line, what);
    failed = 1;
}

static struct x509check_text text_of(const char *path)
{
    static uint8_t octets[1 << 16], *at = octets;
    FILE *file = fopen(path, "rb");
    struct x509check_text text = {at, 0};

    if (file == NULL) {
        perror(path);
        exit(1);
    }
    text.length = fread(at, 1, (size_t)(octets + sizeof octets - at), file);
    at += text.length;
    fclose(file);
    return text;
}

/* ---- A query, and answers in short. ---- */

static struct x509check_query query_of(struct x509check_text anchor, const struct x509check_text *path, size_t count)
{
    struct x509check_query query = {.anchor = anchor, .path = path, .path_count = count, .moment = MOMENT};

    return query;
}

static struct x509check_verdict verdict_by(const struct x509check_query *query, const struct x509check_text *statements, size_t count)
{
    return x509check_validate(query, statements, count, good[0], good_count);
}

static int is_refusal(struct x509check_refusal refusal, uint32_t text, size_t index, uint32_t fault, uint32_t der_fault, size_t offset)
{
    return refusal.text == text && refusal.index == index && refusal.fault == fault && refusal.der_fault == der_fault
        && refusal.offset == offset;
}

static int is_verdict(struct x509check_verdict answer, uint32_t verdict, size_t certificate, uint32_t reason)
{
    return answer.verdict == verdict && answer.certificate == certificate && answer.reason == reason
        && is_refusal(answer.refusal, 0, 0, 0, 0, 0);
}

/* Whether a verdict and questions are both refused so. */
static int are_refused(const struct x509check_query *query, const struct x509check_text *statements, size_t count, uint32_t text,
                       size_t index, uint32_t fault, uint32_t der_fault, size_t offset)
{
    struct x509check_signature_question question = {.fingerprint = {0xA5}};
    struct x509check_verdict answer = verdict_by(query, statements, count);
    struct x509check_asked asked = x509check_questions(query, statements, count, &question, 1);

    return answer.verdict == X509CHECK_REFUSED && answer.certificate == 0 && answer.reason == 0
        && is_refusal(answer.refusal, text, index, fault, der_fault, offset) && is_refusal(asked.refusal, text, index, fault, der_fault, offset)
        && asked.count == 0 && question.fingerprint[0] == 0xA5;
}

/* ---- What is tried. ---- */

/* A text of no octets is no DER, whether its pointer is null or not. */
static void try_texts_without_octets(struct x509check_text none)
{
    struct x509check_text path[] = {middle, none}, statements[] = {root_list, none, middle_list};
    struct x509check_query without_anchor = query_of(none, path, 2), without_leaf = query_of(root, path, 2);
    struct x509check_query whole = query_of(root, path, 1);
    struct x509check_answer answer = x509check_check(none.octets, none.length);
    struct x509check_certificate certificate = x509check_read_certificate(none.octets, none.length);

    EXPECT(answer.fault == 4 && answer.offset == 0);
    EXPECT(certificate.fault == X509CHECK_FAULT_DER && certificate.der_fault == 4 && certificate.offset == 0);
    EXPECT(are_refused(&without_anchor, statements, 3, X509CHECK_CERTIFICATES, 0, X509CHECK_FAULT_DER, 4, 0));
    EXPECT(are_refused(&without_leaf, statements, 3, X509CHECK_CERTIFICATES, 2, X509CHECK_FAULT_DER, 4, 0));
    EXPECT(are_refused(&whole, statements, 3, X509CHECK_STATEMENTS, 1, X509CHECK_FAULT_STATEMENT_DER, 4, 0));
    whole.purpose = none;
    EXPECT(is_verdict(verdict_by(&whole, statements, 1), X509CHECK_VALID, 0, 0));
}

static void try_null_pointers(void)
{
    static const struct x509check_query zeros;
    const struct x509check_text path[] = {middle, leaf};
    struct x509check_query query = query_of(root, path, 2), alone = query_of(root, NULL, 0);
    struct x509check_asked asked = x509check_questions(&query, NULL, 0, NULL, 0);
    uint8_t one[32], other[32];

    EXPECT(are_refused(&zeros, NULL, 0, X509CHECK_CERTIFICATES, 0, X509CHECK_FAULT_DER, 4, 0));
    EXPECT(is_verdict(verdict_by(&alone, NULL, 0), X509CHECK_INVALID, 0, 15));
    EXPECT(is_verdict(verdict_by(&query, NULL, 0), X509CHECK_UNKNOWN, 1, 0));
    EXPECT(is_verdict(x509check_validate(&query, &root_list, 1, NULL, 0), X509CHECK_INVALID, 1, 2));
    EXPECT(asked.refusal.fault == 0 && asked.count == 2);
    x509check_fingerprint(NULL, 0, NULL, 0, NULL, 0, NULL, 0, one);
    x509check_fingerprint(empty.octets, 0, empty.octets, 0, empty.octets, 0, empty.octets, 0, other);
    EXPECT(memcmp(one, other, sizeof one) == 0);
    x509check_sha256(NULL, 0, one);
    x509check_sha256(empty.octets, 0, other);
    EXPECT(memcmp(one, other, sizeof one) == 0 && one[0] == 0xE3 && one[31] == 0x55);
    EXPECT(x509check_fault_name(X509CHECK_FAULT_DER, NULL, 0) == 3);
    EXPECT(x509check_reason_name(X509CHECK_INVALID, 4, NULL, 0) == 7);
}

static struct x509check_speaking speaks(struct x509check_text certificate, uint32_t kind, const char *identity)
{
    return x509check_speaks_for(certificate.octets, certificate.length, kind, (const uint8_t *)identity, strlen(identity));
}

/* The leaf has the dNSName www.example (RFC 9525, 6.3). */
static void try_identities(void)
{
    struct x509check_speaking refused;

    EXPECT(speaks(leaf, X509CHECK_HOST, "WWW.example.").speaks == X509CHECK_SPEAKS);
    EXPECT(speaks(leaf, X509CHECK_HOST, "other.example").speaks == X509CHECK_DOES_NOT_SPEAK);
    EXPECT(speaks(leaf, X509CHECK_ADDRESS, "1234").speaks == X509CHECK_DOES_NOT_SPEAK);
    EXPECT(speaks(leaf, X509CHECK_MAILBOX, "a@www.example").speaks == X509CHECK_DOES_NOT_SPEAK);
    refused = speaks(leaf, X509CHECK_HOST, "a..b");
    EXPECT(refused.speaks == X509CHECK_IDENTITY_REFUSED && refused.fault == 2 && refused.offset == 2);
    refused = speaks(leaf, 0, "www.example");
    EXPECT(refused.speaks == X509CHECK_IDENTITY_REFUSED && refused.fault == 8 && refused.offset == 0);
    refused = speaks(empty, X509CHECK_HOST, "www.example");
    EXPECT(refused.speaks == X509CHECK_CERTIFICATE_REFUSED && refused.fault == X509CHECK_FAULT_DER && refused.der_fault == 4);
}

/* The leaf is for id-kp-serverAuth, and not for id-kp-clientAuth (RFC 5280, 4.2.1.12). */
static void try_purposes(void)
{
    static const uint8_t server[] = {0x2B, 6, 1, 5, 5, 7, 3, 1}, client[] = {0x2B, 6, 1, 5, 5, 7, 3, 2};
    const struct x509check_text path[] = {middle, leaf}, statements[] = {root_list, middle_list};
    struct x509check_query query = query_of(root, path, 2);

    query.purpose = (struct x509check_text){server, sizeof server};
    EXPECT(is_verdict(verdict_by(&query, statements, 2), X509CHECK_VALID, 0, 0));
    query.purpose = (struct x509check_text){client, sizeof client};
    EXPECT(is_verdict(verdict_by(&query, statements, 2), X509CHECK_INVALID, 2, 14));
}

/* Where a second statement is refused, and that certificates come before statements. */
static void try_places(void)
{
    const struct x509check_text path[] = {middle, leaf}, cut[] = {middle, {leaf.octets, leaf.length - 1}};
    const struct x509check_text statements[] = {root_list, root};
    const struct x509check_text more[] = {root_list, {(const uint8_t *)"\x30\x00\x00", 3}};
    struct x509check_query query = query_of(root, path, 2), broken = query_of(root, cut, 2);

    /* The [0] of the certificate stands where a list has its version. */
    EXPECT(are_refused(&query, statements, 2, X509CHECK_STATEMENTS, 1, 43, 0, 8));
    EXPECT(are_refused(&query, more, 2, X509CHECK_STATEMENTS, 1, X509CHECK_FAULT_STATEMENT_DER, 7, 2));
    EXPECT(are_refused(&broken, statements, 2, X509CHECK_CERTIFICATES, 2, X509CHECK_FAULT_DER, 4, 0));
}

static void try_questions(void)
{
    const struct x509check_text path[] = {middle, leaf}, statements[] = {root_list, middle_list};
    struct x509check_query query = query_of(root, path, 2);
    struct x509check_signature_question questions[5];
    struct x509check_asked asked;

    for (size_t room = 0; room <= 5; room++) {
        size_t written = room < 4 ? room : 4;

        memset(questions, 0xA5, sizeof questions);
        asked = x509check_questions(&query, statements, 2, questions, room);
        EXPECT(asked.refusal.fault == 0 && asked.count == 4);
        for (size_t i = 0; i < written; i++)
            EXPECT(memcmp(questions[i].fingerprint, good[i], sizeof good[i]) == 0);
        for (const uint8_t *octet = (const uint8_t *)&questions[written]; octet < (const uint8_t *)(questions + 5); octet++)
            EXPECT(*octet == 0xA5);
    }
    EXPECT(questions[3].algorithm.text == X509CHECK_STATEMENTS && questions[3].algorithm.index == 1);
    EXPECT(questions[3].key_info.text == X509CHECK_CERTIFICATES && questions[3].key_info.index == 1);
}

/* The flags, and the numbers of items of lists, in the order of the header. */
static int has_flags(struct x509check_extensions told, int constrains, int authority, int length, int usage, int policy, int no_check)
{
    return told.has_basic_constraints == constrains && told.is_authority == authority && told.has_path_length == length
        && told.has_key_usage == usage && told.needs_policy_processing == policy && told.no_check == no_check;
}

static int has_counts(struct x509check_extensions told, size_t names, size_t permitted, size_t excluded, size_t purposes, size_t unrecognised)
{
    return told.alternative_names == names && told.permitted_subtrees == permitted && told.excluded_subtrees == excluded
        && told.purposes == purposes && told.unrecognised == unrecognised;
}

/* No two flags are the same in all three certificates, and no two numbers: what `openssl x509 -text` prints of them. */
static void try_extensions(void)
{
    struct x509check_fields of_middle = x509check_read_certificate(middle.octets, middle.length).fields;
    struct x509check_fields of_constraints = x509check_read_certificate(constraints.octets, constraints.length).fields;
    struct x509check_fields of_delegate = x509check_read_certificate(delegate.octets, delegate.length).fields;

    EXPECT(has_flags(of_middle.extensions, 1, 1, 1, 1, 0, 0));
    EXPECT(has_flags(of_constraints.extensions, 1, 1, 0, 0, 1, 0));
    EXPECT(has_flags(of_delegate.extensions, 1, 0, 1, 0, 0, 1));
    EXPECT(has_counts(of_middle.extensions, 0, 0, 0, 0, 0));
    EXPECT(has_counts(of_constraints.extensions, 3, 1, 2, 4, 5));
    EXPECT(has_counts(of_delegate.extensions, 0, 0, 0, 0, 0));
    EXPECT(of_middle.extensions.path_length == 0 && of_middle.extensions.key_usage == (X509CHECK_KEY_CERT_SIGN | X509CHECK_CRL_SIGN));
    EXPECT(of_delegate.extensions.path_length == 7 && of_delegate.extensions.key_usage == 0);
    EXPECT(of_constraints.version == 3 && of_constraints.not_before == 1795840550 && of_constraints.not_after == 2111200550);
}

/* The leaf under two anchors, beside others in any order: the anchors have the numbers 0 and 1, the leaf 2, the others 3 to 5. */
static void try_searches(void)
{
    const struct x509check_text anchors[] = {constraints, root}, bag[] = {delegate, root, middle}, plain[] = {delegate, leaf, middle};
    const struct x509check_text statements[] = {root_list, middle_list};
    struct x509check_search search = {
        .anchors = anchors, .anchor_count = 2, .target = leaf, .bag = bag, .bag_count = 3, .moment = MOMENT,
        .limits = {X509CHECK_SIGNATURES, X509CHECK_STEPS, X509CHECK_VERDICTS}};
    static const struct x509check_search zeros;
    struct x509check_signature_question questions[5];
    struct x509check_asked asked;
    struct x509check_finding found;
    size_t path[X509CHECK_PATH_ROOM];

    memset(path, 0xA5, sizeof path);
    found = x509check_find(&search, statements, 2, good[0], good_count, path, X509CHECK_PATH_ROOM);
    EXPECT(is_verdict(found.verdict, X509CHECK_VALID, 0, 0) && found.path_count == 3);
    EXPECT(path[0] == 1 && path[1] == 5 && path[2] == 2 && path[3] != 0);
    found = x509check_find(&search, statements, 1, good[0], good_count, NULL, 0);
    EXPECT(is_verdict(found.verdict, X509CHECK_UNKNOWN, 2, 0) && found.path_count == 3);
    found = x509check_find(&search, statements, 2, NULL, 0, NULL, 0);
    EXPECT(is_verdict(found.verdict, X509CHECK_NOT_FOUND, 0, 0) && found.path_count == 0);
    search.bag = plain;
    asked = x509check_find_questions(&search, statements, 2, questions, 5);
    EXPECT(asked.refusal.fault == 0 && asked.count == 4);
    for (size_t i = 0; i < 4; i++)
        EXPECT(memcmp(questions[i].fingerprint, good[i], sizeof good[i]) == 0);
    EXPECT(questions[0].key_info.text == X509CHECK_CERTIFICATES && questions[0].key_info.index == 1 && questions[0].message.index == 5);
    search.limits.steps = 0;
    found = x509check_find(&search, statements, 2, good[0], good_count, path, X509CHECK_PATH_ROOM);
    EXPECT(is_verdict(found.verdict, X509CHECK_GAVE_UP, 0, 0) && found.path_count == 0);
    search.bag_count = 0;
    search.anchor_count = 0;
    search.bag = search.anchors = NULL;
    search.limits.steps = X509CHECK_STEPS;
    found = x509check_find(&search, NULL, 0, good[0], good_count, NULL, 0);
    EXPECT(is_verdict(found.verdict, X509CHECK_NOT_FOUND, 0, 0));
    found = x509check_find(&zeros, NULL, 0, NULL, 0, NULL, 0);
    EXPECT(found.verdict.verdict == X509CHECK_REFUSED && found.path_count == 0);
    EXPECT(is_refusal(found.verdict.refusal, X509CHECK_CERTIFICATES, 0, X509CHECK_FAULT_DER, 4, 0));
}

static int is_diagnosis(struct x509check_diagnosis answer, uint32_t why, uint32_t reason, size_t above, size_t anchors, size_t obstacles)
{
    return answer.why == why && answer.reason == reason && answer.above_count == above && answer.anchor_count == anchors
        && answer.obstacle_count == obstacles && is_refusal(answer.refusal, 0, 0, 0, 0, 0);
}

/* Why no path to the leaf is found: the anchors have the numbers 0 and 1, the leaf 2, the others 3 to 5. */
static void try_diagnoses(void)
{
    static const uint8_t client[] = {0x2B, 6, 1, 5, 5, 7, 3, 2};
    static const struct x509check_search zeros;
    const struct x509check_text anchors[] = {constraints, root}, bag[] = {delegate, root, middle};
    struct x509check_search search = {
        .anchors = anchors, .anchor_count = 2, .target = leaf, .bag = bag, .bag_count = 2, .moment = MOMENT,
        .limits = {X509CHECK_SIGNATURES, X509CHECK_STEPS, 0}};
    struct x509check_obstacle obstacles[2] = {{9, 9}, {9, 9}};
    size_t above[2] = {9, 9}, named[2] = {9, 9};
    struct x509check_diagnosis answer;

    EXPECT(is_diagnosis(x509check_why_not(&search, good[0], good_count, above, 2, named, 2, obstacles, 2), X509CHECK_PATHS_END, 0, 0, 0, 0));
    search.bag_count = 3;
    /* The second of the good signatures is that of the leaf. */
    EXPECT(is_diagnosis(x509check_why_not(&search, NULL, 0, above, 2, named, 2, obstacles, 2), X509CHECK_PATHS_END, 0, 0, 0, 1));
    EXPECT(obstacles[0].certificate == 5 && obstacles[0].reason == 2 && obstacles[1].certificate == 9);
    EXPECT(above[0] == 9 && named[0] == 9);
    EXPECT(is_diagnosis(x509check_why_not(&search, good[1], 1, above, 2, named, 2, obstacles, 2), X509CHECK_PATHS_END, 0, 1, 1, 1));
    EXPECT(above[0] == 5 && above[1] == 9 && named[0] == 1 && named[1] == 9 && obstacles[0].certificate == 4 && obstacles[0].reason == 2);
    EXPECT(is_diagnosis(x509check_why_not(&search, good[1], 1, NULL, 0, NULL, 0, NULL, 0), X509CHECK_PATHS_END, 0, 1, 1, 1));
    search.limits.signatures = 0;
    EXPECT(is_diagnosis(x509check_why_not(&search, good[0], good_count, NULL, 0, NULL, 0, NULL, 0), X509CHECK_GAVE_UP, 0, 0, 0, 0));
    search.purpose = (struct x509check_text){client, sizeof client};
    EXPECT(is_diagnosis(x509check_why_not(&search, good[0], good_count, NULL, 0, NULL, 0, NULL, 0), X509CHECK_TARGET_AT_FAULT, 14, 0, 0, 0));
    answer = x509check_why_not(&zeros, NULL, 0, NULL, 0, NULL, 0, NULL, 0);
    EXPECT(answer.why == X509CHECK_REFUSED && answer.above_count == 0 && answer.anchor_count == 0 && answer.obstacle_count == 0);
    EXPECT(is_refusal(answer.refusal, X509CHECK_CERTIFICATES, 0, X509CHECK_FAULT_DER, 4, 0));
}

/* The certificates state no policies. */
static void try_policies(void)
{
    static const uint8_t any[] = {0x55, 0x1D, 0x20, 0};
    static const struct x509check_query zeros;
    static const struct x509check_policy_inputs none;
    const struct x509check_text path[] = {middle, leaf}, statements[] = {root_list, middle_list}, all = {any, sizeof any};
    struct x509check_query query = query_of(root, path, 2);
    struct x509check_policy_inputs inputs = {&all, 1, 0, 0, 0}, explicit_policy = {&all, 1, 0, 1, 0};
    size_t lengths[2] = {7, 7};
    uint8_t octets[2] = {7, 7};
    struct x509check_policies answer =
        x509check_validate_with_policies(&query, &inputs, statements, 2, good[0], good_count, lengths, 2, octets, 2);

    EXPECT(answer.verdict.verdict == X509CHECK_VALID && answer.authority_count == 0 && answer.user_count == 0 && answer.octet_count == 0);
    answer = x509check_validate_with_policies(&query, &explicit_policy, statements, 2, good[0], good_count, lengths, 2, octets, 2);
    EXPECT(answer.verdict.verdict == X509CHECK_INVALID && answer.verdict.certificate == 1 && answer.verdict.reason == 17);
    EXPECT(lengths[0] == 7 && lengths[1] == 7 && octets[0] == 7 && octets[1] == 7);
    answer = x509check_validate_with_policies(&query, &none, statements, 2, good[0], good_count, NULL, 0, NULL, 0);
    EXPECT(answer.verdict.verdict == X509CHECK_VALID && answer.user_count == 0);
    answer = x509check_validate_with_policies(&zeros, &none, NULL, 0, NULL, 0, NULL, 0, NULL, 0);
    EXPECT(answer.verdict.verdict == X509CHECK_REFUSED && is_refusal(answer.verdict.refusal, X509CHECK_CERTIFICATES, 0, X509CHECK_FAULT_DER, 4, 0));
}

/* The verdict in a profile on a leaf below the root of points by a list, of who believes each signature. */
static struct x509check_verdict verdict_for(uint32_t wide, struct x509check_text anchor, struct x509check_text certificate,
                                            struct x509check_text list, struct x509check_text purpose)
{
    struct x509check_query query = {
        .anchor = anchor, .path = &certificate, .path_count = 1, .moment = MIDDLE_OF_2025, .purpose = purpose, .wide = wide};
    struct x509check_signature_question questions[2];
    struct x509check_asked asked = x509check_questions(&query, &list, 1, questions, 2);
    uint8_t prints[2][X509CHECK_FINGERPRINT_LENGTH];

    for (size_t i = 0; i < asked.count && i < 2; i++)
        memcpy(prints[i], questions[i].fingerprint, sizeof prints[i]);
    return x509check_validate(&query, &list, 1, prints[0], asked.count);
}

/* The same for any purpose. */
static struct x509check_verdict verdict_in(uint32_t wide, struct x509check_text anchor, struct x509check_text certificate,
                                           struct x509check_text list)
{
    return verdict_for(wide, anchor, certificate, list, (struct x509check_text){NULL, 0});
}

/* The list is published at the point of the leaf (RFC 5280, 5.2.5); the malformed leaf has no point in its cRLDistributionPoints. */
static void try_profiles(void)
{
    struct x509check_text anchor = text_of("points/root.der"), certificate = text_of("points/leaf.der");
    struct x509check_text malformed = text_of("points/malformed.der"), list = text_of("points/list.crl");
    struct x509check_text server = {(const uint8_t *)"\x2B\x06\x01\x05\x05\x07\x03\x01", 8};
    struct x509check_text stamping = {(const uint8_t *)"\x2B\x06\x01\x05\x05\x07\x03\x08", 8};
    struct x509check_verdict answer = verdict_in(0, anchor, certificate, list);

    EXPECT(answer.verdict == X509CHECK_REFUSED && is_refusal(answer.refusal, X509CHECK_STATEMENTS, 0, 48, 0, 74));
    EXPECT(is_verdict(verdict_in(1, anchor, certificate, list), X509CHECK_VALID, 0, 0));
    EXPECT(is_verdict(verdict_in(UINT32_MAX, anchor, certificate, text_of("points/revoking.crl")), X509CHECK_REVOKED, 1, 1));
    answer = verdict_in(1, anchor, malformed, list);
    EXPECT(answer.verdict == X509CHECK_REFUSED && is_refusal(answer.refusal, X509CHECK_CERTIFICATES, 1, 29, 0, 106));
    /* The point of this one has reasons: a list there revokes, and says nothing else. */
    certificate = text_of("points/limited.der");
    EXPECT(is_verdict(verdict_in(1, anchor, certificate, list), X509CHECK_UNKNOWN, 1, 0));
    EXPECT(is_verdict(verdict_in(1, anchor, certificate, text_of("points/revoking.crl")), X509CHECK_REVOKED, 1, 1));
    /* Its points are critical, and its keyUsage is nonRepudiation. */
    certificate = text_of("points/critical.der");
    EXPECT(is_verdict(verdict_in(1, anchor, certificate, list), X509CHECK_VALID, 0, 0));
    EXPECT(is_verdict(verdict_in(0, anchor, certificate, root_list), X509CHECK_INVALID, 1, 13));
    EXPECT(is_verdict(verdict_for(1, anchor, certificate, list, server), X509CHECK_INVALID, 1, 14));
    EXPECT(is_verdict(verdict_for(1, anchor, certificate, list, stamping), X509CHECK_VALID, 0, 0));
    /* It has a critical certificatePolicies without policies. */
    certificate = text_of("points/unprocessed.der");
    EXPECT(is_verdict(verdict_in(1, anchor, certificate, list), X509CHECK_INVALID, 1, 13));
    EXPECT(is_verdict(verdict_in(0, anchor, certificate, root_list), X509CHECK_UNKNOWN, 1, 0));
}

static void try_200_certificates(void)
{
    struct x509check_text path[200];
    struct x509check_query query = query_of(root, path, LENGTH(path));

    for (size_t i = 0; i < LENGTH(path); i++)
        path[i] = i % 2 == 0 ? middle : leaf;
    EXPECT(is_verdict(verdict_by(&query, &root_list, 1), X509CHECK_INVALID, 0, 16));
    path[199] = (struct x509check_text){(const uint8_t *)"\x30\x00", 2};
    EXPECT(are_refused(&query, &root_list, 1, X509CHECK_CERTIFICATES, 200, 22, 0, 2));
}

static void try_names(void)
{
    char name[X509CHECK_NAME_ROOM];

    EXPECT(x509check_fault_name(4, name, 10) == 9 && strcmp(name, "Truncated") == 0);
    EXPECT(x509check_fault_name(4, name, 9) == 9);
    EXPECT(x509check_fault_name(0, name, sizeof name) == 0 && name[0] == '\0');
    EXPECT(x509check_reason_name(X509CHECK_INVALID, 16, name, sizeof name) == 7 && strcmp(name, "TooLong") == 0);
    EXPECT(x509check_reason_name(X509CHECK_INVALID, 19, name, sizeof name) == 12 && strcmp(name, "NoUserPolicy") == 0);
    EXPECT(x509check_reason_name(X509CHECK_REVOKED, 1, name, sizeof name) == 13 && strcmp(name, "keyCompromise") == 0);
    EXPECT(x509check_reason_name(X509CHECK_VALID, 1, name, sizeof name) == 0 && name[0] == '\0');
    for (uint32_t number = 0; number < 300; number++) {
        for (uint32_t verdict = 0; verdict < 8; verdict++) {
            size_t length = x509check_reason_name(verdict, number, name, sizeof name);

            EXPECT(length < sizeof name && strlen(name) == length);
        }
        EXPECT(x509check_fault_name(number, name, sizeof name) < sizeof name && strlen(name) == x509check_fault_name(number, NULL, 0));
    }
    EXPECT(x509check_fault_name(UINT32_MAX, name, sizeof name) == 0 && name[0] == '\0');
}

int main(void)
{
    struct x509check_text prints;

    root = text_of("root.der");
    middle = text_of("middle.der");
    leaf = text_of("leaf.der");
    constraints = text_of("constraints.der");
    delegate = text_of("delegate.der");
    root_list = text_of("root.crl");
    middle_list = text_of("middle.crl");
    prints = text_of("good");
    good_count = prints.length / sizeof *good;
    EXPECT(0 < good_count && good_count <= LENGTH(good));
    memcpy(good, prints.octets, good_count * sizeof *good);
    EXPECT(x509check_version() == X509CHECK_VERSION_NUMBER);
    try_texts_without_octets(nothing);
    try_texts_without_octets(empty);
    try_null_pointers();
    try_identities();
    try_purposes();
    try_places();
    try_questions();
    try_extensions();
    try_searches();
    try_diagnoses();
    try_policies();
    try_profiles();
    try_200_certificates();
    try_names();
    return failed;
}
