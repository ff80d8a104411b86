/* From what a peer showed to a ruling: the texts of the search, what is found, and what OpenSSL calls that. */
#include <stdio.h>
#include <stdlib.h>
#include <string.h>

#include <openssl/x509.h>

#include "../c/x509check_common.h"
#include "x509check_openssl_peer.h"
#include "x509check_openssl_statements.h"

/* Room for the certificates in the way of a path: more are not looked at. */
#define OBSTACLES 64

/* The ranks of the reasons for which a path is invalid (docs/REFERENCE.md, "Faults"). */
enum rank {
    REPEATED = 1,
    SIGNATURE,
    NOT_YET,
    EXPIRED,
    ISSUER,
    NOT_PERMITTED,
    EXCLUDED,
    CONSTRAINT_FORM,
    NOT_CA,
    PATH_LENGTH,
    KEY_CERT_SIGN,
    POLICY,
    CRITICAL_UNKNOWN,
    PURPOSE,
    EMPTY,
    TOO_LONG
};

/* ---- The texts. ---- */

/* Takes the certificate as the next one that the peer showed. Whether there was memory for its DER. */
static bool take_shown(struct x509check_openssl_peer *peer, X509 *certificate, struct x509check_text *text)
{
    struct x509check_openssl_shown *shown = &peer->shown[peer->shown_count];
    int length = i2d_X509(certificate, &shown->octets);

    if (length < 0)
        return false;
    shown->certificate = certificate;
    peer->shown_count++;
    *text = (struct x509check_text){shown->octets, (size_t)length};
    return true;
}

/* A peer's own certificate stands among what it sent, or not (X509_STORE_CTX_get0_untrusted). */
static bool take_sent(struct x509check_openssl_peer *peer, X509 *own, const STACK_OF(X509) *sent)
{
    for (int i = 0; i < sk_X509_num(sent); i++) {
        X509 *certificate = sk_X509_value(sent, i);

        if (certificate != own && !take_shown(peer, certificate, &peer->bag[peer->search.bag_count++]))
            return false;
    }
    return true;
}

static size_t or_default(size_t limit, size_t otherwise)
{
    return limit == 0 ? otherwise : limit;
}

static struct x509check_limits limits_of(const struct x509check_openssl_settings *settings)
{
    return (struct x509check_limits){or_default(settings->limits.signatures, X509CHECK_SIGNATURES),
                                     or_default(settings->limits.steps, X509CHECK_STEPS),
                                     or_default(settings->limits.verdicts, X509CHECK_VERDICTS)};
}

/* (each array has room for one more, so that none is of size 0) */
static bool make_room(struct x509check_openssl_peer *peer, size_t sent)
{
    peer->shown = calloc(sent + 1, sizeof *peer->shown);
    peer->bag = calloc(sent + peer->settings->helper_count + 1, sizeof *peer->bag);
    peer->statements = calloc(peer->settings->statement_count + 1, sizeof *peer->statements);
    return peer->shown != NULL && peer->bag != NULL && peer->statements != NULL;
}

int x509check_openssl_take_peer(struct x509check_openssl_peer *peer, const struct x509check_openssl_settings *settings, X509 *own,
                                const STACK_OF(X509) *sent, struct x509check_text response)
{
    size_t count = sent == NULL ? 0 : (size_t)sk_X509_num(sent);

    *peer = (struct x509check_openssl_peer){.settings = settings};
    if (own == NULL) /* a peer may have shown a bare key instead (RFC 7250) */
        return X509_V_ERR_APPLICATION_VERIFICATION;
    if (count > or_default(settings->certificate_limit, X509CHECK_OPENSSL_CERTIFICATES))
        return X509_V_ERR_CERT_CHAIN_TOO_LONG;
    if (!make_room(peer, count) || !take_shown(peer, own, &peer->search.target) || !take_sent(peer, own, sent))
        return X509_V_ERR_OUT_OF_MEM;
    for (size_t i = 0; i < settings->helper_count; i++)
        peer->bag[peer->search.bag_count++] = settings->helpers[i];
    for (size_t i = 0; i < settings->statement_count; i++)
        peer->statements[peer->statement_count++] = settings->statements[i];
    peer->has_response = response.octets != NULL;
    if (peer->has_response)
        peer->statements[peer->statement_count++] = response;
    peer->search.anchors = settings->anchors;
    peer->search.anchor_count = settings->anchor_count;
    peer->search.bag = peer->bag;
    peer->search.limits = limits_of(settings);
    return X509_V_OK;
}

void x509check_openssl_drop_peer(struct x509check_openssl_peer *peer)
{
    for (size_t i = 0; i < peer->shown_count; i++)
        OPENSSL_free(peer->shown[i].octets);
    free(peer->shown);
    free(peer->bag);
    free(peer->statements);
    *peer = (struct x509check_openssl_peer){0};
}

X509 *x509check_openssl_sent(const struct x509check_openssl_peer *peer, size_t certificate)
{
    size_t first = peer->search.anchor_count;

    return certificate < first || certificate - first >= peer->shown_count ? NULL : peer->shown[certificate - first].certificate;
}

/* The certificate of that number, as one more reference to it. */
static X509 *certificate_of(const struct x509check_openssl_peer *peer, size_t certificate)
{
    size_t first = peer->search.anchor_count;
    X509 *sent = x509check_openssl_sent(peer, certificate);
    struct x509check_text text;
    const unsigned char *at;

    if (sent != NULL)
        return X509_up_ref(sent) == 1 ? sent : NULL;
    text = certificate < first ? peer->search.anchors[certificate] : peer->bag[certificate - first - 1];
    at = text.octets;
    return d2i_X509(NULL, &at, (long)text.length);
}

STACK_OF(X509) *x509check_openssl_chain(const struct x509check_openssl_peer *peer, const size_t *path, size_t path_count)
{
    STACK_OF(X509) *chain = sk_X509_new_null();

    for (size_t i = path_count; chain != NULL && i > 0; i--) {
        X509 *certificate = certificate_of(peer, path[i - 1]);

        if (certificate == NULL || sk_X509_push(chain, certificate) == 0) {
            X509_free(certificate);
            sk_X509_pop_free(chain, X509_free);
            chain = NULL;
        }
    }
    return chain;
}

/* ---- What OpenSSL calls it. ---- */

static int error_of_rank(uint32_t rank)
{
    switch (rank) {
    case SIGNATURE:
        return X509_V_ERR_CERT_SIGNATURE_FAILURE;
    case NOT_YET:
        return X509_V_ERR_CERT_NOT_YET_VALID;
    case EXPIRED:
        return X509_V_ERR_CERT_HAS_EXPIRED;
    case NOT_PERMITTED:
        return X509_V_ERR_PERMITTED_VIOLATION;
    case EXCLUDED:
        return X509_V_ERR_EXCLUDED_VIOLATION;
    case CONSTRAINT_FORM:
        return X509_V_ERR_UNSUPPORTED_CONSTRAINT_TYPE;
    case NOT_CA:
        return X509_V_ERR_INVALID_CA;
    case PATH_LENGTH:
        return X509_V_ERR_PATH_LENGTH_EXCEEDED;
    case KEY_CERT_SIGN:
        return X509_V_ERR_KEYUSAGE_NO_CERTSIGN;
    case POLICY:
        return X509_V_ERR_INVALID_POLICY_EXTENSION;
    case CRITICAL_UNKNOWN:
        return X509_V_ERR_UNHANDLED_CRITICAL_EXTENSION;
    case PURPOSE:
        return X509_V_ERR_INVALID_PURPOSE;
    case TOO_LONG:
        return X509_V_ERR_CERT_CHAIN_TOO_LONG;
    default: /* REPEATED, ISSUER, EMPTY: no other certificate can stand there */
        return X509_V_ERR_UNABLE_TO_GET_ISSUER_CERT_LOCALLY;
    }
}

static struct x509check_openssl_ruling ruling_of(int error, size_t depth, size_t certificate, const char *words)
{
    return (struct x509check_openssl_ruling){error, (int)depth, certificate, words, ""};
}

static struct x509check_openssl_ruling ruling_of_rank(uint32_t rank, size_t depth, size_t certificate)
{
    struct x509check_openssl_ruling ruling = ruling_of(error_of_rank(rank), depth, certificate, "invalid");

    x509check_reason_name(X509CHECK_INVALID, rank, ruling.name, sizeof ruling.name);
    return ruling;
}

/* What cannot be read is the peer's fault only if the peer sent it. */
static struct x509check_openssl_ruling ruling_of_refusal(const struct x509check_openssl_peer *peer,
                                                         const struct x509check_refusal *refusal)
{
    size_t own = peer->search.anchor_count;
    struct x509check_openssl_ruling ruling = ruling_of(X509_V_ERR_INVALID_CALL, 0, own, "the settings cannot be read");

    if (refusal->text == X509CHECK_CERTIFICATES && x509check_openssl_sent(peer, refusal->index) != NULL)
        ruling = ruling_of(X509_V_ERR_CERT_REJECTED, refusal->index - own, refusal->index, "a certificate of the peer cannot be read");
    if (refusal->text == X509CHECK_STATEMENTS && peer->has_response && refusal->index + 1 == peer->statement_count)
        ruling = ruling_of(X509_V_ERR_OCSP_VERIFY_FAILED, 0, own, "the stapled response cannot be read");
    if (refusal->fault == X509CHECK_FAULT_MEMORY)
        ruling = ruling_of(X509_V_ERR_OUT_OF_MEM, 0, own, "no memory");
    x509check_fault_name(refusal->fault, ruling.name, sizeof ruling.name);
    return ruling;
}

/* ---- Why no path is found. ---- */

/* Why no key of those that have the name of its issuer is accepted as that which signed the certificate. */
static struct x509check_openssl_ruling ruling_of_signature(const struct x509check_openssl_judged *judged, size_t certificate, size_t depth)
{
    for (size_t i = 0; i < judged->count; i++) {
        const struct x509check_place *message = &judged->questions[i].message;

        if (message->text != X509CHECK_CERTIFICATES || message->index != certificate)
            continue;
        if (judged->judgements[i] == X509CHECK_OPENSSL_NOT_SERVED)
            return ruling_of(X509_V_ERR_UNSUPPORTED_SIGNATURE_ALGORITHM, depth, certificate, "a signature that is not served");
        if (judged->judgements[i] == X509CHECK_OPENSSL_REFUSED_BY_POLICY)
            return ruling_of(X509_V_ERR_CA_MD_TOO_WEAK, depth, certificate, "a signature that the policy refuses");
    }
    return ruling_of(X509_V_ERR_CERT_SIGNATURE_FAILURE, depth, certificate, "a signature under another key");
}

/* Where the paths end: an issuer that signed, but cannot stand there, says more than one whose key did not sign. */
static struct x509check_openssl_ruling ruling_of_end(const struct x509check_openssl_peer *peer,
                                                     const struct x509check_openssl_judged *judged,
                                                     const struct x509check_diagnosis *why_not, const size_t *above,
                                                     const struct x509check_obstacle *obstacles)
{
    size_t depth = why_not->above_count, top = depth == 0 ? peer->search.anchor_count : above[depth - 1];
    bool is_unsigned = why_not->anchor_count > 0;

    for (size_t i = 0; i < why_not->obstacle_count && i < OBSTACLES; i++) {
        if (obstacles[i].reason > SIGNATURE)
            return ruling_of_rank(obstacles[i].reason, depth + 1, obstacles[i].certificate);
        is_unsigned = is_unsigned || obstacles[i].reason == SIGNATURE;
    }
    if (is_unsigned)
        return ruling_of_signature(judged, top, depth);
    return ruling_of(X509_V_ERR_UNABLE_TO_GET_ISSUER_CERT_LOCALLY, depth, top, "no certificate of the issuer");
}

static struct x509check_openssl_ruling rule_why_not(const struct x509check_openssl_peer *peer,
                                                    const struct x509check_openssl_judged *judged, struct x509check_diagnosis *why_not)
{
    size_t above[X509CHECK_PATH_ROOM];
    struct x509check_obstacle obstacles[OBSTACLES];
    uint32_t fault;

    *why_not = x509check_why_not(&peer->search, judged->good, judged->good_count, above, X509CHECK_PATH_ROOM, NULL, 0, obstacles,
                                 OBSTACLES);
    /* (the library looks at extKeyUsage alone) */
    if (why_not->why == X509CHECK_PATHS_END && !x509check_key_usage_allows(peer->search.target, peer->search.purpose, &fault))
        *why_not = fault == 0 ? (struct x509check_diagnosis){.why = X509CHECK_TARGET_AT_FAULT, .reason = PURPOSE}
                              : (struct x509check_diagnosis){.why = X509CHECK_REFUSED, .refusal.fault = fault};
    switch (why_not->why) {
    case X509CHECK_TARGET_AT_FAULT:
        return ruling_of_rank(why_not->reason, 0, peer->search.anchor_count);
    case X509CHECK_PATHS_END:
        return ruling_of_end(peer, judged, why_not, above, obstacles);
    case X509CHECK_GAVE_UP:
        return ruling_of(X509_V_ERR_APPLICATION_VERIFICATION, 0, peer->search.anchor_count, "a limit is used up");
    case X509CHECK_REFUSED:
        return ruling_of_refusal(peer, &why_not->refusal);
    default:
        return ruling_of(X509_V_ERR_UNSPECIFIED, 0, peer->search.anchor_count, "no answer");
    }
}

/* ---- The ruling. ---- */

/* The certificate that decides counts along the path, from the anchor; a depth counts from the other end. */
static struct x509check_openssl_ruling ruling_on_path(const struct x509check_finding *finding, const size_t *path, int error,
                                                      const char *words)
{
    size_t decides = finding->verdict.certificate;
    struct x509check_openssl_ruling ruling = ruling_of(error, finding->path_count - 1 - decides, path[decides], words);

    x509check_reason_name(finding->verdict.verdict, finding->verdict.reason, ruling.name, sizeof ruling.name);
    return ruling;
}

static struct x509check_openssl_ruling rule_finding(const struct x509check_openssl_peer *peer,
                                                    const struct x509check_openssl_judged *judged,
                                                    const struct x509check_finding *finding, struct x509check_diagnosis *why_not,
                                                    const size_t *path)
{
    size_t own = peer->search.anchor_count;

    switch (finding->verdict.verdict) {
    case X509CHECK_VALID:
        return ruling_of(X509_V_OK, 0, own, "valid");
    case X509CHECK_REVOKED:
        return ruling_on_path(finding, path, X509_V_ERR_CERT_REVOKED, "revoked");
    case X509CHECK_UNKNOWN:
        return ruling_on_path(finding, path, X509_V_ERR_UNABLE_TO_GET_CRL, "unknown");
    case X509CHECK_INVALID:
        return ruling_on_path(finding, path, error_of_rank(finding->verdict.reason), "invalid");
    case X509CHECK_NOT_FOUND:
        return rule_why_not(peer, judged, why_not);
    case X509CHECK_GAVE_UP:
        return ruling_of(X509_V_ERR_APPLICATION_VERIFICATION, 0, own, "a limit is used up");
    case X509CHECK_REFUSED:
        return ruling_of_refusal(peer, &finding->verdict.refusal);
    default:
        return ruling_of(X509_V_ERR_UNSPECIFIED, 0, own, "no answer");
    }
}

/* ---- Statements that stand against it. ---- */

/* A ruling that names a statement. */
static struct x509check_openssl_ruling ruling_on_statement(const struct x509check_openssl_peer *peer, int error, const char *words,
                                                           size_t statement)
{
    struct x509check_openssl_ruling ruling = ruling_of(error, 0, peer->search.anchor_count, words);

    snprintf(ruling.name, sizeof ruling.name, "statement %zu", statement);
    return ruling;
}

static struct x509check_openssl_ruling rule_unjudged(const struct x509check_openssl_peer *peer, size_t statement)
{
    bool is_stapled = peer->has_response && statement + 1 == peer->statement_count;

    return ruling_on_statement(peer, is_stapled ? X509_V_ERR_OCSP_VERIFY_FAILED : X509_V_ERR_CRL_SIGNATURE_FAILURE,
                               "a signature that nobody can judge", statement);
}

/* What is said of a peer that would be accepted. */
static struct x509check_openssl_ruling rule_statements(const struct x509check_openssl_peer *peer,
                                                       const struct x509check_openssl_judged *judged,
                                                       struct x509check_openssl_outcome *outcome, const size_t *path,
                                                       struct x509check_openssl_ruling accepted)
{
    const char *revoked = outcome->finding.verdict.verdict == X509CHECK_VALID ? "valid, but contradicted by one that revokes"
                                                                              : "unknown, and revoked when last heard of";
    struct x509check_openssl_doubts doubts;
    enum x509check_openssl_status status =
        x509check_openssl_doubt_found(&peer->search, path, &outcome->finding, peer->statements, peer->statement_count, judged, &doubts);

    if (status != X509CHECK_OPENSSL_DONE)
        return ruling_of(X509_V_ERR_OUT_OF_MEM, 0, peer->search.anchor_count, "no memory");
    outcome->unjudged_count = doubts.unjudged_count;
    outcome->statement = doubts.unjudged;
    if (doubts.unjudged_count > 0 && !peer->settings->leaves_out_unjudged)
        return rule_unjudged(peer, doubts.unjudged);
    if (doubts.is_revoked) {
        outcome->statement = doubts.revoking;
        return ruling_on_statement(peer, X509_V_ERR_CERT_REVOKED, revoked, doubts.revoking);
    }
    if (doubts.unjudged_count > 0)
        snprintf(accepted.name, sizeof accepted.name, "without statement %zu", doubts.unjudged);
    return accepted;
}

static struct x509check_openssl_ruling rule_judged(const struct x509check_openssl_peer *peer,
                                                   const struct x509check_openssl_judged *judged,
                                                   struct x509check_openssl_outcome *outcome, const size_t *path)
{
    struct x509check_openssl_ruling ruling = rule_finding(peer, judged, &outcome->finding, &outcome->why_not, path);

    if (outcome->finding.verdict.verdict == X509CHECK_UNKNOWN && peer->settings->accepts_unknown)
        ruling.error = X509_V_OK;
    return ruling.error == X509_V_OK ? rule_statements(peer, judged, outcome, path, ruling) : ruling;
}

struct x509check_openssl_ruling x509check_openssl_rule(const struct x509check_openssl_peer *peer,
                                                       struct x509check_openssl_outcome *outcome, size_t *path)
{
    struct x509check_openssl_judged judged;
    struct x509check_openssl_ruling ruling;
    enum x509check_openssl_status status =
        x509check_openssl_judge_search(&peer->search, peer->statements, peer->statement_count, peer->settings->policy, &judged);

    outcome->finding = (struct x509check_finding){0};
    outcome->why_not = (struct x509check_diagnosis){0};
    if (status == X509CHECK_OPENSSL_DONE)
        status = x509check_openssl_find_judged(&peer->search, peer->statements, peer->statement_count, &judged, &outcome->finding, path);
    if (status == X509CHECK_OPENSSL_DONE)
        ruling = rule_judged(peer, &judged, outcome, path);
    else if (status == X509CHECK_OPENSSL_BAD_POLICY)
        ruling = ruling_of(X509_V_ERR_INVALID_CALL, 0, peer->search.anchor_count, "the policy is none");
    else
        ruling = ruling_of(X509_V_ERR_OUT_OF_MEM, 0, peer->search.anchor_count, "no memory, or OpenSSL failed");
    x509check_openssl_free(&judged);
    return ruling;
}
