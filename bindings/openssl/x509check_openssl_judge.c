/* The judge of signatures over libcrypto, and the loop that asks it about a query or a search. */
#include <stdlib.h>
#include <string.h>

#include <openssl/core_names.h>
#include <openssl/ec.h>
#include <openssl/err.h>
#include <openssl/evp.h>
#include <openssl/params.h>
#include <openssl/rsa.h>
#include <openssl/x509.h>

#include "../c/x509check_common.h"
#include "x509check_openssl_schemes.h"
#include "x509check_openssl_statements.h"

/* Room for questions at first: what servers send asks fewer. */
#define QUESTIONS_AT_FIRST 64

static const struct x509check_openssl_policy default_policy = X509CHECK_OPENSSL_DEFAULT_POLICY;

/* ---- One signature. ---- */

static bool is_policy(const struct x509check_openssl_policy *policy)
{
    return (policy->digests & ~X509CHECK_OPENSSL_ALL_DIGESTS) == 0 && (policy->curves & ~X509CHECK_OPENSSL_ALL_CURVES) == 0
           && policy->minimum_rsa_bits >= X509CHECK_OPENSSL_RSA_BITS_LEAST && policy->minimum_rsa_bits <= X509CHECK_OPENSSL_RSA_BITS_MOST
           && policy->maximum_rsa_bits <= X509CHECK_OPENSSL_RSA_BITS_MOST;
}

/* Whether keys of that length are served: what longer ones cost is for the policy to say. */
static bool serves(const struct x509check_openssl_policy *policy, const struct x509check_openssl_key *key)
{
    uint32_t most = policy->maximum_rsa_bits == 0 ? X509CHECK_OPENSSL_RSA_BITS : policy->maximum_rsa_bits;

    return key->kind != KIND_RSA || key->bits <= most;
}

static bool allows(const struct x509check_openssl_policy *policy, const struct x509check_openssl_scheme *scheme,
                   const struct x509check_openssl_key *key)
{
    if (scheme->digest != NULL && (policy->digests & scheme->digest->bit) == 0)
        return false;
    if (scheme->is_pss && (policy->digests & scheme->pss.mask->bit) == 0)
        return false;
    return key->kind == KIND_RSA ? key->bits >= policy->minimum_rsa_bits : (policy->curves & key->curve) != 0;
}

/* What OpenSSL's queue of errors says of a failure: the last of these that is there. */
enum cause {
    NOTHING, /* no error, or one about the octets that are judged */
    POINT,   /* a point that is not on its curve */
    ANOTHER, /* what says nothing of the octets: an algorithm that cannot be found, as one may be for ever once memory was refused */
    NO_MEMORY
};

/* The words of a point that is not on its curve, or has no coordinates of it. */
static bool is_about_point(unsigned long error)
{
    int reason = ERR_GET_REASON(error);

    return ERR_GET_LIB(error) == ERR_LIB_EC
           && (reason == EC_R_POINT_IS_NOT_ON_CURVE || reason == EC_R_INVALID_ENCODING || reason == EC_R_INVALID_COMPRESSED_POINT
               || reason == EC_R_INVALID_COMPRESSION_BIT);
}

/* What is said of a text that has another layout, and of a signature that is wrong. */
static bool is_about_octets(unsigned long error)
{
    int reason = ERR_GET_REASON(error);

    switch (ERR_GET_LIB(error)) {
    case ERR_LIB_ASN1:
        return !ERR_COMMON_ERROR(error) || reason == ERR_R_NESTED_ASN1_ERROR;
    case ERR_LIB_RSA:
        return !ERR_COMMON_ERROR(error);
    case ERR_LIB_EC:
        return reason == EC_R_BAD_SIGNATURE;
    case ERR_LIB_PROV:
        return reason == ERR_R_RSA_LIB; /* (which stands behind one of RSA) */
    default:
        return false;
    }
}

/* Leaves the queue empty. */
static enum cause cause_of_failure(void)
{
    enum cause cause = NOTHING;

    for (unsigned long error = ERR_get_error(); error != 0; error = ERR_get_error()) {
        enum cause one = ERR_GET_REASON(error) == ERR_R_MALLOC_FAILURE ? NO_MEMORY
                         : is_about_point(error)                       ? POINT
                         : is_about_octets(error)                      ? NOTHING
                                                                       : ANOTHER;

        if (one > cause)
            cause = one;
    }
    return cause;
}

static enum x509check_openssl_status status_of(enum cause cause)
{
    return cause == NO_MEMORY ? X509CHECK_OPENSSL_NO_MEMORY : X509CHECK_OPENSSL_FAILED;
}

/* What is found, unless OpenSSL says that it failed for another cause than the octets. */
static enum x509check_openssl_status judged_as(enum x509check_openssl_judgement said, enum x509check_openssl_judgement *judgement)
{
    enum cause cause = cause_of_failure();

    if (cause != NOTHING)
        return status_of(cause);
    *judgement = said;
    return X509CHECK_OPENSSL_DONE;
}

/* Whether the thread has a queue of errors, for which OpenSSL takes memory at the first one: without it no failure would be told. */
static bool has_queue(void)
{
    ERR_clear_error();
    ERR_raise(ERR_LIB_USER, ERR_R_INTERNAL_ERROR);
    return ERR_get_error() != 0;
}

/* A point on the curve with that name, or null. OpenSSL's decoders would take it too, but report no lack of memory. */
static EVP_PKEY *ec_key_for_openssl(const struct x509check_openssl_key *key)
{
    OSSL_PARAM parts[] = {OSSL_PARAM_construct_utf8_string(OSSL_PKEY_PARAM_GROUP_NAME, (char *)key->group, 0),
                          OSSL_PARAM_construct_octet_string(OSSL_PKEY_PARAM_PUB_KEY, (void *)key->octets.octets, key->octets.length),
                          OSSL_PARAM_construct_end()};
    EVP_PKEY_CTX *context = EVP_PKEY_CTX_new_from_name(NULL, "EC", NULL);
    EVP_PKEY *made = NULL;

    if (context != NULL && EVP_PKEY_fromdata_init(context) == 1 && EVP_PKEY_fromdata(context, &made, EVP_PKEY_PUBLIC_KEY, parts) != 1)
        made = NULL;
    EVP_PKEY_CTX_free(context);
    return made;
}

/* The key for OpenSSL, or null: of RSA by its numbers alone, since what a key for RSASSA-PSS asks for is looked at here. */
static EVP_PKEY *key_for_openssl(const struct x509check_openssl_key *key)
{
    const unsigned char *at = key->octets.octets;

    switch (key->kind) {
    case KIND_RSA:
        return d2i_PublicKey(EVP_PKEY_RSA, NULL, &at, (long)key->octets.length);
    case KIND_EC:
        return ec_key_for_openssl(key);
    case KIND_ED25519:
        return EVP_PKEY_new_raw_public_key_ex(NULL, "ED25519", NULL, key->octets.octets, key->octets.length);
    case KIND_ED448:
        return EVP_PKEY_new_raw_public_key_ex(NULL, "ED448", NULL, key->octets.octets, key->octets.length);
    }
    return NULL;
}

static bool set_pss(EVP_PKEY_CTX *settings, const struct x509check_openssl_pss *pss)
{
    return EVP_PKEY_CTX_set_rsa_padding(settings, RSA_PKCS1_PSS_PADDING) == 1
           && EVP_PKEY_CTX_set_rsa_mgf1_md_name(settings, pss->mask->name, NULL) == 1
           && EVP_PKEY_CTX_set_rsa_pss_saltlen(settings, (int)pss->salt) == 1;
}

static bool begin(EVP_MD_CTX *context, const struct x509check_openssl_scheme *scheme, EVP_PKEY *key)
{
    EVP_PKEY_CTX *settings = NULL;
    const char *digest = scheme->digest == NULL ? NULL : scheme->digest->name;

    if (context == NULL || EVP_DigestVerifyInit_ex(context, &settings, digest, NULL, NULL, key, NULL) != 1)
        return false;
    EVP_MD_CTX_set_flags(context, EVP_MD_CTX_FLAG_FINALISE); /* it is not used again, so that OpenSSL need not copy it */
    return !scheme->is_pss || set_pss(settings, &scheme->pss);
}

/* Whatever is not 1 in the end is about the signature, unless OpenSSL says otherwise. */
static enum x509check_openssl_status verify_under(EVP_PKEY *key, const struct x509check_openssl_scheme *scheme,
                                                  const struct x509check_openssl_signature *asked,
                                                  enum x509check_openssl_judgement *judgement)
{
    const unsigned char *message = asked->message.length == 0 ? (const unsigned char *)"" : asked->message.octets;
    EVP_MD_CTX *context = EVP_MD_CTX_new();
    bool has_begun = begin(context, scheme, key);
    bool is_good =
        has_begun && EVP_DigestVerify(context, asked->signature.octets, asked->signature.length, message, asked->message.length) == 1;

    EVP_MD_CTX_free(context);
    *judgement = X509CHECK_OPENSSL_GOOD;
    if (is_good)
        return X509CHECK_OPENSSL_DONE;
    return has_begun ? judged_as(X509CHECK_OPENSSL_WRONG, judgement) : status_of(cause_of_failure());
}

/* Scheme and key are served here. If OpenSSL cannot use them, it has failed: that is no word on the signature, but of a point that is not
 * on its curve. */
static enum x509check_openssl_status verify(const struct x509check_openssl_scheme *scheme, const struct x509check_openssl_key *key,
                                            const struct x509check_openssl_signature *asked, enum x509check_openssl_judgement *judgement)
{
    EVP_PKEY *made = key_for_openssl(key);
    enum x509check_openssl_status status;
    enum cause cause;

    if (made == NULL) {
        cause = cause_of_failure();
        *judgement = X509CHECK_OPENSSL_NOT_SERVED;
        return cause == POINT ? X509CHECK_OPENSSL_DONE : status_of(cause);
    }
    status = verify_under(made, scheme, asked, judgement);
    EVP_PKEY_free(made);
    return status;
}

/* What can be read comes first, then what the policy lets, and only then what is right. */
static enum x509check_openssl_status judge_once(const struct x509check_openssl_signature *signature,
                                                const struct x509check_openssl_policy *policy, enum x509check_openssl_judgement *judgement)
{
    struct x509check_openssl_scheme scheme;
    struct x509check_openssl_key key;

    if (!has_queue())
        return X509CHECK_OPENSSL_NO_MEMORY;
    if (!x509check_openssl_read_scheme(signature->algorithm, &scheme) || !x509check_openssl_read_key(signature->key_info, &key)
        || !serves(policy, &key))
        return judged_as(X509CHECK_OPENSSL_NOT_SERVED, judgement);
    if (!allows(policy, &scheme, &key))
        return judged_as(X509CHECK_OPENSSL_REFUSED_BY_POLICY, judgement);
    if (!x509check_openssl_may_be_right(&scheme, &key, signature->signature))
        return judged_as(X509CHECK_OPENSSL_WRONG, judgement);
    return verify(&scheme, &key, signature, judgement);
}

/* OpenSSL does not report each lack of memory: what is not good is looked at once more. */
enum x509check_openssl_status x509check_openssl_judge(const struct x509check_openssl_signature *signature,
                                                      const struct x509check_openssl_policy *policy,
                                                      enum x509check_openssl_judgement *judgement)
{
    enum x509check_openssl_judgement first, second;
    enum x509check_openssl_status status;

    if (policy == NULL)
        policy = &default_policy;
    if (!is_policy(policy))
        return X509CHECK_OPENSSL_BAD_POLICY;
    status = judge_once(signature, policy, &first);
    if (status == X509CHECK_OPENSSL_DONE && first != X509CHECK_OPENSSL_GOOD) {
        status = judge_once(signature, policy, &second);
        if (status == X509CHECK_OPENSSL_DONE && first != second)
            status = X509CHECK_OPENSSL_FAILED;
    }
    if (status == X509CHECK_OPENSSL_DONE)
        *judgement = first;
    return status;
}

/* ---- The questions of a query or of a search. ---- */

/* What the questions are about: a query or a search, the other being null, and statements. */
struct subject {
    const struct x509check_query *query;
    const struct x509check_search *search;
    const struct x509check_text *statements;
    size_t statement_count;
};

static struct x509check_asked ask(const struct subject *about, struct x509check_signature_question *questions, size_t room)
{
    if (about->query != NULL)
        return x509check_questions(about->query, about->statements, about->statement_count, questions, room);
    return x509check_find_questions(about->search, about->statements, about->statement_count, questions, room);
}

/* Asks again with more room if there was too little. */
static enum x509check_openssl_status take_questions(const struct subject *about, struct x509check_openssl_judged *judged)
{
    size_t room = QUESTIONS_AT_FIRST;
    struct x509check_asked asked;

    for (;;) {
        judged->questions = calloc(room, sizeof *judged->questions);
        if (judged->questions == NULL)
            return X509CHECK_OPENSSL_NO_MEMORY;
        asked = ask(about, judged->questions, room);
        if (asked.count <= room)
            break;
        free(judged->questions);
        judged->questions = NULL;
        room = asked.count;
    }
    judged->count = asked.count;
    judged->refusal = asked.refusal;
    return asked.refusal.fault == X509CHECK_FAULT_MEMORY ? X509CHECK_OPENSSL_NO_MEMORY : X509CHECK_OPENSSL_DONE;
}

enum x509check_openssl_status x509check_openssl_take_questions(const struct x509check_query *query,
                                                               const struct x509check_text *statements, size_t statement_count,
                                                               struct x509check_openssl_judged *taken)
{
    *taken = (struct x509check_openssl_judged){0};
    return take_questions(&(struct subject){query, NULL, statements, statement_count}, taken);
}

static int by_fingerprint(const void *one, const void *other)
{
    const struct x509check_signature_question *first = one, *second = other;

    return memcmp(first->fingerprint, second->fingerprint, X509CHECK_FINGERPRINT_LENGTH);
}

/* One question may be there twice: of equal ones the first is kept. */
static void keep_different(struct x509check_openssl_judged *judged)
{
    size_t kept = 0;

    if (judged->count > 0)
        qsort(judged->questions, judged->count, sizeof *judged->questions, by_fingerprint);
    for (size_t i = 0; i < judged->count; i++) {
        if (i == 0 || by_fingerprint(&judged->questions[i], &judged->questions[kept - 1]) != 0)
            judged->questions[kept++] = judged->questions[i];
    }
    judged->count = kept;
}

static struct x509check_text certificate_of(const struct subject *about, size_t index)
{
    const struct x509check_search *search = about->search;

    if (about->query != NULL)
        return index == 0 ? about->query->anchor : about->query->path[index - 1];
    if (index < search->anchor_count)
        return search->anchors[index];
    return index == search->anchor_count ? search->target : search->bag[index - search->anchor_count - 1];
}

static struct x509check_text text_at(const struct subject *about, const struct x509check_place *place)
{
    struct x509check_text whole =
        place->text == X509CHECK_CERTIFICATES ? certificate_of(about, place->index) : about->statements[place->index];

    return (struct x509check_text){whole.octets + place->offset, place->length};
}

static enum x509check_openssl_status judge_each(const struct subject *about, const struct x509check_openssl_policy *policy,
                                                struct x509check_openssl_judged *judged)
{
    for (size_t i = 0; i < judged->count; i++) {
        const struct x509check_signature_question *question = &judged->questions[i];
        struct x509check_openssl_signature asked = {text_at(about, &question->algorithm), text_at(about, &question->key_info),
                                                    text_at(about, &question->message), text_at(about, &question->signature)};
        enum x509check_openssl_status status = x509check_openssl_judge(&asked, policy, &judged->judgements[i]);

        if (status != X509CHECK_OPENSSL_DONE)
            return status;
        if (judged->judgements[i] == X509CHECK_OPENSSL_GOOD)
            memcpy(judged->good + X509CHECK_FINGERPRINT_LENGTH * judged->good_count++, question->fingerprint,
                   X509CHECK_FINGERPRINT_LENGTH);
    }
    return X509CHECK_OPENSSL_DONE;
}

/* Whether there are too many questions to be built. They are counted first, as each takes memory in the library and here. */
static enum x509check_openssl_status count_questions(const struct subject *about, bool *are_too_many)
{
    size_t limit = about->search == NULL ? 0 : about->search->limits.signatures;
    size_t most = limit > X509CHECK_QUESTIONS_MOST ? limit : X509CHECK_QUESTIONS_MOST;
    enum x509check_amount amount = X509CHECK_FEW;

    if (about->search != NULL)
        amount = x509check_amount_of_questions(about->search, about->statements, about->statement_count, most);
    *are_too_many = amount == X509CHECK_MANY;
    return amount == X509CHECK_UNCOUNTED ? X509CHECK_OPENSSL_NO_MEMORY : X509CHECK_OPENSSL_DONE;
}

static enum x509check_openssl_status give_up(struct x509check_openssl_judged *judged)
{
    judged->count = 0;
    judged->gave_up = true;
    return X509CHECK_OPENSSL_DONE;
}

static enum x509check_openssl_status judge_all(const struct subject *about, const struct x509check_openssl_policy *policy,
                                               struct x509check_openssl_judged *judged)
{
    enum x509check_openssl_status status;
    bool are_too_many;

    *judged = (struct x509check_openssl_judged){0};
    if (policy != NULL && !is_policy(policy))
        return X509CHECK_OPENSSL_BAD_POLICY;
    status = count_questions(about, &are_too_many);
    if (status != X509CHECK_OPENSSL_DONE)
        return status;
    if (are_too_many)
        return give_up(judged);
    status = take_questions(about, judged);
    if (status != X509CHECK_OPENSSL_DONE || judged->count == 0)
        return status;
    keep_different(judged);
    if (about->search != NULL && judged->count > about->search->limits.signatures)
        return give_up(judged);
    judged->judgements = calloc(judged->count, sizeof *judged->judgements);
    judged->good = calloc(judged->count, X509CHECK_FINGERPRINT_LENGTH);
    if (judged->judgements == NULL || judged->good == NULL)
        return X509CHECK_OPENSSL_NO_MEMORY;
    return judge_each(about, policy, judged);
}

enum x509check_openssl_status x509check_openssl_judge_query(const struct x509check_query *query, const struct x509check_text *statements,
                                                            size_t statement_count, const struct x509check_openssl_policy *policy,
                                                            struct x509check_openssl_judged *judged)
{
    return judge_all(&(struct subject){query, NULL, statements, statement_count}, policy, judged);
}

enum x509check_openssl_status x509check_openssl_judge_search(const struct x509check_search *search,
                                                             const struct x509check_text *statements, size_t statement_count,
                                                             const struct x509check_openssl_policy *policy,
                                                             struct x509check_openssl_judged *judged)
{
    return judge_all(&(struct subject){NULL, search, statements, statement_count}, policy, judged);
}

void x509check_openssl_free(struct x509check_openssl_judged *judged)
{
    free(judged->questions);
    free(judged->judgements);
    free(judged->good);
    *judged = (struct x509check_openssl_judged){0};
}

/* ---- Verdicts. ---- */

/* What is said instead of X509CHECK_VALID, if a statement stands against it, which the refusal then names. */
static enum x509check_openssl_status settle(enum x509check_openssl_status status, const struct x509check_openssl_doubts *doubts,
                                            struct x509check_verdict *verdict)
{
    size_t statement = doubts->unjudged_count > 0 ? doubts->unjudged : doubts->revoking;

    if (status == X509CHECK_OPENSSL_DONE && doubts->unjudged_count > 0)
        status = X509CHECK_OPENSSL_UNJUDGED;
    else if (status == X509CHECK_OPENSSL_DONE && doubts->is_revoked)
        status = X509CHECK_OPENSSL_CONTRADICTED;
    if (status != X509CHECK_OPENSSL_DONE)
        *verdict = (struct x509check_verdict){0};
    if (status == X509CHECK_OPENSSL_UNJUDGED || status == X509CHECK_OPENSSL_CONTRADICTED)
        verdict->refusal = (struct x509check_refusal){.text = X509CHECK_STATEMENTS, .index = statement};
    return status;
}

/* A target that is not there for the purpose, by its keyUsage, is at fault as one whose extKeyUsage says so. */
static enum x509check_openssl_status match_usage(const struct x509check_query *query, struct x509check_verdict *verdict)
{
    uint32_t fault;

    if (query->path_count == 0 || x509check_key_usage_allows(query->path[query->path_count - 1], query->purpose, &fault))
        return X509CHECK_OPENSSL_DONE;
    *verdict = (struct x509check_verdict){0};
    if (fault != 0) /* (it was read before: only memory can lack) */
        return X509CHECK_OPENSSL_NO_MEMORY;
    verdict->verdict = X509CHECK_INVALID;
    verdict->reason = X509CHECK_RANK_PURPOSE;
    verdict->certificate = query->path_count;
    return X509CHECK_OPENSSL_DONE;
}

/* The verdict on a query whose signatures are judged. */
static enum x509check_openssl_status validate_judged(const struct x509check_query *query, const struct x509check_text *statements,
                                                     size_t statement_count, const struct x509check_openssl_judged *judged,
                                                     struct x509check_verdict *verdict)
{
    enum x509check_openssl_status status = X509CHECK_OPENSSL_DONE;
    struct x509check_openssl_doubts doubts;

    *verdict = x509check_validate(query, statements, statement_count, judged->good, judged->good_count);
    if (verdict->verdict == X509CHECK_REFUSED)
        return verdict->refusal.fault == X509CHECK_FAULT_MEMORY ? X509CHECK_OPENSSL_NO_MEMORY : status;
    if (verdict->verdict != X509CHECK_INVALID)
        status = match_usage(query, verdict);
    if (verdict->verdict != X509CHECK_VALID)
        return status;
    status = x509check_openssl_doubt(query, verdict->verdict, statements, statement_count, judged, &doubts);
    return settle(status, &doubts, verdict);
}

enum x509check_openssl_status x509check_openssl_validate(const struct x509check_query *query, const struct x509check_text *statements,
                                                         size_t statement_count, const struct x509check_openssl_policy *policy,
                                                         struct x509check_verdict *verdict)
{
    struct x509check_openssl_judged judged;
    enum x509check_openssl_status status = x509check_openssl_judge_query(query, statements, statement_count, policy, &judged);

    *verdict = (struct x509check_verdict){0};
    if (status == X509CHECK_OPENSSL_DONE)
        status = validate_judged(query, statements, statement_count, &judged, verdict);
    x509check_openssl_free(&judged);
    return status;
}

enum x509check_openssl_status x509check_openssl_find_judged(const struct x509check_search *search, const struct x509check_text *statements,
                                                            size_t statement_count, const struct x509check_openssl_judged *judged,
                                                            struct x509check_finding *finding, size_t *path)
{
    uint32_t fault = 0;

    *finding = (struct x509check_finding){.verdict.verdict = X509CHECK_GAVE_UP};
    if (judged->gave_up)
        return X509CHECK_OPENSSL_DONE;
    *finding = x509check_find(search, statements, statement_count, judged->good, judged->good_count, path, X509CHECK_PATH_ROOM);
    if (finding->path_count > 0 && !x509check_key_usage_allows(search->target, search->purpose, &fault))
        *finding = (struct x509check_finding){.verdict.verdict = X509CHECK_NOT_FOUND};
    /* (the target was read before: only memory can lack) */
    return fault != 0 || finding->verdict.refusal.fault == X509CHECK_FAULT_MEMORY ? X509CHECK_OPENSSL_NO_MEMORY : X509CHECK_OPENSSL_DONE;
}

enum x509check_openssl_status x509check_openssl_find(const struct x509check_search *search, const struct x509check_text *statements,
                                                     size_t statement_count, const struct x509check_openssl_policy *policy,
                                                     struct x509check_finding *finding, size_t *path, size_t room)
{
    struct x509check_openssl_judged judged;
    struct x509check_openssl_doubts doubts;
    size_t found[X509CHECK_PATH_ROOM];
    enum x509check_openssl_status status = x509check_openssl_judge_search(search, statements, statement_count, policy, &judged);

    *finding = (struct x509check_finding){0};
    if (status == X509CHECK_OPENSSL_DONE)
        status = x509check_openssl_find_judged(search, statements, statement_count, &judged, finding, found);
    if (status == X509CHECK_OPENSSL_DONE && finding->verdict.verdict == X509CHECK_VALID) {
        status = x509check_openssl_doubt_found(search, found, finding, statements, statement_count, &judged, &doubts);
        status = settle(status, &doubts, &finding->verdict);
        finding->path_count = status == X509CHECK_OPENSSL_DONE ? finding->path_count : 0;
    }
    for (size_t i = 0; i < finding->path_count && i < room; i++)
        path[i] = found[i];
    x509check_openssl_free(&judged);
    return status;
}
