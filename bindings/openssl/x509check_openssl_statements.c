/* Which statements at hand stand against a verdict. */
#include <stdlib.h>
#include <string.h>

#include "../c/x509check_common.h"
#include "x509check_openssl_statements.h"

/* A path has at most 128 certificates if its verdict is valid or unknown (docs/REFERENCE.md, "Profile"). */
#define CERTIFICATES_MOST (X509CHECK_PATH_ROOM - 1)
#define ANY SIZE_MAX

/* How a signature, or a statement, stands. The better of two ways to be genuine counts, and the worse of two signatures of one way. */
enum standing { WRONG, UNJUDGED, GOOD };

/* A genuine statement of an issuer of the path. */
struct genuine {
    size_t statement;
    size_t issuer; /* its number on the path, one less than that of the certificate below it */
    bool revokes;  /* that certificate */
};

struct look {
    const struct x509check_query *query;
    const struct x509check_text *statements;
    size_t statement_count;
    const struct x509check_openssl_judged *judged;
    struct x509check_text serials[CERTIFICATES_MOST]; /* of the certificates below the anchor */
    struct x509check_openssl_judged asked;            /* the questions about the path and the statements, in the library's order */
    struct genuine *genuine;
    size_t genuine_count;
    size_t revoking_count;
};

/* ---- Judgements. ---- */

static int by_fingerprint(const void *fingerprint, const void *question)
{
    return memcmp(fingerprint, ((const struct x509check_signature_question *)question)->fingerprint, X509CHECK_FINGERPRINT_LENGTH);
}

static enum standing standing_of(const struct look *look, const struct x509check_signature_question *question)
{
    const struct x509check_openssl_judged *judged = look->judged;
    const struct x509check_signature_question *found =
        judged->count == 0 ? NULL
                           : bsearch(question->fingerprint, judged->questions, judged->count, sizeof *judged->questions, by_fingerprint);

    if (found == NULL) /* (each was judged) */
        return UNJUDGED;
    switch (judged->judgements[found - judged->questions]) {
    case X509CHECK_OPENSSL_GOOD:
        return GOOD;
    case X509CHECK_OPENSSL_WRONG:
        return WRONG;
    default:
        return UNJUDGED;
    }
}

static enum standing better(enum standing one, enum standing other)
{
    return one > other ? one : other;
}

static enum standing worse(enum standing one, enum standing other)
{
    return one < other ? one : other;
}

/* ---- What a statement says of a serial number. ---- */

static bool is_same(struct x509check_text one, struct x509check_text other)
{
    return one.length == other.length && memcmp(one.octets, other.octets, one.length) == 0;
}

/* Whether the first INTEGER of the text has these contents. */
static bool begins_with(struct x509check_text text, struct x509check_text serial)
{
    struct x509check_value value;

    return x509check_next_of(&text, X509CHECK_INTEGER, &value) && is_same(value.contents, serial);
}

/* A single response (RFC 6960, 4.2.1). Both times are YYYYMMDDHHMMSSZ. */
struct single {
    struct x509check_text this_update, produced_at;
    bool is_revoked;
};

/* Goes into the single responses of a BasicOCSPResponse: responses is the only SEQUENCE of ResponseData, behind producedAt. */
static bool enter_singles(struct x509check_text *rest, struct x509check_text *produced_at)
{
    struct x509check_value time = {0};
    bool is_there = x509check_enter(rest, X509CHECK_SEQUENCE) && x509check_next_of(rest, X509CHECK_GENERALIZED_TIME, &time)
                    && x509check_enter(rest, X509CHECK_SEQUENCE);

    *produced_at = time.contents;
    return is_there;
}

/* Takes the next single response about the certificate; false if there is none. */
static bool next_about(struct x509check_text *rest, struct x509check_text serial, struct single *found)
{
    struct x509check_value single, id, status, this_update;

    while (x509check_next_value(rest, &single)) {
        if (x509check_next_value(&single.contents, &id) && x509check_next_value(&single.contents, &status)
            && x509check_next_value(&single.contents, &this_update) && begins_with(id.contents, serial)) {
            found->is_revoked = status.identifier == X509CHECK_TAGGED_1;
            found->this_update = this_update.contents;
            return true;
        }
    }
    return false;
}

/* Whether a response has a single response by which the certificate is revoked. `rest` is BasicOCSPResponse. */
static bool response_revokes(struct x509check_text rest, struct x509check_text serial)
{
    struct single single;

    if (!enter_singles(&rest, &single.produced_at))
        return false;
    while (next_about(&rest, serial, &single)) {
        if (single.is_revoked)
            return true;
    }
    return false;
}

/* Whether a list has the certificate (RFC 5280, 5.1). Behind signature and issuer its entries are the third SEQUENCE of the signed part. */
static bool list_revokes(struct x509check_text rest, struct x509check_text serial)
{
    struct x509check_value passed, entry;

    if (!x509check_enter(&rest, X509CHECK_SEQUENCE) || !x509check_enter(&rest, X509CHECK_SEQUENCE)
        || !x509check_next_of(&rest, X509CHECK_SEQUENCE, &passed) || !x509check_next_of(&rest, X509CHECK_SEQUENCE, &passed)
        || !x509check_enter(&rest, X509CHECK_SEQUENCE))
        return false;
    while (x509check_next_value(&rest, &entry)) {
        if (begins_with(entry.contents, serial))
            return true;
    }
    return false;
}

static bool revokes(struct x509check_text statement, struct x509check_text serial)
{
    return x509check_enter_response(&statement) ? response_revokes(statement, serial) : list_revokes(statement, serial);
}

/* ---- How each statement stands under the issuers of the path. ---- */

/* Whether the question is about the certificate of a delegate that comes with a response. A certificate has its algorithm inside of the
 * signed part, a response behind it. */
static bool is_about_delegate(const struct look *look, const struct x509check_signature_question *question)
{
    const struct x509check_place *message = &question->message, *algorithm = &question->algorithm;
    struct x509check_text statement = look->statements[message->index];

    return x509check_enter_response(&statement) && algorithm->offset < message->offset + message->length;
}

/* Of the questions about one statement under one issuer, from the first on; the number of the first behind them is written to `next`. A
 * delegate that may sign is asked about by two: whether it is one, and whether it signed. */
static enum standing standing_under(const struct look *look, size_t first, size_t *next)
{
    const struct x509check_signature_question *questions = look->asked.questions;
    size_t statement = questions[first].message.index, issuer = questions[first].key_info.index, at = first;
    enum standing best = WRONG, delegate = WRONG;

    for (; at < look->asked.count && questions[at].message.index == statement; at++) {
        enum standing one = standing_of(look, &questions[at]);

        if (questions[at].key_info.text == X509CHECK_STATEMENTS)
            best = better(best, worse(delegate, one));
        else if (questions[at].key_info.index != issuer)
            break;
        else if (is_about_delegate(look, &questions[at]))
            delegate = one;
        else
            best = better(best, one);
    }
    *next = at;
    return best;
}

/* Notes each statement that nobody could judge under any issuer, and each that revokes. */
static void look_at_each(struct look *look, struct x509check_openssl_doubts *doubts)
{
    const struct x509check_signature_question *questions = look->asked.questions;
    size_t at = look->query->path_count; /* behind the questions about the path */

    while (at < look->asked.count) {
        size_t statement = questions[at].message.index;
        enum standing best = WRONG;

        while (at < look->asked.count && questions[at].message.index == statement) {
            size_t issuer = questions[at].key_info.index;
            enum standing standing = standing_under(look, at, &at);

            if (standing == GOOD) {
                bool is_revoking = revokes(look->statements[statement], look->serials[issuer]);

                look->genuine[look->genuine_count++] = (struct genuine){statement, issuer, is_revoking};
                look->revoking_count += is_revoking;
            }
            best = better(best, standing);
        }
        if (best == UNJUDGED && doubts->unjudged_count++ == 0)
            doubts->unjudged = statement;
    }
}

/* ---- Whether what revokes is outweighed. ---- */

/* Whether the statement revokes what the issuer issued, or any certificate if that is ANY. */
static bool is_revoking(const struct genuine *genuine, size_t issuer)
{
    return genuine->revokes && (issuer == ANY || genuine->issuer == issuer);
}

/* The first statement that does so; null if none does. */
static const struct genuine *first_revoking(const struct look *look, size_t issuer)
{
    for (size_t i = 0; i < look->genuine_count; i++) {
        if (is_revoking(&look->genuine[i], issuer))
            return &look->genuine[i];
    }
    return NULL;
}

/* Asks whether the query is still valid if these statements come before all others: of two with one number, or the same times, the first
 * counts (RFC 5280, 5.2.3; RFC 6960, 2.4). */
static enum x509check_openssl_status ask_first(const struct look *look, const struct x509check_query *query, struct x509check_text *texts,
                                               size_t count, bool *is_valid)
{
    struct x509check_verdict verdict;

    memcpy(texts + count, look->statements, look->statement_count * sizeof *texts);
    verdict = x509check_validate(query, texts, count + look->statement_count, look->judged->good, look->judged->good_count);
    *is_valid = verdict.verdict == X509CHECK_VALID;
    return verdict.refusal.fault == X509CHECK_FAULT_MEMORY ? X509CHECK_OPENSSL_NO_MEMORY : X509CHECK_OPENSSL_DONE;
}

/* Notes whether all that revoke together come before the others, and then the first that does so by itself, if one does. */
static enum x509check_openssl_status ask_again(const struct look *look, const struct x509check_query *query, size_t issuer,
                                               struct x509check_openssl_doubts *doubts)
{
    struct x509check_text *texts = calloc(look->revoking_count + look->statement_count, sizeof *texts);
    enum x509check_openssl_status status;
    bool is_valid = true;
    size_t count = 0;

    if (texts == NULL)
        return X509CHECK_OPENSSL_NO_MEMORY;
    for (size_t i = 0; i < look->genuine_count; i++) {
        if (is_revoking(&look->genuine[i], issuer))
            texts[count++] = look->statements[look->genuine[i].statement];
    }
    status = ask_first(look, query, texts, count, &is_valid);
    if (status == X509CHECK_OPENSSL_DONE && !is_valid) {
        doubts->is_revoked = true;
        doubts->revoking = first_revoking(look, issuer)->statement;
        is_valid = true;
    }
    for (size_t i = 0; i < look->genuine_count && status == X509CHECK_OPENSSL_DONE && doubts->is_revoked && is_valid; i++) {
        if (!is_revoking(&look->genuine[i], issuer))
            continue;
        texts[0] = look->statements[look->genuine[i].statement];
        status = ask_first(look, query, texts, 1, &is_valid);
        if (!is_valid)
            doubts->revoking = look->genuine[i].statement;
    }
    free(texts);
    return status;
}

/* ---- Responses that say two things of one time. ---- */

static int compare_times(const struct single *one, const struct single *other)
{
    size_t length = one->this_update.length;
    int order = length == other->this_update.length ? memcmp(one->this_update.octets, other->this_update.octets, length) : 0;

    length = one->produced_at.length;
    return order != 0 || length != other->produced_at.length ? order : memcmp(one->produced_at.octets, other->produced_at.octets, length);
}

/* Whether the newest single responses about what an issuer issued say that it is revoked, and that it is not. (Inside of one response no
 * order can be changed.) */
static bool is_split(const struct look *look, size_t issuer, struct x509check_openssl_doubts *doubts)
{
    struct single newest = {{NULL, 0}, {NULL, 0}, false}, single;
    bool is_good = false, is_revoked = false;

    for (size_t i = 0; i < look->genuine_count; i++) {
        struct x509check_text rest = look->statements[look->genuine[i].statement];

        if (look->genuine[i].issuer != issuer || !x509check_enter_response(&rest) || !enter_singles(&rest, &single.produced_at))
            continue;
        while (next_about(&rest, look->serials[issuer], &single)) {
            int order = newest.this_update.octets == NULL ? 1 : compare_times(&single, &newest);

            if (order > 0) {
                newest = single;
                is_good = is_revoked = false;
            }
            if (order >= 0 && single.is_revoked)
                doubts->revoking = look->genuine[i].statement;
            is_revoked |= order >= 0 && single.is_revoked;
            is_good |= order >= 0 && !single.is_revoked;
        }
    }
    return is_good && is_revoked;
}

/* The question about one certificate of the path under its issuer, the anchor having the number 0. */
static struct x509check_query query_under(const struct x509check_query *query, size_t issuer)
{
    return (struct x509check_query){.anchor = issuer == 0 ? query->anchor : query->path[issuer - 1],
                                    .path = &query->path[issuer],
                                    .path_count = 1,
                                    .moment = query->moment,
                                    .wide = query->wide};
}

/* A path that is valid has to stay so. If it is unknown, each certificate that a statement revokes, perhaps one that has lapsed, has to be
 * valid by itself: then something newer speaks for it. */
static enum x509check_openssl_status weigh(const struct look *look, uint32_t verdict, struct x509check_openssl_doubts *doubts)
{
    enum x509check_openssl_status status = X509CHECK_OPENSSL_DONE;

    if (look->revoking_count == 0)
        return status;
    for (size_t issuer = 0; issuer < look->query->path_count; issuer++) {
        if (is_split(look, issuer, doubts)) {
            doubts->is_revoked = true;
            return status;
        }
    }
    if (verdict == X509CHECK_VALID)
        return ask_again(look, look->query, ANY, doubts);
    for (size_t issuer = 0; issuer < look->query->path_count && status == X509CHECK_OPENSSL_DONE && !doubts->is_revoked; issuer++) {
        struct x509check_query one = query_under(look->query, issuer);

        if (first_revoking(look, issuer) != NULL)
            status = ask_again(look, &one, issuer, doubts);
    }
    return status;
}

/* ---- The calls. ---- */

static bool read_serials(struct look *look)
{
    for (size_t i = 0; i < look->query->path_count; i++) {
        struct x509check_text text = look->query->path[i];
        struct x509check_certificate read = x509check_read_certificate(text.octets, text.length);

        if (read.fault != 0) /* (the path was read before: only memory can lack) */
            return false;
        look->serials[i] = (struct x509check_text){text.octets + read.fields.serial.offset, read.fields.serial.length};
    }
    return true;
}

enum x509check_openssl_status x509check_openssl_doubt(const struct x509check_query *query, uint32_t verdict,
                                                      const struct x509check_text *statements, size_t statement_count,
                                                      const struct x509check_openssl_judged *judged,
                                                      struct x509check_openssl_doubts *doubts)
{
    struct look look = {.query = query, .statements = statements, .statement_count = statement_count, .judged = judged};
    enum x509check_openssl_status status;

    *doubts = (struct x509check_openssl_doubts){0};
    if (statement_count == 0)
        return X509CHECK_OPENSSL_DONE;
    status = query->path_count <= CERTIFICATES_MOST && read_serials(&look) ? X509CHECK_OPENSSL_DONE : X509CHECK_OPENSSL_NO_MEMORY;
    if (status == X509CHECK_OPENSSL_DONE)
        status = x509check_openssl_take_questions(query, statements, statement_count, &look.asked);
    if (status == X509CHECK_OPENSSL_DONE) {
        look.genuine = calloc(look.asked.count + 1, sizeof *look.genuine);
        status = look.genuine == NULL ? X509CHECK_OPENSSL_NO_MEMORY : X509CHECK_OPENSSL_DONE;
    }
    if (status == X509CHECK_OPENSSL_DONE) {
        look_at_each(&look, doubts);
        status = weigh(&look, verdict, doubts);
    }
    x509check_openssl_free(&look.asked);
    free(look.genuine);
    return status;
}

enum x509check_openssl_status x509check_openssl_doubt_found(const struct x509check_search *search, const size_t *path,
                                                            const struct x509check_finding *finding,
                                                            const struct x509check_text *statements, size_t statement_count,
                                                            const struct x509check_openssl_judged *judged,
                                                            struct x509check_openssl_doubts *doubts)
{
    struct x509check_text below[CERTIFICATES_MOST];
    struct x509check_query query = {.anchor = search->anchors[path[0]],
                                    .path = below,
                                    .path_count = finding->path_count - 1,
                                    .moment = search->moment,
                                    .purpose = search->purpose,
                                    .wide = search->wide};

    for (size_t i = 0; i < query.path_count; i++) {
        size_t number = path[i + 1] - search->anchor_count;

        below[i] = number == 0 ? search->target : search->bag[number - 1];
    }
    return x509check_openssl_doubt(&query, finding->verdict.verdict, statements, statement_count, judged, doubts);
}
