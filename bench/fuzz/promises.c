#include "promises.h"

#include <string.h>

#include "checker.h"
#include "sha256.h"

#define PROMISE(holds, words) \
    do {                      \
        if (!(holds))         \
            return words;     \
    } while (0)

bool is_same_answer(const struct x509check_answer *one, const struct x509check_answer *other)
{
    return one->fault == other->fault && one->offset == other->offset;
}

static bool is_same_part(struct x509check_part one, struct x509check_part other)
{
    return one.offset == other.offset && one.length == other.length;
}

static bool are_same_extensions(const struct x509check_extensions *one, const struct x509check_extensions *other)
{
    return one->has_basic_constraints == other->has_basic_constraints && one->is_authority == other->is_authority
        && one->has_path_length == other->has_path_length && one->has_key_usage == other->has_key_usage
        && one->needs_policy_processing == other->needs_policy_processing && one->no_check == other->no_check
        && one->path_length == other->path_length && one->key_usage == other->key_usage
        && one->alternative_names == other->alternative_names && one->permitted_subtrees == other->permitted_subtrees
        && one->excluded_subtrees == other->excluded_subtrees && one->purposes == other->purposes
        && one->unrecognised == other->unrecognised;
}

static bool are_same_fields(const struct x509check_fields *one, const struct x509check_fields *other)
{
    return one->version == other->version && one->not_before == other->not_before && one->not_after == other->not_after
        && is_same_part(one->tbs, other->tbs) && is_same_part(one->serial, other->serial)
        && is_same_part(one->algorithm, other->algorithm) && is_same_part(one->issuer, other->issuer)
        && is_same_part(one->subject, other->subject)
        && is_same_part(one->subject_public_key_info, other->subject_public_key_info) && is_same_part(one->key, other->key)
        && is_same_part(one->signature, other->signature) && are_same_extensions(&one->extensions, &other->extensions);
}

bool is_same_certificate(const struct x509check_certificate *one, const struct x509check_certificate *other)
{
    return one->fault == other->fault && one->der_fault == other->der_fault && one->offset == other->offset
        && are_same_fields(&one->fields, &other->fields);
}

static const struct x509check_fields NO_FIELDS = {0};

bool is_want_of_memory(const struct x509check_certificate *answer)
{
    return answer->fault == X509CHECK_FAULT_MEMORY && answer->der_fault == 0 && answer->offset == 0
        && are_same_fields(&answer->fields, &NO_FIELDS);
}

const char *broken_of_check(const uint8_t *octets, size_t length, const struct x509check_answer *answer)
{
    size_t offset = 0;
    enum checker_rule rule = checker_check(octets, length, &offset);

    PROMISE(answer->fault <= 7, "the fault of a check is 0 to 7");
    PROMISE(answer->fault == rule, "the fault is the one of the plain C checker");
    PROMISE(answer->fault != 0 || answer->offset == 0, "the offset is 0 where there is no fault");
    PROMISE(answer->fault == 0 || answer->offset == offset, "the offset is the one of the plain C checker");
    PROMISE(answer->offset <= length, "the offset lies within the text");
    return NULL;
}

static bool is_nothing_refused(const struct x509check_refusal *refusal)
{
    return refusal->text == 0 && refusal->fault == 0 && refusal->der_fault == 0 && refusal->index == 0 && refusal->offset == 0;
}

static bool is_invalid(const struct x509check_verdict *answer, size_t certificate, uint32_t reason)
{
    return answer->verdict == X509CHECK_INVALID && answer->certificate == certificate && answer->reason == reason
        && is_nothing_refused(&answer->refusal);
}

/* What holds of any refusal. */
static const char *broken_of_refused(uint32_t text, size_t index, const struct x509check_verdict *answer)
{
    PROMISE(answer->verdict == X509CHECK_REFUSED, "what cannot be read is refused");
    PROMISE(answer->reason == 0 && answer->certificate == 0, "a refusal has no reason and no certificate");
    PROMISE(answer->refusal.text == text && answer->refusal.index == index, "text and index are those of what is refused");
    PROMISE(x509check_fault_name(answer->refusal.fault, NULL, 0) > 0, "each fault has a name");
    return NULL;
}

/* A certificate with this number is refused as reading it says. */
static const char *broken_of_refused_certificate(size_t index, const struct x509check_certificate *read,
                                                 const struct x509check_verdict *answer)
{
    const struct x509check_refusal *refusal = &answer->refusal;
    const char *broken;

    if ((broken = broken_of_refused(X509CHECK_CERTIFICATES, index, answer)) != NULL)
        return broken;
    PROMISE(refusal->fault == read->fault && refusal->der_fault == read->der_fault && refusal->offset == read->offset,
            "the fault of a certificate is the one that reading it answers");
    return NULL;
}

const char *broken_of_path(size_t index, const struct x509check_certificate *read, const struct x509check_verdict *answer)
{
    if (read->fault == 0) {
        PROMISE(index != 0 || is_invalid(answer, 0, 15), "an anchor alone is an empty path");
        PROMISE(index == 0 || is_invalid(answer, 1, 2), "no path is valid without a fingerprint");
        return NULL;
    }
    return broken_of_refused_certificate(index, read, answer);
}

const char *broken_of_search(size_t index, const struct x509check_certificate *read, const struct x509check_limits *limits,
                             const struct x509check_finding *answer)
{
    const struct x509check_verdict *verdict = &answer->verdict;

    PROMISE(answer->path_count == 0, "no path is found without a fingerprint");
    if (read->fault != 0)
        return broken_of_refused_certificate(index, read, verdict);
    PROMISE(verdict->certificate == 0 && verdict->reason == 0 && is_nothing_refused(&verdict->refusal), "what has no number is 0");
    PROMISE(verdict->verdict == X509CHECK_NOT_FOUND || verdict->verdict == X509CHECK_GAVE_UP, "nothing is found without a fingerprint");
    PROMISE(verdict->verdict == X509CHECK_NOT_FOUND || limits->signatures < 6 || limits->steps < 2,
            "a search does not give up if its limits suffice");
    return NULL;
}

const char *broken_of_statement(size_t index, size_t length, const struct x509check_verdict *answer)
{
    const char *broken;

    if (answer->verdict != X509CHECK_REFUSED) {
        PROMISE(is_invalid(answer, 0, 15), "an anchor alone is an empty path");
        return NULL;
    }
    if ((broken = broken_of_refused(X509CHECK_STATEMENTS, index, answer)) != NULL)
        return broken;
    PROMISE(answer->refusal.offset <= length, "the offset lies within the text");
    PROMISE((answer->refusal.fault == X509CHECK_FAULT_STATEMENT_DER) == (answer->refusal.der_fault != 0),
            "the rule of DER is told where the fault is one of DER");
    return NULL;
}

static bool is_fault(uint32_t fault)
{
    return fault == 0 || (fault >= 11 && fault <= 17) || (fault >= 21 && fault <= 32);
}

/* Of a text that is no certificate. */
static const char *broken_of_refusal(const uint8_t *octets, size_t length, const struct x509check_certificate *answer)
{
    size_t offset = 0;
    enum checker_rule rule = checker_check(octets, length, &offset);

    PROMISE(are_same_fields(&answer->fields, &NO_FIELDS), "the fields are 0 where there is a fault");
    PROMISE(answer->offset <= length, "the offset lies within the text");
    if (rule == CHECKER_ACCEPTED)
        return NULL;
    PROMISE(answer->fault == X509CHECK_FAULT_DER, "a text that is not DER has the fault of DER");
    PROMISE(answer->der_fault == rule, "the fault of DER is the one of the plain C checker");
    PROMISE(answer->offset == offset, "the offset of a fault of DER is the one of the plain C checker");
    return NULL;
}

static size_t end_of(struct x509check_part part)
{
    return part.offset + part.length;
}

static bool is_within(struct x509check_part part, size_t from, size_t to)
{
    return part.length <= to && part.offset >= from && part.offset <= to - part.length;
}

/* Whether a part is the whole encoding of a SEQUENCE. */
static bool is_sequence(const uint8_t *octets, struct x509check_part part)
{
    size_t offset;

    return part.length >= 2 && octets[part.offset] == 0x30
        && checker_check(octets + part.offset, part.length, &offset) == CHECKER_ACCEPTED;
}

static const char *broken_of_parts(size_t length, const struct x509check_fields *fields)
{
    size_t end = end_of(fields->tbs);

    PROMISE(is_within(fields->tbs, 2, length), "the signed part lies within the text");
    PROMISE(is_within(fields->serial, fields->tbs.offset, end), "the serial number lies within the signed part");
    PROMISE(is_within(fields->algorithm, end_of(fields->serial), end), "the algorithm lies in the signed part behind the serial number");
    PROMISE(is_within(fields->issuer, end_of(fields->algorithm), end), "the issuer lies in the signed part behind the algorithm");
    PROMISE(is_within(fields->subject, end_of(fields->issuer), end), "the subject lies in the signed part behind the issuer");
    PROMISE(is_within(fields->subject_public_key_info, end_of(fields->subject), end),
            "the key info lies in the signed part behind the subject");
    PROMISE(is_within(fields->key, fields->subject_public_key_info.offset, end_of(fields->subject_public_key_info)),
            "the key lies within the key info");
    PROMISE(is_within(fields->signature, end, length), "the signature lies behind the signed part");
    PROMISE(end_of(fields->signature) == length, "the signature ends the text");
    return NULL;
}

static const char *broken_of_octets(const uint8_t *octets, const struct x509check_fields *fields)
{
    PROMISE(is_sequence(octets, fields->tbs), "the signed part is a whole encoding");
    PROMISE(is_sequence(octets, fields->algorithm), "the algorithm is a whole encoding");
    PROMISE(is_sequence(octets, fields->issuer), "the issuer is a whole encoding");
    PROMISE(is_sequence(octets, fields->subject), "the subject is a whole encoding");
    PROMISE(is_sequence(octets, fields->subject_public_key_info), "the key info is a whole encoding");
    PROMISE(fields->serial.length >= 1 && fields->serial.length <= 32, "the serial number has 1 to 32 octets");
    PROMISE(octets[fields->serial.offset - 2] == 0x02 && octets[fields->serial.offset - 1] == fields->serial.length,
            "the serial number is the contents of an INTEGER");
    PROMISE(octets[fields->key.offset - 1] < 8, "a count of unused bits stands before the key");
    PROMISE(octets[fields->signature.offset - 1] == 0, "the count of unused bits before the signature is 0");
    return NULL;
}

/* Whether each bool is 0 or 1 in memory, where another octet could be taken for either. */
static bool are_bools(const struct x509check_extensions *told)
{
    uint8_t octets[6];

    memcpy(octets, told, sizeof octets);
    for (size_t i = 0; i < sizeof octets; i++)
        if (octets[i] > 1)
            return false;
    return true;
}

static bool is_nothing(const struct x509check_extensions *told)
{
    return are_same_extensions(told, &NO_FIELDS.extensions);
}

static const char *broken_of_extensions(const struct x509check_extensions *told)
{
    PROMISE(are_bools(told), "a bool is 0 or 1");
    PROMISE(told->has_basic_constraints || (!told->is_authority && !told->has_path_length),
            "without basic constraints there is no authority and no path length");
    PROMISE(told->has_path_length || told->path_length == 0, "without a path length it is 0");
    PROMISE(told->has_key_usage || told->key_usage == 0, "without a key usage it is 0");
    PROMISE(told->key_usage < 1u << 9, "a key usage has nine bits");
    PROMISE(told->alternative_names <= 4096, "there are at most 4,096 alternative names");
    PROMISE(told->permitted_subtrees + told->excluded_subtrees <= 4096, "there are at most 4,096 subtrees");
    return NULL;
}

const char *broken_of_certificate(const uint8_t *octets, size_t length, const struct x509check_certificate *answer)
{
    const struct x509check_fields *fields = &answer->fields;
    const char *broken;
    size_t offset;

    PROMISE(is_fault(answer->fault), "the fault of a certificate is 0, 11 to 17 or 21 to 32 where memory is there");
    PROMISE((answer->fault == X509CHECK_FAULT_DER) == (answer->der_fault != 0) && answer->der_fault <= 7,
            "a fault of DER is told exactly where the fault is DER's");
    if (answer->fault != 0)
        return broken_of_refusal(octets, length, answer);
    PROMISE(answer->offset == 0, "the offset is 0 where there is no fault");
    PROMISE(checker_check(octets, length, &offset) == CHECKER_ACCEPTED, "a certificate is DER for the plain C checker");
    PROMISE(fields->version >= 1 && fields->version <= 3, "the version is 1 to 3");
    PROMISE(fields->version == 3 || is_nothing(&fields->extensions), "only version 3 has extensions");
    if ((broken = broken_of_parts(length, fields)) != NULL)
        return broken;
    if ((broken = broken_of_octets(octets, fields)) != NULL)
        return broken;
    return broken_of_extensions(&fields->extensions);
}

static void add_framed(struct sha256 *state, const uint8_t *octets, size_t length)
{
    uint8_t framed[8];

    for (int i = 0; i < 8; i++)
        framed[i] = (uint8_t)((uint64_t)length >> 8 * (7 - i));
    sha256_add(state, framed, sizeof framed);
    sha256_add(state, octets, length);
}

static void add_part(struct sha256 *state, const uint8_t *octets, struct x509check_part part)
{
    add_framed(state, octets + part.offset, part.length);
}

const char *broken_of_fingerprint(const uint8_t *octets, const struct x509check_fields *fields,
                                  const uint8_t fingerprint[X509CHECK_FINGERPRINT_LENGTH])
{
    struct sha256 state;
    uint8_t digest[32];

    sha256_begin(&state);
    add_part(&state, octets, fields->algorithm);
    add_part(&state, octets, fields->subject_public_key_info);
    add_part(&state, octets, fields->tbs);
    add_part(&state, octets, fields->signature);
    sha256_end(&state, digest);
    PROMISE(memcmp(digest, fingerprint, sizeof digest) == 0, "the fingerprint is the SHA-256 of four texts behind their lengths");
    return NULL;
}

/* The text that a place is in; it has no octets if there is none. */
static struct x509check_text text_at(const struct asking *asking, const struct x509check_place *place)
{
    if (place->text == X509CHECK_CERTIFICATES && place->index < asking->certificate_count)
        return asking->certificates[place->index];
    if (place->text == X509CHECK_STATEMENTS && place->index < asking->statement_count)
        return asking->statements[place->index];
    return (struct x509check_text){NULL, 0};
}

static const char *broken_of_question(const struct asking *asking, const struct x509check_signature_question *question)
{
    const struct x509check_place places[] = {question->algorithm, question->key_info, question->message, question->signature};
    struct sha256 state;
    uint8_t digest[32];

    sha256_begin(&state);
    for (size_t i = 0; i < 4; i++) {
        struct x509check_text text = text_at(asking, &places[i]);

        PROMISE(text.octets != NULL, "a place is in a certificate or in a statement");
        PROMISE(places[i].length <= text.length && places[i].offset <= text.length - places[i].length, "a place lies within its text");
        add_framed(&state, text.octets + places[i].offset, places[i].length);
    }
    sha256_end(&state, digest);
    PROMISE(memcmp(digest, question->fingerprint, sizeof digest) == 0, "the fingerprint of a question is that of the octets at its places");
    return NULL;
}

const char *broken_of_questions(const struct asking *asking, const struct x509check_asked *asked,
                                const struct x509check_signature_question *questions, size_t room)
{
    size_t written = asked->count < room ? asked->count : room;
    const char *broken;

    PROMISE((asked->refusal.fault == 0) == (asked->refusal.text == 0) && asked->refusal.text <= X509CHECK_STATEMENTS,
            "a text is told where it is refused");
    PROMISE(asked->refusal.fault == 0 || asked->count == 0, "there is no question where a text is refused");
    for (size_t i = 0; i < written; i++)
        if ((broken = broken_of_question(asking, &questions[i])) != NULL)
            return broken;
    for (const uint8_t *octet = (const uint8_t *)&questions[written]; octet < (const uint8_t *)&questions[room]; octet++)
        PROMISE(*octet == 0xA5, "only questions are written");
    return NULL;
}
