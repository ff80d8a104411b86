/* What the sources of bindings/openssl and bindings/party share, outside of what is proved: values of DER, keyUsage by purpose, and how
 * many questions a search asks. Not for users. */
#ifndef X509CHECK_COMMON_H
#define X509CHECK_COMMON_H

#include <stdlib.h>
#include <string.h>

#include "x509check.h"

/* ---- Values of DER, in texts that the library has read or reads next. ---- */

struct x509check_value {
    uint8_t identifier;
    struct x509check_text contents;
};

enum x509check_identifier {
    X509CHECK_INTEGER = 0x02,
    X509CHECK_OCTET_STRING = 0x04,
    X509CHECK_ENUMERATED = 0x0A,
    X509CHECK_UTF8_STRING = 0x0C,
    X509CHECK_PRINTABLE_STRING = 0x13,
    X509CHECK_IA5_STRING = 0x16,
    X509CHECK_GENERALIZED_TIME = 0x18,
    X509CHECK_SEQUENCE = 0x30,
    X509CHECK_SET = 0x31,
    X509CHECK_TAGGED_0 = 0xA0,
    X509CHECK_TAGGED_1 = 0xA1
};

/* Takes a value off the front of the text; false if there is none. */
static inline bool x509check_next_value(struct x509check_text *rest, struct x509check_value *value)
{
    const uint8_t *at = rest->octets;
    size_t header = 2, length, count;

    if (rest->length < header)
        return false;
    length = at[1];
    if (length > 0x80) {
        count = length - 0x80;
        header += count;
        if (count > 4 || rest->length < header)
            return false;
        for (length = 0; count > 0; count--)
            length = length << 8 | at[header - count];
    }
    if (length > rest->length - header)
        return false;
    *value = (struct x509check_value){at[0], {at + header, length}};
    *rest = (struct x509check_text){at + header + length, rest->length - header - length};
    return true;
}

/* Takes the next value with this identifier, and passes over those in front of it. */
static inline bool x509check_next_of(struct x509check_text *rest, uint8_t identifier, struct x509check_value *value)
{
    while (x509check_next_value(rest, value)) {
        if (value->identifier == identifier)
            return true;
    }
    return false;
}

/* Goes into the first value of the text that has this identifier. */
static inline bool x509check_enter(struct x509check_text *text, uint8_t identifier)
{
    struct x509check_value value;
    bool is_there = x509check_next_of(text, identifier, &value);

    if (is_there)
        *text = value.contents;
    return is_there;
}

/* Goes into the BasicOCSPResponse of a response (RFC 6960, 4.2.1); false if the text is a list. */
static inline bool x509check_enter_response(struct x509check_text *text)
{
    struct x509check_text inner = *text;
    struct x509check_value status;

    if (!x509check_enter(&inner, X509CHECK_SEQUENCE) || !x509check_next_value(&inner, &status) || status.identifier != X509CHECK_ENUMERATED
        || !x509check_enter(&inner, X509CHECK_TAGGED_0) || !x509check_enter(&inner, X509CHECK_SEQUENCE)
        || !x509check_enter(&inner, X509CHECK_OCTET_STRING) || !x509check_enter(&inner, X509CHECK_SEQUENCE))
        return false;
    *text = inner;
    return true;
}

/* ---- keyUsage by purpose (RFC 5280, 4.2.1.12). ---- */

/* The bits of which keyUsage has to have one, if it is there, for a key that serves the purpose; 0 if the purpose has no row. */
static inline uint32_t x509check_usages_for(struct x509check_text purpose)
{
    static const uint8_t id_kp[] = {0x2B, 6, 1, 5, 5, 7, 3};

    if (purpose.length != sizeof id_kp + 1 || memcmp(purpose.octets, id_kp, sizeof id_kp) != 0)
        return 0;
    switch (purpose.octets[sizeof id_kp]) {
    case 1: /* serverAuth */
        return X509CHECK_DIGITAL_SIGNATURE | X509CHECK_KEY_ENCIPHERMENT | X509CHECK_KEY_AGREEMENT;
    case 2: /* clientAuth */
        return X509CHECK_DIGITAL_SIGNATURE | X509CHECK_KEY_AGREEMENT;
    case 3: /* codeSigning */
        return X509CHECK_DIGITAL_SIGNATURE;
    case 4: /* emailProtection */
        return X509CHECK_DIGITAL_SIGNATURE | X509CHECK_NON_REPUDIATION | X509CHECK_KEY_ENCIPHERMENT | X509CHECK_KEY_AGREEMENT;
    case 8: /* timeStamping */
    case 9: /* OCSPSigning */
        return X509CHECK_DIGITAL_SIGNATURE | X509CHECK_NON_REPUDIATION;
    default:
        return 0;
    }
}

/* The rank of the reason for which a certificate does not serve a purpose (docs/REFERENCE.md, "Faults"). */
#define X509CHECK_RANK_PURPOSE 14

/* Whether the certificate's keyUsage, if it has one, lets its key serve the purpose. No if the certificate cannot be read: `*fault` says
 * why then, and is else 0. */
static inline bool x509check_key_usage_allows(struct x509check_text certificate, struct x509check_text purpose, uint32_t *fault)
{
    uint32_t usages = x509check_usages_for(purpose);
    struct x509check_certificate read;

    *fault = 0;
    if (usages == 0)
        return true;
    read = x509check_read_certificate(certificate.octets, certificate.length);
    *fault = read.fault;
    return read.fault == 0 && (!read.fields.extensions.has_key_usage || (read.fields.extensions.key_usage & usages) != 0);
}

/* ---- How many questions a search asks. ---- */

/* How many questions are built, unless limits.signatures is more: the library takes some 300 octets for each. */
#define X509CHECK_QUESTIONS_MOST 65536

enum x509check_amount { X509CHECK_FEW = 1, X509CHECK_MANY, X509CHECK_UNCOUNTED /* memory was refused */ };

static inline size_t x509check_plus(size_t one, size_t other)
{
    return one > SIZE_MAX - other ? SIZE_MAX : one + other;
}

static inline size_t x509check_times(size_t one, size_t other)
{
    return other != 0 && one > SIZE_MAX / other ? SIZE_MAX : one * other;
}

/* How many questions a response asks at most under one issuer: one, and two about each certificate that comes with it. 0 for a list. */
static inline size_t x509check_asked_by_response(struct x509check_text statement)
{
    struct x509check_value certificate;
    size_t asked = 1;

    if (!x509check_enter_response(&statement))
        return 0;
    /* (certs is the only [0] of a BasicOCSPResponse) */
    if (x509check_enter(&statement, X509CHECK_TAGGED_0) && x509check_enter(&statement, X509CHECK_SEQUENCE)) {
        while (x509check_next_value(&statement, &certificate))
            asked += 2;
    }
    return asked;
}

/* A number that attributes have in common if they match (RFC 5280, 7.1), and seldom else: FNV-1a of type and value, in which the case of
 * letters and spaces do not count. */
static inline uint64_t x509check_number_of_attribute(struct x509check_text attribute)
{
    uint64_t number = UINT64_C(0xCBF29CE484222325);
    struct x509check_value part;

    while (x509check_next_value(&attribute, &part)) {
        bool is_text = part.identifier == X509CHECK_UTF8_STRING || part.identifier == X509CHECK_PRINTABLE_STRING
                       || part.identifier == X509CHECK_IA5_STRING;

        for (size_t i = 0; i < part.contents.length; i++) {
            uint8_t octet = part.contents.octets[i];

            if (is_text && octet >= 'A' && octet <= 'Z')
                octet = (uint8_t)(octet - 'A' + 'a');
            if (!is_text || octet != ' ')
                number = (number ^ octet) * UINT64_C(0x100000001B3);
        }
    }
    return number;
}

/* The same of names, by the contents of their SEQUENCE; the order of attributes does not count. */
static inline uint64_t x509check_number_of_name(struct x509check_text name)
{
    struct x509check_value set, attribute;
    uint64_t sum = 0;

    while (x509check_next_of(&name, X509CHECK_SET, &set)) {
        while (x509check_next_of(&set.contents, X509CHECK_SEQUENCE, &attribute))
            sum += x509check_number_of_attribute(attribute.contents);
    }
    return sum;
}

static inline uint64_t x509check_number_of_part(struct x509check_text certificate, struct x509check_part part)
{
    struct x509check_text name = {certificate.octets + part.offset, part.length};

    return x509check_enter(&name, X509CHECK_SEQUENCE) ? x509check_number_of_name(name) : 0;
}

/* A certificate of a search, by the numbers of its names. */
struct x509check_named {
    uint64_t subject, issuer;
    bool is_anchor;
    bool is_reached; /* the first of those with this subject: they may be issuers of what leads to the target */
};

static inline int x509check_by_subject(const void *one, const void *other)
{
    uint64_t first = ((const struct x509check_named *)one)->subject, second = ((const struct x509check_named *)other)->subject;

    return (first > second) - (first < second);
}

/* The first of the certificates, ascending by subject, that has this one or a greater one. */
static inline size_t x509check_first_named(const struct x509check_named *named, size_t count, uint64_t subject)
{
    size_t from = 0, to = count;

    while (from < to) {
        size_t middle = from + (to - from) / 2;

        if (named[middle].subject < subject)
            from = middle + 1;
        else
            to = middle;
    }
    return from;
}

/* What is counted. The certificates are the anchors and the others, ascending by subject. */
struct x509check_count {
    struct x509check_named *named;
    size_t count;
    uint64_t target_issuer;
    uint64_t *waiting; /* the issuers of certificates that lead to the target; room for one more than there are others */
    size_t asked, most;
};

/* Takes the names of the certificates. `*are_read` is false if one cannot be read, which the library says itself. */
static inline enum x509check_amount x509check_take_names(struct x509check_count *count, const struct x509check_search *search,
                                                         bool *are_read)
{
    *are_read = false;
    for (size_t i = 0; i <= count->count; i++) {
        struct x509check_text text = i == count->count          ? search->target
                                     : i < search->anchor_count ? search->anchors[i]
                                                                : search->bag[i - search->anchor_count];
        struct x509check_certificate read = x509check_read_certificate(text.octets, text.length);
        uint64_t issuer;

        if (read.fault != 0)
            return read.fault == X509CHECK_FAULT_MEMORY ? X509CHECK_UNCOUNTED : X509CHECK_FEW;
        issuer = x509check_number_of_part(text, read.fields.issuer);
        if (i == count->count)
            count->target_issuer = issuer;
        else
            count->named[i] = (struct x509check_named){
                .subject = x509check_number_of_part(text, read.fields.subject), .issuer = issuer, .is_anchor = i < search->anchor_count};
    }
    qsort(count->named, count->count, sizeof *count->named, x509check_by_subject);
    *are_read = true;
    return X509CHECK_FEW;
}

static inline void x509check_add(struct x509check_count *count, size_t times, size_t asked)
{
    count->asked = x509check_plus(count->asked, x509check_times(times, asked));
}

/* How many certificates have this subject, and which is the first of them. */
static inline size_t x509check_find_named(const struct x509check_count *count, uint64_t subject, size_t *first)
{
    size_t end = *first = x509check_first_named(count->named, count->count, subject);

    while (end < count->count && count->named[end].subject == subject)
        end++;
    return end - *first;
}

/* Counts the questions about the certificates that lead to the target by names; of each response, which asks so many, those under each of
 * their issuers. */
static inline void x509check_count_upward(struct x509check_count *count, size_t by_responses)
{
    size_t waits = 0, first;

    count->waiting[waits++] = count->target_issuer;
    while (waits > 0 && count->asked <= count->most) {
        size_t issuers = x509check_find_named(count, count->waiting[--waits], &first);

        x509check_add(count, issuers, 1);
        if (issuers == 0 || count->named[first].is_reached)
            continue;
        count->named[first].is_reached = true;
        x509check_add(count, issuers, by_responses);
        for (size_t i = first; i < first + issuers; i++) {
            if (!count->named[i].is_anchor)
                count->waiting[waits++] = count->named[i].issuer;
        }
    }
}

/* Counts the questions about a list, under each issuer that has the name in it (RFC 5280, 5.1); none about a response. */
static inline void x509check_count_list(struct x509check_count *count, struct x509check_text list)
{
    struct x509check_value name;
    size_t first, issuers;

    /* (of the signed part the first SEQUENCE is the algorithm) */
    if (!x509check_enter(&list, X509CHECK_SEQUENCE) || !x509check_enter(&list, X509CHECK_SEQUENCE)
        || !x509check_next_of(&list, X509CHECK_SEQUENCE, &name) || !x509check_next_of(&list, X509CHECK_SEQUENCE, &name))
        return;
    issuers = x509check_find_named(count, x509check_number_of_name(name.contents), &first);
    if (issuers > 0 && count->named[first].is_reached)
        x509check_add(count, issuers, 1);
}

static inline enum x509check_amount x509check_count_by_names(struct x509check_count *count, const struct x509check_search *search,
                                                             const struct x509check_text *statements, size_t statement_count,
                                                             size_t by_responses)
{
    bool are_read;
    enum x509check_amount amount = x509check_take_names(count, search, &are_read);

    if (!are_read)
        return amount;
    x509check_count_upward(count, by_responses);
    for (size_t i = 0; i < statement_count && count->asked <= count->most; i++)
        x509check_count_list(count, statements[i]);
    return count->asked > count->most ? X509CHECK_MANY : X509CHECK_FEW;
}

/* Whether a search asks more than so many questions. They are counted by names, without building them, and equal ones each. */
static inline enum x509check_amount x509check_amount_of_questions(const struct x509check_search *search,
                                                                  const struct x509check_text *statements, size_t statement_count,
                                                                  size_t most)
{
    struct x509check_count count = {.count = x509check_plus(search->anchor_count, search->bag_count), .most = most};
    size_t by_responses = 0, others = x509check_plus(search->bag_count, 1);
    enum x509check_amount amount = X509CHECK_UNCOUNTED;

    for (size_t i = 0; i < statement_count; i++)
        by_responses = x509check_plus(by_responses, x509check_asked_by_response(statements[i]));
    /* No certificate and no statement is asked about more often than under each. */
    if (x509check_times(count.count, x509check_plus(x509check_plus(others, statement_count), by_responses)) <= most)
        return X509CHECK_FEW;
    count.named = calloc(count.count, sizeof *count.named);
    count.waiting = calloc(others, sizeof *count.waiting);
    if (count.named != NULL && count.waiting != NULL)
        amount = x509check_count_by_names(&count, search, statements, statement_count, by_responses);
    free(count.named);
    free(count.waiting);
    return amount;
}

#endif
