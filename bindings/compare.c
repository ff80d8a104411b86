/* Answers the cases that bindings/compare writes, with the library for C: compare FILE
 *
 * A case has certificates, statements, fingerprints, a moment and a purpose. Its answer is a line with the verdict, as
 * examples/validate_path.c prints it, and behind a tab a line of each question: the fingerprint and the four lengths. */
#include <inttypes.h>
#include <stdio.h>
#include <stdlib.h>
#include <string.h>

#include "x509check.h"

#define MOST_OCTETS (1 << 18) /* of a case */
#define MOST_VALUES 256       /* of a kind */

static void stop(const char *what)
{
    fprintf(stderr, "compare: %s\n", what);
    exit(2);
}

/* The octets of a case, one value behind the other. */
struct octets {
    uint8_t octets[MOST_OCTETS];
    size_t length;
};

struct values {
    struct x509check_text items[MOST_VALUES];
    size_t count;
};

static uint64_t number(FILE *file, int octets)
{
    uint64_t value = 0;

    while (octets-- > 0)
        value = value << 8 | (uint64_t)(uint8_t)getc(file);
    return value;
}

/* The values that come next, each behind its length. */
static void read_values(FILE *file, struct octets *octets, struct values *values)
{
    values->count = number(file, 4);
    if (values->count > MOST_VALUES)
        stop("a case that cannot be read");
    for (size_t i = 0; i < values->count; i++) {
        size_t length = number(file, 4);
        uint8_t *at = octets->octets + octets->length;

        if (length > MOST_OCTETS - octets->length || fread(at, 1, length, file) != length)
            stop("a case that cannot be read");
        values->items[i] = (struct x509check_text){at, length};
        octets->length += length;
    }
}

/* The line of a fault, as the module for Python and the crate for Rust write it. */
static void print_refusal(const struct x509check_refusal *refusal)
{
    static const char *const texts[] = {NULL, "certificates", "statements"};
    char name[X509CHECK_NAME_ROOM], rule[X509CHECK_NAME_ROOM];

    if (refusal->text != X509CHECK_CERTIFICATES && refusal->text != X509CHECK_STATEMENTS)
        stop("a refusal of no text");
    x509check_fault_name(refusal->fault, name, sizeof name);
    printf("refused %s[%zu]: %u %s", texts[refusal->text], refusal->index, (unsigned)refusal->fault, name);
    if (refusal->der_fault != 0) {
        x509check_fault_name(refusal->der_fault, rule, sizeof rule);
        printf(" (%u %s)", (unsigned)refusal->der_fault, rule);
    }
    printf(" at %zu\n", refusal->offset);
}

static void print_verdict(const struct x509check_verdict *answer)
{
    switch (answer->verdict) {
    case X509CHECK_VALID:
        puts("valid");
        break;
    case X509CHECK_INVALID:
        printf("invalid %zu %u\n", answer->certificate, (unsigned)answer->reason);
        break;
    case X509CHECK_REVOKED:
        printf("revoked %zu %u\n", answer->certificate, (unsigned)answer->reason);
        break;
    case X509CHECK_UNKNOWN:
        printf("unknown %zu\n", answer->certificate);
        break;
    case X509CHECK_REFUSED:
        print_refusal(&answer->refusal);
        break;
    default:
        stop("a number that is no verdict");
    }
}

/* The octets at a place, which lie in one of the values. */
static const uint8_t *part_at(const struct x509check_place *place, const struct values *certificates, const struct values *statements)
{
    const struct values *values = place->text == X509CHECK_CERTIFICATES ? certificates : statements;
    struct x509check_text value = {NULL, 0};

    if (place->text != X509CHECK_CERTIFICATES && place->text != X509CHECK_STATEMENTS)
        stop("a part of no text");
    if (place->index < values->count)
        value = values->items[place->index];
    if (place->offset > value.length || place->length > value.length - place->offset)
        stop("a part that lies outside of its text");
    return value.octets + place->offset;
}

static void print_question(const struct x509check_signature_question *question, const struct values *certificates,
                           const struct values *statements)
{
    const struct x509check_place *places[] = {&question->algorithm, &question->key_info, &question->message, &question->signature};
    const uint8_t *parts[4];
    uint8_t fingerprint[X509CHECK_FINGERPRINT_LENGTH];

    for (int i = 0; i < 4; i++)
        parts[i] = part_at(places[i], certificates, statements);
    x509check_fingerprint(parts[0], places[0]->length, parts[1], places[1]->length, parts[2], places[2]->length, parts[3], places[3]->length,
                          fingerprint);
    if (memcmp(fingerprint, question->fingerprint, sizeof fingerprint) != 0)
        stop("a fingerprint of another question");
    putchar('\t');
    for (size_t i = 0; i < sizeof fingerprint; i++)
        printf("%02x", fingerprint[i]);
    for (int i = 0; i < 4; i++)
        printf(" %zu", places[i]->length);
    putchar('\n');
}

static void answer_case(FILE *file)
{
    static struct octets octets;
    static struct values certificates, statements, prints, purpose;
    static uint8_t fingerprints[MOST_VALUES][X509CHECK_FINGERPRINT_LENGTH];
    static struct x509check_signature_question questions[4096];
    struct x509check_query query = {0};
    struct x509check_verdict verdict;
    struct x509check_asked asked;

    octets.length = 0;
    read_values(file, &octets, &certificates);
    read_values(file, &octets, &statements);
    read_values(file, &octets, &prints);
    query.moment = (int64_t)number(file, 8);
    read_values(file, &octets, &purpose);
    if (certificates.count == 0 || purpose.count != 1)
        stop("a case that cannot be read");
    query.anchor = certificates.items[0];
    query.path = certificates.items + 1;
    query.path_count = certificates.count - 1;
    query.purpose = purpose.items[0];
    for (size_t i = 0; i < prints.count; i++) {
        if (prints.items[i].length != sizeof fingerprints[i])
            stop("a case that cannot be read");
        memcpy(fingerprints[i], prints.items[i].octets, sizeof fingerprints[i]);
    }
    verdict = x509check_validate(&query, statements.items, statements.count, fingerprints[0], prints.count);
    print_verdict(&verdict);
    asked = x509check_questions(&query, statements.items, statements.count, questions, sizeof questions / sizeof questions[0]);
    for (size_t i = 0; i < asked.count; i++)
        print_question(&questions[i], &certificates, &statements);
}

int main(int argc, char **argv)
{
    FILE *file = argc == 2 ? fopen(argv[1], "rb") : NULL;
    int next;

    if (file == NULL)
        stop("usage: compare FILE");
    while ((next = getc(file)) != EOF) {
        ungetc(next, file);
        answer_case(file);
    }
    fclose(file);
    return 0;
}
