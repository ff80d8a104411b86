/* Prints what a judge of signatures may be asked about a path, or the verdict on it, with the library for C:
 *
 *     make
 *     cc -O2 -Icrates/capi examples/validate_path.c bindings/out/libx509check.a -o validate_path
 *     ./validate_path [-s STATEMENT].. ANCHOR [CERTIFICATE..]
 *     ./validate_path [-s STATEMENT].. -f FINGERPRINTS -t SECONDS ANCHOR [CERTIFICATE..]
 *
 * ANCHOR, each CERTIFICATE below it, in order, and each STATEMENT, a list or a response, are files of DER. FINGERPRINTS has those of good
 * signatures, 32 octets each. SECONDS is the moment, counted from 1970. A question is a line: its fingerprint, and of algorithm, key,
 * message and signature the text (1 the certificates, 2 the statements), which of them from 0 on, the offset and the length.
 *
 * The exit status is 0 for valid and for questions, 1 for invalid, 2 for revoked, 3 for unknown, 4 for a certificate or a statement that is
 * refused, and 5 if there is no answer.
 */
#define _POSIX_C_SOURCE 200809L /* getopt */
#include <errno.h>
#include <inttypes.h>
#include <stdio.h>
#include <stdlib.h>
#include <unistd.h>

#include "x509check.h"

enum status { VALID = 0, INVALID = 1, REVOKED = 2, UNKNOWN = 3, REFUSED = 4, NO_ANSWER = 5 };

/* What the command line asks for. */
struct asked {
    struct x509check_query query;
    struct x509check_text *statements;
    size_t statement_count;
    const char *fingerprints; /* a file, or null if no verdict is asked for */
};

/* What a call answered; on a failure the program ends with the line on standard error. */
static void *must(void *answer, const char *what)
{
    if (answer == NULL) {
        perror(what);
        exit(NO_ANSWER);
    }
    return answer;
}

/* The octets of a file. */
static struct x509check_text text_of(const char *path)
{
    FILE *file = must(fopen(path, "rb"), path);
    long length = fseek(file, 0, SEEK_END) == 0 ? ftell(file) : -1;
    uint8_t *octets = must(length < 0 ? NULL : malloc((size_t)length + 1), path);

    rewind(file);
    if (fread(octets, 1, (size_t)length, file) != (size_t)length)
        must(NULL, path);
    fclose(file);
    return (struct x509check_text){octets, (size_t)length};
}

static enum status print_refusal(const struct x509check_refusal *refusal)
{
    char name[X509CHECK_NAME_ROOM], rule[X509CHECK_NAME_ROOM];

    if (refusal->fault == X509CHECK_FAULT_MEMORY) {
        puts("refused no memory");
        return REFUSED;
    }
    x509check_fault_name(refusal->fault, name, sizeof name);
    printf("refused %s[%zu]: %u %s", refusal->text == X509CHECK_CERTIFICATES ? "certificates" : "statements", refusal->index,
           (unsigned)refusal->fault, name);
    if (refusal->der_fault != 0) {
        x509check_fault_name(refusal->der_fault, rule, sizeof rule);
        printf(" (%u %s)", (unsigned)refusal->der_fault, rule);
    }
    printf(" at %zu\n", refusal->offset);
    return REFUSED;
}

static void print_place(const struct x509check_place *place)
{
    printf("  %u %zu %zu %zu", (unsigned)place->text, place->index, place->offset, place->length);
}

static void print_question(const struct x509check_signature_question *question)
{
    for (size_t i = 0; i < sizeof question->fingerprint; i++)
        printf("%02x", question->fingerprint[i]);
    print_place(&question->algorithm);
    print_place(&question->key_info);
    print_place(&question->message);
    print_place(&question->signature);
    putchar('\n');
}

/* Asks how many questions there are, makes room for them, and prints them. */
static enum status print_questions(const struct asked *words)
{
    struct x509check_asked asked = x509check_questions(&words->query, words->statements, words->statement_count, NULL, 0);
    struct x509check_signature_question *questions = must(calloc(asked.count + 1, sizeof *questions), "questions");

    asked = x509check_questions(&words->query, words->statements, words->statement_count, questions, asked.count);
    for (size_t i = 0; i < asked.count; i++)
        print_question(&questions[i]);
    free(questions);
    return asked.refusal.fault == 0 ? VALID : print_refusal(&asked.refusal);
}

/* The numbers of the library are not exit statuses: it has 1 for valid, so that a struct of zeros is no good answer. */
static enum status print_verdict(const struct x509check_verdict *answer)
{
    switch (answer->verdict) {
    case X509CHECK_VALID:
        puts("valid");
        return VALID;
    case X509CHECK_INVALID:
        printf("invalid %zu %u\n", answer->certificate, (unsigned)answer->reason);
        return INVALID;
    case X509CHECK_REVOKED:
        printf("revoked %zu %u\n", answer->certificate, (unsigned)answer->reason);
        return REVOKED;
    case X509CHECK_UNKNOWN:
        printf("unknown %zu\n", answer->certificate);
        return UNKNOWN;
    case X509CHECK_REFUSED:
        return print_refusal(&answer->refusal);
    default:
        fprintf(stderr, "verdict %u: not a number of this program's x509check.h\n", (unsigned)answer->verdict);
        return NO_ANSWER;
    }
}

/* The verdict on the path by the statements and the signatures that are good. */
static enum status validate(const struct asked *words)
{
    struct x509check_text good = text_of(words->fingerprints);
    struct x509check_verdict answer;

    if (good.length % X509CHECK_FINGERPRINT_LENGTH != 0) {
        fprintf(stderr, "%s: the last fingerprint is cut short\n", words->fingerprints);
        return NO_ANSWER;
    }
    answer = x509check_validate(&words->query, words->statements, words->statement_count, good.octets,
                               good.length / X509CHECK_FINGERPRINT_LENGTH);
    return print_verdict(&answer);
}

static void usage(void)
{
    fputs("usage: validate_path [-s STATEMENT].. [-f FINGERPRINTS -t SECONDS] ANCHOR [CERTIFICATE..]\n", stderr);
    exit(NO_ANSWER);
}

static int64_t moment_of(const char *word)
{
    char *end;
    int64_t moment;

    errno = 0;
    moment = strtoimax(word, &end, 10);
    if (errno != 0 || end == word || *end != '\0') {
        fprintf(stderr, "%s: no moment\n", word);
        exit(NO_ANSWER);
    }
    return moment;
}

/* What the words ask for. The files are kept until the program ends. */
static struct asked words_of(int argc, char **argv)
{
    struct asked words = {.statements = must(calloc((size_t)argc, sizeof *words.statements), "words")};
    struct x509check_text *path = must(calloc((size_t)argc, sizeof *path), "words");
    const char *seconds = NULL;

    for (int option; (option = getopt(argc, argv, "s:f:t:")) != -1;) {
        if (option == 's')
            words.statements[words.statement_count++] = text_of(optarg);
        else if (option == 'f')
            words.fingerprints = optarg;
        else if (option == 't')
            seconds = optarg;
        else
            usage();
    }
    if (optind == argc || (words.fingerprints == NULL) != (seconds == NULL))
        usage();
    words.query.anchor = text_of(argv[optind]);
    while (++optind < argc)
        path[words.query.path_count++] = text_of(argv[optind]);
    words.query.path = path;
    words.query.moment = seconds == NULL ? 0 : moment_of(seconds);
    return words;
}

int main(int argc, char **argv)
{
    struct asked words = words_of(argc, argv);

    return words.fingerprints == NULL ? print_questions(&words) : validate(&words);
}
