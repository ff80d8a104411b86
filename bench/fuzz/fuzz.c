/* Hands damaged texts to the library for C and holds its answers against what the header promises.
 *
 *   fuzz FILE SEED COUNT [FIRST]
 *
 * FILE has the texts that damaged ones are made of, each behind its length in 4 octets, the lowest first. Text N of a seed is the same in
 * each run, whatever COUNT and FIRST, the number of the first (0): so one text alone is tried again by `fuzz FILE SEED 1 N`. Of each text it
 * is asked whether it is DER and what certificate it is, twice: with a page behind it, and then before it, that may not be touched; and
 * what the verdict is on it, and what is asked about it, as a certificate and as a statement. The status is 1 where a promise is broken;
 * its line names the text, and its octets follow.
 */
#include <inttypes.h>
#include <stdio.h>
#include <stdlib.h>
#include <string.h>
#include <time.h>

#include <sanitizer/common_interface_defs.h>

#include "damage.h"
#include "guarded.h"
#include "memory.h"
#include "promises.h"
#include "text.h"

#define FAULTS 34
#define MOST_QUESTIONS 64
#define MOST_NUMBERS 4

/* A run: its words, where texts are put, and what was seen. */
struct run {
    uint64_t seed;
    uint64_t count;
    uint64_t first;
    struct texts texts;
    struct x509check_text known[4]; /* the first texts: an anchor, the two certificates of a path, and a list */
    struct guarded text;
    struct guarded fingerprint; /* ends with the octets of a fingerprint */
    struct guarded questions;   /* ends with an array of them */
    struct guarded path;        /* ends with the numbers of a path */
    uint64_t asked;             /* questions, */
    uint64_t unasked;           /* and texts that nothing is asked about */
    uint64_t checks[FAULTS];    /* how many texts have this fault */
    uint64_t reads[FAULTS];
    uint64_t verdicts[X509CHECK_REFUSED + 1];
    uint64_t findings[X509CHECK_GAVE_UP + 1];
    uint64_t refused;   /* reads that were refused memory, */
    uint64_t told_so;   /* and how many of them said so */
    uint64_t requested; /* requests for memory, by reads that were not refused any */
};

static struct run run;
static uint64_t place; /* of the text that is tried */

static void tell_place(void)
{
    fprintf(stderr, "fuzz: ended in text %" PRIu64 " of seed %" PRIu64 "\n", place, run.seed);
}

static void stop(const char *what)
{
    fprintf(stderr, "fuzz: %s\n", what);
    exit(2);
}

/* ---- The texts that damaged ones are made of. ---- */

static size_t read_length(FILE *file)
{
    uint8_t octets[4];

    if (fread(octets, 1, sizeof octets, file) != sizeof octets)
        return 0;
    return octets[0] | (size_t)octets[1] << 8 | (size_t)octets[2] << 16 | (size_t)octets[3] << 24;
}

static struct texts read_texts(const char *path)
{
    FILE *file = fopen(path, "rb");
    struct texts texts = {NULL, 0};
    size_t length;

    if (file == NULL)
        stop("the file of texts cannot be read");
    while ((length = read_length(file)) != 0) {
        struct text *more = realloc(texts.items, (texts.count + 1) * sizeof *more);

        if (more == NULL || length > ROOM || fread(more[texts.count].octets, 1, length, file) != length)
            stop("the file of texts cannot be read");
        more[texts.count].length = length;
        texts.items = more;
        texts.count++;
    }
    fclose(file);
    if (texts.count == 0)
        stop("the file of texts has none");
    return texts;
}

/* The texts with which the file begins. */
static void make_known(void)
{
    if (run.texts.count < 4)
        stop("the file of texts has no path");
    for (size_t i = 0; i < 4; i++)
        run.known[i] = (struct x509check_text){run.texts.items[i].octets, run.texts.items[i].length};
}

/* ---- What is asked of a text. Each answers the promise that is broken, or a null pointer. ---- */

static const char *broken_by_checking(const struct text *text)
{
    const uint8_t *at = at_the_end(&run.text, text->octets, text->length);
    struct x509check_answer answer = x509check_check(at, text->length);
    struct x509check_answer again;
    const char *broken = broken_of_check(text->octets, text->length, &answer);

    if (broken != NULL)
        return broken;
    again = x509check_check(at_the_begin(&run.text, text->octets, text->length), text->length);
    if (!is_same_answer(&answer, &again))
        return "a check answers the same wherever the text stands";
    run.checks[answer.fault]++;
    return NULL;
}

/* Some request of the next read is refused. */
static const char *broken_by_refusing(struct numbers *numbers, const uint8_t *at, size_t length, size_t requests,
                                      const struct x509check_certificate *answer)
{
    struct x509check_certificate other;

    watch(1 + number_below(numbers, requests));
    other = x509check_read_certificate(at, length);
    if (memory.held != 0)
        return "memory is given back before a call returns that was refused some";
    run.refused++;
    run.told_so += is_want_of_memory(&other);
    watch(0);
    return is_want_of_memory(&other) || is_same_certificate(answer, &other)
        ? NULL
        : "a call that is refused memory says so, or answers as with ample memory";
}

static const char *broken_by_fingerprint(const uint8_t *at, const struct x509check_fields *fields)
{
    uint8_t *fingerprint = run.fingerprint.writable + run.fingerprint.size - X509CHECK_FINGERPRINT_LENGTH;

    memset(run.fingerprint.writable, 0xA5, run.fingerprint.size);
    x509check_fingerprint(at + fields->algorithm.offset, fields->algorithm.length, at + fields->subject_public_key_info.offset,
                          fields->subject_public_key_info.length, at + fields->tbs.offset, fields->tbs.length,
                          at + fields->signature.offset, fields->signature.length, fingerprint);
    for (const uint8_t *octet = run.fingerprint.writable; octet < fingerprint; octet++)
        if (*octet != 0xA5)
            return "only the fingerprint is written";
    return broken_of_fingerprint(at, fields, fingerprint);
}

static struct x509check_query query_of(const struct asking *asking)
{
    return (struct x509check_query){
        .anchor = asking->certificates[0], .path = asking->certificates + 1, .path_count = asking->certificate_count - 1};
}

static struct x509check_search search_of(const struct asking *asking, struct x509check_limits limits)
{
    size_t anchors = asking->anchor_count;

    return (struct x509check_search){
        .anchors = asking->certificates, .anchor_count = anchors, .target = asking->certificates[anchors],
        .bag = asking->certificates + anchors + 1, .bag_count = asking->certificate_count - anchors - 1, .limits = limits};
}

static struct x509check_verdict validate(const struct asking *asking)
{
    struct x509check_query query = query_of(asking);

    watch(0);
    return x509check_validate(&query, asking->statements, asking->statement_count, NULL, 0);
}

static struct x509check_asked ask(const struct asking *asking, struct x509check_signature_question *questions, size_t room)
{
    struct x509check_query query = query_of(asking);
    struct x509check_search search;

    memset(run.questions.writable, 0xA5, run.questions.size);
    if (!asking->is_search)
        return x509check_questions(&query, asking->statements, asking->statement_count, questions, room);
    search = search_of(asking, (struct x509check_limits){0, 0, 0});
    return x509check_find_questions(&search, asking->statements, asking->statement_count, questions, room);
}

/* What is asked, with room for all questions or fewer, and with some request for memory refused; the verdict is known. */
static const char *broken_by_asking(struct numbers *numbers, const struct asking *asking, const struct x509check_verdict *verdict)
{
    size_t room = number_below(numbers, MOST_QUESTIONS + 1);
    struct x509check_signature_question *questions =
        (struct x509check_signature_question *)(void *)(run.questions.writable + run.questions.size) - room;
    struct x509check_asked asked, again;
    const char *broken;
    size_t requests;

    watch(0);
    asked = ask(asking, questions, room);
    requests = memory.asked;
    if (memory.held != 0)
        return "memory is given back before a call returns";
    if ((broken = broken_of_questions(asking, &asked, questions, room)) != NULL)
        return broken;
    if (asked.refusal.text != verdict->refusal.text || asked.refusal.index != verdict->refusal.index
        || asked.refusal.fault != verdict->refusal.fault || asked.refusal.der_fault != verdict->refusal.der_fault
        || asked.refusal.offset != verdict->refusal.offset)
        return "the same text is refused for the same fault, whether a verdict or questions are asked for";
    run.asked += asked.count;
    run.unasked += asked.count == 0;
    if (requests == 0)
        return NULL;
    watch(1 + number_below(numbers, requests));
    again = ask(asking, questions, room);
    if (memory.held != 0)
        return "memory is given back before a call returns that was refused some";
    run.refused++;
    run.told_so += again.refusal.fault == X509CHECK_FAULT_MEMORY;
    watch(0);
    if (again.refusal.fault == X509CHECK_FAULT_MEMORY)
        return again.refusal.text == 0 && again.refusal.index == 0 && again.refusal.offset == 0 && again.count == 0
                && run.questions.writable[run.questions.size - 1] == 0xA5
            ? NULL
            : "nothing is told or written where memory was refused";
    return again.count == asked.count ? broken_of_questions(asking, &again, questions, room)
                                      : "a call that is refused memory says so, or answers as with ample memory";
}

/* The text as the anchor, or as the last certificate of a path. */
static const char *broken_in_path(struct numbers *numbers, struct x509check_text text, const struct x509check_certificate *read)
{
    struct asking asking = {.certificates = {text}, .certificate_count = 1};
    struct x509check_verdict answer;
    const char *broken;

    if (number_below(numbers, 2) == 0)
        asking = (struct asking){.certificates = {run.known[0], run.known[1], text}, .certificate_count = 3};
    answer = validate(&asking);
    if (memory.held != 0)
        return "memory is given back before a call returns";
    if (answer.verdict == X509CHECK_NOT_FILLED || answer.verdict > X509CHECK_REFUSED)
        return "a verdict is 1 to 5";
    run.verdicts[answer.verdict]++;
    broken = broken_of_path(asking.certificate_count - 1, read, &answer);
    return broken != NULL ? broken : broken_by_asking(numbers, &asking, &answer);
}

/* The text as an anchor, as the target, or as one of the others of a search. */
static const char *broken_in_search(struct numbers *numbers, struct x509check_text text, const struct x509check_certificate *read)
{
    struct x509check_limits limits = {number_below(numbers, 8), number_below(numbers, 4), number_below(numbers, 3)};
    struct asking asking = {.certificates = {run.known[0], run.known[2], run.known[1]}, .certificate_count = 3,
                            .statements = run.known + 3, .statement_count = 1, .is_search = true, .anchor_count = 1};
    size_t *path = (size_t *)(void *)(run.path.writable + run.path.size) - MOST_NUMBERS, index = number_below(numbers, 3);
    struct x509check_search search;
    struct x509check_finding answer;
    const char *broken;

    asking.certificates[index] = text;
    search = search_of(&asking, limits);
    memset(run.path.writable, 0xA5, run.path.size);
    watch(0);
    answer = x509check_find(&search, asking.statements, asking.statement_count, NULL, 0, path, MOST_NUMBERS);
    if (memory.held != 0)
        return "memory is given back before a call returns";
    for (const uint8_t *octet = run.path.writable; octet < run.path.writable + run.path.size; octet++)
        if (*octet != 0xA5)
            return "no path is written where none is found";
    if ((broken = broken_of_search(index, read, &limits, &answer)) != NULL)
        return broken;
    run.findings[answer.verdict.verdict]++;
    return broken_by_asking(numbers, &asking, &answer.verdict);
}

/* The text as a statement, alone or behind a list, beside an anchor and then also a path. */
static const char *broken_as_statement(struct numbers *numbers, struct x509check_text text)
{
    const struct x509check_text statements[] = {run.known[3], text};
    size_t index = number_below(numbers, 2);
    struct asking asking = {
        .certificates = {run.known[0], run.known[1], run.known[2]}, .certificate_count = 1, .statements = statements + 1 - index,
        .statement_count = 1 + index};
    struct x509check_verdict answer = validate(&asking);
    const char *broken;

    if (memory.held != 0)
        return "memory is given back before a call returns";
    if ((broken = broken_of_statement(index, text.length, &answer)) != NULL)
        return broken;
    asking.certificate_count = 3;
    return broken_by_asking(numbers, &asking, &answer);
}

static const char *broken_by_reading(struct numbers *numbers, const struct text *text)
{
    const uint8_t *at = at_the_end(&run.text, text->octets, text->length);
    struct x509check_certificate answer, again;
    const char *broken;
    size_t requests;

    watch(0);
    answer = x509check_read_certificate(at, text->length);
    requests = memory.asked;
    run.requested += requests;
    if (memory.held != 0)
        return "memory is given back before a call returns";
    if ((broken = broken_of_certificate(text->octets, text->length, &answer)) != NULL)
        return broken;
    if (answer.fault == 0 && (broken = broken_by_fingerprint(at, &answer.fields)) != NULL)
        return broken;
    at = at_the_begin(&run.text, text->octets, text->length);
    again = x509check_read_certificate(at, text->length);
    if (!is_same_certificate(&answer, &again))
        return "reading answers the same wherever the text stands";
    run.reads[answer.fault]++;
    if ((broken = broken_in_path(numbers, (struct x509check_text){at, text->length}, &answer)) != NULL)
        return broken;
    if ((broken = broken_in_search(numbers, (struct x509check_text){at, text->length}, &answer)) != NULL)
        return broken;
    if ((broken = broken_as_statement(numbers, (struct x509check_text){at, text->length})) != NULL)
        return broken;
    return requests == 0 ? NULL : broken_by_refusing(numbers, at, text->length, requests, &answer);
}

/* ---- The run. ---- */

static void print_octets(const struct text *text)
{
    for (size_t i = 0; i < text->length; i++)
        printf("%02x", text->octets[i]);
    putchar('\n');
}

static void try_text(struct text *text)
{
    struct numbers numbers = numbers_of(run.seed, place);
    const char *broken;

    make_damaged(&numbers, &run.texts, text);
    if ((broken = broken_by_checking(text)) == NULL)
        broken = broken_by_reading(&numbers, text);
    if (broken == NULL)
        return;
    printf("text %" PRIu64 " of seed %" PRIu64 " breaks: %s\n", place, run.seed, broken);
    print_octets(text);
    exit(1);
}

static void print_faults(const char *title, const uint64_t *counts, int faults)
{
    printf("  %-12s", title);
    for (int fault = 0; fault < faults; fault++)
        if (counts[fault] != 0)
            printf(" %d:%" PRIu64, fault, counts[fault]);
    putchar('\n');
}

static uint64_t number_of(const char *word)
{
    char *end;
    uint64_t number = strtoull(word, &end, 10);

    if (word[0] < '0' || word[0] > '9' || *end != '\0')
        stop("SEED, COUNT and FIRST are numbers");
    return number;
}

int main(int argc, char **argv)
{
    static struct text text;
    time_t begun = time(NULL);

    if (argc < 4 || argc > 5)
        stop("usage: fuzz FILE SEED COUNT [FIRST]");
    run.seed = number_of(argv[2]);
    run.count = number_of(argv[3]);
    run.first = argc == 5 ? number_of(argv[4]) : 0;
    run.texts = read_texts(argv[1]);
    run.text = make_guarded(ROOM);
    run.fingerprint = make_guarded(X509CHECK_FINGERPRINT_LENGTH);
    run.questions = make_guarded(MOST_QUESTIONS * sizeof(struct x509check_signature_question));
    run.path = make_guarded(MOST_NUMBERS * sizeof(size_t));
    make_known();
    __sanitizer_set_death_callback(tell_place);
    for (place = run.first; place - run.first < run.count; place++)
        try_text(&text);
    printf("%" PRIu64 " texts of seed %" PRIu64 " from %zu, in %ld s: no promise is broken\n", run.count, run.seed, run.texts.count,
           (long)(time(NULL) - begun));
    print_faults("check", run.checks, FAULTS);
    print_faults("certificate", run.reads, FAULTS);
    print_faults("verdict", run.verdicts, X509CHECK_REFUSED + 1);
    print_faults("finding", run.findings, X509CHECK_GAVE_UP + 1);
    printf("  %" PRIu64 " requests for memory; %" PRIu64 " calls were refused one, %" PRIu64 " of them said so\n", run.requested,
           run.refused, run.told_so);
    printf("  %" PRIu64 " questions; nothing asked about %" PRIu64 "\n", run.asked, run.unasked);
    free(run.texts.items);
    return 0;
}
