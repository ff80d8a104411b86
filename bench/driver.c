/* Measures the library beside a plain C checker, SHA-256, memcpy and OpenSSL's d2i_X509, on the texts that data.py writes.
 *
 *   driver compare FILE..   whether the library and the C checker name the same fault and place for each text
 *   driver check FILE       for each row TITLE|OCTETS|TEXTS|SECONDS: how long all texts take to check
 *   driver read FILE        the same to check and read certificates
 *   driver hostile FILE     one line: nanoseconds per octet to check and, where it is a certificate, to read the text
 *
 * Built with -DPLACE=N, the code of the checker and of the library stands 16 * N octets further on. On some processors that alone moves
 * the speed of a loop by a fifth, so that `run` takes the best of four places.
 */
#define _POSIX_C_SOURCE 199309L

#ifdef PLACE
#define WORDS_OF(number) #number
#define SKIP(number) __asm__(".text\n.skip 16 * " WORDS_OF(number))
SKIP(PLACE);
#endif

#include <stdbool.h>
#include <stdint.h>
#include <stdio.h>
#include <stdlib.h>
#include <string.h>
#include <time.h>

#include "checker.h"
#include "x509check.h"

#ifdef WITH_OPENSSL
#include <openssl/evp.h>
#include <openssl/x509.h>
#endif

#define ROUNDS 10

struct text {
    const uint8_t *octets;
    size_t length;
};

struct texts {
    uint8_t *file;
    struct text *items;
    size_t count;
    size_t octets; /* of all texts */
    size_t longest;
};

static void *allocated(size_t octets)
{
    void *memory = malloc(octets ? octets : 1);

    if (memory == NULL) {
        fputs("driver: no memory\n", stderr);
        exit(2);
    }
    return memory;
}

static uint8_t *read_file(const char *path, size_t *length)
{
    FILE *file = fopen(path, "rb");
    long end;
    uint8_t *octets;

    if (file == NULL || fseek(file, 0, SEEK_END) != 0 || (end = ftell(file)) < 0) {
        fprintf(stderr, "driver: %s cannot be read\n", path);
        exit(2);
    }
    rewind(file);
    octets = allocated((size_t)end);
    *length = fread(octets, 1, (size_t)end, file);
    fclose(file);
    return octets;
}

/* The next text of a file, each behind its length in 4 octets, the lowest first; false at the end of the file. */
static bool next_text(const uint8_t *file, size_t length, size_t *at, struct text *text)
{
    if (*at + 4 > length)
        return false;
    text->length = file[*at] | (size_t)file[*at + 1] << 8 | (size_t)file[*at + 2] << 16 | (size_t)file[*at + 3] << 24;
    text->octets = file + *at + 4;
    *at += 4 + text->length;
    return *at <= length;
}

static struct texts read_texts(const char *path)
{
    struct texts texts = {0};
    struct text text;
    size_t length;
    size_t at = 0;

    texts.file = read_file(path, &length);
    while (next_text(texts.file, length, &at, &text))
        texts.count++;
    texts.items = allocated(texts.count * sizeof(struct text));
    at = 0;
    for (size_t i = 0; i < texts.count && next_text(texts.file, length, &at, &text); i++) {
        texts.items[i] = text;
        texts.octets += text.length;
        if (text.length > texts.longest)
            texts.longest = text.length;
    }
    return texts;
}

/* What is measured: each takes a text, and returns something that depends on what was done. */
static uint8_t *copied_to;

static size_t by_library(struct text text)
{
    return x509check_check(text.octets, text.length).fault;
}

static size_t by_checker(struct text text)
{
    size_t offset;

    return checker_check(text.octets, text.length, &offset);
}

static size_t by_reading(struct text text)
{
    return x509check_read_certificate(text.octets, text.length).fault;
}

static size_t by_copying(struct text text)
{
    memcpy(copied_to, text.octets, text.length);
    __asm__ volatile("" : : "r"(copied_to) : "memory");
    return copied_to[0];
}

#ifdef WITH_OPENSSL
static size_t by_hashing(struct text text)
{
    uint8_t digest[32];

    EVP_Digest(text.octets, text.length, digest, NULL, EVP_sha256(), NULL);
    return digest[0];
}

static size_t by_d2i(struct text text)
{
    const unsigned char *at = text.octets;
    X509 *read = d2i_X509(NULL, &at, (long)text.length);

    X509_free(read);
    return read != NULL;
}
#endif

static double now(void)
{
    struct timespec time;

    clock_gettime(CLOCK_MONOTONIC, &time);
    return (double)time.tv_sec + (double)time.tv_nsec * 1e-9;
}

static volatile size_t sink;

/* The seconds of one pass over all texts, which is repeated until it has taken long enough to be measured. */
static double pass(size_t (*run)(struct text), const struct texts *texts)
{
    double start = now();
    double taken;
    size_t passes = 0;

    do {
        for (size_t i = 0; i < texts->count; i++)
            sink += run(texts->items[i]);
        passes++;
        taken = now() - start;
    } while (taken < 0.01);
    return taken / (double)passes;
}

/* A row of a table: what is measured, and the best of its rounds. */
struct row {
    const char *title;
    size_t (*run)(struct text);
    double best;
};

/* Ten rounds, each over all rows, so that what else the machine does slows all of them. */
static void measure(struct row *rows, size_t count, const struct texts *texts)
{
    for (size_t i = 0; i < count; i++)
        rows[i].best = 1e9;
    for (int round = 0; round < ROUNDS; round++) {
        for (size_t i = 0; i < count; i++) {
            double taken = pass(rows[i].run, texts);

            if (taken < rows[i].best)
                rows[i].best = taken;
        }
    }
}

static void print_rows(struct row *rows, size_t count, const struct texts *texts)
{
    measure(rows, count, texts);
    for (size_t i = 0; i < count; i++)
        printf("%s|%zu|%zu|%.9f\n", rows[i].title, texts->octets, texts->count, rows[i].best);
}

static void print_checks(const struct texts *texts)
{
    struct row rows[] = {
        {"plain C checker", by_checker, 0},
        {"x509check_check", by_library, 0},
#ifdef WITH_OPENSSL
        {"SHA-256 (libcrypto)", by_hashing, 0},
#endif
        {"memcpy", by_copying, 0},
    };

    print_rows(rows, sizeof rows / sizeof rows[0], texts);
}

static void print_reads(const struct texts *texts)
{
    struct row rows[] = {
        {"plain C checker, which checks alone", by_checker, 0},
        {"x509check_check", by_library, 0},
        {"x509check_read_certificate", by_reading, 0},
#ifdef WITH_OPENSSL
        {"d2i_X509 and X509_free (OpenSSL)", by_d2i, 0},
        {"SHA-256 (libcrypto)", by_hashing, 0},
#endif
        {"memcpy", by_copying, 0},
    };

    print_rows(rows, sizeof rows / sizeof rows[0], texts);
}

/* The title, the octets, and nanoseconds an octet: the C checker's, to check, and to read where it is a certificate. */
static void print_hostile(const char *title, const struct texts *texts)
{
    double octets = (double)texts->octets;
    bool is_read = by_reading(texts->items[0]) == 0;
    struct row rows[] = {{"", by_checker, 0}, {"", by_library, 0}, {"", by_reading, 0}};

    measure(rows, is_read ? 3 : 2, texts);
    printf("%s %.0f", title, octets);
    for (int i = 0; i < (is_read ? 3 : 2); i++)
        printf(" %.3f", rows[i].best * 1e9 / octets);
    putchar('\n');
}

/* How many texts the library and the C checker differ on. */
static size_t differences(const struct texts *texts)
{
    size_t count = 0;

    for (size_t i = 0; i < texts->count; i++) {
        struct text text = texts->items[i];
        size_t offset = 0;
        unsigned rule = checker_check(text.octets, text.length, &offset);
        struct x509check_answer answer = x509check_check(text.octets, text.length);

        if (answer.fault != rule || (rule != CHECKER_ACCEPTED && answer.offset != offset)) {
            printf("text %zu: the library says %u at %zu, the C checker %u at %zu\n", i, (unsigned)answer.fault, answer.offset, rule,
                   offset);
            count++;
        }
    }
    return count;
}

static int compare(const char *path)
{
    struct texts texts = read_texts(path);
    size_t faults[CHECKER_TRAILING + 1] = {0};
    size_t count = differences(&texts);

    for (size_t i = 0; i < texts.count; i++) {
        size_t offset;
        faults[checker_check(texts.items[i].octets, texts.items[i].length, &offset)]++;
    }
    printf("  %zu texts, %zu differences; faults", texts.count, count);
    for (int rule = 0; rule <= CHECKER_TRAILING; rule++)
        printf(" %d:%zu", rule, faults[rule]);
    putchar('\n');
    return count == 0 ? 0 : 1;
}

int main(int argc, char **argv)
{
    struct texts texts;

    if (argc < 3) {
        fputs("usage: driver compare|check|read|hostile FILE [TITLE]\n", stderr);
        return 2;
    }
    if (strcmp(argv[1], "compare") == 0)
        return compare(argv[2]);
    texts = read_texts(argv[2]);
    copied_to = allocated(texts.longest);
    memset(copied_to, 1, texts.longest);
    if (strcmp(argv[1], "check") == 0)
        print_checks(&texts);
    else if (strcmp(argv[1], "read") == 0)
        print_reads(&texts);
    else
        print_hostile(argc > 3 ? argv[3] : argv[2], &texts);
    return 0;
}
