/* Judges the signatures of standard input, for tests/fuzz_judge: each line has four hexadecimal texts (algorithm, key, message,
 * signature), `-` standing for an empty one, behind `default` or `lax`, the policy. The answer is a line each. The status is 1 if a line
 * is none. */
#define _POSIX_C_SOURCE 200809L /* getline */
#include <stdio.h>
#include <stdlib.h>
#include <string.h>

#include <openssl/err.h>

#include "x509check_openssl.h"

static const struct x509check_openssl_policy lax = {X509CHECK_OPENSSL_ALL_DIGESTS, X509CHECK_OPENSSL_ALL_CURVES, 512, 16384};

static void fail(const char *what)
{
    fprintf(stderr, "judge_lines: %s\n", what);
    exit(1);
}

static unsigned digit_of(char letter)
{
    const char *digits = "0123456789abcdef", *found = letter == '\0' ? NULL : strchr(digits, letter);

    if (found == NULL)
        fail("no octet");
    return (unsigned)(found - digits);
}

/* The octets of a word in room of just their size, so that a sanitizer sees each that is read behind them. */
static struct x509check_text text_of(const char *word)
{
    size_t length = word == NULL ? 0 : strlen(word) / 2;
    uint8_t *octets = malloc(length == 0 ? 1 : length);

    if (word == NULL || octets == NULL)
        fail("no line");
    for (size_t i = 0; i < length; i++)
        octets[i] = (uint8_t)(16 * digit_of(word[2 * i]) + digit_of(word[2 * i + 1]));
    if (length > 0)
        return (struct x509check_text){octets, length};
    free(octets);
    return (struct x509check_text){NULL, 0};
}

static const char *words_of(enum x509check_openssl_judgement judgement)
{
    switch (judgement) {
    case X509CHECK_OPENSSL_GOOD:
        return "good";
    case X509CHECK_OPENSSL_WRONG:
        return "wrong";
    case X509CHECK_OPENSSL_NOT_SERVED:
        return "not served";
    case X509CHECK_OPENSSL_REFUSED_BY_POLICY:
        return "refused by policy";
    }
    return "no judgement";
}

static void judge_line(char *line)
{
    const char *policy = strtok(line, " \n");
    struct x509check_text texts[4];
    struct x509check_openssl_signature asked;
    enum x509check_openssl_judgement judgement = (enum x509check_openssl_judgement)0;

    for (size_t i = 0; i < 4; i++)
        texts[i] = text_of(strtok(NULL, " \n"));
    asked = (struct x509check_openssl_signature){texts[0], texts[1], texts[2], texts[3]};
    if (x509check_openssl_judge(&asked, strcmp(policy, "lax") == 0 ? &lax : NULL, &judgement) != X509CHECK_OPENSSL_DONE)
        fail("no judgement");
    if (ERR_peek_error() != 0)
        fail("an error is left in the queue");
    puts(words_of(judgement));
    for (size_t i = 0; i < 4; i++)
        free((void *)texts[i].octets);
}

int main(void)
{
    char *line = NULL;
    size_t room = 0;

    while (getline(&line, &room, stdin) > 0)
        judge_line(line);
    free(line);
    return 0;
}
