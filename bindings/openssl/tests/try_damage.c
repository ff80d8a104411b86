/* Changes each octet of what a peer shows and of the statements in turn, over the files of bindings/testdata: no check accepts what was
 * changed, and each says why not. The last line says how many were refused by which error; the status is 1 if one was accepted. */
#include <string.h>

#include "testdata.h"

#define ERRORS 128

enum part { LEAF, MIDDLE, ROOT_LIST, MIDDLE_LIST, PARTS };

static struct x509check_text root, parts[PARTS];
static unsigned long refused[ERRORS], unread;

/* Whether the check accepts the leaf; if not it has an error. */
static bool is_accepted(X509 *leaf, X509 *middle)
{
    struct x509check_openssl_settings settings = {.anchors = &root,
                                                  .anchor_count = 1,
                                                  .statements = &parts[ROOT_LIST],
                                                  .statement_count = 2,
                                                  .moment = MOMENT,
                                                  .purpose = {(const uint8_t *)"\x2b\x06\x01\x05\x05\x07\x03\x01", 8}};
    STACK_OF(X509) *sent = sk_X509_new_null();
    X509_STORE_CTX *context = context_of(leaf, sent);
    int answer, error;

    sk_X509_push(sent, leaf);
    sk_X509_push(sent, middle);
    X509_VERIFY_PARAM_set1_host(X509_STORE_CTX_get0_param(context), "www.example", 0);
    answer = x509check_openssl_verify(context, &settings);
    error = X509_STORE_CTX_get_error(context);
    if ((answer == 1) != (error == X509_V_OK) || (answer == 1) != (sk_X509_num(X509_STORE_CTX_get0_chain(context)) == 3)) {
        printf("try_damage.c: answer %d beside error %d\n", answer, error);
        exit(1);
    }
    refused[error >= 0 && error < ERRORS ? error : ERRORS - 1]++;
    X509_STORE_CTX_free(context);
    sk_X509_free(sent);
    return answer == 1;
}

/* What OpenSSL does not read does not come to a check; and what it reads as the same certificate is the same. */
static bool is_accepted_now(void)
{
    X509 *leaf = certificate_of(parts[LEAF]), *middle = certificate_of(parts[MIDDLE]);
    bool is_read = leaf != NULL && middle != NULL, accepted = is_read && is_accepted(leaf, middle);

    unread += !is_read;
    X509_free(leaf);
    X509_free(middle);
    return accepted;
}

static bool is_accepted_with(enum part part, size_t at, uint8_t change)
{
    uint8_t octets[4096];
    struct x509check_text whole = parts[part];
    bool accepted;

    if (whole.length > sizeof octets)
        exit(1);
    memcpy(octets, whole.octets, whole.length);
    octets[at] ^= change;
    parts[part].octets = octets;
    accepted = is_accepted_now();
    parts[part] = whole;
    if (accepted)
        printf("try_damage.c: accepted with octet %zu of part %d changed by %02x\n", at, (int)part, change);
    return accepted;
}

int main(void)
{
    static const uint8_t changes[] = {0x01, 0x20, 0x80};
    bool accepted = false;

    root = text_of("root.der");
    parts[LEAF] = text_of("leaf.der"), parts[MIDDLE] = text_of("middle.der");
    parts[ROOT_LIST] = text_of("root.crl"), parts[MIDDLE_LIST] = text_of("middle.crl");
    if (!is_accepted_now())
        return puts("try_damage.c: refused without damage"), 1;
    for (int part = 0; part < PARTS; part++) {
        for (size_t i = 0; i < parts[part].length; i++)
            accepted = is_accepted_with((enum part)part, i, changes[i % sizeof changes]) || accepted;
    }
    printf("not read by OpenSSL: %lu;", unread);
    for (int error = 0; error < ERRORS; error++) {
        if (refused[error] > 0)
            printf(" error %d: %lu", error, refused[error]);
    }
    puts("");
    return accepted ? 1 : 0;
}
