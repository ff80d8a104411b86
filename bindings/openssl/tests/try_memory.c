/* Refuses each request for memory of a search, of judgements and of a check in turn, alone, with the next one and with all behind it, over
 * the files of bindings/testdata: nothing else is said because of it. try_fresh.c does so in new processes. The last line says how many
 * were refused; the status is 1 if an answer is another than expected. */
#include "kinds.h"
#include "refuse.h"
#include "testdata.h"

static struct x509check_text root, middle, leaf, statements[2];

/* Each answers whether what is said is right, or nothing is said; `*is_said` tells which. */
typedef bool attempt(bool *is_said);

static bool find(bool *is_said)
{
    struct x509check_search search = {.anchors = &root,
                                      .anchor_count = 1,
                                      .target = leaf,
                                      .bag = &middle,
                                      .bag_count = 1,
                                      .moment = MOMENT,
                                      .limits = {X509CHECK_SIGNATURES, X509CHECK_STEPS, X509CHECK_VERDICTS}};
    struct x509check_finding found;
    enum x509check_openssl_status status = x509check_openssl_find(&search, statements, 2, NULL, &found, NULL, 0);

    *is_said = status == X509CHECK_OPENSSL_DONE;
    if (*is_said)
        return found.verdict.verdict == X509CHECK_VALID && found.path_count == 3;
    return (status == X509CHECK_OPENSSL_NO_MEMORY || status == X509CHECK_OPENSSL_FAILED) && found.verdict.verdict != X509CHECK_VALID;
}

static struct x509check_openssl_signature signature;

static bool judge(bool *is_said)
{
    enum x509check_openssl_judgement judgement = (enum x509check_openssl_judgement)0;
    enum x509check_openssl_status status = x509check_openssl_judge(&signature, NULL, &judgement);

    *is_said = status == X509CHECK_OPENSSL_DONE;
    if (*is_said)
        return judgement == X509CHECK_OPENSSL_GOOD;
    return status == X509CHECK_OPENSSL_NO_MEMORY || status == X509CHECK_OPENSSL_FAILED;
}

static X509_STORE_CTX *context;

/* Of a certificate for another address, whose host is right. */
static bool check_other_address(bool *is_said)
{
    struct x509check_openssl_settings settings = {.anchors = &root,
                                                  .anchor_count = 1,
                                                  .statements = statements,
                                                  .statement_count = 2,
                                                  .moment = MOMENT,
                                                  .purpose = {(const uint8_t *)"\x2b\x06\x01\x05\x05\x07\x03\x01", 8}};
    int error, answer = x509check_openssl_verify(context, &settings);

    error = X509_STORE_CTX_get_error(context);
    *is_said = error == X509_V_ERR_IP_ADDRESS_MISMATCH;
    return answer == 0 && (*is_said || error == X509_V_ERR_OUT_OF_MEM || error == X509_V_ERR_UNSPECIFIED);
}

static const char *words_of(long count)
{
    return count == 1 ? "" : count == ALL ? ", then all" : ", two in a row";
}

/* Whether it says the right thing with ample memory, and nothing else without. */
static bool refuse_each(attempt *tried, const char *name)
{
    long without = 0;
    bool is_said, is_sound = tried(&is_said) && is_said;

    for (long at = 1; is_sound; at++) {
        asked = 0;
        refused = at;
        is_sound = tried(&is_said);
        refused = 0;
        without += !is_said;
        if (asked < at)
            return printf("%s%s: %ld requests for memory, %ld of them needed\n", name, words_of(in_a_row), at - 1, without), without > 0;
        if (!is_sound)
            printf("%s: something else at request %ld\n", name, at);
    }
    return false;
}

static bool refuse_in_turn(attempt *tried, const char *name)
{
    static const long counts[] = {1, 2, ALL};
    bool is_sound = true;

    for (size_t i = 0; i < sizeof counts / sizeof *counts; i++) {
        in_a_row = counts[i];
        is_sound = refuse_each(tried, name) && is_sound;
    }
    return is_sound;
}

int main(void)
{
    static struct made made;
    bool is_sound;
    X509 *target;
    STACK_OF(X509) *sent = sk_X509_new_null();

    root = text_of("root.der"), middle = text_of("middle.der"), leaf = text_of("leaf.der");
    statements[0] = text_of("root.crl"), statements[1] = text_of("middle.crl");
    target = certificate_of(leaf);
    sk_X509_push(sent, certificate_of(middle));
    context = context_of(target, sent);
    X509_VERIFY_PARAM_set1_host(X509_STORE_CTX_get0_param(context), "www.example", 0);
    X509_VERIFY_PARAM_set1_ip_asc(X509_STORE_CTX_get0_param(context), "192.0.2.1");
    is_sound = refuse_in_turn(find, "find");
    for (size_t i = 0; i < KINDS; i++) {
        make_signature(i, &made);
        signature = question_about(i, &made);
        is_sound = refuse_in_turn(judge, kinds[i].name) && is_sound;
    }
    is_sound = refuse_in_turn(check_other_address, "verify") && is_sound;
    X509_STORE_CTX_free(context);
    sk_X509_pop_free(sent, X509_free);
    X509_free(target);
    return is_sound ? 0 : 1;
}
