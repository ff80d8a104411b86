/* The check of a peer in a TLS handshake: OpenSSL's callbacks, what they take from OpenSSL, and what they tell it. */
#include <errno.h>
#include <stdio.h>
#include <stdlib.h>
#include <string.h>
#include <time.h>

#include <openssl/err.h>
#include <openssl/x509v3.h>

#include "x509check_openssl_peer.h"

/* id-kp-serverAuth and id-kp-clientAuth (RFC 5280, 4.2.1.12): the contents of the OBJECT IDENTIFIERs. */
static const uint8_t server_auth[] = {0x2B, 6, 1, 5, 5, 7, 3, 1}, client_auth[] = {0x2B, 6, 1, 5, 5, 7, 3, 2};

/* What an SSL keeps of the check of its last handshake. */
struct kept {
    struct x509check_openssl_outcome outcome;
    int64_t moment;
    int most_above; /* how many certificates may stand between the peer's and the anchor; negative if that is not limited */
};

/* A handshake, as far as the check is concerned. */
struct handshake {
    const struct x509check_openssl_settings *settings;
    SSL *ssl; /* null if there is none */
    X509 *own;
    const STACK_OF(X509) *sent;
    X509_VERIFY_PARAM *names; /* null if the names have been looked at */
    bool waits;               /* the stapled response is still to come */
};

/* ---- What an SSL keeps. ---- */

static CRYPTO_ONCE index_once = CRYPTO_ONCE_STATIC_INIT;
static int kept_index = -1;

static void free_kept(void *parent, void *kept, CRYPTO_EX_DATA *data, int index, long number, void *pointer)
{
    (void)parent, (void)data, (void)index, (void)number, (void)pointer;
    free(kept);
}

/* A copy of an SSL was not checked. */
static int copy_nothing(CRYPTO_EX_DATA *to, const CRYPTO_EX_DATA *from, void **kept, int index, long number, void *pointer)
{
    (void)to, (void)from, (void)index, (void)number, (void)pointer;
    *kept = NULL;
    return 1;
}

static void make_index(void)
{
    kept_index = SSL_get_ex_new_index(0, NULL, NULL, copy_nothing, free_kept);
}

/* The object with these sources may be unloaded before the program ends: OpenSSL must not call it for other SSLs then. */
__attribute__((destructor)) static void give_back_index(void)
{
    if (kept_index >= 0)
        CRYPTO_free_ex_index(CRYPTO_EX_INDEX_SSL, kept_index);
}

static bool has_index(void)
{
    return CRYPTO_THREAD_run_once(&index_once, make_index) == 1 && kept_index >= 0;
}

static struct kept *kept_of(const SSL *ssl)
{
    return has_index() ? SSL_get_ex_data(ssl, kept_index) : NULL;
}

/* What the SSL keeps from now on: nothing is decided. Null if memory is refused. */
static struct kept *kept_anew(SSL *ssl)
{
    struct kept *kept = kept_of(ssl);

    if (kept == NULL && has_index()) {
        kept = calloc(1, sizeof *kept);
        if (kept != NULL && SSL_set_ex_data(ssl, kept_index, kept) != 1) {
            free(kept);
            kept = NULL;
        }
    }
    if (kept != NULL)
        *kept = (struct kept){.outcome.state = X509CHECK_OPENSSL_REFUSED};
    return kept;
}

/* Whether what is kept is of this handshake: an SSL may be used again, for one that is resumed or whose peer shows no certificate. */
static bool is_of_this_handshake(const SSL *ssl, const struct kept *kept)
{
    if (kept == NULL || SSL_session_reused(ssl))
        return false;
    return kept->outcome.state == X509CHECK_OPENSSL_REFUSED || SSL_get0_peer_certificate(ssl) != NULL;
}

const struct x509check_openssl_outcome *x509check_openssl_outcome(const SSL *ssl)
{
    const struct kept *kept = kept_of(ssl);

    return is_of_this_handshake(ssl, kept) ? &kept->outcome : NULL;
}

/* ---- What is asked of the peer. ---- */

static bool take_moment(const struct x509check_openssl_settings *settings, const X509_VERIFY_PARAM *parameters, int64_t *moment)
{
    time_t now;

    *moment = settings->moment;
    if (*moment != 0)
        return true;
    if ((X509_VERIFY_PARAM_get_flags((X509_VERIFY_PARAM *)parameters) & X509_V_FLAG_USE_CHECK_TIME) != 0) {
        *moment = (int64_t)X509_VERIFY_PARAM_get_time(parameters);
        return true;
    }
    now = time(NULL);
    *moment = (int64_t)now;
    return now != (time_t)-1;
}

/* The purpose of the settings, or that of the side which the peer is on. */
static struct x509check_text purpose_of(const struct handshake *handshake)
{
    if (handshake->settings->purpose.length > 0)
        return handshake->settings->purpose;
    if (SSL_is_server(handshake->ssl))
        return (struct x509check_text){client_auth, sizeof client_auth};
    return (struct x509check_text){server_auth, sizeof server_auth};
}

/* For what a key has to be there in TLS, if its certificate says for what it is there (RFC 8446, 4.4.2.2; RFC 5246, 7.4.2 and 7.4.6). */
static uint32_t usages_of(const SSL *ssl)
{
    if (SSL_version(ssl) == TLS1_3_VERSION)
        return X509CHECK_DIGITAL_SIGNATURE;
    if (SSL_is_server(ssl))
        return X509CHECK_DIGITAL_SIGNATURE | X509CHECK_KEY_AGREEMENT;
    return X509CHECK_DIGITAL_SIGNATURE | X509CHECK_KEY_ENCIPHERMENT | X509CHECK_KEY_AGREEMENT;
}

static int match_usage(const struct handshake *handshake, struct x509check_text target)
{
    struct x509check_certificate certificate;

    if (handshake->settings->purpose.length > 0)
        return X509_V_OK;
    certificate = x509check_read_certificate(target.octets, target.length);
    if (certificate.fault != 0)
        return certificate.fault == X509CHECK_FAULT_MEMORY ? X509_V_ERR_OUT_OF_MEM : X509_V_ERR_CERT_REJECTED;
    if (certificate.fields.extensions.has_key_usage && (certificate.fields.extensions.key_usage & usages_of(handshake->ssl)) == 0)
        return X509_V_ERR_INVALID_PURPOSE;
    return X509_V_OK;
}

/* ---- Names. ---- */

/* Whether the certificate speaks for an identity: X509_V_OK, `mismatch`, or why that cannot be said. */
static int speaks_for(struct x509check_text target, uint32_t kind, const void *identity, size_t length, int mismatch)
{
    struct x509check_speaking said = x509check_speaks_for(target.octets, target.length, kind, identity, length);

    switch (said.speaks) {
    case X509CHECK_SPEAKS:
        return X509_V_OK;
    case X509CHECK_DOES_NOT_SPEAK:
        return mismatch;
    case X509CHECK_IDENTITY_REFUSED:
        return X509_V_ERR_INVALID_CALL;
    default:
        return said.fault == X509CHECK_FAULT_MEMORY ? X509_V_ERR_OUT_OF_MEM : X509_V_ERR_CERT_REJECTED;
    }
}

/* One of the hosts is enough; one that is none is an error all the same. */
static int match_hosts(struct x509check_text target, X509_VERIFY_PARAM *names)
{
    int error = X509_V_ERR_HOSTNAME_MISMATCH;
    const char *host;

    for (int i = 0; (host = X509_VERIFY_PARAM_get0_host(names, i)) != NULL; i++) {
        int one = speaks_for(target, X509CHECK_HOST, host, strlen(host), X509_V_ERR_HOSTNAME_MISMATCH);

        if (one == X509_V_OK && error == X509_V_ERR_HOSTNAME_MISMATCH)
            error = X509_V_OK;
        if (one != X509_V_OK && one != X509_V_ERR_HOSTNAME_MISMATCH)
            return one;
    }
    return error;
}

static int match_address(struct x509check_text target, const char *address)
{
    ASN1_OCTET_STRING *octets = a2i_IPADDRESS(address);
    int error = octets == NULL ? X509_V_ERR_OUT_OF_MEM
                               : speaks_for(target, X509CHECK_ADDRESS, ASN1_STRING_get0_data(octets), (size_t)ASN1_STRING_length(octets),
                                            X509_V_ERR_IP_ADDRESS_MISMATCH);

    ASN1_OCTET_STRING_free(octets);
    return error;
}

/* Ends a verification at a mailbox that does not match, and at nothing else. */
static int stop_at_mailbox(int is_right, X509_STORE_CTX *context)
{
    return is_right == 1 || X509_STORE_CTX_get_error(context) != X509_V_ERR_EMAIL_MISMATCH;
}

static int verify_nothing(X509_STORE_CTX *context)
{
    (void)context;
    return 1;
}

/* A context in which X509_verify_cert compares names and does little else: the certificate is trusted, and no signature is verified. */
static bool begin_comparison(X509_STORE_CTX *context, const struct handshake *handshake, STACK_OF(X509) *trusted)
{
    X509_VERIFY_PARAM *parameters;

    if (context == NULL || trusted == NULL || sk_X509_push(trusted, handshake->own) == 0
        || X509_STORE_CTX_init(context, NULL, handshake->own, NULL) != 1)
        return false;
    parameters = X509_STORE_CTX_get0_param(context);
    X509_STORE_CTX_set0_trusted_stack(context, trusted);
    X509_STORE_CTX_set_verify_cb(context, stop_at_mailbox);
    X509_STORE_CTX_set_verify(context, verify_nothing);
    return X509_VERIFY_PARAM_set1(parameters, handshake->names) == 1 && X509_VERIFY_PARAM_clear_flags(parameters, ~0UL) == 1
           && X509_VERIFY_PARAM_set_flags(parameters, X509_V_FLAG_PARTIAL_CHAIN | X509_V_FLAG_NO_CHECK_TIME) == 1;
}

/* OpenSSL's own comparison: it alone knows the length of the mailbox, and takes none with a zero octet in it. */
static int match_mailbox_whole(const struct handshake *handshake)
{
    STACK_OF(X509) *trusted = sk_X509_new_null();
    X509_STORE_CTX *context = X509_STORE_CTX_new();
    int error = X509_V_ERR_OUT_OF_MEM;

    if (begin_comparison(context, handshake, trusted)) {
        if (X509_verify_cert(context) == 1)
            error = X509_V_OK;
        else if (X509_STORE_CTX_get_error(context) == X509_V_ERR_EMAIL_MISMATCH)
            error = X509_V_ERR_EMAIL_MISMATCH;
    }
    X509_STORE_CTX_free(context);
    sk_X509_free(trusted);
    return error;
}

/* OpenSSL hands out the mailbox as a string: of one with a zero octet the part before that. */
static int match_mailbox(const struct handshake *handshake, struct x509check_text target)
{
    const char *mailbox = X509_VERIFY_PARAM_get0_email(handshake->names);
    int error = speaks_for(target, X509CHECK_MAILBOX, mailbox, strlen(mailbox), X509_V_ERR_EMAIL_MISMATCH);

    return error == X509_V_OK ? match_mailbox_whole(handshake) : error;
}

/* Each kind of name that is set has to match, as X509_verify_cert has it. `address` may be null. */
static int match_each(const struct handshake *handshake, struct x509check_text target, const char *address)
{
    int error = X509_V_OK;

    if (X509_VERIFY_PARAM_get0_host(handshake->names, 0) != NULL)
        error = match_hosts(target, handshake->names);
    if (error == X509_V_OK && address != NULL)
        error = match_address(target, address);
    if (error == X509_V_OK && X509_VERIFY_PARAM_get0_email(handshake->names) != NULL)
        error = match_mailbox(handshake, target);
    return error;
}

static bool needs_name(const struct handshake *handshake)
{
    return !handshake->settings->asks_for_no_name && (handshake->ssl == NULL || !SSL_is_server(handshake->ssl));
}

/* The address that is set, or null; false if memory is refused, which before OpenSSL 3.2 is told by errno alone. */
static bool take_address(X509_VERIFY_PARAM *names, char **address)
{
    ERR_clear_error();
    errno = 0;
    *address = X509_VERIFY_PARAM_get1_ip_asc(names);
    return *address != NULL || (errno != ENOMEM && ERR_GET_REASON(ERR_peek_last_error()) != ERR_R_MALLOC_FAILURE);
}

static int match_names(const struct handshake *handshake, struct x509check_text target)
{
    X509_VERIFY_PARAM *names = handshake->names;
    bool is_strict = (X509_VERIFY_PARAM_get_hostflags(names) & X509_CHECK_FLAG_NO_WILDCARDS) != 0, is_named;
    int error = X509_V_OK;
    char *address;

    if (!take_address(names, &address))
        return X509_V_ERR_OUT_OF_MEM;
    is_named = X509_VERIFY_PARAM_get0_host(names, 0) != NULL || X509_VERIFY_PARAM_get0_email(names) != NULL || address != NULL;
    if ((!is_named && needs_name(handshake)) || (is_named && is_strict))
        error = X509_V_ERR_INVALID_CALL;
    else if (is_named)
        error = match_each(handshake, target, address);
    OPENSSL_free(address);
    return error;
}

/* ---- The check. ---- */

/* The stapled response of this handshake, if it has come; a server's own is none. */
static struct x509check_text response_of(SSL *ssl)
{
    const unsigned char *octets = NULL;
    long length = ssl == NULL || SSL_is_server(ssl) ? -1 : SSL_get_tlsext_status_ocsp_resp(ssl, &octets);

    return length < 0 || octets == NULL ? (struct x509check_text){NULL, 0} : (struct x509check_text){octets, (size_t)length};
}

/* Whether the response is still to come, and x509check_openssl_status is called for these settings then. */
static bool has_to_wait(SSL *ssl, const struct x509check_openssl_settings *settings)
{
    SSL_CTX *tls = ssl == NULL ? NULL : SSL_get_SSL_CTX(ssl);
    int (*callback)(SSL *, void *) = NULL;
    void *argument = NULL;

    if (tls == NULL || SSL_is_server(ssl) || SSL_version(ssl) == TLS1_3_VERSION)
        return false;
    return SSL_get_tlsext_status_type(ssl) == TLSEXT_STATUSTYPE_ocsp && SSL_CTX_get_tlsext_status_cb(tls, &callback) == 1
           && callback == x509check_openssl_status && SSL_CTX_get_tlsext_status_arg(tls, &argument) == 1 && argument == settings;
}

static bool is_too_long(const struct kept *kept)
{
    return kept->most_above >= 0 && kept->outcome.finding.path_count > 2 + (size_t)kept->most_above;
}

static const char *words_beside(int error)
{
    switch (error) {
    case X509_V_ERR_CERT_CHAIN_TOO_LONG:
        return "a path that is longer than the depth that is set";
    case X509_V_ERR_INVALID_PURPOSE:
        return "a key that is not there for this (keyUsage)";
    case X509_V_ERR_INVALID_CALL:
        return "no name is set, or one that cannot be looked for";
    case X509_V_ERR_OUT_OF_MEM:
        return "no memory";
    default:
        return "a certificate that does not speak for the name";
    }
}

/* What stands beside the verdict: the length of the path, what the key is there for, and the names. */
static struct x509check_openssl_ruling rule_beside(const struct handshake *handshake, const struct x509check_openssl_peer *peer,
                                                   const struct kept *kept, struct x509check_openssl_ruling ruling)
{
    ruling.error = is_too_long(kept) ? X509_V_ERR_CERT_CHAIN_TOO_LONG : match_usage(handshake, peer->search.target);
    if (ruling.error == X509_V_OK && handshake->names != NULL)
        ruling.error = match_names(handshake, peer->search.target);
    if (ruling.error == X509_V_OK)
        return ruling;
    ruling.depth = 0;
    ruling.certificate = peer->search.anchor_count;
    ruling.words = words_beside(ruling.error);
    ruling.name[0] = '\0';
    return ruling;
}

/* Looks at what the peer showed. `path` has room for X509CHECK_PATH_ROOM. */
static struct x509check_openssl_ruling look_at(const struct handshake *handshake, struct x509check_openssl_peer *peer, struct kept *kept,
                                               size_t *path)
{
    struct x509check_openssl_outcome *outcome = &kept->outcome;
    struct x509check_openssl_ruling ruling;

    peer->search.moment = kept->moment;
    peer->search.purpose = purpose_of(handshake);
    x509check_sha256(peer->search.target.octets, peer->search.target.length, outcome->target);
    outcome->took_response = peer->has_response;
    ruling = x509check_openssl_rule(peer, outcome, path);
    if (ruling.error == X509_V_ERR_UNABLE_TO_GET_CRL && handshake->waits)
        ruling.error = X509_V_OK;
    return ruling.error == X509_V_OK ? rule_beside(handshake, peer, kept, ruling) : ruling;
}

static void keep(struct kept *kept, const struct x509check_openssl_ruling *ruling, bool waits)
{
    struct x509check_openssl_outcome *outcome = &kept->outcome;
    char digest[2 * X509CHECK_SHA256_LENGTH + 1];

    outcome->state = ruling->error != X509_V_OK ? X509CHECK_OPENSSL_REFUSED
                     : waits                    ? X509CHECK_OPENSSL_WAITING
                                                : X509CHECK_OPENSSL_ACCEPTED;
    outcome->error = ruling->error;
    outcome->depth = ruling->depth;
    for (size_t i = 0; i < sizeof outcome->target; i++)
        snprintf(digest + 2 * i, 3, "%02x", outcome->target[i]);
    snprintf(outcome->words, sizeof outcome->words, "%s: %s%s%s, at depth %d; peer sha256 %s",
             ruling->error != X509_V_OK ? "refused"
             : waits                    ? "waits for a response"
                                        : "accepted",
             ruling->words, ruling->name[0] == '\0' ? "" : ": ", ruling->name, ruling->depth, digest);
}

static struct x509check_openssl_ruling failure(int error, const char *words)
{
    return (struct x509check_openssl_ruling){error, 0, SIZE_MAX, words, ""};
}

/* Why the texts of what the peer showed are not there. */
static const char *words_of(int error)
{
    switch (error) {
    case X509_V_ERR_OUT_OF_MEM:
        return "no memory";
    case X509_V_ERR_CERT_CHAIN_TOO_LONG:
        return "more certificates than a peer may send";
    default:
        return "no certificate";
    }
}

/* Checks the peer, and keeps what is said. If it is accepted, or has to wait, `*chain` is the path that was found; else `*at_fault` is the
 * certificate at fault, if the peer sent it. */
static int check(const struct handshake *handshake, struct kept *kept, STACK_OF(X509) **chain, X509 **at_fault)
{
    struct x509check_openssl_peer peer;
    struct x509check_openssl_ruling ruling;
    size_t path[X509CHECK_PATH_ROOM];
    int error = x509check_openssl_take_peer(&peer, handshake->settings, handshake->own, handshake->sent, response_of(handshake->ssl));

    kept->outcome = (struct x509check_openssl_outcome){.state = X509CHECK_OPENSSL_REFUSED};
    if (error == X509_V_OK)
        ruling = look_at(handshake, &peer, kept, path);
    else
        ruling = failure(error, words_of(error));
    if (ruling.error == X509_V_OK) {
        *chain = x509check_openssl_chain(&peer, path, kept->outcome.finding.path_count);
        if (*chain == NULL)
            ruling = failure(X509_V_ERR_UNSPECIFIED, "no memory, or an anchor or helper that OpenSSL does not read");
    }
    *at_fault = ruling.error == X509_V_OK ? NULL : x509check_openssl_sent(&peer, ruling.certificate);
    keep(kept, &ruling, handshake->waits);
    x509check_openssl_drop_peer(&peer);
    ERR_clear_error();
    return ruling.error;
}

/* ---- The callbacks. ---- */

/* Before TLS 1.3 OpenSSL calls nobody when a client resumes a session: without an identifier it cannot. */
static bool make_unresumable(SSL *ssl)
{
    if (ssl == NULL || SSL_is_server(ssl) || SSL_version(ssl) == TLS1_3_VERSION)
        return true;
    return SSL_SESSION_set1_id(SSL_get0_session(ssl), (const unsigned char *)"", 0) == 1;
}

static int refuse(X509_STORE_CTX *context, int error)
{
    X509_STORE_CTX_set_error(context, error);
    X509_STORE_CTX_set_error_depth(context, 0);
    return 0;
}

static int refuse_unchecked(X509_STORE_CTX *context, struct kept *kept, int error, const char *words)
{
    struct x509check_openssl_ruling ruling = failure(error, words);

    keep(kept, &ruling, false);
    return refuse(context, error);
}

/* Tells OpenSSL what was said. */
static int tell(X509_STORE_CTX *context, const struct kept *kept, STACK_OF(X509) *chain, X509 *at_fault)
{
    X509_STORE_CTX_set_error(context, kept->outcome.error);
    X509_STORE_CTX_set_current_cert(context, at_fault);
    if (kept->outcome.error != X509_V_OK) {
        X509_STORE_CTX_set_error_depth(context, kept->outcome.depth);
        sk_X509_pop_free(chain, X509_free);
        return 0;
    }
    X509_STORE_CTX_set_error_depth(context, 0);
    X509_STORE_CTX_set0_verified_chain(context, chain);
    return 1;
}

static int verify(X509_STORE_CTX *context, const struct handshake *handshake, struct kept *kept)
{
    STACK_OF(X509) *chain = NULL;
    X509 *at_fault = NULL;

    if (handshake->ssl == NULL && handshake->settings->purpose.length == 0)
        return refuse_unchecked(context, kept, X509_V_ERR_INVALID_CALL, "without an SSL a purpose has to be set");
    if (!make_unresumable(handshake->ssl))
        return refuse_unchecked(context, kept, X509_V_ERR_UNSPECIFIED, "a session that could be resumed");
    if (!take_moment(handshake->settings, handshake->names, &kept->moment))
        return refuse_unchecked(context, kept, X509_V_ERR_UNSPECIFIED, "no clock");
    kept->most_above = X509_VERIFY_PARAM_get_depth(handshake->names);
    check(handshake, kept, &chain, &at_fault);
    return tell(context, kept, chain, at_fault);
}

int x509check_openssl_verify(X509_STORE_CTX *context, void *settings)
{
    SSL *ssl = X509_STORE_CTX_get_ex_data(context, SSL_get_ex_data_X509_STORE_CTX_idx());
    struct kept of_no_ssl = {.outcome.state = X509CHECK_OPENSSL_REFUSED};
    struct kept *kept = ssl == NULL ? &of_no_ssl : kept_anew(ssl);
    struct handshake handshake = {settings,
                                  ssl,
                                  X509_STORE_CTX_get0_cert(context),
                                  X509_STORE_CTX_get0_untrusted(context),
                                  X509_STORE_CTX_get0_param(context),
                                  has_to_wait(ssl, settings)};

    if (kept == NULL)
        return refuse(context, X509_V_ERR_OUT_OF_MEM);
    return settings == NULL ? refuse_unchecked(context, kept, X509_V_ERR_INVALID_CALL, "no settings") : verify(context, &handshake, kept);
}

/* The same in an SSL_CTX that is to let no connection pass unchecked: without its own callback it could not. */
static int verify_guarded(X509_STORE_CTX *context, void *settings)
{
    SSL *ssl = X509_STORE_CTX_get_ex_data(context, SSL_get_ex_data_X509_STORE_CTX_idx());
    struct kept *kept;

    if (x509check_openssl_is_guarded(ssl))
        return x509check_openssl_verify(context, settings);
    kept = kept_anew(ssl);
    if (kept == NULL)
        return refuse(context, X509_V_ERR_OUT_OF_MEM);
    return refuse_unchecked(context, kept, X509_V_ERR_INVALID_CALL, "the SSL_CTX has another keylog callback");
}

/* Decides with the response that has come, or without one. */
static int decide(SSL *ssl, const struct x509check_openssl_settings *settings, struct kept *kept)
{
    struct handshake handshake = {settings, ssl, SSL_get0_peer_certificate(ssl), SSL_get_peer_cert_chain(ssl), NULL, false};
    STACK_OF(X509) *chain = NULL;
    X509 *at_fault = NULL;

    check(&handshake, kept, &chain, &at_fault);
    sk_X509_pop_free(chain, X509_free);
    return kept->outcome.error;
}

int x509check_openssl_status(SSL *ssl, void *settings)
{
    struct kept *kept = kept_of(ssl);
    int error = X509_V_ERR_APPLICATION_VERIFICATION;

    if (SSL_is_server(ssl))
        return SSL_TLSEXT_ERR_NOACK;
    if (settings != NULL && is_of_this_handshake(ssl, kept))
        error = kept->outcome.state == X509CHECK_OPENSSL_WAITING ? decide(ssl, settings, kept) : kept->outcome.error;
    SSL_set_verify_result(ssl, error);
    if (error == X509_V_OK)
        return kept->outcome.state == X509CHECK_OPENSSL_ACCEPTED ? 1 : 0;
    return error == X509_V_ERR_OUT_OF_MEM ? -1 : 0;
}

/* ---- The SSL_CTX. ---- */

/* Whether the policy is one, and all of the settings can be read: by the questions about a search for the first anchor, of which only the
 * refusal counts. */
static bool can_be_used(const struct x509check_openssl_settings *settings, struct x509check_refusal *refusal)
{
    struct x509check_search search = {.anchors = settings->anchors,
                                      .anchor_count = settings->anchor_count,
                                      .bag = settings->helpers,
                                      .bag_count = settings->helper_count};
    const struct x509check_openssl_signature nothing = {0};
    enum x509check_openssl_judgement judgement; /* (of which nothing is asked but whether there is a policy) */

    *refusal = (struct x509check_refusal){0};
    if (settings->anchor_count == 0 || x509check_openssl_judge(&nothing, settings->policy, &judgement) != X509CHECK_OPENSSL_DONE)
        return false;
    search.target = settings->anchors[0];
    *refusal = x509check_find_questions(&search, settings->statements, settings->statement_count, NULL, 0).refusal;
    /* (the target stands between the anchors and the helpers) */
    if (refusal->text == X509CHECK_CERTIFICATES && refusal->index > settings->anchor_count)
        refusal->index--;
    return refusal->fault == 0;
}

static int use(SSL_CTX *tls, struct x509check_openssl_settings *settings, struct x509check_refusal *refusal, int mode)
{
    struct x509check_refusal spare;

    if (!can_be_used(settings, refusal == NULL ? &spare : refusal) || !has_index() || !x509check_openssl_only_checked(tls))
        return 0;
    SSL_CTX_set_cert_verify_callback(tls, verify_guarded, settings);
    SSL_CTX_set_verify(tls, mode, NULL);
    return 1;
}

int x509check_openssl_use_in_client(SSL_CTX *tls, struct x509check_openssl_settings *settings, struct x509check_refusal *refusal)
{
    return use(tls, settings, refusal, SSL_VERIFY_PEER) == 1 && SSL_CTX_set_tlsext_status_type(tls, TLSEXT_STATUSTYPE_ocsp) == 1
           && SSL_CTX_set_tlsext_status_cb(tls, x509check_openssl_status) == 1 && SSL_CTX_set_tlsext_status_arg(tls, settings) == 1;
}

int x509check_openssl_use_in_server(SSL_CTX *tls, struct x509check_openssl_settings *settings, struct x509check_refusal *refusal)
{
    return use(tls, settings, refusal, SSL_VERIFY_PEER | SSL_VERIFY_FAIL_IF_NO_PEER_CERT);
}
