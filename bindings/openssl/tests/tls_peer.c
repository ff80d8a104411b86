/* One side of a handshake over the loopback, for ../try: a client or a server that checks its peer by x509check.
 *
 *     tls_peer client PORT WORD..
 *     tls_peer server CERTIFICATE KEY WORD..
 *
 * A server chooses its port and prints it. Words are NAME=VALUE, those of take_word below. What came of it is printed, a line each:
 * whether the handshake ended, the alerts, SSL_get_verify_result, and what x509check_openssl_outcome says. The status is 0 if all of that
 * could be printed, whatever it is. */
#define _POSIX_C_SOURCE 200809L
#include <arpa/inet.h>
#include <netinet/in.h>
#include <stdio.h>
#include <stdlib.h>
#include <string.h>
#include <sys/socket.h>
#include <unistd.h>

#include <openssl/err.h>
#include <openssl/ssl.h>
#include <openssl/x509v3.h>

#include "x509check_openssl.h"

#define MOST 64
#define SECONDS 10 /* after which the program is ended */

struct words {
    struct x509check_openssl_settings settings;
    struct x509check_text anchors[MOST], helpers[MOST], statements[MOST];
    struct x509check_openssl_policy policy;
    const char *hosts[MOST], *address, *mailbox, *ciphers;
    size_t host_count;
    int version, depth;
    unsigned flags;
    bool asks_for_no_response, resumes, clears, looks_away, has_verify_alone, shares_key, logs_keys;
    enum { SAME, CHECKED_LATE, SWITCHED, SWITCHED_WITH_MODE, OTHER_STATEMENT } second; /* how the second connection is made */
    struct x509check_text other;                                                       /* the last statement of the second connection */
    long check_time;
};

static void *must(void *answer, const char *what)
{
    if (answer == NULL) {
        perror(what);
        exit(1);
    }
    return answer;
}

/* The octets of a file, kept to the end. */
static struct x509check_text text_of(const char *path)
{
    FILE *file = must(fopen(path, "rb"), path);
    long length = fseek(file, 0, SEEK_END) == 0 ? ftell(file) : -1;
    uint8_t *octets = must(length < 0 ? NULL : malloc((size_t)length + 1), path);

    rewind(file);
    if (fread(octets, 1, (size_t)length, file) != (size_t)length)
        must(NULL, path);
    fclose(file);
    return (struct x509check_text){octets, (size_t)length};
}

/* ---- The words. ---- */

static bool take_flag(struct words *words, const char *name)
{
    if (strcmp(name, "unknown") == 0)
        words->settings.accepts_unknown = true;
    else if (strcmp(name, "noname") == 0)
        words->settings.asks_for_no_name = true;
    else if (strcmp(name, "noresponse") == 0)
        words->asks_for_no_response = true;
    else if (strcmp(name, "resume") == 0)
        words->resumes = true;
    else if (strcmp(name, "sha1") == 0)
        words->policy.digests |= X509CHECK_OPENSSL_SHA1;
    else if (strcmp(name, "look-away") == 0)
        words->looks_away = true;
    else if (strcmp(name, "clear") == 0)
        words->clears = true;
    else if (strcmp(name, "alone") == 0)
        words->has_verify_alone = true;
    else if (strcmp(name, "keylog") == 0)
        words->logs_keys = true;
    else if (strcmp(name, "psk") == 0)
        words->shares_key = true;
    else if (strcmp(name, "leave") == 0)
        words->settings.leaves_out_unjudged = true;
    else if (strcmp(name, "late") == 0)
        words->second = CHECKED_LATE;
    else if (strcmp(name, "switch") == 0)
        words->second = SWITCHED;
    else if (strcmp(name, "switch-with-mode") == 0)
        words->second = SWITCHED_WITH_MODE;
    else if (strcmp(name, "nowildcards") == 0)
        words->flags = X509_CHECK_FLAG_NO_WILDCARDS;
    else
        return false;
    return true;
}

static bool take_number(struct words *words, const char *name, const char *value)
{
    long number = atol(value);

    if (strcmp(name, "tls") == 0)
        words->version = number == 12 ? TLS1_2_VERSION : TLS1_3_VERSION;
    else if (strcmp(name, "at") == 0)
        words->settings.moment = number;
    else if (strcmp(name, "time") == 0)
        words->check_time = number;
    else if (strcmp(name, "certificates") == 0)
        words->settings.certificate_limit = (size_t)number;
    else if (strcmp(name, "signatures") == 0)
        words->settings.limits.signatures = (size_t)number;
    else if (strcmp(name, "depth") == 0)
        words->depth = (int)number;
    else
        return false;
    return true;
}

static bool take_file(struct words *words, const char *name, const char *value)
{
    struct x509check_openssl_settings *settings = &words->settings;

    if (strcmp(name, "anchor") == 0 && settings->anchor_count < MOST)
        words->anchors[settings->anchor_count++] = text_of(value);
    else if (strcmp(name, "helper") == 0 && settings->helper_count < MOST)
        words->helpers[settings->helper_count++] = text_of(value);
    else if (strcmp(name, "statement") == 0 && settings->statement_count < MOST)
        words->statements[settings->statement_count++] = text_of(value);
    else if (strcmp(name, "purpose") == 0)
        settings->purpose = text_of(value);
    else if (strcmp(name, "then") == 0) {
        words->other = text_of(value);
        words->second = OTHER_STATEMENT;
    } else
        return false;
    return true;
}

static bool take_name(struct words *words, const char *name, const char *value)
{
    if (strcmp(name, "host") == 0 && words->host_count < MOST)
        words->hosts[words->host_count++] = value;
    else if (strcmp(name, "address") == 0)
        words->address = value;
    else if (strcmp(name, "mailbox") == 0)
        words->mailbox = value;
    else if (strcmp(name, "ciphers") == 0)
        words->ciphers = value;
    else
        return false;
    return true;
}

static void take_word(struct words *words, char *word)
{
    char *value = strchr(word, '=');

    if (value == NULL ? take_flag(words, word) : (*value++ = '\0', take_number(words, word, value)))
        return;
    if (value != NULL && (take_file(words, word, value) || take_name(words, word, value)))
        return;
    fprintf(stderr, "tls_peer: no word: %s\n", word);
    exit(1);
}

static struct words *words_of(char **arguments)
{
    static struct words words = {.policy = X509CHECK_OPENSSL_DEFAULT_POLICY, .depth = -1};

    for (; *arguments != NULL; arguments++)
        take_word(&words, *arguments);
    words.settings.anchors = words.anchors;
    words.settings.helpers = words.helpers;
    words.settings.statements = words.statements;
    words.settings.policy = &words.policy;
    return &words;
}

/* ---- What came of it. ---- */

static void print_alert(const SSL *ssl, int where, int value)
{
    (void)ssl;
    if ((where & SSL_CB_ALERT) != 0 && (value & 0xFF) != SSL_AD_CLOSE_NOTIFY)
        printf("%s alert %d\n", (where & SSL_CB_READ) != 0 ? "got" : "sent", value & 0xFF);
}

static void print_outcome(const SSL *ssl)
{
    const struct x509check_openssl_outcome *outcome = x509check_openssl_outcome(ssl);
    STACK_OF(X509) *chain = SSL_get0_verified_chain(ssl);

    printf("verify %ld\nchain %d\n", SSL_get_verify_result(ssl), chain == NULL ? 0 : sk_X509_num(chain));
    if (outcome == NULL) {
        puts("state none");
        return;
    }
    printf("state %d\nerror %d\ndepth %d\nverdict %u\nresponse %d\nwords %s\n", (int)outcome->state, outcome->error, outcome->depth,
           (unsigned)outcome->finding.verdict.verdict, outcome->took_response, outcome->words);
}

/* ---- The handshake. ---- */

static void set_names(SSL *ssl, const struct words *words)
{
    X509_VERIFY_PARAM *parameters = SSL_get0_param(ssl);

    for (size_t i = 0; i < words->host_count; i++)
        X509_VERIFY_PARAM_add1_host(parameters, words->hosts[i], 0);
    if (words->address != NULL && X509_VERIFY_PARAM_set1_ip_asc(parameters, words->address) != 1)
        must(NULL, "address");
    if (words->mailbox != NULL)
        X509_VERIFY_PARAM_set1_email(parameters, words->mailbox, 0);
    if (words->depth >= 0)
        X509_VERIFY_PARAM_set_depth(parameters, words->depth);
    if (words->check_time != 0)
        X509_VERIFY_PARAM_set_time(parameters, words->check_time);
    X509_VERIFY_PARAM_set_hostflags(parameters, words->flags);
}

/* What the other side has not heard yet, as an alert, would be lost if octets of its were left. */
static void hear_out(int connection)
{
    char rest[4096];

    shutdown(connection, SHUT_WR);
    while (read(connection, rest, sizeof rest) > 0)
        continue;
}

/* Shakes hands, reads and writes a line, and prints what came of it. */
static void talk(SSL *ssl, int connection)
{
    char line[64];
    int is_done;

    SSL_set_fd(ssl, connection);
    is_done = SSL_do_handshake(ssl) == 1;
    printf("handshake %s\n", is_done ? "done" : "failed");
    if (is_done && SSL_write(ssl, "hello\n", 6) == 6 && SSL_read(ssl, line, sizeof line) > 0)
        puts("heard the peer");
    print_outcome(ssl);
    ERR_print_errors_fp(stderr);
    if (is_done)
        SSL_shutdown(ssl);
    hear_out(connection);
}

/* The callback of verification without the one for the response, by OpenSSL's own calls. */
static int use_verify_alone(SSL_CTX *tls, struct words *words)
{
    SSL_CTX_set_verify(tls, SSL_VERIFY_PEER, NULL);
    SSL_CTX_set_cert_verify_callback(tls, x509check_openssl_verify, &words->settings);
    return (int)SSL_CTX_set_tlsext_status_type(tls, TLSEXT_STATUSTYPE_ocsp);
}

static void log_nothing(const SSL *ssl, const char *line)
{
    (void)ssl, (void)line;
}

static void check_by(SSL_CTX *tls, struct words *words, bool is_server)
{
    struct x509check_refusal refusal = {0};
    int is_used = is_server                 ? x509check_openssl_use_in_server(tls, &words->settings, &refusal)
                  : words->has_verify_alone ? use_verify_alone(tls, words)
                                            : x509check_openssl_use_in_client(tls, &words->settings, &refusal);

    if (is_used != 1) {
        printf("not used: %u %zu %u\n", (unsigned)refusal.text, refusal.index, (unsigned)refusal.fault);
        exit(0);
    }
    if (words->asks_for_no_response)
        SSL_CTX_set_tlsext_status_type(tls, -1);
    if (words->looks_away)
        SSL_CTX_set_verify(tls, SSL_VERIFY_NONE, NULL);
    if (words->logs_keys)
        SSL_CTX_set_keylog_callback(tls, log_nothing);
}

/* A key for whoever names one, so that no certificate is needed. */
static unsigned give_key(SSL *ssl, const char *identity, unsigned char *key, unsigned room)
{
    (void)ssl, (void)identity;
    if (room < 3)
        return 0;
    memcpy(key, "key", 3);
    return 3;
}

/* An SSL_CTX that checks nobody yet, whose sessions may be resumed: those of a server are in its cache. */
static SSL_CTX *plain_tls(const struct words *words, bool is_server)
{
    SSL_CTX *tls = must(SSL_CTX_new(is_server ? TLS_server_method() : TLS_client_method()), "SSL_CTX");

    SSL_CTX_set_session_id_context(tls, (const unsigned char *)"tls_peer", 8);
    if (is_server)
        SSL_CTX_set_options(tls, SSL_OP_NO_TICKET);
    SSL_CTX_set_min_proto_version(tls, words->version);
    SSL_CTX_set_max_proto_version(tls, words->version);
    SSL_CTX_set_info_callback(tls, print_alert);
    if (words->shares_key)
        SSL_CTX_set_psk_server_callback(tls, give_key);
    if (words->ciphers != NULL && SSL_CTX_set_cipher_list(tls, words->ciphers) != 1)
        must(NULL, "ciphers");
    return tls;
}

static SSL_CTX *tls_of(struct words *words, bool is_server)
{
    SSL_CTX *tls = plain_tls(words, is_server);

    check_by(tls, words, is_server);
    return tls;
}

/* By other settings, as it has to be for a new statement. */
static SSL_CTX *tls_with_other_statement(const struct words *words, bool is_server)
{
    static struct words others;

    others = *words;
    others.settings.statements = others.statements;
    others.statements[others.settings.statement_count - 1] = words->other;
    return tls_of(&others, is_server);
}

static struct sockaddr_in loopback(int port)
{
    return (struct sockaddr_in){.sin_family = AF_INET, .sin_port = htons((uint16_t)port), .sin_addr.s_addr = htonl(INADDR_LOOPBACK)};
}

static void connect_once(SSL *ssl, const struct words *words, int port)
{
    struct sockaddr_in address = loopback(port);
    int connection = socket(AF_INET, SOCK_STREAM, 0);

    if (connect(connection, (struct sockaddr *)&address, sizeof address) != 0)
        must(NULL, "connect");
    set_names(ssl, words);
    SSL_set_connect_state(ssl);
    talk(ssl, connection);
    close(connection);
}

/* Connects once more: with the session of the first connection, or with its SSL, whose server need show no certificate now. */
static void connect_again(SSL *first, SSL_CTX *tls, const struct words *words, int port)
{
    SSL *ssl = first;

    puts("again");
    if (!words->clears) {
        ssl = must(SSL_new(tls), "SSL");
        SSL_set_session(ssl, SSL_get0_session(first));
        SSL_free(first);
    } else if (SSL_clear(ssl) != 1 || SSL_set_cipher_list(ssl, "ADH:@SECLEVEL=0") != 1) {
        must(NULL, "SSL_clear");
    }
    connect_once(ssl, words, port);
    SSL_free(ssl);
}

static void be_client(struct words *words, int port)
{
    SSL_CTX *tls = words->second == CHECKED_LATE ? plain_tls(words, false) : tls_of(words, false), *second = tls;
    SSL *ssl = must(SSL_new(tls), "SSL");

    connect_once(ssl, words, port);
    if (words->second == CHECKED_LATE)
        second = tls_of(words, false);
    if (words->second == OTHER_STATEMENT)
        second = tls_with_other_statement(words, false);
    if (words->resumes || words->clears)
        connect_again(ssl, second, words, port);
    else
        SSL_free(ssl);
    if (second != tls)
        SSL_CTX_free(second);
    SSL_CTX_free(tls);
}

static SSL_CTX *switched_to;

/* As a server does that chooses by the name that it is asked for. */
static int switch_context(SSL *ssl, int *alert, void *words)
{
    (void)alert;
    if (switched_to != NULL)
        SSL_set_SSL_CTX(ssl, switched_to);
    if (switched_to != NULL && ((const struct words *)words)->second == SWITCHED_WITH_MODE)
        SSL_set_verify(ssl, SSL_CTX_get_verify_mode(switched_to), NULL);
    return SSL_TLSEXT_ERR_OK;
}

static SSL_CTX *first_of_server(struct words *words)
{
    SSL_CTX *tls;

    if (words->second == SAME || words->second == OTHER_STATEMENT)
        return tls_of(words, true);
    tls = plain_tls(words, true);
    SSL_CTX_set_tlsext_servername_callback(tls, switch_context);
    SSL_CTX_set_tlsext_servername_arg(tls, words);
    return tls;
}

/* What the second connection of a server is made by. */
static SSL_CTX *second_of_server(SSL_CTX *first, struct words *words)
{
    switch (words->second) {
    case CHECKED_LATE:
        check_by(first, words, true);
        return first;
    case SWITCHED:
    case SWITCHED_WITH_MODE:
        switched_to = tls_of(words, true);
        return first;
    case OTHER_STATEMENT:
        SSL_CTX_free(first);
        return tls_with_other_statement(words, true);
    default:
        return first;
    }
}

static void show_certificate(SSL_CTX *tls, const char *certificate, const char *key)
{
    if (SSL_CTX_use_certificate_chain_file(tls, certificate) != 1 || SSL_CTX_use_PrivateKey_file(tls, key, SSL_FILETYPE_PEM) != 1)
        must(NULL, certificate);
}

static void accept_once(SSL_CTX *tls, const struct words *words, int listener)
{
    int connection = accept(listener, NULL, NULL);
    SSL *ssl = must(SSL_new(tls), "SSL");

    set_names(ssl, words);
    SSL_set_accept_state(ssl);
    talk(ssl, connection);
    SSL_free(ssl);
    close(connection);
}

static void be_server(struct words *words, const char *certificate, const char *key)
{
    SSL_CTX *tls = first_of_server(words);
    struct sockaddr_in address = loopback(0);
    socklen_t length = sizeof address;
    int listener = socket(AF_INET, SOCK_STREAM, 0);

    show_certificate(tls, certificate, key);
    if (bind(listener, (struct sockaddr *)&address, length) != 0 || listen(listener, 1) != 0)
        must(NULL, "listen");
    getsockname(listener, (struct sockaddr *)&address, &length);
    printf("port %d\n", ntohs(address.sin_port));
    accept_once(tls, words, listener);
    if (words->resumes) {
        tls = second_of_server(tls, words);
        show_certificate(switched_to == NULL ? tls : switched_to, certificate, key);
        puts("again");
        accept_once(tls, words, listener);
    }
    close(listener);
    SSL_CTX_free(switched_to);
    SSL_CTX_free(tls);
}

static void free_texts(const struct x509check_text *texts, size_t count)
{
    for (size_t i = 0; i < count; i++)
        free((void *)texts[i].octets);
}

int main(int argc, char **argv)
{
    bool is_server = argc > 3 && strcmp(argv[1], "server") == 0;
    struct words *words;

    setvbuf(stdout, NULL, _IOLBF, 0);
    alarm(SECONDS);
    if (argc < 3 || (!is_server && strcmp(argv[1], "client") != 0))
        return 1;
    words = words_of(argv + (is_server ? 4 : 3));
    if (is_server)
        be_server(words, argv[2], argv[3]);
    else
        be_client(words, atoi(argv[2]));
    free_texts(words->anchors, words->settings.anchor_count);
    free_texts(words->helpers, words->settings.helper_count);
    free_texts(words->statements, words->settings.statement_count);
    free((void *)words->settings.purpose.octets);
    free((void *)words->other.octets);
    return 0;
}
