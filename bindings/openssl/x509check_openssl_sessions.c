/* No connection of an SSL_CTX carries data unless its peer was checked: sessions, which show no certificate when they are resumed, and the
 * last look at each handshake. */
#include <string.h>

#include <openssl/rand.h>

#include "x509check_openssl_peer.h"

/* ---- Sessions. ---- */

static void empty_cache(SSL_CTX *tls)
{
#if OPENSSL_VERSION_PREREQ(3, 4)
    SSL_CTX_flush_sessions_ex(tls, 0);
#else
    SSL_CTX_flush_sessions(tls, 0);
#endif
}

/* Sessions of a context with another name are not resumed by a server, and end the handshake of a client that was handed one. */
static bool name_context(SSL_CTX *tls)
{
    unsigned char name[SSL_MAX_SID_CTX_LENGTH];

    return RAND_bytes(name, sizeof name) == 1 && SSL_CTX_set_session_id_context(tls, name, sizeof name) == 1;
}

/* No tickets; no sessions in a cache or from the program's callbacks, also none that were there before. */
static bool turn_off_resumption(SSL_CTX *tls)
{
    SSL_CTX_set_session_cache_mode(tls, SSL_SESS_CACHE_OFF | SSL_SESS_CACHE_NO_INTERNAL);
    SSL_CTX_sess_set_new_cb(tls, NULL);
    SSL_CTX_sess_set_get_cb(tls, NULL);
    empty_cache(tls);
    SSL_CTX_sess_set_remove_cb(tls, NULL);
    SSL_CTX_set_options(tls, SSL_OP_NO_TICKET);
    return SSL_CTX_set_num_tickets(tls, 0) == 1 && name_context(tls);
}

/* ---- The last look. ---- */

static bool is_accepted(const SSL *ssl)
{
    const struct x509check_openssl_outcome *outcome = x509check_openssl_outcome(ssl);

    return outcome != NULL && outcome->state == X509CHECK_OPENSSL_ACCEPTED;
}

/* Whether the line has the secret for what a client sends behind the handshake. By then OpenSSL has seen all of the peer's handshake that
 * comes before data. */
static bool is_of_client(const char *line)
{
    static const char before_13[] = "CLIENT_RANDOM ", of_13[] = "CLIENT_TRAFFIC_SECRET_0 ";

    return strncmp(line, before_13, sizeof before_13 - 1) == 0 || strncmp(line, of_13, sizeof of_13 - 1) == 0;
}

/* OpenSSL calls this for secrets in each handshake, a resumed one too, by the SSL_CTX that the SSL has then: no other callback is always
 * called. The secrets are not looked at. A connection whose peer was not accepted is shut: nothing can be read or written. */
static void look_at_secret(const SSL *ssl, const char *line)
{
    if (!is_of_client(line) || is_accepted(ssl))
        return;
    SSL_set_verify_result((SSL *)ssl, X509_V_ERR_APPLICATION_VERIFICATION);
    SSL_set_shutdown((SSL *)ssl, SSL_SENT_SHUTDOWN | SSL_RECEIVED_SHUTDOWN);
}

bool x509check_openssl_is_guarded(const SSL *ssl)
{
    return SSL_CTX_get_keylog_callback(SSL_get_SSL_CTX(ssl)) == look_at_secret;
}

bool x509check_openssl_only_checked(SSL_CTX *tls)
{
    SSL_CTX_set_keylog_callback(tls, look_at_secret);
    return turn_off_resumption(tls);
}
