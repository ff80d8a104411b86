/* x509check beside OpenSSL 3.0 or later: a judge of signatures over libcrypto, and the check of a peer's certificate in a TLS handshake.
 *
 * The library for C says which signatures count for a verdict (x509check.h). This judges them, and hands the fingerprints of the good
 * ones back, so that a verdict is one call: x509check_openssl_validate for a path, x509check_openssl_find for certificates in any order.
 * For TLS, x509check_openssl_use_in_client and x509check_openssl_use_in_server put it into an SSL_CTX.
 *
 *     cc program.c /usr/local/share/x509check/openssl/x509check_openssl*.c -I/usr/local/share/x509check/openssl -lx509check -lssl -lcrypto
 *
 * All of this stands outside what is proved of x509check (docs/PROMISES.md). Calls may run on several threads at a time. Each call but
 * x509check_openssl_free, x509check_openssl_outcome and x509check_openssl_use_in_.. empties the thread's queue of errors of OpenSSL.
 */
#ifndef X509CHECK_OPENSSL_H
#define X509CHECK_OPENSSL_H

#include <stdbool.h>
#include <stddef.h>
#include <stdint.h>

#include <openssl/ssl.h>
#include <openssl/x509_vfy.h>

#include "x509check.h"

#ifdef __cplusplus
extern "C" {
#endif

/* ---- The judge. ---- */

/* Whether a call did what it was asked. No call answers 0. Only after X509CHECK_OPENSSL_DONE does its answer say anything, except that
 * UNJUDGED and CONTRADICTED name a statement. */
enum x509check_openssl_status {
    X509CHECK_OPENSSL_DONE = 1,
    X509CHECK_OPENSSL_NO_MEMORY = 2,
    X509CHECK_OPENSSL_BAD_POLICY = 3, /* a bit that stands for nothing, or a size of keys beyond 512 to 16384 bits */
    /* OpenSSL did not do it, and does not say that memory was refused: mostly it was. An algorithm for which it was refused memory at the
     * first use may be missing until the program ends: then each call that needs it fails. */
    X509CHECK_OPENSSL_FAILED = 4,
    /* The verdict would be X509CHECK_VALID, but nobody could judge the signature of a statement that may be by an issuer of the path. It
     * may be the one that revokes. Hand in the others alone if it is to be left out. */
    X509CHECK_OPENSSL_UNJUDGED = 5,
    /* The verdict would be X509CHECK_VALID by the first of two statements of an issuer of the path that have the same number (or times),
     * but the other one revokes a certificate of the path. */
    X509CHECK_OPENSSL_CONTRADICTED = 6
};

/* What is said of a signature. No judgement is 0. */
enum x509check_openssl_judgement {
    X509CHECK_OPENSSL_GOOD = 1,
    X509CHECK_OPENSSL_WRONG = 2,            /* the key did not make it, or must not make such ones (RFC 4055, 3.3) */
    X509CHECK_OPENSSL_NOT_SERVED = 3,       /* nobody here can tell: the algorithm, its parameters or the key are none that are served */
    X509CHECK_OPENSSL_REFUSED_BY_POLICY = 4 /* it was not looked at: the policy refuses its algorithm or its key */
};

/* Digests of RSA and ECDSA: of the message, and of RSASSA-PSS also that of the mask generation function. MD5 is not served. */
#define X509CHECK_OPENSSL_SHA1 (1u << 0)
#define X509CHECK_OPENSSL_SHA224 (1u << 1)
#define X509CHECK_OPENSSL_SHA256 (1u << 2)
#define X509CHECK_OPENSSL_SHA384 (1u << 3)
#define X509CHECK_OPENSSL_SHA512 (1u << 4)
#define X509CHECK_OPENSSL_ALL_DIGESTS 0x1Fu

/* Curves of ECDSA, and the two of EdDSA. */
#define X509CHECK_OPENSSL_P224 (1u << 0)
#define X509CHECK_OPENSSL_P256 (1u << 1)
#define X509CHECK_OPENSSL_P384 (1u << 2)
#define X509CHECK_OPENSSL_P521 (1u << 3)
#define X509CHECK_OPENSSL_SECP256K1 (1u << 4)
#define X509CHECK_OPENSSL_BRAINPOOLP256R1 (1u << 5)
#define X509CHECK_OPENSSL_BRAINPOOLP384R1 (1u << 6)
#define X509CHECK_OPENSSL_BRAINPOOLP512R1 (1u << 7)
#define X509CHECK_OPENSSL_ED25519 (1u << 8)
#define X509CHECK_OPENSSL_ED448 (1u << 9)
#define X509CHECK_OPENSSL_ALL_CURVES 0x3FFu

/* Which signatures are looked at. A signature whose algorithm or key it does not let is REFUSED_BY_POLICY, whoever made it. */
struct x509check_openssl_policy {
    uint32_t digests;
    uint32_t curves;
    uint32_t minimum_rsa_bits; /* of the modulus, 512 to 16384 */
    uint32_t maximum_rsa_bits; /* longer keys are not served; up to 16384, and 0 stands for X509CHECK_OPENSSL_RSA_BITS */
};

/* The longest RSA keys that are served, if the policy does not say. A verification takes the square of the length in time. */
#define X509CHECK_OPENSSL_RSA_BITS 8192

/* The policy wherever a pointer to one is null: no SHA-1, RSA of 2048 to 8192 bits. */
#define X509CHECK_OPENSSL_DEFAULT_POLICY \
    {X509CHECK_OPENSSL_ALL_DIGESTS & ~X509CHECK_OPENSSL_SHA1, X509CHECK_OPENSSL_ALL_CURVES, 2048, X509CHECK_OPENSSL_RSA_BITS}

/* Is `signature` the one of `message` under `key_info`, a subjectPublicKeyInfo, by `algorithm`, an AlgorithmIdentifier? Both in DER,
 * whole. */
struct x509check_openssl_signature {
    struct x509check_text algorithm;
    struct x509check_text key_info;
    struct x509check_text message;
    struct x509check_text signature; /* its octets, without a count of unused bits */
};

/* Judges one signature. Served are RSA (PKCS #1 v1.5, and RSASSA-PSS with all parameters of RFC 4055) with moduli of 512 bits to the
 * policy's maximum, ECDSA on named curves (RFC 5480), both with SHA-1 and SHA-2, Ed25519 and Ed448 (RFC 8410). What can be read comes
 * first, then what the policy lets, and only then what is right. `*judgement` is set only if the answer is X509CHECK_OPENSSL_DONE. It
 * costs a verification by EVP, or two if the signature is wrong, since OpenSSL does not tell each lack of memory from that. What is served
 * here and OpenSSL cannot do is X509CHECK_OPENSSL_FAILED, but for a point that is not on its curve, which is not served.
 *
 * OpenSSL 3.0 can crash by itself after memory was refused to it. */
enum x509check_openssl_status x509check_openssl_judge(const struct x509check_openssl_signature *signature,
                                                      const struct x509check_openssl_policy *policy,
                                                      enum x509check_openssl_judgement *judgement);

/* The different questions of a query or of a search with their judgements, and the fingerprints of the good ones as x509check_validate and
 * x509check_find take them. */
struct x509check_openssl_judged {
    struct x509check_signature_question *questions;
    enum x509check_openssl_judgement *judgements; /* one a question */
    size_t count;
    uint8_t *good; /* X509CHECK_FINGERPRINT_LENGTH octets each */
    size_t good_count;
    struct x509check_refusal refusal; /* a certificate or a statement that cannot be read: there are no questions then */
    bool gave_up;                     /* of a search: there are more questions than limits.signatures, and none is judged */
};

/* Judges what x509check_questions or x509check_find_questions asks: each different question once. Of a search at most limits.signatures
 * questions are judged, those about statements with them. It also gives up, before it takes memory for them, if names alone say that there
 * are more than 65,536 questions (or limits.signatures, if that is more), equal ones counted each. `judged` is to be freed by
 * x509check_openssl_free, whatever the answer. */
enum x509check_openssl_status x509check_openssl_judge_query(const struct x509check_query *query, const struct x509check_text *statements,
                                                            size_t statement_count, const struct x509check_openssl_policy *policy,
                                                            struct x509check_openssl_judged *judged);
enum x509check_openssl_status x509check_openssl_judge_search(const struct x509check_search *search,
                                                             const struct x509check_text *statements, size_t statement_count,
                                                             const struct x509check_openssl_policy *policy,
                                                             struct x509check_openssl_judged *judged);
void x509check_openssl_free(struct x509check_openssl_judged *judged);

/* Asks, judges and validates: what x509check_validate answers by the signatures that are good under the policy.
 *
 * If a purpose is asked for, keyUsage counts too (RFC 5280, 4.2.1.12): a target that has one without a bit for a purpose of RFC 5280 is
 * X509CHECK_INVALID for rank 14, as if its extKeyUsage did not allow the purpose.
 *
 * X509CHECK_VALID is answered only if no statement stands against it, else X509CHECK_OPENSSL_UNJUDGED or X509CHECK_OPENSSL_CONTRADICTED:
 * then the refusal of the verdict names the first such statement, without a fault, and the rest is 0. To find that out, all statements are
 * read once more; if one by an issuer of the path revokes a certificate of the path, the verdict is asked for once more, and then
 * once for each such statement until the one is found that stands against it. */
enum x509check_openssl_status x509check_openssl_validate(const struct x509check_query *query, const struct x509check_text *statements,
                                                         size_t statement_count, const struct x509check_openssl_policy *policy,
                                                         struct x509check_verdict *verdict);

/* Asks, judges and finds: what x509check_find answers by the signatures that are good under the policy, or X509CHECK_GAVE_UP if there are
 * more questions than x509check_openssl_judge_search judges. Up to `room` numbers are written to `path` (X509CHECK_PATH_ROOM). keyUsage
 * counts as for x509check_openssl_validate: a target that is not there for the purpose is X509CHECK_NOT_FOUND. So do statements that stand
 * against the path that is found. */
enum x509check_openssl_status x509check_openssl_find(const struct x509check_search *search, const struct x509check_text *statements,
                                                     size_t statement_count, const struct x509check_openssl_policy *policy,
                                                     struct x509check_finding *finding, size_t *path, size_t room);

/* ---- The check of a peer in a TLS handshake. ---- */

/* How many certificates a peer may send, if the settings do not say. */
#define X509CHECK_OPENSSL_CERTIFICATES 16

/* By what a peer is checked. The struct and all that it points to belong to the caller, and must stay as they are while an SSL_CTX or an
 * SSL uses them: for new statements make new settings and a new SSL_CTX. Whatever is 0 or null stands for what its comment says. */
struct x509check_openssl_settings {
    const struct x509check_text *anchors; /* certificates in DER, of which only the name and the key are used; none accepts nobody */
    size_t anchor_count;
    const struct x509check_text *helpers; /* others in DER that may stand between an anchor and the peer, beside those that it sends */
    size_t helper_count;
    const struct x509check_text *statements; /* lists (CRLs) and OCSP responses in DER, in any order */
    size_t statement_count;
    const struct x509check_openssl_policy *policy; /* null: X509CHECK_OPENSSL_DEFAULT_POLICY */
    struct x509check_limits limits;                /* each that is 0: X509CHECK_SIGNATURES and so on */
    size_t certificate_limit;                      /* how many a peer may send; 0: X509CHECK_OPENSSL_CERTIFICATES */
    int64_t moment;                                /* 0: the time of the X509_VERIFY_PARAM if it has one, else the system's clock */
    /* The contents of an OBJECT IDENTIFIER, for which keyUsage counts as for x509check_openssl_find. Length 0: id-kp-serverAuth of a
     * server and id-kp-clientAuth of a client. Then keyUsage, if it is there, has to let the key sign; before TLS 1.3 it may also let it
     * agree on keys or, of a server, encipher them. */
    struct x509check_text purpose;
    /* A peer is accepted too if no current statement speaks of a certificate of its path. It is refused all the same if a statement at
     * hand that has lapsed (or is not current yet) revokes that certificate, unless a current one speaks for it: so hand in lapsed ones
     * too. */
    bool accepts_unknown;
    bool asks_for_no_name; /* a client that has no name in its X509_VERIFY_PARAM accepts whoever has a valid certificate */
    /* A statement whose signature nobody can judge, and that may be by an issuer of the path, is left out; a stapled response too. Without
     * this setting such a statement refuses a peer that would be accepted: it may be the one that revokes. */
    bool leaves_out_unjudged;
};

/* How far the check of a peer is. No state is 0. */
enum x509check_openssl_state {
    X509CHECK_OPENSSL_ACCEPTED = 1,
    X509CHECK_OPENSSL_REFUSED = 2,
    X509CHECK_OPENSSL_WAITING = 3 /* TLS 1.2: for the stapled response, which comes behind the certificates */
};

/* What the check of the last handshake of an SSL said. Of the certificates that it names the anchors come first, then the peer's own, then
 * what the peer sent beside that, then the helpers; of the statements the stapled response is the last. */
struct x509check_openssl_outcome {
    enum x509check_openssl_state state;
    int error;                               /* X509_V_OK if ACCEPTED, else another X509_V_ERR_.. */
    int depth;                               /* of the certificate at fault, or that is unknown and accepted: 0 for the peer's own */
    bool took_response;                      /* a stapled OCSP response was one of the statements */
    struct x509check_finding finding;        /* X509CHECK_NOT_FILLED if it did not come to that */
    struct x509check_diagnosis why_not;      /* if the verdict is X509CHECK_NOT_FOUND; else all 0 */
    uint8_t target[X509CHECK_SHA256_LENGTH]; /* the SHA-256 of the peer's certificate; 0 if it did not come to that */
    char words[256];                         /* all of this in a line of ASCII, for a log */
    size_t unjudged_count;                   /* how many statements nobody could judge: they refused the peer, or were left out */
    size_t statement;                        /* the first of them, or the one that revokes what others say is good */
};

/* Puts the check into the SSL_CTX of a client or of a server, and makes the peer show a certificate. It sets the mode and the callbacks
 * of verification. In a client it also asks for a stapled response (RFC 6066, 8), and sets the callback for it. The SSL has to be told the
 * server's name, by SSL_set1_host or X509_VERIFY_PARAM_set1_ip; SSL_set_tlsext_host_name only tells the server.
 *
 * Resumption is turned off, since a resumed session shows no certificate: no tickets, no cache (what is in it is dropped), no callbacks
 * for sessions, and a session id context that no other SSL_CTX has. A client that is handed a session of another SSL_CTX ends the
 * handshake if the server resumes it.
 *
 * No connection carries data unless its peer was accepted in that handshake: none with a resumed session, with a pre-shared key, or under
 * SSL_VERIFY_NONE. If OpenSSL completes such a handshake, SSL_read and SSL_write fail, and SSL_get_verify_result is
 * X509_V_ERR_APPLICATION_VERIFICATION. The callback of SSL_CTX_set_keylog_callback sees to that, since OpenSSL calls it in each handshake.
 * (It does not look at the secrets.) So do not set another one: then each peer that shows a certificate is refused with
 * X509_V_ERR_INVALID_CALL, but a connection by a pre-shared key or under SSL_VERIFY_NONE is not noticed.
 *
 * SSL_set_SSL_CTX leaves an SSL its mode of verification. A server that changes to this SSL_CTX so has to call
 * SSL_set_verify(ssl, SSL_CTX_get_verify_mode(tls), NULL) as well, or clients are not asked for a certificate, and are refused.
 *
 * A shared object with these sources may be unloaded (dlclose) once its own SSLs and SSL_CTXs are freed.
 *
 * The answer is 1 if all is in place. It is 0 if there are no anchors, or the policy is none, or a certificate or a statement of the
 * settings cannot be read, which `*refusal` then names (of its certificates the anchors come first, then the helpers), or memory was
 * refused: the SSL_CTX is not to be used then. `refusal` may be null. */
int x509check_openssl_use_in_client(SSL_CTX *tls, struct x509check_openssl_settings *settings, struct x509check_refusal *refusal);
int x509check_openssl_use_in_server(SSL_CTX *tls, struct x509check_openssl_settings *settings, struct x509check_refusal *refusal);

/* For SSL_CTX_set_cert_verify_callback, with a struct x509check_openssl_settings: x509check_openssl_use_in_.. set it. 1 if a path is
 * found whose verdict is X509CHECK_VALID, and the certificate speaks for the name that is asked for; else 0. (X509CHECK_UNKNOWN does too
 * if the settings accept it, and before TLS 1.3 in a client while x509check_openssl_status is still to decide.) With 0 the X509_STORE_CTX
 * has an error other than X509_V_OK, its depth and, if the peer sent it, the certificate, and OpenSSL sends the alert that belongs to the
 * error.
 *
 * X509_V_ERR_CERT_REVOKED stands for revoked, also by a statement that contradicts another or has lapsed (accepts_unknown),
 * X509_V_ERR_UNABLE_TO_GET_CRL for unknown, X509_V_ERR_CA_MD_TOO_WEAK for a signature that the policy refuses,
 * X509_V_ERR_UNSUPPORTED_SIGNATURE_ALGORITHM for one that is not served, X509_V_ERR_CRL_SIGNATURE_FAILURE for a statement that nobody can
 * judge (leaves_out_unjudged), X509_V_ERR_CERT_REJECTED for a certificate of the peer that cannot be read, X509_V_ERR_OCSP_VERIFY_FAILED
 * for a stapled response that cannot be read or judged, X509_V_ERR_APPLICATION_VERIFICATION for a limit that is used up and for no check
 * at all, and X509_V_ERR_INVALID_CALL for settings and names that cannot be used. If no path is found, it is
 * X509_V_ERR_UNABLE_TO_GET_ISSUER_CERT_LOCALLY, or that of the first certificate in the way: expired, no CA, and so on.
 *
 * The judge is asked at most limits.signatures questions. What a peer sends decides how many, and how long its keys are, up to the maximum
 * of the policy.
 *
 * Names are those of the X509_VERIFY_PARAM: one of the hosts, and the address, and the mailbox, if they are set. In a client none is an
 * error. A mailbox has to match by OpenSSL's comparison too, which takes none with a zero octet. X509_CHECK_FLAG_NO_WILDCARDS is not
 * served, and an error. X509_VERIFY_PARAM_set_depth counts. Not looked at are flags and purpose of the X509_VERIFY_PARAM, the X509_STORE,
 * the level of security, DANE, and the callback of SSL_set_verify.
 *
 * What OpenSSL cannot read does not come here. It hands over certificates as it encodes them again, the signed part as it came. */
int x509check_openssl_verify(X509_STORE_CTX *context, void *settings);

/* For SSL_CTX_set_tlsext_status_cb of a client, with the same settings as SSL_CTX_set_tlsext_status_arg. In TLS 1.3 the response comes
 * with the certificates, and is one of the statements there. Before TLS 1.3 it comes behind them, so the first check waits for it if the
 * verdict is X509CHECK_VALID or X509CHECK_UNKNOWN, and this one decides, with the response if there is one, before the client has sent
 * anything that is encrypted. A refusal here goes out as bad_certificate_status_response. Without this callback no check waits.
 *
 * A connection whose peer was not checked, as a resumed one of TLS 1.3, is refused here. OpenSSL calls this only if the client asks for a
 * response, and before TLS 1.3 not for a session that is resumed: x509check_openssl_use_in_client sees to those. Sessions of a client that
 * checks by x509check_openssl_verify have no identifier before TLS 1.3, and are not resumed. */
int x509check_openssl_status(SSL *ssl, void *settings);

/* What the check of the peer said in the last handshake. Null if there was none, as in a resumed session. It lives as long as the SSL, or
 * to its next handshake. */
const struct x509check_openssl_outcome *x509check_openssl_outcome(const SSL *ssl);

#ifdef __cplusplus
}
#endif

#endif
