/* x509check_party: a relying party with a store that lasts, over a process of `x509check session` (docs/REFERENCE.md, "session").
 *
 * Statements are delivered once, and every later question is answered by the newest of them (RFC 5280, 6; RFC 6960, 3.2). What was
 * answered by a delivery is in the store whatever happens to the process. If the process ends, it is started again over the same store
 * and told again what it believed, and what was not answered is asked once more: a statement that is delivered twice is kept once. A
 * request whose second process ends too is answered by X509CHECK_PARTY_DIED. Of a connection to a socket the same holds: it is made
 * again.
 *
 * Any number of threads may call. Requests go one after the other: whoever calls waits until the requests of others are answered. A
 * program that wants more verdicts a second starts several processes, each with a store of its own. Signatures are judged outside of
 * that order.
 *
 * An answer that has not the form of its request's is X509CHECK_PARTY_GARBLED and never a verdict, and that process is ended; so is one
 * that does not answer in time. (A line has no name of its own: one that a process writes unasked, at the moment in which another is
 * expected, is told only by its form.)
 *
 * No call raises a signal, and no descriptor is inherited by other processes. A program must not reap the process by itself (by a wait
 * for any child). A child that it forks does not keep the process or the connection alive. There each call is X509CHECK_PARTY_FORKED, and
 * x509check_party_close only frees memory: a worker opens a party of its own after the fork.
 *
 * Compile x509check_party.c with the program, and link with libx509check.a and -pthread. It includes the headers beside it and
 * ../c/x509check_common.h. It is C11 and POSIX, with the flag SOCK_CLOEXEC of POSIX.1-2024. */
#ifndef X509CHECK_PARTY_H
#define X509CHECK_PARTY_H

#include <stddef.h>
#include <stdint.h>

#include "x509check.h"

#ifdef __cplusplus
extern "C" {
#endif

/* How a call ended. No call answers X509CHECK_PARTY_NOT_FILLED, so a struct of zeros says nothing. Only X509CHECK_PARTY_DONE comes with an
 * answer, and X509CHECK_PARTY_CONTRADICTED with the counts of a delivery; of all others the numbers of the answer are 0. */
enum x509check_party_status {
    X509CHECK_PARTY_NOT_FILLED = 0,
    X509CHECK_PARTY_DONE = 1,
    /* The program refused the request: `program_status` and `text` say why (docs/REFERENCE.md, "Statuses"). */
    X509CHECK_PARTY_REFUSED = 2,
    /* A certificate or a statement cannot be read: `refusal`. Nothing was asked. */
    X509CHECK_PARTY_UNREADABLE = 3,
    /* No request says what is asked, as of a moment after the year 9999 or of a name that is none. Nothing was asked. */
    X509CHECK_PARTY_BAD_REQUEST = 4,
    /* The program cannot be started or ended at once, or nobody listens on the socket. */
    X509CHECK_PARTY_CANNOT_START = 5,
    /* The process ended before it answered, and so did the one that was started in its place. */
    X509CHECK_PARTY_DIED = 6,
    /* What came is no answer to the request. */
    X509CHECK_PARTY_GARBLED = 7,
    /* No answer came in time. A delivery may have been taken all the same. */
    X509CHECK_PARTY_TIMED_OUT = 8,
    /* Memory was refused: here, not in the process. A delivery may have been taken all the same. */
    X509CHECK_PARTY_NO_MEMORY = 9,
    /* A value is too long for a line, and the file in which it is handed over cannot be written. */
    X509CHECK_PARTY_NO_FILE = 10,
    /* The call is in a process that was forked from the one that opened the party. Nothing was asked. */
    X509CHECK_PARTY_FORKED = 11,
    /* A delivery: the issuer signed the statement and another one that is held, with one number or the same times. What was held stays,
     * and may be the wrong one: find out from the issuer whether a certificate is revoked. What did not contradict was stored. */
    X509CHECK_PARTY_CONTRADICTED = 12,
    /* The judge could not tell whether a signature is good. Nothing was asked. */
    X509CHECK_PARTY_NOT_JUDGED = 13
};

/* The verdict on a path that is valid, but whose last certificate does not speak for the name that was asked for. It stands beside the
 * numbers of verdicts in x509check.h. */
#define X509CHECK_PARTY_OTHER_NAME 64

/* Room for a text that says why, and the zero behind it. */
#define X509CHECK_PARTY_TEXT_ROOM 160

/* How a call ended. */
struct x509check_party_outcome {
    enum x509check_party_status status;
    uint32_t program_status; /* X509CHECK_PARTY_REFUSED: 4, 5 or 6; else 0 */
    /* X509CHECK_PARTY_UNREADABLE: which text, and its first fault; else all 0. Of a delivery the issuer is the certificate 0, and the
     * statement the statement 0. */
    struct x509check_refusal refusal;
    /* Why, in printable ASCII, cut if it is longer; empty if the call is done. Certificates are named by what they were handed in as, and
     * counted from 1 (docs/REFERENCE.md): `anchor`, `certificate 2` of a path, `anchor 3`, `other 1` and `target` of a search. */
    char text[X509CHECK_PARTY_TEXT_ROOM];
};

/* How a store took a statement: how many of its facts are newer than what was held, and were stored; how many are not; and how many say
 * something else than what is held under the same number or time, which is that the issuer signed both. If the process ended in the
 * middle, what was stored then is counted as kept. */
struct x509check_party_delivery {
    struct x509check_party_outcome outcome;
    uint64_t stored;
    uint64_t kept;
    uint64_t contradicted;
};

/* The verdict on a path: as in struct x509check_verdict, X509CHECK_VALID, X509CHECK_INVALID, X509CHECK_REVOKED or X509CHECK_UNKNOWN.
 * It is X509CHECK_NOT_FILLED unless the call is done: compare it with X509CHECK_VALID by ==. */
struct x509check_party_verdict {
    struct x509check_party_outcome outcome;
    uint32_t verdict;
    uint32_t reason;    /* invalid: the rank of the reason; revoked: the reason (RFC 5280, 5.3.1) */
    size_t certificate; /* which certificate decides: 1 is the first behind the anchor; 0 stands for the path itself */
};

/* What a search finds: a verdict as above on the path that is found, or X509CHECK_PARTY_OTHER_NAME, X509CHECK_NOT_FOUND or
 * X509CHECK_GAVE_UP. */
struct x509check_party_finding {
    struct x509check_party_outcome outcome;
    uint32_t verdict;
    uint32_t reason;
    size_t certificate;
    size_t path_count; /* how many certificates the path has, the anchor and the target with it; 0 if none is found */
};

/* Whom a certificate has to speak for, as for x509check_speaks_for. */
struct x509check_party_name {
    uint32_t kind; /* X509CHECK_HOST, X509CHECK_ADDRESS or X509CHECK_MAILBOX */
    struct x509check_text identity;
};

/* A question to a judge of signatures: is this the signature of the message, under the key, by the algorithm? The texts are parts of what
 * the caller handed in, and stay as long as that does. */
struct x509check_party_question {
    struct x509check_text algorithm; /* the algorithm identifier: the whole encoding */
    struct x509check_text key_info;  /* the subjectPublicKeyInfo: the whole encoding */
    struct x509check_text message;   /* what was signed */
    struct x509check_text signature; /* its octets, without a count of unused bits */
    const uint8_t *fingerprint;      /* X509CHECK_FINGERPRINT_LENGTH octets, only during the call: as x509check_fingerprint writes it */
};

/* Whether a signature is good, with the answers of OpenSSL's EVP_DigestVerify: 1 if it is; a negative number if the judge cannot tell, as
 * when memory is refused; every other number if it is not. A negative one ends the call with X509CHECK_PARTY_NOT_JUDGED. (EVP_DigestVerify
 * has it also of some signatures that cannot be read.) `context` is what the caller handed in beside the judge. Judges of several threads
 * may be called at a time. */
typedef int x509check_party_judge(const struct x509check_party_question *question, void *context);

/* A relying party. */
struct x509check_party;

/* Starts the program over the store, which it makes if there is no such file. `words` are the program, which is looked for on the path,
 * and the words in front of `session`, with a null behind them: `--profile wide` for a store of the wide profile, `--wait SECONDS` for how
 * long a store is waited for that another process has open. A store has one process. The program has to become the process that answers:
 * of a script, that it runs it by `exec`. The process keeps the caller's environment, folder and standard error, and no signals are
 * blocked in it.
 *
 * A call waits for each answer for so many milliseconds (1 to 2^31 - 1; 0 stands for 30,000), the requests of other threads and a new
 * start with it. What a judge takes is its own. `*party` is null unless the status is X509CHECK_PARTY_DONE. */
struct x509check_party_outcome x509check_party_open(struct x509check_party **party, const char *const words[], const char *store,
                                                    uint32_t milliseconds);

/* Connects to a Unix socket behind which a session answers, and again whenever the connection was closed. What is believed there may be
 * shared with others: what one of them forgets is told again only on a new connection. Otherwise as x509check_party_open. */
struct x509check_party_outcome x509check_party_connect(struct x509check_party **party, const char *socket, uint32_t milliseconds);

/* Ends the process, which has two seconds to do so by itself, and frees the party, which may be null. No other call may be at work, and
 * none may follow. */
void x509check_party_close(struct x509check_party *party);

/* From now on a signature with this fingerprint is good, for all calls, until x509check_party_forget. It takes 40 octets of memory in the
 * process, and 32 here. */
struct x509check_party_outcome x509check_party_believe(struct x509check_party *party,
                                                       const uint8_t fingerprint[X509CHECK_FINGERPRINT_LENGTH]);

/* No signature is good any more, until it is judged or believed again. It waits for the answers that other threads wait for, however
 * long; a call that has judged and not asked yet judges anew. If it fails, the process is ended, and the next one believes nothing. */
struct x509check_party_outcome x509check_party_forget(struct x509check_party *party);

/* Delivers a list (CRL) or an OCSP response under the certificate of its issuer, both in DER. The judge is asked about each signature of
 * the statement that counts under that issuer (x509check_questions) and is not believed; what is good is believed from now on. If the
 * judge is null, only what the caller has believed is good. A statement whose signature is not good is refused by the program.
 *
 * Once the call is done, the store has the statement, or a newer one. If it contradicts what is held, the call is not done but
 * X509CHECK_PARTY_CONTRADICTED. A value that does not fit into a line of 2^20 octets is handed over in a file of
 * its own, which nobody else may read, in the folder that TMPDIR names or else in /tmp. Over a socket it is
 * X509CHECK_PARTY_BAD_REQUEST. */
struct x509check_party_delivery x509check_party_deliver(struct x509check_party *party, struct x509check_text issuer,
                                                        struct x509check_text statement, x509check_party_judge *judge, void *context);

/* The verdict on a path by what the store holds (RFC 5280, 6.1, and 6.3; RFC 6960, 3.2). `query` is as for x509check_validate; its path
 * has at least one certificate, and its moment lies in the years 0 to 9999. The judge is asked about the signature of each certificate
 * that is not believed yet, as for x509check_party_deliver; it may be null.
 *
 * If a purpose is asked for, keyUsage counts too (RFC 5280, 4.2.1.12): a last certificate that has one without a bit for a purpose of
 * RFC 5280 makes the path X509CHECK_INVALID for rank 14, as if its extKeyUsage did not allow the purpose. */
struct x509check_party_verdict x509check_party_check(struct x509check_party *party, const struct x509check_query *query,
                                                     x509check_party_judge *judge, void *context);

/* A path to the target, and the verdict on it by what the store holds (RFC 4158). `search` is as for x509check_find, and has at least
 * one anchor; its limits are not looked at, as the program has its own (docs/REFERENCE.md, "find"). `name`, which may be null, is whom
 * the target has to speak for (RFC 9525). The judge is asked about each certificate that leads to the target, as for
 * x509check_party_check, but not if there are more than X509CHECK_SIGNATURES different questions, or names alone say that there are more
 * than 65,536 with equal ones: then the answer is X509CHECK_GAVE_UP. A target that is not there for the purpose by its keyUsage is
 * X509CHECK_NOT_FOUND.
 *
 * Up to `room` numbers are written to `path`: the certificates of the path, from the anchor to the target, as indices among those of the
 * search (X509CHECK_CERTIFICATES). X509CHECK_PATH_ROOM suffices for each path. If none is found, x509check_why_not says why. */
struct x509check_party_finding x509check_party_find(struct x509check_party *party, const struct x509check_search *search,
                                                    const struct x509check_party_name *name, x509check_party_judge *judge,
                                                    void *context, size_t *path, size_t room);

#ifdef __cplusplus
}
#endif

#endif
