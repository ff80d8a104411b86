/* x509check: DER, certificates (X.690; RFC 5280, 4) and verdicts on paths (RFC 5280, 6; RFC 6960, 3.2), by code that is proved.
 * docs/PROMISES.md says what the calls promise.
 *
 * Texts are octets of the caller: a pointer and a length in octets. They are only read, only during the call, and nothing keeps
 * them. A pointer may be null if its length or count is 0. Results are numbers and parts of the caller's text: offsets and lengths in
 * octets, counted from its first octet. There is nothing to free. All calls may run on several threads at a time.
 *
 * Faults are numbers, 0 for none: 1 to 7 of DER, 11 to 19 of names, 21 to 33 of certificates, 41 to 59 of statements
 * (docs/REFERENCE.md), which x509check_fault_name names. The fault is the first in the text, and its offset that of the value at fault.
 *
 * Link with libx509check.a, which `make` puts in bindings/out and `make install` in lib. It needs nothing but libc, and takes memory from
 * the program's malloc.
 */
#ifndef X509CHECK_H
#define X509CHECK_H

#include <stdbool.h>
#include <stddef.h>
#include <stdint.h>

#ifdef __cplusplus
extern "C" {
#endif

/* The version of this header and of the library beside it: as text, and as 10000 * major + 100 * minor + patch. */
#define X509CHECK_VERSION "1.2.0"
#define X509CHECK_VERSION_NUMBER 10200

/* The fault of a certificate whose text, or the value of an extension in it, is not DER. */
#define X509CHECK_FAULT_DER 21
/* The fault of a call that was refused memory; its offset is 0. */
#define X509CHECK_FAULT_MEMORY 33

/* The fault of a list or a response that is not DER. */
#define X509CHECK_FAULT_STATEMENT_DER 41

/* The octets of a fingerprint, and of a SHA-256. */
#define X509CHECK_FINGERPRINT_LENGTH 32
#define X509CHECK_SHA256_LENGTH 32
/* Room for each name that x509check_fault_name and x509check_reason_name write, and the zero behind it. */
#define X509CHECK_NAME_ROOM 32

/* The verdict on a path. No call answers X509CHECK_NOT_FILLED, so a struct of zeros says nothing of a path. Compare with
 * X509CHECK_VALID by ==: every other number, one that is not listed here too, is not valid. */
#define X509CHECK_NOT_FILLED 0
#define X509CHECK_VALID 1
#define X509CHECK_INVALID 2
#define X509CHECK_REVOKED 3
#define X509CHECK_UNKNOWN 4
#define X509CHECK_REFUSED 5
/* The same of a search for a path: no path is valid, or the limits are used up. */
#define X509CHECK_NOT_FOUND 6
#define X509CHECK_GAVE_UP 7
/* Why no path is found, beside X509CHECK_REFUSED and X509CHECK_GAVE_UP: the certificate in question is at fault itself, or paths end
 * below the anchors. No call answers 0. */
#define X509CHECK_TARGET_AT_FAULT 8
#define X509CHECK_PATHS_END 9

/* Limits of a search that suffice for what servers send: how often a judge may be asked, how many ends of paths may be looked at, and how
 * many valid paths may be asked about. */
#define X509CHECK_SIGNATURES 1000
#define X509CHECK_STEPS 10000
#define X509CHECK_VERDICTS 32
/* Room for the numbers of each path that x509check_find finds, the anchor with it. */
#define X509CHECK_PATH_ROOM 129

/* What a place or a refusal is in. Of the certificates of a query the anchor has the index 0, and the first of the path 1. Of those of a
 * search the anchors come first, from 0 on, then the target, and then the others. The first of the statements has 0. */
#define X509CHECK_CERTIFICATES 1
#define X509CHECK_STATEMENTS 2

/* What kind of identity a text is, for x509check_speaks_for. */
#define X509CHECK_HOST 1
#define X509CHECK_ADDRESS 2
#define X509CHECK_MAILBOX 3

/* Whether a certificate speaks for an identity. No call answers 0, so a struct of zeros says nothing. */
#define X509CHECK_SPEAKS 1
#define X509CHECK_DOES_NOT_SPEAK 2
#define X509CHECK_IDENTITY_REFUSED 3
#define X509CHECK_CERTIFICATE_REFUSED 4

/* The bits of key_usage (RFC 5280, 4.2.1.3). */
#define X509CHECK_DIGITAL_SIGNATURE (1u << 0)
#define X509CHECK_NON_REPUDIATION (1u << 1)
#define X509CHECK_KEY_ENCIPHERMENT (1u << 2)
#define X509CHECK_DATA_ENCIPHERMENT (1u << 3)
#define X509CHECK_KEY_AGREEMENT (1u << 4)
#define X509CHECK_KEY_CERT_SIGN (1u << 5)
#define X509CHECK_CRL_SIGN (1u << 6)
#define X509CHECK_ENCIPHER_ONLY (1u << 7)
#define X509CHECK_DECIPHER_ONLY (1u << 8)

/* Octets of the caller: a certificate, a list, a response, or the contents of a value. */
struct x509check_text {
    const uint8_t *octets;
    size_t length;
};

/* The question about a path (RFC 5280, 6.1.1).
 *
 * In the stated profile a list whose issuingDistributionPoint names a point is refused, with the fault 48. In the wide one it is taken, and
 * speaks of certificates whose cRLDistributionPoints name that point (RFC 5280, 6.3.3); a certificate in which these are malformed is
 * refused, with the fault 29. In the wide one a response also counts if its hashes are by SHA-256 (RFC 6960, 4.1.1), and name constraints on
 * mail addresses and on hosts of URIs are processed (RFC 5280, 4.2.1.10); malformed ones are refused, with the faults 18 and 19. A list at
 * another point of a certificate, with reasons or cRLIssuer, only revokes. Questions are to be asked in the profile of the verdict. */
struct x509check_query {
    struct x509check_text anchor;      /* the DER of a certificate, of which only the name and the key are used */
    const struct x509check_text *path; /* the certificates below it, each in DER, to the one in question */
    size_t path_count;
    int64_t moment;                /* in seconds from 1970-01-01T00:00:00Z */
    struct x509check_text purpose; /* the contents of an OBJECT IDENTIFIER; no purpose is asked for if its length is 0 */
    uint32_t wide;                 /* the profile in which path and statements are read and judged: any number but 0 asks for the wide one */
};

/* What a search may spend. If one is 0, nothing is found. */
struct x509check_limits {
    size_t signatures; /* X509CHECK_SIGNATURES; below the number of pairs of certificates whose names match, a search may give up */
    size_t steps;      /* X509CHECK_STEPS; each takes up to a kilobyte of memory during the call */
    size_t verdicts;   /* X509CHECK_VERDICTS */
};

/* Certificates that come in any order, and what is asked about one of them, the target (RFC 4158). */
struct x509check_search {
    const struct x509check_text *anchors; /* certificates, each in DER, of which only the name and the key are used */
    size_t anchor_count;
    struct x509check_text target;     /* the DER of the certificate in question */
    const struct x509check_text *bag; /* others, each in DER, that may stand between an anchor and the target */
    size_t bag_count;
    int64_t moment;                /* in seconds from 1970-01-01T00:00:00Z */
    struct x509check_text purpose; /* the contents of an OBJECT IDENTIFIER; no purpose is asked for if its length is 0 */
    struct x509check_limits limits;
    uint32_t wide; /* the profile in which target, bag and statements are read: any number but 0 asks for the wide one */
};

/* Octets of the text that was handed in. */
struct x509check_part {
    size_t offset;
    size_t length;
};

/* Whether a text is DER. */
struct x509check_answer {
    uint32_t fault; /* 0, or 1 to 7 */
    size_t offset;  /* of the value at fault; 0 if there is no fault */
};

/* What the extensions of a certificate say. If one is not there, its numbers are 0. */
struct x509check_extensions {
    bool has_basic_constraints;
    bool is_authority; /* cA */
    bool has_path_length;
    bool has_key_usage;
    bool needs_policy_processing; /* policyMappings, policyConstraints or inhibitAnyPolicy is there */
    bool no_check;                /* id-pkix-ocsp-nocheck is there */
    uint32_t path_length;         /* 4294967295 if it is that or more */
    uint32_t key_usage;           /* the bits above; others are left out */
    size_t alternative_names;     /* how many names subjectAltName has */
    size_t permitted_subtrees;    /* how many subtrees nameConstraints permits, */
    size_t excluded_subtrees;     /* and how many it excludes */
    size_t purposes;              /* how many purposes extKeyUsage has */
    size_t unrecognised;          /* how many critical extensions are not recognised */
};

/* The fields of a certificate. Parts are of the text that was handed in. */
struct x509check_fields {
    uint32_t version;   /* 1 to 3 */
    int64_t not_before; /* in seconds from 1970-01-01T00:00:00Z; may be negative */
    int64_t not_after;
    struct x509check_part tbs;                     /* the signed part: the whole encoding */
    struct x509check_part serial;                  /* the contents of the INTEGER: 1 to 32 octets */
    struct x509check_part algorithm;               /* the algorithm identifier in the signed part: the whole encoding */
    struct x509check_part issuer;                  /* the whole encoding of the name */
    struct x509check_part subject;                 /* the whole encoding of the name */
    struct x509check_part subject_public_key_info; /* the whole encoding */
    struct x509check_part key;                     /* the octets of subjectPublicKey, without the count of unused bits */
    struct x509check_part signature;               /* the octets of signatureValue, without the count of unused bits */
    struct x509check_extensions extensions;
};

/* A certificate, or why a text is none. */
struct x509check_certificate {
    uint32_t fault;     /* 0, 11 to 17, or 21 to 33 */
    uint32_t der_fault; /* 1 to 7 if fault is X509CHECK_FAULT_DER, else 0 */
    size_t offset;      /* of the value at fault; 0 if there is no fault */
    struct x509check_fields fields; /* all 0 if there is a fault */
};

/* Which certificate or statement is refused, and why. All is 0 if none is. */
struct x509check_refusal {
    uint32_t text;      /* X509CHECK_CERTIFICATES or X509CHECK_STATEMENTS; 0 if memory was refused */
    uint32_t fault;     /* of certificates 11 to 17, 21 to 32, of statements 11 to 14, 41 to 52, 55, 56, 59, and X509CHECK_FAULT_MEMORY */
    uint32_t der_fault; /* 1 to 7 if fault is X509CHECK_FAULT_DER or X509CHECK_FAULT_STATEMENT_DER, else 0 */
    size_t index;       /* which certificate or statement (X509CHECK_CERTIFICATES) */
    size_t offset;      /* of the value at fault, in that certificate or statement */
};

/* The verdict on a path, or what is refused. What has no number there is 0. */
struct x509check_verdict {
    uint32_t verdict;   /* X509CHECK_VALID to X509CHECK_REFUSED, and never X509CHECK_NOT_FILLED */
    uint32_t reason;    /* invalid: the rank of the reason (docs/REFERENCE.md); revoked: the reason (RFC 5280, 5.3.1) */
    size_t certificate; /* which certificate decides: 1 is the first behind the anchor; 0 stands for the path itself */
    struct x509check_refusal refusal;
};

/* What a search finds, or what is refused. What has no number there is 0. */
struct x509check_finding {
    struct x509check_verdict verdict; /* on the path that is found; else X509CHECK_NOT_FOUND, X509CHECK_GAVE_UP or X509CHECK_REFUSED */
    size_t path_count;                /* how many certificates the path has, the anchor and the target with it; 0 if none is found */
};

/* What the user asks of certificate policies (RFC 5280, 6.1.1 (c), (e), (f) and (g)). A flag is set by any number but 0. */
struct x509check_policy_inputs {
    const struct x509check_text *initial_policies; /* user-initial-policy-set: the contents of OBJECT IDENTIFIERs; 55 1D 20 00, anyPolicy,
                                                    * stands for every policy */
    size_t initial_policy_count;
    uint32_t inhibit_policy_mapping;
    uint32_t require_explicit_policy;
    uint32_t inhibit_any_policy;
};

/* The verdict on a path whose policies are processed, and the policies at its end. What has no number there is 0. */
struct x509check_policies {
    struct x509check_verdict verdict;
    size_t authority_count; /* how many policies are in authorities-constrained-policy-set (RFC 5280, 6.1.5 (g)) */
    size_t user_count;      /* and how many in user-constrained-policy-set */
    size_t octet_count;     /* how many octets the contents of all of them have together */
};

/* A certificate that has the name of an issuer, but cannot stand above the certificate that it would have issued. */
struct x509check_obstacle {
    size_t certificate; /* which one of the search (X509CHECK_CERTIFICATES) */
    uint32_t reason;    /* the rank of the first condition that it does not meet there (docs/REFERENCE.md) */
};

/* Why no path is found, or which certificate is refused. What has no number there is 0. */
struct x509check_diagnosis {
    uint32_t why;          /* X509CHECK_TARGET_AT_FAULT, X509CHECK_PATHS_END, X509CHECK_GAVE_UP or X509CHECK_REFUSED, and never 0 */
    uint32_t reason;       /* X509CHECK_TARGET_AT_FAULT: the rank of the first condition that it does not meet (docs/REFERENCE.md) */
    size_t above_count;    /* X509CHECK_PATHS_END: how many certificates the longest end of a path has above the target, 127 at most; */
    size_t anchor_count;   /* how many anchors have the name of the issuer of its top, and another key than the one that signed it; */
    size_t obstacle_count; /* and how many of the other certificates have that name */
    struct x509check_refusal refusal; /* X509CHECK_REFUSED: of a certificate */
};

/* Octets of a certificate or of a statement. */
struct x509check_place {
    uint32_t text; /* X509CHECK_CERTIFICATES or X509CHECK_STATEMENTS */
    size_t index;  /* which of them */
    size_t offset; /* in it */
    size_t length;
};

/* A question to a judge of signatures: is this the signature of the message, under the key, by the algorithm? */
struct x509check_signature_question {
    struct x509check_place algorithm; /* the algorithm identifier: the whole encoding */
    struct x509check_place key_info;  /* the subjectPublicKeyInfo: the whole encoding */
    struct x509check_place message;   /* what was signed */
    struct x509check_place signature; /* its octets, without a count of unused bits */
    uint8_t fingerprint[X509CHECK_FINGERPRINT_LENGTH]; /* as x509check_fingerprint writes it of these four */
};

/* How many questions there are, or why a certificate or a statement is refused. What has no number there is 0. */
struct x509check_asked {
    struct x509check_refusal refusal;
    size_t count; /* all questions, whether there was room for them or not; 0 if a certificate or a statement is refused */
};

/* Whether a certificate speaks for an identity, or why one of the two is refused. What has no number there is 0. */
struct x509check_speaking {
    uint32_t speaks;    /* X509CHECK_SPEAKS and so on */
    uint32_t fault;     /* of the certificate; of an identity the number of its own rule, 1 to 8 */
    uint32_t der_fault; /* the rule of DER that is broken, if the fault is X509CHECK_FAULT_DER */
    size_t offset;      /* of the value at fault in the certificate, or of the octet in the identity */
};

/* The layout of the answers on x86-64, as the library was built with it. */
#ifdef __cplusplus
#define X509CHECK_STANDS_AT(type, field, at) static_assert(offsetof(struct type, field) == (at), #field)
#define X509CHECK_HAS_SIZE(type, size) static_assert(sizeof(struct type) == (size), #type)
#else
#define X509CHECK_STANDS_AT(type, field, at) _Static_assert(offsetof(struct type, field) == (at), #field)
#define X509CHECK_HAS_SIZE(type, size) _Static_assert(sizeof(struct type) == (size), #type)
#endif
X509CHECK_STANDS_AT(x509check_text, length, 8);
X509CHECK_HAS_SIZE(x509check_text, 16);
X509CHECK_STANDS_AT(x509check_query, path, 16);
X509CHECK_STANDS_AT(x509check_query, path_count, 24);
X509CHECK_STANDS_AT(x509check_query, moment, 32);
X509CHECK_STANDS_AT(x509check_query, purpose, 40);
X509CHECK_STANDS_AT(x509check_query, wide, 56);
X509CHECK_HAS_SIZE(x509check_query, 64);
X509CHECK_STANDS_AT(x509check_limits, steps, 8);
X509CHECK_STANDS_AT(x509check_limits, verdicts, 16);
X509CHECK_HAS_SIZE(x509check_limits, 24);
X509CHECK_STANDS_AT(x509check_search, anchor_count, 8);
X509CHECK_STANDS_AT(x509check_search, target, 16);
X509CHECK_STANDS_AT(x509check_search, bag, 32);
X509CHECK_STANDS_AT(x509check_search, bag_count, 40);
X509CHECK_STANDS_AT(x509check_search, moment, 48);
X509CHECK_STANDS_AT(x509check_search, purpose, 56);
X509CHECK_STANDS_AT(x509check_search, limits, 72);
X509CHECK_STANDS_AT(x509check_search, wide, 96);
X509CHECK_HAS_SIZE(x509check_search, 104);
X509CHECK_STANDS_AT(x509check_part, length, 8);
X509CHECK_HAS_SIZE(x509check_part, 16);
X509CHECK_STANDS_AT(x509check_answer, offset, 8);
X509CHECK_HAS_SIZE(x509check_answer, 16);
X509CHECK_STANDS_AT(x509check_extensions, is_authority, 1);
X509CHECK_STANDS_AT(x509check_extensions, has_path_length, 2);
X509CHECK_STANDS_AT(x509check_extensions, has_key_usage, 3);
X509CHECK_STANDS_AT(x509check_extensions, needs_policy_processing, 4);
X509CHECK_STANDS_AT(x509check_extensions, no_check, 5);
X509CHECK_STANDS_AT(x509check_extensions, path_length, 8);
X509CHECK_STANDS_AT(x509check_extensions, key_usage, 12);
X509CHECK_STANDS_AT(x509check_extensions, alternative_names, 16);
X509CHECK_STANDS_AT(x509check_extensions, permitted_subtrees, 24);
X509CHECK_STANDS_AT(x509check_extensions, excluded_subtrees, 32);
X509CHECK_STANDS_AT(x509check_extensions, purposes, 40);
X509CHECK_STANDS_AT(x509check_extensions, unrecognised, 48);
X509CHECK_HAS_SIZE(x509check_extensions, 56);
X509CHECK_STANDS_AT(x509check_fields, not_before, 8);
X509CHECK_STANDS_AT(x509check_fields, not_after, 16);
X509CHECK_STANDS_AT(x509check_fields, tbs, 24);
X509CHECK_STANDS_AT(x509check_fields, serial, 40);
X509CHECK_STANDS_AT(x509check_fields, algorithm, 56);
X509CHECK_STANDS_AT(x509check_fields, issuer, 72);
X509CHECK_STANDS_AT(x509check_fields, subject, 88);
X509CHECK_STANDS_AT(x509check_fields, subject_public_key_info, 104);
X509CHECK_STANDS_AT(x509check_fields, key, 120);
X509CHECK_STANDS_AT(x509check_fields, signature, 136);
X509CHECK_STANDS_AT(x509check_fields, extensions, 152);
X509CHECK_HAS_SIZE(x509check_fields, 208);
X509CHECK_STANDS_AT(x509check_certificate, der_fault, 4);
X509CHECK_STANDS_AT(x509check_certificate, offset, 8);
X509CHECK_STANDS_AT(x509check_certificate, fields, 16);
X509CHECK_HAS_SIZE(x509check_certificate, 224);
X509CHECK_STANDS_AT(x509check_refusal, fault, 4);
X509CHECK_STANDS_AT(x509check_refusal, der_fault, 8);
X509CHECK_STANDS_AT(x509check_refusal, index, 16);
X509CHECK_STANDS_AT(x509check_refusal, offset, 24);
X509CHECK_HAS_SIZE(x509check_refusal, 32);
X509CHECK_STANDS_AT(x509check_verdict, reason, 4);
X509CHECK_STANDS_AT(x509check_verdict, certificate, 8);
X509CHECK_STANDS_AT(x509check_verdict, refusal, 16);
X509CHECK_HAS_SIZE(x509check_verdict, 48);
X509CHECK_STANDS_AT(x509check_finding, path_count, 48);
X509CHECK_HAS_SIZE(x509check_finding, 56);
X509CHECK_STANDS_AT(x509check_policy_inputs, initial_policy_count, 8);
X509CHECK_STANDS_AT(x509check_policy_inputs, inhibit_policy_mapping, 16);
X509CHECK_STANDS_AT(x509check_policy_inputs, require_explicit_policy, 20);
X509CHECK_STANDS_AT(x509check_policy_inputs, inhibit_any_policy, 24);
X509CHECK_HAS_SIZE(x509check_policy_inputs, 32);
X509CHECK_STANDS_AT(x509check_policies, authority_count, 48);
X509CHECK_STANDS_AT(x509check_policies, user_count, 56);
X509CHECK_STANDS_AT(x509check_policies, octet_count, 64);
X509CHECK_HAS_SIZE(x509check_policies, 72);
X509CHECK_STANDS_AT(x509check_obstacle, reason, 8);
X509CHECK_HAS_SIZE(x509check_obstacle, 16);
X509CHECK_STANDS_AT(x509check_diagnosis, reason, 4);
X509CHECK_STANDS_AT(x509check_diagnosis, above_count, 8);
X509CHECK_STANDS_AT(x509check_diagnosis, anchor_count, 16);
X509CHECK_STANDS_AT(x509check_diagnosis, obstacle_count, 24);
X509CHECK_STANDS_AT(x509check_diagnosis, refusal, 32);
X509CHECK_HAS_SIZE(x509check_diagnosis, 64);
X509CHECK_STANDS_AT(x509check_place, index, 8);
X509CHECK_STANDS_AT(x509check_place, offset, 16);
X509CHECK_STANDS_AT(x509check_place, length, 24);
X509CHECK_HAS_SIZE(x509check_place, 32);
X509CHECK_STANDS_AT(x509check_signature_question, key_info, 32);
X509CHECK_STANDS_AT(x509check_signature_question, message, 64);
X509CHECK_STANDS_AT(x509check_signature_question, signature, 96);
X509CHECK_STANDS_AT(x509check_signature_question, fingerprint, 128);
X509CHECK_HAS_SIZE(x509check_signature_question, 160);
X509CHECK_STANDS_AT(x509check_asked, count, 32);
X509CHECK_HAS_SIZE(x509check_asked, 40);
X509CHECK_STANDS_AT(x509check_speaking, fault, 4);
X509CHECK_STANDS_AT(x509check_speaking, der_fault, 8);
X509CHECK_STANDS_AT(x509check_speaking, offset, 16);
X509CHECK_HAS_SIZE(x509check_speaking, 24);
#undef X509CHECK_STANDS_AT
#undef X509CHECK_HAS_SIZE

/* Whether the text is the DER encoding of one value, all of it, or the first fault. Takes no memory. */
struct x509check_answer x509check_check(const uint8_t *octets, size_t length);

/* The certificate that the text is, or the first fault. Neither its signature nor its validity is judged: that a certificate
 * can be read does not mean that it can be trusted. Memory is taken for lists during the call, and freed before it returns; if it
 * is refused, the fault is X509CHECK_FAULT_MEMORY. */
struct x509check_certificate x509check_read_certificate(const uint8_t *octets, size_t length);

/* The version of the library, as a number in the form of X509CHECK_VERSION_NUMBER, which is that of this header. */
uint32_t x509check_version(void);

/* Whether the certificate speaks for an identity (RFC 9525): a host by its DNS name, as A-labels; an IP address of 4 or 16 octets; or a
 * mailbox, `local@host`. One of the names of its subjectAltName has to match: a dNSName label by label without regard to case, or by a
 * wildcard that is its whole first label and stands for one; an iPAddress by its octets; an rfc822Name by its local part, octet by octet, and
 * its host without regard to case. Common names are not looked at, and public suffixes are not known: `*.com` matches `example.com`. Whether
 * the certificate can be trusted is not asked here.
 *
 * The identity is read first. If it is refused, `fault` is 1 for an octet that no host has, 2 for a label that is empty or too long, 3 for
 * a host that is too long, 4 for one whose last label is a number, 5 for no address, 6 for no local part, 7 for a mailbox without a host, and
 * 8 for a kind that is none; `offset` is that of the octet. Memory is taken as by x509check_read_certificate. */
struct x509check_speaking x509check_speaks_for(const uint8_t *certificate, size_t certificate_length, uint32_t kind,
                                               const uint8_t *identity, size_t identity_length);

/* Writes 32 octets to `fingerprint`: the SHA-256 of four texts, each behind its length in 8 octets, the highest first. The texts
 * are what a verifier of signatures is asked: the algorithm identifier and the subjectPublicKeyInfo, each the whole encoding, the
 * message that was signed, and the octets of the signature. They may not overlap with `fingerprint`. Takes no memory. */
void x509check_fingerprint(const uint8_t *algorithm, size_t algorithm_length, const uint8_t *key_info, size_t key_info_length,
                           const uint8_t *message, size_t message_length, const uint8_t *signature, size_t signature_length,
                           uint8_t fingerprint[X509CHECK_FINGERPRINT_LENGTH]);

/* Writes 32 octets to `digest`: the SHA-256 of the octets. Of the DER of a certificate it is what `openssl x509 -fingerprint -sha256`
 * prints, by which people and logs name that certificate; x509check_fingerprint is about a signature, and no name of a certificate.
 * The octets may not overlap with `digest`. Takes no memory. */
void x509check_sha256(const uint8_t *octets, size_t length, uint8_t digest[X509CHECK_SHA256_LENGTH]);

/* Writes the name of a fault, or of the rule of DER that a der_fault is (docs/REFERENCE.md), and a zero behind it; nothing if there is no
 * room for both: X509CHECK_NAME_ROOM is enough for each. The answer is how many characters the name has; if no fault has the number it is
 * 0, and the name is empty. Takes no memory. */
size_t x509check_fault_name(uint32_t fault, char *name, size_t room);

/* The same of a reason: if the verdict is X509CHECK_INVALID, of the rank (docs/REFERENCE.md), and if it is X509CHECK_REVOKED, of the reason
 * for which a certificate is revoked (RFC 5280, 5.3.1). For other verdicts, and numbers that no reason has, the answer is 0, and the name
 * is empty. */
size_t x509check_reason_name(uint32_t verdict, uint32_t reason, char *name, size_t room);

/* The questions that a judge of signatures may be asked for the verdict on a path by statements, at whatever moment and for whatever
 * purpose. The arguments are those of x509check_validate, to which the fingerprints of the questions that are answered by yes are handed.
 *
 * Up to `room` questions are written to `questions`, from the first on, and `count` tells how many there are: with a room of 0, where
 * `questions` may be null, it only counts. No text may overlap with `questions`. Nothing is written if a text is refused.
 * For a path of n certificates these are n questions, at most n more for a list, and at most n (1 + 2 m) for a response that m
 * certificates come with. One question may be there twice. Each call reads all texts, so room for many is better than counting first.
 * Memory is taken as by x509check_validate. */
struct x509check_asked x509check_questions(const struct x509check_query *query, const struct x509check_text *statements,
                                           size_t statement_count, struct x509check_signature_question *questions, size_t room);

/* The verdict on a path at a moment, by statements at hand, without a store.
 *
 * `statements` are lists (CRLs) and OCSP responses, in any order. `fingerprints` are those of the signatures that the caller found good, 32
 * octets each, one behind the other, as x509check_fingerprint writes them: no other signature is accepted. `query` may not be null.
 *
 * A certificate or a statement that cannot be read is refused with its first fault, the certificates before the statements, in order, and
 * there is no verdict then. A statement that no issuer of the path signed changes nothing. Each is read once. Memory is taken for lists
 * during the call, and freed before it returns; if it is refused, the fault is X509CHECK_FAULT_MEMORY. */
struct x509check_verdict x509check_validate(const struct x509check_query *query, const struct x509check_text *statements,
                                            size_t statement_count, const uint8_t *fingerprints, size_t fingerprint_count);

/* The same for who asks for certificate policies (RFC 5280, 6.1): the verdict, and the policies at the end of the path.
 *
 * policyMappings, policyConstraints and inhibitAnyPolicy are processed, and no path is invalid for rank 12 (Policy); it may be for the ranks
 * 17 to 19, behind the others. If an extension about policies of a certificate of the path is malformed, that certificate is refused, after
 * the certificates and the statements that cannot be read. `inputs` may not be null. The questions are those of x509check_questions.
 *
 * If the path is not invalid, up to so many lengths are written to `lengths`, and so many octets to `octets`, as there is room for: the
 * length of the contents of each policy, those of the authorities first, and these contents one behind the other. The counts tell how many
 * there are. Either array may be null if its room is 0. No text may overlap with an array, and no array with another. */
struct x509check_policies x509check_validate_with_policies(const struct x509check_query *query, const struct x509check_policy_inputs *inputs,
                                                           const struct x509check_text *statements, size_t statement_count,
                                                           const uint8_t *fingerprints, size_t fingerprint_count, size_t *lengths,
                                                           size_t length_room, uint8_t *octets, size_t octet_room);

/* The questions that a judge of signatures may be asked for what x509check_find finds, at whatever moment and for whatever purpose. As
 * x509check_questions, of a search: first about each certificate that leads to the target by names, under each anchor and each of the others
 * that has the name of its issuer, and then about each statement under each of these issuers. The limits of the search do not count here. */
struct x509check_asked x509check_find_questions(const struct x509check_search *search, const struct x509check_text *statements,
                                                size_t statement_count, struct x509check_signature_question *questions, size_t room);

/* Searches for a path from an anchor to the target, and tells the verdict on it by statements at hand: the first path whose verdict is
 * X509CHECK_VALID; if there is none, the first that meets the conditions of RFC 5280, 6.1, with its verdict. The shorter path is first, then
 * the one whose certificates come earlier in the bag, from the target upward, and then the one whose anchor comes earlier. If no path meets
 * the conditions, the verdict is X509CHECK_NOT_FOUND. Each path is found that is there, unless the limits are used up: X509CHECK_GAVE_UP.
 *
 * Up to `room` numbers are written to `path`: which certificates the path has, from the anchor down to the target, as indices among those
 * of the search (X509CHECK_CERTIFICATES). The verdict's `certificate` counts along it: path[0] is the anchor. X509CHECK_PATH_ROOM suffices
 * for each path. Nothing is written if none is found. No text may overlap with `path`.
 *
 * `statements` and `fingerprints` are as for x509check_validate; the questions are those of x509check_find_questions. A certificate or a
 * statement that cannot be read is refused, and nothing is found then. Memory is taken as by x509check_validate, and for the search. */
struct x509check_finding x509check_find(const struct x509check_search *search, const struct x509check_text *statements,
                                        size_t statement_count, const uint8_t *fingerprints, size_t fingerprint_count, size_t *path,
                                        size_t room);

/* Why x509check_find finds no path, for the same search and fingerprints: whether a path meets RFC 5280, 6.1, does not depend on statements.
 *
 * X509CHECK_TARGET_AT_FAULT: the target cannot stand at the end of any path. `reason` is the least rank of the conditions on it alone (of
 * its time, policies, critical extensions and purpose) that it does not meet. Nothing is written.
 *
 * X509CHECK_PATHS_END: the target is right by itself, and paths to it end below the anchors. Of the ends whose certificates all meet the
 * conditions the longest is told, and of these the one whose certificates come earlier in the bag, from the target upward. Up to so many
 * indices among the certificates of the search (X509CHECK_CERTIFICATES) are written as there is room for:
 *   to `above` the certificates of that end above the target, from the target upward: none if nobody at hand may be the target's issuer;
 *   to `anchors` the anchors that have the name of the issuer of its top, but whose keys did not sign it; nothing else can be wrong with them;
 *   to `obstacles` the certificates of the bag with that name, each with the least rank of the conditions that it does not meet there.
 * The counts tell how many there are. If there is neither an anchor nor an obstacle, the certificate of that issuer is missing.
 * x509check_reason_name names the ranks, by X509CHECK_INVALID. Of 1, 2, 6, 7, 8 and 10 x509check_validate says that the certificate below is
 * at fault; here it is said of the obstacle above. If a path is valid after all, the answer is still true of that end, whose top an anchor
 * may then have issued.
 *
 * X509CHECK_GAVE_UP: `signatures` or `steps` of the limits are used up; `verdicts` does not count here. Nothing is written.
 *
 * X509CHECK_REFUSED: a certificate cannot be read. Nothing is written.
 *
 * X509CHECK_PATH_ROOM suffices for `above`, and for the others as many as the search has anchors and others. Each array may be null if its
 * room is 0. No two arrays may overlap, and no text with one of them. It asks no more than x509check_find, and looks at each end of a path
 * once more. Memory is taken as by x509check_find. */
struct x509check_diagnosis x509check_why_not(const struct x509check_search *search, const uint8_t *fingerprints, size_t fingerprint_count,
                                             size_t *above, size_t above_room, size_t *anchors, size_t anchor_room,
                                             struct x509check_obstacle *obstacles, size_t obstacle_room);

#ifdef __cplusplus
}
#endif

#endif
