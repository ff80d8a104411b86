"""Cases with known answers for bindings/compare: paths, lists and responses in the small notation of crates/vectors, under a signature that
needs no secret, the SHA-256 of the key and the message."""

import hashlib
import re

MIDDLE = 1749945600  # 2025-06-15T00:00:00Z


# ---- DER

def value(identifier, *parts):
    contents = b"".join(parts)
    length = len(contents)
    if length < 0x80:
        head = bytes([length])
    else:
        octets = length.to_bytes((length.bit_length() + 7) // 8, "big")
        head = bytes([0x80 | len(octets)]) + octets
    return bytes([identifier]) + head + contents


def sequence(*parts):
    return value(0x30, *parts)


def oid(text):
    arcs = [int(arc) for arc in text.split(".")]
    found = bytes([arcs[0] * 40 + arcs[1]])
    for arc in arcs[2:]:
        octets = [arc & 0x7F]
        while arc > 0x7F:
            arc >>= 7
            octets.insert(0, arc & 0x7F | 0x80)
        found += bytes(octets)
    return value(0x06, found)


def bits(octets, unused=0):
    return value(0x03, bytes([unused]), octets)


def utc(text):
    return value(0x17, text.encode())


def generalized(text):
    return value(0x18, text.encode())


ALGORITHM = sequence(oid("1.2.3"))
TRUE = value(0x01, b"\xff")


def name(text):
    return sequence(value(0x31, sequence(oid("2.5.4.3"), value(0x13, text.encode()))))


def key(text):
    return sequence(ALGORITHM, bits(text.encode()))


def signed(part, signer):
    return sequence(part, ALGORITHM, bits(hashlib.sha256(key(signer) + part).digest()))


def is_good(question):
    """Judges a signature."""
    return hashlib.sha256(question.key + question.message).digest() == question.signature


# ---- the notation

def options(text):
    """What stands in braces: a word, and what follows it."""
    return [tuple((option.split(" ", 1) + [""])[:2]) for option in re.findall(r"\{([^}]*)\}", text)]


def extension(kind, octets, critical=False):
    return sequence(oid(kind), *([TRUE] if critical else []), value(0x04, octets))


def general_name(form, text):
    if form == "mail":
        return value(0x81, text.encode())
    if form == "dns":
        return value(0x82, text.encode())
    if form == "uri":
        return value(0x86, text.encode())
    if form == "ip":
        return value(0x87, bytes.fromhex(text))
    return value(0xA4, name(text))


def subtrees(identifier, asked):
    found = [sequence(general_name(*text.split(" ", 1))) for text in asked]
    return [value(identifier, *found)] if found else []


def certificate(text):
    """`ca(S,I){..}` or `ee(S,I){..}`."""
    kind, subject, issuer = re.match(r"(ca|ee)\(([^,]*),([^)]*)\)", text).groups()
    said = options(text)
    last = dict(said)
    extensions = []
    alternatives = [general_name(word, rest) for word, rest in said if word in ("mail", "dns", "uri", "ip")]
    if alternatives:
        extensions.append(extension("2.5.29.17", sequence(*alternatives)))
    if kind == "ca":
        limit = [value(0x02, bytes([int(last["pathlen"])]))] if "pathlen" in last else []
        extensions.append(extension("2.5.29.19", sequence(TRUE, *limit), True))
    trees = subtrees(0xA0, [rest for word, rest in said if word == "permit"]) + subtrees(0xA1, [rest for word, rest in said if word == "exclude"])
    if trees:
        extensions.append(extension("2.5.29.30", sequence(*trees), True))
    purposes = [oid(rest) for word, rest in said if word == "purpose"]
    if purposes:
        extensions.append(extension("2.5.29.37", sequence(*purposes)))
    if "nocheck" in last:
        extensions.append(extension("1.3.6.1.5.5.7.48.1.5", b"\x05\x00"))
    return signed(sequence(
        value(0xA0, value(0x02, b"\x02")), value(0x02, b"\x05"), ALGORITHM, name(issuer),
        sequence(utc("250101000000Z"), utc(last.get("until", "260101000000Z"))),
        sequence() if "empty" in last else name(subject), key(last.get("key", subject)),
        *([value(0xA3, sequence(*extensions))] if extensions else [])), last.get("signed", issuer))


def revocation_list(text):
    """`crl(I,N)` or `crl(I,N,[SERIAL REASON])`."""
    issuer, number, entries = re.match(r"crl\(([^,]*),(\d+),?([^)]*)\)", text).groups()
    found = []
    for serial, reason in re.findall(r"\[(\w+) (\d+)\]", entries):
        said = sequence(extension("2.5.29.21", value(0x0A, bytes([int(reason)]))))
        found.append(sequence(value(0x02, bytes.fromhex(serial)), utc("250520000000Z"), said))
    return signed(sequence(
        value(0x02, b"\x01"), ALGORITHM, name(issuer), utc("250601000000Z"), utc("250701000000Z"), *([sequence(*found)] if found else []),
        value(0xA0, sequence(extension("2.5.29.20", value(0x02, bytes([int(number)])))))), dict(options(text)).get("signed", issuer))


def response(text, certificates=()):
    """`ocsp(I,SERIAL STATUS){..}`, with the certificates that it brings."""
    issuer, serial, status = re.match(r"ocsp\(([^,]*),(\w+) (\w+)\)", text).groups()
    said = dict(options(text))
    begins = generalized(said.get("from", "20250601000000Z"))
    hashed = [value(0x04, hashlib.sha1(octets).digest()) for octets in (name(issuer), issuer.encode())]
    single = sequence(
        sequence(sequence(oid("1.3.14.3.2.26"), value(0x05)), *hashed, value(0x02, bytes.fromhex(serial))),
        value({"good": 0x80, "unknown": 0x82}[status]), begins, *([] if "open" in said else [value(0xA0, generalized("20250701000000Z"))]))
    part = sequence(value(0xA1, name(said.get("by", issuer))), begins, sequence(single))
    signer = said.get("signed", issuer)
    basic = sequence(part, ALGORITHM, bits(hashlib.sha256(key(signer) + part).digest()),
                     *([value(0xA0, sequence(*certificates))] if certificates else []))
    return sequence(value(0x0A, b"\x00"), value(0xA0, sequence(oid("1.3.6.1.5.5.7.48.1.1"), value(0x04, basic))))


DELEGATED = response("ocsp(R,05 good){by D}{signed D}",
                     [certificate("ee(D,R){until 250610000000Z}{purpose 1.3.6.1.5.5.7.3.9}{nocheck}")])
BRIEF = "ocsp(R,05 {}){{from 20250615000000Z}}{{open}}"

# Certificates below the anchor ca(R,R), statements, moment, answer: a verdict, the number of a certificate, and the rank or reason. Of a path
# that meets all conditions nothing may be said; then it is unknown.
ROWS = [
    (["ee(T,R)"], [], 1767225600, "unknown 1"),
    (["ee(T,R)"], [], 1767225601, "invalid 1 4"),
    (["ee(T,R)"], [], 1735689599, "invalid 1 3"),
    (["ca(A,R){pathlen 0}", "ca(A,A){key A2}", "ee(T,A){signed A2}"], [], MIDDLE, "unknown 1"),
    (["ca(A,R){pathlen 0}", "ca(B,A)", "ee(T,B)"], [], MIDDLE, "invalid 2 10"),
    (["ca(A,R){permit dns example.com}", "ca(B,A){permit dns a.example.com}", "ee(T,B){dns b.example.com}"], [], MIDDLE, "invalid 3 6"),
    (["ca(A,R){permit dns example.com}", "ca(B,A){permit dns a.example.com}", "ee(T,B){dns x.A.example.com}"], [], MIDDLE, "unknown 1"),
    (["ca(A,R){permit dns .example.com}", "ee(T,A){dns example.com}"], [], MIDDLE, "invalid 2 6"),
    (["ca(A,R){permit dir Q}", "ee(T,A){empty}{dns x.example}"], [], MIDDLE, "unknown 1"),
    (["ca(A,R){permit uri example.com}", "ee(T,A){uri http://example.com/}"], [], MIDDLE, "invalid 2 8"),
    (["ca(A,R){permit uri example.com}", "ee(T,A)"], [], MIDDLE, "unknown 1"),
    (["ca(A,R){exclude mail example.com}", "ee(T,A){mail a@example.org}"], [], MIDDLE, "invalid 2 8"),
    (["ca(A,R){permit dir T}", "ca(A,A){key A2}", "ee(T,A){signed A2}"], [], MIDDLE, "unknown 1"),
    (["ca(A,R){permit dir T}", "ca(A,A){key A2}"], [], MIDDLE, "invalid 2 6"),
    (["ca(A,R){permit ip 0A000000FF000000}", "ee(T,A){ip 0A010203}"], [], MIDDLE, "unknown 1"),
    (["ca(A,R){permit ip 0A000000FF000000}", "ee(T,A){ip 0B010203}"], [], MIDDLE, "invalid 2 6"),
    (["ca(A,R){permit ip 0A000000FF000000}", "ee(T,A){ip 0A010203000000000000000000000000}"], [], MIDDLE, "invalid 2 6"),
    (["ca(A,R){pathlen 1}", "ca(B,A){pathlen 5}", "ca(C,B)", "ee(T,C)"], [], MIDDLE, "invalid 3 10"),
    (["ee(A,R)", "ee(T,A)"], [], MIDDLE, "invalid 1 9"),
    (["ee(A,R)"], [], MIDDLE, "unknown 1"),
    (["ee(T,R){signed X}"], [], 1767225601, "invalid 1 2"),
    (["ca(A,R){permit dns a.example}", "ca(B,A){permit dns b.example}", "ee(T,B){dns x.a.example}"], [], MIDDLE, "invalid 3 6"),
    (["ca(A,R){permit dns a.example}", "ca(B,A){permit dns b.example}", "ee(T,B)"], [], MIDDLE, "unknown 1"),
    (["ca(A,R){permit dns example.com}", "ca(B,A){exclude dns a.example.com}", "ee(T,B){dns b.example.com}"], [], MIDDLE, "unknown 1"),
    (["ca(A,R){permit dns example.com}", "ca(B,A){exclude dns a.example.com}", "ee(T,B){dns c.a.example.com}"], [], MIDDLE, "invalid 3 7"),
    (["ca(A,R){exclude uri example.com}", "ee(T,A){uri http://x.example/}"], [], MIDDLE, "invalid 2 8"),
    (["ca(A,R){permit dns example.com}", "ee(T,A){dns badexample.com}"], [], MIDDLE, "invalid 2 6"),
    (["ee(T,R)"], ["crl(R,5)"], 1751328000, "valid"),
    (["ee(T,R)"], ["crl(R,5)"], 1751328001, "unknown 1"),
    (["ee(T,R)"], ["crl(R,5)", "crl(R,6,[05 1])"], MIDDLE, "revoked 1 1"),
    (["ee(T,R)"], ["crl(R,6,[05 1])", "crl(R,5)"], MIDDLE, "revoked 1 1"),
    (["ee(T,R)"], ["crl(R,5)", "crl(R,5,[05 1])"], MIDDLE, "valid"),
    (["ee(T,R)"], ["crl(R,3)", "crl(R,9,[05 1]){signed X}"], MIDDLE, "valid"),
    (["ee(T,R)"], [DELEGATED], MIDDLE, "unknown 1"),
    (["ee(T,R)"], [DELEGATED, "crl(R,5)"], MIDDLE, "valid"),
    (["ee(T,R)"], [DELEGATED, "crl(R,6,[05 1])"], MIDDLE, "revoked 1 1"),
    (["ee(T,R)"], [BRIEF.format("good")], 1750032000, "valid"),
    (["ee(T,R)"], [BRIEF.format("good")], 1750032001, "unknown 1"),
    (["ee(T,R)"], [BRIEF.format("unknown")], 1749945600, "unknown 1"),
]


def rows():
    """Certificates, statements, moment and answer of each row, in DER."""
    for path, statements, moment, line in ROWS:
        certificates = [certificate(text) for text in ["ca(R,R)", *path]]
        yield certificates, [statement(text) for text in statements], moment, line


def statement(said):
    if isinstance(said, bytes):
        return said
    return revocation_list(said) if said.startswith("crl") else response(said)
