#!/usr/bin/env python3
"""Prints what a certificate says, with the library for C in a shared object:

    make
    examples/read_certificate.py bindings/out/libx509check.so FILE.der
"""

import ctypes
import sys

FAULT_DER = 21
KEY_CERT_SIGN = 1 << 5


class Part(ctypes.Structure):
    _fields_ = [("offset", ctypes.c_size_t), ("length", ctypes.c_size_t)]

    def of(self, octets):
        return octets[self.offset:self.offset + self.length]


class Answer(ctypes.Structure):
    _fields_ = [("fault", ctypes.c_uint32), ("offset", ctypes.c_size_t)]


class Extensions(ctypes.Structure):
    _fields_ = [
        *((name, ctypes.c_bool) for name in (
            "has_basic_constraints", "is_authority", "has_path_length", "has_key_usage", "needs_policy_processing", "no_check")),
        ("path_length", ctypes.c_uint32),
        ("key_usage", ctypes.c_uint32),
        *((name, ctypes.c_size_t) for name in (
            "alternative_names", "permitted_subtrees", "excluded_subtrees", "purposes", "unrecognised")),
    ]


class Fields(ctypes.Structure):
    _fields_ = [
        ("version", ctypes.c_uint32),
        ("not_before", ctypes.c_int64),
        ("not_after", ctypes.c_int64),
        *((name, Part) for name in (
            "tbs", "serial", "algorithm", "issuer", "subject", "subject_public_key_info", "key", "signature")),
        ("extensions", Extensions),
    ]


class Certificate(ctypes.Structure):
    _fields_ = [("fault", ctypes.c_uint32), ("der_fault", ctypes.c_uint32), ("offset", ctypes.c_size_t), ("fields", Fields)]


def load(path):
    library = ctypes.CDLL(path)
    library.x509check_check.argtypes = [ctypes.c_char_p, ctypes.c_size_t]
    library.x509check_check.restype = Answer
    library.x509check_read_certificate.argtypes = [ctypes.c_char_p, ctypes.c_size_t]
    library.x509check_read_certificate.restype = Certificate
    library.x509check_fingerprint.argtypes = [ctypes.c_char_p, ctypes.c_size_t] * 4 + [ctypes.c_char_p]
    library.x509check_fingerprint.restype = None
    library.x509check_sha256.argtypes = [ctypes.c_char_p, ctypes.c_size_t, ctypes.c_char_p]
    library.x509check_sha256.restype = None
    return library


def fingerprint(library, *texts):
    written = ctypes.create_string_buffer(32)
    arguments = [argument for text in texts for argument in (text, len(text))]
    library.x509check_fingerprint(*arguments, written)
    return written.raw


def sha256(library, octets):
    """What `openssl x509 -fingerprint -sha256` prints, without colons."""
    written = ctypes.create_string_buffer(32)
    library.x509check_sha256(octets, len(octets), written)
    return written.raw


def print_certificate(octets, fields):
    print("version", fields.version)
    for name in ("serial", "issuer", "subject"):
        print(name, getattr(fields, name).of(octets).hex())
    print("from", fields.not_before)
    print("until", fields.not_after)
    print("key", fields.key.of(octets).hex())
    extensions = fields.extensions
    if extensions.is_authority:
        print("authority" + (f", path length {extensions.path_length}" if extensions.has_path_length else ""))
    if extensions.key_usage & KEY_CERT_SIGN:
        print("signs certificates")
    print(extensions.alternative_names, "alternative names")


def main(path, file):
    library = load(path)
    with open(file, "rb") as opened:
        octets = opened.read()
    answer = library.x509check_read_certificate(octets, len(octets))
    if answer.fault:
        der = f" (DER {answer.der_fault})" if answer.fault == FAULT_DER else ""
        print(f"refused: fault {answer.fault}{der} at {answer.offset}")
        return 1
    print_certificate(octets, answer.fields)
    print("sha256", sha256(library, octets).hex())
    texts = (getattr(answer.fields, name).of(octets) for name in ("algorithm", "subject_public_key_info", "tbs", "signature"))
    print("fingerprint of the signature, as one under the certificate's own key", fingerprint(library, *texts).hex())
    return 0


if __name__ == "__main__":
    if len(sys.argv) != 3:
        sys.exit("usage: read_certificate.py LIBRARY.so FILE.der")
    sys.exit(main(*sys.argv[1:]))
