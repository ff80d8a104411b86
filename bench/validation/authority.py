"""A root, a certificate of it and its revocation list, which are really signed: by OpenSSL, with RSA of 2,048 bits."""

import base64
import os
import subprocess
import sys
import time

sys.path.insert(0, os.path.join(os.path.dirname(os.path.abspath(__file__)), ".."))
from data import RSA_SHA256, TRUE, bits, extension, integer, name, sequence, value  # noqa: E402

DAY = 86400
ROOT = name(("2.5.4.3", "R"))
LEAF = name(("2.5.4.3", "T"))
LEAF_SERIAL = 5
FIRST_SERIAL = 1000


def utc(seconds):
    return value(0x17, time.strftime("%y%m%d%H%M%SZ", time.gmtime(seconds)).encode())


def write_pem(path, kind, octets):
    with open(path, "w", encoding="ascii") as out:
        out.write(f"-----BEGIN {kind}-----\n{base64.encodebytes(octets).decode()}-----END {kind}-----\n")


class Authority:
    """Files in a folder: root, leaf and list, each as .der and as .pem. They count from yesterday on."""

    def __init__(self, folder, entries):
        self.folder = folder
        self.now = int(time.time())
        self.key = os.path.join(folder, "key.pem")
        self.openssl("genpkey", "-quiet", "-algorithm", "RSA", "-pkeyopt", "rsa_keygen_bits:2048", "-out", self.key)
        self.key_info = self.openssl("pkey", "-in", self.key, "-pubout", "-outform", "DER")
        usage = [extension("2.5.29.19", sequence(TRUE), True), extension("2.5.29.15", value(0x03, b"\x01\x06"), True)]
        self.write("root", "CERTIFICATE", self.certificate(ROOT, 1, usage))
        self.write("leaf", "CERTIFICATE", self.certificate(LEAF, LEAF_SERIAL, [extension("2.5.29.19", sequence(), True)]))
        self.write("list", "X509 CRL", self.revocation_list(entries))

    def openssl(self, *words, given=None):
        return subprocess.run(["openssl", *words], input=given, capture_output=True, check=True).stdout

    def write(self, title, kind, octets):
        with open(os.path.join(self.folder, title + ".der"), "wb") as out:
            out.write(octets)
        write_pem(os.path.join(self.folder, title + ".pem"), kind, octets)

    def signed(self, part):
        signature = self.openssl("dgst", "-sha256", "-sign", self.key, given=part)
        return sequence(part, RSA_SHA256, bits(signature))

    def certificate(self, subject, serial, extensions):
        validity = sequence(utc(self.now - 30 * DAY), utc(self.now + 300 * DAY))
        return self.signed(sequence(value(0xA0, integer(2)), integer(serial), RSA_SHA256, ROOT, validity, subject, self.key_info,
                                    value(0xA3, sequence(*extensions))))

    def revocation_list(self, entries):
        when = utc(self.now - 3 * DAY)
        revoked = sequence(*(sequence(integer(serial), when) for serial in range(FIRST_SERIAL, FIRST_SERIAL + entries)))
        return self.signed(sequence(integer(1), RSA_SHA256, ROOT, utc(self.now - DAY), utc(self.now + 20 * DAY), revoked,
                                    value(0xA0, sequence(extension("2.5.29.20", integer(1))))))

    def moment(self):
        return time.strftime("%Y%m%d%H%M%SZ", time.gmtime(self.now))
