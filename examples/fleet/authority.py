"""An authority for a fleet: a root and two CAs below it, delegates for responses, certificates, and the statements about them.

Keys and certificates are made by `openssl`. Statements are signed by Python's `cryptography`, which is OpenSSL's library: the command
cannot set the times of a response. The root publishes lists of all certificates and of CAs, the first CA lists of all certificates, the
second lists of all and of users; responses are signed by the CA itself or by one of its two delegates. Certificates are put on hold and
released all the time, and some are revoked for good. A clock of its own goes on by a minute with each statement. It is imported by `run`,
and needs the Debian packages openssl and python3-cryptography.
"""

import concurrent.futures
import datetime
import os
import random
import subprocess
from typing import Dict, Iterator, List, NamedTuple, Tuple

from cryptography import x509
from cryptography.hazmat.primitives import hashes
from cryptography.hazmat.primitives.serialization import Encoding, load_pem_private_key
from cryptography.x509 import ocsp

Slot = Tuple[str, str]   # an issuer, and a scope or a serial number

LISTS = {("root", "all"): 1, ("root", "ca"): 1, ("one", "all"): 3, ("two", "all"): 2, ("two", "user"): 3}   # slots, and how often
RESPONSES = 0.8          # the share of responses among the statements
CHANGES = 0.2            # the share of statements before which a certificate is revoked, put on hold or released
FOR_GOOD = 0.05          # the share of these that are revoked for good
SIGNERS = ("", "-first", "-second")   # who signs responses: the CA or one of its delegates
HOLD = 6
REASONS = {1: x509.ReasonFlags.key_compromise, 4: x509.ReasonFlags.superseded, HOLD: x509.ReasonFlags.certificate_hold}
MINUTE = datetime.timedelta(minutes=1)
EXTENSIONS = {
    "ca": "basicConstraints = critical, CA:true\nkeyUsage = critical, keyCertSign, cRLSign\n",
    "delegate": "extendedKeyUsage = OCSPSigning\nnoCheck = ignored\n",
    "leaf": "basicConstraints = critical, CA:false\nextendedKeyUsage = clientAuth\n",
}


class Statement(NamedTuple):
    topic: str           # statements/ISSUER/list/SCOPE or statements/ISSUER/response/SERIAL
    octets: bytes
    slot: Slot
    rank: int            # of two statements of a slot the one with the greater rank is the newer: the number or thisUpdate
    moment: datetime.datetime


def openssl(*words: str) -> None:
    subprocess.run(["openssl", *words], check=True, stdin=subprocess.DEVNULL, stdout=subprocess.DEVNULL, stderr=subprocess.PIPE)


class Authority:
    def __init__(self, folder: str, certificates: int, seed: int) -> None:
        self.folder, self.rng = folder, random.Random(seed)
        self.begun = datetime.datetime.now(datetime.timezone.utc).replace(microsecond=0)
        self.leaves = {100 + number: ("one", "two")[number % 2] for number in range(certificates)}   # serial numbers, and their CAs
        self.slots: List[Slot] = [*LISTS, *((ca, str(serial)) for serial, ca in self.leaves.items())]
        self.revoked: Dict[int, Tuple[datetime.datetime, int]] = {}
        self.numbers = dict.fromkeys(LISTS, 0)
        self.make()

    def file(self, name: str) -> str:
        return os.path.join(self.folder, name)

    def octets(self, name: str) -> bytes:
        """The DER of a certificate: root, one, two, or a serial number. It is also in the file NAME.der."""
        return self.certificates[name].public_bytes(Encoding.DER)

    # ---- keys and certificates

    def make(self) -> None:
        signers = ["root", *(ca + signer for ca in ("one", "two") for signer in SIGNERS)]
        for name in [*signers, "leaf"]:
            openssl("ecparam", "-name", "prime256v1", "-genkey", "-noout", "-out", self.file(f"{name}.key"))
            openssl("pkey", "-in", self.file(f"{name}.key"), "-pubout", "-out", self.file(f"{name}.public"))
        for kind, text in EXTENSIONS.items():
            with open(self.file(f"{kind}.ext"), "w", encoding="ascii") as out:
                out.write(text)
        openssl("req", "-x509", "-key", self.file("root.key"), "-subj", "/O=Fleet/CN=root", "-days", "3650", "-sha256",
                "-out", self.file("root.pem"))
        for serial, name in enumerate(signers[1:], 2):
            ca, _, is_delegate = name.partition("-")
            self.certify(ca if is_delegate else "root", "delegate" if is_delegate else "ca", name, serial, name)
        with concurrent.futures.ThreadPoolExecutor() as pool:
            list(pool.map(lambda it: self.certify(it[1], "leaf", "leaf", it[0], str(it[0])), self.leaves.items()))
        self.keys, self.certificates = {}, {}
        for name in signers:
            with open(self.file(f"{name}.key"), "rb") as file:
                self.keys[name] = load_pem_private_key(file.read(), None)
        for name in [*signers, *map(str, self.leaves)]:
            with open(self.file(f"{name}.pem"), "rb") as file:
                self.certificates[name] = x509.load_pem_x509_certificate(file.read())
            with open(self.file(f"{name}.der"), "wb") as file:
                file.write(self.octets(name))

    def certify(self, issuer: str, kind: str, key: str, serial: int, name: str) -> None:
        """A certificate with this serial number, which the issuer signs."""
        openssl("x509", "-new", "-subj", f"/O=Fleet/CN={name}", "-force_pubkey", self.file(f"{key}.public"),
                "-CA", self.file(f"{issuer}.pem"), "-CAkey", self.file(f"{issuer}.key"), "-set_serial", str(serial), "-days", "1000",
                "-sha256", "-extfile", self.file(f"{kind}.ext"), "-out", self.file(f"{name}.pem"))

    # ---- statements

    def list_of(self, slot: Slot, moment: datetime.datetime) -> bytes:
        issuer, scope = slot
        builder = (x509.CertificateRevocationListBuilder().issuer_name(self.certificates[issuer].subject)
                   .last_update(moment).next_update(moment + 2 * len(self.slots) * MINUTE)
                   .add_extension(x509.CRLNumber(self.numbers[slot]), False))
        if scope != "all":
            point = x509.IssuingDistributionPoint(None, None, scope == "user", scope == "ca", None, False, False)
            builder = builder.add_extension(point, True)
        for serial, (since, reason) in self.revoked.items():
            if self.leaves[serial] == issuer:
                builder = builder.add_revoked_certificate(
                    x509.RevokedCertificateBuilder().serial_number(serial).revocation_date(since)
                    .add_extension(x509.CRLReason(REASONS[reason]), False).build())
        return builder.sign(self.keys[issuer], hashes.SHA256()).public_bytes(Encoding.DER)

    def response_of(self, slot: Slot, moment: datetime.datetime) -> bytes:
        issuer, serial = slot
        since, reason = self.revoked.get(int(serial), (None, None))
        status = ocsp.OCSPCertStatus.REVOKED if reason else ocsp.OCSPCertStatus.GOOD
        signer = issuer + self.rng.choice(SIGNERS)
        builder = (ocsp.OCSPResponseBuilder()
                   .add_response(self.certificates[serial], self.certificates[issuer], hashes.SHA1(), status, moment,
                                 moment + 4 * len(self.slots) * MINUTE, since, REASONS.get(reason))
                   .responder_id(ocsp.OCSPResponderEncoding.HASH, self.certificates[signer]))
        if signer != issuer:
            builder = builder.certificates([self.certificates[signer]])
        return builder.sign(self.keys[signer], hashes.SHA256()).public_bytes(Encoding.DER)

    def statement(self, slot: Slot, moment: datetime.datetime) -> Statement:
        if slot in LISTS:
            self.numbers[slot] += 1
            return Statement("statements/{}/list/{}".format(*slot), self.list_of(slot, moment), slot, self.numbers[slot], moment)
        return Statement("statements/{}/response/{}".format(*slot), self.response_of(slot, moment), slot, int(moment.timestamp()), moment)

    def change(self, serial: int, moment: datetime.datetime) -> None:
        """Releases the certificate if it is on hold, or else revokes it or puts it on hold, if it is not revoked."""
        if self.revoked.get(serial, (None, None))[1] == HOLD:
            del self.revoked[serial]
        elif serial not in self.revoked:
            self.revoked[serial] = (moment, self.rng.choice([1, 4]) if self.rng.random() < FOR_GOOD else HOLD)

    def statements(self, count: int) -> Iterator[Statement]:
        """So many statements, the last of which are one for each slot, when nothing changes any more."""
        last = random.Random(self.rng.random()).sample(self.slots, min(count, len(self.slots)))
        for number in range(count):
            moment = self.begun + (number + 1) * MINUTE
            is_late = number >= count - len(last)
            if not is_late and self.rng.random() < CHANGES:
                self.change(self.rng.choice(list(self.leaves)), moment)
            if is_late:
                slot = last.pop()
            elif self.rng.random() < RESPONSES:
                slot = self.rng.choice(self.slots[len(LISTS):])
            else:
                slot, = self.rng.choices(list(LISTS), list(LISTS.values()))
            yield self.statement(slot, moment)

    # ---- paths

    def path(self, serial: int) -> List[Tuple[str, List[Slot]]]:
        """The certificates below the root, each with the slots whose statements speak of it."""
        ca = self.leaves[serial]
        return [(ca, [("root", "all"), ("root", "ca")]), (str(serial), [(ca, "all"), (ca, "user"), (ca, str(serial))])]

    def verdict(self, serial: int) -> str:
        """The one that follows from the newest statements, while they count."""
        return f"revoked 2 {self.revoked[serial][1]}" if serial in self.revoked else "valid"
