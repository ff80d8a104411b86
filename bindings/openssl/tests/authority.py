"""Certificates, lists and responses for the handshakes of ../try, made by OpenSSL's command line in a folder."""

import os
import re
import ssl
import subprocess
import sys

sys.path.insert(0, os.path.join(os.path.dirname(os.path.abspath(__file__)), "..", "..", "python"))

from x509check import _der  # noqa: E402

FOR_AUTHORITY = "basicConstraints=critical,CA:TRUE\nkeyUsage=critical,keyCertSign,cRLSign\n"
FOR_SERVER = "subjectAltName=DNS:server.example,DNS:*.wild.example,IP:192.0.2.1,email:post@server.example\nextendedKeyUsage=serverAuth\n"
FOR_RESPONSES = "extendedKeyUsage=OCSPSigning\nnoCheck=ignored\n"
FOR_CLIENT = "subjectAltName=email:user@client.example\nextendedKeyUsage=clientAuth\n"
LISTS = """
[ca]
default_ca = authority
[authority]
database = $ENV::INDEX
crlnumber = $ENV::INDEX.number
default_md = sha256
default_crl_days = 30
"""
TIME = re.compile(rb"\x18\x0f(\d{14}Z)")
BASIC = b"\x06\x09\x2b\x06\x01\x05\x05\x07\x30\x01\x01"    # id-pkix-ocsp-basic
FOREVER, YESTERDAY = "491231235959Z", "200101000000Z"


class Authority:
    """Files by their names: NAME.pem and NAME.der of certificates, NAME.key, NAME.crl and NAME.ocsp in DER."""

    def __init__(self, folder):
        self.folder, self.serials = folder, {}

    def path(self, name):
        return os.path.join(self.folder, name)

    def write(self, name, text):
        with open(self.path(name), "wb") as file:
            file.write(text if isinstance(text, bytes) else text.encode("ascii"))
        return self.path(name)

    def read(self, name):
        with open(self.path(name), "rb") as file:
            return file.read()

    def openssl(self, *words, **variables):
        done = subprocess.run(["openssl", *words], stdin=subprocess.DEVNULL, stdout=subprocess.PIPE, stderr=subprocess.PIPE,
                              env={**os.environ, **variables}, timeout=60, check=False)
        if done.returncode:
            raise RuntimeError(f"openssl {' '.join(words)}: {done.stderr.decode(errors='replace')}")

    def key(self, name, kind=("EC", "ec_paramgen_curve:P-256")):
        path = self.path(f"{name}.key")
        if not os.path.exists(path):
            self.openssl("genpkey", "-algorithm", kind[0], "-pkeyopt", kind[1], "-out", path)
        return path

    def certificate(self, name, issuer=None, extensions=FOR_AUTHORITY, *, days=30, subject=None, key=None, digest="sha256", serial=None):
        """A certificate under the key of `issuer`, or its own. Its subject is its name, and its key that with its name, unless told."""
        own, request = self.key(key or name), self.path(f"{name}.csr")
        self.openssl("req", "-new", "-key", own, "-subj", f"/CN={subject or name}", "-out", request)
        self.serials[name] = serial or len(self.serials) + 2
        signer = ["-signkey", own] if issuer is None else ["-CA", self.path(f"{issuer}.pem"), "-CAkey", self.path(f"{issuer}.key")]
        self.openssl("x509", "-req", "-in", request, *signer, "-set_serial", str(self.serials[name]), "-days", str(days), f"-{digest}",
                     "-extfile", self.write(f"{name}.ext", extensions), "-out", self.path(f"{name}.pem"))
        self.to_der(name)

    def to_der(self, name):
        self.write(f"{name}.der", ssl.PEM_cert_to_DER_cert(self.read(f"{name}.pem").decode("ascii")))

    def index(self, name, good=(), revoked=()):
        """What an authority remembers of the certificates that it issued."""
        lines = [f"V\t{FOREVER}\t\t{self.serials[one]:04X}\tunknown\t/CN={one}\n" for one in good]
        lines += [f"R\t{FOREVER}\t{YESTERDAY},keyCompromise\t{self.serials[one]:04X}\tunknown\t/CN={one}\n" for one in revoked]
        self.write(f"{name}.index.attr", "unique_subject = no\n")
        return self.write(f"{name}.index", "".join(lines))

    def list(self, name, issuer, revoked=(), *, number=1, days=30, digest="sha256"):
        """A list of the issuer: NAME.crl."""
        index, pem = self.index(name, revoked=revoked), self.path(f"{name}.crl.pem")
        self.write(f"{name}.index.number", f"{number:02X}\n")
        self.openssl("ca", "-config", self.write("lists.cnf", LISTS), "-gencrl", "-cert", self.path(f"{issuer}.pem"), "-keyfile",
                     self.path(f"{issuer}.key"), "-crldays", str(days), "-md", digest, "-out", pem, INDEX=index)
        self.openssl("crl", "-in", pem, "-outform", "DER", "-out", self.path(f"{name}.crl"))

    def response(self, name, issuer, about, revoked=False, *, by=None, digest="sha256"):
        """A response of the issuer, or of its delegate `by`, about one of its certificates: NAME.ocsp."""
        index = self.index(name, good=() if revoked else (about,), revoked=(about,) if revoked else ())
        request, authority, signer = self.path(f"{name}.req"), self.path(f"{issuer}.pem"), by or issuer
        self.openssl("ocsp", "-issuer", authority, "-cert", self.path(f"{about}.pem"), "-no_nonce", "-reqout", request)
        self.openssl("ocsp", "-index", index, "-CA", authority, "-rsigner", self.path(f"{signer}.pem"), "-rkey",
                     self.path(f"{signer}.key"), "-rmd", digest, "-reqin", request, "-respout", self.path(f"{name}.ocsp"), "-ndays", "1")

    def contradicting_responses(self, name, other, issuer, about):
        """Two responses with the same times, of which the other one revokes: they are made within one second."""
        while True:
            self.response(name, issuer, about)
            self.response(other, issuer, about, revoked=True)
            if TIME.findall(self.read(f"{name}.ocsp"))[0] == TIME.findall(self.read(f"{other}.ocsp"))[0]:
                return

    def joined_response(self, name, first, second, issuer):
        """One response with what two say, and the times of the first: NAME.ocsp."""
        said = [_der.values(basic_response(self.read(f"{one}.ocsp")).contents) for one in (first, second)]
        data = [_der.values(basic[0].contents) for basic in said]
        singles = _der.encoded(0x30, *(values[2].contents for values in data))
        signed = _der.encoded(0x30, data[0][0].whole, data[0][1].whole, singles)
        self.openssl("dgst", "-sha256", "-sign", self.path(f"{issuer}.key"), "-out", self.path(f"{name}.signature"),
                     self.write(f"{name}.signed", signed))
        signature = _der.encoded(3, b"\0", self.read(f"{name}.signature"))
        basic = _der.encoded(0x30, signed, said[0][1].whole, signature)
        octets = _der.encoded(0x30, BASIC, _der.encoded(4, basic))
        self.write(f"{name}.ocsp", _der.encoded(0x30, b"\x0a\1\0", _der.encoded(0xA0, octets)))

    def bundle(self, name, *certificates):
        """NAME.pem: certificates one behind the other."""
        self.write(f"{name}.pem", b"".join(self.read(f"{one}.pem") for one in certificates))


def basic_response(octets):
    """The BasicOCSPResponse of an OCSPResponse (RFC 6960, 4.2.1)."""
    octets = _der.values(_der.value(octets).contents)[1].contents
    return _der.value(_der.values(_der.value(octets).contents)[1].contents)


def made_in(folder):
    """All that the handshakes need."""
    made = Authority(folder)
    made.certificate("root")
    made.certificate("middle", "root")
    made.certificate("leaf", "middle", FOR_SERVER)
    made.certificate("expired", "middle", FOR_SERVER, days=-1)
    made.certificate("client", "middle", FOR_CLIENT)
    made.certificate("for_signing", "middle", FOR_SERVER + "keyUsage=critical,keyCertSign\n")
    made.certificate("by_sha1", "middle", FOR_SERVER, digest="sha1")
    made.certificate("odd", "root", subject="odd", key="middle", serial=1 << 270)
    made.certificate("other", None, subject="root")
    made.certificate("stranger")
    made.certificate("shouted", None, subject="ROOT")
    made.list("root_list", "root")
    made.list("middle_list", "middle")
    made.list("revoking_list", "middle", revoked=("leaf", "client"))
    made.list("root_revoking_list", "root", revoked=("middle",))
    made.key("delegate", ("RSA", "rsa_keygen_bits:2048"))
    made.certificate("delegate", "middle", FOR_RESPONSES)
    made.response("by_delegate", "middle", "leaf", revoked=True, by="delegate")
    made.list("weak_list", "middle", revoked=("leaf",), digest="sha1")
    made.list("stranger_list", "stranger", revoked=("leaf",), digest="sha1")
    made.list("forged_list", "other", revoked=("middle",), number=9)
    made.list("lapsing_list", "middle", revoked=("leaf",), days=1)
    made.list("lapsing_good_list", "middle", days=1)
    made.list("later_list", "middle", number=2)
    made.list("later_revoking_list", "middle", revoked=("leaf",), number=2)
    made.contradicting_responses("good", "revoked", "middle", "leaf")
    made.joined_response("good_and_revoked", "good", "revoked", "middle")
    made.joined_response("revoked_and_good", "revoked", "good", "middle")
    made.response("weak", "middle", "leaf", revoked=True, digest="sha1")
    made.response("weak_of_root", "root", "middle", revoked=True, digest="sha1")    # (with the root's own certificate)
    make_delegates(made)
    for bit in ("digitalSignature", "nonRepudiation", "keyEncipherment", "keyAgreement", "keyCertSign"):
        made.certificate(bit, "middle", f"keyUsage=critical,{bit}\n", key="leaf")
    made.response("of_expired", "middle", "expired")
    # What OpenSSL hands on as it is: a SET where BasicOCSPResponse has a SEQUENCE, and tryLater (RFC 6960, 2.3).
    head, basic = b"\x2b\x06\x01\x05\x05\x07\x30\x01\x01\x04\x82", made.read("good.ocsp")
    inner = basic.index(head) + len(head) + 2
    made.write("malformed.ocsp", basic[:inner] + b"\x31" + basic[inner + 1:])
    made.write("try_later.ocsp", b"\x30\x03\x0a\x01\x03")
    make_cross_signed(made)
    make_constrained(made)
    made.write("purpose", b"\x2b\x06\x01\x05\x05\x07\x03\x03")
    make_changed(made)
    made.bundle("odd_chain", "middle", "odd")
    made.bundle("many", *["middle"] * 16)
    made.bundle("too_big", *["middle"] * 400)
    return made


def make_delegates(made):
    """Of the three that say that the leaf is revoked one is a forgery, and of another one nobody can judge the certificate."""
    made.certificate("weak_delegate", "middle", FOR_RESPONSES, digest="sha1")
    made.response("by_weak_delegate", "middle", "leaf", revoked=True, by="weak_delegate")
    made.response("weak_by_delegate", "middle", "leaf", revoked=True, by="delegate", digest="sha1")
    made.certificate("false_middle", "other", subject="middle")
    made.certificate("false_delegate", "false_middle", FOR_RESPONSES)
    made.response("by_false_delegate", "middle", "leaf", revoked=True, by="false_delegate")


def make_changed(made):
    """The leaf with another signature."""
    octets = bytearray(made.read("leaf.der"))
    octets[-1] ^= 1
    made.write("changed.pem", ssl.DER_cert_to_PEM_cert(bytes(octets)))
    made.write("changed.key", made.read("leaf.key"))


def make_cross_signed(made):
    """The root once was signed by an old one, which has expired, and so has the certificate that it signed."""
    made.certificate("old")
    made.certificate("old_root", None, subject="old", key="old", days=-1)
    made.certificate("cross", "old", subject="root", key="root", days=-1)
    made.bundle("cross_chain", "cross", "old_root", "middle")


def make_constrained(made):
    """Authorities that must not issue what they issue."""
    rows = {
        "no_authority": "basicConstraints=critical,CA:FALSE\n", "no_signing": FOR_AUTHORITY.replace("keyCertSign,", ""),
        "permitting": FOR_AUTHORITY + "nameConstraints=critical,permitted;DNS:other.example\n",
        "excluding": FOR_AUTHORITY + "nameConstraints=critical,excluded;DNS:example\n", "gone": FOR_AUTHORITY,
        "with_policies": FOR_AUTHORITY + "policyConstraints=critical,requireExplicitPolicy:0\n",
        "critical": FOR_AUTHORITY + "1.2.3.4=critical,ASN1:NULL\n",
    }
    for name, extensions in rows.items():
        made.certificate(name, "root", extensions, days=-1 if name == "gone" else 30)
        made.certificate(f"under_{name}", name, FOR_SERVER)
    made.certificate("short", "root", FOR_AUTHORITY.replace("CA:TRUE", "CA:TRUE,pathlen:0"))
    made.certificate("below_short", "short")
    made.certificate("under_below_short", "below_short", FOR_SERVER)
    made.bundle("short_chain", "below_short", "short")
