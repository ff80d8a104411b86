"""Certificates that OpenSSL's command line signs, each in another way, and what is asked about their signatures."""

import concurrent.futures
import hashlib
import os
import subprocess
import tempfile
from typing import Dict, List, NamedTuple

from x509check import SignatureQuestion, _der

CURVES = {
    "P-224": "P-224", "P-256": "P-256", "P-384": "P-384", "P-521": "P-521", "secp256k1": "secp256k1", "bp256": "brainpoolP256r1",
    "bp384": "brainpoolP384r1", "bp512": "brainpoolP512r1",
}
UNSERVED_CURVES = {"P-192": "prime192v1", "sect283": "sect283r1", "bp320": "brainpoolP320r1"}


def _pss_key(*words: str) -> List[str]:
    return ["RSA-PSS", "rsa_keygen_bits:2048", *(f"rsa_pss_keygen_{word}" for word in words)]


# How each key is made: the algorithm, and the options. Of each kind there are two.
_ONE_OF_EACH: Dict[str, List[str]] = {
    "rsa2048": ["RSA", "rsa_keygen_bits:2048"], "rsa1024": ["RSA", "rsa_keygen_bits:1024"], "rsa512": ["RSA", "rsa_keygen_bits:512"],
    "pss": _pss_key(), "ed25519": ["ED25519"], "ed448": ["ED448"],
    **{name: ["EC", f"ec_paramgen_curve:{curve}"] for name, curve in {**CURVES, **UNSERVED_CURVES}.items()},
}
KEYS: Dict[str, List[str]] = {
    **_ONE_OF_EACH, **{f"{name}/other": words for name, words in _ONE_OF_EACH.items()},
    "pss-sha256": _pss_key("md:sha256", "mgf1_md:sha256", "saltlen:32"), "pss-sha384": _pss_key("md:sha384", "mgf1_md:sha256", "saltlen:7"),
    "explicit": ["EC", "ec_paramgen_curve:P-256", "ec_param_enc:explicit"], "dsa": ["DSA"],
}


def _padding(salt: object, mask: str = "") -> List[str]:
    words = ["rsa_padding_mode:pss", f"rsa_pss_saltlen:{salt}", *([f"rsa_mgf1_md:{mask}"] if mask else [])]
    return [part for word in words for part in ("-sigopt", word)]


# How each certificate is signed: the key, and the words for `openssl req`.
CERTIFICATES: Dict[str, List[str]] = {
    **{f"rsa {digest}": ["rsa2048", f"-{digest}"] for digest in ("sha1", "sha224", "sha256", "sha384", "sha512", "md5", "sha512-256")},
    "rsa1024 sha256": ["rsa1024", "-sha256"], "rsa512 sha256": ["rsa512", "-sha256"], "rsa1024 sha1": ["rsa1024", "-sha1"],
    **{f"pss salt {salt}": ["rsa2048", "-sha256", *_padding(salt)] for salt in ("digest", "max", "auto", 20, 0)},
    **{f"pss {digest}": ["rsa2048", f"-{digest}", *_padding("digest")] for digest in ("sha224", "sha384", "sha512")},
    "pss sha1": ["rsa2048", "-sha1", *_padding(20, "sha1")], "pss mask sha1": ["rsa2048", "-sha256", *_padding(32, "sha1")],
    "pss mask sha512": ["rsa2048", "-sha256", *_padding(32, "sha512")], "pss1024": ["rsa1024", "-sha256", *_padding("max")],
    "pss key": ["pss", "-sha256"], "pss key sha512": ["pss", "-sha512", *_padding("max")],
    "pss-sha256 key": ["pss-sha256", "-sha256"], "pss-sha256 key long salt": ["pss-sha256", "-sha256", *_padding(64)],
    "pss-sha384 key": ["pss-sha384", "-sha384"],
    **{f"ecdsa {digest}": ["P-256", f"-{digest}"] for digest in ("sha1", "sha224", "sha256", "sha384", "sha512")},
    **{f"{name}": [name, "-sha256"] for name in (*CURVES, *UNSERVED_CURVES) if name != "P-256"},
    "explicit": ["explicit", "-sha256"], "ed25519": ["ed25519"], "ed448": ["ed448"], "dsa": ["dsa", "-sha256"],
}


class Made(NamedTuple):
    """A self-signed certificate, and what is asked about it under its own key."""

    certificate: bytes
    question: SignatureQuestion


def question_of(algorithm: bytes, key: bytes, message: bytes, signature: bytes) -> SignatureQuestion:
    digest = hashlib.sha256()
    for text in (algorithm, key, message, signature):
        digest.update(len(text).to_bytes(8, "big") + text)
    return SignatureQuestion(algorithm, key, message, signature, digest.digest())


def self_signed(certificate: bytes) -> SignatureQuestion:
    """What is asked about a certificate of version 3 under its own key, without the library."""
    signed, algorithm, bits = _der.value(certificate).members()
    return question_of(algorithm.whole, signed.members()[6].whole, signed.whole, bits.whole_octets())


def _openssl(*words: str) -> bytes:
    done = subprocess.run(["openssl", *words], stdout=subprocess.PIPE, stderr=subprocess.PIPE, check=False)
    if done.returncode:
        raise RuntimeError(f"openssl {' '.join(words)}: {done.stderr.decode(errors='replace')}")
    return done.stdout


class Signed:
    """All keys, as subjectPublicKeyInfo, and all certificates, made once."""

    def __init__(self) -> None:
        with tempfile.TemporaryDirectory() as self._folder, concurrent.futures.ThreadPoolExecutor(os.cpu_count()) as pool:
            self.keys: Dict[str, bytes] = dict(zip(KEYS, pool.map(self._key, KEYS)))
            self.made: Dict[str, Made] = dict(zip(CERTIFICATES, pool.map(self._certificate, CERTIFICATES)))

    def _path(self, key: str) -> str:
        return os.path.join(self._folder, key.replace("/", "-"))

    def _key(self, name: str) -> bytes:
        algorithm, *options = KEYS[name]
        words = [part for option in options for part in ("-pkeyopt", option)]
        made = ["dsaparam", "-genkey", "-noout"] if algorithm == "DSA" else ["genpkey", "-algorithm", algorithm, *words]
        _openssl(*made, "-out", self._path(name), *(["1024"] if algorithm == "DSA" else []))
        return _openssl("pkey", "-in", self._path(name), "-pubout", "-outform", "DER")

    def _certificate(self, name: str) -> Made:
        key, *words = CERTIFICATES[name]
        made = _openssl("req", "-x509", "-new", "-key", self._path(key), "-subj", "/CN=Root", *words, "-outform", "DER")
        return Made(made, self_signed(made))

    def questions(self) -> List[SignatureQuestion]:
        return [made.question for made in self.made.values()]
