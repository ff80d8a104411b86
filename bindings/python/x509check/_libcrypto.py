"""Signatures verified by OpenSSL's libcrypto, 3.0 or later, by ctypes."""

import ctypes
import ctypes.util
import functools
from ctypes import POINTER, c_char_p, c_int, c_long, c_size_t, c_ulong, c_void_p
from typing import Any, Iterator, List, Optional, Tuple

from ._crypto_schemes import JudgeFailed, Key, Scheme

NAME = "libcrypto"
_OLDEST = 0x30000000
_CALLS = {
    "d2i_PUBKEY": ([c_void_p, POINTER(c_void_p), c_long], c_void_p),
    "EVP_PKEY_free": ([c_void_p], None),
    "EVP_MD_CTX_new": ([], c_void_p),
    "EVP_MD_CTX_free": ([c_void_p], None),
    "EVP_DigestVerifyInit_ex": ([c_void_p, POINTER(c_void_p), c_char_p, c_void_p, c_char_p, c_void_p, c_void_p], c_int),
    "EVP_PKEY_CTX_ctrl_str": ([c_void_p, c_char_p, c_char_p], c_int),
    "EVP_DigestVerify": ([c_void_p, c_char_p, c_size_t, c_char_p, c_size_t], c_int),
    "ERR_clear_error": ([], None),
    "ERR_get_error": ([], c_ulong),
}
# An error is one of the system if the highest of 32 bits is set; ERR_R_MALLOC_FAILURE is the reason in the lowest 23.
_SYSTEM, _REASON, _NO_MEMORY = 0x80000000, 0x7FFFFF, 0xC0100
# The number of the library that tells of an error stands above the reason. Of a wrong signature those for RSA and for elliptic curves tell,
# and the provider.
_LIBRARY, _OF_SIGNATURES = 23, (4, 16, 57)


def _opened(name: str) -> Any:
    """The library of that name with its calls, if it is there and is OpenSSL 3.0 or later."""
    try:
        library = ctypes.CDLL(name)
        library.OpenSSL_version_num.argtypes, library.OpenSSL_version_num.restype = [], c_ulong
        if library.OpenSSL_version_num() < _OLDEST:
            return None
        for call, (takes, answers) in _CALLS.items():
            function = getattr(library, call)
            function.argtypes, function.restype = takes, answers
    except (OSError, AttributeError):
        return None
    return library


def _names() -> Iterator[str]:
    """Where it may be, the last by a search that starts a process."""
    yield from ("libcrypto.so.3", "libcrypto.so.4")
    found = ctypes.util.find_library("crypto")
    if found:
        yield found


@functools.lru_cache(maxsize=None)
def loaded() -> Any:
    """The library, or None."""
    return next(filter(None, map(_opened, _names())), None)


def _failed(library: Any, what: str) -> Exception:
    """What is raised for a call that failed, as the queue of errors says, which is left empty."""
    lacks = _lacks_memory(_errors(library))
    return MemoryError("libcrypto was refused memory") if lacks else JudgeFailed(f"libcrypto does not take {what}, which is served")


def _errors(library: Any) -> List[int]:
    """The errors in the queue, which is left empty."""
    found = []
    while error := library.ERR_get_error():
        found.append(error)
    return found


def _lacks_memory(errors: List[int]) -> bool:
    return any(not error & _SYSTEM and error & _REASON == _NO_MEMORY for error in errors)


def _is_about_signature(error: int) -> bool:
    return not error & _SYSTEM and error >> _LIBRARY & 0xFF in _OF_SIGNATURES


class _Verification:
    """A context and a key, freed in the end."""

    def __init__(self, library: Any) -> None:
        self.library = library
        self.key: Optional[int] = None
        self.context: Optional[int] = None

    def __enter__(self) -> "_Verification":
        self.library.ERR_clear_error()
        self.context = self.library.EVP_MD_CTX_new()
        if not self.context:
            raise MemoryError("libcrypto was refused memory")
        return self

    def __exit__(self, *_: object) -> None:
        self.library.EVP_MD_CTX_free(self.context)
        self.library.EVP_PKEY_free(self.key)
        self.library.ERR_clear_error()

    def take_key(self, info: bytes) -> None:
        start = ctypes.cast(c_char_p(info), c_void_p).value
        place = c_void_p(start)
        self.key = self.library.d2i_PUBKEY(None, ctypes.byref(place), len(info))
        if not self.key or place.value is None or start is None or place.value - start != len(info):
            raise _failed(self.library, "the key")

    def begin(self, scheme: Scheme) -> None:
        settings, digest = c_void_p(), scheme.digest.encode() or None
        begun = self.library.EVP_DigestVerifyInit_ex(self.context, ctypes.byref(settings), digest, None, None, self.key, None)
        words: List[Tuple[bytes, bytes]] = []
        if scheme.pss:
            words = [(b"rsa_padding_mode", b"pss"), (b"rsa_mgf1_md", scheme.pss.mask.encode()), (b"rsa_pss_saltlen", b"%d" % scheme.pss.salt)]
        if begun != 1 or not all(self.library.EVP_PKEY_CTX_ctrl_str(settings, word, value) == 1 for word, value in words):
            raise _failed(self.library, "the algorithm")

    def holds(self, message: bytes, signature: bytes) -> bool:
        """Whether the key made the signature. A 0 says that it did not, unless the queue of errors tells of anything but the signature."""
        answer = self.library.EVP_DigestVerify(self.context, signature, len(signature), message, len(message))
        if answer == 1:
            return True
        errors = _errors(self.library)
        if _lacks_memory(errors):
            raise MemoryError("libcrypto was refused memory")
        if answer != 0 or not all(map(_is_about_signature, errors)):
            raise JudgeFailed(f"libcrypto failed to verify a signature: it answered {answer}, errors {[hex(it) for it in errors]}")
        return False


def verify(scheme: Scheme, key: Key, message: bytes, signature: bytes) -> bool:
    """Whether the signature is good. Raises JudgeFailed, and MemoryError."""
    with _Verification(loaded()) as verification:
        verification.take_key(key.info)
        verification.begin(scheme)
        return verification.holds(message, signature)
