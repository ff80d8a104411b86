"""Makes the wheel of the module, with the shared object in it: a backend for pip (PEP 517) that needs Python alone.

    make
    pip wheel --no-deps bindings/python

Its tag names the platform for which the shared object was linked, and the version of glibc that it needs (PEP 600).
"""

import base64
import hashlib
import os
import platform
import re
import zipfile

HERE = os.path.dirname(os.path.realpath(__file__))
LIBRARY = os.path.join(HERE, "..", "out", "libx509check.so")
# Of each file in the wheel, so that the same files make the same wheel.
WRITTEN = (2026, 1, 1, 0, 0, 0)
# The oldest glibc that pip knows tags for.
OLDEST = (2, 5)


def read(path):
    with open(path, "rb") as file:
        return file.read()


def field(name):
    """A field of the project, of which each is one line."""
    text = read(os.path.join(HERE, "pyproject.toml")).decode("utf-8")
    return re.search(rf'^{re.escape(name)} = "(.*)"$', text, re.M).group(1)


def glibc_of(octets):
    """The newest version of glibc that a shared object needs: the names of versions stand among its strings."""
    versions = [(int(major), int(minor)) for major, minor in re.findall(rb"\0GLIBC_(\d+)\.(\d+)(?:\.\d+)?(?=\0)", octets)]
    if not versions:
        raise ValueError("an object that names no version of glibc")
    return max(versions)


def tag_for(octets):
    major, minor = max(OLDEST, glibc_of(octets))
    return f"py3-none-manylinux_{major}_{minor}_{platform.machine()}"


def metadata():
    return "\n".join([
        "Metadata-Version: 2.1", f"Name: {field('name')}", f"Version: {field('version')}", f"Summary: {field('description')}",
        f"Requires-Python: {field('requires-python')}", "Provides-Extra: cryptography",
        'Requires-Dist: cryptography; extra == "cryptography"', ""])


def record_line(name, octets):
    digest = base64.urlsafe_b64encode(hashlib.sha256(octets).digest()).rstrip(b"=").decode()
    return f"{name},sha256={digest},{len(octets)}"


def files():
    """The name and the octets of each file of the module."""
    folder = os.path.join(HERE, "x509check")
    for name in sorted(os.listdir(folder)):
        if name.endswith((".py", ".typed")):
            yield f"x509check/{name}", read(os.path.join(folder, name))


def build_wheel(wheel_directory, config_settings=None, metadata_directory=None):
    library = read(LIBRARY)
    tag, stem = tag_for(library), f"{field('name')}-{field('version')}"
    told = f"Wheel-Version: 1.0\nGenerator: x509check\nRoot-Is-Purelib: false\nTag: {tag}\n"
    held = [*files(), ("x509check/libx509check.so", library), (f"{stem}.dist-info/METADATA", metadata().encode()),
            (f"{stem}.dist-info/WHEEL", told.encode())]
    record = f"{stem}.dist-info/RECORD"
    lines = [record_line(name, octets) for name, octets in held] + [f"{record},,"]
    with zipfile.ZipFile(os.path.join(wheel_directory, f"{stem}-{tag}.whl"), "w", zipfile.ZIP_DEFLATED) as wheel:
        for name, octets in [*held, (record, "\n".join([*lines, ""]).encode())]:
            entry = zipfile.ZipInfo(name, WRITTEN)
            entry.external_attr = (0o755 if name.endswith(".so") else 0o644) << 16
            wheel.writestr(entry, octets, zipfile.ZIP_DEFLATED)
    return f"{stem}-{tag}.whl"


def build_sdist(sdist_directory, config_settings=None):
    raise NotImplementedError("the shared object is made of the repository, so the module is built there")
