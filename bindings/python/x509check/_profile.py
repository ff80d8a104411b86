"""How much of the standards is served (docs/REFERENCE.md, "Profile")."""

import enum


class Profile(enum.Enum):
    """Which profile counts."""

    STATED = "stated"
    """Lists about all certificates of an issuer, its users' or its CAs', and responses by SHA-1."""
    WIDE = "wide"
    """They, lists that are published by distribution point (RFC 5280, 5.2.5), responses by SHA-256 (RFC 6960, 4.1.1), and name constraints
    on mail addresses and on hosts of URIs (RFC 5280, 4.2.1.10)."""
