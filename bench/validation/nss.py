"""NSS, by its tools: crlutil loads a list into a database, and vfychain checks a certificate by it. The database is in a folder of its own."""

import os
import subprocess
import time


def run(folder, *words):
    """Seconds that a program takes, and what it prints."""
    begun = time.monotonic()
    done = subprocess.run(words, cwd=folder, capture_output=True, text=True, check=True)
    return time.monotonic() - begun, done.stdout + done.stderr


def times(folder, rounds):
    """Seconds in which the list of the folder is loaded into a new database, and the least in which the leaf is checked."""
    os.mkdir(os.path.join(folder, "nss"))
    run(folder, "certutil", "-N", "-d", "sql:nss", "--empty-password")
    run(folder, "certutil", "-A", "-d", "sql:nss", "-n", "root", "-t", "CT,C,C", "-i", "root.der")
    loaded, _ = run(folder, "crlutil", "-I", "-d", "sql:nss", "-t", "1", "-i", "list.der")
    checked = [run(folder, "vfychain", "-d", "sql:nss", "-u", "4", "leaf.der") for _ in range(rounds)]
    if any("Chain is good!" not in said for _, said in checked):
        raise RuntimeError("vfychain refuses the certificate")
    return loaded, min(seconds for seconds, _ in checked)
