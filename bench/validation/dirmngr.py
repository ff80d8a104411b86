"""GnuPG's dirmngr, without a network: lists are loaded into it and certificates checked by them, over `dirmngr --server`.

It asks for certificates, and whether the root is trusted, on the line on which it is asked (Assuan), and is answered from files here. It
keeps lists in its home folder, which is one of ours.
"""

import os
import subprocess
import time

PIECE = 300  # octets of a line, each of which may be spelled as three


def read(path):
    with open(path, "rb") as file:
        return file.read()


def escaped(octets):
    return b"".join(b"%%%02X" % octet if octet in b"%\r\n" else bytes([octet]) for octet in octets)


class Dirmngr:
    """One process of it."""

    def __init__(self, home, root, leaf):
        self.answers = {b"ISTRUSTED": b"1", b"SENDCERT": read(root), b"SENDCERT_SKI": read(root), b"SENDISSUERCERT": read(root),
                        b"TARGETCERT": read(leaf)}
        words = ["dirmngr", "--homedir", home, "--server", "--disable-ldap", "--disable-http", "--no-use-tor"]
        self.process = subprocess.Popen(words, stdin=subprocess.PIPE, stdout=subprocess.PIPE, stderr=subprocess.DEVNULL)
        self.wait()

    def answer(self, octets):
        for at in range(0, len(octets), PIECE):
            self.process.stdin.write(b"D " + escaped(octets[at:at + PIECE]) + b"\n")
        self.process.stdin.write(b"END\n")
        self.process.stdin.flush()

    def asked_for(self, word, *_):
        """What it asks for."""
        return self.answers.get(word, b"")

    def wait(self):
        """Answers what it asks, until it says how a command ended."""
        for line in self.process.stdout:
            if line.startswith(b"INQUIRE"):
                self.answer(self.asked_for(*line.split()[1:]))
            elif line.startswith(b"OK"):
                return
            elif line.startswith(b"ERR"):
                break
        raise RuntimeError("dirmngr: " + line.decode(errors="replace").strip())

    def command(self, text):
        self.process.stdin.write(text.encode() + b"\n")
        self.process.stdin.flush()
        self.wait()

    def end(self):
        self.command("BYE")
        self.process.stdin.close()
        self.process.wait()
        self.process.stdout.close()


def timed(home, folder, command):
    """Seconds that a process takes for one command, with its start and its end."""
    begun = time.monotonic()
    process = Dirmngr(home, os.path.join(folder, "root.der"), os.path.join(folder, "leaf.der"))
    process.command(command)
    process.end()
    return time.monotonic() - begun


def times(folder, rounds):
    """Seconds in which the list of the folder is loaded into an empty home, and the least in which the leaf is checked."""
    home = os.path.join(folder, "dirmngr")
    os.mkdir(home, 0o700)
    loaded = timed(home, folder, "LOADCRL " + os.path.join(folder, "list.der"))
    return loaded, min(timed(home, folder, "CHECKCRL") for _ in range(rounds))
