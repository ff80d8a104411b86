"""The program's commands `deliver`, `find` and `session`, by the module: for tests of scripts where the program is not built.

A store is a file with a statement a line, in hexadecimal. What the scripts need is here, and no more.
"""

import argparse
import os
import sys

sys.path.insert(0, os.path.join(os.path.dirname(os.path.realpath(__file__)), ".."))

import x509check  # noqa: E402

NAMES = {reason: reason.name.title().replace("_", "") for reason in x509check.Reason}
STATUSES = dict(zip(x509check.Verdict, (0, 1, 2, 3, 1, 1, 3)))


def octets_of(path):
    with open(path, "rb") as file:
        return file.read()


def fingerprints(words):
    with open(words.verdicts, encoding="ascii") as file:
        return [bytes.fromhex(line.split()[0]) for line in file]


def deliver(words):
    statement = octets_of(words.files[0])
    good = set(fingerprints(words))
    issuer = octets_of(words.issuer)
    asked = x509check.questions(issuer, [issuer], [statement])[1:]
    if not any(question.fingerprint in good for question in asked):
        print(f"x509check: {words.files[0]}: refused 54 BadSignature", file=sys.stderr)
        return 4
    with open(words.store, "a", encoding="ascii") as file:
        file.write(statement.hex() + "\n")
    print("stored 1 kept 0 contradicted 0")
    return 0


def find(words):
    with open(words.store, encoding="ascii") as file:
        statements = [bytes.fromhex(line) for line in file]
    target, *others = words.files + words.among
    anchors = x509check.load(words.anchor)
    sent = [octets_of(target), *(one for path in others for one in x509check.load(path))]
    result = x509check.validate_peer(sent, anchors, statements, words.at, words.purpose, name=words.name, fingerprints=fingerprints(words))
    places = {x509check.Certificate.from_der(one).identity: f"{one.source} {one.index + 1}"
              for path in (target, *others, words.anchor) for one in x509check.load(path)}
    for number, identity in enumerate(result.path):
        print(number, places[identity])
    line = [result.verdict.value, result.certificate, None if result.reason is None else result.reason.value, NAMES.get(result.reason)]
    if result.verdict is x509check.Verdict.REVOKED:
        line.pop()
    print(" ".join(str(word) for word in line if word is not None))
    return STATUSES[result.verdict]


def session(words):
    open(words.store, "a", encoding="ascii").close()
    if sys.stdin.read() == "quit\n":
        print("0 ended")
    return 0


def main():
    parser = argparse.ArgumentParser()
    parser.add_argument("command", choices=["deliver", "find", "session"])
    for word in ("store", "verdicts", "issuer", "at", "anchor", "purpose", "name"):
        parser.add_argument(f"--{word}")
    parser.add_argument("--among", action="append", default=[])
    parser.add_argument("files", nargs="*")
    words = parser.parse_intermixed_args()
    return {"deliver": deliver, "find": find, "session": session}[words.command](words)


if __name__ == "__main__":
    sys.exit(main())
