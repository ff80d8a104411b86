"""What a peer sends, in any order, with certificates that OpenSSL's command line signs: paths found, names matched."""

import itertools
import os
import subprocess
import tempfile
import unittest
from unittest import mock

import x509check
from x509check import BadReference, Certificate, Fault, Limits, NotLoaded, NotValid, Reason, Result, RevocationReason, Text, Verdict, WhyNot
from x509check import _query, _verdicts

from . import authority
from .authority import DECEMBER, GOOD_PRINTS, LEAF, MIDDLE, MIDDLE_LIST, REVOKING_LIST, ROOT, ROOT_LIST

LISTS = [ROOT_LIST, MIDDLE_LIST]
FOR_AUTHORITY = "basicConstraints=critical,CA:TRUE\nkeyUsage=critical,keyCertSign,cRLSign\n"
FOR_SERVER = "subjectAltName=DNS:mx.example.org,DNS:*.mail.example.org,IP:192.0.2.1,email:post@example.org\nextendedKeyUsage=serverAuth\n"


def verdict(certificates=(LEAF, MIDDLE), anchors=(ROOT,), statements=tuple(LISTS), at=DECEMBER, **words):
    if "verify" not in words:
        words.setdefault("fingerprints", GOOD_PRINTS.values())
    return x509check.validate_peer(certificates, anchors, statements, at, **words)


class OverTheAuthority(unittest.TestCase):
    def test_order_is_of_no_account_and_the_path_is_named(self):
        strangers = [authority.CONSTRAINTS, authority.DELEGATE, ROOT]
        for bag in itertools.permutations([MIDDLE, *strangers]):
            result = verdict([LEAF, *bag], [authority.CONSTRAINTS, ROOT])
            self.assertTrue(result)
            self.assertEqual(result, Result(Verdict.VALID))
            self.assertEqual(result.path, tuple(Certificate.from_der(it).identity for it in (ROOT, MIDDLE, LEAF)))
            self.assertEqual(result.target, Certificate.from_der(LEAF).identity)

    def test_verdicts(self):
        revoked = verdict(statements=[ROOT_LIST, REVOKING_LIST])
        self.assertEqual(revoked, Result(Verdict.REVOKED, 2, RevocationReason.KEY_COMPROMISE))
        self.assertEqual((revoked.decides, len(revoked.path)), (revoked.target, 3))
        unknown = verdict(statements=[MIDDLE_LIST])
        self.assertEqual((unknown, unknown.decides), (Result(Verdict.UNKNOWN, 1), unknown.path[1]))
        for bag, anchors in (([], [ROOT]), ([MIDDLE], []), ([MIDDLE], [authority.CONSTRAINTS])):
            nothing = verdict([LEAF, *bag], anchors)
            self.assertEqual((nothing, nothing.path, bool(nothing)), (Result(Verdict.NOT_FOUND), (), False))
            with self.assertRaises(NotValid):
                nothing.require_valid()
        self.assertEqual(verdict(fingerprints=[]), Result(Verdict.NOT_FOUND), "no signature is good")
        self.assertEqual(verdict([MIDDLE], statements=[ROOT_LIST]), Result(Verdict.VALID))
        # Below the anchor's own certificate stands the leaf of its issuer alone.
        self.assertEqual(verdict([ROOT], statements=[ROOT_LIST]).verdict, Verdict.NOT_FOUND)

    def test_why_no_path_is_found(self):
        root, middle, leaf = (Certificate.from_der(it).identity for it in (ROOT, MIDDLE, LEAF))
        prints = [GOOD_PRINTS[name] for name in GOOD_PRINTS]
        for words, why in (
            ({"certificates": [LEAF]}, WhyNot(leaf)),
            ({"anchors": [authority.CONSTRAINTS]}, WhyNot(leaf, above=(middle,))),
            ({"fingerprints": []}, WhyNot(leaf, obstacles=((middle, Reason.SIGNATURE),))),
            ({"fingerprints": prints[1:2]}, WhyNot(leaf, above=(middle,), anchors=(root,))),
            ({"fingerprints": prints[1:2], "certificates": [LEAF, ROOT, MIDDLE]},
             WhyNot(leaf, above=(middle,), anchors=(root,), obstacles=((root, Reason.SIGNATURE),))),
            ({"at": 0}, WhyNot(leaf, Reason.NOT_YET)),
            ({"purpose": "clientAuth"}, WhyNot(leaf, Reason.PURPOSE)),
        ):
            result = verdict(**words)
            self.assertEqual((result.verdict, result.why_not), (Verdict.NOT_FOUND, why), words)
            self.assertTrue(str(result).endswith(f"; {why}"))
        for result in (verdict(), verdict(statements=[]), verdict(name="mail.example"), verdict(limits=Limits(steps=0))):
            self.assertIsNone(result.why_not)

    def test_why_no_path_is_found_in_a_sentence(self):
        self.assertEqual(str(verdict([LEAF]).why_not), 'no certificate at hand has the name of the issuer of "CN=leaf,O=Example" serial 03')
        self.assertEqual(str(verdict(at=0).why_not), '"CN=leaf,O=Example" serial 03 cannot stand at the end of any path (not yet)')
        prints = [*GOOD_PRINTS.values()][1:2]
        self.assertEqual(
            str(verdict([LEAF, ROOT, MIDDLE], fingerprints=prints).why_not),
            'no certificate at hand can stand above "CN=middle,O=Example" serial 02: '
            f'the anchor "CN=Root,O=Example" serial {Certificate.from_der(ROOT).serial.hex()} did not sign it, '
            f'"CN=Root,O=Example" serial {Certificate.from_der(ROOT).serial.hex()} cannot stand there (signature)')

    def test_numbers_that_say_why(self):
        target = Certificate.from_der(LEAF).identity

        def told(why, reason=0):
            return _verdicts.why_not_of(_query.Diagnosis(why, reason, [], [], []), target)
        self.assertEqual((told(7), told(8, 4), told(9)), (WhyNot(target, gave_up=True), WhyNot(target, Reason.EXPIRED), WhyNot(target)))
        self.assertIn("limits", str(told(7)))
        for why, reason, kind in ((0, 0, RuntimeError), (1, 0, RuntimeError), (5, 0, RuntimeError), (10, 0, RuntimeError), (8, 0, ValueError)):
            with self.assertRaises(kind):
                told(why, reason)

    def test_names(self):
        for name in ("www.example", "WWW.Example."):
            result = verdict(name=name)
            self.assertTrue(result)
            self.assertIn(f"asked for {name}", str(result))
        other = verdict(name="mail.example")
        self.assertEqual((other, bool(other), len(other.path)), (Result(Verdict.OTHER_NAME), False, 3))
        self.assertEqual(verdict(name="mail.example", statements=[]).verdict, Verdict.UNKNOWN, "only a valid verdict changes")
        self.assertEqual(verdict(name="www.example", statements=[]).verdict, Verdict.UNKNOWN)
        for name in ("", "*.example", "a@"):
            with self.assertRaises(BadReference):
                verdict(name=name)
        with self.assertRaises(TypeError):
            verdict(name=b"www.example")

    def test_limits(self):
        for limits in (Limits(signatures=0), Limits(steps=0), Limits(verdicts=0)):
            self.assertEqual(verdict(limits=limits).verdict, Verdict.GAVE_UP, limits)
        self.assertTrue(verdict(limits=Limits(6, 10, 1)))
        for bad, kind in ((-1, ValueError), (2**64, ValueError), (1.5, TypeError), (True, TypeError), ("1", TypeError)):
            with self.assertRaises(kind):
                Limits(steps=bad)
        with self.assertRaises(TypeError):
            verdict(limits=(1, 1, 1))

    def test_what_cannot_be_read(self):
        bad = b"\x30\x00"
        for words, text, index in (
            ({"certificates": [bad, MIDDLE]}, Text.CERTIFICATES, 0), ({"certificates": [LEAF, MIDDLE, bad]}, Text.CERTIFICATES, 2),
            ({"anchors": [ROOT, bad]}, Text.ANCHORS, 1), ({"statements": [ROOT_LIST, bad]}, Text.STATEMENTS, 1),
            ({"certificates": [bad], "ignore_unreadable_certificates": True}, Text.CERTIFICATES, 0),
            ({"certificates": [LEAF, bad], "ignore_unreadable": True}, Text.CERTIFICATES, 1),
        ):
            with self.assertRaises(Fault, msg=words) as caught:
                verdict(**words)
            self.assertEqual((caught.exception.text, caught.exception.index), (text, index))
        told = verdict([LEAF, bad, MIDDLE, b""], ignore_unreadable_certificates=True)
        self.assertTrue(told)
        self.assertEqual([(number, fault.index, fault.number) for number, fault in told.ignored], [(1, 1, 22), (3, 3, 21)])
        told = verdict(statements=[bad, *LISTS], ignore_unreadable=True)
        self.assertEqual((told.verdict, [fault.text for _, fault in told.ignored]), (Verdict.VALID, [Text.STATEMENTS]))
        for words, kind in (
            ({"certificates": []}, ValueError), ({"certificates": LEAF}, TypeError), ({"anchors": ROOT}, TypeError),
            ({"ignore_unreadable_certificates": 1}, TypeError), ({"at": "soon"}, ValueError),
        ):
            with self.assertRaises(kind, msg=words):
                verdict(**words)

    def test_a_judge_is_asked_about_names_that_match(self):
        asked = []

        def verify(question):
            asked.append(question)
            return question.fingerprint in set(GOOD_PRINTS.values())
        result = verdict([LEAF, authority.CONSTRAINTS, MIDDLE], [ROOT, authority.DELEGATE], verify=verify)
        self.assertTrue(result)
        # The leaf under its issuer, the issuer under the root, and the list of each.
        self.assertEqual(len(asked), 4)
        self.assertEqual([question for question, _ in result.judgements], asked)
        self.assertEqual(x509check.peer_questions([LEAF, authority.CONSTRAINTS, MIDDLE], [ROOT, authority.DELEGATE], LISTS), asked)
        self.assertTrue(verdict(verify=None))

    def test_anchors_of_the_system(self):
        with mock.patch.dict(os.environ, {"SSL_CERT_FILE": os.path.join(authority.FOLDER, "root.pem")}):
            self.assertEqual([bytes(it) for it in x509check.system_anchors()], [ROOT])
            self.assertTrue(verdict(anchors=x509check.system_anchors()))
        with tempfile.NamedTemporaryFile("w") as file, mock.patch.dict(os.environ, {"SSL_CERT_FILE": file.name}):
            file.write("-----BEGIN TRUSTED CERTIFICATE-----\nMAA=\n-----END TRUSTED CERTIFICATE-----\n")
            file.flush()
            with self.assertRaises(NotLoaded):
                x509check.system_anchors()
        for named in ("/nowhere", ""):
            with mock.patch.dict(os.environ, {"SSL_CERT_FILE": named}), self.assertRaises(FileNotFoundError):
                x509check.system_anchors()
        with mock.patch.dict(os.environ), mock.patch("os.path.exists", return_value=False):
            os.environ.pop("SSL_CERT_FILE", None)
            with self.assertRaises(x509check.NoAnchors):
                x509check.system_anchors()


class Made:
    """Keys and certificates of OpenSSL, each made once, by name."""

    def __init__(self, folder):
        self.folder = folder

    def _path(self, name):
        return os.path.join(self.folder, name)

    def _openssl(self, *words):
        done = subprocess.run(["openssl", *words], stdout=subprocess.PIPE, stderr=subprocess.PIPE, check=False)
        if done.returncode:
            raise RuntimeError(f"openssl {' '.join(words)}: {done.stderr.decode(errors='replace')}")
        return done.stdout

    def _key(self, name):
        path = self._path(f"{name}.key")
        if not os.path.exists(path):
            self._openssl("genpkey", "-algorithm", "EC", "-pkeyopt", "ec_paramgen_curve:P-256", "-out", path)
        return path

    def certificate(self, name, issuer, extensions=FOR_AUTHORITY, days=30):
        """The certificate of this name for the key with it, by the issuer's name and key; a name behind a bar is another key."""
        subject, signer = name.split("|")[0], issuer.split("|")[0]
        request, written = self._path("request"), self._path("extensions")
        self._openssl("req", "-new", "-key", self._key(name), "-subj", f"/CN={subject}", "-out", request)
        with open(written, "w", encoding="ascii") as file:
            file.write(extensions)
        top = self._path("top.pem")
        self._openssl("req", "-x509", "-new", "-key", self._key(issuer), "-subj", f"/CN={signer}", "-days", "30", "-out", top)
        return self._openssl("x509", "-req", "-in", request, "-CA", top, "-CAkey", self._key(issuer), "-set_serial", str(self._next()), "-days",
                             str(days), "-extfile", written, "-outform", "DER")

    def _next(self):
        self.serial = getattr(self, "serial", 0) + 1
        return self.serial


class OfTheField(unittest.TestCase):
    """Bags on which others went wrong; signatures are judged by the module."""

    @classmethod
    def setUpClass(cls):
        with tempfile.TemporaryDirectory() as folder:
            made = Made(folder)
            make = made.certificate
            cls.root, cls.old_root = make("Root", "Root"), make("Old", "Old")
            # The root that was renewed: once it was signed by the old one, and that certificate has expired.
            cls.expired_cross, cls.cross = make("Root", "Old", days=-1), make("Root", "Old")
            cls.expired_old_root = make("Old", "Old", days=-1)
            cls.issuer, cls.server = make("Issuer", "Root"), make("Server", "Issuer", FOR_SERVER)
            cls.other_key = make("Issuer|other", "Root")
            cls.short = make("Issuer", "Root", FOR_AUTHORITY.replace("CA:TRUE", "CA:TRUE,pathlen:0"))
            cls.below, cls.deep = make("Below", "Issuer"), make("Deep", "Below", FOR_SERVER)
            cls.constrained = make("Issuer", "Root", FOR_AUTHORITY + "nameConstraints=critical,permitted;DNS:example.com\n")
            cls.expired, cls.no_authority = make("Issuer", "Root", days=-1), make("Issuer", "Root", "basicConstraints=critical,CA:FALSE\n")
            cls.other_root = make("Root|other", "Root|other")

    def found(self, certificates, anchors, **words):
        return x509check.validate_peer(certificates, anchors, [], "now", **words)

    def path_of(self, certificates, anchors, **words):
        """The path that is found: without lists each verdict is unknown, by its first certificate."""
        result = self.found(certificates, anchors, **words)
        self.assertEqual((result.verdict, result.certificate), (Verdict.UNKNOWN, 1))
        named = {Certificate.from_der(it).identity: it for it in [*certificates, *anchors]}
        return [named[it] for it in result.path]

    def test_an_expired_cross_certificate_beside_a_good_root(self):
        for bag in itertools.permutations([self.issuer, self.expired_cross, self.expired_old_root]):
            self.assertEqual(self.path_of([self.server, *bag], [self.root]), [self.root, self.issuer, self.server])
            self.assertEqual(self.path_of([self.server, *bag], [self.expired_old_root, self.root]), [self.root, self.issuer, self.server])
        # Without the good root nothing leads to an anchor.
        self.assertEqual(self.found([self.server, self.issuer, self.expired_cross], [self.old_root]).verdict, Verdict.NOT_FOUND)
        self.assertEqual(
            self.path_of([self.server, self.issuer, self.expired_cross, self.cross], [self.old_root]),
            [self.old_root, self.cross, self.issuer, self.server])

    def test_certificates_of_one_name(self):
        for bag in itertools.permutations([self.other_key, self.short, self.constrained, self.issuer, self.below]):
            self.assertEqual(self.path_of([self.deep, *bag], [self.root])[1], self.issuer)
        self.assertEqual(self.found([self.deep, self.other_key, self.below], [self.root]).verdict, Verdict.NOT_FOUND)
        self.assertEqual(self.found([self.deep, self.short, self.below], [self.root]).verdict, Verdict.NOT_FOUND)
        self.assertEqual(self.found([self.server, self.constrained], [self.root]).verdict, Verdict.NOT_FOUND)

    def test_why_no_path_is_found(self):
        def identities(certificates):
            return tuple(Certificate.from_der(it).identity for it in certificates)

        def why(certificates, anchors, above=(), named=(), obstacles=(), **words):
            result = self.found(certificates, anchors, **words)
            told = WhyNot(
                result.target, above=identities(above), anchors=identities(named),
                obstacles=tuple((Certificate.from_der(it).identity, reason) for it, reason in obstacles))
            self.assertEqual((result.verdict, result.why_not), (Verdict.NOT_FOUND, told))
            return str(result.why_not)
        self.assertIn("has the name of the issuer of \"CN=Server\"", why([self.server], [self.root]))
        self.assertIn("(expired)", why([self.server, self.expired], [self.root], obstacles=[(self.expired, Reason.EXPIRED)]))
        why([self.server, self.other_key], [self.root], obstacles=[(self.other_key, Reason.SIGNATURE)])
        why([self.server, self.no_authority], [self.root], obstacles=[(self.no_authority, Reason.NOT_CA)])
        why([self.server, self.constrained], [self.root], obstacles=[(self.constrained, Reason.NOT_PERMITTED)])
        why([self.deep, self.short, self.below], [self.root], above=[self.below], obstacles=[(self.short, Reason.PATH_LENGTH)])
        self.assertIn(
            "the anchor \"CN=Root\"", why([self.server, self.issuer], [self.other_root], above=[self.issuer], named=[self.other_root]))
        # The end that got furthest is told of, and not that of the certificate that was sent first.
        why([self.server, self.expired, self.issuer, self.expired_cross], [self.old_root], above=[self.issuer],
            obstacles=[(self.expired_cross, Reason.EXPIRED)])
        target = self.found([self.server, self.issuer], [self.root], purpose="clientAuth")
        self.assertEqual(target.why_not, WhyNot(target.target, Reason.PURPOSE))
        self.assertIsNone(self.found([self.server, self.issuer], [self.root]).why_not)

    def test_names_of_the_server(self):
        server = Certificate.from_der(self.server)
        for name, says in (
            ("mx.example.org", True), ("a.mail.example.org", True), ("a.b.mail.example.org", False), ("mail.example.org", False),
            ("192.0.2.1", True), ("192.0.2.2", False), ("post@example.org", True), ("Post@example.org", False), ("Server", False),
        ):
            self.assertIs(server.speaks_for(name), says, name)
        self.assertEqual(self.path_of([self.server, self.issuer], [self.root], purpose="serverAuth", name="mx.example.org")[0], self.root)
        self.assertEqual(self.found([self.server, self.issuer], [self.root], purpose="clientAuth").verdict, Verdict.NOT_FOUND)


if __name__ == "__main__":
    unittest.main()
