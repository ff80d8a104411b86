"""bin/validate names whom its answer is about, and never answers about another certificate than the one in question."""

import os
import shlex
import shutil
import subprocess
import sys
import tempfile
import threading
import unittest

from x509check import Certificate, _ocsp
from x509check._program import PLACES

from . import authority
from .authority import LEAF, MIDDLE, ROOT, ROOT_LIST
from .fetch_authority import FOR_SERVER, Authority
from .test_loading import KEY, pem

STAND_IN = f"#!/bin/sh\nexec '{sys.executable}' -B '{os.path.join(authority.HERE, 'stand_in.py')}' \"$@\"\n"
IDENTITIES = {name: Certificate.from_der(octets).identity for name, octets in (("root", ROOT), ("middle", MIDDLE), ("leaf", LEAF))}
AT = ["--at", "20261201000000Z"]


class Validate(unittest.TestCase):
    """By the program, where it is built or unpacked, and else by a stand-in."""

    def setUp(self):
        self.folder = tempfile.mkdtemp()
        self.addCleanup(shutil.rmtree, self.folder)
        self.program = next(filter(os.path.exists, PLACES), None) or self.executable("program", STAND_IN)

    def put(self, name, octets):
        path = os.path.join(self.folder, name)
        with open(path, "wb") as file:
            file.write(octets)
        return path

    def executable(self, name, text):
        path = self.put(name, text.encode())
        os.chmod(path, 0o755)
        return path

    def run_script(self, *words, **environment):
        words = [os.path.join(authority.FOLDER, word) if word.startswith(("root.", "middle", "leaf.")) else word for word in words]
        script, environment = os.path.join(authority.TOP, "bin", "validate"), {**os.environ, "X509CHECK": self.program, **environment}
        done = subprocess.run([sys.executable, "-B", script, *words], cwd=self.folder, env=environment, stdout=subprocess.PIPE,
                              stderr=subprocess.PIPE, text=True, check=False)
        return done.returncode, done.stdout, done.stderr

    def answered(self, status, line, *words, path=("root", "middle", "leaf"), why=""):
        found, out, err = self.run_script("--anchor", "root.pem", *words)
        named = [f"{number} {IDENTITIES[name]}" for number, name in enumerate(path)]
        self.assertEqual((found, out.splitlines()), (status, [line, f"target {IDENTITIES[path[-1]]}", *named]), err)
        self.assertIn(why, err)

    def not_found(self, why, *words):
        found, out, err = self.run_script("--anchor", "root.pem", *words)
        self.assertEqual((found, out.splitlines()), (1, ["not found", f"target {IDENTITIES['leaf']}"]), err)
        self.assertIn(why, err)

    def stopped(self, status, why, *words, **environment):
        found, out, err = self.run_script(*words, **environment)
        self.assertEqual((found, out), (status, ""), err)
        self.assertIn(why, err)
        return err

    def test_verdicts(self):
        chain, lists = ["--chain", "middle.pem"], ["--crl", "root.crl", "--crl", "middle.crl"]
        self.answered(0, "valid", *AT, *chain, *lists, "leaf.pem", why="root.crl: stored 1 kept 0 contradicted 0")
        self.answered(2, "revoked 2 1", *AT, *chain, *lists, "--crl", "middle2.crl", "leaf.pem")
        self.answered(2, "revoked 2 1", "--keep", "a", *AT, *chain, "--crl", "root.crl", "--ocsp", "leaf.ocsp", "leaf.pem")
        self.answered(3, "unknown 2", "--keep", "b", *AT, *chain, "--crl", "root.crl", "leaf.pem")
        self.answered(0, "valid", "--keep", "c", "--at", "2026-12-01T01:00+01:00", "--purpose", "serverAuth", *chain, *lists, "leaf.pem")
        self.answered(1, "other name", "--keep", "c", *AT, "--name", "mx.example", *chain, *lists, "leaf.pem")
        self.not_found("(purpose)", *AT, "--purpose", "1.3.6.1.5.5.7.3.2", *chain, *lists, "leaf.pem")
        self.answered(0, "valid", "--keep", "d", *AT, "--crl", "root.crl", "middle.pem", path=("root", "middle"))

    def test_any_anchor_may_do(self):
        words = ["--chain", "middle.pem", "--crl", "root.crl", "--crl", "middle.crl", *AT, "leaf.pem"]
        both = self.put("both.pem", pem(LEAF) + pem(ROOT) + pem(ROOT))
        other = self.put("other.pem", KEY + pem(MIDDLE))
        status, out, err = self.run_script("--anchor", both, "--anchor", other, *words)
        self.assertEqual((status, out.splitlines()), (0, ["valid", *(
            f"{number} {IDENTITIES[name]}" for number, name in (("target", "leaf"), (0, "middle"), (1, "leaf")))]), err)

    def test_a_path_is_checked_without_a_statement_too(self):
        self.not_found("(expired)", "--at", "2028-01-01T00:00:00Z", "--chain", "middle.pem", "leaf.pem")
        self.answered(3, "unknown 1", *AT, "--chain", "middle.pem", "leaf.pem")

    def test_shapes_of_a_file_that_are_not_the_certificate_in_question(self):
        words = ["--anchor", "root.pem", *AT, "--chain", "middle.pem", "--crl", "root.crl", "--crl", "middle2.crl"]
        leaf = pem(LEAF)
        for name, octets, why in (
            ("trusted.pem", pem(LEAF, "TRUSTED CERTIFICATE") + pem(MIDDLE), "openssl x509"),
            ("packed.pem", pem(LEAF, "PKCS7") + pem(MIDDLE), "openssl pkcs7"),
            ("key.pem", KEY + pem(LEAF) + pem(MIDDLE), "EC PRIVATE KEY"),
            ("cut.pem", leaf[:-30] + pem(MIDDLE), "line"),
            ("nothing.pem", b"-----BEGIN CERTIFICATE-----\n-----END CERTIFICATE-----\n" + pem(MIDDLE), "empty"),
            ("bundle.pem", pem(ROOT) + pem(MIDDLE) + leaf, "--index 3: " + str(IDENTITIES["leaf"])),
            ("two.pem", leaf + leaf, "--index 2: " + str(IDENTITIES["leaf"])),
            ("apart.pem", leaf + pem(ROOT), "--index 1: " + str(IDENTITIES["leaf"])),
            ("upward.pem", pem(MIDDLE) + leaf, "--index 2: " + str(IDENTITIES["leaf"])),
            ("list.pem", leaf + pem(ROOT_LIST, "X509 CRL"), "22 Layout"),
            ("empty.pem", b"", "4 Truncated"),
        ):
            with self.subTest(name):
                self.stopped(4, why, *words, self.put(name, octets))
        bundle = os.path.join(self.folder, "bundle.pem")
        self.answered(2, "revoked 2 1", *words[2:], "--index", "3", bundle)
        self.stopped(4, "--index 3: ", *words, "--index", "4", bundle)

    def test_the_first_of_a_file_is_in_question(self):
        words = [*AT, "--crl", "root.crl", "--crl", "middle2.crl"]
        for name, octets in (("sent.pem", pem(LEAF) + pem(MIDDLE) + pem(ROOT)), ("turned.der", LEAF + ROOT + MIDDLE),
                             ("older.pem", pem(LEAF, "X509 CERTIFICATE") + pem(MIDDLE))):
            with self.subTest(name):
                self.answered(2, "revoked 2 1", *words, self.put(name, octets))
        self.answered(0, "valid", *words, "--index", "3", os.path.join(self.folder, "turned.der"), path=("root", "middle"))

    def test_a_report(self):
        chain, lists = ["--chain", "middle.pem", *AT], ["--crl", "root.crl", "--crl", "middle.crl"]
        page = os.path.join(self.folder, "report.html")
        for folder, verdict, words, line in (
            (0, "valid", [*lists, "leaf.pem"], (0, "valid")), (1, "revoked (key compromise)", [*lists, "--crl", "middle2.crl", "leaf.pem"], (2, "revoked 2 1")),
            (2, "unknown", ["--crl", "root.crl", "leaf.pem"], (3, "unknown 2")), (3, "other name", [*lists, "--name", "mx.example", "leaf.pem"], (1, "other name")),
        ):
            self.answered(*line, "--keep", str(folder), "--html", page, *chain, *words)
            with open(page, encoding="utf-8") as file:
                self.assertIn(f"<strong>{verdict}</strong>", file.read())
            os.remove(page)
        self.not_found("", *AT, "--keep", "4", "--html", page, "leaf.pem")
        self.assertTrue(os.path.exists(page))
        os.remove(page)
        # The store holds the list that revokes: the report could not show it.
        for why, words in (("by these files alone the verdict is valid", ["--keep", "1", *chain, *lists]), ("cannot write", ["--keep", "0", *chain, *lists]),
                           ("could not show", ["--keep", "0", "--ignore-unreadable", *chain, *lists, "--crl", self.put("empty.crl", b"")])):
            self.stopped(6, why, "--anchor", "root.pem", "--html", "/nowhere/report.html" if why == "cannot write" else page, *words, "leaf.pem")
            self.assertFalse(os.path.exists(page))

    def test_no_way_to_the_anchor(self):
        self.not_found('no certificate at hand has the name of the issuer of "CN=leaf,O=Example"', *AT, "leaf.pem")
        self.stopped(4, "key.pem", "--anchor", self.put("key.pem", KEY), *AT, "leaf.pem")

    def test_statements_that_cannot_be_read(self):
        words = [*AT, "--chain", "middle.pem", "--crl", "root.crl", "--crl", "middle.crl", "leaf.pem"]
        for name, octets, why in (("cut.crl", pem(ROOT_LIST, "X509 CRL")[:-4], "cut.crl, line 6"), ("other.crl", pem(LEAF), "other.crl, value 1"),
                                  ("empty.crl", b"", "empty.crl")):
            bad = ["--crl", self.put(name, octets)]
            with self.subTest(name):
                self.stopped(4, why, "--anchor", "root.pem", *bad, *words)
        self.answered(0, "valid", "--ignore-unreadable", *bad, *words, why=why)
        self.answered(2, "revoked 2 1", "--keep", "other", "--crl", "middle2.crl", *bad, *words, why=why)

    def test_signatures_that_are_not_good(self):
        octets = bytearray(MIDDLE)
        octets[-1] ^= 1
        forged = self.put("forged.pem", pem(bytes(octets)))
        self.not_found(f", under {IDENTITIES['root']}: not signed under the issuer's key", *AT, "--chain", forged, "leaf.pem")
        octets = bytearray(ROOT_LIST)
        octets[-1] ^= 1
        bad = self.put("forged.crl", pem(bytes(octets), "X509 CRL"))
        self.answered(3, "unknown 1", *AT, "--chain", "middle.pem", "--crl", bad, "leaf.pem",
                      why=f"forged.crl, under {IDENTITIES['root']}, signature 1 of 1: not signed under the issuer's key")
        other = os.path.join(authority.TOP, "examples", "list.pem")
        self.answered(3, "unknown 1", *AT, "--chain", "middle.pem", "--crl", other, "leaf.pem", why="of no issuer that is at hand")

    def test_words_that_are_none(self):
        for words in (["--at", "noon"], ["--at", "0001-01-01T00:00+14:00"], ["--at", "2026-12-01T00:00:00"], ["--purpose", ""],
                      ["--purpose", "server"], ["--index", "0"], ["--index", "-1"], ["--index", "x"], ["middle.pem"], ["--ignore"]):
            with self.subTest(words):
                self.stopped(5, "", "--anchor", "root.pem", *words, "leaf.pem")
        self.stopped(5, "", "leaf.pem")
        self.assertEqual(self.run_script("--help")[0], 0)

    def test_an_option_that_is_empty_is_given(self):
        words = ["--anchor", "root.pem", *AT, "--chain", "middle.pem", "--crl", "root.crl", "--crl", "middle.crl", "leaf.pem"]
        self.stopped(5, "bad name", "--name", "", *words)
        for option in ("--purpose", "--at", "--profile", "--index"):
            self.stopped(5, "", option, "", *words)
        for option in ("--html", "--keep", "--crl", "--ocsp", "--chain", "--anchor"):
            self.stopped(6, "", option, "", *words)

    def test_runs_at_the_same_time_in_one_folder(self):
        """Both have written their files before one of them asks the program for a path."""
        there = os.path.join(self.folder, "there")
        os.mkdir(there)
        waiting = self.executable("waiting", f"""#!/bin/sh
case " $* " in *" find "*)
    touch {there}/$$
    while [ "$(ls {there} | wc -l)" -lt 2 ]; do sleep 0.02; done;;
esac
exec '{self.program}' "$@"
""")
        lists, found = ["--crl", "root.crl", "--crl", "middle2.crl"], {}

        def ask(name, *words):
            found[name] = self.run_script("--anchor", "root.pem", *AT, *lists, *words, X509CHECK=waiting)[:2]
        asking = [threading.Thread(target=ask, args=words) for words in (("leaf", "--chain", "middle.pem", "leaf.pem"), ("middle", "middle.pem"))]
        for one in asking:
            one.start()
        for one in asking:
            one.join()
        told = {name: (status, out.splitlines()[:2]) for name, (status, out) in found.items()}
        self.assertEqual(told, {"leaf": (2, ["revoked 2 1", f"target {IDENTITIES['leaf']}"]), "middle": (0, ["valid", f"target {IDENTITIES['middle']}"])})
        self.assertEqual({name for name in os.listdir(os.path.join(self.folder, "validate.d")) if name.startswith("run-")}, set())

    def test_a_file_of_verdicts_that_was_cut_off(self):
        words = [*AT, "--chain", "middle.pem", "--crl", "root.crl", "--crl", "middle.crl", "leaf.pem"]
        self.answered(0, "valid", *words)
        with open(os.path.join(self.folder, "validate.d", "verdicts"), "r+b") as file:
            file.truncate(file.seek(0, os.SEEK_END) - 30)
        self.answered(0, "valid", *words)

    def made(self):
        """An authority with a certificate for a server, the words about it, and its certificate's number."""
        made = Authority(self.folder)
        made.root()
        made.certificate("Server", "Root", FOR_SERVER)
        return made, ["--anchor", "Root.pem", "Server.pem"], made.serial

    def put_list(self, made, name, **words):
        made.revocation_list("Root", **words)
        os.rename(made.path("Root.crl"), made.path(name))
        return ["--crl", made.path(name)]

    def test_a_list_that_nobody_can_judge(self):
        made, words, serial = self.made()
        older = self.put_list(made, "older.crl", number=1)
        newer = self.put_list(made, "newer.crl", number=2, revoked=[serial], digest="sha1")
        self.assertEqual(self.run_script(*older, "--keep", "a", *words)[:2][0], 0)
        self.stopped(4, "valid by the other statements", *older, *newer, "--keep", "a", *words)
        status, out, _ = self.run_script(*older, *newer, "--keep", "a", "--ignore-unreadable", *words)
        self.assertEqual((status, out.splitlines()[0]), (0, "valid"))
        # One of another authority of that name, and one that was forged, stop nobody.
        other = Authority(os.path.join(self.folder, "other"))
        os.mkdir(other.folder)
        other.root()
        foreign = self.put_list(other, "foreign.crl", number=3, revoked=[serial])
        status, out, err = self.run_script(*older, *foreign, "--keep", "a", *words)
        self.assertEqual((status, out.splitlines()[0]), (0, "valid"), err)
        self.assertIn("not signed under the issuer's key", err)

    def test_streams_that_take_nothing(self):
        """Python's own status, 1, would read as a verdict."""
        script, found = os.path.join(authority.TOP, "bin", "validate"), []
        made, words, _ = self.made()
        words = [*self.put_list(made, "list.crl"), *words]
        for redirected, given in ((">/dev/full", words), ("2>/dev/full", words), ("2>&-", words), ("2>/dev/full", ["--name", "", *words]),
                                  (">&-", words)):
            command = " ".join(map(shlex.quote, (sys.executable, "-B", script, *given)))
            done = subprocess.run(["sh", "-c", f"{command} {redirected}"], cwd=self.folder, env={**os.environ, "X509CHECK": self.program},
                                  stdout=subprocess.PIPE, stderr=subprocess.PIPE, check=False)
            found.append(done.returncode)
        self.assertEqual(found, [6, 0, 0, 5, 6])
        moved = self.put("moved", b"")
        shutil.copyfile(script, moved)
        done = subprocess.run([sys.executable, "-B", "-I", moved, *words], cwd=self.folder, stderr=subprocess.PIPE, check=False)
        self.assertEqual((done.returncode, done.stderr), (6, b"validate: No module named 'x509check'\n"))

    def test_a_response_that_nobody_can_judge(self):
        """Of a delegate whose certificate is good, and which is not the issuer."""
        made, words, serial = self.made()
        list_words = self.put_list(made, "list.crl")
        made.certificate("Delegate", "Root", "keyUsage=critical,digitalSignature\nextendedKeyUsage=OCSPSigning\nnoCheck=ignored\n")
        leaf = Certificate.from_der(made.der("Server"))
        request = _ocsp.request_for(leaf, Certificate.from_der(made.der("Root")))
        index = f"R\t301231000000Z\t261101000000Z,keyCompromise\t{serial:04X}\tunknown\t/CN=x\n"
        for digest, wanted in (("sha1", 4), ("sha256", 2)):
            with open(made.path(f"{digest}.ocsp"), "wb") as file:
                file.write(made.response(request, "Root", index, "Delegate", digest))
            self.assertEqual(self.run_script(*list_words, "--ocsp", f"{digest}.ocsp", "--keep", digest, *words)[0], wanted, digest)

    def test_a_key_that_is_not_for_the_purpose(self):
        made, _, _ = self.made()
        made.certificate("Signer", "Root", FOR_SERVER + "keyUsage=critical,keyCertSign\n")
        words = [*self.put_list(made, "list.crl"), "--anchor", "Root.pem", "Signer.pem"]
        self.assertEqual(self.run_script(*words)[1].splitlines()[0], "valid")
        status, out, err = self.run_script("--purpose", "serverAuth", *words)
        self.assertEqual((status, out.splitlines()[0]), (1, "not found"))
        self.assertIn("(purpose)", err)

    def test_statements_that_contradict_each_other(self):
        made, words, serial = self.made()
        first = self.put_list(made, "first.crl", number=1)
        second = self.put_list(made, "second.crl", number=1, revoked=[serial])
        third = self.put_list(made, "third.crl", number=1, revoked=[serial + 1])
        self.assertIn("ALARM", self.stopped(8, "second.crl revokes", *first, *second, "--keep", "a", *words))
        status, out, _ = self.run_script(*second, *first, "--keep", "b", *words)
        self.assertEqual((status, out.splitlines()[0]), (2, "revoked 1 1"))
        status, out, err = self.run_script(*first, *third, "--keep", "c", *words)
        self.assertEqual((status, out.splitlines()[0]), (0, "valid"), "it says nothing of this certificate")
        self.assertIn("contradicted 1", err)

    def test_what_is_not_there(self):
        words = ["--anchor", "root.pem", *AT, "--chain", "middle.pem", "leaf.pem"]
        self.stopped(6, "/nowhere", *words[:-1], "/nowhere")
        self.stopped(6, "/nowhere", "--crl", "/nowhere", *words)
        self.stopped(6, "/nowhere", *words, X509CHECK="/nowhere")
        self.stopped(6, "libx", *words, X509CHECK_LIBRARY="/nowhere/libx.so")
        self.stopped(6, "", "--keep", "/dev/null/x", *words)
        for said in ("exit 0", "echo valid; exit 1", "exit 1", "echo 0 ended"):
            with self.subTest(said):
                self.stopped(6, "", *words, X509CHECK=self.executable("said", f"#!/bin/sh\n{said}\n"))


if __name__ == "__main__":
    unittest.main()
