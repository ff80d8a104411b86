"""What docs/GUIDE.md shows for Python runs and prints what the page says; its code for Rust is that of the tests there."""

import contextlib
import io
import os
import re
import shlex
import subprocess
import sys
import tempfile
import textwrap
import unittest
from unittest import mock

import x509check

from .fetch_authority import FOR_SERVER, Authority, Web
from .test_party import PROGRAM

TOP = os.path.join(os.path.dirname(os.path.realpath(__file__)), "..", "..", "..")


# The two blocks that begin alike.
AS_SENT, PATH_IS_KNOWN = "import x509check\n    sent", "import x509check\n\n    folder"


def part_of_guide(title):
    """What stands under a heading, up to the next one of its level or of a higher one."""
    with open(os.path.join(TOP, "docs", "GUIDE.md"), encoding="utf-8") as file:
        page = file.read()
    heading = re.search(rf"^(#+) {re.escape(title)}$", page, re.M)
    return re.split(rf"^#{{1,{len(heading[1])}}} ", page[heading.end():], maxsplit=1, flags=re.M)[0]


def block_with(part, begin):
    """The block of code that begins so: indented lines, with empty ones among them."""
    lines = part[part.index(f"\n    {begin}") + 1:].split("\n")
    ends = next((i for i, line in enumerate(lines) if line and not line.startswith("    ")), len(lines))
    return textwrap.dedent("\n".join(lines[:ends])).strip()


def printed_by(code):
    """The lines that the code prints."""
    printed = io.StringIO()
    with contextlib.redirect_stdout(printed):
        exec(compile(code, "GUIDE.md", "exec"), {})
    return printed.getvalue().splitlines()


class Guide(unittest.TestCase):
    def setUp(self):
        """In a folder of its own, in which the examples are."""
        folder = tempfile.TemporaryDirectory()
        self.addCleanup(folder.cleanup)
        self.addCleanup(os.chdir, os.getcwd())
        os.chdir(folder.name)
        os.symlink(os.path.join(os.path.realpath(TOP), "examples"), "examples")

    def test_the_code_for_python(self):
        part = part_of_guide("From Python")
        for begin in (AS_SENT, PATH_IS_KNOWN):
            line, = printed_by(block_with(part, begin))
            self.assertIn(f"`{line}`", part)

    def test_policies(self):
        part = part_of_guide("From Python")
        line, = printed_by("import x509check\n" + block_with(part, 'folder = "examples/policies/"'))
        self.assertIn(f"`{line}`", part)

    @unittest.skipUnless(PROGRAM, "the program is missing")
    def test_a_report(self):
        part = part_of_guide("From Python")
        printed_by(block_with(part, AS_SENT) + "\n" + block_with(part, "page = "))
        with open("report.html", encoding="utf-8") as file:
            self.assertIn("<strong>valid</strong>", file.read())

    @unittest.skipUnless(PROGRAM, "the program is missing")
    def test_a_party(self):
        part = part_of_guide("A party")
        for _ in ("the lists are stored", "they are kept"):
            line, = printed_by(block_with(part, "import x509check"))
            self.assertIn(f"`{line}`", part)

    @unittest.skipUnless(PROGRAM, "the program is missing")
    def test_a_party_that_is_shared(self):
        part = part_of_guide("A party")
        command, connect = block_with(part, "python3 -m x509check.party"), 'x509check.Party.connect("party.socket")'
        self.assertIn(connect, part)
        words = [sys.executable, "-B", *shlex.split(command)[1:]]
        with subprocess.Popen(words, stderr=subprocess.PIPE, text=True,
                              env={**os.environ, "PYTHONPATH": os.path.join(TOP, "bindings", "python")}) as served:
            try:
                self.assertEqual(served.stderr.readline(), "party: listening\n")
                with eval(connect) as party:
                    self.assertEqual(party.ask("forget"), x509check.Answer(0, "forgotten"))
            finally:
                served.terminate()

    @unittest.skipUnless(PROGRAM, "the program is missing")
    def test_lists_that_come(self):
        web, made = Web(), Authority(os.getcwd())
        self.addCleanup(web.close)
        made.root()
        made.certificate("Leaf", "Root", FOR_SERVER + f"crlDistributionPoints=URI:{web.url}/root.crl\n")
        web.has("/root.crl", made.revocation_list("Root"))
        os.rename("Leaf.pem", "sent.pem")
        os.rename("Root.pem", "anchors.pem")
        part = part_of_guide("Lists for a party")
        # The page's server is a public one.
        with mock.patch("x509check._http.is_public", return_value=True):
            first, second = printed_by(block_with(part, "import x509check"))
        self.assertRegex(first,
            f'^taken list {web.url}/root.crl: stored 1 kept 0 contradicted 0 until 20..-..-..T..:..:..Z; named by "CN=Leaf" serial ')
        self.assertTrue(second.startswith('valid: "CN=Leaf" serial '), second)

    def test_the_code_for_rust_is_that_of_its_tests(self):
        """Each block stands in a comment that cargo test runs, between lines that the pages of the crate do not show."""
        for begin, name in (("let query", "rust/src/lib.rs"), ("let party", "rust/src/party.rs"),
                            ("let search", "rust-openssl/src/lib.rs"), ("let verifier", "rust-rustls/src/lib.rs")):
            with open(os.path.join(TOP, "bindings", name), encoding="utf-8") as file:
                comments = [line[4:] for line in file.read().splitlines() if line[:3] in ("//!", "///")]
            shown = "\n".join(line for line in comments if not line.startswith("# "))
            self.assertIn(block_with(part_of_guide("From Rust"), begin), shown, name)


if __name__ == "__main__":
    unittest.main()
