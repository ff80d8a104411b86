"""The units of examples/systemd: systemd takes them, and what they start is there and knows the words."""

import glob
import os
import re
import shutil
import subprocess
import sys
import tempfile
import unittest

from x509check import party

from . import authority

UNITS = os.path.join(authority.TOP, "examples", "systemd")
SCRIPT = os.path.join(authority.TOP, "bin", "fetch")


def commands():
    """What the units start."""
    for path in glob.glob(os.path.join(UNITS, "*.service")):
        with open(path, encoding="ascii") as file:
            yield from re.findall(r"^ExecStart=(.*)$", file.read().replace("\\\n", " "), re.M)


class Units(unittest.TestCase):
    def test_systemd_takes_them(self):
        if shutil.which("systemd-analyze") is None:
            print("test_systemd: left out: the units, as systemd-analyze is missing", file=sys.stderr)
            self.skipTest("systemd-analyze is missing")
        with tempfile.TemporaryDirectory() as folder:
            for path in glob.glob(os.path.join(UNITS, "*.*")):
                with open(path, encoding="ascii") as file:
                    text = file.read()
                # Programs at the places where they are here.
                text = text.replace("/usr/libexec/x509check/fetch", SCRIPT).replace("/usr/bin/python3", sys.executable)
                with open(os.path.join(folder, os.path.basename(path)), "w", encoding="ascii") as file:
                    file.write(text)
            units = sorted(glob.glob(os.path.join(folder, "x509check-*")))
            self.assertEqual(len(units), 4)
            done = subprocess.run(["systemd-analyze", "verify", "--man=no", *units], stdout=subprocess.PIPE, stderr=subprocess.STDOUT,
                                  text=True,
                                  env={**os.environ, "SYSTEMD_UNIT_PATH": f"{folder}:"}, check=False)
        said = [line for line in done.stdout.splitlines() if "x509check" in line]
        self.assertEqual((done.returncode, said), (0, []), done.stdout)

    def test_the_words_are_those_of_the_programs(self):
        found = dict(words.split(" ", 1) for words in commands())
        self.assertEqual(set(found), {"/usr/bin/python3", "/usr/libexec/x509check/fetch"})
        module, words = found["/usr/bin/python3"].split(" --", 1)
        self.assertEqual(module, "-m x509check.party")
        self.assertEqual(party.words_of(f"--{words}".split()).store, "/var/lib/x509check/store")
        done = subprocess.run([sys.executable, "-B", SCRIPT, *found["/usr/libexec/x509check/fetch"].split()], stderr=subprocess.PIPE,
                              text=True, check=False)
        self.assertEqual(done.returncode, 6, done.stderr)
        self.assertIn("/etc/x509check/anchors.pem", done.stderr)


if __name__ == "__main__":
    unittest.main()
