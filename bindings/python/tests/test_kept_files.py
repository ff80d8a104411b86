"""Files that several processes write at a time."""

import os
import stat
import subprocess
import sys
import tempfile
import unittest

from x509check._kept_files import add_text, add_verdicts, fingerprints_in, replace_file

from . import authority

ADDING = """
import sys
sys.path[:0] = [sys.argv[1]]
from x509check._kept_files import add_verdicts
for number in range(20):
    add_verdicts(sys.argv[2], [bytes([int(sys.argv[3])] * 31 + [number])], "test")
"""


class KeptFiles(unittest.TestCase):
    def setUp(self):
        folder = tempfile.TemporaryDirectory()
        self.addCleanup(folder.cleanup)
        self.path = os.path.join(folder.name, "kept")

    def held(self):
        with open(self.path, "rb") as file:
            return file.read()

    def put(self, octets):
        with open(self.path, "wb") as file:
            file.write(octets)

    def test_a_file_is_replaced_whole_and_keeps_its_permissions(self):
        self.put(b"before")
        os.chmod(self.path, 0o640)
        replace_file(self.path, b"behind")
        self.assertEqual((self.held(), stat.S_IMODE(os.stat(self.path).st_mode)), (b"behind", 0o640))
        link = f"{self.path}.link"
        os.symlink(self.path, link)
        replace_file(link, b"again")
        self.assertEqual((self.held(), os.path.islink(link)), (b"again", True))
        with self.assertRaises(OSError):
            replace_file("/nowhere/kept", b"")
        self.assertEqual(sorted(os.listdir(os.path.dirname(self.path))), ["kept", "kept.link"])

    def test_what_is_no_file_is_written_to(self):
        os.mkfifo(self.path)
        with open(os.open(self.path, os.O_RDONLY | os.O_NONBLOCK), "rb") as reader:
            replace_file(self.path, b"said")
            self.assertEqual((reader.read(), stat.S_ISFIFO(os.stat(self.path).st_mode)), (b"said", True))

    @unittest.skipIf(os.geteuid(), "only root gives files away")
    def test_a_file_keeps_its_owner(self):
        self.put(b"before")
        os.chown(self.path, 12345, 12346)
        replace_file(self.path, b"behind")
        held = os.stat(self.path)
        self.assertEqual((held.st_uid, held.st_gid), (12345, 12346))

    def test_text_stands_on_a_line_of_its_own(self):
        add_text(self.path, "first\n")
        add_text(self.path, "second")
        add_text(self.path, "third\n")
        self.assertEqual(self.held(), b"first\nsecond\nthird\n")

    def test_verdicts(self):
        one, other = b"\x01" * 32, b"\x02" * 32
        add_verdicts(self.path, [], "")
        self.assertEqual(self.held(), b"")
        for begin, kept in ((b"", b""), (b"ab" * 10, b""), (one.hex().upper().encode(), one.hex().upper().encode() + b"\n"), (b"# x\n", b"# x\n"),
                            (other.hex().encode() + b" by hand\n" + b"ab" * 32 + b"x", other.hex().encode() + b" by hand\n")):
            self.put(begin)
            add_verdicts(self.path, [one, one], "test")
            added = b"" if one.hex().encode() in kept.lower() else one.hex().encode() + b" test\n"
            self.assertEqual(self.held(), kept + added)
            self.assertIn(one, fingerprints_in(self.path))
        self.assertEqual(fingerprints_in("/nowhere"), set())

    def test_several_processes_lose_nothing(self):
        module = os.path.join(authority.HERE, "..")
        adding = [subprocess.Popen([sys.executable, "-B", "-c", ADDING, module, self.path, str(number)]) for number in range(4)]
        self.assertEqual([one.wait() for one in adding], [0] * 4)
        self.assertEqual(fingerprints_in(self.path), {bytes([number] * 31 + [at]) for number in range(4) for at in range(20)})


if __name__ == "__main__":
    unittest.main()
