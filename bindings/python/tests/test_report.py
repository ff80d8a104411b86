"""Reports: what stands in them, and, where a Chromium is there, what a browser shows."""

import datetime
import os
import re
import tempfile
import time
import unittest
from unittest import mock

import x509check
from x509check import Certificate, Judgement, Limits, Profile, ProgramMissing, Verdict, _der, _facts
from x509check._report_style import STYLE

from . import authority
from .authority import DECEMBER, LEAF, MIDDLE, MIDDLE_LIST, RESPONSE, REVOKING_LIST, ROOT, ROOT_LIST
from .browser import FOUND, Browser
from .test_peers import FOR_AUTHORITY, FOR_SERVER, Made

LISTS = [ROOT_LIST, MIDDLE_LIST]
LATER = DECEMBER + datetime.timedelta(days=90)
SCREENSHOTS = os.path.join(authority.TOP, "bench", "out", "report")


def report(certificates=(LEAF, MIDDLE), anchors=(ROOT,), statements=tuple(LISTS), at=DECEMBER, **words):
    return x509check.report(certificates, anchors, statements, at, **words)


def text_of(page):
    """What stands in a page, without its markup, style and script."""
    body = re.sub(r"<(style|script)>.*?</\1>", " ", page, flags=re.S)
    plain = re.sub(r"<[^>]*>", " ", body)
    for name, letter in (("&lt;", "<"), ("&gt;", ">"), ("&quot;", '"'), ("&amp;", "&")):
        plain = plain.replace(name, letter)
    return re.sub(r"\s+", " ", plain)


def verdict_in(page):
    return re.search(r'<div class="verdict \w+"><strong>(.*?)</strong>', page)[1]


# Twelve chains: what is asked, the verdict, and what the page has to say.
CHAINS = {
    "valid": ({}, "valid", ["certificate 2 is not revoked", "the signature is good"]),
    "valid-for-a-host": ({"name": "www.example", "purpose": "serverAuth"}, "valid", ["asked for www.example", "for the purpose serverAuth"]),
    "revoked": ({"statements": [ROOT_LIST, REVOKING_LIST]}, "revoked (key compromise)", ["Certificate 2 decides: CN=leaf,O=Example", "keyCompromise",
                 "So says the list 02 of CN=middle,O=Example, which speaks from 2026-11-23 18:27:08 UTC until 2026-12-23 18:27:08 UTC."]),
    "revoked-by-response": ({"statements": [*LISTS, RESPONSE]}, "revoked (key compromise)", ["response, statement 2", "So says the response of CN=delegate,O=Example"]),
    "unknown": ({"statements": [MIDDLE_LIST]}, "unknown", ["Certificate 1 decides: CN=middle,O=Example"]),
    "lapsed": ({"at": LATER}, "unknown", ["2026-12-23 18:27:08 UTC"]),
    "other-name": ({"name": "mail.example"}, "other name", ["asked for mail.example"]),
    "expired": ({"at": DECEMBER.replace(year=2028)}, "not found", ["cannot stand at the end of any path (expired)", "after the certificate's notAfter"]),
    "missing-issuer": ({"certificates": [LEAF]}, "not found", ["No certificate at hand has the name of the issuer"]),
    "wrong-signature": ({"verify": lambda question: Judgement.WRONG}, "not found", ["cannot stand there (signature)", "Other certificates"]),
    "gave-up": ({"limits": Limits(steps=0)}, "gave up", ["0 steps"]),
    "refused": ({"statements": [*LISTS, b"\x30\x00"]}, "no verdict", ["Fault 42 Layout, at the octet 2", "0 30 0"]),
}


class Pages(unittest.TestCase):
    def test_twelve_chains(self):
        for name, (words, verdict, said) in CHAINS.items():
            page = report(**words)
            self.assertEqual(verdict_in(page), verdict, name)
            for it in said:
                self.assertIn(it, text_of(page), name)
            self.assertLess(len(page), 200_000)

    def test_the_verdict_is_that_of_the_library(self):
        for name, (words, verdict, _) in CHAINS.items():
            if name != "refused":
                arguments = {"certificates": (LEAF, MIDDLE), "anchors": (ROOT,), "statements": LISTS, "at": DECEMBER, **words}
                result = x509check.validate_peer(**arguments)
                self.assertTrue(verdict.startswith(result.verdict.value), name)

    def test_over_time(self):
        facts = facts_of(statements=[ROOT_LIST, MIDDLE_LIST])
        begun, ended = Certificate.from_der(LEAF).not_before, 1798050428
        verdicts = [(it.first, it.last, it.result.verdict) for it in facts.over_time.stretches]
        self.assertEqual(verdicts[0], (None, begun - 1, Verdict.NOT_FOUND))
        self.assertEqual(verdicts[1], (begun, ended, Verdict.VALID))
        self.assertEqual(verdicts[2][0], ended + 1)
        self.assertEqual([it for _, _, it in verdicts[2:]], [Verdict.UNKNOWN] + [Verdict.NOT_FOUND] * (len(verdicts) - 3))
        for one, following in zip(verdicts, verdicts[1:]):
            self.assertEqual(one[1] + 1, following[0], "no moment is left out")
        # Each second beside a rim is answered as the stretch says.
        for first, last, verdict in verdicts:
            for moment in filter(None, (first, last)):
                self.assertEqual(x509check.validate_peer([LEAF, MIDDLE], [ROOT], LISTS, moment).verdict, verdict)

    def test_a_change_that_no_rim_tells_is_told(self):
        with mock.patch.object(_facts, "windows_of", return_value=[]):
            stretches = facts_of().over_time.stretches
        self.assertIn(None, [it.result for it in stretches])
        with mock.patch.object(_facts, "windows_of", return_value=[]):
            self.assertIn("not one answer", text_of(report()))

    def test_more_moments_than_are_asked_about(self):
        with mock.patch.object(_facts, "MOST_STRETCHES", 2):
            page = report()
        self.assertIn("There are further moments", text_of(page))
        self.assertEqual(verdict_in(page), "valid")
        with mock.patch.object(_facts, "_SECONDS", -1.0):
            self.assertIn("What was asked", text_of(report()))

    def test_what_cannot_be_read(self):
        for words, said in (
            ({"certificates": [b"", MIDDLE]}, "A certificate that cannot be read no verdict"),
            ({"certificates": [LEAF, LEAF[:-1]]}, "certificate 1 Fault 21 Der; as DER: 4 Truncated"),
            ({"anchors": [ROOT, MIDDLE_LIST]}, "anchor 1 Fault 22 Layout"),
        ):
            page = report(**words)
            self.assertEqual(verdict_in(page), "no verdict")
            self.assertIn(said, text_of(page))
            self.assertIn("here", text_of(page))
        for words in ({"certificates": [LEAF, MIDDLE, b"0"], "ignore_unreadable_certificates": True}, {"statements": [*LISTS, b"0"], "ignore_unreadable": True}):
            page = report(**words)
            self.assertEqual(verdict_in(page), "valid")
            self.assertIn("What cannot be read", text_of(page))
        for words, kind in (({"certificates": []}, ValueError), ({"at": "soon"}, ValueError), ({"purpose": "x"}, ValueError), ({"anchors": ROOT}, TypeError),
                            ({"name": "*"}, ValueError), ({"ignore_unreadable": 1}, TypeError)):
            with self.assertRaises(kind, msg=words):
                report(**words)

    def test_two_parties(self):
        page = x509check.report_on_two([LEAF, MIDDLE], [ROOT], LISTS, [ROOT_LIST, REVOKING_LIST], DECEMBER)
        self.assertEqual(re.findall(r'<strong>(.*?)</strong>', page), ["valid", "revoked (key compromise)"])
        alone = re.findall(r"What only party \d holds</h2>(.*?)</section>", page)
        self.assertEqual([it.count("<tr>") - 1 for it in alone], [1, 1])
        self.assertIn("list 02, statement 1", alone[1])
        same = x509check.report_on_two([LEAF, MIDDLE], [ROOT], LISTS, LISTS, DECEMBER)
        self.assertEqual(same.count("<p>None.</p>"), 2)

    def test_the_program_has_to_be_there(self):
        with mock.patch.dict(os.environ, {"X509CHECK": "/nowhere/x509check"}), self.assertRaises(ProgramMissing):
            report()

    def test_contrast(self):
        for scheme in re.findall(r":root \{(.*?)\}", STYLE, re.S):
            colours = dict(re.findall(r"--(\w+): (#[0-9a-f]{6})", scheme))
            self.assertEqual(set(colours), {"paper", "ink", "soft", "line", "panel", "good", "bad", "open", "none"})
            for ground in ("paper", "panel"):
                for ink in ("ink", "soft", "good", "bad", "open", "none"):
                    self.assertGreaterEqual(contrast(colours[ground], colours[ink]), 4.5, (ground, ink))


def facts_of(certificates=(LEAF, MIDDLE), anchors=(ROOT,), statements=tuple(LISTS), at=1796083200):
    return _facts.facts_of(_facts.Asked(list(certificates), list(anchors), list(statements), at, None, None, None, False, False, Profile.STATED), None)


def contrast(one, other):
    """The contrast of two colours (WCAG 2.1, 1.4.3)."""
    def luminance(colour):
        parts = [int(colour[at:at + 2], 16) / 255 for at in (1, 3, 5)]
        red, green, blue = (part / 12.92 if part <= 0.03928 else ((part + 0.055) / 1.055) ** 2.4 for part in parts)
        return 0.2126 * red + 0.7152 * green + 0.0722 * blue
    lighter, darker = sorted((luminance(one), luminance(other)), reverse=True)
    return (lighter + 0.05) / (darker + 0.05)


def list_of(entries):
    """A list of so many entries that nobody signed (RFC 5280, 5.1)."""
    model = _der.value(MIDDLE_LIST).members()
    version, algorithm, issuer, this, following, *_, extensions = model[0].members()
    if version.identifier != _der.INTEGER:
        raise AssertionError("a list of version 2 is wanted")
    revoked = b"".join(_der.encoded(_der.SEQUENCE, b"\x02\x03" + (0x100000 + at).to_bytes(3, "big"), this.whole) for at in range(entries))
    whole = [it.whole for it in (version, algorithm, issuer, this, following)]
    tbs = _der.encoded(_der.SEQUENCE, *whole, _der.encoded(_der.SEQUENCE, revoked), extensions.whole)
    return _der.encoded(_der.SEQUENCE, tbs, model[1].whole, model[2].whole)


class Hostile(unittest.TestCase):
    """What a peer may send."""

    @classmethod
    def setUpClass(cls):
        with tempfile.TemporaryDirectory() as folder:
            made = Made(folder)
            cls.root = made.certificate("Root", "Root")
            cls.markup = made.certificate("<script>alert(1)<b>", "Root", FOR_SERVER)
            names = ",".join(f"DNS:host-{at}.example.org" for at in range(4096))
            cls.many = made.certificate("Many", "Root", f"subjectAltName={names}\n")
            cls.bag = [made.certificate("Issuer", "Root", FOR_AUTHORITY) for _ in range(3)]

    def made(self, *words, **named):
        begun = time.monotonic()
        page = report(*words, **named)
        self.assertLess(time.monotonic() - begun, 40)
        return page

    def test_markup_in_names(self):
        page = self.made([self.markup], [self.root], [], "now")
        self.assertEqual(page.count("<script>"), 1, "the report's own")
        self.assertNotIn("<b>", page)
        self.assertIn("alert(1)", text_of(page))

    def test_many_names(self):
        page = self.made([self.many], [self.root], [], "now")
        self.assertIn("and 4064 more, which are not shown", text_of(page))
        self.assertLess(len(page), 200_000)

    def test_a_large_bag(self):
        bag = [it for at in range(250) for it in (MIDDLE, authority.CONSTRAINTS, *self.bag[:1], b"junk" * (1 + at))]
        page = self.made([LEAF, *bag], ignore_unreadable_certificates=True)
        self.assertEqual(verdict_in(page), "valid")
        self.assertIn("186 more values that cannot be read, which are not shown", text_of(page))
        self.assertLess(len(page), 1_000_000)

    def test_a_list_of_a_million_entries(self):
        page = self.made([LEAF, MIDDLE], [ROOT], [*LISTS, list_of(1_000_000)])
        self.assertEqual(verdict_in(page), "valid")
        self.assertIn("list 01, statement 2", text_of(page))

    def test_damaged_values(self):
        for at in range(0, len(LEAF), 7):
            spoilt = LEAF[:at] + bytes([LEAF[at] ^ 0x55]) + LEAF[at + 1:]
            self.assertIn(verdict_in(report([spoilt, MIDDLE])), ("no verdict", "not found", "other name", "unknown", "valid"))


@unittest.skipUnless(FOUND, "no Chromium is there")
class InABrowser(unittest.TestCase):
    @classmethod
    def setUpClass(cls):
        cls.browser = Browser()
        os.makedirs(SCREENSHOTS, exist_ok=True)
        cls.folder = tempfile.TemporaryDirectory()

    @classmethod
    def tearDownClass(cls):
        cls.browser.close()
        cls.folder.cleanup()

    def shown(self, page, name="page"):
        path = os.path.join(self.folder.name, f"{name}.html")
        with open(path, "w", encoding="utf-8") as file:
            file.write(page)
        self.browser.width(1100)
        self.browser.open(path)
        return self.browser

    def test_twelve_chains(self):
        for name, (words, verdict, _) in CHAINS.items():
            browser = self.shown(report(**words), name)
            self.assertEqual(browser.value("document.querySelector('.verdict strong').textContent"), verdict, name)
            self.assertEqual([url for url in browser.requests() if not url.endswith(f"{name}.html")], [], name)
            self.assertEqual(browser.complaints(), [], name)
            with open(os.path.join(SCREENSHOTS, f"{name}.png"), "wb") as file:
                file.write(browser.screenshot())

    def test_the_slider(self):
        browser = self.shown(report())
        said = "document.getElementById('said').textContent"
        self.assertFalse(browser.value("document.getElementById('slider').hidden"))
        self.assertRegex(browser.value(said), "valid$")
        browser.value("document.getElementById('moment').focus()")
        browser.press("ArrowRight")
        self.assertIn("unknown, certificate 1: CN=middle,O=Example", browser.value(said))
        self.assertEqual(browser.value("document.querySelectorAll('tr.now').length"), 1)
        self.assertIn("unknown", browser.value("document.querySelector('tr.now').textContent"))
        browser.press("ArrowLeft")
        browser.press("ArrowLeft")
        self.assertRegex(browser.value(said), "not found.*not yet")

    def test_controls_have_names(self):
        for page in (report(), x509check.report_on_two([LEAF, MIDDLE], [ROOT], LISTS, [], DECEMBER)):
            self.shown(page)
            nodes = self.browser.call("Accessibility.getFullAXTree")["nodes"]
            kinds = ("slider", "image", "img", "DisclosureTriangle", "link", "button")
            controls = [it for it in nodes if it.get("role", {}).get("value") in kinds and not it.get("ignored")]
            self.assertTrue(controls)
            for it in controls:
                self.assertTrue(it.get("name", {}).get("value"), it)

    def test_narrow_and_without_script(self):
        browser = self.shown(report())
        browser.width(360)
        self.assertLessEqual(browser.value("document.documentElement.scrollWidth"), 360)
        browser.call("Emulation.setScriptExecutionDisabled", value=True)
        try:
            browser.reload()
            self.assertTrue(browser.value("document.getElementById('slider').hidden"))
            self.assertIn("valid", browser.value("document.body.innerText"))
        finally:
            browser.call("Emulation.setScriptExecutionDisabled", value=False)

    def test_the_policy_holds(self):
        page = report()
        for foreign in ('<img src="http://127.0.0.1:9/x">', '<script>document.title = "taken"</script>', '<style>body { color: red }</style>'):
            browser = self.shown(page.replace("<main>", f"<main>{foreign}"))
            self.assertNotEqual(browser.value("document.title"), "taken")
            self.assertTrue(browser.complaints(), foreign)


if __name__ == "__main__":
    unittest.main()
