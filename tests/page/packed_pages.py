"""Tests of x25page with gzip files: a page of one is the page of what it holds."""
import gzip
import pathlib
import signal
import subprocess
import tempfile
import time
import unittest

from called import CAPTURE, ROOT, TRACE, is_waiting
from pages import PROGRAM, SECONDS, Page, run

# The program that the tests ask, as the suite names it.
SCANNER = pathlib.Path()


def unnamed(done):
    """The lines of a summary that do not name the file."""
    return [line for line in done.stdout.splitlines()[1:] if not line.startswith(b"  the other way: ")]


class Packed(unittest.TestCase):
    """Each test runs in a folder of its own."""

    def setUp(self):
        held = tempfile.TemporaryDirectory()
        self.addCleanup(held.cleanup)
        self.folder = pathlib.Path(held.name)

    def pack(self, source, name, length=None):
        """Writes a gzip file, or the first octets of it."""
        (self.folder / name).write_bytes(gzip.compress(source.read_bytes())[:length])

    def page(self, *words, **how):
        return run("--scanner", SCANNER, *words, cwd=self.folder, **how)

    def facts(self, name):
        """The facts of a page as text, with the name of what is packed, and without the commands that read it again."""
        facts = Page(self.folder / name).facts
        return str({key: value for key, value in facts.items() if key not in ("again", "trial")}).replace(".gz", "")

    def test_pages(self):
        """The page has the name of what is packed, and its facts."""
        for source, name in ((TRACE, "seven-calls"), (CAPTURE, "ethernet")):
            self.pack(source, f"{source.name}.gz")
            packed, plain = self.page(f"{source.name}.gz"), self.page("-o", "plain.html", source)
            self.assertEqual((packed.returncode, plain.returncode), (0, 0), packed.stderr)
            self.assertIn(f"x25page: {name}.html: ".encode(), packed.stderr)
            self.assertEqual(self.facts(f"{name}.html"), self.facts("plain.html"))
            self.assertEqual(Page(self.folder / f"{name}.html").facts["name"], f"{source.name}.gz")

    def test_text(self):
        """Files, standard input and pipes with a name, whose first octets may come alone."""
        for source in (TRACE, CAPTURE):
            wanted = unnamed(self.page("--summary", source))
            self.pack(source, "packed.gz")
            octets = (self.folder / "packed.gz").read_bytes()
            self.assertEqual(unnamed(self.page("--summary", "packed.gz")), wanted)
            self.assertEqual(unnamed(self.page("--summary", "-", input=octets)), wanted)
            for line in ('(head -c 12; sleep 0.1; cat) < packed.gz | "$0" --scanner "$1" --summary -',
                         '"$0" --scanner "$1" --summary <(head -c 1 packed.gz; tail -c +2 packed.gz)'):
                words = ["bash", "-c", line, PROGRAM, SCANNER]
                done = subprocess.run(words, cwd=self.folder, capture_output=True, timeout=SECONDS)
                self.assertEqual(unnamed(done), wanted, done.stderr)

    def test_commands(self):
        """The commands of a page unpack a trace for x25scan, and name a capture as it is."""
        self.pack(ROOT / "examples" / "window-guessed.trace", "guessed.trace.gz")
        done = self.page("guessed.trace.gz")
        self.assertIn(b"x25scan --try-headers <(gzip -dc guessed.trace.gz) tries others", done.stderr)
        line = f'"{SCANNER}" --try-headers <(gzip -dc guessed.trace.gz) | head -n 1'
        done = subprocess.run(["bash", "-c", line], cwd=self.folder, capture_output=True, timeout=SECONDS)
        self.assertEqual(done.stdout, b"# answered unanswered unexplained   findings  uncounted     octets  header\n", done.stderr)
        self.pack(CAPTURE, "day.pcap.gz")
        self.page("day.pcap.gz")
        self.assertEqual(Page(self.folder / "day.html").facts["again"]["all"], "day.pcap.gz")

    def test_damages(self):
        """What is there is shown, with status 1 and a message, without the line that was cut."""
        for source, length in ((TRACE, 300), (CAPTURE, -8)):
            self.pack(source, "cut.gz", length)
            done = self.page("cut.gz")
            self.assertEqual(done.returncode, 1, done.stderr)
            messages = Page(self.folder / "cut.html").facts["messages"]
            self.assertEqual(messages[-2:], [*messages[-2:-1], "left out: damages of the file: 1"])
            self.assertIn("cut.gz: its gzip data is cut off", messages)
        for octets, words in ((gzip.compress(b""), b"Empty: a.gz has no octet"),
                              (gzip.compress(gzip.compress(b"x")), b"Compressed: a.gz is compressed; unpack it first with gzip -d"),
                              (gzip.compress(b"\x7fELF" + bytes(9)), b"UnknownFormat: a.gz is no pcap, ")):
            (self.folder / "a.gz").write_bytes(octets)
            done = self.page("a.gz")
            self.assertEqual(done.returncode, 2)
            self.assertIn(b"x25page: " + words, done.stderr)

    def test_several(self):
        """Packed files of a folder have pages, and what is packed and neither a capture nor a trace has none."""
        self.pack(TRACE, "a.trace.gz")
        self.pack(CAPTURE, "a.pcap.gz")
        self.pack(ROOT / "README.md", "readme.gz")
        (self.folder / "cut.gz").write_bytes(b"\x1f\x8b")
        done = self.page("--each", ".", "-o", "pages")
        self.assertEqual(done.returncode, 0, done.stderr)
        self.assertEqual(sorted(it.name for it in (self.folder / "pages").iterdir()), ["a-2.html", "a.html", "index.html"])
        self.assertIn(b"2 lines; 2 other files passed over, neither captures nor traces\n", done.stderr)
        done = self.page("--compare", "a.pcap.gz", TRACE)
        self.assertEqual((done.returncode, (self.folder / "a-to-seven-calls.html").exists()), (0, True), done.stderr)
        wanted = self.page("--compare", "--summary", CAPTURE, TRACE).stdout.replace(b"ethernet.pcap", b"a.pcap.gz")
        self.assertEqual(self.page("--compare", "--summary", "a.pcap.gz", TRACE).stdout, wanted)

    def test_interrupted_reading(self):
        """SIGINT ends the reading of a trace: the page is of the lines that were read."""
        words = [PROGRAM, "--scanner", SCANNER, "-o", "a.html", "-"]
        running = subprocess.Popen(words, cwd=self.folder, stdin=subprocess.PIPE, stderr=subprocess.PIPE)
        running.stdin.write(TRACE.read_bytes() + b"99 T 100")
        running.stdin.flush()
        end = time.monotonic() + SECONDS
        while time.monotonic() < end and not is_waiting(running):
            time.sleep(0.05)
        running.send_signal(signal.SIGINT)
        _, errors = running.communicate(timeout=SECONDS)
        self.assertEqual(running.returncode, 130, errors)
        self.assertIn(b"x25page: interrupted: the trace is of what was read before\n", errors)
        self.assertEqual(Page(self.folder / "a.html").facts["sums"]["packets"], 52)
