"""Tests of x25page as it is called: what is refused, its streams, its signals, and what it leaves in its folder."""
import fcntl
import os
import pathlib
import signal
import subprocess
import sys
import tempfile
import termios
import time
import unittest

from pages import PROGRAM, ROOT, SECONDS, Page, run

sys.path.insert(0, str(ROOT / "tools"))

from x25page_lib.places import written  # noqa: E402

TRACE = ROOT / "examples" / "seven-calls.trace"
FAULTY = ROOT / "examples" / "no-side.trace"
FILES = ROOT / "tests" / "captures" / "files"
CAPTURE = FILES / "ethernet.pcap"
OLD = b"what stood there"
# The program that the tests ask, as the suite names it.
SCANNER = pathlib.Path()


class Called(unittest.TestCase):
    """Each test runs in a folder of its own."""

    def setUp(self):
        held = tempfile.TemporaryDirectory()
        self.addCleanup(held.cleanup)
        self.folder = pathlib.Path(held.name)

    def run_page(self, *words, **how):
        return run("--scanner", SCANNER, *words, cwd=self.folder, **how)

    def there(self):
        return sorted(it.name for it in self.folder.iterdir())

    def refused(self, status, words, *line, **how):
        """A run without a page, which says why in one of its lines."""
        before = self.there()
        done = self.run_page(*line, **how)
        self.assertEqual((done.returncode, done.stdout, self.there()), (status, b"", before), done.stderr)
        self.assertIn(f"x25page: {words}".encode(), done.stderr)
        self.assertNotIn(b"Traceback", done.stderr)

    def test_names(self):
        """Without -o the page is in the current folder, and it alone."""
        done = self.run_page(TRACE)
        self.assertEqual((done.returncode, done.stdout, self.there()), (0, b"", ["seven-calls.html"]), done.stderr)
        self.assertIn(b"x25page: header: X25 1 MOD 8 WIN 2 SIZE 128 PVC 0 SVC 2\n", done.stderr)
        self.assertIn(b"seven-calls.html: 52 packets, 7 calls, 1 finding (DTE 1, DCE 0)", done.stderr)
        self.assertEqual(self.run_page(TRACE).returncode, 0, "a page is written anew")
        self.run_page("-o", "other.html", TRACE)
        self.assertEqual(Page(self.folder / "other.html").json, Page(self.folder / "seven-calls.html").json)

    def test_capture(self):
        done = self.run_page(CAPTURE)
        self.assertEqual((done.returncode, self.there()), (0, ["ethernet.html"]), done.stderr)
        for words in (b"header: X25 1 MOD 8 WIN 1 SIZE 16 PVC 0 SVC 1", b"estimated from what was seen: MOD 8 (",
                      b"WIN 1 and SIZE 16 are a guess, the smallest that fit: "):
            self.assertIn(b"x25page: " + words, done.stderr)
        facts = Page(self.folder / "ethernet.html").facts
        self.assertEqual(facts["numbers"][1][:2], ["WIN", "1"])
        self.assertTrue(facts["numbers"][1][2])
        self.assertEqual(facts["again"], dict.fromkeys(("all", "WIN", "SIZE"), "ethernet.pcap"))
        given = self.run_page("--win", "2", "--size=128", "-o", "given.html", CAPTURE)
        self.assertIn(b"header: X25 1 MOD 8 WIN 2 SIZE 128 ", given.stderr)
        facts = Page(self.folder / "given.html").facts
        wanted = {"all": "--win 2 --size=128", "WIN": "--size=128", "SIZE": "--win 2"}
        self.assertEqual(facts["again"], {name: f"{words} ethernet.pcap" for name, words in wanted.items()})
        self.assertEqual(facts["trial"], "x25trace --win 2 --size=128 ethernet.pcap | x25scan --try-headers")

    def test_summary(self):
        """Text on standard output, and a page only where one is named."""
        for words, how in (([CAPTURE], {}), (["-"], {"input": CAPTURE.read_bytes()}), ([TRACE], {})):
            done = self.run_page("--summary", *words, **how)
            self.assertEqual((done.returncode, self.there()), (0, []), done.stderr)
            name = "standard input" if words == ["-"] else words[0].name
            self.assertTrue(done.stdout.startswith(f"{name}: ".encode()), done.stdout)
            self.assertIn(b"\ncalls by how they ended\n", done.stdout)
        done = self.run_page("--summary", "-o", "a.html", TRACE)
        self.assertEqual((done.returncode, self.there()), (0, ["a.html"]), done.stderr)
        self.assertIn(b"\n  52 packets, 7 calls, ", done.stdout)
        self.assertNotIn("--summary", Page(self.folder / "a.html").facts["trial"])
        odd = os.path.join(os.fsencode(self.folder), b"day\xff.trace")
        pathlib.Path(os.fsdecode(odd)).write_bytes(TRACE.read_bytes())
        done = self.run_page("--summary", os.fsdecode(odd))
        self.assertEqual((done.returncode, done.stdout.split(b": ")[0]), (0, b"day\\udcff.trace"), done.stderr)

    def test_summary_that_is_not_written(self):
        for how in (">&-", "> /dev/full"):
            command = ["bash", "-c", f'"$0" --scanner "$1" --summary "$2" {how}', PROGRAM, SCANNER, TRACE]
            done = subprocess.run(command, capture_output=True, cwd=self.folder, timeout=SECONDS)
            self.assertEqual((done.returncode, self.there()), (3, []), done.stderr)
            self.assertIn(b"x25page: reading or writing failed: ", done.stderr)
            self.assertNotIn(b"Traceback", done.stderr)

    def test_header_that_may_be_wrong(self):
        """Standard error names the command that tries others."""
        done = self.run_page(ROOT / "examples" / "window-guessed.trace")
        self.assertIn(b"the header may be wrong, and the page says why: "
                      b"x25scan --try-headers window-guessed.trace tries others", done.stderr)
        self.assertNotIn(b"may be wrong", self.run_page(TRACE).stderr)

    def test_damaged_capture(self):
        """Two gaps of the capture share a gap row: the messages, the page and the summary count that row."""
        capture = FILES / "gaps-that-share-a-row.pcap"
        done = self.run_page("--win", "7", capture)
        self.assertEqual(done.returncode, 1, done.stderr)
        facts = Page(self.folder / "gaps-that-share-a-row.html").facts
        self.assertEqual(facts["messages"][-2:], ["missing: octets of TCP connections: 15",
                                                  "in the trace: gap rows, where packets may be missing: 1"])
        sentence = "The DTE (192.0.2.1) broke the protocol once, in what was recorded: 1 gap."
        self.assertEqual(facts["verdict"][1], sentence)
        self.assertIn(sentence.encode(), self.run_page("--win", "7", "--summary", capture).stdout)

    def test_standard_input(self):
        for name, octets in (("trace", TRACE.read_bytes()), ("capture", CAPTURE.read_bytes())):
            done = self.run_page("-o", f"{name}.html", "-", input=octets)
            self.assertEqual(done.returncode, 0, done.stderr)
            self.assertEqual(Page(self.folder / f"{name}.html").facts["name"], "standard input")
        self.refused(64, "standard input has no name for the page: -o gives one", "-", input=b"")
        self.refused(2, "Empty: standard input has no octet", "-o", "a.html", "-", input=b"")

    def test_named_pipe(self):
        pipe = self.folder / "pipe"
        os.mkfifo(pipe)
        for octets in (TRACE.read_bytes(), CAPTURE.read_bytes()):
            writer = subprocess.Popen(["bash", "-c", 'cat > "$0"', pipe], stdin=subprocess.PIPE)
            writer.stdin.write(octets)
            writer.stdin.close()
            done = self.run_page(pipe)
            self.assertEqual((done.returncode, writer.wait(SECONDS)), (0, 0), done.stderr)
            self.assertEqual(self.there(), ["pipe", "pipe.html"])

    def test_refused_inputs(self):
        (self.folder / "odd").write_bytes(b"\x7fELF\2\1\1" + bytes(100))
        lines = (
            ("Absent: there is no file nowhere.pcap", "nowhere.pcap"),
            ("Folder: ", "-o", "a.html", self.folder),
            ("UnknownFormat: ", "odd"),
            ("Compressed: a.pcap.gz: its gzip data is damaged (unknown compression method): ", FILES / "write-me.pcap.gz"),
            ("Trace: ", FAULTY),
            ("Header: WIN 8 is not 1 to 7", "--win", "8", CAPTURE),
        )
        for words, *line in lines:
            if "write-me.pcap.gz" in str(line[-1]):
                (self.folder / "a.pcap.gz").write_bytes(b"\x1f\x8b" + bytes(30))
                line = ["a.pcap.gz"]
            self.refused(2, words, *line)

    def test_refused_words(self):
        self.refused(64, "--win is of captures, and ", "--win", "2", TRACE)
        self.refused(64, "a trace is read alone", TRACE, TRACE)
        self.refused(64, "the page is a file: -o names it", "-o", "-", TRACE)
        self.refused(64, "argument --win: '0' is not a number from 1 to 127", "--win", "0", CAPTURE)

    def test_what_stands_there(self):
        """What is no page is not written over, also where -o names it, unless that is forced; the input never is."""
        other = self.folder / "seven-calls.html"
        other.write_bytes(OLD)
        words = "exists and is no page of x25page: -o names another file, --force writes over it"
        self.refused(2, f"Output: seven-calls.html {words}", TRACE)
        self.refused(2, f"Output: {other} {words}", "-o", other, TRACE)
        self.assertEqual(other.read_bytes(), OLD)
        self.assertEqual(self.run_page("--force", "-o", other, TRACE).returncode, 0)
        self.assertEqual(self.run_page("-o", other, TRACE).returncode, 0, "a page is written anew")
        empty = self.folder / "empty"
        empty.touch()
        self.assertEqual(self.run_page("-o", empty, TRACE).returncode, 0, "an empty file has nothing to lose")
        link = self.folder / "link.html"
        link.symlink_to(self.folder / "capture.pcap")
        (self.folder / "capture.pcap").write_bytes(CAPTURE.read_bytes())
        self.refused(2, f"Output: {link} {words}", "-o", link, TRACE)
        copy = self.folder / "copy.trace"
        copy.write_bytes(TRACE.read_bytes())
        for force in ([], ["--force"]):
            self.refused(2, "Output: copy.trace is what the page is made of", *force, "-o", "copy.trace", "copy.trace")
        self.refused(2, "Output: . is a folder", "-o", ".", "copy.trace")

    def test_failed_writes(self):
        self.refused(3, "reading or writing failed: ", "-o", "/dev/full", TRACE)
        words = "reading or writing failed: no-folder/a.html: No such file or directory"
        self.refused(3, words, "-o", "no-folder/a.html", TRACE)
        self.refused(3, "reading or writing failed: ", "--scanner", "/nowhere/x25scan", TRACE)

    def test_part_of_a_page(self):
        """Where writing ends early, the old file is there, and nothing else."""
        page = self.folder / "a.html"
        page.write_bytes(OLD)
        with self.assertRaises(KeyboardInterrupt), written(page) as out:
            out.write("a part")
            raise KeyboardInterrupt
        self.assertEqual((self.there(), page.read_bytes()), (["a.html"], OLD))

    def scanner(self, script):
        path = self.folder / "scanner"
        path.write_text(f"#!/bin/sh\n{script}\n")
        path.chmod(0o755)
        return path

    def test_scanner_that_fails(self):
        self.refused(3, "reading or writing failed: ", "--scanner", self.scanner("exit 3"), TRACE)
        scanner = self.scanner("[ $1 = --explain ] && exit; echo 'x25scan: out of memory' >&2; exit 3")
        words = f"reading or writing failed: {scanner} --rows ended with status 3: out of memory"
        self.refused(3, words, "--scanner", scanner, TRACE)

    def test_strange_scanner(self):
        row = '{"line":"row","packet":1}'
        for line in ("x", "[1]", "{}", row, r"\377"):
            scanner = self.scanner(f"[ $1 = --explain ] && exit; printf '{line}\\n'")
            words = f"reading or writing failed: {scanner} --rows printed what is no object of this x25scan"
            self.refused(3, words, "--scanner", scanner, TRACE)

    def test_faulty_trace(self):
        scanner = self.scanner("[ $1 = --explain ] && exit; printf 'x25scan: line 4: kind 26\\n  The side is X.\\n' >&2; exit 2")
        self.refused(2, "Trace: line 4: kind 26: The side is X.", "--scanner", scanner, TRACE)

    def test_signals(self):
        """A signal while x25scan runs ends the program, and there is no page."""
        scanner = self.scanner("exec sleep 30")
        for number, status in ((signal.SIGINT, 130), (signal.SIGTERM, 143)):
            words = [PROGRAM, "--scanner", scanner, TRACE]
            running = subprocess.Popen(words, cwd=self.folder, stderr=subprocess.PIPE)
            line = running.stderr.readline()
            self.assertIn(b"header: ", line)
            time.sleep(0.2)
            running.send_signal(number)
            self.assertEqual((running.wait(SECONDS), running.stderr.read()), (status, b""))
            running.stderr.close()
            self.assertEqual(self.there(), ["scanner"])

    def test_interrupted_reading(self):
        """SIGINT ends the reading of a capture: the page is of what was read."""
        words = [PROGRAM, "--scanner", SCANNER, "-o", "a.html", "-"]
        running = subprocess.Popen(words, cwd=self.folder, stdin=subprocess.PIPE, stderr=subprocess.PIPE)
        running.stdin.write(CAPTURE.read_bytes())
        running.stdin.flush()
        end = time.monotonic() + SECONDS
        while time.monotonic() < end and not is_waiting(running):
            time.sleep(0.05)
        running.send_signal(signal.SIGINT)
        _, errors = running.communicate(timeout=SECONDS)
        self.assertEqual((running.returncode, self.there()), (130, ["a.html"]), errors)
        self.assertIn(b"interrupted: ", errors)

    def test_closed_streams(self):
        lines = (
            ("TRACE <&-", 0), ("TRACE >&-", 0), ("TRACE 2>&-", 0), ("TRACE <&- >&- 2>&-", 0),
            ("TRACE 1< .", 0), ("TRACE < .", 2), ("-o a.html - <&-", 2),
        )
        for words, status in lines:
            command = ["bash", "-c", f'"$0" --scanner "$1" {words.replace("TRACE", str(TRACE))}', PROGRAM, SCANNER]
            done = subprocess.run(command, capture_output=True, cwd=self.folder, timeout=SECONDS)
            self.assertEqual(done.returncode, status, (words, done.stderr))
            self.assertNotIn(b"Traceback", done.stderr)

    def test_name_that_is_no_utf_8(self):
        name = os.path.join(os.fsencode(self.folder), b"day\xff<b>.trace")
        pathlib.Path(os.fsdecode(name)).write_bytes(TRACE.read_bytes())
        command = [PROGRAM, "--scanner", SCANNER, name]
        done = subprocess.run(command, capture_output=True, cwd=self.folder, timeout=SECONDS)
        self.assertEqual(done.returncode, 0, done.stderr)
        self.assertTrue(os.path.exists(os.path.join(os.fsencode(self.folder), b"day\xff<b>.html")))

    def test_quiet(self):
        """Standard error has why there is no page, and nothing else."""
        for words in ((CAPTURE,), ("--summary", CAPTURE), ("--each", CAPTURE, "-o", "pages"), ("--compare", TRACE, CAPTURE)):
            done = self.run_page("--quiet", *words)
            self.assertEqual((done.returncode, done.stderr), (0, b""), words)
        self.refused(2, "Absent: there is no file nowhere.pcap", "--quiet", "nowhere.pcap")
        self.assertNotIn("--quiet", str(Page(self.folder / "ethernet.html").facts["again"]))

    def test_version(self):
        """It needs no file, and builds no program."""
        done = run("--version", cwd=self.folder)
        self.assertEqual((done.returncode, done.stderr, self.there()), (0, b"", []))
        self.assertRegex(done.stdout, rb"\Ax25page \d+\.\d+\.\d+\S*\n\Z")

    def test_usage_comes_last(self):
        """What is wrong with the command line is said before how it is used."""
        for words in (("--wim", "2", TRACE), (), ("--compare", TRACE)):
            lines = run(*words, cwd=self.folder).stderr.decode().splitlines()
            self.assertTrue(lines[0].startswith("x25page: "), lines)
            self.assertTrue(lines[1].startswith("usage: x25page "), lines)

    def test_help(self):
        done = run("--help")
        self.assertEqual((done.returncode, done.stderr), (0, b""))
        for words in (b"examples:", b"exit status:", b"--win", b"NAME.html in the current folder"):
            self.assertIn(words, done.stdout)


def is_waiting(running):
    """Whether a process has read all that its pipe holds, and waits for more."""
    unread = int.from_bytes(fcntl.ioctl(running.stdin, termios.FIONREAD, bytes(4)), sys.byteorder)
    state = pathlib.Path(f"/proc/{running.pid}/stat").read_text().rpartition(") ")[2].split()[0]
    return not unread and state == "S"
