"""Tests of --each: a page for each input, and an index with a line for each."""
from __future__ import annotations

import os
import pathlib
import signal
import subprocess
import sys
import time

import lists
from lists import EXAMPLES, FILES, OVERLAPPING, PROGRAM, SECONDS, SEVEN, InFolder, Lists
from pages import Page

sys.path += [str(lists.ROOT / "tests" / "captures"), str(lists.ROOT / "tools")]

from link_units import two_links  # noqa: E402

OLD = "what stood there"
NAMES = ("seven-calls.trace", "pad-setting.trace", "one-way-channels.trace")


class Each(InFolder):
    def index(self, folder: str = "pages") -> list[list[str]]:
        """The rows of the index."""
        return Lists(self.folder / folder / "index.html").tables["index-table"]

    def test_files(self):
        """A page for each, as it is written alone, and a line for each in the order of the command line."""
        done = self.page("--each", *(EXAMPLES / name for name in NAMES), "-o", "pages")
        self.assertEqual((done.returncode, done.stdout), (0, b""), done.stderr)
        pages = [name.replace(".trace", ".html") for name in NAMES]
        self.assertEqual(self.there("pages"), sorted([*pages, "index.html"]))
        self.assertIn(b"x25page: pages/index.html: 3 lines\n", done.stderr)
        self.page("-o", "alone.html", SEVEN)
        self.assertEqual(Page(self.folder / "pages" / "seven-calls.html").json, Page(self.folder / "alone.html").json)
        lines = self.index()
        self.assertEqual([pathlib.Path(line[0]).name for line in lines], list(NAMES))
        self.assertEqual(lines[0][1:], ["The DTE broke the protocol once.", "1", "0", "52", "7", "22", "0",
                                        "MOD 8 WIN 2 SIZE 128 PVC 0 SVC 2"])
        self.assertEqual(lines[1][1:4], ["No packet breaks the protocol.", "0", "0"])
        self.assertEqual(lines[2][1:4], ["The DTE broke the protocol twice, the DCE once.", "2", "1"])
        index = Lists(self.folder / "pages" / "index.html")
        self.assertEqual(index.links, pages)
        self.assertIn("3 pages: a side broke the protocol in 2 of them.", index.text)
        self.assertEqual(index.outside(), [])

    def test_folder(self):
        """The files of a folder and of folders in it, but not what is hidden or no capture and no trace."""
        for source, name in ((SEVEN, "in/tue/a.trace"), (FILES / "ethernet.pcap", "in/mon/day.pcap"), (SEVEN, "in/.b.trace"),
                             (SEVEN, "in/.git/c.trace"), (lists.ROOT / "README.md", "in/README.md"),
                             (FILES / "dump-of-packets.txt", "in/dump.txt")):
            self.copy(source, name)
        (self.folder / "in" / "empty").touch()
        (self.folder / "in" / "odd").write_bytes(b"\x7fELF" + bytes(100))
        os.mkfifo(self.folder / "in" / "pipe")
        done = self.page("--each", "in", "-o", "pages")
        self.assertEqual(done.returncode, 0, done.stderr)
        self.assertEqual(self.there("pages"), ["a.html", "day.html", "index.html"])
        self.assertIn(b"pages/index.html: 2 lines; 5 other files passed over, neither captures nor traces\n", done.stderr)
        self.assertEqual([line[0] for line in self.index()], ["in/mon/day.pcap", "in/tue/a.trace"])

    def test_links(self):
        """A capture with several links has a page for each, which is the one that its options give alone."""
        (self.folder / "two.pcap").write_bytes(two_links())
        done = self.page("--each", "two.pcap", SEVEN, "-o", "pages")
        self.assertEqual(done.returncode, 0, done.stderr)
        self.assertEqual(self.there("pages"), ["index.html", "seven-calls.html", "two-x25-3.html", "two-x25-7.html"])
        self.assertEqual([line[0] for line in self.index()][:2], ["two.pcap (--only x25 --interface 3)", "two.pcap (--only x25 --interface 7)"])
        self.assertIn(b"x25page: pages/index.html: 3 lines\n", done.stderr)
        self.page("--only", "x25", "--interface", "7", "-o", "alone.html", "two.pcap")
        self.assertEqual(Page(self.folder / "pages" / "two-x25-7.html").json, Page(self.folder / "alone.html").json)
        self.assertEqual(Page(self.folder / "alone.html").facts["sums"]["packets"], 12)

    def test_hosts(self):
        """The index names the host of each side, or says how many there are."""
        self.page("--each", FILES / "gaps-that-share-a-row.pcap", FILES / "xot-circuits-of-one-pair.pcap", "-o", "pages",
                  "--win", "7", "--size", "128")
        one, two = self.index()
        self.assertEqual(one[2].split(" ")[:2], ["1", "192.0.2.1"])
        self.assertTrue(one[1].startswith("The DTE (192.0.2.1) broke the protocol once, in what was recorded: 1 gap."), one)
        self.assertEqual(two[2:4], ["0 2 hosts", "0 2 hosts"])

    def test_other_files(self):
        """A file of the folder that is no page is written over only where that is forced."""
        for name in ("seven-calls.html", "index.html"):
            (self.folder / "pages").mkdir(exist_ok=True)
            (self.folder / "pages" / name).write_text("other")
            for force, wanted in (([], b"other"), (["--force"], b"<!DOCTYPE html>")):
                self.page("--each", SEVEN, "-o", "pages", *force)
                self.assertTrue((self.folder / "pages" / name).read_bytes().startswith(wanted), (name, force))

    def test_two_of_one_name(self):
        """The page of the second one has a number, and so has one that is named as the index."""
        self.copy(SEVEN, "mon/day.trace")
        self.copy(OVERLAPPING, "tue/day.trace")
        self.copy(FILES / "ethernet.pcap", "tue/day.pcap")
        self.copy(OVERLAPPING, "wed/index.trace")
        self.copy(lists.ROOT / "README.md", "tue/day.md")
        done = self.page("--each", "mon/day.trace", "tue", "wed", "-o", "pages")
        self.assertEqual(self.there("pages"), ["day-2.html", "day-3.html", "day.html", "index-2.html", "index.html"], done.stderr)
        names = [Page(self.folder / "pages" / name).facts["sums"]["packets"] for name in ("day.html", "day-2.html", "day-3.html")]
        self.assertEqual(names, [52, 6, 14])
        self.assertEqual(Lists(self.folder / "pages" / "index.html").links, ["day.html", "day-2.html", "day-3.html", "index-2.html"])

    def test_one_named_twice(self):
        """A file that is named twice, or is in a folder that is named too, has one page."""
        self.copy(SEVEN, "in/day.trace")
        done = self.page("--each", "in/day.trace", "in", "./in/day.trace", "-o", "pages")
        self.assertEqual((done.returncode, self.there("pages")), (0, ["day.html", "index.html"]), done.stderr)

    def test_again(self):
        """A second run writes the same pages again; the pages of the first one are no inputs."""
        self.copy(SEVEN, "all/day.trace")
        for _ in range(2):
            done = self.page("--each", "all", "-o", "all/pages")
            self.assertEqual(done.returncode, 0, done.stderr)
            self.assertEqual(self.there("all/pages"), ["day.html", "index.html"])

    def test_options_of_captures(self):
        """They hold for the captures, and the index marks what was estimated."""
        self.page("--each", "--win", "2", "--size", "128", FILES / "ethernet.pcap", SEVEN, "-o", "pages")
        facts = Page(self.folder / "pages" / "ethernet.html").facts
        self.assertEqual([it[0] for it in facts["numbers"] if it[2]], ["MOD", "PVC", "SVC"])
        self.assertEqual(facts["again"], {"all": "--win 2 --size 128 ethernet.pcap", "WIN": "--size 128 ethernet.pcap",
                                          "SIZE": "--win 2 ethernet.pcap"})
        text = Lists(self.folder / "pages" / "index.html").text
        self.assertIn('<span class="chip estimated" title="estimated from what was seen">MOD 8</span>', text)
        self.assertIn('<span class="chip">WIN 2</span>', text)

    def test_damaged_and_refused(self):
        """Gaps are counted, halves are said first, and a file that gives no page says why; the worst status counts."""
        gap, half = FILES / "tcp-gap-and-next-connection.pcap", FILES / "half-dte-on-all-connections.pcap"
        done = self.page("--each", gap, half, SEVEN, "-o", "pages")
        self.assertEqual(done.returncode, 1, done.stderr)
        lines = self.index()
        self.assertEqual((lines[0][7], lines[1][7], lines[2][7]), ("1", "9", "0"))
        self.assertIn("Packets may be missing: the page says which.", lines[0][1])
        text = Lists(self.folder / "pages" / "index.html").text
        self.assertEqual(text.count('class="number found"'), 1)
        self.assertTrue(lines[1][1].startswith("Only the DTE was recorded on connections 1 to 3: "), lines[1])
        guessed, faulty = EXAMPLES / "window-guessed.trace", EXAMPLES / "no-side.trace"
        done = self.page("--each", guessed, faulty, "absent.pcap", "-o", "pages")
        self.assertEqual(done.returncode, 2, done.stderr)
        lines = self.index()
        self.assertIn("The header may be wrong: the page says why.", lines[0][1])
        self.assertEqual(lines[1][1], 'There is no page. Trace: line 4: kind 26: The side is "X": T for the DTE or N for the '
                                      "DCE belongs there.")
        self.assertEqual(lines[2][:2], ["absent.pcap", "There is no page. Absent: there is no file absent.pcap"])
        self.assertIn(b"x25page: absent.pcap: Absent: there is no file absent.pcap\n", done.stderr)
        self.assertIn("1 page: a side broke the protocol in 1 of them; 2 files gave no page.",
                      Lists(self.folder / "pages" / "index.html").text)

    def test_what_stands_there(self):
        """A file that is no page is not written over, and the rest is written."""
        (self.folder / "pages").mkdir()
        other = self.folder / "pages" / "seven-calls.html"
        other.write_text(OLD)
        done = self.page("--each", SEVEN, OVERLAPPING, "-o", "pages")
        self.assertEqual((done.returncode, other.read_text()), (2, OLD))
        self.assertIn("Output: pages/seven-calls.html exists and is no page of x25page", self.index()[0][1])
        (self.folder / "pages" / "index.html").write_text(OLD)
        done = self.page("--each", OVERLAPPING, "-o", "pages")
        self.assertEqual(done.returncode, 2)
        self.assertIn(b"Output: pages/index.html exists and is no page of x25page", done.stderr)

    def test_refused_words(self):
        self.refused(64, "--each writes into a folder: -o names it", "--each", SEVEN)
        self.refused(64, "--each and --compare do not go together", "--each", "--compare", SEVEN, SEVEN, "-o", "a")
        self.refused(64, "--each and --compare read files, not standard input", "--each", "-", "-o", "a")
        self.refused(64, "--each writes pages, not text", "--each", "--summary", SEVEN, "-o", "a")
        (self.folder / "file").write_text(OLD)
        self.refused(2, "Output: file is no folder: -o names the folder of the pages", "--each", SEVEN, "-o", "file")

    def test_nothing_to_write(self):
        (self.folder / "in").mkdir()
        (self.folder / "pages").mkdir()
        self.refused(2, "NoPacket: no page was written: 0 files, and none is a capture or a trace", "--each", "in", "-o", "pages")
        self.copy(lists.ROOT / "README.md", "in/README.md")
        self.refused(2, "NoPacket: no page was written: 1 file, and none is", "--each", "in", "-o", "pages")

    def test_hostile_names(self):
        """A name is text, and its link leads to its page."""
        for name in ("<img src=x onerror=alert(1)>&amp;.trace", "a b#c?d%20e\"'.trace", "javascript:alert(1).trace",
                     os.fsdecode(b"day\xff.trace")):
            self.copy(SEVEN, f"in/{name}")
        done = self.page("--each", "in", "-o", "pages")
        self.assertEqual(done.returncode, 0, done.stderr)
        index = Lists(self.folder / "pages" / "index.html")
        self.assertEqual((index.text.count("<img"), index.text.count("&lt;img src=x onerror=alert(1)&gt;&amp;amp;.trace")), (0, 2))
        self.assertTrue(index.policy.startswith("default-src 'none';"))
        self.assertEqual(index.text.count("<script>"), 1)
        for link in index.links:
            self.assertRegex(link, r"^[A-Za-z0-9%_.~-]+\.html$")

    def test_signal(self):
        """A signal while x25scan runs ends the program: the pages before it are there, and there is no index."""
        slow = self.folder / "slow"
        slow.write_text(f'#!/bin/sh\nif [ $1 = --rows ]; then\n  [ -e started ] && exec sleep 30 2> /dev/null\n  touch started\nfi\nexec "{lists.SCANNER}" "$@"\n')
        slow.chmod(0o755)
        words = [PROGRAM, "--scanner", slow, "--each", SEVEN, OVERLAPPING, "-o", "pages"]
        running = subprocess.Popen(words, cwd=self.folder, stderr=subprocess.PIPE)
        self.assertIn(b"seven-calls.html", running.stderr.readline())
        time.sleep(0.3)
        running.send_signal(signal.SIGINT)
        self.assertEqual((running.wait(SECONDS), running.stderr.read()), (130, b""))
        running.stderr.close()
        self.assertEqual(self.there("pages"), ["seven-calls.html"])
