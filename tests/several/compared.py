"""Tests of --compare: what differs between two inputs, as text and as a page."""
from __future__ import annotations

from lists import EXAMPLES, FILES, OVERLAPPING, SEVEN, InFolder, Lists

HEADER = "X25 1 MOD 8 WIN 2 SIZE 128 PVC 0 SVC 4\n"
# A call that is answered after a second and cleared for a cause, with a finding of the DTE.
BEFORE = HEADER + """#@ 1000
1 T 10010B55123456789000
#@ 1001
2 N 10010F
3 T 100102AA
4 N 1001130905
#@ 1002
5 T 100117
"""
# The same call is answered after 201 seconds, it has no finding, and another one has no answer.
AFTER = HEADER + """#@ 1000
1 T 10010B55123456789000
#@ 1201
2 N 10010F
3 T 100100AA
4 T 1001130000
#@ 1202
5 N 100117
6 T 10020B55123455000000
"""
TEXT = """\
before: before.trace: The DTE broke the protocol once.
after:  after.trace: No packet breaks the protocol, but 1 request stayed open longer than its timer.

Sums                            before       after  difference
  packets                            5           6          +1
  calls                              1           2          +1
  octets                             0           1          +1
  segments                           0           1          +1
  data packets not counted           1           0          -1
  findings of the DTE                1           0          -1
  no difference in 2 others

Findings by side and code      before       after  difference
  DTE, 1, Invalid P(S)              1           0          -1
"""


class Compared(InFolder):
    def both(self, before: str = BEFORE, after: str = AFTER) -> tuple[str, str]:
        """Two traces in the folder."""
        (self.folder / "before.trace").write_text(before)
        (self.folder / "after.trace").write_text(after)
        return "before.trace", "after.trace"

    def text(self, *words: object, status: int = 0) -> str:
        done = self.page("--compare", "--summary", *words)
        self.assertEqual(done.returncode, status, done.stderr)
        return done.stdout.decode()

    def test_text(self):
        text = self.text(*self.both())
        self.assertTrue(text.startswith(TEXT), text)
        for line in ("  67890, segments                       0           1          +1\n",
                     "  call request, DTE, T21, 200 s, past the time-out            0           1          +1\n",
                     "  call request, DTE, T21, 200 s, longest wait in ms       1,000     201,000    +200,000\n"):
            self.assertIn(line, text)
        self.assertIn("cleared by the DCE, 9 (out of order), 5", text)
        self.assertEqual(self.there(), ["after.trace", "before.trace"])

    def test_nothing_differs(self):
        before, _ = self.both()
        text = self.text(before, before)
        self.assertEqual([line for line in text.splitlines() if "+" in line or " -" in line], [])
        self.assertEqual(text.count("  no difference\n"), 5)
        self.page("--compare", before, before)
        self.assertIn("Nothing differs.", Lists(self.folder / "before-to-before.html").text)

    def test_page(self):
        """It has the numbers of both reports, those that differ first."""
        done = self.page("--compare", *self.both())
        self.assertEqual((done.returncode, done.stdout), (0, b""), done.stderr)
        self.assertIn(b"x25page: before-to-after.html: ", done.stderr)
        page = Lists(self.folder / "before-to-after.html")
        sums, findings, addresses, ends, waits = page.tables.values()
        self.assertEqual(sums[0], ["packets", "5", "6", "+1"])
        self.assertEqual(findings, [["DTE", "1", "Invalid P(S)", "1", "0", "-1"]])
        self.assertIn(["67890", "1 \u2192 1 no difference", "0 \u2192 1 +1"], addresses)
        self.assertIn(["cleared by the DCE", "9 (out of order)", "5 (no additional information, of the kind of 0)", "1", "0", "-1"], ends)
        self.assertEqual(waits[0][:3], ["call request", "DTE", "T21, 200 s"])
        self.assertEqual(waits[0][3:], ["1 \u2192 2 +1", "0 \u2192 1 +1", "0 \u2192 1 +1", "1,000 \u2192 201,000 +200,000"])
        self.assertIn('class="number better"', page.text)
        self.assertEqual(page.outside(), [])

    def test_page_and_text(self):
        text = self.text("-o", "a.html", *self.both())
        self.assertIn("Sums ", text)
        self.assertIn("a.html", self.there())

    def test_captures(self):
        """Options of captures hold for both, and what was estimated is said of each."""
        ethernet, other = FILES / "ethernet.pcap", FILES / "xot-circuits-of-one-pair.pcap"
        done = self.page("--compare", "--summary", "--win", "2", "--size", "128", ethernet, other)
        self.assertEqual(done.returncode, 0, done.stderr)
        self.assertIn(f"x25page: {ethernet}: header: X25 1 MOD 8 WIN 2 SIZE 128 PVC 0 SVC 1\n", done.stderr.decode())
        self.assertIn(f"x25page: {other}: header: X25 1 MOD 8 WIN 2 SIZE 128 PVC 0 SVC 2\n", done.stderr.decode())
        self.assertNotIn("The headers differ", done.stdout.decode(), "the last channels are estimated")
        text = self.text(FILES / "half-dte-on-all-connections.pcap", ethernet, status=1)
        self.assertIn("before: half-dte-on-all-connections.pcap: Only the DTE was recorded on connections 1 to 3: ", text)
        self.assertIn("\n  cleared by the DTE, ", text)
        self.assertNotIn("cleared by the DCE", text)

    def test_other_headers(self):
        text = self.text(*self.both(BEFORE, AFTER.replace("SVC 4", "SVC 5")))
        self.assertIn("The headers differ: SVC 4 before, SVC 5 after. Findings and sums may differ for that alone: compare", text)
        text = self.text(*self.both(BEFORE, AFTER.replace("WIN 2", "WIN 7")))
        self.assertIn("The headers differ: WIN 2 before, WIN 7 after. Findings and sums may differ for that alone: give --win "
                      "and --size for both where you know them.\n", text)

    def test_times_that_are_missing(self):
        """Without times no wait is compared by its length."""
        without = "".join(line for line in AFTER.splitlines(keepends=True) if not line.startswith("#@"))
        text = self.text(*self.both(BEFORE, without))
        self.assertNotIn("longest wait in ms", text)
        self.page("--compare", "before.trace", "after.trace")
        waits = Lists(self.folder / "before-to-after.html").tables["section-5"]
        self.assertEqual({line[6] for line in waits if line[0] == "call request"}, {"-"})

    def test_refusals(self):
        before, after = self.both()
        self.refused(64, "--compare takes two files, before and after, not 1", "--compare", before)
        self.refused(64, "--compare takes two files, before and after, not 3", "--compare", before, after, after)
        self.refused(64, "--each and --compare read files, not standard input", "--compare", before, "-")
        self.refused(2, "Absent: there is no file nowhere", "--compare", before, "nowhere")
        self.refused(2, "Folder: . is a folder", "--compare", before, ".")
        self.refused(2, f"Trace: {EXAMPLES / 'no-side.trace'}: line 4: ", "--compare", before, EXAMPLES / "no-side.trace")
        self.refused(2, "Output: after.trace is what the page is made of", "--compare", before, after, "-o", after)
        self.refused(3, "reading or writing failed: ", "--compare", before, after, "-o", "/dev/full")
        (self.folder / "before-to-after.html").write_text("other")
        self.refused(2, "Output: before-to-after.html exists and is no page of x25page", "--compare", before, after)

    def test_many_addresses(self):
        """Text has the greatest differences of a section, and says how many more there are."""
        rows, number = "", 0
        for at in range(60):
            rows += f"{number + 1} T 10010B60{at:06}00\n{number + 2} N 1001130000\n{number + 3} T 100117\n"
            number += 3
        text = self.text(*self.both(HEADER, HEADER + rows))
        self.assertIn("  and 20 more\n", text)

    def test_examples(self):
        """The sums of the two traces that the guide compares."""
        text = self.text(SEVEN, OVERLAPPING)
        self.assertIn("  12345, segments                      13           1         -12\n", text)
        self.assertIn("Findings by side and code\n  no difference\n", text)
