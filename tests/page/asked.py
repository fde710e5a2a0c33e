"""What people ask of a page, in the order in which they ask it: who, which host, what was wrong, and what is in doubt."""
import os
import pathlib
import sys

import printed
from pages import ROOT, Page, run

FILES = ROOT / "tests" / "captures" / "files"
HALF = FILES / "half-dte-on-all-connections.pcap"
# The first error is one that the DCE does not react to; a call begins after it; the last packet follows from it.
TRACE = """X25 1 MOD 8 WIN 2 SIZE 128 PVC 0 SVC 4
# connection 1 is channel 1: 192.0.2.1 port 4000 (T) and 192.0.2.9 port 1998 (N), logical channel 1 in the capture
1 T 100117
2 T 10010B44200110010000
3 N 10010F
4 T 100100AABB
5 N 100120AA
6 N 100122AA
7 T 1001130000
8 N 100117
# connection 2 is channel 2: 192.0.2.1 port 4001 (T) and 192.0.2.8 port 1998 (N), logical channel 1 in the capture
9 T 10020B44200110020000
10 N 10020F
11 N 100202AA
"""
# A program whose rows say that findings after the first one of a channel may follow from that.
FOLLOWING = """#!{python}
import json, subprocess, sys
done = subprocess.run(["{scanner}", *sys.argv[1:]], stdin=sys.stdin, stdout=subprocess.PIPE, check=False)
first = {{}}
for line in done.stdout.decode().splitlines():
    if sys.argv[1:] == ["--rows"]:
        it = json.loads(line)
        if it.get("line") == "row" and it["finding"]:
            begun = first.setdefault(it["channel"], it["packet"])
            it["finding"]["follows"] = None if begun == it["packet"] else begun
        line = json.dumps(it)
    print(line)
sys.exit(done.returncode)
"""
ORDER = ["overview", "findings", "strip", "ladder", "calls", "unjudged", "reading"]
# Codes with long names: of a permanent circuit, of a channel without a call, of interrupts, and of a state.
LONG_NAMES = """X25 1 MOD 8 WIN 2 SIZE 128 PVC 1 SVC 4
1 T 1000FB0000
2 N 1000FF
3 T 10010B0000
4 T 10020B0000
5 N 10020F
6 T 100227
7 T 1002FB0000
8 N 1002130000
9 N 10020F
10 T 100217
11 T 10091F
"""
WIDE = """(() => {
  window.dispatchEvent(new Event('beforeprint'));
  const found = [...document.querySelectorAll('#ladder-room text')].filter((it) => {
    const box = it.getBBox();
    return box.x < 0 || box.x + box.width > it.ownerSVGElement.viewBox.baseVal.width;
  }).map((it) => it.textContent);
  window.dispatchEvent(new Event('afterprint'));
  return found.join('; ');
})()"""


def scanner_of(folder, scanner):
    """A program whose findings name others from which they may follow."""
    path = folder / "following"
    path.write_text(FOLLOWING.format(python=sys.executable, scanner=os.path.realpath(scanner)))
    path.chmod(0o755)
    return path


def text_of(selector):
    return f"document.querySelector({selector!r})?.textContent"


def texts_of(selector):
    return f"[...document.querySelectorAll({selector!r})].map((it) => it.textContent).join('|')"


def page_of(shown, folder, scanner, trace, name="asked"):
    """Opens the page of a trace."""
    (folder / f"{name}.trace").write_text(trace)
    done = run("--scanner", scanner, "--force", "-o", folder / f"{name}.html", folder / f"{name}.trace")
    if done.returncode:
        shown.said.append(f"{name}: {done.stderr}")
    shown.browser.open(folder / f"{name}.html")


def verdict(shown):
    """Who broke the protocol, which hosts that is, what may follow from it, and what the DCE did about it."""
    shown.is_so(text_of(".verdict"), "The DTE (192.0.2.1) broke the protocol once, the DCE (192.0.2.8) once; "
                "one finding of the DCE may follow from that.")
    shown.is_so("[...document.querySelectorAll('main > section')].filter((it) => it.childElementCount).map((it) => it.id)"
                ".slice(0, 7).join()", ",".join(ORDER))
    shown.is_so(texts_of(".doubts li"), "The DCE did not react to packet 1, an error of the DTE: 3 data packets after it are not "
                "judged. Show it|One call was not judged: 1 begun on a channel that waits for an indication; its 3 data packets "
                "with 4 octets are in no sum. Which ones")
    shown.is_so(texts_of(".side .hosts"), "192.0.2.1|192.0.2.9, 192.0.2.8")
    shown.is_so(texts_of(".side .big"), "1|1")
    shown.is_so(texts_of(".side-head > .muted"), "finding|finding, and 1 that may follow")
    shown.is_so(f"{text_of('.of-hosts')}.includes('192.0.2.8 1 finding on 1 connection packet 11')")
    shown.is_so(texts_of("#reading details[open]"), "")
    shown.is_so("place('foot').textContent", shown.browser.value("facts.program"))


def findings(shown):
    """A finding has its host, its packet with its values, its connection, and the one from which it may follow."""
    cell = "#finding-table tbody tr:nth-child({}) td:nth-child({})"
    for row, wanted in ((1, ("DTE192.0.2.1", "CLEAR CONFIRMATION in p1", "-")), (2, ("DCE192.0.2.9", "CLEAR CONFIRMATION in p1", "1")),
                        (3, ("DCE192.0.2.8", "DATA in d1P(S) 1, P(R) 0, 1 octet of data", "-"))):
        for at, words in zip((2, 3, 7), wanted):
            shown.is_so(text_of(cell.format(row, at)), words)
    shown.is_so(f"{text_of(cell.format(3, 6))}.endsWith('connection 2')")
    shown.browser.click(f"{cell.format(2, 7)} a")
    shown.is_so("location.hash", "#packets/1")


def unjudged(shown):
    shown.is_so(texts_of("#unjudged-table tbody td"), "2|1connection 1|1001|2001|DTE192.0.2.1|3|2|2|cleared by the DTEpacket 7|"
                "the channel was in p7, where the DCE had not reacted to packet 1")
    shown.browser.click(".doubts li:nth-child(2) a")
    shown.is_so("location.hash", "#unjudged")


def filters(shown):
    """Calls and packets are found by their host and by their connection, and the saved table names both."""
    for text, many in (("192.0.2.8", 1), ("192.0.2.7", 0), ("connection 2", 1), ("connection 1", 0)):
        shown.filter(text)
        shown.is_so("document.querySelectorAll('#call-table tbody tr.linked').length", many)
    shown.filter("")
    for text, many in (("192.0.2.9", 4), ("connection 2 data", 1), ("connection 1", 8)):
        shown.browser.value(f"filterList({text!r})")
        shown.is_so("list.lines.length", many)
    lines = shown.browser.value("callsCsv()").splitlines()
    got = [lines[0].split(",")[-4:], lines[1].split(",")[-3:]]
    if got != [["ended_frame", "circuit", "dte_host", "dce_host"], ["2", '"192.0.2.1"', '"192.0.2.8"']]:
        shown.said.append(f"the saved table has {got}")


def half(shown, folder, scanner):
    """Of half a recording no card is green, and what the reading said is open."""
    run("--scanner", scanner, "--win", "2", "--size", "128", "-o", folder / "half.html", HALF)
    shown.browser.open(folder / "half.html")
    shown.is_so("document.querySelectorAll('.side.half').length", 2)
    shown.is_so("getComputedStyle(document.querySelector('.side.half')).borderTopColor !== "
                "getComputedStyle(Object.assign(document.querySelector('.side'), {className: 'card side clean'})).borderTopColor")
    shown.is_so("document.querySelectorAll('#reading details[open]').length", 1)


def titles(shown, folder, scanner):
    """On paper no title of a finding is wider than its drawing."""
    page_of(shown, folder, scanner, LONG_NAMES, "names")
    for key in shown.browser.value("Object.keys(facts.ladders)"):
        shown.browser.value(f"location.hash = '#{key}'")
        shown.is_so("shown.key", key)
        shown.is_so(WIDE, "")
    codes = {code for code, *_ in Page(folder / "names.html").facts["codes"]}
    if not {"26", "35", "36", "43"} <= codes:
        shown.said.append(f"the codes are {codes}")


def outcomes(shown, scanner, folder):
    """Names of tests, and what is wrong with each."""
    folder = pathlib.Path(folder)
    page_of(shown, folder, scanner_of(folder, scanner), TRACE)
    verdict(shown)
    yield "who it was, and what is in doubt", shown.faults()
    findings(shown)
    yield "findings with hosts and values", shown.faults()
    unjudged(shown)
    yield "calls that were not judged", shown.faults()
    filters(shown)
    yield "filters by host and connection", shown.faults()
    shown.browser.resize(printed.NARROW, 800)
    shown.is_so("document.documentElement.scrollWidth", printed.NARROW)
    shown.browser.resize(shown.browser.width, shown.browser.height)
    yield "hosts at 400 pixels", shown.faults()
    half(shown, folder, scanner)
    yield "half a recording", shown.faults()
    titles(shown, folder, scanner)
    yield "titles on paper", shown.faults()
