"""A page in a headless Chromium: its tables, its ladders, what a click does, and that hostile text stays text."""
import csv
import io
import pathlib
import subprocess
import sys
import time

import asked
import printed
import reached
from pages import ROOT, Page, run

sys.path.insert(0, str(ROOT / "tools"))

from browser import Browser  # noqa: E402

SEVEN, GUESSED = (ROOT / "examples" / f"{name}.trace" for name in ("seven-calls", "window-guessed"))
# Traces whose tables of calls are saved: with times, with gaps, with reverse charging, and with a permanent circuit.
TABLES = [SEVEN, *(ROOT / "examples" / f"{name}.trace" for name in ("overlapping-calls", "packets-missing", "reverse-charging")),
          ROOT / "tests" / "calls" / "expected" / "permanent-circuit.trace"]
# How long the page may need to show something.
SECONDS = 5
TAG = '"><script>hacked=1</script><img src=x onerror=hacked=1>\''
HOST = '"><script>hacked=1</script>'
HOSTILE_NAME = "<img src=x onerror=hacked=1>'\"&amp;.trace"


def hostile_trace():
    """A trace whose comments and user data hold markup."""
    data = TAG.encode().hex().upper()
    rows = ["1 T 10010B544500123450003C7363726970743E", "2 N 10010F", f"3 T 100100{data}"]
    rows += ["4 T 100102AA", "5 T 100104AA"]
    head = [f"# {TAG}", f"# estimated from what was seen: WIN 2 ({TAG})", "X25 1 MOD 8 WIN 2 SIZE 128 PVC 0 SVC 4"]
    # A host and a connection, as far as their form allows.
    ends = f"# connection 1 is channel 1: {HOST} port 1 (T) and {'h' * 64} port 2 (N), {TAG}"
    lines = [*head, f"# connection 1 is channel 1: {TAG}", ends, *(f"{row}\n# {TAG}" for row in rows)]
    return "\n".join(lines) + "\n"


class Shown:
    """A page in a browser, and what was wrong so far."""

    def __init__(self, browser):
        self.browser, self.said = browser, []

    def is_so(self, expression, wanted=True):
        """Looks until it is so: what a click does comes later, and until then an element may not be there."""
        got = self.browser.wait_for(f"(() => {{ try {{ return ({expression}); }} catch (fault) {{ return String(fault); }} }})()", wanted)
        if got != wanted:
            self.said.append(f"{expression} is {got!r}, expected {wanted!r}")

    def texts(self, selector):
        return self.browser.value(f"[...document.querySelectorAll({selector!r})].map((it) => it.textContent)")

    def filter(self, text):
        """Writes into the filter of the calls."""
        self.browser.value(f"document.querySelector('#call-filter').value = {text!r}")
        self.browser.value("document.querySelector('#call-filter').dispatchEvent(new Event('input'))")

    def faults(self):
        said, self.said = self.said + self.browser.faults, []
        self.browser.faults = []
        return said


def tables(shown, page):
    """The tables have the numbers of the report."""
    facts = page.facts
    shown.is_so("document.querySelectorAll('#call-table tbody tr').length", len(facts["calls"]))
    shown.is_so("document.querySelectorAll('#finding-table tbody tr').length", len(facts["marks"]))
    shown.is_so("document.querySelector('.verdict').textContent", "The DTE broke the protocol once.")
    numbers = [text.replace(",", "") for text in shown.texts(".tile b")]
    sums = facts["sums"]
    wanted = [str(it) for it in (sums["packets"], sums["calls"], sums["octets"], sums["segments"], facts["peak"][0], 1)]
    if numbers != wanted:
        shown.said.append(f"the tiles have {numbers}, expected {wanted}")
    accounts = shown.texts("#account-table tbody td")
    if accounts != ["12345", "4", "13", "67890", "3", "9"]:
        shown.said.append(f"the accounts are {accounts}")


def clicks(shown):
    """A click on a call, on a bar, on a finding and on a packet opens what belongs to it."""
    browser = shown.browser
    browser.click("#call-table tbody tr:nth-child(3) td:nth-child(5)")
    shown.is_so("document.querySelector('#ladder h2').textContent", "Call 3")
    shown.is_so("document.querySelectorAll('#ladder-room .row').length", 7)
    browser.value("document.querySelector('#lanes').scrollIntoView({block: 'center'})")
    box = browser.value("document.querySelector('#lanes svg').getBoundingClientRect().toJSON()")
    middle = browser.value("across((callsByNumber.get(2).opened + callsByNumber.get(2).ended) / 2)")
    browser.press(box["left"] + middle, box["top"] + 1.5 * browser.value("strip.lane"))
    shown.is_so("location.hash", "#call-2")
    browser.click("#finding-table tbody tr td:nth-child(4)")
    shown.is_so("location.hash", "#call-7/47")
    shown.is_so("document.querySelector('#ladder-room .row.faulty').id", "row-47")
    shown.is_so("document.querySelector('#detail .fault-card').textContent.startsWith('Code 1: Invalid P(S)')")
    browser.value("document.querySelector('#detail details').open = true")
    shown.is_so("document.querySelector('#detail pre').textContent.startsWith('0000  10 01 24 21')")
    browser.value("location.hash = '#call-1/4'")
    shown.is_so("document.querySelector('#detail').textContent.includes('103 octets in hex')")


def saves(shown, folder, scanner):
    """The button over the calls saves the table that x25scan prints, of traces with times, gaps and permanent circuits."""
    browser, downloads = shown.browser, folder / "downloads"
    downloads.mkdir()
    browser.ask("Page.setDownloadBehavior", behavior="allow", downloadPath=str(downloads))
    for trace in TABLES:
        path = folder / f"{trace.stem}.html"
        run("--scanner", scanner, "-o", path, trace)
        browser.open(path)
        browser.value("document.querySelector('#calls-csv').scrollIntoView({block: 'center'})")
        browser.click("#calls-csv")
        saved, end = downloads / f"{trace.stem}-calls.csv", time.monotonic() + SECONDS
        while not saved.exists() and time.monotonic() < end:
            time.sleep(0.05)
        wanted = list(csv.reader(io.StringIO(subprocess.run([scanner, "--calls", trace], capture_output=True, text=True, check=False).stdout)))
        got = list(csv.reader(io.StringIO(saved.read_text()))) if saved.exists() else []
        if got != wanted:
            shown.said.append(f"{trace.stem}: saved {got}, expected {wanted}")


def uses(shown):
    """Tables are filtered and sorted, words explained, colours changed."""
    browser = shown.browser
    shown.filter("67890")
    shown.is_so("document.querySelectorAll('#call-table tbody tr').length", 3)
    shown.filter("")
    browser.value("document.querySelector('#call-table th [data-word=segments]').click()")
    shown.is_so("document.querySelector('#call-table tbody tr td').textContent", "7")
    browser.value("document.querySelector('.codes .word').scrollIntoView({block: 'center'})")
    # A scroll that ends late hides the hint again, so it is looked at in the same step.
    focused = "document.querySelector('.codes .word').focus({preventScroll: true})"
    hint = "document.querySelector('#hint')"
    shown.is_so(f"({focused}, !{hint}.hidden && {hint}.textContent.includes('The P(S) of a data packet is not the next'))")
    colour = "getComputedStyle(document.body).backgroundColor"
    browser.value("document.querySelector('#theme [data-name=light]').click()")
    light = browser.value(colour)
    browser.value("document.querySelector('#theme [data-name=dark]').click()")
    shown.is_so(f"{colour} !== {light!r}")


def hostile(shown, folder, scanner):
    """Markup in a name, in comments and in user data changes nothing, and is shown as it is."""
    trace = folder / HOSTILE_NAME
    trace.write_text(hostile_trace())
    page = folder / "hostile.html"
    done = run("--scanner", scanner, "-o", page, trace)
    if done.returncode:
        shown.said.append(f"hostile: {done.stderr}")
        return
    shown.browser.open(page, "#call-1/5")
    shown.is_so("typeof hacked", "undefined")
    shown.is_so("document.querySelectorAll('script').length", 2)
    shown.is_so("document.querySelectorAll('img').length", 0)
    shown.is_so("document.querySelector('#name').textContent", HOSTILE_NAME)
    shown.is_so(f"document.querySelector('#about').textContent.includes({TAG!r})")
    shown.is_so(f"document.querySelector('#ladder').textContent.includes({TAG!r})")
    for part in ("overview", "findings", "ladder"):
        shown.is_so(f"place('{part}').textContent.includes({HOST!r})")
    shown.browser.resize(printed.NARROW, 800)
    shown.is_so("document.documentElement.scrollWidth", printed.NARROW)
    shown.browser.resize(shown.browser.width, shown.browser.height)
    shown.is_so("document.querySelectorAll('#ladder-room .row').length", 5)


def long_call():
    """A trace of a call with 20 data packets, each of which is acknowledged: 44 rows."""
    packets = [("T", "10010B0000"), ("N", "10010F")]
    for at in range(20):
        packets += [("T", f"1001{at % 8 << 1:02X}AA"), ("N", f"1001{(at + 1) % 8 << 5 | 1:02X}")]
    packets += [("T", "1001130000"), ("N", "100117")]
    rows = [f"{number} {side} {octets}\n" for number, (side, octets) in enumerate(packets, 1)]
    return "X25 1 MOD 8 WIN 2 SIZE 128 PVC 0 SVC 4\n" + "".join(rows)


def folds(shown, folder, scanner):
    """The middle of a long run of data is folded, and a click shows it; a link to a packet of it does so too."""
    trace, page = folder / "long.trace", folder / "long.html"
    trace.write_text(long_call())
    run("--scanner", scanner, "-o", page, trace)
    rows = "document.querySelectorAll('#ladder-room .row').length"
    shown.browser.open(page)
    shown.is_so(rows, 12)
    shown.is_so("document.querySelector('.gap.fold text').textContent", "32 packets without a finding: click to see them")
    shown.browser.click(".gap.fold")
    shown.is_so(rows, 44)
    shown.browser.open(page, "#call-1/20")
    shown.is_so("document.querySelector('#ladder-room .row.chosen').id", "row-20")
    shown.is_so("document.querySelector('#detail h3').textContent.startsWith('Packet 20: RR')")


def after_a_gap(shown, folder, scanner):
    """The part of a ladder whose state is not known after a gap has a key: in light, in dark, at 400 pixels, in print."""
    browser, page = shown.browser, folder / "gap.html"
    run("--scanner", scanner, "-o", page, ROOT / "examples" / "packets-missing.trace")
    browser.open(page, "#call-1")
    key = "document.querySelector('#ladder .key.life-unknown')"
    colour, stretch = (f"getComputedStyle({it})" for it in (f"{key}, '::before'", "document.querySelector('.life.unknown')"))
    for name in ("dark", "light"):
        browser.value(f"document.querySelector('#theme [data-name={name}]').click()")
        shown.is_so(f"{colour}.backgroundColor === {stretch}.fill")
    for media, width in (("screen", printed.NARROW), ("print", browser.width)):
        browser.resize(width, browser.height)
        browser.ask("Emulation.setEmulatedMedia", media=media)
        shown.is_so(f"{key}.textContent", "state not known, as after a gap")
        shown.is_so(f"{key}.getBoundingClientRect().right <= {width} && {key}.offsetHeight > 0")
        shown.is_so(f"{colour}.width", "16px")
    shown.is_so(f"{colour}.printColorAdjust", "exact")
    browser.ask("Emulation.setEmulatedMedia", media="")
    browser.open(page, "#call-1/1")


def doubtful(shown, folder, scanner):
    """A header that does not fit is doubted, with a command that tries all others, and one for a number of it."""
    page = folder / "guessed.html"
    run("--scanner", scanner, "-o", page, GUESSED)
    shown.browser.open(page)
    shown.is_so("document.querySelector('.alarm h2').textContent", "The header may be wrong")
    wanted = ["x25scan --try-headers window-guessed.trace",
              "sed 's/WIN 1 /WIN 2 /' window-guessed.trace | x25page -o other.html -"]
    shown.is_so("[...document.querySelectorAll('.alarm pre')].slice(0, 2).map((it) => it.textContent).join('|')",
                "|".join(wanted))


def outcomes(scanner, folder):
    """Names of tests in the browser, and what is wrong with each."""
    path = pathlib.Path(folder, "seven.html")
    run("--scanner", scanner, "-o", path, SEVEN)
    with Browser() as browser:
        shown = Shown(browser)
        browser.open(path)
        tables(shown, Page(path))
        yield "tables in the browser", shown.faults()
        clicks(shown)
        yield "clicks", shown.faults()
        uses(shown)
        yield "filters, sorting, words, colours", shown.faults()
        saves(shown, pathlib.Path(folder), scanner)
        yield "the table of calls is saved", shown.faults()
        hostile(shown, pathlib.Path(folder), scanner)
        yield "hostile text in the browser", shown.faults()
        folds(shown, pathlib.Path(folder), scanner)
        yield "long runs are folded", shown.faults()
        after_a_gap(shown, pathlib.Path(folder), scanner)
        yield "the key of a gap in a ladder", shown.faults()
        doubtful(shown, pathlib.Path(folder), scanner)
        yield "a header that may be wrong", shown.faults()
        yield from reached.outcomes(shown, scanner, folder)
        yield from printed.outcomes(shown, scanner, folder)
        # A browser keeps fifty steps of its history, and the ways back above need theirs.
        yield from asked.outcomes(shown, scanner, folder)
