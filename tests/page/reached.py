"""A page by keys in a headless Chromium: what Tab, arrows and Escape reach, the way back, and what is found by a number."""
import contextlib
import io
import pathlib
import sys
from unittest import mock

import framed
import lines
import waited
from pages import ROOT, Page, run

sys.path.insert(0, str(ROOT / "tools"))

from x25page_lib import command, facts  # noqa: E402
from x25tools_lib.streams import Waiting  # noqa: E402

FOCUSED = "document.activeElement"
CHOSEN = "document.querySelector('#ladder-room .row.chosen')?.id ?? null"
DETAIL = "document.querySelector('#detail').hidden"


def open_page(shown, folder, scanner, line, part=""):
    """Opens the page of a line."""
    trace, page = folder / "line.trace", folder / "line.html"
    trace.write_text(line.text())
    done = run("--scanner", scanner, "-o", page, trace)
    if done.returncode:
        shown.said.append(f"status {done.returncode}: {done.stderr}")
    shown.browser.open(page, part)
    return Page(page)


def type_in(shown, selector, text):
    """Writes a text into a field, and says that it changed."""
    shown.browser.value(f"(document.querySelector({selector!r}).value = {text!r}, "
                        f"document.querySelector({selector!r}).dispatchEvent(new Event('input')))")


def headings(shown, folder, scanner):
    """The verdict is the first heading and the only one of its rank, and no rank is left out below it."""
    open_page(shown, folder, scanner, lines.several())
    shown.is_so("document.querySelector('h1, h2, h3, h4').textContent.startsWith('The DTE broke the protocol')")
    shown.is_so("document.querySelectorAll('h1').length", 1)
    ranks = "[...document.querySelectorAll('h1, h2, h3, h4')].map((it) => Number(it.tagName[1]))"
    shown.is_so(f"{ranks}.every((rank, at, all) => rank <= (all[at - 1] ?? 1) + 1)")
    shown.browser.key("Tab")
    shown.is_so(f"{FOCUSED}.className", "skip")
    shown.is_so(f"{FOCUSED}.getBoundingClientRect().top >= 0")
    shown.browser.key("Enter")
    shown.is_so(f"{FOCUSED}.id", "main")
    shown.browser.value("document.querySelector('#call-table a').focus()")
    shown.browser.key("Enter")
    shown.is_so(f"{FOCUSED}.id", "ladder")
    shown.browser.key("Tab")
    shown.is_so(f"document.querySelector('#ladder').contains({FOCUSED}) && {FOCUSED}.id !== 'ladder'")


def tabbed(shown, folder, scanner):
    """Each button, link, field and word is reached by Tab; of the rows of a ladder one is."""
    open_page(shown, folder, scanner, lines.several())
    shown.is_so("document.querySelectorAll('#ladder-room .row[tabindex=\"0\"], #ladder-room .fold[tabindex=\"0\"]').length", 1)
    outside = "a[href], button:not(:disabled), input, select, summary, [tabindex='0']"
    shown.is_so(f"[...document.querySelectorAll({outside!r})].every((it) => it.tabIndex === 0)")
    shown.is_so("document.querySelectorAll('[aria-hidden=true] [tabindex]').length", 0)


def ladder_keys(shown, folder, scanner):
    """Arrows go from packet to packet, Enter shows one, and Escape closes it; the focus is seen."""
    browser = shown.browser
    open_page(shown, folder, scanner, lines.several(), "#call-3/26")
    shown.is_so(f"{FOCUSED}.id", "row-26")
    shown.is_so(DETAIL, False)
    browser.key("ArrowDown")
    shown.is_so(CHOSEN, "row-27")
    shown.is_so("document.querySelector('#detail h3').textContent.startsWith('Packet 27')")
    shown.is_so("location.hash", "#call-3/27")
    browser.key("Escape")
    shown.is_so(DETAIL, True)
    shown.is_so(f"{FOCUSED}.id", "row-27")
    browser.key("ArrowUp", 2)
    shown.is_so(f"{FOCUSED}.id", "row-25")
    shown.is_so(DETAIL, True)
    shown.is_so(f"getComputedStyle({FOCUSED}.querySelector('.back')).strokeWidth", "3px")
    browser.key("Home")
    shown.is_so(f"{FOCUSED}.id", "row-24")
    browser.key("Enter")
    shown.is_so(DETAIL, False)
    shown.is_so("location.hash", "#call-3/24")
    browser.key("End")
    shown.is_so("document.querySelector('#detail h3').textContent.startsWith('Packet 39')")


def long_ladder_keys(shown, folder, scanner):
    """Arrows open the next page of a long ladder, and Enter opens a fold."""
    browser = shown.browser
    open_page(shown, folder, scanner, lines.long_list(300), "#call-1/300")
    shown.is_so(f"{FOCUSED}.id", "row-300")
    browser.key("End")
    last = browser.value(f"{FOCUSED}.id")
    browser.key("ArrowDown")
    shown.is_so(f"Number({FOCUSED}.id.slice(4))", int(last[4:]) + 1)
    browser.key("ArrowUp")
    shown.is_so(f"{FOCUSED}.id", last)
    browser.open(folder / "line.html")
    browser.value("document.querySelector('#ladder-room [tabindex=\"0\"]').focus()")
    browser.key("Home")
    for _ in range(8):
        browser.key("ArrowDown")
        if browser.value(f"{FOCUSED}.classList.contains('fold')"):
            break
    shown.is_so(f"{FOCUSED}.classList.contains('fold')")
    browser.key("Enter")
    shown.is_so(f"{FOCUSED}.classList.contains('row')")
    shown.is_so("document.querySelectorAll('#ladder-room .row').length > 200")


def strip_keys(shown, folder, scanner):
    """Bars, findings and lanes of the strip are reached by arrows, and Enter opens what is there."""
    browser = shown.browser
    open_page(shown, folder, scanner, lines.several())
    browser.value("document.querySelector('#lanes').focus()")
    under = "document.querySelector('#under').textContent"
    shown.is_so(f"{under}.startsWith('Call 1: 11111 to 4500')")
    shown.is_so("Number(document.querySelector('#lanes .reached').getAttribute('width')) > 0")
    browser.key("ArrowRight")
    shown.is_so(f"{under}.startsWith('Call 3: 33333 to 4500')")
    browser.key("ArrowRight")
    shown.is_so(f"{under}.startsWith('Packet 28 of the DTE: code 1.')")
    browser.key("ArrowDown", 2)
    shown.is_so(f"{under}.startsWith('Packet 23 of the DCE: code 1.')")
    browser.key("Home")
    browser.key("Enter")
    shown.is_so("location.hash", "#call-2")
    shown.is_so("document.querySelector('#ladder h2').textContent", "Call 2")


def way_back(shown, folder, scanner):
    """Back goes to what was seen before, as far down as it was."""
    browser = shown.browser
    open_page(shown, folder, scanner, lines.several())
    browser.value("document.querySelector('#calls').scrollIntoView()")
    top = browser.value("window.scrollY")
    browser.value("document.querySelector('#call-table a[href=\"#call-3\"]').click()")
    shown.is_so("document.querySelector('#ladder h2').textContent", "Call 3")
    browser.value("document.querySelector('#row-28').dispatchEvent(new MouseEvent('click', {bubbles: true}))")
    shown.is_so("location.hash", "#call-3/28")
    shown.is_so(DETAIL, False)
    browser.key("ArrowDown")
    browser.go_back()
    shown.is_so("location.hash", "#call-3")
    shown.is_so(DETAIL, True)
    browser.go_back()
    shown.is_so("location.hash", "")
    shown.is_so("document.querySelector('#ladder h2').textContent", "Call 2")
    shown.is_so("Math.abs(window.scrollY - %r) < 3" % top)


def find(shown, text):
    """Writes into the find box, and presses Enter there."""
    shown.browser.value(f"(document.querySelector('#find-text').focus(), document.querySelector('#find-text').value = {text!r})")
    shown.browser.key("Enter")


def found(shown, folder, scanner):
    """A packet is found by its number, and a ladder by its call or channel; what is not there is said."""
    open_page(shown, folder, scanner, lines.several())
    note = "document.querySelector('#find-note').textContent"
    for text, part in (("23", "#call-2/23"), ("packet 28", "#call-3/28"), ("call 4", "#call-4"), ("Channel 30", "#call-2")):
        find(shown, text)
        shown.is_so("location.hash", part)
        shown.is_so(note, "")
    find(shown, "1,024")
    shown.is_so(note, "The packets are 1 to 39.")
    find(shown, "call 9")
    shown.is_so(note, "The page has no call 9.")
    find(shown, "frame 9")
    shown.is_so(note, "The trace says no frames.")
    find(shown, "nine")
    shown.is_so(note, "Give the number of a packet, or call 4, or channel 3.")
    shown.browser.key("Escape")
    shown.is_so(note, "")


def named(shown, folder, scanner):
    """Where the trace says frames, packets are named and found by them, and links still lead to packets."""
    open_page(shown, folder, scanner, framed.framed(), "#call-1/7")
    note = "document.querySelector('#find-note').textContent"
    shown.is_so("document.querySelector('#detail h3').textContent.startsWith('Frame 6 (packet 7): data')")
    shown.is_so("[...document.querySelectorAll('.ladder .row .packet')].map((it) => it.textContent).join()", "4,5,6,6,9,10,11,12")
    shown.is_so("document.querySelector('.ladder-head .column').textContent", "frame")
    shown.is_so("document.querySelector('.codes a').textContent", "frame 6 (packet 7)")
    shown.is_so("document.querySelector('.codes a').getAttribute('href')", "#call-1/7")
    shown.is_so("document.querySelector('.call-facts').textContent.includes('frame 4 to frame 11 (packet 10)')")
    if (cells := shown.texts("#finding-table tbody tr:first-child td"))[0] != "6 (packet 7)":
        shown.said.append(f"the first finding is of {cells[0]}")
    numbers = "[...document.querySelectorAll('#packet-lines tr td:first-child')].map((it) => it.textContent).join()"
    shown.is_so(numbers, "4,5,6,6 (packet 7),9 (packet 8),10 (packet 9),11 (packet 10),12 (packet 11)")
    for text, part in (("6", "#call-1/6"), ("packet 7", "#call-1/7"), ("frame 9", "#call-1/8")):
        find(shown, text)
        shown.is_so("location.hash", part)
        shown.is_so(note, "")
    find(shown, "7")
    shown.is_so(note, "No packet of the trace is of frame 7.")
    find(shown, "ten")
    shown.is_so(note, "Give the number of a frame, or call 4, or channel 3.")
    type_in(shown, "#packet-filter", "frame 6")
    shown.is_so("document.querySelectorAll('#packet-lines tr').length", 2)


def listed(shown, folder, scanner):
    """All packets are listed in their order, a hundred at once; a filter keeps those that it names."""
    browser = shown.browser
    open_page(shown, folder, scanner, lines.long_list(300))
    numbers = "[...document.querySelectorAll('#packet-lines tr td:first-child')].map((it) => it.textContent).join()"
    shown.is_so(numbers, ",".join(map(str, range(1, 101))))
    browser.value("[...document.querySelectorAll('#packet-pages button')].find((it) => it.textContent === 'last').click()")
    shown.is_so(numbers, ",".join(map(str, range(601, 605))))
    browser.open(folder / "line.html", "#packets/205")
    shown.is_so("document.querySelector('#packet-lines tr.chosen').id", "listed-205")
    shown.is_so(f"{FOCUSED}.id", "listed-205")
    shown.is_so(numbers, ",".join(map(str, range(201, 301))))
    open_page(shown, folder, scanner, lines.several())
    for text, wanted in (("channel 3", 32), ("channel 30", 3), ("call 4", 4), ("code 1", 3), ("channel 3, reset", 4),
                         ("call 3 dce", 4), ("channel 4 call 3", 0), ("", 39)):
        type_in(shown, "#packet-filter", text)
        shown.is_so("document.querySelectorAll('#packet-lines tr').length", wanted)
    shown.browser.click("#packet-lines #listed-23 td:last-child")
    shown.is_so("location.hash", "#call-2/23")
    shown.browser.value("document.querySelector('#detail a').click()")
    shown.is_so("location.hash", "#packets/23")
    shown.is_so("document.querySelector('#packet-lines tr.chosen').id", "listed-23")


def filtered(shown, folder, scanner):
    """In the filter of calls, channel 3 is channel 3 and not 30, and call 4 is call 4."""
    open_page(shown, folder, scanner, lines.several())
    numbers = "[...document.querySelectorAll('#call-table tbody tr td:first-child')].map((it) => it.textContent).join()"
    for text, wanted in (("channel 3", "1,3"), ("channel 30", "2"), ("call 4", "4"), ("channel 4", "4"), ("CHANNEL 3 ", "1,3"),
                         ("channel", "1,2,3,4"), ("22222", "2"), ("channel 3 33333", "3"), ("4500 busy", "4"),
                         ("code 1", "2,3"), ("channel 5", "None.")):
        type_in(shown, "#call-filter", text)
        shown.is_so(numbers, wanted)


def channels_counted(shown, folder, scanner):
    """The findings are counted by channel."""
    page = open_page(shown, folder, scanner, lines.several())
    if page.facts["found_channels"] != [[3, 2, 0, 28, "call-3"], [30, 0, 1, 23, "call-2"]]:
        shown.said.append(f"findings by channel: {page.facts['found_channels']}")
    cells = shown.texts("#channel-table tbody td")
    if cells != ["3", "2", "2", "0", "packet 28", "30", "1", "0", "1", "packet 23"]:
        shown.said.append(f"the table of channels has {cells}")


def ladders_left_out(shown, folder, scanner):
    """A ladder is left out only where the page would be too large, and the row of its call says so."""
    line = lines.many_calls()
    page = open_page(shown, folder, scanner, line)
    shown.is_so("document.querySelectorAll('.no-ladder').length", 0)
    if page.facts["left_out"]["ladders"] or page.facts["left_out"]["level"]:
        shown.said.append(f"a page of {page.size} octets leaves out {page.facts['left_out']}")
    most = facts.WORDS + 250_000
    with mock.patch.object(facts, "PAGE", most), contextlib.redirect_stderr(io.StringIO()):
        command.main(["--scanner", str(scanner), "-o", str(folder / "small.html"), str(folder / "line.trace")], Waiting())
    page = Page(folder / "small.html")
    if page.size > most or not 0 < page.facts["left_out"]["ladders"] < 400:
        shown.said.append(f"a page of {page.size} octets, {most} at most, leaves out {page.facts['left_out']}")
    shown.browser.open(folder / "small.html")
    shown.browser.value("document.querySelector('#calls .more button').click()")
    row = "Boolean(row.querySelector('.no-ladder')) === !facts.ladders[`call-${row.firstChild.firstChild.textContent}`]"
    shown.is_so(f"[...document.querySelectorAll('#call-table tbody tr')].every((row) => {row})")
    shown.is_so("document.querySelectorAll('.no-ladder').length > 0")
    left = shown.browser.value("calls.find((it) => !facts.ladders[`call-${it.call}`]).call")
    find(shown, f"call {left}")
    shown.is_so("document.querySelector('#ladder pre').textContent",
                f"x25scan < line.trace --annotate --call {left}")


def waits_shown(shown, folder, scanner):
    """The parts on waits and use have the numbers of the facts, and their links lead to the packets."""
    open_page(shown, folder, scanner, waited.requests())
    cells = shown.texts("#wait-table tbody tr:first-child td")
    if cells != ["6", "call request", "Call 2", "2", "once", "4 min 10 s", "T21, 200 sthe wait was longer",
                 "no answer: the sender ended it"]:
        shown.said.append(f"the longest wait is {cells}")
    shown.is_so("document.querySelectorAll('#wait-table tbody tr').length", 5)
    cells = shown.texts("#request-table tbody tr:nth-child(5) td")
    if cells != ["T21 200 s", "call request", "DTE", "3", "2", "1", "4 min 10 s packet 6"]:
        shown.said.append(f"T21 has {cells}")
    shown.browser.click("#wait-table tbody tr td:nth-child(3)")
    shown.is_so("location.hash", "#call-2/6")
    open_page(shown, folder, scanner, waited.closed(), "#call-1")
    if (cells := shown.texts("#closed-table tbody tr:first-child td")) != ["Call 1", "1", "DCE", "10 s", "packet 7", "packet 9"]:
        shown.said.append(f"the longest closed window is {cells}")
    shown.is_so("document.querySelector('#ladder .call-facts').textContent"
                ".includes('window of the DCE closed10 s at most, from packet 7')")
    open_page(shown, folder, scanner, waited.used())
    shown.is_so("[...document.querySelectorAll('#charts svg')].map((it) => it.getAttribute('aria-label')).join()",
                "packets a minute: at most 420,octets of accepted data a minute: at most 6,000")
    shown.is_so("document.querySelectorAll('#charts svg rect').length", 2 * len(page_parts(folder)))
    shown.is_so("document.querySelector('#use li').textContent", "Data of the DTE: 34.9 octets a segment. "
                "3 of 7 segments hold fewer than 32 octets.")
    cells = shown.texts("#cause-table tbody tr:first-child td:not(:nth-child(3))")
    if cells != ["cleared by the DTE", "0 (DTE originated)", "2", "2", "call 2"]:
        shown.said.append(f"the most frequent cause is {cells}")


def page_parts(folder):
    """The parts of the chart of the page that is open."""
    return Page(folder / "line.html").facts["use"]["parts"]["parts"]


CASES = {
    "headings and skip link": headings, "what Tab reaches": tabbed, "keys in a ladder": ladder_keys,
    "keys in a long ladder": long_ladder_keys, "keys in the strip": strip_keys, "the way back": way_back,
    "the find box": found, "names by frames": named, "the list of all packets": listed, "the filter of calls": filtered,
    "findings by channel": channels_counted, "waits and use in the browser": waits_shown, "ladders that are left out": ladders_left_out,
}


def outcomes(shown, scanner, folder):
    """Names of tests, and what is wrong with each."""
    for name, case in CASES.items():
        case(shown, pathlib.Path(folder), scanner)
        yield name, shown.faults()
