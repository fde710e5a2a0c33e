"""A page on paper and on a small screen: nothing is cut, and what is said on a wide screen is there too."""
import pathlib
import re
import shutil
import subprocess

import lines
from pages import SECONDS
from reached import open_page

# The width and height of the paper in millimetres.
PAPERS = {"A4": (210, 297), "Letter": (215.9, 279.4)}
POINTS = 72 / 25.4
# Somewhat less than the margins of the page, 12 millimetres.
MARGIN = 11 * POINTS
WORD = re.compile(r'<word xMin="([-\d.]+)" yMin="([-\d.]+)" xMax="([-\d.]+)" yMax="([-\d.]+)">(.*?)</word>')
# What is at the right edge of the ladder, of the strip and of each table.
SAID = ("diagnostic 1 (invalid P(S))", "Code 1: Invalid P(S)", "channel 30", "How it ended", "number busy", "packet 28",
        "CLEAR INDICATION", "What was wrong")
NARROW = 400
# Widths between those of a telephone and of a wide screen, in pixels.
WIDTHS = (640, 641, 900, 1100, 1240, 1241)
# Each text of the drawings and of the tables.
TEXTS = """[...document.querySelectorAll('#ladder-room text, #lanes text, table.cards td')].flatMap((it) => {
  const walker = document.createTreeWalker(it, NodeFilter.SHOW_TEXT), found = [];
  while (walker.nextNode()) found.push(walker.currentNode.data);
  return found;
})"""
# What hides a part of a chip of the ladder, and the texts that lie on a chip or on a lifeline.
HIDDEN = """(() => {
  const all = (selector) => [...document.querySelectorAll(`#ladder-room ${selector}`)];
  const meet = (one, other) => {
    const [a, b] = [one.getBoundingClientRect(), other.getBoundingClientRect()];
    return a.left < b.right && b.left < a.right && a.top < b.bottom && b.top < a.bottom;
  };
  const isAbove = (one, other) => other.compareDocumentPosition(one) & Node.DOCUMENT_POSITION_FOLLOWING;
  const chips = all('.state rect'), lifelines = all('.life'), texts = all('text').filter((it) => !it.closest('.state'));
  const over = (chip) => [...lifelines, ...all('.back')].filter((it) => isAbove(it, chip) && meet(it, chip));
  const found = chips.flatMap((chip) => over(chip).map((it) => `${it.classList} over ${chip.parentNode.textContent}`));
  found.push(...texts.filter((text) => [...chips, ...lifelines].some((it) => meet(text, it))).map((it) => it.textContent));
  return found.join('; ');
})()"""


def words_on(path):
    """The words of a printed page, each with its four edges, and the width and height of the paper in points."""
    done = subprocess.run(["pdftotext", "-bbox", path, "-"], capture_output=True, text=True, timeout=SECONDS, check=True)
    size = re.search(r'<page width="([\d.]+)" height="([\d.]+)"', done.stdout)
    return [(*map(float, it.groups()[:4]), it[5]) for it in WORD.finditer(done.stdout)], *map(float, size.groups())


def cut_words(path):
    """The words that do not lie within the margins: a page cuts what goes beyond them."""
    found, width, height = words_on(path)
    return [f"{word} lies at {left}, {top} to {right}, {bottom} of {width}, {height}" for left, top, right, bottom, word in found
            if left < MARGIN or right > width - MARGIN or top < MARGIN or bottom > height - MARGIN]


def text_on(path):
    """The text of a printed page, with a space between words."""
    done = subprocess.run(["pdftotext", path, "-"], capture_output=True, text=True, timeout=SECONDS, check=True)
    return " ".join(done.stdout.split())


def on_paper(shown, folder, scanner, paper):
    """Each word lies on the paper, and no text of a drawing or of a table is missing."""
    open_page(shown, folder, scanner, lines.several(), "#call-3/28")
    path = folder / f"{paper}.pdf"
    shown.browser.print(path, *PAPERS[paper])
    _, *size = words_on(path)
    if any(abs(got - wanted * POINTS) > 2 for got, wanted in zip(size, PAPERS[paper])):
        shown.said.append(f"the paper has {size} points")
    shown.said += cut_words(path)
    text = text_on(path)
    shown.said += [f"{paper} does not say {words!r}" for words in SAID if words.replace(" ", "") not in text.replace(" ", "")]
    squeezed = "".join(text.split())
    drawn = shown.browser.value(TEXTS)
    shown.said += [f"{paper} does not have {it!r}" for it in drawn if "".join(it.split()) not in squeezed][:5]


def of_long_ladders(shown, folder, scanner):
    """No page ends within a row of a ladder, or within a lane."""
    line = lines.Line()
    for channel in range(1, 40):
        line.call(channel, calling="123456789012345", called="543210987654321")
    for at in range(60):
        line.data(1, "N" if at % 2 else "T", (5, 0))
        line.on(1, "N", "1B0501")
        line.on(1, "T", "1F")
    open_page(shown, folder, scanner, line, "#call-1/100")
    for paper, size in PAPERS.items():
        shown.browser.print(folder / "ladder.pdf", *size)
        shown.said += cut_words(folder / "ladder.pdf")[:5]
        text = "".join(text_on(folder / "ladder.pdf").split())
        shown.said += [f"{paper} has no packet {at}" for at in (1, 100, 200, 258) if f"{at}+" not in text]
    shown.is_so("document.querySelectorAll('#ladder-room svg').length", 1)


def of_long_tables(shown, folder, scanner):
    """What a table does not show is not printed, and the paper says so."""
    line = lines.Line()
    for at in range(70):
        line.call(1 + at % 4, calling=f"{at + 1:05}")
        line.clear(1 + at % 4)
    open_page(shown, folder, scanner, line)
    shown.browser.print(folder / "long.pdf", *PAPERS["A4"])
    text = text_on(folder / "long.pdf")
    if "20 more are not printed" not in text:
        shown.said.append("the paper does not say how many calls are not printed")


def narrow(shown, folder, scanner):
    """At 400 pixels nothing is wider than the screen; the parts, both sides and what was wrong are seen."""
    browser = shown.browser
    browser.resize(NARROW, 800)
    open_page(shown, folder, scanner, lines.several(), "#call-3/28")
    shown.is_so("document.documentElement.scrollWidth", NARROW)
    shown.is_so("document.querySelector('#nav a').getBoundingClientRect().height > 0")
    shown.is_so("document.querySelector('.top').getBoundingClientRect().bottom > 20")
    inside = f"(it) => it.getBoundingClientRect().left >= 0 && it.getBoundingClientRect().right <= {NARROW}"
    for selector in ("#ladder-room text", "#ladder-head text", "#ladder-room .arrow", ".tile", ".side", "#lanes svg",
                     "#call-table td", "#packet-table td", "#detail pre"):
        shown.is_so(f"[...document.querySelectorAll({selector!r})].every({inside})")
    shown.is_so("[...document.querySelectorAll('#ladder-head .head text')].map((it) => it.textContent).join()", "DTE,DCE")
    shown.is_so("document.querySelector('#row-28').textContent.includes('P(S) 2 where 0 to 1 were allowed.')")
    shown.is_so("getComputedStyle(document.querySelector('#call-table tbody tr')).display", "block")
    shown.is_so("getComputedStyle(document.querySelector('#call-table td'), '::before').content", '"Call"')
    # No name of a cell lies on the next one.
    shown.is_so("[...document.querySelectorAll('.cards td')].every((it) => it.offsetHeight >= 20 || !it.offsetHeight)")
    shown.is_so("[...document.querySelectorAll('#request-table td')].every((it) => it.scrollHeight <= it.offsetHeight)")
    shown.is_so("document.querySelector('#call-table [role=columnheader] button').getBoundingClientRect().height > 0")
    browser.resize(browser.width, browser.height)
    shown.is_so("document.querySelector('.ladder').viewBox.baseVal.width > 1000")


def of_widths(shown, folder, scanner):
    """At no width between is anything wider than the screen."""
    browser = shown.browser
    open_page(shown, folder, scanner, lines.several(), "#call-3/28")
    for width in WIDTHS:
        browser.resize(width, 800)
        shown.is_so("document.documentElement.scrollWidth", width)
    browser.resize(browser.width, browser.height)


def of_narrow_ladders(shown, folder, scanner):
    """At 400 pixels no lifeline and no row lies on a chip, and no text on a chip or a lifeline."""
    browser, line = shown.browser, lines.Line()
    line.call(1)
    # Code 43, whose name is as long as a line, after a row with chips and without a note.
    line.on(1, "T", "27")
    line.on(1, "N", "1B0501")
    line.on(1, "T", "1F")
    line.data(1, "T", (0, 0))
    line.clear(1)
    browser.resize(NARROW, 800)
    open_page(shown, folder, scanner, line, "#call-1/3")
    shown.is_so("document.querySelectorAll('#ladder-room .state').length", 14)
    shown.is_so("document.querySelector('#row-3').textContent.includes('Code 43')")
    shown.is_so(HIDDEN, "")
    browser.resize(browser.width, browser.height)


def outcomes(shown, scanner, folder):
    """Names of tests, and what is wrong with each."""
    folder = pathlib.Path(folder)
    narrow(shown, folder, scanner)
    yield "at 400 pixels", shown.faults()
    of_narrow_ladders(shown, folder, scanner)
    yield "ladders at 400 pixels", shown.faults()
    of_widths(shown, folder, scanner)
    yield "from 640 to 1241 pixels", shown.faults()
    if shutil.which("pdftotext") is None:
        print("pdftotext is not installed: no printed page is read")
        return
    for paper in PAPERS:
        on_paper(shown, folder, scanner, paper)
        yield f"on {paper}", shown.faults()
    of_long_ladders(shown, folder, scanner)
    yield "long ladders on paper", shown.faults()
    of_long_tables(shown, folder, scanner)
    yield "long tables on paper", shown.faults()
