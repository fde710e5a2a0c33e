"""Pages of tables as the tests read them: the rows of their tables, and what comes before these."""
from __future__ import annotations

import html
import pathlib
import re
import subprocess
import tempfile
import unittest

from pages import OUTSIDE, POLICY, PROGRAM, ROOT, SECONDS, run

EXAMPLES, FILES = ROOT / "examples", ROOT / "tests" / "captures" / "files"
SEVEN, OVERLAPPING = EXAMPLES / "seven-calls.trace", EXAMPLES / "overlapping-calls.trace"
TABLE = re.compile(r'<table id="([^"]*)".*?<tbody[^>]*>(.*?)</tbody></table>', re.DOTALL)
ROW, CELL = re.compile(r"<tr[^>]*>(.*?)</tr>"), re.compile(r"<td([^>]*)>(.*?)</td>")
TAG = re.compile(r"<[^>]*>")
LINK = re.compile(r'<a href="([^"]*)">')
# The program that the tests ask, as the suite names it.
SCANNER = pathlib.Path()


def plain(markup: str) -> str:
    """The text of some markup, a space between its parts."""
    return " ".join(html.unescape(TAG.sub("\0", markup)).replace("\0", " ").split())


class Lists:
    """A page of tables in a file."""

    def __init__(self, path: pathlib.Path) -> None:
        self.text = path.read_text(encoding="ascii")
        self.body = self.text[self.text.index("<main>"):self.text.index("</main>")]
        # The rows of each table by its name, each row the texts of its cells.
        self.tables = {name: [[plain(it) for _, it in CELL.findall(row)] for row in ROW.findall(body)]
                       for name, body in TABLE.findall(self.body)}
        self.links = LINK.findall(self.body)
        self.policy = POLICY.search(self.text)[1]

    def outside(self) -> list[str]:
        """What of it asks for something from outside; links to pages in the same folder do not."""
        return OUTSIDE.findall(LINK.sub("<a>", self.text))


class InFolder(unittest.TestCase):
    """Each test runs in a folder of its own."""

    def setUp(self) -> None:
        held = tempfile.TemporaryDirectory()
        self.addCleanup(held.cleanup)
        self.folder = pathlib.Path(held.name)

    def page(self, *words: object, **how: object) -> subprocess.CompletedProcess:
        return run("--scanner", SCANNER, *words, cwd=self.folder, **how)

    def there(self, folder: str = ".") -> list[str]:
        return sorted(it.name for it in (self.folder / folder).iterdir())

    def copy(self, source: pathlib.Path, name: str) -> pathlib.Path:
        """Copies a file to a name in the folder."""
        path = self.folder / name
        path.parent.mkdir(parents=True, exist_ok=True)
        path.write_bytes(source.read_bytes())
        return path

    def refused(self, status: int, words: str, *line: object) -> None:
        """A run that writes nothing, and says why in one of its lines."""
        before = sorted(str(it) for it in self.folder.rglob("*"))
        done = self.page(*line)
        self.assertEqual((done.returncode, done.stdout), (status, b""), done.stderr)
        self.assertIn(words, done.stderr.decode())
        self.assertNotIn("Traceback", done.stderr.decode())
        self.assertEqual(sorted(str(it) for it in self.folder.rglob("*")), before)


__all__ = ["EXAMPLES", "FILES", "OVERLAPPING", "PROGRAM", "ROOT", "SECONDS", "SEVEN", "InFolder", "Lists"]
