"""Tests that the outputs in docs/CAPTURES.md are those of the program."""
import contextlib
import io
import os
import pathlib
import re
import unittest

import calls
from x25trace_lib import command

HERE = pathlib.Path(__file__).resolve().parent
PAGE = HERE.parent.parent / "docs" / "CAPTURES.md"
# A block of text that begins with a call on one of the committed captures, perhaps with its output sent to a file.
CALL = re.compile(
    r"```text\n\$ bin/x25trace ([^>\n]*?\.(?:pcap|pcapng|txt))( > \S+)?\n(.*?)(?:\$ .*?)?```", re.DOTALL
)


class Pages(unittest.TestCase):
    def test_outputs(self):
        os.chdir(HERE / "files")
        found = CALL.findall(PAGE.read_text())
        self.assertGreater(len(found), 2)
        for words, sent, output in found:
            out, errors = io.StringIO(), io.StringIO()
            with contextlib.redirect_stdout(out), contextlib.redirect_stderr(errors):
                command.main(["--scanner", str(calls.SCANNER), *words.split()])
            self.assertEqual(("" if sent else out.getvalue()) + errors.getvalue(), output, words)
