"""Tests of the program as it is called: what is refused, its streams, its exit status and its command line."""
import bz2
import fcntl
import lzma
import os
import pathlib
import signal
import subprocess
import sys
import tempfile
import termios
import time
import unittest

import forked
from forms import Talk, cooked_1, enhanced, ethernet, interface, pcap, section, snoop
from link_cases import conversation, packets_of
from x25trace_lib.command import program

FILES = pathlib.Path(__file__).resolve().parent / "files"
PROGRAM = FILES.parent.parent.parent / "bin" / "x25trace"
SECONDS = 60
# The x25scan that tries headers, as the suite names it.
SCANNER = pathlib.Path()


def wait_for_more(running):
    """Waits until a program has read all that its pipe holds, and waits for more."""
    end = time.monotonic() + SECONDS
    while time.monotonic() < end:
        unread = int.from_bytes(fcntl.ioctl(running.stdin, termios.FIONREAD, bytes(4)), sys.byteorder)
        state = pathlib.Path(f"/proc/{running.pid}/stat").read_text().rpartition(") ")[2].split()[0]
        if not unread and state == "S":
            return
        time.sleep(0.02)


def run(*words, cwd=".", input=b""):
    """Runs x25trace in a copy of this process."""
    return forked.run(program, ["--scanner", SCANNER, *words], cwd, input)


class Refused(unittest.TestCase):
    """Each file gives no trace, a named reason on standard error, and status 2."""

    def refused(self, octets, why, *words):
        with tempfile.NamedTemporaryFile(suffix=".pcap") as file:
            file.write(octets)
            file.flush()
            self.judge(run(*words, file.name), why)

    def judge(self, done, why):
        self.assertEqual((done.returncode, done.stdout), (2, b""), done.stderr)
        self.assertIn(f"x25trace: {why}: ".encode(), done.stderr)
        self.assertNotIn(b"Traceback", done.stderr)

    def test_no_such_file(self):
        self.judge(run("/nowhere/to/be/found.pcap"), "Absent")

    def test_folder(self):
        self.judge(run(FILES), "Folder")

    def test_empty(self):
        self.refused(b"", "Empty")

    def test_packed_otherwise(self):
        self.refused(bz2.compress((FILES / "ethernet.pcap").read_bytes()), "Compressed")
        self.refused(lzma.compress((FILES / "ethernet.pcap").read_bytes()), "Compressed")

    def test_other_file(self):
        self.refused(b"\x7fELF\2\1\1" + bytes(100), "UnknownFormat")

    def test_what_is_said_of_another_file(self):
        reads = "no pcap, pcapng, snoop, hex dump or trace; it begins with"
        said = (
            (b"\xff\xd8\xff\xe0\0\x10JFIF", f"{reads} FF D8 FF E0; editcap -F pcapng FILE OUT.pcapng turns what Wireshark opens"),
            (b"\n# The program\nreads\n", f'{reads} "# The program"'),
            (b"a line of more than 24 octets", f'{reads} "a line of more than 24 o"'),
            ("X25 1 MOD 8".encode("utf-16"), "a text in UTF-16; iconv -f UTF-16 -t ASCII FILE turns a trace or a hex dump into one that is read"),
        )
        for octets, words in said:
            self.assertIn(f"UnknownFormat: standard input is {words}\n".encode(), run("-", input=octets).stderr)

    def test_what_is_said_of_a_capture_without_packets(self):
        web = Talk(ports=(2000, 80))
        for octets, words in (
            (pcap(1, []), "the capture has no frame"),
            (pcap(1, [bytes(14)]), "no packet of X.25 in 1 frame"),
            (pcap(1, [ethernet(it) for it in web.open()]), "no packet of X.25 in 3 frames: XOT is looked for on TCP port 1998, and --port N names another"),
        ):
            self.assertIn(f"NoPacket: {words}\n".encode(), run("-", input=octets).stderr)

    def test_file_that_editcap_turns(self):
        for start in (b"TRSNIFF data    \x1a", b"XCP\0002.0", b"RTSS", b"GMBU", b"\x1c\0\1\xac", b"\xab\1\0\x1c"):
            self.refused(start + bytes(100), "UnknownFormat")
            done = run("-", input=start + bytes(100))
            self.assertIn(b"editcap -F pcapng FILE OUT.pcapng", done.stderr)

    def test_headers_cut(self):
        self.refused(pcap(1, [])[:20], "UnknownFormat")
        self.refused(snoop(4, [])[:12], "UnknownFormat")
        self.refused(snoop(4, []).replace(b"\0\0\0\2", b"\0\0\0\3"), "UnknownFormat")

    def test_section_without_byte_order(self):
        self.refused(section()[:8] + b"\0\0\0\0" + section()[12:], "UnknownFormat")

    def test_hex_dump_without_a_kind(self):
        self.refused(b"0000  10 01 0b 00 00\n", "KindMissing")

    def test_no_frame(self):
        self.refused(section() + interface(1), "NoPacket")

    def test_no_packet(self):
        self.refused(pcap(1, [ethernet(bytes(46), 0x0806)]), "NoPacket")

    def test_unknown_link_type(self):
        """What does not look like LAPB is not read as such; a link type that is no user's is not tried."""
        self.refused(pcap(147, [octets for _, octets in packets_of()]), "NoPacket")
        line = (FILES / "lapb-on-a-user-link-type.pcap").read_bytes()
        self.refused(line[:20] + (163).to_bytes(4, "little") + line[24:], "NoPacket")
        done = run("x25-with-direction-on-a-user-link-type.pcap", cwd=FILES)
        words = b"--as 147=KIND says what it holds: ethernet, sll, sll2, ip, lapb, lapb-dir, hdlc, x25 or x25-dir\n"
        self.assertIn(b"x25trace: frame 1: link type 147 is not known; " + words, done.stderr)

    def test_two_carriers(self):
        frames = [cooked_1(one, 4) for one in conversation()] + [cooked_1(one, 4, 0x0805) for _, one in packets_of()]
        self.refused(pcap(113, frames), "Mixed")

    def test_contradicting_header(self):
        self.refused((FILES / "ethernet.pcap").read_bytes(), "Header", "--pvc", "5", "--svc", "3")
        self.refused((FILES / "ethernet.pcap").read_bytes(), "Header", "--win", "8")


class Called(unittest.TestCase):
    """What the program does with its words and streams."""

    def test_program_and_pipe(self):
        capture = (FILES / "ethernet.pcap").read_bytes()
        for name in ("ethernet.pcap", "tcp-not-xot.pcap", "pcapng-damaged-block.pcapng"):
            done = run(name, cwd=FILES)
            self.assertEqual(done.stdout, (FILES / name).with_suffix(".trace").read_bytes())
            self.assertIn(b"x25trace: left out: ", done.stderr)
        piped = run("-", input=capture)
        want = (FILES / "ethernet.trace").read_bytes().replace(b"from ethernet.pcap", b"from standard input")
        self.assertEqual((piped.returncode, piped.stdout), (0, want))

    def test_user_link_types(self):
        """LAPB is tried for the link types of users, with a check sequence and without one, as the first frame looks."""
        for name, kind in (("lapb-on-a-user-link-type", "lapb"), ("hdlc-with-check-sequence", "hdlc"), ("hdlc-with-flags", "hdlc")):
            octets = (FILES / f"{name}.pcap").read_bytes()
            for link in (147, 155, 162):
                done = run("-", input=octets[:20] + link.to_bytes(4, "little") + octets[24:])
                words = f"frame 1 looks like LAPB, so link type {link} is read as {kind}; --as {link}=KIND reads it as something else"
                self.assertEqual(done.returncode, 0)
                self.assertIn(f"x25trace: {words}\n".encode(), done.stderr)
                self.assertIn(f"# {words}\n".encode(), done.stdout)
                rows = [line for line in (FILES / f"{name}.trace").read_bytes().splitlines() if line[:1] != b"#"]
                self.assertEqual([line for line in done.stdout.splitlines() if line[:1] != b"#"], rows)

    def test_kind_that_is_none(self):
        done = run("--as", "147=x26", "a")
        words = b"argument --as: 'x26' is no kind: it is ethernet, sll, sll2, ip, lapb, lapb-dir, hdlc, x25 or x25-dir\n"
        self.assertTrue(done.stderr.startswith(b"x25trace: " + words + b"usage: x25trace "), done.stderr)

    def test_version(self):
        """It needs no file."""
        done = run("--version")
        self.assertEqual(done.returncode, 0)
        self.assertRegex(done.stdout, rb"\Ax25trace \d+\.\d+\.\d+\S*\n\Z")

    def test_quiet(self):
        """Only why there is no trace is said; the trace has the messages."""
        whole = run("tcp-gap-and-next-connection.pcap", cwd=FILES)
        done = run("--quiet", "tcp-gap-and-next-connection.pcap", cwd=FILES)
        self.assertEqual((done.returncode, done.stdout, done.stderr), (1, whole.stdout, b""))
        done = run("--quiet", "absent")
        self.assertEqual((done.returncode, done.stderr), (2, b"x25trace: Absent: there is no file absent\n"))

    def test_host_that_is_not_there(self):
        done = run("--dte", "192.0.2.9", "ethernet.pcap", cwd=FILES)
        self.assertEqual(done.returncode, 2)
        self.assertIn(b"NoPacket: no connection of XOT has the host of --dte; the hosts are 192.0.2.1, 192.0.2.2\n", done.stderr)
        done = run("--dte", "52:54:00:00:00:09", "lapb-over-ethernet.pcap", cwd=FILES)
        self.assertEqual(done.returncode, 2)
        self.assertIn(b"NoPacket: no frame is from 52:54:00:00:00:09: the link addresses are ", done.stderr)

    def test_only_one_carrier(self):
        frames = [cooked_1(one, 4) for one in conversation()] + [cooked_1(one, 4, 0x0805) for _, one in packets_of()]
        for carrier, rows, status in (("xot", 6, 0), ("x25", 8, 1)):
            done = run("--only", carrier, "-", input=pcap(113, frames))
            self.assertEqual(done.returncode, status, done.stderr)
            self.assertEqual(b"x25trace: only the DTE was recorded\n" in done.stderr, status == 1)
            self.assertEqual(sum(line[0:1].isdigit() for line in done.stdout.splitlines()), rows)
            self.assertIn(b"packets that --only does not name", done.stderr)

    def test_words(self):
        refused = ("--win 0 a", "--size 100 a", "--dte host a", "--as 147=x26 a", "", "--sender 0=t a",
                   "--svc 4 --in 2 a", "--join --no-join a", "--wi 2 a", "- -")
        for words in refused:
            done = run(*words.split())
            self.assertEqual((done.returncode, done.stdout), (64, b""), words)

    def test_comments_refused(self):
        """Nothing is written where the capture cannot be read twice, would be lost, or has no link type."""
        with tempfile.TemporaryDirectory() as folder:
            out, same = pathlib.Path(folder, "out.pcapng"), pathlib.Path(folder, "same.pcap")
            same.write_bytes((FILES / "ethernet.pcap").read_bytes())
            lines = (
                (64, b"it needs a file, not a pipe", ["-"], {"input": same.read_bytes()}),
                (64, b"name another file", [same], {}),
                (2, b"dump-of-packets.txt says no link type", ["--as", "x25", "dump-of-packets.txt"], {}),
                (2, b"x25trace: NoPacket: ", ["--port", "99", same], {}),
                (3, b"x25trace: reading or writing failed: ", ["--scanner", "/nowhere/x25scan", same], {}),
            )
            for status, words, more, streams in lines:
                target = same if words == lines[1][1] else out
                done = run("--comments", target, *more, cwd=FILES, **streams)
                self.assertEqual((done.returncode, done.stdout), (status, b""), done.stderr)
                self.assertIn(words, done.stderr)
                self.assertFalse(out.exists())
            self.assertEqual(same.read_bytes(), (FILES / "ethernet.pcap").read_bytes())

    def test_help(self):
        done = run("--help")
        self.assertEqual((done.returncode, done.stderr), (0, b""))
        for word in (b"examples:", b"exit status:", b"--dte", b"x25scan"):
            self.assertIn(word, done.stdout)


class Streams(unittest.TestCase):
    """Streams that are closed, folders, or end early: never a traceback."""

    def through_shell(self, words):
        command = ["bash", "-c", f'"$0" --scanner "$1" {words}', PROGRAM, SCANNER]
        done = subprocess.run(command, capture_output=True, cwd=FILES, timeout=SECONDS)
        self.assertNotIn(b"Traceback", done.stderr)
        self.assertNotIn(b"Fatal", done.stderr)
        return done.returncode, done.stdout, done.stderr.splitlines()

    def test_closed_streams(self):
        trace = (FILES / "ethernet.trace").read_bytes()
        self.assertEqual(self.through_shell("- <&-"), (2, b"", [b"x25trace: Unreadable: standard input is closed"]))
        self.assertEqual(self.through_shell("ethernet.pcap <&-")[:2], (0, trace))
        closed = [b"x25trace: reading or writing failed: standard output is closed"]
        self.assertEqual(self.through_shell("ethernet.pcap >&-"), (3, b"", closed))
        self.assertEqual(self.through_shell("ethernet.pcap 2>&-"), (0, trace, []))
        self.assertEqual(self.through_shell("ethernet.pcap <&- 2>&-"), (0, trace, []))
        self.assertEqual(self.through_shell("--win 0 ethernet.pcap 2>&-"), (64, b"", []))

    def test_folders(self):
        self.assertEqual(self.through_shell("- < ."), (2, b"", [b"x25trace: Folder: standard input is a folder"]))
        folder = [b"x25trace: reading or writing failed: standard output is a folder"]
        self.assertEqual(self.through_shell("ethernet.pcap 1< ."), (3, b"", folder))

    @unittest.skipUnless(os.path.exists("/dev/full"), "there is no /dev/full")
    def test_full_output(self):
        status, _, errors = self.through_shell("ethernet.pcap > /dev/full")
        self.assertEqual((status, errors[-1:]), (3, [b"x25trace: reading or writing failed: No space left on device"]))

    def test_closed_pipe(self):
        """It ends by the signal, as other programs of a pipeline do, and says nothing."""
        reader = subprocess.Popen(["true"], stdin=subprocess.PIPE)
        reader.wait()
        words = [PROGRAM, "--win", "2", "--size", "128", FILES / "ethernet.pcap"]
        done = subprocess.run(words, stdout=reader.stdin, stderr=subprocess.PIPE, timeout=SECONDS)
        reader.stdin.close()
        self.assertEqual((done.returncode, done.stderr), (-signal.SIGPIPE, b""))

    def test_name_that_is_no_utf_8(self):
        with tempfile.TemporaryDirectory() as folder:
            name = os.path.join(os.fsencode(folder), b"day\xff\n.pcap")
            with open(name, "wb") as file:
                file.write((FILES / "ethernet.pcap").read_bytes())
            done = run(name)
            want = (FILES / "ethernet.trace").read_bytes().replace(b"from ethernet.pcap", b"from day??.pcap")
            self.assertEqual((done.returncode, done.stdout), (0, want))
            done = run(name + b"x")
            self.assertEqual((done.returncode, done.stdout), (2, b""))
            self.assertIn(b"x25trace: Absent: ", done.stderr)

    def test_wrong_kind(self):
        """A message for each of 1,000 frames is printed a few times, and then counted."""
        frames = [ethernet(one) for one in conversation()] * 84
        for kind in ("hdlc", "ip", "lapb", "lapb-dir", "x25", "sll", "sll2"):
            done = run("--as", f"1={kind}", "-", input=pcap(1, frames))
            self.assertEqual(done.returncode, 2, kind)
            self.assertLess(len(done.stderr.splitlines()), 12, kind)
            self.assertIn(b"1008", done.stderr, kind)
            self.assertIn(f"with frames read as {kind}: another KIND of --as may be right\n".encode(), done.stderr)

    def test_interrupted(self):
        """What was read before is written, with what was left out; the status is 130."""
        capture = (FILES / "ethernet.pcap").read_bytes()
        words = [PROGRAM, "-"]
        streams = {"stdin": subprocess.PIPE, "stdout": subprocess.PIPE, "stderr": subprocess.PIPE}
        with subprocess.Popen(words, **streams) as running:
            running.stdin.write(capture[:-30])
            running.stdin.flush()
            wait_for_more(running)
            running.send_signal(signal.SIGINT)
            out, errors = running.communicate(timeout=SECONDS)
        words = b"interrupted: the trace is of what was read before, 11 frames"
        self.assertEqual(running.returncode, 130)
        self.assertIn(b"x25trace: " + words + b"\n", errors)
        self.assertIn(b"\n# " + words + b"\n", out)
        rows = [line for line in (FILES / "ethernet.trace").read_bytes().splitlines() if line[:1].isdigit()]
        self.assertEqual([line for line in out.splitlines() if line[:1].isdigit()], rows)


class Rotated(unittest.TestCase):
    """The files of a rotated capture are read as one, frames numbered on."""

    def run_on(self, *files):
        with tempfile.TemporaryDirectory() as folder:
            for name, octets in files:
                pathlib.Path(folder, name).write_bytes(octets)
            return run(*(name for name, _ in files), cwd=folder)

    def rows_of(self, done):
        return [line for line in done.stdout.splitlines() if not line.startswith(b"#")]

    def test_parts_of_a_capture(self):
        frames = [ethernet(one) for one in conversation()]
        blocks = section() + interface(1) + b"".join(map(enhanced, frames[5:]))
        done = self.run_on(("day.pcap0", pcap(1, frames[:3])), ("day.pcap1", pcap(1, frames[3:5], ">", begin=3)),
                           ("day.pcap2", pcap(1, [])), ("day.pcapng", blocks))
        whole = run("ethernet.pcap", cwd=FILES)
        self.assertEqual((done.returncode, self.rows_of(done)), (0, self.rows_of(whole)))
        self.assertEqual(done.stderr, whole.stderr.replace(b": left out", b": 4 captures: left out"))
        self.assertIn(b"# from 4 captures by x25trace, 12 frames;", done.stdout)
        for number, name in ((1, "day.pcap0"), (4, "day.pcap1"), (6, "day.pcap2"), (6, "day.pcapng")):
            self.assertIn(f"\n# frames from {number} on are of {name}\n".encode(), done.stdout)

    def test_order_of_times(self):
        """Files that are not in the order of their times are read as they come, and a message says so."""
        frames = [ethernet(one) for one in conversation()]
        done = self.run_on(("day.pcap10", pcap(1, frames[:6], begin=6)), ("day.pcap2", pcap(1, frames[6:])))
        words = b"x25trace: day.pcap2 begins before the file before it ends: give the files in the order of their times, or "
        words += b"join them with mergecap\n"
        self.assertEqual(done.returncode, 0)
        self.assertIn(words, done.stderr)

    def test_damage_of_one(self):
        frames = [ethernet(one) for one in conversation()]
        done = self.run_on(("a", pcap(1, frames[:6]) + b"abc"), ("b", pcap(1, frames[6:], begin=6)))
        self.assertEqual(done.returncode, 1)
        self.assertIn(b"x25trace: a, offset 468: the file ends inside of a record's header", done.stderr)

    def test_refused_before_it_is_read(self):
        good = (FILES / "ethernet.pcap").read_bytes()
        for why, octets in (("Empty", b""), ("UnknownFormat", b"\x7fELF"), ("Compressed", bz2.compress(good))):
            done = self.run_on(("a", good), ("b", octets))
            self.assertEqual((done.returncode, done.stdout), (2, b""))
            self.assertIn(f"x25trace: {why}: b ".encode(), done.stderr)
            self.assertNotIn(b"left out", done.stderr)
        done = run("ethernet.pcap", "nothing-here.pcap", cwd=FILES)
        self.assertIn(b"x25trace: Absent: there is no file nothing-here.pcap\n", done.stderr)
