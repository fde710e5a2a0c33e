"""Tests of links: their ends, their held frames, how they begin, and which of them are recordings of one."""
import contextlib
import io
import pathlib
import tempfile
import unittest

from forms import enhanced, interface, pcap, section
from x25tools_lib.choices import Carrier, SideBy
from x25tools_lib.ledger import Ledger, Topic
from x25tools_lib.sides import Side
from x25trace_lib import command
from x25trace_lib.beginning import Beginning
from x25trace_lib.frames import Direction, Frame
from x25trace_lib.lapb import Lapb
from x25trace_lib.lines import Line, Lines, preferred
from x25trace_lib.link_ends import Ends
from x25trace_lib.packets import Missing, Packet
from x25trace_lib.window import Window

HERE, THERE = bytes.fromhex("525400000001"), bytes.fromhex("525400000002")
READY = b"\x10\1\x21"
SABM, UA = b"\1\x3f", b"\3\x73"


def frame(number, octets, source=b"", direction=Direction.UNKNOWN):
    return Frame(number, 1, octets, len(octets), direction, source=source)


class Link:
    """A link between two DTEs of LAPB, whose frames have link addresses."""

    def __init__(self, side_by=None, swapped=False, stations=None):
        self.ledger, self.messages = Ledger(), []
        self.ledger.keep = self.messages.append
        self.lapb = Lapb(self.ledger, None, Ends(self.ledger, side_by, swapped, stations or {}))
        self.items, self.number = [], 0
        for source, octets in ((HERE, SABM), (THERE, SABM), (HERE, UA), (THERE, UA)):
            self.take(source, octets)

    def take(self, source, octets):
        self.number += 1
        self.items += self.lapb.take(frame(self.number, octets, source), octets, False)

    def send(self, numbers, packet=READY, source=HERE, receive=0):
        for number in numbers:
            self.take(source, bytes((1, receive << 5 | number % 8 << 1)) + packet)

    def answer(self, kind, receive, source=THERE):
        self.take(source, bytes((3, receive << 5 | kind)))

    @property
    def rows(self):
        """What came of the frames: a side for each packet, and ? for a gap."""
        return "".join("?" if isinstance(item, Missing) else item.side.letter for item in self.items)


class Held(unittest.TestCase):
    """Held frames that were refused, and those that were accepted."""

    def test_equal_packets_in_a_window(self):
        """Equal RRs with other numbers are no repeats; repeats of them count once."""
        link = Link()
        link.send(range(7))
        link.answer(0x09, 3)
        link.send(range(3, 7))
        link.answer(0x01, 7)
        link.send(range(7, 13))
        self.assertEqual(link.rows, "T" * 13)

    def test_number_that_comes_again(self):
        """Frame 1 was lost on the line, and no reject was recorded: frame 2 is held, and comes again, or another packet does."""
        link = Link()
        link.send([0, 2])
        link.send([1, 2, 3], b"\x10\1\x41")
        self.assertEqual(link.rows, "T?T?TT")
        link = Link()
        link.send([0, 2, 1, 2, 3])
        link.answer(0x01, 4)
        self.assertEqual(link.rows, "T?TTT")
        self.assertFalse(link.ledger.is_hurt)

    def test_frames_in_flight_as_a_reject_passes(self):
        """What the reject asks for comes after frames that were in flight: no packet is missing."""
        link = Link()
        link.send([0, 2])
        link.answer(0x09, 1)
        link.send([3, 4, 5])
        link.send(range(1, 6))
        link.answer(0x01, 6)
        self.assertEqual(link.rows, "T" * 6)
        self.assertTrue(link.ledger.whole)

    def test_frame_of_a_reject_that_was_not_recorded(self):
        """What the reject asks for was accepted and not recorded: the frames after it are not lost."""
        link = Link()
        link.send([0, 2])
        link.answer(0x09, 1)
        link.send([2, 3])
        link.answer(0x01, 4)
        self.assertEqual(link.rows, "T?TT")
        self.assertEqual(link.ledger.lines()[-1], "missing: LAPB I frames that were not recorded: 1")


    def test_reject_before_the_link_is_set_up_again(self):
        """The set-up ends a reject: a frame that is held after it may have been accepted."""
        link = Link()
        link.send([0, 2])
        link.answer(0x09, 1)
        for source, octets in ((HERE, SABM), (THERE, UA)):
            link.take(source, octets)
        link.send([1, 0])
        self.assertEqual(link.rows, "T?T")


class Places(unittest.TestCase):
    """The places of gaps and of late packets among the last rows of links."""

    def setUp(self):
        self.window, self.line = Window(), Line(Carrier.LAPB)
        self.line.lapb = Link().lapb

    def add(self, *items):
        for item in items:
            self.window.add(self.line, item)

    def packets(self, *frames):
        self.add(*(Packet(number, Side.T, READY) for number in frames))

    def shown(self, most=0):
        """The frames of the packets, those of gaps as negative numbers, and comments."""
        taken = self.window.first(most)
        return [it if isinstance(it, str) else -it[1].frame if isinstance(it[1], Missing) else it[1].frame for it in taken]

    def test_late_packet(self):
        self.packets(1, 2, 5)
        self.window.note("of 6")
        self.packets(7, 4)
        self.assertEqual(self.shown(), [1, 2, 4, 5, "of 6", 7])

    def test_gap_of_a_range(self):
        """Each packet from the range on has a gap before it, and two gaps never follow each other."""
        self.packets(1, 2, 3)
        self.add(Missing(4, None, since=1), Missing(5, None))
        self.packets(6)
        self.add(Missing(7, None, since=2), Missing(7, None, channel=4))
        self.assertEqual(self.shown(), [1, -2, 2, -3, 3, -4, 6, -7, -7])

    def test_late_packet_between_gaps(self):
        """Gaps that follow each other are one, unless a late packet comes between them."""
        self.packets(1, 2)
        self.add(Missing(4, None, since=2), Missing(6, None, since=2), Missing(7, None, since=2))
        self.packets(4)
        self.assertEqual(self.shown(), [1, 2, -4, 4, -6])

    def test_late_packet_in_a_range(self):
        self.packets(1, 2)
        self.add(Missing(6, None, since=3))
        self.packets(6, 5, 3)
        self.assertEqual(self.shown(), [1, 2, 3, -5, 5, -6, 6])

    def test_gap_before_the_gap_of_a_packet(self):
        self.packets(1)
        self.add(Missing(2, None, channel=4), Missing(3, None, since=1))
        self.assertEqual(self.shown(), [1, -2, -2, -3])

    def test_other_link(self):
        self.packets(1, 2)
        other = Line(Carrier.LAPB, lapb=self.line.lapb)
        self.window.add(other, Packet(3, Side.N, READY))
        self.add(Missing(4, None, since=0))
        self.assertEqual(self.shown(), [-1, 1, -2, 2, 3, -4])

    def test_far_back(self):
        """Gaps and late packets reach back over so many rows, and no more are kept for them."""
        self.packets(*range(10, 2010))
        self.assertTrue(self.window.is_full)
        self.assertEqual(self.shown(Window.MOST), list(range(10, 1010)))
        self.packets(*range(2010, 2110), 5)
        self.assertEqual(self.shown()[:102], [*range(1010, 1110), 5, 1110])
        self.packets(*range(10, 1510))
        self.add(Missing(1600, None, since=0))
        shown = self.shown()
        self.assertEqual(shown[:502], [*range(10, 510), -510, 510])
        self.assertEqual(sum(number < 0 for number in shown), Window.MOST + 1)


class Addresses(unittest.TestCase):
    """Two ends with one address are told apart, by their direction or by their link addresses."""

    def test_link_addresses(self):
        link = Link()
        link.send([0])
        link.send([0], source=THERE, receive=1)
        self.assertEqual(link.rows, "TN")
        self.assertIn("frame 2: both ends of the link have the address 01: the source address of the link header says who sent "
                      "a frame, and 52:54:00:00:00:01 is taken for the DTE", link.messages)

    def test_options(self):
        for how, expected in (
            ({"swapped": True}, "NT"), ({"side_by": SideBy.LINK_ADDRESS}, "TN"), ({"stations": {THERE: Side.T}}, "NT"),
            ({"stations": {HERE: Side.N}, "swapped": True}, "NT"), ({"side_by": SideBy.ADDRESS}, "TT"),
        ):
            link = Link(**how)
            link.send([0])
            link.send([0 if how != {"side_by": SideBy.ADDRESS} else 1], source=THERE)
            self.assertEqual(link.rows, expected, how)

    def test_directions(self):
        ledger, messages = Ledger(), []
        ledger.keep = messages.append
        ends = Ends(ledger, None, False, {})
        sent, received = (frame(1, SABM, THERE, direction) for direction in (Direction.SENT, Direction.RECEIVED))
        self.assertEqual(ends.sender(received, 1, True), (Side.T, False))
        self.assertEqual(ends.sender(sent, 1, True), (Side.N, True))
        self.assertEqual((ends.known(sent), ends.known(received)), (Side.N, Side.T))
        self.assertIn("the direction says who sent a frame, and the other host is taken for the DTE", messages[0])

    def test_source_of_both_ends(self):
        """Where one source sends as both ends, the addresses decide on."""
        ends = Ends(Ledger(), None, False, {})
        for source, address, side in ((HERE, 1, Side.T), (HERE, 3, Side.N), (THERE, 3, Side.N), (THERE, 1, Side.T)):
            self.assertEqual(ends.sender(frame(1, b"", source), address, True), (side, False))

    def test_contradictions(self):
        ledger = Ledger()
        ends = Ends(ledger, SideBy.ADDRESS, False, {})
        for direction in (Direction.SENT, Direction.RECEIVED):
            ends.sender(frame(1, b"", b"", direction), 1, True)
        ends.end()
        self.assertEqual(ledger.reported[Topic.DIRECTION], 1)


class Begin(unittest.TestCase):
    """A recording that begins with a restart, and one that begins inside of it."""

    T, N = Side.T, Side.N
    RESTART, CONFIRM, DATA, CALL = "1000FB0000", "1000FF", "100100AA", "10010B0000"

    def joined(self, *packets):
        beginning = Beginning()
        said = [beginning.see(Packet(number, side, bytes.fromhex(octets)))
                for number, (side, octets) in enumerate(packets, 1) if beginning.is_open]
        self.assertEqual(len([words for words in said if words]) > 0, beginning.is_joined and packets[0][1] == self.RESTART)
        return beginning.is_joined

    def test_restarts(self):
        restart, t, n = (self.N, self.RESTART), (self.T, self.CALL), (self.N, self.DATA)
        self.assertTrue(self.joined(t))
        self.assertFalse(self.joined(restart, t, (self.T, self.CONFIRM), n))
        self.assertFalse(self.joined(restart, t, t, (self.T, self.RESTART), n))
        self.assertFalse(self.joined(restart, n, n))
        self.assertTrue(self.joined(restart, t, n))
        self.assertTrue(self.joined(restart, restart, n, t))
        self.assertTrue(self.joined(restart, (self.N, self.CONFIRM), n, t))

    def test_gap(self):
        beginning = Beginning()
        beginning.see(Packet(1, self.N, bytes.fromhex(self.RESTART)))
        beginning.miss()
        self.assertFalse(beginning.is_open)


def long_packet(number):
    return b"\x10\1\0" + b"user data" + bytes((number,))


class Same(unittest.TestCase):
    """Links with the same packets are recordings of one link."""

    def lines(self, *numbers):
        """Links, each with packets of the numbers of one list."""
        lines = Lines()
        for carrier, device in zip((Carrier.X25, Carrier.LAPB, Carrier.X25), (4, 5, 6)):
            lines.add(Line(carrier, device))
        for at in range(max(map(len, numbers))):
            for line, own in zip(lines.all, numbers):
                if at < len(own):
                    line.packets += 1
                    lines.see(line, long_packet(own[at]))
        return lines

    def test_same(self):
        lines = self.lines(range(20), range(1, 21), range(19))
        self.assertTrue(lines.are_same(lines.all))
        self.assertEqual(preferred(lines.all).device, 5)

    def test_other(self):
        lines = self.lines(range(20), range(20), range(100, 120))
        self.assertFalse(lines.are_same(lines.all))
        self.assertTrue(lines.are_same(lines.all[:2]))

    def test_memory(self):
        lines = self.lines(range(200), [], [])
        for _ in range(3):
            for number in range(256):
                lines.see(lines.all[0], long_packet(number) + b"x")
        for pair in lines.pairs.values():
            self.assertLessEqual(sum(map(len, pair.waiting)), 2 * 256)


def device_frame(device, octets, kind=4, protocol=0x0805):
    """A cooked frame of version 2."""
    return protocol.to_bytes(2, "big") + bytes(2) + device.to_bytes(4, "big") + b"\1\x0f" + bytes((kind, 0)) + bytes(8) + octets


def two_links():
    """A capture of the X.25 devices 3 and 7."""
    frames = []
    for kind, octets in ((4, "1000FB0000"), (0, "1000FF"), (4, "10010B0000"), (0, "10010F")):
        frames.append(device_frame(3, b"\0" + bytes.fromhex(octets), kind))
        frames.append(device_frame(7, b"\0" + bytes.fromhex(octets), 4 - kind))
    frames += [device_frame(3, b"\0" + long_packet(number)) for number in range(9)]
    frames += [device_frame(7, b"\0" + long_packet(100 + number)) for number in range(8)]
    return pcap(276, frames)


class Reader(unittest.TestCase):
    """Tests of what x25trace makes of a capture."""

    def setUp(self):
        folder = tempfile.TemporaryDirectory()
        self.addCleanup(folder.cleanup)
        self.path = pathlib.Path(folder.name, "two.pcap")

    def run_with(self, *words):
        out, errors = io.StringIO(), io.StringIO()
        with contextlib.redirect_stdout(out), contextlib.redirect_stderr(errors):
            status = command.main([*words, str(self.path)])
        return status, out.getvalue(), errors.getvalue()


class Parts(Reader):
    """The interfaces of a pcapng file part links where they come by turns and both ends send on one of them."""

    def written(self, *frames):
        """A file of two interfaces: the interface, the direction (1 inbound, 2 outbound) and the octets of each frame."""
        blocks = (enhanced(octets, which, flags=flags) for which, flags, octets in frames)
        self.path.write_bytes(section() + interface(147) * 2 + b"".join(blocks))

    def packets(self, which, first=0):
        """The beginning of a link and data of both ends."""
        rows = [(2, "1000FB0000"), (1, "1000FF"), (2, "10010B0000"), (1, "10010F")]
        data = [(1 + number % 2, long_packet(first + number).hex()) for number in range(6)]
        return [(which, flags, bytes.fromhex(octets)) for flags, octets in rows + data]

    def by_turns(self, one, other):
        self.written(*(frame for pair in zip(one, other) for frame in pair))

    def test_two_links(self):
        self.by_turns(self.packets(0), self.packets(1, 100))
        status, out, errors = self.run_with("--as", "147=x25")
        self.assertEqual((status, out), (2, ""))
        self.assertIn("Mixed: the capture has 2 links, and a trace is of one interface: 10 packets in x25 on interface 0: "
                      "--only x25 --interface 0; 10 packets in x25 on interface 1: --only x25 --interface 1\n", errors)
        status, out, _ = self.run_with("--as", "147=x25", "--interface", "1", "--win", "7", "--size", "128")
        self.assertEqual((status, out.count("\n2 T 1000FB0000\n")), (0, 1))

    def test_one_link_twice(self):
        self.by_turns(self.packets(0), self.packets(1))
        status, out, errors = self.run_with("--as", "147=x25", "--win", "7", "--size", "128")
        self.assertEqual(status, 0, errors)
        self.assertIn("10 packets in x25 on interface 0 are read; the same ones were recorded in x25 on interface 1", errors)
        self.assertEqual(sum(line[0].isdigit() for line in out.splitlines()), 10)

    def test_joined_files(self):
        """One interface after the other is one link."""
        frames = self.packets(0)
        self.written(*frames[:5], *((1, *rest) for _, *rest in frames[5:]))
        status, out, errors = self.run_with("--as", "147=x25", "--win", "7", "--size", "128")
        self.assertEqual((status, sum(line[0].isdigit() for line in out.splitlines())), (0, 10), errors)

    def test_wires(self):
        """An interface for each wire: their LAPB is of one link."""
        frames = [(0, 2, b"\1\0" + bytes.fromhex("1000FB0000")), (1, 2, b"\3\x20" + bytes.fromhex("1000FF")),
                  (0, 2, b"\1\x22" + bytes.fromhex("10010B0000")), (1, 2, b"\3\x42" + bytes.fromhex("10010F"))]
        self.written(*((which, None, octets) for which, _, octets in frames))
        status, out, errors = self.run_with("--as", "147=lapb")
        self.assertEqual((status, [line[:3] for line in out.splitlines() if line[0].isdigit()]), (0, ["1 T", "2 N", "3 T", "4 N"]), errors)


class Devices(Reader):
    """The devices of Linux part links; options read one of them."""

    def setUp(self):
        super().setUp()
        self.path.write_bytes(two_links())

    def test_refused(self):
        status, out, errors = self.run_with()
        self.assertEqual((status, out), (2, ""))
        self.assertIn("x25trace: Mixed: the capture has 2 links, and a trace is of one interface: 13 packets in x25 on interface 3: "
                      "--only x25 --interface 3; 12 packets in x25 on interface 7: --only x25 --interface 7\n", errors)

    def test_one(self):
        status, out, _ = self.run_with("--only", "x25", "--interface", "7", "--win", "7", "--size", "128")
        self.assertEqual(status, 0)
        self.assertIn("\n2 N 1000FB0000\n", out)
        self.assertNotIn("\n1 T", out)
