"""Tests of parts that no small capture reaches."""
import os
import signal
import unittest

from x25tools_lib.halves import Halves
from x25tools_lib.header import Header
from x25tools_lib.ledger import Ledger, Reason
from x25tools_lib.notes import Head
from x25tools_lib.sides import Side
from x25tools_lib.streams import TOGETHER, Interrupted, Waiting
from x25tools_lib.waking import Waker
from x25trace_lib.channels import assign
from x25trace_lib.comments import comments_of
from x25trace_lib.internet import FIN, Fragments, Segment
from x25trace_lib.frames import Direction, Frame, without_check
from x25trace_lib.lapb import Lapb, kind_of
from x25trace_lib.link_ends import Ends
from x25trace_lib.packets import Missing, Packet, Type
from x25trace_lib.spool import Spool
from x25trace_lib.tcp import MOST_OF_ONE, PATIENCE, PATIENCE_ONE_WAY, Budget, Chunk, Connection, Gap
from x25trace_lib.xot import Circuit

ENDS = (b"\1\2\3\4\4\1", b"\1\2\3\5\7\xce")
# Frames of a DCE.
UA, SABM, READY_4, REJECT_1 = OF_DCE = b"\1\x73", b"\3\x3f", b"\1\x81", b"\1\x29"


def segment(sequence, payload, frame=1, acknowledged=None):
    return Segment(frame, *ENDS, sequence, acknowledged, 0, payload, 0)


class Signals(unittest.TestCase):
    """The first signal ends the reading; one that comes with it is the same, and one that comes later ends the program."""

    def test_reading(self):
        waiting = Waiting()
        waiting.inside = True
        with self.assertRaises(Interrupted):
            waiting.interrupt(2, None)
        with self.assertRaises(Interrupted):
            waiting.octets(None)

    def test_second(self):
        waiting = Waiting()
        waiting.interrupt(2, None)
        waiting.since += 1000
        waiting.interrupt(2, None)
        self.assertTrue(waiting.interrupted)
        waiting.since -= 1000 + 2 * TOGETHER
        with self.assertRaises(KeyboardInterrupt):
            waiting.interrupt(2, None)


class Waking(unittest.TestCase):
    """A signal wakes what waits, also one that came just before; octets wake it, and their end."""

    def setUp(self):
        self.waker, before = Waker(), signal.signal(signal.SIGUSR1, lambda *_: None)
        self.addCleanup(signal.signal, signal.SIGUSR1, before)
        self.waker.start()
        self.addCleanup(signal.set_wakeup_fd, -1)

    def test_signal_that_came_before(self):
        os.kill(os.getpid(), signal.SIGUSR1)
        self.assertFalse(self.waker.wait())

    def test_octets(self):
        reader, writer = os.pipe()
        self.addCleanup(os.close, reader)
        os.write(writer, b"octets")
        self.assertTrue(self.waker.wait(reader))
        os.kill(os.getpid(), signal.SIGUSR1)
        self.assertTrue(self.waker.wait(reader))
        self.assertEqual(os.read(reader, 6), b"octets")
        os.kill(os.getpid(), signal.SIGUSR1)
        self.assertFalse(self.waker.wait(reader))
        os.close(writer)
        self.assertTrue(self.waker.wait(reader))

    def test_without_signals(self):
        """Where no signal was asked for, the call that waits is the reading itself."""
        self.assertTrue(Waker().wait())


class Kinds(unittest.TestCase):
    """What looks like a frame of LAPB, by ISO/IEC 7776: addresses, control fields and lengths."""

    def test_frames(self):
        # SABM, SABME, DISC, UA, DM, FRMR of both moduli, RR, RNR and REJ of both moduli, and I frames of both.
        good = ("013F", "036F", "0143", "0373", "010F", "0397000000", "0187" + "00" * 5, "0121", "03E5", "0159", "010101",
                "0305FF", "010900", "010010010B", "03001001FB", "01000010010B", "03FE0120012B", "01005001AA")
        for frame in good:
            self.assertEqual(kind_of(bytes.fromhex(frame)), "lapb", frame)

    def test_others(self):
        # Other addresses, UI and XID, S and U frames with octets after them, I frames without a packet, and packets.
        other = ("", "01", "003F", "0F3F", "FF03", "0103", "01AF", "013F00", "03970000", "012100", "010100000000", "0100",
                 "01001001", "0100000000", "010033333333", "1000FB0700", "10010B0000", "4500001C", "7E7E")
        for frame in other:
            self.assertIsNone(kind_of(bytes.fromhex(frame)), frame)

    def test_check_sequences(self):
        # SABM with its sum, reckoned bit by bit from the polynomial of ISO/IEC 13239.
        self.assertEqual(kind_of(bytes.fromhex("013FEBDF")), "hdlc")
        self.assertIsNone(kind_of(bytes.fromhex("013FEBDE")))


class Numbers(unittest.TestCase):
    """Rows are numbered by frames while these are at most 999,999,999, else they count from 1."""

    def lines(self, frames, last):
        spool = Spool(True, last)
        for frame in frames:
            spool.add(Packet(frame, Side.T, b"\x10\x01\x0f"), 0)
        lines = "".join(spool.replay([])).splitlines(keepends=True)
        spool.close()
        return lines

    def test_by_frames(self):
        want = ["#@ - 8\n", "8 T 10010F\n", "#@ - 8\n", "9 T 10010F\n", "#@ - 10\n", "10 T 10010F\n"]
        self.assertEqual(self.lines([8, 8, 10], 10), want)

    def test_too_many_frames(self):
        want = ["#@ - 8\n", "1 T 10010F\n", "#@ - 8\n", "2 T 10010F\n", "#@ - 11\n", "3 T 10010F\n"]
        self.assertEqual(self.lines([8, 8, 11], 10), want)

    def test_numbers_that_went_on_too_far(self):
        self.assertEqual(self.lines([10, 10], 10)[1], "1 T 10010F\n")


class Memory(unittest.TestCase):
    """What waits for a missing octet is bounded: then the octet is given up."""

    def waiting(self, acknowledged, most):
        """How many segments come after a missing octet until it is given up, and the events of the last one."""
        ledger, budget = Ledger(), Budget()
        connection = Connection(ledger, budget, ENDS)
        connection.feed(0, segment(100, b"a"))
        if acknowledged:
            connection.feed(1, segment(500, b"", acknowledged=acknowledged))
        for number in range(10_000):
            events = connection.feed(0, segment(102 + 1000 * number, bytes(1000)))
            if events:
                break
            self.assertLessEqual(budget.used, most)
        self.assertEqual(budget.used, 0)
        self.assertEqual(events[0], Gap(0, 1, 1, "before it were not recorded"))
        self.assertEqual(sum(len(event.octets) for event in events[1:]), 1000 * (number + 1))
        return number

    def test_of_octets_that_were_not_acknowledged(self):
        self.assertGreater(self.waiting(101, MOST_OF_ONE), MOST_OF_ONE // 2000)

    def test_of_octets_that_were_acknowledged(self):
        self.assertEqual(self.waiting(102, MOST_OF_ONE), PATIENCE)

    def test_of_one_direction(self):
        self.assertEqual(self.waiting(None, MOST_OF_ONE), PATIENCE_ONE_WAY)

    def test_repeats_in_what_waits(self):
        connection = Connection(Ledger(), Budget(), ENDS)
        connection.feed(0, segment(100, b"a"))
        for sequence, payload in ((104, b"ef"), (102, b"cde"), (104, b"efg")):
            self.assertEqual(connection.feed(0, segment(sequence, payload)), [])
        chunks = connection.feed(0, segment(101, b"b"))
        self.assertEqual(b"".join(chunk.octets for chunk in chunks), b"bcdefg")
        self.assertEqual(connection.cost, 0)


class Copies(unittest.TestCase):
    """Of an octet that several frames have, the copy that was recorded first counts."""

    def setUp(self):
        self.ledger = Ledger()
        self.connection = Connection(self.ledger, Budget(), ENDS)
        self.connection.feed(0, segment(0, b"a"))
        self.connection.feed(1, segment(0, b"", 2, 1))

    def given_out(self, *segments):
        events = [event for one in segments for event in self.connection.feed(0, one)]
        return [(event.frame, event.octets) for event in events]

    def test_segments_that_wait(self):
        """Frame 5 has octets 4 to 6, frame 6 octets 2 to 9 with other values, and frame 7 octet 1."""
        late = segment(4, b"xyz", 5), segment(2, b"23456789", 6), segment(1, b"1", 7)
        self.assertEqual(self.given_out(*late), [(7, b"1"), (6, b"23"), (5, b"xyz"), (6, b"789")])
        self.assertEqual((self.connection.cost, self.connection.budget.used), (0, 0))

    def test_repeats_that_wait(self):
        """A segment that held ones have whole is left out, and only what they lack of another is held."""
        self.assertEqual(self.given_out(segment(2, b"cd", 5), segment(2, b"CD", 6), segment(2, b"CDe", 7)), [])
        self.assertEqual(self.ledger.counts[Reason.REPEATED_OCTETS], 1)
        self.assertEqual(self.given_out(segment(1, b"b", 8)), [(8, b"b"), (5, b"cd"), (7, b"e")])

    def test_octets_that_were_given_out(self):
        """Frame 6 has one again, and those of frame 5, which waits for what it acknowledges: the gap is that of frame 5."""
        self.assertEqual(len(self.connection.feed(1, segment(500, b"x", 3, 1))), 1)
        self.assertEqual(self.given_out(segment(1, b"bc", 5, 504), segment(0, b"abc", 6, 504)), [])
        self.assertEqual(self.ledger.counts[Reason.REPEATED_OCTETS], 1)
        self.assertEqual(self.connection.flush(), [Gap(1, 5, 3, "before it were not recorded"), Chunk(0, 5, b"bc", None)])

    def test_end_of_a_direction(self):
        """The FIN of a segment goes with its last part, once."""
        end = segment(2, b"cd", 6)
        end.flags = FIN
        again = segment(3, b"D", 7)
        again.flags = FIN
        self.assertEqual(self.given_out(segment(2, b"C", 5), end, again), [])
        self.assertEqual(self.given_out(segment(1, b"b", 8)), [(8, b"b"), (5, b"C"), (6, b"d")])
        self.assertTrue(self.connection.streams[0].ended)

    def test_octets_that_were_cut_off(self):
        """Their place is taken, also where a later frame has them."""
        cut = segment(2, b"cd", 5)
        cut.missing = 2
        events = [event for one in (cut, segment(2, b"CDEFG", 6), segment(1, b"b", 7)) for event in self.connection.feed(0, one)]
        self.assertEqual(events, [Chunk(0, 7, b"b", None), Chunk(0, 5, b"cd", None), Gap(0, 5, 2, "were cut off"),
                                  Chunk(0, 6, b"G", None)])

    def test_fragments(self):
        """Of fragments with one offset the first counts, and of an octet that several have the first copy."""
        fragments, identity = Fragments(Ledger()), (6, b"", b"", 1)
        frame = Frame(1, 1, b"", 0, Direction.UNKNOWN)
        for place, octets, last in ((8, b"B" * 16, False), (8, b"X" * 24, True), (20, b"C" * 8, True)):
            self.assertIsNone(fragments.add(frame, identity, place, octets, last))
        self.assertEqual(fragments.add(frame, identity, 0, b"A" * 16, False), b"A" * 8 + b"B" * 16 + b"C" * 4)


class Sums(unittest.TestCase):
    def test_unknown_number(self):
        """A gap of unknown size is damage too, and adds nothing to a sum."""
        ledger = Ledger()
        self.assertTrue(ledger.whole)
        ledger.left_out(Reason.OTHER_PORT)
        ledger.left_out(Reason.PASSED_OCTETS, 0)
        self.assertTrue(ledger.whole)
        ledger.miss(Reason.LOST_OCTETS, 0)
        self.assertFalse(ledger.whole)
        self.assertEqual(ledger.lines(), ["left out: TCP segments of other ports: 1"])

    def test_check_sequences(self):
        """A frame that is not longer than its check sequence has no octets, and counts as cut off."""
        self.assertEqual(without_check(b"abcdef", 6, 2), (b"abcd", 4))
        self.assertEqual(without_check(b"abc", 6, 2), (b"abc", 4))
        for check in (6, 8):
            self.assertEqual(without_check(b"abcdef", 6, check), (b"", 1))


class Comments(unittest.TestCase):
    """Comments on findings and calls name rows, whose numbers may not be those of their frames."""

    def test_frames_of_rows(self):
        lines = [
            "# connection 1 is channel 1: 192.0.2.1 port 1025 (T) and 192.0.2.2 port 1998 (N)",
            "X25 1 MOD 8 WIN 2 SIZE 128 PVC 0 SVC 1",
            "#@ - 6", "6 T 10010B0000", "# DTE, logical channel 1: call request, called -, calling -",
            "#@ 17.5 6", "7 T 100104AA", "#! F 7 T p2 20: Invalid packet type for state p2: words",
            "#@ 18 9", "9 T 100104AA", "#! F 9 T p2 20: Invalid packet type for state p2: other words",
            "# Call 1, outgoing on logical channel 1: called -, calling -; opened by packet 6, up with 7, ended with 9 by a restart",
            "# Call 2, incoming on logical channel 1: called -, calling -; opened by packet 7, never up, open",
        ]
        call = "x25scan: Call {} on logical channel 1: called -, calling -; opened by {}"
        self.assertEqual(dict(comments_of((f"{line}\n" for line in lines), Halves(Head()))), {
            6: ["x25scan: frame 6 (packet 7): F 7 T p2 20: Invalid packet type for state p2: words",
                call.format("1, outgoing", "frame 6, up with frame 6 (packet 7), ended with frame 9 by a restart"),
                call.format("2, incoming", "frame 6 (packet 7), never up, open")],
            9: ["x25scan: F 9 T p2 20: Invalid packet type for state p2: other words"],
        })


    def test_gaps(self):
        """A gap is said of the frame that shows it; a finding after it is of the channel of its own row."""
        lines = ["X25 3 MOD 8 WIN 2 SIZE 128 PVC 0 IN 0 TWO 1 OUT 1", "#@ - 6", "6 T 10010F", "#@ - 7", "7 ? 1",
                 "# a gap: packets on channel 1 may be missing", "#@ - 7", "8 T 10", "#! F 8 T - 38: Packet too short: words"]
        self.assertEqual(dict(comments_of((f"{line}\n" for line in lines), Halves(Head()))), {
            7: ["x25scan: a gap: packets on channel 1 may be missing",
                "x25scan: frame 7 (packet 8): F 8 T - 38: Packet too short: words"],
        })


class Gaps(unittest.TestCase):
    """Where packets are missing: what an end of a connection or of a link shows of the other one."""

    def lost(self, *segments):
        """The gaps that segments of both ends show, each as its direction and its octets."""
        connection, found = Connection(Ledger(), Budget(), ENDS), []
        for index, flags, sequence, acknowledged, payload in segments:
            one = Segment(1, *ENDS[::1 if index == 0 else -1], sequence, acknowledged, flags, payload, 0)
            found += [(it.index, it.octets) for it in connection.feed(index, one) if isinstance(it, Gap)]
        return found

    def test_of_an_end_of_which_nothing_was_recorded(self):
        """The first acknowledgement of the opener says where it begins; what is missing then may come later."""
        opened, call = [(0, 2, 99, None, b""), (0, 0, 100, 500, b"")], (0, 0, 100, 507, b"call")
        self.assertEqual(self.lost(*opened, call), [])
        self.assertEqual(self.lost(*opened, call, (1, 2, 499, 100, b""), (1, 0, 500, 100, b"welcome")), [])
        self.assertEqual(self.lost(*opened, call, *[(0, 0, 104 + at, 507, b"m") for at in range(PATIENCE)]), [(1, 7)])
        # Its last word has a number too.
        self.assertEqual(self.lost(*opened, (0, 1, 100, 500, b""), (0, 0, 101, 501, b"")), [])
        self.assertEqual(self.lost(*opened, call, (0, 1, 104, 507, b"")), [(1, 7)])
        self.assertEqual(self.lost((0, 2, 99, None, b""), (1, 0, 507, 100, b"data")), [(1, 0)])

    def test_of_an_end_whose_opening_was_recorded(self):
        opened = [(0, 2, 99, None, b""), (1, 2, 499, 100, b""), (0, 0, 100, 500, b"")]
        self.assertEqual(self.lost(*opened, (0, 0, 100, 500, b"call"), (1, 0, 500, 104, b"accepted")), [])

    def items(self, *frames):
        """What the frames of a link give: the first octets of packets, and ? for a gap."""
        lapb, found = Lapb(Ledger(), None, Ends(Ledger(), None, False, {})), []
        for number, octets in enumerate((b"\1\x3f", UA, *frames), 1):
            direction = Direction.RECEIVED if octets in OF_DCE else Direction.SENT
            found += lapb.take(Frame(number, 207, octets, len(octets), direction), octets, False)
        return "".join("?" if isinstance(it, Missing) else it.octets.decode() for it in found)

    @staticmethod
    def sent(letters, first=0):
        """Frames of the DTE that carry a letter each, from a number on."""
        return [bytes((1, at % 8 << 1)) + letter.encode() for at, letter in enumerate(letters, first) if letter != " "]

    def test_of_numbers_of_a_link(self):
        self.assertEqual(self.items(*self.sent("ab d")), "ab")
        self.assertEqual(self.items(*self.sent("ab d"), READY_4), "ab?d")
        self.assertEqual(self.items(*self.sent("ab d"), SABM), "ab?")

    def test_of_windows_of_a_link(self):
        """A frame beyond the window shows that the next one was accepted, whose number comes again with the one after."""
        self.assertEqual(self.items(*self.sent("ab defghij")), "ab?defghij")

    def test_of_a_number_that_comes_while_others_wait(self):
        """It may have come again, or all numbers may have passed; only a reject says which."""
        self.assertEqual(self.items(*self.sent("a c"), *self.sent("b", 1)), "a?b")
        self.assertEqual(self.items(*self.sent("a c"), REJECT_1, *self.sent("bc", 1)), "abc")


class Channels(unittest.TestCase):
    """Each circuit has a channel of its own while there are some."""

    def assigned(self, circuits, last=3):
        header = Header(8, 2, 128, 0, 0, last, last, False, 1)
        made = []
        for number, (first, end, confirmed) in enumerate(circuits, 1):
            circuit = Circuit(number, ENDS, (Side.T, Side.N), 1, True, called=True, confirmed=confirmed)
            circuit.rows, circuit.first_row, circuit.last_row, circuit.caller = 1, first, end, Side.T
            made.append(circuit)
        assign(made, header, Ledger())
        return [circuit.channel for circuit in made]

    def test_own_channels_first(self):
        self.assertEqual(self.assigned([(1, 2, True), (3, 4, True), (5, 6, True)]), [1, 2, 3])

    def test_longest_free_channel_again(self):
        circuits = [(1, 20, True), (2, 10, True), (3, 30, True), (25, 40, True), (26, 41, True)]
        self.assertEqual(self.assigned(circuits), [1, 2, 3, 2, 1])

    def test_not_cleared_is_not_free(self):
        self.assertEqual(self.assigned([(1, 2, False), (3, 4, True), (5, 6, True), (7, 8, True), (9, 10, True)]),
                         [1, 2, 3, 2, 3])

    def test_free_only_in_p1(self):
        """A clear that is confirmed frees a channel, unless it had no cause or the DTE goes on after it."""
        t, n = Side.T, Side.N
        end = [(t, Type.CLEAR, 5), (n, Type.CLEAR_CONFIRM, 3)]
        for free, steps in (
            (False, []),
            (False, end[:1]),
            (True, end),
            (True, [(n, Type.CLEAR, 5), (t, Type.CLEAR_CONFIRM, 3)]),
            (True, [(t, Type.CLEAR, 5), (n, Type.CLEAR, 5)]),
            (False, [(t, Type.CLEAR, 3), (n, Type.CLEAR_CONFIRM, 3)]),
            (False, [*end, (t, Type.CLEAR_CONFIRM, 3)]),
            (True, [*end, (n, Type.CLEAR_CONFIRM, 3)]),
            (False, [*end, (t, Type.CALL, 5)]),
            (True, [*end, (t, Type.CALL, 5), *end]),
        ):
            circuit = Circuit(1, ENDS, (t, n), 1, True)
            for step in [(t, Type.CALL, 5), *steps]:
                circuit.step(*step)
            self.assertEqual(circuit.is_free, free, steps)

    def test_none_left(self):
        self.assertEqual(self.assigned([(1, 2, False), (3, 4, False)], 1), [1, None])
