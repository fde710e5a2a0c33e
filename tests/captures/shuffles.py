"""Random connections and links, recorded badly: what is read is what was sent, except what was not recorded."""
import unittest

from forms import Talk, information, ready, xot
from random_sources import each_source
from x25tools_lib.choices import Choices
from x25tools_lib.ledger import Ledger, Reason
from x25tools_lib.sides import Side
from x25trace_lib.frames import Direction, Frame
from x25trace_lib.packets import Packet
from x25trace_lib.reading import Reading

ROUNDS, EXAMPLES = 150, 50
# The most places later that a recorder puts a segment: with nine segments after it its octets are given up.
FARTHEST = 7
# The most frames in a row that a recorder misses: N(S) doesn't show that a whole modulus of them is missing.
MISSED = 5
RAW_IP = 101
LAPB_WITH_DIRECTION = 207
SERVER_PORT = (1998).to_bytes(2, "big")
LARGEST = 1000


def read(link, recorded):
    """The packets of frames that were recorded, and the ledger."""
    ledger = Ledger()
    reading = Reading(ledger, Choices())
    frames = (Frame(number, link, octets, len(octets), Direction.UNKNOWN) for number, octets in enumerate(recorded, 1))
    return [packet for _, packet in reading.packets(frames) if isinstance(packet, Packet)], ledger


class Connections(unittest.TestCase):
    """Packets in both directions, split into segments anyhow, each of which acknowledges what came before it."""

    def sent(self, source):
        """Segments; the packets of both sides; and before each packet how many of the other side were acknowledged."""
        talk = Talk(first=(source.randrange(2**32), source.randrange(2**32)))
        segments, packets, answered = talk.open(), ([], []), ([], [])
        for _ in range(source.randrange(1, 12)):
            side = source.randrange(2)
            octets = b""
            for _ in range(source.randrange(1, 4)):
                packet = f"100100{len(packets[side]):02x}" + source.randbytes(source.randrange(30)).hex()
                octets += xot(packet)
                packets[side].append(bytes.fromhex(packet))
                answered[side].append(len(packets[1 - side]))
            while octets:
                many = source.choice((1, 3, 10, 100))
                segments.append(talk.segment(side, octets[:many]))
                octets = octets[many:]
        return segments, packets, answered

    def judge(self, found, packets, answered, whole):
        """Each side's packets are the first ones it sent, and none comes before those that it answers."""
        seen = [0, 0]
        for packet in found:
            side = 0 if packet.side is Side.T else 1
            self.assertEqual(packet.octets, packets[side][seen[side]])
            self.assertGreaterEqual(seen[1 - side], answered[side][seen[side]])
            seen[side] += 1
        if whole:
            self.assertEqual(seen, [len(packets[0]), len(packets[1])])

    @each_source(ROUNDS, EXAMPLES)
    def test_order_and_repeats(self, source, _number):
        segments, packets, answered = self.sent(source)
        recorded = segments[:3] + [one for one in segments[3:] for _ in range(source.choice((1, 1, 1, 2)))]
        moved = 0
        for at in range(3, len(recorded) - 1):
            moved = moved + 1 if source.random() < 0.3 and moved < FARTHEST else 0
            if moved:
                recorded[at], recorded[at + 1] = recorded[at + 1], recorded[at]
        found, ledger = read(RAW_IP, recorded)
        self.judge(found, packets, answered, True)
        self.assertTrue(ledger.whole)

    @each_source(ROUNDS, EXAMPLES)
    def test_losses(self, source, _number):
        """After a gap packets are read on: each of those found was sent, and none comes before what it answers."""
        segments, packets, answered = self.sent(source)
        recorded = segments[:3] + [one for one in segments[3:] if source.random() < 0.8]
        found, _ = read(RAW_IP, recorded)
        places = [self.place(packet, packets) for packet in found]
        for side in range(2):
            own = [number for which, number in places if which == side]
            self.assertEqual(own, sorted(set(own)))
        for at, (side, number) in enumerate(places):
            later = [other for which, other in places[at:] if which != side]
            self.assertGreaterEqual(min(later, default=LARGEST), answered[side][number])
        self.assertLessEqual(self.whole(recorded[3:], packets), set(places))

    @staticmethod
    def place(packet, packets):
        """The side and the number of a packet that was sent."""
        side = 0 if packet.side is Side.T else 1
        return side, packets[side].index(packet.octets)

    @staticmethod
    def whole(segments, packets):
        """The side and the number of each packet that begins a segment and is whole in it."""
        places = set()
        for segment in segments:
            side, octets = int(segment[20:22] == SERVER_PORT), segment[40:]
            for number, packet in enumerate(packets[side]):
                if octets.startswith(xot(packet.hex())):
                    places.add((side, number))
        return places


class Link:
    """A DTE that sends packets by LAPB to a DCE that rejects what is out of sequence, and a recorder between them."""

    def __init__(self, source, modulus, many):
        self.source, self.modulus = source, modulus
        self.packets = [f"1001{at >> 8:02X}{at & 255:02X}00" for at in range(many)]
        # SABM or SABME and UA: without them a first N(S) may be a repeated one.
        self.recorded = [b"\1\1" + (b"\x3f" if modulus == 8 else b"\x7f"), b"\0\1\x73"]
        self.unrecorded = set()
        self.base = self.following = self.taken = 0
        self.rejected = False
        # How many frames in a row the recorder missed.
        self.missed = 0

    def send(self, lost, unrecorded):
        """The next frame of the window goes out; it may be lost after the recorder, or the recorder may miss it."""
        window = self.modulus - 1
        if self.following == min(self.base + window, len(self.packets)):
            self.following = self.base
        at = self.following
        self.following += 1
        frame = information("T", at % self.modulus, 0, self.packets[at], self.modulus == 128)
        received = self.source.random() <= 1 - lost
        if received and at == self.taken and self.source.random() > 1 - unrecorded and self.missed < MISSED:
            self.unrecorded.add(at)
            self.missed += 1
        else:
            self.missed = 0
            self.unrecorded.discard(at)
            self.recorded.append(b"\1" + frame)
        if received:
            self.receive(at)

    def receive(self, at):
        if at == self.taken:
            self.taken += 1
            self.rejected = False
            if self.source.random() < 0.5:
                self.answer(False)
        elif not self.rejected:
            self.rejected = True
            self.answer(True)

    def answer(self, reject):
        self.recorded.append(b"\0" + ready("N", self.taken % self.modulus, reject, self.modulus == 128))
        self.base = self.taken
        if reject:
            self.following = self.base

    def run(self, lost, unrecorded=0.0):
        while self.taken < len(self.packets):
            self.send(lost, unrecorded)
        self.answer(False)
        return self


class Links(unittest.TestCase):
    def read(self, link):
        ledger = Ledger()
        reading = Reading(ledger, Choices())
        frames = (Frame(number, LAPB_WITH_DIRECTION, octets, len(octets), Direction.UNKNOWN)
                  for number, octets in enumerate(link.recorded, 1))
        found = [packet for _, packet in reading.packets(frames) if isinstance(packet, Packet)]
        self.assertTrue(all(packet.side is Side.T for packet in found))
        return [packet.octets.hex().upper() for packet in found], ledger

    @each_source(ROUNDS, EXAMPLES)
    def test_sent_again(self, source, number):
        link = Link(source, 8 if number % 2 else 128, 60).run(0.2)
        found, ledger = self.read(link)
        self.assertEqual(found, link.packets)
        self.assertTrue(ledger.whole)

    @each_source(ROUNDS, EXAMPLES)
    def test_not_recorded(self, source, number):
        link = Link(source, 8 if number % 2 else 128, 60).run(0.0, 0.1)
        found, ledger = self.read(link)
        self.assertEqual(found, [packet for at, packet in enumerate(link.packets) if at not in link.unrecorded])
        self.assertEqual(ledger.counts[Reason.LOST_FRAME], len(link.unrecorded))
