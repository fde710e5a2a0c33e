"""Traces that the tests of pages write: the packets of a line with their times, each octet by hand."""

MICROS = 1_000_000
HEADER = "X25 1 MOD 8 WIN 2 SIZE 128 PVC 0 SVC 40"


class Line:
    """A line that is recorded: its packets, and the time that goes on between them."""

    def __init__(self, header=HEADER, begun=1_700_038_800):
        self.header, self.time, self.packets = header, begun * MICROS, []
        # The number of the first row, and the frames of the rows, where comments say them.
        self.first, self.frames = 1, ()

    def wait(self, seconds):
        self.time += round(seconds * MICROS)

    def put(self, side, octets, after=0.1):
        """Puts a packet, and returns its number."""
        self.wait(after)
        self.packets.append((self.time, side, octets))
        return len(self.packets)

    def on(self, channel, side, octets, after=0.1):
        """Puts a packet on a channel, from its third octet on."""
        return self.put(side, f"10{channel:02X}{octets}", after)

    def call(self, channel, called="4500", calling="12345", side="T"):
        """Puts a call request or an incoming call and its acceptance."""
        digits = called + calling
        block = f"{len(calling):X}{len(called):X}{digits}{'0' * (len(digits) % 2)}"
        number = self.on(channel, side, f"0B{block}00")
        self.on(channel, other(side), "0F")
        return number

    def data(self, channel, side, numbers, text="AA", after=0.1):
        """Puts data with its P(S) and P(R)."""
        send, receive = numbers
        return self.on(channel, side, f"{receive << 5 | send << 1:02X}{text}", after)

    def ready(self, channel, side, receive, after=0.1):
        return self.on(channel, side, f"{receive << 5 | 1:02X}", after)

    def clear(self, channel, side="T", cause="0000"):
        self.on(channel, side, f"13{cause}")
        return self.on(channel, other(side), "17")

    def text(self, has_times=True):
        """The trace."""
        lines = [self.header]
        for at, (time, side, octets) in enumerate(self.packets):
            words = [f"{time // MICROS}.{time % MICROS:06}"] * has_times + [str(frame) for frame in self.frames[at:at + 1]]
            lines += [f"#@ {' '.join(words)}"] * bool(words) + [f"{self.first + at} {side} {octets}"]
        return "\n".join(lines) + "\n"


def other(side):
    return "N" if side == "T" else "T"


def several():
    """Calls on channels 3, 4 and 30: calls 1 to 4, of which two on channel 3; findings on channels 3 and 30."""
    line = Line()
    line.call(3, calling="11111")
    for at in range(8):
        line.data(3, "T", (at, 0))
        line.ready(3, "N", (at + 1) % 8)
    line.clear(3)
    line.call(30, calling="22222")
    line.data(30, "N", (5, 0))
    line.call(3, calling="33333")
    for at in range(3):
        line.data(3, "T", (at, 0))
    line.on(3, "N", "1B0501")
    line.on(3, "T", "1F")
    line.data(3, "T", (6, 0))
    line.on(3, "N", "1B0501")
    line.on(3, "T", "1F")
    line.call(4, calling="44444", side="N")
    line.clear(4, "N", "0100")
    line.clear(3, "N", "0901")
    return line


def many_calls(many=400):
    """Calls on four channels, each with four packets of data."""
    line = Line()
    for at in range(many):
        channel = 1 + at % 4
        line.call(channel, calling=f"{at + 1:05}")
        for number in range(4):
            line.data(channel, "T", (number, 0), "55" * 100)
            line.ready(channel, "N", number + 1)
        line.clear(channel)
    return line


def long_list(many=300):
    """A call with rounds of data and acknowledgement."""
    line = Line()
    line.call(1)
    for at in range(many):
        line.data(1, "T", (at % 8, 0))
        line.ready(1, "N", (at + 1) % 8)
    line.clear(1)
    return line
