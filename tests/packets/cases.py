"""Packets in order, each with the finding that it gives, worked out by hand from docs/RULES.md."""
from dataclasses import dataclass, field

T, N = "T", "N"
PLAIN = "X25 1 MOD 8 WIN 2 SIZE 128 PVC 0 SVC 4"
MANY = "X25 1 MOD 8 WIN 2 SIZE 128 PVC 0 SVC 255"
PERMANENT = "X25 1 MOD 8 WIN 2 SIZE 16 PVC 8 SVC 8"
MODULO_128 = "X25 1 MOD 128 WIN 2 SIZE 128 PVC 4 SVC 6"
WINDOW_7 = "X25 1 MOD 8 WIN 7 SIZE 128 PVC 1 SVC 1"
JOINED = "X25 2 MOD 8 WIN 2 SIZE 128 PVC 0 IN 0 TWO 4 OUT 4 JOIN"
ZEROS_17 = "00" * 17


@dataclass
class Case:
    """A header, packets with their side, their octets and their finding (its state and code, or nothing), and lines of the report."""

    name: str
    header: str
    packets: list
    # Lines of the report that are no findings and have to be there; where one begins with S, these are all settings.
    lines: list = field(default_factory=list)


def on(channel, rest):
    """The octets of a packet on a channel at modulo 8."""
    return f"10{channel:02X}{rest}"


RESTARTS = [
    Case("a channel packet in r2 is an error of the DTE", PLAIN, [
        (T, "1000FB0000", ""), (T, "100100", "r2 18"), (T, "1000FB0000", ""), (N, "1000FF", "r1 17")]),
    Case("restart packets have their lengths", PLAIN, [
        (T, "1000FB", "r1 38"), (N, "1000FB000000", "r1 39"), (N, "1000FB0000", ""), (T, "1000FF00", "r3 39"), (T, "1000FF", "")]),
    Case("the DCE owes an indication after an error of the DTE", PLAIN, [
        (T, "1000FF", "r1 17"), (N, "1000FF", ""), (N, "1000FB0000", ""), (N, "1000FF", "r3 19"), (T, "1000FF", ""),
        (T, "100100AA", "p1 20"), (N, "10", "- 38"), (N, "1000F1", ""), (T, "1000F1", "- 36")]),
    Case("confirmations pass until r1 is first left", JOINED, [
        (T, "1000FF0102", ""), (N, "1000FF", ""), (T, "1000FB0000", ""), (N, "1000FF", ""), (N, "1000FF", "r1 17")]),
]

CALLS = [
    Case("call requests have their faults", MANY, [
        (T, on(1, "0B"), "p1 38"),
        (T, on(2, "0B01A000"), "p1 67"),
        (T, on(3, "0B10A000"), "p1 68"),
        (T, on(4, "0B000342"), "p1 69"),
        (T, on(5, "0B0003430802"), "p1 66"),
        (T, on(6, "0B0000" + ZEROS_17), "p1 39"),
        (T, on(7, "0B0006420307420707"), "p1 66"),
        (T, on(8, "0B000342070D"), "p1 66"),
        (T, on(9, "0B000400004300"), "p1 69"),
        (T, "900A0BFF", ""),
        (T, on(11, "0B00050000430000"), "")]),
    Case("an accepting packet may end early", MANY, [
        (T, on(1, "0B0000"), ""), (N, on(1, "0F"), ""),
        (T, on(2, "0B0000"), ""), (N, on(2, "0F1112"), ""),
        (T, on(3, "0B0000"), ""), (N, on(3, "0F0000"), ""),
        (T, on(4, "0B0000"), ""), (N, on(4, "0F20"), "p2 38")]),
    Case("fast select of either packet gives room for user data", MANY, [
        (T, on(1, "0B0000"), ""), (N, on(1, "0F0000" + ZEROS_17), "p2 39"),
        (T, on(2, "0B00020180"), ""), (N, on(2, "0F0000" + ZEROS_17), ""),
        (T, on(3, "0B0000"), ""), (N, on(3, "0F00020180" + ZEROS_17), "")]),
    Case("the last of two facilities counts", MANY, [
        (T, on(1, "0B11120401810100"), ""), (N, on(1, "0F0000" + ZEROS_17), "p2 39"), (N, on(1, "0F"), "")],
        ["A 2 1 0"]),
    Case("a marker ends the facilities", MANY, [
        (T, on(1, "0B00050000430101"), ""), (N, on(1, "0F"), ""),
        (T, on(1, "00"), ""), (T, on(1, "02"), ""), (T, on(1, "04"), "d1 1")]),
    Case("reverse charging is paid by the called address", MANY, [
        (T, on(1, "0B32123450020101"), ""), (N, on(1, "0F"), ""), (T, on(1, "00"), ""), (T, on(1, "02" + "00" * 64), ""),
        (N, on(1, "41"), ""), (T, on(1, "04" + "00" * 65), "")],
        ["A 12 1 3", "C 1 1 1 out 12 345 1 2 - open 3 129 0 0 3"]),
]

TRANSFER = [
    Case("packets on permanent circuits have their lengths", PERMANENT, [
        (T, on(1, "00" + "00" * 16), ""), (T, on(1, "02" + "00" * 17), "d1 39"),
        (T, on(2, "23"), "d1 38"), (T, on(3, "23" + "00" * 32), ""), (T, on(4, "23" + "00" * 33), "d1 39"),
        (N, on(3, "2700"), "d1 39"), (N, on(3, "27"), ""),
        (T, on(5, "0100"), "d1 39"), (T, on(6, "0500"), "d1 39"), (T, on(7, "1B"), "d1 38"), (N, on(8, "1B000000"), "d1 39")]),
    Case("cut headers at modulo 128 are too short", MODULO_128, [
        (T, "20017E", "d1 38"), (T, "200201", "d1 38"), (T, "200305", "d1 38"), (T, "2004E1", "d1 33")]),
    Case("three packets fill a window of two", PERMANENT, [
        (T, on(1, "00"), ""), (T, on(1, "02"), ""), (T, on(1, "04"), "d1 1"),
        (T, on(2, "00"), ""), (T, on(2, "02"), ""), (N, on(2, "21"), ""), (T, on(2, "04"), "")]),
    Case("a receive number of nothing that was sent", PERMANENT, [
        (T, on(1, "21"), "d1 2"), (N, on(1, "1B0002"), ""), (T, on(1, "1F"), ""), (T, on(1, "00"), "")]),
    Case("numbers wrap around in a window of seven", WINDOW_7, [
        *((T, on(1, f"{2 * send:02X}"), "") for send in range(7)), (N, on(1, "E1"), ""), (T, on(1, "0E"), ""), (T, on(1, "00"), "")]),
    Case("an eighth packet does not fit a window of seven", WINDOW_7, [
        *((T, on(1, f"{2 * send:02X}"), "") for send in range(7)), (T, on(1, "0E"), "d1 1")]),
    Case("interrupts are confirmed one by one", PERMANENT, [
        (T, on(1, "2301"), ""), (N, on(1, "27"), ""), (T, on(1, "2301"), ""), (T, on(1, "2301"), "d1 44"),
        (N, on(1, "1B002C"), ""), (T, on(1, "1F"), ""), (T, on(1, "2301"), ""), (T, on(1, "27"), "d1 43")]),
]

PAD_CALL = [(T, on(1, "0B000001000000"), ""), (N, on(1, "0F"), "")]


def message(side, send, octets, finding="", receive=0):
    """A PAD message in one packet on channel 1."""
    return side, f"9001{receive * 32 + send * 2:02X}{octets}", finding


MESSAGES = [
    Case("a value that was asked for is said, and another one refused", PLAIN, [
        *PAD_CALL, message(N, 0, "020201"), message(T, 0, "000201", receive=1)], ["S 1 T 2 said 1"]),
    Case("the PAD refuses a value", PLAIN, [
        *PAD_CALL, message(N, 0, "020201"), message(T, 0, "008205", receive=1)], ["S 1 T 2 refused 5"]),
    Case("an indication without a request changes nothing", PLAIN, [
        *PAD_CALL, message(T, 0, "000201", "d1 X4"), message(N, 0, "04", receive=1), message(T, 1, "000201", receive=1)],
        ["S 1 T 2 said 1"]),
    Case("sets that no PAD can do are taken all the same", "X25 1 MOD 8 WIN 7 SIZE 128 PVC 0 SVC 4", [
        *PAD_CALL, message(N, 0, "020B01", "d1 X3"), message(N, 1, "020202", "d1 X3"), message(N, 2, "020F01"),
        message(N, 3, "061080", "d1 X3"), message(N, 4, "02127F"), message(N, 5, "0213FF"), message(N, 6, "0200000B02")],
        ["S 1 T 2 asked 2", "S 1 T 11 asked 1", "S 1 T 15 asked 1", "S 1 T 16 asked 128", "S 1 T 18 asked 127", "S 1 T 19 asked 255"]),
    Case("a set without pairs makes all unknown, and one of a separator nothing", PLAIN, [
        *PAD_CALL, message(N, 0, "020201"), message(N, 1, "020000")], ["S 1 T 2 asked 1"]),
    Case("messages for the PAD of the DCE are not the DTE's", PLAIN, [
        *PAD_CALL, message(T, 0, "020201"), message(N, 0, "000201", receive=1), message(N, 1, "030801", receive=1),
        message(T, 1, "000201", "d1 X4", receive=2)], ["S 1 N 2 said 1"]),
    Case("messages have their faults", "X25 1 MOD 8 WIN 7 SIZE 128 PVC 0 SVC 4", [
        *PAD_CALL, message(N, 0, "", "d1 X1"), message(N, 1, "09", "d1 X1"), message(N, 2, "42", "d1 X1"),
        message(N, 3, "0202", "d1 X2"), message(N, 4, "030802", "d1 X2"), message(N, 5, "0403", "d1 X2"), message(N, 6, "0801")]),
    Case("full packets with the M bit are one message, and a mixed one leaves it begun", "X25 1 MOD 8 WIN 7 SIZE 16 PVC 0 SVC 4", [
        *PAD_CALL, (N, "900110" + "02010102000300040005000600070008", ""),
        (N, on(1, "02AA"), "d1 83"), (T, "9001000801", "")]),
]

CASES = [*RESTARTS, *CALLS, *TRANSFER, *MESSAGES]
