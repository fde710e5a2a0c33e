"""The recordings of files, and what their traces and reports have to say."""
from __future__ import annotations

from dataclasses import dataclass, field


@dataclass(frozen=True)
class Recording:
    """A recording that is read without an option.

    `known` names what the programs on both ends know, if anything is known; `differ` is the number of calls that differ from
    it, in their octets, in who ended them, or because they are in no list.
    The findings are a frame and side, a state and a code each, and the frame of the finding that one may follow from. `gaps`
    is the greatest number of gap rows.
    """

    name: str
    known: str
    calls: int
    octets: tuple[int, int]
    findings: str = ""
    gaps: int = 0
    status: int = 0
    differ: int = 0
    says: tuple[str, ...] = field(default=())


ONE_ADDRESS = "both ends of the link have the address 01"
LATE = "its opening segment was recorded after the answer to it, so the clocks of two recorders differ"
CROSSED = "48Np1:20 49Tp1:20>48 57Np7:26>48 69Tp1:20 80Np1:20 248Tp1:20 1422Np7:26>248"
CROSSED_IN_XOT = (
    "29Np1:20 31Np1:20 32Tp1:20>29 34Tp1:20>31 67Np1:20 68Np1:20 69Tp1:20>67 71Tp1:20>68 104Np1:20 105Np1:20 "
    "106Tp1:20>105 109Tp1:20>104 138Np1:20 140Np1:20 141Tp1:20>140 143Tp1:20>138 173Np1:20 174Np1:20 175Tp1:20>174 "
    "177Tp1:20>173 200Tp1:20 226Tp1:20 260Tp1:20 287Tp1:20 479Tp1:20 1635Td1:27 1643Tp1:20"
)
# A clear confirmation too many, of one end or of both, in each connection.
PORTS = (
    "20Np1:20 57Np1:20 94Np1:20 131Np1:20 168Np1:20 205Np1:20 242Np1:20 279Np1:20 316Np1:20 353Np1:20 390Np1:20 "
    "427Np1:20 464Np1:20 501Np1:20 538Np1:20 575Np1:20 612Np1:20 613Tp1:20>612 650Np1:20 687Np1:20 724Np1:20 761Np1:20 "
    "798Np1:20 835Np1:20 872Np1:20 910Np1:20 911Tp1:20>910 948Np1:20 949Tp1:20>948 986Np1:20 987Tp1:20>986 1025Np1:20 "
    "1062Np1:20 1082Tp1:20 1121Tp1:20"
)
PORTS_ON_THE_DEVICE = (
    "11Tp1:20 29Tp1:20 46Tp1:20 55Np1:20>29 65Np1:20 82Tp1:20 99Tp1:20 108Np1:20>82 118Np1:20 135Tp1:20 152Tp1:20 "
    "161Np1:20>135 171Np1:20 188Tp1:20 205Tp1:20 214Np1:20>188 224Np1:20 241Tp1:20 258Tp1:20 267Np1:20>241 277Np1:20 "
    "294Tp1:20 311Tp1:20 320Np1:20>294 330Np1:20 347Tp1:20 364Tp1:20 373Np1:20>347 383Np1:20 400Tp1:20 417Tp1:20 "
    "426Np1:20>400 452Tp1:20 469Tp1:20 477Np1:20>452 487Np1:20 504Tp1:20 514Tp1:20 523Np1:20>514"
)
RECORDINGS = (
    Recording("basic-v0.pcap", "basic", 7, (2785, 2829), says=(ONE_ADDRESS,)),
    Recording("basic-lapb0.pcap", "basic", 7, (2785, 2829)),
    Recording("dce-basic-v0.pcap", "basic", 7, (2785, 2829)),
    # Both ends are on one host, so an acknowledgement may be recorded before its frame. Each packet that may follow what
    # seems to be lost has a gap row before it.
    Recording("basic-any.pcap", "basic", 7, (2785, 2709), differ=1, gaps=2, status=1, says=("the same ones were recorded in",)),
    Recording("dce-basic-any.pcap", "basic", 7, (2785, 2829), gaps=3, status=1, says=("the same ones were recorded in",)),
    Recording("facilities-v0.pcap", "facilities", 21, (48532, 53214), "790Tp1:39 796Np1:20>790", differ=1, says=(ONE_ADDRESS,)),
    Recording("asymmetric-v0.pcap", "asymmetric", 3, (6300, 6000), "20Nd1:39 21Nd1:39 22Td1:2>20 137Td1:1", differ=2,
              says=(ONE_ADDRESS,)),
    Recording("more-q-interrupt-v0.pcap", "more-q-interrupt", 3, (5251, 27734), "144Nd1:38 145Td1:43>144 431Td1:38", differ=2,
              says=(ONE_ADDRESS,)),
    Recording("pad-v0.pcap", "pad", 2, (24, 35), says=(ONE_ADDRESS,)),
    Recording("clear-v0.pcap", "clear", 30, (136, 114), "142Np7:26 145Np1:20>142", differ=2, says=(ONE_ADDRESS,)),
    Recording("clear-lapb0.pcap", "clear", 30, (136, 114), "124Np7:26 127Np1:20>124", differ=2),
    Recording("dce-clear-v0.pcap", "clear", 30, (136, 114), "138Np7:26 141Np1:20>138", differ=2),
    Recording("cross-v0.pcap", "cross", 11, (9306, 4432), CROSSED, differ=8, says=(ONE_ADDRESS,)),
    Recording("loss-m0.pcap", "loss", 3, (288541, 288152), says=(ONE_ADDRESS,)),
    Recording("rej-crossing-m0.pcap", "", 3, (21038, 20904)),
    # Four calls are up when the recording begins.
    Recording("mid-v0.pcap", "mid", 1, (99, 0), differ=4, says=(ONE_ADDRESS,)),
    Recording("two-client-eth0.pcap", "two-client", 24, (38676, 38998), says=(ONE_ADDRESS,)),
    Recording("two-client-lapb0.pcap", "two-client", 24, (38676, 38998),
              says=("both sides send on channels after the restart of the DCE",)),
    Recording("two-client-sll.pcap", "two-client", 24, (38676, 38998),
              says=("2757 packets in lapb are read; the same ones were recorded in x25 (--only x25)",)),
    Recording("two-client-any.pcap", "two-client", 24, (38676, 38998),
              says=("the same ones were recorded in x25 on interface 3 (--only x25 --interface 3)",)),
    Recording("xot-plain-eth.pcap", "xot-plain", 7, (2855, 2759)),
    Recording("xot-plain-tun0.pcap", "xot-plain", 7, (2785, 2829)),
    Recording("xot-more-eth.pcap", "xot-more", 3, (25931, 7354), "149Nd1:38 154Td1:43>149 569Td1:38", differ=2),
    Recording("xot-skew-more-0.02.pcap", "xot-more", 3, (25931, 7354), "144Nd1:38 150Td1:43>144 565Td1:38", differ=2, says=(LATE,)),
    Recording("xot-asym-eth.pcap", "xot-asym", 3, (6956, 5000),
              "16Nd1:39 17Nd1:39 20Td1:1>16 169Nd1:1 170Nd1:1>169 171Nd1:1>169 172Nd1:1>169 175Td1:2>169", differ=2),
    Recording("xot-asym-tun0.pcap", "xot-asym", 3, (4156, 6000), "10Nd1:39 11Td1:1>10 87Td1:1", differ=2),
    Recording("xot-clear-eth.pcap", "xot-clear", 31, (232, 33), differ=1),
    Recording("xot-clear-tun0.pcap", "xot-clear", 30, (136, 114), "123Np7:26 126Np1:20>123", differ=2),
    Recording("xot-cross-eth.pcap", "xot-cross", 19, (69044, 73978), CROSSED_IN_XOT),
    Recording("xot-ports-eth.pcap", "xot-ports", 60, (2370, 13770), PORTS),
    Recording("xot-ports-tun0.pcap", "xot-ports", 39, (3411, 7021), PORTS_ON_THE_DEVICE, differ=21),
    # Four calls are up when the recording begins.
    Recording("xot-mid-eth.pcap", "xot-mid", 1, (99, 0), differ=4, gaps=4),
    # The recorder lost a fifth of the frames.
    Recording("xot-ring-eth.pcap", "xot-ring", 30, (282140, 261261), differ=28, gaps=80, status=1),
    # The first 1,500 frames of a recording without one frame, the SYN/ACK of the first connection.
    Recording("xot-bulk-without-synack-6.pcap", "", 3, (105825, 84065)),
)
