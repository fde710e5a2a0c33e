"""A case: a capture, the words it is read with, and what its trace and report have to say."""
from dataclasses import dataclass, field


@dataclass
class Case:
    """The rows are the header and the rows of the trace, without its comments; the report is that on the trace.

    The times are its comments with times and frames, of cases that are about these.
    """

    name: str
    octets: bytes
    rows: str = ""
    words: str = ""
    status: int = 0
    report: str = ""
    ending: str = "pcap"
    # Where tshark reads the file as it is, its dissection is compared too; the words are what it needs for that.
    tshark: list | None = field(default_factory=list)
    times: str = ""


def text(lines):
    """The lines of an indented text of a case."""
    return "".join(line.strip() + "\n" for line in lines.strip().splitlines())


def gaps_header(window=2, size=128, last=1, join=False):
    """The header of a trace with gaps, of two-way channels."""
    channels = f"IN 0 TWO {last} OUT {last}{' JOIN' if join else ''}"
    return f"X25 3 MOD 8 WIN {window} SIZE {size} PVC 0 {channels}\n"


def with_gaps(report, many):
    """A report without gaps, with their number."""
    return report.replace("Z ", f"G {many}\nZ ")
