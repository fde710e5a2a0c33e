"""Compares traces with the dissection of tshark, where that is installed: frames, channels, types and octets."""
import concurrent.futures
import json
import re
import shutil
import subprocess

PROGRAM = shutil.which("tshark")
SECONDS = 60
AT_A_TIME = 3
FRAME = re.compile(r"#@ (?!circuit )\S+ (\d+)")
CIRCUIT = re.compile(r"# connection \d+ is channel (\d+)\b.*, logical channel (\d+) in the capture")
OTHER_FRAMES = "tcp.reassemble_out_of_order:TRUE"


def packets_of_trace(trace):
    """Frame, channel in the capture, and octets without the channel, of each row of a packet."""
    frame, channels = 0, {}
    for line in trace.splitlines():
        if match := FRAME.match(line):
            frame = int(match[1])
        elif match := CIRCUIT.match(line):
            channels[int(match[1])] = int(match[2])
        elif line[0].isdigit() and line.split(" ")[1] != "?":
            octets = line.split(" ")[2]
            channel = int(octets[1:4], 16)
            yield frame, channels.get(channel, channel), (octets[0] + octets[4:]).lower()


def listed(value):
    """The raw entries of a layer that a frame has once, more than once, or not."""
    if not value:
        return []
    return value if isinstance(value[0], list) else [value]


def packets_of_tshark(file, options):
    """The same of each X.25 layer; user data that another dissector reads is missing; then the octets end early."""
    words = [PROGRAM, "-n", "-r", file, "--no-duplicate-keys", "-T", "json", "-x", "-Y", "x25", *options]
    done = subprocess.run(words, capture_output=True, timeout=SECONDS)
    if done.returncode:
        raise ValueError(done.stderr.decode().strip())
    for packet in json.loads(done.stdout or "[]"):
        layers = packet["_source"]["layers"]
        data = {place: octets for octets, place, *_ in listed(layers.get("data_raw"))}
        for octets, place, length, *_ in listed(layers["x25_raw"]):
            whole = octets + data.get(place + length, "")
            yield int(layers["frame"]["frame.number"]), int(whole[1:4], 16), whole[0] + whole[4:]


def complaints(file, trace, options):
    """What differs; where tshark puts segments in order, it names other frames than those that hold the octets."""
    try:
        ours, theirs = list(packets_of_trace(trace)), list(packets_of_tshark(file, options))
    except ValueError as fault:
        return [str(fault)]
    if OTHER_FRAMES in options:
        ours, theirs = ([(0, *rest) for _, *rest in packets] for packets in (ours, theirs))
    ours, theirs = sorted(ours), sorted(theirs)
    if len(ours) != len(theirs):
        return [f"{len(ours)} packets, tshark has {len(theirs)}"]
    return [
        f"frame, channel and octets: {our}, tshark has {their}"
        for our, their in zip(ours, theirs)
        if our[:2] != their[:2] or not our[2].startswith(their[2])
    ][:1]


def outcomes(files, cases):
    """Names of tests, and what is wrong with each."""
    asked = [case for case in cases if case.tshark is not None]

    def judge(case):
        trace = (files / f"{case.name}.trace").read_text()
        return complaints(files / f"{case.name}.{case.ending}", trace, case.tshark)

    with concurrent.futures.ThreadPoolExecutor(AT_A_TIME) as pool:
        for case, said in zip(asked, pool.map(judge, asked)):
            yield f"{case.name} and tshark", said
