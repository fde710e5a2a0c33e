"""The way from a capture to a trace: a file's frames, what they carry, the packets of it, and their trace.

files       captures, source, pcap, pcapng, snoop, hexdump: from octets to frames
carriers    links, internet, tunnels, other_ports, tcp, xot, lapb: from frames to packets with a side
the trace   packets, channels, halves, spool, trace: from packets to rows under a header; live: while frames come
header      estimate has what was seen; ranking the headers that x25scan tries, evidence what they decide
comments    the capture again, with what x25scan finds as comments of its frames
following   x25scan, which reads the trace while it is written; passing has a trace that is passed on unchanged
command     the streams, the signals and the exit status; words has the options. making is what x25page calls
"""
