#!/usr/bin/env python3
"""Makes a transcript of a capture, so that what clients really sent is replayed.

    python3 tools/transcript_of_capture.py upload.pcap --port 2049 --file data --after 'turn 4' > upload.transcript

Reads pcap and pcapng, with the TCP streams to one port of a server over IPv4 or IPv6. Each connection has a number, from 1 in
the order of their first packets. The bytes that a client sent are `bytes` lines, in the order in which the capture has them,
each byte once however often it was sent; a client that closes or resets is a `hangup` line. A `file` line for each --file
comes first, and behind each `bytes` line come the lines of --after. With --replies the records that the server sent are
written to a file, as the `reply` lines that a replay would write."""

import argparse
import struct
import sys

ETHERNET, RAW, LOOP, NULL, COOKED, COOKED_2 = 1, 101, 108, 0, 113, 276
FIN, SYN, RST = 1, 2, 4
# A line of a transcript has at most 4,194,304 bytes.
MOST = 2_000_000


class Bad(Exception):
    """The capture can't be read, for this reason."""


def packets(text):
    """The packets of a capture, each with the type of its link."""
    magic = text[:4]
    if magic == b"\x0a\x0d\x0d\x0a":
        yield from packets_of_pcapng(text)
    elif magic in (b"\xd4\xc3\xb2\xa1", b"\x4d\x3c\xb2\xa1"):
        yield from packets_of_pcap(text, "<")
    elif magic in (b"\xa1\xb2\xc3\xd4", b"\xa1\xb2\x3c\x4d"):
        yield from packets_of_pcap(text, ">")
    else:
        raise Bad("neither pcap nor pcapng")


def packets_of_pcap(text, order):
    (link,) = struct.unpack_from(order + "I", text, 20)
    place = 24
    while place + 16 <= len(text):
        (kept,) = struct.unpack_from(order + "I", text, place + 8)
        yield link & 0xFFFF, text[place + 16 : place + 16 + kept]
        place += 16 + kept


def packets_of_pcapng(text):
    """The enhanced and the simple packet blocks, by the interfaces of their section."""
    order, links, place = "<", [], 0
    while place + 12 <= len(text):
        if text[place : place + 4] == b"\x0a\x0d\x0d\x0a":
            order, links = ("<" if text[place + 8 : place + 12] == b"\x4d\x3c\x2b\x1a" else ">"), []
        kind, size = struct.unpack_from(order + "II", text, place)
        if size < 12:
            raise Bad(f"a block of {size} bytes at {place}")
        body = text[place + 8 : place + size - 4]
        if kind == 1:
            links.append(struct.unpack_from(order + "H", body)[0])
        elif kind == 6:
            interface, _, _, kept = struct.unpack_from(order + "IIII", body)
            yield links[interface], body[20 : 20 + kept]
        elif kind == 3:
            yield links[0], body[4:]
        place += size


def internet_packet(link, frame):
    """The IP packet in a frame, or nothing."""
    if link == ETHERNET:
        place = 12
        while frame[place : place + 2] in (b"\x81\x00", b"\x88\xa8"):
            place += 4
        return frame[place + 2 :]
    skipped = {RAW: 0, NULL: 4, LOOP: 4, COOKED: 16, COOKED_2: 20}.get(link)
    if skipped is None:
        raise Bad(f"links of type {link}")
    return frame[skipped:]


class Segment:
    """A TCP segment, with the addresses and ports of both ends."""

    def __init__(self, source, target, text):
        ports = struct.unpack_from(">HH", text)
        self.source, self.target = (source, ports[0]), (target, ports[1])
        self.number, _, offset, self.flags = struct.unpack_from(">IIBB", text, 4)
        self.data = text[(offset >> 4) * 4 :]


def segment(link, frame):
    """The TCP segment in a frame, or None."""
    packet = internet_packet(link, frame)
    if not packet:
        return None
    version = packet[0] >> 4
    if version == 4 and packet[9] == 6:
        size = int.from_bytes(packet[2:4], "big")
        head = (packet[0] & 15) * 4
        return Segment(packet[12:16], packet[16:20], packet[head : size or None])
    if version == 6 and packet[6] == 6:
        size = int.from_bytes(packet[4:6], "big")
        return Segment(packet[8:24], packet[24:40], packet[40 : 40 + size if size else None])
    return None


class Stream:
    """One direction of a connection: what was sent, in order and each byte once."""

    def __init__(self):
        self.next, self.ahead, self.last = None, {}, None

    def take(self, s):
        """The bytes that a segment adds, and whether the stream ends with them."""
        first = s.number + (1 if s.flags & SYN else 0)
        if self.next is None or s.flags & SYN:
            self.next = first
        start = self.behind(first)
        if s.data:
            self.ahead[start] = max(self.ahead.get(start, b""), s.data, key=len)
        if s.flags & FIN:
            self.last = start + len(s.data)
        added = b""
        while self.ahead and min(self.ahead) <= len(added):
            place = min(self.ahead)
            added += self.ahead.pop(place)[len(added) - place :]
        self.next = (self.next + len(added)) % 2**32
        self.ahead = {at - len(added): data for at, data in self.ahead.items()}
        if self.last is not None:
            self.last -= len(added)
        return added, bool(s.flags & RST) or (self.last is not None and self.last <= 0)

    def behind(self, number):
        """How far a number is behind the next byte, or before it where this is below 0."""
        return (number - self.next + 2**31) % 2**32 - 2**31


def records(text):
    """The records of a stream that are whole, and how many bytes they have together."""
    place, done, record, found = 0, 0, b"", []
    while place + 4 <= len(text):
        mark = int.from_bytes(text[place : place + 4], "big")
        end = place + 4 + (mark & 0x7FFFFFFF)
        if end > len(text):
            break
        record, place = record + text[place:end], end
        if mark >> 31:
            found.append(record)
            record, done = b"", place
    return found, done


class Lines:
    """The lines of a transcript, and those of the replies."""

    def __init__(self, port, after):
        self.port, self.after = port, after
        self.numbers, self.streams, self.ended, self.sent = {}, {}, set(), {}

    def of_segment(self, s):
        """The lines of the transcript, and of the replies, that a segment makes."""
        if s.target[1] == self.port:
            client, server, from_client = s.source, s.target, True
        elif s.source[1] == self.port:
            client, server, from_client = s.target, s.source, False
        else:
            return [], []
        ends = client, server
        if s.flags & SYN and from_client and ends in self.ended:
            self.ended.discard(ends)
            del self.numbers[ends]
        number = self.numbers.setdefault(ends, len(self.streams) // 2 + 1)
        stream = self.streams.setdefault((number, from_client), Stream())
        self.streams.setdefault((number, not from_client), Stream())
        if ends in self.ended:
            return [], []
        added, over = stream.take(s)
        if not from_client:
            return [], self.of_server(number, added)
        lines = []
        for start in range(0, len(added), MOST):
            lines += [f"bytes {number} {added[start : start + MOST].hex()}", *self.after]
        if over:
            self.ended.add(ends)
            lines.append(f"hangup {number}")
        return lines, []

    def of_server(self, number, added):
        text = self.sent.get(number, b"") + added
        found, done = records(text)
        self.sent[number] = text[done:]
        return [f"reply {number} {record.hex()}" for record in found]


def main():
    words = argparse.ArgumentParser(description="Makes a transcript of a capture.")
    words.add_argument("capture", help="a file of tcpdump or Wireshark, pcap or pcapng")
    words.add_argument("--port", type=int, default=2049, help="the server's port (2049)")
    words.add_argument("--file", action="append", default=[], metavar="NAME", help="a file that is there at the start")
    words.add_argument("--after", action="append", default=[], metavar="LINE", help="a line behind each `bytes` line")
    words.add_argument("--replies", metavar="FILE", help="where the server's replies go")
    given = words.parse_args()
    replies = []
    lines = Lines(given.port, given.after)
    for name in given.file:
        print(f"file {name}")
    with open(given.capture, "rb") as it:
        text = it.read()
    for link, frame in packets(text):
        found = segment(link, frame)
        if found is None:
            continue
        made, told = lines.of_segment(found)
        replies += told
        for line in made:
            print(line)
    print("end")
    if given.replies:
        with open(given.replies, "w", encoding="ascii") as it:
            it.writelines(f"{line}\n" for line in replies)


if __name__ == "__main__":
    try:
        main()
    except (Bad, OSError, struct.error) as why:
        sys.exit(f"transcript_of_capture: {why}")
