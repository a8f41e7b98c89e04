#!/usr/bin/env python3
"""Times nfsgw over uploads: WRITE calls in windows, each window followed by a turn of the writer for each of its writes,
and behind them a COMMIT of the file, with its turn and a sync.

The line to the writer has eight slots, so there is a pump after each eight turns of a window, which sends what is ready.

    bench/uploads.py [--counts N N] [--size BYTES] [--windows N ..] [--runs N] [--program PATH]

The writes of a window are sent in order, but for its first one, which comes last; in windows of one write all are in
order. It makes one transcript for each window and count of writes, runs the program on each several times, checks the
exit status and every line of the output, and prints the times, the ratio of the best ones beside that of the counts
(which a run that is linear in its transcript comes to), the data per second, and the peak memory. The times include the
reading of the transcript, which has more than two digits for each byte of data, and the writing of the replies to a file.

Without --program it takes crates/nfsgw/out/nfsgw, which `rt run` leaves there, and runs `rt run` where it is missing.
"""

import argparse
import hashlib
import os
import struct
import subprocess
import sys
import tempfile
import time

ROOT = os.path.dirname(os.path.dirname(os.path.abspath(__file__)))
CRATE = os.path.join(ROOT, "crates", "nfsgw")
PROGRAM = os.path.join(CRATE, "out", "nfsgw")

# The greatest number of data bytes of a WRITE.
MAX_SIZE = 1_048_576

# The slots of the line to the writer.
SLOTS = 8

FILE_ID = 4
FILE_SYSTEM_ID = 1
LAST_FRAGMENT = 1 << 31
GENERATION = 1


def handle():
    """The file handle: file id, file system id, and the MD5 of these 16 bytes."""
    ids = struct.pack(">QQ", FILE_ID, FILE_SYSTEM_ID)
    return ids + hashlib.md5(ids).digest()


def write_call(xid, offset, content):
    """A WRITE of NFS version 3, UNSTABLE and by AUTH_NONE, as a record of one fragment (RFC 1813 section 3.3.7)."""
    call = struct.pack(">11I", xid, 0, 2, 100003, 3, 7, 0, 0, 0, 0, 32)
    call += handle()
    call += struct.pack(">Q3I", offset, len(content), 0, len(content))
    call += content + bytes(-len(content) % 4)
    return struct.pack(">I", LAST_FRAGMENT + len(call)) + call


def commit_call(xid):
    """A COMMIT of the whole file, as a record of one fragment (RFC 1813 section 3.3.21)."""
    call = struct.pack(">11I", xid, 0, 2, 100003, 3, 21, 0, 0, 0, 0, 32)
    call += handle()
    call += struct.pack(">QI", 0, 0)
    return struct.pack(">I", LAST_FRAGMENT + len(call)) + call


def committed_reply(xid):
    """The reply to a COMMIT that was done, as a record of one fragment."""
    reply = struct.pack(">6I", xid, 1, 0, 0, 0, 0)
    reply += struct.pack(">3IQ", 0, 0, 0, GENERATION)
    return struct.pack(">I", LAST_FRAGMENT + len(reply)) + reply


def wrote_reply(xid, count):
    """The reply to an UNSTABLE WRITE that was done, as a record of one fragment."""
    reply = struct.pack(">6I", xid, 1, 0, 0, 0, 0)
    reply += struct.pack(">5IQ", 0, 0, 0, count, 0, GENERATION)
    return struct.pack(">I", LAST_FRAGMENT + len(reply)) + reply


def content_of(number, size):
    """The bytes of the write of this number: no two writes near one another have the same."""
    return hashlib.md5(struct.pack(">Q", number)).digest() * (size // 16) + bytes(size % 16)


def windows_of(count, window):
    """For each window the places of its writes in the file, in the order in which they are sent."""
    for first in range(0, count, window):
        places = list(range(first, min(first + window, count)))
        yield places[1:] + places[:1]


def make_transcript(path, count, size, window):
    xid = 0
    with open(path, "w", encoding="ascii") as out:
        out.write("file data\n")
        for places in windows_of(count, window):
            for place in places:
                xid += 1
                call = write_call(xid, place * size, content_of(place, size))
                out.write(f"bytes 1 {call.hex()}\n")
            for first in range(0, len(places), SLOTS):
                if first > 0:
                    out.write("pump 4\n")
                out.write("turn 4\n" * min(SLOTS, len(places) - first))
        out.write(f"bytes 1 {commit_call(count + 1).hex()}\nturn 4\nsync 4\nend\n")


def expected_lines(count, size, window):
    # A write above what is there is answered when it comes, the first of its window at its turn, after the others.
    for xid in range(1, count + 1):
        yield f"reply 1 {wrote_reply(xid, size).hex()}"
    yield f"reply 1 {committed_reply(count + 1).hex()}"
    yield "context 4 from 0"
    number = 0
    for places in windows_of(count, window):
        for place in places:
            number += 1
            yield f"write {number} {place * size} {size} put -"
    reach = count * size
    yield f"ended 4 end reach {reach} stored {reach} synced {reach}"


def check_output(path, count, size, window):
    with open(path, encoding="ascii") as output:
        lines = (line.rstrip("\n") for line in output)
        for number, wanted in enumerate(expected_lines(count, size, window), 1):
            line = next(lines, None)
            if line != wanted:
                sys.exit(f"uploads: output line {number} is {line!r}, and {wanted!r} is wanted")
        for line in lines:
            sys.exit(f"uploads: a line follows the last one: {line!r}")


def run_once(program, transcript, output):
    """The seconds and the greatest memory in KiB of one run, whose status must be 0."""
    with open(transcript, "rb") as source, open(output, "wb") as sink:
        begin = time.perf_counter()
        process = subprocess.Popen([program, "replay"], stdin=source, stdout=sink)
        _, status, usage = os.wait4(process.pid, 0)
        seconds = time.perf_counter() - begin
    code = os.waitstatus_to_exitcode(status)
    process.returncode = code
    if code != 0:
        sys.exit(f"uploads: the program ended with status {code}")
    return seconds, usage.ru_maxrss


def find_program():
    if not os.path.exists(PROGRAM):
        with open(os.path.join(CRATE, "stdin"), "rb") as source:
            subprocess.run(["rt", "run", "--", "replay"], cwd=CRATE, stdin=source, stdout=subprocess.DEVNULL)
        if not os.path.exists(PROGRAM):
            sys.exit("uploads: `rt run` left no program")
    return PROGRAM


def positive(text):
    number = int(text)
    if number < 1:
        raise argparse.ArgumentTypeError("a number from 1 on is wanted")
    return number


def read_options():
    parser = argparse.ArgumentParser(description="Times nfsgw over uploads in windows of writes.")
    parser.add_argument("--counts", type=positive, nargs=2, default=[4096, 16384], help="the two numbers of writes")
    parser.add_argument("--size", type=positive, default=4096, help="the bytes of each write, up to 1,048,576")
    parser.add_argument("--windows", type=positive, nargs="+", default=[1, 16], help="how many writes a window has")
    parser.add_argument("--runs", type=positive, default=3, help="how often each transcript is run")
    parser.add_argument("--program", help="the program to run, if not the one that `rt run` leaves")
    options = parser.parse_args()
    if options.size > MAX_SIZE:
        parser.error(f"a write has at most {MAX_SIZE} bytes")
    return options


def measure(program, folder, count, size, window, runs):
    """The best time of several runs over one upload. Each run is printed."""
    transcript = os.path.join(folder, "transcript")
    output = os.path.join(folder, "output")
    make_transcript(transcript, count, size, window)
    data = count * size / 2**20
    print(f"{count} writes of {size} bytes in windows of {window}: {data:.1f} MiB in a transcript of {os.path.getsize(transcript) / 2**20:.1f} MiB")
    times = []
    for _ in range(runs):
        seconds, peak = run_once(program, transcript, output)
        check_output(output, count, size, window)
        print(f"  {seconds:8.3f} s  {data / seconds:8.2f} MiB/s  peak {peak / 1024:.1f} MiB", flush=True)
        times.append(seconds)
    return min(times)


def main():
    options = read_options()
    program = os.path.abspath(options.program) if options.program else find_program()
    few, many = options.counts
    with tempfile.TemporaryDirectory(prefix="nfsgw-uploads-") as folder:
        for window in options.windows:
            first = measure(program, folder, few, options.size, window, options.runs)
            second = measure(program, folder, many, options.size, window, options.runs)
            print(f"the best times are as 1 to {second / first:.2f}, and the writes as 1 to {many / few:.2f}")


if __name__ == "__main__":
    main()
