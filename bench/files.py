#!/usr/bin/env python3
"""Times nfsgw over the same number of writes over one file and over many, each with its turn.

    bench/files.py [--writes N] [--size BYTES] [--files N N] [--runs N] [--program PATH] [--keep FOLDER]

The writes go to the files in turn, in order in each, with a pump after each eight of a file. It runs the program on each
transcript several times, checks the exit status and the number of replies, and prints the best times, how they compare, and
the peak memory. With --keep the transcripts stay in that folder, for `valgrind --tool=callgrind`.
"""

import argparse
import hashlib
import os
import struct
import tempfile

import uploads


def handle(file):
    ids = struct.pack(">QQ", file, 1)
    return ids + hashlib.md5(ids).digest()


def write_call(file, xid, offset, data):
    """The record of an UNSTABLE WRITE of a file (RFC 5531 section 9, RFC 1813 section 3.3.7)."""
    body = struct.pack(">10I", xid, 0, 2, 100003, 3, 7, 0, 0, 0, 0) + struct.pack(">I", 32) + handle(file)
    body += struct.pack(">QII", offset, len(data), 0) + struct.pack(">I", len(data)) + data + bytes(-len(data) % 4)
    return struct.pack(">I", 0x80000000 | len(body)) + body


def make_transcript(path, writes, files, size):
    with open(path, "w", encoding="ascii") as out:
        for number in range(files):
            out.write(f"file d{number}\n")
        for number in range(writes):
            file, place = 4 + number % files, number // files
            data = uploads.content_of(number, size)
            out.write(f"bytes 1 {write_call(file, number + 1, place * size, data).hex()}\nturn {file}\n")
            if place % 8 == 7:
                out.write(f"pump {file}\n")
        out.write("end\n")


def main():
    parser = argparse.ArgumentParser(description="Times nfsgw over writes to one file and to many.")
    parser.add_argument("--writes", type=uploads.positive, default=16384, help="how many writes in all")
    parser.add_argument("--size", type=uploads.positive, default=512, help="the bytes of each write")
    parser.add_argument("--files", type=uploads.positive, nargs=2, default=[1, 100], help="the two numbers of files, up to 128")
    parser.add_argument("--runs", type=uploads.positive, default=3, help="how often each transcript is run")
    parser.add_argument("--program", help="the program to run, if not the one that `rt run` leaves")
    parser.add_argument("--keep", help="a folder for the transcripts")
    options = parser.parse_args()
    if max(options.files) > 128:
        parser.error("at most 128 files have a context")
    program = os.path.abspath(options.program) if options.program else uploads.find_program()
    first = None
    with tempfile.TemporaryDirectory(prefix="nfsgw-files-") as folder:
        output = os.path.join(folder, "output")
        for files in options.files:
            transcript = os.path.join(options.keep or folder, f"files-{files}")
            make_transcript(transcript, options.writes, files, options.size)
            runs = [uploads.run_once(program, transcript, output) for _ in range(options.runs)]
            with open(output, encoding="ascii") as lines:
                replies = sum(line.startswith("reply ") for line in lines)
            if replies != options.writes:
                raise SystemExit(f"{files} files: {replies} replies to {options.writes} writes")
            best = min(run[0] for run in runs)
            first = first or best
            print(f"{files} files: {best:.3f} s, {best / first:.2f} times, peak {max(run[1] for run in runs) / 1024:.1f} MiB")


if __name__ == "__main__":
    main()
