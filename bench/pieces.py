#!/usr/bin/env python3
"""Times nfsgw over one WRITE whose record comes in pieces of different lengths.

    bench/pieces.py [--size BYTES] [--fragments N] [--pieces BYTES ..] [--runs N] [--program PATH] [--keep FOLDER]

The record is of one fragment, or of N with about the same bytes each (RFC 5531 section 11). It makes one transcript for each length of piece, each with the same record, runs the program on each several times, checks
the exit status and the output, and prints the best times and how they compare with that of the record in one piece. Lines
of one byte have more than ten characters each, so a transcript of such lines is itself about six times as long. With --keep
the transcripts stay in that folder, for `valgrind --tool=callgrind`.
"""

import argparse
import os
import sys
import tempfile

import uploads


def make_transcript(path, record, length):
    with open(path, "w", encoding="ascii") as out:
        out.write("file data\n")
        for first in range(0, len(record), length):
            out.write(f"bytes 1 {record[first:first + length].hex()}\n")
        out.write("turn 4\nend\n")


def cut(record, fragments):
    """The same message in a record of so many fragments."""
    message = record[4:]
    share = -(-len(message) // fragments)
    parts = [message[first:first + share] for first in range(0, len(message), share)]
    parts += [b""] * (fragments - len(parts))
    last = 0x80000000
    headers = [len(part) for part in parts[:-1]] + [last | len(parts[-1])]
    return b"".join(header.to_bytes(4, "big") + part for header, part in zip(headers, parts))


def main():
    parser = argparse.ArgumentParser(description="Times nfsgw over one WRITE in pieces.")
    parser.add_argument("--size", type=uploads.positive, default=uploads.MAX_SIZE, help="the bytes of the write, up to 1,048,576")
    parser.add_argument("--fragments", type=uploads.positive, default=1, help="the fragments of its record, up to 64")
    parser.add_argument("--keep", help="a folder for the transcripts")
    parser.add_argument("--pieces", type=uploads.positive, nargs="+", default=[1, 64, 4096], help="the bytes of each piece")
    parser.add_argument("--runs", type=uploads.positive, default=3, help="how often each transcript is run")
    parser.add_argument("--program", help="the program to run, if not the one that `rt run` leaves")
    options = parser.parse_args()
    if options.size > uploads.MAX_SIZE:
        parser.error(f"a write has at most {uploads.MAX_SIZE} bytes")
    program = os.path.abspath(options.program) if options.program else uploads.find_program()
    if options.fragments > 64:
        parser.error("a record has at most 64 fragments")
    record = cut(uploads.write_call(1, 0, uploads.content_of(0, options.size)), options.fragments)
    with tempfile.TemporaryDirectory(prefix="nfsgw-pieces-") as folder:
        transcript = os.path.join(folder, "transcript")
        output = os.path.join(folder, "output")
        best = {}
        for length in [len(record)] + options.pieces:
            if options.keep:
                transcript = os.path.join(options.keep, f"fragments-{options.fragments}-pieces-{length}")
            make_transcript(transcript, record, length)
            times = []
            for _ in range(options.runs):
                seconds, peak = uploads.run_once(program, transcript, output)
                uploads.check_output(output, 1, options.size, 1)
                times.append(seconds)
            best[length] = min(times)
            ratio = best[length] / best[len(record)]
            print(f"pieces of {length} bytes: {min(times):.3f} s, {ratio:.2f} times that of one piece, peak {peak / 1024:.1f} MiB in a transcript of {os.path.getsize(transcript) / 2**20:.1f} MiB", flush=True)


if __name__ == "__main__":
    sys.exit(main())
