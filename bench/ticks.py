#!/usr/bin/env python3
"""Times nfsgw over ticks that come to many open files, none of which is to be closed yet.

    bench/ticks.py [--ticks N N] [--files N] [--runs N] [--program PATH] [--keep FOLDER]

Each file is opened by one write, which is stored; then ticks of a millisecond follow, fewer than the 600,000 after which an idle
file is closed. It checks each line of the output, and prints the best time of each count and how they compare. With --keep the
transcripts stay in that folder, for `valgrind --tool=callgrind`.
"""

import argparse
import os
import tempfile

import files
import uploads

SIZE = 16


def make_transcript(path, count, ticks):
    with open(path, "w", encoding="ascii") as out:
        for number in range(count):
            out.write(f"file d{number}\n")
        for number in range(count):
            call = files.write_call(4 + number, number + 1, 0, uploads.content_of(number, SIZE))
            out.write(f"bytes 1 {call.hex()}\nturn {4 + number}\n")
        out.write("tick 1\n" * ticks)
        out.write("end\n")


def expected_lines(count):
    for number in range(count):
        yield f"reply 1 {uploads.wrote_reply(number + 1, SIZE).hex()}"
    for number in range(count):
        yield f"context {4 + number} from 0"
        yield f"write 1 0 {SIZE} put -"
        yield f"ended {4 + number} end reach {SIZE} stored {SIZE} synced 0"


def main():
    parser = argparse.ArgumentParser(description="Times nfsgw over ticks that come to many open files.")
    parser.add_argument("--ticks", type=uploads.positive, nargs=2, default=[250, 1000], help="the two numbers of ticks")
    parser.add_argument("--files", type=uploads.positive, default=128, help="how many files are open, at most 128")
    parser.add_argument("--runs", type=uploads.positive, default=5, help="how often each transcript is run")
    parser.add_argument("--program", help="the program to run, if not the one that `rt run` leaves")
    parser.add_argument("--keep", help="a folder for the transcripts")
    options = parser.parse_args()
    if options.files > 128 or max(options.ticks) >= 600_000:
        parser.error("at most 128 files have a context, and one that is idle for 600,000 ms is closed")
    program = os.path.abspath(options.program) if options.program else uploads.find_program()
    first = None
    with tempfile.TemporaryDirectory(prefix="nfsgw-ticks-") as folder:
        output = os.path.join(folder, "output")
        for ticks in options.ticks:
            transcript = os.path.join(options.keep or folder, f"ticks-{ticks}")
            make_transcript(transcript, options.files, ticks)
            runs = [uploads.run_once(program, transcript, output) for _ in range(options.runs)]
            with open(output, encoding="ascii") as lines:
                if [line.rstrip("\n") for line in lines] != list(expected_lines(options.files)):
                    raise SystemExit(f"{ticks} ticks: the output isn't the one that is wanted")
            best = min(run[0] for run in runs)
            first = first or best
            print(f"{ticks} ticks: {best:.4f} s, {best / first:.2f} times")


if __name__ == "__main__":
    main()
