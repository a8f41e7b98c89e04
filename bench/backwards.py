#!/usr/bin/env python3
"""Times nfsgw over a file that is written backwards: each write begins above a hole and is buffered, until the one at 0 fills it.

    bench/backwards.py [--counts N N] [--size BYTES] [--runs N] [--program PATH] [--keep FOLDER]

Each buffered write weighs 1,024 and its bytes, and a file's may weigh 8 MiB together, so some 8,000 are the most. Turns
follow, with a pump after each eight. It prints the best time of each count, how they compare beside the counts, and the peak
memory. With --keep the transcripts stay in that folder, for `valgrind --tool=callgrind`.
"""

import argparse
import os
import tempfile

import files
import uploads


def make_transcript(path, writes, size):
    with open(path, "w", encoding="ascii") as out:
        out.write("file data\n")
        for number in reversed(range(writes)):
            data = uploads.content_of(number, size)
            out.write(f"bytes 1 {files.write_call(4, number + 1, number * size, data).hex()}\n")
        for number in range(writes):
            out.write("turn 4\npump 4\n" if number % 8 == 7 else "turn 4\n")
        out.write("end\n")


def main():
    parser = argparse.ArgumentParser(description="Times nfsgw over a file that is written backwards.")
    parser.add_argument("--counts", type=uploads.positive, nargs=2, default=[2000, 8000], help="how many writes")
    parser.add_argument("--size", type=uploads.positive, default=16, help="the bytes of each write")
    parser.add_argument("--runs", type=uploads.positive, default=5, help="how often each transcript is run")
    parser.add_argument("--program", help="the program to run, if not the one that `rt run` leaves")
    parser.add_argument("--keep", help="a folder for the transcripts")
    options = parser.parse_args()
    program = os.path.abspath(options.program) if options.program else uploads.find_program()
    first = None
    with tempfile.TemporaryDirectory(prefix="nfsgw-backwards-") as folder:
        output = os.path.join(folder, "output")
        for writes in options.counts:
            transcript = os.path.join(options.keep or folder, f"backwards-{writes}")
            make_transcript(transcript, writes, options.size)
            runs = [uploads.run_once(program, transcript, output) for _ in range(options.runs)]
            with open(output, encoding="ascii") as lines:
                wrote = sum(line.startswith("write ") and line.endswith(" put -\n") for line in lines)
            if wrote != writes:
                raise SystemExit(f"{writes} writes: {wrote} were stored")
            best = min(run[0] for run in runs)
            first = first or best
            print(f"{writes} writes: {best:.3f} s, {best / first:.2f} times, peak {max(run[1] for run in runs) / 1024:.1f} MiB")


if __name__ == "__main__":
    main()
