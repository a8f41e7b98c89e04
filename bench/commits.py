#!/usr/bin/env python3
"""Times nfsgw over COMMITs that wait together behind one hole of a file, until a write fills it and one sync answers them all.

    bench/commits.py [--counts N N] [--runs N] [--program PATH] [--keep FOLDER]

At most 1,024 COMMITs of a file may wait. Behind the write that fills the hole come turns for all of them, with a pump after each
eight, and the sync. It checks each line of the output, and prints the best time of each count and how they compare. With --keep
the transcripts stay in that folder, for `valgrind --tool=callgrind`.
"""

import argparse
import os
import tempfile

import uploads

SIZE = 16


def make_transcript(path, commits):
    with open(path, "w", encoding="ascii") as out:
        out.write("file data\n")
        out.write(f"bytes 1 {uploads.write_call(1, SIZE, uploads.content_of(1, SIZE)).hex()}\n")
        for number in range(commits):
            out.write(f"bytes 1 {uploads.commit_call(2 + number).hex()}\n")
        out.write(f"bytes 1 {uploads.write_call(2 + commits, 0, uploads.content_of(0, SIZE)).hex()}\n")
        for number in range(commits + 2):
            out.write("turn 4\npump 4\n" if number % uploads.SLOTS == uploads.SLOTS - 1 else "turn 4\n")
        out.write("sync 4\nend\n")


def expected_lines(commits):
    # The write above the hole is answered as it comes, the one that fills it at its turn, and the COMMITs by the sync.
    yield f"reply 1 {uploads.wrote_reply(1, SIZE).hex()}"
    yield f"reply 1 {uploads.wrote_reply(2 + commits, SIZE).hex()}"
    for number in range(commits):
        yield f"reply 1 {uploads.committed_reply(2 + number).hex()}"
    yield "context 4 from 0"
    yield f"write 1 {SIZE} {SIZE} put -"
    yield f"write 2 0 {SIZE} put -"
    yield f"ended 4 end reach {2 * SIZE} stored {2 * SIZE} synced {2 * SIZE}"


def main():
    parser = argparse.ArgumentParser(description="Times nfsgw over COMMITs that wait behind one hole.")
    parser.add_argument("--counts", type=uploads.positive, nargs=2, default=[250, 1000], help="how many COMMITs, at most 1,024")
    parser.add_argument("--runs", type=uploads.positive, default=5, help="how often each transcript is run")
    parser.add_argument("--program", help="the program to run, if not the one that `rt run` leaves")
    parser.add_argument("--keep", help="a folder for the transcripts")
    options = parser.parse_args()
    program = os.path.abspath(options.program) if options.program else uploads.find_program()
    first = None
    with tempfile.TemporaryDirectory(prefix="nfsgw-commits-") as folder:
        output = os.path.join(folder, "output")
        for commits in options.counts:
            transcript = os.path.join(options.keep or folder, f"commits-{commits}")
            make_transcript(transcript, commits)
            runs = [uploads.run_once(program, transcript, output) for _ in range(options.runs)]
            with open(output, encoding="ascii") as lines:
                if [line.rstrip("\n") for line in lines] != list(expected_lines(commits)):
                    raise SystemExit(f"{commits} COMMITs: the output isn't the one that is wanted")
            best = min(run[0] for run in runs)
            first = first or best
            print(f"{commits} COMMITs: {best:.4f} s, {best / first:.2f} times")


if __name__ == "__main__":
    main()
