#!/usr/bin/env python3
"""Lets each growth of memory in a run of nfsgw fail in turn, and checks how the run ends.

    bench/growths.py [--first N] [--last N] [--beyond N]

The run is the one of crates/nfsgw/stdin. With the Nth allocation failing, for N = 1, 2, .., it must end with status 3
(no memory) and a front of crates/nfsgw/stdout, or with status 0 and the whole of it. Where memory is refused for a
request alone, the run must end with status 0, and the request is answered SYSTEM_ERR and changed nothing. An allocation of
the store in memory is the store's own: its append fails, and the run must end with status 0 and say so. It stops after the
first run that writes the whole output and `--beyond` more that do, since by then there is no Nth allocation. Each run is one
of `rt try`, which builds the program again and takes some seconds.
"""

import argparse
import os
import re
import subprocess
import sys

ROOT = os.path.dirname(os.path.dirname(os.path.abspath(__file__)))
CRATE = os.path.join(ROOT, "crates", "nfsgw")

DONE = 0
NO_MEMORY = 3

# What the run writes where its one append fails and keeps nothing: a reply of NFS3ERR_IO without attributes (RFC 1813
# section 3.3.7), and a write that was lost.
APPEND_FAILED = b"""reply 1 80000024000000010000000100000000000000000000000000000000000000050000000000000000
context 4 from 0
write 1 0 5 lost -
ended 4 end reach 5 stored 0 synced 0
"""

# What it writes where memory is refused for its one request: a reply of SYSTEM_ERR (RFC 5531 section 9). No file is open
# then, so there is no history.
REFUSED = b"reply 1 80000018000000010000000100000000000000000000000000000005\n"

# The last line of `rt try`, on standard error, where the program ran to its end.
ENDED = re.compile(rb"^run=ended status=(\d+) ", re.MULTILINE)


def run_failing_at(number, crate, words):
    """The status and the output of the run whose allocation of this number fails."""
    with open(os.path.join(crate, "stdin"), "rb") as source:
        tried = subprocess.run(
            ["rt", "try", "--fail-alloc", str(number), "--", *words],
            cwd=crate,
            stdin=source,
            stdout=subprocess.PIPE,
            stderr=subprocess.PIPE,
        )
    ended = ENDED.search(tried.stderr)
    if ended is None:
        sys.stderr.buffer.write(tried.stderr)
        sys.exit(f"growths: the run with allocation {number} failing has no status")
    return int(ended.group(1)), tried.stdout


def is_right(status, output, whole):
    if status == DONE:
        return output in (whole, APPEND_FAILED, REFUSED)
    return status == NO_MEMORY and whole.startswith(output)


def read_options():
    parser = argparse.ArgumentParser(description="Lets each growth of memory in a run of nfsgw fail in turn.")
    parser.add_argument("--first", type=int, default=1, help="the first allocation that fails")
    parser.add_argument("--last", type=int, default=1000, help="the last one, if no run writes the whole output before")
    parser.add_argument("--beyond", type=int, default=1, help="how many more runs must write the whole output")
    parser.add_argument("--crate", default=CRATE, help="the program's folder, with its stdin, stdout and args")
    return parser.parse_args()


def main():
    options = read_options()
    with open(os.path.join(options.crate, "stdout"), "rb") as wanted:
        whole = wanted.read()
    with open(os.path.join(options.crate, "args"), encoding="utf-8") as args:
        words = args.read().splitlines()
    wrong = 0
    done = 0
    for number in range(options.first, options.last + 1):
        status, output = run_failing_at(number, options.crate, words)
        right = is_right(status, output, whole)
        wrong += not right
        done = done + 1 if status == DONE and output == whole else 0
        print(f"{number}: status {status}, {len(output)} of {len(whole)} bytes{'' if right else ': WRONG'}", flush=True)
        if done > options.beyond:
            break
    else:
        sys.exit(f"growths: no run wrote the whole output up to allocation {options.last}")
    if wrong:
        sys.exit(f"growths: {wrong} runs ended wrong")
    print(f"allocations {options.first} to {number - done} failed in turn, and each run ended as it must")


if __name__ == "__main__":
    main()
