#!/usr/bin/env python3
"""Times the name tree over names in one directory, and a start of the edit log over a log of edits.

    bench/names.py [--counts N ..] [--parts names recovery] [--runs N] [--instructions] [--crates FOLDER] [--keep FOLDER]

The tree is made with so many files in the root; then each is looked up, listed, renamed and removed. The log has as many edits,
each of which makes a directory in the root, and a start recovers their tree. It prints for each count the processor time of a
call, and how it compares with that of the first count; then the greatest memory of the last count, and how much of it each one
takes: by how much it is greater for twice as many. A part's time is the difference between the best times of several runs with
it and without it. With --instructions it counts those of a call in place of the time, by `valgrind --tool=callgrind`.

No program of the repository makes these calls yet, so the two programs stand below. They are proved and compiled over the
libraries that `rt ci` leaves in crates/*/out/rlib; without these, run `rt ci` first, or name a folder of crates that has them.
With --keep the programs stay in that folder, and aren't built again.
"""

import argparse
import glob
import os
import re
import shutil
import subprocess
import sys
import tempfile

import uploads

# What both programs have: the number that a word spells, the name of a number, and `main`, which runs with two numbers.
COMMON = r"""
fn number(word: &str) -> u32 {
    let mut n: u32 = 0;
    for digit in word.as_bytes() {
        n = n.wrapping_mul(10).wrapping_add(u32::from(digit.wrapping_sub(48)));
    }
    n
}

// "file0000017", with its first letter.
fn name_of(first: u8, i: u32) -> [u8; 11] {
    let mut name = [48; 11];
    name[0] = first;
    name[1] = b'i';
    name[2] = b'l';
    name[3] = b'e';
    let mut rest = i;
    for place in 0..7 {
        name[10 - place] = 48 + (rest % 10) as u8;
        rest /= 10;
    }
    name
}

fn main(rt: HostRuntime) -> ExitCode {
    let alloc = rt.alloc();
    let Ok(all) = env::args(&rt) else {
        return ExitCode::from(1);
    };
    let words: Vec<String> = match all.skip(1).collect(alloc) {
        Ok(words) => words,
        Err(_) => return ExitCode::from(2),
    };
    if words.len() != 2 {
        return ExitCode::from(3);
    }
    run(alloc, number(words[0].as_str()), number(words[1].as_str()))
}
"""

NAMES = r"""//! Files in the root: made, looked up, listed, renamed and removed. Two words: how many, and how many of these parts.
#![tactic(auto)]

ghost use Rattle.std.specs.Prelude.{◌≤◌};

use gw_model::FileId;
use name_tree::{How, Judged, NameRequest, Tree};
use nfs_types::{SetAttr, SetTime};
use rpc_msg::Caller;
use std::alloc::Global;
use std::env;
use std::process::ExitCode;

const NO_SET: SetAttr = SetAttr {
    mode: None,
    uid: None,
    gid: None,
    size: None,
    atime: SetTime::Leave,
    mtime: SetTime::Leave,
};

const ROOT: FileId = FileId(3);

fn superuser() -> Caller
    ensures { result.gid_count ≤ 16 }
{
    Caller {
        uid: 0,
        gid: 0,
        gids: [0; 16],
        gid_count: 0,
    }
}
""" + COMMON + r"""
fn does(tree: &mut Tree, request: &NameRequest<'_>) -> bool {
    match tree.judge(&superuser(), false, request) {
        Ok(Judged::Change(edit)) => {
            if tree.reserve(&edit).is_err() {
                return false;
            }
            tree.apply(&edit, 1_000);
            true
        }
        _ => false,
    }
}

fn creates(tree: &mut Tree, count: u32) -> u32 {
    let mut done: u32 = 0;
    for i in 0..count {
        let request = NameRequest::Create {
            moment: 1_000,
            dir: ROOT,
            name: &name_of(b'f', i),
            how: How::Guarded(NO_SET),
        };
        if does(tree, &request) {
            done = done.wrapping_add(1);
        }
    }
    done
}

fn looks(tree: &Tree, count: u32) -> u32 {
    let mut done: u32 = 0;
    for i in 0..count {
        if tree.lookup(&superuser(), ROOT, &name_of(b'f', i)).is_ok() {
            done = done.wrapping_add(1);
        }
    }
    done
}

fn lists(tree: &Tree, count: u32) -> u32 {
    let mut done: u32 = 0;
    let mut cookie: u64 = 0;
    for _ in 0..count {
        if let Some(entry) = tree.list_after(ROOT, cookie) {
            cookie = entry.cookie;
            done = done.wrapping_add(1);
        }
    }
    done
}

fn renames(tree: &mut Tree, count: u32) -> u32 {
    let mut done: u32 = 0;
    for i in 0..count {
        let request = NameRequest::Rename {
            dir: ROOT,
            name: &name_of(b'f', i),
            to_dir: ROOT,
            to_name: &name_of(b'g', i),
        };
        if does(tree, &request) {
            done = done.wrapping_add(1);
        }
    }
    done
}

fn removes(tree: &mut Tree, count: u32) -> u32 {
    let mut done: u32 = 0;
    for i in 0..count {
        let request = NameRequest::Remove {
            dir: ROOT,
            name: &name_of(b'g', i),
        };
        if does(tree, &request) {
            done = done.wrapping_add(1);
        }
    }
    done
}

fn run(alloc: Global, count: u32, parts: u32) -> ExitCode {
    let Ok(mut tree) = Tree::new(alloc) else {
        return ExitCode::from(4);
    };
    if parts > 0 && creates(&mut tree, count) != count {
        return ExitCode::from(5);
    }
    if parts > 1 && looks(&tree, count) != count {
        return ExitCode::from(6);
    }
    if parts > 2 && lists(&tree, count) != count {
        return ExitCode::from(7);
    }
    if parts > 3 && renames(&mut tree, count) != count {
        return ExitCode::from(8);
    }
    if parts > 4 && removes(&mut tree, count) != count {
        return ExitCode::from(9);
    }
    ExitCode::from(0)
}
"""

RECOVERY = r"""//! A store whose one log has edits that make directories in the root. Two words: how many, and 1 where the log is started.
#![tactic(auto)]

ghost use Rattle.std.specs.Prelude.{◌≡◌, true};
ghost use Rattle.gw_model.specs.declared.object.ObjectId.{ObjectId};
ghost use Rattle.append_store.specs.State.{IsAway, Missing};

use append_store::{AppendFile, Cluster, MemCluster};
use edit_log::{Log, edit_text};
use gw_model::{ObjectId, Trace};
use name_tree::{Edit, Name};
use std::alloc::Global;
use std::env;
use std::process::ExitCode;

const FIRST: ObjectId = ObjectId::Log { generation: 1 };
""" + COMMON + r"""
// Adds the text of the edit that makes a directory. False where memory is wanting.
fn add_text(alloc: Global, text: &mut Vec<u8>, i: u32) -> bool {
    let Ok(name) = Vec::from_slice(alloc, &name_of(b'd', i)) else {
        return false;
    };
    let edit = Edit::Make {
        parent: 3,
        id: 4 + u64::from(i),
        kind: 2,
        mode: 0o755,
        uid: 0,
        gid: 0,
        name: Name::of(name),
        path: Name::of(Vec::new(alloc)),
        atime: None,
        mtime: None,
        verifier: None,
    };
    match edit_text(alloc, &edit) {
        Ok(one) => text.extend_from_slice(&one).is_ok(),
        Err(_) => false,
    }
}

// The texts of so many edits, or of fewer where memory is wanting.
fn texts_of(alloc: Global, count: u32) -> Vec<u8> {
    let mut text = Vec::new(alloc);
    for i in 0..count {
        if !add_text(alloc, &mut text, i) {
            return text;
        }
    }
    text
}

// Puts bytes into a file, all of them durable.
fn stores<F: AppendFile>(file: &mut F, bytes: &[u8]) -> bool
    ensures mark { F.tells → F.mark file.new ≡ F.mark file.old }
{
    file.append(b"NFSEDIT1").is_ok() && file.append(bytes).is_ok() && file.hsync().is_ok()
}

// Makes the log of generation 1 in a store where nothing is, with these bytes behind its header.
fn logs<C: Cluster>(cluster: &mut C, bytes: &[u8]) -> bool
    requires { C.File.tells → (q : ObjectId) → C.at cluster.old q ≡ Missing }
    ensures { result ≡ true → C.File.tells → (q : ObjectId) → IsAway (C.at cluster.new q) → ⊥ }
{
    if cluster.create(FIRST).is_err() {
        return false;
    }
    let Ok(mut file) = cluster.take_file(FIRST) else {
        return false;
    };
    let stored = stores(&mut file, bytes);
    cluster.give_file(FIRST, file);
    stored
}

// Starts, and gives the log back: the next id of the recovered tree, and 0 where there is none.
fn next_id_of<C: Cluster>(alloc: Global, cluster: &mut C) -> u64
    requires { C.File.tells → (q : ObjectId) → IsAway (C.at cluster.old q) → ⊥ }
{
    let mut trace = Trace::new(alloc);
    match Log::start(alloc, cluster, &mut trace) {
        Ok((log, tree)) => {
            let generation = log.generation();
            cluster.give_file(ObjectId::Log { generation }, log.into_file());
            tree.next_id()
        }
        Err(_) => 0,
    }
}

fn run(alloc: Global, count: u32, starts: u32) -> ExitCode {
    let mut cluster = MemCluster::new(alloc, Vec::new(alloc));
    if !logs(&mut cluster, &texts_of(alloc, count)) {
        return ExitCode::from(4);
    }
    if starts > 0 && next_id_of(alloc, &mut cluster) != 4 + u64::from(count) {
        return ExitCode::from(5);
    }
    ExitCode::from(0)
}
"""

BELOW = ["gw_model", "gw_outside", "xdr", "nfs_types", "rpc_msg", "append_store", "name_tree", "edit_log"]

PROGRAMS = {
    "names": (NAMES, ["created", "looked up", "listed", "renamed", "removed"]),
    "recovery": (RECOVERY, ["recovered"]),
}


def kit():
    """The folder of the kit whose `rattle` is called."""
    rattle = shutil.which("rattle")
    if rattle is None:
        sys.exit("names: there is no `rattle` to be called")
    return os.path.dirname(os.path.dirname(os.path.realpath(rattle)))


def build(name, text, crates, folder):
    """Proves, compiles and links a program over the libraries of the crates."""
    room = os.path.join(folder, f"{name}_source")
    os.makedirs(room, exist_ok=True)
    source, made, program = os.path.join(room, "main.rt"), os.path.join(folder, f"{name}.o"), os.path.join(folder, name)
    if os.path.exists(program) and open(source, encoding="utf-8").read() == text:
        return program
    with open(source, "w", encoding="utf-8") as out:
        out.write(text)
    at = kit()
    libraries = {it: os.path.join(crates, it, "out", "rlib", f"{it}.rlib") for it in BELOW}
    missing = [it for it, path in libraries.items() if not os.path.exists(path)]
    if missing:
        sys.exit(f"names: no library of {', '.join(missing)} in {crates}; `rt ci` leaves them")
    words = ["rattle", "build", "--crate-name", f"{name}_bench", source, "--toolchain", f"{at}/toolchain", "--backend", "llvm", "-o", made]
    words += ["--antt-project", f"{at}/rattle/logic/antt-project.json", "--logic-built", f"{at}/logic_built"]
    for library, path in {"std": f"{at}/rlibs/std.rlib", "bytes": f"{at}/rlibs/bytes.rlib", **libraries}.items():
        words += ["--extern", f"{library}={path}"]
    for path in [f"{at}/rlibs", *sorted(glob.glob(os.path.join(crates, "*", "out", "rlib")))]:
        words += ["-L", f"dependency={path}"]
    run_quietly(words)
    link = [f"{at}/bin/rattle-link", "--target", "x86_64-unknown-linux-gnu", "--toolchain", f"{at}/toolchain", "-o", program, made]
    run_quietly([*link, f"{at}/c/libos_c.a", f"{at}/c/liblibc_c.a"])
    return program


def run_quietly(words):
    ran = subprocess.run(words, stdin=subprocess.DEVNULL, stdout=subprocess.PIPE, stderr=subprocess.STDOUT, errors="replace")
    if ran.returncode != 0:
        sys.stderr.write(ran.stdout)
        sys.exit(f"names: {os.path.basename(words[0])} ended with status {ran.returncode}")


def run_once(words):
    """The processor time in seconds and the greatest memory in bytes of one run, whose status must be 0."""
    process = subprocess.Popen(words)
    _, status, usage = os.wait4(process.pid, 0)
    process.returncode = os.waitstatus_to_exitcode(status)
    if process.returncode != 0:
        sys.exit(f"names: {' '.join(words)} ended with status {process.returncode}")
    return usage.ru_utime + usage.ru_stime, usage.ru_maxrss * 1024


def instructions(words, folder):
    """The instructions of one run, by valgrind's count."""
    out = os.path.join(folder, "callgrind")
    ran = subprocess.run(["valgrind", "--tool=callgrind", f"--callgrind-out-file={out}", *words], stderr=subprocess.PIPE, text=True)
    counted = re.search(r"Collected : (\d+)", ran.stderr)
    if ran.returncode != 0 or counted is None:
        sys.stderr.write(ran.stderr)
        sys.exit(f"names: {' '.join(words)} wasn't counted")
    return int(counted.group(1))


def cost_of(program, count, part, options, folder):
    """What a run with so many parts costs: instructions, or the best time in seconds of several runs."""
    words = [program, str(count), str(part)]
    if options.instructions:
        return instructions(words, folder)
    return min(run_once(words)[0] for _ in range(options.runs))


def measure(name, options, folder):
    text, parts = PROGRAMS[name]
    program = build(name, text, options.crates, folder)
    first = {}
    for count in options.counts:
        costs = [cost_of(program, count, part, options, folder) for part in range(len(parts) + 1)]
        for part, less, more in zip(parts, costs, costs[1:]):
            each = (more - less) / count
            growth = each / first.setdefault(part, each)
            said = f"{each:9.0f} instructions" if options.instructions else f"{each * 1e6:9.3f} us"
            print(f"{count:8} {part:10} {said} each, {growth:5.2f} times", flush=True)
    peak, double = (run_once([program, str(count), "1"])[1] for count in (options.counts[-1], 2 * options.counts[-1]))
    print(f"{options.counts[-1]:8} {parts[0]:10} peak {peak / 2**20:.1f} MiB, {(double - peak) / options.counts[-1]:.0f} bytes for each one more")


def read_options():
    parser = argparse.ArgumentParser(description="Times the name tree, and the recovery of a log.")
    parser.add_argument("--counts", type=uploads.positive, nargs="+", default=[1_000, 10_000, 100_000], help="how many names")
    parser.add_argument("--parts", choices=PROGRAMS, nargs="+", default=list(PROGRAMS), help="which of the two programs")
    parser.add_argument("--runs", type=uploads.positive, default=10, help="how often each is run")
    parser.add_argument("--instructions", action="store_true", help="count instructions in place of the time")
    parser.add_argument("--crates", default=os.path.join(uploads.ROOT, "crates"), help="the folder of crates with their libraries")
    parser.add_argument("--keep", help="a folder for the programs")
    return parser.parse_args()


def main():
    options = read_options()
    with tempfile.TemporaryDirectory(prefix="nfsgw-names-") as folder:
        for name in options.parts:
            measure(name, options, options.keep or folder)


if __name__ == "__main__":
    main()
