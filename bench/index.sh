#!/bin/sh
# Times reading a channel, `Index::make`, `pools`, `is_request` and `encode` on channels of 1,000 to 200,000 records, each the best of three runs, with
# the peak memory of a run; beside them `json.load` of Python on the same texts and, where it is given, libsolv's reading of the same channel. The
# channels are made by a generator, which is given as the first argument or in CHANNEL_GENERATOR and is called as
# `GENERATOR channel FOLDER NAME --records N --seed 1`; it writes FOLDER/NAME/<subdir>/repodata.json, and FOLDER/NAME/requests.txt with lines
# `sat|unsat|open SPEC SPEC ..`; what the first twenty lines ask is asked together. The second argument, or LIBSOLV_DRIVER, is a program that is called
# as `DRIVER -c FOLDER/NAME SPEC..` and writes `read_ms=..` and `prepare_ms=..` to its error stream. With a folder as the third argument nothing is
# timed: the clauses of requests to channels of several families are written there as DIMACS files, which sat.sh takes.
set -eu
generator=${1:-${CHANNEL_GENERATOR:-}}
driver=${2:-${LIBSOLV_DRIVER:-none}}
clauses=${3:-}
if [ ! -f "$generator" ]; then
    echo "usage: bench/index.sh GENERATOR [LIBSOLV_DRIVER [FOLDER]]"
    exit 2
fi
generator=$(cd "$(dirname "$generator")" && pwd)/$(basename "$generator")
. "$(dirname "$0")/program.sh"
mkdir -p "$work/crates/index_bench/proofs/main"
cat > "$work/crates/index_bench/proofs/main/Answers.antt" <<'PROOF'
use Rattle.std.proofs.Common.{All, subst}
use Rattle.conda_index.specs.Pools.{NamesPlainly, given}
use Rattle.index_bench.proofs.main.Goals as goal

pub make-requires-clause-plain : goal.make-requires-clause-plain
make-requires-clause-plain g c κs =
    subst (λ parts. All NamesPlainly (given parts)) c.as_slice.ensures.value (c.in_ok-can_index.ensures.plain c.if-not-branch.false)
PROOF
build index_bench conda_base conda_path conda_version conda_clause conda_spec conda_json conda_record conda_repodata conda_refute conda_encode conda_index <<'PROGRAM'
#![tactic(auto)]

use conda_base::Text;
use conda_encode::{AskKind, Asked, Encoded, encode, is_request};
use conda_index::{Index, Virtual, can_index};
use conda_record::NamePool;
use conda_repodata::Repodata;
use conda_spec::Spec;
use conda_version::Version;
use std::alloc::{AllocError, Global};
use std::env;
use std::fs;
use std::io;
use std::thread::Threads;
use std::time::{SystemTime, UNIX_EPOCH};

const VIRTUALS: [(&str, &str, &str); 4] = [
    ("__archspec", "1", "x86_64"),
    ("__glibc", "2.17", "0"),
    ("__linux", "5.10", "0"),
    ("__unix", "0", "0"),
];

fn now(rt: &HostRuntime) -> io::Result<u128> {
    match SystemTime::now(rt)?.duration_since(UNIX_EPOCH) {
        Ok(time) => Ok(time.as_micros()),
        Err(_) => Ok(0),
    }
}

/// Prints how long it took since then, and gives the time.
fn since(rt: &HostRuntime, what: &str, start: u128) -> io::Result<u128> {
    let end = now(rt)?;
    let took = end.saturating_sub(start);
    println!(rt; "{what} {took}")?;
    now(rt)
}

fn virtuals(alloc: Global) -> Result<Vec<Virtual>, AllocError> {
    let mut items = Vec::new(alloc);
    for (name, version, build) in VIRTUALS {
        if let Ok(version) = Version::read(alloc, version) {
            let name = Text::from_str(alloc, name)?;
            let build = Text::from_str(alloc, build)?;
            items.push(Virtual { name, version, build })?;
        }
    }
    Ok(items)
}

/// The parts of the channel in a folder. Reading the files is not timed.
fn parts<R: Threads + Sync>(
    threads: &R,
    rt: &HostRuntime,
    alloc: Global,
    folder: &str,
) -> io::Result<Vec<Repodata>> {
    let mut parts = Vec::new(alloc);
    for subdir in ["linux-64", "noarch"] {
        let path = format!(in alloc; "{folder}/{subdir}/repodata.json")?;
        let Ok(bytes) = fs::read(rt, path.as_str()) else {
            continue;
        };
        let start = now(rt)?;
        if let Ok(part) = Repodata::read(threads, alloc, bytes.as_slice(), "main", subdir) {
            let _start = since(rt, "read", start)?;
            println!(rt; "records {}", part.recs.len())?;
            parts.push(part)?;
        }
    }
    Ok(parts)
}

/// Prints the clauses as a DIMACS file.
fn print_clauses(rt: &HostRuntime, alloc: Global, encoded: &Encoded) -> io::Result<()> {
    println!(rt; "p cnf {} {}", encoded.vars, encoded.clauses.len())?;
    for clause in encoded.clauses.as_slice() {
        let mut line = String::new(alloc);
        for literal in clause.as_slice() {
            line.push_str(format!(in alloc; "{literal} ")?.as_str())?;
        }
        println!(rt; "{line}0")?;
    }
    Ok(())
}

fn printed(rt: &HostRuntime, alloc: Global, pools: &[NamePool], asked: &[Asked]) -> io::Result<()> {
    if !is_request(pools, asked) {
        return println!(rt; "c no request");
    }
    match encode(alloc, pools, asked) {
        Ok(encoded) => print_clauses(rt, alloc, &encoded),
        Err(_) => println!(rt; "c no memory"),
    }
}

fn written(rt: &HostRuntime, alloc: Global, pools: &[NamePool], asked: &[Asked]) -> io::Result<()> {
    let start = now(rt)?;
    if !is_request(pools, asked) {
        return println!(rt; "no request");
    }
    let start = since(rt, "is_request", start)?;
    if let Ok(encoded) = encode(alloc, pools, asked) {
        let _start = since(rt, "encode", start)?;
        println!(rt; "variables {}", encoded.vars)?;
        println!(rt; "clauses {}", encoded.clauses.len())?;
    }
    Ok(())
}

/// What is measured: the folder of the channel, what is asked, and whether the clauses are printed.
#[derive(Drop)]
struct Words {
    folder: String,
    asked: Vec<Asked>,
    prints: bool,
}

fn words_given(rt: &HostRuntime, alloc: Global) -> io::Result<Words> {
    let mut words = Words {
        folder: String::new(alloc),
        asked: Vec::new(alloc),
        prints: false,
    };
    for word in env::args(rt)?.skip(1) {
        if word.as_str() == "clauses" {
            words.prints = true;
        } else if words.folder.is_empty() {
            words.folder = word;
        } else if let Ok(spec) = Spec::read(alloc, word.as_str()) {
            words.asked.push(Asked {
                spec,
                fresh: false,
                kind: AskKind::Wanted,
            })?;
        }
    }
    Ok(words)
}

fn main(rt: HostRuntime) -> io::Result<()> {
    let alloc = rt.alloc();
    let words = words_given(&rt, alloc)?;
    let parts = parts(&rt, &rt, alloc, words.folder.as_str())?;
    let virtuals = virtuals(alloc)?;
    if !can_index(alloc, parts.as_slice(), virtuals.as_slice())? {
        return println!(rt; "no index");
    }
    let start = now(&rt)?;
    let Ok(index) = Index::make(&rt, alloc, parts, virtuals) else {
        return println!(rt; "no memory");
    };
    let start = since(&rt, "make", start)?;
    let Ok(pools) = index.pools(alloc, words.asked.as_slice()) else {
        return println!(rt; "no memory");
    };
    let _start = since(&rt, "pools", start)?;
    println!(rt; "names {}", pools.len())?;
    if words.prints {
        return printed(&rt, alloc, pools.as_slice(), words.asked.as_slice());
    }
    written(&rt, alloc, pools.as_slice(), words.asked.as_slice())
}
PROGRAM
if [ -n "$clauses" ]; then
    mkdir -p "$clauses"

    # one family of channels: its name and the generator's words; each of its first four requests becomes a file
    family() {
        name=$1
        kind=$2
        shift 2
        python3 "$generator" "$kind" "$work/data" "$name" "$@" > "$work/said"
        number=0
        head -4 "$work/data/$name/requests.txt" > "$work/requests"
        while read -r sort specs; do
            set -- $specs
            "$program" clauses "$work/data/$name" "$@" | grep -E '^(p cnf|-?[0-9])' > "$clauses/$name-$number-$sort.cnf"
            number=$((number + 1))
        done < "$work/requests"
    }

    family real1000 channel --records 1000 --seed 1
    family real10000 channel --records 10000 --seed 1
    family tight2000 channel --records 2000 --seed 2 --conflict 0.8 --depth-bias 0.3
    family deep50x20 deep --depth 50 --versions 20
    family deep200x40 deep --depth 200 --versions 40
    family php7 php --holes 7
    family sat3-100 sat3 --vars 100 --seed 2
    exit
fi
python3 - "$work" "$program" "$generator" "$driver" <<'PYTHON'
import os, re, subprocess, sys
work, program, generator, driver = sys.argv[1:]
json_load = """import json, sys, time
for path in sys.argv[1:]:
    with open(path) as text:
        start = time.perf_counter()
        value = json.load(text)
        print("read", int((time.perf_counter() - start) * 1e6))
"""
measured = """import resource, subprocess, sys
subprocess.run(sys.argv[1:], check=True)
print("memory", resource.getrusage(resource.RUSAGE_CHILDREN).ru_maxrss)
"""

def run(command):
    best = {}
    for _ in range(3):
        out = subprocess.run([sys.executable, "-c", measured] + command, stdout=subprocess.PIPE, text=True, check=True).stdout
        sums = {}
        for line in out.splitlines():
            what, number = line.rsplit(" ", 1)
            sums[what] = sums.get(what, 0) + int(number)
        for what, number in sums.items():
            best[what] = min(best.get(what, number), number)
    return best

def libsolv(channel, specs):
    best = {}
    for _ in range(3):
        said = subprocess.run([driver, "-c", channel] + specs, stdout=subprocess.DEVNULL, stderr=subprocess.PIPE, text=True).stderr
        for what, number in re.findall(r"(\w+)_ms=([0-9.]+)", said):
            best[what] = min(best.get(what, float(number)), float(number))
    return best

per_record = {}
for records in (1000, 10000, 50000, 200000):
    name = "real%d" % records
    command = [sys.executable, generator, "channel", work + "/data", name, "--records", str(records), "--seed", "1"]
    subprocess.run(command, stdout=subprocess.DEVNULL, check=True)
    channel = "%s/data/%s" % (work, name)
    with open(channel + "/requests.txt") as requests:
        specs = [spec for line in requests.read().splitlines()[:20] for spec in line.split(" ")[1:]]
    ours = run([program, channel] + specs)
    python = run([sys.executable, "-c", json_load] + ["%s/%s/repodata.json" % (channel, subdir) for subdir in ("linux-64", "noarch")])
    for what in ("read", "make", "pools", "is_request", "encode"):
        assert what in ours, (what, ours)
    per_record[records] = (ours["make"] + ours["pools"] + ours["encode"]) / records
    print("%d records, %d names, %d variables, %d clauses: read %.1f ms, make %.1f ms, pools %.1f ms, is_request %.1f ms, encode %.1f ms; memory %d MB"
          % (ours["records"], ours["names"], ours["variables"], ours["clauses"], ours["read"] / 1000, ours["make"] / 1000,
             ours["pools"] / 1000, ours["is_request"] / 1000, ours["encode"] / 1000, ours["memory"] // 1000))
    print("    json.load %.1f ms, %d MB; reading takes %.2f of its time, make, pools and encode %.2f"
          % (python["read"] / 1000, python["memory"] // 1000, ours["read"] / python["read"],
             (ours["make"] + ours["pools"] + ours["encode"]) / python["read"]))
    if os.access(driver, os.X_OK):
        theirs = libsolv(channel, specs)
        print("    libsolv: reading %.1f ms, preparing %.1f ms; reading and make take %.2f of both"
              % (theirs["read"], theirs["prepare"], (ours["read"] + ours["make"]) / 1000 / (theirs["read"] + theirs["prepare"])))
print("make, pools and encode per record, 200,000 records against 1,000: %.2f" % (per_record[200000] / per_record[1000]))
PYTHON
