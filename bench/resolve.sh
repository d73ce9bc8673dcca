#!/bin/sh
# Times `resolve`, and `pools` before it, beside libsolv on made channels of several families: after a large public one (`real`, of 1,000 to 200,000
# records), with more conflicts (`tight`), and hard ones (`php`, `sat3`, `deep`). Each request is timed three times in one process, behind the reading of the
# channel and the making of its index, and the least time counts; libsolv's is the least of three of its `solve_ms`, behind its reading and preparing.
# The channels are made by a generator, which is given as the first argument or in CHANNEL_GENERATOR and is called as `GENERATOR KIND FOLDER NAME OPTION..`;
# it writes FOLDER/NAME/<subdir>/repodata.json, and FOLDER/NAME/requests.txt with lines `sat|unsat|open SPEC SPEC ..`. The second argument, or
# LIBSOLV_DRIVER, is a program that is called as `DRIVER -n RUNS -c FOLDER/NAME SPEC..` and writes `solve_ms=..` and `result=sat|unsat` to its error stream;
# without it nothing is compared. With a third argument only the families whose names begin with it are timed.
set -eu
generator=${1:-${CHANNEL_GENERATOR:-}}
driver=${2:-${LIBSOLV_DRIVER:-none}}
only=${3:-}
if [ ! -f "$generator" ]; then
    echo "usage: bench/resolve.sh GENERATOR [LIBSOLV_DRIVER [FAMILY]]"
    exit 2
fi
generator=$(cd "$(dirname "$generator")" && pwd)/$(basename "$generator")
. "$(dirname "$0")/program.sh"
mkdir -p "$work/crates/resolve_bench/proofs/main"
cat > "$work/crates/resolve_bench/proofs/main/Answers.antt" <<'PROOF'
use Rattle.std.proofs.Common.{All, subst}
use Rattle.conda_index.specs.Pools.{NamesPlainly, given}
use Rattle.resolve_bench.proofs.main.Goals as goal

pub make-requires-clause-plain : goal.make-requires-clause-plain
make-requires-clause-plain g c κs =
    subst (λ parts. All NamesPlainly (given parts)) c.as_slice.ensures.value (c.in_ok-can_index.ensures.plain c.if-not-branch.false)
PROOF
build resolve_bench conda_base conda_path conda_version conda_clause conda_spec conda_json conda_record conda_repodata conda_refute conda_sat conda_encode conda_index conda_resolve <<'PROGRAM'
#![tactic(auto)]

use conda_base::Text;
use conda_encode::{AskKind, Asked, is_request};
use conda_index::{Index, Virtual, can_index};
use conda_repodata::Repodata;
use conda_resolve::{ResolveErr, resolve};
use conda_spec::Spec;
use conda_version::Version;
use std::alloc::{AllocError, Global};
use std::env;
use std::fs;
use std::io;
use std::thread::Threads;
use std::time::{SystemTime, UNIX_EPOCH};

const VIRTUALS: [(&str, &str, &str); 4] = [
    ("__archspec", "1", "x86_64"),
    ("__glibc", "2.17", "0"),
    ("__linux", "5.10", "0"),
    ("__unix", "0", "0"),
];

fn now(rt: &HostRuntime) -> io::Result<u128> {
    match SystemTime::now(rt)?.duration_since(UNIX_EPOCH) {
        Ok(time) => Ok(time.as_micros()),
        Err(_) => Ok(0),
    }
}

fn virtuals(alloc: Global) -> Result<Vec<Virtual>, AllocError> {
    let mut items = Vec::new(alloc);
    for (name, version, build) in VIRTUALS {
        if let Ok(version) = Version::read(alloc, version) {
            let name = Text::from_str(alloc, name)?;
            let build = Text::from_str(alloc, build)?;
            items.push(Virtual { name, version, build })?;
        }
    }
    Ok(items)
}

/// The parts of the channel in a folder.
fn parts<R: Threads + Sync>(
    threads: &R,
    rt: &HostRuntime,
    alloc: Global,
    folder: &str,
) -> io::Result<Vec<Repodata>> {
    let mut parts = Vec::new(alloc);
    for subdir in ["linux-64", "noarch"] {
        let path = format!(in alloc; "{folder}/{subdir}/repodata.json")?;
        let Ok(bytes) = fs::read(rt, path.as_str()) else {
            continue;
        };
        if let Ok(part) = Repodata::read(threads, alloc, bytes.as_slice(), "main", subdir) {
            parts.push(part)?;
        }
    }
    Ok(parts)
}

/// What a line asks for: each word but the first is a specification.
fn asked_of(alloc: Global, line: &str) -> Result<Vec<Asked>, AllocError> {
    let mut asked = Vec::new(alloc);
    for word in line.split_whitespace().skip(1) {
        if let Ok(spec) = Spec::read(alloc, word) {
            asked.push(Asked {
                spec,
                fresh: false,
                kind: AskKind::Wanted,
            })?;
        }
    }
    Ok(asked)
}

/// Prints the answer, how long pools and resolve took, and the number of packages or steps.
fn request(rt: &HostRuntime, alloc: Global, index: &Index, asked: &[Asked]) -> io::Result<()> {
    let start = now(rt)?;
    let Ok(pools) = index.pools(alloc, asked) else {
        return println!(rt; "failed 0 0 0");
    };
    let gathered = now(rt)?.saturating_sub(start);
    if !is_request(pools.as_slice(), asked) {
        return println!(rt; "failed 0 0 0");
    }
    let start = now(rt)?;
    let answer = resolve(alloc, pools.as_slice(), asked, &[]);
    let took = now(rt)?.saturating_sub(start);
    match answer {
        Ok(set) => println!(rt; "sat {gathered} {took} {}", set.len()),
        Err(ResolveErr::Unsat { log }) => println!(rt; "unsat {gathered} {took} {}", log.steps.len()),
        Err(ResolveErr::Memory) => println!(rt; "failed 0 0 0"),
    }
}

fn main(rt: HostRuntime) -> io::Result<()> {
    let alloc = rt.alloc();
    let mut folder = String::new(alloc);
    for word in env::args(&rt)?.skip(1) {
        folder = word;
    }
    let parts = parts(&rt, &rt, alloc, folder.as_str())?;
    let virtuals = virtuals(alloc)?;
    if !can_index(alloc, parts.as_slice(), virtuals.as_slice())? {
        return println!(rt; "no index");
    }
    let Ok(index) = Index::make(&rt, alloc, parts, virtuals) else {
        return println!(rt; "no memory");
    };
    for line in rt.lines(alloc) {
        let line = line?;
        let asked = asked_of(alloc, line.as_str())?;
        request(&rt, alloc, &index, asked.as_slice())?;
    }
    Ok(())
}
PROGRAM
python3 - "$work" "$program" "$generator" "$driver" "$only" <<'PYTHON'
import os, re, statistics, subprocess, sys
work, program, generator, driver, only = sys.argv[1:]
families = [("real%d" % n, ["channel", "--records", str(n), "--seed", "1"]) for n in (1000, 10000, 50000, 200000)]
families += [("tight%d" % n, ["channel", "--records", str(n), "--seed", "2", "--conflict", "0.8", "--depth-bias", "0.3"]) for n in (2000, 10000)]
families += [("php8", ["php", "--holes", "8"]), ("sat3-100-2", ["sat3", "--vars", "100", "--seed", "2"]),
             ("deep50x20sat", ["deep", "--depth", "50", "--versions", "20", "--sat"]),
             ("deep50x20", ["deep", "--depth", "50", "--versions", "20"]), ("deep200x40", ["deep", "--depth", "200", "--versions", "40"])]
LIMIT = 45

def ours(channel, lines):
    said = subprocess.run([program, channel], input="\n".join(line for line in lines for _ in range(3)) + "\n", stdout=subprocess.PIPE, text=True, check=True).stdout.splitlines()
    assert len(said) == 3 * len(lines), said[:3]
    answers = []
    for at in range(len(lines)):
        runs = [line.split(" ") for line in said[3 * at:3 * at + 3]]
        assert len({run[0] for run in runs}) == 1 and runs[0][0] != "failed", runs
        answers.append((runs[0][0], min(int(run[1]) for run in runs) / 1000, min(int(run[2]) for run in runs) / 1000, int(runs[0][3])))
    return answers

def theirs(channel, specs):
    try:
        said = subprocess.run([driver, "-n", "3", "-c", channel] + specs, stdout=subprocess.DEVNULL, stderr=subprocess.PIPE, text=True, timeout=LIMIT).stderr
    except subprocess.TimeoutExpired:
        return None, LIMIT * 1000 / 3
    return re.search("result=(\\w+)", said).group(1), float(re.search("solve_ms=([0-9.]+)", said).group(1))

print("| channel | requests | `pools` | `resolve`, median | at most | libsolv, median | at most | ratio, median | at most |")
print("|---|---|---|---|---|---|---|---|---|")
for name, (kind, *options) in families:
    if not name.startswith(only):
        continue
    subprocess.run([sys.executable, generator, kind, work + "/data", name] + options, stdout=subprocess.DEVNULL, check=True)
    channel = "%s/data/%s" % (work, name)
    with open(channel + "/requests.txt") as requests:
        lines = requests.read().splitlines()
    answers = ours(channel, lines)
    for line, answer in zip(lines, answers):
        assert line.split(" ")[0] in ("open", answer[0]), (line, answer)
    sorts = ", ".join("%d %s" % (sum(answer[0] == sort for answer in answers), sort) for sort in ("sat", "unsat") if any(answer[0] == sort for answer in answers))
    took = [answer[2] for answer in answers]
    cells = [name, sorts, "%.1f" % statistics.median(answer[1] for answer in answers), "%.1f" % statistics.median(took), "%.1f" % max(took)]
    if os.access(driver, os.X_OK):
        peers = [theirs(channel, line.split(" ")[1:]) for line in lines]
        for line, answer, peer in zip(lines, answers, peers):
            assert peer[0] in (None, answer[0]), (line, answer, peer)
        more = "over " if any(peer[0] is None for peer in peers) else ""
        ratios = [mine / peer[1] for mine, peer in zip(took, peers)]
        cells += ["%s%.1f" % (more, statistics.median(peer[1] for peer in peers)), "%s%.1f" % (more, max(peer[1] for peer in peers)),
                  "%.2f" % statistics.median(ratios), "%.2f" % max(ratios)]
    else:
        cells += ["", "", "", ""]
    print("| %s |" % " | ".join(cells), flush=True)
PYTHON
