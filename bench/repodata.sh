#!/bin/sh
# Times `Repodata::read` on channels of 1,000, 20,000 and 200,000 records, beside `json.load` of Python on the same texts: the time per MB, the peak
# memory, and the ratio of the times, each the best of three runs. The channels are made by a generator, which is given as the first argument or in
# CHANNEL_GENERATOR and is called as `GENERATOR channel FOLDER NAME --records N`; it writes FOLDER/NAME/<subdir>/repodata.json.
set -eu
generator=${1:-${CHANNEL_GENERATOR:-}}
if [ ! -f "$generator" ]; then
    echo "usage: bench/repodata.sh GENERATOR"
    exit 2
fi
generator=$(cd "$(dirname "$generator")" && pwd)/$(basename "$generator")
. "$(dirname "$0")/program.sh"
build repodata_bench conda_base conda_path conda_version conda_clause conda_spec conda_json conda_record conda_repodata <<'PROGRAM'
#![tactic(auto)]

use conda_repodata::Repodata;
use std::env;
use std::fs;
use std::io;
use std::time::SystemTime;

fn main(rt: HostRuntime) -> io::Result<()> {
    let alloc = rt.alloc();
    for path in env::args(&rt)?.skip(1) {
        let path = path;
        let bytes = match fs::read(&rt, path.as_str()) {
            Ok(bytes) => bytes,
            Err(_) => continue,
        };
        let subdir = match path.as_str().rsplit_once("/noarch/") {
            Some(_) => "noarch",
            None => "linux-64",
        };
        let start = SystemTime::now(&rt)?;
        let Ok(repodata) = Repodata::read(&rt, alloc, bytes.as_slice(), "main", subdir) else {
            continue;
        };
        let end = SystemTime::now(&rt)?;
        if let Ok(took) = end.duration_since(start) {
            println!(rt; "{} {} {}", took.as_micros(), repodata.recs.len(), repodata.aside.len())?;
        }
    }
    Ok(())
}
PROGRAM
python3 - "$work" "$program" "$generator" <<'PYTHON'
import os, subprocess, sys
work, program, generator = sys.argv[1:]
json_load = """import json, sys, time
for path in sys.argv[1:]:
    with open(path) as text:
        start = time.perf_counter()
        value = json.load(text)
        took = time.perf_counter() - start
    print(int(took * 1e6), sum(len(value[name]) for name in ("packages", "packages.conda")), 0)
"""
measured = """import resource, subprocess, sys
subprocess.run(sys.argv[1:], check=True)
print("memory", resource.getrusage(resource.RUSAGE_CHILDREN).ru_maxrss)
"""

def run(command):
    best, memory, counts = None, None, None
    for _ in range(3):
        out = subprocess.run([sys.executable, "-c", measured] + command, stdout=subprocess.PIPE, text=True, check=True).stdout.splitlines()
        rows = [[int(word) for word in line.split()] for line in out[:-1]]
        took = sum(row[0] for row in rows)
        best = took if best is None else min(best, took)
        memory = int(out[-1].split()[1]) / 1000
        counts = [sum(column) for column in zip(*rows)][1:]
    return best / 1e6, memory, counts

per_megabyte = {}
for records in (1000, 20000, 200000):
    subprocess.run([sys.executable, generator, "channel", work + "/data", "c%d" % records, "--records", str(records)], stdout=subprocess.DEVNULL, check=True)
    ours = theirs = size = 0
    most = ours_most = theirs_most = 0
    counts = [0, 0]
    for subdir in ("linux-64", "noarch"):
        path = "%s/data/c%d/%s/repodata.json" % (work, records, subdir)
        text = os.path.getsize(path) / 1e6
        took, memory, read = run([program, path])
        python, python_memory, entries = run([sys.executable, "-c", json_load, path])
        assert read[0] + read[1] == entries[0], (path, read, entries)
        ours, theirs, size = ours + took, theirs + python, size + text
        counts = [a + b for a, b in zip(counts, read)]
        ours_most, theirs_most = max(ours_most, memory / text), max(theirs_most, python_memory / text)
    per_megabyte[records] = ours / size
    print("%d records and %d aside in %.1f MB: %.1f ms per MB, %.2f of the time of json.load; memory %.1f times the text, json.load's %.1f times"
          % (counts[0], counts[1], size, ours / size * 1000, ours / theirs, ours_most, theirs_most))
print("time per MB, 200,000 records against 1,000: %.2f" % (per_megabyte[200000] / per_megabyte[1000]))
PYTHON
