#!/bin/sh
# Sorts a million versions as they stand in channels, beside as many texts by their bytes.
set -eu
. "$(dirname "$0")/program.sh"
build version_bench conda_base conda_version <<'PROGRAM'
#![tactic(auto)]

use conda_version::Version;
use std::alloc::Global;
use std::cmp::Ordering;
use std::env;
use std::fs;
use std::io;
use std::time::SystemTime;

fn read_all(alloc: Global, text: &str) -> io::Result<Vec<Version>> {
    let mut versions = Vec::new(alloc);
    for line in text.lines() {
        if let Ok(version) = Version::read(alloc, line) {
            versions.push(version)?;
        }
    }
    Ok(versions)
}

fn main(rt: HostRuntime) -> io::Result<()> {
    let alloc = rt.alloc();
    for path in env::args(&rt)?.skip(1) {
        let path = path;
        let text = match fs::read_to_string(&rt, path.as_str()) {
            Ok(text) => text,
            Err(_) => continue,
        };
        let mut texts: Vec<&str> = Vec::new(alloc);
        for line in text.as_str().lines() {
            texts.push(line)?;
        }
        let start = SystemTime::now(&rt)?;
        let mut versions = read_all(alloc, text.as_str())?;
        let read = SystemTime::now(&rt)?;
        versions.sort_unstable_by(|a: &Version, b: &Version| -> Ordering { a.compare(b) });
        let sorted = SystemTime::now(&rt)?;
        texts.sort_unstable_by(|a: &&str, b: &&str| -> Ordering { a.as_bytes().cmp(b.as_bytes()) });
        let end = SystemTime::now(&rt)?;
        if let (Ok(reading), Ok(ours), Ok(bytes)) = (read.duration_since(start), sorted.duration_since(read), end.duration_since(sorted)) {
            println!(rt; "{} {} {} {}", versions.len(), reading.as_millis(), ours.as_millis(), bytes.as_millis())?;
        }
    }
    Ok(())
}
PROGRAM
python3 - "$work" "$program" <<'PYTHON'
import random, subprocess, sys
work, program = sys.argv[1], sys.argv[2]
random.seed(1)
with open(work + "/versions", "w") as out:
    for _ in range(1000000):
        out.write(random.choice(["%d.%d.%d", "20%02d.%d.%d", "0.%d.%d.dev2023%04d", "%d.%drc%d"])
                  % (random.randrange(30), random.randrange(12), random.randrange(30)) + "\n")
count, reading, ours, texts = (int(n) for n in subprocess.run([program, work + "/versions"], stdout=subprocess.PIPE, check=True).stdout.split())
print("%d versions: read in %d ms, sorted in %d ms; as many texts by bytes in %d ms; ratio %.1f" % (count, reading, ours, texts, ours / texts))
PYTHON
