#!/bin/sh
# Reads a specification and asks 200,000 packages whether they match it, beside the same in Python; and times a pattern of
# many stars on texts that almost are of it, each twice as long as the one before.
set -eu
. "$(dirname "$0")/program.sh"
build spec_bench conda_base conda_version conda_clause conda_spec <<'PROGRAM'
#![tactic(auto)]

use conda_spec::{Spec, glob};
use conda_version::Version;
use std::alloc::Global;
use std::env;
use std::fs;
use std::io;
use std::time::SystemTime;

/// Some line of a list of packages: a name, a version and a build.
fn parts(line: &str) -> (&str, &str, &str) {
    let mut words = line.split(' ');
    let name = words.next().unwrap_or("");
    let version = words.next().unwrap_or("");
    (name, version, words.next().unwrap_or(""))
}

fn versions_of(alloc: Global, text: &str) -> io::Result<Vec<Version>> {
    let mut versions = Vec::new(alloc);
    for line in text.lines() {
        if let Ok(version) = Version::read(alloc, parts(line).1) {
            versions.push(version)?;
        }
    }
    Ok(versions)
}

fn matches_of(spec: &Spec, text: &str, versions: &[Version]) -> usize {
    let mut count: usize = 0;
    for (line, version) in text.lines().zip(versions) {
        let (name, _, build) = parts(line);
        if spec.matches(name, version, build, 0, "main", "noarch") {
            count = count.saturating_add(1);
        }
    }
    count
}

fn main(rt: HostRuntime) -> io::Result<()> {
    let alloc = rt.alloc();
    for path in env::args(&rt)?.skip(1) {
        let path = path;
        let text = match fs::read_to_string(&rt, path.as_str()) {
            Ok(text) => text,
            Err(_) => continue,
        };
        let Ok(spec) = Spec::read(alloc, "py*[version='>=3.8,<3.12|=2.7',build=py3*_1]") else {
            continue;
        };
        let versions = versions_of(alloc, text.as_str())?;
        let start = SystemTime::now(&rt)?;
        let count = matches_of(&spec, text.as_str(), versions.as_slice());
        let end = SystemTime::now(&rt)?;
        if let Ok(ours) = end.duration_since(start) {
            println!(rt; "match {count} {}", ours.as_millis())?;
        }
    }
    for length in [100_000usize, 200_000, 400_000] {
        let mut text = String::new(alloc);
        for _ in 0..length {
            text.push('a')?;
        }
        let start = SystemTime::now(&rt)?;
        let found = glob("*a*a*a*a*b", text.as_str());
        let end = SystemTime::now(&rt)?;
        if let Ok(ours) = end.duration_since(start) {
            println!(rt; "glob {length} {found} {}", ours.as_micros())?;
        }
    }
    Ok(())
}
PROGRAM
python3 - "$work" "$program" <<'PYTHON'
import fnmatch, random, subprocess, sys, time
work, program = sys.argv[1], sys.argv[2]
random.seed(1)
rows = []
for _ in range(200000):
    rows.append((random.choice(["python", "pytest", "numpy", "pyyaml", "zlib"]),
                 "%d.%d.%d" % (random.choice([2, 3]), random.randrange(14), random.randrange(10)),
                 "py3%d_%d" % (random.randrange(8, 13), random.randrange(3))))
with open(work + "/packages", "w") as out:
    out.writelines("%s %s %s\n" % row for row in rows)
start = time.perf_counter()
found = 0
for name, version, build in rows:
    v = tuple(int(n) for n in version.split("."))
    if fnmatch.fnmatchcase(name, "py*") and ((3, 8) <= v < (3, 12) or v[:2] == (2, 7)) and fnmatch.fnmatchcase(build, "py3*_1"):
        found += 1
python = (time.perf_counter() - start) * 1000
lines = [line.split() for line in subprocess.run([program, work + "/packages"], stdout=subprocess.PIPE, check=True, text=True).stdout.splitlines()]
assert int(lines[0][1]) == found, (lines[0], found)
print("200000 packages: %s match, in %s ms; Python %.0f ms; ratio %.2f" % (lines[0][1], lines[0][2], python, int(lines[0][2]) / python))
for _, length, _, micros in lines[1:]:
    print("a pattern of five stars on %s characters: %s microseconds" % (length, micros))
PYTHON
