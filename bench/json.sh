#!/bin/sh
# Times `parse` on a repodata text of 200 MB and measures its memory, beside Python's `json`.
set -eu
. "$(dirname "$0")/program.sh"
build json_bench conda_base conda_json <<'PROGRAM'
#![tactic(auto)]

use conda_json::{object_of, parse};
use std::env;
use std::fs;
use std::io;

fn main(rt: HostRuntime) -> io::Result<()> {
    let alloc = rt.alloc();
    for path in env::args(&rt)?.skip(1) {
        let path = path;
        let bytes = match fs::read(&rt, path.as_str()) {
            Ok(bytes) => bytes,
            Err(_) => continue,
        };
        match parse(alloc, bytes.as_slice()) {
            Ok(value) => match object_of(&value, "packages") {
                Ok(packages) => println!(rt; "{} packages", packages.len())?,
                Err(_) => println!(rt; "no packages")?,
            },
            Err(_) => println!(rt; "refused")?,
        }
    }
    Ok(())
}
PROGRAM
python3 - "$work" "$program" <<'PYTHON'
import os, resource, subprocess, sys, time
work, program = sys.argv[1], sys.argv[2]
with open(work + "/repodata.json", "w") as out:
    out.write('{"info":{"subdir":"linux-64"},"packages":{')
    k = 0
    while out.tell() < 200000000:
        out.write('%s"package%d-1.%d-h%d_0.tar.bz2":{"build":"h%d_0","build_number":%d,"depends":["python >=3.6","libz >=1.2,<2"],"license":"BSD","md5":"%032x","name":"package%d","sha256":"%064x","size":%d,"subdir":"linux-64","timestamp":%d,"version":"1.%d"}'
                  % ("," if k else "", k, k % 97, k % 7, k % 7, k % 3, k * 7919, k, k * 104729, k * 31, 1600000000000 + k, k % 97))
        k += 1
    out.write("}}")
size = os.path.getsize(work + "/repodata.json") / 1e6

def measured(command):
    code = "import resource,subprocess,sys;subprocess.run(sys.argv[1:],stdout=subprocess.DEVNULL,check=True);print(resource.getrusage(resource.RUSAGE_CHILDREN).ru_maxrss)"
    start = time.perf_counter()
    out = subprocess.run([sys.executable, "-c", code] + command, stdout=subprocess.PIPE, check=True).stdout
    return time.perf_counter() - start, int(out) / 1000

ours, our_memory = measured([program, work + "/repodata.json"])
python, python_memory = measured([sys.executable, "-c", "import json,sys;print(len(json.load(open(sys.argv[1]))['packages']))", work + "/repodata.json"])
print("parse %.0f MB/s, ratio to python %.2f; memory %.1f times the text, python %.1f times"
      % (size / ours, ours / python, our_memory / size, python_memory / size))
PYTHON
