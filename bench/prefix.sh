#!/bin/sh
# Times the two replacements on a file of 500 MB without placeholders, beside `grep -c` for the placeholder, each the best of
# five runs.
set -eu
. "$(dirname "$0")/program.sh"
build prefix_bench conda_base conda_prefix <<'PROGRAM'
#![tactic(auto)]

use conda_prefix::{replace_binary, replace_text};
use std::env;
use std::fs;
use std::io;
use std::time::SystemTime;

const PLACEHOLDER: &[u8] = b"/opt/placehold_placehold_placehold_placehold";

fn main(rt: HostRuntime) -> io::Result<()> {
    let alloc = rt.alloc();
    for path in env::args(&rt)?.skip(1) {
        let path = path;
        let bytes = match fs::read(&rt, path.as_str()) {
            Ok(bytes) => bytes,
            Err(_) => continue,
        };
        let start = SystemTime::now(&rt)?;
        let text = match replace_text(alloc, bytes, PLACEHOLDER, b"/e") {
            Ok(text) => text,
            Err(_) => continue,
        };
        let middle = SystemTime::now(&rt)?;
        let binary = match replace_binary(alloc, text, PLACEHOLDER, b"/e") {
            Ok(binary) => binary,
            Err(_) => continue,
        };
        let end = SystemTime::now(&rt)?;
        if let (Ok(first), Ok(second)) = (middle.duration_since(start), end.duration_since(middle)) {
            println!(rt; "{} {} {}", first.as_micros(), second.as_micros(), binary.len())?;
        }
    }
    Ok(())
}
PROGRAM
python3 - "$work" "$program" <<'PYTHON'
import os, random, subprocess, sys, time
work, program = sys.argv[1], sys.argv[2]
random.seed(1)
part = bytes(random.randrange(256) for _ in range(1000000)) + b"/opt/place/lib/python3.9/site-packages\0"
with open(work + "/file", "wb") as out:
    while out.tell() < 500000000:
        out.write(part)
size = os.path.getsize(work + "/file") / 1e6
open(work + "/file", "rb").read()

def ours():
    out = subprocess.run([program, work + "/file"], stdout=subprocess.PIPE, check=True).stdout.split()
    return int(out[0]) / 1000, int(out[1]) / 1000

def theirs():
    start = time.perf_counter()
    subprocess.run(["grep", "-c", "/opt/placehold_placehold_placehold_placehold", work + "/file"], stdout=subprocess.DEVNULL)
    return (time.perf_counter() - start) * 1000

runs = [ours() + (theirs(),) for _ in range(5)]
text, binary, grep = (min(run[k] for run in runs) for k in range(3))
print("text %.0f MB/s, binary %.0f MB/s, grep -c %.0f MB/s; time against grep: text %.2f, binary %.2f"
      % (size / text * 1000, size / binary * 1000, size / grep * 1000, text / grep, binary / grep))
PYTHON
