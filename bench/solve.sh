#!/bin/sh
# Times the whole program: `conda solve` on made channels of 1,000 to 200,000 records, beside a whole run of libsolv on the same files, and `conda search`
# beside jq on the same question. Each run starts anew and reads the channel; the least of three counts, and the peak memory is the greatest.
# The channels are made by a generator, which is given as the first argument or in CHANNEL_GENERATOR and is called as
# `GENERATOR channel FOLDER NAME --records N --seed 1`; it writes FOLDER/NAME/<subdir>/repodata.json, and FOLDER/NAME/requests.txt with lines
# `sat|unsat|open SPEC SPEC ..`. The second argument, or LIBSOLV_DRIVER, is a program that is called as `DRIVER -c FOLDER/NAME SPEC..`; without it, or
# without jq, nothing is compared.
set -eu
generator=${1:-${CHANNEL_GENERATOR:-}}
driver=${2:-${LIBSOLV_DRIVER:-none}}
if [ ! -f "$generator" ]; then
    echo "usage: bench/solve.sh GENERATOR [LIBSOLV_DRIVER]"
    exit 2
fi
generator=$(cd "$(dirname "$generator")" && pwd)/$(basename "$generator")
top=$(cd "$(dirname "$0")/.." && pwd)
work=$(mktemp -d)
trap 'rm -rf "$work"' EXIT
(cd "$top/crates/conda" && rt run -- --version >/dev/null)
python3 - "$work" "$top/crates/conda/out/conda" "$generator" "$driver" <<'PYTHON'
import os, re, shutil, statistics, subprocess, sys, time
work, program, generator, driver = sys.argv[1:]
measured = """import resource, subprocess, sys
status = subprocess.run(sys.argv[1:], stdout=subprocess.DEVNULL, stderr=subprocess.DEVNULL).returncode
print(status, resource.getrusage(resource.RUSAGE_CHILDREN).ru_maxrss)
"""

def run(command):
    """The status, the least time of three runs in milliseconds, and the peak memory in MB."""
    least, memory = None, 0
    for _ in range(3):
        start = time.perf_counter()
        said = subprocess.run([sys.executable, "-c", measured] + command, stdout=subprocess.PIPE, text=True, check=True).stdout.split()
        took = (time.perf_counter() - start) * 1000 - bare
        least, memory = min(least or took, took), max(memory, int(said[1]) // 1000)
    return int(said[0]), least, memory

def text_of(command):
    return subprocess.run(command, stdout=subprocess.PIPE, text=True).stdout

bare = 0
bare = min(run(["true"])[1] for _ in range(3))
jq = shutil.which("jq")
print("| channel | requests | `conda solve`, median | memory | libsolv, median | ratio, median | at most | `conda search` | jq | ratio |")
print("|---|---|---|---|---|---|---|---|---|---|")
for records, count in ((1000, 20), (10000, 20), (50000, 10), (200000, 5)):
    name = "real%d" % records
    subprocess.run([sys.executable, generator, "channel", work + "/data", name, "--records", str(records), "--seed", "1"], stdout=subprocess.DEVNULL, check=True)
    channel = "%s/data/%s" % (work, name)
    with open(channel + "/requests.txt") as requests:
        lines = [line.split(" ") for line in requests.read().splitlines()[:count]]
    words = ["--channels", work + "/data", "-c", name]
    ours, theirs = [], []
    for sort, *specs in lines:
        answer = run([program, "solve"] + words + ["--"] + specs)
        assert answer[0] == {"sat": 0, "unsat": 1}.get(sort, answer[0]), (sort, specs, answer)
        ours.append(answer)
        if os.access(driver, os.X_OK):
            peer = run([driver, "-c", channel] + specs)
            assert peer[0] == answer[0], (specs, answer, peer)
            theirs.append(peer)
    asked = re.split("[ =<>!~]", lines[0][1])[0]
    search = run([program, "search"] + words + ["--", asked])
    assert search[0] == 0, (asked, search)
    cells = [name, str(len(lines)), "%.0f ms" % statistics.median(answer[1] for answer in ours), "%d MB" % max(answer[2] for answer in ours)]
    if theirs:
        ratios = [answer[1] / peer[1] for answer, peer in zip(ours, theirs)]
        cells += ["%.0f ms" % statistics.median(peer[1] for peer in theirs), "%.2f" % statistics.median(ratios), "%.2f" % max(ratios)]
    else:
        cells += ["", "", ""]
    cells.append("%.0f ms" % search[1])
    if jq:
        question = '(.packages, .["packages.conda"]) | .[]? | select(.name == "%s") | "\\(.name) \\(.version) \\(.build)"' % asked
        command = [jq, "-r", question] + ["%s/%s/repodata.json" % (channel, subdir) for subdir in ("linux-64", "noarch")]
        found = sorted(line.rsplit(" ", 1)[0] for line in text_of([program, "search"] + words + ["--", asked]).splitlines())
        assert found == sorted(text_of(command).splitlines()), asked
        peer = run(command)
        cells += ["%.0f ms" % peer[1], "%.2f" % (search[1] / peer[1])]
    else:
        cells += ["", ""]
    print("| %s |" % " | ".join(cells), flush=True)
PYTHON
