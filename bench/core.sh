#!/bin/sh
# Times `Core::run`: 100,000 events on 1,000 slots and 16 seats. Each seat pins each slot in turn, and then gives its pins
# up, so that its list of pins grows to 1,000. The program stands in a folder of its own, over this repository's crates.
set -eu
top=$(cd "$(dirname "$0")/.." && pwd)
work=$(mktemp -d)
trap 'rm -rf "$work"' EXIT
mkdir -p "$work/crates/core_bench/src"
for crate in conda_base conda_core; do
    mkdir "$work/crates/$crate"
    cp -r "$top/crates/$crate/src" "$top/crates/$crate/specs" "$top/crates/$crate/proofs" "$work/crates/$crate/"
done
cat > "$work/crates.txt" <<'CRATES'
conda_base:
conda_core: conda_base
core_bench: conda_core
CRATES
cat > "$work/crates/core_bench/src/main.rt" <<'PROGRAM'
#![tactic(auto)]

use conda_core::{Core, CoreErr, Event, SlotOp};
use std::alloc::{AllocError, Global};
use std::io;
use std::time::{SystemTime, UNIX_EPOCH};

fn events(alloc: Global) -> Result<Vec<Event>, AllocError> {
    let mut events = Vec::new(alloc);
    for step in 0..100_000_u32 {
        let turn = step % 32_000;
        let op = if turn < 16_000 { SlotOp::Try } else { SlotOp::Unpin };
        events.push(Event::Slot {
            seat: step % 16,
            slot: turn % 16_000 / 16,
            op,
        })?;
    }
    Ok(events)
}

fn run(alloc: Global, events: &[Event]) -> Result<usize, CoreErr> {
    let mut core = Core::make(alloc, &[true; 1000], 16, 16)?;
    core.run(alloc, events)
}

fn main(rt: HostRuntime) -> io::Result<()> {
    let events = events(rt.alloc())?;
    let start = SystemTime::now(&rt)?;
    let applied = run(rt.alloc(), events.as_slice());
    let end = SystemTime::now(&rt)?;
    match (applied, end.duration_since(start)) {
        (Ok(count), Ok(took)) => println!(rt; "{count} events in {} ms", took.as_millis()),
        _ => println!(rt; "no memory, or the clock went back"),
    }
}
PROGRAM
cd "$work/crates/core_bench"
rt run
