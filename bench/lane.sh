#!/bin/sh
# Times the changes of one lane and their undoing. In memory: the time of a change in trees of 1,000, 10,000 and 100,000 files, which
# grows with the logarithm of their number. On the machine: putting 10,000 files of 16 kB beside `cp -a`, and undoing that, moving out
# and purging beside `rm -r`. The supply takes the digest of each file that it gives. Changes go in lists of ten, since the program
# tests by pairs that the paths of a list differ. Tests and supply are those of the rows.
set -eu
. "$(dirname "$0")/program.sh"

folder="$work/crates/lane_bench"
rows="$top/crates/rows_environments"
mkdir -p "$folder/src" "$folder/specs" "$folder/proofs"
cp "$rows/src/checks.rt" "$rows/src/shelf.rt" "$folder/src/"
cp "$rows/specs/Lib.antt" "$rows/specs/Shelf.antt" "$rows/specs/Supplies.antt" "$folder/specs/"
cp -r "$rows/proofs/Distinct.antt" "$rows/proofs/Supplies.antt" "$rows/proofs/checks" "$rows/proofs/shelf" "$folder/proofs/"
printf 'pub mod Distinct\npub mod Supplies\n' > "$folder/proofs/Lib.antt"
mkdir "$folder/proofs/on_machine" "$folder/proofs/in_memory"
for loop in on_machine in_memory; do
    cat > "$folder/proofs/$loop/Invariants.antt" <<PROOF
use Rattle.std.proofs.Common.{◌≡◌}
use Rattle.lane_bench.proofs.$loop.Given as goal

abbrev pub invariant-loop-first : goal.invariant-loop-first
PROOF
done
echo 'invariant-loop-first l = (l.lane.share.number ≡ 0) × (l.lane.share.lanes ≡ 1)' >> "$folder/proofs/on_machine/Invariants.antt"
echo 'invariant-loop-first l = (l.lane.number ≡ 0) × (l.lane.lanes ≡ 1)' >> "$folder/proofs/in_memory/Invariants.antt"
mkdir "$folder/proofs/one_real_lane"
sed -E -e 's/checks\.one_lane/one_real_lane/' -e 's/IsInShare, Share/IsInShare, Share, can_all/' -e 's/lane\.(number|lanes);/lane.share.\1;/g' \
    -e 's/lane\.abilities/can_all/' "$rows/proofs/checks/one_lane/Answers.antt" > "$folder/proofs/one_real_lane/Answers.antt"
find "$folder" -type f -exec sed -i 's/rows_environments/lane_bench/g' {} +

build lane_bench conda_base conda_path conda_json conda_paths conda_device conda_mem conda_dev conda_checked conda_lane conda_files \
    conda_real rows_plan <<'PROGRAM'
#![tactic(auto)]

ghost use Rattle.std.specs.Prelude.{◌≡◌, IfOk, IfSome};
ghost use Rattle.conda_lane.specs.Changes.{AreApart, AreChanges};

mod checks;
mod shelf;

use crate::checks::{are_apart, are_goods_of, are_moved_out, are_ready, one_lane};
use crate::shelf::{Shelf, Stock, good_of};
use conda_base::{Bytes, Copied};
use conda_dev::{Host, Lane, MemLane, Tree};
use conda_lane::{Change, move_out, purge, put_in, undo};
use conda_path::{Kind, Node, Prefix, RelPath};
use conda_real::{RealHost, RealLane};
use std::alloc::{AllocError, Global};
use std::env;
use std::io;
use std::time::{SystemTime, UNIX_EPOCH};

fn now(rt: &HostRuntime) -> io::Result<u128> {
    match SystemTime::now(rt)?.duration_since(UNIX_EPOCH) {
        Ok(time) => Ok(time.as_nanos()),
        Err(_) => Ok(0),
    }
}

/// A file of this size.
fn file_of(alloc: Global, size: usize) -> Result<Node, AllocError> {
    let kind = Kind::File;
    let bytes = Bytes::from_vec(vec![in alloc; b'x'; size]?);
    Ok(Node { kind, bytes })
}

/// The path of a file: a hundred in each folder.
fn path_of(alloc: Global, i: u32) -> Result<Option<RelPath>, AllocError> {
    let folder = i / 100;
    let text = format!(in alloc; "lib/d{folder}/file{i}")?;
    Ok(RelPath::read(alloc, text.as_str()).ok())
}

/// The change of a file, which was there or not, and gets a new node or none.
fn change_of(
    alloc: Global,
    i: u32,
    old: bool,
    new: Option<&Node>,
) -> Result<Option<Change>, AllocError> {
    let trash = format!(in alloc; "conda-meta/.trash/1.{i}")?;
    let Some(path) = path_of(alloc, i)? else {
        return Ok(None);
    };
    let Ok(trash) = RelPath::read(alloc, trash.as_str()) else {
        return Ok(None);
    };
    let new = match new {
        Some(node) => Some(good_of(path.clone()?, node)),
        None => None,
    };
    Ok(Some(Change {
        path,
        old,
        new,
        trash,
    }))
}

/// The changes of ten files.
fn list_of(
    alloc: Global,
    first: u32,
    old: bool,
    new: Option<&Node>,
) -> Result<Option<Vec<Change>>, AllocError>
    ensures { IfOk result (λ found. IfSome found (λ changes. AreApart changes.items)) }
{
    let mut changes = Vec::new(alloc);
    for i in 0..10_u32 {
        match change_of(alloc, first.saturating_add(i), old, new)? {
            Some(change) => changes.push(change)?,
            None => return Ok(None),
        }
    }
    if !are_apart(changes.as_slice()) {
        return Ok(None);
    }
    Ok(Some(changes))
}

/// The supply of the new nodes of changes.
fn shelf_of(alloc: Global, changes: &[Change], node: &Node) -> Result<Option<Shelf>, AllocError> {
    let mut stock = Stock::new(alloc);
    for change in changes {
        if let Some(good) = &change.new {
            stock.lay(alloc, good.copy()?, node.copy()?, "")?;
        }
    }
    Ok(Shelf::make(stock))
}

/// Changes that are apart lie in the only lane.
fn one_real_lane(lane: &RealLane<HostRuntime>, changes: &[Change])
    requires number { lane.now.share.number ≡ 0 }
    requires lanes { lane.now.share.lanes ≡ 1 }
    requires apart { AreApart changes.now }
    ensures { AreChanges (⟦<RealLane<HostRuntime> as Lane>⟧.share lane.now) changes.now }
{}

/// Makes a call with ten changes on the machine: whether it was done.
fn call_on_machine(
    alloc: Global,
    lane: &mut RealLane<HostRuntime>,
    verb: &str,
    changes: &[Change],
    shelf: &mut Shelf,
) -> Result<bool, AllocError>
    requires number { lane.old.share.number ≡ 0 }
    requires lanes { lane.old.share.lanes ≡ 1 }
    requires apart { AreApart changes.now }
    ensures number { lane.new.share.number ≡ 0 }
    ensures lanes { lane.new.share.lanes ≡ 1 }
{
    let mut left = Vec::new(alloc);
    left.reserve(changes.len())?;
    one_real_lane(lane, changes);
    match verb {
        "put" => {
            let of_goods = are_goods_of(shelf.goods(), changes);
            if !of_goods {
                return Ok(false);
            }
            Ok(put_in(alloc, lane, changes, shelf).is_ok())
        }
        "undo" => Ok(undo(lane, changes).is_ok()),
        "out" => Ok(move_out(lane, changes).is_ok()),
        _ => {
            purge(lane, changes, &mut left);
            Ok(left.is_empty())
        }
    }
}

/// Calls for all files, ten at a time. Milliseconds, or None where a call wasn't done.
fn on_machine(
    rt: &HostRuntime,
    lane: &mut RealLane<HostRuntime>,
    verb: &str,
    size: usize,
    count: u32,
) -> io::Result<Option<u128>>
    requires number { lane.old.share.number ≡ 0 }
    requires lanes { lane.old.share.lanes ≡ 1 }
{
    let alloc = rt.alloc();
    let node = file_of(alloc, size)?;
    let is_new = verb == "put" || verb == "undo";
    let mut took = 0_u128;
    for first in 0..count / 10 {
        let new = if is_new { Some(&node) } else { None };
        let Some(changes) = list_of(alloc, first.saturating_mul(10), !is_new, new)? else {
            return Ok(None);
        };
        let Some(mut shelf) = shelf_of(alloc, changes.as_slice(), &node)? else {
            return Ok(None);
        };
        let begun = now(rt)?;
        if !call_on_machine(alloc, lane, verb, changes.as_slice(), &mut shelf)? {
            return Ok(None);
        }
        took = took.saturating_add(now(rt)?.saturating_sub(begun));
    }
    Ok(Some(took / 1_000_000))
}

/// Makes a call with ten changes in memory: whether it was done.
fn call_in_memory(
    alloc: Global,
    lane: &mut MemLane,
    verb: &str,
    changes: &[Change],
    shelf: &mut Shelf,
) -> bool
    requires number { lane.old.number ≡ 0 }
    requires lanes { lane.old.lanes ≡ 1 }
    requires apart { AreApart changes.now }
    ensures number { lane.new.number ≡ 0 }
    ensures lanes { lane.new.lanes ≡ 1 }
{
    one_lane(lane, changes);
    match verb {
        "out" => are_ready(lane.tree(), changes) && move_out(lane, changes).is_ok(),
        "put" => {
            are_moved_out(lane.tree(), changes)
                && are_goods_of(shelf.goods(), changes)
                && put_in(alloc, lane, changes, shelf).is_ok()
        }
        _ => undo(lane, changes).is_ok(),
    }
}

/// Calls for all files, ten at a time. Nanoseconds, or None where a call wasn't done.
fn in_memory(
    rt: &HostRuntime,
    lane: &mut MemLane,
    verb: &str,
    count: u32,
) -> io::Result<Option<u128>>
    requires number { lane.old.number ≡ 0 }
    requires lanes { lane.old.lanes ≡ 1 }
    ensures number { IfOk result (λ _. lane.new.number ≡ 0) }
    ensures lanes { IfOk result (λ _. lane.new.lanes ≡ 1) }
{
    let alloc = rt.alloc();
    let node = file_of(alloc, 2)?;
    let mut took = 0_u128;
    for first in 0..count / 10 {
        let Some(changes) = list_of(alloc, first.saturating_mul(10), true, Some(&node))? else {
            return Ok(None);
        };
        let Some(mut shelf) = shelf_of(alloc, changes.as_slice(), &node)? else {
            return Ok(None);
        };
        let begun = now(rt)?;
        if !call_in_memory(alloc, lane, verb, changes.as_slice(), &mut shelf) {
            return Ok(None);
        }
        took = took.saturating_add(now(rt)?.saturating_sub(begun));
    }
    Ok(Some(took))
}

/// A tree of so many files of one byte.
fn tree_of(alloc: Global, count: u32) -> Result<Tree, AllocError> {
    let mut tree = Tree::new(alloc);
    for i in 0..count {
        if let Some(path) = path_of(alloc, i)? {
            tree.put(path, file_of(alloc, 1)?)?;
        }
    }
    Ok(tree)
}

/// The nanoseconds of a change in a tree of so many files, each of which is replaced, and that is undone.
fn memory(rt: &HostRuntime, count: u32) -> io::Result<()> {
    let alloc = rt.alloc();
    let tree = tree_of(alloc, count)?;
    let mut lane = MemLane::make(alloc, 0, 1, tree, Vec::new(alloc))?;
    let out = in_memory(rt, &mut lane, "out", count)?;
    let put = in_memory(rt, &mut lane, "put", count)?;
    let undone = in_memory(rt, &mut lane, "undo", count)?;
    match (out, put, undone) {
        (Some(out), Some(put), Some(undone)) => {
            let each = u128::from(count.max(1));
            println!(rt;
                "{count} files in memory, ns a change: out {}, in {}, undo {}",
                out / each,
                put / each,
                undone / each
            )
        }
        _ => println!(rt; "not done"),
    }
}

/// The milliseconds of a call over so many files on the machine.
fn machine(rt: &HostRuntime, root: &str, verb: &str, size: usize, count: u32) -> io::Result<()> {
    let alloc = rt.alloc();
    let Ok(prefix) = Prefix::read(alloc, "/e") else {
        return println!(rt; "not done");
    };
    let mut host = RealHost::make(rt.clone()?, alloc, root)?;
    let pkgs = format!(in alloc; "{root}/pkgs")?;
    let Ok(mut lanes) = host.lanes(alloc, &prefix, pkgs.as_str(), 1) else {
        return println!(rt; "not done");
    };
    match on_machine(rt, &mut lanes[0], verb, size, count)? {
        Some(took) => println!(rt; "{took}"),
        None => println!(rt; "not done"),
    }
}

fn main(rt: HostRuntime) -> io::Result<()> {
    let mut words = Vec::new(rt.alloc());
    for word in env::args(&rt)? {
        words.push(word)?;
    }
    if words.len() < 5 {
        return println!(rt; "none");
    }
    let size = words[3].parse::<usize>().unwrap_or(0);
    let count = words[4].parse::<u32>().unwrap_or(0);
    match words[2].as_str() {
        "memory" => memory(&rt, count),
        verb => machine(&rt, words[1].as_str(), verb, size, count),
    }
}
PROGRAM

for count in 1000 10000 100000; do
    "$program" none memory 0 "$count"
done

root="$work/root"
mkdir "$root"
timed() {
    begun=$(date +%s%N)
    "$@"
    ended=$(date +%s%N)
    took=$(((ended - begun) / 1000000))
}
beside() {
    case $2 in
        *[!0-9]*) echo "$1: $2" ;;
        *) echo "$1: $2 ms, $3: $4 ms, ratio $((100 * $2 / ($4 + 1)))/100" ;;
    esac
}

put=$("$program" "$root" put 16384 10000)
sync
timed cp -a "$root/e" "$root/copy"
beside "put 10,000 files of 16 kB" "$put" "cp -a" "$took"
timed rm -r "$root/copy"
beside "undo that" "$("$program" "$root" undo 16384 10000)" "rm -r" "$took"
"$program" "$root" put 16384 10000 > "$work/said"
sync
beside "move them out" "$("$program" "$root" out 16384 10000)" "rm -r" "$took"
beside "purge them" "$("$program" "$root" purge 16384 10000)" "rm -r" "$took"
