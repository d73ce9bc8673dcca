#!/bin/sh
# Times `check` on logs of 10,000 and of 1,000,000 steps, and prints the time for each literal of a hinted clause. The log
# is a chain: the inputs 1, then -k k+1 for each k, and then -n; step k derives k+1 from the step before.
set -eu
. "$(dirname "$0")/program.sh"
build refute_bench conda_base conda_refute <<'PROGRAM'
#![tactic(auto)]

ghost use Rattle.std.specs.Prelude.{◌≤◌};

use conda_base::Rows;
use conda_refute::{Clause, Log, Step, check};
use std::alloc::{AllocError, Global};
use std::io;
use std::time::{SystemTime, UNIX_EPOCH};

fn clause(alloc: Global, literals: &[i32]) -> Result<Clause, AllocError> {
    match Clause::from_vec(Vec::from_slice(alloc, literals)?) {
        Some(clause) => Ok(clause),
        None => Ok(Clause::new(alloc)),
    }
}

fn chain(alloc: Global, count: u32) -> Result<Log, AllocError>
    requires { count ≤ 1000000 }
{
    let mut inputs = Rows::new(alloc);
    let mut steps = Rows::new(alloc);
    inputs.push(clause(alloc, &[1])?)?;
    for k in 1..count {
        let literal = k as i32;
        inputs.push(clause(alloc, &[-literal, literal + 1])?)?;
    }
    inputs.push(clause(alloc, &[-(count as i32)])?)?;
    let mut last = 1;
    for k in 1..count {
        let hints = Rows::from_vec(Vec::from_slice(alloc, &[last, u64::from(k) + 1])?);
        steps.push(Step { clause: clause(alloc, &[k as i32 + 1])?, hints })?;
        last = u64::from(count) + 1 + u64::from(k);
    }
    let hints = Rows::from_vec(Vec::from_slice(alloc, &[last, u64::from(count) + 1])?);
    steps.push(Step { clause: Clause::new(alloc), hints })?;
    Ok(Log { inputs, steps })
}

fn timed(rt: &HostRuntime, count: u32) -> io::Result<()>
    requires { count ≤ 1000000 }
{
    let Ok(log) = chain(rt.alloc(), count) else {
        return Ok(());
    };
    let start = SystemTime::now(rt)?;
    let refuted = check(rt.alloc(), &log).is_ok();
    let end = SystemTime::now(rt)?;
    if let Ok(took) = end.duration_since(start) {
        let literals = u128::from(count) * 3;
        println!(rt; "{count} steps: refuted {refuted}, {} ns for each hint literal", took.as_nanos() / (literals + 1))?;
    }
    Ok(())
}

fn main(rt: HostRuntime) -> io::Result<()> {
    timed(&rt, 10_000)?;
    timed(&rt, 1_000_000)
}
PROGRAM
"$program"
