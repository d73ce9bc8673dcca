#!/bin/sh
# Times `solve`, 100 questions to one `Solver`, and `check` of the refutation, beside minisat and cadical where they are installed: chains of
# implications of 1,000 to 100,000 variables, ladders of at-most-one of as many, pigeonholes, and random clauses of three literals.
# Each program reads the same text; the times are of whole runs but for those of `solve`, the questions and the check.
# `sh bench/sat.sh FILE..` times these DIMACS files in place of its own.
set -eu
. "$(dirname "$0")/program.sh"
mkdir -p "$work/crates/sat_bench/proofs/questions"
cat > "$work/crates/sat_bench/proofs/questions/Invariants.antt" <<'PROOF'
use Rattle.std.proofs.Common.{◌≡◌}
use Rattle.sat_bench.proofs.questions.Given as goal

abbrev pub invariant-loop-number : goal.invariant-loop-number
invariant-loop-number l = l.solver.vars ≡ l.vars
PROOF
build sat_bench conda_base conda_refute conda_sat <<'PROGRAM'
#![tactic(auto)]

use conda_refute::{Clause, check};
use conda_sat::{Answer, Solver, clauses_are_within, literals_are_within, solve};
use std::alloc::{AllocError, Global};
use std::io;
use std::time::{SystemTime, UNIX_EPOCH};

fn now(rt: &HostRuntime) -> io::Result<u128> {
    match SystemTime::now(rt)?.duration_since(UNIX_EPOCH) {
        Ok(time) => Ok(time.as_millis()),
        Err(_) => Ok(0),
    }
}

fn literals(alloc: Global, line: &str) -> Result<Vec<i32>, AllocError> {
    let mut items = Vec::new(alloc);
    for word in line.split_whitespace() {
        if let Ok(literal) = word.parse::<i32>() {
            if literal != 0 {
                items.push(literal)?;
            }
        }
    }
    Ok(items)
}

fn questions(alloc: Global, vars: u32, clauses: &[Clause], count: u32) -> Result<u32, AllocError> {
    let mut models = 0_u32;
    if vars >= 1 << 31 || !clauses_are_within(vars, clauses) {
        return Ok(0);
    }
    let Ok(mut solver) = Solver::make(alloc, vars, clauses) else {
        return Ok(0);
    };
    for number in 0..count {
        let assumed = [i32::try_from(number).unwrap_or(0).saturating_add(1)];
        if !literals_are_within(vars, &assumed) {
            return Ok(models);
        }
        if let Ok(conda_sat::Verdict::Model(_)) = solver.ask(&assumed, &[]) {
            models = models.saturating_add(1);
        }
    }
    Ok(models)
}

fn main(rt: HostRuntime) -> io::Result<()> {
    let alloc = rt.alloc();
    let mut clauses = Vec::new(alloc);
    let mut vars = 0_u32;
    for line in rt.lines(alloc) {
        let line = line?;
        if line.starts_with('c') || line.starts_with('p') {
            continue;
        }
        let items = literals(alloc, line.as_str())?;
        for literal in items.iter() {
            vars = vars.max(literal.unsigned_abs());
        }
        if let Some(clause) = Clause::from_vec(items) {
            clauses.push(clause)?;
        }
    }
    if vars >= 1 << 31 || !clauses_are_within(vars, clauses.as_slice()) {
        return Ok(());
    }
    let start = now(&rt)?;
    let answer = solve(alloc, vars, clauses.as_slice(), &[]);
    let solved = now(&rt)?;
    match answer {
        Ok(Answer::Model(_sides)) => print!(rt; "model {} ms", solved.saturating_sub(start))?,
        Ok(Answer::Refuted(log)) => {
            let right = check(alloc, &log).is_ok();
            let checked = now(&rt)?.saturating_sub(solved);
            let steps = log.steps.len();
            print!(rt; "refuted {right} {} ms, {steps} steps, check {checked} ms", solved.saturating_sub(start))?;
        }
        Err(_error) => print!(rt; "no memory")?,
    }
    let start = now(&rt)?;
    questions(alloc, vars, clauses.as_slice(), 1)?;
    let first = now(&rt)?;
    let models = questions(alloc, vars, clauses.as_slice(), 100)?;
    let all = now(&rt)?;
    println!(rt; ", 1 question {} ms, 100 questions {} ms ({models} models)", first.saturating_sub(start), all.saturating_sub(first))
}
PROGRAM

chain() { awk -v n="$1" 'BEGIN { print 1, 0; for (k = 1; k < n; k++) print -k, k + 1, 0; print -n, 0 }'; }

# one of n is true and no two are, by n further variables
ladder() {
    awk -v n="$1" 'BEGIN {
        for (k = 1; k <= n; k++) printf "%d ", k; print 0
        for (k = 1; k <= n; k++) { print -k, n + k, 0; if (k > 1) { print -(n + k - 1), n + k, 0; print -(n + k - 1), -k, 0 } } }'
}

pigeons() {
    awk -v h="$1" 'BEGIN {
        for (p = 0; p <= h; p++) { for (k = 1; k <= h; k++) printf "%d ", p * h + k; print 0 }
        for (k = 1; k <= h; k++) for (p = 0; p <= h; p++) for (q = 0; q < p; q++) print -(p * h + k), -(q * h + k), 0 }'
}

# three different variables each, 4.26 clauses a variable
random() {
    awk -v n="$1" -v seed="$2" 'BEGIN {
        srand(seed)
        for (c = 0; c < int(4.26 * n); c++) {
            a = 1 + int(rand() * n); do b = 1 + int(rand() * n); while (b == a); do d = 1 + int(rand() * n); while (d == a || d == b)
            print (rand() < .5 ? a : -a), (rand() < .5 ? b : -b), (rand() < .5 ? d : -d), 0 } }'
}

# the time of a command on a file, in milliseconds
took() {
    begun=$(date +%s%N)
    "$@" > "$work/said" 2>&1 || true
    echo $((($(date +%s%N) - begun) / 1000000))
}

row() {
    name=$1
    grep -v '^[pc]' > "$work/plain"
    awk '{ for (i = 1; i < NF; i++) { v = $i < 0 ? -$i : $i; if (v > m) m = v } } END { print "p cnf", m, NR }' "$work/plain" > "$work/$name.cnf"
    cat "$work/plain" >> "$work/$name.cnf"
    own=$(took "$program" < "$work/$name.cnf")
    said=$(cat "$work/said")
    others=
    for other in minisat cadical; do
        if command -v $other > /dev/null; then others="$others, $other $(took $other "$work/$name.cnf") ms"; fi
    done
    echo "$name: $said; in all $own ms$others"
}

if [ $# -gt 0 ]; then
    for file in "$@"; do row "$(basename "$file" .cnf)" < "$file"; done
    exit
fi
for n in 1000 10000 100000; do
    chain $n | row chain$n
    ladder $n | row ladder$n
done
for h in 6 7 8; do pigeons $h | row pigeons$h; done
for n in 100 150 200; do
    for seed in 1 2 3; do random $n $seed | row random$n-$seed; done
done
