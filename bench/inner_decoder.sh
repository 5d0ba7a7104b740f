#!/usr/bin/env bash
# Times the inner decoder with a path memory of 2048 steps over decision words: the plain step and the one in lanes, and
# beside them the margins of bits, on the same clean and noisy costs of the rate 1/2 code. Makes a scratch repository of the
# crates, proves and builds a program there, and runs it. Prints picoseconds a decoded bit and Mbit/s, of the fastest of many
# symbols of 30,000 steps, without the loading of a symbol's costs and the taking of its bytes.
# usage: bench/inner_decoder.sh [FOLDER] [flags of rt run, as --cpu x86-64-v3]
set -eu
top=$(cd "$(dirname "$0")/.." && pwd)
to=${1:-$(mktemp -d)}
[ $# -gt 0 ] && shift
. "$top/bench/scratch.sh"
copy_crates "$top" "$to" acs_plain acs_lanes survivor_ring inner_decoder bit_margin bit_pack
mkdir -p "$to/crates/bench_inner"
echo 'bench_inner: bit_margin acs_plain acs_lanes survivor_ring conv_code code_paths bit_pack inner_decoder spec_words anyhow' >> "$to/crates.txt"
cd "$to/crates/bench_inner"
mkdir -p src proofs/load proofs/drain proofs/run proofs/push_all proofs/run_margins
cat > src/main.rt <<'END'
// Times the inner decoder.
#![tactic(auto)]

ghost use Rattle.std.specs.Prelude.{◌≡◌, ◌+◌, ◌*◌, ◌<◌, ◌≤◌, ◌^◌, ℕ, false, [], length, vec_len, vec_capacity, OnSome, OnOk};

use acs_lanes::LaneAcs;
use acs_plain::{Acs, PlainAcs};
use bit_margin::Margins;
use conv_code::{CostPair, Encoder};
use inner_decoder::{Branch, StartState};
use std::time::Instant;
use survivor_ring::{RingSurvivors, Survivors};

/// A step of a register for random numbers.
fn next(x: u64) -> u64 {
    let y = x ^ x << 13;
    let z = y ^ y >> 7;
    z ^ z << 17
}

/// The costs of a bit: far apart, or close together and now and then the wrong way.
fn cost(bit: bool, noise: u64, is_noisy: bool) -> (u16, u16)
    ensures { (result.0 < 4000) × (result.1 < 4000) }
{
    let wrong = is_noisy && noise & 15 == 0;
    let far = if is_noisy { 40 + (noise >> 4 & 255) as u16 } else { 400 };
    let near = if is_noisy { (noise >> 12 & 63) as u16 } else { 0 };
    if bit != wrong { (far, near) } else { (near, far) }
}

/// Loads a symbol.
fn fill(pairs: &mut [CostPair], encoder: &mut Encoder, seed: u64, is_noisy: bool) -> u64 {
    let mut x = seed;
    for pair in pairs.iter_mut() {
        x = next(x);
        let (a, b) = encoder.step(x & 1 == 1);
        let (x0, x1) = cost(a, x >> 1, is_noisy);
        let (y0, y1) = cost(b, x >> 31, is_noisy);
        *pair = CostPair { x0, x1, y0, y1 };
    }
    x
}

fn load<A: Acs, V: Survivors<2048>>(branch: &mut Branch<A, V>, pairs: &[CostPair])
    requires going { branch.old.decoder.ended ≡ false }
    requires few { length branch.old.loaded + length pairs.now ≤ branch.old.most }
    ensures going { branch.new.decoder ≡ branch.old.decoder }
    ensures most { branch.new.most ≡ branch.old.most }
    ensures wait { branch.new.wait ≡ branch.old.wait }
    ensures loaded { length branch.new.loaded ≡ length branch.old.loaded + length pairs.now }
{
    for k in 0..pairs.len() {
        branch.load(pairs[k]);
    }
}

fn drain<A: Acs, V: Survivors<2048>>(branch: &mut Branch<A, V>) -> u64
    ensures going { branch.new.decoder ≡ branch.old.decoder }
    ensures most { branch.new.most ≡ branch.old.most }
    ensures loaded { branch.new.loaded ≡ branch.old.loaded }
{
    let mut sum = 0u64;
    for _k in 0..6000u32 {
        if let Some(byte) = branch.take_byte() {
            sum = sum.wrapping_mul(31).wrapping_add(byte as u64);
        } else {
            return sum;
        }
    }
    sum
}

/// Decodes a symbol, and answers how long that took, in nanoseconds, and the sum of its bytes.
fn symbol<A: Acs, V: Survivors<2048>>(
    rt: &HostRuntime,
    branch: &mut Branch<A, V>,
    pairs: &[CostPair],
) -> anyhow::Result<(u64, u64)>
    requires few { length pairs.now ≤ 30000 }
    requires most { branch.old.most ≡ 30000 }
    requires loaded { branch.old.loaded ≡ [] }
    requires going { branch.old.decoder.ended ≡ false }
    requires steps { branch.old.decoder.steps < 2 ^ 60 }
    ensures most { branch.new.most ≡ 30000 }
    ensures loaded { branch.new.loaded ≡ [] }
    ensures going { branch.new.decoder.ended ≡ false }
    ensures steps { branch.new.decoder.steps ≤ branch.old.decoder.steps + 30000 }
{
    if branch.waiting() >= 8 {
        return Ok((u64::MAX, 0));
    }
    load(branch, pairs);
    let begun = Instant::now(rt);
    branch.run_symbol();
    let spent = begun?.elapsed(rt)?.as_nanos();
    let sum = drain(branch);
    Ok((
        if spent < 1_000_000_000_000 {
            spent as u64
        } else {
            u64::MAX
        },
        sum,
    ))
}

/// The least time that a symbol of these pairs takes, in nanoseconds, of so many symbols.
fn run<A: Acs, V: Survivors<2048>>(
    rt: &HostRuntime,
    pairs: &[CostPair],
    times: u32,
) -> anyhow::Result<u64>
    requires few { length pairs.now ≤ 30000 }
{
    let mut branch: Branch<A, V> = Branch::new(rt.alloc(), StartState::Any, 30000)?;
    let mut sum = 0u64;
    let mut least = u64::MAX;
    for _k in 0..times {
        let (spent, bytes) = symbol(rt, &mut branch, pairs)?;
        sum = sum.wrapping_mul(3).wrapping_add(bytes);
        least = least.min(spent);
    }
    println!(rt; "sum {sum}")?;
    Ok(least)
}

/// The sum of numbers.
fn summed(numbers: &[u32]) -> u64 {
    let mut sum = 0u64;
    for number in numbers {
        sum = sum.wrapping_mul(31).wrapping_add(*number as u64);
    }
    sum
}

/// Pushes pairs, and takes the margins of each window that is full.
fn push_all(margins: &mut Margins, pairs: &[CostPair], to: &mut Vec<u32>) -> u64
    requires going { margins.old.ended ≡ false }
    requires room { length margins.old.waiting < 1280 }
    requires empty { vec_len to.old ≡ 0 }
    requires spare { vec_capacity to.old ≡ 1024 }
    ensures going { margins.new.ended ≡ false }
    ensures room { length margins.new.waiting < 1280 }
    ensures empty { vec_len to.new ≡ 0 }
    ensures spare { vec_capacity to.new ≡ 1024 }
{
    let mut sum = 0;
    for k in 0..pairs.len() {
        if margins.push(pairs[k]) {
            margins.take(to);
            sum = summed(to);
            to.clear();
        }
    }
    sum
}

/// The least time that the margins of so many pairs take, in nanoseconds, of so many times.
fn run_margins(rt: &HostRuntime, pairs: &[CostPair], times: u32) -> anyhow::Result<u64> {
    let mut margins = Margins::new(rt.alloc(), StartState::Any)?;
    let mut to = Vec::with_capacity(rt.alloc(), 1024)?;
    let mut sum = 0u64;
    let mut least = u64::MAX;
    for _k in 0..times {
        let begun = Instant::now(rt);
        let last = push_all(&mut margins, pairs, &mut to);
        let spent = begun?.elapsed(rt)?.as_nanos();
        sum = sum.wrapping_mul(3).wrapping_add(last);
        if spent < 1_000_000_000_000 {
            least = least.min(spent as u64);
        }
    }
    println!(rt; "sum {sum}")?;
    Ok(least)
}

fn main(rt: HostRuntime) -> anyhow::Result<()> {
    let none = CostPair {
        x0: 0,
        x1: 0,
        y0: 0,
        y1: 0,
    };
    let mut pairs = vec![in rt.alloc(); none; 30000]?;
    for is_noisy in [false, true] {
        let mut encoder = Encoder::start();
        fill(&mut pairs, &mut encoder, 88172645463325252, is_noisy);
        if pairs.len() <= 30000 {
            let plain = run::<PlainAcs, RingSurvivors<2048>>(&rt, &pairs, 60)?;
            let lanes = run::<LaneAcs, RingSurvivors<2048>>(&rt, &pairs, 400)?;
            let margins = run_margins(&rt, &pairs, 400)?;
            let (plain, lanes, margins) = (plain.max(1), lanes.max(1), margins.max(1));
            println!(rt; "noisy {is_noisy}: plain {} ps a bit, {} kbit/s; lanes {} ps a bit, {} Mbit/s; ratio {}; margins {} ps a bit, {} Mbit/s", plain / 30, 30_000_000_000 / plain, lanes / 30, 30_000_000 / lanes, plain / lanes, margins / 30, 30_000_000 / margins)?;
        }
    }
    Ok(())
}
END
cat > proofs/load/Invariants.antt <<'END'
use Rattle.std.proofs.Common.{◌≡◌, ◌+◌, length}
use Rattle.bench_inner.proofs.load.Given as goal

abbrev pub invariant-loop-k : goal.invariant-loop-k
invariant-loop-k g l = (l.branch.decoder ≡ l.initial.branch.decoder) × (l.branch.most ≡ l.initial.branch.most) × (l.branch.wait ≡ l.initial.branch.wait) × (length l.branch.loaded ≡ length l.initial.branch.loaded + l.k)
END
cat > proofs/drain/Invariants.antt <<'END'
use Rattle.std.proofs.Common.{◌≡◌, ◌+◌, length}
use Rattle.bench_inner.proofs.drain.Given as goal

abbrev pub invariant-loop-k : goal.invariant-loop-k
invariant-loop-k g l = (l.branch.decoder ≡ l.initial.branch.decoder) × (l.branch.most ≡ l.initial.branch.most) × (l.branch.loaded ≡ l.initial.branch.loaded)
END
cat > proofs/run/Invariants.antt <<'END'
use Rattle.std.proofs.Common.{◌≡◌, ◌+◌, ◌*◌, ◌≤◌, length, []}
use Rattle.std.specs.Prelude.{false}
use Rattle.bench_inner.proofs.run.Given as goal

abbrev pub invariant-loop-k : goal.invariant-loop-k
invariant-loop-k g l = (l.branch.most ≡ 30000) × (l.branch.loaded ≡ []) × (l.branch.decoder.ended ≡ false) × (l.branch.decoder.steps ≤ 30000 * l._k)
END
for name in push_all run_margins; do
  cat > "proofs/$name/Invariants.antt" <<END
use Rattle.std.proofs.Common.{◌≡◌, ◌<◌, length}
use Rattle.std.specs.Prelude.{false, vec_len, vec_capacity}
use Rattle.bench_inner.proofs.$name.Given as goal

abbrev pub invariant-loop-k : goal.invariant-loop-k
invariant-loop-k l = record {
  going : l.margins.ended ≡ false;
  room : length l.margins.waiting < 1280;
  empty : vec_len l.to ≡ 0;
  spare : vec_capacity l.to ≡ 1024;
}
END
done
cat > proofs/Lib.antt <<'END'

END
rt run "$@" 2>&1 | grep -E '^(noisy|sum)|error|no proof|not-proved' 
