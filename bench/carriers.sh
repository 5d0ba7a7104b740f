#!/usr/bin/env bash
# Times `carrier` and `kind` (8K), a symbol's labels to bytes (8K, 64-QAM) and its bytes to cells, the latter by pieces of
# 1,880 bytes. Makes a scratch repository of the crates, proves and builds a program for each there by LLVM, and runs
# them. Prints processor nanoseconds a call, and microseconds and megabytes of cells a symbol and second.
# usage: bench/carriers.sh [FOLDER]
set -eu
top=$(cd "$(dirname "$0")/.." && pwd)
to=${1:-$(mktemp -d)}
. "$top/bench/scratch.sh"
copy_crates "$top" "$to" mode_set qam_map pilots frame_build
program() { # name, dependencies; the program on standard input
  mkdir -p "$to/crates/$1/src"
  cat > "$to/crates/$1/src/main.rt"
  echo "$1: $2" >> "$to/crates.txt"
}
program bench_carrier "pilots mode_set" <<'END'
#![tactic(auto)]
use mode_set::Mode;
use pilots::carrier;
use std::io;
use std::rt::HostRuntime;
fn main(rt: HostRuntime) -> io::Result<()> {
    let mut sum = 0u64;
    for _ in 0..400u32 {
        for l in 0..68u8 {
            for q in 0..6048u32 {
                sum = sum.wrapping_add(u64::from(carrier(Mode::M8k, l, q)));
            }
        }
    }
    println!(&rt; "{sum}")
}
END
program bench_kind "pilots mode_set" <<'END'
#![tactic(auto)]
use mode_set::Mode;
use pilots::{CarrierKind, kind};
use std::io;
use std::rt::HostRuntime;
fn main(rt: HostRuntime) -> io::Result<()> {
    let mut sum = 0u64;
    for _ in 0..400u32 {
        for l in 0..68u8 {
            for k in 0..6817u32 {
                if let CarrierKind::Payload(q) = kind(Mode::M8k, l, k) {
                    sum = sum.wrapping_add(u64::from(q));
                }
            }
        }
    }
    println!(&rt; "{sum}")
}
END
program bench_symbol_in "frame_build mode_set qam_map anyhow" <<'END'
#![tactic(auto)]
use frame_build::SymbolIn;
use mode_set::Mode8k;
use std::rt::HostRuntime;
fn main(rt: HostRuntime) -> anyhow::Result<()> {
    let alloc = rt.alloc();
    let bytes = vec![in alloc; 0x12u8; 34085]?;
    let mut symbol = SymbolIn::<Mode8k>::new(alloc)?;
    let mut sum = 0u64;
    for count in 0..4000u32 {
        for piece in bytes.chunks(1880) {
            if !symbol.whole() {
                sum = sum.wrapping_add(symbol.take(piece) as u64);
            }
        }
        if symbol.whole() {
            sum = sum.wrapping_add(u64::from(symbol.cells()[count as usize].re.unsigned_abs()));
            symbol.next();
        }
    }
    println!(&rt; "{sum}")?;
    Ok(())
}
END
program bench_symbol_out "frame_build mode_set qam_map anyhow" <<'END'
#![tactic(auto)]
ghost use Rattle.std.specs.Prelude.{ℕ, ◌<◌, get_or};
use frame_build::SymbolOut;
use mode_set::{Guard, Hierarchy, Mode, Mode8k, Plan, Rate, Settings, Shape, Start};
use std::rt::HostRuntime;
fn labels() -> [u8; 6048]
    ensures { (q : ℕ) → q < 6048 → get_or result q 0 < 64 }
{
    [5; 6048]
}
fn main(rt: HostRuntime) -> anyhow::Result<()> {
    let alloc = rt.alloc();
    let settings = Settings {
        mode: Mode::M8k,
        shape: Shape::Qam64,
        hierarchy: Hierarchy::Flat,
        rate_hp: Rate::R2of3,
        rate_lp: None,
        guard: Guard::G1of32,
        cell_id: None,
        start: Start::Zero,
        workers: 1,
        max_symbols: 1000000,
        plan: Plan::none(),
    };
    let labels = labels();
    let entry = settings.top();
    let mut out = SymbolOut::<Mode8k>::new(&settings);
    let mut sum = 0u64;
    for _ in 0..4000u32 {
        let mut bytes = Vec::with_capacity(alloc, 34085)?;
        out.write(&entry, &entry, &labels, &mut bytes);
        sum = sum.wrapping_add(bytes.len() as u64);
    }
    println!(&rt; "{sum}")?;
    Ok(())
}
END
mkdir -p "$to/crates/bench_symbol_out/proofs/labels" "$to/crates/bench_symbol_out/proofs/main"
: > "$to/crates/bench_symbol_out/proofs/Lib.antt"
cat > "$to/crates/bench_symbol_out/proofs/labels/Answers.antt" <<'END'
use Rattle.std.proofs.Common.{ℕ, ◌<◌, arith, get_or, replicate}
use Rattle.std.proofs.lemmas.List.{get_or-replicate}
use Rattle.bench_symbol_out.proofs.labels.Goals as goal

small : (n q : ℕ) → q < n → get_or (replicate n 5) q 0 < 64
small n q l = omega (arith, get_or-replicate {A = ℕ} n q 5 0 l)

pub returns : goal.returns
returns c = small 6048
END
cat > "$to/crates/bench_symbol_out/proofs/main/Invariants.antt" <<'END'
use Rattle.std.proofs.Common.{◌≡◌}
use Rattle.bench_symbol_out.proofs.main.Given as goal

abbrev pub invariant-loop : goal.invariant-loop
invariant-loop l = l.out.settings ≡ l.initial.out.settings
END
for name in bench_carrier bench_kind bench_symbol_in bench_symbol_out; do
  (cd "$to/crates/$name" && rt run > "$to/$name.log" 2>&1 || { grep -v '^statements\|^logic ' "$to/$name.log" | tail -20; exit 1; })
done
python3 - "$to" <<'PY'
import resource, subprocess, sys
to = sys.argv[1]
rows = (("carrier", 400 * 68 * 6048, 1e9, "ns a call"), ("kind", 400 * 68 * 6817, 1e9, "ns a call"),
        ("symbol_in", 4000, 1e6, "µs a symbol"), ("symbol_out", 4000, 1e6, "µs a symbol"))
for name, calls, scale, unit in rows:
    best = None
    for _ in range(3):
        before = resource.getrusage(resource.RUSAGE_CHILDREN).ru_utime
        subprocess.run([f"{to}/crates/bench_{name}/out/bench_{name}"], check=True, stdout=subprocess.DEVNULL)
        spent = resource.getrusage(resource.RUSAGE_CHILDREN).ru_utime - before
        best = spent if best is None else min(best, spent)
    print(f"{name:10} {best / calls * scale:.2f} {unit}" + (f", {34085 * calls / best / 1e6:.0f} MB/s" if unit == "µs a symbol" else ""))
PY
