#!/usr/bin/env bash
# What drawing on a tile costs, beside loops written by hand in C with SSE2 in the same run: one colour that is put or
# blended on a whole tile, and on narrow columns of it. It wants gcc. The program of our side is made and proved in a
# temporary folder, or in the folder that is given, where the copy of ev_draw makes public what is measured.
set -eu
top="$(cd "$(dirname "$0")/.." && pwd)"
. "$top/bench/crates.sh"
folder_for_run "$@"
copy_crates ev_argb ev_geom ev_region ev_state ev_model ev_fill ev_text ev_areas ev_cmds ev_draw
sed -i 's/pub(crate) fn put_solid/pub fn put_solid/' "$made/crates/ev_draw/src/solid.rt"
echo 'pub use solid::put_solid;' >>"$made/crates/ev_draw/src/lib.rt"
mkdir -p "$made/crates/bench_tiles/src" "$made/crates/bench_tiles/proofs/one"
echo 'bench_tiles: ev_argb ev_model ev_cmds ev_draw anyhow' >>"$made/crates.txt"
cat >"$made/crates/bench_tiles/proofs/one/Invariants.antt" <<'END_OF_PROOF'
use Rattle.std.proofs.Common.{◌≡◌}
use Rattle.bench_tiles.proofs.one.Given as goal

abbrev pub invariant-loop : goal.invariant-loop
invariant-loop g l = (l.plane.w ≡ 64) × (l.plane.h ≡ 64)
END_OF_PROOF
cat >"$made/crates/bench_tiles/src/main.rt" <<'END_OF_PROGRAM'
//! What drawing on a tile costs.
#![tactic(auto)]

ghost use Rattle.std.specs.Prelude.{◌≡◌, ◌≤◌, ◌<◌};
ghost use Rattle.ev_cmds.specs.Patches.{IsPatch};

use anyhow::Result;
use ev_argb::{Pixel, Plane};
use ev_cmds::Patch;
use ev_draw::put_solid;
use ev_model::Op;
use std::rt::Clock;
use std::time::Instant;

// A plane of 64 by 64 pixels takes billions of spans before its count is full.
#[inline(never)]
fn paint(patch: Patch, op: Op, color: Pixel, plane: &mut Plane)
    requires patch { IsPatch patch }
    requires wide { plane.old.w ≡ 64 }
    requires high { plane.old.h ≡ 64 }
    ensures wide { plane.new.w ≡ 64 }
    ensures high { plane.new.h ≡ 64 }
{
    if plane.painted() < 1 << 60 {
        put_solid(patch, op, color, plane);
    }
}

// One colour on a patch of a tile.
fn one<R: Clock + AllocGlobal + Print>(rt: &R, name: &str, patch: Patch, op: Op, color: Pixel) -> Result<()>
    requires { IsPatch patch }
{
    let mut plane = Plane::new(rt.alloc(), 64, 64)?;
    let mut least = u128::MAX;
    for _ in 0..20000u32 {
        let start = Instant::now(rt)?;
        paint(patch, op, color, &mut plane);
        least = least.min(start.elapsed(rt)?.as_nanos());
    }
    println!(rt; "{name} {least}")?;
    Ok(())
}

// All rows of a tile, from one column to before another.
fn columns(left: u8, right: u8) -> Patch
    requires some { left < right }
    requires tile { right ≤ 64 }
    ensures { IsPatch result }
{
    Patch {
        left,
        right,
        top: 0,
        bottom: 64,
    }
}

fn run<R: Clock + AllocGlobal + Print>(rt: &R) -> Result<()> {
    let solid = Pixel::new(0xff, 0x20, 0x40, 0x60);
    let glass = Pixel::new(0x80, 0x30, 0x20, 0x10);
    one(rt, "solid_64", columns(0, 64), Op::Copy, solid)?;
    one(rt, "blend_64", columns(0, 64), Op::Blend, glass)?;
    one(rt, "solid_16", columns(9, 25), Op::Copy, solid)?;
    one(rt, "blend_16", columns(9, 25), Op::Blend, glass)?;
    one(rt, "solid_8", columns(9, 17), Op::Copy, solid)?;
    one(rt, "blend_8", columns(9, 17), Op::Blend, glass)?;
    Ok(())
}

fn main(rt: HostRuntime) -> Result<()> {
    run(&rt)
}
END_OF_PROGRAM
gcc -O3 -msse2 -Wall -Wextra -o "$made/by_hand" "$top/bench/tiles.c"
run_program bench_tiles "$made/ours.txt"
"$made/by_hand" >"$made/by_hand.txt"
echo "processors: $(nproc), wanted by $(cut -d' ' -f1 /proc/loadavg) processes in the last minute"
printf '%-12s %14s %14s %8s\n' case 'ns a pixel' 'by hand' ratio
awk 'NR == FNR { least[$1] = $2; pixels[$1] = $3; next }
    { printf "%-12s %14.3f %14.3f %8.2f\n", $1, $2 / pixels[$1], least[$1] / pixels[$1], $2 / least[$1] }' "$made/by_hand.txt" "$made/ours.txt"
