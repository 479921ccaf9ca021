#!/usr/bin/env bash
# What operations of regions cost, beside the same ones of pixman's regions in the same run: ns of each side, and
# their ratio. It wants gcc and libpixman-1-dev. The program of our side is made and proved in a temporary folder.
set -eu
top="$(cd "$(dirname "$0")/.." && pwd)"
. "$top/bench/crates.sh"
folder_for_run "$@"
copy_crates ev_geom ev_region
crate="$made/crates/bench_region"
mkdir -p "$crate/src" "$crate/proofs/added"
echo 'bench_region: ev_geom ev_region anyhow' >>"$made/crates.txt"
cat >"$crate/src/main.rt" <<'END'
//! What operations of regions cost.
#![tactic(auto)]

use anyhow::Result;
use ev_geom::Rect;
use ev_region::Region;
use std::alloc::Global;
use std::rt::Clock;
use std::time::Instant;

fn rect(x: i64, y: i64, w: i64, h: i64) -> Rect {
    match Rect::new(x, y, w, h) {
        Some(rect) => rect,
        None => Rect::at_origin(1, 1),
    }
}

fn added(region: &mut Region, rect: &Rect) -> Result<()> {
    if 0 <= rect.x()
        && 0 <= rect.y()
        && rect.x() + rect.w() <= 100000
        && rect.y() + rect.h() <= 100000
    {
        region.add_rect(rect)?;
    }
    Ok(())
}

fn next(state: u64) -> u64 {
    state.wrapping_mul(6364136223846793005).wrapping_add(1442695040888963407)
}

// A place below 2000, or the beginning of one of 125 cells.
fn place(state: u64, in_cells: bool) -> i64 {
    let picked = state >> 33;
    if in_cells {
        (picked % 125 * 16) as i64
    } else {
        (picked % 2000) as i64
    }
}

fn scattered(alloc: Global, seed: u64, in_cells: bool, count: u64, w: i64, h: i64) -> Result<Region> {
    let mut region = Region::new(alloc);
    let mut state = seed;
    for _ in 0..count {
        state = next(state);
        let x = place(state, in_cells);
        state = next(state);
        let y = place(state, in_cells);
        added(&mut region, &rect(x, y, w, h))?;
    }
    Ok(region)
}

fn time_unite<R: Clock>(rt: &R, r: &mut Region, b: &Region) -> Result<u128> {
    let start = Instant::now(rt)?;
    r.unite(b)?;
    Ok(start.elapsed(rt)?.as_nanos())
}

fn time_cut<R: Clock>(rt: &R, r: &mut Region, b: &Region) -> Result<u128> {
    let start = Instant::now(rt)?;
    r.cut(b)?;
    Ok(start.elapsed(rt)?.as_nanos())
}

fn time_meet<R: Clock>(rt: &R, r: &mut Region, half: &Rect) -> Result<u128> {
    let start = Instant::now(rt)?;
    r.meet_rect(half)?;
    Ok(start.elapsed(rt)?.as_nanos())
}

fn least_unite<R: Clock>(rt: &R, r: &mut Region, b: &Region, rounds: u64) -> Result<u128> {
    let mut least = u128::MAX;
    for _ in 0..rounds {
        least = least.min(time_unite(rt, r, b)?);
        r.cut(b)?;
    }
    Ok(least)
}

fn least_cut<R: Clock>(rt: &R, r: &mut Region, b: &Region, rounds: u64) -> Result<u128> {
    let mut least = u128::MAX;
    for _ in 0..rounds {
        r.unite(b)?;
        least = least.min(time_cut(rt, r, b)?);
    }
    Ok(least)
}

fn pairs<R: Clock + Print>(rt: &R, name: &str, r: &mut Region, b: &Region, rounds: u64) -> Result<()> {
    let union = least_unite(rt, r, b, rounds)?;
    println!(rt; "{name}_union {union}")?;
    let difference = least_cut(rt, r, b, rounds)?;
    println!(rt; "{name}_difference {difference}")?;
    Ok(())
}

fn sets<R: Clock + AllocGlobal + Print>(rt: &R, name: &str, in_cells: bool, count: u64, w: i64, h: i64, rounds: u64) -> Result<()> {
    let mut r = scattered(rt.alloc(), 1, in_cells, count, w, h)?;
    let b = scattered(rt.alloc(), 2, in_cells, count, w, h)?;
    pairs(rt, name, &mut r, &b, rounds)?;
    parts(rt, name, &r, rounds)
}

fn parts<R: Clock + AllocGlobal + Print>(rt: &R, name: &str, r: &Region, rounds: u64) -> Result<()> {
    let half = rect(500, 500, 1000, 1000);
    let mut meet = u128::MAX;
    let mut m = r.copied()?;
    for _ in 0..rounds {
        m.unite(r)?;
        meet = meet.min(time_meet(rt, &mut m, &half)?);
    }
    println!(rt; "{name}_part {meet}")?;
    Ok(())
}

fn time_adds<R: Clock>(rt: &R, r: &mut Region, one: &Rect) -> Result<u128> {
    let start = Instant::now(rt)?;
    for _ in 0..100u32 {
        added(r, one)?;
        r.cut_rect(one)?;
    }
    Ok(start.elapsed(rt)?.as_nanos())
}

fn adds<R: Clock + AllocGlobal + Print>(rt: &R, name: &str, count: u64, at: i64, rounds: u64) -> Result<()> {
    let mut r = scattered(rt.alloc(), 1, true, count, 16, 16)?;
    let one = rect(at, at, 16, 16);
    let mut add = u128::MAX;
    for _ in 0..rounds {
        add = add.min(time_adds(rt, &mut r, &one)?);
    }
    println!(rt; "{name} {add}")?;
    Ok(())
}

// Rows of rectangles, each below the one before.
fn time_rows<R: Clock>(rt: &R, r: &mut Region, rects: &[Rect]) -> Result<u128> {
    let start = Instant::now(rt)?;
    for one in rects {
        added(r, one)?;
    }
    Ok(start.elapsed(rt)?.as_nanos())
}

fn downwards(alloc: Global, count: u32) -> Result<Vec<Rect>> {
    let mut rects = Vec::new(alloc);
    for k in 0..count {
        let k = i64::from(k);
        rects.push(rect(k % 21 * 3, k * 8, 16, 6))?;
    }
    Ok(rects)
}

fn rows<R: Clock + AllocGlobal + Print>(rt: &R, name: &str, count: u32, rounds: u64) -> Result<()> {
    let mut r = Region::new(rt.alloc());
    let rects = downwards(rt.alloc(), count)?;
    let all = rect(0, 0, 9000, 9000);
    let mut add = u128::MAX;
    for _ in 0..rounds {
        add = add.min(time_rows(rt, &mut r, &rects)?);
        r.cut_rect(&all)?;
    }
    println!(rt; "{name} {add}")?;
    Ok(())
}

fn main(rt: HostRuntime) -> Result<()> {
    sets(&rt, "scattered_10", false, 10, 16, 16, 2000)?;
    sets(&rt, "scattered_100", false, 100, 16, 16, 1000)?;
    sets(&rt, "scattered_1000", false, 1000, 16, 16, 100)?;
    sets(&rt, "cells_100", true, 100, 16, 16, 1000)?;
    sets(&rt, "cells_1000", true, 1000, 16, 16, 200)?;
    sets(&rt, "large_10", false, 10, 200, 150, 2000)?;
    adds(&rt, "add_to_0", 0, 320, 100)?;
    adds(&rt, "add_to_1", 1, 320, 100)?;
    adds(&rt, "add_to_4", 4, 320, 100)?;
    adds(&rt, "add_to_16", 16, 320, 100)?;
    adds(&rt, "add_to_100", 100, 320, 100)?;
    adds(&rt, "add_to_1000", 1000, 320, 20)?;
    adds(&rt, "add_below_1000", 1000, 2100, 20)?;
    rows(&rt, "add_4_downwards", 4, 100)?;
    rows(&rt, "add_100_downwards", 100, 100)?;
    rows(&rt, "add_1000_downwards", 1000, 10)?;
    Ok(())
}
END
cat >"$crate/proofs/added/Answers.antt" <<'END'
use Rattle.std.proofs.Common.{arith}
use Rattle.std.proofs.lemmas.Int.{ints}
use Rattle.bench_region.proofs.added.Goals as goal

pub add_rect-requires : goal.add_rect-requires
add_rect-requires c = λ wide high. record {
  left = omega (arith, ints);
  top = omega (arith, ints);
  right = omega (arith, ints);
  bottom = omega (arith, ints);
}
END
gcc -O2 -o "$made/pixman" "$top/bench/regions.c" $(pkg-config --cflags --libs pixman-1)
run_program bench_region "$made/ours.txt"
"$made/pixman" >"$made/theirs.txt"
awk 'NR == FNR { theirs[$1] = $2; next } $1 in theirs { printf "%-28s %9d ns %9d ns %6.2f\n", $1, $2, theirs[$1], $2 / (theirs[$1] > 0 ? theirs[$1] : 1) }' "$made/theirs.txt" "$made/ours.txt"
