#!/usr/bin/env bash
# What a frame costs besides its pixels where one of many objects moved: the capture, the damage and the updates,
# beside the same by hand in C over pixman's regions in the same run. It wants gcc and libpixman-1-dev. The program of
# our side is made and proved in a temporary folder, or in the folder that is given.
set -eu
top="$(cd "$(dirname "$0")/.." && pwd)"
. "$top/bench/crates.sh"
folder_for_run "$@"
copy_crates ev_argb ev_geom ev_region ev_state ev_model ev_slots ev_stack ev_links ev_sights ev_groups ev_damage ev_scene
crate="$made/crates/bench_frames"
mkdir -p "$crate/src" "$crate/proofs/touched"
echo 'bench_frames: ev_geom ev_model ev_region ev_damage ev_scene anyhow' >>"$made/crates.txt"
cat >"$crate/src/main.rt" <<'END'
//! What a frame costs besides its pixels.
#![tactic(auto)]

ghost use Rattle.std.specs.Prelude.{◌≤◌};
ghost use Rattle.ev_model.specs.Limits.{IsEdit};

use anyhow::{Context, Result, anyhow};
use ev_damage::between;
use ev_model::{Edit, Kind, Name};
use ev_region::Region;
use ev_scene::{Captured, SceneBox};
use std::alloc::Global;
use std::rt::Clock;
use std::time::Instant;

// The name of number n: a letter and four digits.
fn name(n: u32) -> Result<Name> {
    let digits = [n / 1000 % 10, n / 100 % 10, n / 10 % 10, n % 10];
    let mut text = [b'r'; 5];
    for k in 0..4usize {
        text[k + 1] = b'0' + (digits[k] % 10) as u8;
    }
    Name::read(&text).context("a name")
}

fn edit(scene: &mut SceneBox, edit: &Edit) -> Result<()>
    requires { IsEdit edit.now }
{
    match scene.edit(edit) {
        Ok(()) => Ok(()),
        Err(_) => Err(anyhow!("an edit is refused")),
    }
}

// So many rectangles of 16 by 16, in rows on a canvas of 1280 by 720.
fn filled(alloc: Global, count: u32) -> Result<SceneBox> {
    let mut scene = SceneBox::new(alloc)?;
    edit(&mut scene, &Edit::Size { w: 1280, h: 720 })?;
    for n in 0..count {
        let name = name(n)?;
        let kind = Kind::Rect;
        let x = i64::from(n % 70 * 18);
        let y = i64::from(n / 70 % 40 * 18);
        edit(&mut scene, &Edit::Make { name, kind })?;
        edit(&mut scene, &Edit::Move { name, x, y })?;
        edit(&mut scene, &Edit::Resize { name, w: 16, h: 16 })?;
        edit(&mut scene, &Edit::Color { name, r: 10, g: 20, b: 30, a: 255 })?;
        edit(&mut scene, &Edit::Show { name, on: true })?;
    }
    Ok(scene)
}

fn touched(alloc: Global, before: &Captured, now: &Captured) -> Result<Region> {
    Ok(between(alloc, before.records(), now.records())?)
}

// What the parts of a frame took, in ns.
#[derive(Clone, Copy)]
struct Times {
    capture: u128,
    damage: u128,
    updates: u128,
    drop: u128,
}

fn time_capture<R: Clock>(rt: &R, scene: &mut SceneBox, took: &mut Times) -> Result<Captured> {
    let start = Instant::now(rt)?;
    scene.list_order();
    let now = scene.capture()?;
    took.capture = start.elapsed(rt)?.as_nanos();
    Ok(now)
}

fn time_damage<R: Clock + AllocGlobal>(rt: &R, before: &Captured, now: &Captured, took: &mut Times) -> Result<Region> {
    let start = Instant::now(rt)?;
    let touched = touched(rt.alloc(), before, now)?;
    took.damage = start.elapsed(rt)?.as_nanos();
    Ok(touched)
}

fn time_updates<R: Clock>(rt: &R, touched: &Region, took: &mut Times) -> Result<()> {
    let start = Instant::now(rt)?;
    let cells = touched.snap(8, 1280, 720)?;
    let _ = cells.rects().len();
    took.updates = start.elapsed(rt)?.as_nanos();
    Ok(())
}

fn time_drop<R: Clock>(rt: &R, before: Captured, took: &mut Times) -> Result<()> {
    let start = Instant::now(rt)?;
    drop(before);
    took.drop = start.elapsed(rt)?.as_nanos();
    Ok(())
}

// A frame after the one before.
fn framed<R: Clock + AllocGlobal>(rt: &R, scene: &mut SceneBox, before: Captured, took: &mut Times) -> Result<Captured> {
    let now = time_capture(rt, scene, took)?;
    let touched = time_damage(rt, &before, &now, took)?;
    time_updates(rt, &touched, took)?;
    time_drop(rt, before, took)?;
    Ok(now)
}

fn keep_least(least: &mut Times, took: &Times) {
    least.capture = least.capture.min(took.capture);
    least.damage = least.damage.min(took.damage);
    least.updates = least.updates.min(took.updates);
    least.drop = least.drop.min(took.drop);
}

fn moved(scene: &mut SceneBox, n: u32) -> Result<()> {
    let name = name(n)?;
    edit(scene, &Edit::Move { name, x: i64::from(n % 700), y: 300 })
}

fn unmeasured() -> Times {
    Times {
        capture: u128::MAX,
        damage: u128::MAX,
        updates: u128::MAX,
        drop: u128::MAX,
    }
}

// Object n moves, and a frame follows. Keeps the least times of its parts.
fn round<R: Clock + AllocGlobal>(rt: &R, scene: &mut SceneBox, before: Captured, n: u32, least: &mut Times) -> Result<Captured> {
    moved(scene, n)?;
    let mut took = unmeasured();
    let now = framed(rt, scene, before, &mut took)?;
    keep_least(least, &took);
    Ok(now)
}

fn rounds<R: Clock + AllocGlobal>(rt: &R, scene: &mut SceneBox, count: u32, least: &mut Times) -> Result<()>
    requires { 1 ≤ count }
{
    let mut before = scene.capture()?;
    for n in 0..1000u32 {
        before = round(rt, scene, before, n % count, least)?;
    }
    drop(before);
    Ok(())
}

fn tell<R: Print>(rt: &R, count: u32, least: &Times) -> Result<()> {
    println!(rt; "{}_capture {}", count, least.capture)?;
    println!(rt; "{}_damage {}", count, least.damage)?;
    println!(rt; "{}_updates {}", count, least.updates)?;
    println!(rt; "{}_drop {}", count, least.drop)?;
    Ok(())
}

fn measure<R: Clock + AllocGlobal + Print>(rt: &R, count: u32) -> Result<()>
    requires { 1 ≤ count }
{
    let mut scene = filled(rt.alloc(), count)?;
    let mut least = unmeasured();
    rounds(rt, &mut scene, count, &mut least)?;
    tell(rt, count, &least)
}

fn main(rt: HostRuntime) -> Result<()> {
    measure(&rt, 20)?;
    measure(&rt, 200)?;
    measure(&rt, 2000)?;
    Ok(())
}
END
cat >"$crate/proofs/touched/Answers.antt" <<'END'
use Rattle.bench_frames.proofs.touched.Goals as goal

pub between-requires-clause-old_ids : goal.between-requires-clause-old_ids
between-requires-clause-old_ids c = rw c.records.ensures.value (record { differ = c.records.ensures.shot.apart })

pub between-requires-clause-new_ids : goal.between-requires-clause-new_ids
between-requires-clause-new_ids c = rw c.records-2.ensures.value (record { differ = c.records-2.ensures.shot.apart })
END
gcc -O2 -Wall -Wextra -o "$made/by_hand" "$top/bench/frames.c" $(pkg-config --cflags --libs pixman-1)
run_program bench_frames "$made/ours.txt"
"$made/by_hand" >"$made/by_hand.txt"
echo "processors: $(nproc), wanted by $(cut -d' ' -f1 /proc/loadavg) processes in the last minute"
printf '%-14s %10s %10s %7s\n' case ns 'by hand' ratio
awk 'NR == FNR { least[$1] = $2; next } { printf "%-14s %10d %10d %7.2f\n", $1, $2, least[$1], $2 / least[$1] }' "$made/by_hand.txt" "$made/ours.txt"
