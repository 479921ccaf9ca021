#!/usr/bin/env bash
# What the commands of a frame cost: of a few cells and of the whole canvas, among many records, beside the same by hand
# in C in the same run. Which records meet the work region is found by a pass over packed areas and counts on both
# sides. It wants gcc. The program of our side is made and proved in a temporary folder, or in the folder that is given.
set -eu
top="$(cd "$(dirname "$0")/.." && pwd)"
. "$top/bench/crates.sh"
folder_for_run "$@"
copy_crates ev_argb ev_geom ev_region ev_state ev_model ev_fill ev_areas ev_cmds
crate="$made/crates/bench_commands"
mkdir -p "$crate/src" "$crate/proofs/record" "$crate/proofs/all_thrown" "$crate/proofs/push_near" "$crate/proofs/keep" "$crate/proofs/push_one"
echo 'bench_commands: ev_argb ev_geom ev_region ev_state ev_model ev_areas ev_cmds anyhow' >>"$made/crates.txt"
cat >"$crate/proofs/record/Answers.antt" <<'END'
use Rattle.std.proofs.Common.{◌≡◌, pos, ap, sym, ◌∙◌, subst, arith}
use Rattle.std.proofs.lemmas.Int.{ints}
use Rattle.ev_geom.specs.Area.{Area}
use Rattle.ev_model.specs.Capture.{IsInside}
use Rattle.ev_model.specs.Limits.{IsObject}
use Rattle.ev_model.specs.Stage.{canvas_on}
use Rattle.ev_model.specs.declared.object.Object.{Object}
use Rattle.bench_commands.proofs.record.Goals as goal

pub returns : goal.returns
returns c =
    let area = c.area_at-area.ensures in
    let inside : IsInside (canvas_on 1920 1080) c.area_at-area.result = subst (λ a. IsInside (canvas_on 1920 1080) a) (sym area) (record {
      left = omega (arith, ints);
      top = omega (arith, ints);
      right = omega (arith, ints, c.requires.right);
      bottom = omega (arith, ints, c.requires.bottom);
    }) in
    let same = ap (λ s. s.value) (c.in_ok-object.ensures).ok in
    record {
      wide = omega (arith, ints, ap (λ (a : Area). a.w) area, c.requires.wide);
      high = omega (arith, ints, ap (λ (a : Area). a.h) area, c.requires.high);
      canvas = inside;
      rect = subst (λ (o : Object). IsInside o.rect c.area_at-area.result) (sym same) (record {
        left = omega (arith, ints);
        top = omega (arith, ints);
        right = omega (arith, ints);
        bottom = omega (arith, ints);
      });
      limits = subst IsObject (sym same) (record { layer_low = omega (arith, ints); layer_high = omega (arith, ints); content = tt });
    }
END
cat >"$crate/proofs/all_thrown/Invariants.antt" <<'END'
use Rattle.std.proofs.Common.{All}
use Rattle.ev_model.specs.Capture.{IsLookOn}
use Rattle.ev_model.specs.Look.{look_of}
use Rattle.bench_commands.proofs.all_thrown.Given as goal

abbrev pub invariant-loop : goal.invariant-loop
invariant-loop l = All (λ r. IsLookOn 1920 1080 (look_of r)) l.records.items
END
cat >"$crate/proofs/push_near/Invariants.antt" <<'END'
use Rattle.std.proofs.Common.{All}
use Rattle.ev_model.specs.Capture.{IsLookOn}
use Rattle.ev_model.specs.Look.{look_of}
use Rattle.bench_commands.proofs.push_near.Given as goal

abbrev pub invariant-loop-place : goal.invariant-loop-place
invariant-loop-place l = All (λ r. IsLookOn 1920 1080 (look_of r.now)) l.near.items
END
cat >"$crate/proofs/keep/Answers.antt" <<'END'
use Rattle.std.proofs.Common.{List, Bor, All, subst, sym}
use Rattle.std.proofs.lemmas.List.Elements.{All-push}
use Rattle.ev_model.specs.Capture.{IsLookOn}
use Rattle.ev_model.specs.Look.{look_of}
use Rattle.ev_model.specs.declared.scene.Record.{Record}
use Rattle.bench_commands.proofs.keep.Goals as goal

pub returns : goal.returns
returns c =
    subst (λ (records : List (Record)). All (λ r. IsLookOn 1920 1080 (look_of r)) records) (sym c.in_ok-push.ensures.items)
    (All-push (λ r. IsLookOn 1920 1080 (look_of r)) c.args.records.now.items c.args.one c.requires.records c.requires.look)
END
cat >"$crate/proofs/push_one/Answers.antt" <<'END'
use Rattle.std.proofs.Common.{List, Bor, All, subst, sym}
use Rattle.std.proofs.lemmas.List.Elements.{All-push}
use Rattle.ev_model.specs.Capture.{IsLookOn}
use Rattle.ev_model.specs.Look.{look_of}
use Rattle.ev_model.specs.declared.scene.Record.{Record}
use Rattle.bench_commands.proofs.push_one.Goals as goal

pub returns : goal.returns
returns c =
    subst (λ (records : List (Bor Record)). All (λ r. IsLookOn 1920 1080 (look_of r.now)) records) (sym c.in_ok-push.ensures.items)
    (All-push (λ r. IsLookOn 1920 1080 (look_of r.now)) c.args.near.now.items c.args.one c.requires.near c.requires.look)
END
cat >"$crate/src/main.rt" <<'END'
//! What the commands of a frame cost.
#![tactic(auto)]

ghost use Rattle.std.specs.Prelude.{◌≡◌, ◌+◌, ◌≤◌, ◌<◌, pos, All, IfOk, OnOk, length};
ghost use Rattle.ev_geom.specs.Bands.{has_pixel, FitsRegion};
ghost use Rattle.ev_region.specs.Count.{LiesWithin};
ghost use Rattle.ev_model.specs.Capture.{IsLookOn};
ghost use Rattle.ev_model.specs.Look.{look_of};

use anyhow::{Context, Result, anyhow};
use ev_areas::{Edges, PackedArea, around, push_meeting};
use ev_argb::Pixel;
use ev_cmds::{Command, Commands};
use ev_geom::Rect;
use ev_model::{Content, Name, Object, Op, Record};
use ev_region::Region;
use ev_state::{Shared, Tally};
use std::alloc::Global;
use std::rt::Clock;
use std::time::Instant;

const W: u32 = 1920;
const H: u32 = 1080;

// Numbers that look thrown.
#[derive(Drop)]
struct Dice {
    state: u32,
}

impl Dice {
    fn below(&mut self, limit: u32) -> u32
        requires { 0 < limit }
        ensures { result < limit }
    {
        self.state ^= self.state << 13;
        self.state ^= self.state >> 17;
        self.state ^= self.state << 5;
        self.state % limit
    }
}

// A rectangle on the canvas.
fn area_at(x: u32, y: u32, w: u32, h: u32) -> Rect
    requires right { x + w ≤ 1920 }
    requires bottom { y + h ≤ 1080 }
    ensures { result ≡ record { x = pos x; y = pos y; w = pos w; h = pos h } }
{
    Rect::at_origin(w, h).placed(i64::from(x), i64::from(y))
}

// The record of a rectangle in one colour.
fn record(alloc: Global, name: Name, color: Pixel, x: u32, y: u32, w: u32, h: u32) -> Result<Record>
    requires right { x + w ≤ 1920 }
    requires bottom { y + h ≤ 1080 }
    requires wide { 0 < w }
    requires high { 0 < h }
    ensures { IfOk result (λ r. IsLookOn 1920 1080 (look_of r)) }
{
    let area = area_at(x, y, w, h);
    let mut tally = Tally::new();
    let object = Object {
        id: 1,
        name,
        rect: area,
        shown: true,
        color,
        op: Op::Blend,
        layer: 0,
        clipper: None,
        parent: None,
        content: Content::Rect,
    };
    let object = Shared::make(alloc, object, &mut tally)?;
    Ok(Record {
        id: 1,
        area,
        color,
        object,
    })
}

fn thrown(alloc: Global, dice: &mut Dice, name: Name, least: u32, spread: u32, opaque: u32) -> Result<Record>
    requires least { 0 < least }
    requires most { least + spread ≤ 100 }
    requires spread { 0 < spread }
    ensures { IfOk result (λ r. IsLookOn 1920 1080 (look_of r)) }
{
    let w = least + dice.below(spread);
    let h = least + dice.below(spread);
    let x = dice.below(W - w);
    let y = dice.below(H - h);
    let alpha = if dice.below(100) < opaque { 0xff } else { 0x80 };
    record(alloc, name, Pixel::new(alpha, 0x10, 0x20, 0x30), x, y, w, h)
}

fn all_thrown(alloc: Global, name: Name, count: u32, least: u32, spread: u32, opaque: u32) -> Result<Vec<Record>>
    requires least { 0 < least }
    requires most { least + spread ≤ 100 }
    requires spread { 0 < spread }
    ensures { IfOk result (λ records. All (λ r. IsLookOn 1920 1080 (look_of r)) records.items) }
{
    let mut dice = Dice { state: 1 };
    let mut records = Vec::new(alloc);
    for _ in 0..count {
        let one = thrown(alloc, &mut dice, name, least, spread, opaque)?;
        keep(one, &mut records)?;
    }
    Ok(records)
}

fn keep(one: Record, records: &mut Vec<Record>) -> Result<()>
    requires look { IsLookOn 1920 1080 (look_of one) }
    requires records { All (λ r. IsLookOn 1920 1080 (look_of r)) records.old.items }
    ensures { OnOk result (All (λ r. IsLookOn 1920 1080 (look_of r)) records.new.items) }
{
    records.push(one)?;
    Ok(())
}

fn all_packed(alloc: Global, records: &[Record]) -> Result<Vec<PackedArea>> {
    let mut areas = Vec::new(alloc);
    for one in records {
        areas.push(PackedArea::of(&Edges::of(&one.area, W, H)))?;
    }
    Ok(areas)
}

// The records at these places.
fn push_near<'a>(records: &'a [Record], found: &[usize], near: &mut Vec<&'a Record>) -> Result<()>
    requires records { All (λ r. IsLookOn 1920 1080 (look_of r)) records.now }
    requires near { All (λ r. IsLookOn 1920 1080 (look_of r.now)) near.old.items }
    ensures { OnOk result (All (λ r. IsLookOn 1920 1080 (look_of r.now)) near.new.items) }
{
    for place in found {
        push_at(records, *place, near)?;
    }
    Ok(())
}

// The record at a place, if there is one.
fn push_at<'a>(records: &'a [Record], place: usize, near: &mut Vec<&'a Record>) -> Result<()>
    requires records { All (λ r. IsLookOn 1920 1080 (look_of r)) records.now }
    requires near { All (λ r. IsLookOn 1920 1080 (look_of r.now)) near.old.items }
    ensures { OnOk result (All (λ r. IsLookOn 1920 1080 (look_of r.now)) near.new.items) }
{
    match records.get(place) {
        Some(one) => push_one(one, near),
        None => Ok(()),
    }
}

fn push_one<'a>(one: &'a Record, near: &mut Vec<&'a Record>) -> Result<()>
    requires look { IsLookOn 1920 1080 (look_of one.now) }
    requires near { All (λ r. IsLookOn 1920 1080 (look_of r.now)) near.old.items }
    ensures { OnOk result (All (λ r. IsLookOn 1920 1080 (look_of r.now)) near.new.items) }
{
    near.push(one)?;
    Ok(())
}

fn cut(
    alloc: Global,
    records: &[Record],
    areas: &[PackedArea],
    work: &Region,
    found: &mut Vec<usize>,
) -> Result<Commands>
    requires records { All (λ r. IsLookOn 1920 1080 (look_of r)) records.now }
    requires work { LiesWithin 1920 1080 (has_pixel work.now) }
{
    found.clear();
    push_meeting(areas, PackedArea::of(&around(work.rects(), W, H)), found)?;
    let mut near = Vec::with_capacity(alloc, found.len())?;
    push_near(records, found, &mut near)?;
    if near.len() > 65536 {
        return Err(anyhow!("too many records"));
    }
    Ok(Commands::build(alloc, &near, work, W, H)?)
}

// How many commands there are, and how many pixels they paint.
fn sums(commands: &Commands) -> (u64, u64) {
    let mut count = 0u64;
    let mut pixels = 0u64;
    for k in 0..commands.tiles() {
        for one in &commands.for_tile(k).sheet.commands {
            count = count.saturating_add(1);
            pixels = pixels.saturating_add(size(one));
        }
    }
    (count, pixels)
}

fn size(one: &Command) -> u64 {
    let wide = u64::from(one.patch.right.saturating_sub(one.patch.left));
    wide * u64::from(one.patch.bottom.saturating_sub(one.patch.top))
}

// What one round took, in nanoseconds, with the sums of its commands.
#[derive(Drop)]
struct Round {
    took: u128,
    commands: u64,
    pixels: u64,
}

fn one_round<R: Clock + AllocGlobal>(
    rt: &R,
    records: &[Record],
    areas: &[PackedArea],
    work: &Region,
    found: &mut Vec<usize>,
) -> Result<Round>
    requires records { All (λ r. IsLookOn 1920 1080 (look_of r)) records.now }
    requires work { LiesWithin 1920 1080 (has_pixel work.now) }
{
    let start = Instant::now(rt)?;
    let commands = cut(rt.alloc(), records, areas, work, found)?;
    let took = start.elapsed(rt)?.as_nanos();
    let (commands, pixels) = sums(&commands);
    Ok(Round {
        took,
        commands,
        pixels,
    })
}

// The quickest of several rounds.
fn quickest<R: Clock + AllocGlobal>(rt: &R, rounds: u32, records: &[Record], work: &Region) -> Result<Round>
    requires records { All (λ r. IsLookOn 1920 1080 (look_of r)) records.now }
    requires work { LiesWithin 1920 1080 (has_pixel work.now) }
{
    let areas = all_packed(rt.alloc(), records)?;
    let mut found = Vec::new(rt.alloc());
    let mut best = one_round(rt, records, &areas, work, &mut found)?;
    for _ in 0..rounds {
        let next = one_round(rt, records, &areas, work, &mut found)?;
        if next.took < best.took {
            best = next;
        }
    }
    Ok(best)
}

fn measure<R: Clock + AllocGlobal + Print>(
    rt: &R,
    name: &str,
    rounds: u32,
    records: &[Record],
    work: &Region,
) -> Result<()>
    requires records { All (λ r. IsLookOn 1920 1080 (look_of r)) records.now }
    requires work { LiesWithin 1920 1080 (has_pixel work.now) }
{
    let best = quickest(rt, rounds, records, work)?;
    println!(rt; "{name} {} {} {}", best.took, best.commands, best.pixels)?;
    Ok(())
}

// The pixels of two rectangles.
fn region(alloc: Global, first: &Rect, second: &Rect) -> Result<Region>
    requires first { FitsRegion first.now }
    requires second { FitsRegion second.now }
    ensures { IfOk result (λ work. LiesWithin 1920 1080 (has_pixel work)) }
{
    let mut work = Region::new(alloc);
    work.add_rect(first)?;
    work.add_rect(second)?;
    work.meet_rect(&Rect::at_origin(W, H))?;
    Ok(work)
}

fn few_cells(alloc: Global) -> Result<Region>
    ensures { IfOk result (λ work. LiesWithin 1920 1080 (has_pixel work)) }
{
    region(alloc, &area_at(600, 400, 24, 16), &area_at(600, 416, 16, 8))
}

fn whole(alloc: Global) -> Result<Region>
    ensures { IfOk result (λ work. LiesWithin 1920 1080 (has_pixel work)) }
{
    region(alloc, &area_at(0, 0, W, H), &area_at(0, 0, W, H))
}

// Of so many rectangles, 16 to 64 wide and high, of which so many in a hundred are opaque.
fn small<R: Clock + AllocGlobal + Print>(
    rt: &R,
    name: &str,
    rounds: u32,
    count: u32,
    opaque: u32,
    work: &Region,
) -> Result<()>
    requires work { LiesWithin 1920 1080 (has_pixel work.now) }
{
    let object = Name::read(b"o").context("a name")?;
    let records = all_thrown(rt.alloc(), object, count, 16, 49, opaque)?;
    measure(rt, name, rounds, &records, work)
}

// Of opaque ones, 1 to 6 wide and high.
fn tiny<R: Clock + AllocGlobal + Print>(rt: &R, name: &str, work: &Region) -> Result<()>
    requires work { LiesWithin 1920 1080 (has_pixel work.now) }
{
    let object = Name::read(b"o").context("a name")?;
    let records = all_thrown(rt.alloc(), object, 65536, 1, 6, 100)?;
    measure(rt, name, 50, &records, work)
}

fn run<R: Clock + AllocGlobal + Print>(rt: &R) -> Result<()> {
    let cells = few_cells(rt.alloc())?;
    small(rt, "cells_of_2000", 2000, 2000, 50, &cells)?;
    small(rt, "cells_of_65000", 300, 65000, 50, &cells)?;
    let whole = whole(rt.alloc())?;
    small(rt, "whole_of_20000_half", 100, 20000, 50, &whole)?;
    small(rt, "whole_of_20000_blended", 100, 20000, 0, &whole)?;
    tiny(rt, "whole_of_65536_tiny", &whole)
}

fn main(rt: HostRuntime) -> Result<()> {
    run(&rt)
}
END
gcc -O3 -msse2 -Wall -Wextra -o "$made/by_hand" "$top/bench/commands.c"
run_program bench_commands "$made/ours.txt"
"$made/by_hand" >"$made/by_hand.txt"
echo "processors: $(nproc), wanted by $(cut -d' ' -f1 /proc/loadavg) processes in the last minute"
printf '%-24s %12s %12s %8s %10s\n' case us 'by hand' ratio commands
awk 'NR == FNR { least[$1] = $2; same[$1] = $3 " " $4; next }
    { printf "%-24s %12.1f %12.1f %8.2f %10d%s\n", $1, $2 / 1000, least[$1] / 1000, $2 / least[$1], $3, same[$1] == $3 " " $4 ? "" : " (by hand others)" }' "$made/by_hand.txt" "$made/ours.txt"
