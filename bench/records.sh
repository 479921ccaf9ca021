#!/usr/bin/env bash
# What it costs to keep records from start to start: one of many changed, one raised and 1,000 raised, beside the same
# by hand in C over pixman's regions in the same run. It wants gcc and libpixman-1-dev. The program of our side is made
# and proved in a temporary folder, or in the folder that is given.
set -eu
top="$(cd "$(dirname "$0")/.." && pwd)"
. "$top/bench/crates.sh"
folder_for_run "$@"
copy_crates ev_argb ev_geom ev_region ev_state ev_model ev_damage ev_areas ev_records
crate="$made/crates/bench_records"
mkdir -p "$crate/src" "$crate/specs" "$crate/proofs"
sed -i '/^bench_records:/d' "$made/crates.txt"
echo 'bench_records: ev_argb ev_geom ev_region ev_state ev_model ev_damage ev_areas ev_records anyhow' >>"$made/crates.txt"
echo 'pub mod Places' >"$crate/specs/Lib.antt"
cat >"$crate/specs/Places.antt" <<'END'
-- Places of the benchmark.
use Rattle.std.specs.Prelude.{◌≡◌, ℕ, ◌+◌, List, length}
use Rattle.ev_model.specs.Look.{Look}
use Rattle.ev_records.specs.Showing.{Showing, showing, Shows}
use Rattle.ev_records.specs.Standing.{Standings}

-- so many places with numbers, each of the object with the next id
pub record AreByPlace (n : ℕ) (all : List Showing) (st : Standings) : Type 0 where
  pub places : length all ≡ n
  pub ranks : length st.stands ≡ n
  pub ids : (place : ℕ) (l : Look) → Shows (showing all place) l → l.id ≡ place + 1
END
cat >"$crate/src/main.rt" <<'END'
//! What it costs to keep records from start to start.
#![tactic(auto)]

ghost use Rattle.std.specs.Prelude.{◌≡◌, ◌+◌, ◌<◌, ◌≤◌, pos, ◌+ℤ◌, ◌≤ℤ◌, IsTrue, IfOk, OnOk};
ghost use Rattle.ev_records.specs.Showing.{IsOnCanvas};
ghost use Rattle.ev_records.specs.Small.{IsSmall};
ghost use Rattle.bench_records.specs.Places.{AreByPlace};

use anyhow::{Context, Result, anyhow};
use ev_argb::Pixel;
use ev_geom::Rect;
use ev_model::{Content, Name, Object, Op, Record};
use ev_records::{Ranks, Records};
use ev_state::{Shared, Tally};
use std::alloc::Global;
use std::rt::Clock;
use std::time::Instant;

#[derive(Drop)]
struct Board {
    records: Records,
    ranks: Ranks,
}

fn state(alloc: Global) -> Result<Shared<Object>> {
    let object = Object {
        id: 1,
        name: Name::read(b"o").context("a name")?,
        rect: Rect::at_origin(8, 8),
        shown: true,
        color: Pixel::CLEAR,
        op: Op::Blend,
        layer: 0,
        clipper: None,
        parent: None,
        content: Content::Rect,
    };
    let mut tally = Tally::new();
    Ok(Shared::make(alloc, object, &mut tally)?)
}

// Whether a stretch of 8 places lies on the greatest canvas.
fn is_inside(from: i32, len: i32) -> bool
    ensures first { IsTrue result → pos 0 ≤ℤ from }
    ensures last { IsTrue result → (from +ℤ len) ≤ℤ pos 4096 }
{
    if from < 0 || from > 4088 {
        return false;
    }
    len == 8
}

fn is_on_canvas(area: &Rect) -> bool
    ensures { IsTrue result → IsOnCanvas area.now }
{
    if !is_inside(area.x(), area.w()) {
        return false;
    }
    is_inside(area.y(), area.h())
}

// The area of a place: 8 by 8 pixels of a canvas of 1280 by 720, moved to the right.
fn area(place: usize, moved: u64) -> Option<Rect> {
    let place = place as u64 % 0x1_0000_0000;
    let x = place * 7919 % 1272 + moved % 8;
    let y = place * 104729 % 712;
    Rect::new(x as i64, y as i64, 8, 8)
}

fn record(state: &Shared<Object>, place: usize, moved: u64) -> Result<Record>
    requires { place < 100000 }
    ensures { IfOk result (IsSmall (place + 1)) }
{
    let area = area(place, moved).context("an area")?;
    if !is_on_canvas(&area) {
        return Err(anyhow!("an area leaves the canvas"));
    }
    Ok(Record {
        id: place as u64 + 1,
        area,
        color: Pixel::CLEAR,
        object: state.share()?,
    })
}

fn put(records: &mut Records, ranks: &Ranks, n: usize, place: usize, one: Record) -> Result<()>
    requires before { AreByPlace n records.old ranks.now }
    requires there { place < n }
    requires small { IsSmall (place + 1) one }
    ensures { OnOk result (AreByPlace n records.new ranks.now) }
{
    records.put(place, Some(one))?;
    Ok(())
}

fn add(board: &mut Board, n: usize) -> Result<()>
    requires { AreByPlace n board.old.records board.old.ranks }
    ensures { OnOk result (AreByPlace (n + 1) board.new.records board.new.ranks) }
{
    board.records.add()?;
    board.ranks.add(n as u64 % 0x1_0000_0000 * 0x1000_0000)?;
    Ok(())
}

// What the parts of a start took, in ns.
#[derive(Clone, Copy)]
struct Times {
    put: u128,
    damage: u128,
    settle: u128,
}

fn unmeasured() -> Times {
    Times {
        put: u128::MAX,
        damage: u128::MAX,
        settle: u128::MAX,
    }
}

fn settle(board: &mut Board, n: usize)
    requires { AreByPlace n board.old.records board.old.ranks }
    ensures { AreByPlace n board.new.records board.new.ranks }
{
    board.records.settle();
    board.ranks.settle();
}

fn time_damage<R: Clock>(rt: &R, board: &Board, n: usize, least: &mut u128) -> Result<()>
    requires { AreByPlace n board.now.records board.now.ranks }
{
    let start = Instant::now(rt)?;
    let damage = board.records.damage(&board.ranks)?;
    let took = start.elapsed(rt)?.as_nanos();
    *least = (*least).min(took);
    drop(damage);
    Ok(())
}

fn time_settle<R: Clock>(rt: &R, board: &mut Board, n: usize, least: &mut u128) -> Result<()>
    requires { AreByPlace n board.old.records board.old.ranks }
    ensures { OnOk result (AreByPlace n board.new.records board.new.ranks) }
{
    let start = Instant::now(rt)?;
    settle(board, n);
    *least = (*least).min(start.elapsed(rt)?.as_nanos());
    Ok(())
}

fn time_put<R: Clock>(rt: &R, board: &mut Board, n: usize, place: usize, one: Record, least: &mut u128) -> Result<()>
    requires before { AreByPlace n board.old.records board.old.ranks }
    requires there { place < n }
    requires small { IsSmall (place + 1) one }
    ensures { OnOk result (AreByPlace n board.new.records board.new.ranks) }
{
    let start = Instant::now(rt)?;
    put(&mut board.records, &board.ranks, n, place, one)?;
    *least = (*least).min(start.elapsed(rt)?.as_nanos());
    Ok(())
}

// One record changes, and a start is accepted.
fn round<R: Clock>(rt: &R, board: &mut Board, n: usize, place: usize, one: Record, least: &mut Times) -> Result<()>
    requires before { AreByPlace n board.old.records board.old.ranks }
    requires there { place < n }
    requires small { IsSmall (place + 1) one }
    ensures { OnOk result (AreByPlace n board.new.records board.new.ranks) }
{
    time_put(rt, board, n, place, one, &mut least.put)?;
    time_damage(rt, board, n, &mut least.damage)?;
    time_settle(rt, board, n, &mut least.settle)
}

fn rounds<R: Clock>(rt: &R, board: &mut Board, state: &Shared<Object>, n: usize, least: &mut Times) -> Result<()>
    requires before { AreByPlace n board.old.records board.old.ranks }
    requires some { 1 ≤ n }
    requires most { n ≤ 65536 }
    ensures { OnOk result (AreByPlace n board.new.records board.new.ranks) }
{
    for k in 0..1000u64 {
        let place = (k * 37 % n as u64) as usize;
        let one = record(state, place, k)?;
        round(rt, board, n, place, one, least)?;
    }
    Ok(())
}

fn raise(board: &mut Board, n: usize, place: usize, rank: u64) -> Result<()>
    requires before { AreByPlace n board.old.records board.old.ranks }
    requires there { place < n }
    ensures { OnOk result (AreByPlace n board.new.records board.new.ranks) }
{
    board.ranks.place(place, rank)?;
    Ok(())
}

// So many places are raised, one after the other.
fn raise_some(board: &mut Board, n: usize, from: u64, count: u64) -> Result<()>
    requires before { AreByPlace n board.old.records board.old.ranks }
    requires some { 1 ≤ n }
    requires most { n ≤ 65536 }
    requires few { from + count ≤ 1000000 }
    ensures { OnOk result (AreByPlace n board.new.records board.new.ranks) }
{
    for k in 0..count {
        let place = ((from + k) * 37 % n as u64) as usize;
        raise(board, n, place, 0x8000_0000_0000_0000 + from + k)?;
    }
    Ok(())
}

fn raised<R: Clock>(rt: &R, board: &mut Board, n: usize, from: u64, count: u64, least: &mut u128) -> Result<()>
    requires before { AreByPlace n board.old.records board.old.ranks }
    requires some { 1 ≤ n }
    requires most { n ≤ 65536 }
    requires few { from + count ≤ 1000000 }
    ensures { OnOk result (AreByPlace n board.new.records board.new.ranks) }
{
    raise_some(board, n, from, count)?;
    time_damage(rt, board, n, least)?;
    settle(board, n);
    Ok(())
}

fn raised_rounds<R: Clock>(rt: &R, board: &mut Board, n: usize, from: u64, count: u64, least: &mut u128) -> Result<()>
    requires before { AreByPlace n board.old.records board.old.ranks }
    requires some { 1 ≤ n }
    requires most { n ≤ 65536 }
    requires first { from ≤ 100000 }
    requires few { count ≤ 1000 }
    ensures { OnOk result (AreByPlace n board.new.records board.new.ranks) }
{
    for k in 0..30u64 {
        raised(rt, board, n, from + k * count, count, least)?;
    }
    Ok(())
}

fn empty(alloc: Global) -> Board
    ensures { AreByPlace 0 result.records result.ranks }
{
    Board {
        records: Records::new(alloc),
        ranks: Ranks::new(alloc),
    }
}

fn opened(alloc: Global, n: usize) -> Result<Board>
    requires { n ≤ 65536 }
    ensures { IfOk result (λ board. AreByPlace n board.records board.ranks) }
{
    let mut board = empty(alloc);
    for place in 0..n {
        add(&mut board, place)?;
    }
    Ok(board)
}

fn fill(board: &mut Board, state: &Shared<Object>, n: usize) -> Result<()>
    requires before { AreByPlace n board.old.records board.old.ranks }
    requires most { n ≤ 65536 }
    ensures { OnOk result (AreByPlace n board.new.records board.new.ranks) }
{
    for place in 0..n {
        let one = record(state, place, 0)?;
        put(&mut board.records, &board.ranks, n, place, one)?;
    }
    settle(board, n);
    Ok(())
}

fn tell<R: Print>(rt: &R, n: usize, name: &str, ns: u128) -> Result<()> {
    println!(rt; "{}_{} {}", n, name, ns)?;
    Ok(())
}

fn tell_all<R: Print>(rt: &R, n: usize, least: &Times, one: u128, many: u128) -> Result<()> {
    tell(rt, n, "put", least.put)?;
    tell(rt, n, "damage", least.damage)?;
    tell(rt, n, "settle", least.settle)?;
    tell(rt, n, "raised_1", one)?;
    tell(rt, n, "raised_1000", many)
}

fn measure<R: Clock + AllocGlobal + Print>(rt: &R, n: usize) -> Result<()>
    requires some { 1 ≤ n }
    requires most { n ≤ 65536 }
{
    let state = state(rt.alloc())?;
    let mut board = opened(rt.alloc(), n)?;
    fill(&mut board, &state, n)?;
    let mut least = unmeasured();
    rounds(rt, &mut board, &state, n, &mut least)?;
    let mut one = u128::MAX;
    raised_rounds(rt, &mut board, n, 1, 1, &mut one)?;
    let mut many = u128::MAX;
    raised_rounds(rt, &mut board, n, 1000, 1000, &mut many)?;
    tell_all(rt, n, &least, one, many)
}

fn main(rt: HostRuntime) -> Result<()> {
    measure(&rt, 2000)?;
    measure(&rt, 65000)?;
    Ok(())
}
END
echo 'pub mod Placing' >"$crate/proofs/Lib.antt"
cat >"$crate/proofs/Placing.antt" <<'END'
-- Places of the benchmark.
use Rattle.std.proofs.Common.{◌≡◌, ℕ, ◌<◌, ◌+◌, ◌⊎◌, ⊎_elim, inl, inr, List, [], ◌∷◌, ◌++◌, map, length, Option, Some, None, refl, sym, ap, ◌∙◌, arith, subst}
use Rattle.std.proofs.lemmas.Grind.{common_steps}
use Rattle.ev_model.specs.Look.{Look, look_of}
use Rattle.ev_model.specs.declared.scene.Record.{Record}
use Rattle.ev_records.specs.Showing.{Showing, nothing, showing, put, settled, Shows}
use Rattle.ev_records.specs.Standing.{Standings}
use Rattle.ev_records.specs.Cells.{MayStand}
use Rattle.ev_records.specs.Small.{IsSmall}
use Rattle.ev_records.proofs.Changing.{after_put, nothing_at}
use Rattle.ev_records.proofs.Settling.{settled_at}
use Rattle.bench_records.specs.Places.{AreByPlace}

next_same : (i j : ℕ) → i + 1 ≡ j + 1 → i ≡ j
next_same i j e = omega (arith, e)

pub may_put : (n : ℕ) (all : List Showing) (st : Standings) (place : ℕ) (one : Record) → AreByPlace n all st → IsSmall (place + 1) one → MayStand all place (Some one)
may_put n all st place one by small = record {
  apart = λ i m s e. next_same i place (sym (by.ids i m s) ∙ e ∙ small.id);
  inside = small.area;
}

pub by_put : (n : ℕ) (all : List Showing) (st : Standings) (place : ℕ) (one : Record) → AreByPlace n all st → place < n → IsSmall (place + 1) one → AreByPlace n (put all place (Some (look_of one))) st
by_put n all st place one by low small =
    let m : length (put all place (Some (look_of one))) ≡ length all = grind (arith, common_steps) in
    record {
      places = m ∙ by.places;
      ranks = by.ranks;
      ids = λ i l s. ⊎_elim
          (λ h. by.ids i l h)
          (λ h. same i l h.0 h.1)
          (after_put all place i (Some (look_of one)) l (omega (arith, low, by.places)) s);
    }
  where
    same : (i : ℕ) (l : Look) → i ≡ place → Some (look_of one) ≡ Some l → l.id ≡ i + 1
    same i l e s = let q : look_of one ≡ l = cc in ap (λ l. l.id) (sym q) ∙ small.id ∙ ap (λ k. k + 1) (sym e)

pub by_settled : (n : ℕ) (all : List Showing) (st : Standings) → AreByPlace n all st → AreByPlace n (map settled all) (record { stood = st.stands; stands = st.stands })
by_settled n all st by =
    let m : length (map settled all) ≡ length all = grind (arith, common_steps) in
    record {
      places = m ∙ by.places;
      ranks = by.ranks;
      ids = λ i l s. by.ids i l (⊎_elim (λ e. inr (sym (ap (λ s. s.was) (settled_at all i)) ∙ e)) (λ e. inr (sym (ap (λ s. s.now) (settled_at all i)) ∙ e)) s);
    }

pub by_added : (n : ℕ) (all : List Showing) (st : Standings) (number : ℕ) → AreByPlace n all st → AreByPlace (n + 1) (all ++ nothing ∷ []) (record { stood = st.stood ++ number ∷ []; stands = st.stands ++ number ∷ [] })
by_added n all st number by =
    let m : length (all ++ nothing ∷ []) ≡ length all + 1 = grind (arith, common_steps) in
    let k : length (st.stands ++ number ∷ []) ≡ length st.stands + 1 = grind (arith, common_steps) in
    record { places = omega (arith, m, by.places); ranks = omega (arith, k, by.ranks); ids = λ i l s. by.ids i l (nothing_at all i l s) }
END
mkdir -p "$crate/proofs/is_on_canvas" "$crate/proofs/put" "$crate/proofs/settle" "$crate/proofs/add"
cat >"$crate/proofs/is_on_canvas/Answers.antt" <<'END'
use Rattle.std.proofs.Common.{arith}
use Rattle.std.proofs.lemmas.Int.{ints}
use Rattle.bench_records.proofs.is_on_canvas.Goals as goal

pub returns : goal.returns
returns c = λ t.
    let a = c.if-not-is_inside.ensures.first in
    let b = c.if-not-is_inside.ensures.last in
    let d = c.is_inside-2.ensures.first t in
    let e = c.is_inside-2.ensures.last t in
    record {
      left = omega (arith, ints, a, c.x.ensures.x);
      top = omega (arith, ints, d, c.y.ensures.y);
      right = omega (arith, ints, b, c.x.ensures.x, c.w.ensures.w);
      bottom = omega (arith, ints, e, c.y.ensures.y, c.h.ensures.h);
    }
END
cat >"$crate/proofs/put/Answers.antt" <<'END'
use Rattle.std.proofs.Common.{ap}
use Rattle.bench_records.proofs.Placing.{may_put, by_put}
use Rattle.bench_records.proofs.put.Goals as goal

pub put-requires-clause-stands : goal.put-requires-clause-stands
put-requires-clause-stands c = may_put c.args.n c.args.records.now c.args.ranks.now c.args.place c.args.one c.requires.before c.requires.small

pub returns : goal.returns
returns c = rw c.in_ok-put.ensures.ok (by_put c.args.n c.args.records.now c.args.ranks.now c.args.place c.args.one c.requires.before c.requires.there c.requires.small)
END
cat >"$crate/proofs/settle/Answers.antt" <<'END'
use Rattle.bench_records.proofs.Placing.{by_settled}
use Rattle.bench_records.proofs.settle.Goals as goal

pub returns : goal.returns
returns c = rw (c.settle.ensures, c.settle-2.ensures) (by_settled c.args.n c.args.board.now.records c.args.board.now.ranks c.requires)
END
cat >"$crate/proofs/add/Answers.antt" <<'END'
use Rattle.bench_records.proofs.Placing.{by_added}
use Rattle.bench_records.proofs.add.Goals as goal

pub returns : goal.returns
returns c = rw (c.in_ok-add.ensures.ok, c.in_ok-add-2.ensures.ok) (by_added c.args.n c.args.board.now.records c.args.board.now.ranks _ c.requires)
END
invariant() {
    mkdir -p "$crate/proofs/$1"
    cat >"$crate/proofs/$1/Invariants.antt" <<END
use Rattle.bench_records.specs.Places.{AreByPlace}
use Rattle.bench_records.proofs.$1.Given as goal

abbrev pub invariant-loop-$2 : goal.invariant-loop-$2
invariant-loop-$2 ${4-}l = AreByPlace $3 l.board.records l.board.ranks
END
}
invariant rounds k l.n 'g '
invariant raise_some k l.n
invariant raised_rounds k l.n 'g '
invariant opened place l.place
invariant fill place l.n
gcc -O2 -msse4.2 -Wall -Wextra -o "$made/by_hand" "$top/bench/records.c" $(pkg-config --cflags --libs pixman-1)
run_program bench_records "$made/ours.txt"
"$made/by_hand" >"$made/by_hand.txt"
echo "processors: $(nproc), wanted by $(cut -d' ' -f1 /proc/loadavg) processes in the last minute"
printf '%-18s %10s %10s %7s\n' case ns 'by hand' ratio
awk 'NR == FNR { least[$1] = $2; next } { printf "%-18s %10d %10d %7.2f\n", $1, $2, least[$1], $2 / (least[$1] ? least[$1] : 1) }' "$made/by_hand.txt" "$made/ours.txt"
