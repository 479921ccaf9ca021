#!/usr/bin/env bash
# What stays in memory of objects that are made and deleted: the most that a run took that made and deleted so many
# while a thousand were there, every tenth with a member. It passes when ten million take no more than a sixteenth
# above ten thousand. The program is made and proved in a temporary folder, or in the folder that is given.
set -eu
top="$(cd "$(dirname "$0")/.." && pwd)"
. "$top/bench/crates.sh"
folder_for_run "$@"
copy_crates ev_argb ev_geom ev_state ev_model ev_slots ev_stack ev_links ev_sights ev_groups ev_scene
crate="$made/crates/bench_memory"
mkdir -p "$crate/src"
echo 'bench_memory: ev_model ev_scene anyhow' >>"$made/crates.txt"
cat >"$crate/src/main.rt" <<'END_OF_PROGRAM'
//! Makes and deletes as many objects as its argument says, while a thousand are there.
#![tactic(auto)]

ghost use Rattle.ev_model.specs.Limits.{IsEdit};

use anyhow::{Context, Result, anyhow};
use ev_model::{Edit, Kind, Name};
use ev_scene::SceneBox;
use std::alloc::Global;
use std::env;

// The name of number n: a letter and three digits.
fn name(n: u64) -> Result<Name> {
    let digits = [n / 100 % 10, n / 10 % 10, n % 10];
    let mut text = [b'r'; 4];
    for k in 0..3usize {
        text[k + 1] = b'0' + (digits[k] % 10) as u8;
    }
    Name::read(&text).context("a name")
}

fn edit(scene: &mut SceneBox, edit: &Edit) -> Result<()>
    requires { IsEdit edit.now }
{
    match scene.edit(edit) {
        Ok(()) => Ok(()),
        Err(_) => Err(anyhow!("an edit is refused")),
    }
}

// Makes a rectangle, or a smart object where its number ends with 0.
fn make(scene: &mut SceneBox, n: u64) -> Result<()> {
    let made = name(n)?;
    let kind = if n % 10 == 0 { Kind::Smart } else { Kind::Rect };
    edit(scene, &Edit::Make { name: made, kind })
}

fn join(scene: &mut SceneBox, n: u64, smart: u64) -> Result<()> {
    let smart = name(smart)?;
    let name = name(n)?;
    edit(scene, &Edit::Member { name, smart })
}

// Ten objects, of which the second stands in the first.
fn make_ten(scene: &mut SceneBox, first: u64) -> Result<()> {
    if first > 1_000_000 {
        return Ok(());
    }
    for n in first..first + 10 {
        make(scene, n)?;
    }
    join(scene, first + 1, first)
}

fn delete(scene: &mut SceneBox, n: u64) -> Result<()> {
    let name = name(n)?;
    edit(scene, &Edit::Delete { name })
}

// Deletes these ten, the smart one with its member.
fn delete_ten(scene: &mut SceneBox, first: u64) -> Result<()> {
    if first > 1_000_000 {
        return Ok(());
    }
    delete(scene, first)?;
    for n in first + 2..first + 10 {
        delete(scene, n)?;
    }
    Ok(())
}

fn run(alloc: Global, count: u64) -> Result<()> {
    let mut scene = SceneBox::new(alloc)?;
    for ten in 0..100u64 {
        make_ten(&mut scene, ten * 10)?;
    }
    for ten in 0..count / 10 {
        delete_ten(&mut scene, ten % 100 * 10)?;
        make_ten(&mut scene, ten % 100 * 10)?;
        if ten % 100 == 0 {
            scene.list_order();
        }
    }
    Ok(())
}

fn main(rt: HostRuntime) -> Result<()> {
    let count = match env::args(&rt)?.nth(1) {
        Some(word) => word.parse::<u64>()?,
        None => 10,
    };
    run(rt.alloc(), count)
}
END_OF_PROGRAM
run_program bench_memory "$made/ours.txt"
python3 - "$crate/out/bench_memory" <<'END_OF_MEASURE'
import os
import sys
import time

program = sys.argv[1]
most = {}
print(f"{'made and deleted':>16} {'KiB':>8} {'seconds':>8}")
for count in (10_000, 1_000_000, 10_000_000):
    begin = time.perf_counter()
    child = os.fork()
    if child == 0:
        os.execv(program, [program, str(count)])
    _, status, usage = os.wait4(child, 0)
    assert status == 0, status
    most[count] = usage.ru_maxrss
    print(f"{count:>16} {usage.ru_maxrss:>8} {time.perf_counter() - begin:>8.1f}")
if most[10_000_000] * 16 > most[10_000] * 17:
    sys.exit("objects that are gone take memory")
END_OF_MEASURE
