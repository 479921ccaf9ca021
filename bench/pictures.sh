#!/usr/bin/env bash
# What drawing whole pictures by tiles costs, with the cutting of their commands: 100 mixed objects on 1920 by 1080, and
# a fill with four blends of 4096 by 4096; beside loops written by hand in C with SSE2 that go by tiles too, pixman and
# Evas, in the same run. It wants gcc; pixman and Evas are left out where they aren't installed. The program of our side
# is made and proved in a temporary folder, or in the folder that is given.
set -eu
top="$(cd "$(dirname "$0")/.." && pwd)"
. "$top/bench/crates.sh"
folder_for_run "$@"
copy_crates ev_argb ev_geom ev_region ev_state ev_model ev_slots ev_stack ev_links ev_sights ev_groups ev_scene ev_fill ev_text ev_areas \
    ev_cmds ev_draw
echo 'bench_pictures: ev_argb ev_geom ev_region ev_model ev_scene ev_cmds ev_draw anyhow' >>"$made/crates.txt"
crate="$made/crates/bench_pictures"
mkdir -p "$crate/proofs/drawing/all_near" "$crate/proofs/drawing/push_one" "$crate/src"
cat >"$crate/src/main.rt" <<'END'
//! What drawing whole pictures by tiles costs.
#![tactic(auto)]

mod drawing;
mod images;
mod scenes;

use crate::drawing::measure;
use crate::scenes::{mixed, veiled};
use anyhow::Result;
use std::rt::Clock;

fn run<R: Clock + AllocGlobal + Print>(rt: &R) -> Result<()> {
    let scene = mixed(rt.alloc())?;
    measure(rt, "mixed", &scene, (1920, 1080), 40)?;
    let scene = veiled(rt.alloc())?;
    measure(rt, "veiled", &scene, (4096, 4096), 8)
}

fn main(rt: HostRuntime) -> Result<()> {
    run(&rt)
}
END
cat >"$crate/src/scenes.rt" <<'END'
// The scenes that are drawn.
ghost use Rattle.std.specs.Prelude.{◌≤◌, ◌<◌};
ghost use Rattle.ev_model.specs.Limits.{IsEdit};

use crate::images::{Motif, image};
use anyhow::{Context, Result, anyhow};
use ev_model::{Edit, Image, Kind, Name};
use ev_scene::SceneBox;
use std::alloc::Global;
use std::sync::Arc;

// Numbers that look drawn by lot, the same in each run.
#[derive(Drop)]
struct Lots {
    state: u64,
}

impl Lots {
    // A number from `low` to `high`.
    fn span(&mut self, low: u32, high: u32) -> u32
        requires order { low ≤ high }
        requires small { high ≤ 4096 }
        ensures above { low ≤ result }
        ensures within { result ≤ high }
    {
        self.state = self.state.wrapping_mul(1103515245).wrapping_add(12345) % 2147483648;
        let wide = u64::from(high - low) + 1;
        low + (self.state / 65536 % wide) as u32
    }
}

// The name of number n below 1,000: a letter and three digits.
fn name(n: u32) -> Result<Name> {
    let digits = [n / 100 % 10, n / 10 % 10, n % 10];
    let mut text = [b'o'; 4];
    for k in 0..3usize {
        text[k + 1] = b'0' + (digits[k] % 10) as u8;
    }
    Name::read(&text).context("a name")
}

fn edit(scene: &mut SceneBox, edit: &Edit) -> Result<()>
    requires { IsEdit edit.now }
{
    match scene.edit(edit) {
        Ok(()) => Ok(()),
        Err(_) => Err(anyhow!("an edit is refused")),
    }
}

// Where an object stands.
#[derive(Clone, Copy)]
struct Place {
    x: u32,
    y: u32,
    w: u32,
    h: u32,
}

// A place of sides between two, on 1920 by 1080.
fn somewhere(lots: &mut Lots, low: (u32, u32), high: (u32, u32)) -> Place
    requires across { (low.0 ≤ high.0) × (high.0 < 1920) }
    requires down { (low.1 ≤ high.1) × (high.1 < 1080) }
{
    let w = lots.span(low.0, high.0);
    let h = lots.span(low.1, high.1);
    let x = lots.span(0, 1919 - w);
    let y = lots.span(0, 1079 - h);
    Place { x, y, w, h }
}

// A new object of this number at its place.
fn put(scene: &mut SceneBox, n: u32, kind: Kind, place: Place) -> Result<Name> {
    let name = name(n)?;
    edit(scene, &Edit::Make { name, kind })?;
    let (x, y) = (i64::from(place.x), i64::from(place.y));
    let (w, h) = (i64::from(place.w), i64::from(place.h));
    edit(scene, &Edit::Move { name, x, y })?;
    edit(scene, &Edit::Resize { name, w, h })?;
    edit(scene, &Edit::Show { name, on: true })?;
    Ok(name)
}

fn paint(scene: &mut SceneBox, name: Name, color: [u32; 4]) -> Result<()> {
    let [a, r, g, b] = color;
    let (a, r) = (i64::from(a), i64::from(r));
    let (g, b) = (i64::from(g), i64::from(b));
    edit(scene, &Edit::Color { name, r, g, b, a })
}

fn show(scene: &mut SceneBox, name: &Name, image: &Arc<Image, Global>) -> Result<()> {
    let id = scene.find(name).context("an object")?;
    match scene.kind_of(id) {
        Some(Kind::Image) => Ok(scene.set_image(id, 1, Arc::try_clone(image)?)?),
        _ => Err(anyhow!("an image")),
    }
}

// An image of this number at its place.
fn put_image(scene: &mut SceneBox, n: u32, place: Place, image: &Arc<Image, Global>) -> Result<Name> {
    let name = put(scene, n, Kind::Image, place)?;
    show(scene, &name, image)?;
    Ok(name)
}

// Ten images that repeat.
fn put_tiles(alloc: Global, scene: &mut SceneBox, lots: &mut Lots) -> Result<()> {
    let opaque = image(alloc, Motif::Tile)?;
    let veil = image(alloc, Motif::Veil)?;
    for n in 1..11u32 {
        let place = somewhere(lots, (200, 150), (600, 400));
        let shown = if n % 2 == 0 { &opaque } else { &veil };
        let name = put_image(scene, n, place, shown)?;
        let x = i64::from(lots.span(0, 63));
        let y = i64::from(lots.span(0, 63));
        edit(scene, &Edit::Fill { name, x, y, w: 64, h: 64 })?;
    }
    Ok(())
}

// Sixteen opaque rectangles, and 24 through which one sees.
fn put_rects(scene: &mut SceneBox, lots: &mut Lots) -> Result<()> {
    for n in 11..51u32 {
        let flat = n < 27;
        let place = if flat {
            somewhere(lots, (200, 100), (700, 500))
        } else {
            somewhere(lots, (100, 100), (500, 400))
        };
        let name = put(scene, n, Kind::Rect, place)?;
        let a = if flat { 255 } else { lots.span(60, 220) };
        let color = [a, lots.span(0, a), lots.span(0, a), lots.span(0, a)];
        paint(scene, name, color)?;
    }
    Ok(())
}

// Eight windows with borders, and eight of glass.
fn put_windows(alloc: Global, scene: &mut SceneBox, lots: &mut Lots) -> Result<()> {
    let frame = image(alloc, Motif::Frame)?;
    let glass = image(alloc, Motif::Glass)?;
    for n in 51..67u32 {
        let place = if n < 59 {
            somewhere(lots, (300, 200), (800, 600))
        } else {
            somewhere(lots, (200, 100), (600, 400))
        };
        let shown = if n < 59 { &frame } else { &glass };
        let name = put_image(scene, n, place, shown)?;
        edit(scene, &Edit::Border { name, l: 8, r: 8, t: 8, b: 8 })?;
    }
    Ok(())
}

// Twenty-four icons, a third of them dimmed.
fn put_icons(alloc: Global, scene: &mut SceneBox, lots: &mut Lots) -> Result<()> {
    let icon = image(alloc, Motif::Icon)?;
    for n in 67..91u32 {
        let place = somewhere(lots, (64, 64), (64, 64));
        let name = put_image(scene, n, place, &icon)?;
        if n % 3 == 0 {
            let dim = lots.span(100, 254);
            paint(scene, name, [dim; 4])?;
        }
    }
    Ok(())
}

// A sheet with eight rows of words.
fn put_words(alloc: Global, scene: &mut SceneBox) -> Result<()> {
    let sheet = Place { x: 360, y: 140, w: 1200, h: 700 };
    let name = put(scene, 91, Kind::Rect, sheet)?;
    paint(scene, name, [255, 236, 236, 240])?;
    let words = image(alloc, Motif::Words)?;
    for n in 0..8u32 {
        let row = Place { x: 400, y: 180 + 70 * n, w: 300, h: 16 };
        let name = put_image(scene, 92 + n, row, &words)?;
        paint(scene, name, [255, 30, 40, 20 * n])?;
    }
    Ok(())
}

// A hundred mixed objects on 1920 by 1080.
pub(crate) fn mixed(alloc: Global) -> Result<SceneBox> {
    let mut scene = SceneBox::new(alloc)?;
    edit(&mut scene, &Edit::Size { w: 1920, h: 1080 })?;
    let ground = image(alloc, Motif::Ground)?;
    let all = Place { x: 0, y: 0, w: 1920, h: 1080 };
    put_image(&mut scene, 0, all, &ground)?;
    let mut lots = Lots { state: 1 };
    put_tiles(alloc, &mut scene, &mut lots)?;
    put_rects(&mut scene, &mut lots)?;
    put_windows(alloc, &mut scene, &mut lots)?;
    put_icons(alloc, &mut scene, &mut lots)?;
    put_words(alloc, &mut scene)?;
    Ok(scene)
}

// A fill and four blends on 4096 by 4096.
pub(crate) fn veiled(alloc: Global) -> Result<SceneBox> {
    let mut scene = SceneBox::new(alloc)?;
    edit(&mut scene, &Edit::Size { w: 4096, h: 4096 })?;
    for n in 0..5u32 {
        let all = Place { x: 0, y: 0, w: 4096, h: 4096 };
        let name = put(&mut scene, n, Kind::Rect, all)?;
        let color = if n == 0 { [255, 10, 20, 30] } else { [60 + 15 * n, 10 * n, 50, 10] };
        paint(&mut scene, name, color)?;
    }
    Ok(scene)
}
END
cat >"$crate/src/images.rt" <<'END'
// Images that are computed.
ghost use Rattle.std.specs.Prelude.{◌≤◌, ◌≡◌, ◌*◌, IfOk, length};

use anyhow::Result;
use ev_argb::{Pixel, mul};
use ev_model::Image;
use std::alloc::Global;
use std::sync::Arc;

// Which image an object shows.
#[derive(Clone, Copy)]
pub(crate) enum Motif {
    Ground,
    Tile,
    Veil,
    Icon,
    Frame,
    Glass,
    Words,
}

// Up and down between 0 and 255.
fn wave(at: u32) -> u8 {
    let at = at % 512;
    let up = if at < 256 { at } else { 511 - at };
    up as u8
}

fn icon(x: u32, y: u32) -> Pixel {
    let across = x.wrapping_mul(2).abs_diff(63);
    let down = y.wrapping_mul(2).abs_diff(63);
    let far = across.wrapping_mul(across).wrapping_add(down.wrapping_mul(down));
    let a = if far < 2306 {
        255
    } else if far > 3844 {
        0
    } else {
        (255 * (3844 - far) / 1538) as u8
    };
    Pixel::new(a, mul(a, wave(x.wrapping_mul(9))), mul(a, wave(y.wrapping_mul(9))), a / 2)
}

// How far a place of 32 by 32 lies from the edge.
fn inward(x: u32, y: u32) -> u8
    ensures { result ≤ 16 }
{
    x.min(y).min(31u32.saturating_sub(x)).min(31u32.saturating_sub(y)).min(16) as u8
}

fn frame(x: u32, y: u32) -> Pixel {
    let deep = inward(x, y);
    if deep < 4 {
        Pixel::new(40 + 40 * deep, 0, 0, 0)
    } else {
        Pixel::new(255, 200 + deep, 205 + deep, 210 + deep)
    }
}

fn glass(x: u32, y: u32) -> Pixel {
    if inward(x, y) < 4 {
        Pixel::new(220, 20, 20, 60)
    } else {
        Pixel::new(150, 60 + (x % 32) as u8, 60 + (y % 32) as u8, 110)
    }
}

fn word(x: u32, y: u32) -> Pixel {
    let dotted = x.wrapping_mul(7).wrapping_add(y.wrapping_mul(13)).wrapping_add(x.wrapping_mul(y)) % 5 < 2;
    let inked = 2 <= y && y < 13 && x % 8 != 0 && x % 8 != 7 && x / 8 % 5 != 0;
    if dotted && inked { Pixel::new(255, 255, 255, 255) } else { Pixel::CLEAR }
}

fn pixel(motif: Motif, x: u32, y: u32) -> Pixel {
    match motif {
        Motif::Ground => Pixel::new(
            255,
            wave(x.wrapping_add(y / 3)),
            wave(y.wrapping_mul(2).wrapping_add(x / 5)),
            wave(x.wrapping_mul(y) / 512),
        ),
        Motif::Tile => Pixel::new(
            255,
            wave(x.wrapping_mul(8)),
            wave(y.wrapping_mul(8)),
            wave((x ^ y).wrapping_mul(5)),
        ),
        Motif::Veil => Pixel::new(
            96,
            mul(96, wave(x.wrapping_mul(4))),
            mul(96, wave(y.wrapping_mul(4))),
            40,
        ),
        Motif::Icon => icon(x, y),
        Motif::Frame => frame(x, y),
        Motif::Glass => glass(x, y),
        Motif::Words => word(x, y),
    }
}

fn size(motif: Motif) -> (u32, u32)
    ensures { (1 ≤ result.0) × (result.0 ≤ 4096) × (1 ≤ result.1) × (result.1 ≤ 4096) }
{
    match motif {
        Motif::Ground => (1920, 1080),
        Motif::Tile | Motif::Veil | Motif::Icon => (64, 64),
        Motif::Frame | Motif::Glass => (32, 32),
        Motif::Words => (300, 16),
    }
}

fn pixels(alloc: Global, motif: Motif, w: u32, h: u32) -> Result<Vec<Pixel>>
    requires { (1 ≤ w) × (w ≤ 4096) × (1 ≤ h) × (h ≤ 4096) }
    ensures { IfOk result (λ pixels. length pixels.items ≡ h * w) }
{
    let mut pixels = vec![in alloc; Pixel::CLEAR; h as usize * w as usize]?;
    for at in 0..pixels.len() {
        pixels[at] = pixel(motif, (at % w as usize) as u32, (at / w as usize) as u32);
    }
    Ok(pixels)
}

pub(crate) fn image(alloc: Global, motif: Motif) -> Result<Arc<Image, Global>> {
    let (w, h) = size(motif);
    let pixels = pixels(alloc, motif, w, h)?;
    Ok(Arc::new(alloc, Image::new(w, h, pixels))?)
}
END
cat >"$crate/src/drawing.rt" <<'END'
// A scene, drawn by tiles.
ghost use Rattle.std.specs.Prelude.{◌≡◌, ◌≤◌, ◌<◌, All, IfOk, OnOk, length};
ghost use Rattle.std.specs.Arc.{arc_value};
ghost use Rattle.ev_argb.specs.Grid.{side_of};
ghost use Rattle.ev_geom.specs.Bands.{has_pixel};
ghost use Rattle.ev_geom.specs.Tiles.{tiles_along};
ghost use Rattle.ev_model.specs.Capture.{IsLookOn};
ghost use Rattle.ev_model.specs.Look.{look_of};
ghost use Rattle.ev_region.specs.Count.{LiesWithin};

use anyhow::{Result, anyhow};
use ev_argb::Plane;
use ev_cmds::Commands;
use ev_draw::{TileJob, draw};
use ev_geom::Rect;
use ev_model::Record;
use ev_region::Region;
use ev_scene::{Captured, SceneBox};
use std::alloc::Global;
use std::rt::Clock;
use std::sync::Arc;
use std::time::Instant;

// All of a canvas.
fn all(alloc: Global, w: u32, h: u32) -> Result<Region>
    requires { (w ≤ 4096) × (h ≤ 4096) }
    ensures { IfOk result (λ work. LiesWithin w h (has_pixel work)) }
{
    let mut work = Region::new(alloc);
    work.add_rect(&Rect::at_origin(w, h))?;
    Ok(work)
}

// A record among those that come near.
fn push_one<'a>(one: &'a Record, w: u32, h: u32, near: &mut Vec<&'a Record>) -> Result<()>
    requires look { IsLookOn w h (look_of one.now) }
    requires near { All (λ r. IsLookOn w h (look_of r.now)) near.old.items }
    ensures { OnOk result (All (λ r. IsLookOn w h (look_of r.now)) near.new.items) }
{
    near.push(one)?;
    Ok(())
}

// All records of a canvas.
fn all_near<'a>(alloc: Global, records: &'a [Record], w: u32, h: u32) -> Result<Vec<&'a Record>>
    requires { All (λ r. IsLookOn w h (look_of r)) records.now }
    ensures { IfOk result (λ near. All (λ r. IsLookOn w h (look_of r.now)) near.items) }
{
    let mut near = Vec::new(alloc);
    for place in 0..records.len() {
        push_one(&records[place], w, h, &mut near)?;
    }
    Ok(near)
}

// The commands of a whole picture.
fn commands(alloc: Global, shot: &Captured, w: u32, h: u32) -> Result<Arc<Commands, Global>>
    requires { (w ≤ 4096) × (h ≤ 4096) }
    ensures { IfOk result (λ commands. ((arc_value commands).w ≡ w) × ((arc_value commands).h ≡ h)) }
{
    let work = all(alloc, w, h)?;
    if shot.scene().w != w || shot.scene().h != h {
        return Err(anyhow!("another canvas"));
    }
    let near = all_near(alloc, shot.records(), w, h)?;
    if near.len() > 65536 {
        return Err(anyhow!("too many records"));
    }
    let commands = Commands::build(alloc, &near, &work, w, h)?;
    Ok(Arc::new(alloc, commands)?)
}

// How long the k-th tile along a length is.
fn side(length: u32, k: u32) -> u32
    requires { (length ≤ 4096) × (k < 4096) }
    ensures value { result ≡ side_of length k }
    ensures short { result ≤ 64 }
{
    length.saturating_sub(k * 64).min(64)
}

// How many tiles stand along a length.
fn along(length: u32) -> u32
    requires { length ≤ 4096 }
    ensures { result ≡ tiles_along length }
{
    (length + 63) / 64
}


// A clear plane for each tile that is drawn.
fn planes(alloc: Global, commands: &Commands, w: u32, h: u32) -> Result<Vec<Option<Plane>>>
    requires { (1 ≤ w) × (w ≤ 4096) × (h ≤ 4096) }
{
    let mut planes = Vec::new(alloc);
    for k in 0..commands.tiles() {
        let tile = commands.for_tile(k).tile.min(4095);
        let across = side(w, tile % along(w));
        let down = side(h, tile / along(w));
        if across == 0 || down == 0 {
            return Err(anyhow!("no tile"));
        }
        planes.push(Some(Plane::new(alloc, across, down)?))?;
    }
    Ok(planes)
}

// The k-th tile, drawn on a plane of its size.
fn drawn(commands: &Arc<Commands, Global>, k: usize, plane: Plane, w: u32, h: u32) -> Result<Plane>
    requires size { (1 ≤ w) × (w ≤ 4096) × (h ≤ 4096) }
    requires number { k < length (arc_value commands.now).jobs }
    requires width { (arc_value commands.now).w ≡ w }
    requires height { (arc_value commands.now).h ≡ h }
{
    let tile = commands.for_tile(k).tile;
    let across = side(w, tile % along(w));
    let down = side(h, tile / along(w));
    if plane.width() != across || plane.height() != down || plane.painted() >= 1 << 62 {
        return Err(anyhow!("another plane"));
    }
    let commands = Arc::try_clone(commands)?;
    Ok(draw(TileJob::new(commands, k, plane)).plane())
}

// Draws all tiles.
fn draw_all(commands: &Arc<Commands, Global>, planes: &mut Vec<Option<Plane>>, w: u32, h: u32) -> Result<()>
    requires size { (1 ≤ w) × (w ≤ 4096) × (h ≤ 4096) }
    requires width { (arc_value commands.now).w ≡ w }
    requires height { (arc_value commands.now).h ≡ h }
{
    for k in 0..commands.tiles().min(planes.len()) {
        if let Some(plane) = planes[k].take() {
            planes[k] = Some(drawn(commands, k, plane, w, h)?);
        }
    }
    Ok(())
}

// The sum of all pixels, as words of 64 bits that wrap.
fn sum(planes: &Vec<Option<Plane>>) -> u64 {
    let mut sum = 0u64;
    for plane in planes {
        if let Some(plane) = plane {
            sum = sum.wrapping_add(sum_of(plane));
        }
    }
    sum
}

fn sum_of(plane: &Plane) -> u64 {
    let mut sum = 0u64;
    for y in 0..plane.height() {
        for x in 0..plane.width() {
            sum = sum.wrapping_mul(3).wrapping_add(u64::from(plane.get(x, y).bits()));
        }
    }
    sum
}

// Cuts and draws a scene some times, and tells the least times of both in ns, and the sum of its pixels.
pub(crate) fn measure<R: Clock + AllocGlobal + Print>(
    rt: &R,
    name: &str,
    scene: &SceneBox,
    size: (u32, u32),
    rounds: u32,
) -> Result<()>
    requires { (1 ≤ size.0) × (size.0 ≤ 4096) × (size.1 ≤ 4096) }
{
    let (w, h) = size;
    let shot = scene.capture()?;
    let cut = commands(rt.alloc(), &shot, w, h)?;
    let mut planes = planes(rt.alloc(), &cut, w, h)?;
    let mut built = u128::MAX;
    let mut drew = u128::MAX;
    for _ in 0..rounds {
        let start = Instant::now(rt)?;
        let cut = commands(rt.alloc(), &shot, w, h)?;
        built = built.min(start.elapsed(rt)?.as_nanos());
        let start = Instant::now(rt)?;
        draw_all(&cut, &mut planes, w, h)?;
        drew = drew.min(start.elapsed(rt)?.as_nanos());
    }
    println!(rt; "{name} {} {} {}", built, drew, sum(&planes))?;
    Ok(())
}
END
cat >"$crate/proofs/drawing/all_near/Invariants.antt" <<'END'
use Rattle.std.proofs.Common.{All}
use Rattle.ev_model.specs.Capture.{IsLookOn}
use Rattle.ev_model.specs.Look.{look_of}
use Rattle.bench_pictures.proofs.drawing.all_near.Given as goal

abbrev pub invariant-loop-place : goal.invariant-loop-place
invariant-loop-place l = All (λ r. IsLookOn l.w l.h (look_of r.now)) l.near.items
END
cat >"$crate/proofs/drawing/push_one/Answers.antt" <<'END'
use Rattle.std.proofs.Common.{List, Bor, All, subst, sym}
use Rattle.std.proofs.lemmas.List.Elements.{All-push}
use Rattle.ev_model.specs.Capture.{IsLookOn}
use Rattle.ev_model.specs.Look.{look_of}
use Rattle.ev_model.specs.declared.scene.Record.{Record}
use Rattle.bench_pictures.proofs.drawing.push_one.Goals as goal

pub returns : goal.returns
returns c =
    subst (λ (records : List (Bor Record)). All (λ r. IsLookOn c.args.w c.args.h (look_of r.now)) records) (sym c.in_ok-push.ensures.items)
    (All-push (λ r. IsLookOn c.args.w c.args.h (look_of r.now)) c.args.near.now.items c.args.one c.requires.near c.requires.look)
END
peers=()
for peer in pixman-1:WITH_PIXMAN evas,ecore:WITH_EVAS; do
    names="${peer%%:*}"
    if pkg-config --exists ${names//,/ } 2>/dev/null; then
        peers+=("-D${peer##*:}" $(pkg-config --cflags --libs ${names//,/ }))
    else
        echo "${names%%,*} isn't installed, so it is left out"
    fi
done
gcc -O3 -msse2 -Wall -Wextra -o "$made/by_hand" "$top/bench/pictures.c" "${peers[@]}"
run_program bench_pictures "$made/ours.txt"
"$made/by_hand" >"$made/by_hand.txt" 2>"$made/log"
echo "processors: $(nproc), wanted by $(cut -d' ' -f1 /proc/loadavg) processes in the last minute"
printf '%-8s %-10s %10s %10s  %s\n' scene drawn us ratio pixels
awk 'NR == FNR { cut[$1] = $2; ours[$1] = $2 + $3; sum[$1] = $4; next }
    !($1 in seen) {
        seen[$1]
        printf "%-8s %-10s %10.0f %10s  ", $1, "ours", ours[$1] / 1000, ""
        printf "of them %.0f for the commands\n", cut[$1] / 1000
    }
    {
        pixels = $4 == sum[$1] ? "as ours" : "others"
        printf "%-8s %-10s %10.0f %10.2f  %s\n", $1, $2, $3 / 1000, ours[$1] / $3, pixels
    }' "$made/ours.txt" "$made/by_hand.txt"
