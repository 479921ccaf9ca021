#!/usr/bin/env bash
# What images and texts cost a pixel, beside loops written by hand in C in the same run: to read an image of 64 MiB,
# and rows of 64 pixels of images and of a text. It wants gcc. The program of our side is made and proved in a
# temporary folder, or in the folder that is given.
set -eu
top="$(cd "$(dirname "$0")/.." && pwd)"
. "$top/bench/crates.sh"
folder_for_run "$@"
copy_crates ev_argb ev_geom ev_state ev_model ev_image ev_fill ev_text
mkdir -p "$made/crates/bench_images/src"
echo 'bench_images: ev_argb ev_model ev_image ev_fill ev_text anyhow' >>"$made/crates.txt"
cat >"$made/crates/bench_images/src/main.rt" <<'END'
//! What images and texts cost.
#![tactic(auto)]

ghost use Rattle.std.specs.Prelude.{◌≡◌, ◌≤◌, length, IfOk};
ghost use Rattle.ev_model.specs.Glyphs.{IsText};
ghost use Rattle.ev_model.specs.Limits.{IsFill};

use anyhow::Result;
use ev_argb::Pixel;
use ev_fill::pixel_row;
use ev_image::decode;
use ev_model::{Border, Fill, Font, ImagePart, LoadedImage};
use ev_text::{decode_font, text_pixels};
use std::alloc::{AllocError, Global};
use std::rt::Clock;
use std::sync::Arc;
use std::time::Instant;

// An image in EVI1 of so many pixels, `side` each way.
fn image_file(alloc: Global, side: u32, count: u32) -> Result<Vec<u8>, AllocError>
    requires { count ≤ 16777216 }
{
    let mut bytes = Vec::with_capacity(alloc, 12 + 4 * count as usize)?;
    bytes.extend_from_slice(b"EVI1")?;
    bytes.extend_from_slice(&side.to_le_bytes())?;
    bytes.extend_from_slice(&side.to_le_bytes())?;
    for i in 0..count {
        let a = (i % 200 + 50) as u8;
        bytes.extend_from_slice(&[a, a / 2, a, a / 3])?;
    }
    Ok(bytes)
}

// A font of 10 rows and 6 columns.
fn font_file(alloc: Global) -> Result<Vec<u8>, AllocError> {
    let mut bytes = Vec::with_capacity(alloc, 3900)?;
    bytes.extend_from_slice(b"EVF1\x0a")?;
    for _ in 0..95u32 {
        bytes.push(6)?;
    }
    for i in 0..950u32 {
        bytes.extend_from_slice(&[(i % 61) as u8, 0, 0, 0])?;
    }
    Ok(bytes)
}

fn reading<R: Clock + AllocGlobal + Print>(rt: &R) -> Result<()> {
    let bytes = image_file(rt.alloc(), 4096, 16777216)?;
    let mut least = u128::MAX;
    let mut total = 0u64;
    for _ in 0..15u32 {
        let start = Instant::now(rt)?;
        let image = decode(rt.alloc(), bytes.as_slice())?;
        least = least.min(start.elapsed(rt)?.as_nanos());
        total = 0;
        for pixel in image.pixels() {
            total = total.wrapping_add(u64::from(pixel.bits()));
        }
    }
    println!(rt; "decode {least} {total}")?;
    Ok(())
}

fn part(alloc: Global, side: u32, count: u32, fill: Fill, border: u32) -> Result<ImagePart>
    requires count { count ≤ 16777216 }
    requires fill { IsFill fill }
    ensures { IfOk result (λ part. IsFill part.fill) }
{
    let bytes = image_file(alloc, side, count)?;
    let image = Arc::new(alloc, decode(alloc, bytes.as_slice())?)?;
    Ok(ImagePart {
        key: None,
        loaded: Some(LoadedImage::new(1, image)),
        fill,
        border: Border {
            l: border,
            r: border,
            t: border,
            b: border,
        },
        center: true,
    })
}

// All rows of an object of `side` each way, 64 pixels at a time.
#[inline(never)]
fn all_rows(part: &ImagePart, side: u32, into: &mut [Pixel])
    requires fill { IsFill part.now.fill }
    requires side { side ≤ 4096 }
    requires room { length into.old ≡ 64 }
    ensures { length into.new ≡ 64 }
{
    for j in 0..side {
        for i in 0..side / 64 {
            if i * 64 + 64 <= side {
                pixel_row(part, side, side, i * 64, j, into);
            }
        }
    }
}

fn rows<R: Clock + Print>(rt: &R, name: &str, part: &ImagePart) -> Result<()>
    requires { IsFill part.now.fill }
{
    let mut row = [Pixel::CLEAR; 64];
    // A side that no compiler sees.
    let side = name.len().min(1) as u32 * 256;
    let mut least = u128::MAX;
    for _ in 0..300u32 {
        let start = Instant::now(rt)?;
        all_rows(part, side, &mut row);
        least = least.min(start.elapsed(rt)?.as_nanos());
    }
    let mut total = 0u64;
    for j in 0..side {
        for i in 0..side / 64 {
            if i * 64 + 64 <= side {
                pixel_row(part, side, side, i * 64, j, &mut row);
                for pixel in &row {
                    total = total.wrapping_add(u64::from(pixel.bits()));
                }
            }
        }
    }
    println!(rt; "{name} {least} {total}")?;
    Ok(())
}

// The rows of a text, its first 128 columns, 64 pixels at a time.
#[inline(never)]
fn text_rows(font: &Font, text: &[u8], into: &mut [Pixel])
    requires text { IsText text.now }
    requires room { length into.old ≡ 64 }
    ensures { length into.new ≡ 64 }
{
    for y in 0..10u32 {
        text_pixels(font, text, 0, y, into);
        text_pixels(font, text, 64, y, into);
    }
}

fn texts<R: Clock + AllocGlobal + Print>(rt: &R) -> Result<()> {
    let bytes = font_file(rt.alloc())?;
    let font = decode_font(rt.alloc(), bytes.as_slice())?;
    let text = b"Great crested grebe  8".as_slice();
    let mut row = [Pixel::CLEAR; 64];
    let mut least = u128::MAX;
    for _ in 0..20000u32 {
        let start = Instant::now(rt)?;
        text_rows(&font, text, &mut row);
        least = least.min(start.elapsed(rt)?.as_nanos());
    }
    let mut total = 0u64;
    for y in 0..10u32 {
        for i in 0..2u32 {
            text_pixels(&font, text, 64 * i, y, &mut row);
            for pixel in &row {
                total = total.wrapping_add(u64::from(pixel.bits()));
            }
        }
    }
    println!(rt; "text {least} {total}")?;
    Ok(())
}

fn run<R: Clock + AllocGlobal + Print>(rt: &R) -> Result<()> {
    let alloc = rt.alloc();
    let whole = Fill::Area {
        x: 0,
        y: 0,
        w: 256,
        h: 256,
    };
    let small = Fill::Area {
        x: 3,
        y: 5,
        w: 16,
        h: 16,
    };
    rows(rt, "one_to_one", &part(alloc, 256, 65536, whole, 0)?)?;
    rows(rt, "tiled", &part(alloc, 16, 256, small, 0)?)?;
    rows(rt, "nine_patch", &part(alloc, 48, 2304, Fill::Filled, 12)?)?;
    rows(rt, "enlarged", &part(alloc, 96, 9216, Fill::Filled, 0)?)?;
    rows(rt, "reduced", &part(alloc, 600, 360000, Fill::Filled, 0)?)?;
    texts(rt)?;
    reading(rt)
}

fn main(rt: HostRuntime) -> Result<()> {
    run(&rt)
}
END
gcc -O3 -msse2 -Wall -Wextra -o "$made/by_hand" "$top/bench/images.c"
run_program bench_images "$made/ours.txt"
"$made/by_hand" >"$made/by_hand.txt"
echo "processors: $(nproc), wanted by $(cut -d' ' -f1 /proc/loadavg) processes in the last minute"
printf '%-12s %14s %14s %8s\n' case 'ns a pixel' 'by hand' ratio
awk 'NR == FNR { least[$1] = $2; total[$1] = $3; pixels[$1] = $4; next }
    total[$1] != $3 { printf "%s: the pixels differ: %s and %s\n", $1, $3, total[$1]; failed = 1 }
    { printf "%-12s %14.2f %14.2f %8.2f\n", $1, $2 / pixels[$1], least[$1] / pixels[$1], $2 / least[$1] }
    END { exit failed }' "$made/by_hand.txt" "$made/ours.txt"
