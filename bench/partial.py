#!/usr/bin/env python3
"""Measures what a frame costs in which one of many rectangles moved, on the proved program.

    bench/partial.py [PROGRAM [OTHER]]

Rectangles of 16 by 16 stand on a canvas of 1280 by 720. Processor time of 300 moves, each with its frame,
less that of the script without them; best of three runs. With another program the ratio of both, in the same run.
"""
import os
import resource
import subprocess
import sys
import tempfile

FRAMES = 300


def scene(count):
    lines = ["size 1280 720"]
    for n in range(count):
        lines += [f"rect r{n}", f"move r{n} {n % 70 * 18} {n // 70 % 40 * 18}", f"resize r{n} 16 16"]
        lines += [f"color r{n} 10 20 30 255", f"show r{n}"]
    return lines + ["render"]


def spent(program, lines):
    best = None
    with tempfile.TemporaryFile() as script:
        script.write(("\n".join(lines) + "\n").encode())
        for _ in range(3):
            script.seek(0)
            before = resource.getrusage(resource.RUSAGE_CHILDREN)
            subprocess.run([program], stdin=script, stdout=subprocess.DEVNULL, check=True)
            after = resource.getrusage(resource.RUSAGE_CHILDREN)
            time = after.ru_utime + after.ru_stime - before.ru_utime - before.ru_stime
            best = time if best is None else min(best, time)
    return best


def frame(program, count):
    lines = scene(count)
    moves = []
    for n in range(FRAMES):
        moves += [f"move r{n % count} {n * 37 % 1200} {n * 53 % 700}", "render"]
    return (spent(program, lines + moves) - spent(program, lines)) / FRAMES * 1e6


def main():
    top = os.path.dirname(os.path.dirname(os.path.abspath(__file__)))
    program = sys.argv[1] if len(sys.argv) > 1 else os.path.join(top, "crates/evas_script/out/evas_script")
    other = sys.argv[2] if len(sys.argv) > 2 else None
    for count in (200, 2_000, 20_000):
        ours = frame(program, count)
        ratio = f"{frame(other, count) / ours:10.1f}" if other else ""
        print(f"one of {count:6} moved{ours:12.1f} us{ratio}")


main()
